/* Records for baseline 2: read back and checked, compared. The letters of a row are taken apart
   sixteen at a time in one register. The rows are checked for proper pairing with all rows at once:
   which rows anticommute with row i is the sum of the columns that its letters choose, and the sums
   of every four columns are made beforehand, so that a row needs two of them for every four qubits. A
   stabilizer is held to the stabilizers alone when these have a pair of words for themselves. */
#include "best.h"

enum { LETTERS = 16, GROUP = 4, GROUPS = MOST_QUBITS / GROUP, SUMS = 1 << GROUP };

typedef struct {
    u64 n, outcomes, length;
    const u8 *start;
} Shape;

static int find_record(const u8 *bytes, u64 len, Shape *s)
{
    if (len < TRAILER)
        return 0;
    const u8 *t = bytes + len - TRAILER;
    u64 rows = 0;
    s->length = 0;
    for (int k = 3; k >= 0; k--) {
        rows = rows << 8 | t[k];
        s->length = s->length << 8 | t[4 + k];
    }
    s->n = t[8] | (u64)t[9] << 8;
    s->outcomes = s->length - rows;
    s->start = s->length <= len ? bytes + len - s->length : bytes;
    return t[10] == 0x53 && t[11] == 0x52 && s->n - 1 < MOST_QUBITS && rows == RECORD(s->n, 0) &&
           s->length >= rows && s->outcomes <= MOST_OPS && s->length <= len;
}

static int outcomes_bad(const u8 *from, u64 count)
{
    u8 bad = 0;
    for (u64 i = 0; i < count; i++)
        bad |= (from[i] ^ 0x30) & 0xFC;
    return bad;
}

typedef u8 Bytes __attribute__((vector_size(16)));
typedef signed char Signed __attribute__((vector_size(16)));
typedef _Bool Bits __attribute__((ext_vector_type(16)));

/* The top bit of each byte. */
ALWAYS unsigned short tops(Pair c)
{
    union {
        Bits each;
        unsigned short all;
    } bits = { __builtin_convertvector((Signed)c < 0, Bits) };
    return bits.all;
}

/* A row's x bits and z bits. Rows stand in order with `pairs` times 64 places for either kind. */
typedef struct {
    u64 w[2][MOST_PAIRS];
} Row;

/* What the rows are read from: of the last bytes of a row only those in `within` are its own. */
typedef struct {
    const u8 *at, *end;
    Bytes within, bad;
} Reader;

/* The last bytes of a row, and what follows them: behind the last row it may be fewer than sixteen. */
ALWAYS Bytes take_last(const Reader *r, const u8 *from)
{
    Bytes c = { 0 };
    if (r->end - from >= LETTERS)
        memcpy(&c, from, sizeof c);
    else
        memcpy(&c, from, (u64)(r->end - from));
    return (c & r->within) | ('I' & ~r->within);
}

/* Takes up to sixteen letters apart; `bad` is set where a byte is no letter. */
ALWAYS void take_letters(Bytes c, Bytes *bad, u64 j, Row *row)
{
    Pair any = (Pair)c << 3, second = (Pair)c << 6, first = (Pair)c << 7;
    unsigned short x = tops(any & ~second), z = tops(any & (second | first));
    *bad |= (Bytes)(c - 'X' > 2) & (Bytes)(c != 'I');
    memcpy((u8 *)row->w[0] + j / 8, &x, sizeof x);
    memcpy((u8 *)row->w[1] + j / 8, &z, sizeof z);
}

ALWAYS void take_row(Reader *r, u64 pairs, u64 n, Row *row)
{
    u64 j = 0;
    for (u64 k = 0; k < pairs; k++)
        row->w[0][k] = row->w[1][k] = 0;
    r->bad |= (Bytes){ (r->at[0] != '+') & (r->at[0] != '-') };
    for (; j + LETTERS <= n; j += LETTERS) {
        Bytes c;
        memcpy(&c, r->at + 1 + j, sizeof c);
        take_letters(c, &r->bad, j, row);
    }
    if (j < n)
        take_letters(take_last(r, r->at + 1 + j), &r->bad, j, row);
    r->at += ROW(n);
}

/* The first byte of a refused record that is not listed. */
static u64 first_bad(const Shape *s)
{
    u64 i = 0;
    while (i < s->outcomes && (s->start[i] & 0xFC) == 0x30)
        i++;
    for (u64 k = 0; i == s->outcomes + k; k++) {
        u8 c = s->start[i];
        i += k % (s->n + 1) ? c == 'I' || c - 'X' < 3u : c == '+' || c == '-';
    }
    return i;
}

/* Exchanges rows and columns of two squares of 64 times 64 bits. */
static void transpose(Pair m[WORD])
{
    u64 mask = 0x00000000FFFFFFFFul;
    for (u64 step = WORD / 2; step; step >>= 1, mask ^= mask << step)
        for (u64 k = 0; k < WORD; k = ((k | step) + 1) & ~step) {
            Pair swap = ((m[k] >> step) ^ m[k | step]) & mask;
            m[k] ^= swap << step;
            m[k | step] ^= swap;
        }
}

/* The sums of the columns of each group, all rows of a sum side by side. */
typedef Pair Sums[GROUPS * SUMS * MOST_PAIRS];

/* Of the columns 64h on, x or z as `of` says, for the rows of pair e, which are those from 128e on. */
NEVER void make_sums(Sums sums, u64 pairs, u64 n, u64 e, u64 h, const Row *rows, u64 of)
{
    Pair m[WORD];
    rows += 2 * WORD * e;
    for (u64 i = 0; i < WORD; i++)
        m[i] = (Pair){ rows[i].w[of][h], rows[WORD + i].w[of][h] };
    transpose(m);
    for (u64 j = 0; j < WORD && WORD * h + j < (n + 7) / 8 * 8; j += GROUP) {
        Pair *to = sums + (WORD * h + j) / GROUP * SUMS * pairs + e;
        to[0] = (Pair){ 0, 0 };
        for (u64 one = 0; one < GROUP; one++)
            for (u64 low = 0; low < 1u << one; low++)
                to[(1u << one | low) * pairs] = to[low * pairs] ^ m[j + one];
    }
}

/* Whether a row is paired properly with all rows from pair `from` on. */
ALWAYS int paired(const Pair *by_x, const Pair *by_z, u64 pairs, u64 n, const Row *row, u64 partner, u64 from)
{
    Pair found[MOST_PAIRS] = { { 0, 0 }, { 0, 0 } };
    const u8 *x = (const u8 *)row->w[0], *z = (const u8 *)row->w[1];
    for (u64 j = 0; j < n; j += 2 * GROUP, x++, z++)
        for (u64 k = 0; k < 2 * GROUP; k += GROUP, by_x += SUMS * pairs, by_z += SUMS * pairs)
            for (u64 e = from; e < pairs; e++)
                found[e] ^= by_x[(*x >> k) % SUMS * pairs + e] ^ by_z[(*z >> k) % SUMS * pairs + e];
    if (partner / (2 * WORD) >= from)
        found[partner / (2 * WORD)][partner / WORD % 2] ^= 1ul << partner % WORD;
    found[0] |= found[1];
    return !(found[0][0] | found[0][1]);
}

/* The lowest row that is not paired properly with some other, or ~0. */
ALWAYS u64 wrong_row(u64 pairs, u64 n, const Row *rows)
{
    Sums by_x, by_z;
    for (u64 e = 0; e < pairs; e++)
        for (u64 h = 0; h < pairs; h++) {
            make_sums(by_x, pairs, n, e, h, rows, 1);
            make_sums(by_z, pairs, n, e, h, rows, 0);
        }
    for (u64 i = 0; i < n; i++)
        if (!paired(by_x, by_z, pairs, n, &rows[i], WORD * pairs + i, 0))
            return i;
    for (u64 i = 0; i < n; i++)
        if (!paired(by_x, by_z, pairs, n, &rows[WORD * pairs + i], i, pairs - 1))
            return n + i;
    return ~0ul;
}

NEVER u64 wrong_narrow(u64 n, const Row *rows) { return wrong_row(1, n, rows); }
NEVER u64 wrong_wide(u64 n, const Row *rows) { return wrong_row(2, n, rows); }

/* All rows; answers whether a byte of theirs is wrong. */
ALWAYS int take_rows(u64 pairs, const Shape *s, Row *rows)
{
    Reader r = { s->start + s->outcomes, s->start + s->length, { 0 }, { 0 } };
    for (u64 j = 0; j < s->n % LETTERS; j++)
        r.within[j] = 255;
    for (u64 side = 0; side < 2; side++, rows += pairs * WORD) {
        for (u64 i = 0; i < s->n; i++)
            take_row(&r, pairs, s->n, &rows[i]);
        for (u64 i = s->n; i < pairs * WORD; i++)
            for (u64 k = 0; k < pairs; k++)
                rows[i].w[0][k] = rows[i].w[1][k] = 0;
    }
    Pair bad = (Pair)r.bad;
    return (bad[0] | bad[1]) != 0;
}

NEVER int take_narrow(const Shape *s, Row *rows) { return take_rows(1, s, rows); }
NEVER int take_wide(const Shape *s, Row *rows) { return take_rows(2, s, rows); }

static u64 read_record(const u8 *bytes, u64 len, Shape *s, u64 *place)
{
    Row rows[2 * MOST_QUBITS];
    *place = 0;
    if (!find_record(bytes, len, s))
        return 9;
    u64 narrow = pairs_of(s->n) == 1;
    if ((narrow ? take_narrow : take_wide)(s, rows) | outcomes_bad(s->start, s->outcomes)) {
        *place = first_bad(s);
        return 10;
    }
    u64 row = (narrow ? wrong_narrow : wrong_wide)(s->n, rows);
    *place = row == ~0ul ? 0 : row;
    return row == ~0ul ? 0 : 11;
}

u64 best_read(const u8 *bytes, u64 len, u64 answer[5])
{
    Shape s;
    memset(answer, 0, 5 * sizeof *answer);
    u64 number = read_record(bytes, len, &s, &answer[0]);
    if (number)
        return number;
    answer[1] = s.length;
    answer[2] = s.n;
    answer[3] = (u64)(s.start - bytes);
    answer[4] = s.outcomes;
    return 0;
}

u64 best_same(const u8 *first, u64 first_len, const u8 *second, u64 second_len, u64 answer[3])
{
    Shape s, t;
    u64 number = read_record(first, first_len, &s, &answer[1]);
    answer[0] = number ? 1 : 0;
    answer[2] = 0;
    if (number)
        return number;
    number = read_record(second, second_len, &t, &answer[1]);
    answer[0] = number ? 2 : 0;
    if (number || s.n != t.n)
        return number;
    u64 rows = s.n * ROW(s.n);
    answer[2] = !memcmp(first + first_len - TRAILER - rows, second + second_len - TRAILER - rows, rows);
    return 0;
}
