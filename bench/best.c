/* Baseline 2: the fastest plain C that we could write for the run, with no proof. The tableau is
   packed by columns and changed in place: a gate is a few operations on the columns of its qubits,
   for all rows side by side; the gates on one qubit differ only in the masks of a table, so none of
   them branches. A random measurement treats all rows at once with counters modulo 4 that are sliced
   into two words of bits; a fixed one is one pass over the columns, and none at all when the product
   has one factor. Columns in which row p, or the product, has nothing to do are passed over. The text
   is run while it is scanned; what is found too late (no coin, a short buffer) is judged after the
   rest of the text. Up to 64 qubits everything is done with one pair of words, as if there were no
   more: with two pairs, runs on 8 to 64 qubits took 1.02 to 1.06 times as long on an Arm processor and
   1.17 to 1.66 times as long under the emulator. */
#include "best.h"

/* The gates on one qubit: where signs turn by x and z both, by x, by z; where x is added to z; where x
   and z change places. */
typedef struct {
    u64 known;
    Pair both, x, z, add, swap;
} Masks;

#define ALL { ~0ul, ~0ul }
#define NONE { 0, 0 }
static const Masks masks[32] = {
    ['H' % 32] = { 1, ALL, NONE, NONE, NONE, ALL },
    ['S' % 32] = { 1, ALL, NONE, NONE, ALL, NONE },
    ['X' % 32] = { 1, NONE, NONE, ALL, NONE, NONE },
    ['Y' % 32] = { 1, NONE, ALL, ALL, NONE, NONE },
    ['Z' % 32] = { 1, NONE, ALL, NONE, NONE, NONE },
};

ALWAYS Pair *column(Tableau *t, u64 pairs, u64 j) { return t->w + 2 * pairs * j; }

ALWAYS void gate_one(Tableau *t, u64 pairs, const Masks *m, u64 q)
{
    Pair *c = column(t, pairs, q);
    for (u64 k = 0; k < pairs; k++) {
        Pair x = c[k], z = c[pairs + k], turn = (x ^ z) & m->swap;
        t->minus[k] ^= (x & z & m->both) ^ (x & m->x) ^ (z & m->z);
        c[k] = x ^ turn;
        c[pairs + k] = z ^ turn ^ (x & m->add);
    }
}

/* CX and CZ are one rule: CX acts on b's z and x as CZ acts on b's x and z. */
ALWAYS void gate_two(Tableau *t, u64 pairs, u64 is_cx, u64 a, u64 b)
{
    Pair *c = column(t, pairs, a), *d = column(t, pairs, b);
    Pair *from = d + pairs * is_cx, *to = d + pairs * (1 - is_cx);
    for (u64 k = 0; k < pairs; k++) {
        Pair x = c[k], z = c[pairs + k], u = from[k], v = to[k];
        t->minus[k] ^= x & u & (v ^ z ^ (0 - is_cx));
        c[pairs + k] = z ^ u;
        to[k] = v ^ x;
    }
}

/* Bit p, as all bits of both words. */
ALWAYS Pair everywhere(u64 w, u64 p)
{
    static const Pair all[2] = { NONE, ALL };
    return all[w >> p & 1];
}

/* Row p is bit `p` of pair g's stabilizers, and in every column where it has a letter it multiplies the
   rows in `mask`: `high` and `low` count the powers of i. Its partner takes its letters over, and so,
   by the same step, row p itself becomes empty. */
ALWAYS void measure_random(Tableau *t, u64 pairs, u64 g, u64 n, u64 q, u64 coin)
{
    Pair *at = column(t, pairs, q), mask[2], take[2], low[2] = { NONE, NONE }, high[2] = { NONE, NONE };
    u64 p = (u64)__builtin_ctzl(at[g][1]), bit = 1ul << p, minus = t->minus[g][1] >> p & 1;
    for (u64 k = 0; k < pairs; k++)
        mask[k] = take[k] = at[k];
    mask[g] &= ~bit;
    take[g][0] |= bit;
    for (u64 j = 0; j < n; j++) {
        Pair *c = column(t, pairs, j);
        u64 *d = (u64 *)(c + g), of_x = d[1], of_z = d[2 * pairs + 1];
        if (!((of_x | of_z) & bit)) {
            d[0] &= ~bit;
            d[2 * pairs] &= ~bit;
            continue;
        }
        Pair u = everywhere(of_x, p), v = everywhere(of_z, p), partner = { ~bit, ~0ul };
        for (u64 k = 0; k < pairs; k++) {
            Pair x = c[k], z = c[pairs + k], both = x & v, anti = both ^ (z & u);
            Pair new_x = (k == g ? x & partner : x) ^ (u & take[k]), new_z = (k == g ? z & partner : z) ^ (v & take[k]);
            high[k] ^= anti & (low[k] ^ both ^ new_x ^ new_z);
            low[k] ^= anti;
            c[k] = new_x;
            c[pairs + k] = new_z;
        }
    }
    at[pairs + g][1] |= bit;
    for (u64 k = 0; k < pairs; k++)
        t->minus[k] ^= mask[k] & (high[k] ^ (0 - minus));
    t->minus[g] = (t->minus[g] & ~bit) | (Pair){ minus << p, coin << p };
}

NEVER void random_narrow(Tableau *t, u64 n, u64 q, u64 coin) { measure_random(t, 1, 0, n, q, coin); }
NEVER void random_low(Tableau *t, u64 n, u64 q, u64 coin) { measure_random(t, 2, 0, n, q, coin); }
NEVER void random_high(Tableau *t, u64 n, u64 q, u64 coin) { measure_random(t, 2, 1, n, q, coin); }

/* The parity of each bit and all below it. */
static inline u64 parities(u64 w)
{
    w ^= w << 1;
    w ^= w << 2;
    w ^= w << 4;
    w ^= w << 8;
    w ^= w << 16;
    return w ^ w << 32;
}

/* The ordered product of the stabilizers in `rows` is known to be Z on one qubit, so each column
   has an even number of x bits and adds no power of i beyond those of its letters Y and of the
   places where a z stands before an x. The total is even, hence so is the number of letters Y, and
   a Y may count as standing before itself. */
static u64 fixed_one(const Pair *w, u64 pairs, u64 n, u64 rows, u64 minus)
{
    u64 low = 0, high = 0;
    for (u64 j = 0; j < n; j++, w += 2 * pairs) {
        u64 x = w[0][1] & rows;
        if (!x)
            continue;
        u64 z = w[pairs][1] & rows, y = x & z;
        high ^= (low & y) ^ (parities(z) & x);
        low ^= y;
    }
    u64 ones = (u64)__builtin_popcountl(low) / 2;
    return (ones + (u64)__builtin_popcountl(high ^ (minus & rows))) & 1;
}

/* The same where rows from 64 on take part. Their order is free, since they commute: row 64 + i comes
   right behind row i. Then one pass over the sums of both words finds every z before an x, but for
   those of a row 64 + i before the x of row i, which it counts and must not. */
static u64 fixed_two(const Pair *w, u64 n, u64 rows0, u64 rows1, u64 minus0, u64 minus1)
{
    u64 low = 0, high = 0;
    for (u64 j = 0; j < n; j++, w += 4) {
        u64 x0 = w[0][1] & rows0, x1 = w[1][1] & rows1;
        if (!(x0 | x1))
            continue;
        u64 z0 = w[2][1] & rows0, z1 = w[3][1] & rows1, y0 = x0 & z0, y1 = x1 & z1, sum = low ^ y0;
        high ^= (low & y0) ^ (sum & y1) ^ (parities(z0 ^ z1) & (x0 ^ x1)) ^ (z1 & x0);
        low = sum ^ y1;
    }
    u64 ones = (u64)__builtin_popcountl(low) / 2;
    return (ones + (u64)__builtin_popcountl(high ^ (minus0 & rows0) ^ (minus1 & rows1))) & 1;
}

ALWAYS u64 measure_fixed(Tableau *t, u64 pairs, u64 n, u64 q)
{
    const Pair *c = column(t, pairs, q);
    u64 rows = c[0][0], last = pairs == 2 ? c[1][0] : 0;
    if (!last)
        return rows & (rows - 1) ? fixed_one(t->w, pairs, n, rows, t->minus[0][1]) : (t->minus[0][1] & rows) != 0;
    if (!rows && !(last & (last - 1)))
        return (t->minus[1][1] & last) != 0;
    return fixed_two(t->w, n, rows, last, t->minus[0][1], t->minus[1][1]);
}

ALWAYS void start(Tableau *t, u64 pairs, u64 n)
{
    for (u64 j = 0; j < n; j++)
        for (u64 k = 0; k < pairs; k++) {
            u64 own = j / WORD == k ? 1ul << j % WORD : 0;
            column(t, pairs, j)[k] = (Pair){ own, 0 };
            column(t, pairs, j)[pairs + k] = (Pair){ 0, own };
        }
    t->minus[0] = t->minus[1] = (Pair)NONE;
}

typedef struct {
    const u8 *coins;
    u64 left, measured, taken, missing;
    u8 outcomes[MOST_OPS];
} Log;

ALWAYS int measure(Tableau *t, u64 pairs, u64 n, u64 q, Log *log)
{
    const Pair *c = column(t, pairs, q);
    if (!(c[0][1] | (pairs == 2 ? c[1][1] : 0))) {
        log->outcomes[log->measured++] = (u8)('0' + measure_fixed(t, pairs, n, q));
        return 1;
    }
    if (!log->left) {
        log->missing = 1;
        return 0;
    }
    u64 coin = log->coins[log->taken++] & 1;
    log->left--;
    (pairs == 1 ? random_narrow : c[0][1] ? random_low : random_high)(t, n, q, coin);
    log->outcomes[log->measured++] = (u8)('2' + coin);
    return 1;
}

/* X on q where the value is 1, with no jump, which the processor could not guess. */
ALWAYS void turn_if(Tableau *t, u64 pairs, u64 q, u64 value)
{
    for (u64 k = 0; k < pairs; k++)
        t->minus[k] ^= column(t, pairs, q)[pairs + k] & (0 - value);
}

/* Runs as far as text and coins go: the number of operations done, all of them or fewer. */
ALWAYS u64 run_text(Tableau *t, u64 pairs, u64 digits, Scan *s, Log *log)
{
    const u8 *at = s->at;
    u64 a, b, done = 0, n = s->n;
    start(t, pairs, n);
    for (; more(s, &at) && done < MOST_OPS; done++) {
        u8 c = *at, second = at[1];
        const Masks *m = &masks[c % 32];
        if (c == 'C') {
            if (!take_two(&at, digits, n, &a, &b))
                break;
            gate_two(t, pairs, second == 'X', a, b);
        } else if (c == 'M') {
            u64 reset = is_reset(at);
            if (!take_one(&at, digits, n, reset, &a) || !measure(t, pairs, n, a, log))
                break;
            turn_if(t, pairs, a, reset & log->outcomes[log->measured - 1]);
        } else {
            if ((c >> 5 != 2) | !m->known || !take_one(&at, digits, n, 0, &a))
                break;
            gate_one(t, pairs, m, a);
        }
    }
    s->at = at;
    return done;
}

NEVER u64 run_narrow(Tableau *t, Scan *s, Log *log) { return run_text(t, 1, 2, s, log); }
NEVER u64 run_middle(Tableau *t, Scan *s, Log *log) { return run_text(t, 2, 2, s, log); }
NEVER u64 run_wide(Tableau *t, Scan *s, Log *log) { return run_text(t, 2, 3, s, log); }

static u64 refuse(u64 number, u64 place, u64 coins_len, u64 answer[6])
{
    memset(answer, 0, 6 * sizeof *answer);
    answer[0] = place;
    answer[2] = coins_len;
    return number;
}

u64 best_run(const u8 *circuit, u64 circuit_len, const u8 *coins, u64 coins_len,
             u8 *record, u64 record_len, u64 answer[6])
{
    Scan s;
    Tableau t;
    Log log;
    u64 number = best_head(&s, circuit, circuit_len), done = 0, whole = 0;
    log.coins = coins;
    log.left = coins_len;
    log.measured = log.taken = log.missing = 0;
    if (!number) {
        done = (pairs_of(s.n) == 1 ? run_narrow : digits_of(s.n) == 2 ? run_middle : run_wide)(&t, &s, &log);
        whole = s.at == s.end && !log.missing;
    }
    u64 length = RECORD(s.n, log.measured);
    if (!whole || record_len < length) {
        Verdict v = best_verdict(circuit, circuit_len);
        if (v.number)
            return refuse(v.number, v.place, coins_len, answer);
        int is_short = record_len < RECORD(v.n, v.measured);
        return refuse(is_short ? 8 : 7, is_short ? 0 : done + 2, coins_len, answer);
    }
    best_write(&t, s.n, log.outcomes, log.measured, record);
    answer[0] = 0;
    answer[1] = length;
    answer[2] = log.left;
    answer[3] = log.measured;
    answer[4] = answer[5] = log.taken;
    return 0;
}
