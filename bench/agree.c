/* Holds the library and the two C programs to each other: number, every place of the answer, and
   every byte of the lent buffer, also behind the record and after a refusal. */
#include "agree.h"
#include "workloads.h"

Run *const runs[3] = { senghovai_run, rows_run, best_run };
Check *const checks[3] = { senghovai_check, rows_check, best_check };

enum { ROOM = LONGEST_RECORD + 64, FILL = 0xAA };

int agree_run(const u8 *text, u64 length, const u8 *coins, u64 coins_len, u64 record_len, u64 *number)
{
    static u8 room[3][ROOM];
    u64 answer[3][6], numbers[3];
    for (int k = 0; k < 3; k++) {
        memset(room[k], FILL, ROOM);
        memset(answer[k], FILL, sizeof answer[k]);
        numbers[k] = runs[k](text, length, coins, coins_len, room[k], record_len, answer[k]);
    }
    *number = numbers[0];
    for (int k = 1; k < 3; k++)
        if (numbers[k] != numbers[0] || memcmp(answer[k], answer[0], sizeof *answer) ||
            memcmp(room[k], room[0], ROOM))
            return 0;
    return 1;
}

int agree_check(const u8 *text, u64 length)
{
    u64 a[3], b[3];
    int good = 1;
    memset(a, FILL, sizeof a);
    u64 number = checks[0](text, length, a);
    for (int k = 1; k < 3; k++) {
        memset(b, FILL, sizeof b);
        good &= checks[k](text, length, b) == number && !memcmp(a, b, sizeof a);
    }
    return good;
}

int agree_read(const u8 *bytes, u64 length, u64 *number)
{
    u64 a[5], b[5];
    memset(a, FILL, sizeof a);
    memset(b, FILL, sizeof b);
    *number = senghovai_read(bytes, length, a);
    return *number == best_read(bytes, length, b) && !memcmp(a, b, sizeof a);
}

int agree_same(const u8 *first, u64 first_len, const u8 *second, u64 second_len)
{
    u64 a[3], b[3];
    memset(a, FILL, sizeof a);
    memset(b, FILL, sizeof b);
    return senghovai_same(first, first_len, second, second_len, a) ==
               best_same(first, first_len, second, second_len, b) &&
           !memcmp(a, b, sizeof a);
}

static u64 damage_text(u8 *text, u64 length)
{
    static const char bytes[] = "HSXYZCQMR0123456789 \n-h";
    u64 at = draw(draw(4) ? length : 5), kind = draw(4);
    if (kind == 0)
        return at;
    if (kind == 1) {
        for (u64 i = at; i + 1 < length; i++)
            text[i] = text[i + 1];
        return length - 1;
    }
    if (kind == 2) {
        for (u64 i = length; i > at; i--)
            text[i] = text[i - 1];
        length++;
    }
    text[at] = (u8)bytes[draw(sizeof bytes - 1)];
    return length;
}

/* A line that is refused for another reason than a changed byte, at the back of the text. */
static u64 add_line(u8 *text, u64 length)
{
    static const char *const lines[] = { "CX 0 0\n", "CZ 0 0\n", "CX 128 128\n", "H 99\n", "M 100\n", "S 128\n",
                                         "CX 0 1000\n", "CX 1000 0\n", "CZ 0 127\n", "CX 127 126\n", "CX 127 126",
                                         "H 0", "C", "\n", "S 00\n", "S 012\n", "X 1 7\n", "X 12:\n", "Q 1\n",
                                         "MR 64\n", "MR 128\n", "MR\n", "MR 0", "M", "MR", "MRR 0\n", "R 0\n",
                                         "HR 0\n" };
    for (const char *from = lines[draw(sizeof lines / sizeof *lines)]; *from; from++)
        text[length++] = (u8)*from;
    return length;
}

/* Every other measurement, as drawn, becomes MR. */
static u64 add_resets(u8 *text, u64 length)
{
    static u8 from[MOST_TEXT];
    u64 to = 0;
    memcpy(from, text, length);
    for (u64 i = 0; i < length; i++) {
        text[to++] = from[i];
        if (from[i] == 'M' && draw(2))
            text[to++] = 'R';
    }
    return to;
}

static u64 draw_qubits(void)
{
    static const u64 often[] = { 1, 2, 63, 64, 65, 97, 127, 128 };
    return draw(2) ? 1 + draw(MOST_QUBITS) : often[draw(sizeof often / sizeof *often)];
}

static u64 make_text(u8 *text)
{
    u64 n = draw_qubits(), ops = draw(40) ? draw(300) : MOST_OPS - 1 + draw(3);
    if (draw(100) == 0)
        n = draw(2) ? 0 : MOST_QUBITS + 1 + draw(35);
    if (n < 1 || n > MOST_QUBITS)
        return make_hadamards(text, n, 0);
    u64 length = draw(3) ? make_mixed(text, n, ops, draw(8)) : make_alternate(text, n, ops);
    if (draw(2))
        length = add_resets(text, length);
    u64 harm = draw(8);
    return harm < 2 ? damage_text(text, length) : harm == 2 ? add_line(text, length) : length;
}

static u64 damage_record(u8 *record, u64 length)
{
    static const char bytes[] = "IXYZ+-0123SR";
    u64 kind = draw(5), at = draw(length);
    if (kind == 0)
        return at;
    if (kind == 1)
        at = length - 1 - draw(length < TRAILER ? length : TRAILER);
    if (kind == 2 && length > TRAILER)
        record[draw(length - TRAILER)] = (u8)bytes[draw(6)];
    else
        record[at] = kind == 3 ? (u8)bytes[draw(sizeof bytes - 1)] : (u8)(record[at] ^ 1 << draw(8));
    return length;
}

/* Reads and compares what a run wrote, whole, behind other bytes, and damaged. */
static int agree_records(u8 *record, u64 length, u64 seen[14])
{
    static u8 other[ROOM + 64];
    u64 number, front = draw(64);
    draw_bytes(other, front);
    memcpy(other + front, record, length);
    int good = agree_same(record, length, other, front + length);
    u64 total = front + length;
    if (draw(2))
        total = damage_record(other, total);
    good &= agree_read(other, total, &number);
    seen[number < 14 ? number : 0]++;
    return good && agree_same(record, length, other, total) && agree_same(other, total, record, length);
}

/* Bytes that say they are a record of n qubits, right to the trailer, with rows of I. */
static u64 make_shell(u8 *to, u64 n)
{
    u64 length = RECORD(n, 0), rows = length - TRAILER;
    memset(to, 'I', rows);
    for (u64 i = 0; i < 2 * n; i++)
        to[i * ROW(n)] = '+';
    memset(to + rows, 0, TRAILER);
    for (u64 k = 0; k < 4; k++)
        to[rows + k] = to[rows + 4 + k] = (u8)(length >> 8 * k);
    to[rows + 8] = (u8)n;
    to[rows + 10] = 0x53;
    to[rows + 11] = 0x52;
    return length;
}

/* At either end of what is allowed: circuits of n qubits are accepted or 2, records of n qubits that are
   not paired 11 or 9, rows of n letters accepted or 13. */
static int agree_limits(void)
{
    static const u64 sizes[] = { 0, 1, MOST_QUBITS, MOST_QUBITS + 1 };
    static u8 bytes[RECORD(MOST_QUBITS + 1, 0)], out[ROW(MOST_QUBITS + 1)];
    u64 number, answer[2];
    int good = 1;
    for (u64 k = 0; k < 4; k++) {
        u64 n = sizes[k], outside = n - 1 >= MOST_QUBITS, length = make_hadamards(bytes, n, outside ? 0 : n);
        good &= agree_run(bytes, length, bytes, 0, ROOM, &number) && agree_check(bytes, length);
        good &= number == (outside ? 2 : 0);
        good &= agree_read(bytes, make_shell(bytes, n), &number) && number == (outside ? 9 : 11);
        number = senghovai_product(bytes, ROW(n), bytes, ROW(n), out, sizeof out, answer);
        good &= number == (outside ? 13 : 0) && answer[1] == (outside ? 0 : ROW(n));
    }
    return good;
}

int agree_all(u64 circuits, u64 seen[14])
{
    static u8 text[MOST_TEXT + 64], coins[MOST_OPS], record[ROOM];
    u64 answer[6], number;
    memset(seen, 0, 14 * sizeof *seen);
    seed(1);
    if (!agree_limits())
        return 0;
    for (u64 i = 0; i < circuits; i++) {
        u64 length = make_text(text), coins_len = draw(4) ? MOST_OPS : draw(60);
        u64 record_len = draw(6) ? ROOM : draw(LONGEST_RECORD);
        draw_bytes(coins, coins_len);
        if (!agree_run(text, length, coins, coins_len, record_len, &number) || !agree_check(text, length))
            return 0;
        seen[number < 14 ? number : 0]++;
        if (number == 0 && best_run(text, length, coins, coins_len, record, ROOM, answer) == 0 &&
            !agree_records(record, answer[1], seen))
            return 0;
    }
    return 1;
}
