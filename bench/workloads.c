/* The generator of circuit texts and records, with its own random numbers (splitmix64), so that
   every run on every machine measures the same bytes. */
#include "workloads.h"

static u64 state;

void seed(u64 value) { state = value; }

u64 draw(u64 below)
{
    u64 z = state += 0x9E3779B97F4A7C15ul;
    z = (z ^ z >> 30) * 0xBF58476D1CE4E5B9ul;
    z = (z ^ z >> 27) * 0x94D049BB133111EBul;
    return ((z ^ z >> 31) >> 11) % below;
}

void draw_bytes(u8 *to, u64 count)
{
    for (u64 i = 0; i < count; i++)
        to[i] = (u8)draw(256);
}

static u8 *put_number(u8 *to, u64 number)
{
    if (number > 99)
        *to++ = (u8)('0' + number / 100);
    if (number > 9)
        *to++ = (u8)('0' + number / 10 % 10);
    *to++ = (u8)('0' + number % 10);
    return to;
}

static u8 *put_line(u8 *to, const char *kind, u64 a, u64 b)
{
    int pair = kind[0] == 'C';
    while (*kind)
        *to++ = (u8)*kind++;
    *to++ = ' ';
    to = put_number(to, a);
    if (pair) {
        *to++ = ' ';
        to = put_number(to, b);
    }
    *to++ = '\n';
    return to;
}

static u8 *put_gate(u8 *to, u64 n)
{
    static const char *const kinds[] = { "H", "S", "X", "Y", "Z", "CX", "CZ" };
    u64 a = draw(n), b = n > 1 ? (a + 1 + draw(n - 1)) % n : 0;
    return put_line(to, kinds[draw(n > 1 ? 7 : 5)], a, b);
}

u64 make_mixed(u8 *to, u64 n, u64 ops, u64 share)
{
    u8 *at = put_line(to, "Q", n, 0);
    for (u64 i = 0; i < ops; i++)
        at = share && draw(share) == 0 ? put_line(at, "M", draw(n), 0) : put_gate(at, n);
    return (u64)(at - to);
}

u64 make_alternate(u8 *to, u64 n, u64 ops)
{
    u8 *at = put_line(to, "Q", n, 0);
    for (u64 i = 0; i < ops; i++)
        at = i % 2 ? put_line(at, "M", draw(n), 0) : put_gate(at, n);
    return (u64)(at - to);
}

u64 make_hadamards(u8 *to, u64 n, u64 ops)
{
    u8 *at = put_line(to, "Q", n, 0);
    for (u64 i = 0; i < ops; i++)
        at = put_line(at, "H", i % n, 0);
    return (u64)(at - to);
}

enum { MOST_DISTANCE = 7, MOST_CHECKS = MOST_DISTANCE * MOST_DISTANCE - 1 };

typedef struct {
    int row, column, is_x;
} Check;

typedef struct {
    int distance, data, count;
    Check checks[MOST_CHECKS];
} Patch;

/* Inside, every corner between four data qubits; on the rim, every second one, the X kind above
   and below and the Z kind at the sides. */
static void place_checks(Patch *p, int distance)
{
    p->distance = distance;
    p->data = distance * distance;
    p->count = 0;
    for (int r = 0; r <= distance; r++)
        for (int c = 0; c <= distance; c++) {
            int rim_row = r == 0 || r == distance, rim_column = c == 0 || c == distance;
            int is_x = (r + c) % 2 == 0;
            if ((rim_row && rim_column) || (rim_row && !is_x) || (rim_column && is_x))
                continue;
            p->checks[p->count++] = (Check){ r, c, is_x };
        }
}

/* The neighbour of a check at one step, -1 when it lies outside. The two kinds go round in
   different orders, so that two checks which share data qubits do not disturb each other. */
static int neighbour(const Patch *p, Check k, int step)
{
    int down = k.is_x ? step / 2 : step % 2, right = k.is_x ? step % 2 : step / 2;
    int r = k.row - 1 + down, c = k.column - 1 + right;
    return r < 0 || c < 0 || r >= p->distance || c >= p->distance ? -1 : r * p->distance + c;
}

static u8 *put_each(u8 *at, const Patch *p, const char *kind, int only_x)
{
    for (int k = 0; k < p->count; k++)
        if (p->checks[k].is_x || !only_x)
            at = put_line(at, kind, (u64)(p->data + k), 0);
    return at;
}

static u8 *put_round(u8 *at, const Patch *p, const char *measure)
{
    at = put_each(at, p, "H", 1);
    for (int step = 0; step < 4; step++)
        for (int k = 0; k < p->count; k++) {
            int d = neighbour(p, p->checks[k], step), ancilla = p->data + k, is_x = p->checks[k].is_x;
            if (d >= 0)
                at = put_line(at, "CX", (u64)(is_x ? ancilla : d), (u64)(is_x ? d : ancilla));
        }
    at = put_each(at, p, "H", 1);
    return put_each(at, p, measure, 0);
}

static u64 lines(const u8 *from, const u8 *to)
{
    u64 count = 0;
    while (from < to)
        count += *from++ == '\n';
    return count;
}

u64 make_surface(u8 *to, int distance, const char *measure)
{
    Patch p;
    place_checks(&p, distance);
    u8 *first = put_line(to, "Q", (u64)(p.data + p.count), 0), *at = put_round(first, &p, measure);
    for (u64 rounds = MOST_OPS / lines(first, at) - 1; rounds; rounds--)
        at = put_round(at, &p, measure);
    return (u64)(at - to);
}

u64 make_longest(u8 *record, u64 n, u64 circuit_seed, u64 outcome_seed)
{
    static u8 text[MOST_TEXT];
    u64 answer[6], longest = RECORD(n, MOST_OPS);
    seed(circuit_seed);
    u64 length = make_mixed(text, n, MOST_OPS, 0);
    best_run(text, length, text, 0, record + MOST_OPS, longest - MOST_OPS, answer);
    seed(outcome_seed);
    for (u64 i = 0; i < MOST_OPS; i++)
        record[i] = (u8)('0' + draw(4));
    for (int k = 0; k < 4; k++)
        record[longest - 8 + (u64)k] = (u8)(longest >> 8 * k);
    return longest;
}
