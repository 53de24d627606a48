/* What the parts of baseline 2 share: the scanner of one operation line and the tableau by columns.
   All rows of a qubit stand side by side: its x bits, then its z bits, in one pair of words while
   there are at most 64 qubits and in two pairs above that. Bit i of a pair's first word is
   destabilizer i and bit i of its second word is stabilizer i; the second pair has the rows from 64
   on. A pair is one register of every x86-64 processor. Functions that take `pairs` or `digits` are
   made once for each of their two values, which the callers write as constants. */
#ifndef BEST_H
#define BEST_H

#include "plain.h"

typedef u64 Pair __attribute__((vector_size(16)));

enum { WORD = 64, MOST_PAIRS = MOST_QUBITS / WORD };

typedef struct {
    Pair w[2 * MOST_PAIRS * MOST_QUBITS];
    Pair minus[MOST_PAIRS];
} Tableau;

/* How many pairs hold a column's x bits; its z bits stand behind them. */
static inline u64 pairs_of(u64 n) { return n <= WORD ? 1 : 2; }

/* How many digits a qubit's number may have. */
static inline u64 digits_of(u64 n) { return n <= 100 ? 2 : 3; }

#define ALWAYS static inline __attribute__((always_inline))
/* The functions so made stay apart, each with its own registers. */
#define NEVER static __attribute__((noinline))

/* No accepted line is longer than this, so that many bytes can be looked at without a bound. */
enum { LINE = 11 };

/* The lines behind line 1. The last few bytes are moved to `tail`, where zeros follow them. */
typedef struct {
    const u8 *at, *fast, *end;
    u64 n;
    u8 tail[2 * LINE];
} Scan;

/* Line 1: answers the refusal's number, or 0 and a scan that stands at line 2. */
u64 best_head(Scan *s, const u8 *text, u64 length);

/* Whether anything is left at s->at; afterwards LINE bytes at s->at can be read. */
int best_tail(Scan *s);

/* The same of a place of the scan that its user keeps apart, so that it can stay in a register. */
ALWAYS int more(Scan *s, const u8 **at)
{
    if (*at < s->fast)
        return 1;
    s->at = *at;
    int left = best_tail(s);
    *at = s->at;
    return left;
}

/* The number 3, 4 or 5 of the line at `at`, which take_one or take_two did not take. */
u64 best_refusal(const Scan *s, const u8 *at);

/* The whole text: number, place, n, operations and measurements. */
typedef struct {
    u64 number, place, n, ops, measured;
} Verdict;
Verdict best_verdict(const u8 *text, u64 length);

void best_write(const Tableau *t, u64 n, const u8 *outcomes, u64 measured, u8 *to);

/* What is wrong with a line, without jumps: a bit of `other` where a byte is another than it has to be,
   the top bit of `under` where a number lies outside its bounds. */
typedef struct {
    u64 other, under;
} Bad;
ALWAYS int wrong(Bad b) { return (long)((0 - b.other) | b.under) < 0; }

/* The number at p of one or two digits; it is wrong unless it is below n, without leading zero, and
   ends in `stop`. *more is how many digits follow the first. */
ALWAYS u64 take_short(const u8 *p, u64 n, u8 stop, u64 *more, Bad *bad)
{
    u64 d = (u64)p[0] - '0', e = (u64)p[1] - '0', two = e < 10, value = two ? 10 * d + e : d;
    *more = two;
    bad->other |= (u64)p[1 + two] ^ stop;
    bad->under |= (d - two) | (9 - d) | (n - 1 - value);
    return value;
}

/* The same with up to three digits, of which the first of three is 1, since n is at most 128. Bit 4
   tells a digit from a stop. The bytes, less '0', move up until the stop is the last of four: then each
   digit has its place, a wrong byte shows in a bit that no digit has, and a product adds them up. */
ALWAYS u64 take_long(const u8 *p, u64 n, u8 stop, u64 *more, Bad *bad)
{
    unsigned word;
    memcpy(&word, p, sizeof word);
    unsigned end = (unsigned)__builtin_ctz((~word | 0x10000000u) & 0x10101000u);
    unsigned digits = (word ^ 0x30303030u) << (28 ^ end) ^ (unsigned)(stop ^ 0x30) << 24;
    u64 value = (u64)digits * 0x640A01 >> 16 & 255;
    *more = end / 8 - 1;
    bad->other |= (digits | (digits + 0x060600u)) & 0xFFF0F0FEu;
    bad->under |= ((u64)p[0] - '0' - (end >> 4)) | (n - 1 - value);
    return value;
}

ALWAYS u64 take_number(const u8 *p, u64 digits, u64 n, u8 stop, u64 *more, Bad *bad)
{
    return digits == 2 ? take_short(p, n, stop, more, bad) : take_long(p, n, stop, more, bad);
}

/* Whether the line, of which the first letter M has been seen, is MR. */
ALWAYS u64 is_reset(const u8 *at) { return at[1] == 'R'; }

/* Takes `H a` or its like, or `MR a`, whose name is 1 longer: 0 when the line has to be refused, else
   a is set, and the place is behind the line. */
ALWAYS int take_one(const u8 **at, u64 digits, u64 n, u64 longer, u64 *a)
{
    const u8 *behind = *at + 1 + longer;
    u64 more;
    Bad bad = { *behind ^ ' ', 0 };
    *a = take_number(behind + 1, digits, n, '\n', &more, &bad);
    if (wrong(bad))
        return 0;
    *at = behind + 3 + more;
    return 1;
}

/* Takes `CX a b` or `CZ a b`, of which the first letter has been seen. X and Z differ in one bit. */
ALWAYS int take_two(const u8 **at, u64 digits, u64 n, u64 *a, u64 *b)
{
    const u8 *from = *at;
    u64 more, more2;
    Bad bad = { (u64)(from[2] ^ ' ') | (u64)((from[1] | ('X' ^ 'Z')) ^ 'Z'), 0 };
    *a = take_number(from + 3, digits, n, ' ', &more, &bad);
    const u8 *second = from + 5 + more;
    *b = take_number(second, digits, n, '\n', &more2, &bad);
    bad.under |= (*a ^ *b) - 1;
    if (wrong(bad))
        return 0;
    *at = second + 2 + more2;
    return 1;
}

#endif
