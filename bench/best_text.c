/* The circuit text for baseline 2. Lines that are accepted go through the short scanner of best.h,
   which looks at fixed places of the line and leaves any other line to the careful one here, whose
   only task is then to say for which reason the line is refused. */
#include "best.h"

static u64 careful_number(const u8 **at, const u8 *end)
{
    const u8 *from = *at;
    u64 value = 0;
    while (*at < end && **at - '0' < 10u && *at - from < 4)
        value = 10 * value + (u64)(*(*at)++ - '0');
    long digits = *at - from;
    return digits < 1 || digits > 3 || (digits > 1 && *from == '0') ? ~0ul : value;
}

static int careful_byte(const u8 **at, const u8 *end, u8 byte)
{
    return *at < end && *(*at)++ == byte;
}

u64 best_head(Scan *s, const u8 *text, u64 length)
{
    const u8 *at = text, *end = text + length;
    s->n = 0;
    if (!careful_byte(&at, end, 'Q') || !careful_byte(&at, end, ' '))
        return 1;
    s->n = careful_number(&at, end);
    if (s->n == ~0ul || !careful_byte(&at, end, '\n'))
        return 1;
    s->at = at;
    s->end = end;
    s->fast = end - at > LINE ? end - LINE : at;
    return s->n < 1 || s->n > MOST_QUBITS ? 2 : 0;
}

int best_tail(Scan *s)
{
    u64 left = (u64)(s->end - s->at);
    if (s->fast == s->end || !left)
        return left != 0;
    memset(s->tail, 0, sizeof s->tail);
    memcpy(s->tail, s->at, left);
    s->at = s->tail;
    s->fast = s->end = s->tail + left;
    return 1;
}

u64 best_refusal(const Scan *s, const u8 *at)
{
    const u8 *end = s->end;
    u64 pair = *at == 'C', b = 0;
    u8 kind = pair && at + 1 < end ? *++at : *at;
    if (pair ? kind != 'X' && kind != 'Z'
             : kind != 'H' && kind != 'S' && kind != 'M' && kind - 'X' >= 3u)
        return 3;
    at++;
    if (kind == 'M' && at < end && *at == 'R')
        at++;
    if (!careful_byte(&at, end, ' '))
        return 3;
    u64 a = careful_number(&at, end);
    if (pair && !careful_byte(&at, end, ' '))
        return 3;
    if (pair)
        b = careful_number(&at, end);
    if (a == ~0ul || b == ~0ul || !careful_byte(&at, end, '\n'))
        return 3;
    return a >= s->n || b >= s->n ? 4 : 5;
}

static int single(u8 c)
{
    return (c < 96) & (c >= 64) & (int)(((1u << 'H' % 32 | 1u << 'S' % 32 | 1u << 'M' % 32 |
                                          1u << 'X' % 32 | 1u << 'Y' % 32 | 1u << 'Z' % 32) >> c % 32) & 1);
}

/* The operation lines behind a good line 1. */
ALWAYS void judge(Verdict *v, u64 digits, Scan *s)
{
    const u8 *at = s->at;
    u64 a, b, n = s->n, ops = 0, measured = 0, number = 0;
    for (; !number && more(s, &at); ops++) {
        u8 c = *at;
        if (ops == MOST_OPS)
            number = 6;
        else if (!(c == 'C' ? take_two(&at, digits, n, &a, &b)
                            : single(c) && take_one(&at, digits, n, (c == 'M') & is_reset(at), &a)))
            number = best_refusal(s, at);
        measured += c == 'M';
    }
    *v = (Verdict){ number, number ? ops + 1 : 0, n, ops, measured };
}

Verdict best_verdict(const u8 *text, u64 length)
{
    Scan s;
    Verdict v = { best_head(&s, text, length), 1, 0, 0, 0 };
    if (!v.number && digits_of(s.n) == 2)
        judge(&v, 2, &s);
    else if (!v.number)
        judge(&v, 3, &s);
    return v;
}

u64 best_check(const u8 *circuit, u64 circuit_len, u64 answer[3])
{
    Verdict v = best_verdict(circuit, circuit_len);
    answer[0] = v.place;
    answer[1] = v.number ? 0 : v.n;
    answer[2] = v.number ? 0 : v.ops;
    return v.number;
}
