/* The circuit text of document 01 for baseline 1, read one character at a time: a line is taken
   apart whole (refusal 3), then its qubits are looked at (4, then 5). */
#include "rows.h"

typedef struct {
    const u8 *at, *end;
} Reader;

static int take(Reader *r, u8 wanted)
{
    if (r->at == r->end || *r->at != wanted)
        return 0;
    r->at++;
    return 1;
}

/* One to three digits with no leading zero; -1 when there is no such number. */
static int take_number(Reader *r)
{
    int number = 0, digits = 0;
    const u8 *first = r->at;
    while (r->at != r->end && *r->at >= '0' && *r->at <= '9') {
        if (++digits > 3)
            return -1;
        number = 10 * number + (*r->at++ - '0');
    }
    if (digits == 0 || (digits > 1 && *first == '0'))
        return -1;
    return number;
}

static char take_kind(Reader *r)
{
    static const char singles[] = "HSXYZ";
    if (take(r, 'C'))
        return take(r, 'X') ? 'c' : take(r, 'Z') ? 'z' : 0;
    if (take(r, 'M'))
        return take(r, 'R') ? 'R' : 'M';
    for (int k = 0; singles[k]; k++)
        if (take(r, (u8)singles[k]))
            return singles[k];
    return 0;
}

static u64 take_line(Reader *r, int n, Op *op)
{
    char kind = take_kind(r);
    int two = kind == 'c' || kind == 'z';
    if (!kind || !take(r, ' '))
        return 3;
    int a = take_number(r), b = -1;
    if (a < 0)
        return 3;
    if (two && (!take(r, ' ') || (b = take_number(r)) < 0))
        return 3;
    if (!take(r, '\n'))
        return 3;
    if (a >= n || b >= n)
        return 4;
    if (a == b)
        return 5;
    *op = (Op){ kind, (u8)a, (u8)(two ? b : 0) };
    return 0;
}

u64 rows_parse(Circuit *c, const u8 *text, u64 length, u64 *place)
{
    Reader r = { text, text + length };
    c->count = c->measured = 0;
    *place = 1;
    if (!take(&r, 'Q') || !take(&r, ' ') || (c->n = take_number(&r)) < 0 || !take(&r, '\n')) {
        c->n = 0;
        return 1;
    }
    if (c->n < 1 || c->n > MOST_QUBITS)
        return 2;
    while (r.at != r.end) {
        *place = (u64)c->count + 2;
        if (c->count == MOST_OPS)
            return 6;
        u64 number = take_line(&r, c->n, &c->ops[c->count]);
        if (number)
            return number;
        c->measured += measures(c->ops[c->count++].kind);
    }
    *place = 0;
    return 0;
}

u64 rows_check(const u8 *circuit, u64 circuit_len, u64 answer[3])
{
    static Circuit c;
    u64 number = rows_parse(&c, circuit, circuit_len, &answer[0]);
    answer[1] = number ? 0 : (u64)c.n;
    answer[2] = number ? 0 : (u64)c.count;
    return number;
}
