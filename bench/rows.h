/* The parsed circuit that rows_text.c hands to rows.c. A kind is the operation's own letter, with
   `c` for CX, `z` for CZ and `R` for MR. */
#ifndef ROWS_H
#define ROWS_H

#include "plain.h"

typedef struct {
    char kind;
    u8 a, b;
} Op;

typedef struct {
    int n, count, measured;
    Op ops[MOST_OPS];
} Circuit;

static inline int measures(char kind) { return kind == 'M' || kind == 'R'; }

/* Answers the refusal's number, 0 when the text is accepted; the place is 0 then. */
u64 rows_parse(Circuit *c, const u8 *text, u64 length, u64 *place);

#endif
