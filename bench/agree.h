/* Whether the library and the two C programs answer alike. */
#ifndef AGREE_H
#define AGREE_H

#include "plain.h"

typedef u64 Run(const u8 *circuit, u64 circuit_len, const u8 *coins, u64 coins_len,
                u8 *record, u64 record_len, u64 answer[6]);

/* The three run functions: the library's, rows.c's, best.c's. */
extern Run *const runs[3];

typedef u64 Check(const u8 *circuit, u64 circuit_len, u64 answer[3]);
extern Check *const checks[3];

/* 1 when all three give the same number, the same answer and the same bytes in the buffer. */
int agree_run(const u8 *text, u64 length, const u8 *coins, u64 coins_len, u64 record_len, u64 *number);
int agree_check(const u8 *text, u64 length);
int agree_read(const u8 *bytes, u64 length, u64 *number);
int agree_same(const u8 *first, u64 first_len, const u8 *second, u64 second_len);

/* Holds them to each other on that many random inputs, good and damaged; counts the refusals. */
int agree_all(u64 circuits, u64 seen[14]);

#endif
