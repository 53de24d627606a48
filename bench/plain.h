/* The two C programs without proofs that the library is measured beside: rows_* keeps the tableau
   by rows as the 2004 paper's program does, best_* is the fastest plain C that we could write.
   Each function answers exactly as the library's function of the same name. */
#ifndef PLAIN_H
#define PLAIN_H

#include "../tests/harness/senghovai_decl.h"

/* A row is a sign and n letters; a record is its outcomes, 2n rows and the trailer. */
#define ROW(n) ((n) + 1)
#define RECORD(n, outcomes) ((outcomes) + 2 * (n) * ROW(n) + TRAILER)

enum { MOST_QUBITS = 128, MOST_OPS = 4096, TRAILER = 12 };
enum { LONGEST_RECORD = RECORD(MOST_QUBITS, MOST_OPS) };
_Static_assert(ROW(MOST_QUBITS) == 129 && LONGEST_RECORD == 37132, "document 01 with the limit of 128 qubits");

extern void *memcpy(void *to, const void *from, u64 length);
extern void *memset(void *to, int byte, u64 length);
extern int memcmp(const void *a, const void *b, u64 length);

u64 rows_run(const u8 *circuit, u64 circuit_len, const u8 *coins, u64 coins_len,
             u8 *record, u64 record_len, u64 answer[6]);

u64 rows_check(const u8 *circuit, u64 circuit_len, u64 answer[3]);
u64 best_check(const u8 *circuit, u64 circuit_len, u64 answer[3]);
u64 best_run(const u8 *circuit, u64 circuit_len, const u8 *coins, u64 coins_len,
             u8 *record, u64 record_len, u64 answer[6]);
u64 best_read(const u8 *bytes, u64 len, u64 answer[5]);
u64 best_same(const u8 *first, u64 first_len, const u8 *second, u64 second_len, u64 answer[3]);

#endif
