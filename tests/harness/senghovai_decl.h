/* The seven functions of the static library, declared with builtin types alone, since the kit's
   compiler comes without the headers of the C library. On x86-64 `unsigned long` has 64 bits and
   is both uint64_t and size_t. The public header of the library says what each of them answers. */
#ifndef SENGHOVAI_DECL_H
#define SENGHOVAI_DECL_H

typedef unsigned char u8;
typedef unsigned long u64;

u64 senghovai_check(const u8 *circuit, u64 circuit_len, u64 answer[3]);
u64 senghovai_run(const u8 *circuit, u64 circuit_len, const u8 *coins, u64 coins_len,
                  u8 *record, u64 record_len, u64 answer[6]);
u64 senghovai_read(const u8 *bytes, u64 len, u64 answer[5]);
u64 senghovai_copy(const u8 *bytes, u64 len, u8 *out, u64 out_len, u64 answer[2]);
u64 senghovai_product(const u8 *first, u64 first_len, const u8 *second, u64 second_len,
                      u8 *out, u64 out_len, u64 answer[2]);
u64 senghovai_same(const u8 *first, u64 first_len, const u8 *second, u64 second_len,
                   u64 answer[3]);
u64 senghovai_probability(const u8 *circuit, u64 circuit_len, const u8 *stated, u64 stated_len,
                          u64 answer[4]);

#endif
