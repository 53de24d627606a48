/* The run of a Clifford circuit, for C and C++: link libsenghovai.a. Every function takes any bytes of any lengths, returns the refusal's number, 0
   when accepted, and writes every place of `answer`; the comment above each prototype names the places in order. Where a number is answered, a
   refusal gives zero, and only its place is told. Nothing is allocated, and nothing is kept between calls. Each function is proved over the
   library's own; what is left to the caller is what C asks anyway: a pointer is not null and reaches as many bytes as its length says, and what is
   lent for writing overlaps nothing else that is lent.

   A circuit text is line 1, `Q n`, and a line for each operation, each line closed by byte 10: H, S, X, Y, Z, M or MR and a qubit, or CX or CZ and
   two, all parted by single spaces. Qubits count from 0, and the first of CX is its control. `M a` measures a. `MR a` measures as `M a` does and then
   applies X on a when the outcome was 1; line, operation, outcome and coin count as those of M.

   The refusals, each given exactly when its line holds and no earlier one of the function's order does (lines count from 1, bytes from 0):

      1  line 1 is absent or not `Q n` with its end byte                  place: line 1
      2  n is not 1 to 128                                                place: line 1
      3  an operation line is malformed or lacks its end byte             place: the line
      4  a qubit is n or more                                             place: the line
      5  CX or CZ names one qubit twice                                   place: the line
      6  bytes remain after 4,096 operations                              place: line 4098
      7  a random measurement finds no coin                               place: the line
      8  the lent buffer is shorter than the answer                       place: 0
      9  no record: fewer than 12 bytes, wrong mark, n or distances       place: 0
     10  an outcome, sign or letter byte that is not listed               place: first such byte, from the record's start (product: through the
                                                                          first row, then the second; probability: in the readout)
     11  the rows are not properly paired                                 place: lower row of the first wrong pair
     12  the two rows of a product anticommute                            place: 0
     13  the two rows differ in length, or have not 2 to 129 bytes        place: 0
     14  a readout is possible, with more than 1,022 random measurements  place: 0
     15  a readout has not one character for each measurement             place: 0

   After a refusal every byte of each lent buffer is as before. After success only the answer's bytes at the front are new; all behind them are as
   before. The longest record has SENGHOVAI_LONGEST_RECORD bytes, the longest row SENGHOVAI_LONGEST_ROW: with that much room 8 is never given. */
#ifndef SENGHOVAI_H
#define SENGHOVAI_H

#include <stddef.h>
#include <stdint.h>

#define SENGHOVAI_LONGEST_RECORD 37132
#define SENGHOVAI_LONGEST_ROW 129

#ifdef __cplusplus
extern "C" {
#endif

/* Checks a circuit text. Accepted: n and the number of operations.
   Refusals in order: line 1 with 1, 2; the operation lines in order, in a line 3, 4, 5; then 6. No bytes change but those of `answer`.
   answer: place, n, operations */
uint64_t senghovai_check(const uint8_t *circuit, size_t circuit_len, uint64_t answer[3]);

/* Runs a circuit with lent coins, one for each random measurement, of which only the lowest bit counts, and writes the record at the buffer's front.
   Accepted: the record's length; how many coins are left, which are the last ones lent; how many measurements there were, how many of them random,
   and how many coins were taken (as many as random ones).
   Refusals in order: as senghovai_check, then 8, then 7. A refused run leaves coins left at all of them (coins_len), and every byte of the
   buffer as it was; record's length, measured, random and taken are 0.
   answer: place, record's length, coins left, measured, random, taken */
uint64_t senghovai_run(const uint8_t *circuit, size_t circuit_len, const uint8_t *coins, size_t coins_len,
                       uint8_t *record, size_t record_len, uint64_t answer[6]);

/* Reads the last record of the lent bytes; an archive is records end to end. Accepted: its length and n; its outcomes are the bytes from
   bytes[answer[3]] on, answer[4] of them ('0', '1' fixed; '2', '3' random with value 0, 1), and its 2n rows of n + 1 characters follow them at once.
   Refusals in order: 9, 10, 11. No bytes change but those of `answer`.
   answer: place, record's length, n, where its outcomes start in bytes, how many */
uint64_t senghovai_read(const uint8_t *bytes, size_t len, uint64_t answer[5]);

/* Copies the last record of the lent bytes out: reads it, then writes it from what was read. Accepted: how many bytes were written at the front of
   `out`. Refusals in order: 9, 10, 11, then 8. When refused, every byte of `out` is as before.
   answer: place, length */
uint64_t senghovai_copy(const uint8_t *bytes, size_t len, uint8_t *out, size_t out_len, uint64_t answer[2]);

/* Multiplies two rows, each `+` or `-` and 1 to 128 letters I, X, Y, Z, and writes the product in the same form. Accepted: how many bytes were
   written at the front of `out`. Refusals in order: 13, 10, 12, 8. When refused, every byte of `out` is as before.
   answer: place, length */
uint64_t senghovai_product(const uint8_t *first, size_t first_len, const uint8_t *second, size_t second_len,
                           uint8_t *out, size_t out_len, uint64_t answer[2]);

/* Says whether the last records of two lots of bytes describe the same state: n is equal, and each stabilizer row is equal, sign and letters, to the
   one at its place. Accepted: 1 when the same, 0 when not. Both are read first; refusals in order: 9, 10, 11 of the first, then 9, 10, 11 of
   the second. No bytes change but those of `answer`.
   answer: which was refused (0 none, 1 the first, 2 the second), place, 1 when the same */
uint64_t senghovai_same(const uint8_t *first, size_t first_len, const uint8_t *second, size_t second_len, uint64_t answer[3]);

/* Says how likely a readout of the circuit is, which states `0` or `1` for each of its measurements, in order. No coins are taken: the stated values
   serve as coins. Accepted: possible, with the number k of random measurements and the probability, a double that is exactly one half to the power
   k; or impossible, with the line of the first fixed measurement that disagrees. The double is given as its 64 bits, and
       double p; memcpy(&p, &answer[3], sizeof p);
   takes them as a double; where it is impossible they are 0, which is the double 0.
   Refusals in order: as senghovai_check, then 15, then 10, then, where it is possible, 14. No bytes change but those of `answer`.
   answer: place, 1 when possible and 0 when not, k when possible and the line when not, the bits of the double */
uint64_t senghovai_probability(const uint8_t *circuit, size_t circuit_len, const uint8_t *stated, size_t stated_len,
                               uint64_t answer[4]);

#ifdef __cplusplus
}
#endif

#endif
