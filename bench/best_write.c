/* Writing the record for baseline 2. The bytes of eight columns, each the bits of eight rows, are
   turned over in squares of eight times eight, so that a byte of each column stands side by side;
   sixteen letters of a row are then one bit of sixteen bytes, and are made in one register. */
#include "best.h"

enum { SQUARE = 8, SIDES = 2 };

typedef u8 Rows[SIDES][MOST_QUBITS / SQUARE][MOST_QUBITS];

/* Exchanges rows and columns of two squares of bytes. */
ALWAYS void turn_over(Pair m[SQUARE])
{
    static const u64 masks[] = { 0, 0x00FF00FF00FF00FFul, 0x0000FFFF0000FFFFul, 0, 0x00000000FFFFFFFFul };
    for (u64 step = SQUARE / 2; step; step /= 2)
        for (u64 k = 0; k < SQUARE; k = ((k | step) + 1) & ~step) {
            Pair swap = ((m[k] >> 8 * step) ^ m[k | step]) & masks[step];
            m[k] ^= swap << 8 * step;
            m[k | step] ^= swap;
        }
}

/* Byte j of to[side][i] has the bits of the rows 8i to 8i + 7 at qubit j. */
ALWAYS void bytes_of_rows(const Pair *from, u64 pairs, u64 n, Rows to)
{
    for (u64 k = 0; k < pairs; k++)
        for (u64 j = 0; j < n; j += SQUARE) {
            Pair m[SQUARE];
            for (u64 q = 0; q < SQUARE; q++)
                m[q] = j + q < n ? from[2 * pairs * (j + q) + k] : (Pair){ 0, 0 };
            turn_over(m);
            for (u64 i = 0; i < SQUARE; i++)
                for (u64 side = 0; side < SIDES; side++) {
                    u64 eight = m[i][side];
                    memcpy(to[side][k * WORD / 8 + i] + j, &eight, sizeof eight);
                }
        }
}

typedef u8 Bytes __attribute__((vector_size(16)));

/* The letters of those rows whose bit is `bit` in every byte. */
ALWAYS Bytes letters(const u8 *from_x, const u8 *from_z, Bytes bit)
{
    Bytes x, z;
    memcpy(&x, from_x, sizeof x);
    memcpy(&z, from_z, sizeof z);
    x = (Bytes)((x & bit) == bit);
    z = (Bytes)((z & bit) == bit);
    return ((x | z) & ('X' - 'H')) + (x - z) + 'I';
}

/* The last letters of a row may spill over, at most seven bytes, into what is written next. */
ALWAYS u8 *write_row(u64 n, const u8 *x, const u8 *z, u64 bit, u64 minus, u8 *to)
{
    Bytes bits = (Bytes){ 0 } + (u8)bit;
    u64 j = 0;
    to[0] = "+-"[minus];
    for (; j + SQUARE < n; j += 2 * SQUARE) {
        Bytes both = letters(x + j, z + j, bits);
        memcpy(to + 1 + j, &both, sizeof both);
    }
    if (j < n) {
        Pair last = (Pair)letters(x + j, z + j, bits);
        u64 eight = last[0];
        memcpy(to + 1 + j, &eight, sizeof eight);
    }
    return to + ROW(n);
}

ALWAYS u8 *write_rows(const Tableau *t, u64 pairs, u64 n, u8 *to)
{
    Rows x, z;
    bytes_of_rows(t->w, pairs, n, x);
    bytes_of_rows(t->w + pairs, pairs, n, z);
    for (u64 side = 0; side < SIDES; side++)
        for (u64 i = 0; i < n; i++) {
            u64 minus = t->minus[i / WORD][side] >> i % WORD & 1;
            to = write_row(n, x[side][i / 8], z[side][i / 8], 1ul << i % 8, minus, to);
        }
    return to;
}

NEVER u8 *write_narrow(const Tableau *t, u64 n, u8 *to) { return write_rows(t, 1, n, to); }
NEVER u8 *write_wide(const Tableau *t, u64 n, u8 *to) { return write_rows(t, 2, n, to); }

void best_write(const Tableau *t, u64 n, const u8 *outcomes, u64 measured, u8 *to)
{
    u64 rows = RECORD(n, 0);
    u8 trailer[TRAILER] = { 0 };
    memcpy(to, outcomes, measured);
    to = (pairs_of(n) == 1 ? write_narrow : write_wide)(t, n, to + measured);
    for (int k = 0; k < 4; k++) {
        trailer[k] = (u8)(rows >> 8 * k);
        trailer[4 + k] = (u8)((rows + measured) >> 8 * k);
    }
    trailer[8] = (u8)n;
    trailer[10] = 0x53;
    trailer[11] = 0x52;
    memcpy(to, trailer, TRAILER);
}
