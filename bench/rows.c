/* Baseline 1: the tableau of Aaronson and Gottesman packed by rows, as their program of 2004 keeps
   it. Each of the 2n rows holds its letters in words of 32 bits and a phase 0 to 3 (a power of i);
   one more row is scratch space. A gate walks all rows, a row product sums the powers of i letter
   by letter, and both kinds of measurement are those of the paper. Around it stand the coins and
   the record of document 01, written one character at a time; rows_text.c reads the circuit. */
#include "rows.h"

typedef unsigned int u32;

enum { WORDS = MOST_QUBITS / 32, ROWS = 2 * MOST_QUBITS + 1 };

typedef struct {
    int n, words;
    u32 x[ROWS][WORDS], z[ROWS][WORDS];
    int r[ROWS];
} State;

static u32 bit(int a) { return (u32)1 << (a & 31); }

static void start(State *q, int n)
{
    memset(q, 0, sizeof *q);
    q->n = n;
    q->words = (n + 31) / 32;
    for (int i = 0; i < n; i++) {
        q->x[i][i >> 5] = bit(i);
        q->z[n + i][i >> 5] = bit(i);
    }
}

static void cnot(State *q, int b, int c)
{
    int b5 = b >> 5, c5 = c >> 5;
    u32 pb = bit(b), pc = bit(c);
    for (int i = 0; i < 2 * q->n; i++) {
        int xb = (q->x[i][b5] & pb) != 0, zc = (q->z[i][c5] & pc) != 0;
        int xc = (q->x[i][c5] & pc) != 0, zb = (q->z[i][b5] & pb) != 0;
        if (xb && zc && xc == zb)
            q->r[i] = (q->r[i] + 2) % 4;
        if (xb)
            q->x[i][c5] ^= pc;
        if (zc)
            q->z[i][b5] ^= pb;
    }
}

static void hadamard(State *q, int b)
{
    int b5 = b >> 5;
    u32 pw = bit(b);
    for (int i = 0; i < 2 * q->n; i++) {
        u32 x = q->x[i][b5], z = q->z[i][b5];
        q->x[i][b5] ^= (x ^ z) & pw;
        q->z[i][b5] ^= (x ^ z) & pw;
        if (x & z & pw)
            q->r[i] = (q->r[i] + 2) % 4;
    }
}

static void phase(State *q, int b)
{
    int b5 = b >> 5;
    u32 pw = bit(b);
    for (int i = 0; i < 2 * q->n; i++) {
        if (q->x[i][b5] & q->z[i][b5] & pw)
            q->r[i] = (q->r[i] + 2) % 4;
        q->z[i][b5] ^= q->x[i][b5] & pw;
    }
}

static void controlled_z(State *q, int a, int b)
{
    int a5 = a >> 5, b5 = b >> 5;
    u32 pa = bit(a), pb = bit(b);
    for (int i = 0; i < 2 * q->n; i++) {
        int xa = (q->x[i][a5] & pa) != 0, za = (q->z[i][a5] & pa) != 0;
        int xb = (q->x[i][b5] & pb) != 0, zb = (q->z[i][b5] & pb) != 0;
        if (xa && xb && za != zb)
            q->r[i] = (q->r[i] + 2) % 4;
        if (xb)
            q->z[i][a5] ^= pa;
        if (xa)
            q->z[i][b5] ^= pb;
    }
}

static void pauli(State *q, char kind, int a)
{
    int a5 = a >> 5;
    u32 pw = bit(a);
    for (int i = 0; i < 2 * q->n; i++) {
        u32 flips = (kind != 'X' ? q->x[i][a5] : 0) ^ (kind != 'Z' ? q->z[i][a5] : 0);
        if (flips & pw)
            q->r[i] = (q->r[i] + 2) % 4;
    }
}

/* The power of i in letter k times letter i at one place, as -1, 0 or 1. */
static int power(int xk, int zk, int xi, int zi)
{
    if (xk && !zk)
        return xi && zi ? 1 : !xi && zi ? -1 : 0;
    if (xk && zk)
        return !xi && zi ? 1 : xi && !zi ? -1 : 0;
    if (!xk && zk)
        return xi && !zi ? 1 : xi && zi ? -1 : 0;
    return 0;
}

/* Multiplies row i by row k from the left. */
static void row_product(State *q, int i, int k)
{
    int e = 0;
    for (int j = 0; j < q->n; j++) {
        int w = j >> 5;
        u32 pw = bit(j);
        e += power((q->x[k][w] & pw) != 0, (q->z[k][w] & pw) != 0,
                   (q->x[i][w] & pw) != 0, (q->z[i][w] & pw) != 0);
    }
    e = (e + q->r[i] + q->r[k]) % 4;
    q->r[i] = e < 0 ? e + 4 : e;
    for (int w = 0; w < q->words; w++) {
        q->x[i][w] ^= q->x[k][w];
        q->z[i][w] ^= q->z[k][w];
    }
}

static void row_copy(State *q, int to, int from)
{
    memcpy(q->x[to], q->x[from], sizeof q->x[to]);
    memcpy(q->z[to], q->z[from], sizeof q->z[to]);
    q->r[to] = q->r[from];
}

static int first_stabilizer(const State *q, int a)
{
    for (int p = 0; p < q->n; p++)
        if (q->x[q->n + p][a >> 5] & bit(a))
            return p;
    return -1;
}

static void measure_random(State *q, int a, int p, int coin)
{
    row_copy(q, p, q->n + p);
    memset(q->x[q->n + p], 0, sizeof q->x[0]);
    memset(q->z[q->n + p], 0, sizeof q->z[0]);
    q->z[q->n + p][a >> 5] = bit(a);
    q->r[q->n + p] = 2 * coin;
    for (int i = 0; i < 2 * q->n; i++)
        if (i != p && (q->x[i][a >> 5] & bit(a)))
            row_product(q, i, p);
}

static int measure_fixed(State *q, int a)
{
    int m = 0, scratch = 2 * q->n;
    while (!(q->x[m][a >> 5] & bit(a)))
        m++;
    row_copy(q, scratch, q->n + m);
    for (int i = m + 1; i < q->n; i++)
        if (q->x[i][a >> 5] & bit(a))
            row_product(q, scratch, q->n + i);
    return q->r[scratch] == 2;
}

static void gate(State *q, Op op)
{
    switch (op.kind) {
    case 'H': hadamard(q, op.a); break;
    case 'S': phase(q, op.a); break;
    case 'c': cnot(q, op.a, op.b); break;
    case 'z': controlled_z(q, op.a, op.b); break;
    default: pauli(q, op.kind, op.a);
    }
}

/* Measures a, with the next coin where that is random, and answers the outcome's character; 0 where
   no coin is left. */
static u8 measure(State *q, int a, const u8 *coins, u64 coins_len, u64 *taken)
{
    int p = first_stabilizer(q, a);
    if (p < 0)
        return (u8)('0' + measure_fixed(q, a));
    if (*taken == coins_len)
        return 0;
    int coin = coins[(*taken)++] & 1;
    measure_random(q, a, p, coin);
    return (u8)('2' + coin);
}

/* Runs the circuit and writes the outcomes; answers the line that found no coin, or 0. MR is M, and
   X where the outcome was 1. */
static int run_all(State *q, const Circuit *c, const u8 *coins, u64 coins_len, u8 *outcomes, u64 *taken)
{
    start(q, c->n);
    for (int i = 0; i < c->count; i++) {
        Op op = c->ops[i];
        if (!measures(op.kind)) {
            gate(q, op);
            continue;
        }
        u8 outcome = measure(q, op.a, coins, coins_len, taken);
        if (!outcome)
            return i + 2;
        if (op.kind == 'R' && outcome & 1)
            pauli(q, 'X', op.a);
        *outcomes++ = outcome;
    }
    return 0;
}

static u8 *put_number(u8 *to, u64 number, int bytes)
{
    for (int i = 0; i < bytes; i++)
        *to++ = (u8)(number >> (8 * i));
    return to;
}

static void write_record(const State *q, const u8 *outcomes, u64 measured, u8 *to)
{
    u64 rows = RECORD((u64)q->n, 0);
    memcpy(to, outcomes, measured);
    to += measured;
    for (int i = 0; i < 2 * q->n; i++) {
        *to++ = q->r[i] == 2 ? '-' : '+';
        for (int j = 0; j < q->n; j++) {
            int x = (q->x[i][j >> 5] & bit(j)) != 0, z = (q->z[i][j >> 5] & bit(j)) != 0;
            *to++ = (u8)"IXZY"[x + 2 * z];
        }
    }
    to = put_number(to, rows, 4);
    to = put_number(to, rows + measured, 4);
    to = put_number(to, (u64)q->n, 2);
    *to++ = 0x53;
    *to = 0x52;
}

u64 rows_run(const u8 *circuit, u64 circuit_len, const u8 *coins, u64 coins_len,
             u8 *record, u64 record_len, u64 answer[6])
{
    Circuit c;
    State q;
    u8 outcomes[MOST_OPS];
    u64 place, taken = 0, number = rows_parse(&c, circuit, circuit_len, &place);
    u64 length = RECORD((u64)c.n, (u64)c.measured);
    if (!number && record_len < length)
        number = 8;
    if (!number && (place = (u64)run_all(&q, &c, coins, coins_len, outcomes, &taken)))
        number = 7;
    memset(answer, 0, 6 * sizeof *answer);
    answer[0] = number ? place : 0;
    answer[2] = coins_len;
    if (number)
        return number;
    write_record(&q, outcomes, (u64)c.measured, record);
    answer[1] = length;
    answer[2] = coins_len - taken;
    answer[3] = (u64)c.measured;
    answer[4] = answer[5] = taken;
    return 0;
}
