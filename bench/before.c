/* Holds the library to another one of the same exports, whose functions are called before_*, in one
   process: the time of each workload of up to 64 qubits, now / before, the median over all rounds. The
   two take turns, each first in half of the rounds, and a turn is eight texts of one kind. */
#include "clock.h"
#include "workloads.h"

u64 before_run(const u8 *circuit, u64 circuit_len, const u8 *coins, u64 coins_len, u8 *record, u64 record_len, u64 answer[6]);
u64 before_check(const u8 *circuit, u64 circuit_len, u64 answer[3]);
u64 before_read(const u8 *bytes, u64 len, u64 answer[5]);
u64 before_same(const u8 *first, u64 first_len, const u8 *second, u64 second_len, u64 answer[3]);

typedef enum { GATES, HADAMARDS, MIXED, ALTERNATE, SURFACE, SURFACE_RESET, CHECK, READ, SAME } Kind;

enum { COPIES = 8, ROUNDS = 401, NARROW = RECORD(64, MOST_OPS) };

static u8 bytes[COPIES][MOST_TEXT], other[COPIES][NARROW], coins[MOST_OPS], sheet[NARROW];
static u64 length[COPIES];

static void make(Kind kind, u64 n, u64 k)
{
    seed(2026 + k);
    if (kind == GATES)
        length[k] = make_mixed(bytes[k], n, MOST_OPS, 0);
    if (kind == HADAMARDS)
        length[k] = make_hadamards(bytes[k], n, MOST_OPS);
    if (kind == MIXED || kind == CHECK)
        length[k] = make_mixed(bytes[k], n, MOST_OPS, 4);
    if (kind == ALTERNATE)
        length[k] = make_alternate(bytes[k], n, MOST_OPS);
    if (kind == SURFACE || kind == SURFACE_RESET)
        length[k] = make_surface(bytes[k], 5, kind == SURFACE ? "M" : "MR");
    if (kind == READ || kind == SAME) {
        length[k] = make_longest(bytes[k], n, k, 100 + k);
        make_longest(other[k], n, k, 200 + k);
    }
}

static double turn(Kind kind, int before)
{
    u64 answer[6];
    double from = now();
    for (int k = 0; k < COPIES; k++) {
        if (kind <= SURFACE_RESET)
            (before ? before_run : senghovai_run)(bytes[k], length[k], coins, MOST_OPS, sheet, NARROW, answer);
        if (kind == CHECK)
            (before ? before_check : senghovai_check)(bytes[k], length[k], answer);
        if (kind == READ)
            (before ? before_read : senghovai_read)(bytes[k], length[k], answer);
        if (kind == SAME)
            (before ? before_same : senghovai_same)(bytes[k], length[k], other[k], length[k], answer);
    }
    return now() - from;
}

int main(void)
{
    static const struct {
        const char *name;
        Kind kind;
        u64 n;
    } all[] = {
        { "gates only", GATES, 64 }, { "nothing but H", HADAMARDS, 64 }, { "gates and measurements mixed", MIXED, 64 },
        { "a measurement after every gate", ALTERNATE, 64 }, { "surface patch, distance 5, 32 rounds", SURFACE, 49 },
        { "surface patch with MR, distance 5, 32 rounds", SURFACE_RESET, 49 }, { "check of the mixed text", CHECK, 64 },
        { "reading a longest record", READ, 64 }, { "comparing two longest records", SAME, 64 },
        { "gates and measurements mixed", MIXED, 8 }, { "gates and measurements mixed", MIXED, 16 }, { "gates and measurements mixed", MIXED, 32 },
    };
    static double ratio[ROUNDS];
    draw_bytes(coins, MOST_OPS);
    printf("| workload | qubits | now / before |\n|---|---|---|\n");
    for (u64 w = 0; w < sizeof all / sizeof *all; w++) {
        for (u64 k = 0; k < COPIES; k++)
            make(all[w].kind, all[w].n, k);
        for (u64 i = 0; i < ROUNDS; i++) {
            double took[2];
            took[i % 2] = turn(all[w].kind, (int)(i % 2));
            took[1 - i % 2] = turn(all[w].kind, (int)(1 - i % 2));
            ratio[i] = took[0] / took[1];
        }
        printf("| %s | %lu | %.2f |\n", all[w].name, all[w].n, median(ratio, ROUNDS));
    }
    return 0;
}
