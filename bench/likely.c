/* Measures the probability of a stated readout beside the run of the same circuit with the same coins: of the readout that the run gave, and of
   the same with the last fixed value turned over, which is impossible. The three take turns in one process, as in bench.c, and the answers are held
   to those of the run before any clock is read. */
#include "likely.h"
#include "clock.h"
#include "workloads.h"

enum { COPIES = 8, ROUNDS = 101, FEWEST = 15, TURN = 1000000, MOST_HALVINGS = 1022 };
enum { DO_RUN, DO_POSSIBLE, DO_IMPOSSIBLE, TASKS };

typedef struct {
    u64 length, measured;
    u8 text[MOST_TEXT], stated[MOST_OPS], wrong[MOST_OPS];
} Readout;

static Readout readouts[COPIES];
static u8 coins[MOST_OPS], sheet[LONGEST_RECORD];

static void call(const Readout *r, int task)
{
    u64 answer[6];
    if (task == DO_RUN)
        senghovai_run(r->text, r->length, coins, MOST_OPS, sheet, sizeof sheet, answer);
    else
        senghovai_probability(r->text, r->length, task == DO_POSSIBLE ? r->stated : r->wrong, r->measured, answer);
}

/* Takes the readout from the run's record, and says whether both answers are those that the run asks for. */
static int prepare(Readout *r)
{
    u64 ran[6], told[4], last = MOST_OPS;
    u64 number = senghovai_run(r->text, r->length, coins, MOST_OPS, sheet, sizeof sheet, ran);
    r->measured = ran[3];
    for (u64 i = 0; i < r->measured; i++) {
        r->stated[i] = r->wrong[i] = (u8)('0' + sheet[i] % 2);
        last = sheet[i] < '2' ? i : last;
    }
    int good = number == 0 && last < r->measured;
    if (good)
        r->wrong[last] ^= 1;
    number = senghovai_probability(r->text, r->length, r->stated, r->measured, told);
    good &= ran[4] > MOST_HALVINGS ? number == 14 : number == 0 && told[1] == 1 && told[2] == ran[4];
    number = senghovai_probability(r->text, r->length, r->wrong, r->measured, told);
    return good && number == 0 && told[1] == 0;
}

static double turn(int task, u64 times)
{
    double from = now();
    for (u64 i = 0; i < times; i++)
        for (int k = 0; k < COPIES; k++)
            call(&readouts[k], task);
    return (now() - from) / (double)times;
}

static void measure(double limit, double ratio[TASKS])
{
    static double took[TASKS][ROUNDS], part[ROUNDS];
    u64 times[TASKS], rounds = 0;
    for (int k = 0; k < TASKS; k++) {
        double once = turn(k, 2);
        times[k] = once < TURN ? (u64)(TURN / once) + 1 : 1;
    }
    double from = now();
    for (; rounds < ROUNDS && (rounds < FEWEST || now() - from < limit); rounds++)
        for (u64 k = 0; k < TASKS; k++) {
            int task = (int)((k + rounds) % TASKS);
            took[task][rounds] = turn(task, times[task]);
        }
    for (int k = DO_POSSIBLE; k < TASKS; k++) {
        for (u64 i = 0; i < rounds; i++)
            part[i] = took[k][i] / took[DO_RUN][i];
        ratio[k] = median(part, rounds);
    }
}

static u64 mixed(u8 *to, u64 n) { return make_mixed(to, n, MOST_OPS, 4); }
static u64 alternate(u8 *to, u64 n) { return make_alternate(to, n, MOST_OPS); }
static u64 surface(u8 *to, u64 n) { return make_surface(to, n == 49 ? 5 : 7, "M"); }
static u64 surface_reset(u8 *to, u64 n) { return make_surface(to, n == 49 ? 5 : 7, "MR"); }

int likely(double limit)
{
    static const struct {
        const char *name;
        u64 (*make)(u8 *to, u64 n);
        u64 n;
    } all[] = {
        { "gates and measurements mixed", mixed, 8 }, { "gates and measurements mixed", mixed, 64 },
        { "gates and measurements mixed", mixed, 128 }, { "a measurement after every gate", alternate, 64 },
        { "a measurement after every gate", alternate, 128 }, { "surface patch, distance 5, 32 rounds", surface, 49 },
        { "surface patch with MR, distance 5, 32 rounds", surface_reset, 49 }, { "surface patch, distance 7, 15 rounds", surface, 97 },
        { "surface patch with MR, distance 7, 15 rounds", surface_reset, 97 },
    };
    int good = 1;
    draw_bytes(coins, MOST_OPS);
    printf("\n| readouts of | qubits | probability / run | goal | impossible at the last / run | goal |\n|---|---|---|---|---|---|\n");
    for (u64 k = 0; k < sizeof all / sizeof *all; k++) {
        double ratio[TASKS];
        for (u64 i = 0; i < COPIES; i++) {
            seed(2026 + i);
            readouts[i].length = all[k].make(readouts[i].text, all[k].n);
            good &= prepare(&readouts[i]);
        }
        measure(limit, ratio);
        printf("| %s | %lu | %.2f | %s | %.2f | %s |\n", all[k].name, all[k].n, ratio[DO_POSSIBLE], ratio[DO_POSSIBLE] <= 1.25 ? "yes" : "no",
               ratio[DO_IMPOSSIBLE], ratio[DO_IMPOSSIBLE] <= 1.25 ? "yes" : "no");
    }
    return good;
}
