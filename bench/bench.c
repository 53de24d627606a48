/* Measures the library beside the two C programs, in one process. A workload is eight texts of one
   kind, so that no branch predictor learns a text by heart. The programs take turns, in all orders
   alike, so that noise falls on each of them; a turn goes through the eight texts until a
   millisecond is filled; each round of turns gives one ratio, and the table holds the median of
   all rounds. Before any clock is read, and again behind each workload, the answers and records
   are compared byte for byte. It prints the body of RESULTS.md, and ends with status 1 where the
   answers differ. */
#include "agree.h"
#include "clock.h"
#include "likely.h"
#include "workloads.h"

extern int atoi(const char *text);

enum { LIBRARY, ROWS, BEST, PROGRAMS, MOST_ROUNDS = 301, FEWEST_ROUNDS = 15, TURN = 1000000 };

typedef enum { DO_RUN, DO_CHECK, DO_READ, DO_SAME } Task;

enum { COPIES = 8 };

typedef struct {
    const char *name;
    Task task;
    u64 n, length[COPIES];
    u8 bytes[COPIES][MOST_TEXT], other[COPIES][LONGEST_RECORD];
} Workload;

static u8 coins[MOST_OPS], sheet[LONGEST_RECORD];

static void call(const Workload *w, int program, int copy)
{
    const u8 *bytes = w->bytes[copy], *other = w->other[copy];
    u64 answer[6], length = w->length[copy];
    int library = program == LIBRARY;
    if (w->task == DO_RUN)
        runs[program](bytes, length, coins, MOST_OPS, sheet, sizeof sheet, answer);
    if (w->task == DO_CHECK)
        checks[program](bytes, length, answer);
    if (w->task == DO_READ)
        (library ? senghovai_read : best_read)(bytes, length, answer);
    if (w->task == DO_SAME)
        (library ? senghovai_same : best_same)(bytes, length, other, length, answer);
}

static int takes_part(const Workload *w, int program) { return program != ROWS || w->task == DO_RUN || w->task == DO_CHECK; }

static int agrees(const Workload *w)
{
    int good = 1;
    for (int k = 0; k < COPIES; k++) {
        const u8 *bytes = w->bytes[k], *other = w->other[k];
        u64 number = 0, length = w->length[k];
        if (w->task == DO_RUN)
            good &= agree_run(bytes, length, coins, MOST_OPS, LONGEST_RECORD, &number);
        if (w->task == DO_CHECK)
            good &= agree_check(bytes, length);
        if (w->task == DO_READ)
            good &= agree_read(bytes, length, &number);
        if (w->task == DO_SAME)
            good &= agree_same(bytes, length, other, length);
        good &= number == 0;
    }
    return good;
}

/* Nanoseconds that all texts take once, over one turn. */
static double turn(const Workload *w, int program, u64 times)
{
    double from = now();
    for (u64 i = 0; i < times; i++)
        for (int k = 0; k < COPIES; k++)
            call(w, program, k);
    return (now() - from) / (double)times;
}

typedef struct {
    double to_rows, to_best, median[PROGRAMS];
    int agreed;
} Figures;

static const int orders[6][PROGRAMS] = {
    { LIBRARY, ROWS, BEST }, { BEST, ROWS, LIBRARY }, { ROWS, LIBRARY, BEST },
    { BEST, LIBRARY, ROWS }, { LIBRARY, BEST, ROWS }, { ROWS, BEST, LIBRARY },
};

static Figures measure(const Workload *w, double limit)
{
    static double took[PROGRAMS][MOST_ROUNDS], ratio[MOST_ROUNDS];
    u64 times[PROGRAMS], rounds = 0;
    Figures f = { 0, 0, { 0 }, agrees(w) };
    for (int k = 0; k < PROGRAMS; k++) {
        double once = takes_part(w, k) ? turn(w, k, 2) : TURN;
        times[k] = once < TURN ? (u64)(TURN / once) + 1 : 1;
    }
    double from = now();
    for (; rounds < MOST_ROUNDS && (rounds < FEWEST_ROUNDS || now() - from < limit); rounds++)
        for (u64 k = 0; k < PROGRAMS; k++) {
            int program = orders[rounds % 6][k];
            took[program][rounds] = takes_part(w, program) ? turn(w, program, times[program]) : 1;
        }
    for (int k = ROWS; k <= BEST; k++) {
        for (u64 i = 0; i < rounds; i++)
            ratio[i] = took[LIBRARY][i] / took[k][i];
        *(k == ROWS ? &f.to_rows : &f.to_best) = median(ratio, rounds);
    }
    for (int k = 0; k < PROGRAMS; k++)
        f.median[k] = median(took[k], rounds);
    f.agreed &= agrees(w);
    return f;
}

static const char *goal(int reached) { return reached ? "yes" : "no"; }

/* `wanted` is how many times as fast as rows.c the library is to be. */
static int print_row(const Workload *w, const Figures *f, double wanted)
{
    printf("| %s | %lu | ", w->name, w->n);
    if (takes_part(w, ROWS))
        printf("%.3f | %s", f->to_rows, goal(f->to_rows * wanted < 1));
    else
        printf("- | -");
    printf(" | %.2f | %s |\n", f->to_best, goal(f->to_best <= (w->n <= 64 ? 2 : 1.6)));
    if (!f->agreed)
        printf("\nTHE ANSWERS DIFFER on: %s, %lu qubits\n\n", w->name, w->n);
    return f->agreed;
}

typedef u64 Make(u8 *to, u64 n);

static u64 gates(u8 *to, u64 n) { return make_mixed(to, n, MOST_OPS, 0); }
static u64 hadamards(u8 *to, u64 n) { return make_hadamards(to, n, MOST_OPS); }
static u64 mixed(u8 *to, u64 n) { return make_mixed(to, n, MOST_OPS, 4); }
static u64 alternate(u8 *to, u64 n) { return make_alternate(to, n, MOST_OPS); }
static u64 surface(u8 *to, u64 n) { return make_surface(to, n == 49 ? 5 : 7, "M"); }
static u64 surface_reset(u8 *to, u64 n) { return make_surface(to, n == 49 ? 5 : 7, "MR"); }

static Workload work;

static Figures measure_texts(const char *name, Task task, Make *make, u64 n, double limit)
{
    work.name = name;
    work.task = task;
    work.n = n;
    for (u64 k = 0; k < COPIES; k++) {
        seed(2026 + k);
        work.length[k] = make(work.bytes[k], n);
    }
    return measure(&work, limit);
}

static Figures measure_records(const char *name, Task task, u64 n, double limit)
{
    work.name = name;
    work.task = task;
    work.n = n;
    for (u64 k = 0; k < COPIES; k++) {
        work.length[k] = make_longest(work.bytes[k], n, k, 100 + k);
        make_longest(work.other[k], n, k, 200 + k);
    }
    return measure(&work, limit);
}

static int table(double limit)
{
    static const struct {
        const char *name;
        Task task;
        Make *make;
        double wanted;
        u64 sizes[3];
    } all[] = {
        { "gates only", DO_RUN, gates, 5, { 64, 97, 128 } },
        { "nothing but H", DO_RUN, hadamards, 5, { 64, 97, 128 } },
        { "gates and measurements mixed", DO_RUN, mixed, 1, { 64, 97, 128 } },
        { "a measurement after every gate", DO_RUN, alternate, 1, { 64, 97, 128 } },
        { "surface patch, distance 5, 32 rounds", DO_RUN, surface, 1, { 49 } },
        { "surface patch with MR, distance 5, 32 rounds", DO_RUN, surface_reset, 1, { 49 } },
        { "surface patch, distance 7, 15 rounds", DO_RUN, surface, 1, { 97 } },
        { "surface patch with MR, distance 7, 15 rounds", DO_RUN, surface_reset, 1, { 97 } },
        { "check of the mixed text", DO_CHECK, mixed, 0.5, { 64, 97, 128 } },
        { "reading a longest record", DO_READ, 0, 1, { 64, 97, 128 } },
        { "comparing two longest records", DO_SAME, 0, 1, { 64, 97, 128 } },
    };
    int agreed = 1;
    printf("| workload | qubits | library / rows.c | goal | library / best.c | goal |\n|---|---|---|---|---|---|\n");
    for (u64 k = 0; k < sizeof all / sizeof *all; k++)
        for (u64 i = 0; i < 3 && all[k].sizes[i]; i++) {
            u64 n = all[k].sizes[i];
            Figures f = all[k].make ? measure_texts(all[k].name, all[k].task, all[k].make, n, limit)
                                    : measure_records(all[k].name, all[k].task, n, limit);
            agreed &= print_row(&work, &f, all[k].wanted);
        }
    return agreed;
}

static int growth(double limit)
{
    static const u64 sizes[] = { 8, 16, 32, 64, 97, 128 };
    double first[PROGRAMS] = { 0 };
    int agreed = 1;
    printf("\n| qubits | library / rows.c | library / best.c | library's growth | rows.c's growth | best.c's growth |\n"
           "|---|---|---|---|---|---|\n");
    for (u64 i = 0; i < sizeof sizes / sizeof *sizes; i++) {
        Figures f = measure_texts("growth", DO_RUN, mixed, sizes[i], limit);
        for (int k = 0; k < PROGRAMS && i == 0; k++)
            first[k] = f.median[k];
        printf("| %lu | %.3f | %.2f | %.2f | %.2f | %.2f |\n", sizes[i], f.to_rows, f.to_best,
               f.median[LIBRARY] / first[LIBRARY], f.median[ROWS] / first[ROWS], f.median[BEST] / first[BEST]);
        agreed &= f.agreed;
    }
    return agreed;
}

/* The first argument is the number of random circuits to compare on, the second the most
   milliseconds that one workload is measured for. */
int main(int count, char **words)
{
    u64 seen[14], circuits = count > 1 ? (u64)atoi(words[1]) : 3000;
    double limit = 1e6 * (count > 2 ? atoi(words[2]) : 2000);
    int agreed = agree_all(circuits, seen);
    draw_bytes(coins, MOST_OPS);
    printf("On %lu random circuits, good and damaged, and on what they wrote, all three answer %s.\n"
           "Seen, runs and readings together: accepted %lu times", circuits, agreed ? "alike, byte for byte" : "DIFFERENTLY", seen[0]);
    for (int k = 1; k < 12; k++)
        printf(", refusal %d %lu", k, seen[k]);
    printf(".\n\n");
    agreed &= table(limit);
    agreed &= growth(limit);
    agreed &= likely(limit);
    printf("\nThe records and answers of all programs %s on every workload.\n", agreed ? "were equal" : "WERE NOT EQUAL");
    return !agreed;
}
