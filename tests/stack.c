/* How much stack the run and the probability take on 128 qubits, 4,096 operations: each is called on a stack of its own that was painted beforehand, and the bytes
   that are no longer painted are counted. Prints both, and ends with status 1 where the probability takes more. For x86-64, as the library is. */
#include "senghovai.h"

extern int printf(const char *format, ...);
extern void *memset(void *to, int byte, size_t count);

enum { ROOM = 1 << 20, PAINT = 0xA5, OPERATIONS = 4096 };

static uint8_t stack[ROOM] __attribute__((aligned(16)));
static uint8_t text[16 * OPERATIONS], coins[OPERATIONS], stated[OPERATIONS], sheet[SENGHOVAI_LONGEST_RECORD];
static size_t length;
static uint64_t answer[6], measured;

static void put(const char *line)
{
    while (*line)
        text[length++] = (uint8_t)*line++;
}

static void put_number(uint64_t number)
{
    if (number > 99)
        text[length++] = (uint8_t)('0' + number / 100);
    if (number > 9)
        text[length++] = (uint8_t)('0' + number / 10 % 10);
    text[length++] = (uint8_t)('0' + number % 10);
}

/* H, CX, S, M and MR in turn, over all qubits. */
static void make_text(void)
{
    static const char *const names[] = { "H ", "CX ", "S ", "M ", "MR " };
    put("Q 128\n");
    for (uint64_t i = 0; i < OPERATIONS; i++) {
        put(names[i % 5]);
        put_number(i * 37 % 128);
        if (i % 5 == 1) {
            put(" ");
            put_number((i * 37 + 1) % 128);
        }
        put("\n");
    }
}

static void run(void) { senghovai_run(text, length, coins, sizeof coins, sheet, sizeof sheet, answer); }
static void probability(void) { senghovai_probability(text, length, stated, measured, answer); }

static size_t taken(void (*call)(void))
{
    size_t k = 0;
    memset(stack, PAINT, ROOM);
    __asm__ volatile("movq %%rsp, %%rbx\n\tmovq %0, %%rsp\n\tcall *%1\n\tmovq %%rbx, %%rsp"
                     : : "r"(stack + ROOM), "r"(call)
                     : "rbx", "rax", "rcx", "rdx", "rsi", "rdi", "r8", "r9", "r10", "r11", "memory", "cc");
    while (k < ROOM && stack[k] == PAINT)
        k++;
    return ROOM - k;
}

int main(void)
{
    make_text();
    size_t by_run = taken(run);
    measured = answer[3];
    for (uint64_t i = 0; i < measured; i++)
        stated[i] = (uint8_t)('0' + sheet[i] % 2);
    size_t by_probability = taken(probability);
    printf("stack on 128 qubits, 4096 operations: run %lu bytes, probability %lu bytes\n", by_run, by_probability);
    stated[measured - 1] ^= 1;
    size_t by_other = taken(probability);
    printf("with another last value: probability %lu bytes\n", by_other);
    return by_probability > by_run || by_other > by_run || by_run == 0 || measured == 0;
}
