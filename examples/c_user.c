/* Runs the worked example of document 01 with the static library: prints the answer and the record in hexadecimal, shows that a refused run changes
   nothing, compares records, and asks how likely readouts are. It needs no header of the C library: only `write` and `memcpy` are called. tests/c_user
   compiles, links and runs it. */
#include "senghovai.h"

extern long write(int descriptor, const void *bytes, size_t count);
extern void *memcpy(void *to, const void *from, size_t count);

static size_t length(const char *text)
{
    size_t n = 0;
    while (text[n])
        n++;
    return n;
}

static void say(const char *text)
{
    write(1, text, length(text));
}

static void say_number(uint64_t number)
{
    char digits[20];
    size_t at = sizeof digits;
    do {
        digits[--at] = (char)('0' + number % 10);
        number /= 10;
    } while (number);
    write(1, digits + at, sizeof digits - at);
}

/* The returned number and each place of the answer, on one line. */
static void say_answer(const char *what, uint64_t number, const uint64_t *answer, size_t places)
{
    say(what);
    say(": ");
    say_number(number);
    for (size_t i = 0; i < places; i++) {
        say(" ");
        say_number(answer[i]);
    }
    say("\n");
}

static void say_hex(const uint8_t *bytes, size_t count)
{
    static const char digit[] = "0123456789ABCDEF";
    for (size_t i = 0; i < count; i++) {
        char pair[3] = { digit[bytes[i] >> 4], digit[bytes[i] & 15], i + 1 < count ? ' ' : '\n' };
        write(1, pair, sizeof pair);
    }
}

/* The probability that the answer's bits are, or 0 where it is impossible. Doubled k times it is 1 exactly. */
static void say_double(const uint64_t answer[4])
{
    double p;
    memcpy(&p, &answer[3], sizeof p);
    for (uint64_t i = 0; answer[1] && i < answer[2]; i++)
        p *= 2;
    say(p == 1 ? "  one half to the power k\n" : p == 0 ? "  zero\n" : "  another number\n");
}

/* A qubit is measured at random so many times, and once more, when it is fixed: at 0, where the readout is all zeros. */
static void say_likely(size_t times, char last)
{
    static char text[8192 + 64], stated[1024];
    static const char head[] = "Q 1\n", round[] = "H 0\nM 0\n", end[] = "M 0\n";
    uint64_t answer[4];
    size_t size = length(head);
    memcpy(text, head, size);
    for (size_t i = 0; i < times; i++, size += length(round)) {
        memcpy(text + size, round, length(round));
        stated[i] = '0';
    }
    memcpy(text + size, end, length(end));
    stated[times] = last;
    say_number(times);
    uint64_t number = senghovai_probability((const uint8_t *)text, size + length(end), (const uint8_t *)stated, times + 1, answer);
    say_answer(last == '0' ? " coins" : " coins, and a last value against them", number, answer, 4);
    if (!number)
        say_double(answer);
}

int main(void)
{
    static const char circuit[] = "Q 2\nH 0\nCX 0 1\nM 0\nM 1\n";
    static const uint8_t one[] = { '1' }, zero[] = { '0' };
    static uint8_t first[SENGHOVAI_LONGEST_RECORD], second[SENGHOVAI_LONGEST_RECORD];
    const uint8_t *text = (const uint8_t *)circuit;
    size_t size = length(circuit);
    uint64_t ran[6], other[6], compared[3];

    say_answer("run", senghovai_run(text, size, one, 1, first, sizeof first, ran), ran, 6);
    say_hex(first, ran[1]);
    say_answer("run without a coin", senghovai_run(text, size, one, 0, second, sizeof second, other), other, 6);
    say_answer("run with coin 0", senghovai_run(text, size, zero, 1, second, sizeof second, other), other, 6);
    say_answer("same as itself", senghovai_same(first, ran[1], first, ran[1], compared), compared, 3);
    say_answer("same as with coin 0", senghovai_same(first, ran[1], second, other[1], compared), compared, 3);
    second[other[1] - 1] = 0;
    say_answer("same as a damaged one", senghovai_same(first, ran[1], second, other[1], compared), compared, 3);
    say_likely(0, '0');
    say_likely(1, '0');
    say_likely(52, '0');
    say_likely(1022, '0');
    say_likely(1023, '0');
    say_likely(1023, '1');
    return 0;
}
