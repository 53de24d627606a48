/* The harness's input and output over read and write, which are declared here by hand. A line
   may be of any length: the line buffer grows by doubling. */
#include "stream.h"

extern long read(int file, void *bytes, u64 length);
extern long write(int file, const void *bytes, u64 length);
extern void *malloc(u64 size);
extern void free(void *block);
extern void *memcpy(void *to, const void *from, u64 length);
extern void *memchr(const void *bytes, int byte, u64 length);
extern void exit(int status);

enum { INPUT = 1 << 16, OUTPUT = 1 << 16 };

static char in[INPUT], out[OUTPUT];
static u64 in_at, in_end, out_end;
static char *line;
static u64 line_room;

void *need(u64 size)
{
    void *block = malloc(size ? size : 1);
    if (!block)
        exit(2);
    return block;
}

void release(void *block) { free(block); }

void flush(void)
{
    u64 sent = 0;
    while (sent < out_end) {
        long now = write(1, out + sent, out_end - sent);
        if (now <= 0)
            exit(2);
        sent += (u64)now;
    }
    out_end = 0;
}

static int refill(void)
{
    flush();
    long now = read(0, in, INPUT);
    if (now < 0)
        exit(2);
    in_at = 0;
    in_end = (u64)now;
    return now > 0;
}

static void append(u64 held, const char *bytes, u64 length)
{
    if (held + length > line_room) {
        u64 room = 2 * (held + length);
        char *wider = need(room);
        memcpy(wider, line, held);
        release(line);
        line = wider;
        line_room = room;
    }
    memcpy(line + held, bytes, length);
}

const char *next_line(u64 *length)
{
    u64 held = 0;
    if (!line)
        line = need(line_room = INPUT);
    while (in_at < in_end || refill()) {
        const char *from = in + in_at;
        const char *end = memchr(from, '\n', in_end - in_at);
        u64 part = end ? (u64)(end - from) : in_end - in_at;
        append(held, from, part);
        held += part;
        in_at += part + (end != 0);
        *length = held;
        if (end)
            return line;
    }
    *length = held;
    return held ? line : 0;
}

void put_byte(char byte)
{
    if (out_end == OUTPUT)
        flush();
    out[out_end++] = byte;
}

void put_text(const char *text)
{
    while (*text)
        put_byte(*text++);
}

void put_number(u64 number)
{
    char digits[20];
    int count = 0;
    do {
        digits[count++] = (char)('0' + number % 10);
        number /= 10;
    } while (number);
    while (count)
        put_byte(digits[--count]);
}

void put_hex(const u8 *bytes, u64 length)
{
    static const char digit[] = "0123456789abcdef";
    if (!length)
        put_byte('-');
    for (u64 i = 0; i < length; i++) {
        put_byte(digit[bytes[i] >> 4]);
        put_byte(digit[bytes[i] & 15]);
    }
}
