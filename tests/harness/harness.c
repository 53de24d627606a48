/* Answers case lines with the static library, one answer line for each, so that a second program
   can hold the library to its own answers. A case is a verb and its arguments, words apart by
   single spaces, byte strings in lower-case hexadecimal, `-` for the empty one:

     check CIRCUIT     run CIRCUIT COINS LEN       read BYTES
     copy BYTES LEN    product FIRST SECOND LEN    same FIRST SECOND
     probability CIRCUIT STATED

   LEN is the length of the lent buffer, whose byte i holds (7*i+3) mod 256 before the call. The
   answer is the returned number, each place of `answer` in decimal (a place not written shows as
   12297829382473034410), and the whole buffer after the call in hexadecimal. Every lent string
   stands between guard bytes; where one of those, or a byte that was lent for reading, has
   changed, the answer is `overrun`. A line that is no case is answered `malformed`. */
#include "stream.h"

extern void *memset(void *to, int byte, u64 length);
extern int memcmp(const void *a, const void *b, u64 length);

enum { GUARD = 64, MARK = 0xA5, PLACES = 6 };

typedef struct {
    u8 *room, *copy;
    u8 *bytes;
    u64 length;
} Lent;

static Lent lend(u64 length)
{
    Lent lent = { need(length + 2 * GUARD), 0, 0, length };
    memset(lent.room, MARK, length + 2 * GUARD);
    lent.bytes = lent.room + GUARD;
    return lent;
}

static int guarded(const Lent *lent)
{
    for (u64 i = 0; i < GUARD; i++)
        if (lent->room[i] != MARK || lent->bytes[lent->length + i] != MARK)
            return 0;
    return !lent->copy || !memcmp(lent->copy, lent->bytes, lent->length);
}

static void take_back(Lent *lent)
{
    release(lent->room);
    if (lent->copy)
        release(lent->copy);
}

static int digit(char c)
{
    if (c >= '0' && c <= '9')
        return c - '0';
    return c >= 'a' && c <= 'f' ? c - 'a' + 10 : -1;
}

typedef struct {
    const char *text;
    u64 length;
} Word;

static int lend_hex(Word word, Lent *lent)
{
    int empty = word.length == 1 && word.text[0] == '-';
    u64 length = empty ? 0 : word.length / 2;
    if (!empty && (word.length == 0 || word.length % 2))
        return 0;
    for (u64 i = 0; i < 2 * length; i++)
        if (digit(word.text[i]) < 0)
            return 0;
    *lent = lend(length);
    lent->copy = need(length);
    for (u64 i = 0; i < length; i++)
        lent->bytes[i] = lent->copy[i] =
            (u8)(16 * digit(word.text[2 * i]) + digit(word.text[2 * i + 1]));
    return 1;
}

static int lend_pattern(Word word, Lent *lent)
{
    u64 length = 0;
    if (word.length < 1 || word.length > 9)
        return 0;
    for (u64 i = 0; i < word.length; i++) {
        if (word.text[i] < '0' || word.text[i] > '9')
            return 0;
        length = 10 * length + (u64)(word.text[i] - '0');
    }
    *lent = lend(length);
    for (u64 i = 0; i < length; i++)
        lent->bytes[i] = (u8)(7 * i + 3);
    return 1;
}

#define IN(k) lent[k].bytes, lent[k].length

static u64 call_check(Lent *lent, u64 *answer) { return senghovai_check(IN(0), answer); }
static u64 call_run(Lent *lent, u64 *answer) { return senghovai_run(IN(0), IN(1), IN(2), answer); }
static u64 call_read(Lent *lent, u64 *answer) { return senghovai_read(IN(0), answer); }
static u64 call_copy(Lent *lent, u64 *answer) { return senghovai_copy(IN(0), IN(1), answer); }
static u64 call_product(Lent *lent, u64 *answer) { return senghovai_product(IN(0), IN(1), IN(2), answer); }
static u64 call_same(Lent *lent, u64 *answer) { return senghovai_same(IN(0), IN(1), answer); }
static u64 call_probability(Lent *lent, u64 *answer) { return senghovai_probability(IN(0), IN(1), answer); }

typedef struct {
    const char *name;
    u64 inputs, buffers, places;
    u64 (*call)(Lent *lent, u64 *answer);
} Verb;

static const Verb verbs[] = {
    { "check", 1, 0, 3, call_check },
    { "run", 2, 1, 6, call_run },
    { "read", 1, 0, 5, call_read },
    { "copy", 1, 1, 2, call_copy },
    { "product", 2, 1, 2, call_product },
    { "same", 2, 0, 3, call_same },
    { "probability", 2, 0, 4, call_probability },
};

static u64 split(const char *line, u64 length, Word words[4])
{
    u64 count = 0, from = 0;
    for (u64 i = 0; i <= length; i++) {
        if (i < length && line[i] != ' ')
            continue;
        if (count == 4)
            return 5;
        words[count++] = (Word){ line + from, i - from };
        from = i + 1;
    }
    return count;
}

static const Verb *find(Word word, u64 words)
{
    for (u64 k = 0; k < sizeof verbs / sizeof *verbs; k++) {
        u64 i = 0;
        while (i < word.length && verbs[k].name[i] == word.text[i])
            i++;
        if (i == word.length && !verbs[k].name[i])
            return words == 1 + verbs[k].inputs + verbs[k].buffers ? &verbs[k] : 0;
    }
    return 0;
}

static void put_answer(const Verb *verb, Lent *lent)
{
    u64 answer[PLACES + 2];
    memset(answer, 0xAA, sizeof answer);
    u64 beyond = answer[PLACES];
    u64 number = verb->call(lent, answer + 1);
    int kept = answer[0] == beyond;
    for (u64 k = verb->places; k <= PLACES; k++)
        kept &= answer[1 + k] == beyond;
    for (u64 k = 0; k < verb->inputs + verb->buffers; k++)
        kept &= guarded(&lent[k]);
    if (!kept) {
        put_text("overrun");
        return;
    }
    put_number(number);
    for (u64 k = 0; k < verb->places; k++) {
        put_byte(' ');
        put_number(answer[1 + k]);
    }
    if (verb->buffers) {
        put_byte(' ');
        put_hex(IN(verb->inputs));
    }
}

static void answer_case(const char *line, u64 length)
{
    Word words[4];
    Lent lent[3];
    u64 count = split(line, length, words), held = 0;
    const Verb *verb = count <= 4 ? find(words[0], count) : 0;
    u64 wanted = verb ? verb->inputs + verb->buffers : 0;
    while (held < wanted && (held < verb->inputs ? lend_hex : lend_pattern)(words[1 + held], &lent[held]))
        held++;
    if (verb && held == wanted)
        put_answer(verb, lent);
    else
        put_text("malformed");
    put_byte('\n');
    while (held)
        take_back(&lent[--held]);
}

int main(void)
{
    u64 length;
    const char *line;
    while ((line = next_line(&length)))
        answer_case(line, length);
    flush();
    return 0;
}
