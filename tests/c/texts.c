/* Asks of lists how many words their instructions reach, and has them shown: instructions and lists whose counts and text stand here, every value of every byte of instructions of
 * each kind, every mode, byte 6 and byte 7, lists that are drawn, of good instructions and of any bytes, every set of faults, and buffers of every length about the one that is
 * needed; each held to the model too. Each text is read back by the rules of docs/TEXT.md and must be the list again; what it says is refused, a step must refuse so; and what is
 * said to be reached is held to runs and steps: no store changes another word, and one that turns every bit it meets changes just so many. */
#include "texts.h"

#include "checks.h"
#include "draw.h"
#include "lent.h"
#include "model.h"
#include "staran.h"

#include <stdarg.h>
#include <stdio.h>
#include <stdlib.h>
#include <string.h>

enum { WORDS = 256, MOST = 4096, LONGEST_LIST = 8 * MOST, LINE = 192 };

/* ---- the two calls on a list that is lent, each one check: the answer, what is written and every other byte must be as the model says */

static char what[160]; /* which list it is */

static void of(const char *format, ...)
{
    va_list words;
    va_start(words, format);
    vsnprintf(what, sizeof what, format, words);
    va_end(words);
}

/* Lends a list with these mode registers. M, X and Y are anything. */
static void lend_list(const uint8_t modes[4], const uint8_t *list, size_t length, int end)
{
    uint8_t registers[STARAN_REGISTERS_BYTES];
    draw_bytes(registers, sizeof registers);
    memcpy(registers + 96, modes, 4);
    nothing_lent(end);
    lend_bytes(REGISTERS, registers, sizeof registers, end);
    lend_bytes(LIST, list, length, end);
}

/* With `room` bytes for the counts. Where `stands` is not NULL, the model must answer this. */
static void ask_reach(size_t room, const uint32_t *stands, int end)
{
    uint32_t expected[STARAN_REACH_NUMBERS], *answer = lend_answer(STARAN_REACH_NUMBERS, end);
    check("reach, %s, with room for %zu", what, room);
    lend(OUT, room, end);
    lend(TEXT, 0, end);
    model_reach(WHOLE(REGISTERS), WHOLE(LIST), buffers[OUT].expected, room, expected);
    if (stands != NULL)
        answered(expected, STARAN_REACH_NUMBERS, stands);
    staran_reach(WHOLE(REGISTERS), WHOLE(LIST), WHOLE(OUT), answer);
    settle(answer, STARAN_REACH_NUMBERS, expected);
}

/* With `room` bytes for the text. */
static void ask_show(size_t room, const uint32_t *stands, int end)
{
    uint32_t expected[STARAN_SHOW_NUMBERS], *answer = lend_answer(STARAN_SHOW_NUMBERS, end);
    check("show, %s, with room for %zu", what, room);
    lend(OUT, 0, end);
    lend(TEXT, room, end);
    model_show(WHOLE(LIST), buffers[TEXT].expected, room, expected);
    if (stands != NULL)
        answered(expected, STARAN_SHOW_NUMBERS, stands);
    staran_show(WHOLE(LIST), WHOLE(TEXT), answer);
    settle(answer, STARAN_SHOW_NUMBERS, expected);
}

/* How long the text is. */
static size_t shown_length(void)
{
    static uint8_t text[LONGEST_TEXT];
    uint32_t known[STARAN_SHOW_NUMBERS];
    model_show(WHOLE(LIST), text, sizeof text, known);
    return known[1];
}

/* Both, with so many bytes more than are needed. The counts are kept in `counts`; the text stands in its buffer. */
static uint8_t counts[STARAN_REACH_BYTES(LONGEST_LIST)];
static unsigned count_of(size_t k) { return counts[2 * k] + 256u * counts[2 * k + 1]; }

static void ask_both(size_t spare, int end)
{
    ask_reach(STARAN_REACH_BYTES(buffers[LIST].length) + spare, NULL, end);
    memcpy(counts, buffers[OUT].bytes, STARAN_REACH_BYTES(buffers[LIST].length));
    ask_show(shown_length() + spare, NULL, end);
}

/* ---- a line read back, by docs/TEXT.md: `at` is the place in the text */

static const char *at;

/* Is this the next word? Then it is passed, with the blank behind it. */
static int word(const char *name)
{
    const size_t length = strlen(name);
    if (strncmp(at, name, length) != 0 || (at[length] != ' ' && at[length] != '\n'))
        return 0;
    at += length + (at[length] == ' ');
    return 1;
}

/* The next word as one of these, from 0; -1 for none. */
static int one_of(const char *const *names, int n)
{
    for (int k = 0; k < n; k++)
        if (word(names[k]))
            return k;
    return -1;
}

/* The next word as a number up to the greatest, without zeros in front; -1 for none. */
static int number_to(int greatest)
{
    int number = 0, digits = 0;
    for (; at[digits] >= '0' && at[digits] <= '9' && number <= greatest; digits++)
        number = 10 * number + at[digits] - '0';
    if (digits == 0 || number > greatest || (digits > 1 && at[0] == '0') || (at[digits] != ' ' && at[digits] != '\n'))
        return -1;
    at += digits + (at[digits] == ' ');
    return number;
}

static int put_number(uint8_t *byte)
{
    const int number = number_to(255);
    *byte = (uint8_t)number;
    return number >= 0;
}

/* `slice`, `word` and `mode`, where one of them stands; -1 where none does, and 0 where it is wrong. */
static int read_place(uint8_t i[8])
{
    static const char *const names[] = {"slice", "word", "mode"};
    const int name = one_of(names, COUNT(names));
    if (name < 0)
        return -1;
    i[2] = 1;
    i[3] = name == 1 ? 255 : 0;
    if (name < 2)
        return put_number(i + 4);
    if (word("a"))
        i[2] = 2;
    else if (word("b"))
        i[2] = 3;
    else if (!put_number(i + 3) || i[3] == 0 || i[3] == 255) /* the one form of these has another name */
        return 0;
    return word("address") && put_number(i + 4);
}

static int read_register(uint8_t i[8])
{
    static const char *const names[] = {"", "m", "x", "y", "outside"};
    const int k = one_of(names, COUNT(names));
    i[1] = (uint8_t)k;
    return k > 0;
}

static int read_flip(uint8_t i[8]) { return !word("flip") || (put_number(i + 5) && i[5] != 0); }

/* The exponent of a power of 2; -1 for none. */
static int read_power(void)
{
    const int number = number_to(256);
    for (int k = 0; k <= 8; k++)
        if (number == 1 << k)
            return k;
    return -1;
}

static int read_moves(uint8_t i[8])
{
    int m, p;
    if (!read_flip(i))
        return 0;
    if (!word("shift"))
        return 1;
    m = read_power();
    if (m < 0 || !word("mod"))
        return 0;
    p = read_power();
    i[6] = (uint8_t)(16 * p + m);
    return p > m;
}

static int read_source(uint8_t i[8])
{
    const int place = read_place(i);
    return (place < 0 ? read_register(i) : place) && read_moves(i);
}

static int read_store(uint8_t i[8]) { return read_place(i) > 0 && word("from") && read_register(i) && read_flip(i); }

static int read_logic(uint8_t i[8])
{
    static const char *const choices[] = {"x", "y", "both", "x-if-y", "x-if-y+y"};
    static const char *const functions[] = {"zero", "nor", "2", "not", "clear", "loadnot", "xor", "nand", "and", "xnor", "load", "11", "keep", "ornot", "or", "one"};
    const int choice = one_of(choices, COUNT(choices)), function = choice < 0 ? -1 : one_of(functions, COUNT(functions));
    i[7] = (uint8_t)(16 * choice + function);
    return function >= 0 && read_source(i);
}

static int read_bytes(uint8_t i[8])
{
    static const char digits[] = "0123456789ABCDEF";
    for (int b = 0; b < 8; b++, at += 3) {
        const char *high = at[0] == 0 ? NULL : strchr(digits, at[0]), *low = at[0] == 0 || at[1] == 0 ? NULL : strchr(digits, at[1]);
        if (high == NULL || low == NULL || at[2] != ' ')
            return 0;
        i[b] = (uint8_t)(16 * (high - digits) + (low - digits));
    }
    return 1;
}

static int read_instruction(uint8_t i[8])
{
    static const char *const names[] = {"logic", "setm", "store", "mstore", "deliver", "resolve", "set", "bytes"};
    const int kind = one_of(names, COUNT(names));
    memset(i, 0, 8);
    i[0] = (uint8_t)kind;
    switch (kind) {
    case 0:
        return read_logic(i);
    case 1:
    case 4:
        return read_source(i);
    case 2:
    case 3:
        return read_store(i);
    case 5:
        return 1;
    case 6:
        i[2] = word("a") ? 2 : word("b") ? 3 : 0;
        return i[2] != 0 && put_number(i + 3);
    case 7:
        return read_bytes(i);
    default:
        return 0;
    }
}

/* What the comment behind an instruction says: how many words it reaches (-1 for `?`), or the number and the byte with which it is refused. */
typedef struct {
    int reaches, refused, byte;
} said;

static int read_comment(const uint8_t i[8], said *s, int as_bytes)
{
    s->reaches = s->refused = s->byte = 0;
    if (as_bytes) {
        const int said_so = word(";") && word("refused") && (s->refused = number_to(18)) > 0 && word("byte");
        return said_so && (s->byte = number_to(7)) >= 0;
    }
    if (i[0] != 2 && i[0] != 3)
        return 1;
    if (!word(";") || !word("reaches"))
        return 0;
    s->reaches = word("?") ? -1 : number_to(WORDS);
    return s->reaches != 0 && word(s->reaches == 1 ? "word" : "words");
}

/* The text that was shown is read back, and is the list: one check. `lines` has what the comments say. */
static said lines[MOST];

static void read_back(void)
{
    static char text[LONGEST_TEXT + 1];
    const size_t length = buffers[TEXT].length, n = buffers[LIST].length / 8;
    uint8_t i[8];
    check("reading back, %s", what);
    memcpy(text, buffers[TEXT].bytes, length);
    text[length] = 0;
    at = text;
    for (size_t k = 0; k < n; k++) {
        const char *start = at;
        const int as_bytes = strncmp(at, "bytes", 5) == 0;
        if (!read_instruction(i) || !read_comment(i, &lines[k], as_bytes) || *at != '\n' || at[-1] == ' ' || memcmp(i, buffers[LIST].bytes + 8 * k, 8) != 0) {
            wrong("a line is not the instruction");
            break;
        }
        if (++at - start > LINE)
            wrong("a line has over 192 characters");
    }
    count();
}

/* Both calls with room for just what they write, and the text read back: three checks. */
static void ask_and_read(int end)
{
    ask_both(0, end);
    read_back();
}

/* ---- instructions with their lines, and what they reach in a run that starts with mode 15 in A and 255 in B */

static const struct {
    uint8_t bytes[8];
    const char *line;
    unsigned reaches;
} instructions[] = {
    {{0, 0, 1, 0, 7, 1, 0x30, 0x46}, "logic x-if-y+y xor slice 7 flip 1 shift 1 mod 8", 0},
    {{0, 0, 1, 255, 0, 0, 0, 0x00}, "logic x zero word 0", 0},
    {{0, 0, 1, 1, 255, 0, 0, 0x11}, "logic y nor mode 1 address 255", 0},
    {{0, 0, 1, 254, 99, 255, 0, 0x22}, "logic both 2 mode 254 address 99 flip 255", 0},
    {{0, 0, 2, 0, 100, 0, 0x10, 0x33}, "logic x-if-y not mode a address 100 shift 1 mod 2", 0},
    {{0, 0, 3, 0, 9, 10, 0x87, 0x44}, "logic x-if-y+y clear mode b address 9 flip 10 shift 128 mod 256", 0},
    {{0, 1, 0, 0, 0, 0, 0, 0x05}, "logic x loadnot m", 0},
    {{0, 2, 0, 0, 0, 0, 0x80, 0x17}, "logic y nand x shift 1 mod 256", 0},
    {{0, 3, 0, 0, 0, 128, 0, 0x28}, "logic both and y flip 128", 0},
    {{0, 4, 0, 0, 0, 0, 0x76, 0x39}, "logic x-if-y xnor outside shift 64 mod 128", 0},
    {{0, 2, 0, 0, 0, 0, 0, 0x4A}, "logic x-if-y+y load x", 0},
    {{0, 2, 0, 0, 0, 0, 0, 0x0B}, "logic x 11 x", 0},
    {{0, 2, 0, 0, 0, 0, 0, 0x1C}, "logic y keep x", 0},
    {{0, 2, 0, 0, 0, 0, 0, 0x2D}, "logic both ornot x", 0},
    {{0, 2, 0, 0, 0, 0, 0, 0x3E}, "logic x-if-y or x", 0},
    {{0, 2, 0, 0, 0, 0, 0, 0x4F}, "logic x-if-y+y one x", 0},
    {{1, 0, 1, 0, 255, 0, 0, 0}, "setm slice 255", 0},
    {{1, 0, 3, 0, 0, 9, 0x21, 0}, "setm mode b address 0 flip 9 shift 2 mod 4", 0},
    {{1, 4, 0, 0, 0, 0, 0x43, 0}, "setm outside shift 8 mod 16", 0},
    {{2, 4, 1, 13, 255, 0, 0, 0}, "store mode 13 address 255 from outside ; reaches 32 words", 32},
    {{2, 1, 1, 0, 0, 0, 0, 0}, "store slice 0 from m ; reaches 256 words", 256},
    {{2, 2, 1, 255, 255, 7, 0, 0}, "store word 255 from x flip 7 ; reaches 1 word", 1},
    {{2, 3, 1, 254, 10, 0, 0, 0}, "store mode 254 address 10 from y ; reaches 2 words", 2},
    {{2, 3, 1, 128, 10, 0, 0, 0}, "store mode 128 address 10 from y ; reaches 128 words", 128},
    {{2, 3, 2, 0, 10, 0, 0, 0}, "store mode a address 10 from y ; reaches ? words", 16},
    {{2, 3, 3, 0, 10, 3, 0, 0}, "store mode b address 10 from y flip 3 ; reaches ? words", 1},
    {{3, 1, 1, 255, 9, 128, 0, 0}, "mstore word 9 from m flip 128 ; reaches 1 word", 1},
    {{3, 4, 1, 0, 200, 0, 0, 0}, "mstore slice 200 from outside ; reaches 256 words", 256},
    {{3, 2, 1, 85, 1, 0, 0, 0}, "mstore mode 85 address 1 from x ; reaches 16 words", 16},
    {{3, 3, 2, 0, 0, 0, 0, 0}, "mstore mode a address 0 from y ; reaches ? words", 16},
    {{3, 3, 3, 0, 0, 0, 0, 0}, "mstore mode b address 0 from y ; reaches ? words", 1},
    {{4, 0, 1, 255, 9, 0, 0, 0}, "deliver word 9", 0},
    {{4, 0, 1, 127, 9, 0, 0, 0}, "deliver mode 127 address 9", 0},
    {{4, 0, 2, 0, 9, 0, 0x54, 0}, "deliver mode a address 9 shift 16 mod 32", 0},
    {{4, 3, 0, 0, 0, 1, 0x65, 0}, "deliver y flip 1 shift 32 mod 64", 0},
    {{4, 1, 0, 0, 0, 0, 0x32, 0}, "deliver m shift 4 mod 8", 0},
    {{5, 0, 0, 0, 0, 0, 0, 0}, "resolve", 0},
    {{6, 0, 2, 13, 0, 0, 0, 0}, "set a 13", 0},
    {{6, 0, 3, 0, 0, 0, 0, 0}, "set b 0", 0},
    {{6, 0, 3, 255, 0, 0, 0, 0}, "set b 255", 0},
    {{2, 4, 0, 13, 0, 0, 0, 0}, "bytes 02 04 00 0D 00 00 00 00 ; refused 7 byte 2", 0},
    {{7, 0, 0, 0, 0, 0, 0, 0}, "bytes 07 00 00 00 00 00 00 00 ; refused 5 byte 0", 0},
    {{255, 254, 253, 252, 171, 186, 16, 1}, "bytes FF FE FD FC AB BA 10 01 ; refused 5 byte 0", 0},
    {{0, 5, 0, 0, 0, 0, 0, 0}, "bytes 00 05 00 00 00 00 00 00 ; refused 6 byte 1", 0},
    {{3, 0, 1, 0, 0, 0, 0, 0}, "bytes 03 00 01 00 00 00 00 00 ; refused 6 byte 1", 0},
    {{5, 1, 0, 0, 0, 0, 0, 0}, "bytes 05 01 00 00 00 00 00 00 ; refused 6 byte 1", 0},
    {{6, 0, 0, 9, 0, 0, 0, 0}, "bytes 06 00 00 09 00 00 00 00 ; refused 7 byte 2", 0},
    {{2, 3, 4, 0, 0, 0, 0, 0}, "bytes 02 03 04 00 00 00 00 00 ; refused 8 byte 2", 0},
    {{6, 0, 1, 9, 0, 0, 0, 0}, "bytes 06 00 01 09 00 00 00 00 ; refused 8 byte 2", 0},
    {{0, 2, 1, 0, 0, 0, 0, 0}, "bytes 00 02 01 00 00 00 00 00 ; refused 9 byte 2", 0},
    {{1, 2, 0, 1, 1, 0, 0, 0}, "bytes 01 02 00 01 01 00 00 00 ; refused 9 byte 3", 0},
    {{3, 3, 2, 9, 13, 0, 0, 0}, "bytes 03 03 02 09 0D 00 00 00 ; refused 9 byte 3", 0},
    {{5, 0, 0, 0, 1, 0, 0, 0}, "bytes 05 00 00 00 01 00 00 00 ; refused 9 byte 4", 0},
    {{6, 0, 2, 9, 1, 0, 0, 0}, "bytes 06 00 02 09 01 00 00 00 ; refused 9 byte 4", 0},
    {{5, 0, 0, 0, 0, 1, 1, 0}, "bytes 05 00 00 00 00 01 01 00 ; refused 18 byte 5", 0},
    {{2, 3, 1, 0, 0, 0, 16, 0}, "bytes 02 03 01 00 00 00 10 00 ; refused 18 byte 6", 0},
    {{2, 3, 2, 0, 0, 0, 16, 0}, "bytes 02 03 02 00 00 00 10 00 ; refused 18 byte 6", 0}, /* whether A is set or not */
    {{4, 3, 0, 0, 0, 0, 0x90, 0}, "bytes 04 03 00 00 00 00 90 00 ; refused 16 byte 6", 0},
    {{0, 0, 3, 0, 0, 0, 0x88, 0}, "bytes 00 00 03 00 00 00 88 00 ; refused 17 byte 6", 0},
    {{0, 2, 0, 0, 0, 0, 0, 0x50}, "bytes 00 02 00 00 00 00 00 50 ; refused 11 byte 7", 0},
    {{3, 3, 3, 0, 0, 0, 0, 1}, "bytes 03 03 03 00 00 00 00 01 ; refused 11 byte 7", 0},
};

/* Is the text in hand this one? */
static void shown(const char *text)
{
    check("the text, %s", what);
    if (buffers[TEXT].length != strlen(text) || memcmp(buffers[TEXT].bytes, text, strlen(text)) != 0)
        wrong("it is another than stands here");
    count();
}

static void lines_in_turn(void)
{
    static const uint8_t modes[4] = {1, 15, 1, 255};
    char line[LINE];
    for (size_t i = 0; i < ENDS * COUNT(instructions); i++) {
        const size_t k = i / ENDS;
        of("of an instruction: %s", instructions[k].line);
        lend_list(modes, instructions[k].bytes, 8, (int)(i % ENDS));
        ask_and_read((int)(i % ENDS));
        snprintf(line, sizeof line, "%s\n", instructions[k].line);
        shown(line);
        check("the count, %s", what);
        if (count_of(0) != instructions[k].reaches)
            wrong("it is another than stands here");
        count();
    }
    function("instructions");
}

/* ---- lists whose text and counts stand here, with the mode registers that the run starts with: the text knows nothing of those */

enum { FEW = 7 };
#define SET_A(mode) {STARAN_SET_MODE(STARAN_TAG_A, mode)}
#define SET_B(mode) {STARAN_SET_MODE(STARAN_TAG_B, mode)}
#define BY(tag) {STARAN_STORE_BY(STARAN_SOURCE_Y, tag, 13, 0)}
#define MASKED_BY(tag) {STARAN_MASKED_STORE_BY(STARAN_SOURCE_X, tag, 0, 0)}
#define UNSET(r) "store mode " r " address 13 from y ; reaches ? words\n"
#define REACHES(r, words) "store mode " r " address 13 from y ; reaches " words "\n"
static const struct {
    const char *name;
    uint8_t modes[4];
    size_t count;
    uint8_t list[FEW][8];
    const char *text;
    unsigned reaches[FEW];
} lists[] = {
    {"none", {0}, 0, {{0}}, "", {0}},
    {"none, and both registers set", {1, 255, 1, 255}, 0, {{0}}, "", {0}},
    {"the list of docs/TEXT.md",
     {0},
     7,
     {SET_A(13), {2, 4, 2, 0, 255}, {0, 0, 1, 0, 7, 1, 0x30, 0x46}, {3, 1, 1, 255, 9, 128}, {4, 0, 1, 255, 9}, {5}, {2, 4, 0, 13}},
     "set a 13\nstore mode a address 255 from outside ; reaches 32 words\nlogic x-if-y+y xor slice 7 flip 1 shift 1 mod 8\nmstore word 9 from m flip 128 ; reaches 1 word\n"
     "deliver word 9\nresolve\nbytes 02 04 00 0D 00 00 00 00 ; refused 7 byte 2\n",
     {0, 32, 0, 1, 0, 0, 0}},
    {"by A and B, neither of which is set", {0}, 2, {BY(2), BY(3)}, UNSET("a") UNSET("b"), {0, 0}},
    {"by A and B, of which A is set at the start", {1, 255, 0, 0}, 2, {BY(2), BY(3)}, UNSET("a") UNSET("b"), {1, 0}},
    {"by A and B, of which B is set at the start", {0, 0, 1, 0}, 2, {BY(2), BY(3)}, UNSET("a") UNSET("b"), {0, 256}},
    {"by A and B, which are set at the start", {1, 3, 1, 7}, 2, {BY(2), BY(3)}, UNSET("a") UNSET("b"), {64, 32}},
    {"A set", {0}, 3, {SET_A(0), BY(2), BY(3)}, "set a 0\n" REACHES("a", "256 words") UNSET("b"), {0, 256, 0}},
    {"B set", {0}, 3, {SET_B(255), BY(2), BY(3)}, "set b 255\n" UNSET("a") REACHES("b", "1 word"), {0, 0, 1}},
    {"A set behind the store", {0}, 2, {BY(2), SET_A(7)}, UNSET("a") "set a 7\n", {0, 0}},
    {"A set, and set again",
     {0},
     6,
     {SET_A(7), BY(2), SET_A(255), BY(2), SET_A(0), BY(2)},
     "set a 7\n" REACHES("a", "32 words") "set a 255\n" REACHES("a", "1 word") "set a 0\n" REACHES("a", "256 words"),
     {0, 32, 0, 1, 0, 256}},
    {"B set twice", {1, 1, 1, 1}, 3, {SET_B(0), SET_B(240), BY(3)}, "set b 0\nset b 240\n" REACHES("b", "16 words"), {0, 0, 16}},
    {"set at the start, and set again", {1, 255, 1, 255}, 4, {BY(2), SET_A(127), BY(2), BY(3)}, UNSET("a") "set a 127\n" REACHES("a", "2 words") UNSET("b"), {1, 0, 2, 1}},
    {"masked stores by both",
     {0},
     4,
     {SET_A(63), SET_B(192), MASKED_BY(2), MASKED_BY(3)},
     "set a 63\nset b 192\nmstore mode a address 0 from x ; reaches 4 words\nmstore mode b address 0 from x ; reaches 64 words\n",
     {0, 0, 4, 64}},
    {"a kind 6 that is refused by byte 7, and sets B",
     {1, 0, 0, 0},
     3,
     {BY(3), {6, 0, 3, 255, 0, 0, 0, 1}, BY(3)},
     UNSET("b") "bytes 06 00 03 FF 00 00 00 01 ; refused 11 byte 7\n" REACHES("b", "1 word"),
     {0, 0, 1}},
    {"a kind 6 that is refused by its source, and sets A",
     {0},
     2,
     {{6, 1, 2, 15, 9, 9, 9, 9}, BY(2)},
     "bytes 06 01 02 0F 09 09 09 09 ; refused 6 byte 1\n" REACHES("a", "16 words"),
     {0, 16}},
    {"a kind 6 that is refused by a flip, and sets A again",
     {0},
     3,
     {SET_A(255), {6, 0, 2, 1, 0, 1, 0, 0}, BY(2)},
     "set a 255\nbytes 06 00 02 01 00 01 00 00 ; refused 18 byte 5\n" REACHES("a", "128 words"),
     {0, 0, 128}},
    {"kinds 6 that name no register, and set none",
     {0, 0, 1, 31},
     5,
     {{6, 0, 0, 255}, {6, 0, 1, 255}, {6, 0, 4, 255}, BY(2), BY(3)},
     "bytes 06 00 00 FF 00 00 00 00 ; refused 7 byte 2\nbytes 06 00 01 FF 00 00 00 00 ; refused 8 byte 2\nbytes 06 00 04 FF 00 00 00 00 ; refused 8 byte 2\n" UNSET("a") UNSET("b"),
     {0, 0, 0, 0, 8}},
    {"other kinds with a register's tag, which set none",
     {0},
     4,
     {{2, 3, 2, 9, 13}, {7, 0, 2, 9}, {4, 0, 3, 0, 9}, BY(2)},
     "bytes 02 03 02 09 0D 00 00 00 ; refused 9 byte 3\nbytes 07 00 02 09 00 00 00 00 ; refused 5 byte 0\ndeliver mode b address 9\n" UNSET("a"),
     {0, 0, 0, 0}},
    {"refused stores by registers that are set",
     {1, 0, 1, 0},
     3,
     {{2, 3, 2, 0, 13, 0, 1, 0}, {3, 5, 3, 0, 13}, {3, 1, 3, 0, 13, 0, 0, 16}},
     "bytes 02 03 02 00 0D 00 01 00 ; refused 18 byte 6\nbytes 03 05 03 00 0D 00 00 00 ; refused 6 byte 1\nbytes 03 01 03 00 0D 00 00 10 ; refused 11 byte 7\n",
     {0, 0, 0}},
};

static void lists_in_turn(void)
{
    for (size_t i = 0; i < ENDS * COUNT(lists); i++) {
        const size_t l = i / ENDS;
        of("of a list: %s", lists[l].name);
        lend_list(lists[l].modes, lists[l].list[0], 8 * lists[l].count, (int)(i % ENDS));
        ask_and_read((int)(i % ENDS));
        shown(lists[l].text);
        check("the counts, %s", what);
        for (size_t k = 0; k < lists[l].count; k++)
            if (count_of(k) != lists[l].reaches[k])
                wrong("one is another than stands here");
        count();
    }
    function("lists");
}

/* ---- every value of every byte, behind lists that set registers or not, and before stores by both */

/* Beside each instruction, with how many values of each of its bytes it is not refused by itself. */
static const struct {
    const char *name;
    uint8_t bytes[8];
    unsigned stand[8];
} each[] = {
    {"logic, memory", {0, 0, 1, 7, 45, 90, 0x83, 0x46}, {1, 1, 1, 256, 256, 256, 37, 80}},
    {"logic, memory, by A", {0, 0, 2, 0, 45, 0, 0, 0x1A}, {1, 1, 3, 1, 256, 256, 37, 80}},
    {"logic, X", {0, 2, 0, 0, 0, 0, 0x10, 0}, {3, 4, 1, 1, 1, 256, 37, 80}},
    {"set M, memory", {1, 0, 1, 0, 255, 1, 0, 0}, {3, 1, 3, 256, 256, 256, 37, 1}},
    {"set M, outside", {1, 4, 0, 0, 0, 0, 0x87, 0}, {3, 4, 1, 1, 1, 256, 37, 1}},
    {"store, Y, of a slice", {2, 3, 1, 0, 13, 0, 0, 0}, {2, 4, 3, 256, 256, 256, 1, 1}},
    {"store, outside, by B", {2, 4, 3, 0, 200, 5, 0, 0}, {2, 4, 3, 1, 256, 256, 1, 1}},
    {"masked store, M, mode 170", {3, 1, 1, 170, 0, 0, 0, 0}, {2, 4, 1, 256, 256, 256, 1, 1}},
    {"masked store, X, by A", {3, 2, 2, 0, 7, 128, 0, 0}, {2, 4, 3, 1, 256, 256, 1, 1}},
    {"deliver, of a word", {4, 0, 1, 255, 9, 0, 0, 0}, {3, 1, 1, 256, 256, 256, 37, 1}},
    {"deliver, memory, by B", {4, 0, 3, 0, 9, 0, 0x21, 0}, {3, 1, 3, 1, 256, 256, 37, 1}},
    {"deliver, Y", {4, 3, 0, 0, 0, 255, 0, 0}, {3, 4, 1, 1, 1, 256, 37, 1}},
    {"resolve", {5, 0, 0, 0, 0, 0, 0, 0}, {1, 1, 1, 1, 1, 1, 1, 1}},
    {"setting A to 0", {6, 0, 2, 0, 0, 0, 0, 0}, {4, 1, 2, 256, 1, 1, 1, 1}},
    {"setting B to 255", {6, 0, 3, 255, 0, 0, 0, 0}, {1, 1, 2, 256, 1, 1, 1, 1}},
    {"a store with no tag", {2, 4, 0, 13, 0, 0, 0, 0}, {0, 0, 1, 0, 0, 0, 0, 0}},
    {"nothing at all", {255, 255, 255, 255, 255, 255, 255, 255}, {0, 0, 0, 0, 0, 0, 0, 0}},
};

static const struct {
    size_t count;
    uint8_t list[2][8];
} before[] = {{0, {{0}}},
              {1, {SET_A(13)}},
              {2, {SET_B(0), SET_A(254)}},
              {2, {{6, 0, 2, 3, 0, 0, 0, 1}, BY(2)}},
              {2, {{6, 0, 1, 0}, SET_B(255)}}};
static const uint8_t states[][4] = {{0, 0, 0, 0}, {1, 0, 1, 255}, {1, 90, 0, 0}, {0, 0, 1, 7}};

/* One instruction with one byte altered. Is it not refused by itself? */
static int altered(size_t k, size_t byte, uint8_t value, size_t b, size_t turn)
{
    static const uint8_t behind[][8] = {BY(2), MASKED_BY(3)};
    const size_t place = before[b].count;
    const int end = (int)(turn % ENDS);
    uint8_t list[sizeof before[b].list + 8 + sizeof behind];
    memcpy(list, before[b].list, 8 * place);
    memcpy(list + 8 * place, each[k].bytes, 8);
    memcpy(list + 8 * place + 8, behind, sizeof behind);
    list[8 * place + byte] = value;
    of("%s, byte %zu is %u, behind list %zu", each[k].name, byte, value, b);
    lend_list(states[turn / ENDS % COUNT(states)], list, 8 * place + 8 + sizeof behind, end);
    ask_both(turn % 3, end);
    const uint8_t *text = buffers[TEXT].expected;
    for (size_t line = 0; line < place; text++)
        line += *text == '\n';
    return memcmp(text, "bytes", 5) != 0;
}

static void every_byte(void)
{
    size_t turn = 0;
    for (size_t k = 0; k < COUNT(each); k++)
        for (size_t byte = 0; byte < 8; byte++)
            for (size_t b = 0; b < COUNT(before); b++, turn++) {
                unsigned stand = 0;
                for (size_t value = 0; value < 256; value++)
                    stand += (unsigned)altered(k, byte, (uint8_t)value, b, turn + value);
                check("every byte %zu of %s, behind list %zu", byte, each[k].name, b);
                if (stand != each[k].stand[byte])
                    wrong("more or fewer values than stand here are not refused");
                count();
            }
    function("every byte");
}

/* ---- every mode of a store, given and by either register; and every byte 6 and 7, each list the whole of them */

static unsigned power_of_zeros(unsigned mode)
{
    unsigned words = 256;
    for (; mode != 0; mode >>= 1)
        words >>= mode & 1;
    return words;
}

static uint8_t drawn[LONGEST_LIST]; /* the list in hand */

static void all_modes(void)
{
    for (int i = 0; i < 2 * 3 * ENDS; i++) {
        const uint8_t kind = (uint8_t)(2 + i % 2), tag = (uint8_t)(1 + i / 2 % 3);
        const int end = i / 6;
        for (size_t mode = 0; mode < 256; mode++) {
            const uint8_t set[8] = {6, 0, tag == 1 ? 2 : tag, (uint8_t)mode, 0, 0, 0, 0}, store[8] = {kind, 3, tag, tag == 1 ? (uint8_t)mode : 0, (uint8_t)draw(), (uint8_t)draw(), 0, 0};
            memcpy(drawn + 16 * mode, set, 8);
            memcpy(drawn + 16 * mode + 8, store, 8);
        }
        of("of stores of kind %u under every mode, tag %u", kind, tag);
        lend_list(draw_modes(), drawn, 16 * 256, end);
        ask_and_read(end);
        check("the counts, %s", what);
        for (unsigned mode = 0; mode < 256; mode++)
            if (count_of(2 * mode) != 0 || count_of(2 * mode + 1) != power_of_zeros(mode) || lines[2 * mode + 1].reaches != (int)power_of_zeros(mode))
                wrong("one is not 2 to the number of the mode's zero bits");
        count();
    }
    function("every mode");
}

static void all_moves_and_logic(void)
{
    for (size_t i = 0; i < ENDS * 2 * COUNT(each); i++) {
        const size_t k = i / ENDS / 2, byte = 6 + i / ENDS % 2;
        const int end = (int)(i % ENDS);
        unsigned stand = 0;
        for (size_t value = 0; value < 256; value++) {
            memcpy(drawn + 8 * value, each[k].bytes, 8);
            drawn[8 * value + byte] = (uint8_t)value;
        }
        of("of every byte %zu in %s", byte, each[k].name);
        lend_list(draw_modes(), drawn, 8 * 256, end);
        ask_and_read(end);
        check("how many are refused, %s", what);
        for (size_t value = 0; value < 256; value++)
            stand += lines[value].refused == 0;
        if (stand != each[k].stand[byte])
            wrong("they are more or fewer");
        count();
    }
    function("moves and logic");
}

/* ---- lists that are drawn: of good instructions, of good ones some of which are spoiled, and of any bytes */

enum { DRAWN = 12000, LONG = 120, LONGEST_DRAWN = 24 };

static void draw_good(uint8_t i[8])
{
    static const uint8_t kinds[] = {0, 0, 1, 2, 2, 2, 3, 3, 3, 4, 5, 6, 6, 6};
    memset(i, 0, 8);
    i[0] = kinds[draw() % COUNT(kinds)];
    const int stores = i[0] == 2 || i[0] == 3;
    if (i[0] < 5)
        i[1] = (uint8_t)(stores ? 1 + draw() % 4 : draw() % 2 * (draw() % 5));
    if (stores || (i[0] < 5 && i[1] == 0)) {
        i[2] = (uint8_t)(1 + draw() % 3);
        i[4] = (uint8_t)draw();
    }
    if (i[0] == 6)
        i[2] = (uint8_t)(2 + draw() % 2);
    if (i[0] == 6 || i[2] == 1)
        i[3] = draw() % 4 == 0 ? (uint8_t)(draw() % 2 * 255) : (uint8_t)draw();
    if (i[0] < 5)
        i[5] = (uint8_t)(draw() % 2 * draw());
    if (i[0] < 5 && !stores && draw() % 2 == 0) {
        const unsigned p = 1 + (unsigned)(draw() % 8);
        i[6] = (uint8_t)(16 * p + draw() % p);
    }
    if (i[0] == 0)
        i[7] = (uint8_t)(draw() % 80);
}

/* Of sixteen instructions so many are spoiled in one byte or more. */
static void draw_list(size_t n, unsigned spoiled)
{
    static const uint8_t others[] = {0, 1, 2, 3, 4, 5, 6, 7, 15, 16, 80, 144, 159, 255};
    for (size_t k = 0; k < n; k++) {
        draw_good(drawn + 8 * k);
        if (draw() % 16 < spoiled)
            do
                drawn[8 * k + draw() % 8] = draw() % 2 == 0 ? (uint8_t)draw() : others[draw() % COUNT(others)];
            while (draw() % 4 == 0);
    }
}

/* What was said of the lists that were drawn: each is said often. */
static struct {
    unsigned refused[32], reaches[1 + WORDS], unset, set_apart;
} seen;

/* What a text says of an instruction's own bytes is what a step says of it where both mode registers are set, in whatever list it stands: one check. What it says of words is
 * what the counts are, but where a register is set at the start. */
static void hold_lines(size_t n, const uint8_t modes[4])
{
    static uint8_t memory[STARAN_MEMORY_BYTES], item[STARAN_ITEM_BYTES], out[STARAN_ITEM_BYTES];
    staran_registers record;
    uint32_t answer[STARAN_RUN_NUMBERS];
    check("a step of each, %s", what);
    memset(&record, 0, sizeof record);
    for (size_t k = 0; k < n; k++) {
        record.a_set = record.b_set = 1;
        staran_step_5(memory, sizeof memory, &record, drawn + 8 * k, 8, item, sizeof item, out, sizeof out, answer);
        if (lines[k].refused != (int)answer[STARAN_ANSWER_NUMBER] || lines[k].byte != (int)answer[STARAN_ANSWER_BYTE])
            wrong("the text refuses it otherwise");
        if (lines[k].reaches >= 0 && count_of(k) != (unsigned)lines[k].reaches)
            wrong("the text says another count");
        if (lines[k].reaches < 0 && (count_of(k) != 0) != (modes[2 * (drawn[8 * k + 2] - 2)] == 1))
            wrong("the count of a store by a register that is not set in the list");
        seen.refused[lines[k].refused]++;
        seen.unset += lines[k].reaches < 0 && count_of(k) == 0;
        seen.set_apart += lines[k].reaches < 0 && count_of(k) != 0;
        if (lines[k].reaches >= 0)
            seen.reaches[lines[k].reaches]++;
    }
    count();
}

/* Six lengths of out and of text about those that are needed, or far from them; of text at the most that is ever needed too. */
static void ask_about(int end)
{
    const size_t counts_need = STARAN_REACH_BYTES(buffers[LIST].length), text_need = shown_length(), enough = STARAN_TEXT_BYTES(buffers[LIST].length);
    const size_t outs[] = {0, counts_need / 2, counts_need - (counts_need > 0), counts_need, counts_need + 1, counts_need + 40};
    const size_t texts[] = {0, text_need / 2, text_need - (text_need > 0), text_need, text_need + 1, enough};
    for (size_t k = 0; k < COUNT(outs); k++) {
        const uint32_t stands[] = {outs[k] < counts_need ? 27 : 0, outs[k] < counts_need ? 0 : (uint32_t)counts_need};
        ask_reach(outs[k], stands, end);
    }
    for (size_t k = 0; k < COUNT(texts); k++) {
        const uint32_t stands[] = {texts[k] < text_need ? 27 : 0, texts[k] < text_need ? 0 : (uint32_t)text_need};
        ask_show(texts[k], stands, end);
    }
}

static void drawn_lists(void)
{
    static const int numbers[] = {0, 5, 6, 7, 8, 9, 11, 16, 17, 18};
    for (int i = 0; i < DRAWN + LONG; i++) {
        const size_t n = i < DRAWN ? draw() % (LONGEST_DRAWN + 1) : draw() % 2 == 0 ? MOST : draw() % (MOST + 1);
        const int end = i % ENDS;
        uint8_t modes[4];
        memcpy(modes, draw_modes(), 4);
        if (i % 4 == 3)
            draw_bytes(drawn, 8 * n);
        else
            draw_list(n, (unsigned)(i % 4) * 3);
        of("of drawn list %d", i);
        lend_list(modes, drawn, 8 * n, end);
        ask_and_read(end);
        hold_lines(n, modes);
        if (i % 8 < 4)
            ask_about(end);
    }
    check("drawn lists: what is said of them");
    for (size_t k = 0; k < COUNT(numbers); k++)
        if (seen.refused[numbers[k]] < 500)
            wrong("a number is hardly drawn");
    for (unsigned words = 1; words <= WORDS; words *= 2)
        if (seen.reaches[words] < 500)
            wrong("a count is hardly drawn");
    if (seen.unset < 500 || seen.set_apart < 500)
        wrong("a register that is not set is hardly drawn");
    count();
    function("drawn lists");
}

/* ---- every length of a short text and of its counts; and the longest lists, of the longest line too */

static void every_length(void)
{
    static const uint8_t few[][8] = {{0, 2, 0, 0, 0, 0, 0, 0x46}, BY(2), SET_B(7), MASKED_BY(3), {9}};
    of("of five instructions");
    for (int end = 0; end < ENDS; end++) {
        lend_list(states[2], few[0], sizeof few, end);
        const size_t text = shown_length();
        for (size_t room = 0; room <= text + 2; room++)
            ask_show(room, NULL, end);
        for (size_t room = 0; room <= STARAN_REACH_BYTES(sizeof few) + 2; room++)
            ask_reach(room, NULL, end);
    }
    static const uint8_t longest[][8] = {{0, 0, 1, 254, 255, 255, 0x87, 0x45}, {2, 4, 1, 128, 255, 255, 0, 0}, {255, 255, 255, 255, 255, 255, 255, 255}, {5}};
    for (size_t i = 0; i < ENDS * COUNT(longest); i++) {
        for (size_t k = 0; k < MOST; k++)
            memcpy(drawn + 8 * k, longest[i / ENDS], 8);
        of("of 4,096 of instruction %zu", i / ENDS);
        lend_list(states[1], drawn, LONGEST_LIST, (int)(i % ENDS));
        ask_and_read((int)(i % ENDS));
        ask_about((int)(i % ENDS));
    }
    function("every length");
}

/* ---- every set of the faults 2, 3, 15 and 27: the first is answered, and nothing is written */

static void faults(void)
{
    static const size_t not_100[] = {0, 1, 96, 99, 101, 104, 65536}, not_lists[] = {1, 7, 9, 32767, 32769, 32776, 65536}, whole[] = {8, 16, 800, 32760, 32768};
    static const uint8_t bad[][4] = {{2, 0, 0, 0}, {0, 1, 0, 0}, {0, 0, 255, 0}, {1, 7, 0, 255}, {255, 255, 255, 255}};
    static const uint8_t fit[][4] = {{0, 0, 0, 0}, {1, 255, 0, 0}, {0, 0, 1, 0}, {1, 7, 1, 255}, {1, 0, 1, 0}};
    static uint8_t list[65536];
    enum { TWO = 1, THREE = 2, FIFTEEN = 4, SHORT = 8, SETS = 16 };
    const size_t ways = COUNT(not_100) * COUNT(not_lists) * COUNT(bad) * ENDS;
    for (size_t k = 0; k < sizeof list; k++)
        list[k] = each[8].bytes[k % 8];
    for (size_t i = 0; i < SETS * ways; i++) {
        const size_t set = i / ways, r = i / ENDS % COUNT(not_100), l = i / ENDS / COUNT(not_100) % COUNT(not_lists), m = i / ENDS / COUNT(not_100) / COUNT(not_lists) % COUNT(bad);
        const size_t registers = set & TWO ? not_100[r] : 100, length = set & THREE ? not_lists[l] : whole[l % COUNT(whole)], need = STARAN_REACH_BYTES(length);
        const size_t room = set & SHORT ? (r % 2 == 0 || need == 0 ? 0 : need - 1) : need + r;
        const uint32_t number = set & TWO ? 2 : set & THREE ? 3 : set & FIFTEEN ? 15 : set & SHORT ? 27 : 0, stands[] = {number, number == 0 ? (uint32_t)need : 0};
        const int end = (int)(i % ENDS);
        of("of the set of faults %zu: registers %zu, mode registers %zu, list %zu", set, registers, m, length);
        nothing_lent(end);
        lend_registers(set & FIFTEEN ? bad[m] : fit[m], registers, end);
        lend_bytes(LIST, list, length, end);
        ask_reach(room, stands, end);
        if (m != 0 || set >= FIFTEEN)
            continue;
        /* of the text 3 and then 27, which it is not where the registers are wrong here: then there is room */
        const size_t text = 58 * (length / 8); /* a line has 58 characters */
        const uint32_t of_text = set & THREE ? 3 : set & TWO ? 0 : 27, stand[] = {of_text, of_text == 0 ? (uint32_t)text : 0};
        lend(REGISTERS, 0, end);
        ask_show(set & TWO ? text + r : r % 2 == 0 || text == 0 ? 0 : text - 1, stand, end);
    }
    function("faults");
}

/* ---- buffers that begin at any byte */

static void alignments(void)
{
    enum { FARTHEST = 17, FREE = 0x5C };
    static uint8_t registers[100 + FARTHEST], list[8 * LONGEST_DRAWN + FARTHEST], out[2 * LONGEST_DRAWN + FARTHEST], text[LINE * LONGEST_DRAWN + FARTHEST];
    static uint8_t known_out[sizeof out], known_text[sizeof text];
    for (int i = 0; i < 4 * FARTHEST * FARTHEST; i++) {
        const size_t a = (size_t)i % FARTHEST, b = (size_t)(i / FARTHEST) % FARTHEST, n = draw() % (LONGEST_DRAWN + 1);
        uint32_t answer[2] = {1, 1}, known[2];
        draw_list(n, 2);
        memcpy(list + a, drawn, 8 * n);
        draw_bytes(registers, sizeof registers);
        memcpy(registers + b + 96, draw_modes(), 4);
        memset(out, FREE, sizeof out);
        memset(known_out, FREE, sizeof out);
        memset(text, FREE, sizeof text);
        memset(known_text, FREE, sizeof text);
        check("reach of a list at %zu with registers at %zu", a, b);
        model_reach(registers + b, 100, drawn, 8 * n, known_out + (a + b) % FARTHEST, 2 * n, known);
        staran_reach(registers + b, 100, list + a, 8 * n, out + (a + b) % FARTHEST, 2 * n, answer);
        answered(answer, 2, known);
        if (memcmp(out, known_out, sizeof out) != 0 || memcmp(list + a, drawn, 8 * n) != 0)
            wrong("a buffer is not as it must be");
        count();
        check("show of a list at %zu into a text at %zu", a, b);
        model_show(drawn, 8 * n, known_text + b, sizeof text - FARTHEST, known);
        staran_show(list + a, 8 * n, text + b, sizeof text - FARTHEST, answer);
        answered(answer, 2, known);
        if (memcmp(text, known_text, sizeof text) != 0 || memcmp(list + a, drawn, 8 * n) != 0)
            wrong("a buffer is not as it must be");
        count();
    }
    function("alignments");
}

/* ---- what is reached, by runs */

/* The words in which two memories differ, as marks, and how many they are: bit b of word w is bit b mod 8 of byte 32 * (b xor w) + b div 8. */
static unsigned differing(const uint8_t *one, const uint8_t *other, uint8_t words[32])
{
    unsigned all = 0;
    memset(words, 0, 32);
    for (int k = 0; k < STARAN_MEMORY_BYTES; k++)
        for (int bit = 0, by = one[k] ^ other[k]; by >> bit != 0; bit++)
            if (by >> bit & 1)
                mark(words, (k / 32) ^ (8 * (k % 32) + bit));
    for (int w = 0; w < WORDS; w++)
        all += (unsigned)marked(words, w);
    return all;
}

/* The words that a store meets, by the header's words: line P meets word (M and G) xor ((not M) and P). */
static void meets(uint8_t words[32], unsigned mode, unsigned address)
{
    memset(words, 0, 32);
    for (unsigned line = 0; line < 256; line++)
        mark(words, (int)((mode & address) ^ ((255 - mode) & line)));
}

static int within(const uint8_t *few, const uint8_t *many)
{
    for (int k = 0; k < 32; k++)
        if (few[k] & ~many[k])
            return 0;
    return 1;
}

/* How a store gets its mode: it is given, stands in A or B at the start, or is set there. */
enum { GIVEN, IN_A, IN_B, SET_IN_A, SET_IN_B, WAYS };
enum { ONES, ZEROS, ANY, STORED };
static const char *const stored[STORED] = {"ones over zeros", "zeros over ones", "anything over anything"};

/* A run of a store, or of a kind 6 and a store: what it is said to reach, its run, and the words that it changes are three checks. */
static void run_store(unsigned mode, int way, uint8_t kind, int over, int turn)
{
    const int end = turn % ENDS, sets = way >= SET_IN_A, masked = kind == STARAN_KIND_MASKED_STORE;
    const uint8_t tag = way == GIVEN ? 1 : way == IN_A || way == SET_IN_A ? 2 : 3, source = (uint8_t)(over == ANY || !masked ? 1 + turn % 4 : 2 + turn % 3);
    const uint8_t address = (uint8_t)draw(), flip = (uint8_t)(draw() % 2 * draw());
    const uint8_t set[8] = {6, 0, tag, (uint8_t)mode, 0, 0, 0, 0}, store[8] = {kind, source, tag, way == GIVEN ? (uint8_t)mode : 0, address, flip, 0, 0};
    const uint32_t done[STARAN_RUN_NUMBERS] = {[STARAN_ANSWER_STEPS] = 1 + (uint32_t)sets, [STARAN_ANSWER_TAKEN] = source == 4};
    uint8_t modes[4] = {0}, changed[32], met[32], memory[STARAN_MEMORY_BYTES];
    if (way == IN_A || way == IN_B) {
        modes[2 * tag - 4] = 1;
        modes[2 * tag - 3] = (uint8_t)mode;
    }
    memcpy(drawn, sets ? set : store, 8);
    memcpy(drawn + 8, store, 8);
    of("of a store of kind %u under mode %u, address %u, way %d, %s", kind, mode, address, way, stored[over]);
    lend_list(modes, drawn, 8 + 8 * (size_t)sets, end);
    ask_reach(2 + 2 * (size_t)sets, NULL, end);
    memcpy(counts, buffers[OUT].bytes, buffers[OUT].length);
    check("run, %s", what);
    lend(OUT, 0, end);
    lend(MEMORY, STARAN_MEMORY_BYTES, end);
    lend(ITEMS, 32, end);
    draw_bytes(buffers[MEMORY].bytes, STARAN_MEMORY_BYTES);
    draw_bytes(buffers[ITEMS].bytes, 32);
    if (over != ANY) {
        memset(buffers[MEMORY].bytes, over == ONES ? 0 : 255, STARAN_MEMORY_BYTES);
        memset(buffers[ITEMS].bytes, over == ONES ? 255 : 0, 32);
        memset(buffers[REGISTERS].bytes, over == ONES ? 255 : 0, 96);
        if (masked)
            memset(buffers[REGISTERS].bytes, 255, 32);
    }
    memcpy(memory, buffers[MEMORY].bytes, sizeof memory);
    memcpy(buffers[ITEMS].expected, buffers[ITEMS].bytes, 32);
    memcpy(buffers[REGISTERS].expected, buffers[REGISTERS].bytes, 100);
    if (sets) {
        buffers[REGISTERS].expected[96 + 2 * tag - 4] = 1;
        buffers[REGISTERS].expected[96 + 2 * tag - 3] = (uint8_t)mode;
    }
    uint32_t *answer = lend_answer(STARAN_RUN_NUMBERS, end);
    staran_run_4(WHOLE(MEMORY), WHOLE(REGISTERS), WHOLE(LIST), WHOLE(ITEMS), WHOLE(OUT), answer);
    memcpy(buffers[MEMORY].expected, buffers[MEMORY].bytes, STARAN_MEMORY_BYTES);
    settle(answer, STARAN_RUN_NUMBERS, done);
    check("the words changed, %s", what);
    const unsigned words = differing(memory, buffers[MEMORY].bytes, changed);
    meets(met, mode, address);
    if (words > count_of((size_t)sets) || (over != ANY && words != count_of((size_t)sets)))
        wrong("they are not as many as it reaches");
    if (!within(changed, met) || (over != ANY && !within(met, changed)))
        wrong("they are not those that it meets");
    count();
}

static void every_store_runs(void)
{
    int turn = 0;
    for (unsigned mode = 0; mode < 256; mode++)
        for (int way = 0; way < WAYS; way++)
            for (uint8_t kind = 2; kind <= 3; kind++)
                for (int over = 0; over < STORED; over++, turn++)
                    run_store(mode, way, kind, over, turn + way);
    function("runs of stores");
}

/* The instructions of drawn lists, one step after the other, up to the first that is refused: each changes at most so many words, none where the count is 0; the count is
 * not 0 exactly of a store that is not refused. */
static void steps(void)
{
    static unsigned changing[1 + WORDS], refused[32];
    static const int numbers[] = {5, 6, 7, 8, 9, 11, 14, 16, 17, 18};
    for (int i = 0; i < DRAWN; i++) {
        const size_t n = 1 + draw() % LONGEST_DRAWN;
        const int end = i % ENDS;
        uint8_t modes[4], memory[STARAN_MEMORY_BYTES], old[STARAN_MEMORY_BYTES], changed[32], item[STARAN_ITEM_BYTES], given[STARAN_ITEM_BYTES];
        uint32_t answer[STARAN_RUN_NUMBERS] = {0};
        staran_registers record;
        draw_list(n, (unsigned)(i % 3));
        memcpy(modes, draw_modes(), 4);
        of("of drawn list %d, before steps", i);
        lend_list(modes, drawn, 8 * n, end);
        ask_reach(2 * n, NULL, end);
        memcpy(counts, buffers[OUT].bytes, 2 * n);
        memcpy(&record, buffers[REGISTERS].bytes, sizeof record);
        draw_bytes(memory, sizeof memory);
        check("steps of drawn list %d", i);
        for (size_t k = 0; k < n && answer[STARAN_ANSWER_NUMBER] == 0; k++) {
            memcpy(old, memory, sizeof old);
            draw_bytes(item, sizeof item);
            staran_step_5(memory, sizeof memory, &record, drawn + 8 * k, 8, item, sizeof item, given, sizeof given, answer);
            const unsigned words = differing(old, memory, changed);
            const int stores = answer[STARAN_ANSWER_NUMBER] == 0 && (drawn[8 * k] == 2 || drawn[8 * k] == 3);
            if (words > count_of(k))
                wrong("a step changes more words than it reaches");
            if ((count_of(k) != 0) != stores)
                wrong("what does not store, or is refused, reaches a word, or a store reaches none");
            if (stores)
                changing[count_of(k)] += words > count_of(k) / 4;
            refused[answer[STARAN_ANSWER_NUMBER] % 32]++;
        }
        count();
    }
    check("steps of drawn lists: they change words, and every number is given");
    for (unsigned words = 1; words <= WORDS; words *= 2)
        if (changing[words] < 200)
            wrong("hardly a store changes words");
    for (size_t k = 0; k < COUNT(numbers); k++)
        if (refused[numbers[k]] < 20)
            wrong("a number is hardly given");
    count();
    function("steps");
}

int texts(void)
{
    lines_in_turn();
    lists_in_turn();
    every_byte();
    all_modes();
    all_moves_and_logic();
    drawn_lists();
    every_length();
    faults();
    alignments();
    every_store_runs();
    steps();
    return counted();
}
