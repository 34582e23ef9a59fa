/* Has lists made of texts: lines whose instructions stand here, every choice, function, number, shift and byte; lines of every form cut off behind each word, with each
 * word spoiled and with one more; texts whose lists and items stand here, and refused ones with their line and column; limits, and items of one's own; every byte at each
 * place of a name; fields, sums and searches against the builders; the longest texts, lists and items; texts that are drawn, good and damaged; lists that are shown and
 * made again; buffers of every length about the one that is needed, and at any byte; and runs of what was made. Each call is held to the model. */
#include "making.h"

#include "checks.h"
#include "draw.h"
#include "lent.h"
#include "model.h"
#include "staran.h"

#include <ctype.h>
#include <stdarg.h>
#include <stdio.h>
#include <string.h>

enum { MOST_LIST = 32768, MOST_ITEMS = 32768, MUCH = 4096, MANY = STARAN_MAKE_NUMBERS };

/* ---- a call, which is one check: the answer, what is written and every other byte must be as the model says */

static char what[160]; /* which text it is */

static void of(const char *format, ...)
{
    va_list words;
    va_start(words, format);
    vsnprintf(what, sizeof what, format, words);
    va_end(words);
    for (char *c = what; *c != 0; c++)
        if (*c < ' ' || *c > '~')
            *c = '|';
}

/* The text in hand. */
static char text[STARAN_LONGEST_TEXT + 1];
static size_t length;

static void begin(void) { length = 0; }

static void add(const char *format, ...)
{
    va_list words;
    va_start(words, format);
    length += (size_t)vsnprintf(text + length, sizeof text - length, format, words);
    va_end(words);
}

static void add_bytes(const char *bytes, size_t n)
{
    memcpy(text + length, bytes, n);
    length += n;
}

/* What the model answers where there is room for anything. */
static uint8_t known_list[MOST_LIST], known_items[MOST_ITEMS];
static uint32_t known[MANY];

static void ask_model(void) { model_make((const uint8_t *)text, length, known_list, sizeof known_list, known_items, sizeof known_items, known); }

/* With so much room. Where `stands` is not NULL, the model must answer this. */
static void make_with(size_t list, size_t items, const uint32_t *stands, int end)
{
    uint32_t expected[MANY], *answer;
    check("make, %s, with room for %zu and %zu", what, list, items);
    nothing_lent(end);
    lend_bytes(TEXT, (const uint8_t *)text, length, end);
    lend(LIST, list, end);
    lend(ITEMS, items, end);
    model_make(WHOLE(TEXT), buffers[LIST].expected, list, buffers[ITEMS].expected, items, expected);
    if (stands != NULL)
        answered(expected, MANY, stands);
    answer = lend_answer(MANY, end);
    staran_make(WHOLE(TEXT), WHOLE(LIST), WHOLE(ITEMS), answer);
    settle(answer, MANY, expected);
}

/* The text is refused so, whatever the room: with much, and with none. */
static void refused(uint32_t number, uint32_t line, uint32_t column, int end)
{
    const uint32_t stands[MANY] = {number, line, column, 0, 0};
    make_with(MUCH, MUCH, stands, end);
    make_with(0, 0, stands, end);
}

/* The text makes this list and these items, into room for just that. */
static void makes(const uint8_t *list, size_t list_length, const uint8_t *items, size_t items_length, int end)
{
    const uint32_t stands[MANY] = {STARAN_DONE, 0, 0, (uint32_t)list_length, (uint32_t)items_length};
    make_with(list_length, items_length, stands, end);
    check("the list, %s", what);
    if (memcmp(buffers[LIST].bytes, list, list_length) != 0)
        wrong("it is another than stands here");
    if (memcmp(buffers[ITEMS].bytes, items, items_length) != 0)
        wrong("the items are others than stand here");
    count();
}

/* ---- lines with their instructions: alone, and between a comment, blanks and empty lines */

static const struct {
    const char *line;
    uint8_t bytes[8];
} instructions[] = {
    {"logic x-if-y+y xor slice 7 flip 1 shift 1 mod 8", {0, 0, 1, 0, 7, 1, 0x30, 0x46}},
    {"logic x zero word 0", {0, 0, 1, 255, 0, 0, 0, 0x00}},
    {"logic y nor mode 1 address 255", {0, 0, 1, 1, 255, 0, 0, 0x11}},
    {"logic both 2 mode 254 address 99 flip 255", {0, 0, 1, 254, 99, 255, 0, 0x22}},
    {"logic x-if-y not mode a address 100 shift 1 mod 2", {0, 0, 2, 0, 100, 0, 0x10, 0x33}},
    {"logic x-if-y+y clear mode b address 9 flip 10 shift 128 mod 256", {0, 0, 3, 0, 9, 10, 0x87, 0x44}},
    {"logic x loadnot m", {0, 1, 0, 0, 0, 0, 0, 0x05}},
    {"logic y nand x shift 1 mod 256", {0, 2, 0, 0, 0, 0, 0x80, 0x17}},
    {"logic both and y flip 128", {0, 3, 0, 0, 0, 128, 0, 0x28}},
    {"logic x-if-y 11 outside shift 64 mod 128", {0, 4, 0, 0, 0, 0, 0x76, 0x3B}},
    {"logic x 015 x", {0, 2, 0, 0, 0, 0, 0, 0x0F}},
    {"logic x 000 x", {0, 2, 0, 0, 0, 0, 0, 0x00}},
    {"logic y 2 x flip 0", {0, 2, 0, 0, 0, 0, 0, 0x12}},
    {"setm slice 255", {1, 0, 1, 0, 255, 0, 0, 0}},
    {"setm slice 007", {1, 0, 1, 0, 7, 0, 0, 0}},
    {"setm mode 0 address 7", {1, 0, 1, 0, 7, 0, 0, 0}},
    {"setm mode 255 address 07", {1, 0, 1, 255, 7, 0, 0, 0}},
    {"setm mode 000 address 000 flip 000", {1, 0, 1, 0, 0, 0, 0, 0}},
    {"setm mode b address 0 flip 9 shift 2 mod 4", {1, 0, 3, 0, 0, 9, 0x21, 0}},
    {"setm outside shift 8 mod 16", {1, 4, 0, 0, 0, 0, 0x43, 0}},
    {"setm x", {1, 2, 0, 0, 0, 0, 0, 0}},
    {"store mode 13 address 255 from outside", {2, 4, 1, 13, 255, 0, 0, 0}},
    {"store slice 0 from m", {2, 1, 1, 0, 0, 0, 0, 0}},
    {"store word 255 from x flip 7", {2, 2, 1, 255, 255, 7, 0, 0}},
    {"store mode a address 10 from y", {2, 3, 2, 0, 10, 0, 0, 0}},
    {"store mode b address 10 from y flip 3", {2, 3, 3, 0, 10, 3, 0, 0}},
    {"mstore word 9 from m flip 128", {3, 1, 1, 255, 9, 128, 0, 0}},
    {"mstore slice 200 from outside flip 00", {3, 4, 1, 0, 200, 0, 0, 0}},
    {"mstore mode a address 0 from y", {3, 3, 2, 0, 0, 0, 0, 0}},
    {"deliver word 9", {4, 0, 1, 255, 9, 0, 0, 0}},
    {"deliver mode a address 9 shift 16 mod 32", {4, 0, 2, 0, 9, 0, 0x54, 0}},
    {"deliver y flip 1 shift 32 mod 64", {4, 3, 0, 0, 0, 1, 0x65, 0}},
    {"deliver m shift 4 mod 8", {4, 1, 0, 0, 0, 0, 0x32, 0}},
    {"resolve", {5, 0, 0, 0, 0, 0, 0, 0}},
    {"set a 13", {6, 0, 2, 13, 0, 0, 0, 0}},
    {"set b 000", {6, 0, 3, 0, 0, 0, 0, 0}},
    {"set b 255", {6, 0, 3, 255, 0, 0, 0, 0}},
    {"bytes 02 04 00 0D 00 00 00 00", {2, 4, 0, 13, 0, 0, 0, 0}},
    {"bytes FF FE fd fC aB Ba 10 01", {255, 254, 253, 252, 171, 186, 16, 1}},
    {"bytes 00 00 00 00 00 00 00 00", {0, 0, 0, 0, 0, 0, 0, 0}},
    {"bytes 05 00 00 00 00 00 00 00", {5, 0, 0, 0, 0, 0, 0, 0}},
};

/* The line in other clothes, which make the same: other ends, other blanks, comments, carriage returns, empty lines. */
static void dress(const char *line, int clothes)
{
    begin();
    if (clothes == 0)
        add("%s\n", line);
    else if (clothes == 1)
        add("%s", line);
    else if (clothes == 2)
        add("%s;%s\n", line, line);
    else if (clothes == 3)
        add("\n;\n \t\r\n;resolve\n%s\r\n\r\n ; no\n\n", line);
    else {
        add(" \t\r ");
        for (; *line != 0; line++)
            add(*line == ' ' ? "\t  \r" : "%c", *line);
        add(" \t;; what is no word:");
        add_bytes("\0\1\177\200\377;", 6);
    }
}
enum { CLOTHES = 5 };

static void lines_in_turn(void)
{
    for (size_t i = 0; i < ENDS * CLOTHES * COUNT(instructions); i++) {
        const size_t k = i / ENDS / CLOTHES;
        of("of a line in clothes %zu: %s", i / ENDS % CLOTHES, instructions[k].line);
        dress(instructions[k].line, (int)(i / ENDS % CLOTHES));
        makes(instructions[k].bytes, 8, NULL, 0, (int)(i % ENDS));
    }
    function("lines");
}

/* ---- every choice, function, number, shift and byte */

static void one_line(const uint8_t i[8], int stands, uint32_t number, uint32_t column, int end)
{
    of("of a line: %.*s", (int)length, text);
    if (stands)
        makes(i, 8, NULL, 0, end);
    else
        refused(number, 1, column, end);
}

static void every_logic(void)
{
    static const char *const choices[] = {"x", "y", "both", "x-if-y", "x-if-y+y"};
    static const char *const functions[] = {"zero", "nor", "2", "not", "clear", "loadnot", "xor", "nand", "and", "xnor", "load", "11", "keep", "ornot", "or", "one"};
    for (size_t c = 0; c < COUNT(choices); c++)
        for (size_t f = 0; f < COUNT(functions); f++) {
            const uint8_t i[8] = {0, 3, 0, 0, 0, 0, 0, (uint8_t)(16 * c + f)};
            begin(), add("logic %s %s y", choices[c], functions[f]);
            one_line(i, 1, 0, 0, (int)(f % ENDS));
            for (int digits = 1; digits <= 4; digits++) {
                begin(), add("logic %s %0*zu y", choices[c], digits, f);
                one_line(i, digits < 4, STARAN_REFUSED_TEXT_FUNCTION, 8 + (uint32_t)strlen(choices[c]), (int)(f % ENDS));
            }
        }
    for (unsigned f = 16; f < 1100; f += f < 300 ? 1 : 100) {
        begin(), add("logic x %u y", f);
        one_line(NULL, 0, STARAN_REFUSED_TEXT_FUNCTION, 9, (int)(f % ENDS));
    }
    function("logic");
}

/* A number at each place where one may stand, in one to four digits. */
static void every_number(void)
{
    static const struct {
        const char *before, *behind;
        uint8_t bytes[8];
        size_t at;
    } places[] = {{"setm slice ", "", {1, 0, 1}, 4},           {"deliver word ", " flip 0", {4, 0, 1, 255}, 4}, {"setm mode ", " address 0", {1, 0, 1}, 3},
                  {"store mode b address ", " from x", {2, 2, 3}, 4}, {"mstore word 0 from m flip ", "", {3, 1, 1, 255}, 5}, {"set a ", "", {6, 0, 2}, 3},
                  {"set b ", "", {6, 0, 3}, 3},                {"logic y or x flip ", " shift 1 mod 2", {0, 2, 0, 0, 0, 0, 0x10, 0x1E}, 5}};
    for (size_t k = 0; k < COUNT(places); k++)
        for (unsigned n = 0; n < 1030; n += n < 300 || n >= 990 ? 1 : 10)
            for (int digits = 1; digits <= 4; digits++) {
                uint8_t i[8];
                char word[8];
                memcpy(i, places[k].bytes, 8);
                i[places[k].at] = (uint8_t)n;
                snprintf(word, sizeof word, "%0*u", digits, n);
                begin(), add("%s%s%s", places[k].before, word, places[k].behind);
                one_line(i, n < 256 && strlen(word) < 4, STARAN_REFUSED_TEXT_NUMBER, 1 + (uint32_t)strlen(places[k].before), (int)(n % ENDS));
            }
    function("numbers");
}

static int exponent(unsigned n)
{
    for (int k = 0; k <= 8; k++)
        if (n == 1u << k)
            return k;
    return -1;
}

static void every_shift(void)
{
    static const unsigned numbers[] = {0, 1, 2, 3, 4, 5, 7, 8, 9, 12, 16, 17, 24, 31, 32, 33, 63, 64, 65, 96, 127, 128, 129, 192, 255, 256, 257, 258, 512, 1024};
    unsigned stand = 0;
    for (size_t k = 0; k < COUNT(numbers) * COUNT(numbers); k++) {
        const unsigned a = numbers[k / COUNT(numbers)], b = numbers[k % COUNT(numbers)];
        const int m = exponent(a), p = exponent(b), first = m < 0 || m > 7, stands = !first && p > m;
        const uint8_t i[8] = {1, 2, 0, 0, 0, 0, (uint8_t)(16 * p + m), 0};
        begin(), add("setm x shift %u mod %u", a, b);
        one_line(i, stands, STARAN_REFUSED_TEXT_SHIFT, first ? 14 : 19 + (uint32_t)snprintf(NULL, 0, "%u", a), (int)(k % ENDS));
        stand += (unsigned)stands;
        begin(), add("setm x shift 0%u mod %u", a, b);
        one_line(NULL, 0, STARAN_REFUSED_TEXT_SHIFT, 14, (int)(k % ENDS));
        begin(), add("setm x shift %u mod 0%u", a, b);
        one_line(NULL, 0, STARAN_REFUSED_TEXT_SHIFT, first ? 14 : 19 + (uint32_t)snprintf(NULL, 0, "%u", a), (int)(k % ENDS));
    }
    check("every shift");
    if (stand != 36)
        wrong("there are 36");
    count();
    function("shifts");
}

/* Every pair of bytes as one of the eight. */
static void every_hex(void)
{
    unsigned stand = 0;
    for (unsigned pair = 0; pair < 65536; pair++) {
        const char word[2] = {(char)(pair / 256), (char)(pair % 256)};
        const unsigned at = pair % 8;
        begin(), add("bytes");
        for (unsigned b = 0; b < 8; b++) {
            add(" ");
            add_bytes(b == at ? word : "7f", 2);
        }
        of("of bytes, of which byte %u is the characters %u and %u", at, pair / 256, pair % 256);
        make_with(8, 0, NULL, (int)(pair % ENDS));
        stand += ((const uint32_t *)(const void *)buffers[ANSWER].bytes)[0] == STARAN_DONE;
    }
    check("every byte of two hex digits");
    if (stand != 22 * 22)
        wrong("there are 484 ways to write one");
    count();
    function("hex digits");
}

/* ---- lines of every form, behind four that give names: which number a wrong word has at each place, and behind which words the line may end */

#define FIELDS "field a 0 8\nfield b 8 8\nfield s 16 8\nfield wide 24 9\n"
enum { FIRST_LINE = 5, LONGEST_LINE = 14, NAME_HERE = STARAN_REFUSED_TEXT_FIELD_NAME };
static const struct {
    const char *line;
    uint8_t numbers[LONGEST_LINE]; /* of a wrong word at each place, and of one word more */
    unsigned whole;                /* bit k is 1 if the line stands with its first k words */
} forms[] = {
    {"logic x-if-y+y loadnot slice 7 flip 1 shift 1 mod 8", {60, 61, 62, 63, 64, 67, 64, 67, 66, 65, 66, 67}, 1 << 5 | 1 << 7 | 1 << 11},
    {"logic both 11 word 255 shift 16 mod 256", {60, 61, 62, 63, 64, 67, 66, 65, 66, 67}, 1 << 5 | 1 << 9},
    {"logic x-if-y zero mode 128 address 0 flip 255 shift 128 mod 256", {60, 61, 62, 63, 64, 65, 64, 67, 64, 67, 66, 65, 66, 67}, 1 << 7 | 1 << 9 | 1 << 13},
    {"logic x keep mode a address 4", {60, 61, 62, 63, 64, 65, 64, 67}, 1 << 7},
    {"logic y xnor outside flip 9", {60, 61, 62, 63, 67, 64, 67}, 1 << 4 | 1 << 6},
    {"setm slice 0 flip 1 shift 2 mod 4", {60, 63, 64, 67, 64, 67, 66, 65, 66, 67}, 1 << 3 | 1 << 5 | 1 << 9},
    {"setm mode b address 200 shift 1 mod 2", {60, 63, 64, 65, 64, 67, 66, 65, 66, 67}, 1 << 5 | 1 << 9},
    {"setm y shift 1 mod 2", {60, 63, 67, 66, 65, 66, 67}, 1 << 2 | 1 << 6},
    {"store slice 3 from outside flip 7", {60, 63, 64, 65, 63, 67, 64, 67}, 1 << 5 | 1 << 7},
    {"store mode 15 address 3 from m", {60, 63, 64, 65, 64, 65, 63, 67}, 1 << 7},
    {"mstore mode a address 3 from x flip 0", {60, 63, 64, 65, 64, 65, 63, 67, 64, 67}, 1 << 7 | 1 << 9},
    {"mstore word 1 from y", {60, 63, 64, 65, 63, 67}, 1 << 5},
    {"deliver word 9 flip 3 shift 64 mod 128", {60, 63, 64, 67, 64, 67, 66, 65, 66, 67}, 1 << 3 | 1 << 5 | 1 << 9},
    {"deliver m", {60, 63, 67}, 1 << 2},
    {"resolve", {60, 67}, 1 << 1},
    {"set a 255", {60, 63, 64, 67}, 1 << 3},
    {"set b 0", {60, 63, 64, 67}, 1 << 3},
    {"bytes 00 11 22 33 44 55 66 77", {60, 68, 68, 68, 68, 68, 68, 68, 68, 67}, 1 << 9},
    {"field new 25 64", {60, NAME_HERE, 64, 30, 67}, 1 << 4},
    {"sum a b into s", {60, 73, 73, 65, 73, 67}, 1 << 5},
    {"difference a b into s", {60, 73, 73, 65, 73, 67}, 1 << 5},
    {"equal a 255", {60, 73, 76, 67}, 1 << 3},
    {"less wide 511", {60, 73, 76, 67}, 1 << 3},
    {"greatest wide", {60, 73, 67}, 1 << 2},
    {"reach at most 256 words", {60, 65, 65, 64, 65, 67}, 1 << 5},
    {"reach at most 1 word", {60, 65, 65, 64, 65, 67}, 1 << 5},
};

/* Words that may stand nowhere, also not as a name; and some that are none but names. */
static const struct {
    const char *word;
    size_t length;
    int name;
} wrong_words[] = {{"toolong99", 9, 0},      {"\177", 1, 0},   {"\0", 1, 0},         {"x\200", 2, 0}, {"\1a", 2, 0}, {"\377\377\377", 3, 0}, {"differences", 11, 0},
                   {"999999999999999999999", 21, 0}, {"\v", 1, 0}, {"m\0", 2, 0},    {"?", 1, 1},     {"-1", 2, 1},   {"1g", 2, 1},           {"\"x\"", 3, 1},
                   {"fLip", 4, 1},           {"0x0", 3, 1},    {"slice,", 6, 1}};

/* Where word k of a line begins, from 0, and how long it is; with one word more than there are, its end. */
static size_t word_at(const char *line, size_t k, size_t *n)
{
    size_t at = 0;
    for (; k > 0; k--)
        at += strcspn(line + at, " ") + (line[at + strcspn(line + at, " ")] == ' ');
    *n = strcspn(line + at, " ");
    return at;
}

static size_t words_of(const char *line)
{
    size_t words = 1;
    for (; *line != 0; line++)
        words += *line == ' ';
    return words;
}

static void every_cut(void)
{
    static const struct {
        const char *behind;
        size_t further; /* where the line then ends: so far behind its last word */
    } ends[] = {{"\n", 0}, {"", 0}, {";", 0}, {" ;no\n", 1}, {" \t \n", 3}, {"\r\nresolve\n", 1}, {"\t", 1}};
    for (size_t f = 0; f < COUNT(forms); f++)
        for (size_t k = 1; k <= words_of(forms[f].line); k++)
            for (size_t e = 0; e < ENDS * COUNT(ends); e++) {
                size_t n, at = word_at(forms[f].line, k - 1, &n);
                begin(), add("%s %.*s%s", FIELDS, (int)(at + n), forms[f].line, ends[e / ENDS].behind);
                of("of the first %zu words, end %zu, of: %s", k, e / ENDS, forms[f].line);
                if ((forms[f].whole >> k & 1) == 0)
                    refused(STARAN_REFUSED_TEXT_TOO_EARLY, FIRST_LINE, (uint32_t)(2 + at + n + ends[e / ENDS].further), (int)(e % ENDS));
                else {
                    ask_model();
                    make_with(known[3], known[4], NULL, (int)(e % ENDS));
                    check("it stands, %s", what);
                    if (known[0] != STARAN_DONE)
                        wrong("it does not");
                    count();
                }
            }
    function("cut lines");
}

/* Word k of a line is another one. */
static void with_word(const char *line, size_t k, const char *word, size_t word_length)
{
    size_t n, at = word_at(line, k, &n);
    begin(), add("%s\t", FIELDS);
    add_bytes(line, at);
    if (k == words_of(line))
        add(" ");
    add_bytes(word, word_length);
    add("%s\n", line + at + n);
}

static void every_wrong_word(void)
{
    for (size_t f = 0; f < COUNT(forms); f++)
        for (size_t k = 0; k <= words_of(forms[f].line); k++)
            for (size_t w = 0; w < COUNT(wrong_words); w++) {
                size_t n, at = word_at(forms[f].line, k, &n);
                const uint32_t column = (uint32_t)(2 + at + (k == words_of(forms[f].line)));
                if (wrong_words[w].name && forms[f].numbers[k] == NAME_HERE)
                    continue;
                with_word(forms[f].line, k, wrong_words[w].word, wrong_words[w].length);
                of("of wrong word %zu at place %zu of: %s", w, k, forms[f].line);
                refused(forms[f].numbers[k], FIRST_LINE, column, (int)((f + k + w) % ENDS));
            }
    function("wrong words");
}

/* Every word of every form that is no number, one in capitals and one without its last character. */
static void every_spelling(void)
{
    for (size_t f = 0; f < COUNT(forms); f++)
        for (size_t k = 0; k < words_of(forms[f].line); k++) {
            size_t n, at = word_at(forms[f].line, k, &n);
            char other[16];
            memcpy(other, forms[f].line + at, n);
            if (isdigit((unsigned char)other[0]) || forms[f].numbers[k] == NAME_HERE)
                continue;
            for (size_t c = 0; c < n; c++) {
                if (!islower((unsigned char)other[c]))
                    continue;
                other[c] = (char)toupper(other[c]);
                with_word(forms[f].line, k, other, n);
                of("with capital %zu in word %zu of: %s", c, k, forms[f].line);
                refused(forms[f].numbers[k], FIRST_LINE, (uint32_t)(2 + at), (int)(c % ENDS));
                other[c] = (char)tolower(other[c]);
            }
            other[n] = other[n - 1];
            with_word(forms[f].line, k, other, n + 1);
            of("with the last character twice in word %zu of: %s", k, forms[f].line);
            refused(forms[f].numbers[k], FIRST_LINE, (uint32_t)(2 + at), FIRST);
        }
    function("spellings");
}

/* ---- texts that are refused, each with its line and column */

#define OUTSIDE "deliver outside\n"
static const struct {
    const char *text;
    uint32_t number, line, column;
} refusals[] = {
    {"no", 60, 1, 1},
    {" \t\rresolve\n\r  Resolve\n", 60, 2, 4},
    {"resolve\n\n;;;\n1", 60, 4, 1},
    {"\nresolve,", 60, 2, 1},
    {"resolve resolve", 67, 1, 9},
    {"set;a 5", 69, 1, 4},
    {"set a;5", 69, 1, 6},
    {"set a 5 ;5\nset a", 69, 2, 6},
    {"set a \t;5", 69, 1, 8},
    {"bytes 00 00 00 00 00 00 00", 69, 1, 27},
    {"bytes 0 00 00 00 00 00 00 00", 68, 1, 7},
    {"bytes 000 00 00 00 00 00 00 00", 68, 1, 7},
    {"bytes 00 00 00 00 00 00 00 0g", 68, 1, 28},
    {"bytes 00 00 00 00 00 00 00 00 00", 67, 1, 31},
    {"store slice 5 from slice 6", 63, 1, 20},
    {"store x from slice 6", 63, 1, 7},
    {"mstore outside from x", 63, 1, 8},
    {"setm slice a", 64, 1, 12},
    {"setm mode mode", 64, 1, 11},
    {"setm mode a 5", 65, 1, 13},
    {"store slice 5 from x shift 1 mod 2", 67, 1, 22},
    {"store slice 5 from x flip 1 shift 1 mod 2", 67, 1, 29},
    {"store slice 5 from x flip 1 flip 1", 67, 1, 29},
    {"setm x flip 1 flip 1", 67, 1, 15},
    {"setm x shift 1 mod 2 flip 1", 67, 1, 22},
    {"setm x shift 1 mod 2 shift 1 mod 2", 67, 1, 22},
    {"setm x mod 2", 67, 1, 8},
    {"setm x shift flip", 66, 1, 14},
    {"set c 5", 63, 1, 5},
    {"set 5", 63, 1, 5},
    {"setm a", 63, 1, 6},
    /* fields */
    {"field", 69, 1, 6},
    {"field 123456789 0 8", 70, 1, 7},
    {"field 123456789", 70, 1, 7},
    {"field a\177 0 8", 70, 1, 7},
    {"field a\200b 0 8", 70, 1, 7},
    {"field \033 0 8", 70, 1, 7},
    {"field a;b 0 8", 69, 1, 8},
    {"field a 0 8\nfield a 0 8", 71, 2, 7},
    {"field a 0 8\nfield a", 71, 2, 7},
    {"field a 0 8\nfield b 8 8\n  field a no 99", 71, 3, 9},
    {"field 0 0 8\nfield 00 0 8\nfield 0 8 8", 71, 3, 7},
    {"field a", 69, 1, 8},
    {"field a 256 8", 64, 1, 9},
    {"field a 0000 8", 64, 1, 9},
    {"field a -0 8", 64, 1, 9},
    {"field a 0", 69, 1, 10},
    {"field a 0 0", 30, 1, 11},
    {"field a 0 65", 30, 1, 11},
    {"field a 0 000", 30, 1, 11},
    {"field a 0 0008", 30, 1, 11},
    {"field a 0 x", 30, 1, 11},
    {"field a 0 256", 30, 1, 11},
    {"field a 255 65", 30, 1, 13},
    {"field a 255 2", 31, 1, 13},
    {"field a 193 64", 31, 1, 13},
    {"field a 193 64 64", 31, 1, 13},
    {"field a 192 64 64", 67, 1, 16},
    /* sums and differences */
    {"sum a b into s", 73, 1, 5},
    {FIELDS "sum A b into s", 73, 5, 5},
    {FIELDS "sum a B into s", 73, 5, 7},
    {FIELDS "sum a b into S", 73, 5, 14},
    {FIELDS "sum a wide into s", 74, 5, 7},
    {FIELDS "sum wide a into wide", 74, 5, 10},
    {FIELDS "difference a b into wide", 74, 5, 21},
    {FIELDS "sum a b to s", 65, 5, 9},
    {FIELDS "sum a b into into", 73, 5, 14},
    {FIELDS "field x 1 8\nsum a b into x", 32, 6, 14},
    {FIELDS "field x 7 8\nsum a b into x", 32, 6, 14},
    {FIELDS "field x 15 8\nsum a b into x", 32, 6, 14},
    {FIELDS "field x 9 8\ndifference a b into x", 32, 6, 21},
    {FIELDS "field x 15 8\nsum a b into x x", 32, 6, 14},
    {FIELDS "sum a b into s s", 67, 5, 16},
    {FIELDS "sum a b into s\nfield a 0 8", 71, 6, 7},
    {"sum a a into a\nfield a 0 8", 73, 1, 5},
    /* searches */
    {FIELDS "equal c 5", 73, 5, 7},
    {FIELDS "equal 5 a", 73, 5, 7},
    {FIELDS "equal a a", 76, 5, 9},
    {FIELDS "equal a -1", 76, 5, 9},
    {FIELDS "equal a 0x5", 76, 5, 9},
    {FIELDS "equal a 5.", 76, 5, 9},
    {FIELDS "equal a 256", 34, 5, 9},
    {FIELDS "less a 000000000000000000256", 76, 5, 8},
    {FIELDS "less a 00000000000000000256", 34, 5, 8},
    {FIELDS "less wide 512", 34, 5, 11},
    {FIELDS "less a 18446744073709551615", 34, 5, 8},
    {FIELDS "less a 18446744073709551616", 76, 5, 8},
    {FIELDS "less a 99999999999999999999", 76, 5, 8},
    {FIELDS "less a 28446744073709551615", 76, 5, 8},
    {FIELDS "less a 5 5", 67, 5, 10},
    {FIELDS "less a 256 5", 34, 5, 8},
    {FIELDS "field q 0 64\nequal q 18446744073709551616", 76, 6, 9},
    {FIELDS "field q 0 63\nequal q 9223372036854775808", 34, 6, 9},
    {FIELDS "field q 0 1\nless q 2", 34, 6, 8},
    {FIELDS "greatest c", 73, 5, 10},
    {FIELDS "greatest a 5", 67, 5, 12},
    /* limits: what is wrong with the line otherwise is said first */
    {"reach at most 0 words", 64, 1, 15},
    {"reach at most 257 words", 64, 1, 15},
    {"reach at most 0001 word", 64, 1, 15},
    {"reach at most one word", 64, 1, 15},
    {"reach at most word", 64, 1, 15},
    {"reach at most 1", 69, 1, 16},
    {"reach at most 1 Words", 65, 1, 17},
    {"reach at most 1 word s", 67, 1, 22},
    {"reach most 1 word", 65, 1, 7},
    {"reach at 1 word", 65, 1, 10},
    {"reach at most 1 word\nstore slice 5 from x", 75, 2, 1},
    {"reach at most 1 word\n \t store slice 5 from x ; reaches 1 word", 75, 2, 4},
    {"reach at most 1 word\nstore slice 5 from x shift", 67, 2, 22},
    {"reach at most 1 word\nstore slice 256 from x", 64, 2, 13},
    {"reach at most 1 word\nstore slice 5 from", 69, 2, 19},
    {"reach at most 1 word\nmstore mode 254 address 5 from x", 75, 2, 1},
    {"reach at most 1 word\nset a 0\nstore mode a address 5 from x", 75, 3, 1},
    {"reach at most 001 words\nset a 255\nstore mode b address 5 from x", 75, 3, 1},
    {"store mode a address 5 from x\nreach at most 256 words\nstore mode a address 5 from x", 75, 3, 1},
    {"set b 255\nreach at most 1 word\nstore mode b address 5 from x\nset b 127\nstore mode b address 5 from x", 75, 5, 1},
    {"reach at most 1 word\nset a 255\nset a 0\nmstore mode a address 0 from m", 75, 4, 1},
    {"reach at most 255 words\nstore slice 0 from x", 75, 2, 1},
    {"reach at most 256 words\nstore slice 0 from x\nreach at most 128 words\nstore slice 0 from x", 75, 4, 1},
    {"reach at most 127 words\nstore mode 128 address 0 from x", 75, 2, 1},
    {"reach at most 3 words\nstore mode 252 address 0 from x", 75, 2, 1},
    {FIELDS "reach at most 255 words\n  sum a b into s", 75, 6, 3},
    {FIELDS "reach at most 1 word\ndifference a b into s ; 256 words", 75, 6, 1},
    {FIELDS "reach at most 1 word\nsum a b into wide", 74, 6, 14},
    {FIELDS "reach at most 1 word\nsum a b into s s", 67, 6, 16},
    {FIELDS "field x 1 8\nreach at most 1 word\nsum a b into x", 32, 7, 14},
    /* stores in bytes, whatever else is wrong with them */
    {"reach at most 1 word\nbytes 02 00 00 00 00 00 00 00", 75, 2, 1},
    {"reach at most 1 word\nbytes 02 09 00 FE 09 09 99 99", 75, 2, 1},
    {"reach at most 1 word\nbytes 03 FF 01 00 FF FF FF FF", 75, 2, 1},
    {"reach at most 1 word\nbytes 02 03 04 7F 00 00 00 00", 75, 2, 1},
    {"reach at most 256 words\nbytes 02 FF 02 FF FF FF FF FF", 75, 2, 1},
    {"reach at most 256 words\nbytes 03 00 03 00 00 00 00 00", 75, 2, 1},
    {"reach at most 1 word\nset a 0\nbytes 02 03 02 FF 00 00 00 00", 75, 3, 1},
    {"reach at most 1 word\nset a 255\nbytes 06 09 02 00 09 09 09 09\nstore mode a address 0 from x", 75, 4, 1},
    {"reach at most 256 words\nbytes 06 00 01 00 00 00 00 00\nbytes 06 00 00 00 00 00 00 00\nbytes 06 00 04 00 00 00 00 00\nstore mode a address 0 from x", 75, 5, 1},
    {"reach at most 256 words\nbytes 07 00 02 00 00 00 00 00\nbytes 02 00 00 00 00 00 00 00\nstore mode a address 0 from x", 75, 4, 1},
    {"reach at most 1 word\nbytes 02 00 00 00 00 00 00", 69, 2, 27},
    {"reach at most 1 word\nbytes 02 00 00 00 00 00 00 00 00", 67, 2, 31},
    /* items of one's own above a search */
    {FIELDS OUTSIDE "less a 5", 77, 6, 1},
    {FIELDS OUTSIDE " \tequal a 5 ; no", 77, 6, 3},
    {FIELDS "logic x load outside\nequal a 5", 77, 6, 1},
    {FIELDS "setm outside\nless a 5", 77, 6, 1},
    {FIELDS "store word 5 from outside\nequal a 5", 77, 6, 1},
    {FIELDS "mstore mode b address 5 from outside\nresolve\nless a 5", 77, 7, 1},
    {FIELDS "bytes 00 04 00 00 00 00 00 00\nless a 5", 77, 6, 1},
    {FIELDS "bytes 05 04 00 00 00 00 00 00\nless a 5", 77, 6, 1},
    {FIELDS "bytes 06 04 02 00 00 00 00 00\nequal a 5", 77, 6, 1},
    {FIELDS "bytes FF 04 FF FF FF FF FF FF\nequal a 5", 77, 6, 1},
    {FIELDS "less a 5\n" OUTSIDE "less a 5", 77, 7, 1},
    {FIELDS "less a 5\n" OUTSIDE "greatest a\nsum a b into s\nequal a 5", 77, 9, 1},
    {FIELDS OUTSIDE "less a 256", 34, 6, 8},
    {FIELDS OUTSIDE "less a x", 76, 6, 8},
    {FIELDS OUTSIDE "less a", 69, 6, 7},
    {FIELDS OUTSIDE "less c 5", 73, 6, 6},
    {FIELDS OUTSIDE "less a 5 5", 67, 6, 10},
    {FIELDS OUTSIDE "reach at most 1 word\nless a 5", 77, 7, 1},
};

static void refusals_in_turn(void)
{
    for (size_t i = 0; i < ENDS * COUNT(refusals); i++) {
        const size_t k = i / ENDS;
        begin(), add("%s", refusals[k].text);
        of("of a refused text, row %zu: %s", k, refusals[k].text);
        refused(refusals[k].number, refusals[k].line, refusals[k].column, (int)(i % ENDS));
        /* what stands behind does not matter, and a line before it is one more line */
        add("\nno\nfield a 300 300\n");
        refused(refusals[k].number, refusals[k].line, refusals[k].column, (int)(i % ENDS));
        begin(), add(";\n%s", refusals[k].text);
        refused(refusals[k].number, refusals[k].line + 1, refusals[k].column, (int)(i % ENDS));
    }
    function("refusals");
}

/* ---- texts with their lists and items: an instruction is 16 digits; an item has 0 or 1 on every line */

#define X_AND_Y_0 "0002000000000020"
#define CARRY "0002000000000033" "0002000000000026"
#define OR_FLIPS \
    "000200000001000E" "000200000002000E" "000200000004000E" "000200000008000E" "000200000010000E" "000200000020000E" "000200000040000E" "000200000080000E"
static const struct {
    const char *text, *list, *items;
} made[] = {
    {"", "", ""},
    {"\n", "", ""},
    {" \t\r\n\n;\n", "", ""},
    {"resolve", "0500000000000000", ""},
    {"field a 0 8", "", ""},
    {"field a 255 1\nfield ~!@#$%^& 0 64\nreach at most 256 words\n", "", ""},
    {"field a 0 1\nfield b 1 1\nfield s 2 1\nsum a b into s\n", X_AND_Y_0 "0000010000000046" "0000010001000046" "0203010002000000" CARRY, ""},
    {"field a 0 1\nfield b 1 1\nfield s 2 1\ndifference a b into s",
     X_AND_Y_0 "000200000000001F" "0000010000000046" "0000010001000049" "0203010002000000" CARRY, ""},
    {"field a 200 002\nsum a a into a",
     X_AND_Y_0 "00000100C8000046" "00000100C8000046" "02030100C8000000" CARRY "00000100C9000046" "00000100C9000046" "02030100C9000000" CARRY, ""},
    {"field f 9 2\nequal f 2",
     "000200000000000F" "000400000000001A" "0000010009000016" "0002000000000030" "000400000000001A" "000001000A000016" "0002000000000030" "000200000000001A", "01"},
    {"field f 9 2\nless f 00000000000000000001",
     "0002000000000000" "000400000000001A" "0000010009000016" "0000010009000035" "000400000000001A" "000001000A000016" "000001000A000035" "000200000000001A", "10"},
    {"field f 9 2\ngreatest f",
     "0002000000000000" "000001000A00003A" OR_FLIPS "000001000A000004" "0002000000000024" "000001000900003A" OR_FLIPS "0000010009000004" "0002000000000024", ""},
    /* in the order of the lines, items too; names that are words of the text */
    {"field less 0 1\nless less 1\nresolve\nfield equal 255 1\nequal equal 0\nequal less 1\ndeliver outside",
     "0002000000000000" "000400000000001A" "0000010000000016" "0000010000000035" "000200000000001A" "0500000000000000"
     "000200000000000F" "000400000000001A" "00000100FF000016" "0002000000000030" "000200000000001A"
     "000200000000000F" "000400000000001A" "0000010000000016" "0002000000000030" "000200000000001A" "0404000000000000", "101"},
    {"field into 0 1\nfield sum 1 1\nfield ,into 2 1\nsum into sum into into\ndifference ,into ,into into sum",
     X_AND_Y_0 "0000010000000046" "0000010001000046" "0203010000000000" CARRY
     X_AND_Y_0 "000200000000001F" "0000010002000046" "0000010002000049" "0203010001000000" CARRY, ""},
    {"field 5 5 5\nfield 05 6 1\ngreatest 05", "0002000000000000" "000001000600003A" OR_FLIPS "0000010006000004" "0002000000000024", ""},
    {"field word 0 1\nreach at most 256 word\nsum word word into word", X_AND_Y_0 "0000010000000046" "0000010000000046" "0203010000000000" CARRY, ""},
    /* what a limit allows */
    {"store slice 5 from x\nreach at most 1 word\nstore word 5 from x\nlogic x load slice 5\ndeliver mode a address 7",
     "0202010005000000" "020201FF05000000" "000001000500000A" "0400020007000000", ""},
    {"reach at most 1 word\nset a 255\nstore mode a address 5 from x\nreach at most 256 words\nset a 0\nstore mode a address 5 from x",
     "060002FF00000000" "0202020005000000" "0600020000000000" "0202020005000000", ""},
    {"set b 255\nreach at most 1 words\nmstore mode b address 5 from x", "060003FF00000000" "0302030005000000", ""},
    {"reach at most 2 words\nmstore mode 254 address 5 from x\nreach at most 3 words\nmstore mode 253 address 5 from x", "030201FE05000000" "030201FD05000000", ""},
    {"reach at most 1 word\nbytes 02 09 00 FF 09 09 99 99\nbytes 03 00 FF FF 00 00 00 00\nbytes 01 00 01 00 00 00 00 00\nbytes FF 02 02 00 00 00 00 00",
     "020900FF09099999" "0300FFFF00000000" "0100010000000000" "FF02020000000000", ""},
    {"reach at most 1 word\nbytes 06 FF 02 FF FF FF FF FF\nbytes 02 00 02 00 FF FF FF FF\nstore mode a address 0 from x",
     "06FF02FFFFFFFFFF" "02000200FFFFFFFF" "0202020000000000", ""},
    {"field q 0 1\nreach at most 1 word\nless q 1\ngreatest q",
     "0002000000000000" "000400000000001A" "0000010000000016" "0000010000000035" "000200000000001A"
     "0002000000000000" "000001000000003A" OR_FLIPS "0000010000000004" "0002000000000024", "1"},
    {"field q 0 1\nbytes 04 00 00 00 04 00 00 00\nequal q 1\nbytes FF 04 FF FF FF FF FF FF",
     "0400000004000000" "000200000000000F" "000400000000001A" "0000010000000016" "0002000000000030" "000200000000001A" "FF04FFFFFFFFFFFF", "1"},
    {"deliver outside\nfield q 0 1\ngreatest q\nsum q q into q",
     "0404000000000000" "0002000000000000" "000001000000003A" OR_FLIPS "0000010000000004" "0002000000000024"
     X_AND_Y_0 "0000010000000046" "0000010000000046" "0203010000000000" CARRY, ""},
    /* the first lines of docs/TEXT.md */
    {"set a 13\nstore mode a address 255 from outside ; reaches 32 words\nlogic x-if-y+y xor slice 7 flip 1 shift 1 mod 8\n"
     "mstore word 9 from m flip 128 ; reaches 1 word\ndeliver word 9\nresolve\nbytes 02 04 00 0D 00 00 00 00 ; refused 7 byte 2\n",
     "0600020D00000000" "02040200FF000000" "0000010007013046" "030101FF09800000" "040001FF09000000" "0500000000000000" "0204000D00000000", ""},
};

static uint8_t hex_digit(char c) { return (uint8_t)(c <= '9' ? c - '0' : c - 'A' + 10); }

static void texts_in_turn(void)
{
    static uint8_t list[MOST_LIST], items[MOST_ITEMS];
    for (size_t i = 0; i < ENDS * COUNT(made); i++) {
        const size_t k = i / ENDS, n = strlen(made[k].list) / 2, m = 32 * strlen(made[k].items);
        for (size_t b = 0; b < n; b++)
            list[b] = (uint8_t)(16 * hex_digit(made[k].list[2 * b]) + hex_digit(made[k].list[2 * b + 1]));
        for (size_t b = 0; b < m; b++)
            items[b] = made[k].items[b / 32] == '1' ? 255 : 0;
        begin(), add("%s", made[k].text);
        of("of text %zu: %s", k, made[k].text);
        makes(list, n, items, m, (int)(i % ENDS));
    }
    function("texts");
}

/* ---- statements against the builders: the same bytes */

/* What the builders build, one behind the other. */
static struct {
    uint8_t list[MOST_LIST], items[MOST_ITEMS];
    size_t list_length, items_length;
} built;

static void build(int statement, const uint32_t *f, uint32_t n, uint64_t value)
{
    uint8_t *list = built.list + built.list_length, *items = built.items + built.items_length;
    const size_t room = sizeof built.list - built.list_length, items_room = sizeof built.items - built.items_length;
    uint32_t answer[STARAN_LIST_AND_ITEMS_NUMBERS] = {0};
    if (statement < 2)
        (statement == 0 ? staran_sum_list : staran_difference_list)(f[0], f[1], f[2], n, list, room, answer);
    else if (statement < 4)
        (statement == 2 ? staran_equal_list : staran_less_list)(f[0], n, value, list, room, items, items_room, answer);
    else
        staran_greatest_list(f[0], n, list, room, answer);
    if (answer[0] != STARAN_DONE)
        wrong("a builder refuses");
    built.list_length += answer[1];
    built.items_length += answer[2];
}

static const char *const statements[] = {"sum", "difference", "equal", "less", "greatest"};

static void add_statement(int statement, const char *a, const char *b, const char *s, uint64_t value)
{
    if (statement < 2)
        add("%s %s %s into %s\n", statements[statement], a, b, s);
    else if (statement < 4)
        add("%s %s %llu\n", statements[statement], a, (unsigned long long)value);
    else
        add("%s %s\n", statements[statement], a);
}

/* Every width, with values about 2^n, at starts up to the last. */
static void every_width(void)
{
    for (uint32_t n = 1; n <= 64; n++)
        for (int statement = 0; statement < (int)COUNT(statements); statement++)
            for (uint32_t k = 0; k < 3 * ENDS; k++) {
                const uint32_t low = k / ENDS == 0 ? 0 : (256 - 3 * n) / (3 - k / ENDS), f[3] = {low, low + n, low + 2 * n};
                const uint64_t most = n == 64 ? UINT64_MAX : ((uint64_t)1 << n) - 1, value = k / ENDS == 0 ? 0 : k / ENDS == 1 ? most : draw() & most;
                begin(), add("field first %u %u\nfield second %u %u\nfield third %u %u\n", f[0], n, f[1], n, f[2], n);
                add_statement(statement, "first", "second", "third", value);
                of("of %s, width %u, from %u on", statements[statement], n, low);
                memset(&built, 0, sizeof built);
                build(statement, f, n, value);
                makes(built.list, built.list_length, built.items, built.items_length, (int)(k % ENDS));
            }
    function("widths");
}

/* Every pair of A and S whose bits are near: 32 exactly where the builder gives it. */
static void every_overlap(void)
{
    for (uint32_t a = 0; a < 12; a++)
        for (uint32_t b = 0; b < 12; b++)
            for (uint32_t s = 0; s < 12; s++) {
                uint8_t list[STARAN_DIFFERENCE_LIST_BYTES(3)];
                uint32_t answer[STARAN_LIST_NUMBERS];
                const int minus = (int)((a + b + s) % 2);
                begin(), add("field a %u 3\nfield b %u 3\nfield s %u 3\n%s a b into s", a, b, s, minus ? "difference" : "sum");
                of("of fields from %u, %u and %u on", a, b, s);
                (minus ? staran_difference_list : staran_sum_list)(a, b, s, 3, list, sizeof list, answer);
                if (answer[0] == STARAN_DONE)
                    makes(list, answer[1], NULL, 0, (int)(a % ENDS));
                else
                    refused(STARAN_REFUSED_FIELDS_CROSS, 4, minus ? 21 : 14, (int)(a % ENDS));
            }
    function("overlaps");
}

/* Every start and width: 64, 30 and 31 at their words. */
static void every_field(void)
{
    for (uint32_t start = 0; start <= 257; start++)
        for (uint32_t width = 0; width <= 67; width++) {
            const uint32_t digits = (uint32_t)snprintf(NULL, 0, "%u", start);
            begin(), add("field f %u %u", start, width);
            of("of field f %u %u", start, width);
            if (start > 255)
                refused(STARAN_REFUSED_TEXT_NUMBER, 1, 9, (int)(width % ENDS));
            else if (width < 1 || width > 64)
                refused(STARAN_REFUSED_WIDTH, 1, 10 + digits, (int)(width % ENDS));
            else if (start + width > 256)
                refused(STARAN_REFUSED_FIELD_BEYOND, 1, 10 + digits, (int)(width % ENDS));
            else
                makes(NULL, 0, NULL, 0, (int)(width % ENDS));
        }
    function("fields");
}

/* Texts of many statements over fields that are drawn, against the builders. */
static void drawn_statements(void)
{
    enum { FIELDS_DRAWN = 6, STATEMENTS = 12, TIMES = 3000 };
    for (int i = 0; i < TIMES; i++) {
        uint32_t start[FIELDS_DRAWN];
        const uint32_t n = 1 + (uint32_t)draw() % (i % 8 == 0 ? 42 : 12);
        const uint64_t most = ((uint64_t)1 << n) - 1;
        const size_t lines = 1 + draw() % STATEMENTS;
        char names[FIELDS_DRAWN][9];
        begin();
        memset(&built, 0, sizeof built);
        of("of drawn statements %d", i);
        check("builders, %s", what);
        for (uint32_t f = 0; f < FIELDS_DRAWN; f++) {
            start[f] = f * n;
            snprintf(names[f], sizeof names[f], "%.*s%u", (int)(draw() % 8), "#height", f);
            add("field %s %u %u\n", names[f], start[f], n);
        }
        for (size_t k = 0; k < lines; k++) {
            const int statement = (int)(draw() % COUNT(statements));
            const size_t a = draw() % FIELDS_DRAWN, b = draw() % FIELDS_DRAWN, s = draw() % FIELDS_DRAWN;
            const uint32_t f[3] = {start[a], start[b], start[s]};
            const uint64_t value = draw() & most;
            add_statement(statement, names[a], names[b], names[s], value);
            build(statement, f, n, value);
        }
        count();
        makes(built.list, built.list_length, built.items, built.items_length, i % ENDS);
    }
    function("statements");
}

/* ---- every byte at each place of a name, of a word and of a number, and between words */

static void every_byte(void)
{
    static const struct {
        const char *text;
        size_t at, n; /* where it is altered: from here on, so many bytes */
    } places[] = {{"field abcdefgh 0 8\n", 6, 8},
                  {"field abcdefgh 0 8\ngreatest abcdefgh", 28, 8},
                  {"field abcdefgh 0 8\nsum abcdefgh abcdefgh into abcdefgh\n", 32, 8},
                  {"field a 0 8\nequal a 100\n", 20, 3},
                  {"field a 0 8\ndifference a a into a", 12, 21},
                  {"resolve", 0, 7},
                  {"set a 100", 0, 9},
                  {"store mode 128 address 0 from outside flip 200", 0, 46},
                  {"logic x-if-y+y load y shift 128 mod 256", 0, 39},
                  {"reach at most 100 words", 0, 23},
                  {"bytes 00 04 7f A0 00 ff FF 99", 0, 29}};
    unsigned names = 0;
    for (size_t k = 0; k < COUNT(places); k++)
        for (size_t p = 0; p < places[k].n; p++)
            for (unsigned value = 0; value < 256; value++) {
                begin(), add("%s", places[k].text);
                text[places[k].at + p] = (char)value;
                of("byte %zu is %u, in: %s", places[k].at + p, value, places[k].text);
                ask_model();
                make_with(known[3], known[4], NULL, (int)(value % ENDS));
                /* a name may have each of 33 to 126 but `;`; a blank, a tab, a carriage return at either end leaves a name of seven */
                names += k == 0 && known[0] == STARAN_DONE;
            }
    check("every byte of a name");
    if (names != 8 * (126 - 33) + 2 * 3)
        wrong("a name has other characters");
    count();
    function("every byte");
}

/* ---- the longest: texts, lines, columns, names, lists and items */

static void repeat(const char *line, size_t times)
{
    for (; times > 0; times--)
        add_bytes(line, strlen(line));
}

static void longest(int end)
{
    static const uint8_t resolve[8] = {5};
    const size_t most = STARAN_LONGEST_TEXT;
    /* 50 comes first, whatever the text is; at the most it is read to its end */
    for (int k = 0; k < 4; k++) {
        static const char fill[4] = {'\n', ' ', 'x', ';'};
        begin();
        memset(text, fill[k], most + 1);
        length = most + 1;
        of("of 1,048,577 times character %d", k);
        refused(STARAN_REFUSED_TEXT_LENGTH, 0, 0, end);
        length = most;
        of("of 1,048,576 times character %d", k);
        if (k == 2)
            refused(STARAN_REFUSED_TEXT_NAME, 1, 1, end);
        else
            makes(NULL, 0, NULL, 0, end);
        memcpy(text + most - 8, k == 3 ? "\nresolve" : " resolve", 8);
        of("of as many characters, with resolve at the end, %d", k);
        if (k == 2)
            refused(STARAN_REFUSED_TEXT_NAME, 1, 1, end);
        else
            makes(resolve, 8, NULL, 0, end);
        memcpy(text + most - 8, "\n resolv", 8);
        of("of as many characters, with a wrong word at the end, %d", k);
        if (k == 2)
            refused(STARAN_REFUSED_TEXT_NAME, 1, 1, end);
        else
            refused(STARAN_REFUSED_TEXT_NAME, k == 0 ? (uint32_t)most - 6 : 2, 2, end);
    }
    memset(text, ' ', most);
    memcpy(text, "set", 3);
    length = most;
    of("of set, with blanks behind it");
    refused(STARAN_REFUSED_TEXT_TOO_EARLY, 1, (uint32_t)most + 1, end);
    memcpy(text + most - 3, "a 5", 3);
    of("of set, with a 5 far behind it");
    ask_model();
    make_with(8, 0, NULL, end);
    text[most - 1] = 'x';
    of("of set, with a x far behind it");
    refused(STARAN_REFUSED_TEXT_NUMBER, 1, (uint32_t)most, end);
    /* a word as long as the text */
    memset(text, '0', most);
    memcpy(text, "field a 0 8\nless a ", 19);
    of("of a number with a million zeros");
    refused(STARAN_REFUSED_TEXT_VALUE, 2, 8, end);
    memcpy(text, "field a 0 8\ndifference", 22);
    of("of a word with a million zeros behind difference");
    refused(STARAN_REFUSED_TEXT_NAME, 2, 1, end);
    /* as many words as go in */
    for (size_t k = 0; k < most; k++)
        text[k] = "x "[k % 2];
    memcpy(text, "setm x ", 7);
    of("of half a million words");
    refused(STARAN_REFUSED_TEXT_TOO_MUCH, 1, 9, end);
}

/* 4,096 instructions and 1,024 items are the most: 3, then 4, then 33; and what a line is refused with comes before, also behind the 4,097th. */
static void most_made(int end)
{
    enum { MOST = 4096 };
    static uint8_t list[8 * MOST];
    for (size_t k = 0; k < sizeof list; k++)
        list[k] = k % 8 == 0 ? 5 : 0;
    begin(), repeat("resolve\n", MOST - 1);
    of("of 4,095 instructions");
    makes(list, sizeof list - 8, NULL, 0, end);
    repeat("resolve\n", 1);
    of("of 4,096 instructions");
    makes(list, sizeof list, NULL, 0, end);
    repeat(";\n", 9);
    makes(list, sizeof list, NULL, 0, end);
    repeat("resolve\n", 1);
    of("of 4,097 instructions");
    refused(STARAN_REFUSED_LIST_LENGTH, 0, 0, end);
    repeat("resolv\n", 1);
    of("of 4,097 instructions and a wrong line");
    refused(STARAN_REFUSED_TEXT_NAME, MOST + 11, 1, end);
    begin(), repeat("resolve\n", STARAN_LONGEST_TEXT / 8);
    of("of 131,072 instructions");
    refused(STARAN_REFUSED_LIST_LENGTH, 0, 0, end);
    /* sums: 12 of width 64 have 3,852, one of width 48 has 241, and three resolves */
    begin(), add("field a 0 64\nfield b 64 64\nfield c 0 48\nfield d 64 48\n");
    repeat("sum a b into b\n", 12);
    repeat("sum c d into d\n", 1);
    repeat("resolve\n", 3);
    of("of 4,096 instructions of sums");
    ask_model();
    make_with(8 * MOST, 0, NULL, end);
    repeat("resolve\n", 1);
    of("of 4,097 instructions of sums and others");
    refused(STARAN_REFUSED_LIST_LENGTH, 0, 0, end);
    begin(), add("field a 0 64\n");
    while (length + 15 <= STARAN_LONGEST_TEXT)
        add_bytes("sum a a into a\n", 15);
    of("of as many sums as go into a text");
    refused(STARAN_REFUSED_LIST_LENGTH, 0, 0, end);
    /* 16 searches of width 64 have 1,024 items and 3,104 instructions */
    begin(), add("field a 0 64\nfield b 0 1\n");
    repeat("less a 12345678901234567890\n", 16);
    of("of 1,024 items");
    ask_model();
    make_with(8 * 3104, MOST_ITEMS, NULL, end);
    check("1,024 items");
    if (known[0] != STARAN_DONE || known[3] != 8 * 3104 || known[4] != MOST_ITEMS)
        wrong("they are others");
    count();
    repeat("less b 1\n", 1);
    of("of 1,025 items");
    refused(STARAN_REFUSED_ITEMS_LENGTH, 0, 0, end);
    repeat("resolve\n", MOST - 3104 - 5);
    of("of 1,025 items and 4,096 instructions");
    refused(STARAN_REFUSED_ITEMS_LENGTH, 0, 0, end);
    repeat("resolve\n", 1);
    of("of 1,025 items and 4,097 instructions");
    refused(STARAN_REFUSED_LIST_LENGTH, 0, 0, end);
    repeat("greatest c\n", 1);
    of("of 1,025 items, 4,097 instructions and a wrong line");
    refused(STARAN_REFUSED_TEXT_FIELD_UNKNOWN, 2 + 16 + 1 + MOST - 3104 - 5 + 1 + 1, 10, end);
    begin(), add("field a 0 64\n");
    while (length + 9 <= STARAN_LONGEST_TEXT)
        add_bytes("less a 0\n", 9);
    of("of as many searches as go into a text");
    refused(STARAN_REFUSED_LIST_LENGTH, 0, 0, end);
}

/* 256 names, of which the first and the last are found; the 257th is one too many, unless it is given already. */
static void most_fields(int end)
{
    enum { MOST = 256 };
    begin();
    for (unsigned k = 0; k < MOST - 1; k++)
        add("field %u %u 1\n", k, k);
    const size_t all_but_one = length;
    add("field last 255 1\n");
    const size_t all = length;
    of("of 256 fields");
    makes(NULL, 0, NULL, 0, end);
    add("field %u 0 1", MOST);
    of("of 257 fields");
    refused(STARAN_REFUSED_TEXT_FIELDS_TOO_MANY, MOST + 1, 7, end);
    length = all, add("field longname9");
    of("of 257 fields, the last too long");
    refused(STARAN_REFUSED_TEXT_FIELD_NAME, MOST + 1, 7, end);
    length = all, add("field 128 0 1");
    of("of 257 fields, the last of a name that is given");
    refused(STARAN_REFUSED_TEXT_FIELD_TWICE, MOST + 1, 7, end);
    length = all, add("field last");
    of("of 257 fields, the last of the last name");
    refused(STARAN_REFUSED_TEXT_FIELD_TWICE, MOST + 1, 7, end);
    length = all, add("field x no");
    of("of 257 fields, the last with no number");
    refused(STARAN_REFUSED_TEXT_FIELDS_TOO_MANY, MOST + 1, 7, end);
    length = all_but_one, add("field 256 0 1\n");
    of("of 256 other fields");
    makes(NULL, 0, NULL, 0, end);
    length = all_but_one, add("field last 255 1\n");
    for (unsigned k = 0; k < MOST; k++) {
        const uint32_t f[3] = {k, (k + 1) % MOST, k};
        char a[8], b[8];
        snprintf(a, sizeof a, k < MOST - 1 ? "%u" : "last", k);
        snprintf(b, sizeof b, (k + 1) % MOST < MOST - 1 ? "%u" : "last", (k + 1) % MOST);
        length = all;
        add_statement(0, a, b, a, 0);
        add_statement(3, b, NULL, NULL, 1);
        memset(&built, 0, sizeof built);
        of("of 256 fields, of which %s and %s are used", a, b);
        check("builders, %s", what);
        build(0, f, 1, 0);
        build(3, f + 1, 1, 1);
        count();
        makes(built.list, built.list_length, built.items, built.items_length, end);
    }
}

static void the_most(void)
{
    for (int end = 0; end < ENDS; end++) {
        longest(end);
        most_made(end);
        most_fields(end);
    }
    function("the most");
}

/* ---- every length of list and items about those that are needed, of texts with both, with one and with none */

static void every_length(void)
{
    static const struct {
        const char *text;
        size_t list, items;
    } needs[] = {{"", 0, 0}, {"resolve", 8, 0}, {"field f 0 1\nless f 1", 40, 32}, {"field f 0 2\nequal f 1\ngreatest f\nresolve", 8 * 32, 64},
                 {"field f 0 8\nsum f f into f\ndifference f f into f", 8 * 83, 0}};
    for (size_t k = 0; k < COUNT(needs); k++)
        for (int end = 0; end < ENDS; end++) {
            begin(), add("%s", needs[k].text);
            of("of text %zu with some lengths: %s", k, needs[k].text);
            for (size_t l = 0; l <= needs[k].list + 9; l += l + 20 < needs[k].list ? 8 : 1)
                for (size_t i = 0; i <= needs[k].items + 33; i += i + 4 < needs[k].items || i > needs[k].items + 4 ? 8 : 1) {
                    const int fits = l >= needs[k].list && i >= needs[k].items;
                    const uint32_t done[MANY] = {STARAN_DONE, 0, 0, (uint32_t)needs[k].list, (uint32_t)needs[k].items}, short_of[MANY] = {STARAN_REFUSED_LIST_TOO_SHORT};
                    make_with(l, i, fits ? done : short_of, end);
                }
        }
    function("every length");
}

/* ---- texts that are drawn: of good lines, and of lines some of which are damaged */

enum { DRAWN = 24000, LONGEST_DRAWN = 30, DRAWN_NAMES = 8 };

static const char *const vocabulary[] = {"logic", "setm", "store", "mstore", "deliver", "resolve", "set", "bytes", "field", "sum", "difference", "equal", "less",
                                         "greatest", "reach", "at", "most", "word", "words", "into", "from", "address", "mode", "slice", "flip", "shift", "mod", "x",
                                         "y", "m", "a", "b", "outside", "both", "x-if-y", "x-if-y+y", "zero", "2", "11", "16", "0", "1", "255", "256", "8", "64", "65",
                                         "128", "300", "0001", "00", "FF", "0a", "f0", "f1", "f2", "height", "18446744073709551616", "toolong99", ";", "\n", "\t",
                                         "\r", "?"};
#define WORD_OF_ALL vocabulary[draw() % COUNT(vocabulary)]
#define ONE_OF(...) ((const char *const[]){__VA_ARGS__}[draw() % COUNT(((const char *const[]){__VA_ARGS__}))])
static const char *const drawn_names[DRAWN_NAMES] = {"a", "f0", "height", "into", "12345678", "f1", "sum", "~"};
static unsigned byte(void) { return (unsigned)(draw() % 256); }

static void add_place(void)
{
    const char *by = ONE_OF("slice", "word", "mode", "a", "b", "mode");
    if (strcmp(by, "mode") == 0)
        add(" mode %0*u address %u", (int)(draw() % 4), draw() % 4 == 0 ? 255 * (byte() % 2) : byte(), byte());
    else if (by[1] == 0)
        add(" mode %s address %u", by, byte());
    else
        add(" %s %u", by, byte());
}

static void add_moves(int shifts)
{
    if (draw() % 2 == 0)
        add(" flip %u", byte());
    if (shifts && draw() % 2 == 0) {
        const unsigned p = 1 + (unsigned)(draw() % 8), m = (unsigned)(draw() % p);
        add(" shift %u mod %u", 1u << m, 1u << p);
    }
}

static void add_register(void) { add(" %s", ONE_OF("m", "x", "y", "outside", "x", "y", "m")); }

static void add_source(void)
{
    if (draw() % 2 == 0)
        add_register();
    else
        add_place();
    add_moves(1);
}

static void add_instruction(void)
{
    switch (draw() % 8) {
    case 0:
        add("logic %s ", ONE_OF("x", "y", "both", "x-if-y", "x-if-y+y"));
        add(ONE_OF("zero", "nor", "2", "not", "clear", "loadnot", "xor", "nand", "and", "xnor", "load", "11", "keep", "ornot", "or", "one", "0", "15", "007"));
        add_source();
        break;
    case 1:
        add(ONE_OF("setm", "deliver"));
        add_source();
        break;
    case 2:
    case 3:
    case 4:
        add(ONE_OF("store", "mstore"));
        add_place();
        add(" from");
        add_register();
        add_moves(0);
        break;
    case 5:
        add("resolve");
        break;
    case 6:
        add("set %s %u", ONE_OF("a", "b"), draw() % 2 == 0 ? 255 : byte());
        break;
    default:
        add("bytes %02x %02X", (unsigned)(draw() % 8), (unsigned)(draw() % 6));
        for (int b = 2; b < 8; b++)
            add(draw() % 2 == 0 ? " %02X" : " %02x", draw() % 2 == 0 ? byte() : (unsigned)(draw() % 5));
    }
}

/* Statements over names that are mostly given, of widths that are mostly the same. */
static void add_any_statement(unsigned width)
{
    const char *a = drawn_names[draw() % DRAWN_NAMES], *b = drawn_names[draw() % DRAWN_NAMES], *s = drawn_names[draw() % DRAWN_NAMES];
    switch (draw() % 6) {
    case 0:
        add("%s %s %s into %s", ONE_OF("sum", "difference"), a, b, s);
        break;
    case 1:
    case 2:
        add("%s %s %llu", ONE_OF("equal", "less"), a, (unsigned long long)(draw() >> (draw() % 4 == 0 ? 0 : 64 - width)));
        break;
    case 3:
        add("greatest %s", a);
        break;
    case 4:
        add("reach at most %u %s", 1 + (draw() % 3 == 0 ? (unsigned)(draw() % 4) : byte()), ONE_OF("word", "words"));
        break;
    default:
        add("field %s %u %u", a, byte(), 1 + (unsigned)(draw() % 70));
    }
}

static void add_line(unsigned width)
{
    if (draw() % 8 == 0)
        add(ONE_OF(" ", "\t", "\r \t", "; a comment;"));
    else if (draw() % 3 == 0)
        add_any_statement(width);
    else
        add_instruction();
    if (draw() % 6 == 0)
        add(ONE_OF(" ", "\t\r", ";", " ; reaches 256 words", "; resolve"));
    add("\n");
}

/* Some of the text is lost, doubled, or other than it was. */
static void damage(void)
{
    const size_t at = draw() % length, n = 1 + draw() % (length - at < 12 ? length - at : 12);
    char word[24];
    switch (draw() % 6) {
    case 0:
        text[at] = (char)byte();
        break;
    case 1:
        memmove(text + at, text + at + n, length - at - n);
        length -= n;
        break;
    case 2:
        memmove(text + at + n, text + at, length - at);
        length += n;
        break;
    case 3:
        length = at;
        break;
    case 4:
        text[at] = (char)(text[at] + (draw() % 2 == 0 ? 1 : -1));
        break;
    default:
        snprintf(word, sizeof word, " %s ", WORD_OF_ALL);
        memmove(text + at + strlen(word), text + at, length - at);
        memcpy(text + at, word, strlen(word));
        length += strlen(word);
    }
}

static void draw_text(int i)
{
    const size_t lines = 1 + draw() % LONGEST_DRAWN;
    const unsigned width = 1 + (unsigned)(draw() % (i % 16 == 0 ? 28 : 8));
    begin();
    if (i % 16 == 15) { /* any words in any order */
        for (size_t k = 0; k < 4 * lines; k++)
            add("%s%s", WORD_OF_ALL, ONE_OF(" ", " ", " ", "\n", ""));
        return;
    }
    if (i % 16 == 14) { /* any bytes */
        draw_bytes((uint8_t *)text, lines);
        length = lines;
        return;
    }
    for (unsigned f = 0; f < DRAWN_NAMES - 1; f++)
        if (draw() % 64 != 0)
            add("field %s %u %u\n", drawn_names[f], draw() % 16 == 0 ? f : f * width, draw() % 32 == 0 ? width + 1 : width);
    for (size_t k = 0; k < lines; k++)
        add_line(width);
    for (int k = i % 4; k > 1 && length > 0; k--)
        damage();
}

/* How often each number was given. */
static unsigned seen[100];

static void drawn_texts(void)
{
    static const unsigned often[] = {0, 30, 31, 32, 34, 60, 61, 62, 63, 64, 65, 66, 67, 68, 69, 70, 71, 73, 74, 75, 76, 77};
    for (int i = 0; i < DRAWN; i++) {
        const int end = i % ENDS;
        draw_text(i);
        of("of drawn text %d", i);
        ask_model();
        seen[known[0] % COUNT(seen)]++;
        make_with(known[3] + (i % 5 == 0 ? draw() % 40 : 0), known[4] + (i % 7 == 0 ? draw() % 40 : 0), NULL, end);
        if (known[0] != STARAN_DONE)
            continue;
        if (known[3] > 0)
            make_with(known[3] - 1, known[4], NULL, end);
        if (known[4] > 0)
            make_with(known[3], known[4] - 1, NULL, end);
    }
    check("drawn texts: what is answered");
    for (size_t k = 0; k < COUNT(often); k++)
        if (seen[often[k]] < 20) {
            char said[60];
            snprintf(said, sizeof said, "%u is hardly given: %u times", often[k], seen[often[k]]);
            wrong(said);
        }
    if (seen[0] < DRAWN / 20)
        wrong("hardly a text stands");
    count();
    function("drawn texts");
}

/* ---- lists that are shown, and made again: the same list, and no items */

static void show_and_make(const uint8_t *list, size_t n, int end)
{
    uint32_t answer[STARAN_SHOW_NUMBERS];
    staran_show(list, n, (uint8_t *)text, STARAN_TEXT_BYTES(n), answer);
    length = answer[1];
    makes(list, n, NULL, 0, end);
}

static void draw_bytes_alike(uint8_t *list, size_t n)
{
    static const uint8_t few[] = {0, 0, 0, 1, 2, 3, 4, 5, 6, 255, 16, 0x83};
    for (size_t k = 0; k < n; k++)
        list[k] = k % 8 == 0 ? (uint8_t)(draw() % 7) : few[draw() % COUNT(few)];
}

static void shown_again(void)
{
    static uint8_t list[MOST_LIST];
    enum { SHOWN = 6000, LONG = 40 };
    for (int i = 0; i < SHOWN + LONG; i++) {
        const size_t n = i < SHOWN ? draw() % 25 : draw() % 4 == 0 ? 4096 : draw() % 4097;
        if (i % 3 == 0)
            draw_bytes(list, 8 * n);
        else
            draw_bytes_alike(list, 8 * n);
        of("of drawn list %d, shown", i);
        show_and_make(list, 8 * n, i % ENDS);
    }
    /* every value of each byte of every instruction above */
    for (size_t k = 0; k < 8 * COUNT(instructions); k++) {
        for (size_t value = 0; value < 256; value++) {
            memcpy(list + 8 * value, instructions[k / 8].bytes, 8);
            list[8 * value + k % 8] = (uint8_t)value;
        }
        of("of every byte %zu in %s, shown", k % 8, instructions[k / 8].line);
        show_and_make(list, 8 * 256, (int)(k % ENDS));
    }
    /* a text with statements, shown: the same list again, without its items */
    for (int i = 0; i < SHOWN; i++) {
        draw_text(i & ~3);
        ask_model();
        if (known[0] != STARAN_DONE)
            continue;
        memcpy(list, known_list, known[3]);
        of("of drawn text %d, made and shown", i);
        show_and_make(list, known[3], i % ENDS);
    }
    function("shown again");
}

/* ---- buffers that begin at any byte */

static void alignments(void)
{
    enum { FARTHEST = 17, ROOM = 12000, FREE = 0x5C };
    static uint8_t texts[ROOM + FARTHEST], list[ROOM + FARTHEST], items[ROOM + FARTHEST], other_list[sizeof list], other_items[sizeof items];
    for (int i = 0; i < 4 * FARTHEST * FARTHEST; i++) {
        const size_t a = (size_t)i % FARTHEST, b = (size_t)(i / FARTHEST) % FARTHEST, c = (a + b) % FARTHEST;
        uint32_t answer[MANY] = {1, 1, 1, 1, 1}, expected[MANY];
        draw_text(4 * i);
        if (length > ROOM)
            continue;
        memcpy(texts + a, text, length);
        memset(list, FREE, sizeof list);
        memset(items, FREE, sizeof items);
        memset(other_list, FREE, sizeof list);
        memset(other_items, FREE, sizeof items);
        check("make of a text at %zu into a list at %zu and items at %zu", a, b, c);
        model_make((const uint8_t *)text, length, other_list + b, ROOM, other_items + c, ROOM, expected);
        staran_make(texts + a, length, list + b, ROOM, items + c, ROOM, answer);
        answered(answer, MANY, expected);
        if (memcmp(list, other_list, sizeof list) != 0 || memcmp(items, other_items, sizeof items) != 0 || memcmp(texts + a, text, length) != 0)
            wrong("a buffer is not as it must be");
        count();
    }
    function("alignments");
}

/* ---- runs of what was made: on any memory, the fields are what the statements say */

static uint64_t field_of(const uint8_t *words, size_t w, uint32_t start, uint32_t n)
{
    uint64_t value = 0;
    for (uint32_t k = 0; k < n; k++)
        value |= (uint64_t)(words[32 * w + (start + k) / 8] >> (start + k) % 8 & 1) << k;
    return value;
}

static void runs(void)
{
    static uint8_t memory[STARAN_MEMORY_BYTES], registers[STARAN_REGISTERS_BYTES], list[MOST_LIST], items[MOST_ITEMS], out[STARAN_ITEM_BYTES], before[8292], after[8292];
    for (int i = 0; i < 400; i++) {
        const uint32_t n = 1 + (uint32_t)(draw() % 64), a = (uint32_t)(draw() % (64 - n + 1)), b = 64 + a, s = 128 + a;
        const uint64_t most = n == 64 ? UINT64_MAX : ((uint64_t)1 << n) - 1, value = draw() & most;
        const int minus = i % 2, less = i / 2 % 2, greatest = i / 4 % 2;
        uint32_t answer[MANY], ran[STARAN_RUN_NUMBERS];
        uint64_t highest = 0;
        begin();
        add("field height %u %u\nfield change %u %u ; by the new datum\nfield new %u %u\n%s height change into new\n", a, n, b, n, s, n, minus ? "difference" : "sum");
        add("%s new %llu\n%s", less ? "less" : "equal", (unsigned long long)value, greatest ? "greatest new\n" : "");
        add("reach at most 1 word\nset b 255\nstore mode b address 7 from outside\nresolve\n");
        check("run of a text that was made, %d", i);
        draw_bytes(memory, sizeof memory);
        draw_bytes(registers, sizeof registers);
        memset(registers + 96, 0, 4);
        staran_make((const uint8_t *)text, length, list, sizeof list, items, sizeof items, answer);
        draw_bytes(items + answer[4], STARAN_ITEM_BYTES); /* the item of the store stands behind the text's */
        model_picture(1, memory, registers, before);
        staran_run_4(memory, sizeof memory, registers, sizeof registers, list, answer[3], items, answer[4] + STARAN_ITEM_BYTES, out, sizeof out, ran);
        model_picture(1, memory, registers, after);
        if (answer[0] != STARAN_DONE || ran[STARAN_ANSWER_NUMBER] != STARAN_DONE || ran[STARAN_ANSWER_TAKEN] != n + 1 || ran[STARAN_ANSWER_GIVEN] != 1)
            wrong("it is not made, or not run");
        if (memcmp(after + 32 * 7, items + answer[4], 32) != 0)
            wrong("word 7 is not the item");
        for (size_t w = 0; w < 256; w++) {
            const uint64_t x = field_of(before, w, a, n), y = field_of(before, w, b, n), z = (minus ? x - y : x + y) & most;
            const int found = less ? z < value : z == value;
            if (w != 7 && field_of(after, w, s, n) != z)
                wrong("a field is not the sum or the difference");
            highest = found && z > highest ? z : highest;
        }
        for (size_t w = 0; w < 256; w++) {
            const uint64_t x = field_of(before, w, a, n), y = field_of(before, w, b, n), z = (minus ? x - y : x + y) & most;
            const int found = (less ? z < value : z == value) && (!greatest || z == highest);
            if (marked(registers + 64, (int)w) != found)
                wrong("a word is marked that must not be, or another is not");
        }
        count();
    }
    function("runs");
}

int making(void)
{
    lines_in_turn();
    every_logic();
    every_number();
    every_shift();
    every_hex();
    every_cut();
    every_wrong_word();
    every_spelling();
    refusals_in_turn();
    texts_in_turn();
    every_width();
    every_overlap();
    every_field();
    drawn_statements();
    every_byte();
    the_most();
    every_length();
    drawn_texts();
    shown_again();
    alignments();
    runs();
    return counted();
}
