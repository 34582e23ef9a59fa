/* Prints how many bytes of stack each function of the library needs below its caller, measured: the deepest of the calls that the tables below make, of every
 * kind that a caller can make, done and refused. Fails where a function does not give every number that it can give. tests/count-stack runs it.
 *
 * A length in a table is how many bytes fewer are lent than the buffer has. */
#include "paint.h"
#include "staran.h"

#include <stdio.h>
#include <string.h>

#define COUNT(table) (sizeof(table) / sizeof *(table))
enum { WIDEST = 64, WIDEST_MOVED = 32, BLOCK = STARAN_BLOCK_BYTES };

static uint8_t memory[STARAN_MEMORY_BYTES], content[STARAN_MEMORY_BYTES], registers[STARAN_REGISTERS_BYTES], item[STARAN_ITEM_BYTES], passed[STARAN_ITEM_BYTES];
static uint8_t list[STARAN_GREATEST_LIST_BYTES(WIDEST)], items[STARAN_SPREADING_ITEMS_BYTES(WIDEST_MOVED)], blocks[STARAN_PICTURE_FILE_BYTES];
static staran_registers record;
static uint32_t answer[STARAN_RUN_NUMBERS]; /* the longest of all */

/* ---- a run and a step: of an instruction that takes and gives, at several lengths, and with mode registers that are refused; then of every kind with every source and
 * choice, at the modes and passes below, of which the judge takes some and refuses the others. Register A is set, B is not */

static const struct {
    size_t memory, registers, list, items, out;
    uint8_t flag; /* of register B */
} less[] = {{0, 0, 0, 0, 0, 0}, {1, 0, 0, 0, 0, 0}, {0, 1, 0, 0, 0, 0},  {0, 4, 0, 0, 0, 0}, {0, 0, 8, 0, 0, 0},
            {0, 0, 1, 0, 0, 0}, {0, 0, 0, 1, 0, 0}, {0, 0, 0, 32, 0, 0}, {0, 0, 0, 0, 1, 0}, {0, 0, 0, 0, 0, 2}};
static const uint8_t deliver[] = {STARAN_DELIVER_FROM(STARAN_SOURCE_OUTSIDE, 90, STARAN_SHIFT(8, 3))};
enum { KINDS = 8, SOURCES = 6 };                                                                   /* the last of each is none */
static const uint8_t modes[][3] = {{0, 0, 0}, {1, 0, 5}, {1, 7, 5}, {1, 255, 5}, {2, 0, 5}, {2, 7, 0}, {3, 0, 5}, {4, 0, 0}}; /* tag, mode, address */
static const uint8_t passes[][2] = {{0, 0}, {90, 0}, {0, 0x83}, {90, 0x83}, {0, 0x88}, {0, 0x90}}; /* flip, shift */
static const uint8_t choices[] = {0x00, 0x16, 0x26, 0x36, 0x46, 0x50};                             /* with a function */
enum { INSTRUCTIONS = KINDS * SOURCES * COUNT(modes) * COUNT(passes) * COUNT(choices), RUNS = COUNT(less) + INSTRUCTIONS };
static uint8_t instructions[INSTRUCTIONS][STARAN_INSTRUCTION_BYTES];

static void make_instructions(void)
{
    for (size_t i = 0; i < INSTRUCTIONS; i++) {
        size_t rest = i;
        instructions[i][7] = choices[rest % COUNT(choices)], rest /= COUNT(choices);
        memcpy(instructions[i] + 5, passes[rest % COUNT(passes)], 2), rest /= COUNT(passes);
        memcpy(instructions[i] + 2, modes[rest % COUNT(modes)], 3), rest /= COUNT(modes);
        instructions[i][1] = (uint8_t)(rest % SOURCES), instructions[i][0] = (uint8_t)(rest / SOURCES);
    }
}

#define LENT(buffer, k) sizeof buffer - less[(k) < COUNT(less) ? (k) : 0]
#define MEMORY(k) memory, LENT(memory, k).memory
#define THE_REST(k) \
    (k) < COUNT(less) ? deliver : instructions[(k)-COUNT(less)], LENT(deliver, k).list, item, LENT(item, k).items, passed, LENT(passed, k).out, answer
#define FLAG(k) less[(k) < COUNT(less) ? (k) : 0].flag
static void run(size_t k)
{
    registers[96] = 1, registers[97] = 255, registers[98] = FLAG(k), registers[99] = 0;
    CALL(staran_run_4, MEMORY(k), registers, LENT(registers, k).registers, THE_REST(k));
}
static void step(size_t k)
{
    record.a_set = 1, record.a_mode = 255, record.b_set = FLAG(k), record.b_mode = 0;
    CALL(staran_step_5, MEMORY(k), &record, THE_REST(k));
}

/* ---- a pass in either form: every code with some flips */

static const uint8_t flips[] = {0, 1, 90, 255};
#define PASS(k) item, flips[(k) % COUNT(flips)], (uint8_t)((k) / COUNT(flips)), passed, answer
static void pass(size_t k) { CALL(staran_pass, PASS(k)); }
static void wired_pass(size_t k) { CALL(staran_wired_pass, PASS(k)); }

/* ---- the builders: done at three widths, then refused */

static const struct {
    uint32_t a, b, s, n;
    size_t list;
} sums[] = {{0, 32, 64, 32, 0},  {0, 1, 0, 1, 0},     {0, 64, 128, 64, 0}, {0, 32, 64, 0, 0},  {0, 32, 64, 65, 0},          {225, 0, 64, 32, 0},
            {0, 225, 64, 32, 0}, {0, 32, 225, 32, 0}, {0, 64, 16, 32, 0},  {0, 64, 80, 32, 0}, {0, 32, 64, 32, sizeof list}};
static const struct {
    uint32_t start, n;
    uint64_t number;
    size_t list, items;
} searches[] = {{0, 32, 0xA5A5A5A5, 0, 0}, {255, 1, 1, 0, 0},          {0, 64, UINT64_MAX, 0, 0},
                {0, 0, 0, 0, 0},           {0, 65, 0, 0, 0},           {225, 32, 0, 0, 0},
                {0, 32, UINT64_MAX, 0, 0}, {0, 32, 0, sizeof list, 0}, {0, 32, 0, 0, sizeof items}};

#define SUM(k) sums[k].a, sums[k].b, sums[k].s, sums[k].n, list, sizeof list - sums[k].list, answer
static void sum_list(size_t k) { CALL(staran_sum_list, SUM(k)); }
static void difference_list(size_t k) { CALL(staran_difference_list, SUM(k)); }
#define FIELD(k) searches[k].start, searches[k].n
#define LIST(k) list, sizeof list - searches[k].list
#define SEARCH(k) FIELD(k), searches[k].number, LIST(k), items, sizeof items - searches[k].items, answer
static void equal_list(size_t k) { CALL(staran_equal_list, SEARCH(k)); }
static void less_list(size_t k) { CALL(staran_less_list, SEARCH(k)); }
static void greatest_list(size_t k) { CALL(staran_greatest_list, FIELD(k), LIST(k), answer); }

/* ---- closing and spreading: done at two widths by four marks, then refused */

enum { NO_MARKS, SECOND, ALL, ANY, MARKS };
static uint8_t marks[MARKS][STARAN_ITEM_BYTES];
static const struct {
    size_t marks;
    uint32_t a, s, n;
    size_t marks_length, list, items;
} moved[] = {{NO_MARKS, 0, 32, 32, 0, 0, 0},      {SECOND, 0, 32, 32, 0, 0, 0},
             {ALL, 0, 32, 32, 0, 0, 0},           {ANY, 0, 32, 32, 0, 0, 0},
             {NO_MARKS, 255, 0, 1, 0, 0, 0},      {SECOND, 255, 0, 1, 0, 0, 0},
             {ALL, 255, 0, 1, 0, 0, 0},           {ANY, 255, 0, 1, 0, 0, 0},
             {ANY, 0, 32, 32, 1, 0, 0},           {ANY, 0, 32, 32, STARAN_ITEM_BYTES, 0, 0},
             {ANY, 0, 32, 0, 0, 0, 0},            {ANY, 0, 33, 33, 0, 0, 0},
             {ANY, 225, 32, 32, 0, 0, 0},         {ANY, 0, 225, 32, 0, 0, 0},
             {ANY, 0, 31, 32, 0, 0, 0},           {ANY, 32, 32, 32, 0, 0, 0},
             {ANY, 0, 32, 32, 0, sizeof list, 0}, {ANY, 0, 32, 32, 0, 0, sizeof items}};

static void make_marks(void)
{
    memset(marks[SECOND], 0xAA, STARAN_ITEM_BYTES);
    memset(marks[ALL], 255, STARAN_ITEM_BYTES);
    memcpy(marks[ANY], content, STARAN_ITEM_BYTES);
}

#define MOVED(k) \
    moved[k].a, moved[k].s, moved[k].n, marks[moved[k].marks], STARAN_ITEM_BYTES - moved[k].marks_length, list, sizeof list - moved[k].list, items, \
        sizeof items - moved[k].items, answer
static void closing_list(size_t k) { CALL(staran_closing_list, MOVED(k)); }
static void spreading_list(size_t k) { CALL(staran_spreading_list, MOVED(k)); }

/* ---- whether a list is isolated: of a sum list, of lists by the mode registers, of none and of what is refused; then of each instruction above, alone. Register A is set to mode 0,
 * B is not set */

static uint8_t sum[STARAN_SUM_LIST_BYTES(WIDEST)];
static const uint8_t by_registers[] = {STARAN_SET_MODE(STARAN_TAG_B, 7), STARAN_STORE_BY(STARAN_SOURCE_Y, STARAN_TAG_A, 5, 0), STARAN_SET_MODE(STARAN_TAG_A, 255),
                                       STARAN_SET_M_BY(STARAN_TAG_A, 5, 0, 0)};
static const struct {
    const uint8_t *list;
    size_t whole, length, registers;
    uint8_t flag; /* of register B */
} asked[] = {{sum, sizeof sum, 0, 0, 0},
             {sum, sizeof sum, sizeof sum, 0, 0},
             {by_registers, sizeof by_registers, 0, 0, 0},
             {by_registers, sizeof by_registers, 16, 0, 0},
             {sum, sizeof sum, 0, 4, 0},
             {sum, sizeof sum, 1, STARAN_REGISTERS_BYTES, 0},
             {sum, sizeof sum, 1, 0, 0},
             {instructions[0], sizeof instructions, 0, 0, 0},
             {sum, sizeof sum, 0, 0, 2}};
enum { ASKED = COUNT(asked) + INSTRUCTIONS };

static void isolated(size_t k)
{
    const size_t row = k < COUNT(asked) ? k : 0;
    registers[96] = 1, registers[97] = 0, registers[98] = asked[row].flag, registers[99] = 0;
    CALL(staran_isolated, k < COUNT(asked) ? asked[k].list : instructions[k - COUNT(asked)], k < COUNT(asked) ? asked[k].whole - asked[k].length : STARAN_INSTRUCTION_BYTES,
         registers, sizeof registers - asked[row].registers, answer);
}

/* ---- what a list reaches, and its text: of the same lists, with room and with a byte too little; then of each instruction above, alone */

static uint8_t reached[STARAN_REACH_BYTES(sizeof sum)], text[STARAN_TEXT_BYTES(sizeof sum)];
enum { ROOMS = 2, TEXTS = ROOMS * ASKED };
#define ROW(k) ((k) / ROOMS < COUNT(asked) ? (k) / ROOMS : 0)
#define ASKED_LIST(k) (k) / ROOMS < COUNT(asked) ? asked[(k) / ROOMS].list : instructions[(k) / ROOMS - COUNT(asked)], ASKED_LENGTH(k)
#define ASKED_LENGTH(k) ((k) / ROOMS < COUNT(asked) ? asked[(k) / ROOMS].whole - asked[(k) / ROOMS].length : STARAN_INSTRUCTION_BYTES)

static void reach(size_t k)
{
    registers[96] = 1, registers[97] = 15, registers[98] = asked[ROW(k)].flag, registers[99] = 0;
    CALL(staran_reach, registers, sizeof registers - asked[ROW(k)].registers, ASKED_LIST(k), reached, k % ROOMS == 0 || ASKED_LENGTH(k) < 8 ? sizeof reached : ASKED_LENGTH(k) / 4 - 1, answer);
}
static void show(size_t k) { CALL(staran_show, ASKED_LIST(k), text, k % ROOMS == 0 ? sizeof text : 7, answer); }

/* ---- lists made of texts: of every form, done and refused with every number, with room and with too little; and of the longest, which are filled in */

#define FIELDS "field a 0 64\nfield b 64 64\nfield s 128 64\nfield w 192 8\n"
enum { MADE_LIST = 32768, LONG_TEXTS = 6 };
static uint8_t long_texts[LONG_TEXTS][STARAN_LONGEST_TEXT + 1], made[MADE_LIST], made_items[MADE_LIST];
static size_t long_lengths[LONG_TEXTS];
static const char *const texts[] = {
    "", "\n;\n \t\r\n", "logic x-if-y+y loadnot mode 128 address 255 flip 255 shift 128 mod 256", "logic x 15 outside", "setm mode a address 9 flip 1 shift 1 mod 2",
    "deliver word 9", "store slice 3 from x flip 9", "mstore mode b address 3 from outside", "resolve", "set a 255\nset b 0",
    "bytes FF fe 00 aA 01 10 99 7f ; a comment", FIELDS "sum a b into s", FIELDS "difference a b into b", FIELDS "equal a 18446744073709551615",
    FIELDS "less w 00000000000000000255", FIELDS "greatest a",
    FIELDS "sum a b into s\nless s 20000\ngreatest s\nreach at most 1 word\nset b 255\nstore mode b address 9 from outside\nbytes 02 00 00 FF 00 00 00 00\ndeliver y",
    "no", "toolong99", "logic z", "logic x z", "setm z", "set c", "set a 256", "setm mode z", "setm slice 256", "setm mode a z", "store slice 3 z",
    "store slice 3 from z", "setm x shift 3", "setm x shift 1 z", "setm x shift 2 mod 2", "resolve resolve", "setm x z", "store slice 3 from x shift", "bytes 0",
    "bytes 00 00 00 00 00 00 00 00 00", "logic", "bytes 00", "set a", "field", "field toolong99", "field \177", FIELDS "field a", "field a z", "field a 0 z",
    "field a 0 65", "field a 255 2", "field a 0 8 z", "sum z", FIELDS "sum a z", FIELDS "sum a w", FIELDS "sum a b z", FIELDS "sum a b into z", FIELDS "sum a b into w",
    FIELDS "field x 1 64\nsum a b into x", FIELDS "sum a b into s z", FIELDS "equal z", FIELDS "equal a z", FIELDS "less a 18446744073709551616", FIELDS "less w 256",
    FIELDS "less w 5 z", FIELDS "greatest z", FIELDS "greatest a z", "reach z", "reach at z", "reach at most z", "reach at most 1 z", "reach at most 1 word z",
    "reach at most 1 word\nstore slice 3 from x", "reach at most 1 word\nbytes 03 00 02 00 00 00 00 00", FIELDS "reach at most 255 words\nsum a b into s",
    FIELDS "deliver outside\nequal a 5", FIELDS "bytes 07 04 00 00 00 00 00 00\nless a 5"};
static size_t text_lengths[COUNT(texts)];
enum { MADE_ROOMS = 3, MAKES = MADE_ROOMS * (COUNT(texts) + LONG_TEXTS) };

/* So many lines behind those that stand there. */
static void add_lines(size_t t, const char *line, size_t times)
{
    for (; times > 0 && long_lengths[t] + strlen(line) <= sizeof long_texts[t]; times--) {
        memcpy(long_texts[t] + long_lengths[t], line, strlen(line));
        long_lengths[t] += strlen(line);
    }
}

static void make_texts(void)
{
    char line[32];
    for (size_t t = 0; t < COUNT(texts); t++)
        text_lengths[t] = strlen(texts[t]);
    add_lines(0, " ", STARAN_LONGEST_TEXT + 1); /* too long */
    add_lines(1, FIELDS, 1);
    add_lines(1, "sum a b into s\n", 13); /* too many instructions */
    add_lines(2, FIELDS, 1);
    add_lines(2, "less a 5\n", 17); /* too many items */
    add_lines(3, FIELDS, 1);
    add_lines(3, "less a 12345678901234567890\n", 16); /* as many as there may be, and then as many instructions */
    add_lines(3, "resolve\n", 4096 - 16 * 194);
    for (int f = 0; f < 256; f++) {
        snprintf(line, sizeof line, "field %d %d 1\n", f, f);
        add_lines(4, line, 1);
        add_lines(5, line, 1);
    }
    add_lines(4, "sum 0 128 into 255\nequal 255 1\ngreatest 128\n", 200);
    add_lines(5, "field z 0 1\n", 1); /* a name too many */
}

static void make(size_t k)
{
    const size_t t = k / MADE_ROOMS;
    const int fixed = t < COUNT(texts);
    const size_t length = fixed ? text_lengths[t] : long_lengths[t - COUNT(texts)];
    CALL(staran_make, fixed ? (const uint8_t *)texts[t] : long_texts[t - COUNT(texts)], length, made, k % MADE_ROOMS == 1 ? 7 : sizeof made, made_items,
         k % MADE_ROOMS == 2 ? 31 : sizeof made_items, answer);
}

/* ---- files: what one of the two readers or writers takes, the other refuses, and so with the conversions. Kinds 1 and 4 are pictures, 2 a list, 3 items. Of kind 4 there is
 * one picture with neither mode register set, one with A set, and one with a flag over 1. OTHER_ and a kind is a block of that kind, of 24 bytes, which are no picture */

enum { PICTURE, WITH_MODES, MODE_SET, WRONG_FLAG, LONG, SHORT, NONE, ITEMS, OTHER_SUMS, OTHER_PLACE, OTHER_FORM, OTHER_KIND };
enum { OTHER_1 = OTHER_KIND + 1, OTHER_PLACE_1, OTHER_FORM_1, OTHER_4, OTHER_PLACE_4, OTHER_FORM_4, FILES };
static uint8_t files[FILES][STARAN_PICTURE_FILE_BYTES];
static size_t lengths[FILES];
static const struct {
    size_t kind, file, bytes, memory, registers;
} reads[] = {{1, PICTURE, 0, 0, 0},    {1, PICTURE, 0, 1, 0},     {1, PICTURE, 0, 0, 1},    {2, LONG, 0, 0, 0},
             {2, LONG, 0, 1, 0},       {2, SHORT, 0, 0, 0},       {2, NONE, 0, 0, 0},       {3, ITEMS, 0, 0, 0},
             {0, SHORT, 0, 0, 0},      {2, SHORT, BLOCK, 0, 0},   {2, SHORT, 1, 0, 0},      {3, SHORT, 0, 0, 0},
             {2, OTHER_SUMS, 0, 0, 0}, {2, OTHER_PLACE, 0, 0, 0}, {2, OTHER_FORM, 0, 0, 0}, {3, OTHER_KIND, 0, 0, 0},
             {4, WITH_MODES, 0, 0, 0}, {4, WITH_MODES, 0, 1, 0},  {4, WITH_MODES, 0, 0, 4}, {4, MODE_SET, 0, 0, 0},
             {4, WRONG_FLAG, 0, 0, 0}, {4, PICTURE, 0, 0, 0},     {1, WITH_MODES, 0, 0, 0}, {5, WITH_MODES, 0, 0, 0},
             {4, OTHER_4, 0, 0, 0},    {1, OTHER_1, 0, 0, 0}};
static const struct {
    size_t kind, memory, registers, out;
    uint8_t flag; /* of register B */
} writes[] = {{1, 0, 0, 0, 0}, {1, 1, 0, 0, 0}, {1, 0, 1, 0, 0}, {1, 0, 0, 1, 0}, {2, 0, 0, 0, 0}, {2, 0, 0, 1, 0},
              {2, 1, 0, 0, 0}, {3, 0, 0, 0, 0}, {0, 0, 0, 0, 0}, {4, 0, 0, 0, 0}, {4, 0, 0, 0, 1}, {4, 0, 0, 0, 2},
              {4, 1, 0, 0, 0}, {4, 0, 4, 0, 0}, {4, 0, 0, 1, 0}, {5, 0, 0, 0, 0}, {2, sizeof content, 0, 0, 0}};
static const struct {
    size_t file, bytes, out;
} conversions[] = {{PICTURE, 0, 0},       {PICTURE, 0, 1},       {PICTURE, 1, 0},      {WITH_MODES, 0, 0},    {WITH_MODES, 0, 1},    {WITH_MODES, 1, 0},
                   {MODE_SET, 0, 0},      {WRONG_FLAG, 0, 0},    {LONG, 0, 0},         {NONE, BLOCK, 0},      {OTHER_SUMS, 0, 0},    {OTHER_1, 0, 0},
                   {OTHER_PLACE_1, 0, 0}, {OTHER_FORM_1, 0, 0},  {OTHER_4, 0, 0},      {OTHER_PLACE_4, 0, 0}, {OTHER_FORM_4, 0, 0}};

#define REGISTERS(kind) ((kind) == STARAN_CONTENT_PICTURE_WITH_MODES ? (size_t)STARAN_REGISTERS_BYTES : (size_t)STARAN_PICTURE_REGISTERS_BYTES)

static void make_file(size_t file, size_t kind, size_t size)
{
    staran_write_content(kind, content, size, files[file], sizeof files[file], answer);
    lengths[file] = answer[2];
}

/* Byte `at` of a block so much greater, and two others such that the block's two sums stay: a second difference about a byte of the payload. */
static void add_to(uint8_t *block, size_t at, size_t about, int by)
{
    block[at] += (uint8_t)by, block[about] -= (uint8_t)(2 * by), block[2 * about - at] += (uint8_t)by;
}

/* The short list as a block of this kind; where `at` is not 0, with that byte one greater. */
static void make_other(size_t file, int kind, size_t at)
{
    make_file(file, STARAN_CONTENT_LIST, 24);
    add_to(files[file], 0, 12, kind - STARAN_CONTENT_LIST);
    add_to(files[file], at, 12, at != 0);
}

static void make_picture(size_t file, size_t kind, uint8_t flag)
{
    registers[96] = flag, registers[97] = registers[98] = registers[99] = 0;
    staran_write_picture(kind, memory, sizeof memory, registers, REGISTERS(kind), files[file], sizeof files[file], answer);
    lengths[file] = answer[2];
}

static void make_files(void)
{
    make_picture(PICTURE, STARAN_CONTENT_PICTURE, 0);
    make_picture(WITH_MODES, STARAN_CONTENT_PICTURE_WITH_MODES, 0);
    make_picture(MODE_SET, STARAN_CONTENT_PICTURE_WITH_MODES, 1);
    make_picture(WRONG_FLAG, STARAN_CONTENT_PICTURE_WITH_MODES, 0);
    add_to(files[WRONG_FLAG] + 16 * BLOCK, 12 + 352, 12 + 340, 2);
    make_file(LONG, STARAN_CONTENT_LIST, sizeof content);
    make_file(SHORT, STARAN_CONTENT_LIST, 24);
    make_file(NONE, STARAN_CONTENT_LIST, 0);
    make_file(ITEMS, STARAN_CONTENT_ITEMS, 32);
    make_file(OTHER_SUMS, STARAN_CONTENT_LIST, 24);
    files[OTHER_SUMS][12] ^= 1;
    make_other(OTHER_PLACE, 2, 2);
    make_other(OTHER_FORM, 2, 8);
    make_other(OTHER_KIND, 3, 0); /* 24 bytes of items, which are no item */
    make_other(OTHER_1, 1, 0);
    make_other(OTHER_PLACE_1, 1, 2);
    make_other(OTHER_FORM_1, 1, 8);
    make_other(OTHER_4, 4, 0);
    make_other(OTHER_PLACE_4, 4, 2);
    make_other(OTHER_FORM_4, 4, 8);
}

#define READ(k) reads[k].kind, files[reads[k].file], lengths[reads[k].file] - reads[k].bytes
static void read_content(size_t k) { CALL(staran_read_content, READ(k), content, sizeof content - reads[k].memory, answer); }
static void read_picture(size_t k)
{
    CALL(staran_read_picture, READ(k), memory, sizeof memory - reads[k].memory, registers, REGISTERS(reads[k].kind) - reads[k].registers, answer);
}
#define OUT(k) blocks, sizeof blocks - writes[k].out, answer
static void write_content(size_t k) { CALL(staran_write_content, writes[k].kind, content, sizeof content - writes[k].memory, OUT(k)); }
static void write_picture(size_t k)
{
    registers[96] = 1, registers[97] = 255, registers[98] = writes[k].flag, registers[99] = 0;
    CALL(staran_write_picture, writes[k].kind, memory, sizeof memory - writes[k].memory, registers, REGISTERS(writes[k].kind) - writes[k].registers, OUT(k));
}
#define CONVERSION(k) files[conversions[k].file], lengths[conversions[k].file] - conversions[k].bytes, blocks, sizeof blocks - conversions[k].out, answer
static void to_new(size_t k) { CALL(staran_picture_to_new, CONVERSION(k)); }
static void to_old(size_t k) { CALL(staran_picture_to_old, CONVERSION(k)); }

static void version(size_t k) { (void)k, CALL(staran_version); }

/* ---- each function with its count of parameters, its calls, and the numbers that it gives */

typedef unsigned __int128 numbers; /* bit n is for number n */
enum { GREATEST_NUMBER = 127 };
#define NUMBERS(first, last) (((numbers)2 << (last)) - ((numbers)1 << (first)))
#define DONE NUMBERS(0, 0)
static const struct {
    const char *name;
    size_t parameters;
    void (*call)(size_t);
    size_t calls;
    numbers gives;
} functions[] = {
    {"staran_run_4", 11, run, RUNS, DONE | NUMBERS(1, 9) | NUMBERS(11, 18)},
    {"staran_step_5", 10, step, RUNS, DONE | NUMBERS(1, 1) | NUMBERS(3, 9) | NUMBERS(11, 18)},
    {"staran_pass", 5, pass, 256 * COUNT(flips), DONE | NUMBERS(16, 17)},
    {"staran_wired_pass", 5, wired_pass, 256 * COUNT(flips), DONE | NUMBERS(16, 17)},
    {"staran_sum_list", 7, sum_list, COUNT(sums), DONE | NUMBERS(30, 33)},
    {"staran_difference_list", 7, difference_list, COUNT(sums), DONE | NUMBERS(30, 33)},
    {"staran_equal_list", 8, equal_list, COUNT(searches), DONE | NUMBERS(30, 31) | NUMBERS(33, 34)},
    {"staran_less_list", 8, less_list, COUNT(searches), DONE | NUMBERS(30, 31) | NUMBERS(33, 34)},
    {"staran_greatest_list", 5, greatest_list, COUNT(searches), DONE | NUMBERS(30, 31) | NUMBERS(33, 33)},
    {"staran_closing_list", 10, closing_list, COUNT(moved), DONE | NUMBERS(30, 33) | NUMBERS(35, 35)},
    {"staran_spreading_list", 10, spreading_list, COUNT(moved), DONE | NUMBERS(30, 33) | NUMBERS(35, 35)},
    {"staran_isolated", 5, isolated, ASKED, DONE | NUMBERS(2, 3) | NUMBERS(15, 15) | NUMBERS(40, 40)},
    {"staran_reach", 7, reach, TEXTS, DONE | NUMBERS(2, 3) | NUMBERS(15, 15) | NUMBERS(27, 27)},
    {"staran_show", 5, show, TEXTS, DONE | NUMBERS(3, 3) | NUMBERS(27, 27)},
    {"staran_make", 7, make, MAKES, DONE | NUMBERS(3, 4) | NUMBERS(30, 34) | NUMBERS(50, 50) | NUMBERS(60, 77)},
    {"staran_read_content", 6, read_content, COUNT(reads), DONE | NUMBERS(20, 26)},
    {"staran_write_content", 6, write_content, COUNT(writes), DONE | NUMBERS(22, 22) | NUMBERS(26, 27)},
    {"staran_read_picture", 8, read_picture, COUNT(reads), DONE | NUMBERS(15, 15) | NUMBERS(20, 26)},
    {"staran_write_picture", 8, write_picture, COUNT(writes), DONE | NUMBERS(15, 15) | NUMBERS(22, 22) | NUMBERS(26, 27)},
    {"staran_picture_to_new", 5, to_new, COUNT(conversions), DONE | NUMBERS(20, 25) | NUMBERS(27, 27)},
    {"staran_picture_to_old", 5, to_old, COUNT(conversions), DONE | NUMBERS(15, 15) | NUMBERS(20, 25) | NUMBERS(27, 28)},
    {"staran_version", 0, version, 1, DONE},
};

int main(void)
{
    int other = 0;
    for (size_t i = 0; i < sizeof memory; i++)
        memory[i] = content[i] = (uint8_t)(i * 167 + i / 256 + 8);
    memcpy(registers, content, sizeof registers);
    make_instructions();
    make_marks();
    make_files();
    make_texts();
    staran_sum_list(0, WIDEST, 2 * WIDEST, WIDEST, sum, sizeof sum, answer);
    for (size_t f = 0; f < COUNT(functions); f++) {
        size_t deepest = 0;
        numbers given = 0;
        answer[0] = STARAN_DONE;
        for (size_t k = 0; k < functions[f].calls; k++) {
            size_t here = depth(functions[f].call, k, functions[f].parameters);
            deepest = here > deepest ? here : deepest;
            given |= NUMBERS(answer[0], answer[0]);
        }
        printf("%-24s %6zu\n", functions[f].name, deepest);
        for (unsigned number = 0; number <= GREATEST_NUMBER; number++)
            if ((given ^ functions[f].gives) >> number & 1) {
                fprintf(stderr, "%s: %u is%s given\n", functions[f].name, number, given >> number & 1 ? "" : " not");
                other = 1;
            }
    }
    return other;
}
