/* Makes one call of the library some times, on fixed buffers, so that its executed instructions can be counted:
 *     library TIMES CALL
 *     library TIMES CALL MARKS                  a closing's or spreading's, with no word marked (none), words 1, 3, 5 and so on (second) or all (all)
 *     library TIMES list INSTRUCTION COUNT      a run of a list that has the instruction, in hex digits, COUNT times
 *     library TIMES none INSTRUCTION COUNT      the same with Y all zeros: no line responds
 *     library TIMES set INSTRUCTION COUNT       the same with mode register A set to mode 0
 *     library TIMES isolated INSTRUCTION COUNT  asks whether that list is isolated, with mode register A set so; without INSTRUCTION the list is 4,096 instructions of sum lists
 *     library TIMES reach INSTRUCTION COUNT     asks what that list reaches, in the same way
 *     library TIMES show INSTRUCTION COUNT      has that list shown
 *     library TIMES make INSTRUCTION COUNT      has a list made of the text of that list
 *     library TIMES make-sums                   has a list made of a text of 20 sums of 32 bits, of fields by name
 *     library TIMES make-searches               has a list made of a text of 20 searches of 32 bits, of fields by name
 * tests/count-library runs it. */
#include "staran.h"

#include <stdio.h>
#include <stdlib.h>
#include <string.h>

enum { WIDTH = 32, LIST = 8192, MANY = 4096, LONGEST = STARAN_INSTRUCTION_BYTES * MANY, GIVEN = 161 };
static const uint64_t NUMBER = 0x5A3C96E1;

static uint8_t memory[STARAN_MEMORY_BYTES], registers[STARAN_REGISTERS_BYTES], out[STARAN_ITEM_BYTES * GIVEN];
static uint8_t list[STARAN_SUM_LIST_BYTES(WIDTH)], many[LONGEST], content[LIST], target[LIST], file[STARAN_FILE_BYTES(LIST)], picture[STARAN_PICTURE_FILE_BYTES];
static uint8_t with_modes[STARAN_PICTURE_FILE_BYTES], converted[STARAN_PICTURE_FILE_BYTES]; /* a picture of kind 4, and what a conversion puts out */
static uint8_t equal[STARAN_SEARCH_LIST_BYTES(WIDTH)], less[STARAN_SEARCH_LIST_BYTES(WIDTH)], greatest[STARAN_GREATEST_LIST_BYTES(WIDTH)];
static uint8_t searched[STARAN_SEARCH_ITEMS_BYTES(WIDTH)]; /* the items of equal and of less: the same number */
static uint8_t marks[STARAN_ITEM_BYTES], closing[STARAN_CLOSING_LIST_BYTES(WIDTH)], closing_items[STARAN_CLOSING_ITEMS_BYTES];
static uint8_t spreading[STARAN_SPREADING_LIST_BYTES(WIDTH)], spreading_items[STARAN_SPREADING_ITEMS_BYTES(WIDTH)];
static staran_registers record;
static uint8_t item[32], passed[32];
static size_t many_length = LONGEST; /* of what stands in `many` */
static uint8_t reached[STARAN_REACH_BYTES(LONGEST)], text[STARAN_TEXT_BYTES(LONGEST)];
static size_t text_length; /* of what stands in `text`, for a list to be made of it */
static uint8_t made[LONGEST], made_items[LONGEST];
static uint32_t answer[STARAN_RUN_NUMBERS]; /* the longest of all */

static void equal_list(void) { staran_equal_list(0, WIDTH, NUMBER, equal, sizeof equal, searched, sizeof searched, answer); }
static void less_list(void) { staran_less_list(0, WIDTH, NUMBER, less, sizeof less, searched, sizeof searched, answer); }
static void greatest_list(void) { staran_greatest_list(0, WIDTH, greatest, sizeof greatest, answer); }
static void isolated(void) { staran_isolated(many, many_length, registers, sizeof registers, answer); }
static void isolated_sum(void) { staran_isolated(list, sizeof list, registers, sizeof registers, answer); }
static void reach(void) { staran_reach(registers, sizeof registers, many, many_length, reached, sizeof reached, answer); }
static void show(void) { staran_show(many, many_length, text, sizeof text, answer); }
static void make(void) { staran_make(text, text_length, made, sizeof made, made_items, sizeof made_items, answer); }
static void closing_list(void)
{
    staran_closing_list(0, 32, WIDTH, marks, sizeof marks, closing, sizeof closing, closing_items, sizeof closing_items, answer);
}
static void spreading_list(void)
{
    staran_spreading_list(0, 32, WIDTH, marks, sizeof marks, spreading, sizeof spreading, spreading_items, sizeof spreading_items, answer);
}

static void write_with_modes(void)
{
    staran_write_picture(STARAN_CONTENT_PICTURE_WITH_MODES, memory, sizeof memory, registers, sizeof registers, with_modes, sizeof with_modes, answer);
}
static void read_with_modes(void)
{
    staran_read_picture(STARAN_CONTENT_PICTURE_WITH_MODES, with_modes, sizeof with_modes, memory, sizeof memory, registers, sizeof registers, answer);
}
static void to_new(void) { staran_picture_to_new(picture, sizeof picture, converted, sizeof converted, answer); }
static void to_old(void) { staran_picture_to_old(with_modes, sizeof with_modes, converted, sizeof converted, answer); }

/* What the calls start from: no two neighbouring bytes are alike, and the files are whole. */
static void prepare(void)
{
    for (size_t i = 0; i < sizeof memory; i++)
        memory[i] = (uint8_t)(i * 167 + i / 256);
    for (size_t i = 0; i < sizeof content; i++)
        content[i] = (uint8_t)(i * 59);
    memcpy(registers, content, STARAN_PICTURE_REGISTERS_BYTES); /* M, X and Y; the mode registers are unset */
    memcpy(item, content + 7, sizeof item);
    staran_sum_list(0, 32, 64, WIDTH, list, sizeof list, answer);
    equal_list();
    less_list();
    greatest_list();
    closing_list();
    spreading_list();
    for (size_t i = 0; i < sizeof many; i++)
        many[i] = list[i % sizeof list];
    many[sizeof many - 1] = 0x50; /* a choice over 4, or byte 7 of a store: 11 in any kind */
    staran_write_content(STARAN_CONTENT_LIST, content, sizeof content, file, sizeof file, answer);
    staran_write_picture(STARAN_CONTENT_PICTURE, memory, sizeof memory, registers, STARAN_PICTURE_REGISTERS_BYTES, picture, sizeof picture, answer);
    write_with_modes();
}

/* The list of `count` times the instruction that 16 hex digits say. */
static size_t prepare_list(const char *digits, size_t count)
{
    uint64_t instruction = strtoull(digits, NULL, 16);
    for (size_t i = 0; i < STARAN_INSTRUCTION_BYTES * count; i++)
        many[i] = (uint8_t)(instruction >> (56 - 8 * (i % 8)));
    return STARAN_INSTRUCTION_BYTES * count;
}

/* The text of what stands in `many`; or eight fields of 32 bits with names of a crew's kind, and 20 lines over them, sums or searches. */
static void prepare_text(const char *name)
{
    static const char *const fields[] = {"height", "shift", "new", "old", "east", "north", "easting2", "north2"};
    char *at = (char *)text;
    if (strcmp(name, "make") == 0) {
        show();
        text_length = answer[1];
        return;
    }
    for (int f = 0; f < 8; f++)
        at += sprintf(at, "field %s %d %d\n", fields[f], WIDTH * f, WIDTH);
    for (int k = 0; k < 20; k++)
        at += strcmp(name, "make-sums") == 0 ? sprintf(at, "sum %s %s into %s\n", fields[k % 8], fields[(k + 1) % 8], fields[(k + 3) % 8])
                                             : sprintf(at, "less %s %u\n", fields[k % 8], 20000u + 1000003u * (unsigned)k);
    text_length = (size_t)(at - (char *)text);
}

static void run(const uint8_t *instructions, size_t length)
{
    staran_run_4(memory, sizeof memory, registers, sizeof registers, instructions, length, item, 0, out, sizeof out, answer);
}

static void run_with(const uint8_t *instructions, size_t length, const uint8_t *items, size_t items_length)
{
    staran_run_4(memory, sizeof memory, registers, sizeof registers, instructions, length, items, items_length, out, sizeof out, answer);
}

static void run_equal(void) { run_with(equal, sizeof equal, searched, sizeof searched); }
static void run_less(void) { run_with(less, sizeof less, searched, sizeof searched); }
static void run_greatest(void) { run(greatest, sizeof greatest); }
static void run_closing(void) { run_with(closing, sizeof closing, closing_items, sizeof closing_items); }
static void run_spreading(void) { run_with(spreading, sizeof spreading, spreading_items, sizeof spreading_items); }

/* A later call by its name, NULL where there is none: it is looked up once, before the calls that are counted. */
static void (*later_named(const char *name))(void)
{
    static const struct {
        const char *name;
        void (*call)(void);
    } later[] = {{"equal-list", equal_list},         {"run-equal", run_equal},       {"less-list", less_list},       {"run-less", run_less},
                 {"greatest-list", greatest_list},   {"run-greatest", run_greatest}, {"closing-list", closing_list}, {"run-closing", run_closing},
                 {"spreading-list", spreading_list}, {"run-spreading", run_spreading},
                 {"isolated", isolated}, {"isolated-sum", isolated_sum}, {"reach", reach}, {"show", show},
                 {"make", make}, {"make-sums", make}, {"make-searches", make},
                 {"read-with-modes", read_with_modes}, {"write-with-modes", write_with_modes}, {"to-new", to_new}, {"to-old", to_old}};
    for (size_t i = 0; i < sizeof later / sizeof *later; i++)
        if (strcmp(name, later[i].name) == 0)
            return later[i].call;
    return NULL;
}

static void pass(uint8_t flip, uint8_t code) { staran_pass(item, flip, code, passed, answer); }

static void read_list(size_t length)
{
    staran_read_content(STARAN_CONTENT_LIST, file, length, target, sizeof target, answer);
}

/* Every other call, by its name at each: some 25 instructions for each name before it, which the figures of these calls have always had. */
static int call(const char *name, size_t length)
{
    if (strcmp(name, "pass-both") == 0)
        pass(90, 0x83);
    else if (strcmp(name, "pass-shift") == 0)
        pass(0, 0x83);
    else if (strcmp(name, "pass-flip") == 0)
        pass(90, 0);
    else if (strcmp(name, "pass-none") == 0)
        pass(0, 0);
    else if (strcmp(name, "wired-pass") == 0)
        staran_wired_pass(item, 90, 0x83, passed, answer);
    else if (strcmp(name, "sum-list") == 0)
        staran_sum_list(0, 32, 64, WIDTH, list, sizeof list, answer);
    else if (strcmp(name, "run-sum") == 0)
        run(list, sizeof list);
    else if (strcmp(name, "list") == 0)
        run(many, length);
    else if (strcmp(name, "judge") == 0)
        run(many, sizeof many);
    else if (strcmp(name, "step") == 0)
        staran_step_5(memory, sizeof memory, &record, list, STARAN_INSTRUCTION_BYTES, item, 0, out, sizeof out, answer);
    else if (strcmp(name, "read-list") == 0)
        read_list(sizeof file);
    else if (strcmp(name, "read-damaged") == 0) {
        file[20] ^= 1; /* the first block alone, whose sums then differ: what is judged of it is its sums */
        read_list(STARAN_BLOCK_BYTES);
        file[20] ^= 1;
    } else if (strcmp(name, "write-list") == 0)
        staran_write_content(STARAN_CONTENT_LIST, content, sizeof content, file, sizeof file, answer);
    else if (strcmp(name, "read-picture") == 0)
        staran_read_picture(STARAN_CONTENT_PICTURE, picture, sizeof picture, memory, sizeof memory, registers, STARAN_PICTURE_REGISTERS_BYTES, answer);
    else if (strcmp(name, "write-picture") == 0)
        staran_write_picture(STARAN_CONTENT_PICTURE, memory, sizeof memory, registers, STARAN_PICTURE_REGISTERS_BYTES, picture, sizeof picture, answer);
    else
        return 0;
    return 1;
}

/* Each byte of the marks, or -1 for a word that says none. */
static int mark_byte(const char *word)
{
    return strcmp(word, "all") == 0 ? 255 : strcmp(word, "second") == 0 ? 0xAA : strcmp(word, "none") == 0 ? 0 : -1;
}

int main(int count, char **words)
{
    size_t length = 0;
    if (count < 3 || count > 5 || (count == 4 && mark_byte(words[3]) < 0)) {
        fputs("usage: library TIMES CALL [MARKS | INSTRUCTION COUNT]\n", stderr);
        return 2;
    }
    if (count == 4)
        memset(marks, mark_byte(words[3]), sizeof marks);
    prepare();
    if (count == 5)
        length = many_length = prepare_list(words[3], (size_t)atoi(words[4]));
    if (strcmp(words[2], "none") == 0) {
        memset(registers + 64, 0, STARAN_ITEM_BYTES);
        words[2] = "list";
    }
    if (strcmp(words[2], "set") == 0) {
        registers[96] = 1;
        words[2] = "list";
    }
    if (strcmp(words[2], "isolated") == 0 || strcmp(words[2], "reach") == 0)
        registers[96] = 1;
    if (strncmp(words[2], "make", 4) == 0)
        prepare_text(words[2]);
    int times = atoi(words[1]);
    void (*later)(void) = later_named(words[2]);
    if (later != NULL) {
        for (; times > 0; times--)
            later();
        return 0;
    }
    for (; times > 0; times--)
        if (!call(words[2], length)) {
            fputs("no such call\n", stderr);
            return 2;
        }
    return 0;
}
