/* A call that is refused, a run of no instructions, what an empty list reaches, its text, a text that makes nothing, and the question whether a list is isolated,
 * whatever its answer, write nothing at all, not even the same bytes back: every buffer but the answer's stands in memory that cannot be written. And what a list
 * reaches, its text, and what a text makes are written though the list and the registers, or the text, cannot be. */
#include "unwritten.h"

#include "checks.h"
#include "lent.h"
#include "model.h"
#include "staran.h"

#include <string.h>

/* The answer must be these numbers. */
static void expect(const uint32_t *answer, size_t n, const uint32_t *expected)
{
    answered(answer, n, expected);
    count();
}

/* A run and, where it is one instruction, a step of it, with these mode registers: refused at this place and byte, or done with no step. */
static void call_with(const uint8_t modes[4], const char *name, const uint8_t *list, size_t length, size_t items, size_t out, uint32_t number, uint32_t place,
                      uint32_t byte)
{
    const uint32_t expected[STARAN_RUN_NUMBERS] = {[STARAN_ANSWER_NUMBER] = number, [STARAN_ANSWER_PLACE] = place, [STARAN_ANSWER_BYTE] = byte};
    for (int end = 0; end < ENDS; end++) {
        lend(MEMORY, STARAN_MEMORY_BYTES, end);
        lend_registers(modes, STARAN_REGISTERS_BYTES, end);
        lend_bytes(LIST, list, length, end);
        lend(ITEMS, items, end);
        lend(OUT, out, end);
        uint32_t *answer = lend_answer(STARAN_RUN_NUMBERS, end);
        shut_rooms();
        check("run that writes nothing: %s", name);
        staran_run_4(WHOLE(MEMORY), WHOLE(REGISTERS), WHOLE(LIST), WHOLE(ITEMS), WHOLE(OUT), answer);
        expect(answer, STARAN_RUN_NUMBERS, expected);
        if (length == STARAN_INSTRUCTION_BYTES) {
            check("step that writes nothing: %s", name);
            answer = lend_answer(STARAN_RUN_NUMBERS, end);
            staran_step_5(WHOLE(MEMORY), (staran_registers *)buffers[REGISTERS].bytes, WHOLE(LIST), WHOLE(ITEMS), WHOLE(OUT), answer);
            expect(answer, STARAN_RUN_NUMBERS, expected);
        }
        open_rooms();
    }
}

/* With neither mode register set. */
static const uint8_t unset[4];
static void call(const char *name, const uint8_t *list, size_t length, size_t items, size_t out, uint32_t number, uint32_t place, uint32_t byte)
{
    call_with(unset, name, list, length, items, out, number, place, byte);
}

static void instructions(void)
{
    static const uint8_t kind[] = {7, 0, 0, 0, 0, 0, 0, 0}, source[] = {0, 5, 0, 0, 0, 0, 0, 0}, no_mode[] = {2, 3, 0, 255, 13, 0, 0, 0}, tag[] = {2, 3, 4, 255, 13, 0, 0, 0},
                         unused[] = {0, 2, 1, 0, 0, 0, 0, 0x46}, barred[] = {2, 3, 1, 255, 13, 0, 16, 0}, wide[] = {0, 2, 0, 0, 0, 0, 144, 0x46}, above[] = {0, 2, 0, 0, 0, 0, 136, 0x46},
                         logic[] = {0, 2, 0, 0, 0, 0, 0, 0x50}, outside[] = {0, 4, 0, 0, 0, 0, 0, 0x46}, resolve[] = {5, 0, 0, 0, 0, 0, 0, 0},
                         done_then_not[] = {2, 3, 1, 255, 13, 0, 0, 0, 2, 3, 0, 255, 13, 0, 0, 0};
    call("no instruction", kind, 0, 0, 32, STARAN_DONE, 0, 0);
    call("a kind over 6", kind, sizeof kind, 0, 32, STARAN_REFUSED_KIND, 0, 0);
    call("a source over 4", source, sizeof source, 0, 32, STARAN_REFUSED_SOURCE, 0, 1);
    call("no mode", no_mode, sizeof no_mode, 0, 32, STARAN_REFUSED_NO_MODE, 0, 2);
    call("a tag over 3", tag, sizeof tag, 0, 32, STARAN_REFUSED_MODE_TAG, 0, 2);
    call("a mode that nothing uses", unused, sizeof unused, 0, 32, STARAN_REFUSED_MODE_UNUSED, 0, 2);
    call("a shift of a store", barred, sizeof barred, 0, 32, STARAN_REFUSED_MOVE_BARRED, 0, 6);
    call("a group of 512 lines", wide, sizeof wide, 0, 32, STARAN_REFUSED_GROUP_TOO_WIDE, 0, 6);
    call("a shift by all lines", above, sizeof above, 0, 32, STARAN_REFUSED_SHIFT_NOT_BELOW, 0, 6);
    call("a choice over 4", logic, sizeof logic, 0, 32, STARAN_REFUSED_LOGIC, 0, 7);
    call("items too few", outside, sizeof outside, 0, 32, STARAN_REFUSED_ITEMS_TOO_FEW, 0, 0);
    call("out too short", resolve, sizeof resolve, 0, 31, STARAN_REFUSED_OUT_TOO_SHORT, 0, 0);
    call("items of 31 bytes", resolve, sizeof resolve, 31, 32, STARAN_REFUSED_ITEMS_LENGTH, 0, 0);
    call("a good instruction before a bad one", done_then_not, sizeof done_then_not, 0, 32, STARAN_REFUSED_NO_MODE, 1, 2);
    call("a list of 7 bytes", kind, 7, 0, 32, STARAN_REFUSED_LIST_LENGTH, 0, 0);
}

static void mode_registers(void)
{
    static const uint8_t a_set[4] = {1, 255, 0, 0}, flag[4] = {2, 0, 0, 0}, mode[4] = {1, 7, 0, 1};
    static const uint8_t set_a[] = {6, 0, 2, 255, 0, 0, 0, 0}, by_a[] = {2, 3, 2, 0, 13, 0, 0, 0}, by_b[] = {2, 3, 3, 0, 13, 0, 0, 0}, both[] = {2, 3, 2, 255, 13, 0, 0, 0},
                         address[] = {6, 0, 2, 255, 1, 0, 0, 0}, flip[] = {6, 0, 2, 255, 0, 1, 0, 0}, set_then_not[] = {6, 0, 2, 255, 0, 0, 0, 0, 2, 3, 3, 0, 13, 0, 0, 0};
    call_with(a_set, "no instruction, and a mode register set", set_a, 0, 0, 32, STARAN_DONE, 0, 0);
    call_with(flag, "a flag over 1", set_a, sizeof set_a, 0, 32, STARAN_REFUSED_MODE_REGISTERS, 0, 0);
    call_with(mode, "a mode behind flag 0", set_a, sizeof set_a, 0, 32, STARAN_REFUSED_MODE_REGISTERS, 0, 0);
    call_with(mode, "a mode behind flag 0, and no instruction", set_a, 0, 0, 32, STARAN_REFUSED_MODE_REGISTERS, 0, 0);
    call("register A unset", by_a, sizeof by_a, 0, 32, STARAN_REFUSED_MODE_UNSET, 0, 2);
    call_with(a_set, "register B unset", by_b, sizeof by_b, 0, 32, STARAN_REFUSED_MODE_UNSET, 0, 2);
    call_with(a_set, "a register, and a mode given", both, sizeof both, 0, 32, STARAN_REFUSED_MODE_UNUSED, 0, 3);
    call_with(a_set, "kind 6 with an address", address, sizeof address, 0, 32, STARAN_REFUSED_MODE_UNUSED, 0, 4);
    call_with(a_set, "kind 6 with a flip", flip, sizeof flip, 0, 32, STARAN_REFUSED_MOVE_BARRED, 0, 5);
    call("a good kind 6 before a bad instruction", set_then_not, sizeof set_then_not, 0, 32, STARAN_REFUSED_MODE_UNSET, 1, 2);
}

/* Whether a list is isolated, asked with these mode registers. */
static void question(const char *name, const uint8_t modes[4], size_t registers, const uint8_t *list, size_t length, uint32_t number, uint32_t place)
{
    const uint32_t expected[STARAN_ISOLATED_NUMBERS] = {number, place};
    for (int end = 0; end < ENDS; end++) {
        lend_registers(modes, registers, end);
        lend_bytes(LIST, list, length, end);
        uint32_t *answer = lend_answer(STARAN_ISOLATED_NUMBERS, end);
        shut_rooms();
        check("question that writes nothing: %s", name);
        staran_isolated(WHOLE(LIST), WHOLE(REGISTERS), answer);
        expect(answer, STARAN_ISOLATED_NUMBERS, expected);
        open_rooms();
    }
}

static void questions(void)
{
    static const uint8_t a_holds_0[4] = {1, 0, 0, 0}, flag[4] = {2, 0, 0, 0}, mode[4] = {1, 7, 0, 1};
    static const uint8_t stays[] = {6, 0, 2, 0, 0, 0, 0, 0, 2, 3, 2, 0, 13, 0, 0, 0, 6, 0, 3, 255, 0, 0, 0, 0, 0, 0, 1, 0, 9, 0, 0, 0x46},
                         flips[] = {2, 3, 1, 0, 13, 0, 0, 0, 0, 0, 1, 0, 9, 1, 0, 0x46}, by_b[] = {2, 3, 2, 0, 13, 0, 0, 0, 2, 3, 3, 0, 13, 0, 0, 0};
    static uint8_t longest[32768], longer[32776];
    for (size_t i = 0; i < sizeof longer; i++)
        longer[i] = stays[i % sizeof stays];
    memcpy(longest, longer, sizeof longest);
    question("no instruction", unset, 100, stays, 0, STARAN_DONE, 0);
    question("an isolated list", unset, 100, stays, sizeof stays, STARAN_DONE, 0);
    question("the longest isolated list", a_holds_0, 100, longest, sizeof longest, STARAN_DONE, 0);
    question("registers of 96 bytes", unset, 96, stays, sizeof stays, STARAN_REFUSED_REGISTERS_LENGTH, 0);
    question("a list of 7 bytes", unset, 100, stays, 7, STARAN_REFUSED_LIST_LENGTH, 0);
    question("a list too long", unset, 100, longer, sizeof longer, STARAN_REFUSED_LIST_LENGTH, 0);
    question("a flag over 1", flag, 100, stays, sizeof stays, STARAN_REFUSED_MODE_REGISTERS, 0);
    question("a mode behind flag 0, and no instruction", mode, 100, stays, 0, STARAN_REFUSED_MODE_REGISTERS, 0);
    question("a flip", unset, 100, flips, sizeof flips, STARAN_REFUSED_NOT_ISOLATED, 1);
    question("register B unset", a_holds_0, 100, by_b, sizeof by_b, STARAN_REFUSED_NOT_ISOLATED, 1);
}

/* What a list reaches, with this room for it. */
static void reach(const char *name, const uint8_t modes[4], size_t registers, const uint8_t *list, size_t length, size_t out, uint32_t number)
{
    const uint32_t expected[STARAN_REACH_NUMBERS] = {number, 0};
    for (int end = 0; end < ENDS; end++) {
        lend_registers(modes, registers, end);
        lend_bytes(LIST, list, length, end);
        lend(OUT, out, end);
        uint32_t *answer = lend_answer(STARAN_REACH_NUMBERS, end);
        shut_rooms();
        check("reach that writes nothing: %s", name);
        staran_reach(WHOLE(REGISTERS), WHOLE(LIST), WHOLE(OUT), answer);
        expect(answer, STARAN_REACH_NUMBERS, expected);
        open_rooms();
    }
}

/* Its text. */
static void show(const char *name, const uint8_t *list, size_t length, size_t text, uint32_t number)
{
    const uint32_t expected[STARAN_SHOW_NUMBERS] = {number, 0};
    for (int end = 0; end < ENDS; end++) {
        lend_bytes(LIST, list, length, end);
        lend(TEXT, text, end);
        uint32_t *answer = lend_answer(STARAN_SHOW_NUMBERS, end);
        shut_rooms();
        check("show that writes nothing: %s", name);
        staran_show(WHOLE(LIST), WHOLE(TEXT), answer);
        expect(answer, STARAN_SHOW_NUMBERS, expected);
        open_rooms();
    }
}

/* Both are done, though the list and the registers cannot be written. */
static void written_texts(const uint8_t *list, size_t length, const uint8_t *counts, const char *text)
{
    const uint32_t reached[STARAN_REACH_NUMBERS] = {STARAN_DONE, (uint32_t)STARAN_REACH_BYTES(length)}, shown[STARAN_SHOW_NUMBERS] = {STARAN_DONE, (uint32_t)strlen(text)};
    for (int end = 0; end < ENDS; end++) {
        nothing_lent(end);
        lend_registers(unset, STARAN_REGISTERS_BYTES, end);
        lend_bytes(LIST, list, length, end);
        lend(OUT, STARAN_REACH_BYTES(length) + 3, end);
        uint32_t *answer = lend_answer(STARAN_REACH_NUMBERS, end);
        shut_room(REGISTERS);
        shut_room(LIST);
        check("reach of a list that cannot be written");
        memcpy(buffers[OUT].expected, counts, STARAN_REACH_BYTES(length));
        staran_reach(WHOLE(REGISTERS), WHOLE(LIST), WHOLE(OUT), answer);
        settle(answer, STARAN_REACH_NUMBERS, reached);
        check("show of a list that cannot be written");
        lend(TEXT, strlen(text) + 3, end);
        answer = lend_answer(STARAN_SHOW_NUMBERS, end);
        memcpy(buffers[OUT].expected, buffers[OUT].bytes, buffers[OUT].length);
        memcpy(buffers[TEXT].expected, text, strlen(text));
        staran_show(WHOLE(LIST), WHOLE(TEXT), answer);
        settle(answer, STARAN_SHOW_NUMBERS, shown);
        open_rooms();
    }
}

static void texts(void)
{
    static const uint8_t flag[4] = {2, 0, 0, 0}, mode[4] = {1, 7, 0, 1};
    static const uint8_t list[] = {6, 0, 2, 0, 0, 0, 0, 0, 2, 3, 2, 0, 13, 0, 0, 0, 3, 4, 1, 255, 9, 0, 0, 0, 2, 3, 3, 0, 13, 0, 0, 0};
    static const uint8_t counts[] = {0, 0, 0, 1, 1, 0, 0, 0};
    static const char text[] = "set a 0\nstore mode a address 13 from y ; reaches 256 words\nmstore word 9 from outside ; reaches 1 word\nstore mode b address 13 from y ; reaches ? words\n";
    static uint8_t longest[32768], longer[32776];
    for (size_t i = 0; i < sizeof longer; i++)
        longer[i] = list[i % sizeof list];
    memcpy(longest, longer, sizeof longest);
    reach("no instruction", unset, 100, list, 0, 40, STARAN_DONE);
    reach("no instruction, and no room", unset, 100, list, 0, 0, STARAN_DONE);
    reach("registers of 96 bytes", unset, 96, list, sizeof list, 40, STARAN_REFUSED_REGISTERS_LENGTH);
    reach("a list of 7 bytes", unset, 100, list, 7, 40, STARAN_REFUSED_LIST_LENGTH);
    reach("a list too long", unset, 100, longer, sizeof longer, 40000, STARAN_REFUSED_LIST_LENGTH);
    reach("a flag over 1", flag, 100, list, sizeof list, 40, STARAN_REFUSED_MODE_REGISTERS);
    reach("a mode behind flag 0, and no instruction", mode, 100, list, 0, 40, STARAN_REFUSED_MODE_REGISTERS);
    reach("no room", unset, 100, list, sizeof list, 0, STARAN_REFUSED_OUTPUT_TOO_SHORT);
    reach("a byte too little room", unset, 100, list, sizeof list, 7, STARAN_REFUSED_OUTPUT_TOO_SHORT);
    reach("a byte too little room for the longest list", unset, 100, longest, sizeof longest, 8191, STARAN_REFUSED_OUTPUT_TOO_SHORT);
    show("no instruction", list, 0, 40, STARAN_DONE);
    show("no instruction, and no room", list, 0, 0, STARAN_DONE);
    show("a list of 7 bytes", list, 7, 800, STARAN_REFUSED_LIST_LENGTH);
    show("a list too long", longer, sizeof longer, 800000, STARAN_REFUSED_LIST_LENGTH);
    show("no room", list, sizeof list, 0, STARAN_REFUSED_OUTPUT_TOO_SHORT);
    show("a byte too little room", list, sizeof list, strlen(text) - 1, STARAN_REFUSED_OUTPUT_TOO_SHORT);
    show("too little room for the longest list", longest, sizeof longest, 150000, STARAN_REFUSED_OUTPUT_TOO_SHORT);
    written_texts(list, sizeof list, counts, text);
}

/* A list made of a text, with room for any. */
static void make(const char *name, const char *text, size_t length, uint32_t number, uint32_t line, uint32_t column)
{
    const uint32_t expected[STARAN_MAKE_NUMBERS] = {number, line, column, 0, 0};
    for (int end = 0; end < ENDS; end++) {
        lend_bytes(TEXT, (const uint8_t *)text, length, end);
        lend(LIST, 65536, end);
        lend(ITEMS, 65536, end);
        uint32_t *answer = lend_answer(STARAN_MAKE_NUMBERS, end);
        shut_rooms();
        check("make that writes nothing: %s", name);
        staran_make(WHOLE(TEXT), WHOLE(LIST), WHOLE(ITEMS), answer);
        expect(answer, STARAN_MAKE_NUMBERS, expected);
        open_rooms();
    }
}

static void make_text(const char *name, const char *text, uint32_t number, uint32_t line, uint32_t column) { make(name, text, strlen(text), number, line, column); }

/* With too little room for what the text makes. */
static void make_short(const char *text, size_t list, size_t items)
{
    const uint32_t expected[STARAN_MAKE_NUMBERS] = {STARAN_REFUSED_LIST_TOO_SHORT, 0, 0, 0, 0};
    for (int end = 0; end < ENDS; end++) {
        lend_bytes(TEXT, (const uint8_t *)text, strlen(text), end);
        lend(LIST, list, end);
        lend(ITEMS, items, end);
        uint32_t *answer = lend_answer(STARAN_MAKE_NUMBERS, end);
        shut_rooms();
        check("make that writes nothing: room for %zu and %zu", list, items);
        staran_make(WHOLE(TEXT), WHOLE(LIST), WHOLE(ITEMS), answer);
        expect(answer, STARAN_MAKE_NUMBERS, expected);
        open_rooms();
    }
}

/* It is done, though the text cannot be written; and, where the text brings no items, though these cannot be either. */
static void written_list(const char *text, int items_too)
{
    uint32_t expected[STARAN_MAKE_NUMBERS];
    for (int end = 0; end < ENDS; end++) {
        nothing_lent(end);
        lend_bytes(TEXT, (const uint8_t *)text, strlen(text), end);
        lend(LIST, 300, end);
        lend(ITEMS, 300, end);
        model_make(WHOLE(TEXT), buffers[LIST].expected, 300, buffers[ITEMS].expected, 300, expected);
        uint32_t *answer = lend_answer(STARAN_MAKE_NUMBERS, end);
        shut_room(TEXT);
        if (!items_too)
            shut_room(ITEMS);
        check("make of a text that cannot be written");
        staran_make(WHOLE(TEXT), WHOLE(LIST), WHOLE(ITEMS), answer);
        settle(answer, STARAN_MAKE_NUMBERS, expected);
        open_rooms();
    }
}

static void made(void)
{
    static const char search[] = "field f 0 2\nless f 1\nresolve\n";
    static char longer[STARAN_LONGEST_TEXT + 1], many[8 * 4097];
    memset(longer, '\n', sizeof longer);
    for (size_t i = 0; i < sizeof many; i++)
        many[i] = "resolve\n"[i % 8];
    make_text("no text", "", STARAN_DONE, 0, 0);
    make("the longest text, of empty lines", longer, sizeof longer - 1, STARAN_DONE, 0, 0);
    make_text("fields, a limit and a comment", "field f 0 2\n;\nreach at most 1 word", STARAN_DONE, 0, 0);
    make("a text too long", longer, sizeof longer, STARAN_REFUSED_TEXT_LENGTH, 0, 0);
    make_text("a wrong word behind good lines", "resolve\nset a 5\nset c 5", STARAN_REFUSED_TEXT_SOURCE, 3, 5);
    make_text("a wrong word behind a search", "field f 0 2\nless f 1\nequal f 4", STARAN_REFUSED_NUMBER_TOO_LARGE, 3, 9);
    make_text("a line cut off behind a sum", "field f 0 2\nsum f f into f\nsum f f into", STARAN_REFUSED_TEXT_TOO_EARLY, 3, 13);
    make_text("a store too wide behind good lines", "resolve\nreach at most 1 word\nstore slice 5 from x", STARAN_REFUSED_TEXT_REACH, 3, 1);
    make_text("a search behind an item from outside", "field f 0 2\nless f 1\ndeliver outside\nless f 1", STARAN_REFUSED_TEXT_ITEM_ABOVE, 4, 1);
    make("4,097 instructions", many, sizeof many, STARAN_REFUSED_LIST_LENGTH, 0, 0);
    make_short(search, 71, 64);
    make_short(search, 72, 63);
    make_short(search, 0, 0);
    written_list(search, 1);
    written_list("field f 0 2\nsum f f into f\nstore slice 5 from x\nresolve", 0);
}

/* A refused builder's counts are 0. S has its start at 2n. */
static void sums(const char *name, uint32_t a, uint32_t b, uint32_t n, size_t short_by, uint32_t number)
{
    const uint32_t expected[STARAN_LIST_NUMBERS] = {number, 0};
    for (int end = 0; end < ENDS; end++) {
        lend(LIST, STARAN_SUM_LIST_BYTES(n) - short_by, end);
        lend(OUT, STARAN_DIFFERENCE_LIST_BYTES(n) - short_by, end);
        uint32_t *answer = lend_answer(STARAN_LIST_NUMBERS, end);
        shut_rooms();
        check("sum list that writes nothing: %s", name);
        staran_sum_list(a, b, 2 * n, n, WHOLE(LIST), answer);
        expect(answer, STARAN_LIST_NUMBERS, expected);
        check("difference list that writes nothing: %s", name);
        answer = lend_answer(STARAN_LIST_NUMBERS, end);
        staran_difference_list(a, b, 2 * n, n, WHOLE(OUT), answer);
        expect(answer, STARAN_LIST_NUMBERS, expected);
        open_rooms();
    }
}

static void searches(const char *name, uint32_t start, uint32_t n, uint64_t number, size_t list_short_by, size_t items_short_by, uint32_t refused)
{
    const uint32_t expected[STARAN_LIST_AND_ITEMS_NUMBERS] = {refused, 0, 0};
    for (int end = 0; end < ENDS; end++) {
        lend(LIST, STARAN_SEARCH_LIST_BYTES(n) - list_short_by, end);
        lend(ITEMS, STARAN_SEARCH_ITEMS_BYTES(n) - items_short_by, end);
        uint32_t *answer = lend_answer(STARAN_LIST_AND_ITEMS_NUMBERS, end);
        shut_rooms();
        check("equal list that writes nothing: %s", name);
        staran_equal_list(start, n, number, WHOLE(LIST), WHOLE(ITEMS), answer);
        expect(answer, STARAN_LIST_AND_ITEMS_NUMBERS, expected);
        check("less list that writes nothing: %s", name);
        answer = lend_answer(STARAN_LIST_AND_ITEMS_NUMBERS, end);
        staran_less_list(start, n, number, WHOLE(LIST), WHOLE(ITEMS), answer);
        expect(answer, STARAN_LIST_AND_ITEMS_NUMBERS, expected);
        open_rooms();
    }
}

static void greatest(const char *name, uint32_t start, uint32_t n, size_t short_by, uint32_t number)
{
    const uint32_t expected[STARAN_LIST_NUMBERS] = {number, 0};
    for (int end = 0; end < ENDS; end++) {
        lend(LIST, STARAN_GREATEST_LIST_BYTES(n) - short_by, end);
        uint32_t *answer = lend_answer(STARAN_LIST_NUMBERS, end);
        shut_rooms();
        check("greatest list that writes nothing: %s", name);
        staran_greatest_list(start, n, WHOLE(LIST), answer);
        expect(answer, STARAN_LIST_NUMBERS, expected);
        open_rooms();
    }
}

/* The marks' buffer cannot be written either. Where `list_short_by` or `items_short_by` is 1, the buffers are of the very lengths less that. */
static void closings(const char *name, size_t marks, uint32_t a, uint32_t s, uint32_t n, size_t list_short_by, size_t items_short_by, uint32_t refused)
{
    const uint32_t expected[STARAN_LIST_AND_ITEMS_NUMBERS] = {refused, 0, 0};
    for (int i = 0; i < 2 * ENDS; i++) {
        const int end = i % ENDS, spreads = i / ENDS;
        lend(FILE_BYTES, marks, end);
        lend(LIST, (spreads ? STARAN_SPREADING_LIST_BYTES(n) : STARAN_CLOSING_LIST_BYTES(n)) - list_short_by, end);
        lend(ITEMS, (spreads ? STARAN_SPREADING_ITEMS_BYTES(n) : STARAN_CLOSING_ITEMS_BYTES) - items_short_by, end);
        uint32_t *answer = lend_answer(STARAN_LIST_AND_ITEMS_NUMBERS, end);
        shut_rooms();
        check("%s list that writes nothing: %s", spreads ? "spreading" : "closing", name);
        (spreads ? staran_spreading_list : staran_closing_list)(a, s, n, WHOLE(FILE_BYTES), WHOLE(LIST), WHOLE(ITEMS), answer);
        expect(answer, STARAN_LIST_AND_ITEMS_NUMBERS, expected);
        open_rooms();
    }
}

/* ---- pictures: a file of this kind and size with these mode registers, of which block 16 has one byte altered, by `by`, and is sealed again or not */

enum { OLD = STARAN_CONTENT_PICTURE, NEW = STARAN_CONTENT_PICTURE_WITH_MODES, OLD_BYTES = 8288, NEW_BYTES = 8292 };
static const uint8_t set[4] = {0, 0, 1, 0}, wrong_flag[4] = {1, 255, 2, 0};
static uint8_t file[STARAN_PICTURE_FILE_BYTES];

static void make_picture(size_t kind, size_t size, const uint8_t modes[4], size_t byte, uint8_t by, int sealed)
{
    static uint8_t content[NEW_BYTES + 1];
    for (size_t i = 0; i < sizeof content; i++)
        content[i] = (uint8_t)(i * 59 + 1);
    memcpy(content + OLD_BYTES, modes, 4);
    model_blocks(kind, content, size, file);
    file[512 * 16 + byte] ^= by;
    if (sealed)
        model_seal(file + 512 * 16);
}

/* Reads `file` as this kind, unless `registers` is 0, and where `converts` takes it for a conversion from this kind: each must be refused so. */
static void refused_file(const char *name, size_t kind, size_t length, size_t registers, int converts, size_t out, uint32_t number, uint32_t place)
{
    const uint32_t expected[STARAN_DISK_NUMBERS] = {number, place, 0};
    for (int end = 0; end < ENDS; end++) {
        lend_bytes(FILE_BYTES, file, length, end);
        lend(MEMORY, STARAN_MEMORY_BYTES, end);
        lend(REGISTERS, registers, end);
        lend(OUT, out, end);
        uint32_t *answer = lend_answer(STARAN_DISK_NUMBERS, end);
        shut_rooms();
        if (registers != 0) {
            check("reading that writes nothing: %s", name);
            staran_read_picture(kind, WHOLE(FILE_BYTES), WHOLE(MEMORY), WHOLE(REGISTERS), answer);
            expect(answer, STARAN_DISK_NUMBERS, expected);
        }
        if (converts) {
            check("conversion that writes nothing: %s", name);
            answer = lend_answer(STARAN_DISK_NUMBERS, end);
            (kind == NEW ? staran_picture_to_old : staran_picture_to_new)(WHOLE(FILE_BYTES), WHOLE(OUT), answer);
            expect(answer, STARAN_DISK_NUMBERS, expected);
        }
        open_rooms();
    }
}

static void pictures(void)
{
    const size_t whole = STARAN_PICTURE_FILE_BYTES;
    for (size_t kind = OLD; kind <= NEW; kind += NEW - OLD) {
        const size_t size = kind == NEW ? NEW_BYTES : OLD_BYTES, registers = size - STARAN_MEMORY_BYTES;
        make_picture(kind, size, unset, 20, 0, 1);
        refused_file("no kind", 5, whole, registers, 0, whole, STARAN_REFUSED_BLOCK_KIND, 0);
        refused_file("a byte too few", kind, whole - 1, registers, 1, whole, STARAN_REFUSED_FILE_LENGTH, 0);
        refused_file("a block too few", kind, whole - 512, registers, 1, whole, STARAN_REFUSED_BLOCK_NUMBER, 0);
        refused_file("the other kind", OLD + NEW - kind, whole, OLD + NEW - kind == NEW ? 100 : 96, 1, whole, STARAN_REFUSED_BLOCK_KIND, 0);
        refused_file("registers of the other kind", kind, whole, kind == NEW ? 96 : 100, 0, whole, STARAN_REFUSED_LENT_LENGTH, 0);
        refused_file("an output too short", kind, whole, 0, 1, whole - 1, STARAN_REFUSED_OUTPUT_TOO_SHORT, 0);
        make_picture(kind, size, unset, 20, 1, 0);
        refused_file("other sums", kind, whole, registers, 1, whole, STARAN_REFUSED_BLOCK_SUMS, 16);
        make_picture(kind, size, unset, 0, 8, 1);
        refused_file("a block of another kind", kind, whole, registers, 1, whole, STARAN_REFUSED_BLOCK_KIND, 16);
        make_picture(kind, size, unset, 368, 1, 1);
        refused_file("a byte that must be 0", kind, whole, registers, 1, whole, STARAN_REFUSED_BLOCK_FORM, 16);
        make_picture(kind, size + 1, unset, 20, 0, 1);
        refused_file("a byte more", kind, whole, registers, 1, whole, STARAN_REFUSED_CONTENT_SIZE, 0);
    }
    make_picture(NEW, NEW_BYTES, wrong_flag, 20, 0, 1);
    refused_file("a flag over 1", NEW, whole, 100, 1, whole, STARAN_REFUSED_MODE_REGISTERS, 0);
    make_picture(NEW, NEW_BYTES, set, 20, 0, 1);
    refused_file("a mode register set", NEW, whole, 0, 1, whole, STARAN_REFUSED_MODE_SET, 0);
}

static void refused_writing(const char *name, size_t kind, size_t memory, size_t registers, const uint8_t modes[4], size_t out, uint32_t number)
{
    const uint32_t expected[STARAN_DISK_NUMBERS] = {number, 0, 0};
    for (int end = 0; end < ENDS; end++) {
        lend(MEMORY, memory, end);
        lend_registers(modes, registers, end);
        lend(OUT, out, end);
        uint32_t *answer = lend_answer(STARAN_DISK_NUMBERS, end);
        shut_rooms();
        check("writing a picture that writes nothing: %s", name);
        staran_write_picture(kind, WHOLE(MEMORY), WHOLE(REGISTERS), WHOLE(OUT), answer);
        expect(answer, STARAN_DISK_NUMBERS, expected);
        open_rooms();
    }
}

static void written_pictures(void)
{
    const size_t whole = STARAN_PICTURE_FILE_BYTES;
    refused_writing("kind 0", 0, 8192, 96, unset, whole, STARAN_REFUSED_BLOCK_KIND);
    refused_writing("kind 5", 5, 8192, 100, wrong_flag, whole, STARAN_REFUSED_BLOCK_KIND);
    refused_writing("a list", STARAN_CONTENT_LIST, 8192, 96, unset, whole, STARAN_REFUSED_LENT_LENGTH);
    refused_writing("kind 1 with 100 registers", OLD, 8192, 100, unset, whole, STARAN_REFUSED_LENT_LENGTH);
    refused_writing("kind 4 with 96 registers", NEW, 8192, 96, unset, whole, STARAN_REFUSED_LENT_LENGTH);
    refused_writing("a memory too short", NEW, 8191, 100, wrong_flag, whole, STARAN_REFUSED_LENT_LENGTH);
    refused_writing("a flag over 1", NEW, 8192, 100, wrong_flag, whole, STARAN_REFUSED_MODE_REGISTERS);
    refused_writing("a flag over 1, and an output too short", NEW, 8192, 100, wrong_flag, whole - 1, STARAN_REFUSED_MODE_REGISTERS);
    refused_writing("an output too short for kind 1", OLD, 8192, 96, unset, whole - 1, STARAN_REFUSED_OUTPUT_TOO_SHORT);
    refused_writing("an output too short for kind 4", NEW, 8192, 100, set, whole - 1, STARAN_REFUSED_OUTPUT_TOO_SHORT);
}

int unwritten(void)
{
    instructions();
    mode_registers();
    questions();
    texts();
    made();
    pictures();
    written_pictures();
    sums("a width of 0", 0, 0, 0, 0, STARAN_REFUSED_WIDTH);
    sums("a width of 65", 0, 65, 65, 0, STARAN_REFUSED_WIDTH);
    sums("a field beyond the word", 0, 193, 64, 0, STARAN_REFUSED_FIELD_BEYOND);
    sums("fields that cross", 0, 63, 32, 0, STARAN_REFUSED_FIELDS_CROSS);
    sums("a list too short", 0, 32, 32, 1, STARAN_REFUSED_LIST_TOO_SHORT);
    searches("a width of 0", 0, 0, 0, 0, 0, STARAN_REFUSED_WIDTH);
    searches("a width of 65", 0, 65, 0, 0, 0, STARAN_REFUSED_WIDTH);
    searches("a field beyond the word", 193, 64, 0, 0, 0, STARAN_REFUSED_FIELD_BEYOND);
    searches("a number too large", 0, 32, (uint64_t)1 << 32, 0, 0, STARAN_REFUSED_NUMBER_TOO_LARGE);
    searches("a list too short", 0, 32, 7, 1, 0, STARAN_REFUSED_LIST_TOO_SHORT);
    searches("items too short", 0, 32, 7, 0, 1, STARAN_REFUSED_LIST_TOO_SHORT);
    greatest("a width of 0", 0, 0, 0, STARAN_REFUSED_WIDTH);
    greatest("a width of 65", 0, 65, 0, STARAN_REFUSED_WIDTH);
    greatest("a field beyond the word", 193, 64, 0, STARAN_REFUSED_FIELD_BEYOND);
    greatest("a list too short", 0, 32, 1, STARAN_REFUSED_LIST_TOO_SHORT);
    closings("marks of 31 bytes", 31, 0, 32, 32, 0, 0, STARAN_REFUSED_MARKS_LENGTH);
    closings("no marks, and all else wrong", 0, 250, 250, 33, 1, 1, STARAN_REFUSED_MARKS_LENGTH);
    closings("a width of 0", 32, 0, 32, 0, 0, 0, STARAN_REFUSED_WIDTH);
    closings("a width of 33", 32, 0, 33, 33, 0, 0, STARAN_REFUSED_WIDTH);
    closings("a field beyond the word", 32, 225, 32, 32, 0, 0, STARAN_REFUSED_FIELD_BEYOND);
    closings("fields that meet", 32, 32, 63, 32, 0, 0, STARAN_REFUSED_FIELDS_CROSS);
    closings("the same field", 32, 32, 32, 32, 0, 0, STARAN_REFUSED_FIELDS_CROSS);
    closings("a list too short", 32, 0, 32, 32, 1, 0, STARAN_REFUSED_LIST_TOO_SHORT);
    closings("items too short", 32, 0, 32, 32, 0, 1, STARAN_REFUSED_LIST_TOO_SHORT);
    return counted();
}
