/* Has lists judged and run with mode registers, by runs and by steps: flags and modes of every kind, lists whose answer stands here, every mode from a register
 * as if it were given, and lists that are drawn, whose answer and every byte they leave are held to the model. */
#include "modes.h"

#include "checks.h"
#include "draw.h"
#include "lent.h"
#include "model.h"
#include "staran.h"

#include <string.h>

enum { RUN, STEP, CALLS };
static const char *const names[CALLS] = {"run", "step"};

/* ---- a run or a step of what is lent */

static void lend_all(const uint8_t modes[4], const uint8_t *list, size_t length, int end)
{
    nothing_lent(end);
    lend(MEMORY, 8192, end);
    lend_registers(modes, 100, end);
    lend_bytes(LIST, list, length, end);
    lend(ITEMS, 96, end);
    lend(OUT, 96, end);
}

/* Puts to what is expected what the model makes of it, and gives back its answer. */
static void expect(int call, uint32_t expected[STARAN_RUN_NUMBERS])
{
    const model_lent l = {buffers[MEMORY].expected, buffers[MEMORY].length, buffers[REGISTERS].expected, buffers[REGISTERS].length, WHOLE(LIST),
                          WHOLE(ITEMS), buffers[OUT].expected, buffers[OUT].length};
    model_run(call == STEP, &l, expected);
}

static void make(int call, uint32_t *answer)
{
    if (call == STEP)
        staran_step_5(WHOLE(MEMORY), (staran_registers *)(void *)buffers[REGISTERS].bytes, WHOLE(LIST), WHOLE(ITEMS), WHOLE(OUT), answer);
    else
        staran_run_4(WHOLE(MEMORY), WHOLE(REGISTERS), WHOLE(LIST), WHOLE(ITEMS), WHOLE(OUT), answer);
}

static void make_and_settle(int call, const uint32_t expected[STARAN_RUN_NUMBERS], int end)
{
    uint32_t *answer = lend_answer(STARAN_RUN_NUMBERS, end);
    make(call, answer);
    settle(answer, STARAN_RUN_NUMBERS, expected);
}

/* ---- mode registers as they are lent: 15, place 0 and byte 0, behind the lengths and before the list */

static const uint8_t deliver_m[8] = {4, 1, 0, 0, 0, 0, 0, 0};

static void flags(void)
{
    static const uint8_t all[] = {0, 1, 2, 3, 128, 255};
    const size_t n = COUNT(all), sets = n * n * n * n;
    for (size_t i = 0; i < CALLS * sets; i++) {
        const uint8_t modes[4] = {all[i / CALLS % n], all[i / CALLS / n % n], all[i / CALLS / n / n % n], all[i / CALLS / n / n / n]};
        const int call = (int)(i % CALLS), end = (int)(i / CALLS % ENDS);
        const int a = modes[0] == 1 || (modes[0] == 0 && modes[1] == 0), b = modes[2] == 1 || (modes[2] == 0 && modes[3] == 0);
        const uint32_t done[STARAN_RUN_NUMBERS] = {[STARAN_ANSWER_STEPS] = 1, [STARAN_ANSWER_GIVEN] = 1}, refused[STARAN_RUN_NUMBERS] = {15};
        check("%s with A %u %u, B %u %u", names[call], modes[0], modes[1], modes[2], modes[3]);
        lend_all(modes, deliver_m, 8, end);
        if (a && b)
            memcpy(buffers[OUT].expected, buffers[REGISTERS].bytes, 32);
        make_and_settle(call, a && b ? done : refused, end);
    }
    function("flags");
}

/* With bad flags, and beside them one thing that goes before 15 or comes behind it. */
static void flags_in_turn(void)
{
    static const uint8_t kind_7[8] = {7, 0, 0, 0, 0, 0, 0, 0}, by_b[8] = {2, 3, 3, 0, 0, 0, 0, 0}, take[8] = {4, 4, 0, 0, 0, 0, 0, 0}, set_b[8] = {6, 0, 3, 0, 0, 0, 0, 0};
    static const struct {
        const uint8_t *list;
        size_t length, memory, registers, items, out;
        uint32_t number;
    } rows[] = {{deliver_m, 8, 8191, 100, 32, 32, 1}, {deliver_m, 8, 0, 96, 31, 0, 1},       {deliver_m, 8, 8192, 96, 32, 32, 2}, {deliver_m, 8, 8192, 101, 32, 32, 2},
                {deliver_m, 7, 8192, 100, 32, 32, 3}, {deliver_m, 7, 8192, 100, 31, 32, 3},  {deliver_m, 8, 8192, 100, 31, 32, 4}, {deliver_m, 8, 8192, 100, 32, 32, 15},
                {kind_7, 8, 8192, 100, 32, 32, 15},   {by_b, 8, 8192, 100, 32, 32, 15},      {take, 8, 8192, 100, 0, 32, 15},     {take, 8, 8192, 100, 32, 0, 15},
                {set_b, 8, 8192, 100, 0, 0, 15},      {deliver_m, 0, 8192, 100, 0, 0, 15}};
    static const uint8_t bad[][4] = {{2, 0, 1, 255}, {1, 255, 0, 1}, {0, 255, 0, 0}, {0, 0, 255, 255}};
    for (size_t i = 0; i < CALLS * ENDS * COUNT(rows) * COUNT(bad); i++) {
        const size_t row = i / (CALLS * ENDS) % COUNT(rows);
        const int call = (int)(i % CALLS), end = (int)(i / CALLS % ENDS);
        const uint32_t expected[STARAN_RUN_NUMBERS] = {rows[row].number};
        if (call == STEP && (rows[row].registers != 100 || rows[row].length == 0))
            continue;
        check("%s, row %zu of those with bad flags", names[call], row);
        lend_all(bad[i / (CALLS * ENDS) / COUNT(rows)], rows[row].list, rows[row].length, end);
        lend(MEMORY, rows[row].memory, end);
        lend_registers(bad[i / (CALLS * ENDS) / COUNT(rows)], rows[row].registers, end);
        lend(ITEMS, rows[row].items, end);
        lend(OUT, rows[row].out, end);
        make_and_settle(call, expected, end);
    }
    function("flags in turn");
}

/* ---- lists whose answer stands here, with the mode registers that they leave */

enum { MOST = 4 };
#define SET_A(mode) {STARAN_SET_MODE(STARAN_TAG_A, mode)}
#define SET_B(mode) {STARAN_SET_MODE(STARAN_TAG_B, mode)}
#define STORE_BY(tag) {STARAN_STORE_BY(STARAN_SOURCE_Y, tag, 13, 0)}
static const struct {
    const char *name;
    uint8_t before[4];
    size_t count;
    uint8_t list[MOST][8];
    uint32_t number, place, byte;
    uint8_t after[4];
} lists[] = {
    {"A set, and used", {0}, 2, {SET_A(255), STORE_BY(2)}, 0, 0, 0, {1, 255, 0, 0}},
    {"B set, and used", {0}, 2, {SET_B(7), STORE_BY(3)}, 0, 0, 0, {0, 0, 1, 7}},
    {"A set to mode 0, and used", {0}, 2, {SET_A(0), STORE_BY(2)}, 0, 0, 0, {1, 0, 0, 0}},
    {"A set at the start, and used", {1, 90, 0, 0}, 1, {STORE_BY(2)}, 0, 0, 0, {1, 90, 0, 0}},
    {"B set at the start, and used", {0, 0, 1, 90}, 1, {STORE_BY(3)}, 0, 0, 0, {0, 0, 1, 90}},
    {"A set at the start, set again, and used", {1, 90, 0, 0}, 3, {STORE_BY(2), SET_A(7), STORE_BY(2)}, 0, 0, 0, {1, 7, 0, 0}},
    {"both set, and B set again", {0}, 4, {SET_B(1), SET_A(2), SET_B(3), STORE_BY(3)}, 0, 0, 0, {1, 2, 1, 3}},
    {"set, and never used", {0, 0, 1, 9}, 1, {SET_A(255)}, 0, 0, 0, {1, 255, 1, 9}},
    {"A used, and nothing set", {0}, 1, {STORE_BY(2)}, 14, 0, 2, {0}},
    {"B used, and nothing set", {0}, 1, {STORE_BY(3)}, 14, 0, 2, {0}},
    {"A used, and B set at the start", {0, 0, 1, 9}, 1, {STORE_BY(2)}, 14, 0, 2, {0, 0, 1, 9}},
    {"B used, and A set at the start", {1, 9, 0, 0}, 1, {STORE_BY(3)}, 14, 0, 2, {1, 9, 0, 0}},
    {"A used, and B set before", {0}, 2, {SET_B(255), STORE_BY(2)}, 14, 1, 2, {0}},
    {"B used, and A set before", {0}, 2, {SET_A(255), STORE_BY(3)}, 14, 1, 2, {0}},
    {"A used, and set behind", {0}, 2, {STORE_BY(2), SET_A(255)}, 14, 0, 2, {0}},
    {"both set, and the last instruction of kind 7", {1, 9, 0, 0}, 3, {SET_A(1), SET_B(2), {7}}, 5, 2, 0, {1, 9, 0, 0}},
    {"A set by an instruction that is refused", {0}, 2, {{6, 0, 2, 255, 1}, STORE_BY(2)}, 9, 0, 4, {0}},
    {"A used with a mode given, and set", {1, 9, 0, 0}, 1, {{2, 3, 2, 9, 13}}, 9, 0, 3, {1, 9, 0, 0}},
    {"A used with a mode given, and nothing set", {0}, 1, {{2, 3, 2, 9, 13}}, 9, 0, 3, {0}},
};

static void list_once(size_t k, int call, int end)
{
    uint32_t expected[STARAN_RUN_NUMBERS];
    const uint32_t number = lists[k].number, count = (uint32_t)lists[k].count;
    const uint32_t stands[STARAN_RUN_NUMBERS] = {number, lists[k].place, lists[k].byte, number == 0 ? count : 0, 0, 0};
    check("%s of a list: %s", names[call], lists[k].name);
    lend_all(lists[k].before, lists[k].list[0], 8 * lists[k].count, end);
    expect(call, expected);
    answered(expected, STARAN_RUN_NUMBERS, stands);
    if (memcmp(buffers[REGISTERS].expected + 96, lists[k].after, 4) != 0)
        wrong("the model leaves other mode registers than stand here");
    make_and_settle(call, stands, end);
}

static void lists_in_turn(void)
{
    for (size_t k = 0; k < COUNT(lists); k++)
        for (int end = 0; end < ENDS; end++) {
            list_once(k, RUN, end);
            if (lists[k].count == 1)
                list_once(k, STEP, end);
        }
    function("lists");
}

/* ---- every mode: given, from a register that is set at the start, and from one that the list sets, each instruction that touches memory does the same */

static void every_mode(void)
{
    static const uint8_t touching[][8] = {{0, 0, 1, 0, 45, 90, 131, 0x46}, {1, 0, 1, 0, 13, 0, 0, 0}, {2, 4, 1, 0, 200, 5, 0, 0}, {3, 2, 1, 0, 7, 255, 0, 0}, {4, 0, 1, 0, 99, 1, 0, 0}};
    enum { GIVEN, AT_START, IN_LIST, WAYS };
    for (size_t i = 0; i < COUNT(touching) * 2 * 256; i++) {
        const size_t k = i / 2 / 256, r = i / 256 % 2;
        const uint8_t mode = (uint8_t)i, other = (uint8_t)(mode + 101);
        for (int way = 0; way < WAYS; way++) {
            const int end = (int)((i + (size_t)way) % ENDS);
            uint8_t modes[4] = {0}, list[16] = {6, 0, (uint8_t)(2 + r), mode};
            uint32_t expected[STARAN_RUN_NUMBERS], *answer;
            memcpy(list + 8, touching[k], 8);
            list[8 + 2] = way == GIVEN ? 1 : (uint8_t)(2 + r);
            list[8 + 3] = way == GIVEN ? mode : 0;
            modes[2 - 2 * r] = 1, modes[3 - 2 * r] = other; /* the other register has another mode, which must not be taken */
            if (way == AT_START)
                modes[2 * r] = 1, modes[2 * r + 1] = mode;
            check("mode %u, %s, instruction of kind %u", (unsigned)mode, way == GIVEN ? "given" : way == AT_START ? "set at the start" : "set in the list", touching[k][0]);
            lend_all(modes, way == IN_LIST ? list : list + 8, way == IN_LIST ? 16 : 8, end);
            list[8 + 2] = 1, list[8 + 3] = mode;
            const model_lent by_given = {buffers[MEMORY].expected, 8192, buffers[REGISTERS].expected, 100, list + 8, 8, WHOLE(ITEMS), buffers[OUT].expected, 96};
            model_run(0, &by_given, expected);
            if (way == IN_LIST)
                expected[STARAN_ANSWER_STEPS]++, buffers[REGISTERS].expected[96 + 2 * r] = 1, buffers[REGISTERS].expected[97 + 2 * r] = mode;
            answer = lend_answer(STARAN_RUN_NUMBERS, end);
            make(way == IN_LIST || i % 3 == 0 ? RUN : STEP, answer);
            settle(answer, STARAN_RUN_NUMBERS, expected);
        }
    }
    function("every mode");
}

/* ---- lists that are drawn: good instructions of every kind, some of them spoiled, with mode registers that are good or not */

enum { LONGEST_DRAWN = 12, DRAWN = 40000 };

static void draw_instruction(uint8_t i[8])
{
    static const uint8_t kinds[] = {0, 0, 1, 2, 2, 3, 3, 4, 5, 6, 6, 6}, spoiled[] = {0, 1, 2, 3, 4, 5, 7, 15, 80, 144, 159, 255};
    memset(i, 0, 8);
    i[0] = kinds[draw() % COUNT(kinds)];
    const int stores = i[0] == 2 || i[0] == 3;
    if (i[0] < 5)
        i[1] = (uint8_t)(stores ? 1 + draw() % 4 : draw() % 2 == 0 ? 0 : draw() % 5);
    if (stores || (i[0] < 5 && i[1] == 0)) {
        i[2] = (uint8_t)(1 + draw() % 3);
        i[4] = (uint8_t)draw();
    }
    if (i[0] == 6)
        i[2] = (uint8_t)(2 + draw() % 2);
    if (i[0] == 6 || i[2] == 1)
        i[3] = draw() % 4 == 0 ? 255 : (uint8_t)draw();
    if (i[0] < 5)
        i[5] = (uint8_t)(draw() % 2 * draw());
    if (i[0] < 5 && !stores && draw() % 2 == 0) {
        const unsigned p = 1 + (unsigned)(draw() % 8);
        i[6] = (uint8_t)(16 * p + draw() % p);
    }
    if (i[0] == 0)
        i[7] = (uint8_t)(draw() % 80);
    if (draw() % 16 == 0)
        i[draw() % 8] = spoiled[draw() % COUNT(spoiled)];
}

/* Lends a list, items and room for most of what it takes and gives, and any registers. */
static void lend_drawn(size_t count, int end)
{
    uint8_t list[8 * LONGEST_DRAWN], modes[4];
    for (size_t k = 0; k < count; k++)
        draw_instruction(list + 8 * k);
    memcpy(modes, draw_modes(), 4);
    if (draw() % 12 == 0)
        modes[draw() % 4] = (uint8_t)draw();
    lend_all(modes, list, 8 * count, end);
    lend(ITEMS, 32 * (draw() % 8 == 0 ? draw() % 2 : LONGEST_DRAWN), end);
    lend(OUT, draw() % 8 == 0 ? draw() % 40 : 32 * LONGEST_DRAWN, end);
}

/* What is not drawn here is a bad length. Each number that a list or mode registers can have is given many times. */
static void drawn_lists(void)
{
    static const unsigned reached[] = {0, 5, 6, 7, 8, 9, 11, 12, 13, 14, 15, 16, 17, 18};
    unsigned given[256] = {0};
    for (int i = 0; i < DRAWN; i++) {
        const int call = i % 4 == 0 ? STEP : RUN, end = i / 4 % ENDS;
        uint32_t expected[STARAN_RUN_NUMBERS];
        check("%s of drawn list %d", names[call], i);
        lend_drawn(call == STEP ? 1 : draw() % (LONGEST_DRAWN + 1), end);
        expect(call, expected);
        given[expected[STARAN_ANSWER_NUMBER] % 256]++;
        make_and_settle(call, expected, end);
    }
    check("drawn lists reach every number");
    for (size_t k = 0; k < COUNT(reached); k++)
        if (given[reached[k]] < 20)
            wrong("a number is hardly drawn");
    count();
    function("drawn lists");
}

/* The instructions of a list that is done, one step after the other, leave what its run leaves, and their answers add up to its answer. */
static void stepped(void)
{
    for (int i = 0; i < DRAWN / 4; i++) {
        const int end = i % ENDS;
        uint32_t expected[STARAN_RUN_NUMBERS], sums[STARAN_RUN_NUMBERS] = {0}, *answer;
        check("steps of drawn list %d", i);
        lend_drawn(draw() % (LONGEST_DRAWN + 1), end);
        expect(RUN, expected);
        if (expected[STARAN_ANSWER_NUMBER] != 0)
            continue;
        answer = lend_answer(STARAN_RUN_NUMBERS, end);
        for (size_t k = 0; k < buffers[LIST].length / 8; k++) {
            const size_t taken = 32 * sums[STARAN_ANSWER_TAKEN], given = 32 * sums[STARAN_ANSWER_GIVEN];
            staran_step_5(WHOLE(MEMORY), (staran_registers *)(void *)buffers[REGISTERS].bytes, buffers[LIST].bytes + 8 * k, 8, buffers[ITEMS].bytes + taken,
                          buffers[ITEMS].length - taken, buffers[OUT].bytes + given, buffers[OUT].length - given, answer);
            for (size_t n = 0; n < STARAN_RUN_NUMBERS; n++)
                sums[n] += answer[n];
        }
        memcpy(answer, sums, sizeof sums);
        settle(answer, STARAN_RUN_NUMBERS, expected);
    }
    function("stepped");
}

int modes(void)
{
    flags();
    flags_in_turn();
    lists_in_turn();
    every_mode();
    drawn_lists();
    stepped();
    return counted();
}
