/* Calls every function of the library with good and bad lengths, kinds, codes, widths and numbers, and holds each call to what the header says. */
#define _DEFAULT_SOURCE
#include "lengths.h"

#include "checks.h"
#include "draw.h"
#include "lent.h"
#include "model.h"
#include "staran.h"

#include <stdio.h>
#include <string.h>
#include <sys/mman.h>

/* ---- run and step: every instruction delivers an item from outside, so that the lengths alone decide */

static const size_t memories[] = {0, 1, 8191, 8192, 8193, 8224, 65536};
static const size_t registers_lengths[] = {0, 1, 95, 96, 97, 98, 99, 100, 101, 104, 128, 65536};
static const size_t list_lengths[] = {0, 1, 7, 8, 9, 16, 32760, 32767, 32768, 32769, 32776, 65536};
static const size_t item_lengths[] = {0, 1, 31, 32, 33, 64, 32767, 32768, 32769, 32800, 65536};
static const size_t out_lengths[] = {0, 1, 31, 32, 33, 63, 64, 32767, 32768, 65536};

static void fill_with(int k, const uint8_t instruction[8])
{
    for (size_t i = 0; i < buffers[k].length; i++)
        buffers[k].bytes[i] = buffers[k].expected[i] = instruction[i % 8];
}

static const uint8_t deliver_outside[8] = {4, 4, 0, 0, 0, 0, 0, 0};

/* What the lengths make of a run (`step` 0) or a step (1). The out buffer's bytes are put to what is expected. */
static void expect_run(int step, uint32_t expected[STARAN_RUN_NUMBERS])
{
    size_t list = buffers[LIST].length, items = buffers[ITEMS].length, n = list / 8;
    memset(expected, 0, 4 * STARAN_RUN_NUMBERS);
    if (buffers[MEMORY].length != 8192)
        expected[STARAN_ANSWER_NUMBER] = 1;
    else if (!step && buffers[REGISTERS].length != 100)
        expected[STARAN_ANSWER_NUMBER] = 2;
    else if (step ? list != 8 : list % 8 != 0 || list > 32768)
        expected[STARAN_ANSWER_NUMBER] = 3;
    else if (items % 32 != 0 || items > 32768)
        expected[STARAN_ANSWER_NUMBER] = 4;
    else if (items / 32 < n)
        expected[STARAN_ANSWER_NUMBER] = 12, expected[STARAN_ANSWER_PLACE] = (uint32_t)(items / 32);
    else if (buffers[OUT].length / 32 < n)
        expected[STARAN_ANSWER_NUMBER] = 13, expected[STARAN_ANSWER_PLACE] = (uint32_t)(buffers[OUT].length / 32);
    else {
        expected[STARAN_ANSWER_STEPS] = expected[STARAN_ANSWER_TAKEN] = expected[STARAN_ANSWER_GIVEN] = (uint32_t)n;
        memcpy(buffers[OUT].expected, buffers[ITEMS].bytes, 32 * n);
    }
}

static void run_once(size_t memory, size_t registers, size_t list, size_t items, size_t out, int end)
{
    uint32_t expected[STARAN_RUN_NUMBERS], *answer;
    check("run: memory %zu, registers %zu, list %zu, items %zu, out %zu", memory, registers, list, items, out);
    nothing_lent(end);
    lend(MEMORY, memory, end);
    lend_registers(draw_modes(), registers, end);
    lend(LIST, list, end);
    lend(ITEMS, items, end);
    lend(OUT, out, end);
    fill_with(LIST, deliver_outside);
    expect_run(0, expected);
    answer = lend_answer(STARAN_RUN_NUMBERS, end);
    staran_run_4(WHOLE(MEMORY), WHOLE(REGISTERS), WHOLE(LIST), WHOLE(ITEMS), WHOLE(OUT), answer);
    settle(answer, STARAN_RUN_NUMBERS, expected);
}

static void step_once(size_t memory, size_t instruction, size_t items, size_t out, int end)
{
    uint32_t expected[STARAN_RUN_NUMBERS], *answer;
    check("step: memory %zu, instruction %zu, items %zu, out %zu", memory, instruction, items, out);
    nothing_lent(end);
    lend(MEMORY, memory, end);
    lend_registers(draw_modes(), 100, end);
    lend(LIST, instruction, end);
    lend(ITEMS, items, end);
    lend(OUT, out, end);
    fill_with(LIST, deliver_outside);
    expect_run(1, expected);
    answer = lend_answer(STARAN_RUN_NUMBERS, end);
    staran_step_5(WHOLE(MEMORY), (staran_registers *)(void *)buffers[REGISTERS].bytes, WHOLE(LIST), WHOLE(ITEMS), WHOLE(OUT), answer);
    settle(answer, STARAN_RUN_NUMBERS, expected);
}

/* Every pair of a bad memory and bad registers; then every list, items and out with good ones, and with one of them bad. 96 bytes are what registers had until 4.0. */
static void run_lengths(void)
{
    static const size_t not_100[] = {96, 99, 101};
    for (int end = 0; end < ENDS; end++) {
        for (size_t m = 0; m < COUNT(memories); m++)
            for (size_t r = 0; r < COUNT(registers_lengths); r++)
                for (size_t l = 0; l < COUNT(list_lengths); l++)
                    run_once(memories[m], registers_lengths[r], list_lengths[l], 33, 32, end);
        for (size_t l = 0; l < COUNT(list_lengths); l++)
            for (size_t i = 0; i < COUNT(item_lengths); i++)
                for (size_t o = 0; o < COUNT(out_lengths); o++) {
                    run_once(8192, 100, list_lengths[l], item_lengths[i], out_lengths[o], end);
                    run_once(8191, 100, list_lengths[l], item_lengths[i], out_lengths[o], end);
                    run_once(8192, not_100[(l + i + o) % COUNT(not_100)], list_lengths[l], item_lengths[i], out_lengths[o], end);
                }
    }
    function("run");
}

static void step_lengths(void)
{
    for (int end = 0; end < ENDS; end++)
        for (size_t m = 0; m < COUNT(memories); m++)
            for (size_t l = 0; l < COUNT(list_lengths); l++)
                for (size_t i = 0; i < COUNT(item_lengths); i++)
                    step_once(memories[m], list_lengths[l], item_lengths[i], out_lengths[(m + l + i) % COUNT(out_lengths)], end);
    for (int end = 0; end < ENDS; end++)
        for (size_t i = 0; i < COUNT(item_lengths); i++)
            for (size_t o = 0; o < COUNT(out_lengths); o++)
                step_once(8192, 8, item_lengths[i], out_lengths[o], end);
    function("step");
}

/* The record of a step is M, X, Y and the mode registers, in this order: each of the first three is delivered, and each is set, by a step that leaves the others. */
static void record_order(void)
{
    for (int i = 0; i < 2 * ENDS * 3; i++) {
        int end = i % 2, row = i / 2 % 3, set = i >= 2 * 3;
        const uint8_t deliver[8] = {4, (uint8_t)(1 + row), 0, 0, 0, 0, 0, 0};
        const uint8_t put[3][8] = {{1, 4, 0, 0, 0, 0, 0, 0}, {0, 4, 0, 0, 0, 0, 0, 0x0A}, {0, 4, 0, 0, 0, 0, 0, 0x1A}};
        const uint32_t expected[STARAN_RUN_NUMBERS] = {[STARAN_ANSWER_STEPS] = 1, [STARAN_ANSWER_TAKEN] = (uint32_t)set, [STARAN_ANSWER_GIVEN] = (uint32_t)!set};
        check("step: register %c is %s", "MXY"[row], set ? "set" : "delivered");
        nothing_lent(end);
        lend(MEMORY, 8192, end);
        lend_registers(draw_modes(), 100, end);
        lend_bytes(LIST, set ? put[row] : deliver, 8, end);
        lend(ITEMS, 32, end);
        lend(OUT, 40, end);
        if (set)
            memcpy(buffers[REGISTERS].expected + 32 * row, buffers[ITEMS].bytes, 32);
        else
            memcpy(buffers[OUT].expected, buffers[REGISTERS].bytes + 32 * row, 32);
        staran_registers *record = (staran_registers *)(void *)buffers[REGISTERS].bytes;
        const uint8_t *bytes = buffers[REGISTERS].bytes;
        if (record->m != bytes || record->x != bytes + 32 || record->y != bytes + 64 || sizeof *record != 100)
            wrong("the record is not 100 bytes, M, X, Y first");
        if (&record->a_set != bytes + 96 || &record->a_mode != bytes + 97 || &record->b_set != bytes + 98 || &record->b_mode != bytes + 99)
            wrong("the record's last four bytes are not A and B, flag and mode");
        uint32_t *answer = lend_answer(STARAN_RUN_NUMBERS, end);
        staran_step_5(WHOLE(MEMORY), record, WHOLE(LIST), WHOLE(ITEMS), WHOLE(OUT), answer);
        settle(answer, STARAN_RUN_NUMBERS, expected);
    }
    function("step, record");
}

/* ---- passes: every code, with some flips; 37 are done, 112 have p over 8, and of the other 107 m is not below p */

static void pass_codes(const char *name, void (*pass)(const uint8_t *, uint8_t, uint8_t, uint8_t *, uint32_t *))
{
    static const uint8_t flips[] = {0, 1, 128, 255};
    const unsigned times = COUNT(flips) * ENDS;
    unsigned given[256] = {0};
    for (unsigned i = 0; i < 256 * COUNT(flips) * ENDS; i++) {
        uint8_t code = (uint8_t)(i / ENDS / COUNT(flips)), flip = flips[i / ENDS % COUNT(flips)];
        int end = (int)(i % ENDS);
        uint32_t expected[1], *answer;
        check("%s: flip %u, code %u", name, (unsigned)flip, (unsigned)code);
        nothing_lent(end);
        lend(ITEMS, 32, end);
        lend(OUT, 32, end);
        expected[0] = model_pass(buffers[ITEMS].bytes, flip, code, buffers[OUT].expected);
        answer = lend_answer(1, end);
        pass(buffers[ITEMS].bytes, flip, code, buffers[OUT].bytes, answer);
        settle(answer, 1, expected);
        given[answer[0] % 256]++;
    }
    check("%s: every code", name);
    if (given[0] != 37 * times || given[16] != 112 * times || given[17] != 107 * times)
        wrong("a number is given more or less often than it must be");
    count();
    function(name);
}

/* ---- builders: widths, starts and lengths around every edge */

typedef void builder(uint32_t, uint32_t, uint32_t, uint32_t, uint8_t *, size_t, uint32_t *);

static void build_once(const char *name, builder *build, int lead, const uint32_t p[4], size_t length, int end)
{
    uint32_t expected[2], *answer;
    check("%s: A %u, B %u, S %u, width %u, list %zu", name, (unsigned)p[0], (unsigned)p[1], (unsigned)p[2], (unsigned)p[3], length);
    nothing_lent(end);
    lend(LIST, length, end);
    expected[0] = model_list(lead, p[0], p[1], p[2], p[3], buffers[LIST].expected, length);
    expected[1] = expected[0] == 0 ? 8 * ((uint32_t)lead + 5 * p[3]) : 0;
    answer = lend_answer(2, end);
    build(p[0], p[1], p[2], p[3], WHOLE(LIST), answer);
    settle(answer, 2, expected);
}

static void builder_lengths(const char *name, builder *build, int lead)
{
    static const uint32_t widths[] = {0, 1, 2, 63, 64, 65, 256, 0x80000000u, 0xFFFFFFFFu};
    static const uint32_t starts[] = {0, 1, 64, 192, 193, 0xFFFFFFC0u, 0xFFFFFFFFu};
    const size_t n = COUNT(starts);
    for (size_t w = 0; w < COUNT(widths); w++)
        for (size_t i = 0; i < n * n * n; i++) {
            const uint32_t p[4] = {starts[i % n], starts[i / n % n], starts[i / n / n], widths[w]};
            size_t need = widths[w] <= 256 ? 8 * ((size_t)lead + 5 * widths[w]) : 2576;
            const size_t tried[] = {0, 1, need - 1, need, need + 1, 65536};
            for (size_t t = 0; t < COUNT(tried); t++)
                build_once(name, build, lead, p, tried[t], (int)(i % 2));
        }
    function(name);
}

/* ---- searches: the same around every edge, numbers around 2^n, and both buffers */

typedef void searcher(uint32_t, uint32_t, uint64_t, uint8_t *, size_t, uint8_t *, size_t, uint32_t *);

static const uint32_t search_widths[] = {0, 1, 2, 31, 32, 63, 64, 65, 0x80000000u, 0xFFFFFFFFu};

/* Starts around those that a width allows, and those at which start and width are 0, 255 or 256 modulo 2^32. */
static uint32_t search_start(uint32_t n, size_t i)
{
    const uint32_t starts[] = {0, 192, 193, 255, 256, 0xFFFFFFFFu, 256 - n, 257 - n, 255 - n, 0 - n};
    return starts[i];
}
enum { STARTS = 10 };

/* Numbers around 2^n and of 64 bits; where 2^n itself has more bits than that, 0 stands for it. */
static uint64_t search_number(uint32_t n, size_t i)
{
    const uint64_t power = n < 64 ? (uint64_t)1 << n : 0;
    const uint64_t numbers[] = {0, 1, power - 1, power, (uint64_t)1 << 63, UINT64_MAX};
    return numbers[i];
}
enum { NUMBERS = 6 };

/* Lengths around the one that is needed; SIZE_MAX stands behind the last. */
static size_t around(size_t need, size_t i)
{
    const size_t tried[] = {0, need - (need > 0), need, need + 1, 65536, SIZE_MAX};
    return tried[i];
}

static void search_once(const char *name, searcher *build, int less, uint32_t start, uint32_t n, uint64_t number, size_t list, size_t items, int end)
{
    uint32_t expected[3] = {0, 0, 0}, *answer;
    check("%s: start %u, width %u, number %llu, list %zu, items %zu", name, (unsigned)start, (unsigned)n, (unsigned long long)number, list, items);
    nothing_lent(end);
    lend(LIST, list, end);
    lend(ITEMS, items, end);
    expected[0] = model_search(less, start, n, number, buffers[LIST].expected, list, buffers[ITEMS].expected, items);
    if (expected[0] == 0)
        expected[1] = 8 * (2 + 3 * n), expected[2] = 32 * n;
    answer = lend_answer(3, end);
    build(start, n, number, WHOLE(LIST), WHOLE(ITEMS), answer);
    settle(answer, 3, expected);
}

/* Every width at lengths that are good; then some widths with every start and number, and every pair of lengths. */
static void search_lengths(const char *name, searcher *build, int less)
{
    for (uint32_t n = 0; n <= 65; n++)
        for (size_t i = 0; i < NUMBERS * ENDS; i++)
            search_once(name, build, less, 256 - n, n, search_number(n, i / ENDS), STARAN_SEARCH_LIST_BYTES(n), STARAN_SEARCH_ITEMS_BYTES(n), (int)(i % ENDS));
    for (size_t w = 0; w < COUNT(search_widths); w++) {
        uint32_t n = search_widths[w];
        size_t list = STARAN_SEARCH_LIST_BYTES(n <= 256 ? n : 64), items = STARAN_SEARCH_ITEMS_BYTES(n <= 256 ? n : 64);
        for (size_t i = 0; i < STARTS * NUMBERS; i++)
            for (size_t l = 0; around(list, l) != SIZE_MAX; l++)
                for (size_t k = 0; around(items, k) != SIZE_MAX; k++)
                    search_once(name, build, less, search_start(n, i % STARTS), n, search_number(n, i / STARTS), around(list, l), around(items, k),
                                (int)((w + i + i / STARTS + l + k) % ENDS));
    }
    function(name);
}

static void greatest_once(uint32_t start, uint32_t n, size_t list, int end)
{
    uint32_t expected[2] = {0, 0}, *answer;
    check("greatest_list: start %u, width %u, list %zu", (unsigned)start, (unsigned)n, list);
    nothing_lent(end);
    lend(LIST, list, end);
    expected[0] = model_greatest(start, n, buffers[LIST].expected, list);
    if (expected[0] == 0)
        expected[1] = 8 * (1 + 11 * n);
    answer = lend_answer(2, end);
    staran_greatest_list(start, n, WHOLE(LIST), answer);
    settle(answer, 2, expected);
}

static void greatest_lengths(void)
{
    for (uint32_t n = 0; n <= 65; n++)
        for (size_t i = 0; i < STARTS * ENDS; i++)
            greatest_once(search_start(n, i / ENDS), n, STARAN_GREATEST_LIST_BYTES(n), (int)(i % ENDS));
    for (size_t w = 0; w < COUNT(search_widths); w++) {
        uint32_t n = search_widths[w];
        size_t list = STARAN_GREATEST_LIST_BYTES(n <= 256 ? n : 64);
        for (size_t i = 0; i < STARTS * ENDS; i++)
            for (size_t l = 0; around(list, l) != SIZE_MAX; l++)
                greatest_once(search_start(n, i / ENDS), n, around(list, l), (int)(i % ENDS));
    }
    function("greatest_list");
}

/* ---- closing and spreading: the same around every edge, with marks of other lengths, and both buffers */

typedef void mover(uint32_t, uint32_t, uint32_t, const uint8_t *, size_t, uint8_t *, size_t, uint8_t *, size_t, uint32_t *);

static const uint32_t move_widths[] = {0, 1, 2, 31, 32, 33, 64, 0x80000000u, 0xFFFFFFFFu};
static const size_t marks_lengths[] = {32, 0, 1, 31, 33, 64, 65536};

/* Starts of fields that meet in a bit or just not, and those around what a width allows, also modulo 2^32. */
static uint32_t move_start(uint32_t n, size_t i)
{
    const uint32_t starts[] = {0, n - 1, n, 100, 256 - n, 257 - n, 0 - n, 0xFFFFFFFFu};
    return starts[i];
}
enum { MOVE_STARTS = 8, PAIRS = MOVE_STARTS * MOVE_STARTS };

static void move_once(const char *name, mover *build, int spreads, size_t pair, uint32_t n, size_t marks, size_t list, size_t items, int end)
{
    const uint32_t a = move_start(n, pair % MOVE_STARTS), s = move_start(n, pair / MOVE_STARTS);
    uint32_t expected[3] = {0, 0, 0}, *answer;
    check("%s: A %u, S %u, width %u, marks %zu, list %zu, items %zu", name, (unsigned)a, (unsigned)s, (unsigned)n, marks, list, items);
    nothing_lent(end);
    lend(FILE_BYTES, marks, end);
    lend(LIST, list, end);
    lend(ITEMS, items, end);
    expected[0] = model_moving(spreads, a, s, n, buffers[FILE_BYTES].bytes, marks, buffers[LIST].expected, list, buffers[ITEMS].expected, items);
    if (expected[0] == 0)
        expected[1] = (uint32_t)model_moving_list(spreads, n), expected[2] = (uint32_t)model_moving_items(spreads, n);
    answer = lend_answer(3, end);
    build(a, s, n, WHOLE(FILE_BYTES), WHOLE(LIST), WHOLE(ITEMS), answer);
    settle(answer, 3, expected);
}

/* Every width at lengths that are good; then some widths with every pair of starts and of lengths, and with every length of the marks. */
static void move_lengths(const char *name, mover *build, int spreads)
{
    for (uint32_t n = 0; n <= 65; n++)
        for (size_t i = 0; i < PAIRS * ENDS; i++)
            move_once(name, build, spreads, i / ENDS, n, 32, model_moving_list(spreads, n), model_moving_items(spreads, n), (int)(i % ENDS));
    for (size_t w = 0; w < COUNT(move_widths); w++) {
        uint32_t n = move_widths[w];
        size_t list = model_moving_list(spreads, n <= 256 ? n : 32), items = model_moving_items(spreads, n <= 256 ? n : 32);
        for (size_t i = 0; i < PAIRS; i++) {
            for (size_t l = 0; around(list, l) != SIZE_MAX; l++)
                for (size_t k = 0; around(items, k) != SIZE_MAX; k++)
                    move_once(name, build, spreads, i, n, 32, around(list, l), around(items, k), (int)((w + i + l + k) % ENDS));
            for (size_t m = 0; m < COUNT(marks_lengths) * ENDS; m++)
                move_once(name, build, spreads, i, n, marks_lengths[m / ENDS], around(list, 1 + i % 2), around(items, 1 + i / 2 % 2), (int)(m % ENDS));
        }
    }
    function(name);
}

/* ---- whether a list is isolated: every instruction stores a slice, so that the lengths alone decide; or the last one flips too */

static void isolated_once(size_t registers, size_t list, int flips, int end)
{
    static const uint8_t store[8] = {2, 3, 1, 0, 13, 0, 0, 0};
    uint32_t expected[STARAN_ISOLATED_NUMBERS] = {0, 0}, *answer;
    check("isolated: registers %zu, list %zu, %s", registers, list, flips ? "the last flips" : "none flips");
    nothing_lent(end);
    lend_registers(draw_modes(), registers, end);
    lend(LIST, list, end);
    fill_with(LIST, store);
    if (flips && list >= 8)
        buffers[LIST].bytes[list / 8 * 8 - 3] = buffers[LIST].expected[list / 8 * 8 - 3] = 1;
    if (registers != 100)
        expected[0] = 2;
    else if (list % 8 != 0 || list > 32768)
        expected[0] = 3;
    else if (flips && list >= 8)
        expected[0] = 40, expected[1] = (uint32_t)(list / 8 - 1);
    answer = lend_answer(STARAN_ISOLATED_NUMBERS, end);
    staran_isolated(WHOLE(LIST), WHOLE(REGISTERS), answer);
    settle(answer, STARAN_ISOLATED_NUMBERS, expected);
}

static void isolated_lengths(void)
{
    for (size_t i = 0; i < 2 * ENDS * COUNT(registers_lengths) * COUNT(list_lengths); i++)
        isolated_once(registers_lengths[i / 2 / ENDS % COUNT(registers_lengths)], list_lengths[i / 2 / ENDS / COUNT(registers_lengths)], (int)(i / ENDS % 2), (int)(i % ENDS));
    function("isolated");
}

/* ---- what a list reaches, and its text: every instruction stores a slice, which reaches 256 words, or resolves, and its line has as many characters as it has bytes; so the lengths
 * alone decide */

static void reach_once(size_t registers, size_t list, size_t out, int end)
{
    static const uint8_t store[8] = {3, 4, 1, 0, 13, 0, 0, 0};
    const size_t need = STARAN_REACH_BYTES(list);
    uint32_t expected[STARAN_REACH_NUMBERS] = {0, 0}, *answer;
    check("reach: registers %zu, list %zu, out %zu", registers, list, out);
    nothing_lent(end);
    lend_registers(draw_modes(), registers, end);
    lend(LIST, list, end);
    fill_with(LIST, store);
    lend(OUT, out, end);
    if (registers != 100)
        expected[0] = 2;
    else if (list % 8 != 0 || list > 32768)
        expected[0] = 3;
    else if (out < need)
        expected[0] = 27;
    else {
        expected[1] = (uint32_t)need;
        for (size_t k = 0; k < need; k++)
            buffers[OUT].expected[k] = k % 2;
    }
    answer = lend_answer(STARAN_REACH_NUMBERS, end);
    staran_reach(WHOLE(REGISTERS), WHOLE(LIST), WHOLE(OUT), answer);
    settle(answer, STARAN_REACH_NUMBERS, expected);
}

static void show_once(size_t list, size_t text, int end)
{
    static const uint8_t resolve[8] = {5};
    uint32_t expected[STARAN_SHOW_NUMBERS] = {0, 0}, *answer;
    check("show: list %zu, text %zu", list, text);
    nothing_lent(end);
    lend(LIST, list, end);
    fill_with(LIST, resolve);
    lend(TEXT, text, end);
    if (list % 8 != 0 || list > 32768)
        expected[0] = 3;
    else if (text < list)
        expected[0] = 27;
    else {
        expected[1] = (uint32_t)list;
        for (size_t k = 0; k < list; k++)
            buffers[TEXT].expected[k] = (uint8_t)"resolve\n"[k % 8];
    }
    answer = lend_answer(STARAN_SHOW_NUMBERS, end);
    staran_show(WHOLE(LIST), WHOLE(TEXT), answer);
    settle(answer, STARAN_SHOW_NUMBERS, expected);
}

static void text_lengths(void)
{
    for (size_t i = 0; i < ENDS * COUNT(registers_lengths) * COUNT(list_lengths); i++) {
        const size_t registers = registers_lengths[i / ENDS % COUNT(registers_lengths)], list = list_lengths[i / ENDS / COUNT(registers_lengths)];
        for (size_t o = 0; around(STARAN_REACH_BYTES(list), o) != SIZE_MAX; o++)
            reach_once(registers, list, around(STARAN_REACH_BYTES(list), o), (int)(i % ENDS));
    }
    function("reach");
    for (size_t i = 0; i < ENDS * COUNT(list_lengths); i++) {
        const size_t list = list_lengths[i / ENDS];
        for (size_t t = 0; around(list, t) != SIZE_MAX; t++)
            show_once(list, around(list, t), (int)(i % ENDS));
        show_once(list, list / 8 * 8, (int)(i % ENDS));
        show_once(list, STARAN_TEXT_BYTES(list < 32768 ? list : 32768), (int)(i % ENDS));
    }
    function("show");
}

/* ---- a list made of a text: a search of one bit and a comment, as long as the text is, or a comment alone; so the lengths alone decide */

static const char one_search[] = "field f 0 1\nless f 1\n";
enum { SEARCH_TEXT = sizeof one_search - 1, SEARCH_LIST = STARAN_SEARCH_LIST_BYTES(1), SEARCH_ITEMS = STARAN_SEARCH_ITEMS_BYTES(1) };

static void make_once(size_t text, size_t list, size_t items, int end)
{
    const size_t need = text < SEARCH_TEXT ? 0 : SEARCH_LIST, items_need = text < SEARCH_TEXT ? 0 : SEARCH_ITEMS;
    uint32_t expected[STARAN_MAKE_NUMBERS] = {0}, *answer;
    check("make: text %zu, list %zu, items %zu", text, list, items);
    nothing_lent(end);
    lend(TEXT, text, end);
    memset(buffers[TEXT].bytes, ';', text);
    if (text >= SEARCH_TEXT)
        memcpy(buffers[TEXT].bytes, one_search, SEARCH_TEXT);
    memcpy(buffers[TEXT].expected, buffers[TEXT].bytes, text);
    lend(LIST, list, end);
    lend(ITEMS, items, end);
    if (text > 1048576)
        expected[0] = 50;
    else if (list < need || items < items_need)
        expected[0] = 33;
    else {
        expected[3] = (uint32_t)need;
        expected[4] = (uint32_t)items_need;
        if (need > 0)
            model_search(1, 0, 1, 1, buffers[LIST].expected, list, buffers[ITEMS].expected, items);
    }
    answer = lend_answer(STARAN_MAKE_NUMBERS, end);
    staran_make(WHOLE(TEXT), WHOLE(LIST), WHOLE(ITEMS), answer);
    settle(answer, STARAN_MAKE_NUMBERS, expected);
}

static void make_lengths(void)
{
    static const size_t texts[] = {0, 1, SEARCH_TEXT - 1, SEARCH_TEXT, SEARCH_TEXT + 1, 800, 65536, 1048575, 1048576, 1048577, 1048584, 1050000};
    for (size_t i = 0; i < ENDS * COUNT(texts); i++)
        for (size_t l = 0; around(SEARCH_LIST, l) != SIZE_MAX; l++)
            for (size_t k = 0; around(SEARCH_ITEMS, k) != SIZE_MAX; k++)
                make_once(texts[i / ENDS], around(SEARCH_LIST, l), around(SEARCH_ITEMS, k), (int)(i % ENDS));
    function("make");
}

/* ---- disk: kinds, file lengths, targets, damaged blocks */

#define OVER_32_BITS(kind) (((size_t)1 << 32) + (kind))
static const size_t kinds[] = {0, 1, 2, 3, 4, 5, 6, 255, 256, 257, 258, 259, 260, 65537, 65538, 65539, 65540, OVER_32_BITS(0), OVER_32_BITS(1), OVER_32_BITS(2),
                               OVER_32_BITS(3), OVER_32_BITS(4), SIZE_MAX - 3, SIZE_MAX};
static const size_t sizes[] = {0, 1, 7, 8, 9, 31, 32, 33, 488, 496, 504, 992, 1024, 8288, 8292, 32736, 32767, 32768, 32769, 32776, 32800, 65536};
static uint8_t content[LONGEST], file[LONGEST];

/* Reads what stands in `file` as a list or items. */
static void read_once(size_t kind, size_t length, size_t target, int end)
{
    uint32_t expected[3] = {0, 0, 0}, *answer;
    size_t place, size;
    check("read_content: kind %zu, file %zu, target %zu", kind, length, target);
    nothing_lent(end);
    lend_bytes(FILE_BYTES, file, length, end);
    lend(LIST, target, end);
    expected[0] = model_file(kind, file, length, &place, content, &size);
    expected[1] = (uint32_t)place;
    if (expected[0] == 0 && (kind == 1 || kind == 4 || target < size))
        expected[0] = 26;
    if (expected[0] == 0) {
        expected[2] = (uint32_t)size;
        memcpy(buffers[LIST].expected, content, size);
    }
    answer = lend_answer(3, end);
    staran_read_content(kind, WHOLE(FILE_BYTES), WHOLE(LIST), answer);
    settle(answer, 3, expected);
}

/* Reads what stands in `file` as a picture. */
static void read_picture_once(size_t kind, size_t length, size_t memory, size_t registers, int end)
{
    uint32_t expected[3], *answer;
    check("read_picture: kind %zu, file %zu, memory %zu, registers %zu", kind, length, memory, registers);
    nothing_lent(end);
    lend_bytes(FILE_BYTES, file, length, end);
    lend(MEMORY, memory, end);
    lend(REGISTERS, registers, end);
    model_read_picture(kind, file, length, buffers[MEMORY].expected, memory, buffers[REGISTERS].expected, registers, expected);
    answer = lend_answer(3, end);
    staran_read_picture(kind, WHOLE(FILE_BYTES), WHOLE(MEMORY), WHOLE(REGISTERS), answer);
    settle(answer, 3, expected);
}

/* A file of this kind and size, whatever they are, in `file`; its length. The bytes behind it are another file's. The mode registers, where there are some, are good. */
static size_t make_file(size_t kind, size_t size)
{
    lend(ITEMS, size, FIRST);
    if (kind == STARAN_CONTENT_PICTURE_WITH_MODES && size >= 8292) {
        memcpy(buffers[ITEMS].bytes + 8288, draw_modes(), 4);
        memcpy(buffers[ITEMS].expected, buffers[ITEMS].bytes, size);
    }
    memset(file, 0x5A, sizeof file);
    return model_blocks(kind, buffers[ITEMS].bytes, size, file);
}

/* Lengths around the file's own, and far from it. */
static size_t near(size_t length, size_t i)
{
    const size_t tried[] = {length, 0, 1, 511, 512, 513, length - 1, length - 512, length + 1, length + 512, 34304, 34305, 34816, 65536};
    return i < COUNT(tried) ? tried[i] : SIZE_MAX;
}

static void read_lengths(void)
{
    for (size_t kind = 1; kind <= 4; kind++)
        for (size_t s = 0; s < COUNT(sizes); s++) {
            size_t size = sizes[s] <= 34000 ? sizes[s] : 33000, length = make_file(kind, size);
            const size_t targets[] = {size, 0, 1, size - (size > 0), size + 1, 65536};
            for (size_t i = 0; i < 2 * COUNT(kinds); i++)
                read_once(kinds[i / 2], length, 65536, (int)(i % 2));
            for (size_t i = 0; near(length, i / 2) != SIZE_MAX; i++)
                read_once(kind, near(length, i / 2), 65536, (int)(i % 2));
            for (size_t i = 0; i < 2 * COUNT(targets); i++)
                read_once(kind, length, targets[i / 2], (int)(i % 2));
        }
    function("read_content");
}

static void read_picture_lengths(void)
{
    for (size_t kind = 1; kind <= 4; kind++) {
        size_t length = make_file(kind, kind == 1 ? 8288 : kind == 4 ? 8292 : 8192);
        for (size_t i = 0; i < 2 * COUNT(kinds); i++) {
            read_picture_once(kinds[i / 2], length, 8192, 96, (int)(i % 2));
            read_picture_once(kinds[i / 2], length, 8192, 100, (int)(i % 2));
        }
        for (size_t i = 0; near(length, i / 2) != SIZE_MAX; i++)
            read_picture_once(kind, near(length, i / 2), 8192, model_registers(kind), (int)(i % 2));
        for (size_t m = 0; m < COUNT(memories); m++)
            for (size_t r = 0; r < 2 * COUNT(registers_lengths); r++)
                read_picture_once(kind, length, memories[m], registers_lengths[r / 2], (int)(r % 2));
    }
    for (size_t size = 8280; size <= 8300; size++) {
        read_picture_once(1, make_file(1, size), 8192, 96, (int)(size % 2));
        read_picture_once(4, make_file(4, size), 8192, 100, (int)(size % 2));
    }
    function("read_picture");
}

/* One byte altered in each part of each block, with the sums left wrong and with the sums put right: 21 to 24 at each place. */
static void damaged_blocks(void)
{
    static const size_t parts[] = {0, 1, 2, 3, 4, 5, 6, 7, 8, 11, 12, 255, 507, 508, 510, 511};
    for (size_t i = 0; i < 17 * COUNT(parts) * 2; i++) {
        size_t block = i / 2 / COUNT(parts), part = parts[i / 2 % COUNT(parts)], length;
        for (size_t kind = 1; kind <= 4; kind += 3) {
            length = make_file(kind, 8192 + model_registers(kind));
            file[512 * block + part] ^= 1;
            if (i % 2 == 1)
                model_seal(file + 512 * block);
            read_picture_once(kind, length, 8192, model_registers(kind), (int)(block % 2));
        }
        length = make_file(STARAN_CONTENT_LIST, 8288);
        file[512 * block + part] ^= 1;
        if (i % 2 == 1)
            model_seal(file + 512 * block);
        read_once(STARAN_CONTENT_LIST, length, 65536, (int)(block % 2));
    }
    function("damaged blocks");
}

static void write_once(size_t kind, size_t size, size_t out, int end)
{
    uint32_t expected[3] = {0, 0, 0}, *answer;
    size_t need = STARAN_FILE_BYTES(size);
    check("write_content: kind %zu, content %zu, out %zu", kind, size, out);
    nothing_lent(end);
    lend(LIST, size, end);
    lend(FILE_BYTES, out, end);
    if (kind < 1 || kind > 4)
        expected[0] = 22;
    else if (kind == 1 || kind == 4 || !model_fits(kind, size))
        expected[0] = 26;
    else if (out < need)
        expected[0] = 27;
    else
        expected[2] = (uint32_t)model_blocks(kind, buffers[LIST].bytes, size, buffers[FILE_BYTES].expected);
    answer = lend_answer(3, end);
    staran_write_content(kind, WHOLE(LIST), WHOLE(FILE_BYTES), answer);
    settle(answer, 3, expected);
}

static void write_lengths(void)
{
    for (size_t k = 0; k < COUNT(kinds); k++)
        for (size_t s = 0; s < COUNT(sizes); s++) {
            size_t need = STARAN_FILE_BYTES(sizes[s]);
            const size_t outs[] = {0, 1, 511, need - 1, need, need + 1, 66000};
            for (size_t i = 0; i < 2 * COUNT(outs); i++)
                write_once(kinds[k], sizes[s], outs[i / 2], (int)(i % 2));
        }
    function("write_content");
}

static void write_picture_once(size_t kind, size_t memory, size_t registers, size_t out, int end)
{
    uint32_t expected[3], *answer;
    check("write_picture: kind %zu, memory %zu, registers %zu, out %zu", kind, memory, registers, out);
    nothing_lent(end);
    lend(MEMORY, memory, end);
    lend_registers(draw_modes(), registers, end);
    lend(FILE_BYTES, out, end);
    model_write_picture(kind, buffers[MEMORY].bytes, memory, buffers[REGISTERS].bytes, registers, buffers[FILE_BYTES].expected, out, expected);
    answer = lend_answer(3, end);
    staran_write_picture(kind, WHOLE(MEMORY), WHOLE(REGISTERS), WHOLE(FILE_BYTES), answer);
    settle(answer, 3, expected);
}

static void write_picture_lengths(void)
{
    static const size_t outs[] = {0, 1, 8191, 8192, 8288, 8703, 8704, 8705, 65536};
    for (int end = 0; end < ENDS; end++) {
        for (size_t k = 0; k < COUNT(kinds); k++)
            for (size_t o = 0; o < COUNT(outs); o++) {
                write_picture_once(kinds[k], 8192, 96, outs[o], end);
                write_picture_once(kinds[k], 8192, 100, outs[o], end);
            }
        for (size_t m = 0; m < COUNT(memories); m++)
            for (size_t r = 0; r < COUNT(registers_lengths); r++)
                for (size_t o = 0; o < COUNT(outs); o++) {
                    write_picture_once(STARAN_CONTENT_PICTURE, memories[m], registers_lengths[r], outs[o], end);
                    write_picture_once(STARAN_CONTENT_PICTURE_WITH_MODES, memories[m], registers_lengths[r], outs[o], end);
                }
    }
    function("write_picture");
}

/* ---- lengths over 2^32, whose low 32 bits are good: bytes that can be read and not written, none of which a refusal writes */

static uint8_t *reserve(size_t length, int writable)
{
    uint8_t *all = mmap(NULL, length, writable ? PROT_READ | PROT_WRITE : PROT_READ, MAP_PRIVATE | MAP_ANONYMOUS | MAP_NORESERVE, -1, 0);
    return all == MAP_FAILED ? NULL : all;
}

/* A check whose long buffer is no room of ours: the other buffers and the answer are settled as ever. The numbers expected follow the call. */
#define LONG_CALL(call, n, ...)                                                                                                            \
    do {                                                                                                                                   \
        uint32_t expected[STARAN_RUN_NUMBERS] = {__VA_ARGS__}, *answer;                                                                    \
        check("a length over 2^32: %s", #call);                                                                                            \
        answer = lend_answer(n, FIRST);                                                                                                    \
        staran_##call;                                                                                                                     \
        settle(answer, n, expected);                                                                                                       \
    } while (0)

/* Pictures of kind 4, and conversions. What comes before 27 is given though the output is long. */
static void pictures_refused_long(uint8_t *far, size_t long_by)
{
    static const uint8_t a_set[4] = {1, 255, 0, 0}, wrong_flag[4] = {0, 0, 2, 0};
    enum { WITH_MODES = STARAN_CONTENT_PICTURE_WITH_MODES };
    nothing_lent(LAST);
    lend(MEMORY, 8192, LAST);
    lend_registers(a_set, 100, LAST);
    lend(OUT, 8704, LAST);
    LONG_CALL(read_picture(WITH_MODES, far, long_by + 8704, WHOLE(MEMORY), WHOLE(REGISTERS), answer), 3, 20);
    LONG_CALL(write_picture(WITH_MODES, far, long_by + 8192, WHOLE(REGISTERS), WHOLE(OUT), answer), 3, 26);
    LONG_CALL(write_picture(WITH_MODES, WHOLE(MEMORY), far, long_by + 100, WHOLE(OUT), answer), 3, 26);
    LONG_CALL(picture_to_new(far, long_by + 8704, WHOLE(OUT), answer), 3, 20);
    LONG_CALL(picture_to_old(far, long_by + 8704, WHOLE(OUT), answer), 3, 20);
    lend_bytes(FILE_BYTES, file, make_file(WITH_MODES, 8292), LAST);
    LONG_CALL(read_picture(WITH_MODES, WHOLE(FILE_BYTES), far, long_by + 8192, WHOLE(REGISTERS), answer), 3, 26);
    LONG_CALL(read_picture(WITH_MODES, WHOLE(FILE_BYTES), WHOLE(MEMORY), far, long_by + 100, answer), 3, 26);
    LONG_CALL(picture_to_new(WHOLE(FILE_BYTES), far, long_by + 8704, answer), 3, 22);
    for (int set = 0; set < 2; set++) {
        make_file(WITH_MODES, 8292);
        memcpy(buffers[ITEMS].bytes + 8288, set ? a_set : wrong_flag, 4);
        lend_bytes(FILE_BYTES, file, model_blocks(WITH_MODES, buffers[ITEMS].bytes, 8292, file), LAST);
        lend(ITEMS, 0, LAST);
        LONG_CALL(picture_to_old(WHOLE(FILE_BYTES), far, long_by + 8704, answer), 3, set ? 28 : 15);
    }
    lend_registers(wrong_flag, 100, LAST);
    LONG_CALL(write_picture(WITH_MODES, WHOLE(MEMORY), WHOLE(REGISTERS), far, long_by, answer), 3, 15);
}

static void refused_long(uint8_t *far, size_t long_by)
{
    nothing_lent(LAST);
    lend(MEMORY, 8192, LAST);
    lend_registers(draw_modes(), 100, LAST);
    lend(OUT, 32, LAST);
    staran_registers *record = (staran_registers *)(void *)buffers[REGISTERS].bytes;
    LONG_CALL(run_4(far, long_by + 8192, WHOLE(REGISTERS), WHOLE(LIST), WHOLE(ITEMS), WHOLE(OUT), answer), STARAN_RUN_NUMBERS, 1);
    LONG_CALL(run_4(WHOLE(MEMORY), far, long_by + 100, WHOLE(LIST), WHOLE(ITEMS), WHOLE(OUT), answer), STARAN_RUN_NUMBERS, 2);
    LONG_CALL(run_4(WHOLE(MEMORY), WHOLE(REGISTERS), far, long_by + 8, WHOLE(ITEMS), WHOLE(OUT), answer), STARAN_RUN_NUMBERS, 3);
    LONG_CALL(run_4(WHOLE(MEMORY), WHOLE(REGISTERS), WHOLE(LIST), far, long_by + 32, WHOLE(OUT), answer), STARAN_RUN_NUMBERS, 4);
    LONG_CALL(step_5(far, long_by + 8192, record, WHOLE(LIST), WHOLE(ITEMS), WHOLE(OUT), answer), STARAN_RUN_NUMBERS, 1);
    LONG_CALL(step_5(WHOLE(MEMORY), record, far, long_by + 8, WHOLE(ITEMS), WHOLE(OUT), answer), STARAN_RUN_NUMBERS, 3);
    lend_bytes(LIST, deliver_outside, 8, LAST);
    LONG_CALL(step_5(WHOLE(MEMORY), record, WHOLE(LIST), far, long_by + 32, WHOLE(OUT), answer), STARAN_RUN_NUMBERS, 4);
    LONG_CALL(isolated(far, long_by + 8, WHOLE(REGISTERS), answer), STARAN_ISOLATED_NUMBERS, 3);
    LONG_CALL(isolated(WHOLE(LIST), far, long_by + 100, answer), STARAN_ISOLATED_NUMBERS, 2);
    LONG_CALL(reach(far, long_by + 100, WHOLE(LIST), WHOLE(OUT), answer), STARAN_REACH_NUMBERS, 2);
    LONG_CALL(reach(WHOLE(REGISTERS), far, long_by + 8, WHOLE(OUT), answer), STARAN_REACH_NUMBERS, 3);
    LONG_CALL(show(far, long_by + 8, WHOLE(OUT), answer), STARAN_SHOW_NUMBERS, 3);
    lend(LIST, 7, LAST);
    LONG_CALL(reach(WHOLE(REGISTERS), WHOLE(LIST), far, long_by, answer), STARAN_REACH_NUMBERS, 3);
    LONG_CALL(show(WHOLE(LIST), far, long_by, answer), STARAN_SHOW_NUMBERS, 3);
    LONG_CALL(make(far, long_by + 8, WHOLE(LIST), WHOLE(ITEMS), answer), STARAN_MAKE_NUMBERS, 50);
    lend_bytes(TEXT, (const uint8_t *)one_search, SEARCH_TEXT - 2, LAST);
    LONG_CALL(make(WHOLE(TEXT), far, long_by, WHOLE(ITEMS), answer), STARAN_MAKE_NUMBERS, 69, 2, 8);
    lend_bytes(TEXT, (const uint8_t *)one_search, SEARCH_TEXT, LAST);
    lend(LIST, SEARCH_LIST - 1, LAST);
    lend(ITEMS, SEARCH_ITEMS - 1, LAST);
    LONG_CALL(make(WHOLE(TEXT), far, long_by + SEARCH_LIST, WHOLE(ITEMS), answer), STARAN_MAKE_NUMBERS, 33);
    LONG_CALL(make(WHOLE(TEXT), WHOLE(LIST), far, long_by + SEARCH_ITEMS, answer), STARAN_MAKE_NUMBERS, 33);
    lend(TEXT, 0, LAST);
    lend(REGISTERS, 96, LAST);
    LONG_CALL(read_content(STARAN_CONTENT_LIST, far, long_by + 512, WHOLE(OUT), answer), 3, 20);
    LONG_CALL(read_picture(STARAN_CONTENT_PICTURE, far, long_by + 8704, WHOLE(MEMORY), WHOLE(REGISTERS), answer), 3, 20);
    LONG_CALL(write_content(STARAN_CONTENT_LIST, far, long_by + 8, WHOLE(OUT), answer), 3, 26);
    LONG_CALL(write_picture(STARAN_CONTENT_PICTURE, far, long_by + 8192, WHOLE(REGISTERS), WHOLE(OUT), answer), 3, 26);
    LONG_CALL(write_picture(STARAN_CONTENT_PICTURE, WHOLE(MEMORY), far, long_by + 96, WHOLE(OUT), answer), 3, 26);
    lend(ITEMS, 2047, LAST);
    LONG_CALL(equal_list(0, 65, 0, far, long_by, WHOLE(ITEMS), answer), 3, 30);
    LONG_CALL(equal_list(0, 64, 0, far, long_by + 1552, WHOLE(ITEMS), answer), 3, 33);
    LONG_CALL(less_list(0, 64, 0, far, long_by + 1552, WHOLE(ITEMS), answer), 3, 33);
    lend(LIST, 1551, LAST);
    LONG_CALL(equal_list(0, 63, (uint64_t)1 << 63, WHOLE(LIST), far, long_by, answer), 3, 34);
    LONG_CALL(equal_list(0, 64, 0, WHOLE(LIST), far, long_by + 2048, answer), 3, 33);
    LONG_CALL(less_list(0, 64, 0, WHOLE(LIST), far, long_by + 2048, answer), 3, 33);
    LONG_CALL(greatest_list(193, 64, far, long_by + 5640, answer), 2, 31);
    lend(LIST, 4944, LAST);
    lend(ITEMS, 8224, LAST);
    LONG_CALL(closing_list(0, 32, 32, far, long_by + 32, WHOLE(LIST), WHOLE(ITEMS), answer), 3, 35);
    LONG_CALL(spreading_list(0, 32, 32, far, long_by + 32, WHOLE(LIST), WHOLE(ITEMS), answer), 3, 35);
    LONG_CALL(closing_list(0, 32, 33, far, 32, far, long_by, WHOLE(ITEMS), answer), 3, 30);
    LONG_CALL(spreading_list(0, 31, 32, far, 32, WHOLE(LIST), far, long_by, answer), 3, 32);
    lend(LIST, 4615, LAST);
    lend(ITEMS, 287, LAST);
    LONG_CALL(closing_list(0, 32, 32, far, 32, far, long_by + 4944, WHOLE(ITEMS), answer), 3, 33);
    LONG_CALL(closing_list(0, 32, 32, far, 32, WHOLE(LIST), far, long_by + 288, answer), 3, 33);
    LONG_CALL(spreading_list(0, 32, 32, far, 32, far, long_by + 4616, WHOLE(ITEMS), answer), 3, 33);
    LONG_CALL(spreading_list(0, 32, 32, far, 32, WHOLE(LIST), far, long_by + 8224, answer), 3, 33);
    lend_bytes(FILE_BYTES, file, make_file(STARAN_CONTENT_PICTURE, 8288), LAST);
    LONG_CALL(read_picture(STARAN_CONTENT_PICTURE, WHOLE(FILE_BYTES), far, long_by + 8192, WHOLE(REGISTERS), answer), 3, 26);
    LONG_CALL(read_picture(STARAN_CONTENT_PICTURE, WHOLE(FILE_BYTES), WHOLE(MEMORY), far, long_by + 96, answer), 3, 26);
}

/* Is what was written there these bytes, and is what stands behind them, and 2^32 further on, still 0? They are 0 again afterwards. */
static void written_long(uint8_t *far, size_t long_by, const uint8_t *expected, size_t length)
{
    int same = memcmp(far, expected, length) == 0;
    for (size_t i = length; i < 65536; i++)
        same &= far[i] == 0;
    for (size_t i = 0; i < 65536; i++)
        same &= far[long_by + i] == 0;
    check("a length over 2^32: what the call before this wrote");
    if (!same)
        wrong("the long buffer is not as it must be");
    count();
    memset(far, 0, 65536);
}

/* The searches with a long list, and with long items; the other buffer is of the very length. */
static void searched_long(uint8_t *far, size_t long_by, uint8_t *made)
{
    const uint64_t number = UINT64_C(0xFEDCBA9876543210);
    for (int less = 0; less < 2; less++) {
        lend(LIST, 0, LAST);
        lend(ITEMS, 2048, LAST);
        model_search(less, 192, 64, number, made, 1552, buffers[ITEMS].expected, 2048);
        if (less)
            LONG_CALL(less_list(192, 64, number, far, long_by, WHOLE(ITEMS), answer), 3, 0, 1552, 2048);
        else
            LONG_CALL(equal_list(192, 64, number, far, long_by + 1551, WHOLE(ITEMS), answer), 3, 0, 1552, 2048);
        written_long(far, long_by, made, 1552);
        lend(LIST, 1552, LAST);
        lend(ITEMS, 0, LAST);
        model_search(less, 192, 64, number, buffers[LIST].expected, 1552, made, 2048);
        if (less)
            LONG_CALL(less_list(192, 64, number, WHOLE(LIST), far, long_by, answer), 3, 0, 1552, 2048);
        else
            LONG_CALL(equal_list(192, 64, number, WHOLE(LIST), far, long_by + 2047, answer), 3, 0, 1552, 2048);
        written_long(far, long_by, made, 2048);
    }
    lend(LIST, 0, LAST);
    model_greatest(192, 64, made, 5640);
    LONG_CALL(greatest_list(192, 64, far, long_by + 5639, answer), 2, 0, 5640);
    written_long(far, long_by, made, 5640);
}

/* A closing and a spreading in the same way. */
static void moved_long(uint8_t *far, size_t long_by, uint8_t *made)
{
    lend(FILE_BYTES, 32, LAST);
    for (int spreads = 0; spreads < 2; spreads++) {
        const uint32_t list = (uint32_t)model_moving_list(spreads, 32), items = (uint32_t)model_moving_items(spreads, 32);
        lend(LIST, 0, LAST);
        lend(ITEMS, items, LAST);
        model_moving(spreads, 224, 0, 32, WHOLE(FILE_BYTES), made, list, buffers[ITEMS].expected, items);
        if (spreads)
            LONG_CALL(spreading_list(224, 0, 32, WHOLE(FILE_BYTES), far, long_by, WHOLE(ITEMS), answer), 3, 0, list, items);
        else
            LONG_CALL(closing_list(224, 0, 32, WHOLE(FILE_BYTES), far, long_by + list - 1, WHOLE(ITEMS), answer), 3, 0, list, items);
        written_long(far, long_by, made, list);
        lend(LIST, list, LAST);
        lend(ITEMS, 0, LAST);
        model_moving(spreads, 224, 0, 32, WHOLE(FILE_BYTES), buffers[LIST].expected, list, made, items);
        if (spreads)
            LONG_CALL(spreading_list(224, 0, 32, WHOLE(FILE_BYTES), WHOLE(LIST), far, long_by + items - 1, answer), 3, 0, list, items);
        else
            LONG_CALL(closing_list(224, 0, 32, WHOLE(FILE_BYTES), WHOLE(LIST), far, long_by, answer), 3, 0, list, items);
        written_long(far, long_by, made, items);
    }
}

/* A picture of either kind written to a long output, and made one of the other there. */
static void pictures_long(uint8_t *far, size_t long_by, uint8_t *made)
{
    static const uint8_t unset[4];
    static uint8_t converted[STARAN_PICTURE_FILE_BYTES];
    uint32_t known[3];
    nothing_lent(LAST);
    for (size_t kind = 1; kind <= 4; kind += 3) {
        lend(MEMORY, 8192, LAST);
        lend_registers(unset, model_registers(kind), LAST);
        lend(FILE_BYTES, 0, LAST);
        model_write_picture(kind, WHOLE(MEMORY), WHOLE(REGISTERS), made, 8704, known);
        LONG_CALL(write_picture(kind, WHOLE(MEMORY), WHOLE(REGISTERS), far, long_by + (kind == 1 ? 0 : 8703), answer), 3, 0, 0, 8704);
        written_long(far, long_by, made, 8704);
        lend_bytes(FILE_BYTES, made, 8704, LAST);
        model_convert(kind == 4, made, 8704, converted, sizeof converted, known);
        if (kind == 1)
            LONG_CALL(picture_to_new(WHOLE(FILE_BYTES), far, long_by + 8703, answer), 3, 0, 0, 8704);
        else
            LONG_CALL(picture_to_old(WHOLE(FILE_BYTES), far, long_by, answer), 3, 0, 0, 8704);
        written_long(far, long_by, converted, 8704);
    }
}

/* The counts of a list that stores a slice, and the text of one that resolves: 2 bytes and 8 characters. */
static void texts_long(uint8_t *far, size_t long_by)
{
    static const uint8_t store[8] = {2, 3, 1, 0, 13, 0, 0, 0}, resolve[8] = {5}, slice[2] = {0, 1};
    for (size_t less = 0; less < 2; less++) {
        nothing_lent(LAST);
        lend_registers(draw_modes(), 100, LAST);
        lend_bytes(LIST, store, 8, LAST);
        LONG_CALL(reach(WHOLE(REGISTERS), WHOLE(LIST), far, long_by + less, answer), STARAN_REACH_NUMBERS, 0, 2);
        written_long(far, long_by, slice, sizeof slice);
        lend_bytes(LIST, resolve, 8, LAST);
        LONG_CALL(show(WHOLE(LIST), far, long_by + 7 * less, answer), STARAN_SHOW_NUMBERS, 0, 8);
        written_long(far, long_by, (const uint8_t *)"resolve\n", 8);
    }
}

/* A list made of a text, into a long list, and with long items. */
static void made_long(uint8_t *far, size_t long_by, uint8_t *made)
{
    nothing_lent(LAST);
    lend_bytes(TEXT, (const uint8_t *)one_search, SEARCH_TEXT, LAST);
    lend(ITEMS, SEARCH_ITEMS, LAST);
    model_search(1, 0, 1, 1, made, SEARCH_LIST, buffers[ITEMS].expected, SEARCH_ITEMS);
    LONG_CALL(make(WHOLE(TEXT), far, long_by + SEARCH_LIST - 1, WHOLE(ITEMS), answer), STARAN_MAKE_NUMBERS, 0, 0, 0, SEARCH_LIST, SEARCH_ITEMS);
    written_long(far, long_by, made, SEARCH_LIST);
    lend(LIST, SEARCH_LIST, LAST);
    lend(ITEMS, 0, LAST);
    model_search(1, 0, 1, 1, buffers[LIST].expected, SEARCH_LIST, made, SEARCH_ITEMS);
    LONG_CALL(make(WHOLE(TEXT), WHOLE(LIST), far, long_by, answer), STARAN_MAKE_NUMBERS, 0, 0, 0, SEARCH_LIST, SEARCH_ITEMS);
    written_long(far, long_by, made, SEARCH_ITEMS);
}

/* Where any length will do, a long one is no refusal. */
static void done_long(uint8_t *far, size_t long_by)
{
    static uint8_t made[65536];
    size_t length = make_file(STARAN_CONTENT_LIST, 1024);
    memcpy(made, buffers[ITEMS].bytes, 1024);
    nothing_lent(LAST);
    lend_bytes(FILE_BYTES, file, length, LAST);
    LONG_CALL(read_content(STARAN_CONTENT_LIST, WHOLE(FILE_BYTES), far, long_by + 8, answer), 3, 0, 0, 1024);
    written_long(far, long_by, made, 1024);
    lend(LIST, 1024, LAST);
    model_blocks(STARAN_CONTENT_LIST, buffers[LIST].bytes, 1024, made);
    LONG_CALL(write_content(STARAN_CONTENT_LIST, WHOLE(LIST), far, long_by, answer), 3, 0, 0, 1536);
    written_long(far, long_by, made, 1536);
    pictures_long(far, long_by, made);
    lend(MEMORY, 8192, LAST);
    lend_registers(draw_modes(), 100, LAST);
    lend(ITEMS, 32, LAST);
    lend_bytes(LIST, deliver_outside, 8, LAST);
    LONG_CALL(run_4(WHOLE(MEMORY), WHOLE(REGISTERS), WHOLE(LIST), WHOLE(ITEMS), far, long_by + 31, answer), STARAN_RUN_NUMBERS, 0, 0, 0, 1, 1, 1);
    written_long(far, long_by, buffers[ITEMS].bytes, 32);
    staran_registers *record = (staran_registers *)(void *)buffers[REGISTERS].bytes;
    LONG_CALL(step_5(WHOLE(MEMORY), record, WHOLE(LIST), WHOLE(ITEMS), far, long_by, answer), STARAN_RUN_NUMBERS, 0, 0, 0, 1, 1, 1);
    written_long(far, long_by, buffers[ITEMS].bytes, 32);
    model_list(1, 0, 64, 128, 64, made, 2568);
    LONG_CALL(sum_list(0, 64, 128, 64, far, long_by, answer), 2, 0, 2568);
    written_long(far, long_by, made, 2568);
    model_list(2, 0, 64, 128, 64, made, 2576);
    LONG_CALL(difference_list(0, 64, 128, 64, far, long_by + 2575, answer), 2, 0, 2576);
    written_long(far, long_by, made, 2576);
    searched_long(far, long_by, made);
    moved_long(far, long_by, made);
    texts_long(far, long_by);
    made_long(far, long_by, made);
}

static void long_lengths(void)
{
    const size_t long_by = (size_t)1 << 32;
    uint8_t *closed = reserve(long_by + 65536, 0), *open = reserve(long_by + 65536, 1);
    if (closed == NULL || open == NULL) {
        puts("lengths over 2^32 are not tried: this system reserves no room of that length");
        return;
    }
    refused_long(closed, long_by);
    pictures_refused_long(closed, long_by);
    done_long(open, long_by);
    munmap(closed, long_by + 65536);
    munmap(open, long_by + 65536);
    function("over 2^32");
}

int lengths(void)
{
    run_lengths();
    step_lengths();
    record_order();
    pass_codes("pass", staran_pass);
    pass_codes("wired_pass", staran_wired_pass);
    builder_lengths("sum_list", staran_sum_list, 1);
    builder_lengths("difference_list", staran_difference_list, 2);
    search_lengths("equal_list", staran_equal_list, 0);
    search_lengths("less_list", staran_less_list, 1);
    greatest_lengths();
    move_lengths("closing_list", staran_closing_list, 0);
    move_lengths("spreading_list", staran_spreading_list, 1);
    isolated_lengths();
    text_lengths();
    make_lengths();
    read_lengths();
    read_picture_lengths();
    damaged_blocks();
    write_lengths();
    write_picture_lengths();
    long_lengths();
    return counted();
}
