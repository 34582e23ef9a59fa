/* Builds searches over a field, runs what was built, and holds Y, X, M, the memory and the out buffer to whole numbers that are compared here. */
#include "searches.h"

#include "checks.h"
#include "draw.h"
#include "lent.h"
#include "model.h"
#include "staran.h"

#include <string.h>

enum { WORDS = 256, FEW = 5 };

static uint64_t values[WORDS]; /* the field of each word */
static uint8_t marks[32];      /* the words that are marked in Y at the start */

/* ---- what is searched: each field holds one of a few values, so that many are equal, and some differ in one bit */

static uint64_t few[FEW];

static void draw_values(uint32_t n)
{
    const uint64_t largest = UINT64_MAX >> (64 - n);
    few[0] = draw() & largest;
    few[1] = few[0] ^ 1;
    few[2] = few[0] ^ (uint64_t)1 << (n - 1);
    few[3] = few[0] ^ (uint64_t)1 << draw() % n;
    few[4] = draw() % 3 == 0 ? largest : draw() % 2 == 0 ? 0 : draw() & largest;
    for (int w = 0; w < WORDS; w++)
        values[w] = few[draw() % FEW];
}

/* A number to search for: one of the values, one beside it, the ends of the range. */
static uint64_t draw_number(uint32_t n, int which)
{
    const uint64_t largest = UINT64_MAX >> (64 - n), one = few[draw() % FEW];
    return which == 0 ? one : which == 1 ? (one + 1) & largest : which == 2 ? (one - 1) & largest : which == 3 ? 0 : largest;
}
enum { NUMBERS = 5 };

/* None, one, all, some. */
static void draw_marks(int which)
{
    memset(marks, which == 2 ? 255 : 0, sizeof marks);
    if (which == 1)
        mark(marks, (int)(draw() % WORDS));
    for (int w = 0; which == 3 && w < WORDS; w++)
        if (draw() % 4 == 0)
            mark(marks, w);
}
enum { MARKS = 4 };

/* Lends memory and registers: the values stand in their field, all other bits of the words, M and X are anything, and the mode registers are set or not. */
static void lend_array(uint32_t start, uint32_t n, int end)
{
    static uint8_t words[STARAN_MEMORY_BYTES], memory[STARAN_MEMORY_BYTES];
    draw_bytes(words, sizeof words);
    for (int w = 0; w < WORDS; w++)
        for (uint32_t k = 0; k < n; k++) {
            uint8_t *byte = &words[32 * w + (start + k) / 8], bit = (uint8_t)(1 << (start + k) % 8);
            *byte = (uint8_t)(values[w] >> k & 1 ? *byte | bit : *byte & ~bit);
        }
    model_memory(words, memory);
    nothing_lent(end);
    lend_bytes(MEMORY, memory, sizeof memory, end);
    lend_registers(draw_modes(), STARAN_REGISTERS_BYTES, end);
    memcpy(buffers[REGISTERS].bytes + 64, marks, 32);
    memcpy(buffers[REGISTERS].expected + 64, marks, 32);
    lend(OUT, 40, end);
}

/* ---- searches, each two checks: the list is built, in buffers of the very length or longer, and the bytes that were counted are run */

typedef void searcher(uint32_t, uint32_t, uint64_t, uint8_t *, size_t, uint8_t *, size_t, uint32_t *);

/* Runs the list; X and Y must be these, and everything else as it was. */
static void run_built(size_t list, uint32_t taken, const uint8_t *x, const uint8_t *y, int end)
{
    const uint32_t expected[STARAN_RUN_NUMBERS] = {[STARAN_ANSWER_STEPS] = (uint32_t)(list / 8), [STARAN_ANSWER_TAKEN] = taken};
    uint32_t *answer = lend_answer(STARAN_RUN_NUMBERS, end);
    memcpy(buffers[REGISTERS].expected + 32, x, 32);
    memcpy(buffers[REGISTERS].expected + 64, y, 32);
    staran_run_4(WHOLE(MEMORY), WHOLE(REGISTERS), buffers[LIST].bytes, list, WHOLE(ITEMS), WHOLE(OUT), answer);
    settle(answer, STARAN_RUN_NUMBERS, expected);
}

static void search(const char *name, searcher *build, int less, uint32_t start, uint32_t n, uint64_t number, int end)
{
    uint8_t found[32] = {0};
    uint32_t expected[3] = {0, (uint32_t)STARAN_SEARCH_LIST_BYTES(n), (uint32_t)STARAN_SEARCH_ITEMS_BYTES(n)}, *answer = lend_answer(3, end);
    for (int w = 0; w < WORDS; w++)
        if (less ? values[w] < number : values[w] == number)
            mark(found, w);
    lend(LIST, expected[1] + draw() % 2, end);
    lend(ITEMS, expected[2] + 32 * (draw() % 3), end);
    model_search(less, start, n, number, buffers[LIST].expected, buffers[LIST].length, buffers[ITEMS].expected, buffers[ITEMS].length);
    check("%s_list: start %u, width %u, number %llu", name, (unsigned)start, (unsigned)n, (unsigned long long)number);
    build(start, n, number, WHOLE(LIST), WHOLE(ITEMS), answer);
    settle(answer, 3, expected);
    check("run of %s_list: start %u, width %u, number %llu", name, (unsigned)start, (unsigned)n, (unsigned long long)number);
    run_built(expected[1], n, found, found, end);
}

/* Of the words that are marked in Y now. */
static void search_greatest(const char *name, uint32_t start, uint32_t n, int end)
{
    static const uint8_t none[32];
    const uint8_t *y = buffers[REGISTERS].expected + 64;
    uint8_t found[32] = {0};
    uint64_t greatest = 0;
    uint32_t expected[2] = {0, (uint32_t)STARAN_GREATEST_LIST_BYTES(n)}, *answer = lend_answer(2, end);
    for (int w = 0; w < WORDS; w++)
        if (marked(y, w) && values[w] > greatest)
            greatest = values[w];
    for (int w = 0; w < WORDS; w++)
        if (marked(y, w) && values[w] == greatest)
            mark(found, w);
    lend(LIST, expected[1] + draw() % 2, end);
    lend(ITEMS, 32 * (draw() % 2), end);
    model_greatest(start, n, buffers[LIST].expected, buffers[LIST].length);
    check("greatest_list%s: start %u, width %u", name, (unsigned)start, (unsigned)n);
    staran_greatest_list(start, n, WHOLE(LIST), answer);
    settle(answer, 2, expected);
    check("run of greatest_list%s: start %u, width %u", name, (unsigned)start, (unsigned)n);
    run_built(expected[1], 0, none, found, end);
}

/* ---- over widths, starts, marks and numbers */

static void equal_once(uint32_t start, uint32_t n, uint64_t number, int end) { search("equal", staran_equal_list, 0, start, n, number, end); }
static void less_once(uint32_t start, uint32_t n, uint64_t number, int end) { search("less", staran_less_list, 1, start, n, number, end); }

static void greatest_once(uint32_t start, uint32_t n, uint64_t number, int end)
{
    (void)number;
    search_greatest("", start, n, end);
}

/* One behind the other: the greatest of the words that are less, whichever were marked before. */
static void greatest_of_less(uint32_t start, uint32_t n, uint64_t number, int end)
{
    less_once(start, n, number, end);
    search_greatest(" behind less_list", start, n, end);
}

static void over_fields(const char *name, void (*once)(uint32_t, uint32_t, uint64_t, int))
{
    static const uint32_t widths[] = {1, 2, 8, 31, 32, 63, 64};
    for (size_t i = 0; i < COUNT(widths); i++) {
        const uint32_t n = widths[i], starts[] = {0, 97, 128 - n / 2, 256 - n};
        for (size_t s = 0; s < COUNT(starts); s++)
            for (int k = 0; k < MARKS * NUMBERS; k++) {
                int end = (int)((s + (size_t)(k + k / MARKS)) % ENDS);
                draw_values(n);
                draw_marks(k % MARKS);
                lend_array(starts[s], n, end);
                once(starts[s], n, draw_number(n, k / MARKS), end);
            }
    }
    function(name);
}

int searches(void)
{
    over_fields("equal, run", equal_once);
    over_fields("less, run", less_once);
    over_fields("greatest, run", greatest_once);
    over_fields("greatest of less", greatest_of_less);
    return counted();
}
