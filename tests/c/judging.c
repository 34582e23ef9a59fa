/* Has instructions judged, each by a run and by a step, and holds the number and the byte that are given: to what stands here for every byte that a number can
 * name, for two numbers at once and for bad lengths; and to the model for every byte 6 of each kind and for bytes around every edge. modes.c has the rest of the
 * mode registers. */
#include "judging.h"

#include "checks.h"
#include "draw.h"
#include "lent.h"
#include "model.h"
#include "staran.h"

#include <string.h>

enum { RUN, STEP, CALLS };
static const char *const names[CALLS] = {"run", "step"};

/* ---- a run or a step of one instruction */

/* Mode registers: neither is set, A is, B is, both are. */
enum { NEITHER, A, B, BOTH, SETS };
static const uint8_t modes[SETS][4] = {{0, 0, 0, 0}, {1, 7, 0, 0}, {0, 0, 1, 255}, {1, 90, 1, 0}};

static void lend_module(int set, const uint8_t *list, size_t length, int end)
{
    nothing_lent(end);
    lend(MEMORY, 8192, end);
    lend_registers(modes[set], 100, end);
    lend_bytes(LIST, list, length, end);
    lend(ITEMS, 96, end);
    lend(OUT, 96, end);
}

/* Makes the call on what is lent, and gives back the number. What a call that is done leaves is for other checks. */
static uint32_t judge(int call, const uint32_t expected[STARAN_RUN_NUMBERS], int end)
{
    static const int written[] = {MEMORY, REGISTERS, OUT};
    uint32_t *answer = lend_answer(STARAN_RUN_NUMBERS, end);
    if (call == STEP)
        staran_step_5(WHOLE(MEMORY), (staran_registers *)(void *)buffers[REGISTERS].bytes, WHOLE(LIST), WHOLE(ITEMS), WHOLE(OUT), answer);
    else
        staran_run_4(WHOLE(MEMORY), WHOLE(REGISTERS), WHOLE(LIST), WHOLE(ITEMS), WHOLE(OUT), answer);
    for (size_t k = 0; expected[STARAN_ANSWER_NUMBER] == 0 && k < COUNT(written); k++)
        memcpy(buffers[written[k]].expected, buffers[written[k]].bytes, buffers[written[k]].length);
    settle(answer, STARAN_RUN_NUMBERS, expected);
    return answer[STARAN_ANSWER_NUMBER];
}

/* One instruction. In a run it stands behind up to two good ones, as the turn says, which must not have acted where it is refused, and then before another that
 * is refused too. */
enum { MOST_BEFORE = 2, TURNS = ENDS * (1 + MOST_BEFORE) };

static uint32_t judge_one(int call, int set, const uint8_t i[8], unsigned number, unsigned byte, size_t turn)
{
    static const uint8_t store_word_13[8] = {2, 4, 1, 255, 13, 0, 0, 0}, another[8] = {255, 9, 9, 9, 9, 9, 9, 9};
    const size_t before = call == RUN ? turn / ENDS % (1 + MOST_BEFORE) : 0, behind = call == RUN && number != 0;
    const int end = (int)(turn % ENDS);
    uint32_t expected[STARAN_RUN_NUMBERS] = {[STARAN_ANSWER_NUMBER] = number, [STARAN_ANSWER_PLACE] = (uint32_t)before, [STARAN_ANSWER_BYTE] = byte};
    uint8_t list[8 * (MOST_BEFORE + 2)];
    for (size_t k = 0; k < before; k++)
        memcpy(list + 8 * k, store_word_13, 8);
    memcpy(list + 8 * before, i, 8);
    memcpy(list + 8 * before + 8, another, 8);
    if (number == 0) {
        expected[STARAN_ANSWER_PLACE] = 0;
        expected[STARAN_ANSWER_STEPS] = (uint32_t)before + 1;
        expected[STARAN_ANSWER_TAKEN] = (uint32_t)before + (i[1] == 4);
        expected[STARAN_ANSWER_GIVEN] = i[0] == 4 || i[0] == 5;
    }
    check("%s of %02x %02x %02x %02x %02x %02x %02x %02x, behind %zu, mode registers %d", names[call], i[0], i[1], i[2], i[3], i[4], i[5], i[6], i[7], before, set);
    lend_module(set, list, 8 * (before + 1 + behind), end);
    return judge(call, expected, end);
}

/* ---- instructions, each with the number and the byte that it is judged with */

typedef struct {
    unsigned number, byte;
    uint8_t bytes[8];
} judged;

/* Every byte that each number can name. */
static const judged named[] = {
    {5, 0, {7, 0, 0, 0, 0, 0, 0, 0}},      {5, 0, {255, 9, 9, 9, 9, 9, 9, 9}},    {6, 1, {0, 5, 0, 0, 0, 0, 0, 0}},      {6, 1, {1, 255, 0, 0, 0, 0, 0, 0}},
    {6, 1, {4, 5, 1, 0, 0, 0, 0, 0}},      {6, 1, {2, 0, 1, 0, 0, 0, 0, 0}},      {6, 1, {3, 0, 1, 7, 45, 90, 0, 0}},    {6, 1, {2, 5, 1, 0, 0, 0, 0, 0}},
    {6, 1, {5, 1, 0, 0, 0, 0, 0, 0}},      {6, 1, {5, 4, 0, 0, 0, 0, 0, 0}},      {6, 1, {6, 1, 2, 7, 0, 0, 0, 0}},      {6, 1, {6, 4, 3, 7, 0, 0, 0, 0}},
    {6, 1, {6, 255, 0, 9, 9, 9, 9, 9}},    {7, 2, {0, 0, 0, 0, 0, 0, 0, 0}},      {7, 2, {1, 0, 0, 255, 13, 0, 0, 0}},   {7, 2, {2, 3, 0, 255, 13, 0, 0, 0}},
    {7, 2, {3, 1, 0, 0, 0, 0, 0, 0}},      {7, 2, {4, 0, 0, 0, 5, 0, 0, 0}},      {7, 2, {6, 0, 0, 7, 0, 0, 0, 0}},      {7, 2, {6, 0, 0, 0, 9, 9, 9, 9}},
    {8, 2, {0, 0, 4, 0, 0, 0, 0, 0}},      {8, 2, {2, 3, 4, 0, 0, 0, 0, 0}},      {8, 2, {3, 4, 255, 9, 9, 9, 0, 0}},    {8, 2, {4, 0, 255, 0, 0, 0, 0, 0}},
    {8, 2, {1, 0, 4, 0, 0, 0, 0, 0}},      {8, 2, {6, 0, 1, 7, 0, 0, 0, 0}},      {8, 2, {6, 0, 4, 0, 0, 0, 0, 0}},      {8, 2, {6, 0, 255, 9, 9, 9, 9, 9}},
    {9, 2, {0, 2, 1, 0, 0, 0, 0, 0}},      {9, 2, {1, 4, 255, 7, 45, 0, 0, 0}},   {9, 2, {5, 0, 1, 0, 1, 0, 0, 0}},      {9, 2, {0, 2, 2, 0, 0, 0, 0, 0}},
    {9, 2, {1, 4, 3, 1, 1, 0, 0, 0}},      {9, 2, {4, 3, 2, 0, 0, 0, 0, 0}},      {9, 2, {5, 0, 3, 0, 0, 0, 0, 0}},      {9, 3, {1, 1, 0, 1, 0, 0, 0, 0}},
    {9, 3, {4, 3, 0, 255, 13, 0, 0, 0}},   {9, 3, {5, 0, 0, 1, 0, 0, 0, 0}},      {9, 3, {0, 0, 2, 1, 0, 0, 0, 0}},      {9, 3, {1, 0, 3, 255, 45, 0, 0, 0}},
    {9, 3, {2, 3, 2, 255, 13, 0, 0, 0}},   {9, 3, {3, 1, 3, 7, 9, 9, 9, 9}},      {9, 3, {4, 0, 2, 1, 1, 0, 0, 0}},      {9, 4, {0, 4, 0, 0, 255, 0, 0, 0}},
    {9, 4, {5, 0, 0, 0, 1, 0, 0, 0}},      {9, 4, {6, 0, 2, 7, 1, 0, 0, 0}},      {9, 4, {6, 0, 3, 255, 255, 9, 9, 9}},  {14, 2, {0, 0, 2, 0, 0, 0, 0, 0}},
    {14, 2, {1, 0, 3, 0, 45, 90, 131, 0}}, {14, 2, {2, 3, 2, 0, 13, 0, 0, 0}},    {14, 2, {3, 4, 3, 0, 255, 5, 0, 0}},   {14, 2, {4, 0, 2, 0, 0, 0, 0, 0}},
    {14, 2, {2, 1, 3, 0, 9, 9, 9, 9}},     {18, 5, {5, 0, 0, 0, 0, 1, 0, 0}},     {18, 5, {5, 0, 0, 0, 0, 255, 1, 0}},   {18, 5, {6, 0, 2, 7, 0, 1, 0, 0}},
    {18, 5, {6, 0, 3, 0, 0, 255, 144, 0}}, {18, 6, {2, 3, 1, 0, 0, 0, 48, 0}},    {18, 6, {2, 4, 1, 0, 0, 90, 1, 0}},    {18, 6, {3, 1, 1, 255, 13, 5, 255, 0}},
    {18, 6, {5, 0, 0, 0, 0, 0, 16, 0}},    {18, 6, {2, 3, 2, 0, 0, 0, 48, 0}},    {18, 6, {3, 1, 3, 0, 13, 5, 255, 0}},  {18, 6, {6, 0, 2, 7, 0, 0, 16, 0}},
    {18, 6, {6, 0, 3, 7, 0, 0, 159, 1}},   {16, 6, {0, 2, 0, 0, 0, 0, 144, 0}},   {16, 6, {1, 0, 1, 7, 45, 9, 159, 0}},  {16, 6, {4, 3, 0, 0, 0, 0, 255, 0}},
    {16, 6, {0, 0, 2, 0, 0, 0, 144, 0}},   {16, 6, {1, 0, 3, 0, 45, 9, 159, 0}},  {17, 6, {0, 2, 0, 0, 0, 0, 136, 0}},   {17, 6, {1, 4, 0, 0, 0, 90, 15, 0}},
    {17, 6, {4, 1, 0, 0, 0, 0, 1, 0}},     {17, 6, {0, 0, 1, 0, 0, 0, 17, 0x46}}, {17, 6, {4, 0, 3, 0, 0, 0, 136, 0}},   {17, 6, {0, 0, 2, 0, 0, 90, 1, 0}},
    {11, 7, {0, 2, 0, 0, 0, 0, 0, 80}},    {11, 7, {0, 0, 1, 9, 9, 9, 131, 255}}, {11, 7, {1, 2, 0, 0, 0, 0, 0, 1}},     {11, 7, {2, 3, 1, 0, 0, 0, 0, 255}},
    {11, 7, {3, 1, 1, 7, 45, 90, 0, 64}},  {11, 7, {4, 4, 0, 0, 0, 0, 16, 1}},    {11, 7, {5, 0, 0, 0, 0, 0, 0, 16}},    {11, 7, {0, 0, 2, 0, 9, 9, 131, 80}},
    {11, 7, {2, 3, 3, 0, 0, 0, 0, 1}},     {11, 7, {6, 0, 2, 7, 0, 0, 0, 1}},     {11, 7, {6, 0, 3, 255, 0, 0, 0, 255}},
};

/* Every two numbers but two of 7, 8 and 14, of which an instruction can have one: that which comes first is given, and the other where the first is mended. The
 * first instruction has both, but for 5 with 7, 8, 14 and 18: kind 7 touches nothing and is barred from no move, so that the other number comes with the mending.
 * No mode register is set. */
static const struct {
    judged first, mended;
} pairs[] = {
    {{5, 0, {7, 5, 0, 0, 0, 0, 0, 0}}, {6, 1, {0, 5, 0, 0, 0, 0, 0, 0}}},        {{5, 0, {7, 0, 0, 0, 0, 0, 0, 0}}, {7, 2, {0, 0, 0, 0, 0, 0, 0, 0}}},
    {{5, 0, {7, 0, 4, 0, 0, 0, 0, 0}}, {8, 2, {1, 0, 4, 0, 0, 0, 0, 0}}},        {{5, 0, {7, 2, 0, 1, 0, 0, 0, 0}}, {9, 3, {0, 2, 0, 1, 0, 0, 0, 0}}},
    {{5, 0, {7, 0, 2, 0, 0, 0, 0, 0}}, {14, 2, {0, 0, 2, 0, 0, 0, 0, 0}}},       {{5, 0, {7, 0, 0, 0, 0, 1, 0, 0}}, {18, 5, {5, 0, 0, 0, 0, 1, 0, 0}}},
    {{5, 0, {7, 2, 0, 0, 0, 0, 144, 0}}, {16, 6, {4, 2, 0, 0, 0, 0, 144, 0}}},   {{5, 0, {7, 2, 0, 0, 0, 0, 1, 0}}, {17, 6, {0, 2, 0, 0, 0, 0, 1, 0}}},
    {{5, 0, {7, 2, 0, 0, 0, 0, 0, 80}}, {11, 7, {0, 2, 0, 0, 0, 0, 0, 80}}},     {{6, 1, {2, 0, 0, 0, 0, 0, 0, 0}}, {7, 2, {2, 1, 0, 0, 0, 0, 0, 0}}},
    {{6, 1, {6, 1, 0, 0, 0, 0, 0, 0}}, {7, 2, {6, 0, 0, 0, 0, 0, 0, 0}}},        {{6, 1, {3, 0, 4, 0, 0, 0, 0, 0}}, {8, 2, {3, 1, 4, 0, 0, 0, 0, 0}}},
    {{6, 1, {6, 1, 1, 0, 0, 0, 0, 0}}, {8, 2, {6, 0, 1, 0, 0, 0, 0, 0}}},        {{6, 1, {5, 1, 0, 0, 1, 0, 0, 0}}, {9, 4, {5, 0, 0, 0, 1, 0, 0, 0}}},
    {{6, 1, {2, 0, 2, 0, 0, 0, 0, 0}}, {14, 2, {2, 3, 2, 0, 0, 0, 0, 0}}},       {{6, 1, {2, 0, 1, 0, 0, 0, 16, 0}}, {18, 6, {2, 3, 1, 0, 0, 0, 16, 0}}},
    {{6, 1, {0, 5, 0, 0, 0, 0, 255, 0}}, {16, 6, {0, 2, 0, 0, 0, 0, 255, 0}}},   {{6, 1, {4, 5, 0, 0, 0, 0, 136, 0}}, {17, 6, {4, 2, 0, 0, 0, 0, 136, 0}}},
    {{6, 1, {1, 5, 0, 0, 0, 0, 0, 1}}, {11, 7, {1, 2, 0, 0, 0, 0, 0, 1}}},       {{7, 2, {6, 0, 0, 0, 1, 0, 0, 0}}, {9, 4, {6, 0, 2, 0, 1, 0, 0, 0}}},
    {{7, 2, {3, 1, 0, 0, 0, 0, 16, 1}}, {18, 6, {3, 1, 1, 0, 0, 0, 16, 1}}},     {{7, 2, {0, 0, 0, 0, 0, 0, 144, 0}}, {16, 6, {0, 0, 1, 0, 0, 0, 144, 0}}},
    {{7, 2, {1, 0, 0, 0, 0, 0, 15, 0}}, {17, 6, {1, 0, 1, 0, 0, 0, 15, 0}}},     {{7, 2, {2, 3, 0, 255, 0, 0, 0, 1}}, {11, 7, {2, 3, 1, 255, 0, 0, 0, 1}}},
    {{8, 2, {6, 0, 1, 0, 1, 0, 0, 0}}, {9, 4, {6, 0, 3, 0, 1, 0, 0, 0}}},        {{8, 2, {2, 3, 4, 0, 0, 0, 144, 0}}, {18, 6, {2, 3, 1, 0, 0, 0, 144, 0}}},
    {{8, 2, {4, 0, 255, 0, 0, 0, 159, 0}}, {16, 6, {4, 0, 1, 0, 0, 0, 159, 0}}}, {{8, 2, {0, 0, 4, 0, 0, 0, 1, 0}}, {17, 6, {0, 0, 1, 0, 0, 0, 1, 0}}},
    {{8, 2, {1, 0, 4, 0, 0, 0, 0, 16}}, {11, 7, {1, 0, 1, 0, 0, 0, 0, 16}}},     {{9, 3, {2, 3, 3, 1, 0, 0, 0, 0}}, {14, 2, {2, 3, 3, 0, 0, 0, 0, 0}}},
    {{9, 4, {5, 0, 0, 0, 1, 1, 0, 0}}, {18, 5, {5, 0, 0, 0, 0, 1, 0, 0}}},       {{9, 4, {6, 0, 2, 0, 1, 1, 0, 0}}, {18, 5, {6, 0, 2, 0, 0, 1, 0, 0}}},
    {{9, 2, {0, 2, 1, 0, 0, 0, 144, 0}}, {16, 6, {0, 2, 0, 0, 0, 0, 144, 0}}},   {{9, 3, {4, 1, 0, 1, 0, 0, 1, 0}}, {17, 6, {4, 1, 0, 0, 0, 0, 1, 0}}},
    {{9, 4, {0, 2, 0, 0, 255, 0, 0, 255}}, {11, 7, {0, 2, 0, 0, 0, 0, 0, 255}}}, {{14, 2, {2, 3, 2, 0, 0, 0, 16, 0}}, {18, 6, {2, 3, 1, 0, 0, 0, 16, 0}}},
    {{14, 2, {0, 0, 3, 0, 0, 0, 144, 0}}, {16, 6, {0, 0, 1, 0, 0, 0, 144, 0}}},  {{14, 2, {1, 0, 2, 0, 0, 0, 15, 0}}, {17, 6, {1, 0, 1, 0, 0, 0, 15, 0}}},
    {{14, 2, {3, 1, 3, 0, 0, 0, 0, 1}}, {11, 7, {3, 1, 1, 0, 0, 0, 0, 1}}},      {{18, 6, {2, 3, 1, 0, 0, 0, 144, 0}}, {16, 6, {0, 0, 1, 0, 0, 0, 144, 0}}},
    {{18, 6, {6, 0, 2, 0, 0, 0, 144, 0}}, {16, 6, {0, 0, 1, 0, 0, 0, 144, 0}}},  {{18, 6, {5, 0, 0, 0, 0, 0, 1, 0}}, {17, 6, {4, 1, 0, 0, 0, 0, 1, 0}}},
    {{18, 5, {5, 0, 0, 0, 0, 1, 0, 16}}, {11, 7, {5, 0, 0, 0, 0, 0, 0, 16}}},    {{18, 6, {6, 0, 3, 0, 0, 0, 1, 1}}, {11, 7, {6, 0, 3, 0, 0, 0, 0, 1}}},
    {{16, 6, {0, 2, 0, 0, 0, 0, 159, 0}}, {17, 6, {0, 2, 0, 0, 0, 0, 143, 0}}},  {{16, 6, {0, 2, 0, 0, 0, 0, 144, 80}}, {11, 7, {0, 2, 0, 0, 0, 0, 128, 80}}},
    {{17, 6, {1, 2, 0, 0, 0, 0, 136, 1}}, {11, 7, {1, 2, 0, 0, 0, 0, 135, 1}}},
};

static void judge_both(int set, const judged *j, size_t turn)
{
    for (int call = 0; call < CALLS; call++)
        judge_one(call, set, j->bytes, j->number, j->byte, turn);
}

/* Whether this set makes the number what it is: for 14 the register of the tag is not set, for a number behind 14 it is; elsewhere any set does. */
static int decides(int set, const judged *j)
{
    const int of_register = j->bytes[0] < 5 && (j->bytes[2] == 2 || j->bytes[2] == 3) && j->number > 9;
    return !of_register || modes[set][2 * (j->bytes[2] - 2)] == (j->number != 14);
}

static void named_bytes(void)
{
    for (size_t k = 0; k < COUNT(named); k++)
        for (size_t turn = 0; turn < TURNS; turn++)
            for (int set = 0; set < SETS; set++)
                if (decides(set, &named[k]))
                    judge_both(set, &named[k], turn);
    function("bytes named");
}

static void given_first(void)
{
    for (size_t k = 0; k < COUNT(pairs); k++)
        for (size_t turn = 0; turn < TURNS; turn++) {
            judge_both(NEITHER, &pairs[k].first, turn);
            judge_both(NEITHER, &pairs[k].mended, turn);
        }
    function("given first");
}

/* ---- every byte 6 of each kind, whose other bytes are good */

/* Beside each, how often numbers were given over the 256: where a shift may be, 37 are done, 112 have p over 8, and of the other 107 m is not below p; where it
 * is barred, 0 alone is done. */
static void every_shift(const char *name, const uint8_t instruction[8], int barred)
{
    for (int call = 0; call < CALLS; call++) {
        unsigned given[256] = {0}, byte;
        for (size_t code = 0; code < 256; code++) {
            uint8_t i[8];
            memcpy(i, instruction, 8);
            i[6] = (uint8_t)code;
            unsigned number = model_instruction(modes[A], i, &byte);
            given[judge_one(call, A, i, number, byte, code) % 256]++;
        }
        check("%s: every byte 6 of %s", names[call], name);
        if (barred ? given[0] != 1 || given[18] != 255 : given[0] != 37 || given[16] != 112 || given[17] != 107)
            wrong("a number is given more or less often than it must be");
        count();
    }
}

static void every_byte_6(void)
{
    static const uint8_t logic[8] = {0, 2, 0, 0, 0, 90, 0, 0x46}, set_m[8] = {1, 0, 1, 7, 45, 90, 0, 0}, store[8] = {2, 3, 1, 7, 45, 90, 0, 0},
                         masked_store[8] = {3, 4, 2, 0, 13, 90, 0, 0}, deliver[8] = {4, 0, 2, 0, 0, 90, 0, 0}, resolve[8] = {5, 0, 0, 0, 0, 0, 0, 0},
                         set_mode[8] = {6, 0, 3, 7, 0, 0, 0, 0};
    every_shift("logic", logic, 0);
    every_shift("set M", set_m, 0);
    every_shift("a store", store, 1);
    every_shift("a masked store", masked_store, 1);
    every_shift("deliver", deliver, 0);
    every_shift("a resolve", resolve, 1);
    every_shift("kind 6", set_mode, 1);
    function("every byte 6");
}

/* ---- bytes around every edge, each with each, and mode registers that are drawn */

static void around_edges(void)
{
    static const uint8_t kinds[] = {0, 1, 2, 3, 4, 5, 6, 7, 255}, sources[] = {0, 1, 4, 5, 255}, flips[] = {0, 1, 255},
                         codes[] = {0, 1, 15, 16, 17, 135, 136, 143, 144, 255}, logics[] = {0, 1, 79, 80, 255};
    static const uint8_t accesses[][3] = {{0, 0, 0}, {1, 0, 0}, {1, 255, 13}, {2, 0, 0}, {2, 0, 13}, {2, 7, 0}, {3, 0, 0}, {3, 0, 13}, {3, 255, 0}, {4, 0, 0}, {255, 7, 0}, {0, 1, 0}, {0, 0, 1}, {0, 255, 255}};
    const size_t all = COUNT(kinds) * COUNT(sources) * COUNT(accesses) * COUNT(flips) * COUNT(codes) * COUNT(logics);
    for (size_t turn = 0; turn < all; turn++) {
        size_t rest = turn;
        judged j;
        uint8_t *i = j.bytes;
        i[7] = logics[rest % COUNT(logics)], rest /= COUNT(logics);
        i[6] = codes[rest % COUNT(codes)], rest /= COUNT(codes);
        i[5] = flips[rest % COUNT(flips)], rest /= COUNT(flips);
        memcpy(i + 2, accesses[rest % COUNT(accesses)], 3), rest /= COUNT(accesses);
        i[1] = sources[rest % COUNT(sources)], i[0] = kinds[rest / COUNT(sources)];
        const int set = (int)(draw() % SETS);
        j.number = model_instruction(modes[set], i, &j.byte);
        judge_both(set, &j, turn);
    }
    function("around edges");
}

/* ---- calls with bad lengths: these are refused with byte 0, whatever stands in the list */

/* An instruction that is refused goes before an item and room that are lacking: in two rows it is given, with its byte. */
static void bad_lengths(void)
{
    static const uint8_t lists[][16] = {
        {5, 0, 0, 0, 0, 1, 16, 0},                            /* 18 at byte 5 */
        {4, 4, 0, 0, 0, 90, 131, 0},                          /* good: it takes an item, and gives one */
        {4, 4, 0, 0, 0, 90, 131, 0, 4, 4, 0, 0, 0, 0, 0, 0},  /* two such */
        {4, 4, 0, 0, 0, 90, 131, 0, 5, 0, 0, 0, 0, 1, 16, 0}, /* good, and then 18 at byte 5 */
        {4, 4, 0, 0, 0, 90, 131, 0, 2, 3, 2, 0, 13, 0, 0, 0}, /* good, and then 14 */
    };
    static const struct {
        size_t list, length, memory, registers, items, out;
        uint32_t number, place, byte;
    } rows[] = {{0, 8, 8191, 100, 32, 32, 1, 0, 0},   {0, 8, 8192, 96, 32, 32, 2, 0, 0},    {0, 8, 8192, 99, 32, 32, 2, 0, 0}, {0, 8, 8192, 101, 32, 32, 2, 0, 0},
                {0, 9, 8192, 100, 32, 32, 3, 0, 0},   {0, 8, 8192, 100, 31, 32, 4, 0, 0},   {1, 8, 8192, 100, 0, 32, 12, 0, 0}, {1, 8, 8192, 100, 32, 31, 13, 0, 0},
                {1, 8, 8192, 100, 0, 0, 12, 0, 0},    {2, 16, 8192, 100, 32, 64, 12, 1, 0}, {2, 16, 8192, 100, 64, 63, 13, 1, 0}, {3, 16, 8192, 100, 0, 0, 18, 1, 5},
                {3, 16, 8191, 100, 0, 0, 1, 0, 0},    {4, 16, 8192, 100, 0, 0, 14, 1, 2},   {4, 16, 8192, 100, 31, 0, 4, 0, 0}};
    for (size_t i = 0; i < CALLS * ENDS * COUNT(rows); i++) {
        const size_t row = i / (CALLS * ENDS);
        const int call = (int)(i % CALLS), end = (int)(i / CALLS % ENDS);
        const uint32_t expected[STARAN_RUN_NUMBERS] = {
            [STARAN_ANSWER_NUMBER] = rows[row].number, [STARAN_ANSWER_PLACE] = rows[row].place, [STARAN_ANSWER_BYTE] = rows[row].byte};
        if (call == STEP && (rows[row].registers != 100 || rows[row].length == 16))
            continue;
        check("%s, row %zu of those with bad lengths", names[call], row);
        lend_module(NEITHER, lists[rows[row].list], rows[row].length, end);
        lend(MEMORY, rows[row].memory, end);
        lend_registers(modes[NEITHER], rows[row].registers, end);
        lend(ITEMS, rows[row].items, end);
        lend(OUT, rows[row].out, end);
        judge(call, expected, end);
    }
    function("bad lengths");
}

int judging(void)
{
    named_bytes();
    given_first();
    every_byte_6();
    around_edges();
    bad_lengths();
    return counted();
}
