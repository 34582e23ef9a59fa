/* Asks of lists whether they are isolated: every value of every byte of instructions that stay with their stations, lists whose answer stands here, lists that are drawn with
 * no flaw, with one, and of any bytes, every set of faults, and the lists that are built here, each held to the model too. Then what an answer of 0 promises, by two runs of a
 * list, on arrays that agree on one station or differ in one; and lists that do disturb a station. */
#include "isolated.h"

#include "checks.h"
#include "draw.h"
#include "lent.h"
#include "model.h"
#include "staran.h"

#include <string.h>

enum { WORDS = 256, MOST = 4096, LONGEST_LIST = 8 * MOST };

/* ---- the question about what is lent */

/* Lends a list with these mode registers. M, X and Y are anything. */
static void lend_list(const uint8_t modes[4], const uint8_t *list, size_t length, int end)
{
    uint8_t registers[STARAN_REGISTERS_BYTES];
    draw_bytes(registers, sizeof registers);
    memcpy(registers + 96, modes, 4);
    nothing_lent(end);
    lend_bytes(REGISTERS, registers, sizeof registers, end);
    lend_bytes(LIST, list, length, end);
}

/* The answer must be the model's, which is given back; every buffer stays. */
static const uint32_t *ask(int end)
{
    static uint32_t expected[STARAN_ISOLATED_NUMBERS];
    uint32_t *answer = lend_answer(STARAN_ISOLATED_NUMBERS, end);
    model_isolated(WHOLE(LIST), WHOLE(REGISTERS), expected);
    staran_isolated(WHOLE(LIST), WHOLE(REGISTERS), answer);
    settle(answer, STARAN_ISOLATED_NUMBERS, expected);
    return expected;
}

/* The answer must be this, and the model's too. */
static void ask_for(uint32_t number, uint32_t place, int end)
{
    const uint32_t stands[STARAN_ISOLATED_NUMBERS] = {number, place};
    uint32_t known[STARAN_ISOLATED_NUMBERS];
    model_isolated(WHOLE(LIST), WHOLE(REGISTERS), known);
    answered(known, STARAN_ISOLATED_NUMBERS, stands);
    ask(end);
}

/* ---- every value of every byte of good instructions, by several mode registers: behind none, one or two others, and before one by A and one by B */

/* Beside each instruction, with how many values of each of its bytes it breaks nothing, where both registers hold 0. */
static const struct {
    const char *name;
    uint8_t bytes[8];
    unsigned stay[8];
} good[] = {
    {"logic, memory", {0, 0, 1, 0, 45, 0, 0, 0x46}, {5, 256, 3, 1, 256, 1, 1, 256}},
    {"logic, memory, by A", {0, 0, 2, 0, 45, 0, 0, 0x1A}, {5, 256, 3, 256, 256, 1, 1, 256}},
    {"logic, X", {0, 2, 0, 0, 0, 0, 0, 0x26}, {3, 255, 256, 256, 256, 1, 1, 256}},
    {"logic, outside", {0, 4, 0, 0, 0, 0, 0, 0x4F}, {3, 255, 256, 256, 256, 1, 1, 256}},
    {"set M, memory", {1, 0, 1, 0, 255, 0, 0, 0}, {5, 256, 3, 1, 256, 1, 1, 256}},
    {"set M, memory, by B", {1, 0, 3, 0, 13, 0, 0, 0}, {5, 256, 3, 256, 256, 1, 1, 256}},
    {"set M, Y", {1, 3, 0, 0, 0, 0, 0, 0}, {3, 255, 256, 256, 256, 1, 1, 256}},
    {"store, Y", {2, 3, 1, 0, 13, 0, 0, 0}, {5, 256, 3, 1, 256, 1, 1, 256}},
    {"store, outside, by B", {2, 4, 3, 0, 200, 0, 0, 0}, {5, 256, 3, 256, 256, 1, 1, 256}},
    {"masked store, M", {3, 1, 1, 0, 0, 0, 0, 0}, {5, 256, 3, 1, 256, 1, 1, 256}},
    {"masked store, X, by A", {3, 2, 2, 0, 7, 0, 0, 0}, {5, 256, 3, 256, 256, 1, 1, 256}},
    {"setting A to 0", {6, 0, 2, 0, 0, 0, 0, 0}, {5, 256, 256, 256, 256, 1, 1, 256}},
    {"setting B to 255", {6, 0, 3, 255, 0, 0, 0, 0}, {5, 256, 256, 256, 256, 1, 1, 256}},
};

enum { BOTH_HOLD_0, STATES = 9 };
static const uint8_t states[STATES][4] = {{1, 0, 1, 0}, {0, 0, 0, 0}, {1, 0, 0, 0}, {0, 0, 1, 0}, {1, 255, 1, 0}, {1, 0, 1, 1}, {1, 128, 0, 0}, {0, 0, 1, 7}, {1, 1, 1, 255}};

/* One instruction with one byte altered. Does it break nothing itself? */
static int altered(size_t k, size_t byte, uint8_t value, size_t state, size_t turn)
{
    static const uint8_t before[][8] = {{0, 2, 0, 0, 0, 0, 0, 0x46}, {2, 3, 1, 0, 13, 0, 0, 0}}, behind[][8] = {{2, 3, 2, 0, 45, 0, 0, 0}, {0, 0, 3, 0, 90, 0, 0, 0x1A}};
    const size_t at = turn / ENDS % (1 + COUNT(before));
    const int end = (int)(turn % ENDS);
    uint8_t list[sizeof before + 8 + sizeof behind];
    memcpy(list, before, 8 * at);
    memcpy(list + 8 * at, good[k].bytes, 8);
    memcpy(list + 8 * at + 8, behind, sizeof behind);
    list[8 * at + byte] = value;
    check("isolated: %s, byte %zu is %u, mode registers %zu, place %zu", good[k].name, byte, value, state, at);
    lend_list(states[state], list, 8 * at + 8 + sizeof behind, end);
    const uint32_t *known = ask(end);
    return known[0] != 40 || known[1] != at;
}

static void every_byte(void)
{
    size_t turn = 0;
    for (size_t k = 0; k < COUNT(good); k++)
        for (size_t byte = 0; byte < 8; byte++)
            for (size_t state = 0; state < STATES; state++, turn++) {
                unsigned stay = 0;
                for (size_t value = 0; value < 256; value++)
                    stay += (unsigned)altered(k, byte, (uint8_t)value, state, turn + value);
                if (state != BOTH_HOLD_0)
                    continue;
                check("isolated: every byte %zu of %s", byte, good[k].name);
                if (stay != good[k].stay[byte])
                    wrong("more or fewer values than stand here break nothing");
                count();
            }
    function("every byte");
}

/* ---- lists whose answer stands here, with the mode registers that they are asked with */

enum { FEW = 4 };
#define SET_A(mode) {STARAN_SET_MODE(STARAN_TAG_A, mode)}
#define SET_B(mode) {STARAN_SET_MODE(STARAN_TAG_B, mode)}
#define STORE_BY(tag) {STARAN_STORE_BY(STARAN_SOURCE_Y, tag, 13, 0)}
static const struct {
    const char *name;
    uint8_t modes[4];
    size_t count;
    uint8_t list[FEW][8];
    uint32_t number, place;
} lists[] = {
    {"no instruction", {0}, 0, {{0}}, 0, 0},
    {"no instruction, and both registers set", {1, 255, 1, 255}, 0, {{0}}, 0, 0},
    {"one of each kind that stays", {0}, 4, {{0, 0, 1, 0, 1, 0, 0, 0x46}, {1, 2}, {2, 3, 1, 0, 2}, {3, 4, 1, 0, 3}}, 0, 0},
    {"a deliver", {0}, 2, {{1, 2}, {4, 2}}, 40, 1},
    {"a deliver of a slice", {0}, 1, {{4, 0, 1, 0, 9}}, 40, 0},
    {"a resolve", {0}, 3, {{1, 2}, {1, 3}, {5}}, 40, 2},
    {"kind 7", {0}, 2, {{6, 0, 2}, {7}}, 40, 1},
    {"kind 255", {0}, 1, {{255, 1}}, 40, 0},
    {"a mode that is given, and not 0", {0}, 2, {{2, 3, 1, 0, 13}, {2, 3, 1, 1, 13}}, 40, 1},
    {"no mode, which is not mode 0", {1, 0, 1, 0}, 1, {{2, 3, 0, 0, 13}}, 40, 0},
    {"tag 4", {1, 0, 1, 0}, 1, {{0, 0, 4, 0, 13}}, 40, 0},
    {"tag 255", {1, 0, 1, 0}, 1, {{3, 3, 255, 0, 13}}, 40, 0},
    {"by A, which is not set", {0, 0, 1, 0}, 1, {STORE_BY(2)}, 40, 0},
    {"by B, which is not set", {1, 0, 0, 0}, 1, {STORE_BY(3)}, 40, 0},
    {"by A, which holds 0 at the start", {1, 0, 0, 0}, 1, {STORE_BY(2)}, 0, 0},
    {"by B, which holds 0 at the start", {1, 255, 1, 0}, 1, {STORE_BY(3)}, 0, 0},
    {"by A, which holds 255 at the start", {1, 255, 1, 0}, 1, {STORE_BY(2)}, 40, 0},
    {"by A, which is set to 0", {0}, 2, {SET_A(0), STORE_BY(2)}, 0, 0},
    {"by B, which is set to 0", {0, 0, 1, 9}, 2, {SET_B(0), STORE_BY(3)}, 0, 0},
    {"by B, which is set to 1", {0, 0, 1, 0}, 2, {SET_B(1), STORE_BY(3)}, 40, 1},
    {"by A, and B is set to 0", {0}, 2, {SET_B(0), STORE_BY(2)}, 40, 1},
    {"by B, and A is set to 0", {0}, 2, {SET_A(0), STORE_BY(3)}, 40, 1},
    {"by A, which is set to 0 behind it", {0}, 2, {STORE_BY(2), SET_A(0)}, 40, 0},
    {"by A, which is set to 1 behind it", {1, 0, 0, 0}, 2, {STORE_BY(2), SET_A(1)}, 0, 0},
    {"by A, which is set to 255 and then to 0", {0}, 3, {SET_A(255), SET_A(0), STORE_BY(2)}, 0, 0},
    {"by A, which is set to 0 and then to 255", {0}, 3, {SET_A(0), SET_A(255), STORE_BY(2)}, 40, 2},
    {"by A twice, which is set to 0", {1, 7, 0, 0}, 3, {SET_A(0), STORE_BY(2), {1, 0, 2, 0, 5}}, 0, 0},
    {"modes loaded, and not used", {0}, 4, {SET_A(255), SET_B(1), {0, 0, 1, 0, 9, 0, 0, 10}, {2, 3, 1, 0, 13}}, 0, 0},
    {"by A, with 9 in byte 3, which a run refuses", {1, 0, 0, 0}, 1, {{2, 3, 2, 9, 13}}, 0, 0},
    {"setting A with bytes 1, 4 and 7 not 0, which a run refuses", {0}, 2, {{6, 1, 2, 0, 9, 0, 0, 1}, STORE_BY(2)}, 0, 0},
    {"setting no register, by tag 0, which a run refuses", {0}, 1, {{6, 0, 0, 255}}, 0, 0},
    {"setting no register, by tag 1, and by A", {0}, 2, {{6, 0, 1, 0}, STORE_BY(2)}, 40, 1},
    {"setting no register, by tag 255, and by A", {1, 0, 0, 0}, 2, {{6, 0, 255, 255}, STORE_BY(2)}, 0, 0},
    {"setting A with a flip", {0}, 1, {{6, 0, 2, 0, 0, 1}}, 40, 0},
    {"setting B with a shift", {0}, 1, {{6, 0, 3, 0, 0, 0, 16}}, 40, 0},
    {"X cleared with a flip, by which no station is disturbed", {0}, 1, {{0, 2, 0, 0, 0, 1, 0, 0}}, 40, 0},
    {"a shift that is none of the 37", {0}, 1, {{0, 2, 0, 0, 0, 0, 1, 0}}, 40, 0},
    {"a store with a shift", {0}, 1, {{2, 3, 1, 0, 13, 0, 128, 0}}, 40, 0},
    {"a store from memory, which a run refuses", {0}, 1, {{2, 0, 1, 0, 13}}, 0, 0},
    {"a store from memory under mode 1, which a run refuses", {0}, 1, {{2, 0, 1, 1, 13}}, 40, 0},
    {"a masked store from memory with no mode, which a run refuses", {1, 0, 1, 0}, 1, {{3, 0, 0, 0, 13}}, 40, 0},
    {"source 5, which a run refuses", {0}, 2, {{0, 5, 0, 0, 0, 0, 0, 10}, {1, 255}}, 0, 0},
    {"X with a mode and an address, which a run refuses", {0}, 1, {{0, 2, 1, 255, 13, 0, 0, 10}}, 0, 0},
    {"a choice over 4, which a run refuses", {0}, 2, {{0, 2, 0, 0, 0, 0, 0, 0x50}, {1, 2, 0, 0, 0, 0, 0, 255}}, 0, 0},
};

static void lists_in_turn(void)
{
    for (size_t k = 0; k < COUNT(lists); k++)
        for (int end = 0; end < ENDS; end++) {
            check("isolated, of a list: %s", lists[k].name);
            lend_list(lists[k].modes, lists[k].list[0], 8 * lists[k].count, end);
            ask_for(lists[k].number, lists[k].place, end);
        }
    function("lists");
}

/* ---- instructions that are drawn: those that stay, by the mode registers before them, and those that do not */

static int holds_zero(const uint8_t *mode_register) { return mode_register[0] == 1 && mode_register[1] == 0; }

/* Its access, under mode 0: given, or by a register that holds it. */
static void draw_access(uint8_t i[8], const uint8_t modes[4])
{
    const size_t r = draw() % 2;
    i[2] = draw() % 2 == 0 && holds_zero(modes + 2 * r) ? (uint8_t)(2 + r) : 1;
    i[4] = (uint8_t)draw();
}

/* One that stays, as a run takes it; a kind 6 sets its register in `modes`. */
static void draw_staying(uint8_t i[8], uint8_t modes[4])
{
    static const uint8_t kinds[] = {0, 0, 0, 0, 1, 2, 2, 3, 3, 6};
    memset(i, 0, 8);
    i[0] = kinds[draw() % COUNT(kinds)];
    if (i[0] == 6) {
        const size_t r = draw() % 2;
        i[2] = (uint8_t)(2 + r);
        i[3] = (uint8_t)(draw() % 2 * draw());
        modes[2 * r] = 1;
        modes[2 * r + 1] = i[3];
    } else if (i[0] >= 2) {
        i[1] = (uint8_t)(1 + draw() % 4);
        draw_access(i, modes);
    } else {
        i[1] = (uint8_t)(draw() % 2 * (1 + draw() % 4));
        if (i[1] == 0)
            draw_access(i, modes);
    }
    if (i[0] == 0)
        i[7] = (uint8_t)(draw() % 80);
}

static int touches(const uint8_t i[8]) { return i[0] == 2 || i[0] == 3 || (i[0] < 2 && i[1] == 0); }

/* Spoils what a run judges and this question does not: it stays. Does it set no register any more, as a kind 6 whose tag names none? */
static int spoil(uint8_t i[8])
{
    const int sets = i[0] == 6, stores = i[0] == 2 || i[0] == 3;
    if (draw() % 2 == 0)
        i[7] = (uint8_t)draw();
    if (draw() % 2 == 0 && (sets || stores || i[1] != 0))
        i[1] = (uint8_t)(sets || stores ? draw() : 1 + draw() % 255);
    if (draw() % 2 == 0 && !sets && !touches(i))
        draw_bytes(i + 2, 3);
    if (draw() % 2 == 0 && touches(i) && i[2] != 1)
        i[3] = (uint8_t)draw();
    if (draw() % 2 == 0 && sets)
        i[4] = (uint8_t)draw();
    if (draw() % 4 == 0 && sets) {
        i[2] = draw() % 2 == 0 ? (uint8_t)(draw() % 2) : (uint8_t)(4 + draw() % 252);
        return 1;
    }
    return 0;
}

/* One that breaks the condition. Where no register is such, the mode is given. */
enum { NONE, KIND, FLIP, SHIFT, GIVEN, REGISTER, UNSET, NO_MODE, FLAWS };
static const char *const flaws[FLAWS] = {"no flaw", "a kind that does not stay", "a flip", "a shift", "a mode given", "a mode of a register", "a register that is not set", "no mode"};

/* The tag of a register that is set to another mode than 0, or of one that is not set at all; 1 where there is none. */
static uint8_t draw_tag(const uint8_t modes[4], int set)
{
    const size_t start = draw() % 2;
    for (size_t k = 0; k < 2; k++) {
        const size_t r = (start + k) % 2;
        if (modes[2 * r] == set && (!set || modes[2 * r + 1] != 0))
            return (uint8_t)(2 + r);
    }
    return 1;
}

static void draw_breaking(uint8_t i[8], const uint8_t modes[4], int flaw)
{
    static const uint8_t kinds[] = {4, 5, 7, 8, 128, 255};
    uint8_t unused[4];
    do {
        memcpy(unused, modes, 4);
        draw_staying(i, unused);
    } while (flaw >= GIVEN && !touches(i));
    if (flaw == KIND)
        i[0] = kinds[draw() % COUNT(kinds)];
    else if (flaw == FLIP)
        i[5] = (uint8_t)(1 + draw() % 255);
    else if (flaw == SHIFT)
        i[6] = (uint8_t)(1 + draw() % 255);
    else if (flaw == NO_MODE)
        i[2] = draw() % 2 == 0 ? 0 : (uint8_t)(4 + draw() % 252);
    else
        i[2] = flaw == GIVEN ? 1 : draw_tag(modes, flaw == REGISTER);
    if (flaw >= GIVEN && i[2] == 1)
        i[3] = (uint8_t)(1 + draw() % 255);
}

/* Flaws that a run may take; and then one that it does. */
static int can_run(int flaw) { return flaw >= FLIP && flaw <= REGISTER; }

static void draw_breaking_run(uint8_t i[8], const uint8_t modes[4], int flaw)
{
    unsigned byte;
    do
        draw_breaking(i, modes, flaw);
    while (model_instruction(modes, i, &byte) != 0);
}

/* ---- lists that are drawn: their answer follows from how they were made, and from the model; of any bytes from the model alone */

enum { DRAWN = 12000, LONG = 300, LONGEST_DRAWN = 24 };
static uint8_t drawn[LONGEST_LIST]; /* the list in hand */

/* Draws a list of n instructions that stay, by these mode registers at its start; so many of eight are spoiled. With a flaw, the one at the place breaks the condition. Where
 * none is spoiled, a run takes the list, unless the flaw is one that it refuses; else anything stands behind the flaw. */
static void draw_list(size_t n, const uint8_t modes[4], unsigned spoiled, int flaw, size_t place)
{
    uint8_t now[4], old[4];
    memcpy(now, modes, 4);
    for (size_t k = 0; k < n; k++) {
        uint8_t *i = drawn + 8 * k;
        memcpy(old, now, 4);
        if (flaw == NONE || k != place) {
            draw_staying(i, now);
            if (draw() % 8 < spoiled && spoil(i))
                memcpy(now, old, 4);
        } else if (spoiled == 0 && can_run(flaw))
            draw_breaking_run(i, now, flaw);
        else
            draw_breaking(i, now, flaw);
    }
    if (flaw != NONE && spoiled != 0)
        draw_bytes(drawn + 8 * (place + 1), 8 * (n - place - 1));
}

static void drawn_lists(void)
{
    for (int i = 0; i < DRAWN + LONG; i++) {
        const size_t n = i < DRAWN ? draw() % (LONGEST_DRAWN + 1) : draw() % 2 == 0 ? MOST : draw() % (MOST + 1);
        const int end = i % ENDS;
        const uint8_t *modes = draw_modes();
        draw_list(n, modes, (unsigned)(i % 3), NONE, 0);
        check("isolated, of drawn list %d, with no flaw", i);
        lend_list(modes, drawn, 8 * n, end);
        ask_for(0, 0, end);
        for (int flaw = KIND; n > 0 && flaw < FLAWS; flaw++) {
            const size_t place = draw() % 4 == 0 ? n - 1 : draw() % n;
            draw_list(n, modes, (unsigned)(i % 3), flaw, place);
            check("isolated, of drawn list %d, with %s at place %zu", i, flaws[flaw], place);
            lend_list(modes, drawn, 8 * n, end);
            ask_for(40, (uint32_t)place, end);
        }
    }
    function("drawn lists");
}

/* Any bytes, of which most are such that a list goes on, and mode registers that are good or not. */
static void drawn_bytes(void)
{
    static const uint8_t often[8][4] = {{0, 1, 2, 6}, {0, 0, 2, 4}, {1, 1, 2, 3}, {0, 0, 0, 255}, {0, 9, 13, 255}, {0, 0, 0, 0}, {0, 0, 0, 0}, {0, 0x1A, 0x46, 255}};
    unsigned given[256] = {0}, later = 0;
    for (int i = 0; i < 2 * DRAWN; i++) {
        const size_t n = draw() % (LONGEST_DRAWN + 1), any = 1 + draw() % 200;
        const int end = i % ENDS;
        uint8_t modes[4];
        for (size_t b = 0; b < 8 * n; b++)
            drawn[b] = draw() % any == 0 ? (uint8_t)draw() : often[b % 8][draw() % 4];
        memcpy(modes, draw_modes(), 4);
        if (draw() % 12 == 0)
            modes[draw() % 4] = (uint8_t)draw();
        check("isolated, of drawn bytes %d", i);
        lend_list(modes, drawn, 8 * n, end);
        const uint32_t *known = ask(end);
        given[known[0] % 256]++;
        later += known[1] > 3;
    }
    check("isolated, of drawn bytes: every answer");
    if (given[0] < 1000 || given[15] < 500 || given[40] < 5000 || later < 1000)
        wrong("an answer, or a place behind the first, is hardly drawn");
    count();
    function("drawn bytes");
}

/* What a run says of lists that are isolated: it may refuse them, but for nothing that the question judges; and it gives nothing, so that no room is needed for that. */
static void run_anyway(void)
{
    static const unsigned reached[] = {0, 6, 7, 8, 9, 11, 12};
    unsigned given[256] = {0}, known = 0;
    for (int i = 0; i < DRAWN; i++) {
        const size_t n = draw() % (LONGEST_DRAWN + 1);
        const int end = i % ENDS;
        const uint8_t *modes = draw_modes();
        uint32_t expected[STARAN_RUN_NUMBERS];
        draw_list(n, modes, (unsigned)(i % 2), NONE, 0);
        check("isolated, of drawn list %d, before a run", i);
        lend_list(modes, drawn, 8 * n, end);
        ask_for(0, 0, end);
        check("run of drawn list %d, which is isolated", i);
        lend(MEMORY, STARAN_MEMORY_BYTES, end);
        lend(ITEMS, 32 * (draw() % 8 == 0 ? draw() % 4 : LONGEST_DRAWN), end);
        const model_lent l = {buffers[MEMORY].expected, buffers[MEMORY].length, buffers[REGISTERS].expected, buffers[REGISTERS].length, WHOLE(LIST), WHOLE(ITEMS),
                              buffers[OUT].expected, buffers[OUT].length};
        model_run(0, &l, expected);
        uint32_t *answer = lend_answer(STARAN_RUN_NUMBERS, end);
        staran_run_4(WHOLE(MEMORY), WHOLE(REGISTERS), WHOLE(LIST), WHOLE(ITEMS), WHOLE(OUT), answer);
        settle(answer, STARAN_RUN_NUMBERS, expected);
        given[expected[STARAN_ANSWER_NUMBER] % 256]++;
    }
    check("runs of isolated lists: their numbers");
    for (size_t k = 0; k < COUNT(reached); k++) {
        known += given[reached[k]];
        if (given[reached[k]] < 20)
            wrong("a number is hardly given");
    }
    if (known != DRAWN)
        wrong("a number is given that the question rules out");
    count();
    function("run anyway");
}

/* ---- every set of the faults 2, 3, 15 and 40: the first is answered, and 40 alone with a place; bad lengths, and good ones beside them */

static void faults(void)
{
    static const size_t not_100[] = {0, 1, 96, 99, 101, 104, 65536}, not_lists[] = {1, 7, 9, 32767, 32769, 32776, 65536}, whole[] = {0, 8, 16, 32760, 32768};
    static const uint8_t bad[][4] = {{2, 0, 0, 0}, {0, 1, 0, 0}, {0, 0, 255, 0}, {1, 7, 0, 255}, {255, 255, 255, 255}};
    static const uint8_t fit[][4] = {{0, 0, 0, 0}, {1, 255, 0, 0}, {0, 0, 1, 0}, {1, 7, 1, 255}, {1, 0, 1, 0}}, stays[8] = {2, 3, 1, 0, 13, 0, 0, 0};
    static uint8_t list[65536];
    enum { TWO = 1, THREE = 2, FIFTEEN = 4, FORTY = 8, SETS = 16 };
    const size_t ways = COUNT(not_100) * COUNT(not_lists) * COUNT(bad) * ENDS;
    for (size_t i = 0; i < SETS * ways; i++) {
        const size_t set = i / ways, r = i / ENDS % COUNT(not_100), l = i / ENDS / COUNT(not_100) % COUNT(not_lists), m = i / ENDS / COUNT(not_100) / COUNT(not_lists) % COUNT(bad);
        const size_t registers = set & TWO ? not_100[r] : 100, length = set & THREE ? not_lists[l] : whole[l % COUNT(whole)], place = length < 8 ? 0 : draw() % (length / 8);
        const int end = (int)(i % ENDS);
        if (set & FORTY && length == 0)
            continue;
        for (size_t k = 0; k < length; k++)
            list[k] = stays[k % 8];
        if (set & FORTY)
            list[8 * place] = STARAN_KIND_RESOLVE;
        check("isolated, set of faults %zu: registers %zu, mode registers %zu, list %zu, place %zu", set, registers, m, length, place);
        nothing_lent(end);
        lend_registers(set & FIFTEEN ? bad[m] : fit[m], registers, end);
        lend_bytes(LIST, list, length, end);
        if (set & (TWO | THREE | FIFTEEN))
            ask_for(set & TWO ? 2 : set & THREE ? 3 : 15, 0, end);
        else
            ask_for(set & FORTY ? 40 : 0, set & FORTY ? (uint32_t)place : 0, end);
    }
    function("faults");
}

/* ---- the lists that are built here, of every width: sums, differences, equal and less are isolated, greatest, closing and spreading are not */

static uint8_t made[LONGEST_LIST], made_items[STARAN_SPREADING_ITEMS_BYTES(32)];

static void ask_built(const char *name, uint32_t start, uint32_t n, const uint32_t *built, uint32_t number, uint32_t place)
{
    for (int end = 0; end < ENDS; end++) {
        check("isolated, of a %s list: start %u, width %u", name, (unsigned)start, (unsigned)n);
        if (built[0] != 0 || built[1] == 0)
            wrong("no list is built");
        lend_list(draw_modes(), made, built[1], end);
        ask_for(number, place, end);
    }
}

static void built_lists(void)
{
    uint32_t built[STARAN_LIST_AND_ITEMS_NUMBERS];
    uint8_t marks[STARAN_ITEM_BYTES];
    for (uint32_t n = 1; n <= 64; n++) {
        const uint32_t fields[][3] = {{0, n, 2 * n}, {256 - n, 0, 64}, {100, 0, 100}, {0, 192, 192}, {5, 5, 128}}, starts[] = {0, 97, 128 - n / 2, 256 - n};
        for (size_t k = 0; k < COUNT(fields); k++) {
            staran_sum_list(fields[k][0], fields[k][1], fields[k][2], n, made, sizeof made, built);
            ask_built("sum", fields[k][0], n, built, 0, 0);
            staran_difference_list(fields[k][0], fields[k][1], fields[k][2], n, made, sizeof made, built);
            ask_built("difference", fields[k][0], n, built, 0, 0);
        }
        for (size_t k = 0; k < COUNT(starts); k++) {
            const uint64_t number = draw() & UINT64_MAX >> (64 - n);
            staran_equal_list(starts[k], n, number, made, sizeof made, made_items, sizeof made_items, built);
            ask_built("equal", starts[k], n, built, 0, 0);
            staran_less_list(starts[k], n, number, made, sizeof made, made_items, sizeof made_items, built);
            ask_built("less", starts[k], n, built, 0, 0);
            staran_greatest_list(starts[k], n, made, sizeof made, built);
            ask_built("greatest", starts[k], n, built, 40, 2);
        }
    }
    for (uint32_t n = 1; n <= 32; n++) {
        const uint32_t fields[][2] = {{0, n}, {n, 0}, {0, 256 - n}, {256 - n, 0}, {101, 101 + n}};
        for (size_t k = 0; k < COUNT(fields); k++) {
            draw_bytes(marks, sizeof marks);
            staran_closing_list(fields[k][0], fields[k][1], n, marks, sizeof marks, made, sizeof made, made_items, sizeof made_items, built);
            ask_built("closing", fields[k][0], n, built, 40, 2 * n + 1);
            staran_spreading_list(fields[k][0], fields[k][1], n, marks, sizeof marks, made, sizeof made, made_items, sizeof made_items, built);
            ask_built("spreading", fields[k][0], n, built, 40, 3);
        }
    }
    function("built lists");
}

/* ---- what 0 promises: two runs of a list, on arrays that agree on one station, or on all but one */

enum { PAIRS = 6000, DISTURBED = 500, SPARE = 3 };

/* What a run starts from, and then what it leaves. */
typedef struct {
    uint8_t memory[STARAN_MEMORY_BYTES], registers[STARAN_REGISTERS_BYTES], items[32 * (LONGEST_DRAWN + SPARE)];
} array;
static array before, first, second;

/* Bit b of word w of a memory, by the header's words; line w of register r or of item r is bit 256 * r + w. */
static size_t bit_of_word(int w, int b) { return 8 * (size_t)(32 * (b ^ w) + b / 8) + (size_t)(b % 8); }
static int bit(const uint8_t *bytes, size_t k) { return bytes[k / 8] >> k % 8 & 1; }

static void copy_bit(uint8_t *to, const uint8_t *from, size_t k)
{
    if (bit(to, k) != bit(from, k))
        to[k / 8] ^= (uint8_t)(1 << k % 8);
}

static void draw_array(array *a, const uint8_t modes[4])
{
    draw_bytes(a->memory, sizeof a->memory);
    draw_bytes(a->registers, 96);
    draw_bytes(a->items, sizeof a->items);
    memcpy(a->registers + 96, modes, 4);
}

static void copy_station(array *to, const array *from, int w)
{
    for (int b = 0; b < 256; b++)
        copy_bit(to->memory, from->memory, bit_of_word(w, b));
    for (size_t k = (size_t)w; k < 3 * 256; k += 256)
        copy_bit(to->registers, from->registers, k);
    for (size_t k = (size_t)w; k < 8 * sizeof to->items; k += 256)
        copy_bit(to->items, from->items, k);
}

static int same_word(const array *a, const array *b, int w)
{
    for (int k = 0; k < 256; k++)
        if (bit(a->memory, bit_of_word(w, k)) != bit(b->memory, bit_of_word(w, k)))
            return 0;
    return 1;
}

/* Its bits of M, X and Y. */
static int same_bits(const array *a, const array *b, int w)
{
    for (size_t k = (size_t)w; k < 3 * 256; k += 256)
        if (bit(a->registers, k) != bit(b->registers, k))
            return 0;
    return 1;
}

static int same_station(const array *a, const array *b, int w) { return same_word(a, b, w) && same_bits(a, b, w); }

static uint32_t taken_by(size_t n)
{
    uint32_t taken = 0;
    for (size_t k = 0; k < n; k++)
        taken += drawn[8 * k + 1] == STARAN_SOURCE_OUTSIDE;
    return taken;
}

/* Runs the list in hand, of n instructions, with the items that it takes or some more. It is done, and the out buffer stays; what it leaves elsewhere is judged behind it. */
static void run_on(array *a, size_t n, int end)
{
    const uint32_t done[STARAN_RUN_NUMBERS] = {[STARAN_ANSWER_STEPS] = (uint32_t)n, [STARAN_ANSWER_TAKEN] = taken_by(n)};
    nothing_lent(end);
    lend_bytes(MEMORY, a->memory, sizeof a->memory, end);
    lend_bytes(REGISTERS, a->registers, sizeof a->registers, end);
    lend_bytes(LIST, drawn, 8 * n, end);
    lend_bytes(ITEMS, a->items, 32 * (done[STARAN_ANSWER_TAKEN] + draw() % (1 + SPARE)), end);
    lend(OUT, 40, end);
    uint32_t *answer = lend_answer(STARAN_RUN_NUMBERS, end);
    staran_run_4(WHOLE(MEMORY), WHOLE(REGISTERS), WHOLE(LIST), WHOLE(ITEMS), WHOLE(OUT), answer);
    memcpy(buffers[MEMORY].expected, buffers[MEMORY].bytes, buffers[MEMORY].length);
    memcpy(buffers[REGISTERS].expected, buffers[REGISTERS].bytes, buffers[REGISTERS].length);
    settle(answer, STARAN_RUN_NUMBERS, done);
    memcpy(a->memory, buffers[MEMORY].bytes, sizeof a->memory);
    memcpy(a->registers, buffers[REGISTERS].bytes, sizeof a->registers);
}

/* Two runs of a list that is drawn with this flaw or none, behind the question about it: three checks. The second array agrees with the first on the station alone, or,
 * where `others` is set, on all but the station. */
static size_t run_twice(int flaw, int station, int others, int turn)
{
    const size_t n = 1 + draw() % LONGEST_DRAWN, place = draw() % n;
    const int end = turn % ENDS;
    const uint8_t *modes = draw_modes();
    draw_list(n, modes, 0, flaw, place);
    check("isolated, of list %d that is run, with %s", turn, flaws[flaw]);
    lend_list(modes, drawn, 8 * n, end);
    ask_for(flaw == NONE ? 0 : 40, flaw == NONE ? 0 : (uint32_t)place, end);
    draw_array(&before, modes);
    draw_array(&second, modes);
    for (int w = 0; w < WORDS; w++)
        if ((w == station) != others)
            copy_station(&second, &before, w);
    first = before;
    check("run of list %d, with %s", turn, flaws[flaw]);
    run_on(&first, n, end);
    check("run of list %d, with %s, where station %d alone %s", turn, flaws[flaw], station, others ? "differs" : "agrees");
    run_on(&second, n, end);
    return n;
}

static int draw_station(void) { return draw() % 8 == 0 ? (int)(draw() % 2 * 255) : (int)(draw() % WORDS); }

/* What moved in the pairs that agree on one station: where nothing does, they show nothing. */
static struct {
    unsigned pairs, station_moved, word_moved, modes_moved, took, others_differ, other_bits_differ;
} seen;

static void see(size_t n, int station)
{
    unsigned words = 0, bits = 0;
    for (int w = 0; w < WORDS; w++) {
        words += !same_word(&first, &second, w);
        bits += !same_bits(&first, &second, w);
    }
    seen.pairs++;
    seen.station_moved += !same_station(&before, &first, station);
    seen.word_moved += !same_word(&before, &first, station);
    seen.modes_moved += memcmp(before.registers + 96, first.registers + 96, 4) != 0;
    seen.took += taken_by(n) > 0;
    seen.others_differ += words == WORDS - 1;
    seen.other_bits_differ += bits > WORDS / 4;
}

static void promise(void)
{
    for (int i = 0; i < PAIRS; i++) {
        const int station = draw_station(), others = i % 4 == 3;
        const size_t n = run_twice(NONE, station, others, i);
        check("both runs of list %d, where station %d alone %s", i, station, others ? "differs" : "agrees");
        for (int w = 0; w < WORDS; w++)
            if ((w == station) != others && !same_station(&first, &second, w)) {
                wrong("a station is disturbed by another");
                break;
            }
        if (memcmp(first.registers + 96, second.registers + 96, 4) != 0)
            wrong("the mode registers differ");
        count();
        if (!others)
            see(n, station);
    }
    check("the pairs of runs: something moves");
    if (seen.station_moved < seen.pairs / 4 * 3 || seen.word_moved < seen.pairs / 4 || seen.modes_moved < seen.pairs / 4 || seen.took < seen.pairs / 2)
        wrong("hardly a station is changed, or a mode register, or hardly an item taken");
    if (seen.others_differ != seen.pairs || seen.other_bits_differ < seen.pairs / 4 * 3)
        wrong("the other stations are hardly different");
    count();
    function("promise");
}

/* The same pairs, of lists with one flaw, which are answered with 40: with each flaw that a run may take, some disturb the station, and it is seen. */
static void disturbed(void)
{
    for (int flaw = NONE; flaw < FLAWS; flaw++) {
        unsigned times = 0;
        if (!can_run(flaw))
            continue;
        for (int i = 0; i < DISTURBED; i++) {
            const int station = draw_station();
            run_twice(flaw, station, 0, i);
            times += !same_station(&first, &second, station);
        }
        check("lists with %s disturb a station", flaws[flaw]);
        if (times < DISTURBED / 20)
            wrong("hardly one of them does");
        count();
    }
    function("disturbed");
}

/* ---- lists that disturb: of two memories one is all zeros and one has one bit of another word set, M is all ones, and behind their runs bit 1 of word 0 is 0 and 1 */

#define STORE_Y {STARAN_STORE(STARAN_SOURCE_Y, STARAN_MODE_SLICE, 1, STARAN_NO_FLIP)}
#define STORE_M {STARAN_STORE(STARAN_SOURCE_M, STARAN_MODE_SLICE, 1, STARAN_NO_FLIP)}
#define TAKE_0 {0, 0, 1, 0, 0, 0, 0, 0x1A} /* Y takes bit 0 */
static const struct {
    const char *name;
    uint8_t modes[4];
    size_t count;
    uint8_t list[3][8];
    int word; /* whose bit 0 is set in the second memory */
    uint32_t place;
} disturbing[] = {
    {"a flip in logic", {0}, 2, {{0, 0, 1, 0, 0, 1, 0, 0x1A}, {2, 3, 1, 0, 1, 0, 0, 0}}, 1, 0},
    {"a flip of all lines in logic", {0}, 2, {{0, 0, 1, 0, 0, 255, 0, 0x1A}, STORE_Y}, 255, 0},
    {"a flip in set M", {0}, 2, {{1, 0, 1, 0, 0, 2, 0, 0}, STORE_M}, 2, 0},
    {"a flip in a store", {0}, 2, {TAKE_0, {2, 3, 1, 0, 1, 1, 0, 0}}, 1, 1},
    {"a flip in a masked store", {0}, 2, {TAKE_0, {3, 3, 1, 0, 1, 128, 0, 0}}, 128, 1},
    {"a shift of all lines in logic", {0}, 2, {{0, 0, 1, 0, 0, 0, STARAN_SHIFT(8, 0), 0x1A}, STORE_Y}, 255, 0},
    {"a shift of pairs in logic", {0}, 2, {{0, 0, 1, 0, 0, 0, STARAN_SHIFT(1, 0), 0x1A}, STORE_Y}, 1, 0},
    {"a shift in set M", {0}, 2, {{1, 0, 1, 0, 0, 0, STARAN_SHIFT(8, 7), 0}, STORE_M}, 128, 0},
    {"Y taken from a word", {0}, 2, {{0, 0, 1, 255, 1, 0, 0, 0x1A}, STORE_Y}, 1, 0},
    {"Y taken under mode 1", {0}, 2, {{0, 0, 1, 1, 1, 0, 0, 0x1A}, STORE_Y}, 1, 0},
    {"M taken from a word", {0}, 2, {{1, 0, 1, 255, 9, 0, 0, 0}, STORE_M}, 9, 0},
    {"Y stored to a word", {0}, 2, {TAKE_0, {2, 3, 1, 255, 0, 0, 0, 0}}, 1, 1},
    {"Y stored to a word, masked", {0}, 2, {TAKE_0, {3, 3, 1, 255, 0, 0, 0, 0}}, 1, 1},
    {"Y taken from a word, by A as it starts", {1, 255, 0, 0}, 2, {{0, 0, 2, 0, 1, 0, 0, 0x1A}, STORE_Y}, 1, 0},
    {"Y taken from a word, by B as it starts", {1, 0, 1, 255}, 2, {{0, 0, 3, 0, 1, 0, 0, 0x1A}, STORE_Y}, 1, 0},
    {"Y taken from a word, by A as it is set", {0}, 3, {SET_A(255), {0, 0, 2, 0, 1, 0, 0, 0x1A}, STORE_Y}, 1, 1},
    {"Y stored to a word, by B as it is set", {1, 0, 1, 0}, 3, {TAKE_0, SET_B(255), {2, 3, 3, 0, 0, 0, 0, 0}}, 1, 2},
};

/* Both runs of the list in hand. */
static void run_both(const char *name, const char *how, const uint8_t modes[4], int word, size_t n, int end)
{
    memset(&first, 0, sizeof first);
    memset(first.registers, 255, 32);
    memcpy(first.registers + 96, modes, 4);
    second = first;
    second.memory[bit_of_word(word, 0) / 8] |= (uint8_t)(1 << bit_of_word(word, 0) % 8);
    check("run of a list, %s: %s, on zeros", how, name);
    run_on(&first, n, end);
    check("run of a list, %s: %s, with bit 0 of word %d", how, name, word);
    run_on(&second, n, end);
}

/* Each as it stands; and then with its flips, shifts and modes put to 0, by which station 0 is left alone. */
static void disturbing_pairs(void)
{
    for (size_t i = 0; i < ENDS * COUNT(disturbing); i++) {
        const size_t k = i / ENDS, n = disturbing[k].count;
        const int end = (int)(i % ENDS);
        const char *name = disturbing[k].name;
        uint8_t modes[4];
        memcpy(modes, disturbing[k].modes, 4);
        memcpy(drawn, disturbing[k].list, 8 * n);
        check("isolated, of a list that disturbs: %s", name);
        lend_list(modes, drawn, 8 * n, end);
        ask_for(40, disturbing[k].place, end);
        run_both(name, "which disturbs", modes, disturbing[k].word, n, end);
        check("a list that disturbs: %s", name);
        if (bit(first.memory, bit_of_word(0, 1)) != 0 || bit(second.memory, bit_of_word(0, 1)) != 1)
            wrong("bit 1 of word 0 is not 0 and 1");
        count();
        for (size_t b = 0; b < n; b++)
            drawn[8 * b + 3] = drawn[8 * b + 5] = drawn[8 * b + 6] = 0;
        modes[1] = modes[3] = 0;
        check("isolated, of a list mended: %s", name);
        lend_list(modes, drawn, 8 * n, end);
        ask_for(0, 0, end);
        run_both(name, "mended", modes, disturbing[k].word, n, end);
        check("a list mended: %s", name);
        if (!same_station(&first, &second, 0))
            wrong("station 0 is disturbed");
        count();
    }
    function("disturbing pairs");
}

int isolated(void)
{
    every_byte();
    lists_in_turn();
    drawn_lists();
    drawn_bytes();
    run_anyway();
    faults();
    built_lists();
    promise();
    disturbed();
    disturbing_pairs();
    return counted();
}
