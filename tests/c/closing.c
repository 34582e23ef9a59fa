/* Builds lists that close up a field of the marked words and that spread it back, runs what was built, and holds the memory to what loops over the words make of it. */
#include "closing.h"

#include "checks.h"
#include "draw.h"
#include "lent.h"
#include "model.h"
#include "staran.h"

#include <string.h>

enum { WORDS = 256, WIDEST = 32, TRIED = 1500 };

static uint8_t words[STARAN_MEMORY_BYTES]; /* the memory's, in a picture's order */
static uint8_t marks[32];

/* ---- what is closed up: any words and registers, and marks of every kind */

enum { NONE, ALL, FIRST_WORD, LAST_WORD, EVEN, ODD, UPPER_HALF, ONE, ALL_BUT_ONE, IN_A_ROW, FEW, MANY, KINDS };

static int is_marked(int which, int w, const uint64_t drawn[2])
{
    const int first = (int)(drawn[0] % WORDS), last = (int)(drawn[1] % WORDS);
    switch (which) {
    case NONE:
        return 0;
    case ALL:
        return 1;
    case FIRST_WORD:
        return w == 0;
    case LAST_WORD:
        return w == WORDS - 1;
    case EVEN:
        return w % 2 == 0;
    case ODD:
        return w % 2 == 1;
    case UPPER_HALF:
        return w >= WORDS / 2;
    case ONE:
        return w == first;
    case ALL_BUT_ONE:
        return w != first;
    case IN_A_ROW:
        return first < last ? first <= w && w < last : w < last || first <= w;
    case FEW:
        return draw() % 8 < drawn[0] % 4;
    default:
        return draw() % 8 >= drawn[0] % 4;
    }
}

static void draw_marks(int which)
{
    const uint64_t drawn[2] = {draw(), draw()};
    memset(marks, 0, sizeof marks);
    for (int w = 0; w < WORDS; w++)
        if (is_marked(which, w, drawn))
            mark(marks, w);
}

/* Lends the words, and any registers: the mode registers are set or not. */
static void lend_words(int end)
{
    uint8_t memory[STARAN_MEMORY_BYTES], registers[STARAN_REGISTERS_BYTES];
    model_memory(words, memory);
    draw_bytes(registers, sizeof registers);
    memcpy(registers + 96, draw_modes(), 4);
    lend_bytes(MEMORY, memory, sizeof memory, end);
    lend_bytes(REGISTERS, registers, sizeof registers, end);
}

static void lend_array(int end)
{
    nothing_lent(end);
    draw_bytes(words, sizeof words);
    lend_words(end);
    lend(OUT, 40, end);
}

/* ---- a closing or a spreading, two checks: the list is built, in buffers of the very length or longer, and the bytes that were counted are run */

static const char *const names[] = {"closing", "spreading"};

static void move(int spreads, uint32_t a, uint32_t s, uint32_t n, int end)
{
    const uint32_t built[3] = {0, (uint32_t)model_moving_list(spreads, n), (uint32_t)model_moving_items(spreads, n)};
    const uint32_t done[STARAN_RUN_NUMBERS] = {[STARAN_ANSWER_STEPS] = built[1] / 8, [STARAN_ANSWER_TAKEN] = built[2] / 32};
    uint32_t *answer = lend_answer(3, end);
    lend(LIST, built[1] + draw() % 2, end);
    lend(ITEMS, built[2] + 32 * (draw() % 3), end);
    lend_bytes(FILE_BYTES, marks, sizeof marks, end);
    check("%s_list: A %u, S %u, width %u", names[spreads], (unsigned)a, (unsigned)s, (unsigned)n);
    model_moving(spreads, a, s, n, marks, sizeof marks, buffers[LIST].expected, buffers[LIST].length, buffers[ITEMS].expected, buffers[ITEMS].length);
    (spreads ? staran_spreading_list : staran_closing_list)(a, s, n, WHOLE(FILE_BYTES), WHOLE(LIST), WHOLE(ITEMS), answer);
    settle(answer, 3, built);
    check("run of %s_list: A %u, S %u, width %u", names[spreads], (unsigned)a, (unsigned)s, (unsigned)n);
    model_moved(spreads, a, s, n, marks, words);
    model_memory(words, buffers[MEMORY].expected);
    answer = lend_answer(STARAN_RUN_NUMBERS, end);
    staran_run_4(WHOLE(MEMORY), WHOLE(REGISTERS), buffers[LIST].bytes, built[1], WHOLE(ITEMS), WHOLE(OUT), answer);
    memcpy(buffers[REGISTERS].expected, buffers[REGISTERS].bytes, 96); /* M, X and Y are not promised, and the mode registers are as they were */
    settle(answer, STARAN_RUN_NUMBERS, done);
}

static void close_once(uint32_t a, uint32_t s, uint32_t n, int end)
{
    lend_array(end);
    move(0, a, s, n, end);
}

static void spread_once(uint32_t a, uint32_t s, uint32_t n, int end)
{
    lend_array(end);
    move(1, a, s, n, end);
}

static int bit(const uint8_t *from, int w, uint32_t b) { return from[32 * w + (int)b / 8] >> b % 8 & 1; }

/* Everything but S is overwritten between a closing and a spreading by the same marks: each marked word has its old A again, in the memory itself. */
static void there_and_back(uint32_t a, uint32_t s, uint32_t n, int end)
{
    uint8_t old[STARAN_MEMORY_BYTES], others[STARAN_MEMORY_BYTES], after[STARAN_MEMORY_BYTES + STARAN_PICTURE_REGISTERS_BYTES];
    int same = 1;
    lend_array(end);
    memcpy(old, words, sizeof old);
    move(0, a, s, n, end);
    draw_bytes(others, sizeof others);
    for (int w = 0; w < WORDS; w++)
        for (uint32_t b = 0; b < WORDS; b++)
            if ((b < s || b >= s + n) && bit(words, w, b) != bit(others, w, b))
                words[32 * w + (int)b / 8] ^= (uint8_t)(1 << b % 8);
    lend_words(end);
    move(1, a, s, n, end);
    check("closing, then spreading: A %u, S %u, width %u", (unsigned)a, (unsigned)s, (unsigned)n);
    model_picture(STARAN_CONTENT_PICTURE, buffers[MEMORY].bytes, buffers[REGISTERS].bytes, after);
    for (int w = 0; w < WORDS; w++)
        for (uint32_t k = 0; k < n; k++)
            same &= bit(after, w, a + k) == bit(marked(marks, w) ? old : others, w, a + k);
    if (!same)
        wrong("a marked word has not its old A, or another has not its own");
    count();
}

/* ---- over every width with marks of each kind; then over fields and marks that are drawn */

static void over_fields(const char *name, void (*once)(uint32_t, uint32_t, uint32_t, int))
{
    for (uint32_t n = 1; n <= WIDEST; n++) {
        const uint32_t fields[][2] = {{0, n}, {n, 0}, {0, 256 - n}, {256 - n, 0}, {101, 101 + n}, {256 - n, 256 - 2 * n}};
        for (int k = 0; k < KINDS; k++) {
            const uint32_t *field = fields[(n + (uint32_t)(k / 2)) % COUNT(fields)];
            draw_marks(k);
            once(field[0], field[1], n, (int)(n + (uint32_t)k) % ENDS);
        }
    }
    for (int i = 0; i < TRIED; i++) {
        const uint32_t n = 1 + (uint32_t)(draw() % WIDEST), low = (uint32_t)(draw() % (257 - 2 * n)), high = low + n + (uint32_t)(draw() % (257 - 2 * n - low));
        const int turned = (int)(draw() % 2);
        draw_marks((int)(draw() % KINDS));
        once(turned ? high : low, turned ? low : high, n, i % ENDS);
    }
    function(name);
}

int closing(void)
{
    over_fields("closing, run", close_once);
    over_fields("spreading, run", spread_once);
    over_fields("there and back", there_and_back);
    return counted();
}
