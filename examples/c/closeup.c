/* An example of the library for C: the stations below 152 m closed up at the top of the array, and spread back.
 *
 * Each word of the array is one station, its height in millimetres in field A, of 32 bits. A search marks in Y the stations below 152 m. They lie scattered:
 * a closing by these marks puts their heights, in the stations' order, into field S of words 0, 1, 2 and so on, and zero into S of all others, so that the
 * office reads its sheet from the first words. Then field A is used for other work, by which every height is lost, and a spreading by the same marks takes
 * the heights back to their stations. At last marks of a wrong length are tried, and a field S that is A itself, and both are refused. docs/LISTS.md has the
 * lists. */
#include "staran.h"

#include <stdio.h>
#include <string.h>

enum { STATIONS = 256, WIDTH = 32, A = 0, S = 32, LIMIT = 152000 };

static uint8_t memory[STARAN_MEMORY_BYTES], registers[STARAN_REGISTERS_BYTES], out[STATIONS * STARAN_ITEM_BYTES];

/* The office's numbers: from 150 m on, in some order. */
static uint32_t height_of(uint32_t station) { return 150000 + station * 6967 % 100003; }

static uint32_t run(const char *what, const uint8_t *list, size_t list_length, const uint8_t *items, size_t items_length)
{
    uint32_t answer[STARAN_RUN_NUMBERS];
    staran_run_4(memory, sizeof memory, registers, sizeof registers, list, list_length, items, items_length, out, sizeof out, answer);
    printf("%-34s number %u, %u steps, %u items taken, %u given\n", what, (unsigned)answer[STARAN_ANSWER_NUMBER], (unsigned)answer[STARAN_ANSWER_STEPS],
           (unsigned)answer[STARAN_ANSWER_TAKEN], (unsigned)answer[STARAN_ANSWER_GIVEN]);
    return answer[STARAN_ANSWER_NUMBER];
}

static void say_built(const char *what, const uint32_t built[STARAN_LIST_AND_ITEMS_NUMBERS])
{
    printf("%-34s number %u, %u bytes, %u bytes of items\n", what, (unsigned)built[0], (unsigned)built[1], (unsigned)built[2]);
}

/* The stations are stored by words, one instruction and one item each, and read in the same way. */
static uint32_t store_stations(void)
{
    uint8_t list[STATIONS * STARAN_INSTRUCTION_BYTES], items[STATIONS * STARAN_ITEM_BYTES] = {0};
    for (uint32_t w = 0; w < STATIONS; w++) {
        const uint8_t store[] = {STARAN_STORE(STARAN_SOURCE_OUTSIDE, STARAN_MODE_WORD, w, STARAN_NO_FLIP)};
        memcpy(list + sizeof store * w, store, sizeof store);
        for (int i = 0; i < 4; i++)
            items[STARAN_ITEM_BYTES * w + A / 8 + i] = (uint8_t)(height_of(w) >> 8 * i);
    }
    return run("stations stored by words:", list, sizeof list, items, sizeof items);
}

static uint32_t deliver_words(void)
{
    uint8_t list[STATIONS * STARAN_INSTRUCTION_BYTES];
    for (uint32_t w = 0; w < STATIONS; w++) {
        const uint8_t deliver[] = {STARAN_DELIVER(STARAN_MODE_WORD, w, STARAN_NO_FLIP, STARAN_NO_SHIFT)};
        memcpy(list + sizeof deliver * w, deliver, sizeof deliver);
    }
    return run("words delivered:", list, sizeof list, list, 0);
}

/* A field of a word that was delivered. */
static uint32_t field(uint32_t word, uint32_t start)
{
    const uint8_t *from = out + STARAN_ITEM_BYTES * word + start / 8;
    return from[0] + 256u * from[1] + 65536u * from[2] + 16777216u * from[3];
}

/* Other work: here X, which is 0, goes to every bit of A of every word. */
static uint32_t overwrite_heights(void)
{
    uint8_t list[(1 + WIDTH) * STARAN_INSTRUCTION_BYTES] = {
        STARAN_LOGIC_FROM(STARAN_SOURCE_X, STARAN_NO_FLIP, STARAN_NO_SHIFT, STARAN_CHOICE_X, STARAN_FUNCTION_CLEAR)};
    for (uint32_t k = 0; k < WIDTH; k++) {
        const uint8_t store[] = {STARAN_STORE(STARAN_SOURCE_X, STARAN_MODE_SLICE, A + k, STARAN_NO_FLIP)};
        memcpy(list + sizeof store * (1 + k), store, sizeof store);
    }
    return run("every height overwritten:", list, sizeof list, list, 0);
}

/* The sheet: the first words' S, beside the marked stations in their order. Prints it, and counts what is wrong. */
static int wrong_sheet(const uint8_t *marks)
{
    uint32_t word = 0;
    int wrong = 0;
    puts("the sheet, S of the first words:");
    for (uint32_t station = 0; station < STATIONS; station++)
        if (marks[station / 8] >> station % 8 & 1) {
            printf("    word %u: %u mm, of station %u\n", (unsigned)word, (unsigned)field(word, S), (unsigned)station);
            wrong += field(word, S) != height_of(station);
            word++;
        }
    for (; word < STATIONS; word++)
        wrong += field(word, S) != 0;
    return wrong;
}

int main(void)
{
    uint8_t less[STARAN_SEARCH_LIST_BYTES(WIDTH)], less_items[STARAN_SEARCH_ITEMS_BYTES(WIDTH)], marks[STARAN_ITEM_BYTES];
    uint8_t closing[STARAN_CLOSING_LIST_BYTES(WIDTH)], closing_items[STARAN_CLOSING_ITEMS_BYTES];
    uint8_t spreading[STARAN_SPREADING_LIST_BYTES(WIDTH)], spreading_items[STARAN_SPREADING_ITEMS_BYTES(WIDTH)];
    uint32_t built[STARAN_LIST_AND_ITEMS_NUMBERS];
    int wrong = 0, back = 0;

    if (staran_version() != STARAN_VERSION) {
        fputs("the library is of another version than the header\n", stderr);
        return 2;
    }
    wrong += store_stations() != STARAN_DONE;

    /* Y, the third of the registers, has the marks; later runs write over it. */
    staran_less_list(A, WIDTH, LIMIT, less, sizeof less, less_items, sizeof less_items, built);
    wrong += built[0] != STARAN_DONE || run("stations below 152 m:", less, built[1], less_items, built[2]) != STARAN_DONE;
    memcpy(marks, registers + 64, sizeof marks);

    staran_closing_list(A, S, WIDTH, marks, sizeof marks, closing, sizeof closing, closing_items, sizeof closing_items, built);
    say_built("list for closing up built:", built);
    wrong += built[0] != STARAN_DONE || run("heights closed up:", closing, built[1], closing_items, built[2]) != STARAN_DONE;
    wrong += deliver_words() != STARAN_DONE;
    wrong += wrong_sheet(marks);

    wrong += overwrite_heights() != STARAN_DONE;
    staran_spreading_list(A, S, WIDTH, marks, sizeof marks, spreading, sizeof spreading, spreading_items, sizeof spreading_items, built);
    say_built("list for spreading built:", built);
    wrong += built[0] != STARAN_DONE || run("heights spread back:", spreading, built[1], spreading_items, built[2]) != STARAN_DONE;
    wrong += deliver_words() != STARAN_DONE;
    for (uint32_t w = 0; w < STATIONS; w++) {
        back += field(w, A) == height_of(w);
        wrong += field(w, A) != (marks[w / 8] >> w % 8 & 1 ? height_of(w) : 0);
    }
    printf("%-34s %d stations; the heights of the %d others stay lost\n", "their old heights have:", back, STATIONS - back);

    staran_closing_list(A, S, WIDTH, marks, sizeof marks - 1, closing, sizeof closing, closing_items, sizeof closing_items, built);
    printf("%-34s number %u: %s\n", "marks of 31 bytes:", (unsigned)built[0], staran_meaning(built[0]));
    wrong += built[0] != STARAN_REFUSED_MARKS_LENGTH;
    staran_closing_list(A, A, WIDTH, marks, sizeof marks, closing, sizeof closing, closing_items, sizeof closing_items, built);
    printf("%-34s number %u: %s\n", "S that is A itself:", (unsigned)built[0], staran_meaning(built[0]));
    return wrong + (built[0] != STARAN_REFUSED_FIELDS_CROSS) != 0;
}
