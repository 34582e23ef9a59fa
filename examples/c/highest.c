/* An example of the library for C: the highest of the stations below 200 m, by two searches.
 *
 * Each word of the array is one station, its height in millimetres in a field of 32 bits. The list for less marks in Y the stations below 200 m, all at
 * once; the list for greatest keeps the highest of them. The marks are delivered, and the resolver says which station is the smallest of them, and how
 * many there are: two stations are equally high, so that both are marked. No station is below 150 m, and the resolver says none. At last a number is tried
 * that the field cannot hold, and refused. docs/LISTS.md has the lists. */
#include "staran.h"

#include <stdio.h>
#include <string.h>

enum { STATIONS = 256, WIDTH = 32, HEIGHT = 0, LIMIT = 200000, LOWEST = 150000 };

static uint8_t memory[STARAN_MEMORY_BYTES], registers[STARAN_REGISTERS_BYTES], out[2 * STARAN_ITEM_BYTES];
static const uint8_t *const resolved = out + STARAN_ITEM_BYTES;

/* The office's numbers: from 150 m on, in some order; stations 122 and 141 are both at 199.950 m. */
static uint32_t height_of(uint32_t station) { return station == 141 ? 199950 : LOWEST + station * 6967 % 100003; }

static uint32_t run(const char *what, const uint8_t *list, size_t list_length, const uint8_t *items, size_t items_length)
{
    uint32_t answer[STARAN_RUN_NUMBERS];
    staran_run_4(memory, sizeof memory, registers, sizeof registers, list, list_length, items, items_length, out, sizeof out, answer);
    printf("%-34s number %u, %u steps, %u items taken, %u given\n", what, (unsigned)answer[STARAN_ANSWER_NUMBER], (unsigned)answer[STARAN_ANSWER_STEPS],
           (unsigned)answer[STARAN_ANSWER_TAKEN], (unsigned)answer[STARAN_ANSWER_GIVEN]);
    return answer[STARAN_ANSWER_NUMBER];
}

/* The stations are stored by words, one instruction and one item each. */
static uint32_t store_stations(void)
{
    uint8_t list[STATIONS * STARAN_INSTRUCTION_BYTES], items[STATIONS * STARAN_ITEM_BYTES] = {0};
    for (uint32_t w = 0; w < STATIONS; w++) {
        const uint8_t store[] = {STARAN_STORE(STARAN_SOURCE_OUTSIDE, STARAN_MODE_WORD, w, STARAN_NO_FLIP)};
        memcpy(list + sizeof store * w, store, sizeof store);
        for (int i = 0; i < 4; i++)
            items[STARAN_ITEM_BYTES * w + HEIGHT / 8 + i] = (uint8_t)(height_of(w) >> 8 * i);
    }
    return run("stations stored by words:", list, sizeof list, items, sizeof items);
}

/* Y is delivered: bit w of the first item is 1 for each station w that is marked. The second is what the resolver says of them. */
static int marked(uint32_t station) { return out[station / 8] >> station % 8 & 1; }

static uint32_t deliver_marks(void)
{
    const uint8_t list[] = {STARAN_DELIVER_FROM(STARAN_SOURCE_Y, STARAN_NO_FLIP, STARAN_NO_SHIFT), STARAN_RESOLVE};
    return run("marks delivered, and resolved:", list, sizeof list, list, 0);
}

/* Compares the marks with what a loop over the stations finds, and the resolver's numbers with the marks; prints how many there are. */
static int wrong_marks(uint32_t lowest, uint32_t limit)
{
    int marks = 0, wrong = 0, smallest = STARAN_NO_RESPONDER;
    for (uint32_t w = 0; w < STATIONS; w++) {
        if (marks == 0 && marked(w))
            smallest = (int)w;
        marks += marked(w);
        wrong += marked(w) != (height_of(w) >= lowest && height_of(w) < limit);
    }
    printf("%-34s %d stations, %d of them wrongly or not at all\n", "marked:", marks, wrong);
    printf("%-34s %d stations, the smallest is %d\n", "the resolver says:", STARAN_RESPONDER_COUNT(resolved), STARAN_SMALLEST_RESPONDER(resolved));
    return wrong + (STARAN_RESPONDER_COUNT(resolved) != marks) + (STARAN_SMALLEST_RESPONDER(resolved) != smallest) + (STARAN_ACTIVITY(resolved) != (marks > 0));
}

int main(void)
{
    uint8_t less[STARAN_SEARCH_LIST_BYTES(WIDTH)], items[STARAN_SEARCH_ITEMS_BYTES(WIDTH)], greatest[STARAN_GREATEST_LIST_BYTES(WIDTH)];
    uint32_t two[STARAN_LIST_AND_ITEMS_NUMBERS], one[STARAN_LIST_NUMBERS], highest = 0;
    int wrong = 0;

    if (staran_version() != STARAN_VERSION) {
        fputs("the library is of another version than the header\n", stderr);
        return 2;
    }
    wrong += store_stations() != STARAN_DONE;

    /* Both lists depend on the field alone; the number is in the items. */
    staran_less_list(HEIGHT, WIDTH, LIMIT, less, sizeof less, items, sizeof items, two);
    printf("%-34s number %u, %u bytes, %u bytes of items\n", "list for less than 200 m built:", (unsigned)two[0], (unsigned)two[1], (unsigned)two[2]);
    staran_greatest_list(HEIGHT, WIDTH, greatest, sizeof greatest, one);
    printf("%-34s number %u, %u bytes\n", "list for greatest built:", (unsigned)one[0], (unsigned)one[1]);
    wrong += two[0] != STARAN_DONE || one[0] != STARAN_DONE;

    wrong += run("stations below 200 m:", less, two[1], items, two[2]) != STARAN_DONE;
    wrong += deliver_marks() != STARAN_DONE;
    wrong += wrong_marks(0, LIMIT);

    wrong += run("the highest of them:", greatest, one[1], items, 0) != STARAN_DONE;
    wrong += deliver_marks() != STARAN_DONE;
    for (uint32_t w = 0; w < STATIONS; w++)
        if (height_of(w) < LIMIT && height_of(w) > highest)
            highest = height_of(w);
    wrong += wrong_marks(highest, LIMIT);
    for (uint32_t w = 0; w < STATIONS; w++)
        if (marked(w))
            printf("station %3u, %u mm\n", (unsigned)w, (unsigned)height_of(w));

    /* The same list with other items: none is below the lowest. */
    staran_less_list(HEIGHT, WIDTH, LOWEST, less, sizeof less, items, sizeof items, two);
    wrong += two[0] != STARAN_DONE || run("stations below 150 m:", less, two[1], items, two[2]) != STARAN_DONE;
    wrong += deliver_marks() != STARAN_DONE;
    wrong += wrong_marks(0, LOWEST);

    /* 2^17 mm is less than 200 m: a field of 17 bits cannot hold the limit. */
    staran_less_list(HEIGHT, 17, LIMIT, less, sizeof less, items, sizeof items, two);
    printf("%-34s number %u: %s\n", "200 m in a field of 17 bits:", (unsigned)two[0], staran_meaning(two[0]));
    return wrong + (two[0] != STARAN_REFUSED_NUMBER_TOO_LARGE) != 0;
}
