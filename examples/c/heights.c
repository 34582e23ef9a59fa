/* An example of the library for C: a new datum for 256 stations, all at once.
 *
 * Each word of the array is one station: its height in millimetres in field A, the shift of its datum in field B, and room for the new height in
 * field S. The sum list adds A and B into S in every word at the same time. At last a store without a mode is tried, and refused. */
#include "staran.h"

#include <stdio.h>
#include <string.h>

enum { STATIONS = 256, WIDTH = 32, A = 0, B = 32, S = 64 };

/* What a caller lends. The library keeps nothing of its own, so all of the array's state is here: all zeros are an empty array. */
static uint8_t memory[STARAN_MEMORY_BYTES], registers[STARAN_REGISTERS_BYTES];
static uint8_t items[STATIONS * STARAN_ITEM_BYTES], out[STATIONS * STARAN_ITEM_BYTES];

/* The office's numbers. Up to station 127 the old datum was too low; from 128 on it was too high, and the shift is negative. */
static uint32_t height_of(uint32_t station) { return 312450 + 137 * station % 4001; }
static uint32_t shift_of(uint32_t station) { return station < 128 ? 347 : (uint32_t)-214; }

/* A field of 32 bits that starts at a multiple of 8 is four bytes of the word, the low byte first: bit k of a word is bit k mod 8 of byte k div 8. */
static void put_field(uint8_t *word, int start, uint32_t value)
{
    for (int i = 0; i < 4; i++)
        word[start / 8 + i] = (uint8_t)(value >> 8 * i);
}

static uint32_t get_field(const uint8_t *word, int start)
{
    uint32_t value = 0;
    for (int i = 0; i < 4; i++)
        value |= (uint32_t)word[start / 8 + i] << 8 * i;
    return value;
}

/* Runs a list with the buffers above, and says what came back. */
static uint32_t run(const char *what, const uint8_t *list, size_t list_length)
{
    uint32_t answer[STARAN_RUN_NUMBERS];
    staran_run_4(memory, sizeof memory, registers, sizeof registers, list, list_length, items, sizeof items, out, sizeof out, answer);
    printf("%-28s number %u, place %u, byte %u, %u steps, %u items taken, %u given\n", what, (unsigned)answer[STARAN_ANSWER_NUMBER],
           (unsigned)answer[STARAN_ANSWER_PLACE], (unsigned)answer[STARAN_ANSWER_BYTE], (unsigned)answer[STARAN_ANSWER_STEPS],
           (unsigned)answer[STARAN_ANSWER_TAKEN], (unsigned)answer[STARAN_ANSWER_GIVEN]);
    return answer[STARAN_ANSWER_NUMBER];
}

/* One instruction for each word: the mode is "by word", and the address says which. */
static uint32_t run_by_words(const char *what, uint8_t kind, uint8_t source)
{
    uint8_t list[STATIONS * STARAN_INSTRUCTION_BYTES];
    for (int w = 0; w < STATIONS; w++) {
        const uint8_t instruction[] = {STARAN_INSTRUCTION(kind, source, 1, STARAN_MODE_WORD, w, STARAN_NO_FLIP, STARAN_NO_SHIFT, 0)};
        memcpy(list + STARAN_INSTRUCTION_BYTES * w, instruction, sizeof instruction);
    }
    return run(what, list, sizeof list);
}

/* The words come back in the out buffer. Prints some; every one is compared. */
static int show_stations(void)
{
    int wrong = 0;
    printf("\nstation  height mm  shift mm  new height mm\n");
    for (uint32_t w = 0; w < STATIONS; w++) {
        const uint8_t *word = out + STARAN_ITEM_BYTES * w;
        if (w < 3 || w == 127 || w == 128 || w == 255)
            printf("%7u %10u %9d %14u\n", (unsigned)w, (unsigned)get_field(word, A), (int)(int32_t)get_field(word, B), (unsigned)get_field(word, S));
        wrong += get_field(word, A) != height_of(w) || get_field(word, B) != shift_of(w) || get_field(word, S) != height_of(w) + shift_of(w);
    }
    printf("stations whose new height is not height plus shift: %d\n\n", wrong);
    return wrong;
}

int main(void)
{
    uint8_t list[STARAN_SUM_LIST_BYTES(WIDTH)];
    uint32_t built[STARAN_LIST_NUMBERS];
    int wrong = 0;

    /* A library of another version may read an instruction otherwise, deliver other bytes or give other numbers. */
    if (staran_version() != STARAN_VERSION) {
        fputs("the library is of another version than the header\n", stderr);
        return 2;
    }

    /* The stations go in by words. The lent bytes of the memory are scrambled, so that a slice of bits and a word are equally near: an instruction knows
     * where each bit belongs, and the program does not have to. */
    for (uint32_t w = 0; w < STATIONS; w++) {
        put_field(items + STARAN_ITEM_BYTES * w, A, height_of(w));
        put_field(items + STARAN_ITEM_BYTES * w, B, shift_of(w));
    }
    wrong += run_by_words("stations stored by words:", STARAN_KIND_STORE, STARAN_SOURCE_OUTSIDE) != STARAN_DONE;

    /* The list depends on where the fields are and not on what is in them: one list serves any heights. */
    staran_sum_list(A, B, S, WIDTH, list, sizeof list, built);
    printf("%-28s number %u, %u bytes\n", "sum list built:", (unsigned)built[0], (unsigned)built[1]);
    wrong += built[0] != STARAN_DONE;
    wrong += run("sum list run:", list, built[1]) != STARAN_DONE;

    wrong += run_by_words("stations delivered by words:", STARAN_KIND_DELIVER, STARAN_SOURCE_MEMORY) != STARAN_DONE;
    wrong += show_stations();

    /* Store Y by word 13, with the mode written and its tag forgotten. Tag 0 does not mean mode 0: the instruction is refused at byte 2, its tag, and
     * nothing moves. */
    const uint8_t no_mode[] = {STARAN_INSTRUCTION(STARAN_KIND_STORE, STARAN_SOURCE_Y, 0, STARAN_MODE_WORD, 13, 0, 0, 0)};
    uint8_t before[sizeof memory];
    memcpy(before, memory, sizeof memory);
    wrong += run("a store without a mode:", no_mode, sizeof no_mode) != STARAN_REFUSED_NO_MODE;
    printf("%-28s %s\n", "what that number means:", staran_meaning(STARAN_REFUSED_NO_MODE));
    int moved = memcmp(before, memory, sizeof memory) != 0;
    printf("the memory moved: %s\n", moved ? "yes" : "no");
    return wrong + moved != 0;
}
