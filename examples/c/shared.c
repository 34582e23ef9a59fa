/* An example of the library for C: two crews share an array, and a crew's list is run there only if by it no station can disturb another.
 *
 * Each word of the array is one station: its height in millimetres in field A, the shift of its datum in field B, and room for the new height in field S.
 * Stations 0 to 127 are the coast crew's, the others the hill crew's. Before a crew's list is run it is asked whether it is isolated. The coast crew's sum
 * list is: it adds in every word, also in the hill crew's, but what becomes of a station depends on that station alone. It is run, and again after the hill
 * crew has measured anew, and the coast crew's new heights are the same both times. The hill crew's list for the highest station is not isolated: which
 * stations it marks depends on the others, the coast crew's too. The answer names the first instruction that lets it, and the list is not run. */
#include "staran.h"

#include <stdio.h>
#include <string.h>

enum { STATIONS = 256, COAST = 128, WIDTH = 32, A = 0, B = 32, S = 64 };

static uint8_t memory[STARAN_MEMORY_BYTES], registers[STARAN_REGISTERS_BYTES], items[STATIONS * STARAN_ITEM_BYTES], out[STATIONS * STARAN_ITEM_BYTES];

/* The crews' numbers: the hill crew has measured twice. */
static uint32_t height_of(uint32_t station, uint32_t time) { return station < COAST ? 1200 + 41 * station : 312450 + 137 * station % 4001 + 9 * time; }
static uint32_t shift_of(uint32_t station) { return station < COAST ? 347 : 58; }

static void put_field(uint8_t *word, int start, uint32_t value)
{
    for (int i = 0; i < 4; i++)
        word[start / 8 + i] = (uint8_t)(value >> 8 * i);
}

static uint32_t get_field(const uint8_t *word, int start)
{
    const uint8_t *from = word + start / 8;
    return from[0] + 256u * from[1] + 65536u * from[2] + 16777216u * from[3];
}

/* Runs a list with the buffers above, and says what came back. Gives back whether it was refused. */
static int run(const char *what, const uint8_t *list, size_t list_length)
{
    uint32_t answer[STARAN_RUN_NUMBERS];
    staran_run_4(memory, sizeof memory, registers, sizeof registers, list, list_length, items, sizeof items, out, sizeof out, answer);
    printf("%-34s number %u, %u steps, %u items taken, %u given\n", what, (unsigned)answer[STARAN_ANSWER_NUMBER], (unsigned)answer[STARAN_ANSWER_STEPS],
           (unsigned)answer[STARAN_ANSWER_TAKEN], (unsigned)answer[STARAN_ANSWER_GIVEN]);
    return answer[STARAN_ANSWER_NUMBER] != STARAN_DONE;
}

/* The office's own lists, which store and deliver all stations by words. */
static int run_by_words(const char *what, uint8_t kind, uint8_t source)
{
    uint8_t list[STATIONS * STARAN_INSTRUCTION_BYTES];
    for (uint32_t w = 0; w < STATIONS; w++) {
        const uint8_t instruction[] = {STARAN_INSTRUCTION(kind, source, 1, STARAN_MODE_WORD, w, STARAN_NO_FLIP, STARAN_NO_SHIFT, 0)};
        memcpy(list + sizeof instruction * w, instruction, sizeof instruction);
    }
    return run(what, list, sizeof list);
}

/* A crew's list: asked about with the registers that its run starts with, and run only if the answer is 0. Else the place names the instruction, which is
 * printed. Gives back whether the answer is not the expected one, or the run was refused. */
static int run_if_isolated(const char *what, const uint8_t *list, size_t list_length, uint32_t expected)
{
    uint32_t answer[STARAN_ISOLATED_NUMBERS];
    staran_isolated(list, list_length, registers, sizeof registers, answer);
    printf("%-34s number %u, place %u\n", what, (unsigned)answer[0], (unsigned)answer[1]);
    if (answer[0] != expected)
        return 1;
    if (answer[0] == STARAN_DONE)
        return run("    it is run:", list, list_length);
    printf("    %s\n    it is not run; instruction %u is", staran_meaning(answer[0]), (unsigned)answer[1]);
    for (size_t i = 0; i < STARAN_INSTRUCTION_BYTES; i++)
        printf(" %02X", (unsigned)list[STARAN_INSTRUCTION_BYTES * answer[1] + i]);
    putchar('\n');
    return 0;
}

int main(void)
{
    uint8_t sum[STARAN_SUM_LIST_BYTES(WIDTH)], greatest[STARAN_GREATEST_LIST_BYTES(WIDTH)];
    uint32_t built[STARAN_LIST_NUMBERS], first[STATIONS] = {0};
    int wrong = 0, coast = 0, hill = 0;

    if (staran_version() != STARAN_VERSION) {
        fputs("the library is of another version than the header\n", stderr);
        return 2;
    }

    staran_sum_list(A, B, S, WIDTH, sum, sizeof sum, built);
    wrong += built[0] != STARAN_DONE;
    for (uint32_t time = 1; time <= 2; time++) {
        for (uint32_t w = 0; w < STATIONS; w++) {
            put_field(items + STARAN_ITEM_BYTES * w, A, height_of(w, time));
            put_field(items + STARAN_ITEM_BYTES * w, B, shift_of(w));
        }
        wrong += run_by_words("stations stored by words:", STARAN_KIND_STORE, STARAN_SOURCE_OUTSIDE);
        wrong += run_if_isolated("is the coast crew's list isolated?", sum, built[1], STARAN_DONE);
        wrong += run_by_words("stations delivered by words:", STARAN_KIND_DELIVER, STARAN_SOURCE_MEMORY);
        for (uint32_t w = 0; w < STATIONS; w++) {
            const uint32_t height = get_field(out + STARAN_ITEM_BYTES * w, S);
            wrong += height != height_of(w, time) + shift_of(w);
            if (time == 1)
                first[w] = height;
            else if (w < COAST)
                coast += height != first[w];
            else
                hill += height != first[w];
        }
    }
    printf("%-34s %d of the coast crew's stations, %d of the hill crew's\n", "another new height than before:", coast, hill);
    wrong += coast != 0 || hill != STATIONS - COAST;

    staran_greatest_list(S, WIDTH, greatest, sizeof greatest, built);
    wrong += built[0] != STARAN_DONE;
    wrong += run_if_isolated("is the hill crew's list isolated?", greatest, built[1], STARAN_REFUSED_NOT_ISOLATED);
    return wrong != 0;
}
