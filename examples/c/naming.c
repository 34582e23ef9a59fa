/* An example of the library for C: the office writes its list as a text, with fields by name, and has it made and run.
 *
 * Each word of the array is one station: its height in millimetres, the change of its datum, and room for the new height. The text names these fields once; it
 * adds them in all stations, searches for those that are now low, and puts the word of station 17, which was measured anew, in its place. Above that store stands
 * `reach at most 1 word`: so the second text, where `slice` was written for `word`, is not made. It would have stored one bit of all 256 stations. */
#include "staran.h"

#include <stdio.h>
#include <string.h>

enum { STATIONS = 256, HEIGHT = 0, CHANGE = 4, NEW = 8, LOW = 312500 }; /* where the fields begin, in bytes of a word; and a height */

static const char correct[] = "field height 0 32 ; in millimetres\n"
                              "field change 32 32\n"
                              "field new 64 32\n"
                              "sum height change into new\n"
                              "less new 312500\n"
                              "resolve ; which station is the first that is low, and how many are\n"
                              "reach at most 1 word\n"
                              "store word 17 from outside\n"
                              "deliver word 17\n"
                              "deliver word 18\n";
static const char mistaken[] = "reach at most 1 word\n"
                               "    store slice 17 from outside\n";

static uint8_t memory[STARAN_MEMORY_BYTES], registers[STARAN_REGISTERS_BYTES], list[4096], items[STATIONS * STARAN_ITEM_BYTES], out[3 * STARAN_ITEM_BYTES];

static uint32_t height_of(uint32_t station) { return 312450 + 137 * station % 4001; }
static uint32_t change_of(uint32_t station) { return station < 128 ? 347 : (uint32_t)-214; }

static void put_field(uint8_t *word, int byte, uint32_t value)
{
    for (int i = 0; i < 4; i++)
        word[byte + i] = (uint8_t)(value >> 8 * i);
}

static uint32_t get_field(const uint8_t *word, int byte)
{
    uint32_t value = 0;
    for (int i = 0; i < 4; i++)
        value |= (uint32_t)word[byte + i] << 8 * i;
    return value;
}

/* Makes the list of a text, and runs it: with the items that the text brings, and behind them the office's own. Gives back the number of what was refused. */
static uint32_t make_and_run(const char *what, const char *text, const uint8_t *own, size_t own_length)
{
    uint32_t made[STARAN_MAKE_NUMBERS], answer[STARAN_RUN_NUMBERS];
    staran_make((const uint8_t *)text, strlen(text), list, sizeof list, items, sizeof items - own_length, made);
    printf("%-28s number %u, line %u, column %u, %u bytes of list, %u of items\n", what, (unsigned)made[0], (unsigned)made[1], (unsigned)made[2], (unsigned)made[3],
           (unsigned)made[4]);
    if (made[0] != STARAN_DONE) {
        printf("    %s\n", staran_meaning(made[0]));
        return made[0];
    }
    memcpy(items + made[4], own, own_length);
    staran_run_4(memory, sizeof memory, registers, sizeof registers, list, made[3], items, made[4] + own_length, out, sizeof out, answer);
    printf("%-28s number %u, %u steps, %u items taken, %u given\n", "run:", (unsigned)answer[STARAN_ANSWER_NUMBER], (unsigned)answer[STARAN_ANSWER_STEPS],
           (unsigned)answer[STARAN_ANSWER_TAKEN], (unsigned)answer[STARAN_ANSWER_GIVEN]);
    return answer[STARAN_ANSWER_NUMBER];
}

int main(void)
{
    static uint8_t words[STATIONS * STARAN_ITEM_BYTES];
    char text[STATIONS * 32];
    int wrong = 0, low = 0, at = 0;

    if (staran_version() != STARAN_VERSION) {
        fputs("the library is of another version than the header\n", stderr);
        return 2;
    }
    /* The stations go in by a text too: a line for each. */
    for (uint32_t w = 0; w < STATIONS; w++) {
        put_field(words + STARAN_ITEM_BYTES * w, HEIGHT, height_of(w));
        put_field(words + STARAN_ITEM_BYTES * w, CHANGE, change_of(w));
        at += snprintf(text + at, sizeof text - (size_t)at, "store word %u from outside\n", (unsigned)w);
        low += height_of(w) + change_of(w) < LOW;
    }
    wrong += make_and_run("256 stations:", text, words, sizeof words) != STARAN_DONE;

    uint8_t anew[STARAN_ITEM_BYTES] = {0};
    put_field(anew, HEIGHT, 314001);
    put_field(anew, CHANGE, change_of(17));
    put_field(anew, NEW, 314001 + change_of(17));
    printf("\n%s", correct);
    wrong += make_and_run("made of this text:", correct, anew, sizeof anew) != STARAN_DONE;
    printf("%-28s %d, the first is %d\n", "stations below 312,500 mm:", STARAN_RESPONDER_COUNT(out), STARAN_SMALLEST_RESPONDER(out));
    for (int w = 17; w <= 18; w++) {
        const uint8_t *word = out + STARAN_ITEM_BYTES * (w - 16);
        printf("station %d%-18s %u mm, new %u mm\n", w, ":", (unsigned)get_field(word, HEIGHT), (unsigned)get_field(word, NEW));
        wrong += get_field(word, NEW) != get_field(word, HEIGHT) + change_of((uint32_t)w);
    }
    wrong += STARAN_RESPONDER_COUNT(out) != low;

    printf("\n%s", mistaken);
    wrong += make_and_run("made of this text:", mistaken, anew, sizeof anew) != STARAN_REFUSED_TEXT_REACH;
    return wrong != 0;
}
