/* An example of the library for C: a crew's list is shown, and run only if none of its stores reaches more words than the crew may write.
 *
 * Each word of the array is one station. The north crew corrects single stations, so that the office allows it stores of one word: before its list is run
 * the office has it shown, which is what goes into the log, and asks how many words each instruction reaches, with the registers that the run starts with.
 * The first list stores two words, one of them by mode register A, and is run. In the second the crew forgot to set A to 255: the office left 0 there, and
 * the same store would write one bit of all 256 stations. The text does not know the registers, and says `?`; the counts do. It is not run. */
#include "staran.h"

#include <stdio.h>
#include <string.h>

enum { MOST_INSTRUCTIONS = 8, MOST_BYTES = MOST_INSTRUCTIONS * STARAN_INSTRUCTION_BYTES, ALLOWED = 1 };

static uint8_t memory[STARAN_MEMORY_BYTES], registers[STARAN_REGISTERS_BYTES];

/* Prints the text of a list. Gives back whether it could not be made. */
static int show(const uint8_t *list, size_t length)
{
    uint8_t text[STARAN_TEXT_BYTES(MOST_BYTES)];
    uint32_t answer[STARAN_SHOW_NUMBERS];
    staran_show(list, length, text, sizeof text, answer);
    printf("%-28s number %u, %u characters\n", "shown:", (unsigned)answer[0], (unsigned)answer[1]);
    fwrite(text, 1, answer[1], stdout);
    return answer[0] != STARAN_DONE;
}

/* The first instruction that reaches more words than are allowed, or -1; -2 where the question is refused. */
static int reaches_too_far(const uint8_t *list, size_t length)
{
    uint8_t reached[STARAN_REACH_BYTES(MOST_BYTES)];
    uint32_t answer[STARAN_REACH_NUMBERS];
    staran_reach(registers, sizeof registers, list, length, reached, sizeof reached, answer);
    printf("%-28s number %u, %u bytes\n", "what it reaches:", (unsigned)answer[0], (unsigned)answer[1]);
    if (answer[0] != STARAN_DONE)
        return -2;
    for (int k = 0; k < (int)answer[1] / 2; k++) {
        const int words = reached[2 * k] + 256 * reached[2 * k + 1];
        if (words > ALLOWED) {
            printf("    instruction %d reaches %d words, and %d is allowed: the list is not run\n", k, words, ALLOWED);
            return k;
        }
    }
    return -1;
}

/* Shows a list, and runs it if no instruction reaches too far. Gives back whether that is not the expected one, or something was refused. */
static int run_if_near(const char *what, const uint8_t *list, size_t length, int expected)
{
    uint8_t item[STARAN_ITEM_BYTES];
    uint32_t answer[STARAN_RUN_NUMBERS];
    memset(item, 0x5A, sizeof item);
    printf("%s\n", what);
    if (show(list, length) || reaches_too_far(list, length) != expected)
        return 1;
    if (expected >= 0)
        return 0;
    staran_run_4(memory, sizeof memory, registers, sizeof registers, list, length, item, sizeof item, item, 0, answer);
    printf("%-28s number %u, %u steps, %u items taken\n", "run:", (unsigned)answer[STARAN_ANSWER_NUMBER], (unsigned)answer[STARAN_ANSWER_STEPS],
           (unsigned)answer[STARAN_ANSWER_TAKEN]);
    return answer[STARAN_ANSWER_NUMBER] != STARAN_DONE;
}

int main(void)
{
    const uint8_t list[] = {STARAN_SET_MODE(STARAN_TAG_A, STARAN_MODE_WORD), STARAN_STORE_BY(STARAN_SOURCE_OUTSIDE, STARAN_TAG_A, 17, STARAN_NO_FLIP),
                            STARAN_LOGIC(STARAN_MODE_WORD, 17, STARAN_NO_FLIP, STARAN_SHIFT(8, 5), STARAN_CHOICE_X, STARAN_FUNCTION_ITEM),
                            STARAN_STORE(STARAN_SOURCE_X, STARAN_MODE_WORD, 18, STARAN_NO_FLIP)};
    int wrong = 0, written = 0;

    if (staran_version() != STARAN_VERSION) {
        fputs("the library is of another version than the header\n", stderr);
        return 2;
    }
    wrong += run_if_near("the north crew's list", list, sizeof list, -1);
    for (size_t i = 0; i < sizeof memory; i++)
        for (int bit = 0; bit < 8; bit++)
            written += memory[i] >> bit & 1;
    printf("%-28s %d, in two words\n\n", "bits that are 1:", written);

    /* The office puts A back to 0, and the list comes without its first instruction. */
    registers[96] = 1;
    registers[97] = STARAN_MODE_SLICE;
    wrong += run_if_near("the same without set a", list + STARAN_INSTRUCTION_BYTES, sizeof list - STARAN_INSTRUCTION_BYTES, 0);
    return wrong + (written != 256) != 0;
}
