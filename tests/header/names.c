/* Holds the header's names to bytes and numbers that stand here as they stand in document 01, in document 02 (Four, the resolved item; Six, the offending byte; Seven, the
 * mode registers; Eight, pictures with them; Fourteen, isolation), of the searches, the closing and the spreading in docs/LISTS.md, and of texts in docs/TEXT.md, from C and from
 * C++: tests/c/run builds and runs it. Says each name that does not hold, then every number with its meaning, for tests/c/run to compare with docs/numbers.tsv. */
#include "staran.h"

#include <stddef.h>
#include <stdio.h>
#include <string.h>

static uint8_t memory[STARAN_MEMORY_BYTES], registers[STARAN_REGISTERS_BYTES], out[64];
static int wrong;

static void hold(const char *what, int holds)
{
    if (!holds) {
        printf("wrong: %s\n", what);
        wrong = 1;
    }
}

/* Bytes made by macros, and the same in hexadecimal digits. */
static void bytes(const char *what, const uint8_t *made, size_t length, const char *digits)
{
    char text[200];
    for (size_t i = 0; i < length; i++)
        snprintf(text + 2 * i, 3, "%02X", made[i]);
    hold(what, strcmp(text, digits) == 0);
}

/* The number and the byte that a run of one instruction gives. */
static void refused(const char *what, uint32_t number, uint32_t byte, const uint8_t *instruction)
{
    uint32_t answer[STARAN_RUN_NUMBERS];
    staran_run_4(memory, sizeof memory, registers, sizeof registers, instruction, STARAN_INSTRUCTION_BYTES, out, 0, out + 32, 0, answer);
    hold(what, answer[STARAN_ANSWER_NUMBER] == number && answer[STARAN_ANSWER_PLACE] == 0 && answer[STARAN_ANSWER_BYTE] == byte &&
                   answer[STARAN_ANSWER_STEPS] == 0 && answer[STARAN_ANSWER_TAKEN] == 0 && answer[STARAN_ANSWER_GIVEN] == 0);
}

static void instructions(void)
{
    const uint8_t sum[] = {STARAN_LOGIC_FROM(STARAN_SOURCE_X, STARAN_NO_FLIP, STARAN_NO_SHIFT, STARAN_CHOICE_BOTH, STARAN_FUNCTION_CLEAR),
                           STARAN_LOGIC(STARAN_MODE_SLICE, 0, STARAN_NO_FLIP, STARAN_NO_SHIFT, STARAN_CHOICE_X_WHERE_Y_AND_Y, STARAN_FUNCTION_XOR),
                           STARAN_LOGIC(STARAN_MODE_SLICE, 1, STARAN_NO_FLIP, STARAN_NO_SHIFT, STARAN_CHOICE_X_WHERE_Y_AND_Y, STARAN_FUNCTION_XOR),
                           STARAN_STORE(STARAN_SOURCE_Y, STARAN_MODE_SLICE, 2, STARAN_NO_FLIP),
                           STARAN_LOGIC_FROM(STARAN_SOURCE_X, STARAN_NO_FLIP, STARAN_NO_SHIFT, STARAN_CHOICE_X_WHERE_Y, STARAN_FUNCTION_NOT_OLD),
                           STARAN_LOGIC_FROM(STARAN_SOURCE_X, STARAN_NO_FLIP, STARAN_NO_SHIFT, STARAN_CHOICE_BOTH, STARAN_FUNCTION_XOR)};
    const uint8_t printed[] = {STARAN_LOGIC_FROM(STARAN_SOURCE_X, 0, 0, STARAN_CHOICE_Y, STARAN_FUNCTION_SET), STARAN_RESOLVE};
    const uint8_t others[] = {STARAN_SET_M(7, 45, 90, STARAN_SHIFT(8, 3)), STARAN_SET_M_FROM(STARAN_SOURCE_M, 1, STARAN_SHIFT(3, 0)),
                              STARAN_MASKED_STORE(STARAN_SOURCE_OUTSIDE, STARAN_MODE_WORD, 13, 5), STARAN_DELIVER(STARAN_MODE_WORD, 13, 0, 0),
                              STARAN_DELIVER_FROM(STARAN_SOURCE_OUTSIDE, 255, STARAN_SHIFT(8, 7)),
                              STARAN_LOGIC(0, 1, 2, 0, STARAN_CHOICE_X, STARAN_FUNCTION_ITEM)};
    uint8_t built[STARAN_SUM_LIST_BYTES(1)];
    uint32_t answer[STARAN_LIST_NUMBERS];
    staran_sum_list(0, 1, 2, 1, built, sizeof built, answer);
    hold("a sum list by macros is the one built", sizeof sum == sizeof built && memcmp(sum, built, sizeof sum) == 0);
    bytes("its fourth instruction", sum + 24, 8, "0203010002000000");
    bytes("document 01's printed list", printed, sizeof printed, "000200000000001F0500000000000000");
    bytes("set M from memory", others, 8, "010001072D5A8300");
    bytes("set M from M", others + 8, 8, "0101000000013000");
    bytes("masked store", others + 16, 8, "030401FF0D050000");
    bytes("deliver", others + 24, 8, "040001FF0D000000");
    bytes("deliver from outside", others + 32, 8, "0404000000FF8700");
    bytes("the item into X", others + 40, 8, "000001000102000A");
}

/* The searches for the number 1 in a field of one bit, and for the greatest there, by macros and built. */
static void searches(void)
{
    const uint8_t equal[] = {STARAN_LOGIC_FROM(STARAN_SOURCE_X, STARAN_NO_FLIP, STARAN_NO_SHIFT, STARAN_CHOICE_X, STARAN_FUNCTION_SET),
                             STARAN_LOGIC_FROM(STARAN_SOURCE_OUTSIDE, STARAN_NO_FLIP, STARAN_NO_SHIFT, STARAN_CHOICE_Y, STARAN_FUNCTION_ITEM),
                             STARAN_LOGIC(STARAN_MODE_SLICE, 9, STARAN_NO_FLIP, STARAN_NO_SHIFT, STARAN_CHOICE_Y, STARAN_FUNCTION_XOR),
                             STARAN_LOGIC_FROM(STARAN_SOURCE_X, STARAN_NO_FLIP, STARAN_NO_SHIFT, STARAN_CHOICE_X_WHERE_Y, STARAN_FUNCTION_CLEAR),
                             STARAN_LOGIC_FROM(STARAN_SOURCE_X, STARAN_NO_FLIP, STARAN_NO_SHIFT, STARAN_CHOICE_Y, STARAN_FUNCTION_ITEM)};
    const uint8_t less[] = {STARAN_LOGIC_FROM(STARAN_SOURCE_X, STARAN_NO_FLIP, STARAN_NO_SHIFT, STARAN_CHOICE_X, STARAN_FUNCTION_CLEAR),
                            STARAN_LOGIC_FROM(STARAN_SOURCE_OUTSIDE, STARAN_NO_FLIP, STARAN_NO_SHIFT, STARAN_CHOICE_Y, STARAN_FUNCTION_ITEM),
                            STARAN_LOGIC(STARAN_MODE_SLICE, 9, STARAN_NO_FLIP, STARAN_NO_SHIFT, STARAN_CHOICE_Y, STARAN_FUNCTION_XOR),
                            STARAN_LOGIC(STARAN_MODE_SLICE, 9, STARAN_NO_FLIP, STARAN_NO_SHIFT, STARAN_CHOICE_X_WHERE_Y, STARAN_FUNCTION_NOT_ITEM),
                            STARAN_LOGIC_FROM(STARAN_SOURCE_X, STARAN_NO_FLIP, STARAN_NO_SHIFT, STARAN_CHOICE_Y, STARAN_FUNCTION_ITEM)};
#define OR_FLIPPED(flip) STARAN_LOGIC_FROM(STARAN_SOURCE_X, flip, STARAN_NO_SHIFT, STARAN_CHOICE_X, STARAN_FUNCTION_OR)
    const uint8_t greatest[] = {STARAN_LOGIC_FROM(STARAN_SOURCE_X, STARAN_NO_FLIP, STARAN_NO_SHIFT, STARAN_CHOICE_X, STARAN_FUNCTION_CLEAR),
                                STARAN_LOGIC(STARAN_MODE_SLICE, 9, STARAN_NO_FLIP, STARAN_NO_SHIFT, STARAN_CHOICE_X_WHERE_Y, STARAN_FUNCTION_ITEM),
                                OR_FLIPPED(1), OR_FLIPPED(2), OR_FLIPPED(4), OR_FLIPPED(8), OR_FLIPPED(16), OR_FLIPPED(32), OR_FLIPPED(64), OR_FLIPPED(128),
                                STARAN_LOGIC(STARAN_MODE_SLICE, 9, STARAN_NO_FLIP, STARAN_NO_SHIFT, STARAN_CHOICE_X, STARAN_FUNCTION_WITHOUT),
                                STARAN_LOGIC_FROM(STARAN_SOURCE_X, STARAN_NO_FLIP, STARAN_NO_SHIFT, STARAN_CHOICE_BOTH, STARAN_FUNCTION_WITHOUT)};
#undef OR_FLIPPED
    uint8_t built[STARAN_GREATEST_LIST_BYTES(1)], items[STARAN_SEARCH_ITEMS_BYTES(1)];
    uint32_t answer[STARAN_LIST_AND_ITEMS_NUMBERS];
    staran_equal_list(9, 1, 1, built, STARAN_SEARCH_LIST_BYTES(1), items, sizeof items, answer);
    hold("an equal list by macros is the one built", answer[1] == sizeof equal && memcmp(equal, built, sizeof equal) == 0);
    hold("its items' length", answer[2] == sizeof items && sizeof items == 32);
    bytes("its third instruction", equal + 16, 8, "0000010009000016");
    staran_less_list(9, 1, 1, built, STARAN_SEARCH_LIST_BYTES(1), items, sizeof items, answer);
    hold("a less list by macros is the one built", answer[1] == sizeof less && memcmp(less, built, sizeof less) == 0);
    bytes("its fourth instruction", less + 24, 8, "0000010009000035");
    staran_greatest_list(9, 1, built, sizeof built, answer);
    hold("a greatest list by macros is the one built", answer[1] == sizeof greatest && memcmp(greatest, built, sizeof greatest) == 0);
    bytes("its tenth instruction", greatest + 72, 8, "000200000080000E");
    bytes("its last instruction", greatest + 88, 8, "0002000000000024");
    staran_equal_list(9, 1, 2, built, sizeof built, items, sizeof items, answer);
    hold("number too large", answer[0] == STARAN_REFUSED_NUMBER_TOO_LARGE && STARAN_REFUSED_NUMBER_TOO_LARGE == 34);
    hold("the longest searches", STARAN_SEARCH_LIST_BYTES(64) == 1552 && STARAN_SEARCH_ITEMS_BYTES(64) == 2048 && STARAN_GREATEST_LIST_BYTES(64) == 5640);
    hold("the numbers of the answers", STARAN_RUN_NUMBERS == 6 && STARAN_DISK_NUMBERS == 3 && STARAN_LIST_NUMBERS == 2 &&
                                           STARAN_LIST_AND_ITEMS_NUMBERS == 3 && STARAN_ISOLATED_NUMBERS == 2 && STARAN_REACH_NUMBERS == 2 &&
                                           STARAN_SHOW_NUMBERS == 2 && STARAN_MAKE_NUMBERS == 5 && STARAN_PASS_NUMBERS == 1);
}

/* The closing and the spreading of one bit, from bit 3 to bit 9 and back, by macros and built; words 2 and 3 are marked, which go to words 0 and 1, by 2 each. */
static void closings(void)
{
#define CLOSE_ROUND(t) \
    STARAN_SET_M_FROM(STARAN_SOURCE_OUTSIDE, STARAN_NO_FLIP, STARAN_NO_SHIFT), \
        STARAN_LOGIC(STARAN_MODE_SLICE, 9, 255, STARAN_SHIFT(8, t), STARAN_CHOICE_X, STARAN_FUNCTION_ITEM), STARAN_MASKED_STORE(STARAN_SOURCE_X, STARAN_MODE_SLICE, 9, 255)
    const uint8_t closing[] = {STARAN_LOGIC(STARAN_MODE_SLICE, 3, STARAN_NO_FLIP, STARAN_NO_SHIFT, STARAN_CHOICE_X, STARAN_FUNCTION_ITEM),
                               STARAN_STORE(STARAN_SOURCE_X, STARAN_MODE_SLICE, 9, STARAN_NO_FLIP),
                               CLOSE_ROUND(0), CLOSE_ROUND(1), CLOSE_ROUND(2), CLOSE_ROUND(3), CLOSE_ROUND(4), CLOSE_ROUND(5), CLOSE_ROUND(6), CLOSE_ROUND(7),
                               STARAN_SET_M_FROM(STARAN_SOURCE_OUTSIDE, STARAN_NO_FLIP, STARAN_NO_SHIFT),
                               STARAN_LOGIC_FROM(STARAN_SOURCE_X, STARAN_NO_FLIP, STARAN_NO_SHIFT, STARAN_CHOICE_X, STARAN_FUNCTION_CLEAR),
                               STARAN_MASKED_STORE(STARAN_SOURCE_X, STARAN_MODE_SLICE, 9, STARAN_NO_FLIP)};
#define SPREAD_ROUND(t) \
    STARAN_LOGIC_FROM(STARAN_SOURCE_OUTSIDE, STARAN_NO_FLIP, STARAN_NO_SHIFT, STARAN_CHOICE_Y, STARAN_FUNCTION_ITEM), \
        STARAN_LOGIC_FROM(STARAN_SOURCE_X, STARAN_NO_FLIP, STARAN_SHIFT(8, t), STARAN_CHOICE_X_WHERE_Y, STARAN_FUNCTION_ITEM)
    const uint8_t spreading[] = {STARAN_SET_M_FROM(STARAN_SOURCE_OUTSIDE, STARAN_NO_FLIP, STARAN_NO_SHIFT),
                                 STARAN_LOGIC(STARAN_MODE_SLICE, 9, STARAN_NO_FLIP, STARAN_NO_SHIFT, STARAN_CHOICE_X, STARAN_FUNCTION_ITEM),
                                 SPREAD_ROUND(7), SPREAD_ROUND(6), SPREAD_ROUND(5), SPREAD_ROUND(4), SPREAD_ROUND(3), SPREAD_ROUND(2), SPREAD_ROUND(1), SPREAD_ROUND(0),
                                 STARAN_MASKED_STORE(STARAN_SOURCE_X, STARAN_MODE_SLICE, 3, STARAN_NO_FLIP)};
#undef CLOSE_ROUND
#undef SPREAD_ROUND
    const uint8_t marks[STARAN_ITEM_BYTES] = {0x0C};
    uint8_t built[STARAN_CLOSING_LIST_BYTES(1)], items[STARAN_CLOSING_ITEMS_BYTES], expected[STARAN_CLOSING_ITEMS_BYTES] = {0};
    uint32_t answer[STARAN_LIST_AND_ITEMS_NUMBERS];
    staran_closing_list(3, 9, 1, marks, sizeof marks, built, sizeof built, items, sizeof items, answer);
    expected[32 * 1] = 0x03;
    memset(expected + 32 * 8, 255, 32);
    expected[32 * 8] = 0xFC;
    hold("a closing list by macros is the one built", answer[0] == STARAN_DONE && answer[1] == sizeof closing && memcmp(closing, built, sizeof closing) == 0);
    hold("its items: at words 0 and 1 in the round of weight 2, and those from word 2 on", answer[2] == sizeof items && memcmp(expected, items, sizeof items) == 0);
    bytes("its fifth instruction", closing + 32, 8, "0302010009FF0000");
    bytes("its seventh instruction", closing + 48, 8, "0000010009FF810A");
    staran_spreading_list(3, 9, 1, marks, sizeof marks, built, sizeof built, items, sizeof items, answer);
    memset(expected, 0, sizeof expected);
    expected[0] = 0x0C;
    expected[32 * 7] = 0x0C;
    hold("a spreading list by macros is the one built", answer[0] == STARAN_DONE && answer[1] == sizeof spreading && memcmp(spreading, built, sizeof spreading) == 0);
    hold("its items: the marks, and again in the round of weight 2", answer[2] == STARAN_SPREADING_ITEMS_BYTES(1) && memcmp(expected, items, sizeof items) == 0);
    bytes("its fourth instruction", spreading + 24, 8, "000200000000873A");
    staran_closing_list(3, 9, 1, marks, 31, built, sizeof built, items, sizeof items, answer);
    hold("marks of another length", answer[0] == STARAN_REFUSED_MARKS_LENGTH && STARAN_REFUSED_MARKS_LENGTH == 35);
    hold("the longest closing", STARAN_CLOSING_LIST_BYTES(32) == 4944 && STARAN_CLOSING_ITEMS_BYTES == 288);
    hold("the longest spreading", STARAN_SPREADING_LIST_BYTES(32) == 4616 && STARAN_SPREADING_ITEMS_BYTES(32) == 8224 && STARAN_SPREADING_ITEMS_BYTES(1) == 288);
}

/* A function of two bits by its meaning: what becomes of old 0, 0, 1, 1 by passed 0, 1, 0, 1. */
static void function(const char *what, uint8_t number, const char *becomes)
{
    char text[5];
    for (int k = 0; k < 4; k++)
        text[k] = (char)('0' + (number >> k & 1));
    text[4] = 0;
    hold(what, strcmp(text, becomes) == 0);
}

static void functions(void)
{
    function("clear", STARAN_FUNCTION_CLEAR, "0000");
    function("not old", STARAN_FUNCTION_NOT_OLD, "1100");
    function("without", STARAN_FUNCTION_WITHOUT, "0010");
    function("not item", STARAN_FUNCTION_NOT_ITEM, "1010");
    function("xor", STARAN_FUNCTION_XOR, "0110");
    function("and", STARAN_FUNCTION_AND, "0001");
    function("equal", STARAN_FUNCTION_EQUAL, "1001");
    function("item", STARAN_FUNCTION_ITEM, "0101");
    function("old", STARAN_FUNCTION_OLD, "0011");
    function("or", STARAN_FUNCTION_OR, "0111");
    function("set", STARAN_FUNCTION_SET, "1111");
}

/* What the macros read out of a resolved item: none, station 0 alone, station 255 alone, all; the printed line's bytes are document 02's, Four. */
static void resolved(const char *what, uint8_t byte0, uint8_t byte31, uint8_t others, const char *digits, int activity, int smallest, int count)
{
    const uint8_t list[] = {STARAN_RESOLVE};
    uint32_t answer[STARAN_RUN_NUMBERS];
    char item[2 * STARAN_ITEM_BYTES + 1];
    memset(registers + 64, others, 32);
    registers[64] |= byte0;
    registers[95] |= byte31;
    memset(out, 0xA5, sizeof out);
    staran_run_4(memory, sizeof memory, registers, sizeof registers, list, sizeof list, out, 0, out, sizeof out, answer);
    snprintf(item, sizeof item, "%s%054d", digits, 0);
    bytes(what, out, STARAN_ITEM_BYTES, item);
    hold(what, answer[STARAN_ANSWER_NUMBER] == STARAN_DONE && STARAN_ACTIVITY(out) == activity && STARAN_SMALLEST_RESPONDER(out) == smallest &&
                   STARAN_RESPONDER_COUNT(out) == count);
    memset(registers + 64, 0, 32);
}

static void resolves(void)
{
    resolved("none responds", 0, 0, 0, "0000010000", 0, STARAN_NO_RESPONDER, 0);
    resolved("station 0 responds", 1, 0, 0, "0100000100", 1, 0, 1);
    resolved("station 255 responds", 0, 128, 0, "01FF000100", 1, 255, 1);
    resolved("all respond", 0, 0, 255, "0100000001", 1, 0, 256);
}

/* A run's answer by its names: of three instructions that take two items and give one; and of the same where the last is refused. */
static void answers(void)
{
    uint8_t list[] = {STARAN_SET_M_FROM(STARAN_SOURCE_OUTSIDE, 0, 0), STARAN_DELIVER_FROM(STARAN_SOURCE_OUTSIDE, 0, 0), STARAN_SET_M_FROM(STARAN_SOURCE_X, 0, 0)};
    const uint8_t items[2 * STARAN_ITEM_BYTES] = {0};
    uint32_t answer[STARAN_RUN_NUMBERS];
    staran_run_4(memory, sizeof memory, registers, sizeof registers, list, sizeof list, items, sizeof items, out, sizeof out, answer);
    hold("a run that is done", answer[STARAN_ANSWER_NUMBER] == STARAN_DONE && answer[STARAN_ANSWER_PLACE] == 0 && answer[STARAN_ANSWER_BYTE] == 0 &&
                                   answer[STARAN_ANSWER_STEPS] == 3 && answer[STARAN_ANSWER_TAKEN] == 2 && answer[STARAN_ANSWER_GIVEN] == 1);
    list[2 * STARAN_INSTRUCTION_BYTES + 7] = 1;
    staran_run_4(memory, sizeof memory, registers, sizeof registers, list, sizeof list, items, sizeof items, out, sizeof out, answer);
    hold("a run that is refused", answer[STARAN_ANSWER_NUMBER] == STARAN_REFUSED_LOGIC && answer[STARAN_ANSWER_PLACE] == 2 && answer[STARAN_ANSWER_BYTE] == 7 &&
                                      answer[STARAN_ANSWER_STEPS] == 0 && answer[STARAN_ANSWER_TAKEN] == 0 && answer[STARAN_ANSWER_GIVEN] == 0);
    hold("where an answer's numbers stand", STARAN_ANSWER_NUMBER == 0 && STARAN_ANSWER_PLACE == 1 && STARAN_ANSWER_BYTE == 2 && STARAN_ANSWER_STEPS == 3 &&
                                                STARAN_ANSWER_TAKEN == 4 && STARAN_ANSWER_GIVEN == 5);
}

/* A picture of kind 1 has M, X and Y of a run's registers, and the mode registers stay where they are. */
static void pictures(void)
{
    static uint8_t file[STARAN_PICTURE_FILE_BYTES], others[STARAN_MEMORY_BYTES];
    uint8_t read[STARAN_REGISTERS_BYTES];
    uint32_t answer[STARAN_DISK_NUMBERS];
    memset(read, 1, sizeof read);
    staran_write_picture(STARAN_CONTENT_PICTURE, memory, sizeof memory, registers, STARAN_PICTURE_REGISTERS_BYTES, file, sizeof file, answer);
    hold("a picture of the first 96 bytes is written", answer[0] == STARAN_DONE && answer[2] == STARAN_PICTURE_FILE_BYTES);
    staran_read_picture(STARAN_CONTENT_PICTURE, file, sizeof file, others, sizeof others, read, STARAN_PICTURE_REGISTERS_BYTES, answer);
    hold("and read", answer[0] == STARAN_DONE && answer[2] == STARAN_MEMORY_BYTES + STARAN_PICTURE_REGISTERS_BYTES && memcmp(read, registers, 96) == 0);
    bytes("behind which the mode registers stay", read + 96, 4, "01010101");
    staran_read_picture(STARAN_CONTENT_PICTURE, file, sizeof file, others, sizeof others, read, sizeof read, answer);
    hold("not into 100", answer[0] == STARAN_REFUSED_LENT_LENGTH);
    staran_write_picture(STARAN_CONTENT_PICTURE, memory, sizeof memory, registers, sizeof registers, file, sizeof file, answer);
    hold("not from 100", answer[0] == STARAN_REFUSED_LENT_LENGTH);
}

/* A picture of kind 4 has the mode registers too, of which A is set here: a run goes on from it, and it has no picture of kind 1. With neither set there is one, and back. */
static void new_pictures(void)
{
    const uint8_t list[] = {STARAN_DELIVER_BY(STARAN_TAG_A, 13, 0, 0)}, by_given[] = {STARAN_DELIVER(STARAN_MODE_WORD, 13, 0, 0)};
    static uint8_t file[STARAN_PICTURE_FILE_BYTES], old[STARAN_PICTURE_FILE_BYTES], again[STARAN_PICTURE_FILE_BYTES], others[STARAN_MEMORY_BYTES];
    const uint8_t *last = file + STARAN_PICTURE_FILE_BYTES - STARAN_BLOCK_BYTES;
    uint8_t read[STARAN_REGISTERS_BYTES], given[STARAN_ITEM_BYTES];
    uint32_t answer[STARAN_RUN_NUMBERS];
    staran_write_picture(STARAN_CONTENT_PICTURE_WITH_MODES, memory, sizeof memory, registers, sizeof registers, file, sizeof file, answer);
    hold("a picture of all 100 bytes is written", answer[0] == STARAN_DONE && answer[2] == STARAN_PICTURE_FILE_BYTES);
    bytes("the last of its 17 blocks uses 356", last, 12, "040010001100640100000000");
    bytes("and ends with the mode registers", last + 12 + 352, 4, "01FF0000");
    staran_read_picture(STARAN_CONTENT_PICTURE_WITH_MODES, file, sizeof file, others, sizeof others, read, sizeof read, answer);
    hold("and read, all of it", answer[0] == STARAN_DONE && answer[2] == 8292 && memcmp(read, registers, 100) == 0 && memcmp(others, memory, sizeof others) == 0);
    staran_run_4(memory, sizeof memory, registers, sizeof registers, by_given, sizeof by_given, out, 0, given, sizeof given, answer);
    staran_run_4(others, sizeof others, read, sizeof read, list, sizeof list, out, 0, out, sizeof out, answer);
    hold("a run goes on by the mode that it has", answer[STARAN_ANSWER_NUMBER] == STARAN_DONE && memcmp(out, given, sizeof given) == 0);
    staran_read_picture(STARAN_CONTENT_PICTURE_WITH_MODES, file, sizeof file, others, sizeof others, read, STARAN_PICTURE_REGISTERS_BYTES, answer);
    hold("not into 96", answer[0] == STARAN_REFUSED_LENT_LENGTH);
    staran_read_picture(STARAN_CONTENT_PICTURE, file, sizeof file, others, sizeof others, read, STARAN_PICTURE_REGISTERS_BYTES, answer);
    hold("not as kind 1", answer[0] == STARAN_REFUSED_BLOCK_KIND && answer[1] == 0);
    staran_picture_to_old(file, sizeof file, old, sizeof old, answer);
    hold("a mode register set has no old picture", answer[0] == STARAN_REFUSED_MODE_SET && STARAN_REFUSED_MODE_SET == 28 && answer[1] == 0 && answer[2] == 0);
    registers[98] = 2;
    staran_write_picture(STARAN_CONTENT_PICTURE_WITH_MODES, memory, sizeof memory, registers, sizeof registers, file, sizeof file, answer);
    hold("no picture of a flag over 1", answer[0] == STARAN_REFUSED_MODE_REGISTERS && answer[1] == 0 && answer[2] == 0);
    memset(registers + 96, 0, 4);
    staran_write_picture(STARAN_CONTENT_PICTURE_WITH_MODES, memory, sizeof memory, registers, sizeof registers, file, sizeof file, answer);
    staran_write_picture(STARAN_CONTENT_PICTURE, memory, sizeof memory, registers, STARAN_PICTURE_REGISTERS_BYTES, again, sizeof again, answer);
    staran_picture_to_old(file, sizeof file, old, sizeof old, answer);
    hold("new to old", answer[0] == STARAN_DONE && answer[2] == STARAN_PICTURE_FILE_BYTES && memcmp(old, again, sizeof old) == 0);
    bytes("whose last block uses 352", old + STARAN_PICTURE_FILE_BYTES - STARAN_BLOCK_BYTES, 12, "010010001100600100000000");
    staran_picture_to_new(old, sizeof old, again, sizeof again, answer);
    hold("and back to new", answer[0] == STARAN_DONE && answer[2] == STARAN_PICTURE_FILE_BYTES && memcmp(file, again, sizeof again) == 0);
    staran_picture_to_new(file, sizeof file, again, sizeof again, answer);
    hold("new to new", answer[0] == STARAN_REFUSED_BLOCK_KIND && answer[1] == 0);
}

/* The mode registers: their instructions by macros, the record's bytes, and a list that sets one and stores through it, by a run and by steps. */
static void mode_registers(void)
{
    const uint8_t made[] = {STARAN_SET_MODE(STARAN_TAG_A, STARAN_MODE_WORD), STARAN_SET_MODE(STARAN_TAG_B, 7),
                            STARAN_LOGIC_BY(STARAN_TAG_A, 45, 90, STARAN_SHIFT(8, 3), STARAN_CHOICE_X, STARAN_FUNCTION_ITEM), STARAN_SET_M_BY(STARAN_TAG_B, 45, 90, STARAN_SHIFT(8, 3)),
                            STARAN_STORE_BY(STARAN_SOURCE_Y, STARAN_TAG_A, 13, 5), STARAN_MASKED_STORE_BY(STARAN_SOURCE_OUTSIDE, STARAN_TAG_B, 13, 5),
                            STARAN_DELIVER_BY(STARAN_TAG_A, 13, 1, STARAN_SHIFT(3, 0))};
    const uint8_t list[] = {STARAN_SET_MODE(STARAN_TAG_A, STARAN_MODE_WORD), STARAN_STORE_BY(STARAN_SOURCE_Y, STARAN_TAG_A, 13, 0),
                            STARAN_DELIVER(STARAN_MODE_WORD, 13, 0, 0)};
    uint32_t answer[STARAN_RUN_NUMBERS];
    staran_registers record;
    bytes("set register A", made, 8, "060002FF00000000");
    bytes("set register B", made + 8, 8, "0600030700000000");
    bytes("logic by A", made + 16, 8, "000002002D5A830A");
    bytes("set M by B", made + 24, 8, "010003002D5A8300");
    bytes("store by A", made + 32, 8, "020302000D050000");
    bytes("masked store by B", made + 40, 8, "030403000D050000");
    bytes("deliver by A", made + 48, 8, "040002000D013000");
    hold("the tags", STARAN_TAG_NONE == 0 && STARAN_TAG_GIVEN == 1 && STARAN_TAG_A == 2 && STARAN_TAG_B == 3 && STARAN_KIND_SET_MODE == 6);
    hold("the lengths of registers", STARAN_REGISTERS_BYTES == 100 && STARAN_PICTURE_REGISTERS_BYTES == 96 && sizeof(staran_registers) == 100);
    hold("where M, X and Y stand", offsetof(staran_registers, m) == 0 && offsetof(staran_registers, x) == 32 && offsetof(staran_registers, y) == 64);
    hold("where the mode registers stand", offsetof(staran_registers, a_set) == 96 && offsetof(staran_registers, a_mode) == 97 &&
                                               offsetof(staran_registers, b_set) == 98 && offsetof(staran_registers, b_mode) == 99);
    memset(registers + 64, 0x5A, 32);
    memset(&record, 0, sizeof record);
    memset(record.y, 0xA5, sizeof record.y);
    staran_run_4(memory, sizeof memory, registers, sizeof registers, list, sizeof list, out, 0, out, sizeof out, answer);
    hold("a run that sets A and stores through it", answer[STARAN_ANSWER_NUMBER] == STARAN_DONE && answer[STARAN_ANSWER_STEPS] == 3 && answer[STARAN_ANSWER_TAKEN] == 0 &&
                                                        answer[STARAN_ANSWER_GIVEN] == 1 && memcmp(out, registers + 64, 32) == 0);
    bytes("the mode registers behind it", registers + 96, 4, "01FF0000");
    for (size_t k = 0; k < 3; k++)
        staran_step_5(memory, sizeof memory, &record, list + STARAN_INSTRUCTION_BYTES * k, STARAN_INSTRUCTION_BYTES, out, 0, out, sizeof out, answer);
    hold("steps that do the same", answer[STARAN_ANSWER_NUMBER] == STARAN_DONE && memcmp(out, record.y, 32) == 0);
    hold("the record's mode registers behind them", record.a_set == 1 && record.a_mode == 255 && record.b_set == 0 && record.b_mode == 0);
    pictures();
    new_pictures();
    registers[98] = 2;
    staran_run_4(memory, sizeof memory, registers, sizeof registers, list, sizeof list, out, 0, out, sizeof out, answer);
    hold("a flag over 1", answer[STARAN_ANSWER_NUMBER] == STARAN_REFUSED_MODE_REGISTERS && answer[STARAN_ANSWER_PLACE] == 0 && answer[STARAN_ANSWER_BYTE] == 0);
    memset(registers, 0, sizeof registers);
    staran_run_4(memory, sizeof memory, registers, STARAN_PICTURE_REGISTERS_BYTES, list, sizeof list, out, 0, out, sizeof out, answer);
    hold("registers of 96 bytes", answer[STARAN_ANSWER_NUMBER] == STARAN_REFUSED_REGISTERS_LENGTH);
}

/* The number and the place that the question gives whether a list is isolated. */
static void asked(const char *what, const uint8_t *list, size_t length, size_t registers_length, uint32_t number, uint32_t place)
{
    uint32_t answer[STARAN_ISOLATED_NUMBERS];
    staran_isolated(list, length, registers, registers_length, answer);
    hold(what, answer[0] == number && answer[1] == place);
}

/* A sum list is isolated; a greatest list is not, by the flip at place 2; one that stores by register A is where that holds mode 0. */
static void isolation(void)
{
    const uint8_t by_a[] = {STARAN_SET_MODE(STARAN_TAG_B, STARAN_MODE_WORD), STARAN_STORE_BY(STARAN_SOURCE_Y, STARAN_TAG_A, 13, STARAN_NO_FLIP)};
    uint8_t built[STARAN_GREATEST_LIST_BYTES(8)];
    uint32_t answer[STARAN_LIST_NUMBERS];
    memset(registers, 0, sizeof registers);
    staran_sum_list(0, 8, 16, 8, built, sizeof built, answer);
    asked("a sum list is isolated", built, answer[1], sizeof registers, STARAN_DONE, 0);
    asked("a list asked about with 96 registers", built, answer[1], STARAN_PICTURE_REGISTERS_BYTES, STARAN_REFUSED_REGISTERS_LENGTH, 0);
    asked("a list asked about that is a byte short", built, answer[1] - 1, sizeof registers, STARAN_REFUSED_LIST_LENGTH, 0);
    staran_greatest_list(0, 8, built, sizeof built, answer);
    asked("a greatest list is not isolated", built, answer[1], sizeof registers, STARAN_REFUSED_NOT_ISOLATED, 2);
    asked("a list by A, which is not set", by_a, sizeof by_a, sizeof registers, STARAN_REFUSED_NOT_ISOLATED, 1);
    registers[96] = 1;
    asked("a list by A, which holds mode 0", by_a, sizeof by_a, sizeof registers, STARAN_DONE, 0);
    registers[97] = STARAN_MODE_WORD;
    asked("a list by A, which holds mode 255", by_a, sizeof by_a, sizeof registers, STARAN_REFUSED_NOT_ISOLATED, 1);
    registers[96] = 2;
    asked("a list asked about with a flag over 1", by_a, sizeof by_a, sizeof registers, STARAN_REFUSED_MODE_REGISTERS, 0);
    hold("the number of a list that is not isolated", STARAN_REFUSED_NOT_ISOLATED == 40);
    memset(registers, 0, sizeof registers);
}

/* The header's two lines, and a list by macros that sets A: its text, and what it reaches, by A, by B at the start, and of a word. */
static void texts(void)
{
    const uint8_t list[] = {STARAN_SET_MODE(STARAN_TAG_A, 13), STARAN_STORE_BY(STARAN_SOURCE_OUTSIDE, STARAN_TAG_A, 255, STARAN_NO_FLIP),
                            STARAN_LOGIC(STARAN_MODE_SLICE, 7, 1, STARAN_SHIFT(3, 0), STARAN_CHOICE_X_WHERE_Y_AND_Y, STARAN_FUNCTION_XOR),
                            STARAN_MASKED_STORE_BY(STARAN_SOURCE_M, STARAN_TAG_B, 9, 128), STARAN_STORE(STARAN_SOURCE_X, STARAN_MODE_WORD, 9, STARAN_NO_FLIP)};
    const uint8_t two[] = {STARAN_STORE(STARAN_SOURCE_OUTSIDE, 13, 255, STARAN_NO_FLIP), STARAN_INSTRUCTION(STARAN_KIND_STORE, STARAN_SOURCE_OUTSIDE, STARAN_TAG_NONE, 13, 0, 0, 0, 0)};
    static const char of_list[] = "set a 13\n"
                                  "store mode a address 255 from outside ; reaches 32 words\n"
                                  "logic x-if-y+y xor slice 7 flip 1 shift 1 mod 8\n"
                                  "mstore mode b address 9 from m flip 128 ; reaches ? words\n"
                                  "store word 9 from x ; reaches 1 word\n";
    static const char of_two[] = "store mode 13 address 255 from outside ; reaches 32 words\n"
                                 "bytes 02 04 00 0D 00 00 00 00 ; refused 7 byte 2\n";
    uint8_t text[STARAN_TEXT_BYTES(sizeof list)], reached[STARAN_REACH_BYTES(sizeof list)];
    uint32_t answer[STARAN_SHOW_NUMBERS > STARAN_REACH_NUMBERS ? STARAN_SHOW_NUMBERS : STARAN_REACH_NUMBERS];
    hold("room for a text and for counts", sizeof text == 960 && sizeof reached == 10 && STARAN_TEXT_BYTES(32768) == 786432 && STARAN_REACH_BYTES(32768) == 8192);
    staran_show(list, sizeof list, text, sizeof text, answer);
    hold("the text of a list", answer[0] == STARAN_DONE && answer[1] == strlen(of_list) && memcmp(text, of_list, strlen(of_list)) == 0);
    staran_show(two, sizeof two, text, sizeof text, answer);
    hold("the header's two lines", answer[0] == STARAN_DONE && answer[1] == strlen(of_two) && memcmp(text, of_two, strlen(of_two)) == 0);
    staran_show(two, sizeof two, text, strlen(of_two) - 1, answer);
    hold("no room for a text", answer[0] == STARAN_REFUSED_OUTPUT_TOO_SHORT && answer[1] == 0);
    staran_show(list, sizeof list - 1, text, sizeof text, answer);
    hold("the text of a list that is a byte short", answer[0] == STARAN_REFUSED_LIST_LENGTH && answer[1] == 0);
    memset(registers, 0, sizeof registers);
    registers[98] = 1;
    registers[99] = 15;
    staran_reach(registers, sizeof registers, list, sizeof list, reached, sizeof reached, answer);
    hold("what a list reaches", answer[0] == STARAN_DONE && answer[1] == sizeof reached);
    bytes("of each instruction", reached, sizeof reached, "00002000000010000100");
    staran_reach(registers, sizeof registers, two, sizeof two, reached, 3, answer);
    hold("no room for what a list reaches", answer[0] == STARAN_REFUSED_OUTPUT_TOO_SHORT && answer[1] == 0);
    staran_reach(registers, STARAN_PICTURE_REGISTERS_BYTES, two, sizeof two, reached, sizeof reached, answer);
    hold("what a list reaches, with 96 registers", answer[0] == STARAN_REFUSED_REGISTERS_LENGTH && answer[1] == 0);
    registers[98] = 2;
    staran_reach(registers, sizeof registers, two, sizeof two, reached, sizeof reached, answer);
    hold("what a list reaches, with a flag over 1", answer[0] == STARAN_REFUSED_MODE_REGISTERS && answer[1] == 0);
    memset(registers, 0, sizeof registers);
}

/* The answer of a text, with room for a list of 100 instructions and 32 items. */
static void made(const char *what, const char *text, uint32_t number, uint32_t line, uint32_t column)
{
    uint8_t list[800], items[1024];
    uint32_t answer[STARAN_MAKE_NUMBERS];
    staran_make((const uint8_t *)text, strlen(text), list, sizeof list, items, sizeof items, answer);
    hold(what, answer[0] == number && answer[1] == line && answer[2] == column && (number == STARAN_DONE || (answer[3] == 0 && answer[4] == 0)));
}

/* The header's four lines, with the builder's list and a store by a macro; and each number that a text can be refused with. */
static void making(void)
{
    static const char header[] = "field height 0 32\n"
                                 "less height 20000\n"
                                 "reach at most 1 word\n"
                                 "store word 13 from outside\n";
    const uint8_t store[] = {STARAN_STORE(STARAN_SOURCE_OUTSIDE, STARAN_MODE_WORD, 13, STARAN_NO_FLIP)};
    uint8_t list[STARAN_SEARCH_LIST_BYTES(32) + sizeof store], items[STARAN_SEARCH_ITEMS_BYTES(32)], less[STARAN_SEARCH_LIST_BYTES(32)], less_items[sizeof items];
    static uint8_t longer[STARAN_LONGEST_TEXT + 1];
    uint32_t answer[STARAN_MAKE_NUMBERS];
    staran_less_list(0, 32, 20000, less, sizeof less, less_items, sizeof less_items, answer);
    staran_make((const uint8_t *)header, strlen(header), list, sizeof list, items, sizeof items, answer);
    hold("the header's four lines", answer[0] == STARAN_DONE && answer[1] == 0 && answer[2] == 0 && answer[3] == sizeof list && answer[4] == sizeof items);
    hold("their list", memcmp(list, less, sizeof less) == 0 && memcmp(list + sizeof less, store, sizeof store) == 0);
    hold("their items", memcmp(items, less_items, sizeof items) == 0);
    staran_make((const uint8_t *)header, strlen(header), list, sizeof list - 1, items, sizeof items, answer);
    hold("no room for a list", answer[0] == STARAN_REFUSED_LIST_TOO_SHORT && answer[1] == 0 && answer[2] == 0 && answer[3] == 0 && answer[4] == 0);
    hold("the longest text", STARAN_LONGEST_TEXT == 1048576);
    staran_make(longer, sizeof longer, list, sizeof list, items, sizeof items, answer);
    hold("a text that is longer", answer[0] == STARAN_REFUSED_TEXT_LENGTH && STARAN_REFUSED_TEXT_LENGTH == 50 && answer[1] == 0 && answer[2] == 0);
#define HEIGHT "field height 0 32\n"
    made("no such name", "nothing", STARAN_REFUSED_TEXT_NAME, 1, 1);
    made("no such choice", "logic z", STARAN_REFUSED_TEXT_CHOICE, 1, 7);
    made("no such function", "logic x nil", STARAN_REFUSED_TEXT_FUNCTION, 1, 9);
    made("no such source", "resolve\nsetm z", STARAN_REFUSED_TEXT_SOURCE, 2, 6);
    made("no number", "set a 256", STARAN_REFUSED_TEXT_NUMBER, 1, 7);
    made("another word", "setm mode a at", STARAN_REFUSED_TEXT_WORD, 1, 13);
    made("no such shift", "setm x shift 3", STARAN_REFUSED_TEXT_SHIFT, 1, 14);
    made("too much", "resolve x", STARAN_REFUSED_TEXT_TOO_MUCH, 1, 9);
    made("no byte", "bytes 0", STARAN_REFUSED_TEXT_BYTE, 1, 7);
    made("too early", "set a ; 5", STARAN_REFUSED_TEXT_TOO_EARLY, 1, 7);
    made("no name of a field", "field heightens 0 32", STARAN_REFUSED_TEXT_FIELD_NAME, 1, 7);
    made("a field named twice", HEIGHT "field height 32 32", STARAN_REFUSED_TEXT_FIELD_TWICE, 2, 7);
    made("no such field", HEIGHT "greatest depth", STARAN_REFUSED_TEXT_FIELD_UNKNOWN, 2, 10);
    made("a field of another width", HEIGHT "field x 32 31\nsum height x into x", STARAN_REFUSED_TEXT_FIELD_WIDTH, 3, 12);
    made("a store that reaches too far", "reach at most 1 word\n store slice 5 from x", STARAN_REFUSED_TEXT_REACH, 2, 2);
    made("no value", HEIGHT "equal height low", STARAN_REFUSED_TEXT_VALUE, 2, 14);
    made("an item above a search", HEIGHT "setm outside\nless height 5", STARAN_REFUSED_TEXT_ITEM_ABOVE, 3, 1);
    made("no width", "field height 0 65", STARAN_REFUSED_WIDTH, 1, 16);
    made("a field beyond the word", "field height 255 2", STARAN_REFUSED_FIELD_BEYOND, 1, 18);
    made("fields that cross", HEIGHT "field x 31 32\nsum height height into x", STARAN_REFUSED_FIELDS_CROSS, 3, 24);
    made("a value too large", HEIGHT "less height 4294967296", STARAN_REFUSED_NUMBER_TOO_LARGE, 2, 13);
#undef HEIGHT
    hold("the numbers of a text's words", STARAN_REFUSED_TEXT_NAME == 60 && STARAN_REFUSED_TEXT_CHOICE == 61 && STARAN_REFUSED_TEXT_FUNCTION == 62 &&
                                              STARAN_REFUSED_TEXT_SOURCE == 63 && STARAN_REFUSED_TEXT_NUMBER == 64 && STARAN_REFUSED_TEXT_WORD == 65 &&
                                              STARAN_REFUSED_TEXT_SHIFT == 66 && STARAN_REFUSED_TEXT_TOO_MUCH == 67 && STARAN_REFUSED_TEXT_BYTE == 68 &&
                                              STARAN_REFUSED_TEXT_TOO_EARLY == 69);
    hold("the numbers of its statements", STARAN_REFUSED_TEXT_FIELD_NAME == 70 && STARAN_REFUSED_TEXT_FIELD_TWICE == 71 && STARAN_REFUSED_TEXT_FIELDS_TOO_MANY == 72 &&
                                              STARAN_REFUSED_TEXT_FIELD_UNKNOWN == 73 && STARAN_REFUSED_TEXT_FIELD_WIDTH == 74 && STARAN_REFUSED_TEXT_REACH == 75 &&
                                              STARAN_REFUSED_TEXT_VALUE == 76 && STARAN_REFUSED_TEXT_ITEM_ABOVE == 77);
    hold("the builders' numbers that it has", STARAN_REFUSED_WIDTH == 30 && STARAN_REFUSED_FIELD_BEYOND == 31 && STARAN_REFUSED_FIELDS_CROSS == 32 &&
                                                  STARAN_REFUSED_LIST_TOO_SHORT == 33 && STARAN_REFUSED_LIST_LENGTH == 3 && STARAN_REFUSED_ITEMS_LENGTH == 4);
}

static void refusals(void)
{
    const uint8_t kind[] = {STARAN_INSTRUCTION(7, 0, 0, 0, 0, 0, 0, 0)}, source[] = {STARAN_STORE(STARAN_SOURCE_MEMORY, 0, 0, 0)};
    const uint8_t no_mode[] = {STARAN_INSTRUCTION(STARAN_KIND_STORE, STARAN_SOURCE_Y, 0, 255, 0, 0, 0, 0)};
    const uint8_t no_register[] = {STARAN_SET_MODE(STARAN_TAG_NONE, 255)}, not_register[] = {STARAN_SET_MODE(STARAN_TAG_GIVEN, 255)};
    const uint8_t tag[] = {STARAN_INSTRUCTION(STARAN_KIND_STORE, STARAN_SOURCE_Y, 4, 255, 0, 0, 0, 0)};
    const uint8_t two_modes[] = {STARAN_INSTRUCTION(STARAN_KIND_STORE, STARAN_SOURCE_Y, STARAN_TAG_A, 255, 0, 0, 0, 0)};
    const uint8_t unset_a[] = {STARAN_DELIVER_BY(STARAN_TAG_A, 0, 0, 0)}, unset_b[] = {STARAN_STORE_BY(STARAN_SOURCE_Y, STARAN_TAG_B, 0, 0)};
    const uint8_t unused[] = {STARAN_INSTRUCTION(STARAN_KIND_LOGIC, STARAN_SOURCE_X, 1, 0, 0, 0, 0, 0)};
    const uint8_t unused_mode[] = {STARAN_INSTRUCTION(STARAN_KIND_LOGIC, STARAN_SOURCE_X, 0, 255, 13, 0, 0, 0)};
    const uint8_t unused_address[] = {STARAN_INSTRUCTION(STARAN_KIND_RESOLVE, 0, 0, 0, 13, 0, 0, 0)};
    const uint8_t group[] = {STARAN_LOGIC_FROM(STARAN_SOURCE_X, 0, STARAN_SHIFT(9, 8), 0, 0)};
    const uint8_t shift[] = {STARAN_LOGIC_FROM(STARAN_SOURCE_X, 0, STARAN_SHIFT(8, 8), 0, 0)};
    const uint8_t barred[] = {STARAN_INSTRUCTION(STARAN_KIND_MASKED_STORE, STARAN_SOURCE_Y, 1, 0, 0, 5, STARAN_SHIFT(9, 9), 0)};
    const uint8_t barred_flip[] = {STARAN_INSTRUCTION(STARAN_KIND_RESOLVE, 0, 0, 0, 0, 5, STARAN_SHIFT(8, 3), 0)};
    const uint8_t logic[] = {STARAN_LOGIC_FROM(STARAN_SOURCE_X, 0, 0, 5, 0)}, resolve[] = {STARAN_RESOLVE};
    const uint8_t item[] = {STARAN_DELIVER_FROM(STARAN_SOURCE_OUTSIDE, 0, 0)};
    refused("kind", STARAN_REFUSED_KIND, 0, kind);
    refused("source", STARAN_REFUSED_SOURCE, 1, source);
    refused("no mode", STARAN_REFUSED_NO_MODE, 2, no_mode);
    refused("no register", STARAN_REFUSED_NO_MODE, 2, no_register);
    refused("mode tag", STARAN_REFUSED_MODE_TAG, 2, tag);
    refused("mode tag of kind 6", STARAN_REFUSED_MODE_TAG, 2, not_register);
    refused("mode unused: beside a register's", STARAN_REFUSED_MODE_UNUSED, 3, two_modes);
    refused("mode unset: A", STARAN_REFUSED_MODE_UNSET, 2, unset_a);
    refused("mode unset: B", STARAN_REFUSED_MODE_UNSET, 2, unset_b);
    refused("mode unused: tag", STARAN_REFUSED_MODE_UNUSED, 2, unused);
    refused("mode unused: mode", STARAN_REFUSED_MODE_UNUSED, 3, unused_mode);
    refused("mode unused: address", STARAN_REFUSED_MODE_UNUSED, 4, unused_address);
    refused("move barred: flip", STARAN_REFUSED_MOVE_BARRED, 5, barred_flip);
    refused("move barred: shift", STARAN_REFUSED_MOVE_BARRED, 6, barred);
    refused("group too wide", STARAN_REFUSED_GROUP_TOO_WIDE, 6, group);
    refused("shift not below", STARAN_REFUSED_SHIFT_NOT_BELOW, 6, shift);
    refused("logic", STARAN_REFUSED_LOGIC, 7, logic);
    refused("items too few", STARAN_REFUSED_ITEMS_TOO_FEW, 0, item);
    refused("out too short", STARAN_REFUSED_OUT_TOO_SHORT, 0, resolve);
    hold("the two numbers of the mode registers", STARAN_REFUSED_MODE_UNSET == 14 && STARAN_REFUSED_MODE_REGISTERS == 15);
    hold("the three numbers for 10", STARAN_REFUSED_GROUP_TOO_WIDE == 16 && STARAN_REFUSED_SHIFT_NOT_BELOW == 17 && STARAN_REFUSED_MOVE_BARRED == 18);
}

int main(void)
{
    instructions();
    searches();
    closings();
    functions();
    resolves();
    answers();
    mode_registers();
    isolation();
    texts();
    making();
    refusals();
    hold("the contents on disk",
         STARAN_CONTENT_PICTURE == 1 && STARAN_CONTENT_LIST == 2 && STARAN_CONTENT_ITEMS == 3 && STARAN_CONTENT_PICTURE_WITH_MODES == 4);
    hold("the linked version is the header's", staran_version() == STARAN_VERSION && STARAN_VERSION == 327684);
    hold("a number that is never given", strcmp(staran_meaning(100), "no such number is ever given") == 0);
    hold("a number that is not given any more", strcmp(staran_meaning(10), staran_meaning(100)) == 0);
    for (uint32_t number = 0; number <= 100; number++)
        if (strcmp(staran_meaning(number), staran_meaning(100)) != 0)
            printf("%u\t%s\n", (unsigned)number, staran_meaning(number));
    return wrong;
}
