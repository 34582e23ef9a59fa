/* The numbers that the library gives back, and what each means. tools/numbers.py makes this file from docs/numbers.tsv: change that.
 *
 * staran.h includes it; docs/NUMBERS.md is the same table with the order in which numbers are judged. */
#ifndef STARAN_NUMBERS_H
#define STARAN_NUMBERS_H

#include <stdint.h>

enum {
    /* all: done */
    STARAN_DONE = 0,
    /* run, step: the memory is not 8,192 bytes */
    STARAN_REFUSED_MEMORY_LENGTH = 1,
    /* run, isolated, reach: the registers are not 100 bytes */
    STARAN_REFUSED_REGISTERS_LENGTH = 2,
    /* run, step, isolated, reach, showing of a list as text, making of a list from text: the list is not a multiple
       of 8 bytes, or over 32,768; a step's instruction is not 8 bytes; a text makes over 4,096 instructions */
    STARAN_REFUSED_LIST_LENGTH = 3,
    /* run, step, making of a list from text: the items are not a multiple of 32 bytes, or over 32,768; a text brings
       over 1,024 items */
    STARAN_REFUSED_ITEMS_LENGTH = 4,
    /* run, step: byte 0, the kind, is over 6 */
    STARAN_REFUSED_KIND = 5,
    /* run, step: byte 1, the source: it is over 4; it is memory (0) for a store; it is not 0 for a resolve or for
       kind 6 */
    STARAN_REFUSED_SOURCE = 6,
    /* run, step: memory is touched and byte 2, the mode tag, is 0: no mode was given; or byte 2 of kind 6 is 0: no
       register is named */
    STARAN_REFUSED_NO_MODE = 7,
    /* run, step: byte 2, the mode tag: it is over 3 where memory is touched; it is 1 or over 3 for kind 6 */
    STARAN_REFUSED_MODE_TAG = 8,
    /* run, step: a byte that nothing uses is not 0: byte 2, 3 or 4 where memory is not touched, of kind 6 byte 4
       alone; byte 3, the mode, where memory is touched with tag 2 or 3 */
    STARAN_REFUSED_MODE_UNUSED = 9,
    /* run, step: byte 7: the choice is over 4 in logic; it is not 0 in any other kind */
    STARAN_REFUSED_LOGIC = 11,
    /* run, step: the items are too few: the place is the first instruction that lacks one */
    STARAN_REFUSED_ITEMS_TOO_FEW = 12,
    /* run, step: the out buffer is too short: the place is the first instruction without room for its 32 bytes */
    STARAN_REFUSED_OUT_TOO_SHORT = 13,
    /* run, step: memory is touched with tag 2, register A, or tag 3, register B, and that register is not set: its
       flag is 0 at the start, and no earlier kind 6 set it */
    STARAN_REFUSED_MODE_UNSET = 14,
    /* run, step, isolated, reach, reading, writing, converting: the mode registers, as they are lent or as a picture
       of kind 4 has them: a flag is over 1, or a mode is not 0 though its flag is 0 */
    STARAN_REFUSED_MODE_REGISTERS = 15,
    /* run, step, pass: byte 6, 16p + m: p is over 8, a group of more than 256 lines */
    STARAN_REFUSED_GROUP_TOO_WIDE = 16,
    /* run, step, pass: byte 6, 16p + m, is not 0, and m is not below p */
    STARAN_REFUSED_SHIFT_NOT_BELOW = 17,
    /* run, step: a move that this kind may not make: byte 6, the shift, is not 0 on a store; byte 5, the flip, or
       byte 6 is not 0 on a resolve or on kind 6 */
    STARAN_REFUSED_MOVE_BARRED = 18,
    /* reading, converting: the file has no bytes, is not a multiple of 512, or is over 34,304; in the program also:
       before.pic is absent, a file cannot be read (standard error says why), before.pic is over 17 blocks, run.lst
       or in.itm over 16 */
    STARAN_REFUSED_FILE_LENGTH = 20,
    /* reading, converting: the block's sums are not those of its bytes */
    STARAN_REFUSED_BLOCK_SUMS = 21,
    /* reading, writing, converting: the block is of another kind than the one asked for; or the kind asked for is
       not 1 to 4 */
    STARAN_REFUSED_BLOCK_KIND = 22,
    /* reading, converting: the block's number is not its place, or its count is not that of the blocks there */
    STARAN_REFUSED_BLOCK_NUMBER = 23,
    /* reading, converting: the block's count of used payload is wrong, or a byte is not 0 that must be */
    STARAN_REFUSED_BLOCK_FORM = 24,
    /* reading, converting: the content's size does not fit its kind: a picture 8,288 (kind 1) or 8,292 (kind 4); a
       list a multiple of 8, items a multiple of 32, at most 32,768 */
    STARAN_REFUSED_CONTENT_SIZE = 25,
    /* reading, writing: reading: the target is too short, or for a picture not exactly 8,192 and 96 bytes (kind 1)
       or 8,192 and 100 (kind 4); writing: the content is of a wrong size */
    STARAN_REFUSED_LENT_LENGTH = 26,
    /* writing, converting, reach, showing of a list as text: the output is shorter than the blocks; for reach, than
       two bytes for each instruction; for a list shown as text, than the text */
    STARAN_REFUSED_OUTPUT_TOO_SHORT = 27,
    /* converting new to old: a mode register is set in a picture of kind 4, and one of kind 1 has no place for it */
    STARAN_REFUSED_MODE_SET = 28,
    /* builders of lists, making of a list from text: the width n is not 1 to 64; for closing or spreading, not 1 to
       32 */
    STARAN_REFUSED_WIDTH = 30,
    /* builders of lists, making of a list from text: a start plus the width is over 256 */
    STARAN_REFUSED_FIELD_BEYOND = 31,
    /* sum and difference lists, closing and spreading, making of a list from text: for a sum or difference, S
       overlaps A or B without having its start; for closing or spreading, S and A have a bit in common */
    STARAN_REFUSED_FIELDS_CROSS = 32,
    /* builders of lists, making of a list from text: the list buffer is under 8(1 + 5n) bytes for a sum, 8(2 + 5n)
       for a difference, 8(2 + 3n) for a search for equal or less, 8(1 + 11n) for greatest, 8(10 + 19n) for closing,
       8(1 + 18n) for spreading, 8 for each instruction that a text makes; or the items buffer is under 32n bytes for
       equal or less, 288 for closing, 32(1 + 8n) for spreading, 32 for each item that a text brings */
    STARAN_REFUSED_LIST_TOO_SHORT = 33,
    /* searches for equal and less, making of a list from text: the number is 2^n or more, n being the width */
    STARAN_REFUSED_NUMBER_TOO_LARGE = 34,
    /* closing and spreading: the marks are not 32 bytes */
    STARAN_REFUSED_MARKS_LENGTH = 35,
    /* isolated: the instruction at the place breaks the condition under which one station cannot disturb another:
       its kind is not 0 to 3 or 6; byte 5, the flip, or byte 6, the shift, is not 0; or it touches memory and its
       mode is not 0, or none is given */
    STARAN_REFUSED_NOT_ISOLATED = 40,
    /* making of a list from text: the text has over 1,048,576 characters */
    STARAN_REFUSED_TEXT_LENGTH = 50,
    /* making of a list from text: no instruction and no statement has this name */
    STARAN_REFUSED_TEXT_NAME = 60,
    /* making of a list from text: there is no such choice */
    STARAN_REFUSED_TEXT_CHOICE = 61,
    /* making of a list from text: there is no such function */
    STARAN_REFUSED_TEXT_FUNCTION = 62,
    /* making of a list from text: there is no such source, place or mode register */
    STARAN_REFUSED_TEXT_SOURCE = 63,
    /* making of a list from text: a number 0 to 255 has to stand here, or, behind mode, such a number or a or b;
       behind reach at most a number 1 to 256 */
    STARAN_REFUSED_TEXT_NUMBER = 64,
    /* making of a list from text: address, from, mod, into, at, most or word has to stand here */
    STARAN_REFUSED_TEXT_WORD = 65,
    /* making of a list from text: there is no such shift */
    STARAN_REFUSED_TEXT_SHIFT = 66,
    /* making of a list from text: this is more than the line takes */
    STARAN_REFUSED_TEXT_TOO_MUCH = 67,
    /* making of a list from text: this is no byte of two hex digits */
    STARAN_REFUSED_TEXT_BYTE = 68,
    /* making of a list from text: the line ends too early */
    STARAN_REFUSED_TEXT_TOO_EARLY = 69,
    /* making of a list from text: this is no name of a field: it has over eight characters, or one that no word has */
    STARAN_REFUSED_TEXT_FIELD_NAME = 70,
    /* making of a list from text: a field above has this name */
    STARAN_REFUSED_TEXT_FIELD_TWICE = 71,
    /* making of a list from text: 256 fields have names already */
    STARAN_REFUSED_TEXT_FIELDS_TOO_MANY = 72,
    /* making of a list from text: no field above has this name */
    STARAN_REFUSED_TEXT_FIELD_UNKNOWN = 73,
    /* making of a list from text: this field is not as wide as the first of the line */
    STARAN_REFUSED_TEXT_FIELD_WIDTH = 74,
    /* making of a list from text: a store of this line reaches more words than reach at most allows, or takes its
       mode from a register that nothing above sets */
    STARAN_REFUSED_TEXT_REACH = 75,
    /* making of a list from text: this is no number below 2^64 in one to twenty digits */
    STARAN_REFUSED_TEXT_VALUE = 76,
    /* making of a list from text: an instruction above this search takes an item from outside, and would take the
       first of the items of this search */
    STARAN_REFUSED_TEXT_ITEM_ABOVE = 77
};

/* What a number means, in words: when it is given. A number that is never given has a sentence too; the pointer is never null.
 * It is compiled into its caller, so that libstaran.a holds proved functions alone. */
static inline const char *staran_meaning(uint32_t number)
{
    switch (number) {
    case STARAN_DONE:
        return "done";
    case STARAN_REFUSED_MEMORY_LENGTH:
        return "the memory is not 8,192 bytes";
    case STARAN_REFUSED_REGISTERS_LENGTH:
        return "the registers are not 100 bytes";
    case STARAN_REFUSED_LIST_LENGTH:
        return "the list is not a multiple of 8 bytes, or over 32,768; a step's instruction is not 8 bytes; a text "
               "makes over 4,096 instructions";
    case STARAN_REFUSED_ITEMS_LENGTH:
        return "the items are not a multiple of 32 bytes, or over 32,768; a text brings over 1,024 items";
    case STARAN_REFUSED_KIND:
        return "byte 0, the kind, is over 6";
    case STARAN_REFUSED_SOURCE:
        return "byte 1, the source: it is over 4; it is memory (0) for a store; it is not 0 for a resolve or for "
               "kind 6";
    case STARAN_REFUSED_NO_MODE:
        return "memory is touched and byte 2, the mode tag, is 0: no mode was given; or byte 2 of kind 6 is 0: no "
               "register is named";
    case STARAN_REFUSED_MODE_TAG:
        return "byte 2, the mode tag: it is over 3 where memory is touched; it is 1 or over 3 for kind 6";
    case STARAN_REFUSED_MODE_UNUSED:
        return "a byte that nothing uses is not 0: byte 2, 3 or 4 where memory is not touched, of kind 6 byte 4 "
               "alone; byte 3, the mode, where memory is touched with tag 2 or 3";
    case STARAN_REFUSED_LOGIC:
        return "byte 7: the choice is over 4 in logic; it is not 0 in any other kind";
    case STARAN_REFUSED_ITEMS_TOO_FEW:
        return "the items are too few: the place is the first instruction that lacks one";
    case STARAN_REFUSED_OUT_TOO_SHORT:
        return "the out buffer is too short: the place is the first instruction without room for its 32 bytes";
    case STARAN_REFUSED_MODE_UNSET:
        return "memory is touched with tag 2, register A, or tag 3, register B, and that register is not set: its "
               "flag is 0 at the start, and no earlier kind 6 set it";
    case STARAN_REFUSED_MODE_REGISTERS:
        return "the mode registers, as they are lent or as a picture of kind 4 has them: a flag is over 1, or a mode"
               " is not 0 though its flag is 0";
    case STARAN_REFUSED_GROUP_TOO_WIDE:
        return "byte 6, 16p + m: p is over 8, a group of more than 256 lines";
    case STARAN_REFUSED_SHIFT_NOT_BELOW:
        return "byte 6, 16p + m, is not 0, and m is not below p";
    case STARAN_REFUSED_MOVE_BARRED:
        return "a move that this kind may not make: byte 6, the shift, is not 0 on a store; byte 5, the flip, or "
               "byte 6 is not 0 on a resolve or on kind 6";
    case STARAN_REFUSED_FILE_LENGTH:
        return "the file has no bytes, is not a multiple of 512, or is over 34,304; in the program also: before.pic "
               "is absent, a file cannot be read (standard error says why), before.pic is over 17 blocks, run.lst or"
               " in.itm over 16";
    case STARAN_REFUSED_BLOCK_SUMS:
        return "the block's sums are not those of its bytes";
    case STARAN_REFUSED_BLOCK_KIND:
        return "the block is of another kind than the one asked for; or the kind asked for is not 1 to 4";
    case STARAN_REFUSED_BLOCK_NUMBER:
        return "the block's number is not its place, or its count is not that of the blocks there";
    case STARAN_REFUSED_BLOCK_FORM:
        return "the block's count of used payload is wrong, or a byte is not 0 that must be";
    case STARAN_REFUSED_CONTENT_SIZE:
        return "the content's size does not fit its kind: a picture 8,288 (kind 1) or 8,292 (kind 4); a list a "
               "multiple of 8, items a multiple of 32, at most 32,768";
    case STARAN_REFUSED_LENT_LENGTH:
        return "reading: the target is too short, or for a picture not exactly 8,192 and 96 bytes (kind 1) or 8,192 "
               "and 100 (kind 4); writing: the content is of a wrong size";
    case STARAN_REFUSED_OUTPUT_TOO_SHORT:
        return "the output is shorter than the blocks; for reach, than two bytes for each instruction; for a list "
               "shown as text, than the text";
    case STARAN_REFUSED_MODE_SET:
        return "a mode register is set in a picture of kind 4, and one of kind 1 has no place for it";
    case STARAN_REFUSED_WIDTH:
        return "the width n is not 1 to 64; for closing or spreading, not 1 to 32";
    case STARAN_REFUSED_FIELD_BEYOND:
        return "a start plus the width is over 256";
    case STARAN_REFUSED_FIELDS_CROSS:
        return "for a sum or difference, S overlaps A or B without having its start; for closing or spreading, S and"
               " A have a bit in common";
    case STARAN_REFUSED_LIST_TOO_SHORT:
        return "the list buffer is under 8(1 + 5n) bytes for a sum, 8(2 + 5n) for a difference, 8(2 + 3n) for a "
               "search for equal or less, 8(1 + 11n) for greatest, 8(10 + 19n) for closing, 8(1 + 18n) for "
               "spreading, 8 for each instruction that a text makes; or the items buffer is under 32n bytes for "
               "equal or less, 288 for closing, 32(1 + 8n) for spreading, 32 for each item that a text brings";
    case STARAN_REFUSED_NUMBER_TOO_LARGE:
        return "the number is 2^n or more, n being the width";
    case STARAN_REFUSED_MARKS_LENGTH:
        return "the marks are not 32 bytes";
    case STARAN_REFUSED_NOT_ISOLATED:
        return "the instruction at the place breaks the condition under which one station cannot disturb another: "
               "its kind is not 0 to 3 or 6; byte 5, the flip, or byte 6, the shift, is not 0; or it touches memory "
               "and its mode is not 0, or none is given";
    case STARAN_REFUSED_TEXT_LENGTH:
        return "the text has over 1,048,576 characters";
    case STARAN_REFUSED_TEXT_NAME:
        return "no instruction and no statement has this name";
    case STARAN_REFUSED_TEXT_CHOICE:
        return "there is no such choice";
    case STARAN_REFUSED_TEXT_FUNCTION:
        return "there is no such function";
    case STARAN_REFUSED_TEXT_SOURCE:
        return "there is no such source, place or mode register";
    case STARAN_REFUSED_TEXT_NUMBER:
        return "a number 0 to 255 has to stand here, or, behind mode, such a number or a or b; behind reach at most "
               "a number 1 to 256";
    case STARAN_REFUSED_TEXT_WORD:
        return "address, from, mod, into, at, most or word has to stand here";
    case STARAN_REFUSED_TEXT_SHIFT:
        return "there is no such shift";
    case STARAN_REFUSED_TEXT_TOO_MUCH:
        return "this is more than the line takes";
    case STARAN_REFUSED_TEXT_BYTE:
        return "this is no byte of two hex digits";
    case STARAN_REFUSED_TEXT_TOO_EARLY:
        return "the line ends too early";
    case STARAN_REFUSED_TEXT_FIELD_NAME:
        return "this is no name of a field: it has over eight characters, or one that no word has";
    case STARAN_REFUSED_TEXT_FIELD_TWICE:
        return "a field above has this name";
    case STARAN_REFUSED_TEXT_FIELDS_TOO_MANY:
        return "256 fields have names already";
    case STARAN_REFUSED_TEXT_FIELD_UNKNOWN:
        return "no field above has this name";
    case STARAN_REFUSED_TEXT_FIELD_WIDTH:
        return "this field is not as wide as the first of the line";
    case STARAN_REFUSED_TEXT_REACH:
        return "a store of this line reaches more words than reach at most allows, or takes its mode from a register"
               " that nothing above sets";
    case STARAN_REFUSED_TEXT_VALUE:
        return "this is no number below 2^64 in one to twenty digits";
    case STARAN_REFUSED_TEXT_ITEM_ABOVE:
        return "an instruction above this search takes an item from outside, and would take the first of the items "
               "of this search";
    default:
        return "no such number is ever given";
    }
}

#endif
