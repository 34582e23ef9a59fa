/* How many words each instruction of a list reaches, and the list's text. */
#include "plain.h"

#include <string.h>

enum { MODES = 96, MOST = 32768, LINE = 192 };

static int stores(const uint8_t *i) { return i[0] == 2 || i[0] == 3; }
static int wrong_register(const uint8_t r[2]) { return r[0] > 1 || (r[0] == 0 && r[1] != 0); }

/* A kind 6 sets the register that its tag names, also one that a run refuses. */
static void set_mode(uint8_t modes[4], const uint8_t *i)
{
    if (i[0] == 6 && (i[2] == 2 || i[2] == 3)) {
        modes[2 * (i[2] - 2)] = 1;
        modes[2 * (i[2] - 2) + 1] = i[3];
    }
}

/* Of a store that stands but for 14: 2 to the number of the mode's zero bits; 0 where its register is not set. */
static uint32_t reached(const uint8_t modes[4], const uint8_t *i)
{
    uint32_t words = 1;
    if (i[2] != 1 && modes[2 * (i[2] - 2)] == 0)
        return 0;
    for (unsigned zeros = 255u - (i[2] == 1 ? i[3] : modes[2 * (i[2] - 2) + 1]); zeros != 0; zeros &= zeros - 1)
        words *= 2;
    return words;
}

/* A store that no byte of its own has a run refuse. */
static int store_stands(const uint8_t *i)
{
    return i[1] - 1u < 4 && (i[6] | i[7]) == 0 && (i[2] == 1 || ((i[2] == 2 || i[2] == 3) && i[3] == 0));
}

void staran_reach(const uint8_t *registers, size_t registers_length, const uint8_t *list, size_t list_length, uint8_t *out, size_t out_length,
                  uint32_t answer[STARAN_REACH_NUMBERS])
{
    uint8_t modes[4];
    const size_t count = list_length / 8;
    answer[0] = registers_length != REGISTERS                                                ? STARAN_REFUSED_REGISTERS_LENGTH
                : list_length % 8 != 0 || list_length > MOST                                 ? STARAN_REFUSED_LIST_LENGTH
                : wrong_register(registers + MODES) || wrong_register(registers + MODES + 2) ? STARAN_REFUSED_MODE_REGISTERS
                : out_length < 2 * count                                                     ? STARAN_REFUSED_OUTPUT_TOO_SHORT
                                                                                             : STARAN_DONE;
    answer[1] = 0;
    if (answer[0] != STARAN_DONE)
        return;
    memcpy(modes, registers + MODES, sizeof modes);
    for (size_t k = 0; k < count; k++) {
        const uint8_t *i = list + 8 * k;
        uint32_t words = 0;
        if (!stores(i))
            set_mode(modes, i);
        else if (store_stands(i))
            words = reached(modes, i);
        out[2 * k] = (uint8_t)words;
        out[2 * k + 1] = (uint8_t)(words >> 8);
    }
    answer[1] = (uint32_t)(2 * count);
}

/* ---- with what number an instruction is refused by its own bytes, and the first byte that is wrong by it; 0 and 0 where it is not */

static uint32_t refused_at(uint32_t *byte, uint32_t at, uint32_t number)
{
    *byte = at;
    return number;
}

static uint32_t refused(const uint8_t *i, uint32_t *byte)
{
    const int sets = i[0] == 6, alone = sets || i[0] == 5, touches = stores(i) || (!alone && i[1] == 0);
    if (i[0] > 6)
        return refused_at(byte, 0, STARAN_REFUSED_KIND);
    if (alone ? i[1] != 0 : i[1] > 4 || (stores(i) && i[1] == 0))
        return refused_at(byte, 1, STARAN_REFUSED_SOURCE);
    if ((touches || sets) && i[2] == 0)
        return refused_at(byte, 2, STARAN_REFUSED_NO_MODE);
    if ((touches || sets) && (i[2] > 3 || (sets && i[2] == 1)))
        return refused_at(byte, 2, STARAN_REFUSED_MODE_TAG);
    if (!touches && !sets && (i[2] | i[3] | i[4]) != 0)
        return refused_at(byte, i[2] != 0 ? 2 : i[3] != 0 ? 3 : 4, STARAN_REFUSED_MODE_UNUSED);
    if (touches ? i[2] != 1 && i[3] != 0 : sets && i[4] != 0)
        return refused_at(byte, touches ? 3 : 4, STARAN_REFUSED_MODE_UNUSED);
    if (alone && i[5] != 0)
        return refused_at(byte, 5, STARAN_REFUSED_MOVE_BARRED);
    if ((alone || stores(i)) && i[6] != 0)
        return refused_at(byte, 6, STARAN_REFUSED_MOVE_BARRED);
    if (!plain_is_code(i[6]))
        return refused_at(byte, 6, plain_unlisted(i[6]));
    if (i[0] == 0 ? i[7] >= 80 : i[7] != 0)
        return refused_at(byte, 7, STARAN_REFUSED_LOGIC);
    return refused_at(byte, 0, STARAN_DONE);
}

/* ---- a line: each part is put behind those before it, and says where the next goes */

static uint8_t *put(uint8_t *at, const char *words)
{
    while (*words != 0)
        *at++ = (uint8_t)*words++;
    return at;
}

static uint8_t *put_number(uint8_t *at, uint32_t number)
{
    if (number >= 100)
        *at++ = (uint8_t)('0' + number / 100);
    if (number >= 10)
        *at++ = (uint8_t)('0' + number / 10 % 10);
    *at++ = (uint8_t)('0' + number % 10);
    return at;
}

static uint8_t *put_numbered(uint8_t *at, const char *words, uint32_t number) { return put_number(put(at, words), number); }

static uint8_t *put_place(uint8_t *at, const uint8_t *i)
{
    if (i[2] == 1 && i[3] == 0)
        return put_numbered(at, " slice ", i[4]);
    if (i[2] == 1 && i[3] == 255)
        return put_numbered(at, " word ", i[4]);
    at = i[2] == 1 ? put_numbered(at, " mode ", i[3]) : put(at, i[2] == 2 ? " mode a" : " mode b");
    return put_numbered(at, " address ", i[4]);
}

static const char *const sources[] = {"", " m", " x", " y", " outside"};
static const char *const choices[] = {" x ", " y ", " both ", " x-if-y ", " x-if-y+y "};
static const char *const functions[] = {"zero", "nor", "2",    "not", "clear", "loadnot", "xor", "nand",
                                        "and",  "xnor", "load", "11",  "keep",  "ornot",   "or",  "one"};

static uint8_t *put_moves(uint8_t *at, const uint8_t *i)
{
    if (i[5] != 0)
        at = put_numbered(at, " flip ", i[5]);
    if (i[6] != 0)
        at = put_numbered(put_numbered(at, " shift ", 1u << (i[6] & 15)), " mod ", 1u << (i[6] >> 4));
    return at;
}

static uint8_t *put_source(uint8_t *at, const uint8_t *i) { return put_moves(i[1] == 0 ? put_place(at, i) : put(at, sources[i[1]]), i); }

static uint8_t *put_reached(uint8_t *at, uint32_t words)
{
    if (words == 0)
        return put(at, " ; reaches ? words");
    return put(put_numbered(at, " ; reaches ", words), words == 1 ? " word" : " words");
}

static uint8_t *put_bytes(uint8_t *at, const uint8_t *i, uint32_t number, uint32_t byte)
{
    static const char digits[] = "0123456789ABCDEF";
    at = put(at, "bytes");
    for (int b = 0; b < 8; b++) {
        *at++ = ' ';
        *at++ = (uint8_t)digits[i[b] >> 4];
        *at++ = (uint8_t)digits[i[b] & 15];
    }
    return put_numbered(put_numbered(at, " ; refused ", number), " byte ", byte);
}

static uint8_t *put_instruction(uint8_t *at, const uint8_t modes[4], const uint8_t *i)
{
    uint32_t byte, number = refused(i, &byte);
    if (number != STARAN_DONE)
        return put_bytes(at, i, number, byte);
    switch (i[0]) {
    case 0:
        return put_source(put(put(put(at, "logic"), choices[i[7] >> 4]), functions[i[7] & 15]), i);
    case 1:
        return put_source(put(at, "setm"), i);
    case 2:
    case 3:
        at = put_place(put(at, i[0] == 2 ? "store" : "mstore"), i);
        return put_reached(put_moves(put(put(at, " from"), sources[i[1]]), i), reached(modes, i));
    case 4:
        return put_source(put(at, "deliver"), i);
    case 5:
        return put(at, "resolve");
    default:
        return put_numbered(at, i[2] == 2 ? "set a " : "set b ", i[3]);
    }
}

static size_t put_line(uint8_t *start, uint8_t modes[4], const uint8_t *i)
{
    uint8_t *at = put_instruction(start, modes, i);
    *at++ = '\n';
    set_mode(modes, i);
    return (size_t)(at - start);
}

/* The lines are made twice: how long they are is known before the first is written. */
void staran_show(const uint8_t *list, size_t list_length, uint8_t *text, size_t text_length, uint32_t answer[STARAN_SHOW_NUMBERS])
{
    uint8_t modes[4] = {0}, line[LINE];
    size_t length = 0, at = 0;
    answer[0] = list_length % 8 != 0 || list_length > MOST ? STARAN_REFUSED_LIST_LENGTH : STARAN_DONE;
    answer[1] = 0;
    if (answer[0] != STARAN_DONE)
        return;
    for (size_t k = 0; k < list_length; k += 8)
        length += put_line(line, modes, list + k);
    if (text_length < length) {
        answer[0] = STARAN_REFUSED_OUTPUT_TOO_SHORT;
        return;
    }
    memset(modes, 0, sizeof modes);
    for (size_t k = 0; k < list_length; k += 8)
        at += put_line(text + at, modes, list + k);
    answer[1] = (uint32_t)length;
}
