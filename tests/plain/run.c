/* The judging of a list, its run and a step. */
#include "plain.h"

#include <string.h>

/* Where the mode registers stand in the register set: four bytes, flag and mode of A, then of B. */
enum { MODES = 96 };

static int stores(const uint8_t *i) { return i[0] == 2 || i[0] == 3; }
static int touches(const uint8_t *i) { return stores(i) || (i[1] == 0 && (i[0] == 0 || i[0] == 1 || i[0] == 4)); }
static int takes(const uint8_t *i) { return i[1] == 4; }
static int gives(const uint8_t *i) { return i[0] == 4 || i[0] == 5; }
static int by_register(const uint8_t *i) { return i[2] == 2 || i[2] == 3; }

/* What an instruction makes of the mode registers, and the mode under which it accesses memory. */
static void set_mode(uint8_t modes[4], const uint8_t *i)
{
    if (i[0] == 6) {
        modes[i[2] == 2 ? 0 : 2] = 1;
        modes[i[2] == 2 ? 1 : 3] = i[3];
    }
}

static uint8_t mode_of(const uint8_t modes[4], const uint8_t *i) { return i[2] == 2 ? modes[1] : i[2] == 3 ? modes[3] : i[3]; }

static int wrong_register(const uint8_t r[2]) { return r[0] > 1 || (r[0] == 0 && r[1] != 0); }

/* Where memory is touched: a mode given, or that of a register which is set. */
static int mode_fits(const uint8_t modes[4], const uint8_t *i)
{
    return i[2] == 1 || (i[2] == 2 && i[3] == 0 && modes[0] == 1) || (i[2] == 3 && i[3] == 0 && modes[2] == 1);
}

/* For kinds 0, 1 and 4: memory with a mode, or another source with none. */
static int source_fits(const uint8_t modes[4], const uint8_t *i)
{
    return i[1] == 0 ? mode_fits(modes, i) : i[1] <= 4 && (i[2] | i[3] | i[4]) == 0;
}

/* Has an instruction no number? It is asked of every one, kind by kind, with the mode registers before it; the number is made of the one that is refused. */
static int formed(const uint8_t modes[4], const uint8_t *i)
{
    if (i[0] == 5 || i[0] == 6 ? (i[5] | i[6]) != 0 : i[6] != 0 && (stores(i) || !plain_is_code(i[6])))
        return 0;
    if (i[0] == 0)
        return i[7] <= 79 && source_fits(modes, i);
    if (i[7] != 0 || i[0] > 6)
        return 0;
    if (stores(i))
        return i[1] != 0 && i[1] <= 4 && mode_fits(modes, i);
    if (i[0] == 5)
        return (i[1] | i[2] | i[3] | i[4]) == 0;
    if (i[0] == 6)
        return (i[1] | i[4]) == 0 && by_register(i);
    return source_fits(modes, i);
}

/* The number of an instruction that has one. */
static uint32_t fault(const uint8_t modes[4], const uint8_t *i)
{
    const int sets = i[0] == 6, alone = i[0] == 5 || sets;
    if (i[0] > 6)
        return STARAN_REFUSED_KIND;
    if (i[1] > 4 || (stores(i) && i[1] == 0) || (alone && i[1] != 0))
        return STARAN_REFUSED_SOURCE;
    if (touches(i) || sets) {
        if (i[2] == 0)
            return STARAN_REFUSED_NO_MODE;
        if (i[2] > 3 || (sets && i[2] == 1))
            return STARAN_REFUSED_MODE_TAG;
        if (sets ? i[4] != 0 : by_register(i) && i[3] != 0)
            return STARAN_REFUSED_MODE_UNUSED;
        if (!sets && !mode_fits(modes, i))
            return STARAN_REFUSED_MODE_UNSET;
    } else if ((i[2] | i[3] | i[4]) != 0)
        return STARAN_REFUSED_MODE_UNUSED;
    if ((stores(i) && i[6] != 0) || (alone && (i[5] | i[6]) != 0))
        return STARAN_REFUSED_MOVE_BARRED;
    if (!plain_is_code(i[6]))
        return plain_unlisted(i[6]);
    return STARAN_REFUSED_LOGIC;
}

/* The first byte that is wrong by that number. */
static uint32_t wrong_byte(uint32_t number, const uint8_t *i)
{
    switch (number) {
    case STARAN_REFUSED_KIND:
        return 0;
    case STARAN_REFUSED_SOURCE:
        return 1;
    case STARAN_REFUSED_NO_MODE:
    case STARAN_REFUSED_MODE_TAG:
    case STARAN_REFUSED_MODE_UNSET:
        return 2;
    case STARAN_REFUSED_MODE_UNUSED:
        return touches(i) ? 3 : i[0] == 6 ? 4 : i[2] != 0 ? 2 : i[3] != 0 ? 3 : 4;
    case STARAN_REFUSED_MOVE_BARRED:
        return (i[0] == 5 || i[0] == 6) && i[5] != 0 ? 5 : 6;
    case STARAN_REFUSED_LOGIC:
        return 7;
    default: /* a shift that is none of the 37 */
        return 6;
    }
}

/* The first instruction for which `have` bytes are too few. */
static uint32_t short_at(int (*wants)(const uint8_t *), const uint8_t *list, size_t have)
{
    uint32_t k = 0;
    for (size_t used = 0;; k++)
        if (wants(list + 8 * k)) {
            used += ITEM;
            if (have < used)
                return k;
        }
}

static void give(uint32_t answer[STARAN_RUN_NUMBERS], uint32_t number, uint32_t place, uint32_t byte, uint32_t steps, uint32_t taken, uint32_t given)
{
    answer[STARAN_ANSWER_NUMBER] = number;
    answer[STARAN_ANSWER_PLACE] = place;
    answer[STARAN_ANSWER_BYTE] = byte;
    answer[STARAN_ANSWER_STEPS] = steps;
    answer[STARAN_ANSWER_TAKEN] = taken;
    answer[STARAN_ANSWER_GIVEN] = given;
}

static void refuse(uint32_t answer[STARAN_RUN_NUMBERS], uint32_t number, uint32_t place, uint32_t byte) { give(answer, number, place, byte, 0, 0, 0); }

static void judge(size_t memory, const uint8_t *registers, size_t registers_length, const uint8_t *list, size_t length, size_t items, size_t out,
                  uint32_t answer[STARAN_RUN_NUMBERS])
{
    uint32_t number = memory != MEMORY                                                             ? STARAN_REFUSED_MEMORY_LENGTH
                      : registers_length != REGISTERS                                              ? STARAN_REFUSED_REGISTERS_LENGTH
                      : length % 8 != 0 || length > 32768                                          ? STARAN_REFUSED_LIST_LENGTH
                      : items % ITEM != 0 || items > 32768                                         ? STARAN_REFUSED_ITEMS_LENGTH
                      : wrong_register(registers + MODES) || wrong_register(registers + MODES + 2) ? STARAN_REFUSED_MODE_REGISTERS
                                                                                                   : STARAN_DONE;
    uint32_t taken = 0, given = 0;
    uint8_t modes[4];
    if (number != STARAN_DONE) {
        refuse(answer, number, 0, 0);
        return;
    }
    memcpy(modes, registers + MODES, sizeof modes);
    for (uint32_t k = 0; k < length / 8; k++) {
        const uint8_t *i = list + 8 * k;
        if (!formed(modes, i)) {
            number = fault(modes, i);
            refuse(answer, number, k, wrong_byte(number, i));
            return;
        }
        taken += (uint32_t)takes(i);
        given += (uint32_t)gives(i);
        set_mode(modes, i);
    }
    if (items < (size_t)ITEM * taken)
        refuse(answer, STARAN_REFUSED_ITEMS_TOO_FEW, short_at(takes, list, items), 0);
    else if (out < (size_t)ITEM * given)
        refuse(answer, STARAN_REFUSED_OUT_TOO_SHORT, short_at(gives, list, out), 0);
    else
        give(answer, STARAN_DONE, 0, 0, (uint32_t)(length / 8), taken, given);
}

/* Function bit 2r + f is the new bit for old bit r and passed bit f. Choice 0: X; 1: Y; 2: both; 3: X where Y is 1; 4: X where the old Y is 1, and Y everywhere. */
static uint8_t function_byte(const uint8_t mask[4], uint8_t old, uint8_t item)
{
    uint8_t zero = mask[0] ^ ((mask[0] ^ mask[1]) & item), one = mask[2] ^ ((mask[2] ^ mask[3]) & item);
    return zero ^ ((zero ^ one) & old);
}

static void logic(uint8_t x[restrict 32], uint8_t y[restrict 32], const uint8_t item[restrict 32], uint8_t byte7)
{
    uint8_t mask[4], nx[ITEM], ny[ITEM];
    unsigned choice = byte7 / 16;
    uint8_t at0 = choice == 0 || choice == 2 ? 255 : 0, at1 = choice != 1 ? 255 : 0, both = choice == 1 || choice == 2 || choice == 4 ? 255 : 0;
    for (unsigned k = 0; k < 4; k++)
        mask[k] = byte7 >> k & 1 ? 255 : 0;
    for (unsigned i = 0; i < ITEM; i++) {
        uint8_t chosen = at0 ^ ((at0 ^ at1) & y[i]);
        nx[i] = x[i] ^ ((x[i] ^ function_byte(mask, x[i], item[i])) & chosen);
        ny[i] = y[i] ^ ((y[i] ^ function_byte(mask, y[i], item[i])) & both);
    }
    memcpy(x, nx, ITEM);
    memcpy(y, ny, ITEM);
}

static unsigned smallest_responder(const uint8_t y[32])
{
    for (unsigned i = 0; i < ITEM; i++)
        if (y[i] != 0)
            return 8 * i + (unsigned)__builtin_ctz(y[i]);
    return STARAN_NO_RESPONDER;
}

static unsigned count_responders(const uint8_t y[32])
{
    unsigned count = 0;
    for (unsigned i = 0; i < ITEM; i++)
        count += (unsigned)__builtin_popcount(y[i]);
    return count;
}

/* Activity; the smallest responder, or 256; how many there are: both low byte first. */
static void resolve(const uint8_t y[32], uint8_t out[32])
{
    unsigned count = count_responders(y), smallest = smallest_responder(y);
    memset(out, 0, ITEM);
    out[0] = smallest < STARAN_NO_RESPONDER;
    out[1] = (uint8_t)smallest;
    out[2] = (uint8_t)(smallest >> 8);
    out[3] = (uint8_t)count;
    out[4] = (uint8_t)(count >> 8);
}

static void run_list(uint8_t *memory, uint8_t *m, uint8_t *x, uint8_t *y, uint8_t *modes, const uint8_t *list, size_t count, const uint8_t *items, uint8_t *out)
{
    for (const uint8_t *i = list; i < list + 8 * count; i += 8) {
        uint8_t item[ITEM];
        if (i[0] == 5) {
            resolve(y, out);
            out += ITEM;
            continue;
        }
        if (i[0] == 6) {
            set_mode(modes, i);
            continue;
        }
        if (i[1] == 0)
            plain_load(memory, mode_of(modes, i), i[4], item);
        else
            memcpy(item, i[1] == 1 ? m : i[1] == 2 ? x : i[1] == 3 ? y : items, ITEM);
        if (i[1] == 4)
            items += ITEM;
        if ((i[5] | i[6]) != 0)
            plain_pass(item, i[5], i[6], item);
        switch (i[0]) {
        case 0:
            logic(x, y, item, i[7]);
            break;
        case 1:
            memcpy(m, item, ITEM);
            break;
        case 2:
            plain_store(memory, mode_of(modes, i), i[4], item);
            break;
        case 3:
            plain_store_masked(memory, mode_of(modes, i), i[4], item, m);
            break;
        default:
            memcpy(out, item, ITEM);
            out += ITEM;
        }
    }
}

void staran_run_4(uint8_t *memory, size_t memory_length, uint8_t *registers, size_t registers_length, const uint8_t *list, size_t list_length,
                  const uint8_t *items, size_t items_length, uint8_t *out, size_t out_length, uint32_t answer[STARAN_RUN_NUMBERS])
{
    judge(memory_length, registers, registers_length, list, list_length, items_length, out_length, answer);
    if (answer[STARAN_ANSWER_NUMBER] == STARAN_DONE)
        run_list(memory, registers, registers + 32, registers + 64, registers + MODES, list, list_length / 8, items, out);
}

void staran_step_5(uint8_t *memory, size_t memory_length, staran_registers *registers, const uint8_t *instruction, size_t instruction_length,
                   const uint8_t *items, size_t items_length, uint8_t *out, size_t out_length, uint32_t answer[STARAN_RUN_NUMBERS])
{
    if (memory_length == MEMORY && instruction_length != 8)
        refuse(answer, STARAN_REFUSED_LIST_LENGTH, 0, 0);
    else
        judge(memory_length, (const uint8_t *)registers, REGISTERS, instruction, instruction_length, items_length, out_length, answer);
    if (answer[STARAN_ANSWER_NUMBER] == STARAN_DONE)
        run_list(memory, registers->m, registers->x, registers->y, (uint8_t *)registers + MODES, instruction, 1, items, out);
}
