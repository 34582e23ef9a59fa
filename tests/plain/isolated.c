/* Whether a list is one in which no station can disturb another. */
#include "plain.h"

#include <string.h>

enum { MODES = 96 };

static int wrong_register(const uint8_t r[2]) { return r[0] > 1 || (r[0] == 0 && r[1] != 0); }
static int holds_zero(const uint8_t r[2]) { return r[0] == 1 && r[1] == 0; }

static int mode_zero(const uint8_t modes[4], const uint8_t *i)
{
    return (i[2] == 1 && i[3] == 0) || (i[2] == 2 && holds_zero(modes)) || (i[2] == 3 && holds_zero(modes + 2));
}

static int touches(const uint8_t *i) { return i[0] == 2 || i[0] == 3 || (i[1] == 0 && i[0] <= 1); }

static int breaks(const uint8_t modes[4], const uint8_t *i)
{
    return (i[0] > 3 && i[0] != 6) || (i[5] | i[6]) != 0 || (touches(i) && !mode_zero(modes, i));
}

void staran_isolated(const uint8_t *list, size_t list_length, const uint8_t *registers, size_t registers_length, uint32_t answer[STARAN_ISOLATED_NUMBERS])
{
    uint8_t modes[4];
    answer[0] = registers_length != REGISTERS                                                ? STARAN_REFUSED_REGISTERS_LENGTH
                : list_length % 8 != 0 || list_length > 32768                                ? STARAN_REFUSED_LIST_LENGTH
                : wrong_register(registers + MODES) || wrong_register(registers + MODES + 2) ? STARAN_REFUSED_MODE_REGISTERS
                                                                                             : STARAN_DONE;
    answer[1] = 0;
    if (answer[0] != STARAN_DONE)
        return;
    memcpy(modes, registers + MODES, sizeof modes);
    for (uint32_t k = 0; k < list_length / 8; k++) {
        const uint8_t *i = list + 8 * k;
        if (breaks(modes, i)) {
            answer[0] = STARAN_REFUSED_NOT_ISOLATED;
            answer[1] = k;
            return;
        }
        if (i[0] == 6 && (i[2] == 2 || i[2] == 3)) {
            modes[2 * (i[2] - 2)] = 1;
            modes[2 * (i[2] - 2) + 1] = i[3];
        }
    }
}
