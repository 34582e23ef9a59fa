/* The builders of lists: sum and difference, and the searches for equal, less and greatest. */
#include "plain.h"

#include <string.h>

static int wrong_width(uint32_t n) { return n < 1 || n > 64; }
static int beyond(uint64_t start, uint64_t n) { return start + n > 256; }
static int crosses(uint64_t s, uint64_t a, uint64_t n) { return s != a && s < a + n && a < s + n; }

static uint8_t *put(uint8_t *at, uint8_t kind, uint8_t source, uint8_t tag, uint8_t address, uint8_t byte7)
{
    const uint8_t instruction[8] = {kind, source, tag, 0, address, 0, 0, byte7};
    memcpy(at, instruction, 8);
    return at + 8;
}

/* Logic with X, flipped. */
static uint8_t *put_flipped(uint8_t *at, uint8_t flip, uint8_t byte7)
{
    const uint8_t instruction[8] = {0, 2, 0, 0, 0, flip, 0, byte7};
    memcpy(at, instruction, 8);
    return at + 8;
}

static void build(size_t lead, uint8_t function_b, uint32_t a, uint32_t b, uint32_t s, uint32_t n, uint8_t *list, size_t length, uint32_t answer[2])
{
    uint8_t *at = list;
    answer[0] = wrong_width(n)                                    ? STARAN_REFUSED_WIDTH
                : beyond(a, n) || beyond(b, n) || beyond(s, n)    ? STARAN_REFUSED_FIELD_BEYOND
                : crosses(s, a, n) || crosses(s, b, n)            ? STARAN_REFUSED_FIELDS_CROSS
                : length < 8 * (lead + 5 * (size_t)n)             ? STARAN_REFUSED_LIST_TOO_SHORT
                                                                  : STARAN_DONE;
    answer[1] = 0;
    if (answer[0] != STARAN_DONE)
        return;
    at = put(at, 0, 2, 0, 0, 0x20);
    if (lead == 2)
        at = put(at, 0, 2, 0, 0, 0x1F);
    for (uint32_t k = 0; k < n; k++) {
        at = put(at, 0, 0, 1, (uint8_t)(a + k), 0x46);
        at = put(at, 0, 0, 1, (uint8_t)(b + k), (uint8_t)(0x40 + function_b));
        at = put(at, 2, 3, 1, (uint8_t)(s + k), 0);
        at = put(at, 0, 2, 0, 0, 0x33);
        at = put(at, 0, 2, 0, 0, 0x26);
    }
    answer[1] = (uint32_t)(at - list);
}

void staran_sum_list(uint32_t a, uint32_t b, uint32_t s, uint32_t n, uint8_t *list, size_t list_length, uint32_t answer[2])
{
    build(1, 6, a, b, s, n, list, list_length, answer);
}

void staran_difference_list(uint32_t a, uint32_t b, uint32_t s, uint32_t n, uint8_t *list, size_t list_length, uint32_t answer[2])
{
    build(2, 9, a, b, s, n, list, list_length, answer);
}

/* Equal or less, from the lowest bit on: where the word's bit is another than the number's, the mark in X falls, or is 1 exactly if the word's bit is 0. */
static void search(int less, uint32_t start, uint32_t n, uint64_t number, uint8_t *list, size_t list_length, uint8_t *items, size_t items_length,
                   uint32_t answer[3])
{
    uint8_t *at = list;
    answer[0] = wrong_width(n)                                                                             ? STARAN_REFUSED_WIDTH
                : beyond(start, n)                                                                         ? STARAN_REFUSED_FIELD_BEYOND
                : n < 64 && number >> n != 0                                                               ? STARAN_REFUSED_NUMBER_TOO_LARGE
                : list_length < STARAN_SEARCH_LIST_BYTES(n) || items_length < STARAN_SEARCH_ITEMS_BYTES(n) ? STARAN_REFUSED_LIST_TOO_SHORT
                                                                                                           : STARAN_DONE;
    answer[1] = answer[2] = 0;
    if (answer[0] != STARAN_DONE)
        return;
    at = put(at, 0, 2, 0, 0, less ? 0x00 : 0x0F);
    for (uint32_t k = 0; k < n; k++) {
        uint8_t bit = (uint8_t)(start + k);
        at = put(at, 0, 4, 0, 0, 0x1A);
        at = put(at, 0, 0, 1, bit, 0x16);
        at = less ? put(at, 0, 0, 1, bit, 0x35) : put(at, 0, 2, 0, 0, 0x30);
        memset(items + ITEM * k, number >> k & 1 ? 255 : 0, ITEM);
    }
    at = put(at, 0, 2, 0, 0, 0x1A);
    answer[1] = (uint32_t)(at - list);
    answer[2] = ITEM * n;
}

void staran_equal_list(uint32_t start, uint32_t n, uint64_t number, uint8_t *list, size_t list_length, uint8_t *items, size_t items_length,
                       uint32_t answer[3])
{
    search(0, start, n, number, list, list_length, items, items_length, answer);
}

void staran_less_list(uint32_t start, uint32_t n, uint64_t number, uint8_t *list, size_t list_length, uint8_t *items, size_t items_length,
                      uint32_t answer[3])
{
    search(1, start, n, number, list, list_length, items, items_length, answer);
}

/* Greatest, from the highest bit on: X takes the bit of the marked words, is 1 on every line if it is on any, and then unmarks the words without the bit. */
void staran_greatest_list(uint32_t start, uint32_t n, uint8_t *list, size_t list_length, uint32_t answer[2])
{
    uint8_t *at = list;
    answer[0] = wrong_width(n)                                ? STARAN_REFUSED_WIDTH
                : beyond(start, n)                            ? STARAN_REFUSED_FIELD_BEYOND
                : list_length < STARAN_GREATEST_LIST_BYTES(n) ? STARAN_REFUSED_LIST_TOO_SHORT
                                                              : STARAN_DONE;
    answer[1] = 0;
    if (answer[0] != STARAN_DONE)
        return;
    at = put(at, 0, 2, 0, 0, 0x00);
    for (uint32_t k = n; k-- > 0;) {
        uint8_t bit = (uint8_t)(start + k);
        at = put(at, 0, 0, 1, bit, 0x3A);
        for (unsigned e = 0; e < 8; e++)
            at = put_flipped(at, (uint8_t)(1u << e), 0x0E);
        at = put(at, 0, 0, 1, bit, 0x04);
        at = put(at, 0, 2, 0, 0, 0x24);
    }
    answer[1] = (uint32_t)(at - list);
}
