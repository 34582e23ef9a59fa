/* The builders of the lists that close up a field of the marked words and spread it back, with their items. */
#include "plain.h"

#include <string.h>

enum { WORDS = 256 };

static int beyond(uint64_t start, uint64_t n) { return start + n > 256; }
static int meets(uint64_t a, uint64_t s, uint64_t n) { return s < a + n && a < s + n; }

static uint32_t fault(uint32_t a, uint32_t s, uint32_t n, size_t marks, int room)
{
    return marks != ITEM                  ? STARAN_REFUSED_MARKS_LENGTH
           : n < 1 || n > 32              ? STARAN_REFUSED_WIDTH
           : beyond(a, n) || beyond(s, n) ? STARAN_REFUSED_FIELD_BEYOND
           : meets(a, s, n)               ? STARAN_REFUSED_FIELDS_CROSS
           : !room                        ? STARAN_REFUSED_LIST_TOO_SHORT
                                          : STARAN_DONE;
}

/* ---- the masks */

static int marked(const uint8_t *marks, size_t w) { return marks[w / 8] >> w % 8 & 1; }
static void add_line(uint8_t *item, size_t p) { item[p / 8] = (uint8_t)(item[p / 8] + (1u << p % 8)); }

/* The words at which values arrive in the round of weight 2^t, where they go to their places of u. */
static void arrivals(const uint8_t *marks, unsigned t, unsigned u, uint8_t item[restrict 32])
{
    size_t rank = 0;
    memset(item, 0, ITEM);
    for (size_t w = 0; w < WORDS; w++)
        if (marked(marks, w)) {
            size_t d = w - rank;
            if (d >> t & 1)
                add_line(item, w - d % ((size_t)1 << u));
            rank++;
        }
}

static void put_closing_items(uint8_t *items, const uint8_t *marks)
{
    size_t count = 0;
    for (unsigned t = 0; t < 8; t++)
        arrivals(marks, t, t + 1, items + ITEM * t);
    for (size_t i = 0; i < ITEM; i++)
        count += (size_t)__builtin_popcount(marks[i]);
    memset(items + ITEM * 8, 0, ITEM);
    for (; count < WORDS; count++)
        add_line(items + ITEM * 8, count);
}

/* Each slice behind the first has the masks of the slice before. */
static void put_spreading_items(uint8_t *items, const uint8_t *marks, uint32_t n)
{
    memcpy(items, marks, ITEM);
    for (unsigned k = 0; k < 8; k++)
        arrivals(marks, 7 - k, 7 - k, items + ITEM * (1 + k));
    for (size_t k = 9; k < 1 + 8 * (size_t)n; k++)
        memcpy(items + ITEM * k, items + ITEM * (k - 8), ITEM);
}

/* ---- the lists */

static uint8_t *put(uint8_t *at, uint8_t kind, uint8_t source, uint8_t tag, uint8_t address, uint8_t flip, uint8_t code, uint8_t byte7)
{
    const uint8_t instruction[8] = {kind, source, tag, 0, address, flip, code, byte7};
    memcpy(at, instruction, 8);
    return at + 8;
}

/* A to S; then S closed up in the rounds of weight 1 to 128; then zero into the words that are left. */
static size_t put_closing(uint8_t *list, uint32_t a, uint32_t s, uint32_t n)
{
    uint8_t *at = list;
    for (uint32_t k = 0; k < n; k++) {
        at = put(at, 0, 0, 1, (uint8_t)(a + k), 0, 0, 0x0A);
        at = put(at, 2, 2, 1, (uint8_t)(s + k), 0, 0, 0);
    }
    for (unsigned t = 0; t < 8; t++) {
        at = put(at, 1, 4, 0, 0, 0, 0, 0);
        for (uint32_t k = 0; k < n; k++) {
            at = put(at, 0, 0, 1, (uint8_t)(s + k), 255, (uint8_t)(0x80 + t), 0x0A);
            at = put(at, 3, 2, 1, (uint8_t)(s + k), 255, 0, 0);
        }
    }
    at = put(at, 1, 4, 0, 0, 0, 0, 0);
    at = put(at, 0, 2, 0, 0, 0, 0, 0);
    for (uint32_t k = 0; k < n; k++)
        at = put(at, 3, 2, 1, (uint8_t)(s + k), 0, 0, 0);
    return (size_t)(at - list);
}

/* A slice of S at a time, in X, by the rounds of weight 128 to 1, and then into A of the marked words. */
static size_t put_spreading(uint8_t *list, uint32_t a, uint32_t s, uint32_t n)
{
    uint8_t *at = put(list, 1, 4, 0, 0, 0, 0, 0);
    for (uint32_t k = 0; k < n; k++) {
        at = put(at, 0, 0, 1, (uint8_t)(s + k), 0, 0, 0x0A);
        for (unsigned round = 0; round < 8; round++) {
            at = put(at, 0, 4, 0, 0, 0, 0, 0x1A);
            at = put(at, 0, 2, 0, 0, 0, (uint8_t)(0x80 + 7 - round), 0x3A);
        }
        at = put(at, 3, 2, 1, (uint8_t)(a + k), 0, 0, 0);
    }
    return (size_t)(at - list);
}

void staran_closing_list(uint32_t a, uint32_t s, uint32_t n, const uint8_t *marks, size_t marks_length, uint8_t *list, size_t list_length, uint8_t *items,
                         size_t items_length, uint32_t answer[3])
{
    answer[0] = fault(a, s, n, marks_length, list_length >= STARAN_CLOSING_LIST_BYTES(n) && items_length >= STARAN_CLOSING_ITEMS_BYTES);
    answer[1] = answer[2] = 0;
    if (answer[0] != STARAN_DONE)
        return;
    answer[1] = (uint32_t)put_closing(list, a, s, n);
    put_closing_items(items, marks);
    answer[2] = STARAN_CLOSING_ITEMS_BYTES;
}

void staran_spreading_list(uint32_t a, uint32_t s, uint32_t n, const uint8_t *marks, size_t marks_length, uint8_t *list, size_t list_length, uint8_t *items,
                           size_t items_length, uint32_t answer[3])
{
    answer[0] = fault(a, s, n, marks_length, list_length >= STARAN_SPREADING_LIST_BYTES(n) && items_length >= STARAN_SPREADING_ITEMS_BYTES(n));
    answer[1] = answer[2] = 0;
    if (answer[0] != STARAN_DONE)
        return;
    answer[1] = (uint32_t)put_spreading(list, a, s, n);
    put_spreading_items(items, marks, n);
    answer[2] = (uint32_t)STARAN_SPREADING_ITEMS_BYTES(n);
}
