/* A pass of an item, in arithmetic and in wired form. */
#include "plain.h"

#include <string.h>

static const uint8_t codes[37] = {0,  16, 32, 33, 48,  49,  50,  64,  65,  66,  67,  80,  81,  82,  83,  84,  96,  97, 98,
                                  99, 100, 101, 112, 113, 114, 115, 116, 117, 118, 128, 129, 130, 131, 132, 133, 134, 135};

static unsigned find(uint8_t code)
{
    unsigned i = 0;
    while (i < 37 && codes[i] != code)
        i++;
    return i;
}

int plain_is_code(uint8_t code) { return find(code) < 37; }

/* The number of a code that is none of the 37. */
uint32_t plain_unlisted(uint8_t code) { return code / 16 > 8 ? STARAN_REFUSED_GROUP_TOO_WIDE : STARAN_REFUSED_SHIFT_NOT_BELOW; }

/* A pass works on the item's quarters: line 64i + k is bit k of quarter i. The bytes are written out, since of that gcc makes one load or store, and of a loop
 * it does not. */
enum { QUARTERS = 4 };

static uint64_t quarter_at(const uint8_t at[8])
{
    return (uint64_t)at[0] | (uint64_t)at[1] << 8 | (uint64_t)at[2] << 16 | (uint64_t)at[3] << 24 | (uint64_t)at[4] << 32 | (uint64_t)at[5] << 40 |
           (uint64_t)at[6] << 48 | (uint64_t)at[7] << 56;
}

static void put_quarter(uint8_t at[8], uint64_t q)
{
    at[0] = (uint8_t)q, at[1] = (uint8_t)(q >> 8), at[2] = (uint8_t)(q >> 16), at[3] = (uint8_t)(q >> 24);
    at[4] = (uint8_t)(q >> 32), at[5] = (uint8_t)(q >> 40), at[6] = (uint8_t)(q >> 48), at[7] = (uint8_t)(q >> 56);
}

static void quarters_of(const uint8_t item[32], uint64_t quarters[4])
{
    for (unsigned i = 0; i < QUARTERS; i++)
        quarters[i] = quarter_at(item + 8 * i);
}

static void lines_of(const uint64_t quarters[4], uint8_t item[32])
{
    for (unsigned i = 0; i < QUARTERS; i++)
        put_quarter(item + 8 * i, quarters[i]);
}

/* Exchanges the lines of each quarter that differ in one digit, whose weight is `by`. */
static void exchange(uint64_t quarters[4], uint64_t mask, unsigned by)
{
    for (unsigned i = 0; i < QUARTERS; i++)
        quarters[i] = (quarters[i] & mask) << by | (quarters[i] >> by & mask);
}

static void flip_quarters(uint64_t quarters[4], uint8_t flip)
{
    static const uint64_t masks[6] = {0x5555555555555555, 0x3333333333333333, 0x0F0F0F0F0F0F0F0F, 0x00FF00FF00FF00FF, 0x0000FFFF0000FFFF, 0x00000000FFFFFFFF};
    uint64_t turned[QUARTERS];
    for (unsigned j = 0; j < 6; j++)
        if (flip >> j & 1)
            exchange(quarters, masks[j], 1u << j);
    memcpy(turned, quarters, sizeof turned);
    for (unsigned i = 0; i < QUARTERS; i++)
        quarters[i] = turned[i ^ flip / 64];
}

/* 2^e lines as places in a quarter, at most its 64; as quarters, at least one; and the lowest n lines of a quarter. */
static unsigned places(unsigned e) { return e < 6 ? 1u << e : 64; }
static unsigned span(unsigned e) { return e < 6 ? 1 : 1u << (e - 6); }
static uint64_t ones(unsigned n) { return UINT64_MAX >> (64 - n); }

/* Shift by 2^m modulo 2^p: each quarter moves up, and the places that this leaves free are filled from the quarter below, or from the one that wraps round. */
static void shift(uint64_t quarters[4], unsigned p, unsigned m)
{
    unsigned up = places(m), all = places(p), back = span(m), ahead = span(p) - back;
    uint64_t left = UINT64_MAX / ones(all) * ones(up), from[QUARTERS];
    memcpy(from, quarters, sizeof from);
    for (unsigned i = 0; i < QUARTERS; i++) {
        uint64_t moved = from[i] << up % 64, comes = from[(i & ahead) == 0 ? i + ahead : i - back] >> (all - up);
        quarters[i] = moved ^ ((moved ^ comes) & left);
    }
}

void plain_pass(const uint8_t item[32], uint8_t flip, uint8_t code, uint8_t out[32])
{
    uint64_t quarters[QUARTERS];
    if ((flip | code) == 0) {
        memcpy(out, item, ITEM);
        return;
    }
    quarters_of(item, quarters);
    flip_quarters(quarters, flip);
    if (code != 0)
        shift(quarters, code / 16, code % 16);
    lines_of(quarters, out);
}

void staran_pass(const uint8_t item[32], uint8_t flip, uint8_t code, uint8_t passed[32], uint32_t answer[1])
{
    answer[0] = plain_is_code(code) ? STARAN_DONE : plain_unlisted(code);
    if (answer[0] == STARAN_DONE)
        plain_pass(item, flip, code, passed);
    else
        memset(passed, 0, ITEM);
}

static unsigned significant(unsigned x)
{
    unsigned count = 0;
    for (; x != 0; x /= 2)
        count++;
    return count;
}

/* Line I obeys, in level j, the signal whose number is the count of significant bits in I mod 2^j. */
static unsigned level_line(unsigned p, unsigned m, uint8_t flip, unsigned j, unsigned line)
{
    unsigned k = significant(line % (1u << j)), signal = m <= j && j < p && k <= m;
    return (signal ^ (flip >> j & 1u)) != 0 ? line ^ 1u << j : line;
}

void staran_wired_pass(const uint8_t item[32], uint8_t flip, uint8_t code, uint8_t passed[32], uint32_t answer[1])
{
    uint8_t lines[ITEM], next[ITEM];
    answer[0] = plain_is_code(code) ? STARAN_DONE : plain_unlisted(code);
    if (answer[0] != STARAN_DONE) {
        memset(passed, 0, ITEM);
        return;
    }
    memcpy(lines, item, ITEM);
    for (unsigned j = 0; j < 8; j++) {
        memset(next, 0, ITEM);
        for (unsigned line = 0; line < 256; line++) {
            unsigned from = level_line(code / 16, code % 16, flip, j, line);
            next[line / 8] |= (uint8_t)((lines[from / 8] >> from % 8 & 1u) << line % 8);
        }
        memcpy(lines, next, ITEM);
    }
    memcpy(passed, lines, ITEM);
}
