/* Loads, stores and words in plain order. Location B of chip C holds bit B of word B xor C; eight neighbouring lines meet eight neighbouring chips, at one byte of each. */
#include "plain.h"

#include <string.h>

/* The byte at which the chips of a group are read, and the bit of it for chip t. */
static unsigned byte_at(unsigned mode, unsigned address, unsigned group) { return address / 8 ^ (mode / 8 & group); }
static unsigned place_of(unsigned mode, unsigned address, unsigned t) { return address % 8 ^ (mode % 8 & t); }

static void read_all(const uint8_t *restrict memory, unsigned mode, unsigned address, uint8_t bytes[restrict 8][ITEM])
{
    for (unsigned i = 0; i < ITEM; i++) {
        unsigned group = address / 8 ^ i;
        const uint8_t *from = memory + 256 * group + byte_at(mode, address, group);
        for (unsigned t = 0; t < 8; t++)
            bytes[t][i] = from[32 * t];
    }
}

/* Each byte of `out` with digit `to` set where the byte of the lane has digit `from`. */
static void gather(uint8_t out[restrict 32], const uint8_t lane[restrict 32], uint8_t from, uint8_t to)
{
    for (unsigned i = 0; i < ITEM; i++)
        out[i] |= lane[i] & from ? to : 0;
}

void plain_load(const uint8_t *memory, uint8_t mode, uint8_t address, uint8_t item[32])
{
    uint8_t bytes[8][ITEM], out[ITEM] = {0};
    read_all(memory, mode, address, bytes);
    for (unsigned j = 0; j < 8; j++) {
        unsigned t = address % 8 ^ j;
        uint8_t from = (uint8_t)(1u << place_of(mode, address, t)), to = (uint8_t)(1u << j);
        gather(out, bytes[t], from, to);
    }
    memcpy(item, out, ITEM);
}

/* For each chip, what its line writes there. */
static void spread(const uint8_t item[restrict 32], unsigned mode, unsigned address, uint8_t lanes[restrict 8][ITEM])
{
    for (unsigned t = 0; t < 8; t++) {
        uint8_t from = (uint8_t)(1u << (address % 8 ^ t)), to = (uint8_t)(1u << place_of(mode, address, t));
        for (unsigned i = 0; i < ITEM; i++)
            lanes[t][i] = item[i] & from ? to : 0;
    }
}

/* For each chip, what stays there where the lines of the mask write. */
static void kept(const uint8_t mask[restrict 32], unsigned mode, unsigned address, uint8_t lanes[restrict 8][ITEM])
{
    for (unsigned t = 0; t < 8; t++) {
        uint8_t from = (uint8_t)(1u << (address % 8 ^ t)), but = (uint8_t)~(1u << place_of(mode, address, t));
        for (unsigned i = 0; i < ITEM; i++)
            lanes[t][i] = mask[i] & from ? but : 255;
    }
}

void plain_store(uint8_t *restrict memory, uint8_t mode, uint8_t address, const uint8_t item[restrict 32])
{
    uint8_t put[8][ITEM], keep[8];
    spread(item, mode, address, put);
    for (unsigned t = 0; t < 8; t++)
        keep[t] = (uint8_t)~(1u << place_of(mode, address, t));
    for (unsigned i = 0; i < ITEM; i++) {
        unsigned group = address / 8u ^ i;
        uint8_t *to = memory + 256 * group + byte_at(mode, address, group);
        for (unsigned t = 0; t < 8; t++)
            to[32 * t] = (to[32 * t] & keep[t]) | put[t][i];
    }
}

void plain_store_masked(uint8_t *restrict memory, uint8_t mode, uint8_t address, const uint8_t item[restrict 32], const uint8_t mask[restrict 32])
{
    uint8_t put[8][ITEM], keep[8][ITEM], both[ITEM];
    for (unsigned i = 0; i < ITEM; i++)
        both[i] = item[i] & mask[i];
    spread(both, mode, address, put);
    kept(mask, mode, address, keep);
    for (unsigned i = 0; i < ITEM; i++) {
        unsigned group = address / 8u ^ i;
        uint8_t *to = memory + 256 * group + byte_at(mode, address, group);
        for (unsigned t = 0; t < 8; t++)
            to[32 * t] = (to[32 * t] & keep[t][i]) | put[t][i];
    }
}

/* Eight rows turned: digit j of row a comes from row a xor j. Its own inverse. */
static void turn(const uint8_t rows[restrict 8][ITEM], uint8_t turned[restrict 8][ITEM])
{
    for (unsigned a = 0; a < 8; a++) {
        uint8_t out[ITEM] = {0};
        for (unsigned j = 0; j < 8; j++)
            for (unsigned i = 0; i < ITEM; i++)
                out[i] |= rows[a ^ j][i] & (1u << j);
        memcpy(turned[a], out, ITEM);
    }
}

void plain_words_out(const uint8_t *restrict memory, unsigned eight, uint8_t words[restrict 256])
{
    uint8_t bytes[8][ITEM], turned[8][ITEM];
    read_all(memory, 255, 8 * eight, bytes);
    turn(bytes, turned);
    memcpy(words, turned, 256);
}

void plain_words_in(uint8_t *restrict memory, unsigned eight, const uint8_t words[restrict 256])
{
    uint8_t rows[8][ITEM], turned[8][ITEM];
    memcpy(rows, words, 256);
    turn(rows, turned);
    for (unsigned i = 0; i < ITEM; i++)
        for (unsigned t = 0; t < 8; t++)
            memory[32 * (8 * (eight ^ i) + t) + i] = turned[t][i];
}
