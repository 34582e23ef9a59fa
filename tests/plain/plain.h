/* The array's parts in plain C, on the same layout and by the same loops as the proved crates: what tests/count-* hold the crates' executed instructions
 * against. Together these files define the functions of include/staran.h but staran_version; tests/plain/build.sh holds them to the outside cases, as tests/c/run
 * holds the library. */
#ifndef PLAIN_H
#define PLAIN_H

#include "staran.h"

enum { ITEM = STARAN_ITEM_BYTES, MEMORY = STARAN_MEMORY_BYTES, REGISTERS = STARAN_REGISTERS_BYTES, PICTURE_REGISTERS = STARAN_PICTURE_REGISTERS_BYTES };

/* memory.c */
void plain_load(const uint8_t *memory, uint8_t mode, uint8_t address, uint8_t item[32]);
void plain_store(uint8_t *restrict memory, uint8_t mode, uint8_t address, const uint8_t item[restrict 32]);
void plain_store_masked(uint8_t *restrict memory, uint8_t mode, uint8_t address, const uint8_t item[restrict 32], const uint8_t mask[restrict 32]);
void plain_words_out(const uint8_t *restrict memory, unsigned eight, uint8_t words[restrict 256]);
void plain_words_in(uint8_t *restrict memory, unsigned eight, const uint8_t words[restrict 256]);

/* network.c */
int plain_is_code(uint8_t code);
uint32_t plain_unlisted(uint8_t code);
void plain_pass(const uint8_t item[32], uint8_t flip, uint8_t code, uint8_t out[32]);

#endif
