/* Numbers that are drawn, the same on every run, mode registers, and the marks of an item. */
#ifndef DRAW_H
#define DRAW_H

#include <stddef.h>
#include <stdint.h>

/* The next number. */
uint64_t draw(void);

/* So many bytes. */
void draw_bytes(uint8_t *bytes, size_t length);

/* Good mode registers, each set or not, until the next are drawn. */
const uint8_t *draw_modes(void);

/* Is word w marked in an item? And then it is. */
int marked(const uint8_t *item, int w);
void mark(uint8_t *item, int w);

#endif
