/* Numbers that are drawn, by xorshift, mode registers, and the marks of an item. */
#include "draw.h"

uint64_t draw(void)
{
    static uint64_t x = 20260801;
    x ^= x << 13;
    x ^= x >> 7;
    x ^= x << 17;
    return x;
}

void draw_bytes(uint8_t *bytes, size_t length)
{
    for (size_t i = 0; i < length; i++)
        bytes[i] = (uint8_t)draw();
}

const uint8_t *draw_modes(void)
{
    static uint8_t modes[4];
    for (int r = 0; r < 4; r += 2) {
        modes[r] = draw() % 3 != 0;
        modes[r + 1] = (uint8_t)(modes[r] * draw());
    }
    return modes;
}

int marked(const uint8_t *item, int w) { return item[w / 8] >> w % 8 & 1; }
void mark(uint8_t *item, int w) { item[w / 8] |= (uint8_t)(1 << w % 8); }
