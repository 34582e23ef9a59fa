/* Makes one call of the plain C's memory some times, so that its executed instructions can be counted:
 *     memory load|store|masked-store MODE ADDRESS TIMES
 * tests/count-memory runs it. */
#include "plain.h"

#include <stdio.h>
#include <stdlib.h>
#include <string.h>

static uint8_t memory[MEMORY], item[ITEM], mask[ITEM];

int main(int count, char **words)
{
    if (count != 5) {
        fputs("usage: memory load|store|masked-store MODE ADDRESS TIMES\n", stderr);
        return 2;
    }
    uint8_t mode = (uint8_t)atoi(words[2]), address = (uint8_t)atoi(words[3]);
    for (size_t i = 0; i < sizeof memory; i++)
        memory[i] = (uint8_t)(i * 167 + i / 256);
    memcpy(item, memory + 7, sizeof item);
    memcpy(mask, memory + 99, sizeof mask);
    for (int times = atoi(words[4]); times > 0; times--)
        if (strcmp(words[1], "load") == 0)
            plain_load(memory, mode, address, item);
        else if (strcmp(words[1], "store") == 0)
            plain_store(memory, mode, address, item);
        else
            plain_store_masked(memory, mode, address, item, mask);
    return 0;
}
