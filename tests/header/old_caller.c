/* A caller of version 3.1, with the prototypes of its header: an answer had five numbers. It must not link with this library, which would write a sixth: tests/c/run. */
#include <stddef.h>
#include <stdint.h>

typedef struct {
    uint8_t m[32];
    uint8_t x[32];
    uint8_t y[32];
} staran_registers;

void staran_run(uint8_t *memory, size_t memory_length, uint8_t *registers, size_t registers_length, const uint8_t *list,
                size_t list_length, const uint8_t *items, size_t items_length, uint8_t *out, size_t out_length,
                uint32_t answer[5]);

void staran_step(uint8_t *memory, size_t memory_length, staran_registers *registers, const uint8_t *instruction,
                 size_t instruction_length, const uint8_t *items, size_t items_length, uint8_t *out, size_t out_length,
                 uint32_t answer[5]);

static uint8_t memory[8192], registers[96], out[32];
static staran_registers record;

int main(void)
{
    const uint8_t resolve[8] = {5, 0, 0, 0, 0, 0, 0, 0};
    uint32_t answer[5];
    staran_run(memory, sizeof memory, registers, sizeof registers, resolve, sizeof resolve, out, 0, out, sizeof out, answer);
    if (answer[0] != 0 || answer[2] != 1)
        return 1;
    staran_step(memory, sizeof memory, &record, resolve, sizeof resolve, out, 0, out, sizeof out, answer);
    return answer[0] != 0 || answer[2] != 1;
}
