/* A caller of version 4.0, with the prototypes of its header: the register record had 96 bytes. It must not link with this library, whose step would read and write four more:
 * tests/c/run. */
#include <stddef.h>
#include <stdint.h>

typedef struct {
    uint8_t m[32];
    uint8_t x[32];
    uint8_t y[32];
} staran_registers;

void staran_run_4(uint8_t *memory, size_t memory_length, uint8_t *registers, size_t registers_length, const uint8_t *list,
                  size_t list_length, const uint8_t *items, size_t items_length, uint8_t *out, size_t out_length,
                  uint32_t answer[6]);

void staran_step_4(uint8_t *memory, size_t memory_length, staran_registers *registers, const uint8_t *instruction,
                   size_t instruction_length, const uint8_t *items, size_t items_length, uint8_t *out, size_t out_length,
                   uint32_t answer[6]);

static uint8_t memory[8192], registers[96], out[32];
static staran_registers record;

int main(void)
{
    const uint8_t resolve[8] = {5, 0, 0, 0, 0, 0, 0, 0};
    uint32_t answer[6];
    staran_run_4(memory, sizeof memory, registers, sizeof registers, resolve, sizeof resolve, out, 0, out, sizeof out, answer);
    if (answer[0] != 0 || answer[3] != 1)
        return 1;
    staran_step_4(memory, sizeof memory, &record, resolve, sizeof resolve, out, 0, out, sizeof out, answer);
    return answer[0] != 0 || answer[3] != 1;
}
