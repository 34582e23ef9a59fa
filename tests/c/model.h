/* What include/staran.h promises, worked out by the plainest means, for the checks to hold the library to. */
#ifndef MODEL_H
#define MODEL_H

#include <stddef.h>
#include <stdint.h>

/* The number of an instruction, with the mode registers before it, flag and mode of A, then of B; and, in `byte`, the first of its bytes that is wrong by it;
 * 0 and 0 where nothing is wrong. */
unsigned model_instruction(const uint8_t modes[4], const uint8_t instruction[8], unsigned *byte);

/* The number of a pass, and the item passed, bit by bit: zeros where the number is not 0. */
unsigned model_pass(const uint8_t item[32], uint8_t flip, uint8_t code, uint8_t passed[32]);

/* The number of a list's refusal, or 0 and the list: `lead` is 1 for a sum, 2 for a difference. */
unsigned model_list(int lead, uint32_t a, uint32_t b, uint32_t s, uint32_t n, uint8_t *list, size_t list_length);

/* The number of a search's refusal, or 0, the list and its items: `less` is 0 for equal. */
unsigned model_search(int less, uint32_t start, uint32_t n, uint64_t number, uint8_t *list, size_t list_length, uint8_t *items, size_t items_length);

/* The number of a refusal, or 0 and the list for greatest. */
unsigned model_greatest(uint32_t start, uint32_t n, uint8_t *list, size_t list_length);

/* The number of a refusal, or 0, the list and its items: `spreads` is 0 for a closing. And the lengths that these have. */
unsigned model_moving(int spreads, uint32_t a, uint32_t s, uint32_t n, const uint8_t *marks, size_t marks_length, uint8_t *list, size_t list_length, uint8_t *items,
                      size_t items_length);
size_t model_moving_list(int spreads, uint32_t n);
size_t model_moving_items(int spreads, uint32_t n);

/* What its run makes of the words, in a picture's order: field by field, and no list at all. */
void model_moved(int spreads, uint32_t a, uint32_t s, uint32_t n, const uint8_t marks[32], uint8_t *words);

/* The blocks of a content, and their length. */
size_t model_blocks(size_t kind, const uint8_t *content, size_t content_length, uint8_t *file);

/* Puts the sums of a block right. */
void model_seal(uint8_t *block);

/* The number and place of a file's refusal, before its target is looked at; or 0, the content and its size. */
unsigned model_file(size_t kind, const uint8_t *file, size_t length, size_t *place, uint8_t *content, size_t *size);

/* Does a content of this size fit its kind? */
int model_fits(size_t kind, size_t size);

/* How many register bytes a picture of this kind has. */
size_t model_registers(size_t kind);

/* A picture's content from memory and registers, and its size; and the memory from a content. */
size_t model_picture(size_t kind, const uint8_t *memory, const uint8_t *registers, uint8_t *content);
void model_memory(const uint8_t *content, uint8_t *memory);

/* Is a flag over 1, or a mode not 0 behind flag 0? */
int model_wrong_modes(const uint8_t modes[4]);

/* What reading, writing and converting a picture answers, and what it leaves in its targets or its output. `old` is 0 for old to new, 1 for new to old. */
void model_read_picture(size_t kind, const uint8_t *file, size_t length, uint8_t *memory, size_t memory_length, uint8_t *registers, size_t registers_length, uint32_t answer[3]);
void model_write_picture(size_t kind, const uint8_t *memory, size_t memory_length, const uint8_t *registers, size_t registers_length, uint8_t *out, size_t out_length,
                         uint32_t answer[3]);
void model_convert(int old, const uint8_t *file, size_t length, uint8_t *out, size_t out_length, uint32_t answer[3]);

/* What a run is lent. */
typedef struct {
    uint8_t *memory;
    size_t memory_length;
    uint8_t *registers;
    size_t registers_length;
    const uint8_t *list;
    size_t list_length;
    const uint8_t *items;
    size_t items_length;
    uint8_t *out;
    size_t out_length;
} model_lent;

/* What a run (`step` 0) or a step (1) answers, and what it leaves in memory, registers and out: bit by bit, of any list. */
void model_run(int step, const model_lent *lent, uint32_t answer[6]);

/* Whether a list is isolated, for a run that starts with these registers: the number and the place that are answered. */
void model_isolated(const uint8_t *list, size_t list_length, const uint8_t *registers, size_t registers_length, uint32_t answer[2]);

/* What is answered of the words that a list reaches, and of its text; and what then stands in `out` and in `text`. */
void model_reach(const uint8_t *registers, size_t registers_length, const uint8_t *list, size_t list_length, uint8_t *out, size_t out_length, uint32_t answer[2]);
void model_show(const uint8_t *list, size_t list_length, uint8_t *text, size_t text_length, uint32_t answer[2]);

/* What is answered of a text that a list is made of, and what then stands in `list` and `items`. */
void model_make(const uint8_t *text, size_t text_length, uint8_t *list, size_t list_length, uint8_t *items, size_t items_length, uint32_t answer[5]);

#endif
