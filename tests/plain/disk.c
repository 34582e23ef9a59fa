/* Blocks on disk: lists, items and pictures, read and written, and a picture of one kind made one of the other. */
#include "plain.h"

#include <string.h>

enum { BLOCK = STARAN_BLOCK_BYTES, PAYLOAD = 496, FILE_BYTES = STARAN_PICTURE_FILE_BYTES, OLD = STARAN_CONTENT_PICTURE, NEW = STARAN_CONTENT_PICTURE_WITH_MODES };

static int is_picture(size_t kind) { return kind == OLD || kind == NEW; }
static size_t registers_of(size_t kind) { return kind == NEW ? REGISTERS : PICTURE_REGISTERS; }
static int is_kind(size_t kind) { return kind >= 1 && kind <= 4; }

static void give(uint32_t answer[3], uint32_t number, uint32_t place, uint32_t bytes)
{
    answer[0] = number;
    answer[1] = place;
    answer[2] = bytes;
}

static size_t two_at(const uint8_t *bytes, size_t at) { return bytes[at] + 256u * bytes[at + 1]; }

static void put_two(uint8_t *bytes, size_t at, size_t number)
{
    bytes[at] = (uint8_t)number;
    bytes[at + 1] = (uint8_t)(number / 256);
}

static void sums(const uint8_t *block, size_t *s1, size_t *s2)
{
    uint64_t a = 0, b = 0;
    for (size_t i = 0; i < 508; i++) {
        a += block[i];
        b += a;
    }
    *s1 = a % 65535;
    *s2 = b % 65535;
}

static int all_zero(const uint8_t *from, const uint8_t *end)
{
    for (; from < end; from++)
        if (*from != 0)
            return 0;
    return 1;
}

/* 21 to 24, or 0. */
static uint32_t fault(const uint8_t *block, size_t kind, size_t place, size_t count)
{
    size_t s1, s2, used = two_at(block, 6);
    sums(block, &s1, &s2);
    if (two_at(block, 508) != s1 || two_at(block, 510) != s2)
        return STARAN_REFUSED_BLOCK_SUMS;
    if (two_at(block, 0) != kind)
        return STARAN_REFUSED_BLOCK_KIND;
    if (two_at(block, 2) != place || two_at(block, 4) != count)
        return STARAN_REFUSED_BLOCK_NUMBER;
    if (place + 1 < count ? used != PAYLOAD : used > PAYLOAD || (used == 0 && count != 1))
        return STARAN_REFUSED_BLOCK_FORM;
    if (!all_zero(block + 8, block + 12) || !all_zero(block + 12 + used, block + 508))
        return STARAN_REFUSED_BLOCK_FORM;
    return STARAN_DONE;
}

static int size_fits(size_t kind, size_t size)
{
    return is_picture(kind) ? size == MEMORY + registers_of(kind) : size % (kind == STARAN_CONTENT_LIST ? 8 : 32) == 0 && size <= 32768;
}

static void judge(size_t kind, const uint8_t *bytes, size_t length, uint32_t answer[3])
{
    size_t size = 0;
    if (!is_kind(kind)) {
        give(answer, STARAN_REFUSED_BLOCK_KIND, 0, 0);
        return;
    }
    if (length == 0 || length % BLOCK != 0 || length > 34304) {
        give(answer, STARAN_REFUSED_FILE_LENGTH, 0, 0);
        return;
    }
    for (size_t i = 0; i < length / BLOCK; i++) {
        uint32_t number = fault(bytes + BLOCK * i, kind, i, length / BLOCK);
        if (number != STARAN_DONE) {
            give(answer, number, (uint32_t)i, 0);
            return;
        }
        size += two_at(bytes + BLOCK * i, 6);
    }
    if (size_fits(kind, size))
        give(answer, STARAN_DONE, 0, (uint32_t)size);
    else
        give(answer, STARAN_REFUSED_CONTENT_SIZE, 0, 0);
}

/* Header, zeros and sums of a block whose payload stands in it. */
static void seal(size_t kind, size_t place, size_t count, size_t used, uint8_t *block)
{
    size_t s1, s2;
    put_two(block, 0, kind);
    put_two(block, 2, place);
    put_two(block, 4, count);
    put_two(block, 6, used);
    memset(block + 8, 0, 4);
    memset(block + 12 + used, 0, PAYLOAD - used);
    sums(block, &s1, &s2);
    put_two(block, 508, s1);
    put_two(block, 510, s2);
}

void staran_read_content(size_t kind, const uint8_t *bytes, size_t bytes_length, uint8_t *target, size_t target_length, uint32_t answer[3])
{
    judge(kind, bytes, bytes_length, answer);
    if (answer[0] != STARAN_DONE)
        return;
    if (is_picture(kind) || target_length < answer[2]) {
        give(answer, STARAN_REFUSED_LENT_LENGTH, 0, 0);
        return;
    }
    for (size_t i = 0; i < bytes_length / BLOCK; i++)
        memcpy(target + PAYLOAD * i, bytes + BLOCK * i + 12, two_at(bytes + BLOCK * i, 6));
}

void staran_write_content(size_t kind, const uint8_t *content, size_t content_length, uint8_t *out, size_t out_length, uint32_t answer[3])
{
    size_t count = content_length == 0 ? 1 : (content_length + PAYLOAD - 1) / PAYLOAD;
    if (!is_kind(kind))
        give(answer, STARAN_REFUSED_BLOCK_KIND, 0, 0);
    else if (is_picture(kind) || !size_fits(kind, content_length))
        give(answer, STARAN_REFUSED_LENT_LENGTH, 0, 0);
    else if (out_length < BLOCK * count)
        give(answer, STARAN_REFUSED_OUTPUT_TOO_SHORT, 0, 0);
    else {
        for (size_t i = 0; i < count; i++) {
            size_t left = content_length - PAYLOAD * i, used = left < PAYLOAD ? left : PAYLOAD;
            memcpy(out + BLOCK * i + 12, content + PAYLOAD * i, used);
            seal(kind, i, count, used, out + BLOCK * i);
        }
        give(answer, STARAN_DONE, 0, (uint32_t)(BLOCK * count));
    }
}

/* Where the content from `at` on stands in the blocks, and how much of it in the same payload. */
static size_t place_of(size_t at, size_t size, size_t *first)
{
    size_t left = PAYLOAD - at % PAYLOAD;
    *first = size < left ? size : left;
    return BLOCK * (at / PAYLOAD) + 12 + at % PAYLOAD;
}

static void take_part(const uint8_t *bytes, size_t at, uint8_t *part, size_t size)
{
    size_t first, from = place_of(at, size, &first);
    memcpy(part, bytes + from, first);
    memcpy(part + first, bytes + from + first + 16, size - first);
}

static void put_part(uint8_t *bytes, size_t at, const uint8_t *part, size_t size)
{
    size_t first, to = place_of(at, size, &first);
    memcpy(bytes + to, part, first);
    memcpy(bytes + to + first + 16, part + first, size - first);
}

static int picture_fits(size_t kind, size_t memory_length, size_t registers_length)
{
    return is_picture(kind) && memory_length == MEMORY && registers_length == registers_of(kind);
}

static int wrong_register(const uint8_t r[2]) { return r[0] > 1 || (r[0] == 0 && r[1] != 0); }
static int wrong_modes(const uint8_t modes[4]) { return wrong_register(modes) || wrong_register(modes + 2); }

static void take_modes(const uint8_t *bytes, uint8_t modes[4]) { take_part(bytes, MEMORY + PICTURE_REGISTERS, modes, REGISTERS - PICTURE_REGISTERS); }

/* Headers and sums of all blocks of a picture whose content stands in them. */
static void seal_picture(size_t kind, uint8_t *out)
{
    for (size_t i = 0; i < 17; i++)
        seal(kind, i, 17, i < 16 ? PAYLOAD : MEMORY + registers_of(kind) - 16 * PAYLOAD, out + BLOCK * i);
}

void staran_read_picture(size_t kind, const uint8_t *bytes, size_t bytes_length, uint8_t *memory, size_t memory_length, uint8_t *registers,
                         size_t registers_length, uint32_t answer[3])
{
    uint8_t words[256], modes[4] = {0};
    judge(kind, bytes, bytes_length, answer);
    if (answer[0] != STARAN_DONE)
        return;
    if (!picture_fits(kind, memory_length, registers_length)) {
        give(answer, STARAN_REFUSED_LENT_LENGTH, 0, 0);
        return;
    }
    if (kind == NEW)
        take_modes(bytes, modes);
    if (wrong_modes(modes)) {
        give(answer, STARAN_REFUSED_MODE_REGISTERS, 0, 0);
        return;
    }
    for (unsigned v = 0; v < 32; v++) {
        take_part(bytes, 256 * v, words, sizeof words);
        plain_words_in(memory, v, words);
    }
    take_part(bytes, MEMORY, registers, registers_length);
}

void staran_write_picture(size_t kind, const uint8_t *memory, size_t memory_length, const uint8_t *registers, size_t registers_length, uint8_t *out,
                          size_t out_length, uint32_t answer[3])
{
    uint8_t words[256];
    if (!is_kind(kind))
        give(answer, STARAN_REFUSED_BLOCK_KIND, 0, 0);
    else if (!picture_fits(kind, memory_length, registers_length))
        give(answer, STARAN_REFUSED_LENT_LENGTH, 0, 0);
    else if (kind == NEW && wrong_modes(registers + PICTURE_REGISTERS))
        give(answer, STARAN_REFUSED_MODE_REGISTERS, 0, 0);
    else if (out_length < FILE_BYTES)
        give(answer, STARAN_REFUSED_OUTPUT_TOO_SHORT, 0, 0);
    else {
        for (unsigned v = 0; v < 32; v++) {
            plain_words_out(memory, v, words);
            put_part(out, 256 * v, words, sizeof words);
        }
        put_part(out, MEMORY, registers, registers_length);
        seal_picture(kind, out);
        give(answer, STARAN_DONE, 0, FILE_BYTES);
    }
}

/* The words, M, X and Y stand at the same places in both kinds: the blocks are copied whole, and sealed anew. */
void staran_picture_to_new(const uint8_t *bytes, size_t bytes_length, uint8_t *out, size_t out_length, uint32_t answer[3])
{
    static const uint8_t unset[4];
    judge(OLD, bytes, bytes_length, answer);
    if (answer[0] != STARAN_DONE)
        return;
    if (out_length < FILE_BYTES) {
        give(answer, STARAN_REFUSED_OUTPUT_TOO_SHORT, 0, 0);
        return;
    }
    memcpy(out, bytes, FILE_BYTES);
    put_part(out, MEMORY + PICTURE_REGISTERS, unset, sizeof unset);
    seal_picture(NEW, out);
    give(answer, STARAN_DONE, 0, FILE_BYTES);
}

void staran_picture_to_old(const uint8_t *bytes, size_t bytes_length, uint8_t *out, size_t out_length, uint32_t answer[3])
{
    uint8_t modes[4];
    judge(NEW, bytes, bytes_length, answer);
    if (answer[0] != STARAN_DONE)
        return;
    take_modes(bytes, modes);
    if (wrong_modes(modes))
        give(answer, STARAN_REFUSED_MODE_REGISTERS, 0, 0);
    else if (modes[0] == 1 || modes[2] == 1)
        give(answer, STARAN_REFUSED_MODE_SET, 0, 0);
    else if (out_length < FILE_BYTES)
        give(answer, STARAN_REFUSED_OUTPUT_TOO_SHORT, 0, 0);
    else {
        memcpy(out, bytes, FILE_BYTES);
        seal_picture(OLD, out);
        give(answer, STARAN_DONE, 0, FILE_BYTES);
    }
}
