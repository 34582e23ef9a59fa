/* What include/staran.h promises, worked out by the plainest means: one bit, one instruction, one block at a time. */
#include "model.h"

#include <stdarg.h>
#include <stdio.h>
#include <string.h>

static int bit(const uint8_t *bytes, size_t k) { return bytes[k / 8] >> k % 8 & 1; }

static void set(uint8_t *bytes, size_t k, int value)
{
    bytes[k / 8] = (uint8_t)((bytes[k / 8] & ~(1u << k % 8)) | (unsigned)value << k % 8);
}

/* ---- an instruction behind others, and a pass */

static int over_256_lines(uint8_t code) { return 1u << code / 16 > 256; }
static int not_below(uint8_t code) { return code != 0 && code % 16 >= code / 16; }

/* Is byte b of an instruction wrong by this number, with these mode registers before it? Asked of a number only where nothing is wrong by those before it. */
static int wrong_by(unsigned number, unsigned b, const uint8_t modes[4], const uint8_t *i)
{
    const int stores = i[0] == 2 || i[0] == 3, resolves = i[0] == 5, sets_mode = i[0] == 6, touches = stores || (!resolves && !sets_mode && i[1] == 0);
    switch (number) {
    case 5:
        return b == 0 && i[0] > 6;
    case 6:
        return b == 1 && (resolves || sets_mode ? i[1] != 0 : i[1] > 4 || (stores && i[1] == 0));
    case 7:
        return b == 2 && (touches || sets_mode) && i[2] == 0;
    case 8:
        return b == 2 && ((touches && i[2] > 3) || (sets_mode && (i[2] == 1 || i[2] > 3)));
    case 9:
        if (sets_mode)
            return b == 4 && i[4] != 0;
        return touches ? b == 3 && i[2] != 1 && i[3] != 0 : b >= 2 && b <= 4 && i[b] != 0;
    case 14:
        return b == 2 && touches && i[2] >= 2 && modes[2 * (i[2] - 2)] == 0;
    case 18:
        return (b == 6 ? stores || resolves || sets_mode : b == 5 && (resolves || sets_mode)) && i[b] != 0;
    case 16:
        return b == 6 && over_256_lines(i[6]);
    case 17:
        return b == 6 && not_below(i[6]);
    default: /* 11 */
        return b == 7 && (i[0] == 0 ? i[7] >= 5 * 16 : i[7] != 0);
    }
}

unsigned model_instruction(const uint8_t modes[4], const uint8_t instruction[8], unsigned *byte)
{
    static const unsigned in_turn[] = {5, 6, 7, 8, 9, 14, 18, 16, 17, 11};
    for (size_t k = 0; k < sizeof in_turn / sizeof *in_turn; k++)
        for (*byte = 0; *byte < 8; ++*byte)
            if (wrong_by(in_turn[k], *byte, modes, instruction))
                return in_turn[k];
    *byte = 0;
    return 0;
}

unsigned model_pass(const uint8_t item[32], uint8_t flip, uint8_t code, uint8_t passed[32])
{
    unsigned p = code / 16, m = code % 16;
    memset(passed, 0, 32);
    if (over_256_lines(code))
        return 16;
    if (not_below(code))
        return 17;
    for (unsigned line = 0; line < 256; line++) {
        unsigned to = line ^ flip;
        if (code != 0)
            to = (to >> p << p) + (to % (1u << p) + (1u << m)) % (1u << p);
        set(passed, to, bit(item, line));
    }
    return 0;
}

/* ---- lists */

static int crosses(uint64_t s, uint64_t a, uint64_t n) { return s != a && s < a + n && a < s + n; }

static size_t put(uint8_t *list, size_t at, uint8_t kind, uint8_t source, int slice, uint8_t byte7)
{
    uint8_t made[8] = {kind, source, slice >= 0, 0, slice >= 0 ? (uint8_t)slice : 0, 0, 0, byte7};
    memcpy(list + at, made, 8);
    return at + 8;
}

unsigned model_list(int lead, uint32_t a, uint32_t b, uint32_t s, uint32_t n, uint8_t *list, size_t list_length)
{
    uint64_t wide = n;
    size_t at = 0;
    if (n < 1 || n > 64)
        return 30;
    if (a + wide > 256 || b + wide > 256 || s + wide > 256)
        return 31;
    if (crosses(s, a, n) || crosses(s, b, n))
        return 32;
    if (list_length < 8 * ((size_t)lead + 5 * n))
        return 33;
    at = put(list, at, 0, 2, -1, 0x20);
    if (lead == 2)
        at = put(list, at, 0, 2, -1, 0x1F);
    for (uint32_t k = 0; k < n; k++) {
        at = put(list, at, 0, 0, (int)(a + k), 0x46);
        at = put(list, at, 0, 0, (int)(b + k), lead == 2 ? 0x49 : 0x46);
        at = put(list, at, 2, 3, (int)(s + k), 0);
        at = put(list, at, 0, 2, -1, 0x33);
        at = put(list, at, 0, 2, -1, 0x26);
    }
    return 0;
}

unsigned model_search(int less, uint32_t start, uint32_t n, uint64_t number, uint8_t *list, size_t list_length, uint8_t *items, size_t items_length)
{
    size_t at = 0;
    if (n < 1 || n > 64)
        return 30;
    if ((uint64_t)start + n > 256)
        return 31;
    if (n != 64 && number >= (uint64_t)1 << n)
        return 34;
    if (list_length < 8 * (2 + 3 * (size_t)n) || items_length < 32 * (size_t)n)
        return 33;
    at = put(list, at, 0, 2, -1, less ? 0x00 : 0x0F);
    for (uint32_t k = 0; k < n; k++) {
        at = put(list, at, 0, 4, -1, 0x1A);
        at = put(list, at, 0, 0, (int)(start + k), 0x16);
        at = less ? put(list, at, 0, 0, (int)(start + k), 0x35) : put(list, at, 0, 2, -1, 0x30);
    }
    put(list, at, 0, 2, -1, 0x1A);
    for (size_t i = 0; i < 256 * (size_t)n; i++)
        set(items, i, number >> i / 256 & 1);
    return 0;
}

unsigned model_greatest(uint32_t start, uint32_t n, uint8_t *list, size_t list_length)
{
    size_t at = 0;
    if (n < 1 || n > 64)
        return 30;
    if ((uint64_t)start + n > 256)
        return 31;
    if (list_length < 8 * (1 + 11 * (size_t)n))
        return 33;
    at = put(list, at, 0, 2, -1, 0x00);
    for (uint32_t k = 1; k <= n; k++) {
        at = put(list, at, 0, 0, (int)(start + n - k), 0x3A);
        for (unsigned flip = 1; flip <= 128; flip *= 2) {
            at = put(list, at, 0, 2, -1, 0x0E);
            list[at - 3] = (uint8_t)flip;
        }
        at = put(list, at, 0, 0, (int)(start + n - k), 0x04);
        at = put(list, at, 0, 2, -1, 0x24);
    }
    return 0;
}

/* ---- closing up and spreading */

size_t model_moving_list(int spreads, uint32_t n) { return 8 * (spreads ? 1 + 18 * (size_t)n : 10 + 19 * (size_t)n); }
size_t model_moving_items(int spreads, uint32_t n) { return 32 * (spreads ? 1 + 8 * (size_t)n : 9); }

/* The masks of the eight rounds, of weight 1 first: each marked value starts at its own word, and goes down to the next free one by the digits of its way.
 * A spreading takes it from there, by the highest digit first, up to its own. The mask of a round has the words at which values arrive in it. */
static unsigned make_masks(int spreads, const uint8_t *marks, uint8_t masks[8][32])
{
    unsigned free_word = 0;
    memset(masks, 0, 8 * 32);
    for (unsigned w = 0; w < 256; w++) {
        if (!bit(marks, w))
            continue;
        unsigned way = w - free_word, at = spreads ? free_word : w;
        for (unsigned round = 0; round < 8; round++) {
            unsigned t = spreads ? 7 - round : round;
            if (way >> t & 1) {
                at = spreads ? at + (1u << t) : at - (1u << t);
                set(masks[t], at, 1);
            }
        }
        free_word++;
    }
    return free_word;
}

static size_t put_bytes(uint8_t *list, size_t at, const uint8_t made[8])
{
    memcpy(list + at, made, 8);
    return at + 8;
}

static void make_closing(uint32_t a, uint32_t s, uint32_t n, const uint8_t *marks, uint8_t *list, uint8_t *items)
{
    static const uint8_t take_mask[8] = {1, 4, 0, 0, 0, 0, 0, 0}, clear_x[8] = {0, 2, 0, 0, 0, 0, 0, 0};
    uint8_t masks[8][32];
    size_t at = 0;
    unsigned marked = make_masks(0, marks, masks);
    for (uint32_t k = 0; k < n; k++) {
        const uint8_t take[8] = {0, 0, 1, 0, (uint8_t)(a + k), 0, 0, 10}, store[8] = {2, 2, 1, 0, (uint8_t)(s + k), 0, 0, 0};
        at = put_bytes(list, at, take);
        at = put_bytes(list, at, store);
    }
    for (unsigned t = 0; t < 8; t++) {
        at = put_bytes(list, at, take_mask);
        for (uint32_t k = 0; k < n; k++) {
            const uint8_t take[8] = {0, 0, 1, 0, (uint8_t)(s + k), 255, (uint8_t)(128 + t), 10}, store[8] = {3, 2, 1, 0, (uint8_t)(s + k), 255, 0, 0};
            at = put_bytes(list, at, take);
            at = put_bytes(list, at, store);
        }
        memcpy(items + 32 * t, masks[t], 32);
    }
    at = put_bytes(list, at, take_mask);
    at = put_bytes(list, at, clear_x);
    for (uint32_t k = 0; k < n; k++) {
        const uint8_t store[8] = {3, 2, 1, 0, (uint8_t)(s + k), 0, 0, 0};
        at = put_bytes(list, at, store);
    }
    for (unsigned w = 0; w < 256; w++)
        set(items + 32 * 8, w, w >= marked);
}

static void make_spreading(uint32_t a, uint32_t s, uint32_t n, const uint8_t *marks, uint8_t *list, uint8_t *items)
{
    static const uint8_t take_marks[8] = {1, 4, 0, 0, 0, 0, 0, 0}, take_mask[8] = {0, 4, 0, 0, 0, 0, 0, 0x1A};
    uint8_t masks[8][32];
    size_t at = put_bytes(list, 0, take_marks), item = 32;
    make_masks(1, marks, masks);
    memcpy(items, marks, 32);
    for (uint32_t k = 0; k < n; k++) {
        const uint8_t take[8] = {0, 0, 1, 0, (uint8_t)(s + k), 0, 0, 10}, store[8] = {3, 2, 1, 0, (uint8_t)(a + k), 0, 0, 0};
        at = put_bytes(list, at, take);
        for (unsigned round = 0; round < 8; round++) {
            const uint8_t shift[8] = {0, 2, 0, 0, 0, 0, (uint8_t)(128 + 7 - round), 0x3A};
            at = put_bytes(list, at, take_mask);
            at = put_bytes(list, at, shift);
            memcpy(items + item, masks[7 - round], 32);
            item += 32;
        }
        at = put_bytes(list, at, store);
    }
}

unsigned model_moving(int spreads, uint32_t a, uint32_t s, uint32_t n, const uint8_t *marks, size_t marks_length, uint8_t *list, size_t list_length, uint8_t *items,
                      size_t items_length)
{
    const uint64_t wide = n;
    if (marks_length != 32)
        return 35;
    if (n < 1 || n > 32)
        return 30;
    if (a + wide > 256 || s + wide > 256)
        return 31;
    if (s < a + n && a < s + n)
        return 32;
    if (list_length < model_moving_list(spreads, n) || items_length < model_moving_items(spreads, n))
        return 33;
    (spreads ? make_spreading : make_closing)(a, s, n, marks, list, items);
    return 0;
}

static void move_field(uint8_t *words, size_t from, size_t a, size_t to, size_t b, size_t n)
{
    for (size_t k = 0; k < n; k++)
        set(words, 256 * to + b + k, bit(words, 256 * from + a + k));
}

void model_moved(int spreads, uint32_t a, uint32_t s, uint32_t n, const uint8_t marks[32], uint8_t *words)
{
    size_t next = 0;
    for (size_t w = 0; w < 256; w++) {
        if (!bit(marks, w))
            continue;
        if (spreads)
            move_field(words, next, s, w, a, n);
        else
            move_field(words, w, a, next, s, n);
        next++;
    }
    for (; !spreads && next < 256; next++)
        for (size_t k = 0; k < n; k++)
            set(words, 256 * next + s + k, 0);
}

/* ---- blocks and pictures */

static uint32_t two(const uint8_t *b) { return b[0] + 256u * b[1]; }

static void put_two(uint8_t *b, size_t n)
{
    b[0] = (uint8_t)n;
    b[1] = (uint8_t)(n >> 8);
}

static void sums(const uint8_t *block, uint32_t *s1, uint32_t *s2)
{
    *s1 = *s2 = 0;
    for (uint32_t i = 0; i < 508; i++) {
        *s1 += block[i];
        *s2 += (508 - i) * block[i];
    }
    *s1 %= 65535;
    *s2 %= 65535;
}

void model_seal(uint8_t *block)
{
    uint32_t s1, s2;
    sums(block, &s1, &s2);
    put_two(block + 508, s1);
    put_two(block + 510, s2);
}

size_t model_blocks(size_t kind, const uint8_t *content, size_t content_length, uint8_t *file)
{
    size_t count = content_length == 0 ? 1 : (content_length + 495) / 496;
    for (size_t i = 0; i < count; i++) {
        uint8_t *block = file + 512 * i;
        size_t used = content_length - 496 * i < 496 ? content_length - 496 * i : 496;
        memset(block, 0, 512);
        put_two(block, kind);
        put_two(block + 2, i);
        put_two(block + 4, count);
        put_two(block + 6, used);
        memcpy(block + 12, content + 496 * i, used);
        model_seal(block);
    }
    return 512 * count;
}

static unsigned block_fault(size_t kind, const uint8_t *block, size_t place, size_t count)
{
    uint32_t s1, s2, used = two(block + 6);
    sums(block, &s1, &s2);
    if (two(block + 508) != s1 || two(block + 510) != s2)
        return 21;
    if (two(block) != kind)
        return 22;
    if (two(block + 2) != place || two(block + 4) != count)
        return 23;
    if (used > 496 || (place + 1 < count && used != 496) || (count > 1 && used == 0))
        return 24;
    for (size_t i = 8; i < 508; i++)
        if ((i < 12 || i >= 12 + used) && block[i] != 0)
            return 24;
    return 0;
}

int model_fits(size_t kind, size_t size)
{
    if (kind == 1 || kind == 4)
        return size == 8192 + model_registers(kind);
    return size % (kind == 2 ? 8 : 32) == 0 && size <= 32768;
}

unsigned model_file(size_t kind, const uint8_t *file, size_t length, size_t *place, uint8_t *content, size_t *size)
{
    *place = 0;
    *size = 0;
    if (kind < 1 || kind > 4)
        return 22;
    if (length == 0 || length % 512 != 0 || length > 34304)
        return 20;
    for (size_t i = 0; i < length / 512; i++) {
        const uint8_t *block = file + 512 * i;
        unsigned number = block_fault(kind, block, i, length / 512);
        if (number != 0) {
            *place = i;
            return number;
        }
        memcpy(content + *size, block + 12, two(block + 6));
        *size += two(block + 6);
    }
    return model_fits(kind, *size) ? 0 : 25;
}

/* Bit b of word w is location b of chip b xor w. */
static size_t cell(size_t w, size_t b) { return 256 * (b ^ w) + b; }

size_t model_registers(size_t kind) { return kind == 4 ? 100 : 96; }

size_t model_picture(size_t kind, const uint8_t *memory, const uint8_t *registers, uint8_t *content)
{
    for (size_t w = 0; w < 256; w++)
        for (size_t b = 0; b < 256; b++)
            set(content, 256 * w + b, bit(memory, cell(w, b)));
    memcpy(content + 8192, registers, model_registers(kind));
    return 8192 + model_registers(kind);
}

void model_memory(const uint8_t *content, uint8_t *memory)
{
    for (size_t w = 0; w < 256; w++)
        for (size_t b = 0; b < 256; b++)
            set(memory, cell(w, b), bit(content, 256 * w + b));
}

/* ---- pictures: of either kind by way of the content, also where one is made of the other */

enum { LONGEST_FILE = 34304 };
static uint8_t content[LONGEST_FILE];

int model_wrong_modes(const uint8_t modes[4])
{
    for (size_t r = 0; r < 4; r += 2)
        if (modes[r] > 1 || (modes[r] == 0 && modes[r + 1] != 0))
            return 1;
    return 0;
}

static int picture_fits(size_t kind, size_t memory_length, size_t registers_length)
{
    return (kind == 1 || kind == 4) && memory_length == 8192 && registers_length == model_registers(kind);
}

static void give(uint32_t answer[3], size_t number, size_t place, size_t bytes)
{
    answer[0] = (uint32_t)number;
    answer[1] = (uint32_t)place;
    answer[2] = (uint32_t)bytes;
}

void model_read_picture(size_t kind, const uint8_t *file, size_t length, uint8_t *memory, size_t memory_length, uint8_t *registers, size_t registers_length, uint32_t answer[3])
{
    size_t place, size;
    unsigned number = model_file(kind, file, length, &place, content, &size);
    if (number == 0 && !picture_fits(kind, memory_length, registers_length))
        number = 26;
    if (number == 0 && kind == 4 && model_wrong_modes(content + 8288))
        number = 15;
    give(answer, number, place, number == 0 ? size : 0);
    if (number != 0)
        return;
    model_memory(content, memory);
    memcpy(registers, content + 8192, registers_length);
}

void model_write_picture(size_t kind, const uint8_t *memory, size_t memory_length, const uint8_t *registers, size_t registers_length, uint8_t *out, size_t out_length,
                         uint32_t answer[3])
{
    if (kind < 1 || kind > 4)
        give(answer, 22, 0, 0);
    else if (!picture_fits(kind, memory_length, registers_length))
        give(answer, 26, 0, 0);
    else if (kind == 4 && model_wrong_modes(registers + 96))
        give(answer, 15, 0, 0);
    else if (out_length < 8704)
        give(answer, 27, 0, 0);
    else
        give(answer, 0, 0, model_blocks(kind, content, model_picture(kind, memory, registers, content), out));
}

void model_convert(int old, const uint8_t *file, size_t length, uint8_t *out, size_t out_length, uint32_t answer[3])
{
    size_t place, size;
    unsigned number = model_file(old ? 4 : 1, file, length, &place, content, &size);
    if (number == 0 && old && model_wrong_modes(content + 8288))
        number = 15;
    if (number == 0 && old && (content[8288] == 1 || content[8290] == 1))
        number = 28;
    if (number == 0 && out_length < 8704)
        number = 27;
    give(answer, number, place, 0);
    if (number != 0)
        return;
    memset(content + 8288, 0, 4);
    answer[2] = (uint32_t)model_blocks(old ? 1 : 4, content, old ? 8288 : 8292, out);
}

/* ---- a run: what it is lent is judged, then each instruction; then line by line */

enum { NUMBER, PLACE, BYTE, STEPS, TAKEN, GIVEN, NUMBERS };

/* Kind 6 sets the register of its tag to byte 3. With a tag that names none, which a run refuses, it sets nothing. */
static void set_mode(const uint8_t *i, uint8_t modes[4])
{
    if (i[0] == 6 && (i[2] == 2 || i[2] == 3)) {
        modes[2 * (i[2] - 2)] = 1;
        modes[2 * (i[2] - 2) + 1] = i[3];
    }
}

static unsigned lent_wrong(int step, const model_lent *l)
{
    if (l->memory_length != 8192)
        return 1;
    if (!step && l->registers_length != 100)
        return 2;
    if (step ? l->list_length != 8 : l->list_length % 8 != 0 || l->list_length > 32768)
        return 3;
    if (l->items_length % 32 != 0 || l->items_length > 32768)
        return 4;
    return model_wrong_modes(l->registers + 96) ? 15 : 0;
}

/* The first instruction of those that `want` an item or room, 32 bytes each, that finds less than that; or how many there are. */
static size_t lacking(int (*want)(const uint8_t *), const model_lent *l, size_t length)
{
    size_t place = 0, used = 0;
    for (; place < l->list_length / 8; place++) {
        used += want(l->list + 8 * place) ? 32 : 0;
        if (used > length)
            break;
    }
    return place;
}

static int takes(const uint8_t *i) { return i[1] == 4; }
static int gives(const uint8_t *i) { return i[0] == 4 || i[0] == 5; }

static void judge(int step, const model_lent *l, uint32_t answer[NUMBERS])
{
    const size_t count = l->list_length / 8;
    uint8_t modes[4];
    unsigned byte = 0;
    size_t place = 0;
    memset(answer, 0, 4 * NUMBERS);
    answer[NUMBER] = lent_wrong(step, l);
    if (answer[NUMBER] != 0)
        return;
    memcpy(modes, l->registers + 96, 4);
    for (; place < count && answer[NUMBER] == 0; place++) {
        answer[NUMBER] = model_instruction(modes, l->list + 8 * place, &byte);
        answer[PLACE] = (uint32_t)place;
        answer[BYTE] = byte;
        if (answer[NUMBER] == 0)
            set_mode(l->list + 8 * place, modes);
    }
    if (answer[NUMBER] != 0)
        return;
    answer[PLACE] = 0;
    if (lacking(takes, l, l->items_length) < count)
        answer[NUMBER] = 12, answer[PLACE] = (uint32_t)lacking(takes, l, l->items_length);
    else if (lacking(gives, l, l->out_length) < count)
        answer[NUMBER] = 13, answer[PLACE] = (uint32_t)lacking(gives, l, l->out_length);
}

/* Where line P points under a mode and an address. */
static size_t pointed(uint8_t mode, uint8_t address, size_t line)
{
    const size_t m = mode, g = address, not_m = 255 - m;
    return cell((m & g) ^ (not_m & line), (not_m & g) ^ (m & line));
}

static void logic(uint8_t *registers, const uint8_t item[32], uint8_t byte7)
{
    uint8_t *x = registers + 32, *y = registers + 64;
    const unsigned choice = byte7 / 16;
    for (size_t line = 0; line < 256; line++) {
        const int f = bit(item, line), new_x = byte7 >> (2 * bit(x, line) + f) & 1, new_y = byte7 >> (2 * bit(y, line) + f) & 1, old_y = bit(y, line);
        if (choice == 0 || choice == 2 || (choice >= 3 && old_y))
            set(x, line, new_x);
        if (choice == 1 || choice == 2 || choice == 4)
            set(y, line, new_y);
    }
}

static void resolve(const uint8_t *y, uint8_t item[32])
{
    unsigned first = 256, all = 0;
    for (unsigned line = 256; line-- > 0;)
        if (bit(y, line))
            first = line, all++;
    memset(item, 0, 32);
    item[0] = all > 0;
    put_two(item + 1, first);
    put_two(item + 3, all);
}

/* One instruction that stands. Items and out are those that it takes and gives, if it does. */
static void act(const uint8_t *i, uint8_t *memory, uint8_t *registers, const uint8_t *items, uint8_t *out)
{
    const uint8_t mode = i[2] < 2 ? i[3] : registers[97 + 2 * (i[2] - 2)];
    uint8_t item[32], passed[32];
    if (i[0] == 5)
        resolve(registers + 64, out);
    set_mode(i, registers + 96);
    if (i[0] > 4)
        return;
    for (size_t line = 0; line < 256; line++)
        set(item, line, i[1] == 0 ? bit(memory, pointed(mode, i[4], line)) : bit(i[1] == 4 ? items : registers + 32 * (i[1] - 1), line));
    model_pass(item, i[5], i[6], passed);
    if (i[0] == 0)
        logic(registers, passed, i[7]);
    for (size_t line = 0; line < 256; line++)
        if (i[0] == 2 || (i[0] == 3 && bit(registers, line)))
            set(memory, pointed(mode, i[4], line), bit(passed, line));
    if (i[0] == 1 || i[0] == 4)
        memcpy(i[0] == 1 ? registers : out, passed, 32);
}

void model_run(int step, const model_lent *l, uint32_t answer[NUMBERS])
{
    judge(step, l, answer);
    if (answer[NUMBER] != 0)
        return;
    for (; answer[STEPS] < l->list_length / 8; answer[STEPS]++) {
        const uint8_t *i = l->list + 8 * answer[STEPS];
        act(i, l->memory, l->registers, l->items + 32 * answer[TAKEN], l->out + 32 * answer[GIVEN]);
        answer[TAKEN] += (uint32_t)takes(i);
        answer[GIVEN] += (uint32_t)gives(i);
    }
}

/* ---- whether a list is isolated: what is lent is judged, then each instruction, by the mode registers before it */

/* Is the mode of an access 0: the one given, or that of a register which is set? */
static int mode_zero(const uint8_t modes[4], const uint8_t *i)
{
    switch (i[2]) {
    case 1:
        return i[3] == 0;
    case 2:
        return modes[0] == 1 && modes[1] == 0;
    case 3:
        return modes[2] == 1 && modes[3] == 0;
    default:
        return 0;
    }
}

/* Does an instruction break the condition? */
static int breaks(const uint8_t modes[4], const uint8_t *i)
{
    const int touches = i[0] == 2 || i[0] == 3 || ((i[0] == 0 || i[0] == 1) && i[1] == 0);
    return i[0] == 4 || i[0] == 5 || i[0] > 6 || i[5] != 0 || i[6] != 0 || (touches && !mode_zero(modes, i));
}

void model_isolated(const uint8_t *list, size_t list_length, const uint8_t *registers, size_t registers_length, uint32_t answer[2])
{
    uint8_t modes[4];
    answer[NUMBER] = answer[PLACE] = 0;
    if (registers_length != 100)
        answer[NUMBER] = 2;
    else if (list_length % 8 != 0 || list_length > 32768)
        answer[NUMBER] = 3;
    else if (model_wrong_modes(registers + 96))
        answer[NUMBER] = 15;
    if (answer[NUMBER] != 0)
        return;
    memcpy(modes, registers + 96, 4);
    for (size_t place = 0; place < list_length / 8; place++) {
        if (breaks(modes, list + 8 * place)) {
            answer[NUMBER] = 40;
            answer[PLACE] = (uint32_t)place;
            return;
        }
        set_mode(list + 8 * place, modes);
    }
}

/* ---- what a list reaches, and its text: instruction by instruction, by the mode registers before it */

/* How many words the lines of a store meet under a mode; at another address they are others, and as many. */
static unsigned words_met(uint8_t mode)
{
    uint8_t met[32] = {0};
    unsigned words = 0;
    for (unsigned line = 0; line < 256; line++)
        set(met, line & (255u - mode), 1);
    for (unsigned word = 0; word < 256; word++)
        words += (unsigned)bit(met, word);
    return words;
}

static int is_store(const uint8_t *i) { return i[0] == 2 || i[0] == 3; }

void model_reach(const uint8_t *registers, size_t registers_length, const uint8_t *list, size_t list_length, uint8_t *out, size_t out_length, uint32_t answer[2])
{
    uint8_t modes[4];
    unsigned byte;
    answer[0] = answer[1] = 0;
    if (registers_length != 100)
        answer[0] = 2;
    else if (list_length % 8 != 0 || list_length > 32768)
        answer[0] = 3;
    else if (model_wrong_modes(registers + 96))
        answer[0] = 15;
    else if (out_length < list_length / 4)
        answer[0] = 27;
    if (answer[0] != 0)
        return;
    memcpy(modes, registers + 96, 4);
    for (; answer[1] < list_length / 4; answer[1] += 2) {
        const uint8_t *i = list + 4 * answer[1];
        const int stands = model_instruction(modes, i, &byte) == 0;
        put_two(out + answer[1], is_store(i) && stands ? words_met(i[2] == 1 ? i[3] : modes[2 * i[2] - 3]) : 0);
        set_mode(i, modes);
    }
}

/* A line is made of words, each with a blank before it but the first. */
enum { LINE = 192, MOST_LINES = 4096 };

static void add(char line[LINE], const char *format, ...)
{
    const size_t at = strlen(line);
    va_list words;
    va_start(words, format);
    vsnprintf(line + at, LINE - at, format, words);
    va_end(words);
}

static const char *const register_names[] = {"", "m", "x", "y", "outside"};

static void add_place(char *line, const uint8_t *i)
{
    if (i[2] != 1)
        add(line, " mode %c address %u", i[2] == 2 ? 'a' : 'b', i[4]);
    else if (i[3] == 0 || i[3] == 255)
        add(line, " %s %u", i[3] == 0 ? "slice" : "word", i[4]);
    else
        add(line, " mode %u address %u", i[3], i[4]);
}

static void add_flip(char *line, const uint8_t *i)
{
    if (i[5] != 0)
        add(line, " flip %u", i[5]);
}

static void add_source_and_moves(char *line, const uint8_t *i)
{
    if (i[1] == 0)
        add_place(line, i);
    else
        add(line, " %s", register_names[i[1]]);
    add_flip(line, i);
    if (i[6] != 0)
        add(line, " shift %u mod %u", 1u << i[6] % 16, 1u << i[6] / 16);
}

static void add_store(char *line, const uint8_t modes[4], const uint8_t *i)
{
    add(line, i[0] == 2 ? "store" : "mstore");
    add_place(line, i);
    add(line, " from %s", register_names[i[1]]);
    add_flip(line, i);
    if (i[2] != 1 && modes[2 * i[2] - 4] == 0) {
        add(line, " ; reaches ? words");
        return;
    }
    const unsigned words = words_met(i[2] == 1 ? i[3] : modes[2 * i[2] - 3]);
    add(line, words == 1 ? " ; reaches %u word" : " ; reaches %u words", words);
}

static void add_logic(char *line, const uint8_t *i)
{
    static const char *const choices[] = {"x", "y", "both", "x-if-y", "x-if-y+y"};
    static const char *const functions[] = {"zero", "nor", "2", "not", "clear", "loadnot", "xor", "nand", "and", "xnor", "load", "11", "keep", "ornot", "or", "one"};
    add(line, "logic %s %s", choices[i[7] / 16], functions[i[7] % 16]);
    add_source_and_moves(line, i);
}

/* Whether an instruction is refused by itself: it is judged as if both registers were set, so that 14 is never given. */
static void make_line(char *line, const uint8_t modes[4], const uint8_t *i)
{
    static const uint8_t both[4] = {1, 0, 1, 0};
    unsigned byte;
    const unsigned number = model_instruction(both, i, &byte);
    line[0] = 0;
    if (number != 0)
        add(line, "bytes %02X %02X %02X %02X %02X %02X %02X %02X ; refused %u byte %u", i[0], i[1], i[2], i[3], i[4], i[5], i[6], i[7], number, byte);
    else if (i[0] == 0)
        add_logic(line, i);
    else if (is_store(i))
        add_store(line, modes, i);
    else if (i[0] == 5)
        add(line, "resolve");
    else if (i[0] == 6)
        add(line, "set %c %u", i[2] == 2 ? 'a' : 'b', i[3]);
    else {
        add(line, i[0] == 1 ? "setm" : "deliver");
        add_source_and_moves(line, i);
    }
    add(line, "\n");
}

void model_show(const uint8_t *list, size_t list_length, uint8_t *text, size_t text_length, uint32_t answer[2])
{
    static char whole[LINE * MOST_LINES];
    uint8_t modes[4] = {0};
    size_t length = 0;
    char line[LINE];
    answer[0] = answer[1] = 0;
    if (list_length % 8 != 0 || list_length > 32768) {
        answer[0] = 3;
        return;
    }
    for (size_t k = 0; k < list_length; k += 8) {
        make_line(line, modes, list + k);
        memcpy(whole + length, line, strlen(line));
        length += strlen(line);
        set_mode(list + k, modes);
    }
    if (text_length < length) {
        answer[0] = 27;
        return;
    }
    memcpy(text, whole, length);
    answer[1] = (uint32_t)length;
}

/* ---- a list made of a text: a line is taken apart into its words, which are asked for in turn. The first refusal stays; what is asked for behind it does not matter */

enum { MOST_WORDS = 16, MOST_NAMED = 256, MOST_MADE = 32768, LONGEST_BUILT = 5640 }; /* no line that stands has so many words */

static struct {
    const uint8_t *text;
    size_t begins, ends; /* the line's first character, and its line feed, its comment or the text's end */
    size_t words, start[MOST_WORDS], length[MOST_WORDS];
    size_t now;          /* the word that is asked for */
    unsigned refused, column;
} line;

static struct {
    char name[9];
    unsigned start, width;
} named[MOST_NAMED];

static struct {
    size_t fields;
    unsigned limit; /* 0 for none */
    uint8_t modes[4];
    int taken;      /* does an instruction above take an item? */
    uint8_t list[MOST_MADE], items[MOST_MADE];
    size_t list_length, items_length; /* also where they have no room there */
} made;

static int between(uint8_t c) { return c == ' ' || c == '\t' || c == '\r'; }

/* The line that begins here, and where the next one begins: behind the text's end where there is none. */
static size_t take_line(const uint8_t *text, size_t length, size_t begins)
{
    size_t next = begins, at;
    memset(&line, 0, sizeof line);
    line.text = text;
    line.begins = begins;
    while (next < length && text[next] != '\n')
        next++;
    for (line.ends = begins; line.ends < next && text[line.ends] != ';';)
        line.ends++;
    for (at = begins; at < line.ends && line.words < MOST_WORDS; at++) {
        if (between(text[at]))
            continue;
        if (at == begins || between(text[at - 1]))
            line.start[line.words++] = at;
        line.length[line.words - 1]++;
    }
    return next + 1;
}

static int at_end(void) { return line.now >= line.words; }

/* Refuses the word that is asked for; where the line has none, the line ends too early. */
static void refuse(unsigned number)
{
    if (line.refused != 0)
        return;
    line.refused = at_end() ? 69 : number;
    line.column = (unsigned)((at_end() ? line.ends : line.start[line.now]) - line.begins + 1);
}

static int is(const char *name)
{
    return !at_end() && line.length[line.now] == strlen(name) && memcmp(line.text + line.start[line.now], name, strlen(name)) == 0;
}

/* Is it one of these, from 0? */
static int which(const char *const *names, int n)
{
    for (int k = 0; k < n; k++)
        if (is(names[k]))
            return k;
    return -1;
}

static void demand(const char *name)
{
    if (!is(name))
        refuse(65);
    line.now++;
}

/* Has it this many decimal digits at most, and nothing else? They are then put to `digits`, without the zeros in front. */
static int in_digits(size_t most, char *digits)
{
    size_t zeros = 0;
    if (at_end() || line.length[line.now] > most)
        return 0;
    memcpy(digits, line.text + line.start[line.now], line.length[line.now]);
    digits[line.length[line.now]] = 0;
    if (strspn(digits, "0123456789") != line.length[line.now])
        return 0;
    zeros = strspn(digits, "0");
    memmove(digits, digits + zeros, strlen(digits) - zeros + 1);
    return 1;
}

/* The number, of one to three digits; -1 for none. */
static int small(void)
{
    char digits[4];
    int number = 0;
    if (!in_digits(3, digits))
        return -1;
    for (const char *d = digits; *d != 0; d++)
        number = 10 * number + *d - '0';
    return number;
}

static unsigned demand_number(int least, int most, unsigned otherwise)
{
    const int number = small();
    if (number < least || number > most)
        refuse(otherwise);
    line.now++;
    return (unsigned)number;
}

static void read_place(uint8_t *i)
{
    static const char *const places[] = {"slice", "word", "mode"};
    const int place = which(places, 3);
    if (place < 0)
        refuse(63);
    line.now++;
    i[2] = 1;
    i[3] = place == 1 ? 255 : 0;
    if (place == 2 && (is("a") || is("b"))) {
        i[2] = is("a") ? 2 : 3;
        line.now++;
        demand("address");
    } else if (place == 2) {
        i[3] = (uint8_t)demand_number(0, 255, 64);
        demand("address");
    }
    i[4] = (uint8_t)demand_number(0, 255, 64);
}

static void read_register(uint8_t *i)
{
    const int k = which(register_names + 1, 4);
    if (k < 0)
        refuse(63);
    i[1] = (uint8_t)(k + 1);
    line.now++;
}

static void read_flip(uint8_t *i)
{
    if (!is("flip"))
        return;
    line.now++;
    i[5] = (uint8_t)demand_number(0, 255, 64);
}

static int read_power(const char *const *powers, int n)
{
    const int k = which(powers, n);
    if (k < 0)
        refuse(66);
    line.now++;
    return k;
}

static void read_moves(uint8_t *i)
{
    static const char *const powers[] = {"1", "2", "4", "8", "16", "32", "64", "128", "256"};
    read_flip(i);
    if (!is("shift"))
        return;
    line.now++;
    const int m = read_power(powers, 8);
    demand("mod");
    const int p = m < 0 ? 0 : read_power(powers + m + 1, 8 - m);
    i[6] = (uint8_t)(16 * (m + 1 + p) + m);
}

static void read_source_and_moves(uint8_t *i)
{
    if (which(register_names + 1, 4) >= 0)
        read_register(i);
    else
        read_place(i);
    read_moves(i);
}

static void read_logic(uint8_t *i)
{
    static const char *const choices[] = {"x", "y", "both", "x-if-y", "x-if-y+y"};
    static const char *const functions[] = {"zero", "nor", "", "not", "clear", "loadnot", "xor", "nand", "and", "xnor", "load", "", "keep", "ornot", "or", "one"};
    const int choice = which(choices, 5);
    if (choice < 0)
        refuse(61);
    line.now++;
    const int function = which(functions, 16);
    i[7] = (uint8_t)(16 * choice + function);
    if (function >= 0)
        line.now++;
    else
        i[7] = (uint8_t)(16u * (unsigned)choice + demand_number(0, 15, 62));
    read_source_and_moves(i);
}

static void read_bytes(uint8_t *i)
{
    static const char digits[] = "0123456789abcdefABCDEF";
    for (int b = 0; b < 8; b++, line.now++) {
        const uint8_t *w = line.text + line.start[line.now % MOST_WORDS];
        const int two_long = !at_end() && line.length[line.now] == 2 && w[0] != 0 && w[1] != 0;
        const char *high = two_long ? strchr(digits, w[0]) : NULL, *low = high != NULL ? strchr(digits, w[1]) : NULL;
        if (low == NULL) {
            refuse(68);
            return;
        }
        const long h = high - digits, l = low - digits;
        i[b] = (uint8_t)(16 * (h < 16 ? h : h - 6) + (l < 16 ? l : l - 6));
    }
}

static void demand_end(void)
{
    if (!at_end())
        refuse(67);
}

/* The line as a whole is refused, where all else of it stands. */
static void refuse_line(unsigned number)
{
    demand_end();
    line.now = 0;
    refuse(number);
}

static void append(const uint8_t *list, size_t list_length, const uint8_t *items, size_t items_length)
{
    if (made.list_length + list_length <= MOST_MADE)
        memcpy(made.list + made.list_length, list, list_length);
    if (made.items_length + items_length <= MOST_MADE)
        memcpy(made.items + made.items_length, items, items_length);
    made.list_length += list_length;
    made.items_length += items_length;
}

/* What is over the most is refused in the end, and not built. */
static int is_built(void) { return made.list_length <= MOST_MADE && made.items_length <= MOST_MADE; }

static void read_instruction(const char *const *names, int kind)
{
    uint8_t i[8] = {(uint8_t)kind};
    line.now++;
    if (strcmp(names[kind], "bytes") == 0)
        read_bytes(i);
    else if (kind == 0)
        read_logic(i);
    else if (kind == 1 || kind == 4)
        read_source_and_moves(i);
    else if (kind == 2 || kind == 3) {
        read_place(i);
        demand("from");
        read_register(i);
        read_flip(i);
    } else if (kind == 6) {
        i[2] = is("a") ? 2 : 3;
        if (!is("a") && !is("b"))
            refuse(63);
        line.now++;
        i[3] = (uint8_t)demand_number(0, 255, 64);
    }
    demand_end();
    if (line.refused != 0)
        return;
    const int by_register = i[2] == 2 || i[2] == 3, unset = by_register && made.modes[2 * (i[2] - 2)] == 0;
    if (made.limit != 0 && is_store(i) && (unset || words_met(by_register ? made.modes[2 * (i[2] - 2) + 1] : i[3]) > made.limit)) {
        refuse_line(75);
        return;
    }
    made.taken |= takes(i);
    set_mode(i, made.modes);
    append(i, 8, NULL, 0);
}

/* The field of that name; how many there are where none has it. */
static size_t find_field(void)
{
    size_t f = 0;
    while (f < made.fields && !is(named[f].name))
        f++;
    return f;
}

static void name_field(void)
{
    const uint8_t *w = at_end() ? line.text : line.text + line.start[line.now];
    const size_t length = at_end() ? 0 : line.length[line.now];
    int wrong = length < 1 || length > 8;
    for (size_t k = 0; k < length; k++)
        wrong |= w[k] < 33 || w[k] > 126;
    if (wrong)
        refuse(70);
    if (find_field() < made.fields)
        refuse(71);
    if (made.fields == MOST_NAMED)
        refuse(72);
    line.now++;
    const unsigned start = demand_number(0, 255, 64), width = (unsigned)small();
    if (width < 1 || width > 64)
        refuse(30);
    if (start + width > 256)
        refuse(31);
    line.now++;
    demand_end();
    if (line.refused != 0)
        return;
    memset(named[made.fields].name, 0, sizeof named->name);
    memcpy(named[made.fields].name, w, length);
    named[made.fields].start = start;
    named[made.fields].width = width;
    made.fields++;
}

static size_t demand_field(void)
{
    const size_t f = find_field();
    if (f == made.fields)
        refuse(73);
    return f == made.fields ? 0 : f; /* then whatever comes of it is refused */
}

static void read_sum(int lead)
{
    static uint8_t list[LONGEST_BUILT];
    const size_t a = demand_field();
    line.now++;
    const size_t b = demand_field();
    if (named[b].width != named[a].width)
        refuse(74);
    line.now++;
    demand("into");
    const size_t s = demand_field();
    const unsigned n = named[a].width;
    if (named[s].width != n)
        refuse(74);
    if (crosses(named[s].start, named[a].start, n) || crosses(named[s].start, named[b].start, n))
        refuse(32);
    line.now++;
    demand_end();
    if (line.refused == 0 && made.limit != 0 && made.limit < 256)
        refuse_line(75);
    if (line.refused != 0)
        return;
    if (is_built())
        model_list(lead, named[a].start, named[b].start, named[s].start, n, list, sizeof list);
    append(list, 8 * ((size_t)lead + 5 * n), NULL, 0);
}

/* Below 2^64, in one to twenty digits? */
static int read_value(uint64_t *value)
{
    char digits[21];
    *value = 0;
    if (!in_digits(20, digits) || (strlen(digits) == 20 && strcmp(digits, "18446744073709551615") > 0))
        return 0;
    for (const char *d = digits; *d != 0; d++)
        *value = 10 * *value + (uint64_t)(*d - '0');
    return 1;
}

static void read_search(int less)
{
    static uint8_t list[LONGEST_BUILT], items[LONGEST_BUILT];
    uint64_t value = 0;
    const size_t a = demand_field();
    line.now++;
    const unsigned n = named[a].width;
    if (!read_value(&value))
        refuse(76);
    if (n < 64 && value >= (uint64_t)1 << n)
        refuse(34);
    line.now++;
    demand_end();
    if (line.refused == 0 && made.taken)
        refuse_line(77);
    if (line.refused != 0)
        return;
    if (is_built())
        model_search(less, named[a].start, n, value, list, sizeof list, items, sizeof items);
    append(list, 8 * (2 + 3 * (size_t)n), items, 32 * (size_t)n);
}

static void read_greatest(void)
{
    static uint8_t list[LONGEST_BUILT];
    const size_t a = demand_field();
    line.now++;
    demand_end();
    if (line.refused != 0)
        return;
    if (is_built())
        model_greatest(named[a].start, named[a].width, list, sizeof list);
    append(list, 8 * (1 + 11 * (size_t)named[a].width), NULL, 0);
}

static void read_limit(void)
{
    demand("at");
    demand("most");
    const unsigned limit = demand_number(1, 256, 64);
    demand(is("words") ? "words" : "word");
    demand_end();
    made.limit = limit;
}

static void read_line(void)
{
    static const char *const instructions[] = {"logic", "setm", "store", "mstore", "deliver", "resolve", "set", "bytes"};
    static const char *const statements[] = {"field", "sum", "difference", "equal", "less", "greatest", "reach"};
    const int kind = which(instructions, 8), statement = which(statements, 7);
    if (at_end())
        return;
    if (kind >= 0) {
        read_instruction(instructions, kind);
        return;
    }
    if (statement < 0)
        refuse(60);
    line.now++;
    switch (statement) {
    case 0:
        name_field();
        break;
    case 1:
    case 2:
        read_sum(statement);
        break;
    case 3:
    case 4:
        read_search(statement == 4);
        break;
    case 5:
        read_greatest();
        break;
    case 6:
        read_limit();
    }
}

void model_make(const uint8_t *text, size_t text_length, uint8_t *list, size_t list_length, uint8_t *items, size_t items_length, uint32_t answer[5])
{
    memset(answer, 0, 4 * 5);
    made.fields = 0;
    made.limit = 0;
    made.taken = 0;
    made.list_length = made.items_length = 0;
    memset(made.modes, 0, sizeof made.modes);
    if (text_length > 1048576) {
        answer[0] = 50;
        return;
    }
    for (size_t begins = 0, number = 1; begins <= text_length; number++) {
        begins = take_line(text, text_length, begins);
        read_line();
        if (line.refused != 0) {
            answer[0] = line.refused;
            answer[1] = (uint32_t)number;
            answer[2] = line.column;
            return;
        }
    }
    if (made.list_length > MOST_MADE)
        answer[0] = 3;
    else if (made.items_length > MOST_MADE)
        answer[0] = 4;
    else if (list_length < made.list_length || items_length < made.items_length)
        answer[0] = 33;
    if (answer[0] != 0)
        return;
    memcpy(list, made.list, made.list_length);
    memcpy(items, made.items, made.items_length);
    answer[3] = (uint32_t)made.list_length;
    answer[4] = (uint32_t)made.items_length;
}
