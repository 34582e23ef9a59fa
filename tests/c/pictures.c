/* Reads and writes pictures of either kind, and converts them: mode registers of every sort, every set of faults whose first one stands here, files with a byte altered, good
 * and bad lengths, files and calls that are drawn, and both ways and back. Every answer and every byte that is left is held to the model. */
#include "pictures.h"

#include "checks.h"
#include "draw.h"
#include "lent.h"
#include "model.h"
#include "staran.h"

#include <string.h>

enum { OLD = STARAN_CONTENT_PICTURE, NEW = STARAN_CONTENT_PICTURE_WITH_MODES, BLOCK = STARAN_BLOCK_BYTES, PICTURE_FILE = STARAN_PICTURE_FILE_BYTES };
enum { MXY = 8288, LONGEST_CONTENT = 33232 }; /* where a content goes on behind the words, M, X and Y; and the longest that a file can have */

enum { READ, WRITE, TO_NEW, TO_OLD, CALLS };
static const char *const names[CALLS] = {"reading", "writing", "to new", "to old"};

/* What a call is made with. Reading and converting take the file, writing takes memory and registers. */
typedef struct {
    size_t kind; /* asked for; of a conversion, that of the file which it takes */
    size_t length, memory, registers, out;
    uint8_t modes[4]; /* in the registers that are written */
} asked;

static uint8_t content[LONGEST_CONTENT], file[LONGEST];

/* ---- one call, held to the model; where `stands` is not NULL, the model is held to what stands there */

static void lend_all(int call, const asked *a, int end)
{
    nothing_lent(end);
    if (call != WRITE)
        lend_bytes(FILE_BYTES, file, a->length, end);
    if (call != READ)
        lend(OUT, a->out, end);
    if (call == READ || call == WRITE) {
        lend(MEMORY, a->memory, end);
        lend_registers(a->modes, a->registers, end);
    }
}

static void expect(int call, size_t kind, uint32_t expected[3])
{
    const lent *m = &buffers[MEMORY], *r = &buffers[REGISTERS], *o = &buffers[OUT];
    if (call == READ)
        model_read_picture(kind, WHOLE(FILE_BYTES), m->expected, m->length, r->expected, r->length, expected);
    else if (call == WRITE)
        model_write_picture(kind, m->bytes, m->length, r->bytes, r->length, o->expected, o->length, expected);
    else
        model_convert(call == TO_OLD, WHOLE(FILE_BYTES), o->expected, o->length, expected);
}

static void make(int call, size_t kind, uint32_t *answer)
{
    if (call == READ)
        staran_read_picture(kind, WHOLE(FILE_BYTES), WHOLE(MEMORY), WHOLE(REGISTERS), answer);
    else if (call == WRITE)
        staran_write_picture(kind, WHOLE(MEMORY), WHOLE(REGISTERS), WHOLE(OUT), answer);
    else
        (call == TO_OLD ? staran_picture_to_old : staran_picture_to_new)(WHOLE(FILE_BYTES), WHOLE(OUT), answer);
}

/* Gives back the number. */
static uint32_t call_once(int call, const asked *a, const uint32_t *stands, int end)
{
    uint32_t expected[3], *answer;
    lend_all(call, a, end);
    expect(call, a->kind, expected);
    if (stands != NULL)
        answered(expected, 3, stands);
    answer = lend_answer(3, end);
    make(call, a->kind, answer);
    settle(answer, 3, expected);
    return expected[0];
}

/* A good call of each sort: the file is a whole picture. */
static asked good(int call, size_t kind)
{
    const asked a = {call == TO_NEW ? OLD : call == TO_OLD ? NEW : kind, PICTURE_FILE, 8192, model_registers(kind), PICTURE_FILE, {0}};
    return a;
}

/* ---- files: a picture that is drawn, with these mode registers behind M, X and Y; of it so many bytes, as blocks of this kind */

static size_t make_file(size_t kind, const uint8_t modes[4], size_t size)
{
    draw_bytes(content, MXY);
    for (size_t i = MXY; i < sizeof content; i++)
        content[i] = (uint8_t)(i * 59);
    memcpy(content + MXY, modes, 4);
    memset(file, 0x5A, sizeof file);
    return model_blocks(kind, content, size, file);
}

/* ---- mode registers of every sort, in a file and lent */

static int good_register(const uint8_t r[2]) { return r[0] == 1 || (r[0] == 0 && r[1] == 0); }

static void modes_once(const uint8_t modes[4], int end)
{
    const int stand = good_register(modes) && good_register(modes + 2), set = modes[0] == 1 || modes[2] == 1;
    const uint32_t numbers[CALLS] = {stand ? 0 : 15, stand ? 0 : 15, 22, !stand ? 15 : set ? 28 : 0};
    make_file(NEW, modes, MXY + 4);
    for (int call = 0; call < CALLS; call++) {
        asked a = good(call, NEW);
        const uint32_t stands[3] = {numbers[call], 0, numbers[call] != 0 ? 0 : call == READ ? MXY + 4 : PICTURE_FILE};
        memcpy(a.modes, modes, 4);
        check("%s with A %u %u, B %u %u", names[call], modes[0], modes[1], modes[2], modes[3]);
        call_once(call, &a, stands, end);
    }
}

/* Some of each of the four bytes; then of each register every flag with some modes, and every mode with some flags. */
static void every_mode(void)
{
    static const uint8_t some[] = {0, 1, 2, 128, 255}, others[][2] = {{0, 0}, {1, 0}, {1, 255}};
    const size_t n = COUNT(some);
    for (size_t i = 0; i < n * n * n * n; i++) {
        const uint8_t modes[4] = {some[i % n], some[i / n % n], some[i / n / n % n], some[i / n / n / n]};
        modes_once(modes, (int)(i % ENDS));
    }
    for (size_t i = 0; i < 2 * 256 * n * 2; i++) {
        const uint8_t all = (uint8_t)(i / 2), one = some[i / 2 / 256 % n], *other = others[i % COUNT(others)];
        const uint8_t r[2] = {i % 2 == 0 ? all : one, i % 2 == 0 ? one : all}, first = i / 2 / 256 / n == 0;
        const uint8_t modes[4] = {first ? r[0] : other[0], first ? r[1] : other[1], first ? other[0] : r[0], first ? other[1] : r[1]};
        modes_once(modes, (int)(i / 2 % ENDS));
    }
    function("mode registers");
}

/* ---- faults: every set of those that a call can have, in its order; the first of them must be the answer */

enum { ASKED, FILE_LENGTH, SUMS, KIND, NUMBER, FORM, SIZE, TARGETS, FLAGS, SET, OUTPUT, FAULTS };
static const uint32_t numbers[FAULTS] = {22, 20, 21, 22, 23, 24, 25, 26, 15, 28, 27};
#define ORDER 9
static const struct {
    int call;
    size_t kind; /* of the picture, or of the one that a conversion takes */
    size_t count;
    int faults[ORDER];
} orders[] = {{READ, NEW, 9, {ASKED, FILE_LENGTH, SUMS, KIND, NUMBER, FORM, SIZE, TARGETS, FLAGS}},
              {READ, OLD, 8, {ASKED, FILE_LENGTH, SUMS, KIND, NUMBER, FORM, SIZE, TARGETS}},
              {WRITE, NEW, 4, {ASKED, TARGETS, FLAGS, OUTPUT}},
              {WRITE, OLD, 3, {ASKED, TARGETS, OUTPUT}},
              {TO_NEW, OLD, 7, {FILE_LENGTH, SUMS, KIND, NUMBER, FORM, SIZE, OUTPUT}},
              {TO_OLD, NEW, 9, {FILE_LENGTH, SUMS, KIND, NUMBER, FORM, SIZE, FLAGS, SET, OUTPUT}}};

static const size_t no_kinds[] = {0, 5, 6, 255, 256, 257, 260, 65537, 65540, (size_t)1 << 32, ((size_t)1 << 32) + 1, ((size_t)1 << 32) + 4, SIZE_MAX - 3, SIZE_MAX};
static const size_t no_files[] = {0, 1, 2, 511, 513, 8192 + 1, PICTURE_FILE - 1, PICTURE_FILE + 1, 34305, 34816, 65536};
static const size_t no_sizes[] = {0, 1, 496, 8191, 8192, 8287, 8289, 8290, 8291, 8293, 8296, 8432, 8433, 32768, LONGEST_CONTENT};
static const size_t no_memories[] = {0, 96, 8191, 8193, 8292, 65536}, no_registers[] = {0, 32, 95, 97, 98, 99, 101, 104, 65536};
static const size_t short_outs[] = {0, 1, 512, 8191, 8192, 8288, 8292, 8448, 8702, 8703}, long_outs[] = {8704, 8705, 9216, 34304, 65536};
#define ONE_OF(table) (table)[draw() % COUNT(table)]

/* Mode registers that 15 refuses, or not, and of which one has flag 1, or not. */
static const uint8_t *draw_flags(int bad, int set)
{
    static uint8_t modes[4];
    do
        for (int k = 0; k < 4; k++)
            modes[k] = (uint8_t)(draw() % 3 == 0 ? draw() : draw() % 3);
    while ((good_register(modes) && good_register(modes + 2)) == bad || (modes[0] == 1 || modes[2] == 1) != set);
    return modes;
}

static void put_two(uint8_t *b, size_t n)
{
    b[0] = (uint8_t)n;
    b[1] = (uint8_t)(n / 256);
}

/* Another number of two bytes than the one that stands there. */
static void other_two(uint8_t *b)
{
    const size_t old = b[0] + 256u * b[1], others[] = {old + 1, old - 1, 0, 1, 2, 3, 4, old + 256, draw()};
    size_t n;
    do
        n = ONE_OF(others) % 65536;
    while (n == old);
    put_two(b, n);
}

/* A count of payload or a byte that cannot be, in a block of so many. */
static void spoil_form(uint8_t *block, size_t at, size_t count)
{
    const size_t used = block[6] + 256u * block[7], no_use[] = {497, 508, 65535, at + 1 < count ? 495 : 497, count > 1 ? 0 : 512};
    if (draw() % 2 == 0)
        put_two(block + 6, ONE_OF(no_use));
    else if (used < 496 && draw() % 2 == 0)
        block[12 + used + draw() % (496 - used)] = (uint8_t)(1 + draw() % 255);
    else
        block[8 + draw() % 4] = (uint8_t)(1 + draw() % 255);
}

/* The block with these of its faults, all others good. */
static void spoil_block(unsigned set, uint8_t *block, size_t at, size_t count)
{
    if (set >> FORM & 1)
        spoil_form(block, at, count);
    if (set >> NUMBER & 1)
        other_two(block + 2 + 2 * (draw() % 2));
    if (set >> KIND & 1)
        other_two(block);
    model_seal(block);
    if (set >> SUMS & 1)
        block[draw() % 2 == 0 ? 508 + draw() % 4 : draw() % BLOCK] ^= (uint8_t)(1 << draw() % 8);
}

/* Makes the file, and says what is asked, with these faults; gives back the block that has those of a block. Behind it another block may have any. */
static size_t make_faults(unsigned set, int call, size_t kind, asked *a)
{
    const size_t size = set >> SIZE & 1 ? (draw() % 4 == 0 ? (kind == NEW ? MXY : MXY + 4) : ONE_OF(no_sizes)) : 8192 + model_registers(kind);
    const int any_set = call == TO_OLD ? set >> SET & 1 : (int)(draw() % 2);
    *a = good(call, kind);
    memcpy(a->modes, draw_flags(set >> FLAGS & 1, any_set), 4);
    a->length = make_file(kind, a->modes, size);
    const size_t count = a->length / BLOCK, at = draw() % 2 == 0 ? count - 1 : draw() % count, behind = at + draw() % (count - at);
    spoil_block(set, file + BLOCK * at, at, count);
    if (set & (1u << SUMS | 1u << KIND | 1u << NUMBER | 1u << FORM) && behind > at)
        spoil_block((unsigned)draw(), file + BLOCK * behind, behind, count);
    if (set >> ASKED & 1)
        a->kind = ONE_OF(no_kinds);
    if (set >> FILE_LENGTH & 1)
        a->length = ONE_OF(no_files);
    if (set >> TARGETS & 1) {
        const int which = (int)(1 + draw() % 3); /* the memory, the registers, or both */
        a->memory = which & 1 ? ONE_OF(no_memories) : a->memory;
        a->registers = !(which & 2) ? a->registers : draw() % 2 == 0 ? model_registers(OLD + NEW - kind) : ONE_OF(no_registers);
    }
    a->out = set >> OUTPUT & 1 ? ONE_OF(short_outs) : ONE_OF(long_outs);
    return at;
}

/* What stands: the first fault, at the block that has it, or done. */
static void first_fault(size_t row, unsigned chosen, size_t at, uint32_t stands[3])
{
    stands[0] = stands[1] = 0;
    stands[2] = orders[row].call == READ ? (uint32_t)(8192 + model_registers(orders[row].kind)) : PICTURE_FILE;
    for (size_t k = orders[row].count; k-- > 0;) {
        const int fault = orders[row].faults[k];
        if (!(chosen >> k & 1))
            continue;
        stands[0] = numbers[fault];
        stands[1] = fault >= SUMS && fault <= FORM ? (uint32_t)at : 0;
        stands[2] = 0;
    }
}

static void faults_in_turn(void)
{
    enum { ROUNDS = 8 };
    for (size_t row = 0; row < COUNT(orders); row++)
        for (unsigned i = 0; i < ROUNDS * 1u << orders[row].count; i++) {
            const unsigned chosen = i / ROUNDS;
            unsigned set = 0;
            asked a;
            uint32_t stands[3];
            for (size_t k = 0; k < orders[row].count; k++)
                set |= (chosen >> k & 1) << orders[row].faults[k];
            first_fault(row, chosen, make_faults(set, orders[row].call, orders[row].kind, &a), stands);
            check("%s, kind %zu, with the faults %03x, round %u", names[orders[row].call], orders[row].kind, set, i % ROUNDS);
            call_once(orders[row].call, &a, stands, (int)(i % ENDS));
        }
    function("faults in turn");
}

/* ---- one byte altered, in each part of each block, with the sums left wrong and with the sums put right; in the last block each byte around the mode registers */

static void damaged(void)
{
    static const size_t parts[] = {0, 1, 2, 3, 4, 5, 6, 7, 8, 9, 10, 11, 12, 255, 363, 364, 365, 366, 367, 368, 369, 507, 508, 509, 510, 511};
    static const uint8_t unset[4], by[] = {1, 2, 5, 128, 255};
    for (size_t i = 0; i < 17 * COUNT(parts) * 2; i++) {
        const size_t block = i / 2 / COUNT(parts), part = parts[i / 2 % COUNT(parts)];
        for (size_t b = 0; b < (block == 16 ? COUNT(by) : 1); b++)
            for (int call = 0; call < CALLS; call++) {
                const size_t kind = call == TO_NEW ? OLD : NEW;
                const asked a = good(call, kind);
                if (call == WRITE)
                    continue;
                make_file(kind, unset, 8192 + model_registers(kind));
                file[BLOCK * block + part] ^= by[b];
                if (i % 2 == 1)
                    model_seal(file + BLOCK * block);
                check("%s, byte %zu of block %zu altered by %u, %s", names[call], part, block, by[b], i % 2 == 1 ? "sealed" : "not sealed");
                call_once(call, &a, NULL, (int)(block % ENDS));
            }
    }
    function("damaged blocks");
}

/* ---- lengths: of the file, around its own and far from it, of the output, and of files of every kind and size */

static void lengths_in_turn(void)
{
    static const size_t lengths[] = {0, 1, 511, 512, 513, 1024, 8191, 8192, 8193, 8288, 8292, 8448, 8703, 8704, 8705, 9215, 9216, 34303, 34304, 34305, 34816, 65536};
    static const size_t sizes[] = {0, 32, 496, 992, 7936, 8192, 8284, 8287, 8288, 8289, 8290, 8291, 8292, 8293, 8296, 8320, 8432, 8433, 8928, 32768};
    static const uint8_t unset[4];
    for (int call = TO_NEW; call < CALLS; call++)
        for (size_t kind = 1; kind <= 4; kind++) {
            make_file(kind, unset, 8192 + model_registers(kind));
            for (size_t i = 0; i < ENDS * COUNT(lengths) * COUNT(lengths); i++) {
                asked a = good(call, kind);
                a.length = lengths[i / ENDS % COUNT(lengths)];
                a.out = lengths[i / ENDS / COUNT(lengths)];
                check("%s of a file of kind %zu, %zu bytes, to %zu", names[call], kind, a.length, a.out);
                call_once(call, &a, NULL, (int)(i % ENDS));
            }
        }
    for (size_t i = 0; i < CALLS * 4 * COUNT(sizes) * ENDS; i++) {
        const int call = (int)(i % CALLS), end = (int)(i / CALLS % ENDS);
        const size_t kind = 1 + i / CALLS / ENDS % 4, size = sizes[i / CALLS / ENDS / 4];
        asked a = good(call, kind);
        if (call == WRITE)
            continue;
        a.length = make_file(kind, unset, size);
        check("%s of a file of kind %zu and size %zu", names[call], kind, size);
        call_once(call, &a, NULL, end);
    }
    function("lengths");
}

/* ---- the entries of lists and items, asked for any kind: a picture is judged as its kind, and if it stands it is 26, whatever its mode registers are */

static int is_picture(size_t kind) { return kind == OLD || kind == NEW; }

static void read_as_content(size_t kind, size_t length, size_t target, int end)
{
    size_t place, size;
    uint32_t expected[3] = {0, 0, 0}, *answer;
    nothing_lent(end);
    lend_bytes(FILE_BYTES, file, length, end);
    lend(LIST, target, end);
    expected[0] = model_file(kind, file, length, &place, content, &size);
    expected[1] = (uint32_t)place;
    if (expected[0] == 0 && (is_picture(kind) || target < size))
        expected[0] = 26;
    if (expected[0] == 0) {
        expected[2] = (uint32_t)size;
        memcpy(buffers[LIST].expected, content, size);
    }
    answer = lend_answer(3, end);
    staran_read_content(kind, WHOLE(FILE_BYTES), WHOLE(LIST), answer);
    settle(answer, 3, expected);
}

/* Writes a picture's content as this kind; as a list or items with a byte more, so that it fits no kind. */
static void write_as_content(size_t kind, size_t of, size_t out, int end)
{
    const uint32_t expected[3] = {kind == 0 || kind > 4 ? 22 : 26, 0, 0};
    uint32_t *answer;
    nothing_lent(end);
    lend_bytes(LIST, content, 8192 + model_registers(of) + (kind == STARAN_CONTENT_LIST || kind == STARAN_CONTENT_ITEMS), end);
    lend(OUT, out, end);
    answer = lend_answer(3, end);
    staran_write_content(kind, WHOLE(LIST), WHOLE(OUT), answer);
    settle(answer, 3, expected);
}

static void contents_in_turn(void)
{
    static const size_t kinds[] = {0, 1, 2, 3, 4, 5, 6, 260, 65540, ((size_t)1 << 32) + 4, SIZE_MAX}, lengths[] = {0, 8192, 8288, 8292, 32768, 65536};
    static const uint8_t modes[][4] = {{0, 0, 0, 0}, {1, 7, 0, 0}, {0, 0, 2, 0}, {0, 1, 1, 0}};
    for (size_t i = 0; i < COUNT(modes) * 4 * COUNT(lengths) * COUNT(kinds) * ENDS; i++) {
        const size_t kind = kinds[i / ENDS % COUNT(kinds)], length = lengths[i / ENDS / COUNT(kinds) % COUNT(lengths)];
        const size_t row = i / ENDS / COUNT(kinds) / COUNT(lengths), of = 1 + row % 4;
        const size_t file_length = make_file(of, modes[row / 4], is_picture(of) ? 8192 + model_registers(of) : 8192);
        check("reading kind %zu to %zu bytes, of a file of kind %zu", kind, length, of);
        read_as_content(kind, file_length, length, (int)(i % ENDS));
        if (!is_picture(of))
            continue;
        check("writing a content of kind %zu as kind %zu, to %zu bytes", of, kind, length);
        write_as_content(kind, of, length, (int)(i % ENDS));
    }
    function("contents");
}

/* ---- files and calls that are drawn: any kind in the blocks and any asked for, any mode registers, a byte altered or not, lengths that are mostly good */

enum { DRAWN = 12000 };

static void draw_file(size_t *kind, asked *a)
{
    static const size_t sizes[] = {MXY, MXY + 4, MXY + 4, 8192, 8320, 32};
    *kind = draw() % 3 == 0 ? 1 + draw() % 4 : draw() % 2 == 0 ? OLD : NEW;
    memcpy(a->modes, draw() % 3 == 0 ? draw_flags((int)(draw() % 2), (int)(draw() % 2)) : draw_modes(), 4);
    if (draw() % 3 == 0)
        memset(a->modes, 0, 4);
    a->length = make_file(*kind, a->modes, draw() % 6 == 0 ? ONE_OF(sizes) : 8192 + model_registers(*kind));
    if (draw() % 4 == 0) {
        uint8_t *block = file + BLOCK * (draw() % (a->length / BLOCK));
        const size_t at = draw() % 3 == 0 ? draw() % 12 : draw() % BLOCK;
        block[at] = (uint8_t)(draw() % 2 == 0 ? draw() : draw() % 5);
        if (draw() % 4 != 0)
            model_seal(block);
    }
    if (draw() % 12 == 0)
        a->length = draw() % 2 == 0 ? ONE_OF(no_files) : BLOCK * (draw() % 68);
}

static void drawn_calls(void)
{
    static const unsigned reached[CALLS][12] = {{0, 15, 20, 21, 22, 23, 24, 25, 26}, {0, 15, 22, 26, 27}, {0, 20, 21, 22, 23, 24, 25, 27}, {0, 15, 20, 21, 22, 23, 24, 25, 27, 28}};
    static unsigned given[CALLS][64];
    for (int i = 0; i < DRAWN; i++) {
        const int end = i % ENDS;
        asked a;
        size_t kind;
        draw_file(&kind, &a);
        a.memory = draw() % 12 == 0 ? ONE_OF(no_memories) : 8192;
        a.out = draw() % 4 == 0 ? ONE_OF(short_outs) : ONE_OF(long_outs);
        for (int call = 0; call < CALLS; call++) {
            a.kind = draw() % 12 == 0 ? ONE_OF(no_kinds) : draw() % 8 == 0 ? 1 + draw() % 4 : kind;
            a.registers = draw() % 8 == 0 ? model_registers(draw() % 2 == 0 ? OLD : NEW) : model_registers(a.kind);
            check("%s, drawn file %d", names[call], i);
            given[call][call_once(call, &a, NULL, end) % 64]++;
        }
    }
    for (int call = 0; call < CALLS; call++) {
        check("%s: drawn calls reach every number", names[call]);
        for (size_t k = 0; k < COUNT(reached[call]); k++)
            if (given[call][reached[call][k]] < 20)
                wrong("a number is hardly drawn");
        count();
    }
    function("drawn calls");
}

/* ---- both ways and back: what one call leaves is lent to the next */

typedef struct {
    uint8_t memory[STARAN_MEMORY_BYTES], registers[STARAN_REGISTERS_BYTES];
} state;

/* The output of the call before this, which is the file of the next. */
static void take_out(void) { memcpy(file, buffers[OUT].bytes, PICTURE_FILE); }

/* Writes the state as a picture of this kind to `file`, and is done. */
static void write_state(size_t kind, const state *s, int end)
{
    uint32_t *answer;
    nothing_lent(end);
    lend_bytes(MEMORY, s->memory, sizeof s->memory, end);
    lend_bytes(REGISTERS, s->registers, model_registers(kind), end);
    lend(OUT, PICTURE_FILE, end);
    answer = lend_answer(3, end);
    make(WRITE, kind, answer);
    if (answer[0] != 0)
        wrong("it is not written");
    take_out();
}

/* Reads `file` as a picture of this kind, and finds the state: of a picture of kind 1 the mode registers are four zeros. */
static void read_state(size_t kind, const state *s, int end)
{
    state found;
    uint32_t *answer;
    nothing_lent(end);
    lend_bytes(FILE_BYTES, file, PICTURE_FILE, end);
    lend(MEMORY, sizeof s->memory, end);
    lend(REGISTERS, model_registers(kind), end);
    answer = lend_answer(3, end);
    make(READ, kind, answer);
    memset(&found, 0, sizeof found);
    memcpy(found.memory, buffers[MEMORY].bytes, sizeof found.memory);
    memcpy(found.registers, buffers[REGISTERS].bytes, model_registers(kind));
    if (answer[0] != 0 || answer[2] != 8192 + model_registers(kind))
        wrong("it is not read");
    if (memcmp(&found, s, sizeof found) != 0)
        wrong("what is read is not what was written");
}

/* Converts `file`, with this number. */
static void convert(int call, uint32_t number, int end)
{
    uint32_t *answer;
    nothing_lent(end);
    lend_bytes(FILE_BYTES, file, PICTURE_FILE, end);
    lend(OUT, PICTURE_FILE, end);
    answer = lend_answer(3, end);
    make(call, 0, answer);
    if (answer[0] != number || answer[1] != 0 || answer[2] != (number == 0 ? PICTURE_FILE : 0))
        wrong("a conversion answers otherwise");
    if (number != 0 ? !as_expected(OUT) : !as_expected(FILE_BYTES))
        wrong("a conversion writes what it must not");
    take_out();
}

/* A state whose mode registers are unset, in both kinds; each conversion gives the file that was written of it, and its file is read as that state. */
static void there_and_back(const state *s, int end)
{
    static uint8_t written[2][PICTURE_FILE];
    write_state(OLD, s, end);
    memcpy(written[0], file, PICTURE_FILE);
    write_state(NEW, s, end);
    memcpy(written[1], file, PICTURE_FILE);
    read_state(NEW, s, end);
    for (int turn = 0; turn < 4; turn++) {
        const int to_old = turn % 2 == 0;
        convert(to_old ? TO_OLD : TO_NEW, 0, end);
        if (memcmp(file, written[!to_old], PICTURE_FILE) != 0)
            wrong("a conversion is not the file that was written");
        read_state(to_old ? OLD : NEW, s, end);
    }
}

/* A state with a mode register set is read as it was written, has no picture of kind 1, and is one without it where M, X and Y alone are written. */
static void not_there(state *s, int end)
{
    write_state(NEW, s, end);
    read_state(NEW, s, end);
    convert(TO_OLD, 28, end);
    memset(s->registers + 96, 0, 4);
    write_state(OLD, s, end);
    read_state(OLD, s, end);
    convert(TO_NEW, 0, end);
    read_state(NEW, s, end);
}

static void both_ways(void)
{
    static state s;
    for (int i = 0; i < 400; i++) {
        const int end = i % ENDS, fill = i / 2 % 4;
        memset(&s, fill == 0 ? 0 : 255, sizeof s);
        if (fill > 1) {
            draw_bytes(s.memory, sizeof s.memory);
            draw_bytes(s.registers, sizeof s.registers);
        }
        memset(s.registers + 96, 0, 4);
        check("both ways and back, picture %d", i);
        there_and_back(&s, end);
        count();
        memcpy(s.registers + 96, draw_flags(0, 1), 4);
        check("a picture with a mode register set, %d", i);
        not_there(&s, end);
        count();
    }
    function("both ways");
}

int pictures(void)
{
    every_mode();
    faults_in_turn();
    damaged();
    lengths_in_turn();
    contents_in_turn();
    drawn_calls();
    both_ways();
    return counted();
}
