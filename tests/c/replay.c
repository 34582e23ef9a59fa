/* Replays outside cases through the library: tests/outside/cases/PROTOCOL.md has the form of the cases and of the answers. The cases of `make`, kind 23, which knows
 * instructions alone, are passed over with no answer: the library has no such function, but staran_make, which knows statements too, kind 25. */
#include "replay.h"

#include "lent.h"
#include "staran.h"

#include <stdio.h>
#include <stdlib.h>
#include <string.h>

enum { RECORD = 1000, FEWEST_NUMBERS = 5, NUMBERS = 3 + STARAN_RUN_NUMBERS, COUNT = 6, WORDS = NUMBERS + COUNT, REPEAT_FILE = 253, REPEAT = 254, SEAL = 255 };
enum { RUN, STEP, SUM_RUN = 10, DIFFERENCE_RUN, EQUAL_RUN, LESS_RUN, GREATEST_RUN, CLOSING_RUN, SPREADING_RUN };
enum { READ_PICTURE = SPREADING_RUN + 1, WRITE_PICTURE, MADE_NEW, MADE_OLD, ISOLATED, SHOWN, MADE_LIST, REACHED, ASSEMBLED, KINDS };

/* A case, taken apart: every kind that is known here has COUNT buffers and at most four parameters. */
typedef struct {
    uint8_t record[RECORD];
    size_t length, patches;
    uint32_t p[4];
} outside_case;

/* How many numbers its answer has, before the digests: a run has six, behind a builder of two buffers nine; what has fewer is filled up with zeros to five. */
static int numbers(const outside_case *c)
{
    const int kind = c->record[0];
    if (kind >= EQUAL_RUN && kind <= SPREADING_RUN)
        return NUMBERS;
    return kind == SUM_RUN || kind == DIFFERENCE_RUN || kind <= STEP ? STARAN_RUN_NUMBERS : FEWEST_NUMBERS;
}

/* Where buffer k stands in a record: two bytes of its length, and whether it is filled with zeros. */
static const uint8_t *buffer_of(const outside_case *c, int k) { return c->record + 9 + 3 * k; }

static uint32_t two(const uint8_t *b) { return b[0] + 256u * b[1]; }

static uint32_t four(const uint8_t *b) { return two(b) + 65536u * two(b + 2); }

static void put_two(uint8_t *b, uint32_t n)
{
    b[0] = (uint8_t)n;
    b[1] = (uint8_t)(n >> 8);
}

/* Fill: one generator runs on through all buffers. */
static void fill(const outside_case *c, int end)
{
    static uint8_t bytes[65536];
    uint32_t x = four(c->record + 4);
    for (int k = 0; k < COUNT; k++) {
        size_t length = two(buffer_of(c, k));
        for (size_t i = 0; i < length; i++) {
            bytes[i] = 0;
            if (buffer_of(c, k)[2])
                continue;
            x ^= x << 13;
            x ^= x >> 17;
            x ^= x << 5;
            bytes[i] = (uint8_t)x;
        }
        lend_bytes(k, bytes, length, end);
    }
}

/* Shape: one instruction made good. */
static void shape_one(uint8_t *r, int shape)
{
    uint8_t b[8] = {0};
    b[0] = shape == 3 ? r[0] % 7 : shape == 1 ? r[0] % 6 : r[2] < 248 ? r[0] % 4 : 4 + r[0] % 2;
    if (b[0] == 6) {
        b[2] = 2 + r[2] % 2;
        b[3] = r[3];
        memcpy(r, b, 8);
        return;
    }
    int stores = b[0] == 2 || b[0] == 3, resolves = b[0] == 5;
    b[1] = resolves ? 0 : stores ? 1 + r[1] % 4 : r[1] % 5;
    if (stores || (!resolves && b[1] == 0)) {
        b[2] = shape == 3 ? 1 + r[2] % 3 : 1;
        b[3] = b[2] == 1 ? r[3] : 0;
        b[4] = r[4];
    }
    b[5] = resolves ? 0 : r[5];
    if (!stores && !resolves) {
        int q = r[6] % 9;
        b[6] = q == 0 ? 0 : (uint8_t)(16 * q + r[6] / 16 % q);
    }
    if (b[0] == 0)
        b[7] = (uint8_t)(16 * (r[7] / 16 % 5) + r[7] % 16);
    memcpy(r, b, 8);
}

static void seal(uint8_t *block)
{
    uint32_t s1 = 0, s2 = 0;
    for (uint32_t i = 0; i < 508; i++) {
        s1 = (s1 + block[i]) % 65535;
        s2 = (s2 + (508 - i) * block[i]) % 65535;
    }
    put_two(block + 508, s1);
    put_two(block + 510, s2);
}

/* Format: every whole block of the file made good. */
static void format(const outside_case *c)
{
    size_t count = buffers[FILE_BYTES].length / 512;
    for (size_t n = 0; n < count; n++) {
        uint8_t *block = buffers[FILE_BYTES].bytes + 512 * n;
        uint32_t used = n + 1 == count ? c->p[2] : 496;
        put_two(block, c->p[1]);
        put_two(block + 2, (uint32_t)n);
        put_two(block + 4, (uint32_t)count);
        put_two(block + 6, used);
        memset(block + 8, 0, 4);
        for (uint32_t i = used; i < 496; i++)
            block[12 + i] = 0;
        seal(block);
    }
}

/* A buffer repeats its first bytes. */
static void repeat(int k, size_t period)
{
    for (size_t i = period; i < buffers[k].length; i++)
        buffers[k].bytes[i] = buffers[k].bytes[i - period];
}

/* Patches, in order. Answers 0 where one does not fit: the case is then no case of the protocol. */
static int patch(const outside_case *c)
{
    size_t at = c->patches;
    for (int i = 0; i < c->record[8]; i++) {
        if (at + 4 > c->length)
            return 0;
        const uint8_t *p = c->record + at;
        size_t offset = two(p + 1), n = p[3];
        at += 4 + n;
        if (at > c->length || (p[0] >= COUNT && p[0] < REPEAT_FILE))
            return 0;
        if (p[0] == REPEAT) {
            if (offset < 32 || offset > 8192)
                return 0;
            repeat(MEMORY, offset);
        } else if (p[0] == REPEAT_FILE) {
            if (offset < 1 || offset > 35000)
                return 0;
            repeat(FILE_BYTES, offset);
        } else if (p[0] == SEAL) {
            if (512 * offset + 512 > buffers[FILE_BYTES].length)
                return 0;
            seal(buffers[FILE_BYTES].bytes + 512 * offset);
        } else {
            if (offset + n > buffers[p[0]].length)
                return 0;
            memcpy(buffers[p[0]].bytes + offset, p + 4, n);
        }
    }
    return at == c->length;
}

static int make_buffers(const outside_case *c, int end)
{
    fill(c, end);
    if (c->record[1] != 0)
        for (size_t i = 0; i + 8 <= buffers[LIST].length; i += 8)
            shape_one(buffers[LIST].bytes + i, c->record[1]);
    const int kind = c->record[0], has_file = kind == 6 || kind == 7 || kind == READ_PICTURE || kind == MADE_NEW || kind == MADE_OLD;
    if (has_file && c->p[3] == 1)
        format(c);
    if (!patch(c))
        return 0;
    for (int k = 0; k < COUNT; k++)
        memcpy(buffers[k].expected, buffers[k].bytes, buffers[k].length);
    return 1;
}

/* The entry that the case names. Its answer is put to the first words, and bit k of what is given back is set where buffer k was lent for writing. */
static unsigned call(const outside_case *c, int end, uint32_t words[WORDS])
{
    const uint32_t *p = c->p;
    uint32_t *a;
    int kind = c->record[0];
    switch (kind) {
    case RUN:
        a = lend_answer(STARAN_RUN_NUMBERS, end);
        staran_run_4(WHOLE(MEMORY), WHOLE(REGISTERS), WHOLE(LIST), WHOLE(ITEMS), WHOLE(OUT), a);
        memcpy(words, a, 4 * STARAN_RUN_NUMBERS);
        return 1u << MEMORY | 1u << REGISTERS | 1u << OUT;
    case STEP:
        a = lend_answer(STARAN_RUN_NUMBERS, end);
        staran_step_5(WHOLE(MEMORY), (staran_registers *)(void *)buffers[REGISTERS].bytes, WHOLE(LIST), WHOLE(ITEMS), WHOLE(OUT), a);
        memcpy(words, a, 4 * STARAN_RUN_NUMBERS);
        return 1u << MEMORY | 1u << REGISTERS | 1u << OUT;
    case 2:
    case 3:
        a = lend_answer(1, end);
        (kind == 2 ? staran_pass : staran_wired_pass)(buffers[ITEMS].bytes, (uint8_t)p[0], (uint8_t)p[1], buffers[OUT].bytes, a);
        words[0] = a[0];
        return 1u << OUT;
    case 4:
    case 5:
    case SUM_RUN:
    case DIFFERENCE_RUN:
        a = lend_answer(2, end);
        (kind % 2 == 0 ? staran_sum_list : staran_difference_list)(p[0], p[1], p[2], p[3], WHOLE(LIST), a);
        words[0] = a[0];
        words[2] = a[1];
        return 1u << LIST;
    case 6:
        a = lend_answer(3, end);
        staran_read_content(p[0], WHOLE(FILE_BYTES), WHOLE(LIST), a);
        memcpy(words, a, 12);
        return 1u << LIST;
    case 7:
    case READ_PICTURE:
        a = lend_answer(3, end);
        staran_read_picture(kind == 7 ? STARAN_CONTENT_PICTURE : p[0], WHOLE(FILE_BYTES), WHOLE(MEMORY), WHOLE(REGISTERS), a);
        memcpy(words, a, 12);
        return 1u << MEMORY | 1u << REGISTERS;
    case 8:
        a = lend_answer(3, end);
        staran_write_content(p[0], WHOLE(LIST), WHOLE(FILE_BYTES), a);
        memcpy(words, a, 12);
        return 1u << FILE_BYTES;
    case EQUAL_RUN:
    case LESS_RUN:
        a = lend_answer(3, end);
        (kind == EQUAL_RUN ? staran_equal_list : staran_less_list)(p[0], p[1], p[2] + ((uint64_t)p[3] << 32), WHOLE(LIST), WHOLE(ITEMS), a);
        memcpy(words, a, 12);
        return 1u << LIST | 1u << ITEMS;
    case GREATEST_RUN:
        a = lend_answer(2, end);
        staran_greatest_list(p[0], p[1], WHOLE(LIST), a);
        memcpy(words, a, 8);
        return 1u << LIST;
    case CLOSING_RUN:
    case SPREADING_RUN:
        a = lend_answer(3, end);
        (kind == CLOSING_RUN ? staran_closing_list : staran_spreading_list)(p[0], p[1], p[2], WHOLE(FILE_BYTES), WHOLE(LIST), WHOLE(ITEMS), a);
        memcpy(words, a, 12);
        return 1u << LIST | 1u << ITEMS;
    case MADE_NEW:
    case MADE_OLD:
        a = lend_answer(3, end);
        (kind == MADE_NEW ? staran_picture_to_new : staran_picture_to_old)(WHOLE(FILE_BYTES), WHOLE(LIST), a);
        memcpy(words, a, 12);
        return 1u << LIST;
    case ISOLATED:
        a = lend_answer(STARAN_ISOLATED_NUMBERS, end);
        staran_isolated(WHOLE(LIST), WHOLE(REGISTERS), a);
        memcpy(words, a, 4 * STARAN_ISOLATED_NUMBERS);
        return 0;
    case SHOWN:
        a = lend_answer(STARAN_SHOW_NUMBERS, end);
        staran_show(WHOLE(LIST), WHOLE(FILE_BYTES), a);
        memcpy(words, a, 4 * STARAN_SHOW_NUMBERS);
        return 1u << FILE_BYTES;
    case REACHED:
        a = lend_answer(STARAN_REACH_NUMBERS, end);
        staran_reach(WHOLE(REGISTERS), WHOLE(LIST), WHOLE(OUT), a);
        memcpy(words, a, 4 * STARAN_REACH_NUMBERS);
        return 1u << OUT;
    case ASSEMBLED:
        a = lend_answer(STARAN_MAKE_NUMBERS, end);
        staran_make(WHOLE(FILE_BYTES), WHOLE(LIST), WHOLE(ITEMS), a);
        memcpy(words, a, 4 * STARAN_MAKE_NUMBERS);
        return 1u << LIST | 1u << ITEMS;
    default:
        a = lend_answer(3, end);
        staran_write_picture(kind == 9 ? STARAN_CONTENT_PICTURE : p[0], WHOLE(MEMORY), WHOLE(REGISTERS), WHOLE(FILE_BYTES), a);
        memcpy(words, a, 12);
        return 1u << FILE_BYTES;
    }
}

/* The name of a buffer that the call should have left alone and did not, or around which it wrote; NULL where there is none. */
static const char *disturbed(unsigned lent_for_writing)
{
    for (int k = 0; k < BUFFERS; k++) {
        int written = k == ANSWER || (lent_for_writing >> k & 1);
        if (!guarded(k) || (!written && !as_expected(k)))
            return buffers[k].name;
    }
    return NULL;
}

/* A list that was built is run: the bytes that were counted, with the items as they now are. */
static const char *run_built(int end, size_t count, uint32_t *words)
{
    if (count > buffers[LIST].length)
        return "count";
    memcpy(buffers[LIST].expected, buffers[LIST].bytes, buffers[LIST].length);
    memcpy(buffers[ITEMS].expected, buffers[ITEMS].bytes, buffers[ITEMS].length);
    uint32_t *a = lend_answer(STARAN_RUN_NUMBERS, end);
    staran_run_4(WHOLE(MEMORY), WHOLE(REGISTERS), buffers[LIST].bytes, count, WHOLE(ITEMS), WHOLE(OUT), a);
    memcpy(words, a, 4 * STARAN_RUN_NUMBERS);
    return disturbed(1u << MEMORY | 1u << REGISTERS | 1u << OUT);
}

/* The digest of a buffer from this byte on. */
static uint32_t digest(const lent *b, size_t from)
{
    uint32_t d1 = 1, d2 = 1;
    for (size_t i = from; i < b->length; i++) {
        d1 = (d1 * 251 + b->bytes[i]) % 65521;
        d2 = (d2 * 263 + b->bytes[i]) % 65519;
    }
    return 65536 * d1 + d2;
}

/* The case with its buffers at one end of their rooms. Answers NULL, or what went wrong beside the answer. */
static const char *run_case(const outside_case *c, int end, uint32_t words[WORDS])
{
    memset(words, 0, 4 * WORDS);
    if (!make_buffers(c, end))
        return "the case is not one of the protocol";
    const char *wrong = disturbed(call(c, end, words));
    int kind = c->record[0];
    size_t left_out[COUNT] = {0}; /* of each buffer at its front what no document fixes, which is not digested */
    if (wrong == NULL && kind >= EQUAL_RUN && kind <= SPREADING_RUN && words[0] == 0) {
        wrong = run_built(end, words[1], words + 3);
        left_out[LIST] = words[1];
        if (kind >= CLOSING_RUN) {
            left_out[ITEMS] = words[2];
            left_out[REGISTERS] = words[3] == 0 ? 96 : 0; /* M, X and Y */
        }
    } else if (wrong == NULL && kind >= SUM_RUN && kind < EQUAL_RUN) {
        if (words[0] == 0)
            wrong = run_built(end, words[2], words);
        else
            words[2] = 0;
    }
    for (int k = 0; k < COUNT; k++)
        words[numbers(c) + k] = digest(&buffers[k], left_out[k]);
    return wrong;
}

static int digit(int c) { return c >= '0' && c <= '9' ? c - '0' : c >= 'a' && c <= 'f' ? c - 'a' + 10 : -1; }

/* The next case; 0 at the end of the input. */
static int read_case(outside_case *c)
{
    char line[2 * RECORD + 2];
    memset(c, 0, sizeof *c);
    if (fgets(line, sizeof line, stdin) == NULL)
        return 0;
    for (; digit(line[2 * c->length]) >= 0 && digit(line[2 * c->length + 1]) >= 0; c->length++)
        c->record[c->length] = (uint8_t)(16 * digit(line[2 * c->length]) + digit(line[2 * c->length + 1]));
    c->patches = 9 + 3 * COUNT + 4 * c->record[3];
    if (line[2 * c->length] != '\n' || c->length < c->patches || c->record[0] >= KINDS || c->record[2] != COUNT || c->record[3] > 4) {
        fputs("driver: a line that is no case\n", stderr);
        exit(2);
    }
    for (int i = 0; i < c->record[3]; i++)
        c->p[i] = four(buffer_of(c, COUNT) + 4 * i);
    return 1;
}

int replay(void)
{
    outside_case c;
    int failed = 0;
    for (unsigned long number = 1; read_case(&c); number++) {
        uint32_t words[ENDS][WORDS];
        const char *wrong = NULL;
        if (c.record[0] == MADE_LIST)
            continue;
        snprintf(calling, sizeof calling, "case %lu, of kind %d", number, c.record[0]);
        for (int end = 0; end < ENDS && wrong == NULL; end++)
            wrong = run_case(&c, end, words[end]);
        if (wrong == NULL && memcmp(words[FIRST], words[LAST], sizeof words[FIRST]) != 0)
            wrong = "another answer at another place";
        if (wrong != NULL) {
            /* such a line agrees with no stored answer, so that the comparison counts it */
            printf("FAIL %s: %s\n", calling, wrong);
            failed = 1;
            continue;
        }
        for (int i = 0; i < numbers(&c) + COUNT; i++)
            printf("%08x%c", (unsigned)words[FIRST][i], i + 1 < numbers(&c) + COUNT ? ' ' : '\n');
    }
    return failed;
}
