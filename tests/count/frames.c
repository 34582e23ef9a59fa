/* Functions whose stack is known, to hold tests/stack-bound to. Prints of each that has a bound how many bytes it needs, known or measured, and how many more
 * its bound may say. tests/stack_cases.sh runs it, and has the bounds of what is declared here. */
#include "paint.h"

#include <stdio.h>
#include <string.h>

void in_frame(size_t k);
void in_red_zone(size_t k);
void at_index(size_t k);
void by_call(size_t k);
void by_jump(size_t k);
void on_a_path(size_t k);
void by_table(size_t k);
void by_table_in_turn(size_t k);
void of_c(size_t k);
void repeated(size_t k);
void with_words(size_t a, size_t b, size_t c, size_t d, size_t e, size_t f, size_t g, size_t h, size_t i);

void as_long_as(size_t k);
void aligned(size_t k);
void through(void (*called)(size_t));
void on_through(void (*called)(size_t));
void by_either_table(size_t k);
void itself(size_t k);
void each_other(size_t k);
void elsewhere(size_t k);

#define APART __attribute__((noipa)) void
#define WRITE(frame) \
    for (size_t i = 0; i < sizeof frame; i++) \
    frame[i] = 1
static volatile size_t seen;

/* ---- with a bound */

APART in_frame(size_t k)
{
    volatile unsigned char frame[1000];
    WRITE(frame);
    seen = frame[k];
}

APART in_red_zone(size_t k)
{
    volatile size_t frame[4] = {k, k, k, k};
    seen = frame[0];
}

APART at_index(size_t k)
{
    volatile unsigned char frame[16];
    frame[k] = 1;
    seen = frame[k];
}

APART by_call(size_t k)
{
    volatile unsigned char frame[100];
    WRITE(frame);
    in_frame(k);
    seen = frame[k];
}

APART by_jump(size_t k) { in_frame(k + 1); }

APART on_a_path(size_t k)
{
    if (k == 77)
        by_call(k);
}

APART by_table(size_t k)
{
    switch (k) {
    case 0:
        in_red_zone(3);
        break;
    case 1:
        at_index(9);
        break;
    case 2:
        in_frame(27);
        break;
    case 3:
        by_jump(81);
        break;
    case 4:
        on_a_path(5);
        break;
    case 5:
        seen = 243;
        break;
    }
    seen = k;
}

/* Where the table is stands in a register before the first turn, and calls keep it there. */
APART by_table_in_turn(size_t k)
{
    for (size_t turn = 0; turn < k; turn++) {
        switch (turn * seen % 7) {
        case 0:
            in_red_zone(turn);
            break;
        case 1:
            at_index(9);
            break;
        case 2:
            in_frame(27);
            break;
        case 3:
            by_jump(turn);
            break;
        case 4:
            on_a_path(turn);
            break;
        case 5:
            seen = 243;
            break;
        }
        seen = turn;
    }
}

APART of_c(size_t k)
{
    static unsigned char bytes[64];
    memset(bytes, 1, k);
    seen = bytes[k];
}

APART repeated(size_t k)
{
    volatile unsigned char frame[40];
    WRITE(frame);
    if (k > 0)
        repeated(k - 1);
    seen = frame[k];
}

APART with_words(size_t a, size_t b, size_t c, size_t d, size_t e, size_t f, size_t g, size_t h, size_t i) { in_red_zone(a + b + c + d + e + f + g + h + i); }

/* ---- with none */

APART as_long_as(size_t k)
{
    volatile unsigned char frame[k];
    WRITE(frame);
    seen = frame[0];
}

APART aligned(size_t k)
{
    _Alignas(64) volatile unsigned char frame[64];
    WRITE(frame);
    seen = frame[k];
}

APART through(void (*called)(size_t))
{
    called(1);
    seen = 1;
}

APART on_through(void (*called)(size_t)) { called(1); }

/* On one path the register holds the first table, on another the second, which leads on to a call. */
__asm__(".section .text.by_either_table, \"ax\", @progbits\n"
        ".globl by_either_table\n"
        ".type by_either_table, @function\n"
        "by_either_table:\n"
        "    push %rbp\n"
        "    lea first_table(%rip), %rbp\n"
        "    test %rdi, %rdi\n"
        "    je 1f\n"
        "    lea second_table(%rip), %rbp\n"
        "1:  movslq 0(%rbp, %rdi, 4), %rax\n"
        "    add %rbp, %rax\n"
        "    jmp *%rax\n"
        "2:  call in_frame\n"
        "3:  pop %rbp\n"
        "    ret\n"
        ".size by_either_table, . - by_either_table\n"
        ".section .rodata.by_either_table, \"a\", @progbits\n"
        ".balign 4\n"
        "first_table: .long 3b - first_table\n"
        "second_table: .long 2b - second_table, 2b - second_table\n"
        ".text\n");

APART itself(size_t k)
{
    if (k > 0)
        itself(k - 1);
    seen = k;
}

static APART other(size_t k)
{
    each_other(k);
    seen = k;
}

APART each_other(size_t k)
{
    if (k > 0)
        other(k - 1);
    seen = k;
}

APART elsewhere(size_t k)
{
    puts("elsewhere");
    seen = k;
}

/* ---- measured */

static const struct {
    const char *name;
    void (*function)(size_t);
    size_t word, known, more;
} cases[] = {
    {"in_frame", in_frame, 0, 8 + 1000, 32},
    {"in_red_zone", in_red_zone, 0, 8 + 32, 32},
    {"at_index", at_index, 15, 8 + 128, 32}, /* all of the red zone: which of it the index means does not show */
    {"by_call", by_call, 0, 8 + 100 + 8 + 1000, 64},
    {"by_jump", by_jump, 0, 8 + 1000, 32},
    {"on_a_path", on_a_path, 0, 8 + 100 + 8 + 1000, 64}, /* a path that is not taken here */
    {"by_table", by_table, 0, 8 + 8 + 100 + 8 + 1000, 96},
    {"by_table_in_turn", by_table_in_turn, 9, 8 + 8 + 100 + 8 + 1000, 128},
    {"of_c", of_c, 9, 8 + 8 + 64, 32}, /* with what a function of C is allowed */
    {"repeated", repeated, 4, 5 * (8 + 40), 5 * 24},
};

static void make(size_t k) { CALL(*cases[k].function, cases[k].word); }
static void make_with_words(size_t k) { CALL(with_words, k, k, k, k, k, k, k, k, k); }

static void print(const char *name, size_t measured, size_t known, size_t more)
{
    printf("%s %zu %zu\n", name, measured > known ? measured : known, more);
}

int main(void)
{
    for (size_t k = 0; k < sizeof cases / sizeof *cases; k++)
        print(cases[k].name, depth(make, k, 1), cases[k].known, cases[k].more);
    print("with_words", depth(make_with_words, 0, 9), 32 + 8 + 32, 32);
    return 0;
}
