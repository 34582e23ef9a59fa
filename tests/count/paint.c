/* How deep a call goes: each is made on a stack of its own, which is painted before and read back after. */
#define _XOPEN_SOURCE 700
#include "paint.h"

#include <stdio.h>
#include <stdlib.h>
#include <string.h>
#include <ucontext.h>

int empty;
void nothing(void) {}

static unsigned char stack[16384];
static ucontext_t here, there;
static void (*called)(size_t);
static size_t word;

/* With room between, so that what ends the context is written above the call. */
static void enter(void)
{
    volatile size_t room[32] = {word};
    called(room[0]);
    room[0] = 0;
}

static void paint_and_call(int paint)
{
    memset(stack, paint, sizeof stack);
    getcontext(&there);
    there.uc_stack.ss_sp = stack;
    there.uc_stack.ss_size = sizeof stack;
    there.uc_link = &here;
    makecontext(&there, enter, 0);
    swapcontext(&here, &there);
}

static size_t reached(int paint)
{
    size_t whole = 0;
    paint_and_call(paint);
    while (whole < sizeof stack && stack[whole] == paint)
        whole++;
    if (whole == 0) {
        fputs("a call needs more than the painted stack\n", stderr);
        exit(1);
    }
    return sizeof stack - whole;
}

/* A byte that was written may have the paint's value: two paints. */
static size_t deeper(void)
{
    size_t one = reached(0xA5), other = reached(0x5A);
    return one > other ? one : other;
}

size_t depth(void (*call)(size_t), size_t k, size_t parameters)
{
    size_t words = parameters > 6 ? parameters - 6 : 0, callers;
    called = call;
    word = k;
    empty = 1;
    callers = deeper();
    empty = 0;
    return (8 * words + 15) / 16 * 16 + 8 + deeper() - callers;
}
