/* Buffers as a caller lends them: the rooms, the guard bytes, and what is said where an untouchable byte is touched. */
#define _DEFAULT_SOURCE
#include "lent.h"

#include <signal.h>
#include <stdio.h>
#include <stdlib.h>
#include <string.h>
#include <sys/mman.h>
#include <unistd.h>

/* A multiple of every page length that Linux has. */
enum { PAGE = 65536, ROOM = 2 * PAGE, TEXT_ROOM = 17 * PAGE, GUARD = 64, GUARD_BYTE = 0xC3, POISON = 0xA5 };

lent buffers[BUFFERS] = {{"memory", 0, 0, 0, 0, 0}, {"registers", 0, 0, 0, 0, 0}, {"list", 0, 0, 0, 0, 0},   {"items", 0, 0, 0, 0, 0},
                         {"out", 0, 0, 0, 0, 0},    {"file", 0, 0, 0, 0, 0},      {"text", 0, 0, 0, 0, 0},   {"answer", 0, 0, 0, 0, 0}};
char calling[256];

/* Bytes to fill buffers with: each buffer takes them from another place. */
static uint8_t pool[TEXT_ROOM];

static void touched(int signal_number)
{
    static const char said[] = "FAIL a byte outside the buffers was touched, or the call broke off: ";
    (void)signal_number;
    if (write(STDERR_FILENO, said, sizeof said - 1) < 0 || write(STDERR_FILENO, calling, strlen(calling)) < 0 || write(STDERR_FILENO, "\n", 1) < 0)
        _exit(3);
    _exit(2);
}

static void *must(void *p)
{
    if (p == NULL || p == MAP_FAILED) {
        fputs("driver: no memory\n", stderr);
        exit(2);
    }
    return p;
}

void make_rooms(void)
{
    uint32_t x = 20260801;
    for (size_t i = 0; i < sizeof pool; i++) {
        x ^= x << 13;
        x ^= x >> 17;
        x ^= x << 5;
        pool[i] = (uint8_t)x;
    }
    for (int k = 0; k < BUFFERS; k++) {
        const size_t room = k == TEXT ? TEXT_ROOM : ROOM;
        uint8_t *all = must(mmap(NULL, PAGE + room + PAGE, PROT_NONE, MAP_PRIVATE | MAP_ANONYMOUS, -1, 0));
        buffers[k].room = all + PAGE;
        buffers[k].room_length = room;
        if (mprotect(buffers[k].room, room, PROT_READ | PROT_WRITE) != 0)
            must(NULL);
        buffers[k].expected = must(malloc(room));
        lend(k, 0, FIRST);
    }
    signal(SIGSEGV, touched);
    signal(SIGBUS, touched);
    signal(SIGILL, touched);
    signal(SIGFPE, touched);
    signal(SIGABRT, touched);
}

/* The guard bytes stand at the buffer's side that is not at the end of the room. */
static uint8_t *guard(const lent *b)
{
    return b->bytes == b->room ? b->bytes + b->length : b->bytes - GUARD;
}

void lend_bytes(int k, const uint8_t *bytes, size_t length, int end)
{
    lent *b = &buffers[k];
    if (length > (k == TEXT ? LONGEST_TEXT : LONGEST)) {
        fprintf(stderr, "driver: a buffer of %zu bytes\n", length);
        exit(2);
    }
    b->length = length;
    b->bytes = end == FIRST ? b->room : b->room + b->room_length - length;
    memcpy(b->bytes, bytes, length);
    memcpy(b->expected, bytes, length);
    memset(guard(b), GUARD_BYTE, GUARD);
}

void lend(int k, size_t length, int end)
{
    lend_bytes(k, pool + 1009 * k, length, end);
}

void lend_registers(const uint8_t modes[4], size_t length, int end)
{
    lend(REGISTERS, length, end);
    if (length < 100)
        return;
    memcpy(buffers[REGISTERS].bytes + 96, modes, 4);
    memcpy(buffers[REGISTERS].expected + 96, modes, 4);
}

uint32_t *lend_answer(size_t count, int end)
{
    lent *b = &buffers[ANSWER];
    lend(ANSWER, 4 * count, end);
    memset(b->bytes, POISON, b->length);
    return (uint32_t *)(void *)b->bytes;
}

int guarded(int k)
{
    const uint8_t *g = guard(&buffers[k]);
    for (int i = 0; i < GUARD; i++)
        if (g[i] != GUARD_BYTE)
            return 0;
    return 1;
}

int as_expected(int k)
{
    return memcmp(buffers[k].bytes, buffers[k].expected, buffers[k].length) == 0;
}

static void set_room(int k, int protection)
{
    if (mprotect(buffers[k].room, buffers[k].room_length, protection) != 0)
        must(NULL);
}

static void set_rooms(int protection)
{
    for (int k = 0; k < BUFFERS; k++)
        if (k != ANSWER)
            set_room(k, protection);
}

void shut_rooms(void) { set_rooms(PROT_READ); }
void shut_room(int k) { set_room(k, PROT_READ); }
void open_rooms(void) { set_rooms(PROT_READ | PROT_WRITE); }
