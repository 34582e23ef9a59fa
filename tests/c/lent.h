/* Buffers as a caller lends them: each at exactly its length, against a page that cannot be touched, with guard bytes on its other side. */
#ifndef LENT_H
#define LENT_H

#include <stddef.h>
#include <stdint.h>

/* What is lent, and what it must be after the call. */
typedef struct {
    const char *name;
    uint8_t *room;     /* the bytes that can be touched; before and behind them none can */
    size_t room_length;
    uint8_t *bytes;    /* the buffer, at one end of the room */
    size_t length;
    uint8_t *expected; /* what the buffer must hold after the call; a buffer that must not change has here what it held before */
} lent;

/* At which end of its room a buffer stands: its first byte behind an untouchable one, or its last byte before one. */
enum { FIRST, LAST, ENDS };

enum { LONGEST = 70000, LONGEST_TEXT = 1060000 }; /* of a buffer, and of the text's */

/* The buffers of all calls, and the answer. */
enum { MEMORY, REGISTERS, LIST, ITEMS, OUT, FILE_BYTES, TEXT, ANSWER, BUFFERS };
extern lent buffers[BUFFERS];

/* A buffer and its length, as two arguments. */
#define WHOLE(k) buffers[k].bytes, buffers[k].length

/* Makes the rooms. What is being called is kept by name: touching a byte outside every room ends the driver with that name. */
void make_rooms(void);
extern char calling[256];

/* Lends buffer k at this length, at this end of its room, filled with bytes that differ from buffer to buffer. */
void lend(int k, size_t length, int end);

/* Lends buffer k with these bytes. */
void lend_bytes(int k, const uint8_t *bytes, size_t length, int end);

/* Lends the registers, filled so, at this length; where it has room for them, with these mode registers, flag and mode of A, then of B. */
void lend_registers(const uint8_t modes[4], size_t length, int end);

/* Lends an answer of `count` numbers, each poisoned. */
uint32_t *lend_answer(size_t count, int end);

/* Every room but the answer's, or the room of buffer k alone, can be read and not written, from here to `open_rooms`. */
void shut_rooms(void);
void shut_room(int k);
void open_rooms(void);

/* Are the guard bytes of buffer k as they were, and does the buffer hold what is expected? */
int guarded(int k);
int as_expected(int k);

#endif
