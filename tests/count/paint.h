/* How deep a call goes, measured: a stack is painted, the call made on it, and how far the paint is gone read back. */
#ifndef PAINT_H
#define PAINT_H

#include <stddef.h>

/* While `empty` is set a CALL is of `nothing`, with the same words and from the same frame: what it uses is the caller's. System V lets a function be called so,
 * for a caller takes its words off the stack itself. */
extern int empty;
void nothing(void);
#define CALL(function, ...) (empty ? (__typeof__(function) *)nothing : (function))(__VA_ARGS__)

/* How many bytes below its caller the CALL needs that call(k) makes, of a function with so many parameters: those beyond six, 8 bytes each and rounded up to
 * 16; the return address; and what lies below it, to the last byte written. Before its CALL call(k) calls nothing. */
size_t depth(void (*call)(size_t), size_t k, size_t parameters);

#endif
