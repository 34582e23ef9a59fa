/* Checks, which are counted: each is one call, whose numbers, every byte of every buffer afterwards and the bytes around each buffer are what is expected. */
#ifndef CHECKS_H
#define CHECKS_H

#include <stddef.h>
#include <stdint.h>

#define COUNT(array) (sizeof(array) / sizeof *(array))

/* Names the check that follows; where the call breaks off, this name is said. */
void check(const char *format, ...);

/* Says what is wrong with the check. */
void wrong(const char *what);

/* The answer must be these numbers. */
void answered(const uint32_t *answer, size_t n, const uint32_t *expected);

/* Closes a check. */
void count(void);

/* Closes a check with all of it: the answer, every buffer, and the bytes around each. */
void settle(const uint32_t *answer, size_t n, const uint32_t *expected);

/* Lends every buffer with no bytes, before a check lends its own. */
void nothing_lent(int end);

/* Prints what passed and failed since this was called last, under this name. */
void function(const char *name);

/* Prints the count of all, as the driver's last line. Answers 0 where nothing failed. */
int counted(void);

#endif
