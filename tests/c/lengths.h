/* Calls every function of the library with good and bad lengths, kinds and codes. */
#ifndef LENGTHS_H
#define LENGTHS_H

/* Prints each check that fails, and a count for each function. Answers 0 where all passed. */
int lengths(void);

#endif
