/* Lists that are made of texts. */
#ifndef MAKING_H
#define MAKING_H

/* Prints each check that fails, and a count for each part. Answers 0 where all passed. */
int making(void);

#endif
