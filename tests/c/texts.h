/* What the instructions of a list reach, and the list's text. */
#ifndef TEXTS_H
#define TEXTS_H

/* Prints each check that fails, and a count for each part. Answers 0 where all passed. */
int texts(void);

#endif
