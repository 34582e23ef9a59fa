/* Instructions judged by a run and by a step: the number and the byte of each. */
#ifndef JUDGING_H
#define JUDGING_H

/* Prints each check that fails, and a count for each part. Answers 0 where all passed. */
int judging(void);

#endif
