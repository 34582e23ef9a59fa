/* Lists asked whether they are isolated, and run. */
#ifndef ISOLATED_H
#define ISOLATED_H

/* Prints each check that fails, and a count for each part. Answers 0 where all passed. */
int isolated(void);

#endif
