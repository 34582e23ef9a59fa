/* Lists judged and run with the mode registers. */
#ifndef MODES_H
#define MODES_H

/* Prints each check that fails, and a count for each part. Answers 0 where all passed. */
int modes(void);

#endif
