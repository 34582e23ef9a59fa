/* Fields closed up and spread back, built and run. */
#ifndef CLOSING_H
#define CLOSING_H

/* Prints each check that fails, and a count for each part. Answers 0 where all passed. */
int closing(void);

#endif
