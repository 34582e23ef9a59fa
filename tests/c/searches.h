/* Searches over a field, built and run. */
#ifndef SEARCHES_H
#define SEARCHES_H

/* Prints each check that fails, and a count for each builder. Answers 0 where all passed. */
int searches(void);

#endif
