/* Pictures of either kind read, written and converted. */
#ifndef PICTURES_H
#define PICTURES_H

/* Prints each check that fails, and a count for each part. Answers 0 where all passed. */
int pictures(void);

#endif
