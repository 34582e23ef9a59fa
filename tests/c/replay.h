/* Replays outside cases from standard input, and writes their answers to standard output. */
#ifndef REPLAY_H
#define REPLAY_H

/* Answers 0 where every call kept to its buffers; whether the answers are right is for a comparison to say. */
int replay(void);

#endif
