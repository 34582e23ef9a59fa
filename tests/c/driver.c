/* Holds the library for C to its header:
 *     driver cases     replays the outside cases on standard input, and writes their answers
 *     driver lengths   calls every function with good and bad lengths, and counts
 *     driver judging   has instructions judged by a run and by a step, and counts
 *     driver modes     has lists judged and run with mode registers, and counts
 *     driver isolated  asks of lists whether they are isolated, runs those that are, and counts
 *     driver texts     asks of lists what they reach, has them shown, runs stores, and counts
 *     driver making    has lists made of texts, runs some, and counts
 *     driver searches  builds searches over a field, runs them, and counts
 *     driver closing   builds lists that close up a field and spread it back, runs them, and counts
 *     driver pictures  reads, writes and converts pictures of either kind, and counts
 *     driver unwritten makes calls that leave their buffers on buffers that cannot be written, and counts
 * The exit status is 0 where nothing failed. tests/c/run builds and runs it. */
#include "closing.h"
#include "isolated.h"
#include "judging.h"
#include "lengths.h"
#include "lent.h"
#include "making.h"
#include "modes.h"
#include "pictures.h"
#include "replay.h"
#include "searches.h"
#include "texts.h"
#include "unwritten.h"

#include <stdio.h>
#include <string.h>

int main(int count, char **words)
{
    setvbuf(stdout, NULL, _IOLBF, 0); /* what was said before a call broke off is not lost */
    make_rooms();
    if (count == 2 && strcmp(words[1], "cases") == 0)
        return replay();
    if (count == 2 && strcmp(words[1], "lengths") == 0)
        return lengths();
    if (count == 2 && strcmp(words[1], "judging") == 0)
        return judging();
    if (count == 2 && strcmp(words[1], "modes") == 0)
        return modes();
    if (count == 2 && strcmp(words[1], "isolated") == 0)
        return isolated();
    if (count == 2 && strcmp(words[1], "texts") == 0)
        return texts();
    if (count == 2 && strcmp(words[1], "making") == 0)
        return making();
    if (count == 2 && strcmp(words[1], "searches") == 0)
        return searches();
    if (count == 2 && strcmp(words[1], "closing") == 0)
        return closing();
    if (count == 2 && strcmp(words[1], "pictures") == 0)
        return pictures();
    if (count == 2 && strcmp(words[1], "unwritten") == 0)
        return unwritten();
    fputs("usage: driver cases | driver lengths | driver judging | driver modes | driver isolated | driver texts | driver making | driver searches | driver closing | "
          "driver pictures | driver unwritten\n",
          stderr);
    return 2;
}
