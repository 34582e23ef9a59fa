/* Checks of calls: what is expected of each, what is said where it does not hold, and the counts. */
#include "checks.h"

#include "lent.h"

#include <stdarg.h>
#include <stdio.h>
#include <string.h>

static unsigned long passed, failed, passed_before, failed_before;
static int right;

void check(const char *format, ...)
{
    va_list words;
    va_start(words, format);
    vsnprintf(calling, sizeof calling, format, words);
    va_end(words);
    right = 1;
}

void wrong(const char *what)
{
    printf("FAIL %s: %s\n", calling, what);
    right = 0;
}

void count(void)
{
    if (right)
        passed++;
    else
        failed++;
}

void answered(const uint32_t *answer, size_t n, const uint32_t *expected)
{
    char said[200];
    int at = snprintf(said, sizeof said, "answers");
    if (memcmp(answer, expected, 4 * n) == 0)
        return;
    for (size_t i = 0; i < n; i++)
        at += snprintf(said + at, sizeof said - (size_t)at, " %u", (unsigned)answer[i]);
    at += snprintf(said + at, sizeof said - (size_t)at, ", not");
    for (size_t i = 0; i < n; i++)
        at += snprintf(said + at, sizeof said - (size_t)at, " %u", (unsigned)expected[i]);
    wrong(said);
}

void settle(const uint32_t *answer, size_t n, const uint32_t *expected)
{
    char said[100];
    answered(answer, n, expected);
    memcpy(buffers[ANSWER].expected, answer, 4 * n);
    for (int k = 0; k < BUFFERS; k++) {
        snprintf(said, sizeof said, "%s of %zu bytes", buffers[k].name, buffers[k].length);
        if (!as_expected(k))
            strcat(said, " is not as it must be"), wrong(said);
        else if (!guarded(k))
            strcat(said, ": a byte beside it was written"), wrong(said);
    }
    count();
}

void nothing_lent(int end)
{
    for (int k = 0; k < BUFFERS; k++)
        lend(k, 0, end);
}

void function(const char *name)
{
    printf("%-16s %6lu passed, %lu failed\n", name, passed - passed_before, failed - failed_before);
    passed_before = passed;
    failed_before = failed;
}

int counted(void)
{
    printf("%lu passed, %lu failed\n", passed, failed);
    return failed != 0;
}
