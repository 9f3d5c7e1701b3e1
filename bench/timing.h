/*
 * What the measurements share: room, the processor's time in nanoseconds, and medians.
 */
#define _POSIX_C_SOURCE 199309L /* clock_gettime */

#include <inttypes.h>
#include <stdio.h>
#include <stdlib.h>
#include <string.h>
#include <time.h>

#include "mitrelilac.h"

static void fail(const char *what)
{
    fprintf(stderr, "bench: %s\n", what);
    exit(1);
}

static void *room(size_t count, size_t size)
{
    void *room = calloc(count, size);
    if (!room)
        fail("no memory");
    return room;
}

static double now(void)
{
    struct timespec t;
    clock_gettime(CLOCK_THREAD_CPUTIME_ID, &t);
    return (double)t.tv_sec * 1e9 + (double)t.tv_nsec;
}

static int by_size(const void *a, const void *b)
{
    double x = *(const double *)a, y = *(const double *)b;
    return (x > y) - (x < y);
}

static double median(const double *values, int count)
{
    double *sorted = room((size_t)count, sizeof *sorted);
    memcpy(sorted, values, (size_t)count * sizeof *sorted);
    qsort(sorted, (size_t)count, sizeof *sorted, by_size);
    double middle = sorted[count / 2];
    free(sorted);
    return middle;
}

/* The median of the rounds' ratios. */
static double ratio(const double *times, const double *others, int rounds)
{
    double *ratios = room((size_t)rounds, sizeof *ratios);
    for (int round = 0; round < rounds; round++)
        ratios[round] = times[round] / others[round];
    double middle = median(ratios, rounds);
    free(ratios);
    return middle;
}
