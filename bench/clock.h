/* The clock of the programs that measure, and the median of what they measured. */
#ifndef CLOCK_H
#define CLOCK_H

#include "plain.h"

typedef struct {
    long seconds, nanoseconds;
} Time;
extern int clock_gettime(int clock, Time *to);
extern int printf(const char *format, ...);
extern void qsort(void *base, u64 count, u64 size, int (*order)(const void *, const void *));

/* The time that this thread has had the processor, in nanoseconds: what others run does not count. */
static inline double now(void)
{
    Time t;
    clock_gettime(3, &t);
    return 1e9 * (double)t.seconds + (double)t.nanoseconds;
}

static inline int ascending(const void *a, const void *b)
{
    double x = *(const double *)a, y = *(const double *)b;
    return (x > y) - (x < y);
}

static inline double median(double *values, u64 count)
{
    qsort(values, count, sizeof *values, ascending);
    return values[count / 2];
}

#endif
