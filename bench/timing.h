/* What the benchmarks share: the clock, the median of rounds, and the line that tells how fast each was. */
#ifndef TIMING_H
#define TIMING_H

#include <stddef.h>

/* Who was timed, and the seconds of its median round; the first is the product, the second plain C. */
struct timing {
    const char *name;
    double seconds;
};

/* The seconds since some moment. */
double now(void);

/* Of `count` rounds, which it sorts. */
double median(double *seconds, size_t count);

/* Prints the speed of each, `work` units in its seconds, and the time of the first beside that of the others. Gives `wrong` back. */
int report(const struct timing *timings, size_t count, double work, const char *unit, int wrong);

/* The same with the time that one of `calls` calls takes, in microseconds. */
int report_calls(const struct timing *timings, size_t count, double calls, int wrong);

#endif
