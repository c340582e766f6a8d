#include "timing.h"

#include <stdio.h>
#include <stdlib.h>
#include <time.h>

double now(void)
{
    struct timespec t;
    clock_gettime(CLOCK_MONOTONIC, &t);
    return (double)t.tv_sec + (double)t.tv_nsec * 1e-9;
}

static int ascending(const void *a, const void *b)
{
    double x = *(const double *)a, y = *(const double *)b;
    return (x > y) - (x < y);
}

double median(double *seconds, size_t count)
{
    qsort(seconds, count, sizeof(double), ascending);
    return seconds[count / 2];
}

static void print_one(const struct timing *timings, size_t i, double figure)
{
    printf("%s %s %6.1f", i == 0 ? "" : ",", timings[i].name, figure);
}

static int report_ratios(const struct timing *timings, size_t count, const char *unit, int wrong)
{
    printf(" %s, time ratio to", unit);
    for (size_t i = 1; i < count; i++)
        printf("%s %s %.2f", i == 1 ? "" : ",", timings[i].name, timings[0].seconds / timings[i].seconds);
    printf("%s\n", wrong ? "  DIFFERENT ANSWERS" : "");
    return wrong;
}

int report(const struct timing *timings, size_t count, double work, const char *unit, int wrong)
{
    for (size_t i = 0; i < count; i++)
        print_one(timings, i, work / timings[i].seconds);
    return report_ratios(timings, count, unit, wrong);
}

int report_calls(const struct timing *timings, size_t count, double calls, int wrong)
{
    for (size_t i = 0; i < count; i++)
        print_one(timings, i, timings[i].seconds / calls * 1e6);
    return report_ratios(timings, count, "us a call", wrong);
}
