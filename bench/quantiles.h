// Times in milliseconds, and a row of how many there were, quantiles and the worst.
#ifndef BENCH_QUANTILES_H
#define BENCH_QUANTILES_H

#include <stdio.h>
#include <stdlib.h>
#include <time.h>

static double now_ms(void)
{
    struct timespec it;
    clock_gettime(CLOCK_MONOTONIC, &it);
    return 1e3 * (double)it.tv_sec + 1e-6 * (double)it.tv_nsec;
}

static int compare_times(const void *a, const void *b)
{
    double x = *(const double *)a, y = *(const double *)b;
    return (x > y) - (x < y);
}

static void print_times(const char *name, double *took, size_t count)
{
    qsort(took, count, sizeof *took, compare_times);
    printf("%s\t%zu", name, count);
    for (double rest = 0.5; rest > 5e-5; rest = rest == 0.5 ? 0.01 : rest / 10) {
        printf("\t%.2f", took[(size_t)((double)(count - 1) * (1 - rest))]);
    }
    printf("\t%.2f\n", took[count - 1]);
}

#endif
