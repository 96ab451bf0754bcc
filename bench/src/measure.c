/* Medians of CPU time, the contenders interleaved. */
#include "bench.h"

#include <stdlib.h>
#include <time.h>

static const double BATCH_SECONDS = 0.002; /* far above the clock's step */
static const double SLOW_SECONDS = 0.5;    /* above it three samples are enough */
static const double ONCE_SECONDS = 3;      /* above it the first call is the only sample */

double cpu_seconds(void)
{
    struct timespec now;
    clock_gettime(CLOCK_PROCESS_CPUTIME_ID, &now);
    return (double)now.tv_sec + (double)now.tv_nsec * 1e-9;
}

static double time_of(const contender *c, size_t calls)
{
    double start = cpu_seconds();
    for (size_t i = 0; i < calls; i++)
        c->call(c->self);
    return (cpu_seconds() - start) / (double)calls;
}

/* How many calls make a batch, and how many batches are wanted. */
static void prepare(contender *c)
{
    c->count = 0;
    c->batch = 1;
    c->most = c->once > SLOW_SECONDS ? 3 : MOST_SAMPLES;
    if (c->once > ONCE_SECONDS) {
        c->samples[c->count++] = c->once;
        c->most = 1;
        return;
    }
    while (c->once < BATCH_SECONDS && time_of(c, c->batch) * (double)c->batch < BATCH_SECONDS)
        c->batch *= 2;
}

static int by_size(const void *left, const void *right)
{
    double a = *(const double *)left, b = *(const double *)right;
    return (a > b) - (a < b);
}

static double median(contender *c)
{
    qsort(c->samples, c->count, sizeof *c->samples, by_size);
    return (c->samples[c->count / 2] + c->samples[(c->count - 1) / 2]) / 2;
}

/* One batch of each contender in turn, until all have enough or the budget is spent. */
void measure(contender *contenders, size_t count, double budget)
{
    double end = cpu_seconds() + budget;
    for (size_t i = 0; i < count; i++)
        if (contenders[i].self != NULL)
            prepare(&contenders[i]);
    for (size_t round = 0; round < MOST_SAMPLES && (round < 3 || cpu_seconds() < end); round++)
        for (size_t i = 0; i < count; i++) {
            contender *c = &contenders[i];
            if (c->self != NULL && c->count < c->most)
                c->samples[c->count++] = time_of(c, c->batch);
        }
    for (size_t i = 0; i < count; i++)
        if (contenders[i].self != NULL)
            contenders[i].median = median(&contenders[i]);
}
