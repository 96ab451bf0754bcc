/*
 * Calls are left at many moments, by siglongjmp and by cancelling their thread; the calls after them
 * answer as if nothing had been. Cells past the lent ones stay as they are.
 *
 *     leave TIMES
 */
#define _GNU_SOURCE
#include "waldumre.h"

#include <pthread.h>
#include <setjmp.h>
#include <signal.h>
#include <stdio.h>
#include <stdlib.h>
#include <string.h>
#include <sys/time.h>
#include <unistd.h>

enum { ROWS = 1024, CELLS = 64, FENCE = 16 };

static const uint8_t catalogue[] = {WALDUMRE_KIND_STORED, 1, ROWS % 256, ROWS / 256};
static int32_t values[ROWS];
static const uint8_t permits[] = {WALDUMRE_KIND_PERMIT, 0, 255, 255, WALDUMRE_KIND_TRUE};
/* 2 to the 40 assignments; the last cell moves, so rows are written until the buffer is full and the
 * condition then holds for no further one */
static const uint8_t slow[] = {1,  0, 0, 1,  1, 0, 1,  2, 0, 1,  3, 0,  33, 3, 0,
                               21, 3, 33, 3, 0, 32, 9, 0, 0, 0};
static const uint8_t quick[] = {34, 1, 0, 0, 0, 16, 16};
static uint8_t rewritten[WALDUMRE_REWRITTEN_BYTES + FENCE];
static int64_t answer[CELLS + FENCE];
static sigjmp_buf away;

static waldumre_outcome put(const uint8_t *query, size_t length)
{
    return waldumre_ask(catalogue, sizeof catalogue, values, ROWS, permits, sizeof permits, query, length,
                        rewritten, WALDUMRE_REWRITTEN_BYTES, answer, CELLS);
}

static void spent(int signal)
{
    (void)signal;
    siglongjmp(away, 1);
}

static void *for_ever(void *started)
{
    pthread_setcanceltype(PTHREAD_CANCEL_ASYNCHRONOUS, NULL);
    *(volatile int *)started = 1;
    put(slow, sizeof slow);
    return NULL;
}

/* The next call is right, and nothing past the buffers was touched. */
static int still_right(void)
{
    waldumre_outcome o = put(quick, sizeof quick);
    if (o.number != 0 || o.rows != 1 || o.length != 9 || answer[0] != ROWS)
        return 0;
    for (int i = 0; i < FENCE; i++)
        if (rewritten[WALDUMRE_REWRITTEN_BYTES + i] != 77 || answer[CELLS + i] != 77)
            return 0;
    return 1;
}

int main(int count, char **words)
{
    int times = count == 2 ? atoi(words[1]) : 100;
    volatile int finished = 0, wrong = 0;
    for (int i = 0; i < ROWS; i++)
        values[i] = i;
    for (int i = 0; i < FENCE; i++) {
        rewritten[WALDUMRE_REWRITTEN_BYTES + i] = 77;
        answer[CELLS + i] = 77;
    }
    struct sigaction action;
    memset(&action, 0, sizeof action);
    action.sa_handler = spent;
    sigaction(SIGALRM, &action, NULL);
    for (volatile int i = 0; i < times; i++) {
        struct itimerval moment = {{0, 0}, {0, 1 + i * 37 % 2000}};
        if (sigsetjmp(away, 1) == 0) {
            setitimer(ITIMER_REAL, &moment, NULL);
            put(slow, sizeof slow);
            finished++;
        }
        wrong += !still_right();
    }
    for (int i = 0; i < times; i++) {
        pthread_t thread;
        volatile int started = 0;
        void *result = NULL;
        if (pthread_create(&thread, NULL, for_ever, (void *)&started) != 0)
            return 2;
        while (!started)
            ;
        usleep((useconds_t)(i * 37 % 2000));
        pthread_cancel(thread);
        pthread_join(thread, &result);
        finished += result != PTHREAD_CANCELED;
        wrong += !still_right();
    }
    printf("leave: %d calls left, %d finished, %d wrong after it\n", 2 * times, finished, wrong);
    return finished != 0 || wrong != 0;
}
