/*
 * A time budget for each call: a timer for each thread leaves a call that takes too long.
 *
 *     budget MILLISECONDS
 *
 * Two threads ask at once: one a query of 2 to the 40 assignments, the other a small one. The first
 * is left when its budget is spent; the second gets its answer. Linux, glibc 2.30 or later.
 */
#define _GNU_SOURCE
#include "waldumre.h"

#include <pthread.h>
#include <setjmp.h>
#include <signal.h>
#include <stdio.h>
#include <stdlib.h>
#include <string.h>
#include <time.h>
#include <unistd.h>

#ifndef sigev_notify_thread_id /* glibc has the field, not always its name */
#define sigev_notify_thread_id _sigev_un._tid
#endif

enum { ROWS = 1024, ALARM = SIGALRM };

static _Thread_local sigjmp_buf leave;
static _Thread_local volatile sig_atomic_t asking;

/* Runs in the thread that its timer names. A late signal finds the call over and does nothing. */
static void spent(int signal)
{
    (void)signal;
    if (asking) {
        asking = 0;
        siglongjmp(leave, 1);
    }
}

static uint8_t catalogue[] = {WALDUMRE_KIND_STORED, 1, ROWS % 256, ROWS / 256};
static int32_t values[ROWS]; /* all 0, so every row of an answer equals the first */
static const uint8_t permits[] = {WALDUMRE_KIND_PERMIT, 0, 255, 255, WALDUMRE_KIND_TRUE};

typedef struct {
    const char *name;
    const uint8_t *query;
    size_t length;
    long milliseconds;
    int answered;             /* 0: the budget was spent */
    waldumre_outcome outcome; /* if answered */
    uint8_t rewritten[WALDUMRE_REWRITTEN_BYTES];
    int64_t answer[8];
} job;

/* Asks; 0 if the budget was spent. Then job's buffers hold anything, and there is no outcome. */
static int ask_within(job *job)
{
    timer_t timer;
    struct sigevent event;
    memset(&event, 0, sizeof event);
    event.sigev_notify = SIGEV_THREAD_ID;
    event.sigev_notify_thread_id = gettid();
    event.sigev_signo = ALARM;
    if (timer_create(CLOCK_MONOTONIC, &event, &timer) != 0)
        exit(2);
    struct itimerspec budget = {{0, 0}, {job->milliseconds / 1000, job->milliseconds % 1000 * 1000000}};
    volatile int answered = 0; /* kept over siglongjmp */
    if (sigsetjmp(leave, 1) == 0) {
        asking = 1;
        timer_settime(timer, 0, &budget, NULL);
        job->outcome = waldumre_ask(catalogue, sizeof catalogue, values, ROWS, permits, sizeof permits,
                                    job->query, job->length, job->rewritten, sizeof job->rewritten,
                                    job->answer, 8);
        asking = 0;
        answered = 1;
    }
    timer_delete(timer);
    return answered;
}

static void *work(void *argument)
{
    job *mine = argument;
    mine->answered = ask_within(mine);
    return NULL;
}

int main(int count, char **words)
{
    long milliseconds = count == 2 ? strtol(words[1], NULL, 10) : 200;
    struct sigaction action;
    memset(&action, 0, sizeof action);
    action.sa_handler = spent;
    sigaction(ALARM, &action, NULL);

    /* four ranges over 1,024 rows, a target of each, no condition */
    static const uint8_t slow[] = {1, 0, 0, 1, 1, 0, 1, 2, 0, 1, 3, 0, 33, 0, 0, 33, 1, 0, 33, 2, 0, 33, 3, 0, 16};
    static const uint8_t quick[] = {34, 1, 0, 0, 0, 16, 16}; /* COUNT of the relation */
    static job jobs[2] = {{.name = "slow", .query = slow, .length = sizeof slow},
                          {.name = "quick", .query = quick, .length = sizeof quick}};
    pthread_t threads[2];
    for (int i = 0; i < 2; i++) {
        jobs[i].milliseconds = milliseconds;
        if (pthread_create(&threads[i], NULL, work, &jobs[i]) != 0)
            exit(2);
    }
    for (int i = 0; i < 2; i++) {
        pthread_join(threads[i], NULL);
        if (!jobs[i].answered)
            printf("%s: over its budget\n", jobs[i].name);
        else if (jobs[i].outcome.number != 0)
            printf("%s: refused %d\n", jobs[i].name, (int)jobs[i].outcome.number);
        else
            printf("%s: %lld\n", jobs[i].name, (long long)jobs[i].answer[0]);
    }
    return 0;
}
