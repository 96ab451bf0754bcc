/* The benchmark: one workload, and the ways to answer it. */
#ifndef BENCH_H
#define BENCH_H

#include <stdbool.h>
#include <stddef.h>
#include <stdint.h>

enum { MOST_RELATIONS = 16, MOST_CELLS = 1 << 16, USUAL_CELLS = 4096, MOST_PLACES = 4 };

typedef struct {
    uint8_t *bytes; /* never NULL; a zero byte follows the last one */
    size_t length;
} file;

typedef struct {
    size_t columns, rows;
    const int32_t *first;
} relation;

typedef struct {
    char name[16];
    file catalogue, permits, question, expected;
    file schema, select, index; /* SQL; index may be empty */
    int32_t *values;
    size_t values_length;
    size_t relations;
    relation relation[MOST_RELATIONS];
    size_t cells; /* of the answer buffer */
    /* A question asked many times in a row, each time with another key; times is 1 if not. */
    size_t times, keys, places, place[MOST_PLACES]; /* the bytes of the question where a key goes */
} workload;

typedef struct {
    uint64_t number; /* 0, or the refusal */
    size_t rows, columns;
    int64_t cells[MOST_CELLS];
} answer;

/* load.c */
void fail(const char *workload, const char *message);
workload load(const char *folder, const char *name);
void unload(workload *loaded);
/* False if the expected file leaves the rows to the loop by hand ("rows by the loop"). */
bool read_expected(const workload *from, answer *to);
/* The key of question i, from 0; the last one is 7, as in the file. */
int32_t asked_key(const workload *of, size_t i);
void set_key(workload *of, int32_t key);
/* Keeps the first rows of the one relation. */
void shorten(workload *loaded, size_t rows);

/* engine.c */
enum { REWRITTEN_BYTES = 17216 };
typedef struct {
    workload *from;
    answer to;
    uint8_t rewritten[REWRITTEN_BYTES];
    size_t length;
} engine;
void engine_call(void *self);
/* Makes the first call under a limit of CPU seconds. False if it did not end. */
bool engine_first(engine *self, double limit, double *seconds);
bool engine_as_expected(const engine *self);

/* loops.c */
typedef void loop_function(const workload *from, answer *to);
typedef struct {
    const workload *from;
    loop_function *run;
    answer to;
} loop;
/* False if nobody has written a loop for this workload. */
bool loop_open(loop *self, const workload *from);
void loop_call(void *self);

/* measure.c */
enum { MOST_SAMPLES = 201, MOST_CONTENDERS = 9 };
typedef struct {
    void (*call)(void *self);
    void *self;      /* NULL: takes no part */
    double once;     /* seconds of the first call */
    double median;   /* the result, seconds a call */
    size_t batch;    /* calls between two looks at the clock */
    size_t most;     /* samples wanted */
    size_t count;
    double samples[MOST_SAMPLES];
} contender;
double cpu_seconds(void);
void measure(contender *contenders, size_t count, double budget);

#endif
