/*
 * The benchmark of all workloads.
 *
 *     bench FOLDER LIMIT WORKLOAD...
 *     bench check FOLDER LIMIT WORKLOAD...     (compares the answers, measures nothing)
 *     bench version                            (that of SQLite)
 *     bench columns                            (the words for the columns)
 *
 * Prints a line a workload: its name and the microseconds a question takes, with the engine, the
 * variants of SQLite, the loop by hand; parted by tabs. '-' where there is nothing to measure,
 * 'slow' where the engine took more than LIMIT seconds. A name like W2:256 asks for the first 256
 * rows only. Stops with 1 if two answers differ.
 */
#include "database.h"

#include <stdio.h>
#include <stdlib.h>
#include <string.h>

static const double BUDGET_SECONDS = 5; /* for the samples of one workload */

enum { ENGINE, FIRST_DATABASE, DATABASES = 7, LOOP = FIRST_DATABASE + DATABASES };
_Static_assert((int)LOOP < (int)MOST_CONTENDERS, "all take part");

static const struct {
    const char *words;
    variant how;
} variants[DATABASES] = {
    {"prepared", {false, false, false}},
    {"ANALYZE", {false, true, false}},
    {"index", {true, false, false}},
    {"index, ANALYZE", {true, true, false}},
    {"ANALYZE, no DISTINCT", {false, true, true}},
    {"index, no DISTINCT", {true, false, true}},
    {"index, ANALYZE, no DISTINCT", {true, true, true}},
};

typedef struct {
    workload w;
    bool whole; /* all rows, so the expected file applies */
    bool slow;
    engine engine;
    database databases[DATABASES];
    loop loop;
    answer wanted;
    contender contenders[MOST_CONTENDERS];
} job;

static void add(job *j, int place, void (*call)(void *), void *self)
{
    j->contenders[place].call = call;
    j->contenders[place].self = self;
}

static void open_job(job *j, const char *folder, const char *words)
{
    char name[16];
    snprintf(name, sizeof name, "%s", words);
    char *colon = strchr(name, ':');
    if (colon != NULL)
        *colon = 0;
    j->w = load(folder, name);
    j->whole = colon == NULL;
    if (!j->whole)
        shorten(&j->w, strtoul(colon + 1, NULL, 10));
    j->engine.from = &j->w;
    add(j, ENGINE, engine_call, &j->engine);
    for (int i = 0; i < DATABASES; i++)
        if (database_open(&j->databases[i], &j->w, variants[i].how))
            add(j, FIRST_DATABASE + i, database_call, &j->databases[i]);
    if (loop_open(&j->loop, &j->w))
        add(j, LOOP, loop_call, &j->loop);
}

static void close_job(job *j)
{
    for (int i = 0; i < DATABASES; i++)
        if (j->contenders[FIRST_DATABASE + i].self != NULL)
            database_close(&j->databases[i]);
    unload(&j->w);
}

/* The first call of each, under the clock. */
static void first_calls(job *j, double limit)
{
    j->slow = !engine_first(&j->engine, limit, &j->contenders[ENGINE].once);
    if (j->slow)
        j->contenders[ENGINE].self = NULL;
    for (int i = FIRST_DATABASE; i <= LOOP; i++) {
        contender *c = &j->contenders[i];
        double start = cpu_seconds();
        if (c->self != NULL)
            c->call(c->self);
        c->once = cpu_seconds() - start;
    }
}

static bool same_answer(const answer *left, const answer *right)
{
    return left->number == right->number && left->rows == right->rows &&
           left->columns == right->columns &&
           memcmp(left->cells, right->cells, left->rows * left->columns * sizeof *left->cells) == 0;
}

/* What all are held to: the expected file, or where it leaves the rows open the loop by hand. */
static void wanted_answer(job *j)
{
    if (j->whole && read_expected(&j->w, &j->wanted))
        return;
    if (j->contenders[LOOP].self == NULL)
        fail(j->w.name, "nothing to compare with");
    j->wanted = j->loop.to;
}

static void compare(job *j)
{
    const char *name = j->w.name;
    if (!j->slow && j->whole && !engine_as_expected(&j->engine))
        fail(name, "the engine's answer is not the expected one");
    if (!j->slow && !same_answer(&j->engine.to, &j->wanted))
        fail(name, "the engine's rows differ");
    if (j->contenders[LOOP].self != NULL && !same_answer(&j->loop.to, &j->wanted))
        fail(name, "the loop's rows differ");
    for (int i = 0; i < DATABASES; i++)
        if (j->contenders[FIRST_DATABASE + i].self != NULL && !database_agrees(&j->databases[i], &j->wanted)) {
            fprintf(stderr, "SQLite (%s): ", variants[i].words);
            fail(name, "the rows differ");
        }
}

static void print_job(const job *j, const char *words)
{
    printf("%s", words);
    for (int i = ENGINE; i <= LOOP; i++) {
        const contender *c = &j->contenders[i];
        if (c->self != NULL)
            printf("\t%.4g", c->median * 1e6 / (double)j->w.times);
        else
            printf("\t%s", i == ENGINE ? "slow" : "-");
    }
    printf("\n");
    fflush(stdout);
}

static void run_job(const char *folder, double limit, const char *words, bool timed)
{
    job *j = calloc(1, sizeof *j);
    if (j == NULL)
        fail(words, "no memory");
    open_job(j, folder, words);
    first_calls(j, limit);
    wanted_answer(j);
    compare(j);
    if (timed) {
        measure(j->contenders, MOST_CONTENDERS, BUDGET_SECONDS);
        print_job(j, words);
    } else {
        printf("%s: %zu rows, %s\n", words, j->wanted.rows, j->slow ? "the engine is slow, the others agree" : "all agree");
    }
    close_job(j);
    free(j);
}

static void print_columns(void)
{
    printf("\tengine");
    for (int i = 0; i < DATABASES; i++)
        printf("\t%s", variants[i].words);
    printf("\tC loop\n");
}

int main(int count, char **words)
{
    bool timed = count < 2 || strcmp(words[1], "check") != 0;
    int first = timed ? 1 : 2;
    if (count == 2 && strcmp(words[1], "version") == 0)
        printf("%s\n", sqlite3_libversion());
    else if (count == 2 && strcmp(words[1], "columns") == 0)
        print_columns();
    else if (count < first + 3) {
        fprintf(stderr, "bench [check] FOLDER LIMIT WORKLOAD...\n");
        return 2;
    }
    for (int i = first + 2; i < count; i++)
        run_job(words[first], strtod(words[first + 1], NULL), words[i], timed);
    return 0;
}
