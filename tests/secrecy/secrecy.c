/*
 * The drawn calls, made under valgrind.
 *
 *     secrecy memcheck FILE     marks the cells that a call must not look at as undefined; a call fails
 *                               if memcheck then reports something, or if what it hands back is undefined
 *     secrecy noaccess FILE     the same with cells that must not even be loaded: stricter than what is asked
 *     secrecy callgrind FILE    makes each call over both collections, and has callgrind count each one
 *     secrecy plain FILE        compares the answers, no valgrind needed
 *
 * In all of them the answers are compared with those of the judge. memcheck and noaccess print a line a
 * shape: cases, failed, cells marked, and of these in columns that the question uses. callgrind prints a line a case, its shape; the counts are in
 * callgrind's file, two parts a case.
 */
#include "waldumre.h"

#include <stdbool.h>
#include <stdint.h>
#include <stdio.h>
#include <stdlib.h>
#include <string.h>
#include <valgrind/callgrind.h>
#include <valgrind/memcheck.h>
#include <valgrind/valgrind.h>

/* The function that is tested: -DASK takes another. */
#ifndef ASK
#define ASK waldumre_ask
#endif
waldumre_outcome ASK(const uint8_t *catalogue, size_t catalogue_length, const int32_t *values, size_t values_length,
                     const uint8_t *permits, size_t permits_length, const uint8_t *query, size_t query_length,
                     uint8_t *rewritten, size_t rewritten_length, int64_t *answer, size_t answer_length);

enum { MOST_VALUES = 1 << 18, MOST_CELLS = 1 << 14, MOST_SHAPES = 16, NAME = 64 };

typedef struct {
    uint8_t bytes[WALDUMRE_REWRITTEN_BYTES];
    size_t length;
} text;

static char shape[NAME];
static text catalogue, permits, query, rewritten_wanted;
static int32_t values[MOST_VALUES], marked[MOST_VALUES], other[MOST_VALUES];
static size_t values_length;
static int64_t answer_wanted[MOST_CELLS];
static size_t answer_length;
static waldumre_outcome wanted;
static unsigned long sought; /* marked cells in columns that the question uses */

/* What a call gets and gives. All calls use the same places, so that nothing else differs. */
static int32_t lent[MOST_VALUES];
static uint8_t rewritten[WALDUMRE_REWRITTEN_BYTES];
static int64_t answer[MOST_CELLS];
static waldumre_outcome outcome;

static void stop(const char *message)
{
    fprintf(stderr, "secrecy: %s\n", message);
    exit(2);
}

/* "NAME COUNT": what a line begins with. */
static size_t count_of(FILE *from, const char *name, size_t most)
{
    char read[NAME];
    size_t count;
    if (fscanf(from, "%63s %zu", read, &count) != 2 || strcmp(read, name) != 0 || count > most)
        stop(name);
    return count;
}

static void read_bytes(FILE *from, const char *name, text *to)
{
    to->length = count_of(from, name, sizeof to->bytes);
    for (size_t i = 0; i < to->length; i++)
        if (fscanf(from, "%hhu", &to->bytes[i]) != 1)
            stop(name);
}

static size_t read_numbers(FILE *from, const char *name, int32_t *to)
{
    size_t count = count_of(from, name, MOST_VALUES);
    for (size_t i = 0; i < count; i++)
        if (fscanf(from, "%d", &to[i]) != 1)
            stop(name);
    return count;
}

static bool read_case(FILE *from)
{
    unsigned long number, rows, columns, length;
    if (fscanf(from, " case %63[^\n]", shape) != 1)
        return false;
    read_bytes(from, "catalogue", &catalogue);
    read_bytes(from, "permits", &permits);
    read_bytes(from, "query", &query);
    values_length = read_numbers(from, "values", values);
    if (read_numbers(from, "marked", marked) != values_length || read_numbers(from, "other", other) != values_length)
        stop("lengths");
    read_bytes(from, "rewritten", &rewritten_wanted);
    size_t cells = count_of(from, "answer", MOST_CELLS);
    for (size_t i = 0; i < cells; i++) {
        long long cell;
        if (fscanf(from, "%lld", &cell) != 1)
            stop("answer");
        answer_wanted[i] = cell;
    }
    if (fscanf(from, " outcome 6 %lu %lu %lu %lu %zu %lu", &number, &rows, &columns, &length, &answer_length, &sought) != 6 ||
        answer_length > MOST_CELLS)
        stop("outcome");
    wanted = (waldumre_outcome){number, rows, columns, length};
    return true;
}

static void lend(const int32_t *from)
{
    VALGRIND_MAKE_MEM_DEFINED(lent, sizeof lent);
    memcpy(lent, from, values_length * sizeof *lent);
    memset(rewritten, 99, sizeof rewritten);
    memset(answer, 99, sizeof answer);
}

static void ask(void)
{
    outcome = ASK(catalogue.bytes, catalogue.length, lent, values_length, permits.bytes, permits.length,
                  query.bytes, query.length, rewritten, sizeof rewritten, answer, answer_length);
}

/* The answer is the judge's, and what is past it is as it was. */
static bool is_as_judged(void)
{
    size_t cells = wanted.rows * wanted.columns;
    if (memcmp(&outcome, &wanted, sizeof outcome) != 0 ||
        memcmp(rewritten, rewritten_wanted.bytes, wanted.length) != 0 ||
        memcmp(answer, answer_wanted, cells * sizeof *answer) != 0)
        return false;
    for (size_t i = wanted.length; i < sizeof rewritten; i++)
        if (rewritten[i] != 99)
            return false;
    for (const uint8_t *b = (uint8_t *)(answer + cells); b < (uint8_t *)(answer + MOST_CELLS); b++)
        if (*b != 99)
            return false;
    return true;
}

static void need_judged(void)
{
    if (!is_as_judged()) {
        fprintf(stderr, "secrecy: %s: the answer is not the judge's\n", shape);
        exit(1);
    }
}

typedef struct {
    char name[NAME];
    unsigned long cases, failed, marked, sought;
} tally;
static tally tallies[MOST_SHAPES];
static size_t shapes;

static tally *tally_of(void)
{
    for (size_t i = 0; i < shapes; i++)
        if (strcmp(tallies[i].name, shape) == 0)
            return &tallies[i];
    if (shapes == MOST_SHAPES)
        stop("shapes");
    memcpy(tallies[shapes].name, shape, sizeof shape);
    return &tallies[shapes++];
}

/* Whether memcheck has something to say about a call over marked cells. */
static bool is_reported(bool no_access)
{
    lend(values);
    for (size_t i = 0; i < values_length; i++)
        if (marked[i] && no_access)
            VALGRIND_MAKE_MEM_NOACCESS(&lent[i], sizeof lent[i]);
        else if (marked[i])
            VALGRIND_MAKE_MEM_UNDEFINED(&lent[i], sizeof lent[i]);
    unsigned long before = VALGRIND_COUNT_ERRORS;
    ask();
    VALGRIND_CHECK_MEM_IS_DEFINED(&outcome, sizeof outcome);
    VALGRIND_CHECK_MEM_IS_DEFINED(rewritten, sizeof rewritten);
    VALGRIND_CHECK_MEM_IS_DEFINED(answer, sizeof answer);
    bool reported = VALGRIND_COUNT_ERRORS != before;
    VALGRIND_MAKE_MEM_DEFINED(&outcome, sizeof outcome);
    VALGRIND_MAKE_MEM_DEFINED(rewritten, sizeof rewritten);
    VALGRIND_MAKE_MEM_DEFINED(answer, sizeof answer);
    return reported;
}

static void memcheck_case(bool no_access)
{
    tally *to = tally_of();
    to->cases++;
    to->sought += sought;
    for (size_t i = 0; i < values_length; i++)
        to->marked += marked[i] != 0;
    to->failed += is_reported(no_access);
    need_judged();
}

static void count_call(const int32_t *over)
{
    lend(over);
    ask(); /* what the first call of all does, such as binding memcpy, is not counted */
    need_judged();
    lend(over);
    CALLGRIND_ZERO_STATS;
    ask();
    CALLGRIND_DUMP_STATS;
    need_judged();
}

static void plain_case(const int32_t *over)
{
    lend(over);
    ask();
    need_judged();
}

int main(int count, char **words)
{
    if (count != 3)
        stop("secrecy memcheck|noaccess|callgrind|plain FILE");
    FILE *from = fopen(words[2], "r");
    if (from == NULL)
        stop(words[2]);
    const char *mode = words[1];
    bool is_plain = strcmp(mode, "plain") == 0, is_counted = strcmp(mode, "callgrind") == 0;
    if (!is_plain && !RUNNING_ON_VALGRIND)
        stop("this needs valgrind");
    /* Memcheck answers its requests; other tools leave them at 0. */
    if (!is_plain && !is_counted && VALGRIND_MAKE_MEM_DEFINED(lent, sizeof lent) == 0)
        stop("this needs memcheck");
    while (read_case(from)) {
        if (is_plain || is_counted) {
            (is_counted ? count_call : plain_case)(values);
            (is_counted ? count_call : plain_case)(other);
        } else {
            memcheck_case(strcmp(mode, "noaccess") == 0);
        }
        if (is_counted)
            printf("%s\n", shape);
    }
    for (size_t i = 0; i < shapes; i++)
        printf("%s\t%lu\t%lu\t%lu\t%lu\n", tallies[i].name, tallies[i].cases, tallies[i].failed, tallies[i].marked, tallies[i].sought);
    fclose(from);
    return 0;
}
