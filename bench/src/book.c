/*
 * The label book beside its question, and beside one question for each label.
 *
 *     book times WORKLOAD        prints the median microseconds of each call
 *     book once WORKLOAD CALL    makes one call, inside the function measured, for a profiler
 *
 * WORKLOAD is ready (a relation of label, number, price: the cheapest question that fills all
 * labels) or ranked (labels, offers, releases: of each article the released offers of best rank).
 * CALL is ask, book or labels. First the labels of one book and of 500 questions are compared.
 */
#include "bench.h"
#include "waldumre_book.h"

#include <stdio.h>
#include <stdlib.h>
#include <string.h>

/* Two offers for each article, as many articles as labels. */
enum { OFFERS = 2 * WALDUMRE_LABELS, MOST_VALUES = 2 * WALDUMRE_LABELS + 5 * OFFERS };
enum { BOOK_CELLS = WALDUMRE_BOOK_COLUMNS * OFFERS };

typedef struct {
    uint8_t bytes[128];
    size_t length;
} text;

static text catalogue, permits;
static text for_all, for_one; /* the question for the book, and for one label */
static size_t label_at;       /* where for_one has the label */
static int32_t values[MOST_VALUES];
static size_t values_length;

static uint8_t rewritten[WALDUMRE_REWRITTEN_BYTES];
static int64_t answer_cells[BOOK_CELLS];
static int64_t offers[WALDUMRE_LABELS];
static uint8_t display[WALDUMRE_BOOK_BYTES];

#define TEXT(...) text_of((const uint8_t[]){__VA_ARGS__}, sizeof((const uint8_t[]){__VA_ARGS__}))
static text text_of(const uint8_t *bytes, size_t length)
{
    text made = {{0}, length};
    memcpy(made.bytes, bytes, length);
    return made;
}

static void value(int32_t number)
{
    values[values_length++] = number;
}

/* ready: LABELLED (label, number, price). */
static void make_ready(void)
{
    for (int32_t label = 0; label < WALDUMRE_LABELS; label++) {
        value(label);
        value(10000 + label);
        value(label * 7919 % 1000000);
    }
    catalogue = TEXT(48, 3, WALDUMRE_LABELS & 255, WALDUMRE_LABELS >> 8);
    permits = TEXT(64, 0, 255, 255, 16);
    for_all = TEXT(1, 0, 0, 33, 0, 0, 33, 0, 1, 33, 0, 2, 16);
    for_one = TEXT(1, 0, 0, 33, 0, 1, 33, 0, 2, 21, 1, 33, 0, 0, 32, 0, 0, 0, 0);
    label_at = 15;
}

/* A fifth of the second offers has the best rank but is not released. */
static int released(int32_t offer)
{
    return offer < WALDUMRE_LABELS || offer % 5 != 0;
}

/* ranked: LABEL (label, article), OFFER (article, rank, number, price), RELEASE (number). */
static void make_ranked(void)
{
    int32_t releases = 0;
    for (int32_t label = 0; label < WALDUMRE_LABELS; label++) {
        value(label);
        value(label * 7 % WALDUMRE_LABELS);
    }
    for (int32_t offer = 0; offer < OFFERS; offer++) {
        value(offer * 13 % WALDUMRE_LABELS);
        value(released(offer) ? 1 + offer % 3 : 0);
        value(10000 + offer);
        value(offer * 7919 % 1000000);
    }
    for (int32_t offer = 0; offer < OFFERS; offer++)
        if (released(offer)) {
            value(10000 + offer);
            releases++;
        }
    catalogue = TEXT(48, 2, WALDUMRE_LABELS & 255, WALDUMRE_LABELS >> 8, 48, 4, OFFERS & 255,
                     OFFERS >> 8, 48, 1, (uint8_t)releases, (uint8_t)(releases >> 8));
    permits = TEXT(64, 0, 255, 255, 16, 64, 1, 15, 0, 22, 1, 2, 21, 1, 33, 1, 0, 33, 0, 2);
    for_all = TEXT(1, 0, 0, 1, 1, 1, 33, 0, 0, 33, 1, 2, 33, 1, 3,
                   19, 21, 1, 33, 0, 1, 33, 1, 0,
                   18, 22, 2, 1, 19, 21, 1, 33, 2, 0, 33, 1, 0, 21, 3, 33, 2, 1, 33, 1, 1);
    for_one = TEXT(1, 0, 0, 1, 1, 1, 33, 1, 2, 33, 1, 3,
                   19, 21, 1, 33, 0, 0, 32, 0, 0, 0, 0,
                   19, 21, 1, 33, 0, 1, 33, 1, 0,
                   18, 22, 2, 1, 19, 21, 1, 33, 2, 0, 33, 1, 0, 21, 3, 33, 2, 1, 33, 1, 1);
    label_at = 19;
}

static bool make(const char *name)
{
    bool ready = strcmp(name, "ready") == 0, ranked = strcmp(name, "ranked") == 0;
    if (ready)
        make_ready();
    if (ranked)
        make_ranked();
    return ready || ranked;
}

static waldumre_outcome ask(const text *question, size_t cells)
{
    return waldumre_ask(catalogue.bytes, catalogue.length, values, values_length, permits.bytes,
                        permits.length, question->bytes, question->length, rewritten,
                        sizeof rewritten, answer_cells, cells);
}

static void stop(const char *message)
{
    fprintf(stderr, "book: %s\n", message);
    exit(1);
}

static void call_ask(void *self)
{
    (void)self;
    if (ask(&for_all, BOOK_CELLS).number != 0)
        stop("the question is refused");
}

static void call_book(void *self)
{
    (void)self;
    waldumre_outcome outcome = waldumre_label_book(
        catalogue.bytes, catalogue.length, values, values_length, permits.bytes, permits.length,
        for_all.bytes, for_all.length, rewritten, sizeof rewritten, answer_cells, BOOK_CELLS,
        offers, WALDUMRE_LABELS, display, sizeof display);
    if (outcome.number != 0)
        stop("the book is refused");
}

static void show(uint8_t *to, int64_t cents)
{
    int64_t euros = cents / 100;
    for (int i = 3; i >= 0; i--, euros /= 10)
        to[i] = (uint8_t)(euros > 0 || i == 3 ? '0' + euros % 10 : ' ');
    to[4] = '.';
    to[5] = (uint8_t)('0' + cents / 10 % 10);
    to[6] = (uint8_t)('0' + cents % 10);
}

/* A question for each label, with room for one row: its number and price. */
static void call_labels(void *self)
{
    (void)self;
    for (int label = 0; label < WALDUMRE_LABELS; label++) {
        for_one.bytes[label_at] = (uint8_t)label;
        for_one.bytes[label_at + 1] = (uint8_t)(label >> 8);
        waldumre_outcome outcome = ask(&for_one, 2);
        if (outcome.number != 0 && outcome.number != WALDUMRE_ANSWER_BUFFER)
            stop("a label's question is refused");
        offers[label] = WALDUMRE_NO_OFFER;
        memset(display + WALDUMRE_DISPLAY_BYTES * label, ' ', WALDUMRE_DISPLAY_BYTES);
        if (outcome.rows == 0)
            continue;
        offers[label] = answer_cells[0];
        show(display + WALDUMRE_DISPLAY_BYTES * label, answer_cells[1]);
    }
}

static void compare(void)
{
    static int64_t offers_of_book[WALDUMRE_LABELS];
    static uint8_t display_of_book[WALDUMRE_BOOK_BYTES];
    call_book(NULL);
    memcpy(offers_of_book, offers, sizeof offers);
    memcpy(display_of_book, display, sizeof display);
    call_labels(NULL);
    if (memcmp(offers, offers_of_book, sizeof offers) != 0 ||
        memcmp(display, display_of_book, sizeof display) != 0)
        stop("the labels differ");
    for (int label = 0; label < WALDUMRE_LABELS; label++)
        if (offers[label] == WALDUMRE_NO_OFFER)
            stop("a label has no offer");
}

enum { CALLS = 3 };
static const char *const NAMES[CALLS] = {"ask", "book", "labels"};
static void (*const CALL[CALLS])(void *self) = {call_ask, call_book, call_labels};

/* CALLS if there is none of that name. */
static int number_of(const char *name)
{
    int call = 0;
    while (call < CALLS && strcmp(name, NAMES[call]) != 0)
        call++;
    return call;
}

static void print_times(void)
{
    static contender contenders[CALLS];
    static int self; /* any address: takes part */
    for (int i = 0; i < CALLS; i++) {
        double start = cpu_seconds();
        CALL[i](NULL);
        contenders[i].once = cpu_seconds() - start;
        contenders[i].call = CALL[i];
        contenders[i].self = &self;
    }
    measure(contenders, CALLS, 5);
    for (int i = 0; i < CALLS; i++)
        printf("%s %.6g\n", NAMES[i], contenders[i].median * 1e6);
}

/* What a profiler looks at. */
__attribute__((noinline)) void measured(int call);
void measured(int call)
{
    CALL[call](NULL);
}

int main(int count, char **words)
{
    bool times = count == 3 && strcmp(words[1], "times") == 0;
    bool once = count == 4 && strcmp(words[1], "once") == 0;
    int call = once ? number_of(words[3]) : 0;
    if ((!times && !once) || call == CALLS || !make(words[2]))
        stop("book times ready|ranked, or book once ready|ranked ask|book|labels");
    compare();
    if (times)
        print_times();
    else
        measured(call);
    return 0;
}
