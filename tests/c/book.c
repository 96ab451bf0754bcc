/*
 * The label book beside the engine: every case is put to waldumre_ask and to waldumre_label_book,
 * and all that the two leave is compared; the book is compared with one filled here by hand.
 *
 * Buffers are blocks of their exact size, so that a memory checker sees a step outside. Prints what
 * differs and exits with 1, or prints the number of cases.
 */
#include "waldumre_book.h"

#include <inttypes.h>
#include <stdio.h>
#include <stdlib.h>
#include <string.h>

_Static_assert(WALDUMRE_LABELS == 500 && WALDUMRE_DISPLAY_BYTES == 7, "the paper's numbers");
_Static_assert(WALDUMRE_BOOK_BYTES == WALDUMRE_LABELS * WALDUMRE_DISPLAY_BYTES, "a display each");
_Static_assert(WALDUMRE_BOOK == 53, "the paper's number");

enum { MOST_VALUES = 3 * 1024, MOST_BYTES = 2100, CELLS = 3 * 1024 };

/* A case: what is put, and the lengths of the buffers. */
typedef struct {
    const char *name;
    uint8_t catalogue[80], permits[MOST_BYTES], query[MOST_BYTES];
    size_t catalogue_length, permits_length, query_length;
    int32_t values[MOST_VALUES];
    size_t values_length;
    size_t rewritten_length, answer_length, offers_length, display_length;
} test;

static int failures, cases;

static void say(const test *t, const char *what)
{
    printf("%s: %s\n", t->name, what);
    failures++;
}

static void *block(size_t bytes)
{
    void *new = malloc(bytes > 0 ? bytes : 1);
    if (new == NULL)
        exit(2);
    return new;
}

static void *copy_of(const void *from, size_t bytes)
{
    return memcpy(block(bytes), from, bytes);
}

/* What a call leaves. */
typedef struct {
    waldumre_outcome outcome;
    uint8_t *rewritten, *display;
    int64_t *answer, *offers;
} result;

/* Buffers full of bytes that no book has. */
static result fresh(const test *t)
{
    result r = {{0, 0, 0, 0}, block(t->rewritten_length), block(t->display_length),
                block(8 * t->answer_length), block(8 * t->offers_length)};
    memset(r.rewritten, 0xA5, t->rewritten_length);
    memset(r.display, 0xA6, t->display_length);
    memset(r.answer, 0xA7, 8 * t->answer_length);
    memset(r.offers, 0xA8, 8 * t->offers_length);
    return r;
}

static void drop(result r)
{
    free(r.rewritten);
    free(r.display);
    free(r.answer);
    free(r.offers);
}

static result ask(const test *t)
{
    result r = fresh(t);
    r.outcome = waldumre_ask(t->catalogue, t->catalogue_length, t->values, t->values_length,
                             t->permits, t->permits_length, t->query, t->query_length,
                             r.rewritten, t->rewritten_length, r.answer, t->answer_length);
    return r;
}

/* The inputs as blocks of their exact size too. */
static result ask_book(const test *t)
{
    result r = fresh(t);
    uint8_t *catalogue = copy_of(t->catalogue, t->catalogue_length);
    uint8_t *permits = copy_of(t->permits, t->permits_length);
    uint8_t *query = copy_of(t->query, t->query_length);
    int32_t *values = copy_of(t->values, 4 * t->values_length);
    r.outcome = waldumre_label_book(catalogue, t->catalogue_length, values, t->values_length,
                                    permits, t->permits_length, query, t->query_length,
                                    r.rewritten, t->rewritten_length, r.answer, t->answer_length,
                                    r.offers, t->offers_length, r.display, t->display_length);
    free(catalogue);
    free(permits);
    free(query);
    free(values);
    return r;
}

/* By hand: can labels show this answer? */
static int fits(const test *t, const result *asked)
{
    if (asked->outcome.columns != 3 || t->offers_length != 500 || t->display_length != 3500)
        return 0;
    for (uint64_t row = 0; row < asked->outcome.rows; row++) {
        const int64_t *cell = asked->answer + 3 * row;
        if (cell[0] < 0 || cell[0] > 499 || cell[1] < 0 || cell[2] < 0 || cell[2] > 999999)
            return 0;
    }
    return 1;
}

/* By hand: from the last row to the first, so the first that names a label stays. */
static void fill(result *asked)
{
    for (int label = 0; label < 500; label++)
        asked->offers[label] = -1;
    memset(asked->display, ' ', 3500);
    for (uint64_t row = asked->outcome.rows; row-- > 0;) {
        const int64_t *cell = asked->answer + 3 * row;
        char text[64];
        snprintf(text, sizeof text, "%4" PRId64 ".%02" PRId64, cell[2] / 100, cell[2] % 100);
        asked->offers[cell[0]] = cell[1];
        memcpy(asked->display + 7 * cell[0], text, 7);
    }
}

static void compare(const test *t, const result *a, const result *b)
{
    if (memcmp(&a->outcome, &b->outcome, sizeof a->outcome) != 0)
        say(t, "another outcome");
    if (memcmp(a->rewritten, b->rewritten, t->rewritten_length) != 0)
        say(t, "another rewritten question");
    if (memcmp(a->answer, b->answer, 8 * t->answer_length) != 0)
        say(t, "another answer");
    if (memcmp(a->offers, b->offers, 8 * t->offers_length) != 0)
        say(t, "other offers");
    if (memcmp(a->display, b->display, t->display_length) != 0)
        say(t, "another display");
}

/* Puts the case both ways. The book's number is the one that is expected. */
static void put(const test *t, uint64_t number)
{
    result asked = ask(t), book = ask_book(t);
    cases++;
    if (asked.outcome.number == 0 && fits(t, &asked))
        fill(&asked);
    else if (asked.outcome.number == 0)
        asked.outcome = (waldumre_outcome){53, 0, 0, 0};
    compare(t, &asked, &book);
    if (book.outcome.number != number) {
        printf("%s: %" PRIu64 " instead of %" PRIu64 "\n", t->name, book.outcome.number, number);
        failures++;
    }
    drop(asked);
    drop(book);
}

#define BYTES(t, part, ...)                                                                        \
    do {                                                                                           \
        const uint8_t list[] = {__VA_ARGS__};                                                      \
        memcpy((t)->part, list, sizeof list);                                                      \
        (t)->part##_length = sizeof list;                                                          \
    } while (0)

/* The rows of one relation (label, number, price), all permitted, asked for as they stand. */
static test *table(const char *name, size_t rows, const int32_t *values)
{
    static test t;
    memset(&t, 0, sizeof t);
    t.name = name;
    BYTES(&t, catalogue, 48, 3, (uint8_t)rows, (uint8_t)(rows >> 8));
    BYTES(&t, permits, 64, 0, 255, 255, 16);
    BYTES(&t, query, 1, 0, 0, 33, 0, 0, 33, 0, 1, 33, 0, 2, 16);
    if (rows > 0)
        memcpy(t.values, values, 12 * rows);
    t.values_length = 3 * rows;
    t.rewritten_length = WALDUMRE_REWRITTEN_BYTES;
    t.answer_length = CELLS;
    t.offers_length = WALDUMRE_LABELS;
    t.display_length = WALDUMRE_BOOK_BYTES;
    return &t;
}

static const int32_t SOME_ROWS[] = {3, 11, 249, 3, 12, 199, 4, 13, 5};
static test *three(const char *name) { return table(name, 3, SOME_ROWS); }

/* One row: accepted or 53. */
static void row(const char *name, int32_t label, int32_t number, int32_t price, uint64_t expected)
{
    const int32_t values[] = {label, number, price};
    put(table(name, 1, values), expected);
}

/* The bytes themselves, from the paper. */
static void displays(void)
{
    static const struct { int32_t cents; const char *text; } shown[] = {
        {0, "   0.00"}, {5, "   0.05"}, {99, "   0.99"}, {100, "   1.00"}, {999, "   9.99"},
        {1000, "  10.00"}, {9999, "  99.99"}, {10000, " 100.00"}, {99999, " 999.99"},
        {100000, "1000.00"}, {123456, "1234.56"}, {999999, "9999.99"},
    };
    for (size_t i = 0; i < sizeof shown / sizeof *shown; i++) {
        const int32_t values[] = {499, 0, shown[i].cents};
        test *t = table("a price as text", 1, values);
        put(t, 0);
        result book = ask_book(t);
        if (memcmp(book.display + 7 * 499, shown[i].text, 7) != 0)
            say(t, shown[i].text);
        if (memcmp(book.display, "       ", 7) != 0 || book.offers[0] != -1)
            say(t, "label 0 is not empty");
        if (book.offers[499] != 0)
            say(t, "another offer for label 499");
        drop(book);
    }
}

static void accepted(void)
{
    test *t;
    put(table("no rows", 0, NULL), 0);
    put(three("two rows for one label"), 0);
    t = three("exactly full"), t->answer_length = 9, put(t, 0);
    row("least of all", 0, 0, 0, 0);
    row("most of all", 499, INT32_MAX, 999999, 0);
    /* the sum of three numbers of 2^31 - 1 each: an offer number beyond 32 bits */
    const int32_t large[] = {7, INT32_MAX, 1, 7, INT32_MAX, 1, 7, INT32_MAX, 1};
    t = table("a sum as offer number", 3, large);
    BYTES(t, query, 1, 0, 0, 33, 0, 0, 34, 2, 1, 0, 1, 16, 33, 0, 2, 16);
    put(t, 0);
}

/* Refused by the engine: the book hands the number on and keeps its contents. */
static void refused(void)
{
    test *t;
    t = three("no catalogue"), t->catalogue_length = 0, put(t, 10);
    t = three("a value short"), t->values_length--, put(t, 11);
    t = three("permits cut short"), t->permits_length--, put(t, 20);
    t = three("nine permits");
    for (size_t i = 0; i < 9; i++)
        memcpy(t->permits + 5 * i, (uint8_t[]){64, 0, 255, 255, 16}, 5);
    t->permits_length = 45, put(t, 21);
    t = three("a permit's relation unknown"), t->permits[1] = 1, put(t, 22);
    t = three("a permit for a workspace"), t->catalogue[0] = 49, put(t, 23);
    t = three("no question"), t->query_length = 0, put(t, 30);
    t = three("nine targets");
    BYTES(t, query, 1, 0, 0, 33, 0, 0, 33, 0, 0, 33, 0, 0, 33, 0, 0, 33, 0, 0, 33, 0, 0, 33, 0, 0,
          33, 0, 0, 33, 0, 0, 16);
    put(t, 31);
    t = three("attribute unknown"), t->query[5] = 3, put(t, 32);
    t = three("no permit"), t->permits_length = 0, put(t, 33);
    t = three("rewritten question does not fit"), t->rewritten_length = 14, put(t, 40);
    t = three("nothing fits"), t->rewritten_length = 0, put(t, 40);
}

/* A part of an answer makes no book, whatever else is wrong. */
static void cut_short(void)
{
    test *t;
    t = three("no room for a row"), t->answer_length = 0, put(t, 41);
    t = three("room for two rows"), t->answer_length = 8, put(t, 41);
    t = three("41 before offers"), t->answer_length = 3, t->offers_length = 0, put(t, 41);
    t = three("41 before display"), t->answer_length = 3, t->display_length = 1, put(t, 41);
    t = three("41 before a label over 499"), t->answer_length = 3, t->values[0] = 500, put(t, 41);
    t = three("41 before one target"), t->answer_length = 1;
    BYTES(t, query, 1, 0, 0, 33, 0, 1, 16);
    put(t, 41);
}

static void targets(void)
{
    for (size_t rows = 0; rows <= 3; rows += 3)
        for (size_t count = 1; count <= 8; count++) {
            test *t = table("targets", rows, SOME_ROWS);
            for (size_t i = 0; i < count; i++)
                memcpy(t->query + 3 + 3 * i, (uint8_t[]){33, 0, (uint8_t)(i % 3)}, 3);
            t->query[3 + 3 * count] = 16;
            t->query_length = 4 + 3 * count;
            put(t, count == 3 ? 0 : 53);
        }
}

static void ranges(void)
{
    row("label -1", -1, 1, 1, 53);
    row("label 500", 500, 1, 1, 53);
    row("least label", INT32_MIN, 1, 1, 53);
    row("most label", INT32_MAX, 1, 1, 53);
    row("offer -1", 1, -1, 1, 53);
    row("least offer", 1, INT32_MIN, 1, 53);
    row("price -1", 1, 1, -1, 53);
    row("price 1,000,000", 1, 1, 1000000, 53);
    row("least price", 1, 1, INT32_MIN, 53);
    row("most price", 1, 1, INT32_MAX, 53);
    /* in the second row of a label, which it would not show */
    test *t;
    t = three("second row's price"), t->values[5] = 1000000, put(t, 53);
    t = three("second row's offer"), t->values[4] = -1, put(t, 53);
    t = three("last row's label"), t->values[6] = 500, put(t, 53);
}

static void lengths(void)
{
    const size_t offers[] = {0, 1, 499, 500, 501, 3500}, display[] = {0, 7, 500, 3499, 3500, 3501};
    for (size_t i = 0; i < 6; i++)
        for (size_t j = 0; j < 6; j++) {
            test *t = three("lengths of the book");
            t->offers_length = offers[i];
            t->display_length = display[j];
            put(t, offers[i] == 500 && display[j] == 3500 ? 0 : 53);
            t->query_length = 0; /* an engine's refusal goes first */
            put(t, 30);
        }
}

/* What a permit hides moves nothing: rows with a price below 1,000 are permitted. */
static void hidden(void)
{
    static const int32_t one[] = {3, 11, 249, 4, 12, 5000, 4, 13, 5};
    static const int32_t other[] = {-9, -9, 7777777, 3, 11, 249, 4, 13, 5, 3, 11, 1000};
    test *t = table("one collection", 3, one);
    BYTES(t, permits, 64, 0, 255, 255, 21, 3, 33, 0, 2, 32, 232, 3, 0, 0);
    test first = *t;
    put(&first, 0);
    t = table("the other collection", 4, other);
    memcpy(t->permits, first.permits, first.permits_length);
    t->permits_length = first.permits_length;
    put(t, 0);
    result a = ask_book(&first), b = ask_book(t);
    compare(t, &a, &b);
    drop(a);
    drop(b);
}

/* NULL with length 0: a book of no length is 53, buffers of none are 40 and 41. */
static void nulls(void)
{
    const uint8_t catalogue[] = {48, 3, 1, 0}, permits[] = {64, 0, 255, 255, 16};
    const uint8_t query[] = {1, 0, 0, 33, 0, 0, 33, 0, 1, 33, 0, 2, 16};
    const int32_t values[] = {3, 11, 249};
    for (unsigned set = 0; set < 16; set++) {
        int w = set & 1, a = set >> 1 & 1, o = set >> 2 & 1, d = set >> 3 & 1;
        uint8_t rewritten[15] = {0}, display[WALDUMRE_BOOK_BYTES] = {0};
        int64_t answer[3] = {0}, offers[WALDUMRE_LABELS] = {0};
        waldumre_outcome r = waldumre_label_book(
            catalogue, sizeof catalogue, values, 3, permits, sizeof permits, query, sizeof query,
            w ? NULL : rewritten, w ? 0 : sizeof rewritten, a ? NULL : answer, a ? 0 : 3,
            o ? NULL : offers, o ? 0 : WALDUMRE_LABELS, d ? NULL : display, d ? 0 : sizeof display);
        uint64_t number = w ? 40 : a ? 41 : o || d ? 53 : 0;
        cases++;
        if (r.number != number) {
            printf("book: NULL set %x gives %d, not %d\n", set, (int)r.number, (int)number);
            failures++;
        }
    }
}

static uint32_t draw(uint32_t below)
{
    static uint32_t state = 2463534242u;
    state ^= state << 13;
    state ^= state >> 17;
    state ^= state << 5;
    return state % below;
}

/* A cell from 0 to size - 1; once in chance times one step outside. */
static int32_t draw_cell(uint32_t size, uint32_t chance)
{
    if (draw(chance) == 0)
        return draw(2) == 0 ? -1 : (int32_t)size;
    return (int32_t)draw(size);
}

static void drawn(void)
{
    static int32_t values[MOST_VALUES];
    for (int round = 0; round < 500; round++) {
        size_t rows = draw(round % 20 == 0 ? 1025 : 60);
        uint32_t chance = round % 2 == 0 ? UINT32_MAX : 100, labels = round % 3 == 0 ? 9 : 500;
        for (size_t i = 0; i < rows; i++) {
            values[3 * i] = labels == 500 ? draw_cell(500, chance) : (int32_t)draw(labels);
            values[3 * i + 1] = chance == 100 && draw(200) == 0 ? -1 : (int32_t)draw(100000);
            values[3 * i + 2] = draw_cell(1000000, chance);
        }
        test *t = table("drawn", rows, values);
        t->answer_length = draw(8) == 0 ? draw(200) : CELLS;
        result asked = ask(t);
        put(t, asked.outcome.number != 0 ? asked.outcome.number : fits(t, &asked) ? 0 : 53);
        drop(asked);
    }
}

int main(void)
{
    displays();
    accepted();
    refused();
    cut_short();
    targets();
    ranges();
    lengths();
    hidden();
    nulls();
    drawn();
    printf("book: %d cases, %d failures\n", cases, failures);
    return failures != 0;
}
