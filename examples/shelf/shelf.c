/*
 * A label server that draws: fills the label book with one call and shows the shelf.
 *
 *     shelf FOLDER [PAGE | FIRST-LAST]
 *
 * FOLDER holds the files catalogue, values (4 bytes each, low byte first), permits and question.
 * The question's targets are label, offer number and price in cents. A page is 3 rows of 6 labels;
 * with no page named, those are drawn on which a label has an offer.
 *
 * Exits with 0; with 1 and a sentence on stderr if the book was refused; with 2 for wrong usage.
 */
#include "waldumre_book.h"

#include <inttypes.h>
#include <stdbool.h>
#include <stdio.h>
#include <stdlib.h>

/* The largest collection, list of permits and question; one more of each, so that no file that is
 * longer is cut to one that could be accepted. */
enum { MOST_VALUES = 16 * 16 * 1024, MOST_ROWS = 4096 };
static uint8_t catalogue[16 * 4 + 1], permits[2048 + 1], question[1024 + 1];
static int32_t values[MOST_VALUES + 1];
static size_t catalogue_length, values_length, permits_length, question_length;

/* What the call writes to. */
static uint8_t rewritten[WALDUMRE_REWRITTEN_BYTES];
static int64_t answer[MOST_ROWS * WALDUMRE_BOOK_COLUMNS];
static int64_t offers[WALDUMRE_LABELS];
static uint8_t display[WALDUMRE_BOOK_BYTES];

/* Reads at most room bytes. A file that is missing or cannot be read counts as empty. */
static size_t read_file(const char *folder, const char *name, uint8_t *to, size_t room)
{
    char path[4096];
    if (snprintf(path, sizeof path, "%s/%s", folder, name) >= (int)sizeof path)
        return 0;
    FILE *stream = fopen(path, "rb");
    if (stream == NULL)
        return 0;
    size_t length = fread(to, 1, room, stream);
    if (ferror(stream))
        length = 0;
    fclose(stream);
    return length;
}

/* A file that is no multiple of 4 bytes counts as one too long. */
static void read_values(const char *folder)
{
    static uint8_t bytes[sizeof values];
    size_t length = read_file(folder, "values", bytes, sizeof bytes);
    values_length = length % 4 == 0 ? length / 4 : MOST_VALUES + 1;
    for (size_t i = 0; i < length / 4; i++) {
        const uint8_t *at = bytes + 4 * i;
        values[i] = (int32_t)(at[0] | (uint32_t)at[1] << 8 | (uint32_t)at[2] << 16 |
                              (uint32_t)at[3] << 24);
    }
}

static void load(const char *folder)
{
    catalogue_length = read_file(folder, "catalogue", catalogue, sizeof catalogue);
    permits_length = read_file(folder, "permits", permits, sizeof permits);
    question_length = read_file(folder, "question", question, sizeof question);
    read_values(folder);
}

static waldumre_outcome fill_book(void)
{
    return waldumre_label_book(catalogue, catalogue_length, values, values_length,
                               permits, permits_length, question, question_length,
                               rewritten, sizeof rewritten, answer, sizeof answer / sizeof *answer,
                               offers, WALDUMRE_LABELS, display, sizeof display);
}

static const char *sentence(uint64_t number)
{
    switch (number) {
    case WALDUMRE_CATALOGUE: return "the catalogue is missing or damaged";
    case WALDUMRE_VALUES: return "the values are not as many as the catalogue says";
    case WALDUMRE_PERMIT_FORM: return "the permits are too long or not well formed";
    case WALDUMRE_PERMIT_SIZE: return "there are too many permits, or one is too large";
    case WALDUMRE_PERMIT_NAMES: return "a permit names what is not there";
    case WALDUMRE_PERMIT_WORKSPACE: return "a permit speaks of a workspace";
    case WALDUMRE_QUERY_FORM: return "the question is missing, too long or not well formed";
    case WALDUMRE_QUERY_SIZE: return "the question has too many parts or levels";
    case WALDUMRE_QUERY_NAMES: return "the question names what is not there";
    case WALDUMRE_NO_PERMIT: return "no permit covers what the question combines";
    case WALDUMRE_REWRITTEN_BUFFER: return "the question with its permits is too long";
    case WALDUMRE_ANSWER_BUFFER: return "the answer has more than 4,096 rows";
    case WALDUMRE_BOOK: return "the question does not give labels, offers and prices in range";
    default: return "for a reason that this program does not know";
    }
}

/* The shelf, in pages. */
enum { ACROSS = 6, DOWN = 3, PAGE = ACROSS * DOWN, PAGES = (WALDUMRE_LABELS + PAGE - 1) / PAGE };

/* The label after the last of those that start at first, at most count. */
static int end_of(int first, int count)
{
    return first + count < WALDUMRE_LABELS ? first + count : WALDUMRE_LABELS;
}

/* The lines of a label: an edge, its number, what it displays, the offer, an edge. */
enum { EDGE_ABOVE, NUMBER, DISPLAY, OFFER, EDGE_BELOW, LINES };

static void draw_offer(int label)
{
    char text[32] = "";
    if (offers[label] != WALDUMRE_NO_OFFER)
        snprintf(text, sizeof text, "#%" PRId64, offers[label]);
    printf("|%9s |", text);
}

static void draw_line(int label, int line)
{
    switch (line) {
    case NUMBER: printf("| %-8d |", label); break;
    case DISPLAY: printf("|%9.7s |", (const char *)display + WALDUMRE_DISPLAY_BYTES * label); break;
    case OFFER: draw_offer(label); break;
    default: printf("+----------+"); break;
    }
}

static void draw_row(int first)
{
    for (int line = 0; line < LINES; line++)
        for (int label = first; label < end_of(first, ACROSS); label++) {
            draw_line(label, line);
            putchar(label + 1 < end_of(first, ACROSS) ? ' ' : '\n');
        }
}

static void draw_page(int page)
{
    int first = (page - 1) * PAGE, end = end_of(first, PAGE);
    printf("\npage %d of %d, labels %d to %d\n", page, PAGES, first, end - 1);
    for (int label = first; label < end; label += ACROSS)
        draw_row(label);
}

static int offers_between(int first, int end)
{
    int count = 0;
    for (int label = first; label < end; label++)
        count += offers[label] != WALDUMRE_NO_OFFER;
    return count;
}

static bool has_offer(int page)
{
    int first = (page - 1) * PAGE;
    return offers_between(first, end_of(first, PAGE)) > 0;
}

/* PAGE or FIRST-LAST. */
static bool read_pages(const char *word, int *first, int *last)
{
    char more;
    int count = sscanf(word, "%3d-%3d%c", first, last, &more);
    if (count == 1) {
        *last = *first;
        count = sscanf(word, "%3d%c", first, &more) == 1 ? 2 : 0;
    }
    return count == 2 && 1 <= *first && *first <= *last && *last <= PAGES;
}

int main(int count, char **words)
{
    int first = 1, last = PAGES;
    if (count < 2 || count > 3 || (count == 3 && !read_pages(words[2], &first, &last))) {
        fprintf(stderr, "usage: shelf FOLDER [PAGE | FIRST-LAST], pages 1 to %d\n", PAGES);
        return 2;
    }
    load(words[1]);
    waldumre_outcome outcome = fill_book();
    if (outcome.number != 0) {
        fprintf(stderr, "shelf: refused %" PRIu64 ": %s\n", outcome.number,
                sentence(outcome.number));
        return 1;
    }
    printf("%" PRIu64 " rows, %d of %d labels have an offer\n", outcome.rows,
           offers_between(0, WALDUMRE_LABELS), WALDUMRE_LABELS);
    for (int page = first; page <= last; page++)
        if (count == 3 || has_offer(page))
            draw_page(page);
    return 0;
}
