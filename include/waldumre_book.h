/*
 * waldumre_book: the label book, a query's answer as what 500 shelf labels show.
 *
 * Link with libwaldumre_book.a (x86-64, System V calling convention; needs memcpy, memset and
 * their like, nothing else). It holds its own copy of the engine: a program that makes no other
 * call needs no libwaldumre.a. With both in one program, their order does not matter.
 *
 * One call, waldumre_label_book. It asks as waldumre_ask does, with the same arguments, refusals
 * and buffers, for rows of three cells: label, offer number, price in cents. Each label gets the
 * first row that names it. waldumre.h says what a catalogue, a permit and a query are, what the
 * refusals 10 to 41 mean, and what order the rows have.
 *
 * Memory, threads, time and what the caller owes are as waldumre.h says, here of four buffers:
 *   - Every pointer is valid for its length, counted in elements: bytes, int32_t, int64_t. With
 *     length 0 it may be NULL: it is not read.
 *   - values is aligned as an int32_t, answer and offers as an int64_t.
 *   - rewritten, answer, offers and display overlap neither each other nor any input. Inputs may
 *     overlap. Calls that run at once share none of the four.
 *   - All elements of the four are initialised (to anything; zero will do).
 *   - WALDUMRE_STACK_BYTES of free stack in the calling thread.
 * A call that is left before its end (waldumre.h, Time) leaves anything in the four buffers, a book
 * half written too. To break one of the points above is undefined behaviour. The contents of the inputs are owed nothing, and
 * neither are the lengths of the buffers: any of them get a book or a refusal.
 */
#ifndef WALDUMRE_BOOK_H
#define WALDUMRE_BOOK_H

#include "waldumre.h"

#ifdef __cplusplus
extern "C" {
#endif

/* Labels are numbered 0 to 499. */
#define WALDUMRE_LABELS 500
/* What a label displays: euros, right-aligned in four, a point, two digits of cents. */
#define WALDUMRE_DISPLAY_BYTES 7
/* The displays of all labels: the length that display must have. */
#define WALDUMRE_BOOK_BYTES 3500
/* The targets of a query for a book, and so the cells of a row: label, offer number, price. */
#define WALDUMRE_BOOK_COLUMNS 3
/* The highest price that fits, in cents. */
#define WALDUMRE_PRICE_MOST 999999
/* In place of an offer number: no row names the label. */
#define WALDUMRE_NO_OFFER (-1)

/*
 * The refusal of the book, tried after 10 to 41, so of accepted queries only. One of these:
 *   - The query has not three targets, whether it has rows or none.
 *   - Some row of the answer, not only one that a label would show, has a label outside 0 to 499,
 *     an offer number below 0 or a price outside 0 to 999,999.
 *   - offers_length is not 500 or display_length is not 3,500.
 */
#define WALDUMRE_BOOK 53

/*
 * Asks, and fills the book.
 *
 *   catalogue, values, permits, query
 *              As for waldumre_ask. The query has three targets, in this order: label, offer
 *              number, price in cents.
 *   rewritten  As for waldumre_ask; WALDUMRE_REWRITTEN_BYTES are always enough.
 *   answer     As for waldumre_ask. The book is made of all rows or not at all, so have room for
 *              all: three cells for each distinct row. With one RANGE 3,072 cells are enough.
 *   offers     Gets the offer number of label k at offers[k]; 500 cells.
 *   display    Gets what label k displays at display[7 * k] to display[7 * k + 6]; 3,500 bytes, no
 *              end of string. The price in ASCII, as "   0.05", "  12.99", "9999.99".
 *
 * Returns the outcome of waldumre_ask, or 53. Afterwards:
 *
 *   0      rewritten and answer: as waldumre_ask leaves them. The book: all 500 entries are
 *          written, whatever stood there. Of several rows for one label the first is shown; a
 *          label that no row names has WALDUMRE_NO_OFFER and seven spaces.
 *   41     More rows than answer has room for. rewritten, answer and the counts: as waldumre_ask
 *          leaves them, so the first rows that fit stand in answer. The book keeps its contents.
 *   53     All counts are 0. rewritten and answer: as waldumre_ask leaves them, which accepted the
 *          query. The book keeps its contents.
 *   else   All counts are 0. All four buffers keep their contents.
 *
 * So a refusal never touches the book: what the labels show can stay until the next call succeeds.
 * Numbers: 0, those of waldumre_ask, and 53.
 */
waldumre_outcome waldumre_label_book(const uint8_t *catalogue, size_t catalogue_length,
                                     const int32_t *values, size_t values_length,
                                     const uint8_t *permits, size_t permits_length,
                                     const uint8_t *query, size_t query_length,
                                     uint8_t *rewritten, size_t rewritten_length,
                                     int64_t *answer, size_t answer_length,
                                     int64_t *offers, size_t offers_length,
                                     uint8_t *display, size_t display_length);

#ifdef __cplusplus
}
#endif

#endif
