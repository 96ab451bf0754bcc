/*
 * waldumre: a verified query engine over guarded relations.
 *
 * Link with libwaldumre.a or libwaldumre.so (pkg-config waldumre; x86-64, System V calling
 * convention; needs memcpy, memset and their like, nothing else). All numbers in the byte formats
 * are low byte first; docs/FORMAT.md is the whole format.
 *
 * Four calls:
 *   waldumre_ask       asks a query under a list of permits: only permitted rows are seen.
 *                      This is the call for queries that come from outside.
 *   waldumre_evaluate  answers a query over all rows, permits or not. It guards nothing: give it
 *                      only queries of your own, or ones that waldumre_ask has rewritten for you. It
 *                      cannot tell whether bytes were rewritten: bytes from outside may only look so.
 *   waldumre_read_query
 *                      reads QUEL as text, with a list of names, into the bytes of a query. It sees no
 *                      relation and no permit: what it reads is for waldumre_ask.
 *   waldumre_ask_text  reads a text and asks it: the two in one call.
 *
 * Memory. The library allocates nothing, keeps no pointer after the call and has no global state.
 * All buffers are the caller's, before, during and after the call. Calls may run at once in several
 * threads, if nobody writes to an input and no two calls share an answer, rewritten or records buffer.
 *
 * What the caller owes (the library cannot check it; to break it is undefined behaviour):
 *   - Every pointer is valid for its length, counted in elements: bytes, int32_t, int64_t. With
 *     length 0 it may be NULL, as the data() of an empty C++ vector may be: it is not read.
 *   - values is aligned as an int32_t, answer as an int64_t. Plain C arrays and malloc see to that.
 *   - answer, rewritten and records overlap neither each other nor any input. Inputs may overlap.
 *   - All elements of answer, rewritten and records are initialised (to anything; zero will do).
 *   - WALDUMRE_STACK_BYTES of free stack in the calling thread, see below.
 * The contents of the inputs are owed nothing: any bytes get an answer or a refusal.
 *
 * Time. There is no limit: up to four RANGE records of 1,024 rows each make 2 to the 40
 * assignments. A server that takes queries from outside sets a budget and leaves the call when it is
 * spent: by siglongjmp out of a signal handler, or by ending the thread (asynchronous cancelling) or
 * the process. The library may be left at any instruction: it holds no lock, no state and no memory
 * but the caller's, so nothing leaks and later calls are not affected. After leaving:
 *   - answer, rewritten and records hold anything, for as many elements as were lent. Do not read
 *     them, and do not hand them on: there may be cells of an unfinished answer.
 *   - there is no outcome. Treat the query as refused, with a number of your own.
 *   - the moment of leaving depends on how many rows there are, hidden ones included, and on what
 *     the permits' conditions do on them: see SECURITY.md before an asker can tell a query that was
 *     left from one that was answered.
 * examples/budget.c has a timer for each thread.
 */
#ifndef WALDUMRE_H
#define WALDUMRE_H

#include <stddef.h>
#include <stdint.h>

#ifdef __cplusplus
extern "C" {
#endif

/* The version of this header: text, parts, and one number to compare (10000 * major + 100 * minor +
 * patch). Before 1.0.0 a new minor version may change calls; a new patch version never does. */
#define WALDUMRE_VERSION "0.2.0"
#define WALDUMRE_VERSION_MAJOR 0
#define WALDUMRE_VERSION_MINOR 2
#define WALDUMRE_VERSION_PATCH 0
#define WALDUMRE_VERSION_NUMBER 200

/*
 * Stack that a call may take, with margin. All memory beside the caller's buffers is there. Measured:
 * waldumre_ask takes at most 234,000 bytes, and waldumre_evaluate 239,000 for an accepted query, each
 * a sum: the deepest query as measured (122,000 and 164,000), and the tables for large relations
 * (43,000 for equal rows of an answer, 33,000 for equal rows of a range; for waldumre_ask 17,000 for
 * the permitted rows and as much for marks); to refuse 17,216 bytes of aggregates nested without end
 * waldumre_evaluate takes 592,000. waldumre_read_query takes at most 87,000, and waldumre_ask_text no
 * more than the larger of reader and ask.
 */
#define WALDUMRE_STACK_BYTES 1048576

/* What a call returns. */
typedef struct {
    uint64_t number;  /* 0: accepted. Else the refusal, one of those below. */
    uint64_t rows;    /* rows written to answer */
    uint64_t columns; /* cells in each row: the number of the query's targets, 1 to 8 */
    uint64_t length;  /* bytes written to rewritten; always 0 from waldumre_evaluate */
} waldumre_outcome;

/* What waldumre_read_query returns. */
typedef struct {
    uint64_t number; /* 0: read. Else the refusal: 50, 51 or 52. */
    uint64_t length; /* bytes written to records, 0 if refused */
} waldumre_reading;

/*
 * Refusals. Checks run by rising number, each over its whole input, so the number is the lowest
 * that applies; 50, 51 and 52 of a text go before all others. All counts are then 0 and the buffers
 * keep their contents, except at 41.
 *
 * Caused by the keeper of the relations:
 */
/* catalogue empty, over 16 records, cut short, of unknown kind, or a number outside its range */
#define WALDUMRE_CATALOGUE 10
/* values_length is not the total that the catalogue gives */
#define WALDUMRE_VALUES 11
/* Caused by the writer of the permits (waldumre_ask only): */
/* list over 2,048 bytes or not well formed */
#define WALDUMRE_PERMIT_FORM 20
/* over 8 permits, or a permit over 256 bytes, 16 levels or 3 other variables */
#define WALDUMRE_PERMIT_SIZE 21
/* relation or attribute unknown, a mask of 0 or naming an absent attribute, or a variable over 3,
 * out of reach or bound twice */
#define WALDUMRE_PERMIT_NAMES 22
/* a permit's relation, or one bound in its condition, is a workspace */
#define WALDUMRE_PERMIT_WORKSPACE 23
/* Caused by the asker: */
/* query too long (ask: 1,024 bytes, evaluate: 17,216) or not well formed */
#define WALDUMRE_QUERY_FORM 30
/* over 4 RANGE records, 8 targets, the levels (ask: 32, evaluate: 64) or the variables (ask: 8,
 * evaluate: 200) */
#define WALDUMRE_QUERY_SIZE 31
/* relation or attribute unknown, or a variable over its limit, out of reach or bound twice */
#define WALDUMRE_QUERY_NAMES 32
/* a variable over a stored relation has no permit that applies, or a permit of NO ACCESS (its
 * condition is FALSE alone) bars it: its mask has an attribute that the query uses of the
 * variable (waldumre_ask only) */
#define WALDUMRE_NO_PERMIT 33
/* Caused by the host, that is, by the program that makes the call: */
/* the rewritten query is longer than rewritten_length (waldumre_ask only); never with
 * WALDUMRE_REWRITTEN_BYTES */
#define WALDUMRE_REWRITTEN_BUFFER 40
/* more distinct rows than whole rows fit in answer. Not empty-handed: answer holds the first rows
 * that fit, rows is their number, columns and length are as if accepted, and the rewritten query
 * has been written. A label that shows the first row can go on. */
#define WALDUMRE_ANSWER_BUFFER 41
/* Of waldumre_read_query and waldumre_ask_text only, tried in this order and before 10: */
/* caused by the asker: the text is over 2,000 bytes or outside the grammar */
#define WALDUMRE_TEXT_FORM 50
/* caused by the asker or by the keeper of the names: the list is broken or has a name twice, or the
 * text has a name that is unknown, out of reach or bound twice */
#define WALDUMRE_TEXT_NAMES 51
/* caused by the host: the records are longer than records_length; never with
 * WALDUMRE_RECORDS_BYTES */
#define WALDUMRE_RECORDS_BUFFER 52

/*
 * The bytes of a catalogue, a query and permits. docs/FORMAT.md says what they mean, with examples;
 * tests/format.sh holds these numbers to it and to the definitions that the engine is proved by.
 *
 * A record is a byte of kind and a body, then its children. The comment gives the body and, after
 * the slash, the children.
 */
#define WALDUMRE_KIND_RANGE 1      /* variable, relation */
#define WALDUMRE_KIND_TRUE 16      /* */
#define WALDUMRE_KIND_FALSE 17     /* */
#define WALDUMRE_KIND_NOT 18       /* / condition */
#define WALDUMRE_KIND_AND 19       /* / condition, condition */
#define WALDUMRE_KIND_OR 20        /* / condition, condition */
#define WALDUMRE_KIND_COMPARE 21   /* operator / term, term */
#define WALDUMRE_KIND_SOME 22      /* variable, relation / condition */
#define WALDUMRE_KIND_CONSTANT 32  /* 4 bytes, two's complement */
#define WALDUMRE_KIND_ATTRIBUTE 33 /* variable, attribute */
#define WALDUMRE_KIND_AGGREGATE 34 /* function, variable, relation, attribute / condition */
#define WALDUMRE_KIND_STORED 48    /* attributes, rows (2 bytes) */
#define WALDUMRE_KIND_WORKSPACE 49 /* attributes, rows (2 bytes) */
#define WALDUMRE_KIND_LATEST 50    /* attributes, rows (2 bytes); stored, last row first */
#define WALDUMRE_KIND_PERMIT 64    /* relation, mask (2 bytes) / condition */

/* Records of a name list. The name is WALDUMRE_NAME_BYTES long: 1 to 12 capitals, then spaces. */
#define WALDUMRE_KIND_NAME_RELATION 80  /* relation, name */
#define WALDUMRE_KIND_NAME_ATTRIBUTE 81 /* relation, attribute, name */
#define WALDUMRE_KIND_NAME_VALUE 82     /* value (4 bytes, two's complement), name */
#define WALDUMRE_NAME_BYTES 12

/* Operators of a comparison: = <> < <= > >= */
#define WALDUMRE_OP_EQ 1
#define WALDUMRE_OP_NE 2
#define WALDUMRE_OP_LT 3
#define WALDUMRE_OP_LE 4
#define WALDUMRE_OP_GT 5
#define WALDUMRE_OP_GE 6

/* Functions of an aggregate. AVE is exact in a comparison; as a target it is rounded to the nearer
 * whole number, and from halfway to the one further from zero. Over no rows COUNT and SUM are 0; the
 * others have no value: a comparison with one is false, and with one as a target there is no row. */
#define WALDUMRE_FN_COUNT 1
#define WALDUMRE_FN_SUM 2
#define WALDUMRE_FN_AVE 3
#define WALDUMRE_FN_MAX 4
#define WALDUMRE_FN_MIN 5

/* Limits. QUERY ones are of waldumre_ask, PLAIN ones of waldumre_evaluate, the others of both. */
#define WALDUMRE_MAX_RELATIONS 16
#define WALDUMRE_MAX_ATTRIBUTES 16
#define WALDUMRE_MAX_ROWS 1024
#define WALDUMRE_MAX_PERMIT_LIST_BYTES 2048
#define WALDUMRE_MAX_PERMITS 8
#define WALDUMRE_MAX_PERMIT_BYTES 256
#define WALDUMRE_MAX_PERMIT_LEVELS 16
#define WALDUMRE_MAX_PERMIT_VARIABLES 3
#define WALDUMRE_MAX_RANGES 4
#define WALDUMRE_MAX_TARGETS 8
#define WALDUMRE_MAX_QUERY_BYTES 1024
#define WALDUMRE_MAX_QUERY_LEVELS 32
#define WALDUMRE_MAX_QUERY_VARIABLES 8
#define WALDUMRE_MAX_PLAIN_LEVELS 64
#define WALDUMRE_MAX_PLAIN_VARIABLES 200
#define WALDUMRE_MAX_TEXT_BYTES 2000

/* The longest query that waldumre_evaluate takes and that waldumre_ask can write. */
#define WALDUMRE_REWRITTEN_BYTES 17216

/* The longest query that a text can give. waldumre_ask takes WALDUMRE_MAX_QUERY_BYTES at most: a
 * longer one gets 30. */
#define WALDUMRE_RECORDS_BYTES 6427

/*
 * The plain evaluator.
 *
 *   catalogue  The relations: 1 to 16 records of 4 bytes, numbered from 0. A record is its kind
 *              (48 stored, 49 workspace, 50 stored and walked from the last row to the first),
 *              attributes (1 to 16), rows (2 bytes, 0 to 1,024).
 *   values     The rows: row after row, relation after relation. Their number must be the sum of
 *              attributes times rows over all records.
 *   query      0 to 4 RANGE records, 1 to 8 targets, one condition, and no byte more.
 *   answer     Gets the rows, one after the other: cell c of row r is answer[r * columns + c].
 *              Rows come in the order of the RANGE records, the last one fastest, each variable
 *              from the first row of its relation on, under kind 50 from the last row back; a row
 *              equal to an earlier one is left out. answer_length counts cells, not bytes.
 *
 * Afterwards: accepted (0) or 41, the first rows * columns cells of answer are the answer and the
 * others keep their contents. At any other number all cells keep theirs.
 * Numbers: 0, 10, 11, 30, 31, 32, 41.
 */
waldumre_outcome waldumre_evaluate(const uint8_t *catalogue, size_t catalogue_length,
                                   const int32_t *values, size_t values_length,
                                   const uint8_t *query, size_t query_length,
                                   int64_t *answer, size_t answer_length);

/*
 * The guarded call. As above, and:
 *
 *   permits    0 to 8 permits, one after the other: 64, relation, mask (2 bytes; bit n for
 *              attribute n, FFFF hexadecimal for all), then a condition in which variable 0 is the
 *              permitted row. A condition of FALSE alone is NO ACCESS: it permits nothing and bars
 *              its attributes, whatever other permits say.
 *   rewritten  Gets the query with the guards put in, which waldumre_evaluate would answer the same.
 *              WALDUMRE_REWRITTEN_BYTES are always enough. It shows the permits' conditions: it is
 *              for the host's log, not for the asker.
 *
 * Afterwards: accepted (0) or 41, the first length bytes of rewritten are the rewritten query, the
 * first rows * columns cells of answer are the answer, all else keeps its contents. At any other
 * number, 40 too, both buffers keep all their contents.
 * Numbers: 0 and all of the above.
 */
waldumre_outcome waldumre_ask(const uint8_t *catalogue, size_t catalogue_length,
                              const int32_t *values, size_t values_length,
                              const uint8_t *permits, size_t permits_length,
                              const uint8_t *query, size_t query_length,
                              uint8_t *rewritten, size_t rewritten_length,
                              int64_t *answer, size_t answer_length);

/*
 * The reader: QUEL as text, as docs/FORMAT.md has its grammar, into the bytes of a query.
 *
 *   text       At most 2,000 bytes: RANGE EMPLOYEE(X) RETRIEVE W:X.SALARY:X.NAME=JONES
 *   names      What the names in it mean: records of kind 80 (a relation's number), 81 (an
 *              attribute's) and 82 (a value), in any order and number. NULL with length 0 is a good
 *              list. It is looked at as a whole, whether its names are used or not.
 *   records    Gets the query. WALDUMRE_RECORDS_BYTES are always enough.
 *
 * Whether the relations and attributes exist, and whether there are too many ranges, targets, levels
 * or variables, is for waldumre_ask to say.
 *
 * Afterwards: read (0), the first length bytes of records are the query and the others keep their
 * contents. Refused, all of records keeps its contents.
 * Numbers: 0, 50, 51, 52.
 */
waldumre_reading waldumre_read_query(const uint8_t *text, size_t text_length,
                                     const uint8_t *names, size_t names_length,
                                     uint8_t *records, size_t records_length);

/*
 * The guarded call by text: waldumre_read_query, and if it reads the text, waldumre_ask of what it
 * wrote. Arguments are those of the two.
 *
 * Afterwards: at 50, 51 and 52 all counts are 0 and all three buffers keep their contents. At any
 * other number, accepted or refused, records holds the query as read, and the rest is as waldumre_ask
 * leaves it.
 * Numbers: 0, 50, 51, 52 and those of waldumre_ask.
 */
waldumre_outcome waldumre_ask_text(const uint8_t *catalogue, size_t catalogue_length,
                                   const int32_t *values, size_t values_length,
                                   const uint8_t *permits, size_t permits_length,
                                   const uint8_t *text, size_t text_length,
                                   const uint8_t *names, size_t names_length,
                                   uint8_t *records, size_t records_length,
                                   uint8_t *rewritten, size_t rewritten_length,
                                   int64_t *answer, size_t answer_length);

/* The version of the library, as WALDUMRE_VERSION is that of the header. */
const char *waldumre_version(void);

/*
 * A number in words, for logs: "accepted" for 0, and a text for each refusal, 53 of the label book
 * too; any other number gets a text that says so. Never NULL, never freed. Unlike the four calls
 * above these two are plain C of the package, not proved; they are in an installed library, not in
 * target/staticlib.
 */
const char *waldumre_refusal_text(uint64_t number);

#ifdef __cplusplus
}
#endif

#endif
