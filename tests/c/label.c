/*
 * A small label server: shows the best offer of each article that it is given.
 *
 *     label FOLDER ARTICLE...
 *
 * FOLDER holds the collection: the files catalogue and values (4 bytes each, low byte first), and
 * permits if the program was built with WALDUMRE_ASK. Relation 0 is (article, rank, number). The
 * label shows the number of the first offer whose rank is the least of its article.
 */
#include "waldumre.h"

#include <inttypes.h>
#include <stdio.h>
#include <stdlib.h>

typedef struct {
    uint8_t *bytes; /* never NULL, also when the file is empty */
    size_t length;
} file;

/* A missing file counts as empty. */
static file read_file(const char *folder, const char *name)
{
    enum { MOST = 1 << 21 }; /* the largest collection has 16 * 16 * 1,024 values */
    char path[4096];
    file read = {malloc(MOST), 0};
    if (read.bytes == NULL || snprintf(path, sizeof path, "%s/%s", folder, name) >= (int)sizeof path)
        exit(2);
    FILE *stream = fopen(path, "rb");
    if (stream != NULL) {
        read.length = fread(read.bytes, 1, MOST, stream);
        fclose(stream);
    }
    return read;
}

static int32_t number_at(const uint8_t *bytes)
{
    uint32_t bits = bytes[0] | (uint32_t)bytes[1] << 8 | (uint32_t)bytes[2] << 16 |
                    (uint32_t)bytes[3] << 24;
    return (int32_t)bits;
}

static void put_number(uint8_t *bytes, int32_t number)
{
    uint32_t bits = (uint32_t)number;
    for (int i = 0; i < 4; i++)
        bytes[i] = (uint8_t)(bits >> 8 * i);
}

/*
 * number where article = A and rank = MIN(rank where article = A):
 * RANGE 0 over relation 0; attribute 2 of it; AND of two comparisons.
 */
enum { QUERY_BYTES = 37 };
static void write_query(uint8_t query[QUERY_BYTES], int32_t article)
{
    static const uint8_t form[QUERY_BYTES] = {
        1,  0, 0,                               /* RANGE variable 0, relation 0 */
        33, 0, 2,                               /* target: its number */
        19,                                     /* AND */
        21, 1, 33, 0, 0, 32, 0, 0, 0, 0,        /* article = A, A at 13 */
        21, 1, 33, 0, 1, 34, 5, 1, 0, 1,        /* rank = MIN of rank of variable 1, relation 0 */
        21, 1, 33, 1, 0, 32, 0, 0, 0, 0,        /* where its article = A, A at 33 */
    };
    for (int i = 0; i < QUERY_BYTES; i++)
        query[i] = form[i];
    put_number(query + 13, article);
    put_number(query + 33, article);
}

typedef struct {
    file catalogue;
    int32_t *values; /* never NULL */
    size_t values_length;
    file permits;
} collection;

static collection load(const char *folder)
{
    collection loaded = {read_file(folder, "catalogue"), NULL, 0, read_file(folder, "permits")};
    file bytes = read_file(folder, "values");
    if (bytes.length % 4 != 0) {
        fprintf(stderr, "values: no multiple of 4 bytes\n");
        exit(2);
    }
    loaded.values_length = bytes.length / 4;
    loaded.values = malloc((loaded.values_length + 1) * sizeof *loaded.values);
    if (loaded.values == NULL)
        exit(2);
    for (size_t i = 0; i < loaded.values_length; i++)
        loaded.values[i] = number_at(bytes.bytes + 4 * i);
    free(bytes.bytes);
    return loaded;
}

static void unload(collection loaded)
{
    free(loaded.catalogue.bytes);
    free(loaded.permits.bytes);
    free(loaded.values);
}

static waldumre_outcome put(const collection *from, const uint8_t *query, size_t length,
                            int64_t *answer, size_t cells)
{
#ifdef WALDUMRE_ASK
    static uint8_t rewritten[WALDUMRE_REWRITTEN_BYTES];
    return waldumre_ask(from->catalogue.bytes, from->catalogue.length, from->values,
                        from->values_length, from->permits.bytes, from->permits.length, query,
                        length, rewritten, sizeof rewritten, answer, cells);
#else
    return waldumre_evaluate(from->catalogue.bytes, from->catalogue.length, from->values,
                             from->values_length, query, length, answer, cells);
#endif
}

/* 0 if the label could be shown. */
static int show(const collection *from, int32_t article)
{
    uint8_t query[QUERY_BYTES];
    write_query(query, article);
    /* The label has room for one row. */
    int64_t answer[1] = {0};
    waldumre_outcome outcome = put(from, query, sizeof query, answer, 1);
    if (outcome.number != 0 && outcome.number != WALDUMRE_ANSWER_BUFFER) {
        printf("article %" PRId32 ": refused %" PRIu64 "\n", article, outcome.number);
        return 1;
    }
    if (outcome.rows == 0)
        printf("article %" PRId32 ": no offer\n", article);
    else
        printf("article %" PRId32 ": offer %" PRId64 "%s\n", article, answer[0],
               outcome.number == 0 ? "" : ", and more");
    return 0;
}

int main(int count, char **words)
{
    if (count < 3) {
        fprintf(stderr, "label FOLDER ARTICLE...\n");
        return 2;
    }
    collection loaded = load(words[1]);
    int failed = 0;
    for (int i = 2; i < count; i++)
        failed |= show(&loaded, (int32_t)strtol(words[i], NULL, 10));
    unload(loaded);
    return failed;
}
