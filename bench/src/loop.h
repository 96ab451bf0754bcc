/* What the loops by hand share: rows, chains of equal keys, distinct answer rows. */
#ifndef LOOP_H
#define LOOP_H

#include "bench.h"

#include <string.h>

#define EACH(type, name, relation_number)                                                         \
    for (const type *name = table(w, relation_number), *name##_end = name + size(w, relation_number); \
         name < name##_end; name++)

static inline const void *table(const workload *w, size_t i)
{
    return w->relation[i].first;
}

static inline size_t size(const workload *w, size_t i)
{
    return w->relation[i].rows;
}

/* Adds a row unless it is there. False, with 41, if there is no room. */
bool keep(const workload *w, answer *to, size_t columns, const int64_t *row);
/* Rows from here on are compared among themselves only: another question has begun. */
void keep_anew(void);

static inline bool keep1(const workload *w, answer *to, int64_t a)
{
    return keep(w, to, 1, &a);
}

static inline bool keep2(const workload *w, answer *to, int64_t a, int64_t b)
{
    const int64_t row[2] = {a, b};
    return keep(w, to, 2, row);
}

/*
 * Rows by the value of a column: a head for each bucket, then the next row of the same bucket, in
 * the order of the relation if rows are put in from the last one down. Row r is entry r + 1.
 */
enum { CHAIN_BITS = 10 };
typedef struct {
    uint16_t head[1 << CHAIN_BITS], next[1024 + 1];
} chain;

static inline size_t bucket(int32_t key)
{
    return (uint32_t)key * 2654435769u >> (32 - CHAIN_BITS);
}

static inline void chain_clear(chain *c)
{
    memset(c->head, 0, sizeof c->head);
}

static inline void chain_put(chain *c, int32_t key, size_t row)
{
    size_t b = bucket(key);
    c->next[row + 1] = c->head[b];
    c->head[b] = (uint16_t)(row + 1);
}

/* Puts in the rows of a relation that meet the test, a condition on the row 'name'. */
#define CHAIN(c, type, name, relation_number, key, test)                       \
    do {                                                                       \
        const type *name##_first = table(w, relation_number);                  \
        chain_clear(c);                                                        \
        for (size_t name##_at = size(w, relation_number); name##_at-- > 0;) {  \
            const type *name = name##_first + name##_at;                       \
            if (test)                                                          \
                chain_put(c, key, name##_at);                                  \
        }                                                                      \
    } while (0)

/* The rows of a key's bucket; the key itself is still to be compared. */
#define MEET(c, type, name, relation_number, key)                                          \
    for (size_t name##_at = (c)->head[bucket(key)]; name##_at != 0; name##_at = (c)->next[name##_at]) \
        for (const type *name = (const type *)table(w, relation_number) + (name##_at - 1), *name##_once = name + 1; \
             name < name##_once; name++)

/* loops_n.c */
loop_function n1, n2, n3, n4, n5, n6, n7, n8, n9, n10, g1, g2, g3, g4;

#endif
