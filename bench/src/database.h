/* SQLite in memory, with a prepared statement. */
#ifndef DATABASE_H
#define DATABASE_H

#include "bench.h"

#include <sqlite3.h>

/* What is done for SQLite's sake. */
typedef struct {
    bool index;    /* the user's */
    bool analyze;  /* ANALYZE, after the rows and the index are there */
    bool bare;     /* SELECT for SELECT DISTINCT, where the data make no two rows equal */
} variant;

typedef struct {
    const workload *from;
    sqlite3 *db;
    sqlite3_stmt *select;
    answer to;
} database;

/* False if the variant does not exist: no index, or equal rows without DISTINCT. */
bool database_open(database *self, const workload *from, variant how);
void database_close(database *self);
void database_call(void *self);
/* Compares all rows of the statement with an answer, in any order. */
bool database_agrees(database *self, const answer *with);

#endif
