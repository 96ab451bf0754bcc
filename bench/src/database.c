#include "database.h"

#include <stdio.h>
#include <stdlib.h>
#include <string.h>

enum { NO_ROOM = 41 };

static void need(const database *self, int result, int wanted)
{
    if (result != wanted)
        fail(self->from->name, sqlite3_errmsg(self->db));
}

static void run(database *self, const char *sql)
{
    need(self, sqlite3_exec(self->db, sql, NULL, NULL, NULL), SQLITE_OK);
}

/* The name of relation number i: the i-th CREATE TABLE. */
static void table_name(database *self, size_t i, char *name, size_t length)
{
    sqlite3_stmt *find;
    const char *sql = "SELECT name FROM sqlite_schema WHERE type = 'table' ORDER BY rowid LIMIT 1 OFFSET ?";
    need(self, sqlite3_prepare_v2(self->db, sql, -1, &find, NULL), SQLITE_OK);
    sqlite3_bind_int64(find, 1, (sqlite3_int64)i);
    need(self, sqlite3_step(find), SQLITE_ROW);
    snprintf(name, length, "%s", (const char *)sqlite3_column_text(find, 0));
    sqlite3_finalize(find);
}

static void prepare_insert(database *self, size_t i, sqlite3_stmt **insert)
{
    char name[64], sql[256];
    table_name(self, i, name, sizeof name);
    int length = snprintf(sql, sizeof sql, "INSERT INTO %s VALUES (?", name);
    for (size_t c = 1; c < self->from->relation[i].columns; c++)
        length += snprintf(sql + length, sizeof sql - (size_t)length, ",?");
    snprintf(sql + length, sizeof sql - (size_t)length, ")");
    need(self, sqlite3_prepare_v2(self->db, sql, -1, insert, NULL), SQLITE_OK);
}

static void fill(database *self, size_t i)
{
    const relation *rel = &self->from->relation[i];
    sqlite3_stmt *insert;
    prepare_insert(self, i, &insert);
    for (size_t r = 0; r < rel->rows; r++) {
        for (size_t c = 0; c < rel->columns; c++)
            sqlite3_bind_int(insert, (int)c + 1, rel->first[r * rel->columns + c]);
        need(self, sqlite3_step(insert), SQLITE_DONE);
        sqlite3_reset(insert);
    }
    sqlite3_finalize(insert);
}

static void prepare(database *self, const char *sql, sqlite3_stmt **to)
{
    need(self, sqlite3_prepare_v2(self->db, sql, -1, to, NULL), SQLITE_OK);
}

/* The key of question i, if the statement has a place for it. */
static void bind_key(database *self, sqlite3_stmt *select, size_t i)
{
    if (self->from->places > 0)
        sqlite3_bind_int(select, 1, asked_key(self->from, i));
}

/* How many rows all questions have together. */
static size_t count_rows(database *self, sqlite3_stmt *select)
{
    size_t count = 0;
    for (size_t i = 0; i < self->from->times; i++) {
        int result;
        bind_key(self, select, i);
        while ((result = sqlite3_step(select)) == SQLITE_ROW)
            count++;
        need(self, result, SQLITE_DONE);
        sqlite3_reset(select);
    }
    return count;
}

/* Takes DISTINCT away. False, and it stays, if there are then more rows. */
static bool make_bare(database *self)
{
    static const char with[] = "SELECT DISTINCT ";
    const char *sql = (const char *)self->from->select.bytes;
    sqlite3_stmt *bare;
    char *text;
    if (strncmp(sql, with, sizeof with - 1) != 0)
        return false;
    if (asprintf(&text, "SELECT %s", sql + sizeof with - 1) < 0)
        fail(self->from->name, "no memory");
    prepare(self, text, &bare);
    free(text);
    if (count_rows(self, bare) != count_rows(self, self->select)) {
        sqlite3_finalize(bare);
        return false;
    }
    sqlite3_finalize(self->select);
    self->select = bare;
    return true;
}

bool database_open(database *self, const workload *from, variant how)
{
    self->from = from;
    if (how.index && from->index.length == 0)
        return false;
    need(self, sqlite3_open(":memory:", &self->db), SQLITE_OK);
    run(self, (const char *)from->schema.bytes);
    for (size_t i = 0; i < from->relations; i++)
        fill(self, i);
    if (how.index)
        run(self, (const char *)from->index.bytes);
    if (how.analyze)
        run(self, "ANALYZE");
    prepare(self, (const char *)from->select.bytes, &self->select);
    if (how.bare && !make_bare(self)) {
        database_close(self);
        return false;
    }
    return true;
}

void database_close(database *self)
{
    sqlite3_finalize(self->select);
    sqlite3_close(self->db);
}

/* Takes the rows of one question until they end or one does not fit. */
static void take_rows(database *d)
{
    size_t columns = d->to.columns, most = d->from->cells / columns;
    while (sqlite3_step(d->select) == SQLITE_ROW) {
        if (d->to.rows == most) {
            d->to.number = NO_ROOM;
            break;
        }
        for (size_t c = 0; c < columns; c++)
            d->to.cells[d->to.rows * columns + c] = sqlite3_column_int64(d->select, (int)c);
        d->to.rows++;
    }
    sqlite3_reset(d->select);
}

void database_call(void *self)
{
    database *d = self;
    d->to.columns = (size_t)sqlite3_column_count(d->select);
    d->to.rows = 0;
    d->to.number = 0;
    for (size_t i = 0; i < d->from->times; i++) {
        bind_key(d, d->select, i);
        take_rows(d);
    }
}

static size_t compared; /* columns */

static int by_cells(const void *left, const void *right)
{
    const int64_t *a = left, *b = right;
    for (size_t c = 0; c < compared; c++)
        if (a[c] != b[c])
            return a[c] < b[c] ? -1 : 1;
    return 0;
}

/* A sorted copy of some rows. */
static int64_t *sorted(const int64_t *cells, size_t rows, size_t columns)
{
    size_t bytes = columns * sizeof *cells;
    int64_t *copy = malloc(rows * bytes + 1);
    if (copy == NULL)
        fail("bench", "no memory");
    memcpy(copy, cells, rows * bytes);
    compared = columns;
    qsort(copy, rows, bytes, by_cells);
    return copy;
}

/* Whether each of the few rows is among the many, as often. Both are sorted. */
static bool are_among(const int64_t *few, size_t few_rows, const int64_t *many, size_t many_rows)
{
    size_t f = 0;
    for (size_t m = 0; m < many_rows && f < few_rows; m++)
        if (by_cells(few + f * compared, many + m * compared) == 0)
            f++;
    return f == few_rows;
}

/* All rows, whether they fit the workload's buffer or not. */
static int64_t *all_rows(database *self, size_t rows)
{
    size_t columns = (size_t)sqlite3_column_count(self->select), at = 0;
    int64_t *cells = malloc((rows * columns + 1) * sizeof *cells), *ordered;
    if (cells == NULL)
        fail(self->from->name, "no memory");
    for (size_t i = 0; i < self->from->times; i++) {
        bind_key(self, self->select, i);
        while (at < rows * columns && sqlite3_step(self->select) == SQLITE_ROW)
            for (size_t c = 0; c < columns; c++)
                cells[at++] = sqlite3_column_int64(self->select, (int)c);
        sqlite3_reset(self->select);
    }
    ordered = sorted(cells, rows, columns);
    free(cells);
    return ordered;
}

/* An accepted answer has the same rows; one cut short (41) has some of them, and not all. */
bool database_agrees(database *self, const answer *with)
{
    if ((size_t)sqlite3_column_count(self->select) != with->columns)
        return false;
    size_t rows = count_rows(self, self->select);
    int64_t *mine = all_rows(self, rows), *others = sorted(with->cells, with->rows, with->columns);
    bool fits = with->number == NO_ROOM ? rows > with->rows : rows == with->rows;
    bool agrees = fits && are_among(others, with->rows, mine, rows);
    free(mine);
    free(others);
    return agrees;
}
