/* Reads a workload's folder. */
#include "bench.h"

#include <stdio.h>
#include <stdlib.h>
#include <string.h>

void fail(const char *workload, const char *message)
{
    fprintf(stderr, "%s: %s\n", workload, message);
    exit(1);
}

static void *room(size_t bytes)
{
    void *new = malloc(bytes);
    if (new == NULL)
        fail("bench", "no memory");
    return new;
}

/* A missing file counts as empty. */
static file read_file(const char *folder, const char *name, const char *part)
{
    enum { MOST = 1 << 18 };
    char path[4096];
    file read = {room(MOST + 1), 0};
    if (snprintf(path, sizeof path, "%s/%s/%s", folder, name, part) >= (int)sizeof path)
        fail(name, "path too long");
    FILE *stream = fopen(path, "rb");
    if (stream != NULL) {
        read.length = fread(read.bytes, 1, MOST, stream);
        fclose(stream);
    }
    read.bytes[read.length] = 0;
    return read;
}

static int32_t number_at(const uint8_t *bytes)
{
    uint32_t bits = bytes[0] | (uint32_t)bytes[1] << 8 | (uint32_t)bytes[2] << 16 |
                    (uint32_t)bytes[3] << 24;
    return (int32_t)bits;
}

static void read_values(workload *to, const char *folder)
{
    file bytes = read_file(folder, to->name, "values");
    to->values_length = bytes.length / 4;
    to->values = room((to->values_length + 1) * sizeof *to->values);
    for (size_t i = 0; i < to->values_length; i++)
        to->values[i] = number_at(bytes.bytes + 4 * i);
    free(bytes.bytes);
}

/* Where each relation starts among the values. */
static void find_relations(workload *in)
{
    const int32_t *next = in->values;
    in->relations = in->catalogue.length / 4;
    if (in->relations == 0 || in->relations > MOST_RELATIONS)
        fail(in->name, "no catalogue");
    for (size_t i = 0; i < in->relations; i++) {
        const uint8_t *record = in->catalogue.bytes + 4 * i;
        relation *at = &in->relation[i];
        at->columns = record[1];
        at->rows = record[2] | (size_t)record[3] << 8;
        at->first = next;
        next += at->columns * at->rows;
    }
    if (next != in->values + in->values_length)
        fail(in->name, "values do not fit the catalogue");
}

static size_t read_cells(const char *folder, const char *name)
{
    file text = read_file(folder, name, "cells");
    size_t cells = text.length == 0 ? USUAL_CELLS : strtoul((char *)text.bytes, NULL, 10);
    free(text.bytes);
    if (cells > MOST_CELLS)
        fail(name, "too many cells");
    return cells;
}

/* The file: how often, how many keys, then the places. */
static void read_asked(workload *to, const char *folder)
{
    file text = read_file(folder, to->name, "asked");
    char *at = (char *)text.bytes;
    to->times = 1;
    if (text.length > 0) {
        to->times = strtoul(at, &at, 10);
        to->keys = strtoul(at, &at, 10);
        for (size_t place; (place = strtoul(at, &at, 10)) != 0;) {
            if (to->places == MOST_PLACES || place + 4 > to->question.length)
                fail(to->name, "asked: places");
            to->place[to->places++] = place;
        }
    }
    free(text.bytes);
}

int32_t asked_key(const workload *of, size_t i)
{
    return (int32_t)((7 + 37 * (of->times - 1 - i)) % of->keys);
}

void set_key(workload *of, int32_t key)
{
    for (size_t i = 0; i < of->places; i++)
        for (size_t b = 0; b < 4; b++)
            of->question.bytes[of->place[i] + b] = (uint8_t)((uint32_t)key >> 8 * b);
}

/* The line "NAME number" of an answer's text, or 0. */
static uint64_t line_of(const char *text, const char *name)
{
    const char *at = strstr(text, name);
    return at == NULL ? 0 : strtoull(at + strlen(name), NULL, 10);
}

/* The rows follow the line of the question's bytes. */
static char *rows_of(char *text)
{
    char *at = strstr(text, "question ");
    for (int line = 0; at != NULL && line < 2; line++) {
        at = strchr(at, '\n');
        at = at == NULL ? NULL : at + 1;
    }
    return at;
}

bool read_expected(const workload *from, answer *to)
{
    if (strncmp((char *)from->expected.bytes, "rows by the loop", 16) == 0)
        return false;
    char *text = (char *)from->expected.bytes, *at = rows_of(text);
    to->number = line_of(text, "refused ");
    to->rows = line_of(text, "rows ");
    to->columns = line_of(text, "columns ");
    if (at == NULL || to->rows * to->columns > MOST_CELLS)
        fail(from->name, "no expected answer");
    for (size_t i = 0; i < to->rows * to->columns; i++)
        to->cells[i] = strtoll(at, &at, 10);
    return true;
}

workload load(const char *folder, const char *name)
{
    workload loaded = {0};
    snprintf(loaded.name, sizeof loaded.name, "%s", name);
    loaded.catalogue = read_file(folder, name, "catalogue");
    loaded.permits = read_file(folder, name, "permits");
    loaded.question = read_file(folder, name, "question");
    loaded.expected = read_file(folder, name, "expected");
    loaded.schema = read_file(folder, name, "schema.sql");
    loaded.select = read_file(folder, name, "sqlite.sql");
    loaded.index = read_file(folder, name, "index.sql");
    loaded.cells = read_cells(folder, name);
    read_values(&loaded, folder);
    find_relations(&loaded);
    read_asked(&loaded, folder);
    return loaded;
}

void unload(workload *loaded)
{
    free(loaded->catalogue.bytes);
    free(loaded->permits.bytes);
    free(loaded->question.bytes);
    free(loaded->expected.bytes);
    free(loaded->schema.bytes);
    free(loaded->select.bytes);
    free(loaded->index.bytes);
    free(loaded->values);
}

void shorten(workload *loaded, size_t rows)
{
    if (loaded->relations != 1 || loaded->relation[0].rows < rows)
        fail(loaded->name, "cannot be shortened");
    loaded->catalogue.bytes[2] = (uint8_t)rows;
    loaded->catalogue.bytes[3] = (uint8_t)(rows >> 8);
    loaded->values_length = rows * loaded->relation[0].columns;
    find_relations(loaded);
}
