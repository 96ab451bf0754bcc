/*
 * One call of the engine, for a profiler that counts what waldumre_ask does; its answer is then held
 * to the loop by hand.
 *
 *     growth FOLDER WORKLOAD LIMIT
 *
 * Exits with 0 if they agree, 1 if not, 3 if the call took over LIMIT seconds of CPU time.
 */
#include "bench.h"

#include <stdio.h>
#include <stdlib.h>
#include <string.h>

int main(int count, char **words)
{
    static engine e;
    static loop l;
    double seconds;
    if (count != 4) {
        fprintf(stderr, "growth FOLDER WORKLOAD LIMIT\n");
        return 2;
    }
    workload w = load(words[1], words[2]);
    e.from = &w;
    if (!loop_open(&l, &w))
        fail(w.name, "no loop by hand");
    if (!engine_first(&e, strtod(words[3], NULL), &seconds))
        return 3;
    loop_call(&l);
    size_t bytes = l.to.rows * l.to.columns * sizeof *l.to.cells;
    if (e.to.number != l.to.number || e.to.rows != l.to.rows || e.to.columns != l.to.columns ||
        memcmp(e.to.cells, l.to.cells, bytes) != 0)
        fail(w.name, "the engine's rows differ");
    unload(&w);
    return 0;
}
