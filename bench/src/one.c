/*
 * The engine alone, for a profiler or a quick look.
 *
 *     one FOLDER WORKLOAD [SECONDS]
 *
 * Compares the answer, then prints the median of the microseconds a question takes. SECONDS is how long
 * it goes on measuring, 1 if not said.
 */
#include "bench.h"

#include <stdio.h>
#include <stdlib.h>

int main(int count, char **words)
{
    static engine e;
    static contender c;
    const double limit = 60;
    if (count < 3) {
        fprintf(stderr, "one FOLDER WORKLOAD [SECONDS]\n");
        return 2;
    }
    workload w = load(words[1], words[2]);
    e.from = &w;
    if (!engine_first(&e, limit, &c.once))
        fail(w.name, "slow");
    if (!engine_as_expected(&e))
        fail(w.name, "the engine's answer is not the expected one");
    c.call = engine_call;
    c.self = &e;
    measure(&c, 1, count > 3 ? strtod(words[3], NULL) : 1);
    printf("%s %.4g\n", w.name, c.median * 1e6 / (double)w.times);
    unload(&w);
    return 0;
}
