/* The engine through its C interface. */
#include "bench.h"
#include "waldumre.h"

#include <inttypes.h>
#include <setjmp.h>
#include <signal.h>
#include <stdio.h>
#include <stdlib.h>
#include <string.h>
#include <sys/time.h>

_Static_assert(REWRITTEN_BYTES == WALDUMRE_REWRITTEN_BYTES, "the header's number");

static void ask_once(engine *e)
{
    const workload *w = e->from;
    size_t used = e->to.rows * e->to.columns;
    waldumre_outcome outcome =
        waldumre_ask(w->catalogue.bytes, w->catalogue.length, w->values, w->values_length,
                     w->permits.bytes, w->permits.length, w->question.bytes, w->question.length,
                     e->rewritten, sizeof e->rewritten, e->to.cells + used, w->cells - used);
    e->to.number = outcome.number;
    e->to.rows += outcome.rows;
    e->to.columns = outcome.columns;
    e->length = outcome.length;
}

/* Questions in a row: their answers one after the other. */
void engine_call(void *self)
{
    engine *e = self;
    e->to.rows = e->to.columns = 0;
    for (size_t i = 0; i < e->from->times; i++) {
        if (e->from->places > 0)
            set_key(e->from, asked_key(e->from, i));
        ask_once(e);
    }
}

static sigjmp_buf way_out;

static void leave(int signal)
{
    (void)signal;
    siglongjmp(way_out, 1);
}

static void set_alarm(double seconds)
{
    struct itimerval timer = {{0, 0}, {0, 0}};
    timer.it_value.tv_sec = (time_t)seconds;
    timer.it_value.tv_usec = (suseconds_t)((seconds - (double)(time_t)seconds) * 1e6);
    setitimer(ITIMER_PROF, &timer, NULL);
}

/* The library holds no memory and no lock, so a call can be left in the middle. */
bool engine_first(engine *self, double limit, double *seconds)
{
    struct sigaction action = {0};
    action.sa_handler = leave;
    sigaction(SIGPROF, &action, NULL);
    if (sigsetjmp(way_out, 1) != 0)
        return false;
    set_alarm(limit);
    double start = cpu_seconds();
    engine_call(self);
    *seconds = cpu_seconds() - start;
    set_alarm(0);
    return true;
}

/* Without the rows if those are left to the loop. */
static void print_answer(FILE *to, const engine *e, bool by_loop)
{
    if (e->to.number != 0)
        fprintf(to, "refused %" PRIu64 "\n", e->to.number);
    if (e->to.number != 0 && e->to.number != WALDUMRE_ANSWER_BUFFER)
        return;
    if (by_loop)
        fprintf(to, "rows by the loop\n");
    else
        fprintf(to, "rows %zu\n", e->to.rows);
    fprintf(to, "columns %zu\nquestion %zu\n", e->to.columns, e->length);
    for (size_t i = 0; i < e->length; i++)
        fprintf(to, "%s%d", i == 0 ? "" : " ", e->rewritten[i]);
    fprintf(to, "\n");
    for (size_t i = 0; !by_loop && i < e->to.rows * e->to.columns; i++)
        fprintf(to, "%" PRId64 "%c", e->to.cells[i], (i + 1) % e->to.columns == 0 ? '\n' : ' ');
}

bool engine_as_expected(const engine *self)
{
    char *text = NULL;
    size_t length = 0;
    FILE *to = open_memstream(&text, &length);
    if (to == NULL)
        fail(self->from->name, "no memory");
    const file *expected = &self->from->expected;
    print_answer(to, self, strncmp((char *)expected->bytes, "rows by the loop", 16) == 0);
    fclose(to);
    bool same = length == expected->length && memcmp(text, expected->bytes, length) == 0;
    free(text);
    return same;
}
