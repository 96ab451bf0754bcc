/* NULL with length 0, for each argument and all of them together: the outcome is that of the rules. */
#include "waldumre.h"

#include <stdio.h>
#include <string.h>

static int failed, calls;

static void held(const char *what, unsigned nulls, waldumre_outcome o, uint64_t number, uint64_t rows)
{
    calls++;
    if (o.number == number && o.rows == rows)
        return;
    printf("null: %s, arguments %x: %d with %d rows, not %d with %d\n", what, nulls, (int)o.number,
           (int)o.rows, (int)number, (int)rows);
    failed = 1;
}

/* One relation with one attribute and `rows` rows; all of it permitted and asked for. */
static void all_arguments(uint8_t rows)
{
    const uint8_t catalogue[] = {WALDUMRE_KIND_STORED, 1, rows, 0};
    const int32_t values[] = {5, 6};
    const uint8_t permits[] = {WALDUMRE_KIND_PERMIT, 0, 255, 255, WALDUMRE_KIND_TRUE};
    const uint8_t query[] = {WALDUMRE_KIND_RANGE, 0, 0, WALDUMRE_KIND_ATTRIBUTE, 0, 0, WALDUMRE_KIND_TRUE};
    uint8_t rewritten[9] = {0};
    int64_t answer[2] = {0};
    for (unsigned nulls = 0; nulls < 64; nulls++) {
        int c = nulls & 1, v = nulls >> 1 & 1, p = nulls >> 2 & 1, q = nulls >> 3 & 1, w = nulls >> 4 & 1,
            a = nulls >> 5 & 1;
        uint64_t given = v ? 0 : rows;
        uint64_t number = c                       ? WALDUMRE_CATALOGUE
                          : given != rows         ? WALDUMRE_VALUES
                          : q                     ? WALDUMRE_QUERY_FORM
                          : p                     ? WALDUMRE_NO_PERMIT
                          : w                     ? WALDUMRE_REWRITTEN_BUFFER
                          : a && rows > 0         ? WALDUMRE_ANSWER_BUFFER
                                                  : 0;
        waldumre_outcome o = waldumre_ask(
            c ? NULL : catalogue, c ? 0 : sizeof catalogue, v ? NULL : values, given, p ? NULL : permits,
            p ? 0 : sizeof permits, q ? NULL : query, q ? 0 : sizeof query, w ? NULL : rewritten,
            w ? 0 : sizeof rewritten, a ? NULL : answer, a ? 0 : 2);
        held("ask", nulls, o, number, number == 0 ? rows : 0);
        if (p || w)
            continue;
        o = waldumre_evaluate(c ? NULL : catalogue, c ? 0 : sizeof catalogue, v ? NULL : values, given,
                              q ? NULL : query, q ? 0 : sizeof query, a ? NULL : answer, a ? 0 : 2);
        held("evaluate", nulls, o, number, number == 0 ? rows : 0);
    }
}

/* The same by text: its buffer for the records is one argument more. */
static void by_text(uint8_t rows)
{
    const uint8_t catalogue[] = {WALDUMRE_KIND_STORED, 1, rows, 0};
    const int32_t values[] = {5, 6};
    const uint8_t permits[] = {WALDUMRE_KIND_PERMIT, 0, 255, 255, WALDUMRE_KIND_TRUE};
    static const uint8_t text[] = "RANGE R(X) RETRIEVE W:X.A";
    static const uint8_t names[] = "P\0R           Q\0\0A           ";
    enum { TEXT = sizeof text - 1, NAMES = sizeof names - 1, QUERY = 7 };
    uint8_t records[QUERY] = {0}, rewritten[9] = {0};
    int64_t answer[2] = {0};
    for (unsigned nulls = 0; nulls < 256; nulls++) {
        int c = nulls & 1, v = nulls >> 1 & 1, p = nulls >> 2 & 1, t = nulls >> 3 & 1, w = nulls >> 4 & 1,
            a = nulls >> 5 & 1, n = nulls >> 6 & 1, r = nulls >> 7 & 1;
        uint64_t given = v ? 0 : rows;
        uint64_t reading = t ? WALDUMRE_TEXT_FORM : n ? WALDUMRE_TEXT_NAMES : r ? WALDUMRE_RECORDS_BUFFER : 0;
        uint64_t number = reading                 ? reading
                          : c                     ? WALDUMRE_CATALOGUE
                          : given != rows         ? WALDUMRE_VALUES
                          : p                     ? WALDUMRE_NO_PERMIT
                          : w                     ? WALDUMRE_REWRITTEN_BUFFER
                          : a && rows > 0         ? WALDUMRE_ANSWER_BUFFER
                                                  : 0;
        waldumre_outcome o = waldumre_ask_text(
            c ? NULL : catalogue, c ? 0 : sizeof catalogue, v ? NULL : values, given, p ? NULL : permits,
            p ? 0 : sizeof permits, t ? NULL : text, t ? 0 : TEXT, n ? NULL : names, n ? 0 : NAMES,
            r ? NULL : records, r ? 0 : QUERY, w ? NULL : rewritten, w ? 0 : sizeof rewritten,
            a ? NULL : answer, a ? 0 : 2);
        held("ask_text", nulls, o, number, number == 0 ? rows : 0);
        waldumre_reading got = waldumre_read_query(t ? NULL : text, t ? 0 : TEXT, n ? NULL : names,
                                                   n ? 0 : NAMES, r ? NULL : records, r ? 0 : QUERY);
        o.number = got.number, o.rows = got.length;
        held("read_query", nulls, o, reading, reading == 0 ? QUERY : 0);
    }
}

int main(void)
{
    all_arguments(0);
    all_arguments(2);
    by_text(0);
    by_text(2);
    /* over a workspace no permit is needed: NULL is a good list */
    const uint8_t catalogue[] = {WALDUMRE_KIND_WORKSPACE, 1, 1, 0};
    const int32_t values[] = {-1};
    const uint8_t query[] = {WALDUMRE_KIND_RANGE, 0, 0, WALDUMRE_KIND_ATTRIBUTE, 0, 0, WALDUMRE_KIND_TRUE};
    uint8_t rewritten[7];
    int64_t answer[1] = {0};
    memset(rewritten, 0, sizeof rewritten);
    held("workspace", 4,
         waldumre_ask(catalogue, sizeof catalogue, values, 1, NULL, 0, query, sizeof query, rewritten,
                      sizeof rewritten, answer, 1),
         0, 1);
    printf("null: %d calls%s\n", calls, failed ? ", FAILED" : " as the rules say");
    return failed;
}
