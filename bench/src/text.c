/*
 * The reader of QUEL beside the tiny call: one call for a profiler, or times.
 *
 *     text once FOLDER CALL       CALL is ask (W8 of FOLDER), or the letter of a text
 *     text times FOLDER           CPU microseconds of each, medians
 *     text lengths                the bytes of each text
 */
#include "bench.h"
#include "waldumre.h"

#include <stdio.h>
#include <stdlib.h>
#include <string.h>

/* About 200 bytes each, as a store manager types them. */
static const char *const TEXTS[] = {
    /* A: an aggregate and parentheses */
    "RANGE OFFER(X) RETRIEVE W: X.NUMBER, X.PRICE: X.ARTICLE = 7 ^ (X.BRAND = BAKERY V X.BRAND = DAIRY) ^ "
    "X.PRICE < AVE(X.PRICE; X.ARTICLE = 7 ^ (X.BRAND = BAKERY V X.PRICE > 100)) V NOT (X.NUMBER # 12)",
    /* B: two ranges and SOME */
    "RANGE EMPLOYEE(X): DEPARTMENT(Y)\nRETRIEVE W: X.NAME, Y.FLOOR: X.DEPARTMENT = Y.DEPARTMENT ^ X.SALARY > 1000 ^ "
    "SOME Z IN OFFER (Z.BRAND = BAKERY ^ Z.PRICE < X.SALARY) ^ Y.FLOOR # 3 V X.NAME = BAKERY",
    /* C: comparisons alone */
    "RANGE OFFER(X) RETRIEVE OFFERS: X.NUMBER, X.PRICE, X.BRAND: X.ARTICLE = 7 ^ X.PRICE <= 250 ^ X.BRAND = BAKERY V "
    "X.ARTICLE = 8 ^ X.PRICE < 300 ^ X.BRAND # DAIRY V X.NUMBER >= 500 ^ X.NUMBER < 10000",
    /* D: RANGE symbols that have no record */
    "RANGE EMPLOYEE(X): OFFER(Y) RETRIEVE W: AVE(X.SALARY; X.DEPARTMENT = 4 ^ X.NAME # 3 V X.SALARY > 1200), "
    "COUNT(Y.NUMBER; Y.PRICE <= 250 ^ Y.BRAND = BAKERY ^ (Y.ARTICLE < 8 V Y.ARTICLE > 800) ^ Y.NUMBER >= 70)",
};
enum { COUNT = sizeof TEXTS / sizeof *TEXTS, NAME = 12 };

static uint8_t list[1024];
static size_t list_length;

/* One record of the name list: its kind, the first two bytes of its body (those after them are 0) and the name. */
static void name(uint8_t kind, uint8_t first, uint8_t second, const char *word)
{
    size_t body = kind == 80 ? 1 : kind == 81 ? 2 : 4;
    uint8_t *to = list + list_length;
    memset(to, 0, 1 + body);
    to[0] = kind;
    to[1] = first;
    if (body > 1)
        to[2] = second;
    memset(to + 1 + body, ' ', NAME);
    memcpy(to + 1 + body, word, strlen(word));
    list_length += 1 + body + NAME;
}

static void make_list(void)
{
    name(80, 0, 0, "EMPLOYEE");
    name(80, 1, 0, "DEPARTMENT");
    name(80, 2, 0, "OFFER");
    name(81, 0, 0, "NAME");
    name(81, 0, 1, "DEPARTMENT");
    name(81, 0, 2, "SALARY");
    name(81, 1, 0, "DEPARTMENT");
    name(81, 1, 1, "FLOOR");
    name(81, 2, 0, "ARTICLE");
    name(81, 2, 1, "PRICE");
    name(81, 2, 2, "BRAND");
    name(81, 2, 3, "NUMBER");
    name(82, 17, 0, "BAKERY");
    name(82, 18, 0, "DAIRY");
}

static uint8_t records[WALDUMRE_RECORDS_BYTES];

/* The profiler counts inside this function. */
__attribute__((noinline)) void measured(void (*call)(void *), void *self);
void measured(void (*call)(void *), void *self) { call(self); }

static void read_call(void *self)
{
    const char *text = *(const char *const *)self;
    waldumre_reading r = waldumre_read_query((const uint8_t *)text, strlen(text), list, list_length, records, sizeof records);
    if (r.number != 0)
        fail("text", "a text is refused");
}

int main(int count, char **words)
{
    static engine e;
    make_list();
    if (count == 2 && strcmp(words[1], "lengths") == 0) {
        for (size_t i = 0; i < COUNT; i++)
            printf("%c %zu\n", (char)('A' + (int)i), strlen(TEXTS[i]));
        return 0;
    }
    if (count < 3 || (strcmp(words[1], "once") == 0) != (count == 4)) {
        fprintf(stderr, "text once FOLDER CALL | text times FOLDER | text lengths\n");
        return 2;
    }
    workload w = load(words[2], "W8");
    e.from = &w;
    if (count == 4) {
        if (strcmp(words[3], "ask") == 0)
            measured(engine_call, &e);
        else
            measured(read_call, (void *)&TEXTS[words[3][0] - 'A']);
        return 0;
    }
    static contender all[1 + COUNT];
    all[0] = (contender){.call = engine_call, .self = &e};
    for (size_t i = 0; i < COUNT; i++)
        all[1 + i] = (contender){.call = read_call, .self = (void *)&TEXTS[i]};
    for (size_t i = 0; i < 1 + COUNT; i++) {
        double start = cpu_seconds();
        all[i].call(all[i].self);
        all[i].once = cpu_seconds() - start;
    }
    measure(all, 1 + COUNT, 5);
    printf("ask %.3f\n", all[0].median * 1e6);
    for (size_t i = 0; i < COUNT; i++)
        printf("%c %.3f\n", (char)('A' + (int)i), all[1 + i].median * 1e6);
    return 0;
}
