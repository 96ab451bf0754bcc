/* The workloads N1 to N10 by hand, and those of growth.sh. As loops.c. */
#include "loop.h"

typedef struct {
    int32_t label, article, price, store;
} label;
typedef struct {
    int32_t label, article, store;
} few_label;
typedef struct {
    int32_t article, number, price, brand;
} offer;
typedef struct {
    int32_t article, rank, number, price, brand, region, stock;
} wide_offer;
typedef struct {
    int32_t number, region;
} release;

static bool seen(const offer *y)
{
    return y->brand == 12 || y->brand <= 6;
}

static bool some_cheaper(const workload *w, const chain *offers, const label *x)
{
    MEET(offers, offer, y, 1, x->article)
        if (y->article == x->article && y->price < x->price)
            return true;
    return false;
}

static void labels_with(const workload *w, answer *to, bool wanted)
{
    chain offers;
    CHAIN(&offers, offer, y, 1, y->article, seen(y));
    EACH(label, x, 0)
        if (x->store <= 11 && some_cheaper(w, &offers, x) == wanted && !keep1(w, to, x->label))
            return;
}

void n1(const workload *w, answer *to)
{
    labels_with(w, to, true);
}

void n3(const workload *w, answer *to)
{
    labels_with(w, to, false);
}

typedef struct {
    int32_t article, number, brand;
} n2_offer;

static bool n2_some_release(const workload *w, const chain *releases, const n2_offer *y)
{
    MEET(releases, release, r, 2, y->number)
        if (r->number == y->number)
            return true;
    return false;
}

/* From the inside out: the offers with a release, then the articles with such an offer. */
void n2(const workload *w, answer *to)
{
    chain releases, offers;
    CHAIN(&releases, release, r, 2, r->number, r->region > 3 && r->region <= 6);
    CHAIN(&offers, n2_offer, y, 1, y->article, y->brand != 12 && n2_some_release(w, &releases, y));
    EACH(few_label, x, 0) {
        bool some = false;
        if (x->store <= 11)
            MEET(&offers, n2_offer, y, 1, x->article)
                some = some || y->article == x->article;
        if (some && !keep1(w, to, x->label))
            return;
    }
}

typedef struct {
    int64_t count, prices, stocks;
    int32_t least_price, most_price, most_stock;
} summary;

/* All aggregates in one pass; a brand then picks its permit. */
void n4(const workload *w, answer *to)
{
    summary of[8] = {{0, 0, 0, 0, 0, 0}};
    EACH(wide_offer, e, 0) {
        if (e->region >= 8)
            continue;
        summary *s = &of[e->region];
        s->least_price = s->count == 0 || e->price < s->least_price ? e->price : s->least_price;
        s->most_price = s->count == 0 || e->price > s->most_price ? e->price : s->most_price;
        s->most_stock = s->count == 0 || e->stock > s->most_stock ? e->stock : s->most_stock;
        s->prices += e->price;
        s->stocks += e->stock;
        s->count++;
    }
    EACH(wide_offer, x, 0) {
        bool permitted = false;
        switch (x->brand) {
        case 0: permitted = x->price * of[0].count < of[0].prices; break;
        case 2: permitted = x->price >= of[1].most_price; break;
        case 4: permitted = x->price <= of[2].least_price; break;
        case 6: permitted = x->price * of[3].count > of[3].prices; break;
        case 8: permitted = x->stock <= of[4].count; break;
        case 10: permitted = x->stock * of[5].count > of[5].stocks; break;
        case 12: permitted = x->stock >= of[6].most_stock; break;
        case 14: permitted = x->stock * of[7].count < of[7].stocks; break;
        default: break;
        }
        if (permitted && x->rank > 1 && !keep2(w, to, x->number, x->price))
            return;
    }
}

enum { N5_VALUES = 2048 };
typedef struct {
    int32_t most_price[32];                    /* a brand's highest band */
    bool stock[N5_VALUES];                     /* permitted */
    bool excluded[7][N5_VALUES];               /* by attribute */
} n5_plan;

static int32_t constant(const uint8_t *at)
{
    return (int32_t)(at[1] | (uint32_t)at[2] << 8 | (uint32_t)at[3] << 16 | (uint32_t)at[4] << 24);
}

/* A permit is an OR of bands, AND brand = b, price <= p, and of one stock = s. */
static void n5_permits(const workload *w, n5_plan *plan)
{
    const uint8_t *at = w->permits.bytes, *end = at + w->permits.length;
    while (at < end)
        switch (*at) {
        case 64: at += 4; break;
        case 19: {
            int32_t brand = constant(at + 6), price = constant(at + 16);
            if (price > plan->most_price[brand])
                plan->most_price[brand] = price;
            at += 21;
            break;
        }
        case 21:
            plan->stock[constant(at + 5)] = true;
            at += 10;
            break;
        default: at++;
        }
}

/* Of the question: what X must not be. The aggregates are known by heart. */
static void n5_question(const workload *w, n5_plan *plan)
{
    const uint8_t *at = w->question.bytes + 6, *end = w->question.bytes + w->question.length;
    while (at < end)
        if (*at != 21)
            at++;
        else if (at[5] == 34)
            at += 20;
        else {
            plan->excluded[at[4]][constant(at + 5)] = true;
            at += 10;
        }
}

static bool n5_seen(const n5_plan *plan, const wide_offer *x)
{
    return x->price <= plan->most_price[x->brand] || plan->stock[x->stock];
}

void n5(const workload *w, answer *to)
{
    n5_plan plan;
    const wide_offer *rows[1024];
    size_t count = 0;
    int64_t most[5] = {0}, sum[5] = {0}, number[5] = {0}; /* of the rows of rank at most k */
    memset(&plan, 0, sizeof plan);
    n5_permits(w, &plan);
    n5_question(w, &plan);
    EACH(wide_offer, x, 0) {
        if (!n5_seen(&plan, x))
            continue;
        rows[count++] = x;
        for (int k = x->rank; k <= 4; k++) {
            most[k] = x->price > most[k] ? x->price : most[k];
            sum[k] += x->price;
            number[k]++;
        }
    }
    for (size_t i = 0; i < count; i++) {
        const wide_offer *x = rows[i];
        bool wanted = x->price <= most[2] && x->price <= sum[3] && x->price <= most[4] &&
                      x->price <= sum[1] && x->price <= most[2] && x->price != number[3] &&
                      x->price <= sum[4] && !plan.excluded[0][x->article] &&
                      !plan.excluded[2][x->number] && !plan.excluded[3][x->price] &&
                      !plan.excluded[6][x->stock];
        if (wanted && !keep1(w, to, x->number))
            return;
    }
}

typedef struct {
    int32_t from, to;
} edge; /* two columns: of OFFER number and article, of the others the key and what it leads to */

void n6(const workload *w, answer *to)
{
    chain packs, pallets, stores;
    int32_t least = 1000 + (int32_t)size(w, 0) / 4;
    CHAIN(&packs, edge, p, 1, p->from, p->to != 3);
    CHAIN(&pallets, edge, l, 2, l->from, true);
    CHAIN(&stores, edge, s, 3, s->from, s->to <= 11);
    EACH(edge, x, 0)
        if (x->from > least)
            MEET(&packs, edge, p, 1, x->to)
                if (p->from == x->to)
                    MEET(&pallets, edge, l, 2, p->to)
                        if (l->from == p->to)
                            MEET(&stores, edge, s, 3, l->to)
                                if (s->from == l->to && !keep2(w, to, x->from, s->to))
                                    return;
}

typedef struct {
    int32_t number, brand, stock;
} n7_offer;
typedef struct {
    int32_t id, kind;
} zone;

void n7(const workload *w, answer *to)
{
    EACH(n7_offer, x, 0)
        if (x->stock >= 0)
            EACH(zone, z, 1)
                if (z->kind != 9 && z->kind <= x->number && !keep2(w, to, x->number, z->id))
                    return;
}

typedef struct {
    int32_t article, rank, number, price;
} n8_offer;

/* A few offers of the article, each looked up in one pass over the releases. */
void n8(const workload *w, answer *to)
{
    const n8_offer *rows[1024];
    bool released[1024] = {false};
    size_t count = 0;
    int32_t least = 0;
    bool some = false;
    EACH(n8_offer, x, 0)
        if (x->article == 7)
            rows[count++] = x;
    EACH(release, r, 1)
        if (r->region == 2)
            for (size_t i = 0; i < count; i++)
                released[i] = released[i] || rows[i]->number == r->number;
    for (size_t i = 0; i < count; i++)
        if (released[i] && (!some || rows[i]->rank < least)) {
            least = rows[i]->rank;
            some = true;
        }
    for (size_t i = 0; i < count; i++)
        if (released[i] && rows[i]->rank == least && !keep2(w, to, rows[i]->number, rows[i]->price))
            return;
}

typedef struct {
    int32_t number, first, second, brand;
} n9_offer;

/* Two chains, walked side by side so that offers come in their order, each once. */
void n9(const workload *w, answer *to)
{
    chain firsts, seconds;
    const n9_offer *offers = table(w, 1);
    CHAIN(&firsts, n9_offer, y, 1, y->first, y->brand <= 11);
    CHAIN(&seconds, n9_offer, y, 1, y->second, y->brand <= 11);
    EACH(few_label, x, 0) {
        if (x->store > 11)
            continue;
        size_t b = bucket(x->article), f = firsts.head[b], s = seconds.head[b];
        while (f != 0 || s != 0) {
            size_t at = s == 0 || (f != 0 && f <= s) ? f : s;
            const n9_offer *y = &offers[at - 1];
            f = at == f ? firsts.next[f] : f;
            s = at == s ? seconds.next[s] : s;
            if ((x->article == y->first || x->article == y->second) &&
                !keep2(w, to, x->label, y->number))
                return;
        }
    }
}

/* One chain for all questions; each asks for the permitted offers of best rank of its article. */
void n10(const workload *w, answer *to)
{
    chain offers;
    CHAIN(&offers, wide_offer, x, 0, x->article, x->region == 2 || x->brand == 3);
    for (size_t i = 0; i < w->times; i++) {
        int32_t article = asked_key(w, i), least = INT32_MAX;
        keep_anew();
        MEET(&offers, wide_offer, y, 0, article)
            if (y->article == article && y->rank < least)
                least = y->rank;
        MEET(&offers, wide_offer, x, 0, article) {
            const int64_t row[3] = {x->article, x->number, x->price};
            if (x->article == article && x->rank == least && !keep(w, to, 3, row))
                return;
        }
    }
}

void g1(const workload *w, answer *to)
{
    chain offers;
    CHAIN(&offers, offer, y, 1, y->article, seen(y));
    EACH(label, x, 0)
        if (x->store <= 11)
            MEET(&offers, offer, y, 1, x->article)
                if (y->article == x->article && y->price < x->price &&
                    !keep2(w, to, x->label, y->number))
                    return;
}

void g2(const workload *w, answer *to)
{
    chain offers;
    int64_t sum = 0;
    CHAIN(&offers, offer, y, 1, y->article, seen(y));
    EACH(label, x, 0)
        if (x->store <= 11 && some_cheaper(w, &offers, x))
            sum += x->price;
    keep1(w, to, sum);
}

void g3(const workload *w, answer *to)
{
    EACH(offer, x, 0)
        if (!keep2(w, to, x->number, x->price))
            return;
}

void g4(const workload *w, answer *to)
{
    chain releases;
    CHAIN(&releases, release, r, 1, r->number, r->region == 2);
    EACH(n8_offer, x, 0) {
        bool released = false;
        if (x->rank <= 2)
            MEET(&releases, release, r, 1, x->number)
                released = released || r->number == x->number;
        if (released && !keep1(w, to, x->number))
            return;
    }
}
