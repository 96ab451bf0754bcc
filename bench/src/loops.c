/*
 * The same jobs by hand, as one would write them for one question: the plan is fixed, rows that a
 * guard lets through are found once, equal keys are met by chains, aggregates are computed once,
 * equal answer rows are found by hashing, and the first meeting comes first.
 */
#include "loop.h"

typedef struct {
    uint32_t call, row; /* of the call that put it there; other slots are empty */
} slot;
enum { SLOTS = 1 << 16 }; /* over twice the rows that ever fit */
static slot slots[SLOTS];
static uint32_t this_call;

static inline size_t slot_of(size_t columns, const int64_t *row)
{
    uint64_t mixed = 0;
    for (size_t c = 0; c < columns; c++)
        mixed = (mixed ^ (uint64_t)row[c]) * 0x9E3779B97F4A7C15u;
    return mixed >> 48;
}

bool keep(const workload *w, answer *to, size_t columns, const int64_t *row)
{
    size_t at = slot_of(columns, row);
    for (; slots[at].call == this_call; at = (at + 1) % SLOTS)
        if (memcmp(to->cells + slots[at].row * columns, row, columns * sizeof *row) == 0)
            return true;
    if ((to->rows + 1) * columns > w->cells) {
        to->number = 41;
        return false;
    }
    slots[at] = (slot){this_call, (uint32_t)to->rows};
    memcpy(to->cells + to->rows * columns, row, columns * sizeof *row);
    to->rows++;
    return true;
}

void keep_anew(void)
{
    this_call++;
}

typedef struct {
    int32_t article, rank, number, price, brand, region, stock;
} offer;
typedef struct {
    int32_t name, dept, salary, manager;
} employee;
typedef struct {
    int32_t label, article, price, store;
} label;
typedef struct {
    int32_t article, number, price, brand;
} short_offer;
typedef struct {
    int32_t id, tier, owner;
} brand;
typedef struct {
    int32_t id, region, tier, size;
} store;
typedef struct {
    int32_t id, kind, minprice, store;
} zone;
typedef struct {
    int32_t number, region, brand, rank, stock;
} b1_offer;
typedef struct {
    int32_t dept, floor, head;
} department;
typedef struct {
    int32_t number, brand, region, price, stock;
} b5_offer;
typedef struct {
    int32_t id, tier, minprice;
} b5_zone;

/* One pass: the rows of the best rank so far. */
static void w1(const workload *w, answer *to)
{
    const offer *best[1024];
    size_t count = 0;
    EACH(offer, x, 0)
        if (x->article == 7 && (x->region == 2 || x->brand == 3)) {
            if (count > 0 && x->rank < best[0]->rank)
                count = 0;
            if (count == 0 || x->rank == best[0]->rank)
                best[count++] = x;
        }
    for (size_t i = 0; i < count; i++)
        if (!keep2(w, to, best[i]->number, best[i]->price))
            return;
}

static bool w2_seen(const employee *x)
{
    return x->dept == 3 || x->dept <= 12;
}

static void w2(const workload *w, answer *to)
{
    int64_t sum = 0, count = 0;
    EACH(employee, y, 0)
        if (w2_seen(y)) {
            sum += y->salary;
            count++;
        }
    if (count == 0)
        count = 1;
    EACH(employee, x, 0)
        if (x->salary * count > sum && w2_seen(x) && !keep2(w, to, x->name, x->salary))
            return;
}

static bool w3_seen(const short_offer *y)
{
    return y->brand == 12 || y->brand <= 6;
}

static void w3(const workload *w, answer *to)
{
    chain offers;
    CHAIN(&offers, short_offer, y, 1, y->article, w3_seen(y));
    EACH(label, x, 0)
        if (x->store <= 3)
            MEET(&offers, short_offer, y, 1, x->article)
                if (x->article == y->article && y->price < x->price &&
                    !keep2(w, to, x->label, y->number))
                    return;
}

/* A handful of stores a region, so the tiers are compared one by one. */
static void w5(const workload *w, answer *to)
{
    chain brands, stores;
    CHAIN(&brands, brand, b, 1, b->id, b->owner != 3);
    CHAIN(&stores, store, s, 2, s->region, s->size >= 20);
    EACH(offer, x, 0)
        if (x->stock > 99)
            MEET(&brands, brand, b, 1, x->brand)
                if (x->brand == b->id)
                    MEET(&stores, store, s, 2, x->region)
                        if (x->region == s->region && b->tier == s->tier &&
                            !keep2(w, to, x->number, s->id))
                            return;
}

static void w7(const workload *w, answer *to)
{
    const zone *seen[1024];
    size_t count = 0;
    EACH(zone, z, 1)
        if (z->store != 9)
            seen[count++] = z;
    EACH(offer, x, 0)
        if (x->stock > 99)
            for (size_t i = 0; i < count; i++)
                if (x->price >= seen[i]->minprice && !keep2(w, to, x->brand, seen[i]->kind))
                    return;
}

static void w8(const workload *w, answer *to)
{
    EACH(employee, x, 0)
        if (x->name == 1 && !keep1(w, to, x->salary))
            return;
}

static bool b1_some_store(const workload *w, const chain *stores, const b1_offer *x)
{
    MEET(stores, store, s, 1, x->region)
        if (s->region == x->region && s->tier == x->rank)
            return true;
    return false;
}

static bool b1_some_brand(const workload *w, const chain *brands, const b1_offer *x)
{
    MEET(brands, brand, b, 2, x->brand)
        if (b->id == x->brand)
            return true;
    return false;
}

static void b1(const workload *w, answer *to)
{
    chain stores, brands;
    CHAIN(&stores, store, s, 1, s->region, s->size >= 20);
    CHAIN(&brands, brand, b, 2, b->id, b->tier > 2 && b->owner != 3);
    EACH(b1_offer, x, 0)
        if (x->stock > 30 && b1_some_store(w, &stores, x) && b1_some_brand(w, &brands, x) &&
            !keep1(w, to, x->number))
            return;
}

/* Two chains, walked side by side so that offers come in their order, each once. */
static void b2(const workload *w, answer *to)
{
    chain articles, prices;
    const short_offer *offers = table(w, 1);
    CHAIN(&articles, short_offer, y, 1, y->article, w3_seen(y));
    CHAIN(&prices, short_offer, y, 1, y->price, w3_seen(y));
    EACH(label, x, 0) {
        if (x->store > 3)
            continue;
        size_t a = articles.head[bucket(x->article)], p = prices.head[bucket(x->price)];
        while (a != 0 || p != 0) {
            size_t at = p == 0 || (a != 0 && a <= p) ? a : p;
            const short_offer *y = &offers[at - 1];
            a = at == a ? articles.next[a] : a;
            p = at == p ? prices.next[p] : p;
            if ((x->article == y->article || x->price == y->price) &&
                !keep2(w, to, x->label, y->number))
                return;
        }
    }
}

typedef struct {
    int64_t sum, count;
} average;

static bool b3_all(const employee *x)
{
    return x->dept <= 12;
}

/* The permit over NAME and DEPT alone. */
static bool b3_short(const employee *x)
{
    return b3_all(x) || x->manager == 2;
}

static void add(average *to, int32_t value)
{
    to->sum += value;
    to->count++;
}

static int64_t divisor(const average *of)
{
    return of->count == 0 ? 1 : of->count;
}

static void b3(const workload *w, answer *to)
{
    average salaries = {0, 0}, depts = {0, 0}, high = {0, 0}, low = {0, 0};
    int64_t count = 0, most = 0;
    bool some = false;
    EACH(employee, y, 0) {
        if (b3_all(y))
            add(&salaries, y->salary);
        if (b3_short(y))
            add(&depts, y->dept);
        if (b3_short(y) && y->dept == 3)
            count++;
        if (b3_all(y) && y->dept < 5 && (!some || y->salary > most)) {
            most = y->salary;
            some = true;
        }
    }
    EACH(employee, y, 0) {
        if (b3_all(y) && y->salary * divisor(&salaries) > salaries.sum)
            add(&high, y->salary);
        if (b3_all(y) && y->dept * divisor(&depts) <= depts.sum)
            add(&low, y->salary);
    }
    EACH(employee, x, 0) {
        /* halves away from zero; salaries are positive */
        const int64_t mean = (2 * high.sum + divisor(&high)) / (2 * divisor(&high));
        const int64_t row[5] = {x->name, count, salaries.sum, most, mean};
        if (b3_all(x) && x->salary * divisor(&low) >= low.sum && !keep(w, to, 5, row))
            return;
    }
}

static bool b4_seen(const workload *w, const chain *departments, const employee *x, int32_t least)
{
    if (x->salary <= least)
        return true;
    MEET(departments, department, d, 1, x->dept)
        if (d->dept == x->dept)
            return true;
    return false;
}

static void b4(const workload *w, answer *to)
{
    chain departments, names;
    int32_t least = 0;
    bool some = false;
    EACH(employee, e, 0)
        if (e->dept == 3 && (!some || e->salary < least)) {
            least = e->salary;
            some = true;
        }
    CHAIN(&departments, department, d, 1, d->dept, d->floor == 2);
    CHAIN(&names, employee, y, 0, y->name, b4_seen(w, &departments, y, least));
    EACH(employee, x, 0)
        if (b4_seen(w, &departments, x, least))
            MEET(&names, employee, y, 0, x->manager)
                if (x->manager == y->name && x->salary > y->salary &&
                    !keep2(w, to, x->name, y->name))
                    return;
}

static bool b5_zones(const workload *w, const chain *zones, answer *to, const b5_offer *x,
                     const store *s)
{
    MEET(zones, b5_zone, z, 3, s->tier) {
        const int64_t row[3] = {x->number, s->id, z->id};
        if (s->tier == z->tier && x->price >= z->minprice && !keep(w, to, 3, row))
            return false;
    }
    return true;
}

static void b5(const workload *w, answer *to)
{
    chain brands, stores, zones;
    CHAIN(&brands, brand, b, 1, b->id, b->owner != 3);
    CHAIN(&stores, store, s, 2, s->region, s->size >= 20);
    CHAIN(&zones, b5_zone, z, 3, z->tier, true);
    EACH(b5_offer, x, 0)
        if (x->stock > 99)
            MEET(&brands, brand, b, 1, x->brand)
                if (x->brand == b->id)
                    MEET(&stores, store, s, 2, x->region)
                        if (x->region == s->region && b->tier == s->tier &&
                            !b5_zones(w, &zones, to, x, s))
                            return;
}

/* 2 < 1 never holds: nothing is left to do. */
static void b6(const workload *w, answer *to)
{
    (void)w;
    (void)to;
}

static bool b8_some_offer(const workload *w, const chain *offers, const label *x)
{
    MEET(offers, short_offer, y, 1, x->article)
        if (y->article == x->article && y->price < x->price)
            return true;
    return false;
}

static void b8(const workload *w, answer *to)
{
    chain offers;
    CHAIN(&offers, short_offer, y, 1, y->article, w3_seen(y));
    EACH(label, x, 0)
        if (!b8_some_offer(w, &offers, x) && !keep1(w, to, x->label))
            return;
}

static const struct {
    const char *name;
    size_t columns;
    loop_function *run;
} loops[] = {
    {"W1", 2, w1}, {"W2", 2, w2}, {"W3", 2, w3}, {"W5", 2, w5}, {"W7", 2, w7}, {"W8", 1, w8},
    {"B1", 1, b1}, {"B2", 2, b2}, {"B3", 5, b3}, {"B4", 2, b4}, {"B5", 3, b5}, {"B6", 1, b6},
    {"B7", 2, w3}, {"B8", 1, b8}, {"N1", 1, n1}, {"N2", 1, n2}, {"N3", 1, n3}, {"N4", 2, n4},
    {"N5", 1, n5}, {"N6", 2, n6}, {"N7", 2, n7}, {"N8", 2, n8}, {"N9", 2, n9}, {"N10", 3, n10},
    {"G1", 2, g1}, {"G2", 1, g2}, {"G3", 2, g3}, {"G4", 1, g4},
};
enum { LOOPS = sizeof loops / sizeof loops[0] };

/* N1@128 is N1 with 128 rows. */
bool loop_open(loop *self, const workload *from)
{
    size_t length = strcspn(from->name, "@");
    self->from = from;
    for (size_t i = 0; i < LOOPS; i++)
        if (strncmp(loops[i].name, from->name, length) == 0 && loops[i].name[length] == 0) {
            self->run = loops[i].run;
            self->to.columns = loops[i].columns;
            return true;
        }
    return false;
}

void loop_call(void *self)
{
    loop *l = self;
    l->to.number = 0;
    l->to.rows = 0;
    keep_anew();
    l->run(l->from, &l->to);
}
