#!/usr/bin/env python3
"""make.py FOLDER: fills FOLDER with the inputs of all workloads, always the same.

A folder of bench/inputs is copied: W1 to W8 were given and are there entire, of the others words.md and what the judge expects (answers.sh).
The rest is written here: B1 to B8, N1 to N10, and for growth.sh N1@128 and so on: the same kind of question with that many rows.
"""
import os
import shutil
import struct
import sys

KEPT = os.path.join(os.path.dirname(os.path.abspath(__file__)), 'inputs')
FOLDER = sys.argv[1]

# Records of a query.
TRUE = [16]
EQ, NE, LT, LE, GT, GE = 1, 2, 3, 4, 5, 6
COUNT, SUM, AVE, MAX, MIN = 1, 2, 3, 4, 5
def over(variable, relation): return [1, variable, relation]
def no(c): return [18] + c
def both(*cs): return cs[0] if len(cs) == 1 else [19] + cs[0] + both(*cs[1:])  # nests to the right
def either(a, b): return [20] + a + b
def cmp(op, a, b): return [21, op] + a + b
def some(variable, relation, c): return [22, variable, relation] + c
def num(n): return [32] + list(struct.pack('<i', n))
def att(variable, attribute): return [33, variable, attribute]
def agg(function, variable, relation, attribute, c): return [34, function, variable, relation, attribute] + c
def permit(relation, c, mask=0xFFFF): return [64, relation] + list(struct.pack('<H', mask)) + c

class Dice:
    """Numbers that look random and never change."""
    def __init__(self, seed): self.state = seed
    def __call__(self, least, most):
        self.state = (self.state * 6364136223846793005 + 1442695040888963407) % 2**64
        return least + (self.state >> 33) % (most - least + 1)

def write(name, part, data):
    folder = os.path.join(FOLDER, name)
    os.makedirs(folder, exist_ok=True)
    with open(os.path.join(folder, part), 'wb') as to:
        to.write(data if isinstance(data, bytes) else data.encode())

def workload(name, tables, permits, question, select, index='', cells=None, asked=None):
    """tables: (name, columns, rows, kind) each. asked: how often, of how many keys, and the bytes of the question where the key goes."""
    catalogue = b''.join(struct.pack('<BBH', kind, len(columns.split()), len(rows)) for _, columns, rows, kind in tables)
    values = b''.join(struct.pack('<i', v) for _, _, rows, _ in tables for row in rows for v in row)
    assert len(values) <= 4 * 8192, name
    schema = ''.join(f'CREATE TABLE {t}({", ".join(c + " INTEGER" for c in columns.split())});\n' for t, columns, _, _ in tables)
    for part, data in [('catalogue', catalogue), ('values', values), ('permits', bytes(sum(permits, []))), ('question', bytes(question)),
                       ('schema.sql', schema), ('sqlite.sql', select)]:
        write(name, part, data)
    if index: write(name, 'index.sql', index + '\n')
    if cells: write(name, 'cells', f'{cells}\n')
    if asked: write(name, 'asked', ' '.join(map(str, asked)) + '\n')

STORED, WORKSPACE = 48, 49
def brands(d): return ('brand', 'id tier owner', [(i, d(0, 7), d(0, 5)) for i in range(64)], STORED)
def stores(d): return ('store', 'id region tier size', [(i, d(0, 15), d(0, 7), d(0, 99)) for i in range(64)], STORED)
def employees(d): return ('employee', 'name dept salary manager', [(i, d(0, 19), d(10000, 60000), d(0, 63)) for i in range(1024)], STORED)
def labels(d, kind=STORED): return ('label', 'label article price store', [(i, d(0, 999), d(100, 9999), d(0, 15)) for i in range(1024)], kind)
def offers(d): return ('offer', 'article number price brand', [(d(0, 999), 1000 + i, d(100, 9999), d(0, 15)) for i in range(1024)], STORED)
SEE_LABEL = permit(0, cmp(LE, att(0, 3), num(3)))
SEE_OFFER = [permit(1, cmp(EQ, att(0, 3), num(12))), permit(1, cmp(LE, att(0, 3), num(6)))]

def b1():
    d = Dice(1)
    rows = [(1000 + i, d(0, 15), d(0, 79), d(0, 7), d(0, 99)) for i in range(1024)]
    question = over(0, 0) + att(0, 0) + both(
        some(1, 1, both(cmp(EQ, att(1, 1), att(0, 1)), cmp(EQ, att(1, 2), att(0, 3)))),
        some(2, 2, both(cmp(EQ, att(2, 0), att(0, 2)), cmp(GT, att(2, 1), num(2)))))
    workload('B1', [('offer', 'number region brand rank stock', rows, STORED), stores(d), brands(d)],
             [permit(0, cmp(GT, att(0, 4), num(30))), permit(1, cmp(GE, att(0, 3), num(20))), permit(2, cmp(NE, att(0, 2), num(3)))],
             question,
             'SELECT DISTINCT x.number FROM offer x WHERE EXISTS (SELECT 1 FROM store s WHERE s.region = x.region AND s.tier = x.rank AND s.size >= 20)'
             ' AND EXISTS (SELECT 1 FROM brand b WHERE b.id = x.brand AND b.tier > 2 AND b.owner <> 3) AND x.stock > 30',
             'CREATE INDEX store_region ON store(region);\nCREATE INDEX brand_id ON brand(id);')

def b2():
    d = Dice(2)
    question = over(0, 0) + over(1, 1) + att(0, 0) + att(1, 1) + either(cmp(EQ, att(0, 1), att(1, 0)), cmp(EQ, att(0, 2), att(1, 2)))
    workload('B2', [labels(d), offers(d)], [SEE_LABEL] + SEE_OFFER, question,
             'SELECT DISTINCT x.label, y.number FROM label x, offer y WHERE (x.article = y.article OR x.price = y.price)'
             ' AND x.store <= 3 AND (y.brand = 12 OR y.brand <= 6)',
             'CREATE INDEX offer_article ON offer(article);\nCREATE INDEX offer_price ON offer(price);')

def b3():
    question = (over(0, 0) + att(0, 0) + agg(COUNT, 1, 0, 0, cmp(EQ, att(1, 1), num(3))) + agg(SUM, 2, 0, 2, TRUE)
                + agg(MAX, 3, 0, 2, cmp(LT, att(3, 1), num(5))) + agg(AVE, 4, 0, 2, cmp(GT, att(4, 2), agg(AVE, 5, 0, 2, TRUE)))
                + cmp(GE, att(0, 2), agg(AVE, 6, 0, 2, cmp(LE, att(6, 1), agg(AVE, 7, 0, 1, TRUE)))))
    wide = 'y.dept <= 12'
    short = '(y.dept <= 12 OR y.manager = 2)'
    workload('B3', [employees(Dice(3))],
             [permit(0, cmp(LE, att(0, 1), num(12))), permit(0, cmp(EQ, att(0, 3), num(2)), mask=3)], question,
             f'SELECT DISTINCT x.name, (SELECT COUNT(*) FROM employee y WHERE y.dept = 3 AND {short}),'
             f' (SELECT COALESCE(SUM(y.salary), 0) FROM employee y WHERE {wide}),'
             f' (SELECT COALESCE(MAX(y.salary), 0) FROM employee y WHERE y.dept < 5 AND {wide}),'
             f' (SELECT COALESCE(CAST(ROUND(AVG(y.salary)) AS INTEGER), 0) FROM employee y WHERE {wide} AND y.salary >'
             f' (SELECT COALESCE(AVG(y.salary), 0) FROM employee y WHERE {wide}))'
             f' FROM employee x WHERE x.dept <= 12 AND x.salary >= (SELECT COALESCE(AVG(y.salary), 0) FROM employee y WHERE {wide} AND y.dept <='
             f' (SELECT COALESCE(AVG(y.dept), 0) FROM employee y WHERE {short}))')

def b4():
    d = Dice(4)
    departments = ('department', 'dept floor head', [(i % 20, d(0, 9), d(0, 63)) for i in range(64)], STORED)
    question = over(0, 0) + over(1, 0) + att(0, 0) + att(1, 0) + both(cmp(EQ, att(0, 3), att(1, 0)), cmp(GT, att(0, 2), att(1, 2)))
    see = ('(EXISTS (SELECT 1 FROM department d WHERE d.dept = {0}.dept AND d.floor = 2)'
           ' OR {0}.salary <= (SELECT COALESCE(MIN(e.salary), 0) FROM employee e WHERE e.dept = 3))')
    workload('B4', [employees(d), departments],
             [permit(0, some(1, 1, both(cmp(EQ, att(1, 0), att(0, 1)), cmp(EQ, att(1, 1), num(2))))),
              permit(0, cmp(LE, att(0, 2), agg(MIN, 1, 0, 2, cmp(EQ, att(1, 1), num(3)))))], question,
             'SELECT DISTINCT x.name, y.name FROM employee x, employee y WHERE x.manager = y.name AND x.salary > y.salary'
             f' AND {see.format("x")} AND {see.format("y")}',
             'CREATE INDEX employee_name ON employee(name);\nCREATE INDEX department_dept ON department(dept);')

def b5():
    d = Dice(5)
    rows = [(1000 + i, d(0, 63), d(0, 15), d(100, 999), d(0, 199)) for i in range(1024)]
    zones = ('zone', 'id tier minprice', [(i, d(0, 7), d(100, 999)) for i in range(16)], STORED)
    question = over(0, 0) + over(1, 1) + over(2, 2) + over(3, 3) + att(0, 0) + att(2, 0) + att(3, 0) + both(
        cmp(EQ, att(0, 1), att(1, 0)), cmp(EQ, att(0, 2), att(2, 1)), cmp(EQ, att(1, 1), att(2, 2)), cmp(EQ, att(2, 2), att(3, 1)),
        cmp(GE, att(0, 3), att(3, 2)), cmp(NE, num(1), num(2)))
    workload('B5', [('offer', 'number brand region price stock', rows, STORED), brands(d), stores(d), zones],
             [permit(0, cmp(GT, att(0, 4), num(99))), permit(1, cmp(NE, att(0, 2), num(3))), permit(2, cmp(GE, att(0, 3), num(20))),
              permit(3, TRUE)], question,
             'SELECT DISTINCT x.number, s.id, z.id FROM offer x, brand b, store s, zone z WHERE x.brand = b.id AND x.region = s.region'
             ' AND b.tier = s.tier AND s.tier = z.tier AND x.price >= z.minprice AND 1 <> 2'
             ' AND x.stock > 99 AND b.owner <> 3 AND s.size >= 20',
             'CREATE INDEX brand_id ON brand(id);\nCREATE INDEX store_region ON store(region);\nCREATE INDEX zone_tier ON zone(tier);')

def b6():
    d = Dice(6)
    rows = [(d(0, 999), d(0, 9), 1000 + i) for i in range(1024)]
    def same(a, b): return cmp(EQ, att(a, 0), att(b, 0))
    left = [19] + [19] + [19] + same(0, 1) + same(1, 2) + same(2, 3) + cmp(LT, num(2), num(1))
    question = over(0, 0) + over(1, 0) + over(2, 0) + over(3, 0) + att(0, 2) + left
    workload('B6', [('offer', 'article rank number', rows, STORED)], [permit(0, cmp(LE, att(0, 1), num(8)))], question,
             'SELECT DISTINCT x.number FROM offer x, offer y, offer z, offer v WHERE x.article = y.article AND y.article = z.article'
             ' AND z.article = v.article AND 2 < 1 AND x.rank <= 8 AND y.rank <= 8 AND z.rank <= 8 AND v.rank <= 8',
             'CREATE INDEX offer_article ON offer(article);')

JOIN = ('SELECT DISTINCT x.label, y.number FROM label x, offer y WHERE x.article = y.article AND y.price < x.price'
        ' AND x.store <= 3 AND (y.brand = 12 OR y.brand <= 6)')

def b7():
    d = Dice(7)
    question = over(0, 0) + over(1, 1) + att(0, 0) + att(1, 1) + both(cmp(EQ, att(0, 1), att(1, 0)), cmp(LT, att(1, 2), att(0, 2)))
    workload('B7', [labels(d), offers(d)], [SEE_LABEL] + SEE_OFFER, question, JOIN,
             'CREATE INDEX offer_article ON offer(article);\nCREATE INDEX label_article ON label(article);', cells=2)

def b8():
    d = Dice(8)
    question = over(0, 0) + att(0, 0) + no(some(1, 1, both(cmp(EQ, att(1, 0), att(0, 1)), cmp(LT, att(1, 2), att(0, 2)))))
    workload('B8', [labels(d, WORKSPACE), offers(d)], SEE_OFFER, question,
             'SELECT DISTINCT x.label FROM label x WHERE NOT EXISTS (SELECT 1 FROM offer y WHERE y.article = x.article AND y.price < x.price'
             ' AND (y.brand = 12 OR y.brand <= 6))',
             'CREATE INDEX offer_article ON offer(article);')

# N1 to N10: kinds of question that W and B lack. Each takes the number of rows; keys are drawn from as many numbers as there are rows, so
# that a row meets as many others whatever the size, and what grows is the work and not the share that matches.

def few_labels(d, n): return ('label', 'label article store', [(i, d(0, n - 1), d(0, 15)) for i in range(n)], STORED)
def many_labels(d, n): return ('label', 'label article price store', [(i, d(0, n - 1), d(100, 9999), d(0, 15)) for i in range(n)], STORED)
def many_offers(d, n): return ('offer', 'article number price brand', [(d(0, n - 1), 1000 + i, d(100, 9999), d(0, 15)) for i in range(n)], STORED)
def wide_offers(d, n, articles):
    return ('offer', 'article rank number price brand region stock',
            [(d(0, articles - 1), d(1, 4), 1000 + i, d(100, 999), d(0, 31), d(0, 15), d(0, 199)) for i in range(n)], STORED)
def scrambled(d, numbers):
    numbers = list(numbers)
    for last in range(len(numbers) - 1, 0, -1):
        other = d(0, last)
        numbers[last], numbers[other] = numbers[other], numbers[last]
    return numbers
def tree(kind, cs):
    """AND or OR of many, nested as flat as can be."""
    return cs[0] if len(cs) == 1 else [kind] + tree(kind, cs[:len(cs) // 2]) + tree(kind, cs[len(cs) // 2:])
SEE_MOST_LABELS = permit(0, cmp(LE, att(0, 3), num(11)))
SEEN_OFFER = '(y.brand = 12 OR y.brand <= 6)'
CHEAPER = both(cmp(EQ, att(1, 0), att(0, 1)), cmp(LT, att(1, 2), att(0, 2)))
CHEAPER_SQL = f'(SELECT 1 FROM offer y WHERE y.article = x.article AND y.price < x.price AND {SEEN_OFFER})'

def n1(name, n):
    d = Dice(101)
    workload(name, [many_labels(d, n), many_offers(d, n)], [SEE_MOST_LABELS] + SEE_OFFER, over(0, 0) + att(0, 0) + some(1, 1, CHEAPER),
             f'SELECT DISTINCT x.label FROM label x WHERE EXISTS {CHEAPER_SQL} AND x.store <= 11',
             'CREATE INDEX offer_article ON offer(article, price, brand);')

def n2(name, n):
    d = Dice(102)
    offers = ('offer', 'article number brand', [(d(0, n - 1), 1000 + i, d(0, 15)) for i in range(n)], STORED)
    releases = ('release', 'number region', [(number, d(0, 7)) for number in scrambled(d, range(1000, 1000 + n))], STORED)
    inner = some(2, 2, both(cmp(EQ, att(2, 0), att(1, 1)), cmp(GT, att(2, 1), num(3))))
    workload(name, [few_labels(d, n), offers, releases],
             [permit(0, cmp(LE, att(0, 2), num(11))), permit(1, cmp(NE, att(0, 2), num(12))), permit(2, cmp(LE, att(0, 1), num(6)))],
             over(0, 0) + att(0, 0) + some(1, 1, both(cmp(EQ, att(1, 0), att(0, 1)), inner)),
             'SELECT DISTINCT x.label FROM label x WHERE EXISTS (SELECT 1 FROM offer y WHERE y.article = x.article AND EXISTS'
             ' (SELECT 1 FROM release r WHERE r.number = y.number AND r.region > 3 AND r.region <= 6) AND y.brand <> 12) AND x.store <= 11',
             'CREATE INDEX offer_article ON offer(article, brand, number);\nCREATE INDEX release_number ON release(number, region);')

def n3(name, n):
    d = Dice(103)
    workload(name, [many_labels(d, n), many_offers(d, n)], [SEE_MOST_LABELS] + SEE_OFFER, over(0, 0) + att(0, 0) + no(some(1, 1, CHEAPER)),
             f'SELECT DISTINCT x.label FROM label x WHERE NOT EXISTS {CHEAPER_SQL} AND x.store <= 11',
             'CREATE INDEX offer_article ON offer(article, price, brand);')

def n4(name, n):
    permits, guards = [], []
    operators = {LE: '<=', GE: '>=', GT: '>', LT: '<'}
    for k, (function, word, op, attribute, column) in enumerate([
            (AVE, 'AVG', LT, 3, 'price'), (MAX, 'MAX', GE, 3, 'price'), (MIN, 'MIN', LE, 3, 'price'), (AVE, 'AVG', GT, 3, 'price'),
            (COUNT, 'COUNT', LE, 6, 'stock'), (AVE, 'AVG', GT, 6, 'stock'), (MAX, 'MAX', GE, 6, 'stock'), (AVE, 'AVG', LT, 6, 'stock')]):
        permits.append(permit(0, both(cmp(op, att(0, attribute), agg(function, 1, 0, attribute, cmp(EQ, att(1, 5), num(k)))),
                                      cmp(EQ, att(0, 4), num(2 * k)))))
        guards.append(f'(x.{column} {operators[op]} (SELECT COALESCE({word}(e.{column}), 0) FROM offer e WHERE e.region = {k}) AND x.brand = {2 * k})')
    workload(name, [wide_offers(Dice(104), n, 128)], permits, over(0, 0) + att(0, 2) + att(0, 3) + cmp(GT, att(0, 1), num(1)),
             f'SELECT DISTINCT x.number, x.price FROM offer x WHERE x.rank > 1 AND ({" OR ".join(guards)})',
             'CREATE INDEX offer_brand ON offer(brand);\nCREATE INDEX offer_region ON offer(region, price, stock);')

COLUMNS = 'article rank number price brand region stock'.split()
def n5(name, n):
    """1,024 + 8 * (1 + 7 + 8 * 252) bytes: eight variables over one relation, eight permits of 256 bytes, all of which apply to each."""
    d = Dice(105)
    permits, guards = [], []
    for _ in range(8):
        bands = [(d(0, 31), d(100, 300)) for _ in range(11)]
        stock = d(0, 199)
        permits.append(permit(0, tree(20, [both(cmp(EQ, att(0, 4), num(b)), cmp(LE, att(0, 3), num(p))) for b, p in bands]
                                      + [cmp(EQ, att(0, 6), num(stock))])))
        guards += [f'{{0}}.brand = {b} AND {{0}}.price <= {p}' for b, p in bands] + [f'{{0}}.stock = {stock}']
        assert len(permits[-1]) == 256
    guard = '(' + ' OR '.join(guards) + ')'
    conjuncts, sql = [], []
    for v, (function, word) in enumerate([(MAX, 'MAX'), (SUM, 'SUM'), (MAX, 'MAX'), (SUM, 'SUM'), (MAX, 'MAX'), (COUNT, 'COUNT'), (SUM, 'SUM')], 1):
        attribute = 0 if function == COUNT else 3
        conjuncts.append(cmp(NE if function == COUNT else LE, att(0, 3), agg(function, v, 0, attribute, cmp(LE, att(v, 1), num(1 + v % 4)))))
        sql.append(f'x.price {"<>" if function == COUNT else "<="} (SELECT COALESCE({word}(y.{COLUMNS[attribute]}), 0) FROM offer y'
                   f' WHERE y.rank <= {1 + v % 4} AND {guard.format("y")})')
    for k in range(79):
        attribute = (0, 2, 3, 6)[k % 4]
        value = (d(0, 127), 1000 + d(0, n - 1), d(100, 999), d(0, 199))[k % 4]
        conjuncts.append(no(cmp(EQ, att(0, attribute), num(value))) if k < 3 else cmp(NE, att(0, attribute), num(value)))
        sql.append(f'x.{COLUMNS[attribute]} <> {value}')
    question = over(0, 0) + att(0, 2) + tree(19, conjuncts)
    assert len(question) == 1024
    workload(name, [wide_offers(d, n, 128)], permits, question,
             f'SELECT DISTINCT x.number FROM offer x WHERE {" AND ".join(sql)} AND {guard.format("x")}',
             'CREATE INDEX offer_brand ON offer(brand, price);\nCREATE INDEX offer_stock ON offer(stock);')

def n6(name, n):
    d = Dice(106)
    offers = ('offer', 'number article', [(1000 + i, d(0, n - 1)) for i in range(n)], STORED)
    packs = ('pack', 'article pallet', [(d(0, n - 1), d(0, n - 1)) for i in range(n)], STORED)
    pallets = ('pallet', 'pallet store', [(d(0, n - 1), d(0, n - 1)) for i in range(n)], STORED)
    stores = ('store', 'store region', [(d(0, n - 1), d(0, 15)) for i in range(n)], STORED)
    workload(name, [offers, packs, pallets, stores],
             [permit(0, cmp(GT, att(0, 0), num(1000 + n // 4))), permit(1, cmp(NE, att(0, 1), num(3))), permit(2, TRUE),
              permit(3, cmp(LE, att(0, 1), num(11)))],
             over(0, 0) + over(1, 1) + over(2, 2) + over(3, 3) + att(0, 0) + att(3, 1) + both(
                 cmp(EQ, att(0, 1), att(1, 0)), cmp(EQ, att(1, 1), att(2, 0)), cmp(EQ, att(2, 1), att(3, 0))),
             'SELECT DISTINCT x.number, s.region FROM offer x, pack p, pallet l, store s WHERE x.article = p.article AND p.pallet = l.pallet'
             f' AND l.store = s.store AND x.number > {1000 + n // 4} AND p.pallet <> 3 AND s.region <= 11',
             'CREATE INDEX pack_article ON pack(article, pallet);\nCREATE INDEX pallet_pallet ON pallet(pallet, store);\n'
             'CREATE INDEX store_store ON store(store, region);')

def n7(name, n):
    d = Dice(107)
    offers = ('offer', 'number brand stock', [(1000 + i, d(0, 31), d(0, 199)) for i in range(n)], STORED)
    zones = ('zone', 'id kind', [(i, d(0, 7)) for i in range(16)], STORED)
    workload(name, [offers, zones], [permit(0, cmp(GE, att(0, 2), num(0))), permit(1, cmp(NE, att(0, 1), num(9)))],
             over(0, 0) + over(1, 1) + att(0, 0) + att(1, 0) + cmp(LE, att(1, 1), att(0, 0)),
             'SELECT DISTINCT x.number, z.id FROM offer x, zone z WHERE z.kind <= x.number AND x.stock >= 0 AND z.kind <> 9', cells=32 * n)

def n8(name, n):
    d = Dice(108)
    offers = ('offer', 'article rank number price', [(d(0, n // 8 - 1), d(1, 4), 1000 + i, d(100, 999)) for i in range(n)], STORED)
    releases = ('release', 'number region', [(number, d(0, 3)) for number in scrambled(d, range(1000, 1000 + n))], STORED)
    seven = [cmp(EQ, att(v, 0), num(7)) for v in (0, 1)]
    released = 'EXISTS (SELECT 1 FROM release r WHERE r.number = {0}.number AND r.region = 2)'
    workload(name, [offers, releases], [permit(0, some(1, 1, both(cmp(EQ, att(1, 0), att(0, 2)), cmp(EQ, att(1, 1), num(2)))))],
             over(0, 0) + att(0, 2) + att(0, 3) + both(seven[0], cmp(EQ, att(0, 1), agg(MIN, 1, 0, 1, seven[1]))),
             'SELECT DISTINCT x.number, x.price FROM offer x WHERE x.article = 7 AND x.rank = (SELECT COALESCE(MIN(y.rank), 0) FROM offer y'
             f' WHERE y.article = 7 AND {released.format("y")}) AND {released.format("x")}',
             'CREATE INDEX offer_article ON offer(article);\nCREATE INDEX release_number ON release(number, region);')

def n9(name, n):
    d = Dice(109)
    offers = ('offer', 'number first second brand', [(1000 + i, d(0, n - 1), d(0, n - 1), d(0, 15)) for i in range(n)], STORED)
    workload(name, [few_labels(d, n), offers], [permit(0, cmp(LE, att(0, 2), num(11))), permit(1, cmp(LE, att(0, 3), num(11)))],
             over(0, 0) + over(1, 1) + att(0, 0) + att(1, 0) + either(cmp(EQ, att(0, 1), att(1, 1)), cmp(EQ, att(0, 1), att(1, 2))),
             'SELECT DISTINCT x.label, y.number FROM label x, offer y WHERE (x.article = y.first OR x.article = y.second)'
             ' AND x.store <= 11 AND y.brand <= 11',
             'CREATE INDEX offer_first ON offer(first);\nCREATE INDEX offer_second ON offer(second);')

def n10(name, n):
    seven = [cmp(EQ, att(v, 0), num(7)) for v in (0, 1)]
    question = (over(0, 0) + att(0, 0) + att(0, 2) + att(0, 3)
                + both(seven[0], cmp(EQ, att(0, 1), agg(MIN, 1, 0, 1, seven[1]))))
    places = [i + 1 for i in range(len(question) - 4) if question[i:i + 5] == num(7)]
    assert len(places) == 2
    seen = '({0}.region = 2 OR {0}.brand = 3)'
    workload(name, [wide_offers(Dice(110), n, 128)], [permit(0, cmp(EQ, att(0, 5), num(2))), permit(0, cmp(EQ, att(0, 4), num(3)))], question,
             'SELECT DISTINCT x.article, x.number, x.price FROM offer x WHERE x.article = ?1 AND x.rank = (SELECT COALESCE(MIN(y.rank), 0)'
             f' FROM offer y WHERE y.article = ?1 AND {seen.format("y")}) AND {seen.format("x")}',
             'CREATE INDEX offer_article ON offer(article);', cells=65536, asked=[10000, 128] + places)

# For growth.sh alone.
def g1(name, n):
    d = Dice(201)
    workload(name, [many_labels(d, n), many_offers(d, n)], [SEE_MOST_LABELS] + SEE_OFFER,
             over(0, 0) + over(1, 1) + att(0, 0) + att(1, 1) + CHEAPER, '')

def g2(name, n):
    d = Dice(202)
    workload(name, [many_labels(d, n), many_offers(d, n)], [SEE_MOST_LABELS] + SEE_OFFER,
             agg(SUM, 0, 0, 2, some(1, 1, CHEAPER)) + TRUE, '')

def g3(name, n):
    d = Dice(203)
    workload(name, [many_offers(d, n)], [permit(0, TRUE)], over(0, 0) + att(0, 1) + att(0, 2) + TRUE, '')

def g4(name, n):
    d = Dice(204)
    offers = ('offer', 'article rank number price', [(d(0, n - 1), d(1, 4), 1000 + i, d(100, 999)) for i in range(n)], STORED)
    releases = ('release', 'number region', [(number, d(0, 3)) for number in scrambled(d, range(1000, 1000 + n))], STORED)
    workload(name, [offers, releases], [permit(0, some(1, 1, both(cmp(EQ, att(1, 0), att(0, 2)), cmp(EQ, att(1, 1), num(2)))))],
             over(0, 0) + att(0, 2) + cmp(LE, att(0, 1), num(2)), '')

for kept in sorted(os.listdir(KEPT)):
    shutil.copytree(os.path.join(KEPT, kept), os.path.join(FOLDER, kept), dirs_exist_ok=True)
for make in (b1, b2, b3, b4, b5, b6, b7, b8):
    make()
for make in (n1, n2, n3, n4, n5, n6, n7, n9, n10):
    make(make.__name__.upper(), 1024)
n8('N8', 256)
for make in (n1, n2, n3, n6, n7, n9, g1, g2, g3, g4):
    for n in (128, 256, 512, 1024):
        make(f'{make.__name__.upper()}@{n}', n)
n6('N6@32', 32)  # small enough for the judge
