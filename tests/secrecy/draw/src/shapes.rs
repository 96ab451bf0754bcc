//! Calls of a given shape, drawn. Of STOCK and RIVAL the permits name columns 0 and 1 only; a question uses 2 and 3; 4 is used by nobody.

use crate::Call;
use judge::gen::rng::Rng;

pub const SHAPES: [&str; 7] = [
    "RANGE",
    "SOME",
    "SOME in SOME",
    "aggregate",
    "aggregate in a permit",
    "SOME in a permit",
    "an OR of permits",
];

// Relations. KEY is named by permits only.
const STOCK: u8 = 0;
const RIVAL: u8 = 1;
const KEY: u8 = 2;
const WORK: u8 = 3;

const EQ: u8 = 1;
const NE: u8 = 2;
const LT: u8 = 3;
const LE: u8 = 4;
const GT: u8 = 5;
const GE: u8 = 6;
const TRUE: &[u8] = &[16];

fn cat(parts: &[&[u8]]) -> Vec<u8> {
    parts.concat()
}
fn over(variable: u8, relation: u8) -> Vec<u8> {
    vec![1, variable, relation]
}
fn not(c: &[u8]) -> Vec<u8> {
    cat(&[&[18], c])
}
fn and(a: &[u8], b: &[u8]) -> Vec<u8> {
    cat(&[&[19], a, b])
}
fn or(a: &[u8], b: &[u8]) -> Vec<u8> {
    cat(&[&[20], a, b])
}
fn cmp(op: u8, a: &[u8], b: &[u8]) -> Vec<u8> {
    cat(&[&[21, op], a, b])
}
fn some(variable: u8, relation: u8, c: &[u8]) -> Vec<u8> {
    cat(&[&[22, variable, relation], c])
}
fn num(n: usize) -> Vec<u8> {
    cat(&[&[32], &(n as i32).to_le_bytes()])
}
fn att(variable: u8, attribute: u8) -> Vec<u8> {
    vec![33, variable, attribute]
}
fn agg(function: u8, variable: u8, relation: u8, attribute: u8, c: &[u8]) -> Vec<u8> {
    cat(&[&[34, function, variable, relation, attribute], c])
}
fn permit(relation: u8, mask: u16, c: &[u8]) -> Vec<u8> {
    cat(&[&[64, relation], &mask.to_le_bytes(), c])
}
const ALL: u16 = 0xFFFF;

/// How values are drawn: guards from few, the rest from as many as there are rows, so that some meet.
struct Sizes {
    rows: [usize; 4],
    span: usize,
}

fn sizes(rng: &mut Rng) -> Sizes {
    let most = rng.pick(&[6, 6, 24, 24, 60, 240]);
    let mut rows = [0; 4];
    for count in &mut rows {
        *count = rng.between(most / 2, most);
    }
    Sizes { rows, span: most.max(4) }
}

fn tables(rng: &mut Rng, sizes: &Sizes) -> (Vec<u8>, Vec<i32>) {
    let mut catalogue = Vec::new();
    let mut values = Vec::new();
    let stored = |rng: &mut Rng| rng.pick(&[48u8, 50]);
    let kinds = [(stored(rng), 5u8), (stored(rng), 5), (stored(rng), 3), (49, 4)];
    for (number, (kind, attributes)) in kinds.into_iter().enumerate() {
        let [low, high] = (sizes.rows[number] as u16).to_le_bytes();
        catalogue.extend([kind, attributes, low, high]);
        for _ in 0..sizes.rows[number] {
            for attribute in 0..attributes {
                let most = if attribute < 2 { 4 } else { sizes.span };
                values.push(rng.below(most) as i32);
            }
        }
    }
    (catalogue, values)
}

fn plain_permits(rng: &mut Rng) -> Vec<u8> {
    let mut one = |relation| {
        let op = rng.pick(&[EQ, LE, GE, NE]);
        permit(relation, ALL, &cmp(op, &att(0, 0), &num(rng.below(4))))
    };
    cat(&[&one(STOCK), &one(RIVAL)])
}

fn aggregate_permits(rng: &mut Rng) -> Vec<u8> {
    let mut one = |relation| {
        let aggregate = agg(rng.pick(&[2, 3, 4, 5]), 1, relation, 0, &cmp(EQ, &att(1, 1), &num(rng.below(4))));
        permit(relation, ALL, &cmp(rng.pick(&[LT, LE, GT, GE]), &att(0, 0), &aggregate))
    };
    cat(&[&one(STOCK), &one(RIVAL)])
}

/// KEY is (key, flag, free): the permit names the first two.
fn some_permits(rng: &mut Rng) -> Vec<u8> {
    let mut one = |relation| {
        let inner = and(&cmp(EQ, &att(1, 0), &att(0, 0)), &cmp(EQ, &att(1, 1), &att(0, 1)));
        let inner = if rng.percent(50) { inner } else { and(&inner, &cmp(LE, &att(1, 1), &num(rng.below(3)))) };
        let c = some(1, KEY, &inner);
        permit(relation, ALL, &if rng.percent(20) { not(&c) } else { c })
    };
    cat(&[&one(STOCK), &one(RIVAL)])
}

/// Masks differ, so a row may be permitted to one variable and hidden from another over the same relation.
fn several_permits(rng: &mut Rng) -> Vec<u8> {
    let mut all = Vec::new();
    for relation in [STOCK, RIVAL] {
        all.extend(permit(relation, ALL, &cmp(EQ, &att(0, 0), &num(rng.below(4)))));
        for _ in 0..rng.between(1, 2) {
            let mask = rng.pick(&[ALL, 0b01100, 0b00100, 0b01000]);
            let c = cmp(rng.pick(&[EQ, GE]), &att(0, rng.below(2) as u8), &num(rng.below(4)));
            all.extend(permit(relation, mask, &c));
        }
    }
    all
}

/// Something of X that is quick to try.
fn quick(rng: &mut Rng, span: usize, variable: u8) -> Vec<u8> {
    let op = rng.pick(&[EQ, NE, LT, LE, GT, GE]);
    cmp(op, &att(variable, 2), &num(rng.below(span)))
}

fn range_question(rng: &mut Rng, span: usize) -> Vec<u8> {
    let x = cat(&[&over(0, STOCK), &att(0, 3)]);
    match rng.below(5) {
        0 => cat(&[&x, &quick(rng, span, 0)]),
        1 => cat(&[&x, &and(&quick(rng, span, 0), &cmp(LT, &att(0, 3), &att(0, 2)))]),
        2 => cat(&[&x, &or(&quick(rng, span, 0), &cmp(EQ, &att(0, 3), &num(rng.below(span))))]),
        3 => {
            let join = and(&cmp(EQ, &att(0, 2), &att(1, 2)), &cmp(LT, &att(0, 3), &att(1, 3)));
            cat(&[&over(0, STOCK), &over(1, RIVAL), &att(0, 3), &att(1, 3), &join])
        }
        _ => {
            let join = or(&cmp(EQ, &att(0, 2), &att(1, 2)), &cmp(EQ, &att(0, 2), &att(1, 3)));
            cat(&[&over(0, STOCK), &over(1, RIVAL), &att(0, 2), &att(1, 3), &join])
        }
    }
}

/// X is of STOCK, sometimes of the workspace.
fn some_question(rng: &mut Rng, span: usize) -> Vec<u8> {
    let from = rng.pick(&[STOCK, STOCK, WORK]);
    let inner = match rng.below(4) {
        0 => quick(rng, span, 1),
        1 => and(&quick(rng, span, 1), &cmp(EQ, &att(1, 3), &att(0, 3))),
        2 => and(&cmp(EQ, &att(1, 2), &att(0, 2)), &cmp(LT, &att(1, 3), &att(0, 3))),
        _ => or(&cmp(EQ, &att(1, 2), &att(0, 2)), &cmp(EQ, &att(1, 3), &att(0, 2))),
    };
    let c = some(1, RIVAL, &inner);
    let c = if rng.percent(30) { not(&c) } else { c };
    cat(&[&over(0, from), &att(0, 3), &c])
}

fn nested_question(rng: &mut Rng, span: usize) -> Vec<u8> {
    let innermost = match rng.below(3) {
        0 => cmp(EQ, &att(2, 2), &att(1, 3)),
        1 => and(&cmp(EQ, &att(2, 2), &att(1, 3)), &cmp(GE, &att(2, 3), &att(0, 3))),
        _ => quick(rng, span, 2),
    };
    let inner = some(2, rng.pick(&[STOCK, RIVAL]), &innermost);
    let inner = if rng.percent(30) { not(&inner) } else { inner };
    let outer = and(&cmp(rng.pick(&[EQ, EQ, GT]), &att(1, 2), &att(0, 2)), &inner);
    cat(&[&over(0, STOCK), &att(0, 3), &some(1, RIVAL, &outer)])
}

fn aggregate_question(rng: &mut Rng, span: usize) -> Vec<u8> {
    let function = rng.between(1, 5) as u8;
    let inner = match rng.below(4) {
        0 => TRUE.to_vec(),
        1 => quick(rng, span, 1),
        2 => and(&quick(rng, span, 1), &cmp(LT, &att(1, 3), &num(rng.below(span)))),
        _ => some(2, STOCK, &cmp(EQ, &att(2, 2), &att(1, 2))),
    };
    let aggregate = agg(function, 1, RIVAL, 3, &inner);
    if rng.percent(50) {
        return cat(&[&aggregate, TRUE]);
    }
    let c = cmp(rng.pick(&[LE, GE, NE]), &att(0, 2), &aggregate);
    cat(&[&over(0, STOCK), &att(0, 3), &c])
}

/// A call of one of the shapes; not every one has something hidden.
pub fn call(rng: &mut Rng, shape: usize) -> Call {
    let sizes = sizes(rng);
    let (catalogue, values) = tables(rng, &sizes);
    let permits = match shape {
        4 => aggregate_permits(rng),
        5 => some_permits(rng),
        6 => several_permits(rng),
        _ => plain_permits(rng),
    };
    let kind = if shape < 4 { shape } else { rng.below(4) };
    let questions = [range_question, some_question, nested_question, aggregate_question];
    let query = questions[kind](rng, sizes.span);
    let cells = rng.pick(&[4096, 4096, 4096, 3]);
    Call { catalogue, values, permits, query, cells }
}

/// What a marked cell holds in the other collection.
pub fn fresh(rng: &mut Rng, span: usize, old: i32) -> i32 {
    match rng.below(4) {
        0 => old,
        _ => rng.below(span) as i32,
    }
}
