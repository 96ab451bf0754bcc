//! Cases for the label book: mostly three targets with labels that repeat, some values out of range,
//! some wrong counts of targets, some short or long buffers.

use super::draft::Draft;
use super::grow::{self, shuffled, Grower};
use super::rng::Rng;
use super::tables::{self, Table};
use super::{cost, damaged, lend_buffers, needs, Case, ORDINARY};
use crate::book::{DISPLAY_BYTES, LABELS};
use crate::catalogue::MOST_ROWS;
use crate::permits::{Permit, ALL};
use crate::query::{Aggregate, Binding, Condition, Query, Term, FUNCTIONS};
use crate::refusal;

/// The input of a call of the label book, with what its buffers and the book hold before.
#[derive(Clone, PartialEq, Eq, Debug)]
pub struct BookCase {
    pub case: Case,
    pub offers_before: Vec<i64>,
    pub display_before: Vec<u8>,
}

pub fn book_case(seed: u64) -> BookCase {
    let rng = &mut Rng::new(seed);
    let aims = choose_aims(rng);
    loop {
        let draft = draft(rng);
        let mut case = damaged(rng, draft, &aims);
        if !cost::is_case_within(&ORDINARY, &case) {
            continue;
        }
        let needs = needs(&case);
        let is_short_aimed = aims.contains(&refusal::ANSWER_BUFFER);
        if needs.rows.is_empty() && (is_short_aimed || rng.percent(80)) {
            continue;
        }
        lend_buffers(rng, &mut case, &needs, &aims);
        let offers = length(rng, LABELS, DISPLAY_BYTES);
        let display = length(rng, DISPLAY_BYTES, LABELS);
        return BookCase {
            case,
            offers_before: (0..offers).map(|_| rng.draw() as i64).collect(),
            display_before: (0..display).map(|_| rng.byte()).collect(),
        };
    }
}

/// 0 is noise.
fn choose_aims(rng: &mut Rng) -> Vec<u64> {
    match rng.below(100) {
        0..=75 => vec![],
        76..=83 => vec![refusal::ANSWER_BUFFER],
        84..=97 => vec![rng.pick(&refusal::ALL)],
        _ => vec![0],
    }
}

fn length(rng: &mut Rng, right: usize, other: usize) -> usize {
    match rng.below(60) {
        0 => 0,
        1 => right - 1,
        2 => right + 1,
        3 => other,
        4 => rng.below(right),
        _ => right,
    }
}

fn draft(rng: &mut Rng) -> Draft {
    let labels: Vec<i32> = (0..rng.between(1, 6)).map(|_| label(rng)).collect();
    let mut pool: Vec<i32> = (0..4).map(|_| rng.below(4) as i32).collect();
    pool.extend(&labels);
    pool.push(price(rng));
    let tables = vec![offers(rng, &labels, &pool), other(rng, &pool)];
    let query = query(rng, &tables, &pool);
    let permits = if rng.percent(50) {
        open(&tables)
    } else {
        grow::permits(rng, &tables, &pool, &query)
    };
    Draft {
        pool,
        tables,
        permits,
        query,
    }
}

fn label(rng: &mut Rng) -> i32 {
    match rng.below(6) {
        0 => 0,
        1 => LABELS as i32 - 1,
        _ => rng.below(LABELS) as i32,
    }
}

fn offer(rng: &mut Rng) -> i32 {
    match rng.below(10) {
        0 => 0,
        1 => i32::MAX,
        2 => rng.draw() as i32 & i32::MAX,
        _ => rng.between(1, 40) as i32,
    }
}

fn price(rng: &mut Rng) -> i32 {
    let edges = [
        0, 1, 5, 9, 10, 50, 99, 100, 101, 105, 110, 999, 1000, 1001, 9_999, 10_000, 10_005, 99_999,
        100_000, 100_001, 123_456, 999_900, 999_999,
    ];
    match rng.below(4) {
        0..=1 => rng.pick(&edges),
        2 => rng.below(1000) as i32,
        _ => rng.below(1_000_000) as i32,
    }
}

/// A value outside the range of one of the three columns.
fn out_of_range(rng: &mut Rng, column: usize) -> i32 {
    match column {
        0 => rng.pick(&[-1, 500, 501, 65_536, i32::MIN, i32::MAX]),
        1 => rng.pick(&[-1, -2, i32::MIN]),
        _ => rng.pick(&[-1, -100, 1_000_000, 1_000_001, i32::MIN, i32::MAX]),
    }
}

/// Relation 0: label, offer, price, and perhaps a rank.
fn offers(rng: &mut Rng, labels: &[i32], pool: &[i32]) -> Table {
    let attributes = rng.pick(&[3, 4, 4, 5]);
    let count = match rng.below(200) {
        0 => MOST_ROWS,
        1..=3 => rng.between(40, 300),
        _ => rng.between(0, 14),
    };
    let is_wide = count > 40;
    let mut rows: Vec<Vec<i32>> = (0..count)
        .map(|_| {
            let own = if is_wide {
                label(rng)
            } else {
                rng.pick(labels)
            };
            let mut row = vec![own, offer(rng), price(rng)];
            row.extend((3..attributes).map(|_| tables::value(rng, pool)));
            row
        })
        .collect();
    if !rows.is_empty() && rng.percent(40) {
        for _ in 0..rng.pick(&[1, 1, 1, 2, 3]) {
            let (row, column) = (rng.below(count), rng.below(3));
            rows[row][column] = out_of_range(rng, column);
        }
    }
    Table {
        kind: tables::kind(rng, 0),
        attributes,
        rows,
    }
}

fn other(rng: &mut Rng, pool: &[i32]) -> Table {
    let attributes = rng.between(1, 2);
    let count = rng.between(0, 3);
    let rows = (0..count)
        .map(|_| tables::row(rng, attributes, pool))
        .collect();
    let kind = tables::kind(rng, 50);
    Table {
        kind,
        attributes,
        rows,
    }
}

/// A permit for all rows of each stored relation.
fn open(tables: &[Table]) -> Vec<Permit> {
    let stored = tables::stored(tables);
    let permit = |relation| Permit {
        relation,
        mask: ALL,
        condition: Condition::True,
    };
    stored.into_iter().map(permit).collect()
}

fn query(rng: &mut Rng, tables: &[Table], pool: &[i32]) -> Query {
    let mut free = shuffled(rng, 0..8);
    let mut bind = |relation| Binding {
        variable: free.pop().expect("eight numbers"),
        relation,
    };
    let own = bind(0);
    let ranges = match rng.below(20) {
        0 => vec![],
        1..=2 => vec![own, bind(1)],
        3 => vec![bind(1), own],
        _ => vec![own],
    };
    let count = match rng.below(100) {
        0..=85 => 3,
        86..=95 => rng.pick(&[1, 2, 2, 4, 4]),
        _ => rng.between(5, 8),
    };
    let is_plain = rng.percent(75);
    let mut targets = Vec::new();
    for place in 0..count {
        let column = match rng.below(8) {
            0 if !is_plain => rng.below(tables[0].attributes) as u8,
            _ => (place % 3) as u8,
        };
        let is_aggregate = ranges.is_empty() || !is_plain && rng.percent(30);
        targets.push(if is_aggregate && !free.is_empty() {
            let binding = Binding {
                variable: free.pop().expect("a number"),
                relation: 0,
            };
            Term::Aggregate(Box::new(Aggregate {
                function: rng.pick(&FUNCTIONS),
                binding,
                attribute: column,
                condition: Condition::True,
            }))
        } else {
            Term::Attribute {
                variable: own.variable,
                attribute: column,
            }
        });
    }
    let depth = rng.pick(&[0, 0, 1, 1, 2]);
    let condition = if rng.percent(40) {
        Condition::True
    } else {
        Grower {
            rng,
            tables,
            pool,
            bindable: vec![0, 1],
            free,
        }
        .condition(&ranges, depth)
    };
    Query {
        ranges,
        targets,
        condition,
    }
}
