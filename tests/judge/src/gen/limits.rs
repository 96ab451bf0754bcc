//! Cases for evaluate at its own limits: 17,216 bytes, 64 levels, 200 variables.

use super::cost::{self, Bound};
use super::grow::{shuffled, Grower};
use super::rng::Rng;
use super::tables::{self, Table};
use super::{buffer_size, damage, sizes};
use crate::checks::{EVALUATE, MOST_RANGES, MOST_TARGETS};
use crate::query::{Binding, Condition, Query};
use crate::{calls, meaning};

#[derive(Clone, PartialEq, Eq, Debug)]
pub struct EvaluateCase {
    pub catalogue: Vec<u8>,
    pub values: Vec<i32>,
    pub query: Vec<u8>,
    pub answer_before: Vec<i64>,
}

const BOUND: Bound = Bound {
    steps: 300_000,
    assignments: 300,
};

pub fn evaluate_case(seed: u64) -> EvaluateCase {
    let rng = &mut Rng::new(seed);
    loop {
        let pool = tables::pool(rng);
        let tables: Vec<Table> = (0..rng.between(1, 4))
            .map(|_| small_table(rng, &pool))
            .collect();
        let (catalogue, values) = tables::encode(&tables);
        let mut query = if rng.percent(15) {
            nested(rng)
        } else {
            grown(rng, &tables, &pool)
        };
        spoil(rng, &mut query, tables.len());
        if cost::is_plain_within(&BOUND, &catalogue, &values, &query) {
            let answer_before = lend_answer(rng, &catalogue, &values, &query);
            return EvaluateCase {
                catalogue,
                values,
                query,
                answer_before,
            };
        }
    }
}

fn small_table(rng: &mut Rng, pool: &[i32]) -> Table {
    let attributes = rng.between(1, 3);
    let count = rng.pick(&[0, 1, 1, 2, 2, 3, 4]);
    let rows = (0..count)
        .map(|_| tables::row(rng, attributes, pool))
        .collect();
    let kind = tables::kind(rng, 30);
    Table {
        kind,
        attributes,
        rows,
    }
}

/// One kind of record inside itself, as deep as the limits or as long as the query may be.
fn nested(rng: &mut Rng) -> Vec<u8> {
    let count = COUNT_OF_ROW_0.to_vec();
    let (opening, closing): (&[u8], &[u8]) = match rng.below(5) {
        0 => (&[18], &[]),
        1 => (&[19], &[16]),
        2 => (&[20, 17], &[]),
        3 => (&[22, 1, 0], &[]),
        _ => (&[21, 1, 34, 1, 1, 0, 0], &[32, 0, 0, 0, 0]),
    };
    let room = EVALUATE.bytes - count.len() - 1;
    let most = room / (opening.len() + closing.len());
    let depth = match rng.below(4) {
        0 => most,
        1 => most + 1,
        2 => rng.between(29, 34),
        _ => rng.between(61, 66),
    };
    let middle: &[u8] = if rng.percent(90) { &[16] } else { &[] };
    [
        count,
        opening.repeat(depth),
        middle.to_vec(),
        closing.repeat(depth),
    ]
    .concat()
}

const COUNT_OF_ROW_0: [u8; 6] = [34, 1, 0, 0, 0, 16];

fn grown(rng: &mut Rng, tables: &[Table], pool: &[i32]) -> Vec<u8> {
    let free = shuffled(rng, 0..EVALUATE.variables as u8);
    let bindable = (0..tables.len() as u8).collect();
    let parts = rng.pick(&[0, 0, 2, 10, 40]);
    let depth = rng.between(0, 4);
    let mut grower = Grower {
        rng,
        tables,
        pool,
        bindable,
        free,
    };
    let mut query = grower.query(depth);
    let mut conditions = vec![query.condition.clone()];
    for _ in 0..parts {
        conditions.push(grower.condition(&query.ranges, 3));
    }
    query.condition = joined(rng, &conditions);
    stretch(rng, tables, &mut query);
    query.bytes()
}

/// A balanced tree of AND and OR, to keep the levels few.
fn joined(rng: &mut Rng, conditions: &[Condition]) -> Condition {
    if let [only] = conditions {
        return only.clone();
    }
    let (first, second) = conditions.split_at(conditions.len() / 2);
    let left = joined(rng, first);
    let right = joined(rng, second);
    if rng.percent(50) {
        Condition::and(left, right)
    } else {
        Condition::or(left, right)
    }
}

fn stretch(rng: &mut Rng, tables: &[Table], query: &mut Query) {
    let over = usize::from(rng.percent(35));
    match rng.below(8) {
        0 => add_variables(rng, tables, query, EVALUATE.variables + over),
        1 => sizes::deepen_query(rng, query, EVALUATE.levels + over),
        2 => sizes::lengthen_query(query, EVALUATE.bytes + over),
        3 => {
            add_variables(rng, tables, query, EVALUATE.variables);
            sizes::lengthen_query(query, EVALUATE.bytes + over);
        }
        4 => sizes::add_ranges(tables, query, MOST_RANGES + over),
        5 => sizes::add_targets(rng, tables, query, MOST_TARGETS + over),
        _ => {}
    }
}

/// SOME records with unused numbers, joined in balance: 200 in a row would be too deep.
fn add_variables(rng: &mut Rng, tables: &[Table], query: &mut Query, count: usize) {
    let bound: Vec<u8> = query
        .bindings()
        .iter()
        .map(|binding| binding.variable)
        .collect();
    let unused = (0..=u8::MAX).filter(|number| !bound.contains(number));
    let mut conditions = vec![query.condition.clone()];
    for variable in unused.take(count.saturating_sub(bound.len())) {
        let binding = Binding {
            variable,
            relation: rng.below(tables.len()) as u8,
        };
        conditions.push(Condition::exists(binding, Condition::True));
    }
    query.condition = joined(rng, &conditions);
}

fn spoil(rng: &mut Rng, query: &mut Vec<u8>, relations: usize) {
    match rng.below(10) {
        0..=1 => damage::spoil_query_names(rng, query, relations, EVALUATE.variables),
        2 => damage::byte_noise(rng, query),
        _ => {}
    }
}

fn lend_answer(rng: &mut Rng, catalogue: &[u8], values: &[i32], query: &[u8]) -> Vec<i64> {
    let (rows, columns) = match calls::plain(catalogue, values, query) {
        Ok((collection, query)) => (
            meaning::answer(&collection, &query).len(),
            query.targets.len(),
        ),
        Err(_) => (3, 2),
    };
    let is_short = rng.percent(20);
    let cells = buffer_size(rng, rows * columns, columns, is_short, 4096);
    (0..cells).map(|_| rng.draw() as i64 | 1).collect()
}
