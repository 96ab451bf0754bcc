//! Brings queries and permits to an exact size: at a limit, or just over it.

use super::rng::Rng;
use super::tables::Table;
use crate::permits::Permit;
use crate::query::{Binding, Condition, Operator, Query, Record, Term};

/// A true condition of exactly this many bytes, at least 1, and of few levels.
pub fn pad(size: usize) -> Condition {
    match size {
        1 => Condition::True,
        2 => Condition::negated(Condition::False),
        _ => {
            let left = (size - 1) / 2;
            Condition::and(pad(left), pad(size - 1 - left))
        }
    }
}

/// A condition of this truth whose deepest record is at this level, its first being at level 1.
fn chain(rng: &mut Rng, level: usize, truth: bool) -> Condition {
    match level {
        1 if truth => Condition::True,
        1 => Condition::False,
        // The terms are the deepest records here.
        2 if rng.percent(50) => {
            let operator = if truth {
                Operator::Equal
            } else {
                Operator::Unequal
            };
            Condition::Compare(operator, Term::Constant(7), Term::Constant(7))
        }
        _ => Condition::negated(chain(rng, level - 1, !truth)),
    }
}

/// The condition, at level 1, gets a deepest level of `level` without a change of meaning.
fn deepened(rng: &mut Rng, condition: &Condition, level: usize) -> Condition {
    let chain = chain(rng, level - 1, true);
    if rng.percent(50) {
        Condition::and(condition.clone(), chain)
    } else {
        Condition::and(chain, condition.clone())
    }
}

fn lengthened(condition: &Condition, extra: usize) -> Condition {
    if extra < 2 {
        return condition.clone();
    }
    Condition::and(condition.clone(), pad(extra - 1))
}

pub fn deepen_query(rng: &mut Rng, query: &mut Query, level: usize) {
    let first_aggregate = query.targets.iter_mut().find_map(|target| match target {
        Term::Aggregate(aggregate) => Some(aggregate),
        _ => None,
    });
    match first_aggregate {
        Some(aggregate) if rng.percent(50) => {
            aggregate.condition = deepened(rng, &aggregate.condition, level - 1);
        }
        _ => query.condition = deepened(rng, &query.condition, level),
    }
}

pub fn lengthen_query(query: &mut Query, bytes: usize) {
    let extra = bytes.saturating_sub(query.bytes().len());
    query.condition = lengthened(&query.condition, extra);
}

pub fn deepen_permit(rng: &mut Rng, permit: &mut Permit, level: usize) {
    permit.condition = deepened(rng, &permit.condition, level);
}

pub fn lengthen_permit(permit: &mut Permit, bytes: usize) {
    let extra = bytes.saturating_sub(permit.bytes().len());
    permit.condition = lengthened(&permit.condition, extra);
}

fn unused(bound: &[Binding]) -> u8 {
    let is_free = |number: &u8| bound.iter().all(|binding| binding.variable != *number);
    (0..=u8::MAX).find(is_free).unwrap_or(0)
}

fn with_exists(rng: &mut Rng, condition: &Condition, binding: Binding) -> Condition {
    let inner = if rng.percent(80) {
        Condition::True
    } else {
        Condition::False
    };
    let exists = Condition::exists(binding, inner);
    if rng.percent(50) {
        Condition::and(condition.clone(), exists)
    } else {
        Condition::or(exists, condition.clone())
    }
}

/// Adds SOME records until the query binds this many variables.
pub fn add_variables(rng: &mut Rng, tables: &[Table], query: &mut Query, count: usize) {
    while query.bindings().len() < count {
        let variable = unused(&query.bindings());
        let relation = rng.below(tables.len()) as u8;
        query.condition = with_exists(rng, &query.condition, Binding { variable, relation });
    }
}

pub fn add_ranges(tables: &[Table], query: &mut Query, count: usize) {
    let smallest = (0..tables.len()).min_by_key(|number| match tables[*number].rows.len() {
        0 => usize::MAX,
        rows => rows,
    });
    while query.ranges.len() < count {
        let variable = unused(&query.bindings());
        query.ranges.push(Binding {
            variable,
            relation: smallest.unwrap_or(0) as u8,
        });
    }
}

pub fn add_targets(rng: &mut Rng, tables: &[Table], query: &mut Query, count: usize) {
    add_ranges(tables, query, 1);
    while query.targets.len() < count {
        let range = rng.pick(&query.ranges);
        let attributes = tables[usize::from(range.relation)].attributes;
        let attribute = rng.below(attributes) as u8;
        query.targets.push(Term::Attribute {
            variable: range.variable,
            attribute,
        });
    }
}

/// Adds SOME records until the permit has this many other variables.
pub fn add_permit_variables(rng: &mut Rng, stored: &[u8], permit: &mut Permit, count: usize) {
    loop {
        let mut bound: Vec<Binding> = permit
            .condition
            .records()
            .into_iter()
            .filter_map(Record::binding)
            .collect();
        if bound.len() >= count {
            return;
        }
        bound.push(Binding {
            variable: 0,
            relation: permit.relation,
        });
        let binding = Binding {
            variable: unused(&bound),
            relation: rng.pick(stored),
        };
        permit.condition = with_exists(rng, &permit.condition, binding);
    }
}
