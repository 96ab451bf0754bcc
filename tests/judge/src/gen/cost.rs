//! An upper bound of the records evaluated, so that a case never runs long.

use super::Case;
use crate::calls;
use crate::catalogue::Relation;
use crate::query::{Condition, Query, Term};

pub struct Bound {
    pub steps: u64,
    pub assignments: u64,
}

fn rows(relations: &[Relation], relation: u8) -> u64 {
    relations[usize::from(relation)].rows as u64
}

fn condition(relations: &[Relation], of: &Condition) -> u64 {
    let below = match of {
        Condition::True | Condition::False => 0,
        Condition::Not(inner) => condition(relations, inner),
        Condition::And(left, right) | Condition::Or(left, right) => {
            condition(relations, left).saturating_add(condition(relations, right))
        }
        Condition::Compare(_, left, right) => {
            term(relations, left).saturating_add(term(relations, right))
        }
        Condition::Exists(binding, inner) => {
            condition(relations, inner).saturating_mul(rows(relations, binding.relation))
        }
    };
    below.saturating_add(1)
}

fn term(relations: &[Relation], of: &Term) -> u64 {
    let Term::Aggregate(aggregate) = of else {
        return 1;
    };
    condition(relations, &aggregate.condition)
        .saturating_mul(rows(relations, aggregate.binding.relation))
        .saturating_add(1)
}

/// A RANGE over no rows leaves none, but the RANGEs before it are run through.
fn assignments(relations: &[Relation], query: &Query) -> u64 {
    let counts = query
        .ranges
        .iter()
        .map(|range| rows(relations, range.relation).max(1));
    counts.fold(1, u64::saturating_mul)
}

fn steps(relations: &[Relation], query: &Query) -> u64 {
    let targets = query.targets.iter().map(|target| term(relations, target));
    targets
        .fold(condition(relations, &query.condition), u64::saturating_add)
        .saturating_mul(assignments(relations, query))
}

fn is_within(bound: &Bound, relations: &[Relation], query: &Query) -> bool {
    assignments(relations, query) <= bound.assignments && steps(relations, query) <= bound.steps
}

/// Whether the plain call stays within the bound. A refused one does.
pub fn is_plain_within(bound: &Bound, catalogue: &[u8], values: &[i32], query: &[u8]) -> bool {
    match calls::plain(catalogue, values, query) {
        Ok((collection, query)) => is_within(bound, &collection.relations, &query),
        Err(_) => true,
    }
}

/// Whether both calls on the case stay within the bound.
pub fn is_case_within(bound: &Bound, case: &Case) -> bool {
    let Case {
        catalogue,
        values,
        permits,
        query,
        ..
    } = case;
    is_plain_within(bound, catalogue, values, query)
        && match calls::guarded(catalogue, values, permits, query) {
            Ok(call) => is_within(bound, &call.collection.relations, &call.rewritten),
            Err(_) => true,
        }
}
