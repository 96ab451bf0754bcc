//! Pairs of permit lists for Change 12: the longer one has one permit more, and its premises hold.

use super::rng::Rng;
use super::tables::{self, Table};
use super::{cost, draft::Draft, grow, needs, sizes, true_needs, Case, Needs, ORDINARY};
use crate::catalogue;
use crate::permits::{self, Permit, ALL, MOST_BYTES, MOST_PERMITS};
use crate::query::{Condition, Query, Term};
use crate::rewrite;

pub struct Grant {
    /// With the shorter list: an accepted call.
    pub case: Case,
    /// The longer list.
    pub permits: Vec<u8>,
}

impl Grant {
    /// The case with the longer list.
    pub fn other(&self) -> Case {
        Case {
            permits: self.permits.clone(),
            ..self.case.clone()
        }
    }
}

const TRIES: usize = 60;

/// None if no pair was found that the premises allow. Pairs without a new row are mostly left out.
pub fn grant(seed: u64) -> Option<Grant> {
    let rng = &mut Rng::new(seed);
    for _ in 0..TRIES {
        let Some(mut grant) = drawn(rng) else {
            continue;
        };
        let other = grant.other();
        let is_quick = |case| cost::is_case_within(&ORDINARY, case);
        if !is_quick(&grant.case) || !is_quick(&other) || is_list_refused(&other) {
            continue;
        }
        let Ok(before) = true_needs(&grant.case) else {
            continue;
        };
        // That the longer list is let through is for the test to find.
        let after = needs(&other);
        if before.rows == after.rows && rng.percent(85) {
            continue;
        }
        lend_buffers(rng, &mut grant.case, &[before, after]);
        return Some(grant);
    }
    None
}

fn is_list_refused(case: &Case) -> bool {
    let relations = catalogue::read(&case.catalogue).unwrap_or_default();
    permits::read(&case.permits, &relations).is_err()
}

fn drawn(rng: &mut Rng) -> Option<Grant> {
    let pool = tables::pool(rng);
    let tables = tables::tables(rng, &pool);
    let query = positive_query(rng, &tables, &pool)?;
    let permits = grow::permits(rng, &tables, &pool, &query);
    let mut draft = Draft {
        pool,
        tables,
        permits,
        query,
    };
    if rng.percent(4) {
        draft.add_permits(rng, MOST_PERMITS - 1);
    }
    let case = draft.encode();
    let more = permit(rng, &draft)?;
    let place = rng.below(draft.permits.len() + 1);
    draft.permits.insert(place, more);
    let permits = draft.encode().permits;
    Some(Grant { case, permits })
}

/// A query with neither NOT nor an aggregate.
fn positive_query(rng: &mut Rng, tables: &[Table], pool: &[i32]) -> Option<Query> {
    let mut query = grow::query(rng, tables, pool);
    query
        .targets
        .retain(|target| matches!(target, Term::Attribute { .. }));
    query.condition = positive(rng, pool, &query.condition);
    (!query.targets.is_empty()).then_some(query)
}

/// Without its NOTs, and with constants for its aggregates.
fn positive(rng: &mut Rng, pool: &[i32], condition: &Condition) -> Condition {
    let mut term = |term: &Term| match term {
        Term::Aggregate(_) => Term::Constant(rng.pick(pool)),
        other => other.clone(),
    };
    match condition {
        Condition::True | Condition::False => condition.clone(),
        Condition::Compare(operator, left, right) => {
            Condition::Compare(*operator, term(left), term(right))
        }
        Condition::Not(inner) => positive(rng, pool, inner),
        Condition::And(left, right) => {
            let left = positive(rng, pool, left);
            Condition::and(left, positive(rng, pool, right))
        }
        Condition::Or(left, right) => {
            let left = positive(rng, pool, left);
            Condition::or(left, positive(rng, pool, right))
        }
        Condition::Exists(binding, inner) => {
            Condition::exists(*binding, positive(rng, pool, inner))
        }
    }
}

/// The permit more: mostly one that applies to a variable of the query, never NO ACCESS.
fn permit(rng: &mut Rng, draft: &Draft) -> Option<Permit> {
    let Draft {
        pool,
        tables,
        permits,
        query,
    } = draft;
    let stored = tables::stored(tables);
    let mut bindings = query.bindings();
    bindings.retain(|binding| stored.contains(&binding.relation));
    if bindings.is_empty() {
        return None;
    }
    let binding = rng.pick(&bindings);
    let used = rewrite::used_attributes(query, binding.variable);
    let mut permit = match rng.below(20) {
        0 => {
            let relation = rng.pick(&stored);
            grow::permit(rng, tables, pool, relation, 0)
        }
        1 => permits
            .iter()
            .find(|permit| !permit.is_no_access())
            .cloned()?,
        2..=4 => Permit {
            relation: binding.relation,
            mask: ALL,
            condition: Condition::True,
        },
        _ => grow::permit(rng, tables, pool, binding.relation, used),
    };
    if rng.percent(2) {
        sizes::lengthen_permit(&mut permit, MOST_BYTES);
    }
    Some(permit)
}

/// Buffers that suffice for both calls, often exactly.
fn lend_buffers(rng: &mut Rng, case: &mut Case, both: &[Needs; 2]) {
    let bytes = both.iter().map(|needs| needs.length).max().unwrap_or(0);
    let cells = both.iter().map(|needs| needs.rows.len() * needs.columns);
    let cells = cells.max().unwrap_or(0);
    let bytes = bytes + rng.pick(&[0, 0, 1, 9]);
    let cells = cells + rng.pick(&[0, 0, 1, 9]);
    case.rewritten_before = (0..bytes).map(|_| rng.byte() | 1).collect();
    case.answer_before = (0..cells).map(|_| rng.draw() as i64 | 1).collect();
}
