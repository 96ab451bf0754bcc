//! A case as trees: mostly ordinary, sometimes brought to a limit that still passes.

use super::rng::Rng;
use super::sizes;
use super::tables::{self, Table};
use super::{grow, Case};
use crate::checks::{ASK, MOST_RANGES, MOST_TARGETS};
use crate::permits::{Permit, ALL, MOST_BYTES, MOST_LEVELS, MOST_OTHER_VARIABLES, MOST_PERMITS};
use crate::query::{Condition, Query};

#[derive(Clone, Debug)]
pub struct Draft {
    pub pool: Vec<i32>,
    pub tables: Vec<Table>,
    pub permits: Vec<Permit>,
    pub query: Query,
}

pub fn draft(rng: &mut Rng) -> Draft {
    let pool = tables::pool(rng);
    let tables = tables::tables(rng, &pool);
    let mut query = grow::query(rng, &tables, &pool);
    if rng.percent(7) {
        stretch_query(rng, &tables, &mut query);
    }
    let permits = grow::permits(rng, &tables, &pool, &query);
    let mut draft = Draft {
        pool,
        tables,
        permits,
        query,
    };
    if rng.percent(7) {
        stretch_permits(rng, &mut draft);
    }
    draft
}

impl Draft {
    /// The case, its buffers still empty.
    pub fn encode(&self) -> Case {
        let (catalogue, values) = tables::encode(&self.tables);
        Case {
            catalogue,
            values,
            permits: self.permits.iter().flat_map(Permit::bytes).collect(),
            query: self.query.bytes(),
            rewritten_before: Vec::new(),
            answer_before: Vec::new(),
        }
    }

    /// The relations that permits may name; relation 0 if there is none.
    pub fn stored(&self) -> Vec<u8> {
        let stored = tables::stored(&self.tables);
        if stored.is_empty() {
            vec![0]
        } else {
            stored
        }
    }

    /// Adds permits, most of them plain, until there are this many.
    pub fn add_permits(&mut self, rng: &mut Rng, count: usize) {
        let stored = self.stored();
        while self.permits.len() < count {
            let relation = rng.pick(&stored);
            let permit = if rng.percent(50) {
                Permit {
                    relation,
                    mask: ALL,
                    condition: Condition::True,
                }
            } else {
                grow::permit(rng, &self.tables, &self.pool, relation, 0)
            };
            let place = rng.below(self.permits.len() + 1);
            self.permits.insert(place, permit);
        }
    }

    /// One of the permits, made if there is none.
    pub fn some_permit(&mut self, rng: &mut Rng) -> &mut Permit {
        self.add_permits(rng, 1);
        let number = rng.below(self.permits.len());
        &mut self.permits[number]
    }
}

fn stretch_query(rng: &mut Rng, tables: &[Table], query: &mut Query) {
    match rng.below(5) {
        0 => sizes::add_variables(rng, tables, query, ASK.variables),
        1 => sizes::add_ranges(tables, query, MOST_RANGES),
        2 => sizes::add_targets(rng, tables, query, MOST_TARGETS),
        3 => sizes::deepen_query(rng, query, ASK.levels),
        _ => sizes::lengthen_query(query, ASK.bytes),
    }
}

fn stretch_permits(rng: &mut Rng, draft: &mut Draft) {
    let stored = draft.stored();
    match rng.below(5) {
        0 => draft.add_permits(rng, MOST_PERMITS),
        1 => {
            let permit = draft.some_permit(rng);
            sizes::deepen_permit(rng, permit, MOST_LEVELS);
        }
        2 => sizes::lengthen_permit(draft.some_permit(rng), MOST_BYTES),
        3 => {
            let permit = draft.some_permit(rng);
            sizes::add_permit_variables(rng, &stored, permit, MOST_OTHER_VARIABLES);
        }
        _ => stretch_all(rng, draft),
    }
}

/// Towards the largest rewritten query.
fn stretch_all(rng: &mut Rng, draft: &mut Draft) {
    let stored = draft.stored();
    draft.add_permits(rng, MOST_PERMITS);
    for permit in &mut draft.permits {
        sizes::add_permit_variables(rng, &stored, permit, MOST_OTHER_VARIABLES);
        sizes::lengthen_permit(permit, MOST_BYTES);
    }
}
