//! Pairs of collections alike in demand 3's premises: the same relations, kinds and columns,
//! and for each variable of the query the same permitted rows, cut to S.

use super::cost;
use super::draft::draft;
use super::rng::Rng;
use super::tables::{self, Table};
use super::{lend_buffers, needs, Case, ORDINARY};
use crate::calls::{permitted_rows, PermittedRows};
use crate::catalogue::MOST_ROWS;

pub struct Pair {
    pub case: Case,
    /// The other collection.
    pub catalogue: Vec<u8>,
    pub values: Vec<i32>,
}

impl Pair {
    /// The case over the other collection.
    pub fn other(&self) -> Case {
        let (catalogue, values) = (self.catalogue.clone(), self.values.clone());
        Case {
            catalogue,
            values,
            ..self.case.clone()
        }
    }
}

const TRIES: usize = 24;

/// None if no change was found that the premises allow.
pub fn pair(seed: u64) -> Option<Pair> {
    let rng = &mut Rng::new(seed);
    let draft = draft(rng);
    let mut case = draft.encode();
    if !cost::is_case_within(&ORDINARY, &case) {
        return None;
    }
    let permitted = premises(&case);
    let mut changed = draft.tables.clone();
    for _ in 0..TRIES {
        let candidate = mutated(rng, &changed, &draft.pool);
        if is_alike(&case, &permitted, &candidate) {
            changed = candidate;
        }
    }
    if changed == draft.tables {
        return None;
    }
    let aims = [rng.pick(&[0, 0, 0, 0, 0, 0, 40, 41])];
    let needs = needs(&case);
    lend_buffers(rng, &mut case, &needs, &aims);
    let (catalogue, values) = tables::encode(&changed);
    Some(Pair {
        case,
        catalogue,
        values,
    })
}

fn is_alike(case: &Case, permitted: &Premises, candidate: &[Table]) -> bool {
    let (catalogue, values) = tables::encode(candidate);
    let other = Case {
        catalogue,
        values,
        ..case.clone()
    };
    cost::is_case_within(&ORDINARY, &other) && *permitted == premises(&other)
}

/// Refused calls are alike if the number is: refusals 20 to 33 depend on no row.
type Premises = Result<Vec<PermittedRows>, u64>;

fn premises(case: &Case) -> Premises {
    permitted_rows(&case.catalogue, &case.values, &case.permits, &case.query)
}

fn mutated(rng: &mut Rng, tables: &[Table], pool: &[i32]) -> Vec<Table> {
    let mut mutated = tables.to_vec();
    for _ in 0..rng.pick(&[1, 1, 1, 2]) {
        let number = rng.below(mutated.len());
        mutate(rng, &mut mutated[number], pool);
    }
    mutated
}

fn mutate(rng: &mut Rng, table: &mut Table, pool: &[i32]) {
    let place = rng.below(table.rows.len() + 1);
    let new = tables::row(rng, table.attributes, pool);
    match rng.below(10) {
        0..=2 if table.rows.len() < MOST_ROWS => table.rows.insert(place, new),
        3 => {
            let count = rng.between(0, 6);
            table.rows = (0..count)
                .map(|_| tables::row(rng, table.attributes, pool))
                .collect();
        }
        _ if place == table.rows.len() => {}
        4..=5 => {
            table.rows.remove(place);
        }
        6 => table.rows[place] = new,
        7 => {
            let other = rng.below(table.rows.len());
            table.rows.swap(place, other);
        }
        _ => {
            let attribute = rng.below(table.attributes);
            table.rows[place][attribute] = tables::value(rng, pool);
        }
    }
}
