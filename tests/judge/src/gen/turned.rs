//! Change 9 said another way: a relation of kind 50 is one of kind 48 whose rows are stored from the last to the first.

use crate::catalogue::{self, Kind, LATEST, STORED};

/// The collection with each relation of kind 50 turned round and of kind 48; None if it is refused, or has no such relation.
pub fn turned(catalogue: &[u8], values: &[i32]) -> Option<(Vec<u8>, Vec<i32>)> {
    let relations = catalogue::read(catalogue)?;
    let total: usize = relations.iter().map(|of| of.attributes * of.rows).sum();
    if total != values.len() || relations.iter().all(|of| of.kind != Kind::Latest) {
        return None;
    }
    let mut left = values;
    let mut stored = Vec::new();
    for of in relations {
        let (own, rest) = left.split_at(of.attributes * of.rows);
        left = rest;
        let rows = own.chunks(of.attributes);
        match of.kind {
            Kind::Latest => stored.extend(rows.rev().flatten()),
            Kind::Stored | Kind::Workspace => stored.extend(own),
        }
    }
    Some((with_kind(catalogue, LATEST, STORED), stored))
}

/// The catalogue with another kind in place of one.
pub fn with_kind(catalogue: &[u8], kind: u8, other: u8) -> Vec<u8> {
    let mut changed = catalogue.to_vec();
    for record in changed.chunks_mut(4).filter(|record| record[0] == kind) {
        record[0] = other;
    }
    changed
}
