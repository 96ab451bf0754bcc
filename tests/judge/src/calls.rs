//! The two calls, and the permitted rows of demand 3.

use crate::catalogue::Collection;
use crate::checks::{read_query, ASK, EVALUATE};
use crate::meaning;
use crate::permits::{self, Permit};
use crate::query::{Binding, Query};
use crate::rewrite;
use crate::{refusal, Outcome};

fn refused(number: u64) -> Outcome {
    Outcome {
        number,
        rows: 0,
        columns: 0,
        length: 0,
    }
}

/// A call that passed checks 10 to 33.
pub struct Guarded<'a> {
    pub collection: Collection<'a>,
    pub permits: Vec<Permit>,
    pub query: Query,
    pub rewritten: Query,
}

/// Checks 10 to 33 and the rewriting.
pub fn guarded<'a>(
    catalogue: &[u8],
    values: &'a [i32],
    permits: &[u8],
    query: &[u8],
) -> Result<Guarded<'a>, u64> {
    let collection = Collection::read(catalogue, values)?;
    let permits = permits::read(permits, &collection.relations)?;
    let query = read_query(query, &collection.relations, &ASK)?;
    if rewrite::lacks_permit(&collection.relations, &permits, &query) {
        return Err(refusal::NO_PERMIT);
    }
    let rewritten = rewrite::rewrite(&collection.relations, &permits, &query);
    Ok(Guarded {
        collection,
        permits,
        query,
        rewritten,
    })
}

/// The checks of the plain evaluator, but for 41.
pub fn plain<'a>(
    catalogue: &[u8],
    values: &'a [i32],
    query: &[u8],
) -> Result<(Collection<'a>, Query), u64> {
    let collection = Collection::read(catalogue, values)?;
    let query = read_query(query, &collection.relations, &EVALUATE)?;
    Ok((collection, query))
}

pub fn ask(
    catalogue: &[u8],
    values: &[i32],
    permits: &[u8],
    query: &[u8],
    rewritten: &mut [u8],
    answer: &mut [i64],
) -> Outcome {
    let guarded = match guarded(catalogue, values, permits, query) {
        Ok(guarded) => guarded,
        Err(number) => return refused(number),
    };
    let bytes = guarded.rewritten.bytes();
    if bytes.len() > rewritten.len() {
        return refused(refusal::REWRITTEN_BUFFER);
    }
    rewritten[..bytes.len()].copy_from_slice(&bytes);
    let outcome = deliver(&guarded.collection, &guarded.rewritten, answer);
    Outcome {
        length: bytes.len() as u64,
        ..outcome
    }
}

pub fn evaluate(catalogue: &[u8], values: &[i32], query: &[u8], answer: &mut [i64]) -> Outcome {
    match plain(catalogue, values, query) {
        Ok((collection, query)) => deliver(&collection, &query, answer),
        Err(number) => refused(number),
    }
}

/// Writes the rows that fit; 41 if there are more.
fn deliver(collection: &Collection, query: &Query, answer: &mut [i64]) -> Outcome {
    let rows = meaning::answer(collection, query);
    let columns = query.targets.len();
    let fitting = answer.len() / columns;
    for (place, row) in answer.chunks_exact_mut(columns).zip(&rows) {
        place.copy_from_slice(row);
    }
    Outcome {
        number: if rows.len() > fitting {
            refusal::ANSWER_BUFFER
        } else {
            0
        },
        rows: rows.len().min(fitting) as u64,
        columns: columns as u64,
        length: 0,
    }
}

/// What demand 3 compares of one variable.
#[derive(Clone, PartialEq, Eq, Debug)]
pub struct PermittedRows {
    pub variable: u8,
    /// In the order of the walk, with repeats, each cut to S.
    pub rows: Vec<Vec<i32>>,
}

/// The permitted rows, cut to S, of each variable the query binds, in byte order.
/// The refusal's number if one of 10 to 33 is due.
pub fn permitted_rows(
    catalogue: &[u8],
    values: &[i32],
    permits: &[u8],
    query: &[u8],
) -> Result<Vec<PermittedRows>, u64> {
    let call = guarded(catalogue, values, permits, query)?;
    let bindings = call.query.bindings();
    Ok(bindings
        .into_iter()
        .map(|binding| permitted_to(&call, binding))
        .collect())
}

fn permitted_to(call: &Guarded, binding: Binding) -> PermittedRows {
    let used = rewrite::used_attributes(&call.query, binding.variable);
    let is_workspace = !rewrite::is_stored(&call.collection.relations, binding.relation);
    let permits = rewrite::applying(&call.permits, &call.query, binding);
    let rows = call
        .collection
        .rows(binding.relation)
        .filter(|row| is_workspace || permits.iter().any(|permit| lets_through(call, permit, row)))
        .map(|row| cut(row, used))
        .collect();
    PermittedRows {
        variable: binding.variable,
        rows,
    }
}

/// Asks the permit itself, not the rewritten query: the row is its variable 0.
fn lets_through(call: &Guarded, permit: &Permit, row: &[i32]) -> bool {
    meaning::holds(&call.collection, &permit.condition, &vec![(0, row)])
}

fn cut(row: &[i32], used: u16) -> Vec<i32> {
    let numbered = row.iter().enumerate();
    numbered
        .filter(|(number, _)| used >> number & 1 == 1)
        .map(|(_, value)| *value)
        .collect()
}
