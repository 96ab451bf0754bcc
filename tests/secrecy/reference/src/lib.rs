//! Two functions with waldumre_ask's interface, slow and no part of the library:
//! - reference_ask: permitted rows first, then the asker's own question over copies of their columns in S. It shows that the tests can be
//!   passed (`run.sh --reference`).
//! - guard_last_ask: the rewritten question over all rows, from left to right, so each guard is tried after what the asker wrote. It shows that
//!   the tests can fail (`run.sh --guard-last`), whatever the library does.

use judge::calls::{self, Guarded};
use judge::catalogue::Collection;
use judge::query::{Query, Record};
use judge::{meaning, refusal, rewrite, Outcome};
use std::alloc::{GlobalAlloc, Layout};
use std::slice::from_raw_parts;
use std::sync::atomic::{AtomicUsize, Ordering};

/// Memory that is handed out from the start of each call on, and taken back only from its end: what an allocator remembers of
/// earlier calls would show in the instruction counts. One thread.
struct Arena;
const ROOM: usize = 1 << 28;
static mut MEMORY: [u8; ROOM] = [0; ROOM];
static NEXT: AtomicUsize = AtomicUsize::new(0);

unsafe impl GlobalAlloc for Arena {
    unsafe fn alloc(&self, layout: Layout) -> *mut u8 {
        let start = NEXT.load(Ordering::Relaxed).next_multiple_of(layout.align().max(16));
        if start + layout.size() > ROOM {
            return std::ptr::null_mut();
        }
        NEXT.store(start + layout.size(), Ordering::Relaxed);
        (&raw mut MEMORY as *mut u8).add(start)
    }
    unsafe fn dealloc(&self, freed: *mut u8, layout: Layout) {
        let start = freed as usize - &raw const MEMORY as usize;
        if start + layout.size() == NEXT.load(Ordering::Relaxed) {
            NEXT.store(start, Ordering::Relaxed);
        }
    }
}

#[global_allocator]
static ARENA: Arena = Arena;

/// The query with a relation of its own for each variable, and those relations: permitted rows, zero outside S.
fn cut(call: &Guarded) -> (Query, Vec<u8>, Vec<i32>) {
    let mut records = call.query.records();
    let (mut catalogue, mut values) = (Vec::new(), Vec::new());
    let mut number = 0;
    for record in &mut records {
        let Some(binding) = record.binding() else { continue };
        let used = rewrite::used_attributes(&call.query, binding.variable);
        let attributes = call.collection.relations[usize::from(binding.relation)].attributes;
        let rows = call.collection.rows(binding.relation);
        let mut count = 0u16;
        for (row, _) in rows.zip(draw::permitted(call, binding)).filter(|(_, is_permitted)| *is_permitted) {
            values.extend((0..attributes).map(|n| if used >> n & 1 == 1 { row[n] } else { 0 }));
            count += 1;
        }
        let [low, high] = count.to_le_bytes();
        catalogue.extend([48, attributes as u8, low, high]);
        match record {
            Record::Range(binding) | Record::Exists(binding) => binding.relation = number,
            Record::Aggregate { binding, .. } => binding.relation = number,
            _ => unreachable!("it binds"),
        }
        number += 1;
    }
    let bytes = judge::query::bytes_of(&records);
    let query = judge::query::Flat::read(&bytes).expect("it was well formed").tree();
    (query, catalogue, values)
}

fn refused(number: u64) -> Outcome {
    Outcome { number, rows: 0, columns: 0, length: 0 }
}

fn over_permitted_rows(call: &Guarded) -> Vec<Vec<i64>> {
    let (query, catalogue, values) = cut(call);
    // A question that binds nothing has no relation: any catalogue will do.
    let catalogue = if catalogue.is_empty() { vec![48, 1, 0, 0] } else { catalogue };
    let collection = Collection::read(&catalogue, &values).expect("it was made to fit");
    meaning::answer(&collection, &query)
}

fn over_all_rows(call: &Guarded) -> Vec<Vec<i64>> {
    meaning::answer(&call.collection, &call.rewritten)
}

fn ask(call: Result<Guarded, u64>, rewritten: &mut [u8], answer: &mut [i64], rows: fn(&Guarded) -> Vec<Vec<i64>>) -> Outcome {
    let call = match call {
        Ok(call) => call,
        Err(number) => return refused(number),
    };
    let bytes = call.rewritten.bytes();
    if bytes.len() > rewritten.len() {
        return refused(refusal::REWRITTEN_BUFFER);
    }
    rewritten[..bytes.len()].copy_from_slice(&bytes);
    let rows = rows(&call);
    let columns = call.query.targets.len();
    let fitting = answer.len() / columns;
    for (place, row) in answer.chunks_exact_mut(columns).zip(&rows) {
        place.copy_from_slice(row);
    }
    Outcome {
        number: if rows.len() > fitting { refusal::ANSWER_BUFFER } else { 0 },
        rows: rows.len().min(fitting) as u64,
        columns: columns as u64,
        length: bytes.len() as u64,
    }
}

#[repr(C)]
pub struct COutcome {
    number: u64,
    rows: u64,
    columns: u64,
    length: u64,
}

macro_rules! exported {
    ($name:ident, $answer:expr) => {
        /// # Safety
        /// As include/waldumre.h says; no pointer is NULL.
        #[no_mangle]
        pub unsafe extern "C" fn $name(
            catalogue: *const u8,
            catalogue_length: usize,
            values: *const i32,
            values_length: usize,
            permits: *const u8,
            permits_length: usize,
            query: *const u8,
            query_length: usize,
            rewritten: *mut u8,
            rewritten_length: usize,
            answer: *mut i64,
            answer_length: usize,
        ) -> COutcome {
            NEXT.store(0, Ordering::Relaxed);
            let call = calls::guarded(
                from_raw_parts(catalogue, catalogue_length),
                from_raw_parts(values, values_length),
                from_raw_parts(permits, permits_length),
                from_raw_parts(query, query_length),
            );
            let rewritten = std::slice::from_raw_parts_mut(rewritten, rewritten_length);
            let answer = std::slice::from_raw_parts_mut(answer, answer_length);
            let Outcome { number, rows, columns, length } = ask(call, rewritten, answer, $answer);
            COutcome { number, rows, columns, length }
        }
    };
}

exported!(reference_ask, over_permitted_rows);
exported!(guard_last_ask, over_all_rows);
