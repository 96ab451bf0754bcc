//! The exported functions of the library, for Rust.
//!
//! A slice goes over as a pointer and a length. Rust's pointer of an empty slice is dangling, not
//! null and aligned, as the library demands. `&mut` keeps the buffers apart from all else.

pub mod deep;
pub mod stack;

use judge::Outcome;

#[repr(C)]
struct Returned {
    number: u64,
    rows: u64,
    columns: u64,
    length: u64,
}

impl From<Returned> for Outcome {
    fn from(returned: Returned) -> Outcome {
        Outcome {
            number: returned.number,
            rows: returned.rows,
            columns: returned.columns,
            length: returned.length,
        }
    }
}

/// What the reader of texts returns.
#[cfg(feature = "text")]
#[repr(C)]
struct Reading {
    number: u64,
    length: u64,
}

extern "C" {
    fn waldumre_evaluate(
        catalogue: *const u8,
        catalogue_length: usize,
        values: *const i32,
        values_length: usize,
        query: *const u8,
        query_length: usize,
        answer: *mut i64,
        answer_length: usize,
    ) -> Returned;

    #[cfg(feature = "ask")]
    fn waldumre_ask(
        catalogue: *const u8,
        catalogue_length: usize,
        values: *const i32,
        values_length: usize,
        permits: *const u8,
        permits_length: usize,
        query: *const u8,
        query_length: usize,
        rewritten: *mut u8,
        rewritten_length: usize,
        answer: *mut i64,
        answer_length: usize,
    ) -> Returned;

    #[cfg(feature = "book")]
    fn waldumre_label_book(
        catalogue: *const u8,
        catalogue_length: usize,
        values: *const i32,
        values_length: usize,
        permits: *const u8,
        permits_length: usize,
        query: *const u8,
        query_length: usize,
        rewritten: *mut u8,
        rewritten_length: usize,
        answer: *mut i64,
        answer_length: usize,
        offers: *mut i64,
        offers_length: usize,
        display: *mut u8,
        display_length: usize,
    ) -> Returned;

    #[cfg(feature = "text")]
    fn waldumre_read_query(
        text: *const u8,
        text_length: usize,
        names: *const u8,
        names_length: usize,
        records: *mut u8,
        records_length: usize,
    ) -> Reading;

    #[cfg(feature = "text")]
    fn waldumre_ask_text(
        catalogue: *const u8,
        catalogue_length: usize,
        values: *const i32,
        values_length: usize,
        permits: *const u8,
        permits_length: usize,
        text: *const u8,
        text_length: usize,
        names: *const u8,
        names_length: usize,
        records: *mut u8,
        records_length: usize,
        rewritten: *mut u8,
        rewritten_length: usize,
        answer: *mut i64,
        answer_length: usize,
    ) -> Returned;
}

pub fn evaluate(catalogue: &[u8], values: &[i32], query: &[u8], answer: &mut [i64]) -> Outcome {
    unsafe {
        waldumre_evaluate(
            catalogue.as_ptr(),
            catalogue.len(),
            values.as_ptr(),
            values.len(),
            query.as_ptr(),
            query.len(),
            answer.as_mut_ptr(),
            answer.len(),
        )
    }
    .into()
}

#[cfg(feature = "ask")]
pub fn ask(
    catalogue: &[u8],
    values: &[i32],
    permits: &[u8],
    query: &[u8],
    rewritten: &mut [u8],
    answer: &mut [i64],
) -> Outcome {
    unsafe {
        waldumre_ask(
            catalogue.as_ptr(),
            catalogue.len(),
            values.as_ptr(),
            values.len(),
            permits.as_ptr(),
            permits.len(),
            query.as_ptr(),
            query.len(),
            rewritten.as_mut_ptr(),
            rewritten.len(),
            answer.as_mut_ptr(),
            answer.len(),
        )
    }
    .into()
}

/// Until the library exports it, the judge's stands in, so that rewritten queries reach evaluate.
#[cfg(not(feature = "ask"))]
pub use judge::ask;

#[cfg(feature = "book")]
#[allow(clippy::too_many_arguments)]
pub fn label_book(
    catalogue: &[u8],
    values: &[i32],
    permits: &[u8],
    query: &[u8],
    rewritten: &mut [u8],
    answer: &mut [i64],
    offers: &mut [i64],
    display: &mut [u8],
) -> Outcome {
    unsafe {
        waldumre_label_book(
            catalogue.as_ptr(),
            catalogue.len(),
            values.as_ptr(),
            values.len(),
            permits.as_ptr(),
            permits.len(),
            query.as_ptr(),
            query.len(),
            rewritten.as_mut_ptr(),
            rewritten.len(),
            answer.as_mut_ptr(),
            answer.len(),
            offers.as_mut_ptr(),
            offers.len(),
            display.as_mut_ptr(),
            display.len(),
        )
    }
    .into()
}

/// The number of the refusal, or 0, and how many bytes were written.
#[cfg(feature = "text")]
pub fn read_text(text: &[u8], names: &[u8], records: &mut [u8]) -> (u64, u64) {
    let Reading { number, length } = unsafe {
        waldumre_read_query(
            text.as_ptr(),
            text.len(),
            names.as_ptr(),
            names.len(),
            records.as_mut_ptr(),
            records.len(),
        )
    };
    (number, length)
}

#[cfg(feature = "text")]
#[allow(clippy::too_many_arguments)]
pub fn ask_text(
    catalogue: &[u8],
    values: &[i32],
    permits: &[u8],
    text: &[u8],
    names: &[u8],
    records: &mut [u8],
    rewritten: &mut [u8],
    answer: &mut [i64],
) -> Outcome {
    unsafe {
        waldumre_ask_text(
            catalogue.as_ptr(),
            catalogue.len(),
            values.as_ptr(),
            values.len(),
            permits.as_ptr(),
            permits.len(),
            text.as_ptr(),
            text.len(),
            names.as_ptr(),
            names.len(),
            records.as_mut_ptr(),
            records.len(),
            rewritten.as_mut_ptr(),
            rewritten.len(),
            answer.as_mut_ptr(),
            answer.len(),
        )
    }
    .into()
}
