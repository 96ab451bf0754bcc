//! The label book: its examples, and the library's against the judge's over drawn calls, with all
//! cells and bytes of the four buffers and the margins around them.
#![cfg(feature = "book")]

use judge::compare_books::compare_books;
use judge::Outcome;
use library::label_book;

include!("../../cases/book.rs");

const CASES: u64 = 30_000;
const RUN_SEED: u64 = 500;

#[test]
fn the_book_agrees_with_the_judge() {
    let report = compare_books(CASES, RUN_SEED, label_book);
    println!("{report}");
    assert_eq!(report.differences, 0);
    report.hold_kinds();
}
