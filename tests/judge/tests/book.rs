//! The label book: examples, and what the drawn cases find in faulty copies.

use judge::book::{display_of, DISPLAY_BYTES, LABELS};
use judge::compare_books::{compare_books, LabelBook};
use judge::{ask, label_book, Outcome};

include!("../../cases/book.rs");

const CASES: u64 = 20_000;
const FEWER_CASES: u64 = 3_000;

#[test]
fn the_judge_agrees_with_itself() {
    let report = compare_books(CASES, 3, label_book);
    println!("{report}");
    assert_eq!(report.differences, 0);
    report.hold_kinds();
}

/// What is wrong with a copy.
mod wrong {
    pub const NOTHING: u8 = 0;
    pub const LAST_ROW_WINS: u8 = 1;
    pub const ONLY_WINNING_ROWS_ARE_CHECKED: u8 = 2;
    pub const HALF_WRITTEN_AT_53: u8 = 3;
    pub const LEADING_ZEROS: u8 = 4;
    pub const NO_DIGIT_OF_EUROS: u8 = 5;
    pub const UNNAMED_LABELS_ARE_KEPT: u8 = 6;
    pub const COUNTS_AT_53: u8 = 7;
    pub const ANSWER_KEPT_AT_53: u8 = 8;
    pub const BOOK_AT_41: u8 = 9;
    pub const LENGTHS_FIRST: u8 = 10;
    pub const OFFER_OF_32_BITS: u8 = 11;
    pub const LABEL_500: u8 = 12;
    pub const PRICE_1_000_000: u8 = 13;
    pub const OFFER_MINUS_1: u8 = 14;
    pub const NO_ROWS_NO_REFUSAL: u8 = 15;
    pub const LEFT_ALIGNED: u8 = 16;
    pub const ONE_DIGIT_OF_CENTS: u8 = 17;
    pub const ZERO_FOR_NO_OFFER: u8 = 18;
    pub const LONGER_BOOKS: u8 = 19;
    pub const REWRITTEN_KEPT_AT_53: u8 = 20;
    pub const MARGIN_TOUCHED: u8 = 21;
}
use wrong::*;

fn shown<const WRONG: u8>(price: i64) -> String {
    let (euros, cents) = (price / 100, price % 100);
    match WRONG {
        LEADING_ZEROS => format!("{euros:04}.{cents:02}"),
        NO_DIGIT_OF_EUROS if euros == 0 => format!("    .{cents:02}"),
        LEFT_ALIGNED => format!("{euros}.{cents:02}    ")[..7].to_string(),
        ONE_DIGIT_OF_CENTS => format!("{euros:4}.{cents} ")[..7].to_string(),
        _ => display_of(price),
    }
}

/// A copy of the label book with one thing wrong.
#[allow(clippy::too_many_arguments)]
fn copy<const WRONG: u8>(
    c: &[u8],
    v: &[i32],
    p: &[u8],
    q: &[u8],
    r: &mut [u8],
    a: &mut [i64],
    offers: &mut [i64],
    display: &mut [u8],
) -> Outcome {
    let refused = Outcome {
        number: 53,
        rows: 0,
        columns: 0,
        length: 0,
    };
    let is_length_good = if WRONG == LONGER_BOOKS {
        offers.len() >= LABELS && display.len() >= DISPLAY_BYTES
    } else {
        offers.len() == LABELS && display.len() == DISPLAY_BYTES
    };
    if WRONG == LENGTHS_FIRST && !is_length_good {
        return refused;
    }
    let (rewritten_before, answer_before) = (r.to_vec(), a.to_vec());
    let outcome = ask(c, v, p, q, r, a);
    let is_answered = outcome.number == 0 || WRONG == BOOK_AT_41 && outcome.number == 41;
    if !is_answered {
        return outcome;
    }
    let rows: Vec<[i64; 3]> = a[..(outcome.rows * outcome.columns) as usize]
        .chunks(outcome.columns as usize)
        .map(|row| [row[0], *row.get(1).unwrap_or(&0), *row.get(2).unwrap_or(&0)])
        .collect();
    let is_good = |row: &[i64; 3]| {
        (0..500 + i64::from(WRONG == LABEL_500)).contains(&row[0])
            && row[1] >= -i64::from(WRONG == OFFER_MINUS_1)
            && (0..1_000_000 + i64::from(WRONG == PRICE_1_000_000)).contains(&row[2])
    };
    let named = |label: i64| rows.iter().find(|row| row[0] == label).copied();
    let checked: Vec<[i64; 3]> = if WRONG == ONLY_WINNING_ROWS_ARE_CHECKED {
        let first = |row: &&[i64; 3]| named(row[0]).as_ref() == Some(row);
        rows.iter().filter(first).copied().collect()
    } else {
        rows.clone()
    };
    let are_targets_good = outcome.columns == 3 || WRONG == NO_ROWS_NO_REFUSAL && rows.is_empty();
    if !is_length_good || !are_targets_good || !checked.iter().all(is_good) {
        if WRONG == HALF_WRITTEN_AT_53 && is_length_good && are_targets_good {
            for row in rows.iter().take_while(|row| is_good(row)) {
                offers[row[0] as usize] = row[1];
            }
        }
        match WRONG {
            ANSWER_KEPT_AT_53 => a.copy_from_slice(&answer_before),
            REWRITTEN_KEPT_AT_53 => r.copy_from_slice(&rewritten_before),
            _ => {}
        }
        return match WRONG {
            COUNTS_AT_53 => Outcome {
                number: 53,
                ..outcome
            },
            _ if outcome.number == 41 => outcome,
            _ => refused,
        };
    }
    for label in 0..LABELS {
        let row = match WRONG {
            LAST_ROW_WINS => rows
                .iter()
                .rev()
                .find(|row| row[0] == label as i64)
                .copied(),
            _ => named(label as i64),
        };
        let (offer, text) = match row {
            Some(row) => (row[1], shown::<WRONG>(row[2].min(999_999))),
            None if WRONG == UNNAMED_LABELS_ARE_KEPT => continue,
            None if WRONG == ZERO_FOR_NO_OFFER => (0, " ".repeat(7)),
            None => (-1, " ".repeat(7)),
        };
        offers[label] = match WRONG {
            OFFER_OF_32_BITS => i64::from(offer as i32),
            _ => offer,
        };
        display[7 * label..7 * label + 7].copy_from_slice(text.as_bytes());
    }
    if WRONG == MARGIN_TOUCHED {
        // One byte past the display.
        unsafe { *display.as_mut_ptr().add(DISPLAY_BYTES) = 0 };
    }
    outcome
}

#[test]
fn a_right_copy_passes() {
    assert_eq!(
        compare_books(FEWER_CASES, 4, copy::<NOTHING>).differences,
        0
    );
}

#[test]
fn faulty_copies_are_found() {
    let copies: [(&str, LabelBook); 21] = [
        ("the last row wins", copy::<LAST_ROW_WINS>),
        (
            "only winning rows are checked",
            copy::<ONLY_WINNING_ROWS_ARE_CHECKED>,
        ),
        ("half written at 53", copy::<HALF_WRITTEN_AT_53>),
        ("leading zeros", copy::<LEADING_ZEROS>),
        ("5 cents as .05", copy::<NO_DIGIT_OF_EUROS>),
        ("unnamed labels are kept", copy::<UNNAMED_LABELS_ARE_KEPT>),
        ("counts at 53", copy::<COUNTS_AT_53>),
        ("the answer taken back at 53", copy::<ANSWER_KEPT_AT_53>),
        ("a book at 41", copy::<BOOK_AT_41>),
        ("lengths before all else", copy::<LENGTHS_FIRST>),
        ("offers of 32 bits", copy::<OFFER_OF_32_BITS>),
        ("label 500 passes", copy::<LABEL_500>),
        ("1,000,000 cents pass", copy::<PRICE_1_000_000>),
        ("offer -1 passes", copy::<OFFER_MINUS_1>),
        ("no rows, so any targets", copy::<NO_ROWS_NO_REFUSAL>),
        ("left-aligned", copy::<LEFT_ALIGNED>),
        ("5 cents as .5", copy::<ONE_DIGIT_OF_CENTS>),
        ("0 for no offer", copy::<ZERO_FOR_NO_OFFER>),
        ("longer books pass", copy::<LONGER_BOOKS>),
        (
            "the rewritten query taken back at 53",
            copy::<REWRITTEN_KEPT_AT_53>,
        ),
        ("a byte past the display", copy::<MARGIN_TOUCHED>),
    ];
    for (name, copy) in copies {
        let report = compare_books(FEWER_CASES, 4, copy);
        println!("{name}: {} of {FEWER_CASES}", report.differences);
        assert!(report.differences > 0, "{name}");
    }
}
