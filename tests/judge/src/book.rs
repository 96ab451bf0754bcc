//! The label book of Change 3: each label gets the first row of an answer that names it.

use crate::{ask, refusal, Outcome};
use std::collections::BTreeSet;

pub const LABELS: usize = 500;
/// Bytes of display for each label.
pub const WIDTH: usize = 7;
pub const DISPLAY_BYTES: usize = LABELS * WIDTH;

const TARGETS: usize = 3;
const MOST_PRICE: i64 = 999_999;
const NO_OFFER: i64 = -1;

/// Why an accepted query makes no book.
#[derive(Clone, Copy, PartialEq, Eq, PartialOrd, Ord, Debug)]
pub enum Ground {
    Targets,
    Label,
    Offer,
    Price,
    OffersLength,
    DisplayLength,
}

/// All grounds of refusal 53, over all rows of the answer.
pub fn grounds(columns: usize, cells: &[i64], offers: usize, display: usize) -> BTreeSet<Ground> {
    let mut grounds = BTreeSet::new();
    let mut note = |ground, is_met| {
        if is_met {
            grounds.insert(ground);
        }
    };
    note(Ground::Targets, columns != TARGETS);
    note(Ground::OffersLength, offers != LABELS);
    note(Ground::DisplayLength, display != DISPLAY_BYTES);
    if columns == TARGETS {
        for row in cells.chunks(TARGETS) {
            note(Ground::Label, !(0..LABELS as i64).contains(&row[0]));
            note(Ground::Offer, row[1] < 0);
            note(Ground::Price, !(0..=MOST_PRICE).contains(&row[2]));
        }
    }
    grounds
}

/// Euros right-aligned in four, a point, two digits of cents.
pub fn display_of(price: i64) -> String {
    format!("{:>4}.{:02}", price / 100, price % 100)
}

/// The guarded call, and the book of its answer. The book is written only if all is accepted.
#[allow(clippy::too_many_arguments)]
pub fn label_book(
    catalogue: &[u8],
    values: &[i32],
    permits: &[u8],
    query: &[u8],
    rewritten: &mut [u8],
    answer: &mut [i64],
    offers: &mut [i64],
    display: &mut [u8],
) -> Outcome {
    let outcome = ask(catalogue, values, permits, query, rewritten, answer);
    if outcome.number != 0 {
        return outcome;
    }
    let columns = outcome.columns as usize;
    let cells = &answer[..outcome.rows as usize * columns];
    if !grounds(columns, cells, offers.len(), display.len()).is_empty() {
        return Outcome {
            number: refusal::LABEL_BOOK,
            rows: 0,
            columns: 0,
            length: 0,
        };
    }
    for label in 0..LABELS {
        let first = cells.chunks(TARGETS).find(|row| row[0] == label as i64);
        let (offer, shown) = match first {
            Some(row) => (row[1], display_of(row[2])),
            None => (NO_OFFER, " ".repeat(WIDTH)),
        };
        offers[label] = offer;
        display[label * WIDTH..][..WIDTH].copy_from_slice(shown.as_bytes());
    }
    outcome
}
