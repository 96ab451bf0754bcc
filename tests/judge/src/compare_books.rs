//! Runs another label book against the judge's over seeded cases.

use crate::book::{grounds, Ground, LABELS};
use crate::catalogue::{LATEST, STORED};
use crate::gen::books::{book_case, BookCase};
use crate::gen::rng::case_seed;
use crate::gen::turned::with_kind;
use crate::gen::Case;
use crate::{refusal, Outcome};
use std::collections::{BTreeMap, BTreeSet};
use std::panic::{catch_unwind, AssertUnwindSafe};

pub type LabelBook =
    fn(&[u8], &[i32], &[u8], &[u8], &mut [u8], &mut [i64], &mut [i64], &mut [u8]) -> Outcome;

/// Elements before and after each lent buffer, which no call may touch.
const MARGIN: usize = 8;

/// What a call returned and left in its buffers, with their margins.
#[derive(Clone, PartialEq, Eq, Debug)]
pub struct BookRun {
    pub outcome: Outcome,
    rewritten: Vec<u8>,
    answer: Vec<i64>,
    offers: Vec<i64>,
    display: Vec<u8>,
}

pub(crate) fn with_margins<T: Copy>(before: &[T], margin: T) -> Vec<T> {
    [&[margin; MARGIN][..], before, &[margin; MARGIN]].concat()
}

pub(crate) fn lent<T>(buffer: &mut [T]) -> &mut [T] {
    let end = buffer.len() - MARGIN;
    &mut buffer[MARGIN..end]
}

/// None if the call panicked.
pub fn run_book(book: LabelBook, case: &BookCase) -> Option<BookRun> {
    let BookCase {
        case,
        offers_before,
        display_before,
    } = case;
    let mut rewritten = with_margins(&case.rewritten_before, 0xA5);
    let mut answer = with_margins(&case.answer_before, 0x5A5A_5A5A);
    let mut offers = with_margins(offers_before, 0x5A5A_5A5A);
    let mut display = with_margins(display_before, 0xA5);
    let call = || {
        book(
            &case.catalogue,
            &case.values,
            &case.permits,
            &case.query,
            lent(&mut rewritten),
            lent(&mut answer),
            lent(&mut offers),
            lent(&mut display),
        )
    };
    let outcome = catch_unwind(AssertUnwindSafe(call)).ok()?;
    Some(BookRun {
        outcome,
        rewritten,
        answer,
        offers,
        display,
    })
}

#[derive(Default)]
pub struct BookReport {
    pub calls: u64,
    /// How many calls were of each kind, as the judge sees it; a call can be of several.
    pub kinds: BTreeMap<String, u64>,
    pub differences: u64,
    /// The seed of the first difference, and what it is about.
    pub first: Option<(u64, String)>,
}

/// `n` book cases, put to the judge and to another label book.
pub fn compare_books(n: u64, seed: u64, book: LabelBook) -> BookReport {
    let mut report = BookReport::default();
    for index in 0..n {
        let seed = case_seed(seed, index);
        let case = book_case(seed);
        let judge = run_book(crate::label_book, &case).expect("the judge does not panic");
        for kind in kinds(&case, &judge) {
            *report.kinds.entry(kind).or_default() += 1;
        }
        let other = run_book(book, &case);
        report.calls += 1;
        if other.as_ref() != Some(&judge) {
            report.differences += 1;
            let about = || format!("{case:?}\njudge {judge:?}\nother {other:?}");
            report.first.get_or_insert_with(|| (seed, about()));
        }
    }
    report
}

fn kinds(case: &BookCase, run: &BookRun) -> Vec<String> {
    let number = run.outcome.number;
    let mut kinds = vec![format!("number {number}")];
    let is_length_wrong = case.offers_before.len() != LABELS;
    if number != 0 && number != refusal::LABEL_BOOK && is_length_wrong {
        kinds.push("refused before a wrong length".into());
    }
    // The accepted query under the book, by ask.
    let asked = crate::compare::run_ask(crate::ask, &case.case).expect("no panic");
    if asked.outcome.number != 0 {
        return kinds;
    }
    let columns = asked.outcome.columns as usize;
    let cells = &asked.answer[..asked.outcome.rows as usize * columns];
    let lengths = (case.offers_before.len(), case.display_before.len());
    let grounds: Vec<Ground> = grounds(columns, cells, lengths.0, lengths.1)
        .into_iter()
        .collect();
    if let [only] = grounds[..] {
        kinds.push(format!("53 by {only:?} alone"));
        if cells.is_empty() {
            kinds.push("53 without rows".into());
        }
    }
    if columns != 3 {
        return kinds;
    }
    let winning = firsts(cells);
    let labels: BTreeSet<i64> = winning.iter().map(|row| row[0]).collect();
    let rows = cells.len() / 3;
    let are_winning_good =
        crate::book::grounds(3, &winning.concat(), lengths.0, lengths.1).is_empty();
    if number == refusal::LABEL_BOOK && are_winning_good {
        kinds.push("53 by later rows alone".into());
    }
    if number == 0 {
        let mut note = |kind: &str, is_met: bool| {
            if is_met {
                kinds.push(format!("accepted, {kind}"));
            }
        };
        note("no row", rows == 0);
        note("labels repeat", winning.len() < rows);
        note("over 100 labels", winning.len() > 100);
        note("label 0", labels.contains(&0));
        note("label 499", labels.contains(&499));
        note("below a euro", winning.iter().any(|row| row[2] < 100));
        note(
            "1,000 euros up",
            winning.iter().any(|row| row[2] >= 100_000),
        );
        let is_wide = |row: &&[i64]| row[1] > i64::from(i32::MAX);
        note("an offer over 32 bits", winning.iter().any(is_wide));
        note("the walk decides", winning != firsts(&forward(case)));
    }
    kinds
}

/// The first row of each label.
fn firsts(cells: &[i64]) -> Vec<&[i64]> {
    let mut labels = BTreeSet::new();
    let rows = cells.chunks(3);
    rows.filter(|row| labels.insert(row[0])).collect()
}

/// The answer if kind 50 were walked as 48 is.
fn forward(case: &BookCase) -> Vec<i64> {
    let catalogue = with_kind(&case.case.catalogue, LATEST, STORED);
    let case = Case {
        catalogue,
        ..case.case.clone()
    };
    let mut asked = crate::compare::run_ask(crate::ask, &case).expect("no panic");
    let cells = asked.outcome.rows * asked.outcome.columns;
    asked.answer.truncate(cells as usize);
    asked.answer
}

impl BookReport {
    /// Enough calls of each kind.
    pub fn hold_kinds(&self) {
        for (kind, most) in [
            ("number 0", 30),
            ("number 41", 5),
            ("number 53", 20),
            ("53 by Targets alone", 3),
            ("53 by Label alone", 2),
            ("53 by Offer alone", 2),
            ("53 by Price alone", 2),
            ("53 by OffersLength alone", 2),
            ("53 by DisplayLength alone", 2),
            ("53 by later rows alone", 1),
            ("accepted, labels repeat", 15),
            ("accepted, the walk decides", 5),
        ] {
            let count = self.kinds.get(kind).copied().unwrap_or(0);
            assert!(100 * count >= most * self.calls, "{kind}: {count}");
        }
        for kind in [
            "53 without rows",
            "refused before a wrong length",
            "accepted, no row",
            "accepted, over 100 labels",
            "accepted, label 0",
            "accepted, label 499",
            "accepted, below a euro",
            "accepted, 1,000 euros up",
            "accepted, an offer over 32 bits",
        ] {
            let count = self.kinds.get(kind).copied().unwrap_or(0);
            assert!(1_000 * count >= self.calls, "{kind}: {count}");
        }
        for number in refusal::ALL {
            let count = self.kinds.get(&format!("number {number}"));
            assert!(count.copied().unwrap_or(0) >= 50, "refusal {number}");
        }
    }
}

impl std::fmt::Display for BookReport {
    fn fmt(&self, f: &mut std::fmt::Formatter) -> std::fmt::Result {
        writeln!(
            f,
            "book calls {}, differences {}",
            self.calls, self.differences
        )?;
        for (kind, count) in &self.kinds {
            writeln!(f, "  {kind}: {count}")?;
        }
        if let Some((seed, about)) = &self.first {
            writeln!(f, "book case seed {seed}\n{about}")?;
        }
        Ok(())
    }
}
