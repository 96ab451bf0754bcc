//! Runs another reader of texts, and another call by text, against the judge's over seeded cases.

use crate::compare_books::{lent, with_margins};
use crate::gen::rng::case_seed;
use crate::gen::texts::{asked_text, text_case, AskedText, TextCase};
use crate::Outcome;
use std::collections::BTreeMap;
use std::fmt::{self, Debug, Display};
use std::panic::{catch_unwind, AssertUnwindSafe};

pub type ReadText = fn(&[u8], &[u8], &mut [u8]) -> (u64, u64);
pub type AskText =
    fn(&[u8], &[i32], &[u8], &[u8], &[u8], &mut [u8], &mut [u8], &mut [i64]) -> Outcome;

/// What the reader returned and left in its buffer, with the margins.
#[derive(Clone, PartialEq, Eq, Debug)]
pub struct Reading {
    pub number: u64,
    pub length: u64,
    records: Vec<u8>,
}

/// None if the call panicked.
pub fn run_read(read: ReadText, case: &TextCase) -> Option<Reading> {
    let mut records = with_margins(&case.records_before, 0xA5);
    let call = || read(&case.text, &case.names, lent(&mut records));
    let (number, length) = catch_unwind(AssertUnwindSafe(call)).ok()?;
    Some(Reading {
        number,
        length,
        records,
    })
}

/// What a call by text returned and left in its three buffers, with the margins.
#[derive(Clone, PartialEq, Eq, Debug)]
pub struct Asking {
    pub outcome: Outcome,
    records: Vec<u8>,
    rewritten: Vec<u8>,
    answer: Vec<i64>,
}

/// None if the call panicked.
pub fn run_ask_text(ask: AskText, asked: &AskedText) -> Option<Asking> {
    let AskedText { case, text } = asked;
    let mut records = with_margins(&text.records_before, 0xA5);
    let mut rewritten = with_margins(&case.rewritten_before, 0xA5);
    let mut answer = with_margins(&case.answer_before, 0x5A5A_5A5A);
    let call = || {
        ask(
            &case.catalogue,
            &case.values,
            &case.permits,
            &text.text,
            &text.names,
            lent(&mut records),
            lent(&mut rewritten),
            lent(&mut answer),
        )
    };
    let outcome = catch_unwind(AssertUnwindSafe(call)).ok()?;
    Some(Asking {
        outcome,
        records,
        rewritten,
        answer,
    })
}

#[derive(Default)]
pub struct TextReport {
    pub calls: u64,
    /// How often the judge gave each number.
    pub numbers: BTreeMap<u64, u64>,
    pub differences: u64,
    /// The seed of the first difference, and what it is about.
    pub first: Option<(u64, String)>,
}

impl TextReport {
    pub fn count(&self, number: u64) -> u64 {
        self.numbers.get(&number).copied().unwrap_or(0)
    }

    fn note<T: PartialEq + Debug>(
        &mut self,
        seed: u64,
        number: u64,
        judge: &T,
        other: &Option<T>,
        text: &TextCase,
    ) {
        self.calls += 1;
        *self.numbers.entry(number).or_default() += 1;
        if other.as_ref() != Some(judge) {
            self.differences += 1;
            let shown = String::from_utf8_lossy(&text.text);
            let about = || format!("{shown}\n{text:?}\njudge {judge:?}\nother {other:?}");
            self.first.get_or_insert_with(|| (seed, about()));
        }
    }
}

/// `n` texts, put to the judge and to another reader.
pub fn compare_texts(n: u64, seed: u64, read: ReadText) -> TextReport {
    let mut report = TextReport::default();
    for index in 0..n {
        let seed = case_seed(seed, index);
        let case = text_case(seed);
        let judge = run_read(crate::read_text, &case).expect("the judge does not panic");
        let other = run_read(read, &case);
        report.note(seed, judge.number, &judge, &other, &case);
    }
    report
}

/// `n` calls by text with a collection, put to the judge and to another such call.
pub fn compare_asked_texts(n: u64, seed: u64, ask: AskText) -> TextReport {
    let mut report = TextReport::default();
    for index in 0..n {
        let seed = case_seed(seed, index);
        let asked = asked_text(seed);
        let judge = run_ask_text(crate::ask_text, &asked).expect("the judge does not panic");
        let other = run_ask_text(ask, &asked);
        report.note(seed, judge.outcome.number, &judge, &other, &asked.text);
    }
    report
}

impl Display for TextReport {
    fn fmt(&self, f: &mut fmt::Formatter) -> fmt::Result {
        let TextReport {
            calls, differences, ..
        } = self;
        writeln!(f, "texts {calls}, differences {differences}")?;
        writeln!(f, "  by number {:?}", self.numbers)?;
        if let Some((seed, about)) = &self.first {
            writeln!(f, "text case seed {seed}\n{about}")?;
        }
        Ok(())
    }
}
