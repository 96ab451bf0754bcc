//! Runs another implementation against this one over seeded cases.

use crate::catalogue::{LATEST, STORED, WORKSPACE};
use crate::gen::limits::{evaluate_case, EvaluateCase};
use crate::gen::pairs::pair;
use crate::gen::rng::case_seed;
use crate::gen::{self, Case};
use crate::Outcome;
use std::collections::BTreeMap;
use std::fmt;
use std::panic::{catch_unwind, AssertUnwindSafe};

pub type Ask = fn(&[u8], &[i32], &[u8], &[u8], &mut [u8], &mut [i64]) -> Outcome;
pub type Evaluate = fn(&[u8], &[i32], &[u8], &mut [i64]) -> Outcome;

/// What a call returned and left in its buffers.
#[derive(Clone, PartialEq, Eq, Debug)]
pub struct Run {
    pub outcome: Outcome,
    pub rewritten: Vec<u8>,
    pub answer: Vec<i64>,
}

/// None if the call panicked.
pub fn run_ask(ask: Ask, case: &Case) -> Option<Run> {
    let mut rewritten = case.rewritten_before.clone();
    let mut answer = case.answer_before.clone();
    let Case {
        catalogue,
        values,
        permits,
        query,
        ..
    } = case;
    let call = || {
        ask(
            catalogue,
            values,
            permits,
            query,
            &mut rewritten,
            &mut answer,
        )
    };
    let outcome = catch_unwind(AssertUnwindSafe(call)).ok()?;
    Some(Run {
        outcome,
        rewritten,
        answer,
    })
}

/// None if the call panicked.
pub fn run_evaluate(evaluate: Evaluate, case: &EvaluateCase) -> Option<Run> {
    let mut answer = case.answer_before.clone();
    let call = || evaluate(&case.catalogue, &case.values, &case.query, &mut answer);
    let outcome = catch_unwind(AssertUnwindSafe(call)).ok()?;
    Some(Run {
        outcome,
        rewritten: Vec::new(),
        answer,
    })
}

const KEPT_DIFFERENCES: usize = 5;

#[derive(Default)]
pub struct Report {
    pub ask_calls: u64,
    pub evaluate_calls: u64,
    /// Calls by the judge's number, 0 for accepted.
    pub ask_numbers: BTreeMap<u64, u64>,
    pub evaluate_numbers: BTreeMap<u64, u64>,
    /// Answered calls of ask with a relation of kind 50, and those with all three kinds.
    pub latest: u64,
    pub mixed: u64,
    pub differences: u64,
    /// The first differences.
    pub first: Vec<Difference>,
}

pub struct Difference {
    /// `compare_seed` with it runs the case again.
    pub seed: u64,
    /// The whole case, ready to be read.
    pub case: String,
    pub judge: Option<Run>,
    pub other: Option<Run>,
}

/// Compares number, counts and both buffers whole, over n seeded cases.
pub fn compare(n: u64, seed: u64, ask_fn: Ask, evaluate_fn: Evaluate) -> Report {
    let mut report = Report::default();
    for index in 0..n {
        compare_seed(case_seed(seed, index), ask_fn, evaluate_fn, &mut report);
    }
    report
}

/// One case for ask, put to evaluate too, before and after the rewriting.
/// One seed in 32 adds a case at evaluate's limits, another a pair for demand 3: both take long to make.
pub fn compare_seed(seed: u64, ask: Ask, evaluate: Evaluate, report: &mut Report) {
    let case = gen::case(seed);
    let run = report.ask(seed, ask, &case);
    report.evaluate(seed, evaluate, &plain_case(&case, &case.query));
    if run.outcome.length > 0 {
        let rewritten = &run.rewritten[..run.outcome.length as usize];
        report.evaluate(seed, evaluate, &plain_case(&case, rewritten));
    }
    if seed.is_multiple_of(32) {
        report.evaluate(seed, evaluate, &evaluate_case(seed));
    }
    if seed % 32 == 1 {
        if let Some(pair) = pair(seed) {
            report.ask(seed, ask, &pair.case);
            report.ask(seed, ask, &pair.other());
        }
    }
}

/// A query over the case's collection and answer buffer, for evaluate.
pub fn plain_case(case: &Case, query: &[u8]) -> EvaluateCase {
    EvaluateCase {
        catalogue: case.catalogue.clone(),
        values: case.values.clone(),
        query: query.to_vec(),
        answer_before: case.answer_before.clone(),
    }
}

impl Report {
    fn ask(&mut self, seed: u64, other: Ask, case: &Case) -> Run {
        let judge = run_ask(crate::ask, case).expect("the judge does not panic");
        self.ask_calls += 1;
        *self.ask_numbers.entry(judge.outcome.number).or_default() += 1;
        let has = |kind| case.catalogue.chunks(4).any(|record| record[0] == kind);
        if judge.outcome.rows > 0 && has(LATEST) {
            self.latest += 1;
            self.mixed += u64::from(has(STORED) && has(WORKSPACE));
        }
        self.note(seed, &judge, run_ask(other, case), || describe_ask(case));
        judge
    }

    fn evaluate(&mut self, seed: u64, other: Evaluate, case: &EvaluateCase) {
        let judge = run_evaluate(crate::evaluate, case).expect("the judge does not panic");
        self.evaluate_calls += 1;
        *self
            .evaluate_numbers
            .entry(judge.outcome.number)
            .or_default() += 1;
        self.note(seed, &judge, run_evaluate(other, case), || {
            describe_evaluate(case)
        });
    }

    fn note(&mut self, seed: u64, judge: &Run, other: Option<Run>, case: impl Fn() -> String) {
        if other.as_ref() == Some(judge) {
            return;
        }
        self.differences += 1;
        if self.first.len() < KEPT_DIFFERENCES {
            let judge = Some(judge.clone());
            self.first.push(Difference {
                seed,
                case: case(),
                judge,
                other,
            });
        }
    }
}

fn describe_ask(case: &Case) -> String {
    let Case {
        catalogue,
        values,
        permits,
        query,
        rewritten_before,
        answer_before,
    } = case;
    format!(
        "call ask\ncatalogue {catalogue:?}\nvalues {values:?}\npermits {permits:?}\n\
         query {query:?}\nrewritten before {rewritten_before:?}\nanswer before {answer_before:?}"
    )
}

fn describe_evaluate(case: &EvaluateCase) -> String {
    let EvaluateCase {
        catalogue,
        values,
        query,
        answer_before,
    } = case;
    format!(
        "call evaluate\ncatalogue {catalogue:?}\nvalues {values:?}\n\
         query {query:?}\nanswer before {answer_before:?}"
    )
}

fn write_run(f: &mut fmt::Formatter, name: &str, run: &Option<Run>) -> fmt::Result {
    match run {
        None => writeln!(f, "{name} panicked"),
        Some(Run {
            outcome,
            rewritten,
            answer,
        }) => {
            writeln!(
                f,
                "{name} {outcome:?}\n  rewritten {rewritten:?}\n  answer {answer:?}"
            )
        }
    }
}

impl fmt::Display for Difference {
    fn fmt(&self, f: &mut fmt::Formatter) -> fmt::Result {
        writeln!(f, "case seed {}\n{}", self.seed, self.case)?;
        write_run(f, "judge", &self.judge)?;
        write_run(f, "other", &self.other)
    }
}

impl fmt::Display for Report {
    fn fmt(&self, f: &mut fmt::Formatter) -> fmt::Result {
        writeln!(
            f,
            "ask calls {}, by number {:?}",
            self.ask_calls, self.ask_numbers
        )?;
        writeln!(
            f,
            "evaluate calls {}, by number {:?}",
            self.evaluate_calls, self.evaluate_numbers
        )?;
        writeln!(
            f,
            "answered with rows over kind 50 {}, over all three kinds {}",
            self.latest, self.mixed
        )?;
        writeln!(f, "differences {}", self.differences)?;
        for difference in &self.first {
            writeln!(f, "\n{difference}")?;
        }
        Ok(())
    }
}
