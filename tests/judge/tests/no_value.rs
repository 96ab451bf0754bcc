//! Change 2: examples, and a second evaluator: right, it agrees with the judge; with one thing wrong, it is found.

use judge::calls::{guarded, plain};
use judge::catalogue::Collection;
use judge::compare::{compare_seed, Ask, Evaluate, Report};
use judge::gen::rng::case_seed;
use judge::query::{Aggregate, Condition, Function, Operator, Query, Term};
use judge::{ask, evaluate, Outcome};
use std::cmp::Ordering;

include!("../../cases/no_value.rs");

const CASES: u64 = 20_000;
const FEWER_CASES: u64 = 6_000;

/// What is wrong with a copy.
mod wrong {
    pub const NOTHING: u8 = 0;
    pub const ALL_ARE_0: u8 = 1;
    pub const COMPARED_AS_0: u8 = 2;
    pub const A_TARGET_IS_0: u8 = 3;
    pub const NONE_EQUALS_NONE: u8 = 4;
    pub const UNEQUAL_HOLDS: u8 = 5;
    pub const NOT_IN_THE_OPERATOR: u8 = 6;
    pub const NOT_OF_NONE_FAILS: u8 = 7;
    pub const SUM_IS_NONE: u8 = 8;
    pub const COUNT_IS_NONE: u8 = 9;
    pub const AVE_IS_0: u8 = 10;
    pub const MAX_IS_0: u8 = 11;
    pub const MIN_IS_0: u8 = 12;
    pub const A_ROW_UNLESS_ALL_ARE_NONE: u8 = 13;
    pub const DROPPED_ROWS_FILL_THE_BUFFER: u8 = 14;
    pub const OR_FAILS_BESIDE_NONE: u8 = 15;
    pub const THE_FIRST_TARGET_DECIDES: u8 = 16;
}
use wrong::*;

/// A sum over a count, or a whole number over 1; count 0 is no value.
#[derive(Clone, Copy)]
struct Fraction {
    sum: i128,
    count: i128,
}

struct Copy<'a, const WRONG: u8> {
    collection: &'a Collection<'a>,
}

type Rows<'a> = Vec<(u8, &'a [i32])>;

impl<'a, const WRONG: u8> Copy<'a, WRONG> {
    fn term(&self, term: &Term, rows: &Rows<'a>) -> Fraction {
        let whole = |number: i128| Fraction {
            sum: number,
            count: 1,
        };
        match term {
            Term::Constant(number) => whole(i128::from(*number)),
            Term::Attribute {
                variable,
                attribute,
            } => {
                let found = rows.iter().rev().find(|(bound, _)| bound == variable);
                whole(i128::from(found.unwrap().1[usize::from(*attribute)]))
            }
            Term::Aggregate(aggregate) => self.aggregate(aggregate),
        }
    }

    fn aggregate(&self, of: &Aggregate) -> Fraction {
        let (mut sum, mut count, mut most, mut least) = (0i128, 0i128, i128::MIN, i128::MAX);
        for row in self.collection.rows(of.binding.relation) {
            if self.holds(&of.condition, &vec![(of.binding.variable, row)]) {
                let value = i128::from(row[usize::from(of.attribute)]);
                (sum, count) = (sum + value, count + 1);
                (most, least) = (most.max(value), least.min(value));
            }
        }
        let some = i128::from(count > 0);
        let value = match of.function {
            Function::Count => Fraction {
                sum: count,
                count: if WRONG == COUNT_IS_NONE { some } else { 1 },
            },
            Function::Sum => Fraction {
                sum,
                count: if WRONG == SUM_IS_NONE { some } else { 1 },
            },
            Function::Average => Fraction { sum, count },
            Function::Maximum => Fraction {
                sum: most,
                count: some,
            },
            Function::Minimum => Fraction {
                sum: least,
                count: some,
            },
        };
        let is_0 = match of.function {
            Function::Average => WRONG == AVE_IS_0,
            Function::Maximum => WRONG == MAX_IS_0,
            Function::Minimum => WRONG == MIN_IS_0,
            _ => false,
        };
        if count == 0 && (is_0 || WRONG == ALL_ARE_0) {
            return Fraction { sum: 0, count: 1 };
        }
        value
    }

    fn compare(&self, operator: Operator, mut left: Fraction, mut right: Fraction) -> bool {
        if WRONG == COMPARED_AS_0 {
            for side in [&mut left, &mut right] {
                if side.count == 0 {
                    *side = Fraction { sum: 0, count: 1 };
                }
            }
        }
        if left.count == 0 || right.count == 0 {
            return match WRONG {
                NONE_EQUALS_NONE => left.count == right.count && operator.holds(Ordering::Equal),
                UNEQUAL_HOLDS => operator == Operator::Unequal,
                _ => false,
            };
        }
        operator.holds((left.sum * right.count).cmp(&(right.sum * left.count)))
    }

    /// A comparison with a side that has no value, somewhere at the top of a condition.
    fn lacks_value(&self, condition: &Condition, rows: &Rows<'a>) -> bool {
        match condition {
            Condition::Compare(_, left, right) => {
                self.term(left, rows).count == 0 || self.term(right, rows).count == 0
            }
            _ => false,
        }
    }

    fn holds(&self, condition: &Condition, rows: &Rows<'a>) -> bool {
        match condition {
            Condition::True => true,
            Condition::False => false,
            Condition::Not(inner) => match (WRONG, &**inner) {
                (NOT_IN_THE_OPERATOR, Condition::Compare(operator, left, right)) => {
                    let (left, right) = (self.term(left, rows), self.term(right, rows));
                    self.compare(opposite(*operator), left, right)
                }
                (NOT_OF_NONE_FAILS, inner) if self.lacks_value(inner, rows) => false,
                (_, inner) => !self.holds(inner, rows),
            },
            Condition::And(left, right) => self.holds(left, rows) && self.holds(right, rows),
            Condition::Or(left, right) => {
                let is_beside = self.lacks_value(left, rows) || self.lacks_value(right, rows);
                let fails = WRONG == OR_FAILS_BESIDE_NONE && is_beside;
                !fails && (self.holds(left, rows) || self.holds(right, rows))
            }
            Condition::Compare(operator, left, right) => {
                self.compare(*operator, self.term(left, rows), self.term(right, rows))
            }
            Condition::Exists(binding, inner) => {
                let mut walk = self.collection.rows(binding.relation);
                walk.any(|row| {
                    let mut rows = rows.clone();
                    rows.push((binding.variable, row));
                    self.holds(inner, &rows)
                })
            }
        }
    }

    /// All assignments, the last range fastest.
    fn assignments(&self, query: &Query) -> Vec<Rows<'a>> {
        let mut all: Vec<Rows<'a>> = vec![vec![]];
        for range in &query.ranges {
            let mut longer = Vec::new();
            for rows in all {
                for row in self.collection.rows(range.relation) {
                    let mut rows = rows.clone();
                    rows.push((range.variable, row));
                    longer.push(rows);
                }
            }
            all = longer;
        }
        all
    }

    fn deliver(&self, query: &Query, answer: &mut [i64]) -> Outcome {
        let columns = query.targets.len();
        let fitting = answer.len() / columns;
        let (mut written, mut number): (Vec<Vec<i64>>, u64) = (Vec::new(), 0);
        let mut dropped = 0;
        for rows in self.assignments(query) {
            if !self.holds(&query.condition, &rows) {
                continue;
            }
            let terms = query.targets.iter().map(|target| self.term(target, &rows));
            let terms: Vec<Fraction> = terms.collect();
            let is_none = |term: &Fraction| term.count == 0;
            let is_dropped = match WRONG {
                A_TARGET_IS_0 => false,
                A_ROW_UNLESS_ALL_ARE_NONE => terms.iter().all(is_none),
                THE_FIRST_TARGET_DECIDES => is_none(&terms[0]),
                _ => terms.iter().any(is_none),
            };
            if is_dropped {
                dropped = 1;
                continue;
            }
            let row: Vec<i64> = terms.into_iter().map(rounded).collect();
            if !written.contains(&row) {
                written.push(row);
            }
        }
        let counted = match WRONG {
            DROPPED_ROWS_FILL_THE_BUFFER => written.len() + dropped,
            _ => written.len(),
        };
        if counted > fitting {
            number = 41;
        }
        written.truncate(fitting);
        for (place, row) in answer.chunks_exact_mut(columns).zip(&written) {
            place.copy_from_slice(row);
        }
        Outcome {
            number,
            rows: written.len() as u64,
            columns: columns as u64,
            length: 0,
        }
    }
}

fn opposite(operator: Operator) -> Operator {
    match operator {
        Operator::Equal => Operator::Unequal,
        Operator::Unequal => Operator::Equal,
        Operator::Less => Operator::AtLeast,
        Operator::AtLeast => Operator::Less,
        Operator::AtMost => Operator::Greater,
        Operator::Greater => Operator::AtMost,
    }
}

/// To the nearest, halves away from zero; 0 stands for no value in copies that write it.
fn rounded(term: Fraction) -> i64 {
    if term.count == 0 {
        return 0;
    }
    let twice = 2 * term.sum.abs() + term.count;
    (term.sum.signum() * (twice / (2 * term.count))) as i64
}

fn refused(number: u64) -> Outcome {
    Outcome {
        number,
        rows: 0,
        columns: 0,
        length: 0,
    }
}

fn copy_evaluate<const WRONG: u8>(c: &[u8], v: &[i32], q: &[u8], a: &mut [i64]) -> Outcome {
    match plain(c, v, q) {
        Ok((collection, query)) => {
            let collection = &collection;
            Copy::<WRONG> { collection }.deliver(&query, a)
        }
        Err(number) => refused(number),
    }
}

fn copy_ask<const WRONG: u8>(
    c: &[u8],
    v: &[i32],
    p: &[u8],
    q: &[u8],
    r: &mut [u8],
    a: &mut [i64],
) -> Outcome {
    let call = match guarded(c, v, p, q) {
        Ok(call) => call,
        Err(number) => return refused(number),
    };
    let bytes = call.rewritten.bytes();
    if bytes.len() > r.len() {
        return refused(40);
    }
    r[..bytes.len()].copy_from_slice(&bytes);
    let collection = &call.collection;
    let outcome = Copy::<WRONG> { collection }.deliver(&call.rewritten, a);
    Outcome {
        length: bytes.len() as u64,
        ..outcome
    }
}

fn compared(cases: u64, ask: Ask, evaluate: Evaluate) -> Report {
    let mut report = Report::default();
    for index in 0..cases {
        compare_seed(case_seed(2, index), ask, evaluate, &mut report);
    }
    report
}

#[test]
fn two_evaluators_agree() {
    let report = compared(CASES, copy_ask::<NOTHING>, copy_evaluate::<NOTHING>);
    println!("{report}");
    assert_eq!(report.differences, 0);
}

#[test]
fn faulty_copies_are_found() {
    macro_rules! copies {
        ($($name:ident),*) => {
            [$((stringify!($name), copy_ask::<{ wrong::$name }> as Ask, copy_evaluate::<{ wrong::$name }> as Evaluate)),*]
        };
    }
    let copies = copies![
        ALL_ARE_0,
        COMPARED_AS_0,
        A_TARGET_IS_0,
        NONE_EQUALS_NONE,
        UNEQUAL_HOLDS,
        NOT_IN_THE_OPERATOR,
        NOT_OF_NONE_FAILS,
        SUM_IS_NONE,
        COUNT_IS_NONE,
        AVE_IS_0,
        MAX_IS_0,
        MIN_IS_0,
        A_ROW_UNLESS_ALL_ARE_NONE,
        DROPPED_ROWS_FILL_THE_BUFFER,
        OR_FAILS_BESIDE_NONE,
        THE_FIRST_TARGET_DECIDES
    ];
    for (name, faulty_ask, faulty_evaluate) in copies {
        let by_ask = compared(FEWER_CASES, faulty_ask, evaluate).differences;
        let by_evaluate = compared(FEWER_CASES, ask, faulty_evaluate).differences;
        println!("{name}: by ask {by_ask}, by evaluate {by_evaluate}");
        assert!(by_ask > 0 && by_evaluate > 0, "{name}");
    }
}
