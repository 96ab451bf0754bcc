//! compare finds nothing between the judge and itself, and finds each faulty copy.

use judge::catalogue::{LATEST, STORED, WORKSPACE};
use judge::compare::{compare_seed, Ask, Evaluate, Report};
use judge::gen::turned::{turned, with_kind};
use judge::permits::{read_flat, HEADER};
use judge::{ask, compare, evaluate, refusal, Outcome};

const CASES: u64 = 2_000;

#[test]
fn the_judge_agrees_with_itself() {
    let report = compare(CASES, 7, ask, evaluate);
    println!("{report}");
    assert_eq!(report.differences, 0);
    assert_eq!(report.ask_calls, report.ask_numbers.values().sum::<u64>());
}

/// Every difference can be run again from its seed.
fn assert_found(ask_fn: Ask, evaluate_fn: Evaluate) {
    let report = compare(CASES, 7, ask_fn, evaluate_fn);
    assert!(report.differences > 0);
    let mut again = Report::default();
    compare_seed(report.first[0].seed, ask_fn, evaluate_fn, &mut again);
    assert_eq!(again.first[0].case, report.first[0].case);
}

#[test]
fn turning_everything_down_is_found() {
    assert_found(
        |_, _, _, _, _, _| Outcome {
            number: 33,
            rows: 0,
            columns: 0,
            length: 0,
        },
        evaluate,
    );
}

#[test]
fn no_rows_is_found() {
    fn empty_answer(
        c: &[u8],
        v: &[i32],
        p: &[u8],
        q: &[u8],
        r: &mut [u8],
        a: &mut [i64],
    ) -> Outcome {
        let before = a.to_vec();
        let outcome = ask(c, v, p, q, r, a);
        a.copy_from_slice(&before);
        Outcome { rows: 0, ..outcome }
    }
    assert_found(empty_answer, evaluate);
}

#[test]
fn the_query_written_back_unchanged_is_found() {
    fn unguarded(c: &[u8], v: &[i32], p: &[u8], q: &[u8], r: &mut [u8], a: &mut [i64]) -> Outcome {
        let mut scratch = vec![0; 17_216];
        let outcome = ask(c, v, p, q, &mut scratch, &mut vec![0; a.len()]);
        if outcome.length == 0 || q.len() > r.len() {
            return outcome;
        }
        r[..q.len()].copy_from_slice(q);
        Outcome {
            length: q.len() as u64,
            ..evaluate(c, v, q, a)
        }
    }
    assert_found(unguarded, evaluate);
}

#[test]
fn a_cell_past_the_answer_is_found() {
    fn one_more(c: &[u8], v: &[i32], q: &[u8], a: &mut [i64]) -> Outcome {
        let outcome = evaluate(c, v, q, a);
        let cells = (outcome.rows * outcome.columns) as usize;
        if let Some(cell) = a.get_mut(cells) {
            *cell = 0;
        }
        outcome
    }
    assert_found(ask, one_more);
}

#[test]
fn an_early_41_is_found() {
    fn early(c: &[u8], v: &[i32], p: &[u8], q: &[u8], r: &mut [u8], a: &mut [i64]) -> Outcome {
        let outcome = ask(c, v, p, q, r, a);
        let is_full = outcome.number == 0 && (outcome.rows * outcome.columns) as usize == a.len();
        Outcome {
            number: if is_full {
                refusal::ANSWER_BUFFER
            } else {
                outcome.number
            },
            ..outcome
        }
    }
    assert_found(early, evaluate);
}

#[test]
fn a_panic_is_found() {
    fn panics_on_long(c: &[u8], v: &[i32], q: &[u8], a: &mut [i64]) -> Outcome {
        assert!(q.len() < 17_216, "this panic is part of the test");
        evaluate(c, v, q, a)
    }
    assert_found(ask, panics_on_long);
}

/// The list with each NO ACCESS permit's condition replaced.
fn no_access_as(list: &[u8], condition: &[u8]) -> Vec<u8> {
    let Some(permits) = read_flat(list) else {
        return list.to_vec();
    };
    let replaced = permits.iter().flat_map(|permit| {
        let bytes = &list[permit.offset..permit.offset + permit.length];
        match bytes[HEADER..] {
            [17] => [&bytes[..HEADER], condition].concat(),
            _ => bytes.to_vec(),
        }
    });
    replaced.collect()
}

#[test]
fn no_access_as_an_ordinary_condition_is_found() {
    fn applying(c: &[u8], v: &[i32], p: &[u8], q: &[u8], r: &mut [u8], a: &mut [i64]) -> Outcome {
        ask(c, v, &no_access_as(p, &[18, 16]), q, r, a)
    }
    assert_found(applying, evaluate);
}

/// A condition that is never met bars nothing.
#[test]
fn a_bar_for_every_condition_that_fails_is_found() {
    fn barring(c: &[u8], v: &[i32], p: &[u8], q: &[u8], r: &mut [u8], a: &mut [i64]) -> Outcome {
        let short: Vec<u8> = match read_flat(p) {
            Some(permits) => permits
                .iter()
                .flat_map(|permit| {
                    let bytes = &p[permit.offset..permit.offset + permit.length];
                    match bytes[HEADER..] {
                        [18, 16] => [&bytes[..HEADER], &[17]].concat(),
                        _ => bytes.to_vec(),
                    }
                })
                .collect(),
            None => p.to_vec(),
        };
        ask(c, v, &short, q, r, a)
    }
    assert_found(barring, evaluate);
}

/// A copy of both calls that reads another collection in place of the one it is given.
macro_rules! over_another_collection {
    ($ask:ident, $evaluate:ident, $other:expr) => {
        fn $ask(c: &[u8], v: &[i32], p: &[u8], q: &[u8], r: &mut [u8], a: &mut [i64]) -> Outcome {
            let (catalogue, values) = $other(c, v);
            ask(&catalogue, &values, p, q, r, a)
        }
        fn $evaluate(c: &[u8], v: &[i32], q: &[u8], a: &mut [i64]) -> Outcome {
            let (catalogue, values) = $other(c, v);
            evaluate(&catalogue, &values, q, a)
        }
    };
}

/// Kind 50 in the stored order: found in each call by itself.
#[test]
fn kind_50_in_the_stored_order_is_found() {
    over_another_collection!(forward_ask, forward_evaluate, |c: &[u8], v: &[i32]| (
        with_kind(c, LATEST, STORED),
        v.to_vec()
    ));
    assert_found(forward_ask, evaluate);
    assert_found(ask, forward_evaluate);
}

/// A workspace beside it stays forward.
#[test]
fn a_workspace_from_its_last_row_is_found() {
    fn backward(catalogue: &[u8], values: &[i32]) -> (Vec<u8>, Vec<i32>) {
        // what is 49 is turned round, and what is 50 stays
        let marked = with_kind(&with_kind(catalogue, LATEST, 0), WORKSPACE, LATEST);
        let shown = with_kind(&marked, 0, STORED);
        match turned(&shown, values) {
            Some((_, values)) => (catalogue.to_vec(), values),
            None => (catalogue.to_vec(), values.to_vec()),
        }
    }
    over_another_collection!(backward_ask, backward_evaluate, backward);
    assert_found(backward_ask, evaluate);
    assert_found(ask, backward_evaluate);
}

/// Every relation turned round as soon as one is of kind 50.
#[test]
fn one_walk_for_all_relations_is_found() {
    fn all_backward(catalogue: &[u8], values: &[i32]) -> (Vec<u8>, Vec<i32>) {
        let is_latest = catalogue.chunks(4).any(|record| record[0] == LATEST);
        let other = with_kind(catalogue, STORED, LATEST);
        (
            if is_latest { other } else { catalogue.to_vec() },
            values.to_vec(),
        )
    }
    over_another_collection!(all_ask, all_evaluate, all_backward);
    assert_found(all_ask, evaluate);
    assert_found(ask, all_evaluate);
}

#[test]
fn kind_50_without_permits_is_found() {
    over_another_collection!(open_ask, open_evaluate, |c: &[u8], v: &[i32]| {
        let (catalogue, values) = turned(c, v).unwrap_or((c.to_vec(), v.to_vec()));
        let kinds = c.chunks(4).map(|record| record[0] == LATEST);
        let mut open = catalogue;
        for (record, _) in open.chunks_mut(4).zip(kinds).filter(|(_, latest)| *latest) {
            record[0] = WORKSPACE;
        }
        (open, values)
    });
    assert_found(open_ask, evaluate);
    // evaluate asks for none
    assert_eq!(compare(200, 7, ask, open_evaluate).differences, 0);
}
