//! The shelf examples and edges, put to the library; and what only a library can be given.

use judge::{refusal, Outcome};
use library::{ask, evaluate};

include!("../../cases/shelf.rs");

const COUNT: [u8; 7] = [34, 1, 0, 0, 0, 16, 16];

fn outcome(number: u64, rows: u64, columns: u64) -> Outcome {
    Outcome {
        number,
        rows,
        columns,
        length: 0,
    }
}

/// The number of a refusal, which has no counts and touches nothing.
fn refused(catalogue: &[u8], values: &[i32], query: &[u8]) -> u64 {
    let mut answer = [UNTOUCHED; 64];
    let given = evaluate(catalogue, values, query, &mut answer);
    assert_eq!(given, outcome(given.number, 0, 0));
    assert_eq!(answer, [UNTOUCHED; 64]);
    given.number
}

#[test]
fn the_largest_collection() {
    let catalogue = [48, 16, 0, 4].repeat(16);
    let mut values = vec![i32::MIN; 16 * 16 * 1024];
    *values.last_mut().unwrap() = i32::MAX;
    // SUM and MAX of the last attribute of the last relation, AVE of the first one's.
    let query = [
        34, 2, 0, 15, 15, 16, 34, 4, 1, 15, 15, 16, 34, 3, 2, 0, 0, 16, 16,
    ];
    let (least, most) = (i64::from(i32::MIN), i64::from(i32::MAX));
    let expected = [1023 * least + most, most, least];
    assert_eq!(evaluated(&catalogue, &values, &query), expected);
    values.push(0);
    assert_eq!(refused(&catalogue, &values, &query), 11);
    values.truncate(16 * 16 * 1024 - 1);
    assert_eq!(refused(&catalogue, &values, &query), 11);
    let more = [48, 16, 0, 4].repeat(17);
    assert_eq!(refused(&more, &values, &query), 10);
}

#[test]
fn far_over_the_limits() {
    let long = vec![18; 1 << 20];
    assert_eq!(refused(&[48, 1, 1, 0], &[5], &long), 30);
    assert_eq!(refused(&[48, 1, 1, 0].repeat(1 << 18), &[5], &COUNT), 10);
    assert_eq!(refused(&[48, 1, 1, 0], &vec![5; 1 << 20], &COUNT), 11);
}

#[test]
fn empty_slices() {
    assert_eq!(evaluate(&[], &[], &[], &mut []), outcome(10, 0, 0));
    let no_rows = [48, 1, 0, 0];
    assert_eq!(evaluate(&no_rows, &[], &[], &mut []), outcome(30, 0, 0));
    let query = [1, 0, 0, 33, 0, 0, 16];
    assert_eq!(evaluate(&no_rows, &[], &query, &mut []), outcome(0, 0, 1));
}

/// The four 32-bit extremes, under every function and operator, as the judge has them.
#[test]
fn extreme_numbers() {
    let numbers = [i32::MIN, i32::MIN + 1, -1, 0, 1, i32::MAX];
    let catalogue = [48, 1, 3, 0, 48, 1, 2, 0];
    for values in numbers.map(|a| numbers.map(|b| [a, b, a, b, a])).concat() {
        for function in 1..=5 {
            for operator in 1..=6 {
                let (first, second) = ([34, function, 0, 0, 0, 16], [34, function, 1, 1, 0, 16]);
                let third = [34, 3, 2, 1, 0, 16];
                let query = [&first[..], &[21, operator], &second, &third].concat();
                let (mut mine, mut theirs) = ([UNTOUCHED; 2], [UNTOUCHED; 2]);
                let given = evaluate(&catalogue, &values, &query, &mut mine);
                let judged = judge::evaluate(&catalogue, &values, &query, &mut theirs);
                assert_eq!((given, mine), (judged, theirs), "{values:?} {query:?}");
            }
        }
    }
}
