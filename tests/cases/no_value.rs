// Change 2: AVE, MAX and MIN over no rows have no value. Included by the tests of the judge and of the library, with `ask` and
// `evaluate` of their own in scope.

const EARLIER: i64 = -77;
/// Relation 0 has rows 5 and 6, relation 1 none.
const CATALOGUE: [u8; 8] = [48, 1, 2, 0, 48, 1, 0, 0];
const VALUES: [i32; 2] = [5, 6];
const OPEN: [u8; 10] = [64, 0, 255, 255, 16, 64, 1, 255, 255, 16];

/// Outcome and cells of a query asked with these permits; the rewritten one gives the same.
fn given(permits: &[u8], query: &[u8], cells: usize) -> (Outcome, Vec<i64>) {
    let mut answer = vec![EARLIER; cells];
    let mut rewritten = vec![0; 17_216];
    let outcome = ask(
        &CATALOGUE,
        &VALUES,
        permits,
        query,
        &mut rewritten,
        &mut answer,
    );
    let mut again = vec![EARLIER; cells];
    let length = outcome.length as usize;
    let plain = evaluate(&CATALOGUE, &VALUES, &rewritten[..length], &mut again);
    assert_eq!(
        Outcome {
            length: 0,
            ..outcome
        },
        plain,
        "{query:?}"
    );
    assert_eq!(answer, again, "{query:?}");
    let written = (outcome.rows * outcome.columns) as usize;
    assert!(answer[written..].iter().all(|cell| *cell == EARLIER));
    answer.truncate(written);
    (outcome, answer)
}

/// The cells of an accepted query, put to all rows.
fn cells(query: &[u8]) -> Vec<i64> {
    let (outcome, cells) = given(&OPEN, query, 16);
    assert_eq!(outcome.number, 0, "{query:?}");
    cells
}

fn join(parts: &[&[u8]]) -> Vec<u8> {
    parts.concat()
}

/// An aggregate over the relation without rows.
fn none(function: u8, variable: u8) -> Vec<u8> {
    vec![34, function, variable, 1, 0, 16]
}

fn five() -> Vec<u8> {
    vec![32, 5, 0, 0, 0]
}

/// The rows of relation 0 that meet a condition.
fn holding(condition: &[u8]) -> Vec<i64> {
    cells(&join(&[&[1, 0, 0, 33, 0, 0], condition]))
}

#[test]
fn max_over_no_rows_gives_no_row() {
    for function in 3..=5 {
        let (outcome, cells) = given(&OPEN, &join(&[&none(function, 0), &[16]]), 0);
        assert_eq!((outcome.number, outcome.rows, outcome.columns), (0, 0, 1));
        assert_eq!(cells, []);
    }
    // COUNT and SUM give a row, and want a cell for it.
    for function in 1..=2 {
        assert_eq!(cells(&join(&[&none(function, 0), &[16]])), [0]);
        assert_eq!(
            given(&OPEN, &join(&[&none(function, 0), &[16]]), 0)
                .0
                .number,
            41
        );
    }
}

/// One or two sides without value, each operator: false, and NOT of it true.
#[test]
fn every_comparison_without_value_is_false() {
    for operator in 1..=6 {
        for function in 3..=5 {
            let sides = [
                join(&[&none(function, 1), &five()]),
                join(&[&five(), &none(function, 1)]),
                join(&[&[33, 0, 0], &none(function, 1)]),
                join(&[&none(function, 1), &none(function, 2)]),
                join(&[&none(function, 1), &none(3, 2)]),
                join(&[&none(1, 1), &none(function, 2)]),
            ];
            for terms in sides {
                let comparison = join(&[&[21, operator], &terms]);
                assert_eq!(holding(&comparison), []);
                let not = join(&[&[18], &comparison]);
                assert_eq!(holding(&not), [5, 6]);
                assert_eq!(holding(&join(&[&[18], &not])), []);
                let or = join(&[&[20], &comparison, &[21, 1, 33, 0, 0], &five()]);
                assert_eq!(holding(&or), [5]);
                let and = join(&[&[19, 18], &comparison, &[21, 1, 33, 0, 0], &five()]);
                assert_eq!(holding(&and), [5]);
            }
        }
        // COUNT and SUM over no rows are 0 as before.
        let zero = join(&[&[21, operator], &none(1, 1), &none(2, 2)]);
        let is_met = matches!(operator, 1 | 4 | 6);
        assert_eq!(holding(&zero).is_empty(), !is_met);
    }
}

/// One target without value takes the row away, whatever the others are.
#[test]
fn targets() {
    assert_eq!(
        cells(&join(&[&[1, 0, 0, 33, 0, 0], &none(5, 1), &[16]])),
        []
    );
    assert_eq!(cells(&join(&[&none(1, 0), &none(3, 1), &[16]])), []);
    assert_eq!(cells(&join(&[&none(4, 0), &none(2, 1), &[16]])), []);
    assert_eq!(
        cells(&join(&[&[1, 0, 0, 33, 0, 0], &none(2, 1), &[16]])),
        [5, 0, 6, 0]
    );
}

/// An aggregate inside another one, and inside SOME.
#[test]
fn deeper() {
    let above = |function: u8| {
        let condition = join(&[&[21, 5, 33, 0, 0], &none(3, 1)]);
        join(&[&[34, function, 0, 0, 0], &condition, &[16]])
    };
    assert_eq!(cells(&above(1)), [0]);
    assert_eq!(cells(&above(2)), [0]);
    assert_eq!(cells(&above(4)), []);
    let not_above = join(&[&[34, 4, 0, 0, 0, 18, 21, 5, 33, 0, 0], &none(3, 1), &[16]]);
    assert_eq!(cells(&not_above), [6]);
    let some = join(&[&[22, 1, 0, 21, 2, 33, 1, 0], &none(4, 2)]);
    assert_eq!(holding(&some), []);
    assert_eq!(holding(&join(&[&[18], &some])), [5, 6]);
    let some_not = join(&[&[22, 1, 0, 18, 21, 2, 33, 1, 0], &none(4, 2)]);
    assert_eq!(holding(&some_not), [5, 6]);
}

/// In permits, and where a guard leaves an aggregate no row.
#[test]
fn permits_and_guards() {
    let ask_all = [1, 0, 0, 33, 0, 0, 16];
    let permit = |condition: &[u8]| join(&[&[64, 0, 255, 255], condition]);
    let above = join(&[&[21, 6, 33, 0, 0], &none(5, 1)]);
    let rows = |list: &[u8], query: &[u8]| given(list, query, 16).1;
    assert_eq!(rows(&permit(&above), &ask_all), []);
    assert_eq!(rows(&permit(&join(&[&[18], &above])), &ask_all), [5, 6]);
    // No row of relation 0 is permitted: its largest value is none, its sum 0.
    let never = permit(&[18, 16]);
    assert_eq!(rows(&never, &[34, 4, 0, 0, 0, 16, 16]), []);
    assert_eq!(rows(&never, &[34, 2, 0, 0, 0, 16, 16]), [0]);
    let only_six = permit(&join(&[&[21, 1, 33, 0, 0, 32], &6i32.to_le_bytes()]));
    let below_six = join(&[
        &[34, 4, 0, 0, 0, 21, 3, 33, 0, 0, 32],
        &6i32.to_le_bytes(),
        &[16],
    ]);
    assert_eq!(rows(&only_six, &below_six), []);
    assert_eq!(rows(&OPEN, &below_six), [5]);
}
