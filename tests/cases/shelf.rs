// The shelf examples of document 01, its edges, and the errors a good reader makes. Included by the tests of the judge and of the
// library, with `ask` and `evaluate` of their own in scope.

include!("employees.rs");

const UNTOUCHED: i64 = -77;
const UNTOUCHED_BYTE: u8 = 99;

struct Asked {
    outcome: Outcome,
    rewritten: Vec<u8>,
    cells: Vec<i64>,
}

/// Asks with ample buffers; checks that what is past the counts is untouched.
fn asked(catalogue: &[u8], values: &[i32], permits: &[u8], query: &[u8]) -> Asked {
    let mut rewritten = vec![UNTOUCHED_BYTE; 17_216];
    let mut answer = vec![UNTOUCHED; 4096];
    let outcome = ask(
        catalogue,
        values,
        permits,
        query,
        &mut rewritten,
        &mut answer,
    );
    let cells = (outcome.rows * outcome.columns) as usize;
    assert!(answer[cells..].iter().all(|cell| *cell == UNTOUCHED));
    let length = outcome.length as usize;
    assert!(rewritten[length..]
        .iter()
        .all(|byte| *byte == UNTOUCHED_BYTE));
    answer.truncate(cells);
    rewritten.truncate(length);
    Asked {
        outcome,
        rewritten,
        cells: answer,
    }
}

fn ask_number(catalogue: &[u8], values: &[i32], permits: &[u8], query: &[u8]) -> u64 {
    let Asked { outcome, .. } = asked(catalogue, values, permits, query);
    if outcome.number != 0 {
        assert_eq!((outcome.rows, outcome.columns, outcome.length), (0, 0, 0));
    }
    outcome.number
}

/// The cells of an accepted plain query.
fn evaluated(catalogue: &[u8], values: &[i32], query: &[u8]) -> Vec<i64> {
    let mut answer = vec![UNTOUCHED; 4096];
    let outcome = evaluate(catalogue, values, query, &mut answer);
    assert_eq!((outcome.number, outcome.length), (0, 0));
    let cells = (outcome.rows * outcome.columns) as usize;
    assert!(answer[cells..].iter().all(|cell| *cell == UNTOUCHED));
    answer.truncate(cells);
    answer
}

fn evaluate_number(catalogue: &[u8], values: &[i32], query: &[u8]) -> u64 {
    evaluate(catalogue, values, query, &mut [0; 64]).number
}

fn asked_with_3_3(query: &[u8]) -> Asked {
    asked(&CATALOGUE, &values(), &PERMITS_3_3.concat(), query)
}

#[test]
fn section_3_2() {
    let query = [1, 0, 0, 33, 0, 2, 21, 1, 33, 0, 0, 32, 2, 0, 0, 0];
    let permit = [64, 0, 15, 0, 21, 1, 33, 0, 0, 32, 1, 0, 0, 0];
    let asked = asked(&CATALOGUE, &values(), &permit, &query);
    assert_eq!(
        asked.outcome,
        Outcome {
            number: 0,
            rows: 0,
            columns: 1,
            length: 27
        }
    );
    let expected = [&query[..6], &[19], &query[6..], &permit[4..]].concat();
    assert_eq!(asked.rewritten, expected);
}

#[test]
fn plain_2_2_and_distinct_departments() {
    let query = [
        1, 0, 0, 1, 1, 1, 33, 0, 0, 19, 21, 1, 33, 0, 1, 33, 1, 0, 21, 1, 33, 1, 1, 32, 1, 0, 0, 0,
    ];
    assert_eq!(evaluated(&CATALOGUE, &values(), &query), [3, 4]);
    assert_eq!(
        evaluated(&CATALOGUE, &values(), &[1, 0, 0, 33, 0, 1, 16]),
        [1, 2, 4]
    );
}

#[test]
fn section_3_4() {
    let asked = asked_with_3_3(&[1, 0, 0, 33, 0, 2, 16]);
    assert_eq!(
        asked.cells,
        [10_000, 15_000, 12_000, 14_000, 20_000, 40_000]
    );
    // Permits 1 and 3 apply: AND, TRUE, then OR of TRUE and the SOME, whose variable became 8.
    let expected = [
        1, 0, 0, 33, 0, 2, 19, 16, 20, 16, 22, 8, 0, 19, 21, 1, 33, 8, 0, 33, 0, 3, 21, 5, 33, 0,
        2, 33, 8, 2,
    ];
    assert_eq!(asked.rewritten, expected);
}

#[test]
fn section_3_5() {
    let asked = asked_with_3_3(&[1, 0, 0, 33, 0, 3, 21, 1, 33, 0, 0, 32, 3, 0, 0, 0]);
    assert_eq!((asked.outcome.rows, &asked.cells[..]), (1, &[5][..]));
}

#[test]
fn section_3_6() {
    let query = [
        1, 0, 0, 1, 1, 0, 33, 0, 0, 19, 21, 1, 33, 0, 3, 33, 1, 0, 21, 3, 33, 1, 2, 33, 0, 2,
    ];
    let asked = asked_with_3_3(&query);
    assert_eq!(
        (
            asked.outcome.number,
            asked.outcome.rows,
            asked.outcome.columns
        ),
        (0, 0, 1)
    );
    // Two ANDs before the final condition; permit 3 twice, its variable 8 and then 9.
    let guard = |own: u8, fresh: u8| {
        [
            22, fresh, 0, 19, 21, 1, 33, fresh, 0, 33, own, 3, 21, 5, 33, own, 2, 33, fresh, 2,
        ]
    };
    let expected = [
        &query[..9],
        &[19, 19],
        &query[9..],
        &guard(0, 8),
        &guard(1, 9),
    ]
    .concat();
    assert_eq!(asked.rewritten, expected);
}

#[test]
fn department_with_salary_has_no_permit() {
    let query = [1, 0, 0, 33, 0, 1, 33, 0, 2, 16];
    assert_eq!(asked_with_3_3(&query).outcome.number, refusal::NO_PERMIT);
}

#[test]
fn departments_with_sales_above_average() {
    assert_eq!(asked_with_3_3(&[1, 0, 1, 33, 0, 0, 16]).cells, [1, 2, 3]);
}

#[test]
fn average_is_exact_when_compared() {
    let catalogue = [48, 1, 2, 0];
    let average = [34, 3, 0, 0, 0, 16];
    let target_only = [&average[..], &[16]].concat();
    assert_eq!(evaluated(&catalogue, &[-3, -4], &target_only), [-4]);
    let minus_3 = [32, 253, 255, 255, 255];
    let other_average = [34, 3, 1, 0, 0, 16];
    let below = [&average[..], &[21, 3], &other_average, &minus_3].concat();
    assert_eq!(evaluated(&catalogue, &[-3, -4], &below), [-4]);
    let equal = [&average[..], &[21, 1], &other_average, &minus_3].concat();
    assert_eq!(evaluated(&catalogue, &[-3, -4], &equal), []);
    let minus_4 = [32, 252, 255, 255, 255];
    let above = [&average[..], &[21, 5], &other_average, &minus_4].concat();
    assert_eq!(evaluated(&catalogue, &[-3, -4], &above), [-4]);
    let equal = [&average[..], &[21, 1], &other_average, &minus_4].concat();
    assert_eq!(evaluated(&catalogue, &[-3, -4], &equal), []);
}

/// Change 4: to the nearest whole number, halves away from zero.
#[test]
fn average_as_a_target_is_rounded_as_tills_do() {
    let average = [34, 3, 0, 0, 0, 16, 16];
    for (values, expected) in [
        (&[3, 4][..], 4),
        (&[-3, -4], -4),
        (&[1, 2, 2], 2),
        (&[-1, -2, -2], -2),
        (&[0, 0, 1], 0),
        (&[0, 0, -1], 0),
        (&[2, 3], 3),
        (&[i32::MIN, i32::MAX], -1),
        (&[i32::MAX, i32::MAX - 1], i64::from(i32::MAX)),
        (&[i32::MIN, i32::MIN + 1], i64::from(i32::MIN)),
    ] {
        let catalogue = [48, 1, values.len() as u8, 0];
        assert_eq!(evaluated(&catalogue, values, &average), [expected]);
    }
}

/// Change 2: COUNT and SUM stay 0; AVE, MAX and MIN have no value, and as a target give no row.
#[test]
fn aggregates_over_no_rows() {
    for function in 1..=5 {
        // Change 2: COUNT and SUM are 0, the others have no value.
        let cells: &[i64] = if function <= 2 { &[0] } else { &[] };
        assert_eq!(
            evaluated(&[48, 1, 0, 0], &[], &[34, function, 0, 0, 0, 16, 16]),
            cells
        );
        assert_eq!(
            evaluated(&[48, 1, 1, 0], &[9], &[34, function, 0, 0, 0, 17, 16]),
            cells
        );
    }
}

/// Change 2: with a term that has no value a comparison is false, whichever the operator, and its NOT is true.
#[test]
fn comparisons_with_no_value_are_false() {
    let count = [34, 1, 7, 0, 0, 16];
    for function in 3..=5 {
        let nothing = [34, function, 1, 0, 0, 17];
        let other = [34, function, 2, 0, 0, 17];
        let zero = [32, 0, 0, 0, 0];
        for operator in 1..=6 {
            for terms in [
                [&nothing[..], &zero].concat(),
                [&zero[..], &nothing].concat(),
                [&nothing[..], &other].concat(),
            ] {
                let query = [&count[..], &[21, operator], &terms].concat();
                assert_eq!(evaluated(&[48, 1, 1, 0], &[9], &query), []);
                let query = [&count[..], &[18, 21, operator], &terms].concat();
                assert_eq!(evaluated(&[48, 1, 1, 0], &[9], &query), [1]);
            }
        }
    }
}

#[test]
fn offers_of_least_rank() {
    let query = [1, 0, 0, 33, 0, 2, 21, 1, 33, 0, 1, 34, 5, 1, 0, 1, 16];
    assert_eq!(
        evaluated(&[48, 3, 2, 0], &[7, 1, 11, 7, 1, 12], &query),
        [11, 12]
    );
}

#[test]
fn rows_up_to_1024() {
    let count = [34, 1, 0, 0, 0, 16, 16];
    let permit = [64, 0, 255, 255, 16];
    assert_eq!(evaluated(&[48, 1, 0, 4], &vec![1; 1024], &count), [1024]);
    assert_eq!(
        asked(&[48, 1, 0, 4], &vec![1; 1024], &permit, &count).cells,
        [1024]
    );
    assert_eq!(evaluate_number(&[48, 1, 1, 4], &vec![1; 1025], &count), 10);
    assert_eq!(
        ask_number(&[48, 1, 1, 4], &vec![1; 1025], &permit, &count),
        10
    );
}

#[test]
fn permits_up_to_8() {
    let list = |count| [64, 0, 255, 255, 16].repeat(count);
    let query = [1, 0, 0, 33, 0, 0, 16];
    assert_eq!(ask_number(&[48, 1, 1, 0], &[5], &list(8), &query), 0);
    assert_eq!(ask_number(&[48, 1, 1, 0], &[5], &list(9), &query), 21);
}

/// NOTs over a TRUE, the TRUE being at this level.
fn not_chain(level: usize) -> Vec<u8> {
    [[18].repeat(level - 1), vec![16]].concat()
}

/// A comparison below NOTs, its terms being at this level.
fn comparison_chain(level: usize) -> Vec<u8> {
    let comparison = [21, 1, 32, 0, 0, 0, 0, 32, 0, 0, 0, 0];
    [[18].repeat(level - 2), comparison.to_vec()].concat()
}

#[test]
fn levels_up_to_32_and_64() {
    let permit = [64, 0, 255, 255, 16];
    let numbers = |condition: &[u8]| {
        let query = [&[1, 0, 0, 33, 0, 0], condition].concat();
        let asked = ask_number(&[48, 1, 1, 0], &[5], &permit, &query);
        (asked, evaluate_number(&[48, 1, 1, 0], &[5], &query))
    };
    for chain in [not_chain, comparison_chain] {
        assert_eq!(numbers(&chain(32)), (0, 0));
        assert_eq!(numbers(&chain(33)), (31, 0));
        assert_eq!(numbers(&chain(64)), (31, 0));
        assert_eq!(numbers(&chain(65)), (31, 31));
    }
    // An aggregate's condition is one level below the target.
    let aggregate = |level: usize| [&[34, 1, 0, 0, 0], &not_chain(level - 1)[..], &[16]].concat();
    let number = |query: &[u8]| ask_number(&[48, 1, 1, 0], &[5], &permit, query);
    assert_eq!((number(&aggregate(32)), number(&aggregate(33))), (0, 31));
}

#[test]
fn permit_levels_up_to_16() {
    let query = [1, 0, 0, 33, 0, 0, 16];
    for chain in [not_chain, comparison_chain] {
        let permit = |level| [&[64, 0, 255, 255], &chain(level)[..]].concat();
        assert_eq!(ask_number(&[48, 1, 1, 0], &[5], &permit(16), &query), 0);
        assert_eq!(ask_number(&[48, 1, 1, 0], &[5], &permit(17), &query), 21);
    }
}

/// A condition of few levels and exactly this many bytes.
fn padding(bytes: usize) -> Vec<u8> {
    match bytes {
        1 => vec![16],
        2 => vec![18, 17],
        _ => {
            let left = (bytes - 1) / 2;
            [vec![19], padding(left), padding(bytes - 1 - left)].concat()
        }
    }
}

#[test]
fn permit_bytes_up_to_256() {
    let query = [1, 0, 0, 33, 0, 0, 16];
    let permit = |bytes: usize| [&[64, 0, 255, 255], &padding(bytes - 4)[..]].concat();
    assert_eq!(ask_number(&[48, 1, 1, 0], &[5], &permit(256), &query), 0);
    assert_eq!(ask_number(&[48, 1, 1, 0], &[5], &permit(257), &query), 21);
    let full_list = permit(256).repeat(8);
    assert_eq!(ask_number(&[48, 1, 1, 0], &[5], &full_list, &query), 0);
    let over_full_list = [permit(251).repeat(8), permit(41)].concat();
    assert_eq!(over_full_list.len(), 2049);
    assert_eq!(
        ask_number(&[48, 1, 1, 0], &[5], &over_full_list, &query),
        20
    );
}

#[test]
fn query_bytes_up_to_1024_and_17216() {
    let permit = [64, 0, 255, 255, 16];
    let query = |bytes: usize| [&[1, 0, 0, 33, 0, 0], &padding(bytes - 6)[..]].concat();
    let number = |bytes| ask_number(&[48, 1, 1, 0], &[5], &permit, &query(bytes));
    assert_eq!((number(1024), number(1025)), (0, 30));
    let number = |bytes| evaluate_number(&[48, 1, 1, 0], &[5], &query(bytes));
    assert_eq!((number(17_216), number(17_217)), (0, 30));
}

#[test]
fn answer_buffer_of_0_cells() {
    let catalogue = [48, 1, 1, 0];
    let permit = [64, 0, 255, 255, 16];
    let with = |condition| [1, 0, 0, 33, 0, 0, condition];
    let mut rewritten = [0; 20];
    let outcome = ask(
        &catalogue,
        &[5],
        &permit,
        &with(16),
        &mut rewritten,
        &mut [],
    );
    assert_eq!(
        outcome,
        Outcome {
            number: 41,
            rows: 0,
            columns: 1,
            length: 9
        }
    );
    assert_eq!(rewritten[..10], [1, 0, 0, 33, 0, 0, 19, 16, 16, 0]);
    let outcome = ask(
        &catalogue,
        &[5],
        &permit,
        &with(17),
        &mut rewritten,
        &mut [],
    );
    assert_eq!(
        outcome,
        Outcome {
            number: 0,
            rows: 0,
            columns: 1,
            length: 9
        }
    );
    let outcome = evaluate(&catalogue, &[5], &with(16), &mut []);
    assert_eq!(
        outcome,
        Outcome {
            number: 41,
            rows: 0,
            columns: 1,
            length: 0
        }
    );
}

#[test]
fn a_short_answer_buffer_holds_the_first_whole_rows() {
    let catalogue = [48, 2, 4, 0];
    let values = [1, 2, 1, 2, 3, 4, 5, 6];
    let query = [1, 0, 0, 33, 0, 0, 33, 0, 1, 16];
    let mut answer = [UNTOUCHED; 5];
    let outcome = evaluate(&catalogue, &values, &query, &mut answer);
    assert_eq!(
        outcome,
        Outcome {
            number: 41,
            rows: 2,
            columns: 2,
            length: 0
        }
    );
    assert_eq!(answer, [1, 2, 3, 4, UNTOUCHED]);
}

#[test]
fn a_short_rewritten_buffer_keeps_both_buffers() {
    let permit = [64, 0, 255, 255, 16];
    let query = [1, 0, 0, 33, 0, 0, 16];
    let mut rewritten = [UNTOUCHED_BYTE; 8];
    let mut answer = [UNTOUCHED; 0];
    let outcome = ask(
        &[48, 1, 1, 0],
        &[5],
        &permit,
        &query,
        &mut rewritten,
        &mut answer,
    );
    assert_eq!(
        outcome,
        Outcome {
            number: 40,
            rows: 0,
            columns: 0,
            length: 0
        }
    );
    assert_eq!(rewritten, [UNTOUCHED_BYTE; 8]);
}

/// The largest rewritten query: 8 variables, each guarded by 8 permits of 256 bytes.
#[test]
fn largest_rewritten_query() {
    let some_in_some = [22, 3, 0, 22, 1, 0, 22, 2, 0];
    let condition = [&some_in_some[..], &padding(252 - 9)].concat();
    let list = [&[64, 0, 255, 255], &condition[..]].concat().repeat(8);
    let ranges: Vec<u8> = (0..4).flat_map(|variable| [1, variable, 0]).collect();
    let somes: Vec<u8> = (4..8).flat_map(|variable| [22, variable, 0]).collect();
    let head = [ranges, vec![33, 0, 0], somes].concat();
    let query = [&head[..], &padding(1024 - head.len())].concat();
    let asked = asked(&[48, 1, 1, 0], &[5], &list, &query);
    assert_eq!(
        asked.outcome,
        Outcome {
            number: 0,
            rows: 1,
            columns: 1,
            length: 17_216
        }
    );
    assert_eq!(evaluated(&[48, 1, 1, 0], &[5], &asked.rewritten), [5]);
    // The permits' variables in byte order: 8 is the first SOME's, and 199 the last one's.
    let in_order: Vec<u8> = asked
        .rewritten
        .windows(3)
        .filter(|bytes| bytes[0] == 22 && bytes[1] > 7 && bytes[2] == 0)
        .map(|bytes| bytes[1])
        .collect();
    assert_eq!(in_order, (8..200).collect::<Vec<u8>>());
}

#[test]
fn deep_nesting_is_read() {
    let catalogue = [48, 1, 1, 0];
    let only_nots = vec![18; 17_216];
    assert_eq!(evaluate_number(&catalogue, &[5], &only_nots), 30);
    let target = [34, 1, 0, 0, 0, 16];
    let deep = [&target[..], &not_chain(17_210)].concat();
    assert_eq!(evaluate_number(&catalogue, &[5], &deep), 31);
    let cut_short = [&target[..], &[18; 17_210]].concat();
    assert_eq!(evaluate_number(&catalogue, &[5], &cut_short), 30);
    let deep_permit = [&[64, 0, 255, 255], &not_chain(2044)[..]].concat();
    assert_eq!(
        ask_number(&catalogue, &[5], &deep_permit, &[1, 0, 0, 33, 0, 0, 16]),
        21
    );
}

mod errors_a_good_reader_makes {
    use super::*;

    /// An empty relation in one permit's SOME leaves the other permit of the OR alone.
    #[test]
    fn empty_relation_in_a_permit() {
        let catalogue = [48, 1, 1, 0, 48, 1, 0, 0];
        let list = [64, 0, 255, 255, 22, 1, 1, 16, 64, 0, 255, 255, 16];
        assert_eq!(
            asked(&catalogue, &[5], &list, &[1, 0, 0, 33, 0, 0, 16]).cells,
            [5]
        );
    }

    #[test]
    fn s_is_of_the_whole_query_and_masks_do_not_add_up() {
        let catalogue = [48, 2, 1, 0];
        let query = [1, 0, 0, 33, 0, 0, 21, 1, 33, 0, 1, 33, 0, 1];
        let first_only = [64, 0, 1, 0, 16];
        assert_eq!(ask_number(&catalogue, &[5, 6], &first_only, &query), 33);
        let both = [&first_only[..], &[64, 0, 2, 0, 16]].concat();
        assert_eq!(ask_number(&catalogue, &[5, 6], &both, &query), 33);
        assert_eq!(
            ask_number(&catalogue, &[5, 6], &[64, 0, 3, 0, 16], &query),
            0
        );
    }

    /// The query's variable 1 is not the permit's.
    #[test]
    fn a_permit_variable_is_not_caught() {
        let catalogue = [48, 1, 2, 0];
        let permit = [64, 0, 1, 0, 22, 1, 0, 21, 5, 33, 1, 0, 33, 0, 0];
        let query = [1, 1, 0, 33, 1, 0, 16];
        let asked = asked(&catalogue, &[5, 6], &permit, &query);
        assert_eq!(asked.cells, [5]);
        let expected = [
            1, 1, 0, 33, 1, 0, 19, 16, 22, 8, 0, 21, 5, 33, 8, 0, 33, 1, 0,
        ];
        assert_eq!(asked.rewritten, expected);
    }

    /// Two unguarded rows, one permitted: a buffer for one row is enough.
    #[test]
    fn the_answer_is_fitted_by_guarded_rows() {
        let permit = [64, 0, 1, 0, 21, 1, 33, 0, 0, 32, 6, 0, 0, 0];
        let query = [1, 0, 0, 33, 0, 0, 16];
        let mut answer = [0; 1];
        let outcome = ask(
            &[48, 1, 2, 0],
            &[5, 6],
            &permit,
            &query,
            &mut [0; 99],
            &mut answer,
        );
        assert_eq!((outcome.number, answer), (0, [6]));
    }
}

mod no_access_bars {
    use super::*;

    const CATALOGUE: [u8; 12] = [48, 2, 1, 0, 48, 1, 1, 0, 49, 1, 1, 0];
    const VALUES: [i32; 4] = [5, 6, 7, 8];
    /// Attributes 0 and 1 of relation 0.
    const FIRST: [u8; 7] = [1, 0, 0, 33, 0, 0, 16];
    const SECOND: [u8; 7] = [1, 0, 0, 33, 0, 1, 16];
    const OPEN: [u8; 5] = [64, 0, 255, 255, 16];

    fn number(list: &[&[u8]], query: &[u8]) -> u64 {
        ask_number(&CATALOGUE, &VALUES, &list.concat(), query)
    }

    #[test]
    fn a_second_permit_does_not_open_it() {
        let no_access: &[u8] = &[64, 0, 2, 0, 17];
        for list in [[no_access, &OPEN], [&OPEN, no_access]] {
            assert_eq!(number(&list, &SECOND), 33);
            let asked = asked(&CATALOGUE, &VALUES, &list.concat(), &FIRST);
            // The guard is the other permit alone.
            assert_eq!(asked.rewritten, [1, 0, 0, 33, 0, 0, 19, 16, 16]);
            assert_eq!(asked.cells, [5]);
        }
        let everything: &[u8] = &[64, 0, 255, 255, 17];
        assert_eq!(number(&[everything, &OPEN], &FIRST), 33);
        let elsewhere: &[u8] = &[64, 1, 255, 255, 17];
        assert_eq!(number(&[elsewhere, &OPEN], &FIRST), 0);
    }

    #[test]
    fn an_empty_s_is_not_barred_but_needs_another_permit() {
        let unused = [1, 0, 2, 1, 1, 0, 33, 0, 0, 16];
        let no_access: &[u8] = &[64, 0, 255, 255, 17];
        let both = [no_access, &OPEN].concat();
        let asked = asked(&CATALOGUE, &VALUES, &both, &unused);
        let expected = [1, 0, 2, 1, 1, 0, 33, 0, 0, 19, 16, 16];
        assert_eq!(
            (&asked.rewritten[..], &asked.cells[..]),
            (&expected[..], &[8][..])
        );
        assert_eq!(number(&[no_access], &unused), 33);
    }

    #[test]
    fn other_conditions_that_fail_bar_nothing() {
        for never in [&[18, 16][..], &[19, 17, 16], &[20, 17, 17]] {
            let list = [&[64, 0, 2, 0], never, &OPEN].concat();
            let asked = asked(&CATALOGUE, &VALUES, &list, &SECOND);
            let expected = [&SECOND[..6], &[19, 16, 20], never, &[16]].concat();
            assert_eq!(
                (&asked.rewritten[..], &asked.cells[..]),
                (&expected[..], &[6][..])
            );
        }
    }

    #[test]
    fn variables_of_permits_are_not_barred() {
        let no_access: &[u8] = &[64, 0, 255, 255, 17];
        let other: &[u8] = &[64, 1, 1, 0, 22, 1, 0, 21, 1, 33, 1, 1, 32, 6, 0, 0, 0];
        let query = [1, 0, 1, 33, 0, 0, 16];
        let list = [no_access, other].concat();
        assert_eq!(asked(&CATALOGUE, &VALUES, &list, &query).cells, [7]);
    }

    #[test]
    fn it_counts_as_a_permit() {
        let no_access: &[u8] = &[64, 0, 2, 0, 17];
        let eight = OPEN.repeat(8);
        assert_eq!(number(&[&eight, no_access], &FIRST), 21);
        assert_eq!(number(&[&OPEN, &[64, 0, 4, 0, 17]], &FIRST), 22);
        assert_eq!(number(&[&OPEN, &[64, 2, 1, 0, 17]], &FIRST), 23);
    }
}

const PERMIT_4_2: [u8; 14] = [64, 0, 4, 0, 21, 1, 33, 0, 1, 32, 1, 0, 0, 0];

#[test]
fn section_4_2() {
    let query = [34, 3, 0, 0, 2, 16, 16];
    let asked = asked(&CATALOGUE[..4], &EMPLOYEE.concat(), &PERMIT_4_2, &query);
    let expected = [34, 3, 0, 0, 2, 19, 16, 21, 1, 33, 0, 1, 32, 1, 0, 0, 0, 16];
    assert_eq!(
        (&asked.rewritten[..], &asked.cells[..]),
        (&expected[..], &[12_500][..])
    );
}
