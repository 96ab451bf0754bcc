// Change 9: kind 50, walked from the last row to the first. Included by the tests of the judge and of the library, with `ask` and
// `evaluate` of their own in scope.

const CASES: u64 = 20_000;
const RUN_SEED: u64 = 50;
const ALL_ROWS: [u8; 5] = [64, 0, 255, 255, 16];
const EARLIER: i64 = -77;

/// The number and the cells of an answer; a buffer of so many cells.
fn given(
    catalogue: &[u8],
    values: &[i32],
    permits: &[u8],
    query: &[u8],
    cells: usize,
) -> (u64, Vec<i64>) {
    let mut answer = vec![EARLIER; cells];
    let mut rewritten = vec![0; 17_216];
    let outcome = ask(
        catalogue,
        values,
        permits,
        query,
        &mut rewritten,
        &mut answer,
    );
    let written = (outcome.rows * outcome.columns) as usize;
    assert!(answer[written..].iter().all(|cell| *cell == EARLIER));
    // the rewritten query walks the same way
    if outcome.length > 0 {
        let mut again = vec![EARLIER; cells];
        let plain = evaluate(
            catalogue,
            values,
            &rewritten[..outcome.length as usize],
            &mut again,
        );
        assert_eq!(
            (plain.number, plain.rows, &again),
            (outcome.number, outcome.rows, &answer)
        );
    }
    answer.truncate(written);
    (outcome.number, answer)
}

fn accepted(catalogue: &[u8], values: &[i32], permits: &[u8], query: &[u8]) -> Vec<i64> {
    let (number, cells) = given(catalogue, values, permits, query, 64);
    assert_eq!(number, 0);
    cells
}

/// Offers (article, rank, number), asked for number where rank equals MIN of rank.
#[test]
fn the_latest_offer_comes_first() {
    let query = [1, 0, 0, 33, 0, 2, 21, 1, 33, 0, 1, 34, 5, 1, 0, 1, 16];
    let values = [7, 1, 11, 7, 1, 12];
    for (kind, expected) in [(48, [11, 12]), (50, [12, 11])] {
        let mut answer = [EARLIER; 2];
        let outcome = evaluate(&[kind, 3, 2, 0], &values, &query, &mut answer);
        assert_eq!((outcome.number, answer), (0, expected));
        assert_eq!(
            accepted(&[kind, 3, 2, 0], &values, &ALL_ROWS, &query),
            expected
        );
    }
}

#[test]
fn equal_rows_count_where_the_walk_first_meets_them() {
    let query = [1, 0, 0, 33, 0, 0, 16];
    let values = [2, 1, 2, 3, 1];
    assert_eq!(
        accepted(&[48, 1, 5, 0], &values, &ALL_ROWS, &query),
        [2, 1, 3]
    );
    assert_eq!(
        accepted(&[50, 1, 5, 0], &values, &ALL_ROWS, &query),
        [1, 3, 2]
    );
    // 1 is hidden: the permitted rows in the order of the walk
    let permit = [64, 0, 1, 0, 21, 2, 33, 0, 0, 32, 1, 0, 0, 0];
    assert_eq!(accepted(&[50, 1, 5, 0], &values, &permit, &query), [3, 2]);
}

/// Each variable by its own relation's kind; 49 stays forward.
#[test]
fn kinds_beside_each_other() {
    let query = [1, 0, 0, 1, 1, 1, 33, 0, 0, 33, 1, 0, 16];
    let permits = [64, 0, 255, 255, 16, 64, 1, 255, 255, 16];
    let first = |kinds: [u8; 2], permits: &[u8]| {
        let catalogue = [kinds[0], 1, 2, 0, kinds[1], 1, 2, 0];
        accepted(&catalogue, &[1, 2, 5, 6], permits, &query)
    };
    assert_eq!(first([48, 48], &permits), [1, 5, 1, 6, 2, 5, 2, 6]);
    assert_eq!(first([50, 48], &permits), [2, 5, 2, 6, 1, 5, 1, 6]);
    assert_eq!(first([48, 50], &permits), [1, 6, 1, 5, 2, 6, 2, 5]);
    assert_eq!(first([50, 50], &permits), [2, 6, 2, 5, 1, 6, 1, 5]);
    assert_eq!(first([50, 49], &ALL_ROWS), [2, 5, 2, 6, 1, 5, 1, 6]);
    let other = [64, 1, 255, 255, 16];
    assert_eq!(first([49, 50], &other), [1, 6, 1, 5, 2, 6, 2, 5]);
}

/// 41: the first rows of the walk.
#[test]
fn a_short_buffer_has_the_latest_rows() {
    let query = [1, 0, 0, 33, 0, 0, 33, 0, 0, 16];
    for cells in 0..=8 {
        let (number, rows) = given(&[50, 1, 4, 0], &[1, 2, 3, 4], &ALL_ROWS, &query, cells);
        assert_eq!(number, if cells < 8 { 41 } else { 0 });
        assert_eq!(rows, [4, 4, 3, 3, 2, 2, 1, 1][..cells / 2 * 2]);
    }
}

/// Stored wherever that word stands: 33 without a permit, no 23, guards and bars; 51 is the next unknown kind.
#[test]
fn kind_50_is_stored() {
    let query = [1, 0, 0, 33, 0, 0, 16];
    let number = |kind: u8, permits: &[u8]| given(&[kind, 1, 1, 0], &[5], permits, &query, 8).0;
    assert_eq!(
        [48, 49, 50, 51].map(|kind| number(kind, &[])),
        [33, 0, 33, 10]
    );
    assert_eq!(
        [48, 49, 50, 51].map(|kind| number(kind, &ALL_ROWS)),
        [0, 23, 0, 10]
    );
    let looks_in = [64, 0, 255, 255, 22, 1, 1, 16];
    for (kind, expected) in [(48, 0), (49, 23), (50, 0)] {
        let catalogue = [50, 1, 1, 0, kind, 1, 1, 0];
        assert_eq!(given(&catalogue, &[5, 6], &looks_in, &query, 8).0, expected);
    }
    assert_eq!(number(50, &[64, 0, 255, 255, 16, 64, 0, 1, 0, 17]), 33);
    let mut rewritten = [0; 40];
    let outcome = ask(
        &[50, 1, 1, 0],
        &[5],
        &ALL_ROWS,
        &query,
        &mut rewritten,
        &mut [0; 8],
    );
    assert_eq!(
        rewritten[..outcome.length as usize],
        [1, 0, 0, 33, 0, 0, 19, 16, 16]
    );
}

/// Turned round and called 48, the collection answers the same, byte for byte.
#[test]
fn a_relation_turned_round() {
    let (mut found, mut telling, mut mixed) = (0, 0, 0);
    for index in 0..CASES {
        let seed = case_seed(RUN_SEED, index);
        let case = gen::case(seed);
        let Some((catalogue, values)) = turned(&case.catalogue, &case.values) else {
            continue;
        };
        let other = Case {
            catalogue,
            values,
            ..case.clone()
        };
        let run = run_ask(ask, &case);
        assert_eq!(run, run_ask(ask, &other), "case seed {seed}");
        let plain = |case: &Case| run_evaluate(evaluate, &plain_case(case, &case.query));
        assert_eq!(plain(&case), plain(&other), "case seed {seed}");
        found += 1;
        // called 48 without being turned it would answer otherwise
        let forward = Case {
            catalogue: other.catalogue,
            ..case.clone()
        };
        telling += usize::from(run != run_ask(ask, &forward) || plain(&case) != plain(&forward));
        let has = |kind| case.catalogue.chunks(4).any(|record| record[0] == kind);
        mixed += usize::from(has(48) && has(49));
    }
    println!("turned round {found}, told by order {telling}, of three kinds {mixed}");
    assert!(found >= 10_000 && telling >= 1_500 && mixed >= 1_000);
}
