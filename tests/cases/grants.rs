// Change 12: one permit more costs no row. Included by the tests of the judge and of the library, with `ask` of their own in scope.

const PAIRS: usize = 10_000;
const RUN_SEED: u64 = 12;

/// The rows of a call, which must be accepted.
fn rows(seed: u64, case: &Case) -> Vec<Vec<i64>> {
    let run = run_ask(ask, case).expect("no panic");
    assert_eq!(run.outcome.number, 0, "grant seed {seed}");
    let cells = (run.outcome.rows * run.outcome.columns) as usize;
    let rows = run.answer[..cells].chunks(run.outcome.columns as usize);
    rows.map(<[i64]>::to_vec).collect()
}

#[test]
fn a_permit_more_costs_no_row() {
    let (mut found, mut gained, mut reordered) = (0, 0, 0);
    let mut seeds = (0..).map(|index| case_seed(RUN_SEED, index));
    while found < PAIRS {
        let seed = seeds.next().unwrap();
        let Some(grant) = grant(seed) else {
            continue;
        };
        let before = rows(seed, &grant.case);
        let after = rows(seed, &grant.other());
        assert!(
            before.iter().all(|row| after.contains(row)),
            "grant seed {seed}"
        );
        found += 1;
        gained += usize::from(after.len() > before.len());
        reordered += usize::from(!before.is_empty() && before[0] != after[0]);
    }
    println!("pairs of lists {found}, more rows {gained}, another first row {reordered}");
    assert!(gained >= 3_000 && found - gained >= 500 && reordered >= 100);
}

/// Two relations of one attribute and one row: 5 and 7.
const CATALOGUE: [u8; 8] = [48, 1, 1, 0, 48, 1, 1, 0];
const VALUES: [i32; 2] = [5, 7];
const FIRST: [u8; 5] = [64, 0, 255, 255, 16];
/// Lets no row of relation 1 through, and is not NO ACCESS.
const NEVER: [u8; 6] = [64, 1, 255, 255, 18, 16];
const SECOND: [u8; 5] = [64, 1, 255, 255, 16];

fn number_and_rows(list: &[&[u8]], query: &[u8], bytes: usize, cells: usize) -> (u64, Vec<i64>) {
    let mut answer = vec![0; cells];
    let mut rewritten = vec![0; bytes];
    let outcome = ask(
        &CATALOGUE,
        &VALUES,
        &list.concat(),
        query,
        &mut rewritten,
        &mut answer,
    );
    answer.truncate((outcome.rows * outcome.columns) as usize);
    (outcome.number, answer)
}

fn asked(list: &[&[u8]], query: &[u8]) -> (u64, Vec<i64>) {
    number_and_rows(list, query, 200, 8)
}

/// Each premise is needed: without it a row is lost.
mod without_its_premise {
    use super::*;

    /// The row 5, where relation 1 has no row.
    #[test]
    fn a_not() {
        let query = [1, 0, 0, 33, 0, 0, 18, 22, 1, 1, 16];
        assert_eq!(asked(&[&FIRST, &NEVER], &query), (0, vec![5]));
        assert_eq!(asked(&[&FIRST, &NEVER, &SECOND], &query), (0, vec![]));
    }

    /// The row 5, where relation 1 has 0 rows; and that count itself.
    #[test]
    fn an_aggregate() {
        let count = [34, 1, 1, 1, 0, 16];
        let query = [&[1, 0, 0, 33, 0, 0, 21, 1, 32, 0, 0, 0, 0], &count[..]].concat();
        assert_eq!(asked(&[&FIRST, &NEVER], &query), (0, vec![5]));
        assert_eq!(asked(&[&FIRST, &SECOND, &NEVER], &query), (0, vec![]));
        let query = [&count[..], &[16]].concat();
        assert_eq!(asked(&[&NEVER], &query), (0, vec![0]));
        assert_eq!(asked(&[&NEVER, &SECOND], &query), (0, vec![1]));
    }

    #[test]
    fn no_access() {
        let query = [1, 0, 0, 33, 0, 0, 16];
        let no_access = [64, 0, 1, 0, 17];
        assert_eq!(asked(&[&FIRST], &query), (0, vec![5]));
        assert_eq!(asked(&[&no_access, &FIRST], &query), (33, vec![]));
        assert_eq!(asked(&[&FIRST, &no_access], &query), (33, vec![]));
    }

    /// A ninth permit, a broken one, an unknown relation.
    #[test]
    fn a_list_that_is_refused() {
        let query = [1, 0, 0, 33, 0, 0, 16];
        let eight = FIRST.repeat(8);
        assert_eq!(asked(&[&eight], &query), (0, vec![5]));
        assert_eq!(asked(&[&eight, &SECOND], &query), (21, vec![]));
        assert_eq!(
            asked(&[&FIRST, &[64, 0, 255, 255, 18]], &query),
            (20, vec![])
        );
        assert_eq!(
            asked(&[&FIRST, &[64, 2, 255, 255, 16]], &query),
            (22, vec![])
        );
    }

    /// The longer rewritten query, and the new row, want their room.
    #[test]
    fn a_short_buffer() {
        let query = [1, 0, 0, 33, 0, 0, 16];
        let short = |list: &[&[u8]], bytes| number_and_rows(list, &query, bytes, 1);
        assert_eq!(short(&[&FIRST], 9), (0, vec![5]));
        assert_eq!(short(&[&FIRST, &FIRST], 10), (40, vec![]));
        assert_eq!(short(&[&FIRST, &FIRST], 11), (0, vec![5]));
        // Relation 1's row, and beside it that of relation 0 where it is let through.
        let both = [1, 0, 1, 1, 1, 0, 33, 0, 0, 16];
        let some = |list: &[&[u8]]| number_and_rows(list, &both, 99, 0);
        let never = [64, 0, 255, 255, 18, 16];
        assert_eq!(some(&[&SECOND, &never]), (0, vec![]));
        assert_eq!(some(&[&SECOND, &never, &FIRST]), (41, vec![]));
    }
}
