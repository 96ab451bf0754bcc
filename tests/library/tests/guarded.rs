//! ask by itself, without the judge between: its rewritten query put to evaluate, and pairs of
//! collections that demand 3 calls alike.
#![cfg(feature = "ask")]

use judge::compare::{plain_case, run_ask, run_evaluate};
use judge::gen::pairs::pair;
use judge::gen::rng::case_seed;
use judge::{gen, Outcome};
use library::{ask, evaluate};

const RUN_SEED: u64 = 1_975;

/// The rewritten query, put to evaluate, gives what ask gave.
#[test]
fn the_rewritten_query_gives_the_same_answer() {
    let mut answered = 0;
    for index in 0..10_000 {
        let seed = case_seed(RUN_SEED, index);
        let case = gen::case(seed);
        let run = run_ask(ask, &case).unwrap();
        if run.outcome.number != 0 && run.outcome.number != 41 {
            continue;
        }
        let rewritten = &run.rewritten[..run.outcome.length as usize];
        let plain = run_evaluate(evaluate, &plain_case(&case, rewritten)).unwrap();
        let expected = Outcome {
            length: 0,
            ..run.outcome
        };
        assert_eq!(
            (plain.outcome, plain.answer),
            (expected, run.answer),
            "case seed {seed}"
        );
        answered += 1;
    }
    println!("rewritten queries {answered}");
    assert!(answered > 5_000);
}

/// Demand 3: outcome and both buffers are the same.
#[test]
fn collections_that_are_alike_give_the_same() {
    let (mut found, mut telling) = (0, 0);
    for index in 0..8_000 {
        let seed = case_seed(RUN_SEED, index);
        let Some(pair) = pair(seed) else {
            continue;
        };
        let other = pair.other();
        assert_eq!(
            run_ask(ask, &pair.case),
            run_ask(ask, &other),
            "pair seed {seed}"
        );
        found += 1;
        let plain = |case| run_evaluate(evaluate, &plain_case(case, &case.query));
        telling += usize::from(plain(&pair.case) != plain(&other));
    }
    println!("pairs {found}, unlike when plain {telling}");
    assert!(found > 4_000 && telling > 800);
}
