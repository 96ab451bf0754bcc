//! The library against the judge, over seeded cases: number, counts and whole buffers.
//! Plain queries, rewritten ones, evaluate's limits, damaged inputs, short buffers.

use judge::compare::{compare_seed, Report};
use judge::gen::rng::case_seed;
use judge::refusal;
use std::collections::BTreeMap;
use std::thread;

const CASES: u64 = 100_000;
const RUN_SEED: u64 = 20_240;
const THREADS: u64 = 2;

/// Every THREADS-th case, from `first` on.
fn share(first: u64) -> Report {
    let mut report = Report::default();
    for index in (first..CASES).step_by(THREADS as usize) {
        let seed = case_seed(RUN_SEED, index);
        compare_seed(seed, library::ask, library::evaluate, &mut report);
    }
    report
}

fn add(counts: &mut BTreeMap<u64, u64>, more: BTreeMap<u64, u64>) {
    for (number, count) in more {
        *counts.entry(number).or_default() += count;
    }
}

fn merged(mut report: Report, other: Report) -> Report {
    report.ask_calls += other.ask_calls;
    report.evaluate_calls += other.evaluate_calls;
    add(&mut report.ask_numbers, other.ask_numbers);
    add(&mut report.evaluate_numbers, other.evaluate_numbers);
    report.latest += other.latest;
    report.mixed += other.mixed;
    report.differences += other.differences;
    report.first.extend(other.first);
    report
}

/// The threads call the library at once, as the header allows.
#[test]
fn the_library_agrees_with_the_judge() {
    let threads: Vec<_> = (0..THREADS)
        .map(|first| thread::spawn(move || share(first)))
        .collect();
    let reports = threads.into_iter().map(|thread| thread.join().unwrap());
    let report = reports.reduce(merged).unwrap();
    println!("{report}");
    assert_eq!(report.differences, 0);
    assert!(report.evaluate_calls >= CASES);
    for number in [0, 10, 11, 30, 31, 32, 41] {
        assert!(
            report.evaluate_numbers[&number] >= 1_000,
            "evaluate {number}"
        );
    }
    assert!(report.ask_calls >= 100_000);
    assert!(2 * report.ask_numbers[&0] > report.ask_calls);
    assert!(report.latest >= 15_000 && report.mixed >= 3_000);
    for number in refusal::ALL {
        assert!(report.ask_numbers[&number] >= 1_000, "ask {number}");
    }
}
