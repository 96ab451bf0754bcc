//! Properties over seeded cases. `--nocapture` prints the statistics.

use judge::calls::guarded;
use judge::compare::{plain_case, run_ask, run_evaluate, Run};
use judge::gen::limits::{evaluate_case, EvaluateCase};
use judge::gen::pairs::pair;
use judge::gen::rng::case_seed;
use judge::gen::{self, Case};
use judge::permits::HEADER;
use judge::query::{Flat, Record};
use judge::rewrite::used_attributes;
use judge::{permitted_rows, refusal, Outcome};
use std::collections::BTreeMap;

const RUN_SEED: u64 = 1974;

fn asked(case: &Case) -> Run {
    run_ask(judge::ask, case).expect("no panic")
}

fn evaluated(case: &Case, query: &[u8]) -> Run {
    run_evaluate(judge::evaluate, &plain_case(case, query)).expect("no panic")
}

fn is_answered(outcome: &Outcome) -> bool {
    outcome.number == 0 || outcome.number == refusal::ANSWER_BUFFER
}

/// (a) The rewritten query, put to evaluate, gives what ask gave.
fn check_rewritten(seed: u64, case: &Case, run: &Run) {
    let length = run.outcome.length as usize;
    let plain = evaluated(case, &run.rewritten[..length]);
    assert_eq!(
        plain.outcome,
        Outcome {
            length: 0,
            ..run.outcome
        },
        "case seed {seed}"
    );
    assert_eq!(plain.answer, run.answer, "case seed {seed}");
}

/// (d) Each variable over a relation of its own, made of its permitted rows cut to S, with 0 in the
/// other columns: the plain query over these relations answers as the guarded one did.
fn check_view(seed: u64, case: &Case, run: &Run) {
    let plain = run_evaluate(judge::evaluate, &view(case)).expect("no panic");
    assert_eq!(
        plain.outcome,
        Outcome {
            length: 0,
            ..run.outcome
        },
        "case seed {seed}"
    );
    assert_eq!(plain.answer, run.answer, "case seed {seed}");
}

fn view(case: &Case) -> EvaluateCase {
    let Case {
        catalogue,
        values,
        permits,
        query,
        ..
    } = case;
    let call = guarded(catalogue, values, permits, query).expect("an answered call");
    let permitted = permitted_rows(catalogue, values, permits, query).expect("an answered call");
    let mut view = EvaluateCase {
        catalogue: vec![],
        values: vec![],
        ..plain_case(case, query)
    };
    for (binding, permitted) in call.query.bindings().into_iter().zip(permitted) {
        let attributes = call.collection.relations[usize::from(binding.relation)].attributes;
        let used = used_attributes(&call.query, binding.variable);
        let [low, high] = (permitted.rows.len() as u16).to_le_bytes();
        view.catalogue.extend([48, attributes as u8, low, high]);
        let rows = permitted.rows.into_iter();
        view.values
            .extend(rows.flat_map(|row| spread(row, used, attributes)));
    }
    renumber_relations(&mut view.query);
    view
}

fn spread(cut: Vec<i32>, used: u16, attributes: usize) -> Vec<i32> {
    let mut kept = cut.into_iter();
    let place = |attribute| {
        if used >> attribute & 1 == 1 {
            kept.next().unwrap()
        } else {
            0
        }
    };
    (0..attributes).map(place).collect()
}

/// The relation of the n-th binding record becomes n.
fn renumber_relations(query: &mut [u8]) {
    let entries = Flat::read(query).expect("a well-formed query").entries();
    let binding_entries = entries
        .iter()
        .filter(|entry| entry.record.binding().is_some());
    for (number, entry) in binding_entries.enumerate() {
        let place = if let Record::Aggregate { .. } = entry.record {
            3
        } else {
            2
        };
        query[entry.offset + place] = number as u8;
    }
}

/// What is past the counts keeps its contents.
fn check_untouched(seed: u64, case: &Case, run: &Run) {
    let length = run.outcome.length as usize;
    let cells = (run.outcome.rows * run.outcome.columns) as usize;
    assert_eq!(
        run.rewritten[length..],
        case.rewritten_before[length..],
        "case seed {seed}"
    );
    assert_eq!(
        run.answer[cells..],
        case.answer_before[cells..],
        "case seed {seed}"
    );
}

fn check_refused(seed: u64, outcome: &Outcome) {
    let zero_counts = Outcome {
        number: outcome.number,
        rows: 0,
        columns: 0,
        length: 0,
    };
    assert_eq!(*outcome, zero_counts, "case seed {seed}");
}

#[derive(Default)]
struct Statistics {
    numbers: BTreeMap<u64, u64>,
    with_rows: u64,
    /// The plain query would have given another answer.
    guard_tells: u64,
    /// Accepted, with a NO ACCESS permit in the list.
    beside_no_access: u64,
    /// Refused with 33, and accepted without the NO ACCESS permits.
    barred: u64,
    /// Refused with 33, and accepted if NO ACCESS permits applied and did not bar.
    left_without: u64,
}

/// The case with each NO ACCESS permit's condition replaced; with none the permit is dropped.
fn without_no_access(case: &Case, condition: Option<u8>) -> Case {
    let list = judge::permits::read_flat(&case.permits).unwrap_or_default();
    let mut permits = Vec::new();
    for permit in list {
        let bytes = &case.permits[permit.offset..permit.offset + permit.length];
        match (bytes[HEADER..] == [17], condition) {
            (false, _) => permits.extend(bytes),
            (true, Some(other)) => permits.extend([&bytes[..HEADER], &[other]].concat()),
            (true, None) => {}
        }
    }
    Case {
        permits,
        ..case.clone()
    }
}

fn passes_33(case: &Case) -> bool {
    guarded(&case.catalogue, &case.values, &case.permits, &case.query).is_ok()
}

impl Statistics {
    fn note(&mut self, case: &Case, run: &Run) {
        *self.numbers.entry(run.outcome.number).or_default() += 1;
        if run.outcome.number == 0 {
            self.with_rows += u64::from(run.outcome.rows > 0);
            self.guard_tells += u64::from(evaluated(case, &case.query).answer != run.answer);
            let is_beside = without_no_access(case, None).permits != case.permits;
            self.beside_no_access += u64::from(is_beside);
        }
        if run.outcome.number == refusal::NO_PERMIT {
            let is_barred = passes_33(&without_no_access(case, None));
            self.barred += u64::from(is_barred);
            let would_apply = passes_33(&without_no_access(case, Some(16)));
            self.left_without += u64::from(!is_barred && would_apply);
        }
    }
}

/// (a), (c) and (d), over 100,000 cases.
#[test]
fn cases() {
    const CASES: u64 = 100_000;
    let mut statistics = Statistics::default();
    for index in 0..CASES {
        let seed = case_seed(RUN_SEED, index);
        let case = gen::case(seed);
        let run = asked(&case);
        if is_answered(&run.outcome) {
            check_rewritten(seed, &case, &run);
            check_view(seed, &case, &run);
        } else {
            check_refused(seed, &run.outcome);
        }
        check_untouched(seed, &case, &run);
        statistics.note(&case, &run);
    }
    let Statistics {
        numbers,
        with_rows,
        guard_tells,
        beside_no_access,
        barred,
        left_without,
    } = statistics;
    println!("ask by number {numbers:?}");
    println!("accepted with rows {with_rows}, accepted and unlike the plain answer {guard_tells}");
    println!("beside NO ACCESS accepted {beside_no_access}, barred {barred}, left without a permit {left_without}");
    assert!(2 * numbers[&0] > CASES);
    assert!(beside_no_access >= 5_000 && barred >= 2_000 && left_without >= 200);
    for number in refusal::ALL {
        assert!(numbers[&number] >= 1000, "refusal {number}");
    }
}

/// evaluate at its own limits.
#[test]
fn evaluate_cases() {
    let mut numbers: BTreeMap<u64, u64> = BTreeMap::new();
    let (mut longest, mut with_rows) = (0, 0);
    for index in 0..5_000 {
        let seed = case_seed(RUN_SEED, index);
        let case = evaluate_case(seed);
        let run = run_evaluate(judge::evaluate, &case).expect("no panic");
        let cells = (run.outcome.rows * run.outcome.columns) as usize;
        assert_eq!(
            run.answer[cells..],
            case.answer_before[cells..],
            "case seed {seed}"
        );
        assert_eq!(run.outcome.length, 0, "case seed {seed}");
        *numbers.entry(run.outcome.number).or_default() += 1;
        longest += u64::from(run.outcome.number == 0 && case.query.len() == 17_216);
        with_rows += u64::from(run.outcome.number == 0 && run.outcome.rows > 0);
    }
    println!("evaluate by number {numbers:?}");
    println!("accepted with rows {with_rows}, accepted with 17,216 bytes {longest}");
    for number in [0, 30, 31, 32, 41] {
        assert!(numbers[&number] >= 200, "number {number}");
    }
    assert!(longest >= 100);
}

/// (b) Collections alike in demand 3's premises give the same outcome and buffers.
#[test]
fn pairs() {
    const SEEDS: u64 = 20_000;
    let (mut found, mut answered, mut telling, mut latest) = (0, 0, 0, 0);
    for index in 0..SEEDS {
        let seed = case_seed(RUN_SEED, index);
        let Some(pair) = pair(seed) else {
            continue;
        };
        let other = pair.other();
        let run = asked(&pair.case);
        assert_eq!(run, asked(&other), "pair seed {seed}");
        assert_eq!(
            form(&pair.case),
            form(&other),
            "48, 49 and 50 are told apart"
        );
        found += 1;
        answered += u64::from(is_answered(&run.outcome));
        let plain = evaluated(&pair.case, &pair.case.query);
        let is_telling = plain != evaluated(&other, &other.query);
        telling += u64::from(is_telling);
        latest += u64::from(is_telling && pair.case.catalogue.chunks(4).any(|of| of[0] == 50));
    }
    println!("pairs {found} of {SEEDS} seeds, answered {answered}, unlike when plain {telling}, of these with kind 50 {latest}");
    assert!(2 * found > SEEDS);
    assert!(10 * telling > SEEDS && 20 * latest > SEEDS);
}

/// Kind and attributes of each relation.
fn form(case: &Case) -> Vec<&[u8]> {
    case.catalogue
        .chunks(4)
        .map(|record| &record[..2])
        .collect()
}

/// The same rows under 48 and under 50 are not alike: nothing is hidden, and the answers differ.
#[test]
fn kinds_48_and_50_are_not_alike() {
    let query = [1, 0, 0, 33, 0, 0, 16];
    let permits = [64, 0, 255, 255, 16];
    let of = |kind| permitted_rows(&[kind, 1, 2, 0], &[1, 2], &permits, &query).unwrap();
    assert_eq!(of(48)[0].rows, [[1], [2]]);
    assert_eq!(of(50)[0].rows, [[2], [1]]);
    let open = permitted_rows(&[49, 1, 2, 0], &[1, 2], &[], &query).unwrap();
    assert_eq!(open[0].rows, [[1], [2]]);
}
