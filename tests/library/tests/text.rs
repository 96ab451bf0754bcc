//! QUEL as text: its examples, the library's reader against the judge's over drawn texts, and the call
//! by text over drawn collections, with all buffers to their ends and the margins around them.
#![cfg(feature = "text")]

use judge::compare_texts::{compare_asked_texts, compare_texts};
use judge::gen::rng::case_seed;
use judge::gen::texts::good_text;
use judge::Outcome;
use library::stack::Stack;
use library::{ask_text, evaluate, read_text};

include!("../../cases/text.rs");

const TEXTS: u64 = 150_000;
const ROUND_TRIPS: u64 = 30_000;
const ASKED_TEXTS: u64 = 30_000;
const RUN_SEED: u64 = 1974;

#[test]
fn the_reader_agrees_with_the_judge() {
    let report = compare_texts(TEXTS, RUN_SEED, read_text);
    println!("{report}");
    assert_eq!(report.differences, 0);
    for number in [50, 51, 52] {
        assert!(report.count(number) >= 5_000, "{number}");
    }
    assert!(3 * report.count(0) > TEXTS);
}

/// The writer is the test's own, and the judge has no part in this.
#[test]
fn queries_said_are_read_again() {
    for index in 0..ROUND_TRIPS {
        let seed = case_seed(RUN_SEED + 1, index);
        let (case, records) = good_text(seed);
        let mut buffer = case.records_before.clone();
        let read = read_text(&case.text, &case.names, &mut buffer);
        assert_eq!(read, (0, records.len() as u64), "{seed}");
        let after = [&records, &case.records_before[records.len()..]].concat();
        assert_eq!(buffer, after, "{seed}");
    }
}

#[test]
fn the_call_by_text_agrees_with_the_judge() {
    let report = compare_asked_texts(ASKED_TEXTS, RUN_SEED + 2, ask_text);
    println!("{report}");
    assert_eq!(report.differences, 0);
    for number in [
        0, 10, 11, 20, 21, 22, 23, 30, 31, 32, 33, 40, 41, 50, 51, 52,
    ] {
        let count = report.count(number);
        assert!(500 * count >= ASKED_TEXTS, "{number}: {count}");
    }
}

/// The kit's texts, with what their authors say of them.
#[test]
fn texts_of_the_kit() {
    for (name, case) in judge::conformance::texts::cases() {
        let mut buffer = vec![FILLED; case.room];
        let (number, length) = read_text(&case.text, &case.names, &mut buffer);
        let bytes: Vec<String> = buffer[..length as usize]
            .iter()
            .map(u8::to_string)
            .collect();
        let printed = match number {
            0 => format!("records {length}\n{}\n", bytes.join(" ")),
            number => format!("refused {number}\n"),
        };
        assert_eq!(printed, case.printed(), "{name}");
        let rest = &buffer[length as usize..];
        assert!(rest.iter().all(|byte| *byte == FILLED), "{name}");
    }
}

/// A call takes less than the megabyte that the header asks for, however deep the text goes.
#[test]
fn stack_of_the_reader() {
    let deep = |open: &str, close: &str, count: usize| {
        format!("{SHORT}:{}1=1{}", open.repeat(count), close.repeat(count))
    };
    let texts = [
        deep("(", ")", 986),
        deep("NOT ", "", 493),
        deep("NOT(", ")", 394),
        deep("1=1^(", ")", 328),
        deep("MAX(X.A;", ")=1", 179),
        deep("1=COUNT(X.A;", ")", 151),
        format!("{SHORT}:{}", vec!["1=1"; 494].join("^")),
        format!("{SHORT}:{}", "(".repeat(1_975)),
        // short ones are read by a descent
        deep("(", ")", 112),
        deep("NOT(", ")", 44),
        deep("MAX(X.A;", ")=1", 20),
        format!("{SHORT}:{}", "(".repeat(225)),
    ];
    let names = short_names();
    let mut stack = Stack::new(1_024);
    for text in texts {
        assert!(text.len() <= 2_000);
        let mut buffer = vec![FILLED; 6_427];
        let (mut number, mut length) = (0, 0);
        let used = stack.used(&mut || {
            (number, length) = read_text(text.as_bytes(), &names, &mut buffer);
        });
        let mut rewritten = vec![FILLED; 17_216];
        let mut answer = [0; 8];
        let mut again = buffer.clone();
        let asked = stack.used(&mut || {
            let text = text.as_bytes();
            ask_text(
                &[48, 1, 1, 0],
                &[5],
                &[64, 0, 255, 255, 16],
                text,
                &names,
                &mut again,
                &mut rewritten,
                &mut answer,
            );
        });
        println!("{number}, {length} bytes of records, {used} bytes of stack, asked {asked}");
        assert!(asked < 900_000);
        let mut expected = vec![FILLED; 6_427];
        let by_judge = judge::read_text(text.as_bytes(), &names, &mut expected);
        assert_eq!((number, length), by_judge);
        assert_eq!(buffer, expected);
        assert!(used < 900_000);
    }
}
