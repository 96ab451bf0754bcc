//! QUEL as text: examples, queries said as text and read again, how often each refusal is drawn, and
//! what the drawn texts find in faulty copies.

mod copy;

use copy::{read_copy, wrong::*};
use judge::compare_texts::{compare_asked_texts, compare_texts, AskText, ReadText};
use judge::gen::rng::case_seed;
use judge::gen::texts::good_text;
use judge::{ask_text, evaluate, read_text, Outcome};

include!("../../cases/text.rs");

const RUN_SEED: u64 = 80;
const ROUND_TRIPS: u64 = 50_000;
const TEXTS: u64 = 120_000;
const ASKED_TEXTS: u64 = 10_000;
const FEWER_TEXTS: u64 = 8_000;
const FEWER_ASKED: u64 = 1_000;

#[test]
fn queries_said_and_read_again() {
    let mut longest = 0;
    let mut most_variables = 0;
    for index in 0..ROUND_TRIPS {
        let seed = case_seed(RUN_SEED, index);
        let (case, records) = good_text(seed);
        let text = String::from_utf8_lossy(&case.text);
        let mut buffer = case.records_before.clone();
        let length = records.len();
        let read = read_text(&case.text, &case.names, &mut buffer);
        assert_eq!(read, (0, length as u64), "{seed}: {text}");
        assert_eq!(buffer[..length], records, "{seed}: {text}");
        assert_eq!(buffer[length..], case.records_before[length..]);
        longest = longest.max(case.text.len());
        let bound = judge::query::Flat::read(&records).unwrap().entries();
        let bound = bound
            .iter()
            .filter(|entry| entry.record.binding().is_some());
        most_variables = most_variables.max(bound.count());
    }
    println!("longest text {longest}, most variables {most_variables}");
    assert!(longest > 1_500 && most_variables > 30);
}

/// The second reader of `copy` has nothing wrong: two readers made in two ways agree.
#[test]
fn two_readers_agree() {
    let report = compare_texts(TEXTS, RUN_SEED + 1, read_copy::<NOTHING>);
    println!("{report}");
    assert_eq!(report.differences, 0);
    for number in [50, 51, 52] {
        assert!(report.count(number) >= 5_000, "{number}");
    }
    assert!(3 * report.count(0) > TEXTS);
}

#[test]
fn asked_texts_by_number() {
    let report = compare_asked_texts(ASKED_TEXTS, RUN_SEED + 2, asked_copy::<NOTHING_ASKED>);
    println!("{report}");
    assert_eq!(report.differences, 0);
    for number in [
        0, 10, 11, 20, 21, 22, 23, 30, 31, 32, 33, 40, 41, 50, 51, 52,
    ] {
        let count = report.count(number);
        assert!(500 * count >= ASKED_TEXTS, "{number}: {count}");
    }
}

#[test]
fn faulty_readers_are_found() {
    let copies: [(&str, ReadText); 31] = [
        ("^ after V", read_copy::<AND_AFTER_OR>),
        ("grouping to the right", read_copy::<GROUPS_TO_THE_RIGHT>),
        (
            "an aggregate's variable not new",
            read_copy::<AGGREGATE_NOT_NEW>,
        ),
        (
            "numbers from the RANGE list",
            read_copy::<NUMBERS_FROM_THE_LIST>,
        ),
        ("51 before 50", read_copy::<NAMES_BEFORE_FORM>),
        ("the buffer touched at 52", read_copy::<TOUCHED_AT_52>),
        ("a word with a digit", read_copy::<WORDS_WITH_DIGITS>),
        ("- 5 is good", read_copy::<MINUS_APART>),
        (
            "an outer symbol in reach in an aggregate",
            read_copy::<OUTER_IN_REACH>,
        ),
        ("a name listed twice", read_copy::<LISTED_TWICE>),
        ("a reserved name listed", read_copy::<RESERVED_LISTED>),
        ("numbers that wrap", read_copy::<NUMBERS_WRAP>),
        ("2,001 bytes", read_copy::<LONGER_TEXTS>),
        ("tabs part words", read_copy::<TABS>),
        (
            "a record for every symbol",
            read_copy::<RECORD_FOR_EVERY_SYMBOL>,
        ),
        ("NOT binds last", read_copy::<NOT_BINDS_LAST>),
        (
            "an attribute's name once in all",
            read_copy::<ATTRIBUTES_ONCE_IN_ALL>,
        ),
        (
            "SOMEs apart may share a symbol",
            read_copy::<SOMES_APART_MAY_SHARE>,
        ),
        ("names cut at twelve", read_copy::<NAMES_CUT_AT_TWELVE>),
        (
            "a mark without condition",
            read_copy::<MARK_WITHOUT_CONDITION>,
        ),
        ("the list read as needed", read_copy::<LIST_READ_AS_NEEDED>),
        (
            "a byte past the records",
            read_copy::<BYTE_PAST_THE_RECORDS>,
        ),
        ("a full buffer refused", read_copy::<FULL_BUFFER_REFUSED>),
        ("V is a name", read_copy::<V_IS_A_NAME>),
        (
            "51 for a number outside 32 bits",
            read_copy::<NUMBER_OUTSIDE_IS_51>,
        ),
        ("52 before 51", read_copy::<BUFFER_BEFORE_NAMES>),
        ("a name once in all kinds", read_copy::<NAMES_ACROSS_KINDS>),
        (
            "a SOME's symbol is no head",
            read_copy::<SOME_HEADS_UNKNOWN>,
        ),
        ("numbers by first use", read_copy::<NUMBERS_BY_FIRST_USE>),
        (
            "an unused relation may be unknown",
            read_copy::<UNUSED_RELATION_UNKNOWN>,
        ),
        ("a length at 52", read_copy::<LENGTH_AT_52>),
    ];
    for (name, copy) in copies {
        let report = compare_texts(FEWER_TEXTS, RUN_SEED + 3, copy);
        println!("{name}: {} of {FEWER_TEXTS}", report.differences);
        assert!(report.differences > 0, "{name}");
    }
}

const NOTHING_ASKED: u8 = 0;
const CATALOGUE_FIRST: u8 = 1;
const RECORDS_TAKEN_BACK: u8 = 2;
const RECORDS_KEPT_AT_41: u8 = 3;
const WHOLE_BUFFER_ASKED: u8 = 4;
const ANSWER_CLEARED: u8 = 5;
const LENGTH_AT_TEXT_REFUSAL: u8 = 6;

/// A copy of the call by text with one thing wrong.
#[allow(clippy::too_many_arguments)]
fn asked_copy<const WRONG: u8>(
    c: &[u8],
    v: &[i32],
    p: &[u8],
    text: &[u8],
    names: &[u8],
    records: &mut [u8],
    r: &mut [u8],
    a: &mut [i64],
) -> Outcome {
    let before = records.to_vec();
    let (number, length) = read_copy::<NOTHING>(text, names, records);
    let catalogue = judge::evaluate(c, v, &[], &mut []).number;
    if WRONG == CATALOGUE_FIRST && (catalogue == 10 || catalogue == 11) {
        records.copy_from_slice(&before);
        return judge::evaluate(c, v, &[], &mut []);
    }
    if number != 0 {
        if WRONG == ANSWER_CLEARED {
            a.fill(0);
        }
        let length = u64::from(WRONG == LENGTH_AT_TEXT_REFUSAL);
        return Outcome {
            number,
            rows: 0,
            columns: 0,
            length,
        };
    }
    let query = if WRONG == WHOLE_BUFFER_ASKED {
        records.to_vec()
    } else {
        records[..length as usize].to_vec()
    };
    let outcome = judge::ask(c, v, p, &query, r, a);
    let is_taken_back = WRONG == RECORDS_TAKEN_BACK && outcome.number != 0
        || WRONG == RECORDS_KEPT_AT_41 && outcome.number == 41;
    if is_taken_back {
        records.copy_from_slice(&before);
    }
    outcome
}

#[test]
fn faulty_calls_by_text_are_found() {
    let copies: [(&str, AskText); 6] = [
        ("10 before 50", asked_copy::<CATALOGUE_FIRST>),
        (
            "records taken back at a refusal",
            asked_copy::<RECORDS_TAKEN_BACK>,
        ),
        ("records kept at 41", asked_copy::<RECORDS_KEPT_AT_41>),
        ("the whole buffer asked", asked_copy::<WHOLE_BUFFER_ASKED>),
        ("the answer cleared", asked_copy::<ANSWER_CLEARED>),
        ("a length at 50", asked_copy::<LENGTH_AT_TEXT_REFUSAL>),
    ];
    for (name, copy) in copies {
        let report = compare_asked_texts(FEWER_ASKED, RUN_SEED + 4, copy);
        println!("{name}: {} of {FEWER_ASKED}", report.differences);
        assert!(report.differences > 0, "{name}");
    }
}
