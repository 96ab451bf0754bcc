//! The program of document 01 as a function of its files.

use crate::{ask, catalogue, refusal, Outcome};

const MOST_VALUES: usize = 8192;
const ANSWER_CELLS: usize = 4096;
const REWRITTEN_BYTES: usize = 17_216;

/// The bytes of the four files. A missing file counts as empty.
#[derive(Clone, Default, PartialEq, Eq, Debug)]
pub struct Files {
    pub catalogue: Vec<u8>,
    pub values: Vec<u8>,
    pub permits: Vec<u8>,
    pub question: Vec<u8>,
}

/// What the program prints.
pub fn output(files: &Files) -> String {
    let Some(values) = read_values(&files.values) else {
        return refusal_line(number_without_values(&files.catalogue));
    };
    let mut rewritten = vec![0; REWRITTEN_BYTES];
    let mut answer = vec![0; ANSWER_CELLS];
    let outcome = ask(
        &files.catalogue,
        &values,
        &files.permits,
        &files.question,
        &mut rewritten,
        &mut answer,
    );
    match outcome.number {
        0 => accepted_lines(&outcome, &rewritten, &answer),
        number => refusal_line(number),
    }
}

/// None if the file is over its limit or no multiple of 4 bytes.
fn read_values(bytes: &[u8]) -> Option<Vec<i32>> {
    if !bytes.len().is_multiple_of(4) || bytes.len() / 4 > MOST_VALUES {
        return None;
    }
    let value = |cell: &[u8]| i32::from_le_bytes([cell[0], cell[1], cell[2], cell[3]]);
    Some(bytes.chunks(4).map(value).collect())
}

/// Checks run by rising number, so a bad catalogue comes before a bad values file.
fn number_without_values(catalogue_bytes: &[u8]) -> u64 {
    match catalogue::read(catalogue_bytes) {
        None => refusal::CATALOGUE,
        Some(_) => refusal::VALUES,
    }
}

fn refusal_line(number: u64) -> String {
    format!("refused {number}\n")
}

fn accepted_lines(outcome: &Outcome, rewritten: &[u8], answer: &[i64]) -> String {
    let Outcome {
        rows,
        columns,
        length,
        ..
    } = outcome;
    let mut lines = vec![
        format!("rows {rows}"),
        format!("columns {columns}"),
        format!("question {length}"),
        spaced(&rewritten[..*length as usize]),
    ];
    lines.extend(
        answer
            .chunks(*columns as usize)
            .take(*rows as usize)
            .map(spaced),
    );
    lines.join("\n") + "\n"
}

fn spaced<T: ToString>(items: &[T]) -> String {
    items.iter().map(T::to_string).collect::<Vec<_>>().join(" ")
}
