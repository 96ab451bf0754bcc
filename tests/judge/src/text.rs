//! QUEL as text, Change 1: a text and a list of names become the records of a query.
//!
//! Three steps, as the refusals go: the text alone (50), then its names (51), then the buffer (52).

pub mod grammar;
pub mod names;
mod resolve;
pub mod words;

use crate::{ask, refusal, Outcome};
use names::Names;

pub const MOST_BYTES: usize = 2_000;
/// No text makes more records than fill this.
pub const MOST_RECORDS: usize = 6_427;

/// The records that a text means, or 50 or 51.
pub fn records(text: &[u8], names: &[u8]) -> Result<Vec<u8>, u64> {
    let is_short_enough = text.len() <= MOST_BYTES;
    let read = is_short_enough.then(|| grammar::read(text)).flatten();
    let read = read.ok_or(refusal::TEXT_FORM)?;
    let names = Names::read(names).ok_or(refusal::TEXT_NAMES)?;
    let query = resolve::query(&read, &names).ok_or(refusal::TEXT_NAMES)?;
    Ok(query.bytes())
}

/// The number of the refusal, or 0, and how many bytes of the buffer were written.
pub fn read_text(text: &[u8], names: &[u8], buffer: &mut [u8]) -> (u64, u64) {
    match records(text, names) {
        Err(number) => (number, 0),
        Ok(bytes) if bytes.len() > buffer.len() => (refusal::RECORDS_BUFFER, 0),
        Ok(bytes) => {
            buffer[..bytes.len()].copy_from_slice(&bytes);
            (0, bytes.len() as u64)
        }
    }
}

/// The guarded call by text: once read, the records stay written whatever ask says.
#[allow(clippy::too_many_arguments)]
pub fn ask_text(
    catalogue: &[u8],
    values: &[i32],
    permits: &[u8],
    text: &[u8],
    names: &[u8],
    buffer: &mut [u8],
    rewritten: &mut [u8],
    answer: &mut [i64],
) -> Outcome {
    let (number, length) = read_text(text, names, buffer);
    if number != 0 {
        return Outcome {
            number,
            rows: 0,
            columns: 0,
            length: 0,
        };
    }
    let query = &buffer[..length as usize];
    ask(catalogue, values, permits, query, rewritten, answer)
}
