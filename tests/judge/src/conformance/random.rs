//! Cases drawn from a seed. Once stored, a case keeps its files, however the draws change later;
//! what it prints is always the judge's word of today.

use super::{bytes_of, Case, Expected, Group};
use crate::gen::rng::case_seed;
use crate::gen::{self};
use crate::program::{output, Files};
use std::fs;
use std::path::Path;

const MOST_VALUES: usize = 200;
const MOST_PRINTED: usize = 4_000;

/// The drawn cases that are stored.
pub fn fill(group: &mut Group) {
    let folder = Path::new(env!("CARGO_MANIFEST_DIR")).join("../../conformance/cases");
    for number in 1.. {
        let name = format!("{}-{number:03}", group.name);
        let Ok(text) = fs::read_to_string(folder.join(name)) else {
            return;
        };
        let about = text.lines().next().unwrap_or_default();
        group.put(about, files(&text), Expected::Drawn);
    }
}

/// The files of a case's text.
fn files(text: &str) -> Files {
    let bytes = |name: &str| -> Vec<u8> {
        let mut lines = text.lines().skip(1).take_while(|line| *line != "prints");
        let line = lines.find_map(|line| line.strip_prefix(name)).unwrap();
        let words = line.split_whitespace();
        words.map(|word| word.parse().unwrap()).collect()
    };
    Files {
        catalogue: bytes("catalogue"),
        values: bytes("values"),
        permits: bytes("permits"),
        question: bytes("question"),
    }
}

/// So many new cases that are accepted, and so many that are refused.
pub fn draw(run_seed: u64, mut accepted: usize, mut refused: usize) -> Vec<Case> {
    let mut group = Group::new("drawn");
    for index in 0.. {
        if accepted + refused == 0 {
            break;
        }
        let seed = case_seed(run_seed, index);
        let case = gen::case(seed);
        let files = Files {
            catalogue: case.catalogue,
            values: bytes_of(&case.values),
            permits: case.permits,
            question: case.query,
        };
        let printed = output(&files);
        if case.values.len() > MOST_VALUES || printed.len() > MOST_PRINTED {
            continue;
        }
        let wanted = if printed.starts_with("refused") {
            &mut refused
        } else {
            &mut accepted
        };
        if *wanted > 0 {
            *wanted -= 1;
            group.put(format!("Drawn from seed {seed}."), files, Expected::Drawn);
        }
    }
    group.cases
}
