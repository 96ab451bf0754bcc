//! Texts drawn from a seed. Once stored, a case keeps its files; what it prints is the judge's word of today.

use super::{file_name, Case, Expected, Group, DRAWN};
use crate::gen::rng::case_seed;
use crate::gen::texts::text_case;
use std::fs;
use std::path::Path;

const MOST_TEXT: usize = 400;

/// The drawn cases that are stored.
pub fn fill(group: &mut Group) {
    let folder = Path::new(env!("CARGO_MANIFEST_DIR")).join("../../conformance/texts");
    for index in 0.. {
        let Ok(file) = fs::read_to_string(folder.join(file_name(DRAWN, index))) else {
            return;
        };
        let line = |name: &str| -> Vec<usize> {
            let mut lines = file.lines().take_while(|line| *line != "prints");
            let line = lines.find_map(|line| line.strip_prefix(name)).unwrap();
            let words = line.split_whitespace();
            words.map(|word| word.parse().unwrap()).collect()
        };
        let bytes = |name: &str| {
            line(name)
                .iter()
                .map(|byte| *byte as u8)
                .collect::<Vec<u8>>()
        };
        group.cases.push(Case {
            about: file.lines().next().unwrap_or_default().to_string(),
            text: bytes("text"),
            names: bytes("names"),
            room: line("room")[0],
            expected: Expected::Drawn,
        });
    }
}

/// New cases: so many that are read, and so many of each refusal.
pub fn draw(run_seed: u64, good: usize, refused: usize) -> Vec<(String, Case)> {
    let mut wanted = vec![("records", good)];
    wanted.extend(["refused 50", "refused 51", "refused 52"].map(|line| (line, refused)));
    let mut cases: Vec<Case> = Vec::new();
    for index in 0.. {
        if wanted.iter().all(|(_, count)| *count == 0) {
            break;
        }
        let seed = case_seed(run_seed, index);
        let drawn = text_case(seed);
        let case = Case {
            about: format!("Drawn from seed {seed}."),
            text: drawn.text,
            names: drawn.names,
            room: drawn.records_before.len(),
            expected: Expected::Drawn,
        };
        let printed = case.printed();
        let fits = |(line, count): &&mut (&str, usize)| printed.starts_with(*line) && *count > 0;
        let place = wanted.iter_mut().find(fits);
        if let Some((_, count)) = place.filter(|_| case.text.len() <= MOST_TEXT) {
            *count -= 1;
            cases.push(case);
        }
    }
    let named = cases.into_iter().enumerate();
    named
        .map(|(index, case)| (file_name(DRAWN, index), case))
        .collect()
}
