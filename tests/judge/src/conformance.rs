//! The cases of `conformance/`: each a line of explanation, the program's files, and what it prints.
//! What a case should come to is said by hand where it can be, and held to the judge.

mod faults;
mod latest;
mod limits;
mod meaning;
mod no_access;
mod no_value;
mod random;
mod refusals;
mod rewriting;
mod rounding;
pub mod texts;
mod write;

use crate::program::{output, Files};
use std::collections::BTreeSet;
use write::relation;

/// What a case comes to, as its author says.
pub enum Expected {
    Refused(u64),
    /// Accepted, with these cells, row after row.
    Cells(Vec<i64>),
    /// Accepted, with this rewritten query.
    Rewritten(Vec<u8>),
    /// Accepted; the judge says with what.
    Accepted,
    /// Drawn from a seed; the judge says what comes.
    Drawn,
}

pub struct Case {
    /// Group and number make the name of its file.
    pub group: &'static str,
    pub about: String,
    pub files: Files,
    pub expected: Expected,
    /// The files that are not there at all.
    pub missing: &'static [&'static str],
}

impl Case {
    pub fn printed(&self) -> String {
        let printed = output(&self.files);
        self.hold(&printed);
        printed
    }

    /// The author's word and the judge's must agree.
    fn hold(&self, printed: &str) {
        let lines: Vec<&str> = printed.lines().collect();
        let refused = lines[0].strip_prefix("refused ");
        let numbers = |line: &str| -> Vec<i64> {
            line.split(' ').map(|word| word.parse().unwrap()).collect()
        };
        let agrees = match &self.expected {
            Expected::Refused(number) => refused == Some(&number.to_string()),
            Expected::Drawn => true,
            _ if refused.is_some() => false,
            Expected::Accepted => true,
            Expected::Cells(cells) => {
                lines[4..]
                    .iter()
                    .flat_map(|line| numbers(line))
                    .collect::<Vec<_>>()
                    == *cells
            }
            Expected::Rewritten(bytes) => {
                numbers(lines[3])
                    == bytes
                        .iter()
                        .map(|byte| i64::from(*byte))
                        .collect::<Vec<_>>()
            }
        };
        assert!(agrees, "{}: {}\n{printed}", self.group, self.about);
    }

    /// The case as text: the explanation, a line for each file that is there, then what is printed.
    pub fn text(&self) -> String {
        let Files {
            catalogue,
            values,
            permits,
            question,
        } = &self.files;
        let mut text = format!("{}\n", self.about);
        for (name, bytes) in [
            ("catalogue", catalogue),
            ("values", values),
            ("permits", permits),
            ("question", question),
        ] {
            if self.missing.contains(&name) {
                continue;
            }
            text += name;
            for byte in bytes {
                text += &format!(" {byte}");
            }
            text += "\n";
        }
        text + "prints\n" + &self.printed()
    }
}

/// A collection with its permits, to which questions are put.
#[derive(Clone)]
pub struct Setting {
    pub catalogue: Vec<u8>,
    pub values: Vec<i32>,
    pub permits: Vec<u8>,
}

impl Setting {
    pub fn new(catalogue: Vec<u8>, values: &[i32], permits: Vec<u8>) -> Setting {
        Setting {
            catalogue,
            values: values.to_vec(),
            permits,
        }
    }

    pub fn files(&self, question: Vec<u8>) -> Files {
        Files {
            catalogue: self.catalogue.clone(),
            values: bytes_of(&self.values),
            permits: self.permits.clone(),
            question,
        }
    }
}

pub fn bytes_of(values: &[i32]) -> Vec<u8> {
    values
        .iter()
        .flat_map(|value| value.to_le_bytes())
        .collect()
}

/// One stored relation of one attribute and one row, all of it permitted.
pub fn one() -> Setting {
    Setting::new(
        relation(1, 1),
        &[5],
        write::permit(0, write::ALL, &write::yes()),
    )
}

/// Collects the cases of a group.
pub struct Group {
    name: &'static str,
    cases: Vec<Case>,
}

impl Group {
    fn new(name: &'static str) -> Group {
        Group {
            name,
            cases: Vec::new(),
        }
    }

    pub fn put(&mut self, about: impl Into<String>, files: Files, expected: Expected) {
        self.cases.push(Case {
            group: self.name,
            about: about.into(),
            files,
            expected,
            missing: &[],
        });
    }

    pub fn refused(&mut self, number: u64, about: impl Into<String>, files: Files) {
        self.put(about, files, Expected::Refused(number));
    }

    pub fn accepted(&mut self, about: impl Into<String>, files: Files) {
        self.put(about, files, Expected::Accepted);
    }

    pub fn cells(&mut self, about: impl Into<String>, files: Files, cells: &[i64]) {
        self.put(about, files, Expected::Cells(cells.to_vec()));
    }

    pub fn rewritten(&mut self, about: impl Into<String>, files: Files, bytes: Vec<u8>) {
        self.put(about, files, Expected::Rewritten(bytes));
    }

    /// The last case's files of these names are left out.
    pub fn without(&mut self, missing: &'static [&'static str]) {
        self.cases.last_mut().unwrap().missing = missing;
    }
}

fn name(group: &str, index: usize) -> String {
    format!("{group}-{:03}", index + 1)
}

/// All cases, each with the name of its file.
pub fn cases() -> Vec<(String, Case)> {
    let mut named = Vec::new();
    let mut names = BTreeSet::new();
    for (group_name, fill) in [
        ("catalogue", refusals::catalogue as fn(&mut Group)),
        ("values", refusals::values),
        ("permit-form", refusals::permit_form),
        ("permit-size", limits::permit_size),
        ("permit-names", refusals::permit_names),
        ("permit-workspace", refusals::permit_workspace),
        ("question-form", refusals::question_form),
        ("question-size", limits::question_size),
        ("question-names", refusals::question_names),
        ("no-permit", refusals::no_permit),
        ("no-access", no_access::fill),
        ("answer-buffer", limits::answer_buffer),
        ("order", refusals::order),
        ("two-faults", faults::fill),
        ("rewriting", rewriting::fill),
        ("meaning", meaning::fill),
        ("rounding", rounding::fill),
        ("latest", latest::fill),
        ("no-value", no_value::fill),
        (DRAWN, random::fill),
    ] {
        let mut group = Group::new(group_name);
        fill(&mut group);
        for (index, case) in group.cases.into_iter().enumerate() {
            let name = name(group_name, index);
            assert!(names.insert(name.clone()));
            named.push((name, case));
        }
    }
    named
}

const DRAWN: &str = "drawn";

/// New drawn cases, named as if they followed the stored ones.
pub fn drawn(run_seed: u64, accepted: usize, refused: usize) -> Vec<(String, Case)> {
    let mut stored = Group::new(DRAWN);
    random::fill(&mut stored);
    let new = random::draw(run_seed, accepted, refused).into_iter();
    (stored.cases.len()..)
        .map(|index| name(DRAWN, index))
        .zip(new)
        .collect()
}
