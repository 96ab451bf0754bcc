//! The cases of `conformance/texts`: a text, its names and the room for its records, and what a reader's
//! program prints. What a case comes to is said by hand, and held to the judge.

mod drawn;
mod forms;
mod listing;
mod reaching;

use crate::text::MOST_RECORDS;
use crate::text_program::{output, Files};
use std::collections::BTreeSet;

pub use drawn::draw;

pub enum Expected {
    Refused(u64),
    Records(Vec<u8>),
    /// Drawn from a seed; the judge says what comes.
    Drawn,
}

pub struct Case {
    pub about: String,
    pub text: Vec<u8>,
    pub names: Vec<u8>,
    pub room: usize,
    pub expected: Expected,
}

impl Case {
    pub fn printed(&self) -> String {
        let printed = output(&Files {
            names: self.names.clone(),
            text: self.text.clone(),
            room: self.room.to_string().into_bytes(),
        });
        let agrees = match &self.expected {
            Expected::Refused(number) => printed == format!("refused {number}\n"),
            Expected::Records(bytes) => {
                printed == format!("records {}\n{}\n", bytes.len(), decimal(bytes))
            }
            Expected::Drawn => true,
        };
        assert!(agrees, "{}\n{}\n{printed}", self.about, self.shown());
        printed
    }

    /// The text for a reader's eye: what is no ASCII sign by its number, and not all of a long one.
    fn shown(&self) -> String {
        let mut shown = String::new();
        for byte in &self.text {
            match byte {
                b'\n' => shown += "\\n",
                b'\r' => shown += "\\r",
                32..=126 => shown.push(*byte as char),
                other => shown += &format!("\\{other:03}"),
            }
        }
        if shown.len() > 300 {
            shown.truncate(300);
            shown = format!("{} ..", shown.trim_end());
        }
        shown.trim_end().to_string()
    }

    pub fn file(&self) -> String {
        let mut file = format!("{}\n", self.about);
        for (name, line) in [
            ("shows", self.shown()),
            ("names", decimal(&self.names)),
            ("text", decimal(&self.text)),
            ("room", self.room.to_string()),
        ] {
            file += format!("{name} {line}").trim_end();
            file += "\n";
        }
        file + "prints\n" + &self.printed()
    }
}

fn decimal(bytes: &[u8]) -> String {
    let words: Vec<String> = bytes.iter().map(u8::to_string).collect();
    words.join(" ")
}

/// Collects the cases of a group, all with the same names unless it is said otherwise.
pub struct Group {
    names: Vec<u8>,
    cases: Vec<Case>,
}

impl Group {
    fn put(&mut self, about: impl Into<String>, text: impl AsRef<[u8]>, expected: Expected) {
        self.cases.push(Case {
            about: about.into(),
            text: text.as_ref().to_vec(),
            names: self.names.clone(),
            room: MOST_RECORDS,
            expected,
        });
    }

    pub fn refused(&mut self, number: u64, about: impl Into<String>, text: impl AsRef<[u8]>) {
        self.put(about, text, Expected::Refused(number));
    }

    pub fn records(
        &mut self,
        about: impl Into<String>,
        text: impl AsRef<[u8]>,
        records: &[impl AsRef<[u8]>],
    ) {
        let records = records.iter().flat_map(|part| part.as_ref().to_vec());
        self.put(about, text, Expected::Records(records.collect()));
    }

    /// The last case has other names.
    pub fn names(&mut self, names: Vec<u8>) {
        self.cases.last_mut().unwrap().names = names;
    }

    /// The last case has other room.
    pub fn room(&mut self, room: usize) {
        self.cases.last_mut().unwrap().room = room;
    }
}

/// A record of the list.
pub fn listed(front: &[u8], name: &str) -> Vec<u8> {
    [front, format!("{name:12}").as_bytes()].concat()
}

pub fn relation(number: u8, name: &str) -> Vec<u8> {
    listed(&[80, number], name)
}

pub fn attribute(relation: u8, number: u8, name: &str) -> Vec<u8> {
    listed(&[81, relation, number], name)
}

pub fn value(value: i32, name: &str) -> Vec<u8> {
    listed(&[&[82], &value.to_le_bytes()[..]].concat(), name)
}

/// EMPLOYEE 0, DEPARTMENT 1, their attributes, and some values.
pub fn shop() -> Vec<u8> {
    let mut names = [relation(0, "EMPLOYEE"), relation(1, "DEPARTMENT")].concat();
    for (number, name) in (0..).zip(["NAME", "DEPT", "SALARY", "MANAGER"]) {
        names.extend(attribute(0, number, name));
    }
    for (number, name) in (0..).zip(["DEPT", "FLOOR", "EMP", "SALES"]) {
        names.extend(attribute(1, number, name));
    }
    for (number, name) in (1..).zip(["SMITH", "JONES", "ADAMS", "EVANS", "BAKER"]) {
        names.extend(value(number, name));
    }
    names.extend(value(1, "TOY"));
    names.extend(value(-1, "BASEMENT"));
    names
}

const START: &str = "RANGE EMPLOYEE(X) RETRIEVE W:X.NAME:";
/// The records of START.
const FRONT: [u8; 6] = [1, 0, 0, 33, 0, 0];
const PLAIN: &str = "RANGE EMPLOYEE(X) RETRIEVE W:X.NAME";

/// All cases, each with the name of its file.
pub fn cases() -> Vec<(String, Case)> {
    let mut named = Vec::new();
    let mut abouts = BTreeSet::new();
    for (name, fill) in [
        ("words", forms::words as fn(&mut Group)),
        ("numbers", forms::numbers),
        ("signs", forms::signs),
        ("blanks", forms::blanks),
        ("reserved", forms::reserved),
        ("frame", forms::frame),
        ("marks", forms::marks),
        ("grouping", forms::grouping),
        ("depth", forms::depth),
        ("examples", forms::examples),
        ("list", listing::list),
        ("twice", listing::twice),
        ("unknown", listing::unknown),
        ("order", listing::order),
        ("room", listing::room),
        ("bound", reaching::bound),
        ("reach", reaching::reach),
        ("heads", reaching::heads),
        ("numbering", reaching::numbering),
        (DRAWN, drawn::fill),
    ] {
        let mut group = Group {
            names: shop(),
            cases: Vec::new(),
        };
        fill(&mut group);
        for (index, case) in group.cases.into_iter().enumerate() {
            let key = (case.text.clone(), case.names.clone(), case.room);
            assert!(name == DRAWN || abouts.insert(key), "twice: {}", case.about);
            named.push((file_name(name, index), case));
        }
    }
    named
}

const DRAWN: &str = "drawn";

fn file_name(group: &str, index: usize) -> String {
    format!("{group}-{:03}", index + 1)
}
