//! Two things wrong at once: each pair of numbers, wherever the two faults stand. The lower number goes first.

use super::write::*;
use super::{bytes_of, Expected, Group, Setting};
use crate::program::Files;

/// A call that is good until faults are put in. Relation 0 has attribute 0 open and attribute 1 barred,
/// relation 1 has no permit, relation 2 is a workspace.
#[derive(Clone)]
struct Call {
    catalogue: Vec<u8>,
    values: Vec<u8>,
    /// Before, and after, the good permits.
    first_permits: Vec<u8>,
    last_permits: Vec<u8>,
    ranges: Vec<u8>,
    targets: Vec<u8>,
    condition: Vec<u8>,
    tail: Vec<u8>,
    /// The question is cut short by so many bytes.
    cut: usize,
    /// The question is this instead.
    instead: Option<Vec<u8>>,
}

impl Call {
    fn good(rows: u16) -> Call {
        let values: Vec<i32> = (0..i32::from(rows)).flat_map(|row| [row, -row]).collect();
        Call {
            catalogue: join(&[&relation(2, rows), &relation(1, 0), &workspace(1, 0)]),
            values: bytes_of(&values),
            first_permits: vec![],
            last_permits: vec![],
            ranges: range(0, 0),
            targets: attribute(0, 0),
            condition: compare(LESS, &attribute(0, 0), &constant(2)),
            tail: vec![],
            cut: 0,
            instead: None,
        }
    }

    fn files(&self) -> Files {
        let good = join(&[&permit(0, 1, &yes()), &permit(0, 2, &no())]);
        let mut question = join(&[&self.ranges, &self.targets, &self.condition, &self.tail]);
        question.truncate(question.len() - self.cut);
        let permits = join(&[&self.first_permits, &good, &self.last_permits]);
        let question = self.instead.clone().unwrap_or(question);
        let files = Setting::new(self.catalogue.clone(), &[], permits).files(question);
        Files {
            values: self.values.clone(),
            ..files
        }
    }

    fn also(&mut self, condition: &[u8]) {
        self.condition = and(&self.condition, condition);
    }

    fn count_target(&mut self, condition: &[u8]) {
        let target = aggregate(COUNT, 7, 2, 0, condition);
        self.targets.extend(target);
    }
}

/// Where a fault stands.
#[derive(Clone, Copy, PartialEq, Eq)]
enum Place {
    Catalogue,
    Values,
    FirstPermit,
    LastPermit,
    Question,
}

struct Fault {
    number: u64,
    place: Place,
    about: &'static str,
    put: Box<dyn Fn(&mut Call)>,
}

fn fault(
    number: u64,
    place: Place,
    about: &'static str,
    put: impl Fn(&mut Call) + 'static,
) -> Fault {
    Fault {
        number,
        place,
        about,
        put: Box::new(put),
    }
}

/// Of each number the first one is hard to see early.
fn collection_faults() -> Vec<Fault> {
    let catalogue = |about, put: fn(&mut Vec<u8>)| {
        fault(10, Place::Catalogue, about, move |call| {
            put(&mut call.catalogue)
        })
    };
    let values = |about, put: fn(&mut Vec<u8>)| {
        fault(11, Place::Values, about, move |call| put(&mut call.values))
    };
    vec![
        catalogue("a last record of kind 51", |bytes| {
            bytes.extend([51, 1, 0, 0])
        }),
        catalogue("a catalogue cut short", |bytes| {
            bytes.truncate(bytes.len() - 1)
        }),
        catalogue("17 records", |bytes| {
            bytes.extend(relation(1, 0).repeat(14))
        }),
        catalogue("an empty catalogue", Vec::clear),
        catalogue("a last relation of 1,025 rows", |bytes| {
            bytes.extend(relation(1, 1025))
        }),
        values("one value too many", |bytes| bytes.extend([0; 4])),
        values("one value too few", |bytes| bytes.truncate(bytes.len() - 4)),
        values("a byte too many", |bytes| bytes.push(0)),
        values("a byte too few", |bytes| bytes.truncate(bytes.len() - 1)),
        values("no values", Vec::clear),
        values(LONG_VALUES, |bytes| bytes.resize(4 * 8193, 0)),
    ]
}

/// Each before or after the good permits.
fn permit_faults() -> Vec<Fault> {
    let equal = compare(EQUAL, &constant(1), &constant(1));
    let p = |condition: &[u8]| permit(0, 1, condition);
    let attribute_is = |variable, of| compare(EQUAL, &attribute(variable, of), &constant(1));
    let four = some(1, 0, &some(2, 0, &some(3, 0, &some(1, 0, &yes()))));
    let blocks = [
        (
            20,
            "operator 7 in a permit",
            p(&compare(7, &constant(1), &constant(1))),
        ),
        (20, "a permit of kind 63", join(&[&[63], &p(&equal)[1..]])),
        (20, "a term for a permit's condition", p(&constant(1))),
        (20, "a list over 2,048 bytes", p(&padding(247)).repeat(9)),
        (21, "nine permits more", p(&yes()).repeat(9)),
        (21, "a permit of 257 bytes", p(&padding(253))),
        (21, "a permit of 17 levels", p(&nots(17))),
        (21, "a permit with four other variables", p(&four)),
        (22, "a permit on relation 9", permit(9, 1, &yes())),
        (22, "mask 0", permit(0, 0, &yes())),
        (
            22,
            "a mask that names an absent attribute",
            permit(0, 5, &yes()),
        ),
        (22, "attribute 9 in a permit", p(&attribute_is(0, 9))),
        (22, "variable 4 in a permit", p(&some(4, 0, &yes()))),
        (
            22,
            "a permit's variable out of reach",
            p(&attribute_is(1, 0)),
        ),
        (
            22,
            "a permit's variable bound twice",
            p(&some(1, 0, &some(1, 0, &yes()))),
        ),
        (23, "a permit on a workspace", permit(2, 1, &yes())),
        (
            23,
            "a permit's SOME over a workspace",
            p(&some(1, 2, &yes())),
        ),
    ];
    let mut faults = Vec::new();
    for (number, about, bytes) in blocks {
        let again = bytes.clone();
        faults.push(fault(number, Place::LastPermit, about, move |call| {
            call.last_permits.extend(&bytes)
        }));
        faults.push(fault(number, Place::FirstPermit, about, move |call| {
            call.first_permits.extend(&again)
        }));
    }
    let cut_short = |call: &mut Call| call.last_permits.extend([64, 0]);
    faults.push(fault(20, Place::LastPermit, "a list cut short", cut_short));
    faults
}

/// In the RANGEs or targets, in the condition, at the end, or the whole question.
fn question_faults() -> Vec<Fault> {
    let of = |number, about, put: fn(&mut Call)| fault(number, Place::Question, about, put);
    vec![
        of(30, "a byte past the end", |call| call.tail.push(0)),
        of(30, "a question cut short", |call| call.cut = 1),
        of(30, "a question over 1,024 bytes", |call| {
            call.also(&padding(1100))
        }),
        of(30, "operator 7 in the condition", |call| {
            call.also(&compare(7, &constant(1), &constant(1)))
        }),
        of(30, "operator 7 in a target", |call| {
            call.count_target(&compare(7, &constant(1), &constant(1)))
        }),
        of(30, "a constant as a target", |call| {
            call.targets.extend(constant(1))
        }),
        of(30, EMPTY_QUESTION, |call| call.instead = Some(vec![])),
        of(31, "five RANGEs", |call| {
            call.ranges
                .extend((1..5).flat_map(|variable| range(variable, 2)))
        }),
        of(31, "nine targets", |call| {
            call.targets.extend(attribute(0, 0).repeat(8))
        }),
        of(31, "33 levels in a target", |call| {
            call.count_target(&nots(32))
        }),
        of(31, "33 levels in the condition", |call| {
            call.also(&nots(32))
        }),
        of(31, "nine variables", |call| {
            let nine = (1..9).rev().fold(yes(), |inner, _| some(6, 2, &inner));
            call.also(&nine)
        }),
        of(32, "a RANGE over relation 9", |call| {
            call.ranges.extend(range(5, 9))
        }),
        of(32, "a RANGE binds variable 8", |call| {
            call.ranges.extend(range(8, 2))
        }),
        of(32, "two RANGEs bind variable 0", |call| {
            call.ranges.extend(range(0, 2))
        }),
        of(32, "attribute 9 as a target", |call| {
            call.targets.extend(attribute(0, 9))
        }),
        of(32, "a target's variable that is not bound", |call| {
            call.targets.extend(attribute(5, 0))
        }),
        of(32, "SOME over relation 9", |call| {
            call.also(&some(5, 9, &yes()))
        }),
        of(32, "SOME binds variable 0 again", |call| {
            call.also(&some(0, 2, &yes()))
        }),
        of(32, "attribute 9 in the condition", |call| {
            call.also(&compare(EQUAL, &attribute(0, 9), &constant(1)))
        }),
        of(32, "a variable out of reach in the condition", |call| {
            call.also(&compare(EQUAL, &attribute(5, 0), &constant(1)))
        }),
        of(33, "a RANGE over a relation without permit", |call| {
            call.ranges.extend(range(4, 1))
        }),
        of(33, "a barred attribute as a target", |call| {
            call.targets.extend(attribute(0, 1))
        }),
        of(33, "SOME over a relation without permit", |call| {
            call.also(&some(4, 1, &yes()))
        }),
        of(33, "a barred attribute in the condition", |call| {
            call.also(&compare(EQUAL, &attribute(0, 1), &constant(1)))
        }),
        of(41, "an answer of over 4,096 cells", |call| {
            call.ranges.extend(range(3, 0));
            call.targets.extend(attribute(3, 0));
            call.condition = or(&yes(), &call.condition);
        }),
    ]
}

/// Within the permits, and within the question, all pairs; from file to file each fault with the first
/// of every other number.
fn is_tried(faults: &[Fault], low: usize, high: usize) -> bool {
    let is_first = |index: usize| {
        let mut before = faults[..index].iter();
        before.all(|fault| fault.number != faults[index].number)
    };
    let (one, other) = (&faults[low], &faults[high]);
    if one.number >= other.number || excludes(one, other) {
        return false;
    }
    match (one.place, other.place) {
        (Place::FirstPermit, Place::LastPermit) | (Place::LastPermit, Place::FirstPermit) => true,
        (Place::FirstPermit, _) | (_, Place::FirstPermit) => false,
        (Place::LastPermit, Place::LastPermit) => false,
        (Place::Question, Place::Question) => true,
        _ => is_first(low) || is_first(high),
    }
}

/// Enough for 41 where it is one of the two.
fn rows(high: &Fault) -> u16 {
    if high.number == 41 {
        65
    } else {
        2
    }
}

pub fn fill(group: &mut Group) {
    let faults: Vec<Fault> = collection_faults()
        .into_iter()
        .chain(permit_faults())
        .chain(question_faults())
        .collect();
    for (low_index, low) in faults.iter().enumerate() {
        for (high_index, high) in faults.iter().enumerate() {
            if !is_tried(&faults, low_index, high_index) {
                continue;
            }
            let mut call = Call::good(rows(high));
            (high.put)(&mut call);
            (low.put)(&mut call);
            let place = |fault: &Fault| match fault.place {
                Place::FirstPermit => " before the others",
                Place::LastPermit => " after the others",
                _ => "",
            };
            let about = format!(
                "{} ({}){}, and {} ({}){}: {} goes first.",
                capital(low.about),
                low.number,
                place(low),
                high.about,
                high.number,
                place(high),
                low.number
            );
            group.put(about, call.files(), Expected::Refused(low.number));
        }
    }
}

/// The two would not both be there; and a values file over its limit is long, so it goes with few.
fn excludes(low: &Fault, high: &Fault) -> bool {
    match low.about {
        EMPTY_QUESTION => high.place == Place::Question,
        LONG_VALUES => high.number != 20 && high.number != 30,
        _ => false,
    }
}

const EMPTY_QUESTION: &str = "an empty question";
const LONG_VALUES: &str = "a values file over its limit";

fn capital(about: &str) -> String {
    about[..1].to_uppercase() + &about[1..]
}
