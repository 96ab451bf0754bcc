//! Limits: at the limit it passes, one more is refused.

use super::write::*;
use super::{one, Group, Setting};
use crate::program::Files;

fn question(condition: &[u8]) -> Vec<u8> {
    join(&[&range(0, 0), &attribute(0, 0), condition])
}

pub fn permit_size(group: &mut Group) {
    let with = |permits: Vec<u8>| Setting { permits, ..one() }.files(question(&yes()));
    let all = |condition: &[u8]| with(permit(0, ALL, condition));
    group.accepted("8 permits pass.", with(permit(0, ALL, &yes()).repeat(8)));
    group.refused(21, "9 permits.", with(permit(0, ALL, &yes()).repeat(9)));
    group.refused(21, "300 permits.", with(permit(0, ALL, &yes()).repeat(300)));
    group.accepted("A permit of 256 bytes passes.", all(&padding(252)));
    group.refused(21, "A permit of 257 bytes.", all(&padding(253)));
    group.refused(
        21,
        "The second permit has 257 bytes.",
        with(join(&[
            &permit(0, ALL, &yes()),
            &permit(0, ALL, &padding(253)),
        ])),
    );
    group.accepted("16 levels of NOT pass.", all(&nots(16)));
    group.refused(21, "17 levels of NOT.", all(&nots(17)));
    group.accepted(
        "A comparison at level 15 has terms at level 16.",
        all(&comparison_at(16)),
    );
    group.refused(
        21,
        "A comparison at level 16 has terms at level 17.",
        all(&comparison_at(17)),
    );
    let counted = |level: usize| {
        compare(
            EQUAL,
            &constant(1),
            &aggregate(COUNT, 1, 0, 0, &nots(level - 2)),
        )
    };
    group.accepted(
        "An aggregate's condition reaches level 16.",
        all(&counted(16)),
    );
    group.refused(
        21,
        "An aggregate's condition reaches level 17.",
        all(&counted(17)),
    );
    let somes = |variables: &[u8]| {
        variables
            .iter()
            .rev()
            .fold(yes(), |inner, variable| some(*variable, 0, &inner))
    };
    group.accepted("3 other variables pass.", all(&somes(&[1, 2, 3])));
    group.refused(21, "4 other variables.", all(&somes(&[1, 2, 3, 4])));
    group.refused(
        21,
        "Four SOMEs that all bind variable 1 are four binding records.",
        all(&somes(&[1, 1, 1, 1])),
    );
    group.refused(
        21,
        "A SOME that binds 0 is one of four binding records.",
        all(&somes(&[0, 1, 2, 3])),
    );
    let beside = (0..4)
        .map(|_| some(1, 0, &yes()))
        .reduce(|left, right| and(&left, &right))
        .unwrap();
    group.refused(21, "Four SOMEs beside each other.", all(&beside));
    let aggregates = compare(
        EQUAL,
        &aggregate(COUNT, 1, 0, 0, &some(2, 0, &yes())),
        &aggregate(COUNT, 3, 0, 0, &some(4, 0, &yes())),
    );
    group.refused(
        21,
        "Two aggregates with a SOME in each bind four.",
        all(&aggregates),
    );
    group.refused(21, "2,044 NOTs: too long and too deep.", all(&nots(2044)));
}

pub fn question_size(group: &mut Group) {
    let with = |question: Vec<u8>| one().files(question);
    let ranges =
        |count: u8| -> Vec<u8> { (0..count).flat_map(|variable| range(variable, 0)).collect() };
    group.accepted(
        "4 RANGEs pass.",
        with(join(&[&ranges(4), &attribute(0, 0), &yes()])),
    );
    group.refused(
        31,
        "5 RANGEs.",
        with(join(&[&ranges(5), &attribute(0, 0), &yes()])),
    );
    let targets = |count: usize| join(&[&range(0, 0), &attribute(0, 0).repeat(count), &yes()]);
    group.accepted("8 targets pass.", with(targets(8)));
    group.refused(31, "9 targets.", with(targets(9)));
    group.accepted("32 levels of NOT pass.", with(question(&nots(32))));
    group.refused(31, "33 levels of NOT.", with(question(&nots(33))));
    group.accepted(
        "A comparison at level 31 has terms at level 32.",
        with(question(&comparison_at(32))),
    );
    group.refused(
        31,
        "A comparison at level 32 has terms at level 33.",
        with(question(&comparison_at(33))),
    );
    let target = |level: usize| join(&[&aggregate(COUNT, 0, 0, 0, &nots(level - 1)), &yes()]);
    group.accepted(
        "An aggregate as a target is at level 1, its condition at 2: level 32 passes.",
        with(target(32)),
    );
    group.refused(
        31,
        "An aggregate as a target reaches level 33.",
        with(target(33)),
    );
    let second = join(&[&attribute(0, 0), &aggregate(COUNT, 1, 0, 0, &nots(32))]);
    group.refused(
        31,
        "The second of two targets reaches level 33.",
        with(join(&[&range(0, 0), &second, &yes()])),
    );
    let somes = |variables: &[u8]| {
        let inner = variables
            .iter()
            .rev()
            .fold(yes(), |inner, variable| some(*variable, 0, &inner));
        with(join(&[&ranges(4), &attribute(0, 0), &inner]))
    };
    group.accepted(
        "8 variables pass: 4 RANGEs and 4 SOMEs.",
        somes(&[4, 5, 6, 7]),
    );
    group.refused(31, "9 variables.", somes(&[4, 5, 6, 7, 8]));
    group.refused(
        31,
        "9 binding records, two of the same number.",
        somes(&[4, 5, 6, 7, 7]),
    );
    group.refused(
        31,
        "9 binding records that all bind 0 but for the RANGEs.",
        somes(&[0, 0, 0, 0, 0]),
    );
    let counts: Vec<u8> = (0..8)
        .flat_map(|variable| aggregate(COUNT, variable, 0, 0, &yes()))
        .collect();
    group.accepted(
        "8 aggregates as targets bind 8 variables.",
        with(join(&[&counts, &yes()])),
    );
    group.refused(
        31,
        "8 aggregates and a SOME bind 9.",
        with(join(&[&counts, &some(7, 0, &yes())])),
    );
    group.refused(31, "Over 900 levels of NOT.", with(question(&nots(900))));
    let some_in_some = some(3, 0, &some(1, 0, &some(2, 0, &padding(243))));
    let full = permit(0, ALL, &some_in_some).repeat(8);
    let head = join(&[
        &ranges(4),
        &attribute(0, 0),
        &[22, 4, 0, 22, 5, 0, 22, 6, 0, 22, 7, 0],
    ]);
    let largest = join(&[&head, &padding(1024 - head.len())]);
    let files = Setting {
        permits: full,
        ..one()
    }
    .files(largest);
    group.accepted(
        "The largest rewritten question: 17,216 bytes, with variables up to 199.",
        files,
    );
}

/// Two relations of one attribute with values 0, 1, .. and a permit for all of them.
fn grid(first: u16, second: u16) -> Setting {
    let values: Vec<i32> = (0..i32::from(first)).chain(0..i32::from(second)).collect();
    let permits = join(&[&permit(0, ALL, &yes()), &permit(1, ALL, &yes())]);
    Setting::new(
        join(&[&relation(1, first), &relation(1, second)]),
        &values,
        permits,
    )
}

fn pairs(columns: usize, condition: &[u8]) -> Vec<u8> {
    let targets = join(&[&attribute(0, 0), &attribute(1, 0).repeat(columns - 1)]);
    join(&[&range(0, 0), &range(1, 1), &targets, condition])
}

pub fn answer_buffer(group: &mut Group) {
    let full = |first: u16, second: u16, columns: usize| -> Files {
        grid(first, second).files(pairs(columns, &yes()))
    };
    group.accepted(
        "2,048 rows of 2 cells fill the 4,096 cells exactly.",
        full(64, 32, 2),
    );
    group.refused(41, "2,049 rows of 2 cells.", full(683, 3, 2));
    group.refused(41, "4,225 rows of 2 cells.", full(65, 65, 2));
    group.accepted(
        "1,365 rows of 3 cells: 4,095 cells, and one is left over.",
        full(39, 35, 3),
    );
    group.refused(
        41,
        "1,366 rows of 3 cells: the last would fit in part.",
        full(683, 2, 3),
    );
    group.accepted("512 rows of 8 cells.", full(32, 16, 8));
    group.refused(41, "513 rows of 8 cells.", full(27, 19, 8));
    let many = Setting::new(relation(1, 70), &[3; 70], permit(0, ALL, &yes()));
    let four = join(&[
        &range(0, 0),
        &range(1, 0),
        &attribute(0, 0),
        &attribute(1, 0),
        &yes(),
    ]);
    group.cells(
        "4,900 assignments, but one distinct row.",
        many.files(four),
        &[3, 3],
    );
    let few = Setting {
        permits: join(&[
            &permit(0, ALL, &compare(LESS, &attribute(0, 0), &constant(2))),
            &permit(1, ALL, &yes()),
        ]),
        ..grid(65, 65)
    };
    group.accepted(
        "4,225 rows, of which the permits leave 130: the answer is fitted by guarded rows.",
        few.files(pairs(2, &yes())),
    );
}
