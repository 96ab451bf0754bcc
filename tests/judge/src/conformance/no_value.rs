//! Change 2: AVE, MAX and MIN over no rows have no value.

use super::meaning::all_where;
use super::write::*;
use super::{Group, Setting};
use crate::program::Files;

/// Relation 0 has rows 5 and 6, relation 1 none, relation 2 (2 attributes) rows 1 10 and 2 20.
fn setting(permits: Vec<u8>) -> Setting {
    let catalogue = join(&[&relation(1, 2), &relation(1, 0), &relation(2, 2)]);
    Setting::new(catalogue, &[5, 6, 1, 10, 2, 20], permits)
}

fn open_permits() -> Vec<u8> {
    (0..3).flat_map(|n| permit(n, ALL, &yes())).collect()
}

fn open(question: Vec<u8>) -> Files {
    setting(open_permits()).files(question)
}

/// An aggregate over the relation without rows.
fn none(function: u8, variable: u8) -> Vec<u8> {
    aggregate(function, variable, 1, 0, &yes())
}

fn equal(left: &[u8], right: &[u8]) -> Vec<u8> {
    compare(EQUAL, left, right)
}

/// The rows of relation 0 that are equal to this.
fn is(number: i32) -> Vec<u8> {
    equal(&attribute(0, 0), &constant(number))
}

fn ask(targets: &[Vec<u8>]) -> Vec<u8> {
    join(&[&targets.concat(), &yes()])
}

const NAMES: [&str; 5] = ["COUNT", "SUM", "AVE", "MAX", "MIN"];
const SIGNS: [&str; 6] = ["=", "≠", "<", "≤", ">", "≥"];

pub fn fill(group: &mut Group) {
    comparisons(group);
    connectives(group);
    targets(group);
    nested(group);
    permits(group);
    kinds(group);
}

/// False for each operator, with one such side or two; its NOT is true.
fn comparisons(group: &mut Group) {
    for operator in 1..=6 {
        let sign = SIGNS[usize::from(operator) - 1];
        let function = [AVE, MAX, MIN][usize::from(operator) % 3];
        let name = NAMES[usize::from(function) - 1];
        let sides = [
            (
                format!("{name} over no rows {sign} 0"),
                compare(operator, &none(function, 1), &constant(0)),
            ),
            (
                format!("A value {sign} {name} over no rows"),
                compare(operator, &attribute(0, 0), &none(function, 1)),
            ),
            (
                format!("{name} over no rows {sign} {name} over no rows"),
                compare(operator, &none(function, 1), &none(function, 2)),
            ),
        ];
        for (about, comparison) in sides {
            group.cells(
                format!("{about}: false."),
                open(all_where(&comparison)),
                &[],
            );
            group.cells(
                format!("{about}: its NOT is true."),
                open(all_where(&not(&comparison))),
                &[5, 6],
            );
        }
    }
    for function in [COUNT, SUM] {
        let name = NAMES[usize::from(function) - 1];
        group.cells(
            format!("{name} over no rows is 0, and equal to 0."),
            open(all_where(&equal(&none(function, 1), &constant(0)))),
            &[5, 6],
        );
        group.cells(
            format!("{name} over no rows is 0, and below each value."),
            open(all_where(&compare(
                LESS,
                &none(function, 1),
                &attribute(0, 0),
            ))),
            &[5, 6],
        );
    }
    group.cells(
        "COUNT and SUM over no rows are equal.",
        open(all_where(&equal(&none(COUNT, 1), &none(SUM, 2)))),
        &[5, 6],
    );
    group.cells(
        "AVE over no rows is not equal to COUNT over no rows.",
        open(all_where(&equal(&none(AVE, 1), &none(COUNT, 2)))),
        &[],
    );
    group.cells(
        "No value and no value, of two functions: not equal.",
        open(all_where(&equal(&none(MAX, 1), &none(MIN, 2)))),
        &[],
    );
    group.cells(
        "No value and no value, of two functions: not unequal either.",
        open(all_where(&compare(UNEQUAL, &none(MAX, 1), &none(MIN, 2)))),
        &[],
    );
}

/// The comparison is false, and no more: NOT, OR and AND are as in logic.
fn connectives(group: &mut Group) {
    let lacking = || compare(GREATER, &attribute(0, 0), &none(AVE, 1));
    let cases: [(&str, Vec<u8>, &[i64]); 9] = [
        ("NOT NOT of it: false.", not(&not(&lacking())), &[]),
        ("OR with TRUE: true.", or(&lacking(), &yes()), &[5, 6]),
        ("TRUE OR it: true.", or(&yes(), &lacking()), &[5, 6]),
        (
            "OR with a comparison that some rows meet.",
            or(&lacking(), &is(6)),
            &[6],
        ),
        (
            "OR of its NOT with a comparison.",
            or(&not(&lacking()), &is(6)),
            &[5, 6],
        ),
        ("AND with TRUE: false.", and(&lacking(), &yes()), &[]),
        (
            "AND of its NOT with a comparison.",
            and(&not(&lacking()), &is(5)),
            &[5],
        ),
        (
            "NOT of an AND with it: true.",
            not(&and(&lacking(), &yes())),
            &[5, 6],
        ),
        (
            "NOT of an OR with it and a comparison.",
            not(&or(&lacking(), &is(5))),
            &[6],
        ),
    ];
    for (about, condition, cells) in cases {
        group.cells(about, open(all_where(&condition)), cells);
    }
}

/// An assignment with such a target gives no row.
fn targets(group: &mut Group) {
    for function in [AVE, MAX, MIN] {
        let name = NAMES[usize::from(function) - 1];
        group.cells(
            format!("{name} over no rows and an attribute as targets: no row."),
            open(join(&[
                &range(0, 0),
                &attribute(0, 0),
                &none(function, 1),
                &yes(),
            ])),
            &[],
        );
        group.cells(
            format!("{name} over no rows beside COUNT over no rows: no row."),
            open(ask(&[none(COUNT, 0), none(function, 1)])),
            &[],
        );
    }
    group.cells(
        "The target without value is the first of three.",
        open(ask(&[none(MIN, 0), none(SUM, 1), none(COUNT, 2)])),
        &[],
    );
    group.cells(
        "COUNT and SUM over no rows give a row.",
        open(ask(&[none(COUNT, 0), none(SUM, 1)])),
        &[0, 0],
    );
    group.cells(
        "SUM over no rows beside an attribute: a row each.",
        open(join(&[
            &range(0, 0),
            &attribute(0, 0),
            &none(SUM, 1),
            &yes(),
        ])),
        &[5, 0, 6, 0],
    );
    group.cells(
        "MAX over rows that meet its condition, MIN over none: no row.",
        open(ask(&[
            aggregate(MAX, 0, 0, 0, &is(5)),
            aggregate(MIN, 1, 0, 0, &no()),
        ])),
        &[],
    );
    group.cells(
        "MAX and MIN over one row each.",
        open(ask(&[
            aggregate(MAX, 0, 0, 0, &is(5)),
            aggregate(MIN, 1, 0, 0, &equal(&attribute(1, 0), &constant(6))),
        ])),
        &[5, 6],
    );
    group.cells(
        "AVE of 0 is a value: a row.",
        Setting::new(relation(1, 2), &[3, -3], permit(0, ALL, &yes())).files(ask(&[aggregate(
            AVE,
            0,
            0,
            0,
            &yes(),
        )])),
        &[0],
    );
    let eight: Vec<Vec<u8>> = (0..8)
        .map(|n| if n == 7 { none(MAX, n) } else { none(COUNT, n) })
        .collect();
    group.cells(
        "Seven targets with a value and one without: no row.",
        open(ask(&eight)),
        &[],
    );
    // 65 times 65 rows of 2 cells are more than fit; with a target without value there are none.
    let values: Vec<i32> = (0..65).chain(0..65).collect();
    let many = Setting::new(
        join(&[&relation(1, 65), &relation(1, 65), &relation(1, 0)]),
        &values,
        open_permits(),
    );
    let pairs = |more: Vec<u8>| {
        join(&[
            &range(0, 0),
            &range(1, 1),
            &attribute(0, 0),
            &attribute(1, 0),
            &more,
            &yes(),
        ])
    };
    group.cells(
        "Rows that a target takes away do not count for 41.",
        many.files(pairs(aggregate(MAX, 2, 2, 0, &yes()))),
        &[],
    );
    group.refused(
        41,
        "With COUNT in its place they do.",
        many.files(pairs(aggregate(COUNT, 2, 2, 0, &yes()))),
    );
}

/// Inside aggregates and SOME.
fn nested(group: &mut Group) {
    let above_none =
        |variable: u8, inner: u8| compare(GREATER, &attribute(variable, 0), &none(AVE, inner));
    for (function, cells) in [
        (COUNT, &[0][..]),
        (SUM, &[0]),
        (AVE, &[]),
        (MAX, &[]),
        (MIN, &[]),
    ] {
        let name = NAMES[usize::from(function) - 1];
        group.cells(
            format!("{name} of the values above an AVE that has no value."),
            open(ask(&[aggregate(function, 0, 0, 0, &above_none(0, 1))])),
            cells,
        );
    }
    group.cells(
        "MAX of the values that are not above an AVE that has no value.",
        open(ask(&[aggregate(MAX, 0, 0, 0, &not(&above_none(0, 1)))])),
        &[6],
    );
    group.cells(
        "Equal to a MAX whose condition compares with no value.",
        open(all_where(&equal(
            &attribute(0, 0),
            &aggregate(MAX, 1, 0, 0, &above_none(1, 2)),
        ))),
        &[],
    );
    group.cells(
        "Above a COUNT whose condition compares with no value: the count is 0.",
        open(all_where(&compare(
            GREATER,
            &attribute(0, 0),
            &aggregate(COUNT, 1, 0, 0, &above_none(1, 2)),
        ))),
        &[5, 6],
    );
    let some_above = some(1, 0, &compare(AT_LEAST, &attribute(1, 0), &none(MIN, 2)));
    group.cells(
        "SOME with such a comparison: no row meets it.",
        open(all_where(&some_above)),
        &[],
    );
    group.cells(
        "NOT SOME with such a comparison.",
        open(all_where(&not(&some_above))),
        &[5, 6],
    );
    let some_not = some(
        1,
        0,
        &not(&compare(AT_LEAST, &attribute(1, 0), &none(MIN, 2))),
    );
    group.cells(
        "SOME with NOT of such a comparison: every row meets it.",
        open(all_where(&some_not)),
        &[5, 6],
    );
    group.cells(
        "SOME over no rows with NOT of such a comparison: still none.",
        open(all_where(&some(
            1,
            1,
            &not(&compare(EQUAL, &attribute(1, 0), &none(MIN, 2))),
        ))),
        &[],
    );
    group.cells(
        "Articles priced above the average of no offers: none.",
        open(join(&[
            &range(0, 2),
            &attribute(0, 0),
            &compare(GREATER, &attribute(0, 1), &none(AVE, 1)),
        ])),
        &[],
    );
}

/// In permits, and where a guard leaves an aggregate no row.
fn permits(group: &mut Group) {
    let with = |condition: &[u8], question: Vec<u8>| {
        let others = join(&[&permit(1, ALL, &yes()), &permit(2, ALL, &yes())]);
        setting(join(&[&permit(0, ALL, condition), &others])).files(question)
    };
    let lacking = || compare(AT_LEAST, &attribute(0, 0), &none(MIN, 1));
    group.cells(
        "A permit that compares with no value lets no row through.",
        with(&lacking(), all_where(&yes())),
        &[],
    );
    group.cells(
        "NOT of it lets all rows through.",
        with(&not(&lacking()), all_where(&yes())),
        &[5, 6],
    );
    group.cells(
        "Beside another permit: the rows of the other.",
        setting(join(&[
            &permit(0, ALL, &lacking()),
            &permit(0, ALL, &is(6)),
        ]))
        .files(all_where(&yes())),
        &[6],
    );
    group.rewritten(
        "It applies and stands in the guard.",
        with(&lacking(), all_where(&yes())),
        all_where(&and(
            &yes(),
            &compare(AT_LEAST, &attribute(0, 0), &none(MIN, 8)),
        )),
    );
    for (function, cells) in [
        (COUNT, &[0][..]),
        (SUM, &[0]),
        (AVE, &[]),
        (MAX, &[]),
        (MIN, &[]),
    ] {
        let name = NAMES[usize::from(function) - 1];
        group.cells(
            format!("All rows are hidden: {name} over them."),
            with(&not(&yes()), ask(&[aggregate(function, 0, 0, 0, &yes())])),
            cells,
        );
    }
    let below = |limit: i32| compare(LESS, &attribute(0, 0), &constant(limit));
    group.cells(
        "The only row that meets an aggregate's condition is hidden: no value.",
        with(&is(6), ask(&[aggregate(MAX, 0, 0, 0, &below(6))])),
        &[],
    );
    group.cells(
        "With that row permitted it is the value.",
        with(&yes(), ask(&[aggregate(MAX, 0, 0, 0, &below(6))])),
        &[5],
    );
    let largest = equal(&attribute(0, 0), &aggregate(MAX, 1, 0, 0, &yes()));
    group.cells(
        "Rows equal to the MAX of rows that are all hidden: none.",
        with(&not(&yes()), all_where(&largest)),
        &[],
    );
    let above_hidden = join(&[
        &range(0, 2),
        &attribute(0, 0),
        &not(&compare(
            GREATER,
            &attribute(0, 1),
            &aggregate(AVE, 1, 0, 0, &yes()),
        )),
    ]);
    group.cells(
        "NOT above the AVE of rows that are all hidden: all.",
        with(&not(&yes()), above_hidden),
        &[1, 2],
    );
}

/// Workspaces and kind 50 alike.
fn kinds(group: &mut Group) {
    let largest = || join(&[&aggregate(MAX, 0, 0, 0, &yes()), &yes()]);
    group.cells(
        "A workspace without rows.",
        Setting::new(workspace(1, 0), &[], vec![]).files(largest()),
        &[],
    );
    group.cells(
        "A relation of kind 50 without rows.",
        Setting::new(latest(1, 0), &[], permit(0, ALL, &yes())).files(largest()),
        &[],
    );
    group.cells(
        "A RANGE over no rows and an aggregate over no rows.",
        open(join(&[&range(0, 1), &none(MAX, 1), &yes()])),
        &[],
    );
}
