//! What a question means: rows, their order, conditions and aggregates.

use super::write::*;
use super::{Group, Setting};
use crate::program::Files;

pub fn open(catalogue: Vec<u8>, values: &[i32], question: Vec<u8>) -> Files {
    let relations = catalogue.len() / 4;
    let permits = (0..relations as u8).flat_map(|relation| permit(relation, ALL, &yes()));
    Setting::new(catalogue, values, permits.collect()).files(question)
}

/// One relation of one attribute, all of it permitted.
pub fn column(values: &[i32], question: Vec<u8>) -> Files {
    open(relation(1, values.len() as u16), values, question)
}

pub fn all_where(condition: &[u8]) -> Vec<u8> {
    join(&[&range(0, 0), &attribute(0, 0), condition])
}

pub fn fill(group: &mut Group) {
    rows(group);
    conditions(group);
    aggregates(group);
    averages(group);
    hidden(group);
    papers(group);
}

fn rows(group: &mut Group) {
    let two = || join(&[&relation(1, 2), &relation(1, 3)]);
    let values = [1, 2, 10, 20, 30];
    let both = join(&[
        &range(0, 0),
        &range(1, 1),
        &attribute(0, 0),
        &attribute(1, 0),
        &yes(),
    ]);
    group.cells(
        "Like an odometer: the last RANGE is fastest.",
        open(two(), &values, both),
        &[1, 10, 1, 20, 1, 30, 2, 10, 2, 20, 2, 30],
    );
    let other = join(&[
        &range(0, 1),
        &range(1, 0),
        &attribute(1, 0),
        &attribute(0, 0),
        &yes(),
    ]);
    group.cells(
        "The order is that of the RANGEs, not that of the targets.",
        open(two(), &values, other),
        &[1, 10, 2, 10, 1, 20, 2, 20, 1, 30, 2, 30],
    );
    let high = join(&[
        &range(5, 0),
        &range(2, 1),
        &attribute(5, 0),
        &attribute(2, 0),
        &yes(),
    ]);
    group.cells(
        "The order is not that of the variables' numbers.",
        open(two(), &values, high),
        &[1, 10, 1, 20, 1, 30, 2, 10, 2, 20, 2, 30],
    );
    group.cells(
        "Rows come as they are stored, not sorted.",
        column(&[3, 1, 2], all_where(&yes())),
        &[3, 1, 2],
    );
    group.cells(
        "A row equal to an earlier one is dropped: the first meeting counts.",
        column(&[2, 1, 2, 3, 1], all_where(&yes())),
        &[2, 1, 3],
    );
    let pairs = |values: &[i32]| {
        open(
            relation(2, 3),
            values,
            join(&[&range(0, 0), &attribute(0, 0), &attribute(0, 1), &yes()]),
        )
    };
    group.cells(
        "Rows are equal if all their cells are.",
        pairs(&[1, 2, 1, 3, 1, 2]),
        &[1, 2, 1, 3],
    );
    let second = open(
        relation(2, 3),
        &[1, 7, 2, 7, 3, 8],
        join(&[&range(0, 0), &attribute(0, 1), &yes()]),
    );
    group.cells("Only the targets are compared.", second, &[7, 8]);
    group.cells("One row.", column(&[4], all_where(&yes())), &[4]);
    group.cells(
        "A relation of no rows.",
        column(&[], all_where(&yes())),
        &[],
    );
    let empty = open(
        join(&[&relation(1, 2), &relation(1, 0)]),
        &[1, 2],
        join(&[&range(0, 0), &range(1, 1), &attribute(0, 0), &yes()]),
    );
    group.cells(
        "A second RANGE over no rows leaves no assignment.",
        empty,
        &[],
    );
    let idle = open(
        two(),
        &values,
        join(&[&range(0, 0), &range(1, 1), &attribute(0, 0), &yes()]),
    );
    group.cells(
        "A RANGE that is not used repeats rows, which are dropped.",
        idle,
        &[1, 2],
    );
    let count = |condition: Vec<u8>| join(&[&aggregate(COUNT, 0, 0, 0, &yes()), &condition]);
    group.cells(
        "No RANGE: one assignment.",
        column(&[1, 1], count(yes())),
        &[2],
    );
    group.cells(
        "No RANGE, and a condition that fails: no rows.",
        column(&[1, 1], count(no())),
        &[],
    );
    let same = open(
        relation(1, 3),
        &[1, 2, 3],
        join(&[
            &range(0, 0),
            &range(1, 0),
            &attribute(0, 0),
            &attribute(1, 0),
            &compare(LESS, &attribute(0, 0), &attribute(1, 0)),
        ]),
    );
    group.cells(
        "Two variables over one relation.",
        same,
        &[1, 2, 1, 3, 2, 3],
    );
    group.cells(
        "Extreme values.",
        column(&[i32::MAX, i32::MIN, 0, -1], all_where(&yes())),
        &[2147483647, -2147483648, 0, -1],
    );
    let eight = join(&[&range(0, 0), &attribute(0, 0).repeat(8), &yes()]);
    group.cells("The same target eight times.", column(&[9], eight), &[9; 8]);
    let sixteen: Vec<i32> = (0..16).collect();
    let last = open(
        relation(16, 1),
        &sixteen,
        join(&[&range(0, 0), &attribute(0, 15), &attribute(0, 0), &yes()]),
    );
    group.cells("Attribute 15 of 16.", last, &[15, 0]);
    let space = join(&[&workspace(1, 1), &relation(1, 1)]);
    let from_both = Setting::new(space, &[3, 4], permit(1, ALL, &yes())).files(join(&[
        &range(0, 0),
        &range(1, 1),
        &attribute(0, 0),
        &attribute(1, 0),
        &yes(),
    ]));
    group.cells(
        "Values of the second relation follow those of a workspace.",
        from_both,
        &[3, 4],
    );
}

fn conditions(group: &mut Group) {
    let names = ["=", "≠", "<", "≤", ">", "≥"];
    for operator in 1..=6 {
        let expected: Vec<i64> = match operator {
            EQUAL => vec![5],
            UNEQUAL => vec![4, 6],
            LESS => vec![4],
            AT_MOST => vec![4, 5],
            GREATER => vec![6],
            _ => vec![5, 6],
        };
        let name = names[usize::from(operator) - 1];
        let condition = compare(operator, &attribute(0, 0), &constant(5));
        group.cells(
            format!("4, 5 and 6 {name} 5."),
            column(&[4, 5, 6], all_where(&condition)),
            &expected,
        );
        let condition = compare(operator, &constant(5), &attribute(0, 0));
        let expected: Vec<i64> = match operator {
            EQUAL => vec![5],
            UNEQUAL => vec![4, 6],
            LESS => vec![6],
            AT_MOST => vec![5, 6],
            GREATER => vec![4],
            _ => vec![4, 5],
        };
        group.cells(
            format!("5 {name} 4, 5 and 6."),
            column(&[4, 5, 6], all_where(&condition)),
            &expected,
        );
    }
    let extremes = [i32::MIN, -1, 0, i32::MAX];
    let below = compare(LESS, &attribute(0, 0), &constant(i32::MAX));
    group.cells(
        "Signed: all but the largest are below it.",
        column(&extremes, all_where(&below)),
        &[-2147483648, -1, 0],
    );
    let above = compare(GREATER, &attribute(0, 0), &constant(i32::MIN));
    group.cells(
        "Signed: all but the smallest are above it.",
        column(&extremes, all_where(&above)),
        &[-1, 0, 2147483647],
    );
    let truth = |condition: Vec<u8>| column(&[1], all_where(&condition));
    for (left, right) in [(false, false), (false, true), (true, false), (true, true)] {
        let write = |held: bool| if held { yes() } else { no() };
        let cells = |held: bool| if held { vec![1] } else { vec![] };
        group.cells(
            format!("{left} AND {right}."),
            truth(and(&write(left), &write(right))),
            &cells(left && right),
        );
        group.cells(
            format!("{left} OR {right}."),
            truth(or(&write(left), &write(right))),
            &cells(left || right),
        );
    }
    group.cells("NOT TRUE.", truth(not(&yes())), &[]);
    group.cells("NOT FALSE.", truth(not(&no())), &[1]);
    group.cells(
        "NOT takes one condition: NOT of an AND.",
        truth(not(&and(&yes(), &no()))),
        &[1],
    );
    let exists = |condition: Vec<u8>| column(&[1, 2, 3], all_where(&condition));
    group.cells(
        "SOME: a row of the relation meets the condition.",
        exists(some(
            1,
            0,
            &compare(GREATER, &attribute(1, 0), &attribute(0, 0)),
        )),
        &[1, 2],
    );
    group.cells(
        "NOT SOME.",
        exists(not(&some(
            1,
            0,
            &compare(GREATER, &attribute(1, 0), &attribute(0, 0)),
        ))),
        &[3],
    );
    group.cells(
        "SOME with TRUE over rows.",
        exists(some(1, 0, &yes())),
        &[1, 2, 3],
    );
    group.cells("SOME with FALSE.", exists(some(1, 0, &no())), &[]);
    let empty = |condition: Vec<u8>| {
        open(
            join(&[&relation(1, 1), &relation(1, 0)]),
            &[5],
            all_where(&condition),
        )
    };
    group.cells(
        "SOME over no rows does not hold.",
        empty(some(1, 1, &yes())),
        &[],
    );
    group.cells(
        "NOT SOME over no rows.",
        empty(not(&some(1, 1, &yes()))),
        &[5],
    );
    let between = some(
        1,
        0,
        &some(
            2,
            0,
            &and(
                &compare(LESS, &attribute(1, 0), &attribute(0, 0)),
                &compare(GREATER, &attribute(2, 0), &attribute(0, 0)),
            ),
        ),
    );
    group.cells(
        "SOME in SOME: a smaller and a larger row.",
        exists(between),
        &[2],
    );
}

fn aggregates(group: &mut Group) {
    let ask = |function: u8, condition: Vec<u8>| {
        join(&[&aggregate(function, 0, 0, 0, &condition), &yes()])
    };
    let names = ["COUNT", "SUM", "AVE", "MAX", "MIN"];
    for (function, expected) in [(COUNT, 4), (SUM, 13), (AVE, 3), (MAX, 5), (MIN, 2)] {
        let name = names[usize::from(function) - 1];
        let about = format!("{name} of 3, 5, 3 and 2: equal values are counted each time.");
        group.cells(
            about,
            column(&[3, 5, 3, 2], ask(function, yes())),
            &[expected],
        );
        // Change 2: COUNT and SUM stay 0, the others leave no row.
        let (is, cells): (&str, &[i64]) = match function {
            COUNT | SUM => ("is 0", &[0]),
            _ => ("has no value, so there is no row", &[]),
        };
        group.cells(
            format!("{name} over no rows {is}."),
            column(&[], ask(function, yes())),
            cells,
        );
        group.cells(
            format!("{name} over rows of which none meets the condition {is}."),
            column(&[7, -7], ask(function, no())),
            cells,
        );
        group.cells(
            format!("{name} takes the rows that meet its condition."),
            column(
                &[1, 8, 8, 9],
                ask(function, compare(EQUAL, &attribute(0, 0), &constant(8))),
            ),
            &[match function {
                COUNT => 2,
                SUM => 16,
                _ => 8,
            }],
        );
    }
    group.cells(
        "MAX of negative values.",
        column(&[-5, -3, -9], ask(MAX, yes())),
        &[-3],
    );
    group.cells(
        "MIN of negative values.",
        column(&[-5, -3, -9], ask(MIN, yes())),
        &[-9],
    );
    group.cells(
        "MIN of positive values is not 0.",
        column(&[5, 3, 9], ask(MIN, yes())),
        &[3],
    );
    group.cells(
        "SUM of 1,024 times the smallest value.",
        column(&[i32::MIN; 1024], ask(SUM, yes())),
        &[-2199023255552],
    );
    group.cells(
        "SUM of 1,024 times the largest value.",
        column(&[i32::MAX; 1024], ask(SUM, yes())),
        &[2199023254528],
    );
    group.cells(
        "MAX and MIN of the extremes.",
        column(
            &[i32::MIN, i32::MAX],
            join(&[
                &aggregate(MAX, 0, 0, 0, &yes()),
                &aggregate(MIN, 1, 0, 0, &yes()),
                &yes(),
            ]),
        ),
        &[2147483647, -2147483648],
    );
    let second = open(
        relation(2, 2),
        &[1, 10, 2, 20],
        join(&[&aggregate(SUM, 0, 0, 1, &yes()), &yes()]),
    );
    group.cells("SUM of attribute 1.", second, &[30]);
    let beside = join(&[
        &range(0, 0),
        &attribute(0, 0),
        &aggregate(COUNT, 1, 0, 0, &yes()),
        &yes(),
    ]);
    group.cells(
        "An aggregate beside an attribute: its value in each row.",
        column(&[4, 6], beside),
        &[4, 2, 6, 2],
    );
    let least = all_where(&compare(
        EQUAL,
        &attribute(0, 0),
        &aggregate(MIN, 1, 0, 0, &yes()),
    ));
    group.cells(
        "Rows whose value is the least.",
        column(&[3, 1, 2, 1], least),
        &[1],
    );
    let inner = aggregate(
        COUNT,
        1,
        0,
        0,
        &compare(EQUAL, &attribute(1, 0), &aggregate(MAX, 2, 0, 0, &yes())),
    );
    group.cells(
        "An aggregate in an aggregate: how many have the largest value.",
        column(&[3, 5, 5], join(&[&inner, &yes()])),
        &[2],
    );
    let inside = aggregate(
        COUNT,
        1,
        0,
        0,
        &some(2, 0, &compare(GREATER, &attribute(2, 0), &attribute(1, 0))),
    );
    group.cells(
        "SOME in an aggregate: how many have a larger one.",
        column(&[3, 5, 4], join(&[&inside, &yes()])),
        &[2],
    );
    let sums = all_where(&compare(
        EQUAL,
        &aggregate(SUM, 1, 0, 0, &yes()),
        &aggregate(COUNT, 2, 0, 0, &yes()),
    ));
    group.cells("Two aggregates compared.", column(&[1, 1], sums), &[1]);
}

fn averages(group: &mut Group) {
    let target = |values: &[i32]| column(values, join(&[&aggregate(AVE, 0, 0, 0, &yes()), &yes()]));
    for (values, expected) in [
        (&[-3, -4][..], -4),
        (&[3, 4], 4),
        (&[7], 7),
        (&[-7], -7),
        (&[1, -2], -1),
        (&[0, 1], 1),
        (&[-1, -1, 0], -1),
        (&[5, 5, 6], 5),
        (&[i32::MIN, i32::MIN], -2147483648),
        (&[i32::MIN, i32::MAX], -1),
        (&[i32::MAX, i32::MAX, i32::MAX - 1], 2147483647),
    ] {
        group.cells(
            format!(
                "AVE of {values:?} as a target is rounded to the nearest, halves away from zero."
            ),
            target(values),
            &[expected],
        );
    }
    let compared = |values: &[i32], operator: u8, number: i32| {
        let average = aggregate(AVE, 0, 0, 0, &yes());
        let count = aggregate(COUNT, 1, 0, 0, &yes());
        column(
            values,
            join(&[&count, &compare(operator, &average, &constant(number))]),
        )
    };
    group.cells(
        "AVE of -3 and -4 is below -3.",
        compared(&[-3, -4], LESS, -3),
        &[2],
    );
    group.cells(
        "AVE of -3 and -4 is not -3.",
        compared(&[-3, -4], EQUAL, -3),
        &[],
    );
    group.cells(
        "AVE of -3 and -4 is above -4.",
        compared(&[-3, -4], GREATER, -4),
        &[2],
    );
    group.cells(
        "AVE of 3 and 4 is above 3.",
        compared(&[3, 4], GREATER, 3),
        &[2],
    );
    group.cells(
        "AVE of 3 and 4 is not at least 4.",
        compared(&[3, 4], AT_LEAST, 4),
        &[],
    );
    group.cells("AVE of 3 and 5 is 4.", compared(&[3, 5], EQUAL, 4), &[2]);
    group.cells(
        "AVE of 0 and 1 is not 0.",
        compared(&[0, 1], UNEQUAL, 0),
        &[2],
    );
    group.cells(
        "AVE over no rows is not equal to 0.",
        column(
            &[],
            join(&[
                &aggregate(COUNT, 1, 0, 0, &yes()),
                &compare(EQUAL, &aggregate(AVE, 0, 0, 0, &yes()), &constant(0)),
            ]),
        ),
        &[],
    );
    let two = |first: &[i32], second: &[i32], operator: u8| {
        let catalogue = join(&[
            &relation(1, first.len() as u16),
            &relation(1, second.len() as u16),
        ]);
        let values: Vec<i32> = first.iter().chain(second).copied().collect();
        let condition = compare(
            operator,
            &aggregate(AVE, 0, 0, 0, &yes()),
            &aggregate(AVE, 1, 1, 0, &yes()),
        );
        open(
            catalogue,
            &values,
            join(&[&aggregate(COUNT, 2, 0, 0, &yes()), &condition]),
        )
    };
    group.cells("1/2 equals 2/4.", two(&[0, 1], &[0, 1, 0, 1], EQUAL), &[2]);
    group.cells("1/3 is below 1/2.", two(&[0, 0, 1], &[0, 1], LESS), &[3]);
    group.cells(
        "-1/3 is above -1/2.",
        two(&[0, 0, -1], &[0, -1], GREATER),
        &[3],
    );
    group.cells(
        "Averages near the extremes are told apart.",
        two(
            &[i32::MAX, i32::MAX - 1],
            &[i32::MAX, i32::MAX, i32::MAX - 1],
            LESS,
        ),
        &[2],
    );
    let values: Vec<i32> = [vec![i32::MAX; 1023], vec![i32::MAX - 1]].concat();
    group.cells(
        "An average of 1,024 rows, a 1,024th below the largest value.",
        compared(&values, LESS, i32::MAX),
        &[1024],
    );
}

/// Hidden rows move nothing.
fn hidden(group: &mut Group) {
    // Rows 1 to 4; those up to 2 are permitted.
    let setting = Setting::new(
        relation(1, 4),
        &[4, 1, 3, 2],
        permit(0, ALL, &compare(AT_MOST, &attribute(0, 0), &constant(2))),
    );
    let ask = |question: Vec<u8>| setting.files(question);
    let names = ["COUNT", "SUM", "AVE", "MAX", "MIN"];
    for (function, expected) in [(COUNT, 2), (SUM, 3), (AVE, 2), (MAX, 2), (MIN, 1)] {
        let name = names[usize::from(function) - 1];
        group.cells(
            format!("{name} takes the permitted rows alone."),
            ask(join(&[&aggregate(function, 0, 0, 0, &yes()), &yes()])),
            &[expected],
        );
    }
    group.cells(
        "A RANGE runs over the permitted rows, in relation order.",
        ask(all_where(&yes())),
        &[1, 2],
    );
    group.cells(
        "SOME sees the permitted rows alone.",
        ask(all_where(&some(
            1,
            0,
            &compare(GREATER, &attribute(1, 0), &attribute(0, 0)),
        ))),
        &[1],
    );
    group.cells(
        "NOT SOME: hidden rows do not make it fail.",
        ask(all_where(&not(&some(
            1,
            0,
            &compare(GREATER, &attribute(1, 0), &constant(2)),
        )))),
        &[1, 2],
    );
    let whole = |condition: Vec<u8>| Setting {
        permits: permit(0, ALL, &condition),
        ..setting.clone()
    };
    let largest = compare(EQUAL, &attribute(0, 0), &aggregate(MAX, 1, 0, 0, &yes()));
    group.cells(
        "A permit's own condition sees all rows: the largest of all.",
        whole(largest).files(all_where(&yes())),
        &[4],
    );
    let larger = some(1, 0, &compare(GREATER, &attribute(1, 0), &attribute(0, 0)));
    group.cells(
        "A permit's SOME sees all rows.",
        whole(larger).files(join(&[&aggregate(COUNT, 0, 0, 0, &yes()), &yes()])),
        &[3],
    );
    let empty = Setting::new(
        join(&[&relation(1, 2), &relation(1, 0)]),
        &[5, 6],
        join(&[
            &permit(0, ALL, &some(1, 1, &yes())),
            &permit(0, ALL, &compare(EQUAL, &attribute(0, 0), &constant(6))),
        ]),
    );
    group.cells(
        "An empty relation in one permit's SOME does not kill the other permit.",
        empty.files(all_where(&yes())),
        &[6],
    );
    let halves = Setting::new(
        relation(2, 2),
        &[1, 10, 2, 20],
        join(&[
            &permit(0, 1, &compare(EQUAL, &attribute(0, 0), &constant(1))),
            &permit(0, 2, &compare(EQUAL, &attribute(0, 0), &constant(2))),
        ]),
    );
    let two = join(&[
        &range(0, 0),
        &range(1, 0),
        &attribute(0, 0),
        &attribute(1, 1),
        &yes(),
    ]);
    group.cells(
        "Two variables over one relation see different rows.",
        halves.files(two),
        &[1, 20],
    );
    let free = Setting::new(
        join(&[&relation(1, 2), &workspace(1, 2)]),
        &[1, 2, 1, 2],
        permit(0, ALL, &no()),
    );
    let both = join(&[
        &aggregate(COUNT, 0, 0, 0, &yes()),
        &aggregate(COUNT, 1, 1, 0, &yes()),
        &yes(),
    ]);
    group.refused(
        33,
        "No access to the relation, all rows of the workspace.",
        free.files(both),
    );
}

/// EMPLOYEE and DEPARTMENT of the paper of 1974, with the numbers of document 01.
fn papers(group: &mut Group) {
    let employee = [
        1, 1, 10000, 2, 2, 1, 15000, 8, 3, 2, 12000, 5, 4, 2, 14000, 7, 5, 4, 20000, 6, 6, 4,
        40000, 0,
    ];
    let department = [
        1, -1, 10, 1000, 2, 1, 5, 2000, 3, 1, 16, 1500, 4, 4, 10, 0, 5, 2, 3, 0,
    ];
    let values = [&employee[..], &department].concat();
    let shop = |permits: Vec<u8>, question: Vec<u8>| {
        Setting::new(join(&[&relation(4, 6), &relation(4, 5)]), &values, permits).files(question)
    };
    let equal = |left: &[u8], right: &[u8]| compare(EQUAL, left, right);
    let alone = Setting::new(
        relation(4, 6),
        &employee,
        permit(0, 4, &equal(&attribute(0, 1), &constant(1))),
    );
    group.cells(
        "4.2: the average salary, of the toy department alone.",
        alone.files(join(&[&aggregate(AVE, 3, 0, 2, &yes()), &yes()])),
        &[12500],
    );
    let smith = permit(0, 15, &equal(&attribute(0, 0), &constant(1)));
    let jones = join(&[
        &range(0, 0),
        &attribute(0, 2),
        &equal(&attribute(0, 0), &constant(2)),
    ]);
    group.cells(
        "3.2: Smith asks for Jones's salary.",
        shop(smith, jones),
        &[],
    );
    let manager = some(
        1,
        0,
        &and(
            &equal(&attribute(1, 0), &attribute(0, 3)),
            &compare(GREATER, &attribute(0, 2), &attribute(1, 2)),
        ),
    );
    let sales = compare(GREATER, &attribute(0, 3), &aggregate(AVE, 1, 1, 3, &yes()));
    let list = || {
        join(&[
            &permit(0, 12, &yes()),
            &permit(0, 11, &compare(UNEQUAL, &attribute(0, 0), &constant(5))),
            &permit(0, 13, &manager),
            &permit(1, ALL, &sales),
        ])
    };
    let salaries = join(&[&range(0, 0), &attribute(0, 2), &yes()]);
    group.cells(
        "3.4: all salaries.",
        shop(list(), salaries),
        &[10000, 15000, 12000, 14000, 20000, 40000],
    );
    let adams = join(&[
        &range(0, 0),
        &attribute(0, 3),
        &equal(&attribute(0, 0), &constant(3)),
    ]);
    group.cells("3.5: Adams's manager.", shop(list(), adams), &[5]);
    let above = and(
        &equal(&attribute(0, 3), &attribute(1, 0)),
        &compare(LESS, &attribute(1, 2), &attribute(0, 2)),
    );
    group.cells(
        "3.6: who earns more than the manager.",
        shop(
            list(),
            join(&[&range(0, 0), &range(1, 0), &attribute(0, 0), &above]),
        ),
        &[],
    );
    group.refused(
        33,
        "3.3's permits do not let department and salary be combined.",
        shop(
            list(),
            join(&[&range(0, 0), &attribute(0, 1), &attribute(0, 2), &yes()]),
        ),
    );
    group.cells(
        "Departments with sales above the average of all.",
        shop(list(), join(&[&range(0, 1), &attribute(0, 0), &yes()])),
        &[1, 2, 3],
    );
    let all = join(&[&permit(0, ALL, &yes()), &permit(1, ALL, &yes())]);
    let floor = and(
        &equal(&attribute(0, 1), &attribute(1, 0)),
        &equal(&attribute(1, 1), &constant(1)),
    );
    group.cells(
        "2.2: employees of departments on floor 1.",
        shop(
            all.clone(),
            join(&[&range(0, 0), &range(1, 1), &attribute(0, 0), &floor]),
        ),
        &[3, 4],
    );
    group.cells(
        "Each department once.",
        shop(all, join(&[&range(0, 0), &attribute(0, 1), &yes()])),
        &[1, 2, 4],
    );
    let offers = join(&[
        &range(0, 0),
        &attribute(0, 2),
        &equal(&attribute(0, 1), &aggregate(MIN, 1, 0, 1, &yes())),
    ]);
    group.cells(
        "Two offers of equal rank: the one whose row is met first comes first.",
        open(relation(3, 2), &[7, 1, 11, 7, 1, 12], offers),
        &[11, 12],
    );
}
