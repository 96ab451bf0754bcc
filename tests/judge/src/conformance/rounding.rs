//! Change 4: AVE as a target is rounded as tills do, and compared as it is.

use super::meaning::{all_where, column, open};
use super::write::*;
use super::{Group, Setting};
use crate::program::Files;

fn average(variable: u8) -> Vec<u8> {
    aggregate(AVE, variable, 0, 0, &yes())
}

/// AVE of the values, where the condition holds.
fn target(values: &[i32], condition: &[u8]) -> Files {
    column(values, join(&[&average(0), condition]))
}

pub fn fill(group: &mut Group) {
    fractions(group);
    extremes(group);
    compared(group);
    beside(group);
}

fn fractions(group: &mut Group) {
    for (values, fraction, expected) in [
        (&[3, 4][..], "7/2", 4),
        (&[-3, -4], "-7/2", -4),
        (&[1, 2, 2], "5/3", 2),
        (&[-1, -2, -2], "-5/3", -2),
        (&[0, 0, 1], "1/3", 0),
        (&[0, 0, -1], "-1/3", 0),
        (&[0, 1, 1], "2/3", 1),
        (&[0, -1, -1], "-2/3", -1),
        (&[1, 1, 2], "4/3", 1),
        (&[-1, -1, -2], "-4/3", -1),
        (&[1, 2], "3/2", 2),
        (&[-1, -2], "-3/2", -2),
        (&[2, 3], "5/2, not to the even 2", 3),
        (&[-2, -3], "-5/2, not to the even -2", -3),
        (&[1, 1, 1, 2], "5/4", 1),
        (&[1, 2, 2, 2], "7/4", 2),
        (&[-1, -1, -1, -2], "-5/4", -1),
        (&[-1, -2, -2, -2], "-7/4", -2),
        (&[-5, 6], "1/2, from both signs", 1),
        (&[5, -6], "-1/2, from both signs", -1),
        (&[-5, 5], "0/2", 0),
        (&[4, 4, 4], "12/3", 4),
    ] {
        let about = format!("AVE as a target: {fraction} is {expected}.");
        group.cells(about, target(values, &yes()), &[expected]);
    }
    for (ones, expected) in [(511, 0), (512, 1), (513, 1)] {
        let values = [vec![1; ones], vec![0; 1024 - ones]].concat();
        let about = format!("AVE as a target: {ones}/1024 is {expected}.");
        group.cells(about, target(&values, &yes()), &[expected]);
        let negative: Vec<i32> = values.iter().map(|value| -value).collect();
        let about = format!("AVE as a target: -{ones}/1024 is {}.", -expected);
        group.cells(about, target(&negative, &yes()), &[-expected]);
    }
    for (ones, expected) in [(511, 0), (512, 1)] {
        let values = [vec![1; ones], vec![0; 1023 - ones]].concat();
        let about = format!("AVE as a target: {ones}/1023, an odd count, is {expected}.");
        group.cells(about, target(&values, &yes()), &[expected]);
    }
}

/// 1,024 rows at an extreme, the last of them `off` from it.
fn extremes(group: &mut Group) {
    for (extreme, off, expected) in [
        (i32::MAX, 0, i32::MAX),
        (i32::MAX, -511, i32::MAX),
        (i32::MAX, -512, i32::MAX),
        (i32::MAX, -513, i32::MAX - 1),
        (i32::MIN, 0, i32::MIN),
        (i32::MIN, 511, i32::MIN),
        (i32::MIN, 512, i32::MIN),
        (i32::MIN, 513, i32::MIN + 1),
    ] {
        let values = [vec![extreme; 1023], vec![extreme + off]].concat();
        let about = format!(
            "AVE of 1,023 times {extreme} and once {} is {expected}.",
            extreme + off
        );
        group.cells(about, target(&values, &yes()), &[i64::from(expected)]);
    }
    let both = [i32::MIN, i32::MAX];
    group.cells(
        "AVE of both extremes, -1/2, is -1.",
        target(&both, &yes()),
        &[-1],
    );
}

fn compared(group: &mut Group) {
    let with = |values: &[i32], operator: u8, number: i32| {
        target(values, &compare(operator, &average(1), &constant(number)))
    };
    group.cells(
        "7/2 is shown as 4 and is below 4 when compared.",
        with(&[3, 4], LESS, 4),
        &[4],
    );
    group.cells(
        "7/2 is shown as 4 and does not equal 4.",
        with(&[3, 4], EQUAL, 4),
        &[],
    );
    group.cells(
        "-7/2 is shown as -4 and is above -4 when compared.",
        with(&[-3, -4], GREATER, -4),
        &[-4],
    );
    group.cells(
        "-7/2 is below -3 when compared.",
        with(&[-3, -4], LESS, -3),
        &[-4],
    );
    group.cells("-7/2 is not at most -4.", with(&[-3, -4], AT_MOST, -4), &[]);
    group.cells(
        "1/3 is shown as 0 and is above 0 when compared.",
        with(&[0, 0, 1], GREATER, 0),
        &[0],
    );
    group.cells(
        "5/3 is shown as 2 and is not at least 2.",
        with(&[1, 2, 2], AT_LEAST, 2),
        &[],
    );
    let above = aggregate(
        COUNT,
        0,
        0,
        0,
        &compare(GREATER, &attribute(0, 0), &average(1)),
    );
    group.cells(
        "In an aggregate's condition 2/3 stays 2/3: two rows are above it.",
        column(&[0, 1, 1], join(&[&above, &yes()])),
        &[2],
    );
    let rows = compare(AT_LEAST, &average(1), &attribute(0, 0));
    group.cells(
        "In a question's condition 7/2 stays 7/2: 4 is not reached.",
        column(&[3, 4], all_where(&rows)),
        &[3],
    );
    let permit_above = compare(GREATER, &attribute(0, 0), &average(1));
    let guarded = Setting::new(relation(1, 2), &[3, 4], permit(0, ALL, &permit_above));
    group.cells(
        "In a permit 7/2 stays 7/2: the row 4 is above it.",
        guarded.files(all_where(&yes())),
        &[4],
    );
    group.cells(
        "The permitted row alone: AVE is 4.",
        guarded.files(join(&[&average(0), &yes()])),
        &[4],
    );
}

/// Averages beside other targets, and equal rows.
fn beside(group: &mut Group) {
    let two = |first: &[i32], second: &[i32], condition: &[u8]| {
        let catalogue = join(&[
            &relation(1, first.len() as u16),
            &relation(1, second.len() as u16),
        ]);
        let values = [first, second].concat();
        let averages = join(&[&average(0), &aggregate(AVE, 1, 1, 0, &yes())]);
        open(catalogue, &values, join(&[&averages, condition]))
    };
    let equal = |operator: u8| {
        let second = aggregate(AVE, 3, 1, 0, &yes());
        compare(operator, &average(2), &second)
    };
    group.cells(
        "1/2 and 3/4 are both shown as 1.",
        two(&[0, 1], &[0, 1, 1, 1], &yes()),
        &[1, 1],
    );
    group.cells(
        "1/2 and 3/4, shown alike, are not equal.",
        two(&[0, 1], &[0, 1, 1, 1], &equal(EQUAL)),
        &[],
    );
    group.cells(
        "1/2 and 3/4, shown alike: the first is below the second.",
        two(&[0, 1], &[0, 1, 1, 1], &equal(LESS)),
        &[1, 1],
    );
    group.cells(
        "1/2 and 2/4 are equal, and shown alike.",
        two(&[0, 1], &[0, 1, 0, 1], &equal(EQUAL)),
        &[1, 1],
    );
    let every = |values: &[i32]| {
        let targets: Vec<u8> = (COUNT..=MIN)
            .flat_map(|function| aggregate(function, function, 0, 0, &yes()))
            .collect();
        column(values, join(&[&targets, &yes()]))
    };
    group.cells(
        "COUNT, SUM, AVE, MAX and MIN of 3 and 4: AVE alone is rounded.",
        every(&[3, 4]),
        &[2, 7, 4, 4, 3],
    );
    group.cells(
        "COUNT, SUM, AVE, MAX and MIN of -3, -4 and -4.",
        every(&[-3, -4, -4]),
        &[3, -11, -4, -3, -4],
    );
    let repeated = join(&[&range(0, 0), &average(1), &yes()]);
    group.cells(
        "A rounded average for each of two rows: equal rows, so one.",
        column(&[3, 4], repeated),
        &[4],
    );
    let shown = join(&[&range(0, 0), &attribute(0, 0), &average(1), &yes()]);
    group.cells(
        "A rounded average beside each row's own value.",
        column(&[3, 4, 3], shown),
        &[3, 3, 4, 3],
    );
}
