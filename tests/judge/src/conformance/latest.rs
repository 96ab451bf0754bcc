//! Change 9: kind 50, a stored relation that is walked from its last row to its first.

use super::meaning::{all_where, open};
use super::write::*;
use super::{Group, Setting};
use crate::program::Files;

/// One relation of kind 50 and one attribute, all of it permitted.
fn column(values: &[i32], question: Vec<u8>) -> Files {
    open(latest(1, values.len() as u16), values, question)
}

fn equal(left: &[u8], right: &[u8]) -> Vec<u8> {
    compare(EQUAL, left, right)
}

/// Ranges over relations 0, 1, .., one for each, and an attribute of each as target.
fn each(count: u8) -> Vec<u8> {
    let ranges = (0..count).flat_map(|n| range(n, n));
    let targets = (0..count).flat_map(|n| attribute(n, 0));
    ranges.chain(targets).chain(yes()).collect()
}

pub fn fill(group: &mut Group) {
    order(group);
    beside(group);
    conditions(group);
    permitted(group);
    permits(group);
    checks(group);
}

/// Order of first meeting.
fn order(group: &mut Group) {
    let offers = [7, 1, 11, 7, 1, 12];
    let least = join(&[
        &range(0, 0),
        &attribute(0, 2),
        &equal(&attribute(0, 1), &aggregate(MIN, 1, 0, 1, &yes())),
    ]);
    group.cells(
        "Two offers of equal rank under kind 48: the first stored comes first.",
        open(relation(3, 2), &offers, least.clone()),
        &[11, 12],
    );
    group.cells(
        "The same under kind 50: the last stored comes first, and the label shows it.",
        open(latest(3, 2), &offers, least),
        &[12, 11],
    );
    group.cells(
        "Rows come from the last to the first, not sorted.",
        column(&[3, 1, 4, 2], all_where(&yes())),
        &[2, 4, 1, 3],
    );
    group.cells(
        "Of equal rows the last stored is met first, and the others are dropped.",
        column(&[2, 1, 2, 3, 1], all_where(&yes())),
        &[1, 3, 2],
    );
    group.cells(
        "All rows equal.",
        column(&[4, 4, 4], all_where(&yes())),
        &[4],
    );
    group.cells("One row.", column(&[4], all_where(&yes())), &[4]);
    group.cells("No rows.", column(&[], all_where(&yes())), &[]);
    group.cells(
        "The cells of a row keep their order.",
        open(
            latest(3, 2),
            &[1, 2, 3, 4, 5, 6],
            join(&[
                &range(0, 0),
                &attribute(0, 0),
                &attribute(0, 1),
                &attribute(0, 2),
                &yes(),
            ]),
        ),
        &[4, 5, 6, 1, 2, 3],
    );
    group.cells(
        "Only the targets are compared: of rows that differ elsewhere the last is met first.",
        open(
            latest(2, 4),
            &[1, 7, 2, 8, 3, 7, 4, 9],
            join(&[&range(0, 0), &attribute(0, 1), &yes()]),
        ),
        &[9, 7, 8],
    );
    let twice = join(&[
        &range(0, 0),
        &range(1, 0),
        &attribute(0, 0),
        &attribute(1, 0),
        &yes(),
    ]);
    group.cells(
        "Two variables over it: an odometer of two walks, the last RANGE fastest.",
        column(&[1, 2], twice),
        &[2, 2, 2, 1, 1, 2, 1, 1],
    );
    let rows: Vec<i32> = (0..1024).collect();
    let high = compare(AT_LEAST, &attribute(0, 0), &constant(1021));
    group.cells(
        "1,024 rows pass, and the last is met first.",
        column(&rows, all_where(&high)),
        &[1023, 1022, 1021],
    );
    group.refused(10, "1,025 rows.", column(&[5; 1025], all_where(&yes())));
    let first = join(&[&range(0, 0), &attribute(0, 15), &attribute(0, 0), &yes()]);
    let values: Vec<i32> = (0..32).collect();
    group.cells(
        "16 attributes.",
        open(latest(16, 2), &values, first),
        &[31, 16, 15, 0],
    );
}

/// Each variable by its own relation's kind.
fn beside(group: &mut Group) {
    let values = [1, 2, 10, 20];
    let kinds: [(&str, fn(u8, u16) -> Vec<u8>); 2] = [("48", relation), ("50", latest)];
    let both = [
        [1, 10, 1, 20, 2, 10, 2, 20],
        [1, 20, 1, 10, 2, 20, 2, 10],
        [2, 10, 2, 20, 1, 10, 1, 20],
        [2, 20, 2, 10, 1, 20, 1, 10],
    ];
    for (first, (first_name, first_kind)) in kinds.iter().enumerate() {
        for (second, (second_name, second_kind)) in kinds.iter().enumerate() {
            group.cells(
                format!("Two RANGEs, over kind {first_name} and kind {second_name}."),
                open(
                    join(&[&first_kind(1, 2), &second_kind(1, 2)]),
                    &values,
                    each(2),
                ),
                &both[2 * first + second],
            );
        }
    }
    let with_workspace = |catalogue: &[Vec<u8>], stored: u8, question: Vec<u8>| {
        Setting::new(catalogue.concat(), &values, permit(stored, ALL, &yes())).files(question)
    };
    group.cells(
        "A workspace beside it stays in the stored order.",
        with_workspace(&[latest(1, 2), workspace(1, 2)], 0, each(2)),
        &[2, 10, 2, 20, 1, 10, 1, 20],
    );
    group.cells(
        "A workspace before it stays in the stored order.",
        with_workspace(&[workspace(1, 2), latest(1, 2)], 1, each(2)),
        &[1, 20, 1, 10, 2, 20, 2, 10],
    );
    let three = join(&[&latest(1, 2), &workspace(1, 2), &relation(1, 2)]);
    let permits = join(&[&permit(0, ALL, &yes()), &permit(2, ALL, &yes())]);
    group.cells(
        "Kinds 50, 49 and 48 in one question.",
        Setting::new(three, &[1, 2, 3, 4, 5, 6], permits).files(each(3)),
        &[
            2, 3, 5, 2, 3, 6, 2, 4, 5, 2, 4, 6, 1, 3, 5, 1, 3, 6, 1, 4, 5, 1, 4, 6,
        ],
    );
    let turned = join(&[
        &range(0, 1),
        &range(1, 0),
        &attribute(1, 0),
        &attribute(0, 0),
        &yes(),
    ]);
    group.cells(
        "The order is that of the RANGEs, each in its own walk.",
        open(join(&[&latest(1, 2), &relation(1, 2)]), &values, turned),
        &[2, 10, 1, 10, 2, 20, 1, 20],
    );
    let idle = join(&[&range(0, 0), &range(1, 1), &attribute(1, 0), &yes()]);
    group.cells(
        "A RANGE over kind 50 that is not used turns nothing round.",
        open(join(&[&latest(1, 2), &relation(1, 2)]), &values, idle),
        &[10, 20],
    );
    let joined = join(&[
        &range(0, 0),
        &range(1, 1),
        &attribute(0, 1),
        &attribute(1, 1),
        &equal(&attribute(0, 0), &attribute(1, 0)),
    ]);
    group.cells(
        "Joined by equal values: the first RANGE forward, the second from its last row.",
        open(
            join(&[&relation(2, 3), &latest(2, 4)]),
            &[1, 11, 2, 12, 1, 13, 1, 21, 2, 22, 1, 23, 2, 24],
            joined,
        ),
        &[11, 23, 11, 21, 12, 24, 12, 22, 13, 23, 13, 21],
    );
    group.cells(
        "Values of a later relation start where they did.",
        open(
            join(&[&latest(2, 2), &relation(1, 2)]),
            &[1, 2, 3, 4, 8, 9],
            join(&[&range(0, 1), &attribute(0, 0), &yes()]),
        ),
        &[8, 9],
    );
}

/// SOME and aggregates over it.
fn conditions(group: &mut Group) {
    let catalogue = || join(&[&relation(1, 3), &latest(1, 3)]);
    let values = [3, 1, 2, 2, 3, 2];
    let listed = some(1, 1, &equal(&attribute(1, 0), &attribute(0, 0)));
    group.cells(
        "SOME over kind 50: its walk orders no row.",
        open(catalogue(), &values, all_where(&listed)),
        &[3, 2],
    );
    group.cells(
        "NOT SOME over kind 50.",
        open(catalogue(), &values, all_where(&not(&listed))),
        &[1],
    );
    let inner = some(1, 0, &equal(&attribute(1, 0), &attribute(0, 0)));
    group.cells(
        "SOME over kind 48 under a RANGE over kind 50.",
        open(
            catalogue(),
            &values,
            join(&[&range(0, 1), &attribute(0, 0), &inner]),
        ),
        &[2, 3],
    );
    group.cells(
        "SOME over a relation of kind 50 without rows.",
        open(
            join(&[&relation(1, 1), &latest(1, 0)]),
            &[5],
            all_where(&some(1, 1, &yes())),
        ),
        &[],
    );
    let names = ["COUNT", "SUM", "AVE", "MAX", "MIN"];
    for (function, expected) in [(COUNT, 3), (SUM, 8), (AVE, 3), (MAX, 5), (MIN, -1)] {
        let name = names[usize::from(function) - 1];
        group.cells(
            format!("{name} over kind 50 takes all rows."),
            column(
                &[5, -1, 4],
                join(&[&aggregate(function, 0, 0, 0, &yes()), &yes()]),
            ),
            &[expected],
        );
    }
    let largest = equal(&attribute(0, 0), &aggregate(MAX, 1, 0, 0, &yes()));
    group.cells(
        "Rows of the largest value, from the last.",
        open(
            latest(2, 4),
            &[9, 1, 8, 2, 9, 3, 8, 4],
            join(&[&range(0, 0), &attribute(0, 1), &largest]),
        ),
        &[3, 1],
    );
    group.cells(
        "An aggregate and a row as targets.",
        column(
            &[1, 2, 3],
            join(&[
                &range(0, 0),
                &aggregate(COUNT, 1, 0, 0, &yes()),
                &attribute(0, 0),
                &yes(),
            ]),
        ),
        &[3, 3, 3, 2, 3, 1],
    );
    let nested = aggregate(
        SUM,
        1,
        0,
        0,
        &some(2, 0, &compare(LESS, &attribute(2, 0), &attribute(1, 0))),
    );
    group.cells(
        "A SOME inside an aggregate, both over kind 50.",
        column(&[1, 2, 3], join(&[&nested, &yes()])),
        &[5],
    );
}

/// Permitted rows follow the walk.
fn permitted(group: &mut Group) {
    let low = compare(AT_MOST, &attribute(0, 0), &constant(2));
    let setting = |permits: Vec<u8>| Setting::new(latest(1, 5), &[4, 1, 3, 2, 1], permits);
    group.cells(
        "The permitted rows alone, from the last.",
        setting(permit(0, ALL, &low)).files(all_where(&yes())),
        &[1, 2],
    );
    group.cells(
        "The last row is hidden: the first permitted row of the walk comes first.",
        Setting::new(latest(1, 4), &[1, 2, 1, 9], permit(0, ALL, &low)).files(all_where(&yes())),
        &[1, 2],
    );
    let two = join(&[
        &permit(0, ALL, &equal(&attribute(0, 0), &constant(4))),
        &permit(0, ALL, &equal(&attribute(0, 0), &constant(2))),
    ]);
    group.cells(
        "Rows come in the order of the walk, not in that of the permits.",
        setting(two).files(all_where(&yes())),
        &[2, 4],
    );
    let sees = permit(
        0,
        ALL,
        &equal(&attribute(0, 0), &aggregate(MAX, 1, 0, 0, &yes())),
    );
    group.cells(
        "A permit's aggregate sees all rows.",
        setting(sees).files(all_where(&yes())),
        &[4],
    );
    group.cells(
        "SOME of the question sees the permitted rows alone.",
        setting(permit(0, ALL, &low)).files(all_where(&some(
            1,
            0,
            &compare(GREATER, &attribute(1, 0), &attribute(0, 0)),
        ))),
        &[1],
    );
    group.cells(
        "An aggregate takes the permitted rows alone.",
        setting(permit(0, ALL, &low)).files(join(&[&aggregate(SUM, 0, 0, 0, &yes()), &yes()])),
        &[4],
    );
    let listed = some(1, 1, &equal(&attribute(1, 0), &attribute(0, 0)));
    let catalogue = join(&[&latest(1, 4), &latest(1, 2)]);
    group.cells(
        "A permit's SOME over another relation of kind 50.",
        Setting::new(catalogue, &[5, 6, 7, 5, 5, 7], permit(0, ALL, &listed))
            .files(all_where(&yes())),
        &[5, 7],
    );
}

/// Stored everywhere that says stored.
fn permits(group: &mut Group) {
    let setting = |permits: Vec<u8>| Setting::new(latest(2, 2), &[1, 10, 2, 20], permits);
    let ask = || all_where(&yes());
    group.refused(33, "No permit.", setting(vec![]).files(ask()));
    group.refused(
        33,
        "A permit for another attribute.",
        setting(permit(0, 2, &yes())).files(ask()),
    );
    group.refused(
        33,
        "NO ACCESS bars.",
        setting(join(&[&permit(0, ALL, &yes()), &permit(0, 1, &no())])).files(ask()),
    );
    group.refused(
        33,
        "A SOME over it wants a permit too.",
        Setting::new(join(&[&workspace(1, 1), &latest(1, 1)]), &[5, 6], vec![])
            .files(all_where(&some(1, 1, &yes()))),
    );
    group.refused(
        33,
        "An aggregate over it wants a permit too, rows or none.",
        Setting::new(latest(1, 0), &[], vec![])
            .files(join(&[&aggregate(COUNT, 0, 0, 0, &yes()), &yes()])),
    );
    group.refused(
        33,
        "A permit for a relation of kind 48 beside it does not serve.",
        Setting::new(
            join(&[&latest(1, 1), &relation(1, 1)]),
            &[5, 6],
            permit(1, ALL, &yes()),
        )
        .files(ask()),
    );
    group.rewritten(
        "It gets a guard, and the bytes are those of kind 48.",
        setting(permit(0, 3, &equal(&attribute(0, 1), &constant(20)))).files(ask()),
        join(&[
            &range(0, 0),
            &attribute(0, 0),
            &and(&yes(), &equal(&attribute(0, 1), &constant(20))),
        ]),
    );
    let guard = |own: u8, new: u8| some(new, 1, &equal(&attribute(new, 0), &attribute(own, 0)));
    let mixed = Setting::new(
        join(&[&latest(1, 2), &relation(1, 2), &workspace(1, 1)]),
        &[1, 2, 2, 1, 0],
        join(&[&permit(0, ALL, &guard(0, 1)), &permit(1, ALL, &yes())]),
    );
    let ranges = join(&[&range(2, 2), &range(1, 1), &range(0, 0)]);
    let targets = join(&[&attribute(1, 0), &attribute(0, 0)]);
    group.rewritten(
        "Kinds 49, 48 and 50: an AND for each of the two stored ones, guards in RANGE order.",
        mixed.files(join(&[&ranges, &targets, &yes()])),
        join(&[&ranges, &targets, &and(&and(&yes(), &yes()), &guard(0, 8))]),
    );
    let over = |catalogue: Vec<u8>, permits: Vec<u8>| {
        Setting::new(catalogue, &[5, 6], permits).files(ask())
    };
    let looks = || permit(0, ALL, &some(1, 1, &yes()));
    group.cells(
        "A permit may look into a relation of kind 50.",
        over(join(&[&relation(1, 1), &latest(1, 1)]), looks()),
        &[5],
    );
    group.refused(
        23,
        "A permit over kind 50 that looks into a workspace.",
        over(join(&[&latest(1, 1), &workspace(1, 1)]), looks()),
    );
    let counted = compare(EQUAL, &constant(1), &aggregate(COUNT, 1, 1, 0, &yes()));
    group.cells(
        "A permit's aggregate over kind 50.",
        over(
            join(&[&relation(1, 1), &latest(1, 1)]),
            permit(0, ALL, &counted),
        ),
        &[5],
    );
}

fn checks(group: &mut Group) {
    let with = |catalogue: Vec<u8>, values: &[i32]| {
        Setting::new(catalogue, values, permit(0, ALL, &yes())).files(all_where(&yes()))
    };
    group.refused(10, "0 attributes.", with(latest(0, 1), &[]));
    group.refused(10, "17 attributes.", with(latest(17, 1), &[5; 17]));
    group.refused(
        10,
        "The record is cut short.",
        with(latest(1, 1)[..3].to_vec(), &[5]),
    );
    group.refused(
        10,
        "51 is the first kind that no catalogue has.",
        with(join(&[&latest(1, 1), &[51, 1, 0, 0]]), &[5]),
    );
    group.refused(11, "A value too few.", with(latest(1, 2), &[5]));
    group.refused(11, "A value too many.", with(latest(1, 2), &[5, 6, 7]));
    group.accepted(
        "16 relations of kind 50.",
        with(join(&[&latest(1, 1), &latest(1, 0).repeat(15)]), &[5]),
    );
    group.refused(
        10,
        "17 relations of kind 50.",
        with(join(&[&latest(1, 1), &latest(1, 0).repeat(16)]), &[5]),
    );
    let open = |question: Vec<u8>| {
        Setting::new(latest(1, 1), &[5], permit(0, ALL, &yes())).files(question)
    };
    group.refused(
        30,
        "Kind 50 in a question, for the condition.",
        open(join(&[&range(0, 0), &attribute(0, 0), &[50, 1, 1, 0]])),
    );
    group.refused(
        30,
        "Kind 50 in a question, for the RANGE.",
        open(join(&[&[50, 0, 0], &attribute(0, 0), &yes()])),
    );
    group.refused(
        20,
        "A list of permits that begins with kind 50.",
        Setting::new(latest(1, 1), &[5], vec![50, 0, 255, 255, 16]).files(all_where(&yes())),
    );
    group.refused(
        32,
        "An attribute that it has not.",
        open(join(&[&range(0, 0), &attribute(0, 1), &yes()])),
    );
    let values: Vec<i32> = (0..65).chain(0..65).collect();
    let grid = Setting::new(
        join(&[&latest(1, 65), &latest(1, 65)]),
        &values,
        join(&[&permit(0, ALL, &yes()), &permit(1, ALL, &yes())]),
    );
    group.refused(41, "4,225 rows of 2 cells.", grid.files(each(2)));
    let most: Vec<i64> = (0..64)
        .rev()
        .flat_map(|first| (0..32).rev().flat_map(move |second| [first, second]))
        .collect();
    let values: Vec<i32> = (0..64).chain(0..32).collect();
    let full = Setting::new(
        join(&[&latest(1, 64), &latest(1, 32)]),
        &values,
        join(&[&permit(0, ALL, &yes()), &permit(1, ALL, &yes())]),
    );
    group.cells(
        "2,048 rows of 2 cells fill the 4,096 cells exactly.",
        full.files(each(2)),
        &most,
    );
}
