//! The rewriting, steps 1 to 4, byte by byte.

use super::write::*;
use super::{Group, Setting};

fn equal(variable: u8, of: u8, number: i32) -> Vec<u8> {
    compare(EQUAL, &attribute(variable, of), &constant(number))
}

/// Relation 0 (2 attributes, 3 rows), relation 1 (1 attribute, 2 rows), workspace 2 (1 attribute, 2 rows).
fn setting(permits: &[Vec<u8>]) -> Setting {
    let catalogue = join(&[&relation(2, 3), &relation(1, 2), &workspace(1, 2)]);
    Setting::new(
        catalogue,
        &[1, 10, 2, 20, 3, 30, 1, 2, 2, 3],
        permits.concat(),
    )
}

/// `condition(v)` is a permit's condition with the guarded variable's number.
fn low(variable: u8) -> Vec<u8> {
    compare(LESS, &attribute(variable, 0), &constant(3))
}

fn high(variable: u8) -> Vec<u8> {
    compare(GREATER, &attribute(variable, 0), &constant(1))
}

pub fn fill(group: &mut Group) {
    guards(group);
    places(group);
    numbers(group);
    sets(group);
}

/// Steps 1, 3 and 4: who gets a guard, and which.
fn guards(group: &mut Group) {
    let head =
        |variable: u8, relation: u8| join(&[&range(variable, relation), &attribute(variable, 0)]);
    let p = |condition: Vec<u8>| permit(0, ALL, &condition);
    let asked = join(&[&head(0, 0), &yes()]);
    let with = |permits: &[Vec<u8>]| setting(permits).files(asked.clone());
    let guarded = |guard: &[u8]| join(&[&head(0, 0), &and(&yes(), guard)]);
    group.rewritten(
        "One permit: no OR record.",
        with(&[p(low(0))]),
        guarded(&low(0)),
    );
    group.rewritten(
        "Two permits: OR, in list order.",
        with(&[p(low(0)), p(high(0))]),
        guarded(&or(&low(0), &high(0))),
    );
    group.rewritten(
        "The same two in the other order.",
        with(&[p(high(0)), p(low(0))]),
        guarded(&or(&high(0), &low(0))),
    );
    group.refused(
        33,
        "Three permits, the last of them NO ACCESS to all attributes.",
        with(&[p(low(0)), p(high(0)), p(no())]),
    );
    let eight: Vec<Vec<u8>> = (0..8).map(|number| p(equal(0, 0, number))).collect();
    let nested = (0..7).rev().fold(equal(0, 0, 7), |rest, number| {
        or(&equal(0, 0, number), &rest)
    });
    group.rewritten("Eight permits.", with(&eight), guarded(&nested));
    group.rewritten(
        "Equal permits both enter.",
        with(&[p(low(0)), p(low(0))]),
        guarded(&or(&low(0), &low(0))),
    );
    group.rewritten(
        "TRUE is not simplified.",
        with(&[p(yes())]),
        guarded(&yes()),
    );
    group.refused(
        33,
        "FALSE, no access, bars although the other permit applies.",
        with(&[p(no()), p(low(0))]),
    );
    let others = [permit(1, ALL, &high(0)), p(low(0)), permit(1, 1, &yes())];
    group.rewritten(
        "Permits on another relation do not enter.",
        with(&others),
        guarded(&low(0)),
    );
    let masks = [
        permit(0, 2, &no()),
        permit(0, 1, &low(0)),
        permit(0, 2, &yes()),
        permit(0, 3, &high(0)),
    ];
    group.rewritten(
        "Only masks with attribute 0 apply: the second and the last.",
        with(&masks),
        guarded(&or(&low(0), &high(0))),
    );
    let space = join(&[&head(0, 2), &low(0)]);
    group.rewritten(
        "Step 1: a workspace gets no guard.",
        setting(&[p(low(0))]).files(space.clone()),
        space,
    );
    let conditions = [
        yes(),
        no(),
        not(&no()),
        or(&low(0), &high(0)),
        and(&low(0), &high(0)),
    ];
    for condition in conditions {
        let files = setting(&[p(low(0))]).files(join(&[&head(0, 0), &condition]));
        let expected = join(&[&head(0, 0), &and(&condition, &low(0))]);
        group.rewritten(
            "The final condition stays as it is, behind one AND.",
            files,
            expected,
        );
    }
}

/// Step 4: where guards stand.
fn places(group: &mut Group) {
    let permits = [permit(0, ALL, &low(0)), permit(1, ALL, &high(0))];
    let with = |question: Vec<u8>| setting(&permits).files(question);
    let two = join(&[&range(0, 0), &range(1, 1), &attribute(0, 0)]);
    let expected = join(&[&two, &and(&and(&yes(), &low(0)), &high(1))]);
    group.rewritten(
        "Two RANGEs: two ANDs first, guards in RANGE order.",
        with(join(&[&two, &yes()])),
        expected,
    );
    let swapped = join(&[&range(5, 1), &range(3, 0), &attribute(3, 0)]);
    let expected = join(&[&swapped, &and(&and(&yes(), &high(5)), &low(3))]);
    group.rewritten(
        "RANGE order, not the order of numbers or relations.",
        with(join(&[&swapped, &yes()])),
        expected,
    );
    let four = join(&[
        &range(0, 0),
        &range(1, 2),
        &range(2, 1),
        &range(3, 0),
        &attribute(0, 0),
    ]);
    let guards = and(&and(&and(&no(), &low(0)), &high(2)), &low(3));
    group.rewritten(
        "Four RANGEs, one over a workspace: three ANDs.",
        with(join(&[&four, &no()])),
        join(&[&four, &guards]),
    );
    let only_space = join(&[&range(0, 2), &attribute(0, 0)]);
    let inner = |condition: &[u8]| join(&[&only_space, condition]);
    let files = with(inner(&some(1, 0, &low(1))));
    group.rewritten(
        "SOME: AND, c, guard.",
        files,
        inner(&some(1, 0, &and(&low(1), &low(1)))),
    );
    let files = with(inner(&some(1, 2, &low(1))));
    group.rewritten(
        "SOME over a workspace has no guard.",
        files,
        inner(&some(1, 2, &low(1))),
    );
    let files = with(inner(&some(1, 0, &some(2, 1, &yes()))));
    let expected = some(1, 0, &and(&some(2, 1, &and(&yes(), &high(2))), &low(1)));
    group.rewritten(
        "SOME in SOME: the inner guard first.",
        files,
        inner(&expected),
    );
    let files = with(inner(&not(&some(1, 0, &yes()))));
    group.rewritten(
        "NOT SOME: the guard is inside the SOME.",
        files,
        inner(&not(&some(1, 0, &and(&yes(), &low(1))))),
    );
    let files = with(join(&[&aggregate(SUM, 0, 0, 1, &yes()), &yes()]));
    let expected = join(&[&aggregate(SUM, 0, 0, 1, &and(&yes(), &low(0))), &yes()]);
    group.rewritten(
        "An aggregate as a target: AND, c, guard; the final condition as it was.",
        files,
        expected,
    );
    let both = |target: &[u8], condition: &[u8]| {
        join(&[&range(0, 0), &attribute(0, 0), target, condition])
    };
    let count = |variable: u8, inner: &[u8]| aggregate(COUNT, variable, 1, 0, inner);
    let files = with(both(
        &count(1, &yes()),
        &compare(EQUAL, &constant(1), &count(2, &no())),
    ));
    let condition = compare(EQUAL, &constant(1), &count(2, &and(&no(), &high(2))));
    let expected = both(&count(1, &and(&yes(), &high(1))), &and(&condition, &low(0)));
    group.rewritten(
        "A RANGE, an aggregate as a target and one in the condition.",
        files,
        expected,
    );
    let files = with(join(&[
        &aggregate(
            MAX,
            0,
            0,
            0,
            &compare(EQUAL, &attribute(0, 0), &aggregate(MIN, 1, 0, 0, &yes())),
        ),
        &yes(),
    ]));
    let deep = aggregate(MIN, 1, 0, 0, &and(&yes(), &low(1)));
    let expected = aggregate(
        MAX,
        0,
        0,
        0,
        &and(&compare(EQUAL, &attribute(0, 0), &deep), &low(0)),
    );
    group.rewritten(
        "An aggregate in an aggregate.",
        files,
        join(&[&expected, &yes()]),
    );
}

/// The numbers of a permit's variables.
fn numbers(group: &mut Group) {
    // Some row of relation 1 equals the permitted row.
    let shared = |own: u8, other: u8| {
        some(
            other,
            1,
            &compare(EQUAL, &attribute(own, 0), &attribute(other, 0)),
        )
    };
    let permits = [permit(0, ALL, &shared(0, 1)), permit(1, ALL, &yes())];
    let with = |question: Vec<u8>| setting(&permits).files(question);
    let head = |variable: u8| join(&[&range(variable, 0), &attribute(variable, 0)]);
    let expected = join(&[&head(0), &and(&yes(), &shared(0, 8))]);
    group.rewritten(
        "The permit's variable 1 becomes 8.",
        with(join(&[&head(0), &yes()])),
        expected,
    );
    let expected = join(&[&head(1), &and(&yes(), &shared(1, 8))]);
    group.rewritten(
        "The asker's variable 1 does not catch the permit's.",
        with(join(&[&head(1), &yes()])),
        expected,
    );
    let expected = join(&[&head(7), &and(&yes(), &shared(7, 8))]);
    group.rewritten(
        "Variable 0 of the permit takes number 7.",
        with(join(&[&head(7), &yes()])),
        expected,
    );
    let two = join(&[&range(0, 0), &range(1, 0), &attribute(0, 0)]);
    let expected = join(&[&two, &and(&and(&yes(), &shared(0, 8)), &shared(1, 9))]);
    group.rewritten(
        "A copy for each guarded variable: 8, then 9.",
        with(join(&[&two, &yes()])),
        expected,
    );
    let count = |variable: u8, inner: &[u8]| aggregate(COUNT, variable, 0, 0, inner);
    let question = join(&[
        &range(0, 0),
        &attribute(0, 0),
        &count(1, &yes()),
        &some(2, 0, &yes()),
    ]);
    let rewritten = join(&[
        &range(0, 0),
        &attribute(0, 0),
        &count(1, &and(&yes(), &shared(1, 8))),
        &and(&some(2, 0, &and(&yes(), &shared(2, 9))), &shared(0, 10)),
    ]);
    group.rewritten(
        "Byte order: a target's guard, the condition's, the range guard last.",
        with(question),
        rewritten,
    );
    let question = join(&[
        &range(0, 2),
        &attribute(0, 0),
        &some(1, 0, &some(2, 0, &yes())),
    ]);
    let inner = some(2, 0, &and(&yes(), &shared(2, 8)));
    let rewritten = join(&[
        &range(0, 2),
        &attribute(0, 0),
        &some(1, 0, &and(&inner, &shared(1, 9))),
    ]);
    group.rewritten(
        "The guards inside c take the lower numbers.",
        with(question),
        rewritten,
    );
    let three_first = |own: u8, first: u8, second: u8| {
        some(
            first,
            1,
            &some(
                second,
                1,
                &and(
                    &compare(LESS, &attribute(first, 0), &attribute(second, 0)),
                    &compare(AT_MOST, &attribute(own, 0), &attribute(second, 0)),
                ),
            ),
        )
    };
    let swapped = setting(&[permit(0, ALL, &three_first(0, 3, 1))]);
    let expected = join(&[&head(0), &and(&yes(), &three_first(0, 8, 9))]);
    group.rewritten(
        "A permit that binds 3 before 1: 8 for 3 and 9 for 1.",
        swapped.files(join(&[&head(0), &yes()])),
        expected,
    );
    let average = |other: u8| compare(GREATER, &constant(3), &aggregate(AVE, other, 1, 0, &yes()));
    let list = setting(&[
        permit(0, ALL, &average(2)),
        permit(0, ALL, &shared(0, 2)),
        permit(0, ALL, &average(1)),
    ]);
    let guard = or(&average(8), &or(&shared(0, 9), &average(10)));
    group.rewritten(
        "Three permits of one variable each: 8, 9, 10.",
        list.files(join(&[&head(0), &yes()])),
        join(&[&head(0), &and(&yes(), &guard)]),
    );
    let plain = setting(&[permit(0, ALL, &low(0))]);
    let expected = join(&[&head(3), &and(&low(3), &low(3))]);
    group.rewritten(
        "A permit with no other variable takes no number.",
        plain.files(join(&[&head(3), &low(3)])),
        expected,
    );
    let nested = |own: u8, outer: u8, inner: u8| {
        and(
            &compare(
                EQUAL,
                &constant(2),
                &aggregate(
                    COUNT,
                    outer,
                    1,
                    0,
                    &some(
                        inner,
                        1,
                        &compare(AT_LEAST, &attribute(inner, 0), &attribute(outer, 0)),
                    ),
                ),
            ),
            &low(own),
        )
    };
    let inside = setting(&[permit(0, ALL, &nested(0, 2, 1))]);
    let expected = join(&[&head(4), &and(&yes(), &nested(4, 8, 9))]);
    group.rewritten(
        "SOME inside a permit's aggregate.",
        inside.files(join(&[&head(4), &yes()])),
        expected,
    );
}

/// Step 2: S, and what it makes apply.
fn sets(group: &mut Group) {
    let left = || permit(0, 1, &low(0));
    let right = || permit(0, 2, &high(0));
    let both = || permit(0, 3, &equal(0, 0, 2));
    let with = |question: Vec<u8>| {
        setting(&[left(), right(), both(), permit(1, ALL, &yes())]).files(question)
    };
    let own = |variable: u8| equal(variable, 0, 2);
    let head = |target: u8| join(&[&range(0, 0), &attribute(0, target)]);
    group.rewritten(
        "S is attribute 0: the first and the third permit apply.",
        with(join(&[&head(0), &yes()])),
        join(&[&head(0), &and(&yes(), &or(&low(0), &own(0)))]),
    );
    group.rewritten(
        "S is attribute 1: the second and the third.",
        with(join(&[&head(1), &yes()])),
        join(&[&head(1), &and(&yes(), &or(&high(0), &own(0)))]),
    );
    let used = equal(0, 1, 20);
    group.rewritten(
        "The condition adds attribute 1 to S: the third alone.",
        with(join(&[&head(0), &used])),
        join(&[&head(0), &and(&used, &own(0))]),
    );
    let unused = join(&[&range(0, 0), &range(1, 1), &attribute(1, 0)]);
    let three = or(&low(0), &or(&high(0), &own(0)));
    group.rewritten(
        "S is empty: every permit on the relation applies.",
        with(join(&[&unused, &yes()])),
        join(&[&unused, &and(&and(&yes(), &three), &yes())]),
    );
    let count = |inner: &[u8]| join(&[&aggregate(COUNT, 0, 0, 1, inner), &yes()]);
    group.rewritten(
        "COUNT's own attribute is in S.",
        with(count(&yes())),
        count(&and(&yes(), &or(&high(0), &own(0)))),
    );
    let below = equal(0, 0, 1);
    group.rewritten(
        "An aggregate's condition adds to S.",
        with(count(&below)),
        count(&and(&below, &own(0))),
    );
    let two = join(&[
        &range(0, 0),
        &range(1, 0),
        &attribute(0, 0),
        &attribute(1, 1),
    ]);
    let guards = and(&and(&yes(), &or(&low(0), &own(0))), &or(&high(1), &own(1)));
    group.rewritten(
        "Two variables over a relation have sets of their own.",
        with(join(&[&two, &yes()])),
        join(&[&two, &guards]),
    );
    let inside = some(1, 1, &compare(EQUAL, &attribute(1, 0), &attribute(0, 1)));
    let guarded = some(
        1,
        1,
        &and(&compare(EQUAL, &attribute(1, 0), &attribute(0, 1)), &yes()),
    );
    group.rewritten(
        "A use below a SOME adds to S of the outer variable.",
        with(join(&[&head(0), &inside])),
        join(&[&head(0), &and(&guarded, &own(0))]),
    );
}
