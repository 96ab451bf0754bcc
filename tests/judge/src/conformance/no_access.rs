//! Change 6: a permit whose condition is the single record FALSE bars.

use super::write::*;
use super::{Group, Setting};
use crate::program::Files;

/// Relation 0 (3 attributes, 2 rows), relation 1 (1 attribute, 2 rows), workspace 2 (1 attribute, 1 row),
/// relation 3 (1 attribute, no rows).
fn with(permits: &[Vec<u8>], question: Vec<u8>) -> Files {
    let catalogue = join(&[
        &relation(3, 2),
        &relation(1, 2),
        &workspace(1, 1),
        &relation(1, 0),
    ]);
    let values = [1, 10, 100, 2, 20, 200, 1, 2, 7];
    Setting::new(catalogue, &values, permits.concat()).files(question)
}

fn open(mask: u16) -> Vec<u8> {
    permit(0, mask, &yes())
}

fn barred(mask: u16) -> Vec<u8> {
    permit(0, mask, &no())
}

/// Asks relation 0 for an attribute.
fn ask(target: u8, condition: &[u8]) -> Vec<u8> {
    join(&[&range(0, 0), &attribute(0, target), condition])
}

fn equal(left: &[u8], right: &[u8]) -> Vec<u8> {
    compare(EQUAL, left, right)
}

fn low(variable: u8) -> Vec<u8> {
    compare(LESS, &attribute(variable, 0), &constant(2))
}

pub fn fill(group: &mut Group) {
    masks(group);
    empty(group);
    conditions(group);
    variables(group);
    guards(group);
    checks(group);
}

/// S shares an attribute with the mask.
fn masks(group: &mut Group) {
    let plain = || ask(1, &yes());
    group.cells(
        "No NO ACCESS permit: the column is open.",
        with(&[open(2)], plain()),
        &[10, 20],
    );
    group.refused(
        33,
        "NO ACCESS to a column that a second permit opens.",
        with(&[barred(2), open(2)], plain()),
    );
    group.refused(
        33,
        "The same with NO ACCESS last.",
        with(&[open(2), barred(2)], plain()),
    );
    group.refused(33, "NO ACCESS alone.", with(&[barred(2)], plain()));
    group.cells(
        "NO ACCESS to another column: answered as before.",
        with(&[barred(4), open(2)], plain()),
        &[10, 20],
    );
    group.refused(
        33,
        "NO ACCESS to another column, and no permit for this one.",
        with(&[barred(4), open(1)], plain()),
    );
    group.refused(
        33,
        "NO ACCESS to ALL bars every S that is not empty.",
        with(&[barred(ALL), open(ALL)], plain()),
    );
    group.refused(
        33,
        "NO ACCESS to every attribute by name.",
        with(&[barred(7), open(ALL)], plain()),
    );
    let two = || join(&[&range(0, 0), &attribute(0, 0), &attribute(0, 1), &yes()]);
    group.refused(
        33,
        "S is 0 and 1, NO ACCESS is to 1 and 2: one attribute in common is enough.",
        with(&[open(ALL), barred(6)], two()),
    );
    group.refused(
        33,
        "S is 0 and 1, NO ACCESS is to 0: the mask need not contain S.",
        with(&[open(ALL), barred(1)], two()),
    );
    group.cells(
        "S is 0 and 1, NO ACCESS is to 2.",
        with(&[open(ALL), barred(4)], two()),
        &[1, 10, 2, 20],
    );
    group.refused(
        33,
        "The barred attribute is used in the condition alone.",
        with(
            &[open(ALL), barred(2)],
            ask(0, &equal(&attribute(0, 1), &constant(10))),
        ),
    );
    group.refused(
        33,
        "The same below a FALSE that decides already.",
        with(
            &[open(ALL), barred(2)],
            ask(0, &and(&no(), &equal(&attribute(0, 1), &constant(10)))),
        ),
    );
    group.cells(
        "NO ACCESS to another relation bars nothing here.",
        with(&[permit(1, ALL, &no()), open(2)], plain()),
        &[10, 20],
    );
    group.refused(
        33,
        "NO ACCESS to another relation, and no permit here.",
        with(&[permit(1, ALL, &no())], plain()),
    );
    let sixteen: Vec<i32> = (0..16).collect();
    let last = |mask: u16| {
        let list = join(&[&permit(0, ALL, &yes()), &permit(0, mask, &no())]);
        let question = join(&[&range(0, 0), &attribute(0, 15), &yes()]);
        Setting::new(relation(16, 1), &sixteen, list).files(question)
    };
    group.refused(
        33,
        "Attribute 15, NO ACCESS to 15: the high byte counts.",
        last(0x8000),
    );
    group.cells("Attribute 15, NO ACCESS to 0 to 14.", last(0x7FFF), &[15]);
}

/// An empty S is never barred, but needs a permit that applies.
fn empty(group: &mut Group) {
    let head = join(&[&range(0, 2), &range(1, 0), &attribute(0, 0)]);
    let unused = || join(&[&head, &yes()]);
    let guarded = |guard: &[u8]| join(&[&head, &and(&yes(), guard)]);
    group.rewritten(
        "S is empty: NO ACCESS to ALL does not bar, and the guard is the other permit alone.",
        with(&[barred(ALL), open(1)], unused()),
        guarded(&yes()),
    );
    group.cells(
        "S is empty, a FALSE and a TRUE permit: answered.",
        with(&[open(4), barred(4)], unused()),
        &[7],
    );
    group.refused(
        33,
        "S is empty and only NO ACCESS covers it.",
        with(&[barred(ALL)], unused()),
    );
    group.refused(
        33,
        "S is empty and only NO ACCESS covers it, three times.",
        with(&[barred(1), barred(2), barred(4)], unused()),
    );
    group.refused(
        33,
        "S is empty, NO ACCESS here, TRUE on another relation.",
        with(&[barred(1), permit(1, ALL, &yes())], unused()),
    );
    let exists = |permits: &[Vec<u8>]| {
        with(
            permits,
            join(&[&range(0, 2), &attribute(0, 0), &some(1, 0, &yes())]),
        )
    };
    group.cells(
        "A SOME that uses nothing is not barred.",
        exists(&[open(1), barred(ALL)]),
        &[7],
    );
    group.refused(
        33,
        "A SOME that uses nothing, and NO ACCESS alone.",
        exists(&[barred(ALL)]),
    );
}

/// The single record FALSE, and conditions that merely never hold.
fn conditions(group: &mut Group) {
    let head = join(&[&range(0, 0), &attribute(0, 0)]);
    for (name, never) in [
        ("NOT TRUE", not(&yes())),
        ("NOT NOT FALSE", not(&not(&no()))),
        ("AND FALSE TRUE", and(&no(), &yes())),
        ("AND FALSE FALSE", and(&no(), &no())),
        ("OR FALSE FALSE", or(&no(), &no())),
        ("SOME with FALSE", some(1, 3, &no())),
        ("0 = 1", equal(&constant(0), &constant(1))),
    ] {
        let list = [permit(0, ALL, &never), open(1)];
        let entered = if never[0] == 22 {
            some(8, 3, &no())
        } else {
            never.clone()
        };
        group.rewritten(
            format!("{name} is an ordinary condition: it applies, enters, and bars nothing."),
            with(&list, ask(0, &yes())),
            join(&[&head, &and(&yes(), &or(&entered, &yes()))]),
        );
        group.cells(
            format!("{name} alone applies: no rows."),
            with(&list[..1], ask(0, &yes())),
            &[],
        );
    }
}

/// Every variable of the question, and none of a permit's.
fn variables(group: &mut Group) {
    let list = || [open(ALL), barred(2), permit(1, ALL, &yes())];
    let exists = |used: u8| {
        ask(
            0,
            &some(1, 0, &equal(&attribute(1, used), &attribute(0, 0))),
        )
    };
    group.cells(
        "SOME's variable uses an attribute that is open.",
        with(&list(), exists(0)),
        &[1, 2],
    );
    group.refused(
        33,
        "SOME's variable uses the barred attribute.",
        with(&list(), exists(1)),
    );
    let names = ["COUNT", "SUM", "AVE", "MAX", "MIN"];
    for function in COUNT..=MIN {
        group.refused(
            33,
            format!(
                "{} of the barred attribute.",
                names[usize::from(function) - 1]
            ),
            with(
                &list(),
                join(&[&aggregate(function, 0, 0, 1, &yes()), &yes()]),
            ),
        );
    }
    group.cells(
        "SUM of an open attribute.",
        with(&list(), join(&[&aggregate(SUM, 0, 0, 2, &yes()), &yes()])),
        &[300],
    );
    let inside = equal(&attribute(0, 1), &constant(10));
    group.refused(
        33,
        "The barred attribute in an aggregate's condition.",
        with(&list(), join(&[&aggregate(SUM, 0, 0, 2, &inside), &yes()])),
    );
    let compared = equal(&constant(0), &aggregate(MAX, 1, 0, 1, &yes()));
    group.refused(
        33,
        "An aggregate of the barred attribute in the question's condition.",
        with(&list(), ask(0, &compared)),
    );
    let deep = some(
        1,
        2,
        &equal(
            &constant(0),
            &aggregate(
                COUNT,
                2,
                1,
                0,
                &some(3, 0, &equal(&attribute(3, 1), &constant(9))),
            ),
        ),
    );
    group.refused(
        33,
        "SOME in an aggregate in a SOME uses the barred attribute.",
        with(&list(), join(&[&range(0, 2), &attribute(0, 0), &deep])),
    );
    let two = |second: u8| {
        join(&[
            &range(0, 0),
            &range(1, 0),
            &attribute(0, 0),
            &attribute(1, second),
            &yes(),
        ])
    };
    group.cells(
        "Two variables over the relation, both away from the barred attribute.",
        with(&list(), two(2)),
        &[1, 100, 1, 200, 2, 100, 2, 200],
    );
    group.refused(
        33,
        "Two variables over the relation, the second barred.",
        with(&list(), two(1)),
    );
    group.refused(
        33,
        "A relation of no rows is barred too.",
        with(
            &[permit(3, ALL, &yes()), permit(3, 1, &no())],
            join(&[&range(0, 3), &attribute(0, 0), &yes()]),
        ),
    );
    group.cells(
        "A workspace is never barred.",
        with(
            &[barred(ALL), permit(1, ALL, &no())],
            join(&[&range(0, 2), &attribute(0, 0), &yes()]),
        ),
        &[7],
    );
    let other = some(1, 0, &equal(&attribute(1, 1), &constant(10)));
    group.cells(
        "A permit's SOME may use the barred attribute.",
        with(
            &[barred(ALL), permit(1, ALL, &other)],
            join(&[&range(0, 1), &attribute(0, 0), &yes()]),
        ),
        &[1, 2],
    );
    let largest = equal(&attribute(0, 0), &aggregate(COUNT, 1, 0, 1, &yes()));
    group.cells(
        "A permit's aggregate may use the barred attribute.",
        with(
            &[permit(1, ALL, &largest), barred(2)],
            join(&[&range(0, 1), &attribute(0, 0), &yes()]),
        ),
        &[2],
    );
    let own = equal(&attribute(0, 1), &constant(20));
    group.cells(
        "A permit on the relation itself may test the barred attribute of its row.",
        with(&[barred(2), permit(0, 1, &own)], ask(0, &yes())),
        &[2],
    );
}

/// NO ACCESS enters no guard and is no second condition for an OR.
fn guards(group: &mut Group) {
    let head = join(&[&range(0, 0), &attribute(0, 0)]);
    let guarded = |guard: &[u8]| join(&[&head, &and(&yes(), guard)]);
    let p = |condition: &[u8]| permit(0, 1, condition);
    group.rewritten(
        "NO ACCESS to another column before, between and after: the guard is the single other permit, without OR.",
        with(
            &[barred(2), p(&low(0)), barred(4), barred(6)],
            ask(0, &yes()),
        ),
        guarded(&low(0)),
    );
    group.rewritten(
        "NO ACCESS between two others: one OR.",
        with(&[p(&low(0)), barred(2), p(&yes())], ask(0, &yes())),
        guarded(&or(&low(0), &yes())),
    );
    let three = or(&low(0), &or(&yes(), &low(0)));
    group.rewritten(
        "Three permits and NO ACCESS last: the OR nests to the right over the three.",
        with(
            &[p(&low(0)), p(&yes()), p(&low(0)), barred(2)],
            ask(0, &yes()),
        ),
        guarded(&three),
    );
    let shared =
        |own: u8, other: u8| some(other, 1, &equal(&attribute(own, 0), &attribute(other, 0)));
    group.rewritten(
        "NO ACCESS takes no number: 8 and 9 go to the other permits.",
        with(
            &[barred(2), p(&shared(0, 3)), barred(4), p(&shared(0, 1))],
            ask(0, &yes()),
        ),
        guarded(&or(&shared(0, 8), &shared(0, 9))),
    );
    let unused = join(&[&range(0, 0), &range(1, 0), &attribute(0, 0)]);
    group.rewritten(
        "Two variables: NO ACCESS enters the guard of neither, with S empty too.",
        with(
            &[barred(2), p(&low(0)), permit(0, 4, &yes())],
            join(&[&unused, &yes()]),
        ),
        join(&[&unused, &and(&and(&yes(), &low(0)), &or(&low(1), &yes()))]),
    );
    let count = |inner: &[u8]| join(&[&aggregate(COUNT, 0, 0, 0, inner), &yes()]);
    group.rewritten(
        "An aggregate's guard has no NO ACCESS either.",
        with(&[barred(2), p(&low(0))], count(&yes())),
        count(&and(&yes(), &low(0))),
    );
}

/// NO ACCESS permits are permits for 20 to 23, and 33 keeps its place.
fn checks(group: &mut Group) {
    let plain = || ask(0, &yes());
    group.cells(
        "8 permits, 7 of them NO ACCESS.",
        with(&[barred(2).repeat(7), open(1)], plain()),
        &[1, 2],
    );
    group.refused(
        21,
        "A ninth permit that is FALSE.",
        with(&[open(1).repeat(8), barred(2)], plain()),
    );
    group.refused(
        22,
        "FALSE with a mask that names an absent attribute.",
        with(&[open(1), barred(8)], plain()),
    );
    group.refused(
        22,
        "FALSE with mask 0.",
        with(&[open(1), barred(0)], plain()),
    );
    group.refused(
        22,
        "FALSE on an unknown relation.",
        with(&[open(1), permit(4, ALL, &no())], plain()),
    );
    group.refused(
        23,
        "FALSE over a workspace.",
        with(&[open(1), permit(2, ALL, &no())], plain()),
    );
    group.refused(
        20,
        "A byte after a FALSE permit.",
        with(&[open(1), barred(2), no()], plain()),
    );
    group.refused(
        32,
        "An unknown attribute goes before a bar.",
        with(
            &[open(1), barred(1)],
            join(&[&range(0, 0), &attribute(0, 0), &attribute(0, 3), &yes()]),
        ),
    );
    group.refused(
        31,
        "Nine targets go before a bar.",
        with(
            &[open(1), barred(1)],
            join(&[&range(0, 0), &attribute(0, 0).repeat(9), &yes()]),
        ),
    );
}
