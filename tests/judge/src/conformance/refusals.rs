//! Each refusal at its ground: what is wrong, and beside it what is just right.

use super::write::*;
use super::{bytes_of, one, Group, Setting};
use crate::program::Files;

/// A question over the one relation of `one()`.
fn first() -> Vec<u8> {
    join(&[&range(0, 0), &attribute(0, 0), &yes()])
}

pub fn catalogue(group: &mut Group) {
    let with = |catalogue: Vec<u8>, values: &[i32]| {
        Setting::new(catalogue, values, one().permits).files(first())
    };
    group.refused(10, "An empty catalogue.", with(vec![], &[]));
    group.refused(
        10,
        "No file catalogue: it counts as empty.",
        with(vec![], &[]),
    );
    group.without(&["catalogue"]);
    group.refused(10, "No file at all.", Files::default());
    group.without(&["catalogue", "values", "permits", "question"]);
    group.refused(10, "Four files with no byte.", Files::default());
    group.accepted("One relation.", with(relation(1, 1), &[5]));
    for bytes in 1..=3 {
        let about = format!("The only record is cut short after {bytes} bytes.");
        group.refused(10, about, with(relation(1, 1)[..bytes].to_vec(), &[5]));
        let about = format!("A second record is cut short after {bytes} bytes.");
        let cut = join(&[&relation(1, 1), &relation(1, 0)[..bytes]]);
        group.refused(10, about, with(cut, &[5]));
    }
    for kind in [0, 1, 47, 51, 64, 255] {
        let about = format!("Kind {kind} is none of a catalogue.");
        group.refused(10, about, with(vec![kind, 1, 1, 0], &[5]));
    }
    let last_unknown = join(&[&relation(1, 1), &relation(1, 0), &[51, 1, 0, 0]]);
    group.refused(
        10,
        "The last record has an unknown kind.",
        with(last_unknown, &[5]),
    );
    group.refused(10, "A relation of 0 attributes.", with(relation(0, 1), &[]));
    group.refused(
        10,
        "A workspace of 0 attributes.",
        with(join(&[&relation(1, 1), &workspace(0, 0)]), &[5]),
    );
    group.accepted(
        "A relation of 16 attributes.",
        with(relation(16, 1), &[5; 16]),
    );
    group.refused(
        10,
        "A relation of 17 attributes.",
        with(relation(17, 1), &[5; 17]),
    );
    group.refused(
        10,
        "A relation of 255 attributes.",
        with(relation(255, 0), &[]),
    );
    group.cells("A relation of no rows.", with(relation(1, 0), &[]), &[]);
    group.cells(
        "1,024 rows pass.",
        with(relation(1, 1024), &[5; 1024]),
        &[5],
    );
    group.refused(10, "1,025 rows.", with(relation(1, 1025), &[5; 1025]));
    group.refused(10, "65,535 rows.", with(relation(1, 65535), &[5; 4]));
    group.refused(
        10,
        "The high byte of the rows counts: 4 and 4 are 1,028.",
        with(relation(1, 1028), &[5; 4]),
    );
    let many = |count: usize| join(&[&relation(1, 1), &relation(1, 0).repeat(count - 1)]);
    group.accepted("16 records pass.", with(many(16), &[5]));
    group.refused(10, "17 records.", with(many(17), &[5]));
    group.refused(
        10,
        "A catalogue file of 1,000 bytes is not cut to its first records.",
        with(many(250), &[5]),
    );
    group.refused(
        10,
        "A catalogue file of 65 bytes: 16 records and one byte.",
        with(join(&[&many(16), &[48]]), &[5]),
    );
    let odd = |catalogue: Vec<u8>| Files {
        values: vec![1, 2, 3],
        ..with(catalogue, &[])
    };
    group.refused(
        10,
        "A bad catalogue and a values file of 3 bytes: 10 goes first.",
        odd(relation(0, 0)),
    );
    group.refused(
        10,
        "An empty catalogue and a values file of 3 bytes.",
        odd(vec![]),
    );
}

pub fn values(group: &mut Group) {
    let with = |catalogue: Vec<u8>, values: Vec<u8>| Files {
        values,
        ..Setting::new(catalogue, &[], one().permits).files(first())
    };
    let two = || relation(1, 2);
    group.refused(11, "One value too few.", with(two(), bytes_of(&[1])));
    group.cells(
        "As many values as the catalogue says.",
        with(two(), bytes_of(&[1, 2])),
        &[1, 2],
    );
    group.refused(11, "One value too many.", with(two(), bytes_of(&[1, 2, 3])));
    group.refused(11, "No file values, but two rows.", with(two(), vec![]));
    group.without(&["values"]);
    group.cells(
        "No file values, and no rows.",
        with(relation(1, 0), vec![]),
        &[],
    );
    group.without(&["values"]);
    group.refused(
        11,
        "A value, but no rows.",
        with(relation(1, 0), bytes_of(&[1])),
    );
    for bytes in [1, 2, 3] {
        let about = format!("{bytes} bytes past the last value: no multiple of 4.");
        group.refused(
            11,
            about,
            with(two(), join(&[&bytes_of(&[1, 2]), &vec![0; bytes]])),
        );
        let about = format!("A values file of {bytes} bytes, and no rows.");
        group.refused(11, about, with(relation(1, 0), vec![0; bytes]));
    }
    let both = join(&[&relation(1, 1), &workspace(2, 2)]);
    group.cells(
        "A workspace's values count in the total.",
        with(both.clone(), bytes_of(&[7, 1, 2, 3, 4])),
        &[7],
    );
    group.refused(
        11,
        "A workspace's values are missing.",
        with(both, bytes_of(&[7])),
    );
    let wide = || relation(8, 1024);
    let count = |catalogue: Vec<u8>, values: usize| Files {
        question: join(&[&aggregate(COUNT, 0, 0, 0, &yes()), &yes()]),
        ..with(catalogue, vec![0; 4 * values])
    };
    group.cells("8,192 values pass.", count(wide(), 8192), &[1024]);
    let over = join(&[&wide(), &relation(1, 1)]);
    group.refused(
        11,
        "8,193 values, as the catalogue says: over the program's limit.",
        count(over.clone(), 8193),
    );
    group.refused(
        11,
        "A values file of 32,769 bytes, its first 32,768 as the catalogue says.",
        Files {
            values: vec![0; 32769],
            ..count(wide(), 0)
        },
    );
    group.refused(
        11,
        "A values file of 40,000 bytes is not cut.",
        count(wide(), 10000),
    );
    let bytes = bytes_of(&[i32::MIN, i32::MAX]);
    group.cells(
        "The low byte comes first, in two's complement.",
        with(two(), bytes),
        &[-2147483648, 2147483647],
    );
    group.cells(
        "Bytes 255 255 255 255 are -1, and 0 1 0 0 are 256.",
        with(two(), vec![255, 255, 255, 255, 0, 1, 0, 0]),
        &[-1, 256],
    );
    for bytes in 5..8 {
        let about = format!("{bytes} bytes for two values: not rounded up.");
        group.refused(11, about, with(two(), vec![0; bytes]));
    }
    for bytes in 1..4 {
        let about = format!("{bytes} bytes for one value: not rounded up.");
        group.refused(11, about, with(relation(1, 1), vec![0; bytes]));
    }
    group.refused(
        11,
        "32,767 bytes for 8,192 values.",
        Files {
            values: vec![0; 32767],
            ..count(wide(), 0)
        },
    );
}

pub fn permit_form(group: &mut Group) {
    let with = |permits: Vec<u8>| Setting { permits, ..one() }.files(first());
    let whole = permit(0, ALL, &compare(EQUAL, &attribute(0, 0), &constant(5)));
    group.cells("One permit, with a comparison.", with(whole.clone()), &[5]);
    for bytes in 1..whole.len() {
        let about = format!(
            "The permit is cut short after {bytes} of {} bytes.",
            whole.len()
        );
        group.refused(20, about, with(whole[..bytes].to_vec()));
    }
    for kind in [0, 1, 16, 33, 48, 63, 65, 255] {
        let about = format!("A list that begins with kind {kind}.");
        group.refused(20, about, with(join(&[&[kind], &whole[1..]])));
        let about = format!("A byte {kind} after the last permit begins another permit.");
        group.refused(20, about, with(join(&[&whole, &[kind]])));
    }
    for operator in [0, 7, 255] {
        let damaged = permit(0, ALL, &compare(operator, &attribute(0, 0), &constant(5)));
        group.refused(
            20,
            format!("Operator {operator} in a permit."),
            with(damaged),
        );
    }
    for function in [0, 6] {
        let term = aggregate(function, 1, 0, 0, &yes());
        let damaged = permit(0, ALL, &compare(EQUAL, &attribute(0, 0), &term));
        group.refused(
            20,
            format!("Function {function} in a permit."),
            with(damaged),
        );
    }
    group.refused(
        20,
        "A term stands for the permit's condition.",
        with(permit(0, ALL, &attribute(0, 0))),
    );
    group.refused(
        20,
        "A RANGE stands in a permit's condition.",
        with(permit(0, ALL, &join(&[&range(1, 0), &yes()]))),
    );
    group.refused(
        20,
        "A permit stands in a permit's condition.",
        with(permit(0, ALL, &and(&yes(), &permit(0, ALL, &yes())))),
    );
    group.refused(
        20,
        "A condition stands for a term of a comparison.",
        with(permit(0, ALL, &compare(EQUAL, &attribute(0, 0), &yes()))),
    );
    group.refused(
        20,
        "The second permit of three is damaged.",
        with(join(&[&whole, &[64, 0, 255, 255, 99], &whole])),
    );
    let full = permit(0, ALL, &padding(252));
    group.cells("A list of 2,048 bytes passes.", with(full.repeat(8)), &[5]);
    let long = join(&[
        &permit(0, ALL, &padding(247)).repeat(8),
        &permit(0, ALL, &padding(37)),
    ]);
    group.refused(
        20,
        "A list of 2,049 bytes, well formed: 20, though its 9 permits are 21.",
        with(long),
    );
    group.refused(
        20,
        "9 permits of 256 bytes are over 2,048 bytes.",
        with(full.repeat(9)),
    );
    group.refused(
        20,
        "A list of 4,000 bytes is not cut to its first permits.",
        with(whole.repeat(285)),
    );
    let free = Setting::new(workspace(1, 1), &[5], vec![64]);
    group.refused(
        20,
        "A damaged list, though no variable needs a permit.",
        free.files(first()),
    );
}

pub fn permit_names(group: &mut Group) {
    let setting = Setting::new(
        join(&[&relation(2, 1), &relation(1, 1)]),
        &[5, 6, 7],
        vec![],
    );
    let with = |permits: Vec<u8>| {
        let question = join(&[&range(0, 0), &attribute(0, 0), &yes()]);
        Setting {
            permits,
            ..setting.clone()
        }
        .files(question)
    };
    let all = |condition: &[u8]| with(permit(0, ALL, condition));
    let equal = |left: &[u8], right: &[u8]| compare(EQUAL, left, right);
    group.accepted(
        "A permit on relation 1, the last.",
        with(join(&[&permit(0, ALL, &yes()), &permit(1, 1, &yes())])),
    );
    group.refused(
        22,
        "A permit on relation 2 of two.",
        with(join(&[&permit(0, ALL, &yes()), &permit(2, ALL, &yes())])),
    );
    group.refused(
        22,
        "A permit on relation 255.",
        with(permit(255, ALL, &yes())),
    );
    group.refused(22, "Mask 0.", with(permit(0, 0, &yes())));
    group.accepted("Mask 3 on two attributes.", with(permit(0, 3, &yes())));
    group.refused(22, "Mask 4 on two attributes.", with(permit(0, 4, &yes())));
    group.refused(
        22,
        "Mask 5 names one attribute that is there and one that is not.",
        with(permit(0, 5, &yes())),
    );
    group.refused(
        22,
        "Mask 32,768 on two attributes: the high byte counts.",
        with(permit(0, 0x8000, &yes())),
    );
    group.refused(22, "Mask FFFE is not ALL.", with(permit(0, 0xFFFE, &yes())));
    group.accepted(
        "Mask FFFF is ALL, also on two attributes.",
        with(permit(0, ALL, &yes())),
    );
    let wide = |attributes: u8, mask: u16| {
        let values = vec![5; usize::from(attributes)];
        let question = join(&[&range(0, 0), &attribute(0, 1), &yes()]);
        Setting::new(relation(attributes, 1), &values, permit(0, mask, &yes())).files(question)
    };
    group.accepted("Mask FFFE on 16 attributes.", wide(16, 0xFFFE));
    group.refused(22, "Mask FFFE on 15 attributes.", wide(15, 0xFFFE));
    group.accepted("Mask 7FFF on 15 attributes.", wide(15, 0x7FFF));
    group.accepted(
        "Attribute 1 of the permitted row.",
        all(&equal(&attribute(0, 1), &constant(6))),
    );
    group.refused(
        22,
        "Attribute 2 of two.",
        all(&equal(&attribute(0, 2), &constant(6))),
    );
    group.refused(
        22,
        "Attribute 1 of a SOME variable whose relation has one.",
        all(&some(1, 1, &equal(&attribute(1, 1), &constant(7)))),
    );
    group.refused(
        22,
        "An aggregate's attribute 1, its relation having one.",
        all(&equal(&constant(0), &aggregate(COUNT, 1, 1, 1, &yes()))),
    );
    group.refused(22, "SOME over relation 2 of two.", all(&some(1, 2, &yes())));
    group.refused(
        22,
        "An aggregate over relation 2 of two.",
        all(&equal(&constant(0), &aggregate(COUNT, 1, 2, 0, &yes()))),
    );
    group.accepted(
        "SOME binds variable 3.",
        all(&some(3, 1, &equal(&attribute(3, 0), &constant(7)))),
    );
    group.refused(22, "SOME binds variable 4.", all(&some(4, 1, &yes())));
    group.refused(
        22,
        "An aggregate binds variable 4.",
        all(&equal(&constant(0), &aggregate(COUNT, 4, 1, 0, &yes()))),
    );
    group.refused(
        22,
        "SOME binds variable 0, which is bound already.",
        all(&some(0, 1, &yes())),
    );
    group.refused(
        22,
        "An aggregate binds variable 0.",
        all(&equal(&constant(0), &aggregate(COUNT, 0, 1, 0, &yes()))),
    );
    group.refused(
        22,
        "Variable 1 is used and never bound.",
        all(&equal(&attribute(1, 0), &constant(7))),
    );
    let apart = and(&some(1, 1, &yes()), &equal(&attribute(1, 0), &constant(7)));
    group.refused(22, "Variable 1 is used outside its SOME.", all(&apart));
    group.refused(
        22,
        "Variable 1 is bound twice, one SOME in the other.",
        all(&some(1, 1, &some(1, 1, &yes()))),
    );
    group.refused(
        22,
        "Variable 1 is bound twice, one SOME beside the other.",
        all(&and(&some(1, 1, &yes()), &some(1, 1, &yes()))),
    );
    let inside = |inner: &[u8]| all(&equal(&constant(1), &aggregate(COUNT, 1, 1, 0, inner)));
    group.accepted(
        "An aggregate's own variable inside it.",
        inside(&equal(&attribute(1, 0), &constant(7))),
    );
    group.refused(
        22,
        "The permitted row's variable 0 is out of reach inside an aggregate.",
        inside(&equal(&attribute(1, 0), &attribute(0, 0))),
    );
    group.accepted(
        "SOME inside an aggregate sees the aggregate's variable.",
        inside(&some(2, 1, &equal(&attribute(1, 0), &attribute(2, 0)))),
    );
    let nested = equal(
        &constant(1),
        &aggregate(COUNT, 2, 1, 0, &equal(&attribute(1, 0), &attribute(2, 0))),
    );
    group.refused(
        22,
        "An outer aggregate's variable is out of reach inside an inner one.",
        inside(&nested),
    );
    let outer = all(&some(
        2,
        1,
        &equal(
            &constant(1),
            &aggregate(COUNT, 1, 1, 0, &equal(&attribute(1, 0), &attribute(2, 0))),
        ),
    ));
    group.refused(
        22,
        "A SOME variable is out of reach inside an aggregate below it.",
        outer,
    );
    let twice = permit(0, ALL, &some(1, 1, &yes())).repeat(2);
    group.accepted(
        "Each permit of a list starts anew: both bind variable 1.",
        with(twice),
    );
    group.refused(
        22,
        "The second permit of two names an unknown attribute.",
        with(join(&[
            &permit(0, ALL, &yes()),
            &permit(1, 1, &equal(&attribute(0, 1), &constant(0))),
        ])),
    );
}

pub fn permit_workspace(group: &mut Group) {
    let setting = Setting::new(join(&[&relation(1, 1), &workspace(1, 1)]), &[5, 6], vec![]);
    let with = |permits: Vec<u8>| {
        Setting {
            permits,
            ..setting.clone()
        }
        .files(first())
    };
    let good = permit(0, ALL, &yes());
    group.cells("A workspace beside the relation.", with(good.clone()), &[5]);
    group.refused(
        23,
        "A permit on a workspace.",
        with(join(&[&good, &permit(1, ALL, &yes())])),
    );
    group.refused(
        23,
        "SOME over a workspace in a permit.",
        with(permit(0, ALL, &some(1, 1, &yes()))),
    );
    let counted = compare(EQUAL, &constant(1), &aggregate(COUNT, 1, 1, 0, &yes()));
    group.refused(
        23,
        "An aggregate over a workspace in a permit.",
        with(permit(0, ALL, &counted)),
    );
    let deep = some(
        1,
        0,
        &compare(
            EQUAL,
            &constant(1),
            &aggregate(COUNT, 2, 0, 0, &some(3, 1, &yes())),
        ),
    );
    group.refused(
        23,
        "A workspace deep inside a permit's condition.",
        with(permit(0, ALL, &deep)),
    );
    group.refused(
        23,
        "The last permit of three has a workspace.",
        with(join(&[
            &good,
            &good,
            &permit(0, 1, &or(&yes(), &some(1, 1, &yes()))),
        ])),
    );
}

pub fn question_form(group: &mut Group) {
    let with = |question: Vec<u8>| one().files(question);
    group.refused(30, "An empty question.", with(vec![]));
    group.refused(30, "No file question.", with(vec![]));
    group.without(&["question"]);
    let inner = some(2, 0, &compare(LESS, &attribute(2, 0), &constant(9)));
    let whole = join(&[
        &range(0, 0),
        &attribute(0, 0),
        &aggregate(SUM, 1, 0, 0, &not(&no())),
        &and(&yes(), &inner),
    ]);
    group.cells(
        "A question with most kinds of records.",
        with(whole.clone()),
        &[5, 5],
    );
    for bytes in 1..whole.len() {
        let about = format!(
            "The question is cut short after {bytes} of {} bytes.",
            whole.len()
        );
        group.refused(30, about, with(whole[..bytes].to_vec()));
    }
    for byte in [0, 16, 33, 255] {
        let about = format!("A byte {byte} past the end.");
        group.refused(30, about, with(join(&[&whole, &[byte]])));
    }
    group.refused(
        30,
        "No target: a RANGE and a condition.",
        with(join(&[&range(0, 0), &yes()])),
    );
    group.refused(30, "A condition alone.", with(yes()));
    group.refused(
        30,
        "A constant as a target.",
        with(join(&[&range(0, 0), &constant(1), &yes()])),
    );
    group.refused(
        30,
        "A RANGE after a target.",
        with(join(&[&attribute(0, 0), &range(0, 0), &yes()])),
    );
    group.refused(30, "Two conditions.", with(join(&[&first(), &yes()])));
    group.refused(
        30,
        "A target after the condition.",
        with(join(&[&first(), &attribute(0, 0)])),
    );
    for kind in [0, 2, 15, 23, 31, 35, 47, 48, 49, 64, 255] {
        let about = format!("Kind {kind} stands for the condition.");
        group.refused(
            30,
            about,
            with(join(&[&range(0, 0), &attribute(0, 0), &[kind, 1, 1, 0]])),
        );
    }
    for operator in [0, 7, 255] {
        let condition = compare(operator, &constant(1), &constant(1));
        let question = join(&[&range(0, 0), &attribute(0, 0), &condition]);
        group.refused(30, format!("Operator {operator}."), with(question));
    }
    for function in [0, 6, 255] {
        let question = join(&[&aggregate(function, 0, 0, 0, &yes()), &yes()]);
        group.refused(30, format!("Function {function}."), with(question));
    }
    let condition = |condition: &[u8]| with(join(&[&range(0, 0), &attribute(0, 0), condition]));
    group.refused(
        30,
        "A term stands for the condition.",
        condition(&constant(1)),
    );
    group.refused(
        30,
        "A condition stands for a term.",
        condition(&compare(EQUAL, &yes(), &constant(1))),
    );
    group.refused(
        30,
        "A RANGE stands in the condition.",
        condition(&not(&range(1, 0))),
    );
    group.refused(30, "AND with one condition.", condition(&[19, 16]));
    group.refused(30, "NOT with none.", condition(&[18]));
    group.refused(
        30,
        "A term stands for an aggregate's condition.",
        with(join(&[&aggregate(COUNT, 0, 0, 0, &constant(1)), &yes()])),
    );
    group.cells(
        "A question of 1,024 bytes passes.",
        condition(&padding(1018)),
        &[5],
    );
    group.refused(30, "A question of 1,025 bytes.", condition(&padding(1019)));
    group.refused(
        30,
        "A question file of 5,000 bytes is not cut.",
        condition(&padding(4994)),
    );
    group.refused(
        30,
        "A question file of 1,100 bytes whose first 7 are a question.",
        with(join(&[&first(), &vec![16; 1093]])),
    );
}

pub fn question_names(group: &mut Group) {
    let setting = Setting::new(
        join(&[&relation(2, 1), &relation(1, 1)]),
        &[5, 6, 7],
        join(&[&permit(0, ALL, &yes()), &permit(1, ALL, &yes())]),
    );
    let with = |question: Vec<u8>| setting.files(question);
    let condition = |condition: &[u8]| with(join(&[&range(0, 0), &attribute(0, 0), condition]));
    let equal = |left: &[u8], right: &[u8]| compare(EQUAL, left, right);
    let count =
        |variable: u8, relation: u8, inner: &[u8]| aggregate(COUNT, variable, relation, 0, inner);
    group.refused(
        32,
        "RANGE over relation 2 of two.",
        with(join(&[&range(0, 2), &attribute(0, 0), &yes()])),
    );
    group.refused(
        32,
        "SOME over relation 2 of two.",
        condition(&some(1, 2, &yes())),
    );
    group.refused(
        32,
        "An aggregate over relation 255.",
        with(join(&[&count(0, 255, &yes()), &yes()])),
    );
    group.cells(
        "Attribute 1 of two as a target.",
        with(join(&[&range(0, 0), &attribute(0, 1), &yes()])),
        &[6],
    );
    group.refused(
        32,
        "Attribute 2 of two as a target.",
        with(join(&[&range(0, 0), &attribute(0, 2), &yes()])),
    );
    group.refused(
        32,
        "Attribute 2 of two in the condition.",
        condition(&equal(&attribute(0, 2), &constant(0))),
    );
    group.refused(
        32,
        "An aggregate's own attribute is unknown.",
        with(join(&[&aggregate(COUNT, 0, 1, 1, &yes()), &yes()])),
    );
    group.cells(
        "Variable 7.",
        with(join(&[&range(7, 0), &attribute(7, 0), &yes()])),
        &[5],
    );
    group.refused(
        32,
        "Variable 8, by a RANGE.",
        with(join(&[&range(8, 0), &attribute(8, 0), &yes()])),
    );
    group.refused(32, "Variable 8, by SOME.", condition(&some(8, 0, &yes())));
    group.refused(
        32,
        "Variable 255, by an aggregate.",
        with(join(&[&count(255, 0, &yes()), &yes()])),
    );
    group.refused(
        32,
        "A target's variable is bound by nothing.",
        with(join(&[&attribute(0, 0), &yes()])),
    );
    group.refused(
        32,
        "A target uses the condition's SOME variable.",
        with(join(&[&attribute(1, 0), &some(1, 0, &yes())])),
    );
    group.refused(
        32,
        "A SOME variable is used outside its SOME.",
        condition(&and(
            &some(1, 0, &yes()),
            &equal(&attribute(1, 0), &constant(5)),
        )),
    );
    group.refused(
        32,
        "A SOME variable is used before its SOME.",
        condition(&and(
            &equal(&attribute(1, 0), &constant(5)),
            &some(1, 0, &yes()),
        )),
    );
    group.refused(
        32,
        "An aggregate's variable is used outside it.",
        condition(&equal(&count(1, 0, &yes()), &attribute(1, 0))),
    );
    group.refused(
        32,
        "A RANGE variable is out of reach inside an aggregate.",
        condition(&equal(
            &constant(1),
            &count(1, 0, &equal(&attribute(1, 0), &attribute(0, 0))),
        )),
    );
    group.refused(
        32,
        "A SOME variable is out of reach inside an aggregate below it.",
        condition(&some(
            2,
            0,
            &equal(
                &constant(1),
                &count(1, 0, &equal(&attribute(2, 0), &constant(5))),
            ),
        )),
    );
    group.cells(
        "SOME inside an aggregate sees the aggregate's variable.",
        with(join(&[
            &count(
                1,
                0,
                &some(2, 0, &equal(&attribute(1, 0), &attribute(2, 0))),
            ),
            &yes(),
        ])),
        &[1],
    );
    group.refused(
        32,
        "An outer aggregate's variable is out of reach inside an inner one.",
        with(join(&[
            &count(
                1,
                0,
                &equal(
                    &constant(1),
                    &count(2, 0, &equal(&attribute(1, 0), &constant(5))),
                ),
            ),
            &yes(),
        ])),
    );
    group.refused(
        32,
        "Two RANGEs bind variable 0.",
        with(join(&[
            &range(0, 0),
            &range(0, 1),
            &attribute(0, 0),
            &yes(),
        ])),
    );
    group.refused(
        32,
        "A RANGE and a SOME bind variable 0.",
        condition(&some(0, 0, &yes())),
    );
    group.refused(
        32,
        "Two SOMEs side by side bind variable 1.",
        condition(&and(&some(1, 0, &yes()), &some(1, 0, &yes()))),
    );
    group.refused(
        32,
        "Two aggregates side by side bind variable 1.",
        with(join(&[&count(1, 0, &yes()), &count(1, 0, &yes()), &yes()])),
    );
    group.refused(
        32,
        "A target's aggregate and the condition's SOME bind variable 1.",
        with(join(&[&count(1, 0, &yes()), &some(1, 0, &yes())])),
    );
    group.refused(
        32,
        "A RANGE variable is bound again inside an aggregate.",
        condition(&equal(&constant(1), &count(0, 0, &yes()))),
    );
}

pub fn no_permit(group: &mut Group) {
    let catalogue = join(&[&relation(2, 1), &relation(1, 0), &workspace(1, 1)]);
    let with = |permits: &[Vec<u8>], question: Vec<u8>| {
        Setting::new(catalogue.clone(), &[5, 6, 7], permits.concat()).files(question)
    };
    let left = || permit(0, 1, &yes());
    let right = || permit(0, 2, &yes());
    let both = || permit(0, 3, &yes());
    let ask =
        |target: u8, condition: Vec<u8>| join(&[&range(0, 0), &attribute(0, target), &condition]);
    let equal = |left: &[u8], right: &[u8]| compare(EQUAL, left, right);
    group.refused(33, "No permits at all.", with(&[], ask(0, yes())));
    group.refused(33, "No file permits.", with(&[], ask(0, yes())));
    group.without(&["permits"]);
    group.refused(
        33,
        "A permit on another relation.",
        with(&[permit(1, ALL, &yes())], ask(0, yes())),
    );
    group.cells(
        "The mask has the target's attribute.",
        with(&[left()], ask(0, yes())),
        &[5],
    );
    group.refused(
        33,
        "The mask lacks the target's attribute.",
        with(&[left()], ask(1, yes())),
    );
    let uses_right = || equal(&attribute(0, 1), &constant(6));
    group.refused(
        33,
        "The mask lacks an attribute that only the condition uses.",
        with(&[left()], ask(0, uses_right())),
    );
    group.refused(
        33,
        "The same below a FALSE that decides already.",
        with(&[left()], ask(0, and(&no(), &uses_right()))),
    );
    group.refused(
        33,
        "The masks of two permits are not added up.",
        with(&[left(), right()], ask(0, uses_right())),
    );
    group.cells(
        "A permit for both attributes.",
        with(&[left(), right(), both()], ask(0, uses_right())),
        &[5],
    );
    let aggregate_of = |function: u8, own: u8, inner: Vec<u8>| {
        join(&[&aggregate(function, 0, 0, own, &inner), &yes()])
    };
    group.refused(
        33,
        "The mask lacks the aggregate's own attribute.",
        with(&[left()], aggregate_of(SUM, 1, yes())),
    );
    group.refused(
        33,
        "COUNT's own attribute counts too.",
        with(&[left()], aggregate_of(COUNT, 1, yes())),
    );
    group.refused(
        33,
        "The mask lacks an attribute that the aggregate's condition uses.",
        with(&[left()], aggregate_of(SUM, 0, uses_right())),
    );
    let below = |used: u8| ask(0, some(1, 0, &equal(&attribute(1, used), &attribute(0, 0))));
    group.cells(
        "SOME's variable has a set of its own: attribute 0.",
        with(&[left()], below(0)),
        &[5],
    );
    group.refused(
        33,
        "SOME's variable uses attribute 1, which the mask lacks.",
        with(&[left()], below(1)),
    );
    let two = |second: u8| {
        join(&[
            &range(0, 0),
            &range(1, 0),
            &attribute(0, 0),
            &attribute(1, second),
            &yes(),
        ])
    };
    group.cells(
        "Two variables over a relation use one attribute each: a permit for each.",
        with(&[left(), right()], two(1)),
        &[5, 6],
    );
    group.refused(
        33,
        "The second variable has no permit.",
        with(&[left()], two(1)),
    );
    let unused = join(&[&range(0, 2), &range(1, 0), &attribute(0, 0), &yes()]);
    group.cells(
        "A RANGE that is not used: any permit on its relation applies.",
        with(&[right()], unused.clone()),
        &[7],
    );
    group.refused(
        33,
        "A RANGE that is not used needs a permit.",
        with(&[permit(1, ALL, &yes())], unused),
    );
    group.refused(
        33,
        "A SOME that uses nothing needs a permit.",
        with(
            &[],
            join(&[&range(0, 2), &attribute(0, 0), &some(1, 0, &yes())]),
        ),
    );
    group.refused(
        33,
        "An aggregate below a SOME needs a permit.",
        with(
            &[],
            join(&[
                &range(0, 2),
                &attribute(0, 0),
                &some(
                    1,
                    2,
                    &equal(&constant(0), &aggregate(COUNT, 2, 0, 0, &yes())),
                ),
            ]),
        ),
    );
    group.refused(
        33,
        "A relation of no rows needs a permit.",
        with(&[both()], join(&[&range(0, 1), &attribute(0, 0), &yes()])),
    );
    group.cells(
        "A workspace needs none.",
        with(&[], join(&[&range(0, 2), &attribute(0, 0), &yes()])),
        &[7],
    );
    group.refused(
        33,
        "A permit that is FALSE does not apply.",
        with(&[permit(0, ALL, &no())], ask(0, yes())),
    );
    group.cells(
        "What a permit's own condition uses need not be in its mask.",
        with(
            &[permit(0, 1, &equal(&attribute(0, 1), &constant(6)))],
            ask(0, yes()),
        ),
        &[5],
    );
}

/// Two things wrong: the lower number goes first, each check over its whole input.
pub fn order(group: &mut Group) {
    let bad_catalogue = || relation(17, 0);
    let form = || vec![64, 0, 255, 255, 99];
    let size = || permit(0, ALL, &nots(17));
    let names = || permit(9, ALL, &yes());
    let space = || permit(1, ALL, &yes());
    let catalogue = join(&[&relation(1, 1), &workspace(1, 1)]);
    let with = |values: &[i32], permits: Vec<u8>, question: Vec<u8>| {
        Setting::new(catalogue.clone(), values, permits).files(question)
    };
    let q_form = || vec![99];
    let q_size = || join(&[&attribute(0, 0).repeat(9), &yes()]);
    let q_names = || join(&[&attribute(9, 0), &yes()]);
    let good = || permit(0, ALL, &yes());
    group.refused(
        10,
        "10 before 11, 20 and 30.",
        Setting::new(bad_catalogue(), &[1], form()).files(q_form()),
    );
    group.refused(11, "11 before 20 and 30.", with(&[1], form(), q_form()));
    group.refused(20, "20 before 30.", with(&[1, 2], form(), q_form()));
    group.refused(
        20,
        "20 in the last permit before 21 in the first.",
        with(&[1, 2], join(&[&size(), &form()]), first()),
    );
    group.refused(
        20,
        "20 in the last permit before 22 in the first.",
        with(&[1, 2], join(&[&names(), &form()]), first()),
    );
    group.refused(
        21,
        "21 in the last permit before 22 in the first.",
        with(&[1, 2], join(&[&names(), &size()]), first()),
    );
    group.refused(
        21,
        "21 in the last permit before 23 in the first.",
        with(&[1, 2], join(&[&space(), &size()]), first()),
    );
    group.refused(
        22,
        "22 in the last permit before 23 in the first.",
        with(&[1, 2], join(&[&space(), &names()]), first()),
    );
    group.refused(21, "21 before 30.", with(&[1, 2], size(), q_form()));
    group.refused(22, "22 before 31.", with(&[1, 2], names(), q_size()));
    group.refused(23, "23 before 32.", with(&[1, 2], space(), q_names()));
    group.refused(
        30,
        "30 before 31: nine targets and a byte past the end.",
        with(&[1, 2], good(), join(&[&q_size(), &[0]])),
    );
    group.refused(
        31,
        "31 before 32: nine targets, all of a variable that is not bound.",
        with(&[1, 2], good(), q_size()),
    );
    group.refused(
        32,
        "32 before 33.",
        with(
            &[1, 2],
            vec![],
            join(&[&range(0, 0), &attribute(0, 3), &yes()]),
        ),
    );
}
