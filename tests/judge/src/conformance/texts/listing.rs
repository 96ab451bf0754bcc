//! 51 by the list of names or by a name that is not in it; the order of the refusals; 52.

use super::super::write::*;
use super::{attribute as attribute_name, listed, relation, shop, value};
use super::{Group, FRONT, PLAIN, START};

const USES_ALL: &str = "RANGE EMPLOYEE(X) RETRIEVE W:X.NAME:X.NAME=TOY";

fn own() -> Vec<u8> {
    [
        relation(3, "EMPLOYEE"),
        attribute_name(3, 9, "NAME"),
        value(-2, "TOY"),
    ]
    .concat()
}

fn own_records() -> Vec<u8> {
    let condition = compare(EQUAL, &attribute(0, 9), &constant(-2));
    join(&[&range(0, 3), &attribute(0, 9), &condition])
}

fn good(group: &mut Group, about: &str, more: Vec<u8>) {
    group.records(about, USES_ALL, &[own_records()]);
    group.names([own(), more].concat());
}

fn bad(group: &mut Group, about: &str, more: Vec<u8>) {
    group.refused(51, about, USES_ALL);
    group.names([own(), more].concat());
}

pub fn list(group: &mut Group) {
    good(group, "Three names, all used.", vec![]);
    group.records("The list in another order.", USES_ALL, &[own_records()]);
    group.names(
        [
            value(-2, "TOY"),
            attribute_name(3, 9, "NAME"),
            relation(3, "EMPLOYEE"),
        ]
        .concat(),
    );
    good(
        group,
        "Names that are not used.",
        [relation(0, "A"), value(0, "B")].concat(),
    );
    good(
        group,
        "A relation number that no catalogue has.",
        relation(255, "STAFF"),
    );
    good(
        group,
        "Attributes of a relation that is not listed.",
        attribute_name(200, 3, "NAME"),
    );
    good(
        group,
        "A name of twelve letters.",
        relation(4, "ABCDEFGHIJKL"),
    );
    let text = "RANGE A(X) RETRIEVE W:X.B:X.B=C";
    let condition = compare(EQUAL, &attribute(0, 255), &constant(i32::MIN));
    group.records(
        "Numbers as they are listed.",
        text,
        &[range(0, 255), attribute(0, 255), condition],
    );
    group.names(
        [
            relation(255, "A"),
            attribute_name(255, 255, "B"),
            value(i32::MIN, "C"),
        ]
        .concat(),
    );
    let text = "RANGE EMPLOYEE(X) RETRIEVE W:COUNT(X.NAME)";
    group.refused(51, "An empty list.", text);
    group.names(vec![]);
    bad(group, "An unknown kind.", listed(&[79, 1], "STAFF"));
    bad(group, "Another unknown kind.", listed(&[83, 1], "STAFF"));
    bad(group, "Kind 0.", vec![0]);
    bad(group, "A byte 80 after the end.", vec![80]);
    bad(
        group,
        "A relation cut by a byte.",
        relation(4, "STAFF")[..13].to_vec(),
    );
    bad(
        group,
        "An attribute cut by a byte.",
        attribute_name(3, 4, "AGE")[..14].to_vec(),
    );
    bad(
        group,
        "A value cut by a byte.",
        value(4, "GAME")[..16].to_vec(),
    );
    bad(
        group,
        "A value as long as a relation.",
        listed(&[82, 1], "STAFF"),
    );
    bad(
        group,
        "A relation as long as an attribute.",
        listed(&[80, 1, 1], "STAFF"),
    );
    bad(group, "An empty relation name.", relation(4, ""));
    bad(group, "An empty attribute name.", attribute_name(3, 4, ""));
    bad(group, "An empty value name.", value(4, ""));
    bad(group, "A space before a name.", relation(4, " STAFF"));
    bad(group, "A space in a name.", relation(4, "ST AFF"));
    bad(group, "A small letter.", relation(4, "STAFf"));
    bad(group, "A digit.", attribute_name(3, 4, "AGE1"));
    bad(
        group,
        "Filled up with zeros.",
        relation(4, "STAFF\0\0\0\0\0\0\0"),
    );
    bad(group, "A point.", value(4, "GAME."));
    bad(group, "A line end.", value(4, "GAME\n"));
    bad(group, "A tab for a space.", value(4, "GAME\t"));
    for word in [
        "RANGE", "RETRIEVE", "NOT", "SOME", "IN", "V", "COUNT", "SUM", "AVE", "MAX", "MIN",
    ] {
        let about = format!("{word} is reserved, and no relation.");
        bad(group, &about, relation(4, word));
    }
    bad(
        group,
        "V is reserved, and no attribute.",
        attribute_name(3, 4, "V"),
    );
    bad(group, "IN is reserved, and no value.", value(4, "IN"));
    group.refused(51, "A broken record before the good ones.", USES_ALL);
    group.names([relation(4, ""), own()].concat());
    let words = ["A", "B", "C", "D", "E", "F", "G", "H"];
    let pairs = words
        .iter()
        .flat_map(|one| words.map(|two| format!("{one}{two}Q")));
    let many: Vec<u8> = pairs.flat_map(|name| value(5, &name)).collect();
    good(group, "Any number of names.", many);
}

pub fn twice(group: &mut Group) {
    bad(
        group,
        "A relation listed twice with two numbers.",
        relation(4, "EMPLOYEE"),
    );
    bad(
        group,
        "A relation listed twice with one number.",
        relation(3, "EMPLOYEE"),
    );
    bad(
        group,
        "An attribute listed twice within its relation.",
        attribute_name(3, 1, "NAME"),
    );
    bad(
        group,
        "An attribute listed twice, all the same.",
        attribute_name(3, 9, "NAME"),
    );
    bad(group, "A value listed twice.", value(5, "TOY"));
    bad(
        group,
        "A value listed twice, all the same.",
        value(-2, "TOY"),
    );
    bad(
        group,
        "Names twice that are not used.",
        [value(1, "A"), value(2, "A")].concat(),
    );
    good(
        group,
        "An attribute name in two relations.",
        attribute_name(4, 9, "NAME"),
    );
    good(group, "Two names for one relation.", relation(3, "STAFF"));
    good(
        group,
        "Two names for one attribute.",
        attribute_name(3, 9, "WHO"),
    );
    good(group, "Two names for one value.", value(-2, "GAME"));
    good(group, "A relation's name as a value.", value(1, "EMPLOYEE"));
    good(group, "A value's name as a relation.", relation(1, "TOY"));
    good(
        group,
        "An attribute's name as a relation.",
        relation(1, "NAME"),
    );
    good(
        group,
        "A relation's name as its attribute.",
        attribute_name(3, 1, "EMPLOYEE"),
    );
    let text = "RANGE STAFF(X):EMPLOYEE(Y) RETRIEVE W:X.NAME,Y.WHO";
    let records = [
        range(0, 3),
        range(1, 3),
        attribute(0, 9),
        attribute(1, 9),
        yes(),
    ];
    group.records("Two names for one relation, both used.", text, &records);
    group.names([own(), relation(3, "STAFF"), attribute_name(3, 9, "WHO")].concat());
}

pub fn unknown(group: &mut Group) {
    for (about, text) in [
        (
            "An unknown relation.",
            "RANGE STAFF(X) RETRIEVE W:COUNT(X.NAME)",
        ),
        (
            "An unknown relation, its symbol unused.",
            "RANGE EMPLOYEE(X):STAFF(Y) RETRIEVE W:X.NAME",
        ),
        (
            "An attribute of another relation.",
            "RANGE EMPLOYEE(X) RETRIEVE W:X.FLOOR",
        ),
        ("An unknown symbol.", "RANGE EMPLOYEE(X) RETRIEVE W:Y.NAME"),
        (
            "A relation is no symbol.",
            "RANGE EMPLOYEE(X) RETRIEVE W:EMPLOYEE.NAME",
        ),
        (
            "A workspace is no symbol.",
            "RANGE EMPLOYEE(X) RETRIEVE W:W.NAME",
        ),
        (
            "An aggregate of an unknown symbol.",
            "RANGE EMPLOYEE(X) RETRIEVE W:COUNT(Y.NAME)",
        ),
        (
            "An aggregate of another relation's attribute.",
            "RANGE EMPLOYEE(X) RETRIEVE W:COUNT(X.FLOOR)",
        ),
        (
            "An unknown value.",
            "RANGE EMPLOYEE(X) RETRIEVE W:X.NAME:X.NAME=NOBODY",
        ),
        (
            "A symbol is no value.",
            "RANGE EMPLOYEE(X) RETRIEVE W:X.NAME:X.NAME=X",
        ),
        (
            "A relation is no value.",
            "RANGE EMPLOYEE(X) RETRIEVE W:X.NAME:EMPLOYEE=1",
        ),
        (
            "An attribute is no value.",
            "RANGE EMPLOYEE(X) RETRIEVE W:X.NAME:NAME=1",
        ),
        (
            "An unknown relation of SOME.",
            "RANGE EMPLOYEE(X) RETRIEVE W:X.NAME:SOME Z IN STAFF(1=1)",
        ),
        (
            "A relation of 13 letters.",
            "RANGE ABCDEFGHIJKLM(X) RETRIEVE W:X.NAME",
        ),
        (
            "An attribute of 14 letters.",
            "RANGE EMPLOYEE(X) RETRIEVE W:X.NAMEABCDEFGHIJ",
        ),
        (
            "A value of 15 letters.",
            "RANGE EMPLOYEE(X) RETRIEVE W:X.NAME:X.NAME=JONESABCDEFGHIJ",
        ),
        (
            "The beginning of a name is no name.",
            "RANGE EMPLOY(X) RETRIEVE W:X.NAME",
        ),
    ] {
        group.refused(51, about, text);
    }
    let names = [shop(), relation(0, "ABCDEFGHIJKL")].concat();
    let text = "RANGE ABCDEFGHIJKLM(X) RETRIEVE W:X.NAME";
    group.refused(
        51,
        "A name is not cut to the twelve letters that are listed.",
        text,
    );
    group.names(names.clone());
    let text = "RANGE ABCDEFGHIJKL(X) RETRIEVE W:X.NAME";
    group.records("Twelve letters.", text, &[&FRONT[..], &[16]]);
    group.names(names);
    let (long, longer) = ("ABCDEFGHIJKLMN", "ABCDEFGHIJKLMO");
    let text = format!("RANGE EMPLOYEE({long},{longer}) RETRIEVE W:{longer}.NAME:{long}.DEPT=1");
    let condition = compare(EQUAL, &attribute(0, 1), &constant(1));
    let records = [range(0, 0), range(1, 0), attribute(1, 0), condition];
    group.records(
        "Symbols of 14 letters that differ in the last.",
        text,
        &records,
    );
    let text = format!("{START}X.NAME=BASEMENT");
    let condition = compare(EQUAL, &attribute(0, 0), &constant(-1));
    group.records(
        "A negative value by its name.",
        text,
        &[&FRONT[..], &condition],
    );
    let text = format!("{START}TOY=JONES");
    let condition = compare(EQUAL, &constant(1), &constant(2));
    group.records("Two values.", text, &[&FRONT[..], &condition]);
}

pub fn order(group: &mut Group) {
    group.refused(50, "50 before a broken list.", "RANGE");
    group.names(vec![1]);
    group.refused(
        50,
        "50 before an unknown name that comes earlier.",
        "RANGE STAFF(X) RETRIEVE X",
    );
    group.refused(
        50,
        "50 before a symbol bound twice.",
        "RANGE EMPLOYEE(X,X) RETRIEVE W:",
    );
    group.refused(50, "50 before 52.", "RANGE EMPLOYEE(X)");
    group.room(0);
    let text = format!("{START}X.NAME=NOBODY^X.NAME=2147483648");
    group.refused(50, "A number outside 32 bits after an unknown value.", text);
    group.refused(
        50,
        "Too long, and full of unknown names.",
        "A ".repeat(1_001),
    );
    group.refused(51, "51 before 52: a broken list.", PLAIN);
    group.names(vec![1]);
    group.room(0);
    group.refused(
        51,
        "51 before 52: an unknown name.",
        "RANGE EMPLOYEE(X) RETRIEVE W:X.FLOOR",
    );
    group.room(0);
    group.refused(52, "52 alone.", PLAIN);
    group.room(0);
}

pub fn room(group: &mut Group) {
    let plain = [&FRONT[..], &[16]];
    group.records("Just room enough.", PLAIN, &plain);
    group.room(7);
    group.records("A byte more than enough.", PLAIN, &plain);
    group.room(8);
    for room in [6, 5, 1] {
        group.refused(52, format!("Room for {room} of 7 bytes."), PLAIN);
        group.room(room);
    }
    let short = [relation(0, "R"), attribute_name(0, 0, "A")].concat();
    let text = format!("RANGE R(X)RETRIEVE W:X.A:{}", vec!["1=1"; 494].join("^"));
    let comparison = compare(EQUAL, &constant(1), &constant(1));
    let records = [&FRONT[..], &[19; 493], &comparison.repeat(494)];
    // To the left: all the ANDs come first.
    group.records("The longest records: 6,427 bytes.", text.clone(), &records);
    group.names(short.clone());
    group.refused(52, "Room for all but the last of 6,427 bytes.", text);
    group.names(short);
    group.room(6_426);
}
