//! Which variable a symbol means, and its number.

use super::super::write::*;
use super::{attribute as attribute_name, relation, Group};

/// The text after a RANGE of X and Y over EMPLOYEE and D over DEPARTMENT.
fn asks(text: &str) -> String {
    format!("RANGE EMPLOYEE(X,Y):DEPARTMENT(D) RETRIEVE W:{text}")
}

fn is_one(term: &[u8]) -> Vec<u8> {
    compare(EQUAL, term, &constant(1))
}

pub fn bound(group: &mut Group) {
    for (about, text) in [
        ("A symbol twice in a range.", "RANGE EMPLOYEE(X,X) RETRIEVE W:X.NAME"),
        ("A symbol twice, used in no place.", "RANGE EMPLOYEE(X,Y,Y) RETRIEVE W:X.NAME"),
        ("A symbol in two ranges.", "RANGE EMPLOYEE(X):DEPARTMENT(X) RETRIEVE W:X.NAME"),
        (
            "A SOME with a RANGE symbol.",
            "RANGE EMPLOYEE(X) RETRIEVE W:X.NAME:SOME X IN EMPLOYEE(X.NAME=1)",
        ),
        (
            "A SOME with a RANGE symbol that gives no record.",
            "RANGE EMPLOYEE(X,Y) RETRIEVE W:X.NAME:SOME Y IN EMPLOYEE(Y.NAME=1)",
        ),
        (
            "A SOME inside an aggregate with the aggregate's symbol.",
            "RANGE EMPLOYEE(X) RETRIEVE W:COUNT(X.NAME;SOME X IN EMPLOYEE(X.NAME=1))",
        ),
        (
            "Two SOMEs side by side.",
            "RANGE EMPLOYEE(X) RETRIEVE W:X.NAME:SOME Z IN EMPLOYEE(1=1)^SOME Z IN EMPLOYEE(1=1)",
        ),
        (
            "Two SOMEs, one in the other.",
            "RANGE EMPLOYEE(X) RETRIEVE W:X.NAME:SOME Z IN EMPLOYEE(SOME Z IN DEPARTMENT(1=1))",
        ),
        (
            "Two SOMEs, one of them in an aggregate.",
            "RANGE EMPLOYEE(X) RETRIEVE W:COUNT(X.NAME;SOME Z IN EMPLOYEE(1=1)):SOME Z IN EMPLOYEE(1=1)",
        ),
    ] {
        group.refused(51, about, text);
    }
    let text = "RANGE EMPLOYEE(X) RETRIEVE W:MAX(X.NAME),MIN(X.NAME),X.NAME";
    let (most, least) = (
        aggregate(MAX, 1, 0, 0, &yes()),
        aggregate(MIN, 2, 0, 0, &yes()),
    );
    let records = [range(0, 0), most, least, attribute(0, 0), yes()];
    group.records(
        "Aggregates take a symbol as often as they like.",
        text,
        &records,
    );
    let text =
        "RANGE EMPLOYEE(NAME) RETRIEVE NAME:NAME.NAME:SOME EMPLOYEE IN EMPLOYEE(EMPLOYEE.NAME=TOY)";
    let records = [
        range(0, 0),
        attribute(0, 0),
        some(1, 0, &is_one(&attribute(1, 0))),
    ];
    group.records(
        "Symbols that are also relations and attributes.",
        text,
        &records,
    );
}

pub fn reach(group: &mut Group) {
    for (about, text) in [
        (
            "Another RANGE symbol inside an aggregate.",
            "COUNT(X.NAME;Y.NAME=1)",
        ),
        (
            "It may be used elsewhere, and is still out of reach.",
            "Y.NAME,COUNT(X.NAME;Y.NAME=1)",
        ),
        (
            "The outer aggregate's symbol inside an inner one.",
            "COUNT(X.NAME;MAX(Y.NAME;X.NAME=1)=1)",
        ),
        (
            "The inner aggregate's symbol after it.",
            "COUNT(X.NAME;MAX(D.EMP;D.EMP=1)=D.EMP)",
        ),
        (
            "A SOME's symbol inside an aggregate in it.",
            "X.NAME:SOME Z IN EMPLOYEE(COUNT(X.NAME;Z.NAME=1)=2)",
        ),
        (
            "The same, all in an aggregate.",
            "COUNT(X.NAME;SOME Z IN EMPLOYEE(MAX(Y.NAME;Z.NAME=1)=1))",
        ),
        (
            "An aggregate's symbol inside another one, a SOME between.",
            "COUNT(X.NAME;SOME Z IN EMPLOYEE(MAX(Z.NAME;X.NAME=1)=1))",
        ),
        (
            "A SOME's symbol after it.",
            "X.NAME:SOME Z IN EMPLOYEE(Z.NAME=1)^Z.NAME=1",
        ),
        (
            "A SOME's symbol before it.",
            "X.NAME:Z.NAME=1^SOME Z IN EMPLOYEE(Z.NAME=1)",
        ),
        (
            "A SOME's symbol as a target.",
            "Z.NAME:SOME Z IN EMPLOYEE(Z.NAME=1)",
        ),
    ] {
        group.refused(51, about, asks(text));
    }
    let inner = compare(EQUAL, &attribute(1, 0), &attribute(0, 1));
    let count = aggregate(COUNT, 0, 0, 0, &some(1, 1, &inner));
    let text = asks("COUNT(X.NAME;SOME Z IN DEPARTMENT(Z.DEPT=X.DEPT))");
    group.records(
        "A SOME inside an aggregate sees both.",
        text,
        &[count, yes()],
    );
    let most = aggregate(MAX, 1, 0, 2, &is_one(&attribute(1, 0)));
    let first = compare(EQUAL, &most, &attribute(0, 2));
    let condition = and(&first, &is_one(&attribute(0, 1)));
    let text = asks("X.NAME:MAX(X.SALARY;X.NAME=1)=X.SALARY^X.DEPT=1");
    let records = [range(0, 0), attribute(0, 0), condition];
    group.records(
        "After an aggregate its symbol is what it was.",
        text,
        &records,
    );
    let inner = compare(LESS, &attribute(0, 2), &aggregate(MAX, 1, 0, 2, &yes()));
    let text = asks("MAX(X.SALARY;X.SALARY<MAX(X.SALARY))");
    let records = [aggregate(MAX, 0, 0, 2, &inner), yes()];
    group.records(
        "An aggregate in one of the same symbol: a new variable.",
        text,
        &records,
    );
    let same = compare(EQUAL, &attribute(1, 0), &attribute(0, 0));
    let text = asks("X.NAME:SOME Z IN EMPLOYEE(Z.NAME=X.NAME)");
    let records = [range(0, 0), attribute(0, 0), some(1, 0, &same)];
    group.records("A RANGE symbol inside a SOME.", text, &records);
}

pub fn heads(group: &mut Group) {
    let text = asks("COUNT(X.NAME;MAX(D.EMP;MIN(Y.NAME)=1)=1)");
    let least = aggregate(MIN, 2, 0, 0, &yes());
    let most = aggregate(MAX, 1, 1, 2, &is_one(&least));
    let records = [aggregate(COUNT, 0, 0, 0, &is_one(&most)), yes()];
    group.records(
        "Every RANGE symbol is a head, however deep.",
        text,
        &records,
    );
    let text = asks("Y.NAME:SOME Z IN DEPARTMENT(MAX(Z.EMP;Z.SALES=1)=Z.EMP)");
    let most = aggregate(MAX, 2, 1, 2, &is_one(&attribute(2, 3)));
    let inner = compare(EQUAL, &most, &attribute(1, 2));
    let records = [range(0, 0), attribute(0, 0), some(1, 1, &inner)];
    group.records("A SOME's symbol is a head inside it.", text, &records);
    let text = asks("Y.NAME:SOME Z IN DEPARTMENT(COUNT(Y.NAME;AVE(Z.EMP)=1)=1)");
    let average = aggregate(AVE, 3, 1, 2, &yes());
    let count = aggregate(COUNT, 2, 0, 0, &is_one(&average));
    let records = [range(0, 0), attribute(0, 0), some(1, 1, &is_one(&count))];
    group.records("Also inside an aggregate between.", text, &records);
    for (about, text) in [
        (
            "A SOME's symbol is no head after it.",
            "X.NAME:SOME Z IN EMPLOYEE(Z.NAME=1)^MAX(Z.NAME)=1",
        ),
        (
            "A SOME's symbol is no head before it.",
            "MAX(Z.NAME):SOME Z IN EMPLOYEE(Z.NAME=1)",
        ),
        (
            "The attribute is one of the head's relation.",
            "MAX(D.SALARY)",
        ),
        (
            "An unknown head inside an aggregate.",
            "MAX(X.NAME;MAX(U.NAME)=1)",
        ),
    ] {
        group.refused(51, about, asks(text));
    }
    let text = asks("MAX(X.NAME;X.NAME=1),MAX(Y.NAME;Y.NAME=1)");
    let first = aggregate(MAX, 0, 0, 0, &is_one(&attribute(0, 0)));
    let second = aggregate(MAX, 1, 0, 0, &is_one(&attribute(1, 0)));
    group.records(
        "Used only in aggregates: no record.",
        text,
        &[first, second, yes()],
    );
}

pub fn numbering(group: &mut Group) {
    let text = "RANGE DEPARTMENT(D):EMPLOYEE(A,B,C) RETRIEVE W:C.NAME:A.NAME=D.DEPT";
    let condition = compare(EQUAL, &attribute(1, 0), &attribute(0, 0));
    let records = [
        range(0, 1),
        range(1, 0),
        range(2, 0),
        attribute(2, 0),
        condition,
    ];
    group.records(
        "By the order of the list, not of use; B has no record.",
        text,
        &records,
    );
    let text = "RANGE EMPLOYEE(Y,X) RETRIEVE W:X.NAME";
    group.records(
        "The first symbol unused.",
        text,
        &[range(0, 0), attribute(0, 0), yes()],
    );
    let text = "RANGE EMPLOYEE(X):EMPLOYEE(Y) RETRIEVE W:Y.NAME,X.NAME";
    let records = [
        range(0, 0),
        range(1, 0),
        attribute(1, 0),
        attribute(0, 0),
        yes(),
    ];
    group.records("One relation in two ranges.", text, &records);
    let text = "RANGE EMPLOYEE(A,B,C) RETRIEVE W:MAX(A.NAME;A.NAME=1):SOME Z IN EMPLOYEE(C.NAME=1)";
    let most = aggregate(MAX, 1, 0, 0, &is_one(&attribute(1, 0)));
    let records = [range(0, 0), most, some(2, 0, &is_one(&attribute(0, 0)))];
    group.records(
        "A use inside a SOME counts, one inside an aggregate does not.",
        text,
        &records,
    );
    let text = "RANGE EMPLOYEE(X) RETRIEVE W:MAX(X.NAME):X.NAME=MAX(X.NAME)^SOME Z IN EMPLOYEE(MIN(X.NAME)=Z.NAME)";
    let second = compare(EQUAL, &attribute(0, 0), &aggregate(MAX, 2, 0, 0, &yes()));
    let third = compare(EQUAL, &aggregate(MIN, 4, 0, 0, &yes()), &attribute(3, 0));
    let condition = and(&second, &some(3, 0, &third));
    let records = [range(0, 0), aggregate(MAX, 1, 0, 0, &yes()), condition];
    group.records(
        "RANGE, targets, condition: numbers in byte order.",
        text,
        &records,
    );
    let text =
        "RANGE EMPLOYEE(X) RETRIEVE W:COUNT(X.NAME;SUM(X.DEPT;AVE(X.SALARY)=1)=1),MIN(X.NAME)";
    let inner = aggregate(SUM, 1, 0, 1, &is_one(&aggregate(AVE, 2, 0, 2, &yes())));
    let count = aggregate(COUNT, 0, 0, 0, &is_one(&inner));
    let records = [count, aggregate(MIN, 3, 0, 0, &yes()), yes()];
    group.records("An outer aggregate before those within it.", text, &records);
    let nine = ["MAX(X.NAME)"; 9].join(",");
    let text = format!("RANGE EMPLOYEE(X) RETRIEVE W:{nine}");
    let targets: Vec<u8> = (0..9)
        .flat_map(|number| aggregate(MAX, number, 0, 0, &yes()))
        .collect();
    group.records("Numbers go on past 7.", text, &[targets, yes()]);
    let letters = || (b'A'..=b'Z').map(char::from);
    let two = letters().flat_map(|first| letters().map(move |second| format!("{first}{second}")));
    let symbols = letters().map(String::from).chain(two);
    let symbols = symbols
        .filter(|symbol| symbol != "V" && symbol != "IN")
        .take(254);
    let symbols: Vec<String> = symbols.collect();
    let uses: Vec<String> = symbols.iter().map(|symbol| format!("{symbol}.A")).collect();
    let text = format!(
        "RANGE R({})RETRIEVE W:{}",
        symbols.join(","),
        uses.join(",")
    );
    let ranges = (0..254)
        .flat_map(|number| range(number, 0))
        .collect::<Vec<u8>>();
    let targets = (0..254).flat_map(|number| attribute(number, 0)).collect();
    group.records(
        "254 variables: no text has more.",
        text,
        &[ranges, targets, yes()],
    );
    group.names([relation(0, "R"), attribute_name(0, 0, "A")].concat());
}
