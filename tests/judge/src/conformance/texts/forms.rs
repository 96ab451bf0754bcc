//! 50, and what the grammar makes of a text.

use super::super::write::*;
use super::{attribute as attribute_name, value as value_name};
use super::{relation, Group, FRONT, PLAIN, START};

const FUNCTION_WORDS: [&str; 5] = ["COUNT", "SUM", "AVE", "MAX", "MIN"];

fn equal(left: i32, right: i32) -> Vec<u8> {
    compare(EQUAL, &constant(left), &constant(right))
}

fn after(text: &str) -> String {
    format!("{START}{text}")
}

/// A condition that is read as these parts.
fn means(group: &mut Group, about: &str, condition: &str, parts: &[&[u8]]) {
    group.records(about, after(condition), &[&FRONT[..], &parts.concat()]);
}

fn none(group: &mut Group, about: &str, condition: &str) {
    group.refused(50, about, after(condition));
}

pub fn words(group: &mut Group) {
    let plain = [&FRONT[..], &[16]];
    group.records("A text without qualification: TRUE.", PLAIN, &plain);
    for (name, byte) in [
        ("A tab", 9u8),
        ("Byte 0", 0),
        ("A vertical tab", 11),
        ("A form feed", 12),
        ("A no-break space", 160),
        ("Byte 255", 255),
        ("A quotation mark", b'"'),
        ("An underscore", b'_'),
        ("A plus", b'+'),
        ("A lone minus", b'-'),
        ("A star", b'*'),
    ] {
        let mut text = PLAIN.as_bytes().to_vec();
        text.insert(17, byte);
        group.refused(50, format!("{name} is no blank and starts no word."), text);
    }
    group.refused(
        50,
        "Lower case is outside.",
        "range employee(x) retrieve w:x.name",
    );
    group.refused(
        50,
        "One small letter in a name.",
        "RANGE EMPLOYEE(X) RETRIEVE W:X.NAMe",
    );
    let digit = "RANGE EMPLOYEE(X) RETRIEVE W1:X.NAME";
    group.refused(
        50,
        "Names have no digits: W1 is a word and a number.",
        digit,
    );
    let digit = "RANGE EMPLOYEE(X1) RETRIEVE W:X1.NAME";
    group.refused(50, "Symbols have no digits either.", digit);
    let sign = "RANGE DEPARTMENT(Y) RETRIEVE W:Y.DEPT:Y.FLOOR#=1";
    group.refused(50, "FLOOR#=1 is a name and two signs.", sign);
    group.refused(50, "An empty text.", "");
    group.refused(50, "Blanks alone.", " \n\r ");
    none(
        group,
        "BAKERV is one word, and a value name is no comparison.",
        "X.NAME#BAKERV(1=1)",
    );
    let text = after("X.NAME#BAKERV");
    group.refused(51, "BAKERV is one word, and here an unknown value.", text);
}

pub fn numbers(group: &mut Group) {
    for (about, number, value) in [
        ("Zero.", "0", 0),
        ("Minus zero.", "-0", 0),
        ("Leading zeros.", "007", 7),
        ("A minus before leading zeros.", "-007", -7),
        ("The largest number.", "2147483647", i32::MAX),
        ("The smallest number.", "-2147483648", i32::MIN),
        (
            "Over ten digits, but for zeros not over 32 bits.",
            "0000000000000000000002147483647",
            i32::MAX,
        ),
    ] {
        means(group, about, &format!("{number}=1"), &[&equal(value, 1)]);
    }
    let zeros = "0".repeat(1_900);
    means(
        group,
        "1,900 zeros and a 5.",
        &format!("{zeros}5=1"),
        &[&equal(5, 1)],
    );
    for (about, number) in [
        ("One over the largest: 50, not a name.", "2147483648"),
        ("One under the smallest.", "-2147483649"),
        ("Two to the 32nd does not wrap to 0.", "4294967296"),
        (
            "Two to the 64th and 1 does not wrap to 1.",
            "18446744073709551617",
        ),
        ("Forty digits.", "9999999999999999999999999999999999999999"),
        ("A minus has its digits straight after it.", "- 5"),
        ("A minus and a line end.", "-\n5"),
        ("A minus alone.", "-"),
        ("Two minus signs.", "--5"),
        ("There is no plus.", "+5"),
        ("Two numbers, no difference.", "5-3"),
        ("Two numbers, no product.", "5 3"),
        ("No fractions.", "1.5"),
        ("A number and a word.", "5A"),
        ("A word and a number.", "A5"),
    ] {
        none(group, about, &format!("X.NAME={number}"));
    }
    let less = compare(LESS, &attribute(0, 2), &constant(-5));
    means(
        group,
        "A sign, then a number with its minus.",
        "X.SALARY<-5",
        &[&less],
    );
    let minus = compare(EQUAL, &constant(-5), &constant(-6));
    means(group, "A minus on both sides.", "-5=-6", &[&minus]);
}

pub fn signs(group: &mut Group) {
    for (about, sign, operator) in [
        ("Equal.", "=", EQUAL),
        ("# is not equal.", "#", UNEQUAL),
        ("Less.", "<", LESS),
        ("At most: one sign, read as far as it goes.", "<=", AT_MOST),
        ("Greater.", ">", GREATER),
        ("At least.", ">=", AT_LEAST),
    ] {
        let condition = compare(operator, &attribute(0, 0), &constant(3));
        means(group, about, &format!("X.NAME{sign}3"), &[&condition]);
    }
    for (about, sign) in [
        ("=< is two signs.", "=<"),
        ("=> is two signs.", "=>"),
        ("<> is two signs.", "<>"),
        ("== is two signs.", "=="),
        ("< = is two signs, for the blank between.", "< ="),
        ("> = is two signs, for the line end between.", ">\n="),
        ("!= is outside.", "!="),
        ("^= is outside.", "^="),
        ("No sign at all.", " "),
    ] {
        none(group, about, &format!("X.NAME{sign}3"));
    }
}

pub fn blanks(group: &mut Group) {
    let all = [
        &FRONT[..],
        &compare(AT_MOST, &attribute(0, 0), &constant(5)),
    ];
    for (about, text) in [
        (
            "No blank but where two words meet.",
            "RANGE EMPLOYEE(X)RETRIEVE W:X.NAME:X.NAME<=5",
        ),
        (
            "Blanks between all words and signs.",
            " RANGE EMPLOYEE ( X ) RETRIEVE W : X . NAME : X . NAME <= 5 ",
        ),
        (
            "Line ends between all words and signs.",
            "\nRANGE\nEMPLOYEE\n(\nX\n)\nRETRIEVE\nW\n:\nX\n.\nNAME\n:\nX\n.\nNAME\n<=\n5\n",
        ),
        (
            "Byte 13 parts words too.",
            "RANGE\rEMPLOYEE(X)\r\nRETRIEVE\rW:X.NAME:X.NAME<=5\r\n",
        ),
        (
            "Many blanks.",
            "RANGE     EMPLOYEE(X)\n\n\n  RETRIEVE   W:X.NAME:   X.NAME<=5     ",
        ),
    ] {
        group.records(about, text, &all);
    }
    let either = [&FRONT[..], &or(&equal(1, 1), &equal(2, 2))];
    group.records("V straight after a number.", after("1=1V 2=2"), &either);
    group.records("V between parentheses.", after("(1=1)V(2=2)"), &either);
    group.records(
        "V and a number: no blank is needed.",
        after("1=1 V2=2"),
        &either,
    );
    group.records("V between numbers.", after("1=1V2=2"), &either);
    means(group, "NOT and a number.", "NOT5=5", &[&not(&equal(5, 5))]);
    none(group, "VX is one word.", "1=1VX.NAME=2");
    none(group, "VNOT is one word.", "1=1VNOT 1=1");
    let text = after("NOTX.NAME=2");
    group.refused(51, "NOTX is one word, and an unknown symbol.", text);
    none(group, "SOMEZ is one word.", "SOMEZ IN EMPLOYEE(1=1)");
    none(group, "INEMPLOYEE is one word.", "SOME Z INEMPLOYEE(1=1)");
    let one = "RANGEEMPLOYEE(X) RETRIEVE W:X.NAME";
    group.refused(50, "RANGEEMPLOYEE is one word.", one);
    let one = "RANGE EMPLOYEE(X) RETRIEVEW:X.NAME";
    group.refused(50, "RETRIEVEW is one word.", one);
    let two = "RANGE EMPLOYEE(X) RETRIEVE W:X.NA ME";
    group.refused(50, "A blank parts a name in two.", two);
    means(
        group,
        "A blank parts no number from its sign.",
        "1 = 1",
        &[&equal(1, 1)],
    );
    none(group, "A blank parts a number in two.", "1 1=1");
}

pub fn reserved(group: &mut Group) {
    let words = [
        "RANGE", "RETRIEVE", "NOT", "SOME", "IN", "V", "COUNT", "SUM", "AVE", "MAX", "MIN",
    ];
    for word in words {
        let text = format!("RANGE EMPLOYEE({word}) RETRIEVE W:{word}.NAME");
        group.refused(50, format!("{word} is reserved: no symbol."), text);
    }
    for word in ["V", "RANGE", "IN", "COUNT"] {
        let text = format!("RANGE {word}(X) RETRIEVE W:X.NAME");
        group.refused(50, format!("{word} is reserved: no relation."), text);
        let text = format!("RANGE EMPLOYEE(X) RETRIEVE {word}:X.NAME");
        group.refused(50, format!("{word} is reserved: no workspace."), text);
        let text = format!("RANGE EMPLOYEE(X) RETRIEVE W:X.{word}");
        group.refused(50, format!("{word} is reserved: no attribute."), text);
        let text = after(&format!("X.NAME={word}"));
        group.refused(50, format!("{word} is reserved: no value."), text);
        let text = after(&format!("SOME {word} IN EMPLOYEE(1=1)"));
        group.refused(50, format!("{word} is reserved: no symbol of SOME."), text);
    }
    for word in [
        "TRUE",
        "FALSE",
        "ALL",
        "AND",
        "OR",
        "DELETE",
        "VV",
        "INN",
        "SOMETHING",
        "RANG",
    ] {
        let text =
            format!("RANGE {word}({word}) RETRIEVE {word}:{word}.{word}:{word}.{word}={word}");
        let list = [
            relation(7, word),
            attribute_name(7, 8, word),
            value_name(9, word),
        ];
        let condition = compare(EQUAL, &attribute(0, 8), &constant(9));
        let all = [range(0, 7), attribute(0, 8), condition];
        let about = format!("{word} is an ordinary word, here a name of all sorts.");
        group.records(about, text, &all);
        group.names(list.concat());
    }
    none(group, "TRUE is no condition.", "TRUE");
    none(group, "AND joins nothing.", "1=1 AND 2=2");
    none(group, "OR joins nothing.", "1=1 OR 2=2");
}

pub fn frame(group: &mut Group) {
    for (about, text) in [
        ("No RANGE.", "RETRIEVE W:X.NAME"),
        ("No RETRIEVE.", "RANGE EMPLOYEE(X)"),
        (
            "RANGE after RETRIEVE.",
            "RETRIEVE W:X.NAME RANGE EMPLOYEE(X)",
        ),
        (
            "Two RANGEs.",
            "RANGE EMPLOYEE(X) RANGE EMPLOYEE(Y) RETRIEVE W:X.NAME",
        ),
        (
            "Two RETRIEVEs.",
            "RANGE EMPLOYEE(X) RETRIEVE W:X.NAME RETRIEVE W:X.DEPT",
        ),
        (
            "A mark between RANGE and RETRIEVE.",
            "RANGE EMPLOYEE(X):RETRIEVE W:X.NAME",
        ),
        (
            "A comma between ranges.",
            "RANGE EMPLOYEE(X),DEPARTMENT(Y) RETRIEVE W:X.NAME",
        ),
        ("No symbol.", "RANGE EMPLOYEE() RETRIEVE W:COUNT(X.NAME)"),
        ("A comma too many.", "RANGE EMPLOYEE(X,) RETRIEVE W:X.NAME"),
        ("A comma too few.", "RANGE EMPLOYEE(X Y) RETRIEVE W:X.NAME"),
        ("No parentheses.", "RANGE EMPLOYEE X RETRIEVE W:X.NAME"),
        ("No relation.", "RANGE (X) RETRIEVE W:X.NAME"),
        (
            "Parentheses round a range.",
            "RANGE (EMPLOYEE(X)) RETRIEVE W:X.NAME",
        ),
        ("No workspace name.", "RANGE EMPLOYEE(X) RETRIEVE :X.NAME"),
        (
            "No colon after the workspace.",
            "RANGE EMPLOYEE(X) RETRIEVE W X.NAME",
        ),
        (
            "Neither: the text of a permit.",
            "RANGE EMPLOYEE(X) RETRIEVE X.NAME",
        ),
        ("No target.", "RANGE EMPLOYEE(X) RETRIEVE W:"),
        (
            "No target, and a condition.",
            "RANGE EMPLOYEE(X) RETRIEVE W::1=1",
        ),
        (
            "A target's comma too many.",
            "RANGE EMPLOYEE(X) RETRIEVE W:X.NAME,",
        ),
        (
            "A target's comma too few.",
            "RANGE EMPLOYEE(X) RETRIEVE W:X.NAME X.DEPT",
        ),
        ("A number is no target.", "RANGE EMPLOYEE(X) RETRIEVE W:5"),
        ("A value is no target.", "RANGE EMPLOYEE(X) RETRIEVE W:TOY"),
        (
            "Parentheses round a target.",
            "RANGE EMPLOYEE(X) RETRIEVE W:(X.NAME)",
        ),
        (
            "A condition is no target.",
            "RANGE EMPLOYEE(X) RETRIEVE W:X.NAME=1",
        ),
        (
            "Two attributes of one symbol.",
            "RANGE EMPLOYEE(X) RETRIEVE W:X.NAME.DEPT",
        ),
        (
            "An aggregate of a symbol.",
            "RANGE EMPLOYEE(X) RETRIEVE W:COUNT(X)",
        ),
        (
            "An aggregate of a number.",
            "RANGE EMPLOYEE(X) RETRIEVE W:SUM(5)",
        ),
        (
            "An aggregate of a condition.",
            "RANGE EMPLOYEE(X) RETRIEVE W:COUNT(X.NAME>EVANS)",
        ),
        (
            "An aggregate without parentheses.",
            "RANGE EMPLOYEE(X) RETRIEVE W:COUNT X.NAME",
        ),
        (
            "Parentheses twice.",
            "RANGE EMPLOYEE(X) RETRIEVE W:COUNT((X.NAME))",
        ),
        (
            "An aggregate of an aggregate.",
            "RANGE EMPLOYEE(X) RETRIEVE W:MAX(MIN(X.NAME))",
        ),
        (
            "Two attributes in an aggregate.",
            "RANGE EMPLOYEE(X) RETRIEVE W:SUM(X.NAME,X.DEPT)",
        ),
        ("Another command.", "RANGE EMPLOYEE(X) DELETE X:X.NAME=1"),
        (
            "Something after the end.",
            "RANGE EMPLOYEE(X) RETRIEVE W:X.NAME:1=1 X",
        ),
        (
            "A point at the end.",
            "RANGE EMPLOYEE(X) RETRIEVE W:X.NAME.",
        ),
    ] {
        group.refused(50, about, text);
    }
    let many = ["X.NAME"; 100].join(",");
    let text = format!("RANGE EMPLOYEE(X) RETRIEVE W:{many}");
    let targets = attribute(0, 0).repeat(100);
    let records = [range(0, 0), targets, yes()];
    group.records("A hundred targets: counted elsewhere.", text, &records);
    for name in ["EMPLOYEE", "X", "NAME", "TOY", "ABCDEFGHIJKLMNOPQRSTUVWXYZ"] {
        let text = format!("RANGE EMPLOYEE(X) RETRIEVE {name}:X.DEPT");
        let about = format!("{name} as a workspace: it is read and dropped.");
        group.records(about, text, &[range(0, 0), attribute(0, 1), yes()]);
    }
    for (number, word) in (1..).zip(FUNCTION_WORDS) {
        let text = format!("RANGE EMPLOYEE(X) RETRIEVE W:{word}(X.SALARY)");
        let records = [aggregate(number, 0, 0, 2, &yes()), yes()];
        group.records(format!("{word} as a target."), text, &records);
    }
}

pub fn marks(group: &mut Group) {
    group.refused(50, "A colon with nothing after it.", START);
    group.refused(50, "A colon and blanks.", after(" \n"));
    none(group, "A second colon.", "1=1:");
    none(group, "A third part.", "1=1:1=1");
    let text = "RANGE EMPLOYEE(X) RETRIEVE W:X.NAME;1=1";
    group.refused(50, "The mark of RETRIEVE is a colon.", text);
    let text = "RANGE EMPLOYEE(X) RETRIEVE W:COUNT(X.NAME;)";
    group.refused(50, "A semicolon with nothing after it.", text);
    let text = "RANGE EMPLOYEE(X) RETRIEVE W:COUNT(X.NAME:1=1)";
    group.refused(50, "The mark of an aggregate is a semicolon.", text);
    let text = "RANGE EMPLOYEE(X) RETRIEVE W:AVE(X.SALARY;1=1;2=2)";
    group.refused(50, "A second semicolon.", text);
    let text = "RANGE EMPLOYEE(X) RETRIEVE W:AVE(X.SALARY;1=1)";
    let records = [aggregate(AVE, 0, 0, 2, &equal(1, 1)), yes()];
    group.records("A qualified aggregate.", text, &records);
    let text = "RANGE EMPLOYEE(X) RETRIEVE W:AVE(X.SALARY):2=2";
    let records = [aggregate(AVE, 0, 0, 2, &yes()), equal(2, 2)];
    group.records(
        "An aggregate without, a text with qualification.",
        text,
        &records,
    );
    for (about, condition) in [
        ("SOME over nothing.", "SOME Z IN EMPLOYEE()"),
        ("SOME without parentheses.", "SOME Z IN EMPLOYEE 1=1"),
        ("SOME without IN.", "SOME Z EMPLOYEE(1=1)"),
        ("SOME without symbol.", "SOME IN EMPLOYEE(1=1)"),
        ("SOME with two symbols.", "SOME Y,Z IN EMPLOYEE(1=1)"),
        ("SOME with a colon.", "SOME Z IN EMPLOYEE:1=1"),
        ("SOME compared.", "SOME Z IN EMPLOYEE(1=1)=1"),
        ("Empty parentheses.", "()"),
        ("A term is no condition.", "X.NAME"),
        ("A value is no condition.", "TOY"),
        ("Parentheses round a term.", "(X.NAME)=1"),
        ("Parentheses round the second term.", "X.NAME=(1)"),
        ("Two signs in a comparison.", "1=2=3"),
        ("NOT over nothing.", "NOT"),
        ("NOT over a term.", "NOT X.NAME"),
        ("An open end.", "1=1^"),
        ("An open beginning.", "^1=1"),
        ("Two operators.", "1=1^V 2=2"),
        ("No operator.", "1=1 2=2"),
        ("A parenthesis not closed.", "((1=1)"),
        ("A parenthesis not opened.", "(1=1))"),
    ] {
        none(group, about, condition);
    }
}

pub fn grouping(group: &mut Group) {
    let [a, b, c, d] = [1, 2, 3, 4].map(|number| equal(number, 0));
    let (ab, bc) = (and(&a, &b), and(&b, &c));
    for (about, condition, means_this) in [
        ("^ groups to the left.", "1=0^2=0^3=0", and(&ab, &c)),
        (
            "V groups to the left.",
            "1=0V 2=0V 3=0",
            or(&or(&a, &b), &c),
        ),
        ("^ binds before V on its left.", "1=0^2=0V 3=0", or(&ab, &c)),
        (
            "^ binds before V on its right.",
            "1=0V 2=0^3=0",
            or(&a, &bc),
        ),
        (
            "Two ^ round a V.",
            "1=0^2=0V 3=0^4=0",
            or(&ab, &and(&c, &d)),
        ),
        (
            "Two V round a ^.",
            "1=0V 2=0^3=0V 4=0",
            or(&or(&a, &bc), &d),
        ),
        (
            "Parentheses round V.",
            "(1=0V 2=0)^3=0",
            and(&or(&a, &b), &c),
        ),
        (
            "Parentheses on the right of ^.",
            "1=0^(2=0^3=0)",
            and(&a, &bc),
        ),
        (
            "Parentheses on the right of V.",
            "1=0V(2=0V 3=0)",
            or(&a, &or(&b, &c)),
        ),
        (
            "Parentheses that change nothing.",
            "((1=0)^(2=0))V((3=0))",
            or(&ab, &c),
        ),
        (
            "NOT binds closest, before ^.",
            "NOT 1=0^2=0",
            and(&not(&a), &b),
        ),
        (
            "NOT binds closest, before V.",
            "NOT 1=0V 2=0",
            or(&not(&a), &b),
        ),
        ("NOT over parentheses.", "NOT(1=0^2=0)", not(&ab)),
        ("NOT NOT.", "NOT NOT 1=0", not(&not(&a))),
        (
            "NOT after ^.",
            "1=0^NOT 2=0^3=0",
            and(&and(&a, &not(&b)), &c),
        ),
        (
            "NOT over SOME.",
            "NOT SOME Z IN EMPLOYEE(1=0)^2=0",
            and(&not(&some(1, 0, &a)), &b),
        ),
        (
            "What SOME reaches ends at its parenthesis.",
            "SOME Z IN EMPLOYEE(1=0)V 2=0",
            or(&some(1, 0, &a), &b),
        ),
        (
            "V inside SOME.",
            "SOME Z IN EMPLOYEE(1=0V 2=0)^3=0",
            and(&some(1, 0, &or(&a, &b)), &c),
        ),
    ] {
        means(group, about, condition, &[&means_this]);
    }
    let text = "RANGE EMPLOYEE(X) RETRIEVE W:SUM(X.NAME;1=0V 2=0^3=0)";
    let records = [aggregate(SUM, 0, 0, 0, &or(&a, &bc)), yes()];
    group.records("The same inside an aggregate.", text, &records);
}

const SHORT: &str = "RANGE R(X)RETRIEVE W:X.A";

pub fn depth(group: &mut Group) {
    group.names = [relation(0, "R"), attribute_name(0, 0, "A")].concat();
    let deep =
        |open: usize, close: usize| format!("{SHORT}:{}1=1{}", "(".repeat(open), ")".repeat(close));
    let read = [&FRONT[..], &equal(1, 1)];
    group.records("986 parentheses deep, 2,000 bytes.", deep(986, 986), &read);
    group.refused(50, "987 parentheses deep, 2,002 bytes.", deep(987, 987));
    group.refused(50, "986 opened, 985 closed.", deep(986, 985));
    group.refused(50, "985 opened, 986 closed.", deep(985, 986));
    group.refused(50, "2,000 opened.", "(".repeat(2_000));
    group.refused(
        50,
        "1,975 opened after a good beginning.",
        format!("{SHORT}:{}", "(".repeat(1_975)),
    );
    let text = format!("{SHORT}:{}1=1", "NOT ".repeat(493));
    group.records("493 NOTs.", text, &[&FRONT[..], &[18; 493], &equal(1, 1)]);
    let text = format!("{SHORT}:{}1=1{}", "NOT(".repeat(394), ")".repeat(394));
    group.records(
        "394 NOTs with parentheses.",
        text,
        &[&FRONT[..], &[18; 394], &equal(1, 1)],
    );
    let text = format!("{SHORT}:{}1=1{}", "MAX(X.A;".repeat(100), ")=1".repeat(100));
    let mut inner = equal(1, 1);
    for variable in (1..=100).rev() {
        inner = compare(EQUAL, &aggregate(MAX, variable, 0, 0, &inner), &constant(1));
    }
    group.records(
        "A hundred aggregates, one in the other.",
        text,
        &[&FRONT[..], &inner],
    );
    let padded = |length: usize| format!("{SHORT}{}", " ".repeat(length - SHORT.len()));
    group.records(
        "2,000 bytes with blanks.",
        padded(2_000),
        &[&FRONT[..], &[16]],
    );
    group.refused(50, "2,001 bytes with blanks.", padded(2_001));
}

pub fn examples(group: &mut Group) {
    let name = |number| compare(EQUAL, &attribute(0, 0), &constant(number));
    let text = "RANGE EMPLOYEE(X)\nRETRIEVE W:X.SALARY:X.NAME = JONES";
    let jones = [range(0, 0), attribute(0, 2), name(2)];
    group.records("Example 2.1 of 1974.", text, &jones);
    let text = "RANGE EMPLOYEE(X):DEPARTMENT(Y)\nRETRIEVE W:X.NAME:(X.DEPT=Y.DEPT)^(Y.FLOOR=1)";
    let same = compare(EQUAL, &attribute(0, 1), &attribute(1, 0));
    let first = compare(EQUAL, &attribute(1, 1), &constant(1));
    let records = [
        range(0, 0),
        range(1, 1),
        attribute(0, 0),
        and(&same, &first),
    ];
    group.records(
        "Example 2.2 of 1974, with FLOOR for FLOOR#.",
        text,
        &records,
    );
    let text = "RANGE EMPLOYEE(X,Y)\nRETRIEVE W:X.NAME:(X.MANAGER=Y.NAME)^(X.SALARY\n>Y.SALARY)";
    let manager = compare(EQUAL, &attribute(0, 3), &attribute(1, 0));
    let more = compare(GREATER, &attribute(0, 2), &attribute(1, 2));
    let records = [
        range(0, 0),
        range(1, 0),
        attribute(0, 0),
        and(&manager, &more),
    ];
    group.records("Example 2.3 of 1974.", text, &records);
    let text = "RANGE EMPLOYEE(X)\nRETRIEVE W:X.NAME:X.SALARY>AVE(X.SALARY)";
    let average = aggregate(AVE, 1, 0, 2, &yes());
    let more = compare(GREATER, &attribute(0, 2), &average);
    group.records("Example 2.4 of 1974.", text, &[&FRONT[..], &more]);
    let text = "RANGE EMPLOYEE(X)\nRETRIEVE W:X.EMP:X.SALARY<AVE(X.SALARY;X.DEPT\n= TOY)";
    group.refused(
        51,
        "Example 2.5 of 1974: EMPLOYEE has no attribute EMP.",
        text,
    );
    let text = "RANGE EMPLOYEE(X)\nRETRIEVE W:X.NAME:X.SALARY<AVE(X.SALARY;X.DEPT\n= TOY)";
    let toy = compare(EQUAL, &attribute(1, 1), &constant(1));
    let less = compare(LESS, &attribute(0, 2), &aggregate(AVE, 1, 0, 2, &toy));
    group.records("2.5 with NAME.", text, &[&FRONT[..], &less]);
    let text = "RANGE EMPLOYEE(X)\nRETRIEVE W1:X.NAME,X.DEPT,X.SALARY,X.MANAGER:\nX.NAME=SMITH";
    group.refused(50, "Example 3.1 of 1974: W1 is no name.", text);
    let text = "RANGE EMPLOYEE(X)\nRETRIEVE W:X.SALARY:(X.NAME=JONES)";
    group.records("Example 3.2 of 1974.", text, &jones);
    let text = "RANGE EMPLOYEE(X)\nRETRIEVE W:X.SALARY:(X.NAME=JONES)^(X.NAME=SMITH)";
    let both = and(&name(2), &name(1));
    group.records(
        "Example 3.2 of 1974, modified.",
        text,
        &[range(0, 0), attribute(0, 2), both],
    );
    let text = "RANGE EMPLOYEE(X)\nRETRIEVE W: X.SALARY";
    group.records(
        "Example 3.4 of 1974.",
        text,
        &[range(0, 0), attribute(0, 2), yes()],
    );
    let text = "RANGE EMPLOYEE(X)\nRETRIEVE W: X.MANAGER:X.NAME=ADAMS";
    group.records(
        "Example 3.5 of 1974.",
        text,
        &[range(0, 0), attribute(0, 3), name(3)],
    );
    let text = "RANGE EMPLOYEE(X,Y)\nRETRIEVE W:X.MANAGER:X.NAME=ADAMS^(X.NAME#BAKERV\n\
                (Y.NAME=X.MANAGER^X.SALARY>Y.SALARY))";
    group.refused(
        50,
        "Example 3.5 of 1974, modified, as printed: BAKERV is one word.",
        text,
    );
    let text = text.replace("BAKERV", "BAKER V");
    let not_baker = compare(UNEQUAL, &attribute(0, 0), &constant(5));
    let manager = compare(EQUAL, &attribute(1, 0), &attribute(0, 3));
    let more = compare(GREATER, &attribute(0, 2), &attribute(1, 2));
    let either = or(&not_baker, &and(&manager, &more));
    let records = [
        range(0, 0),
        range(1, 0),
        attribute(0, 3),
        and(&name(3), &either),
    ];
    group.records(
        "Example 3.5 of 1974, modified, with its blank.",
        text,
        &records,
    );
    let text = "RANGE EMPLOYEE(X,Y)\nRETRIEVE W:X.NAME:(X.MANAGER=Y.NAME)^(Y.SALARY\n<X.SALARY)";
    let manager = compare(EQUAL, &attribute(0, 3), &attribute(1, 0));
    let less = compare(LESS, &attribute(1, 2), &attribute(0, 2));
    let records = [
        range(0, 0),
        range(1, 0),
        attribute(0, 0),
        and(&manager, &less),
    ];
    group.records("Example 3.6 of 1974.", text, &records);
    let text = "RANGE EMPLOYEE(X)\nRETRIEVE W:X.NAME,X.SALARY";
    let records = [range(0, 0), attribute(0, 0), attribute(0, 2), yes()];
    group.records("Example 3.7 of 1974.", text, &records);
    let text = "RANGE EMPLOYEE(X)\nRETRIEVE X.SALARY:X.DEPARTMENT=TOY";
    group.refused(50, "Example 4.1 of 1974: a permit's text.", text);
    let text = "RANGE EMPLOYEE(X)\nRETRIEVE W: AVE(X.SALARY)";
    group.records(
        "Example 4.2 of 1974: no record for X.",
        text,
        &[aggregate(AVE, 0, 0, 2, &yes()), yes()],
    );
    let text = "RANGE EMPLOYEE(X)\nRETRIEVE W:AVE(X.SALARY;X.DEPARTMENT=TOY)";
    group.refused(
        51,
        "Example 4.2 of 1974, modified: EMPLOYEE has no attribute DEPARTMENT.",
        text,
    );
    let text = "RANGE EMPLOYEE(X)\nRETRIEVE W:AVE(X.SALARY;X.NAME=SMITH)";
    let records = [aggregate(AVE, 0, 0, 2, &name(1)), yes()];
    group.records("Example 4.3 of 1974.", text, &records);
    let text = "RANGE EMPLOYEE(X)\nRETRIEVE W:AVE(X.SALARY)\nRETRIEVE W:AVE(X.SALARY;X.NAME>EVANS)";
    group.refused(50, "Example 4.5 of 1974: two RETRIEVEs.", text);
}
