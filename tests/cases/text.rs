// QUEL as text: the worked texts, the examples of document 000, and the points where readers differ. Included by the tests of the judge
// and of the library, with `read_text`, `ask_text` and `evaluate` of their own in scope.

include!("employees.rs");

const FILLED: u8 = 99;

/// A record of the name list: kind and numbers, then the name filled up with spaces.
fn listed(front: &[u8], name: &str) -> Vec<u8> {
    [front, format!("{name:12}").as_bytes()].concat()
}

fn relation(number: u8, name: &str) -> Vec<u8> {
    listed(&[80, number], name)
}

fn attribute(relation: u8, number: u8, name: &str) -> Vec<u8> {
    listed(&[81, relation, number], name)
}

fn value(value: i32, name: &str) -> Vec<u8> {
    listed(&[&[82], &value.to_le_bytes()[..]].concat(), name)
}

/// The names of document 000's relations, with FLOOR and EMP for FLOOR# and #EMP.
fn shop_names() -> Vec<u8> {
    let mut names = [relation(0, "EMPLOYEE"), relation(1, "DEPARTMENT")].concat();
    for (number, name) in ["NAME", "DEPT", "SALARY", "MANAGER"].iter().enumerate() {
        names.extend(attribute(0, number as u8, name));
    }
    for (number, name) in ["DEPT", "FLOOR", "EMP", "SALES"].iter().enumerate() {
        names.extend(attribute(1, number as u8, name));
    }
    let people = [
        "NONE", "SMITH", "JONES", "ADAMS", "EVANS", "BAKER", "HARDING", "TODD", "JOHNSON",
    ];
    for (code, name) in people.iter().enumerate() {
        names.extend(value(code as i32, name));
    }
    let departments = ["TOY", "CANDY", "TIRE", "ADMIN", "COMPLAINTS"];
    for (code, name) in departments.iter().enumerate() {
        names.extend(value(code as i32 + 1, name));
    }
    names
}

/// The records, read with room to spare: past them nothing is touched.
fn read_with(text: &[u8], names: &[u8]) -> Result<Vec<u8>, u64> {
    let mut buffer = vec![FILLED; 7_000];
    let (number, length) = read_text(text, names, &mut buffer);
    if number != 0 {
        assert_eq!(length, 0);
    }
    let tail = &buffer[length as usize..];
    assert!(tail.iter().all(|byte| *byte == FILLED));
    buffer.truncate(length as usize);
    match number {
        0 => Ok(buffer),
        number => Err(number),
    }
}

fn read(text: &str) -> Result<Vec<u8>, u64> {
    read_with(text.as_bytes(), &shop_names())
}

/// The text after `RANGE EMPLOYEE(X) RETRIEVE W:X.NAME:`.
fn condition(text: &str) -> Result<Vec<u8>, u64> {
    let read = read(&format!("RANGE EMPLOYEE(X) RETRIEVE W:X.NAME:{text}"))?;
    assert_eq!(read[..6], [1, 0, 0, 33, 0, 0]);
    Ok(read[6..].to_vec())
}

#[test]
fn worked_texts() {
    assert_eq!(
        read("RANGE EMPLOYEE(X) RETRIEVE W:X.SALARY:(X.NAME=JONES)"),
        Ok(vec![1, 0, 0, 33, 0, 2, 21, 1, 33, 0, 0, 32, 2, 0, 0, 0])
    );
    assert_eq!(
        read("RANGE EMPLOYEE(X) RETRIEVE W: AVE(X.SALARY)"),
        Ok(vec![34, 3, 0, 0, 2, 16, 16])
    );
    let text = "RANGE EMPLOYEE(Y,X) RETRIEVE W:X.NAME:X.SALARY<-5V NOT X.DEPT=TOY^SOME Z IN \
                DEPARTMENT(Z.DEPT=X.DEPT)V 1=1";
    let records = vec![
        1, 0, 0, 33, 0, 0, 20, 20, 21, 3, 33, 0, 2, 32, 251, 255, 255, 255, 19, 18, 21, 1, 33, 0,
        1, 32, 1, 0, 0, 0, 22, 1, 1, 21, 1, 33, 1, 0, 33, 0, 1, 21, 1, 32, 1, 0, 0, 0, 32, 1, 0, 0,
        0,
    ];
    assert_eq!(records.len(), 53);
    assert_eq!(read(text), Ok(records));
    assert_eq!(
        read(
            "RANGE EMPLOYEE(X):DEPARTMENT(Y)RETRIEVE W:MAX(X.SALARY;X.SALARY<MAX(X.SALARY)),\
             COUNT(Y.DEPT;Y.SALES>AVE(X.SALARY))"
        ),
        Ok(vec![
            34, 4, 0, 0, 2, 21, 3, 33, 0, 2, 34, 4, 1, 0, 2, 16, 34, 1, 2, 1, 0, 21, 5, 33, 2, 3,
            34, 3, 3, 0, 2, 16, 16
        ])
    );
    let start = "RANGE EMPLOYEE(X) RETRIEVE W:X.NAME:";
    assert_eq!(read(start), Err(50));
    assert_eq!(condition("X.SALARY=2147483648"), Err(50));
    assert_eq!(read("RANGE EMPLOYEE(X) RETRIEVE W1:X.NAME"), Err(50));
    assert_eq!(condition("X.NAME#BAKERV"), Err(51));
    let two = "RANGE EMPLOYEE(X,Y) RETRIEVE W:AVE(X.SALARY;Y.SALARY=1)";
    assert_eq!(read(two), Err(51));
    let twice = "SOME Z IN EMPLOYEE(Z.NAME=1)^SOME Z IN EMPLOYEE(Z.NAME=1)";
    assert_eq!(condition(twice), Err(51));
}

/// The examples of document 000 as they are printed, and the records that they mean.
#[test]
fn examples_of_1974() {
    let texts: [(&str, Result<Vec<u8>, u64>); 21] = [
        (
            "RANGE EMPLOYEE(X)\nRETRIEVE W:X.SALARY:X.NAME = JONES\n",
            Ok(vec![1, 0, 0, 33, 0, 2, 21, 1, 33, 0, 0, 32, 2, 0, 0, 0]),
        ),
        // 2.2: `FLOOR#` is no name.
        (
            "RANGE EMPLOYEE(X):DEPARTMENT(Y)\nRETRIEVE W:X.NAME:(X.DEPT=Y.DEPT)^(Y.FLOOR#=1)",
            Err(50),
        ),
        (
            "RANGE EMPLOYEE(X):DEPARTMENT(Y)\nRETRIEVE W:X.NAME:(X.DEPT=Y.DEPT)^(Y.FLOOR=1)",
            Ok(vec![
                1, 0, 0, 1, 1, 1, 33, 0, 0, 19, 21, 1, 33, 0, 1, 33, 1, 0, 21, 1, 33, 1, 1, 32, 1,
                0, 0, 0,
            ]),
        ),
        // 2.3
        (
            "RANGE EMPLOYEE(X,Y)\r\nRETRIEVE W:X.NAME:(X.MANAGER=Y.NAME)^(X.SALARY\r\n>Y.SALARY)",
            Ok(vec![
                1, 0, 0, 1, 1, 0, 33, 0, 0, 19, 21, 1, 33, 0, 3, 33, 1, 0, 21, 5, 33, 0, 2, 33, 1,
                2,
            ]),
        ),
        // 2.4
        (
            "RANGE EMPLOYEE(X)\nRETRIEVE W:X.NAME:X.SALARY>AVE(X.SALARY)",
            Ok(vec![1, 0, 0, 33, 0, 0, 21, 5, 33, 0, 2, 34, 3, 1, 0, 2, 16]),
        ),
        // 2.5: EMPLOYEE has no EMP.
        (
            "RANGE EMPLOYEE(X)\nRETRIEVE W:X.EMP:X.SALARY<AVE(X.SALARY;X.DEPT\n= TOY)",
            Err(51),
        ),
        (
            "RANGE EMPLOYEE(X)\nRETRIEVE W:X.NAME:X.SALARY<AVE(X.SALARY;X.DEPT\n= TOY)",
            Ok(vec![
                1, 0, 0, 33, 0, 0, 21, 3, 33, 0, 2, 34, 3, 1, 0, 2, 21, 1, 33, 1, 1, 32, 1, 0, 0, 0,
            ]),
        ),
        // 3.1: `W1` is no name.
        (
            "RANGE EMPLOYEE(X)\nRETRIEVE W1:X.NAME,X.DEPT,X.SALARY,X.MANAGER:\nX.NAME=SMITH",
            Err(50),
        ),
        (
            "RANGE EMPLOYEE(X)\nRETRIEVE W:X.NAME,X.DEPT,X.SALARY,X.MANAGER:\nX.NAME=SMITH",
            Ok(vec![
                1, 0, 0, 33, 0, 0, 33, 0, 1, 33, 0, 2, 33, 0, 3, 21, 1, 33, 0, 0, 32, 1, 0, 0, 0,
            ]),
        ),
        // 3.2 and what it becomes
        (
            "RANGE EMPLOYEE(X)\nRETRIEVE W:X.SALARY:(X.NAME=JONES)",
            Ok(vec![1, 0, 0, 33, 0, 2, 21, 1, 33, 0, 0, 32, 2, 0, 0, 0]),
        ),
        (
            "RANGE EMPLOYEE(X)\nRETRIEVE W:X.SALARY:(X.NAME=JONES)^(X.NAME=SMITH)",
            Ok(vec![
                1, 0, 0, 33, 0, 2, 19, 21, 1, 33, 0, 0, 32, 2, 0, 0, 0, 21, 1, 33, 0, 0, 32, 1, 0,
                0, 0,
            ]),
        ),
        // 3.4
        (
            "RANGE EMPLOYEE(X)\nRETRIEVE W: X.SALARY",
            Ok(vec![1, 0, 0, 33, 0, 2, 16]),
        ),
        // 3.5, what it becomes as printed, and with the blank that it lacks
        (
            "RANGE EMPLOYEE(X)\nRETRIEVE W: X.MANAGER:X.NAME=ADAMS",
            Ok(vec![1, 0, 0, 33, 0, 3, 21, 1, 33, 0, 0, 32, 3, 0, 0, 0]),
        ),
        (
            "RANGE EMPLOYEE(X,Y)\nRETRIEVE W:X.MANAGER:X.NAME=ADAMS^(X.NAME#BAKERV\n\
             (Y.NAME=X.MANAGER^X.SALARY>Y.SALARY))",
            Err(50),
        ),
        (
            "RANGE EMPLOYEE(X,Y)\nRETRIEVE W:X.MANAGER:X.NAME=ADAMS^(X.NAME#BAKER V\n\
             (Y.NAME=X.MANAGER^X.SALARY>Y.SALARY))",
            Ok(vec![
                1, 0, 0, 1, 1, 0, 33, 0, 3, 19, 21, 1, 33, 0, 0, 32, 3, 0, 0, 0, 20, 21, 2, 33, 0,
                0, 32, 5, 0, 0, 0, 19, 21, 1, 33, 1, 0, 33, 0, 3, 21, 5, 33, 0, 2, 33, 1, 2,
            ]),
        ),
        // 3.6 and what it becomes
        (
            "RANGE EMPLOYEE(X,Y)\nRETRIEVE W:X.NAME:(X.MANAGER=Y.NAME)^(Y.SALARY\n<X.SALARY)",
            Ok(vec![
                1, 0, 0, 1, 1, 0, 33, 0, 0, 19, 21, 1, 33, 0, 3, 33, 1, 0, 21, 3, 33, 1, 2, 33, 0,
                2,
            ]),
        ),
        (
            "RANGE EMPLOYEE(X,Y,Z,U)\nRETRIEVE W:X.NAME:(X.MANAGER=Y.NAME)^(Y.SALARY\n\
             <X.SALARY)^(Z.NAME=Y.MANAGER)^(Y.SALARY\n>Z.SALARY)^(U.NAME=X.MANAGER)^(X.SALARY\n\
             >U.SALARY)",
            Ok(vec![
                1, 0, 0, 1, 1, 0, 1, 2, 0, 1, 3, 0, 33, 0, 0, 19, 19, 19, 19, 19, 21, 1, 33, 0, 3,
                33, 1, 0, 21, 3, 33, 1, 2, 33, 0, 2, 21, 1, 33, 2, 0, 33, 1, 3, 21, 5, 33, 1, 2,
                33, 2, 2, 21, 1, 33, 3, 0, 33, 0, 3, 21, 5, 33, 0, 2, 33, 3, 2,
            ]),
        ),
        // 3.7
        (
            "RANGE EMPLOYEE(X)\nRETRIEVE W:X.NAME,X.SALARY",
            Ok(vec![1, 0, 0, 33, 0, 0, 33, 0, 2, 16]),
        ),
        // 4.1: a permit's text has no workspace name
        (
            "RANGE EMPLOYEE(X)\nRETRIEVE X.SALARY:X.DEPARTMENT=TOY",
            Err(50),
        ),
        // 4.2, and what it becomes: EMPLOYEE has no DEPARTMENT
        (
            "RANGE EMPLOYEE(X)\nRETRIEVE W: AVE(X.SALARY)",
            Ok(vec![34, 3, 0, 0, 2, 16, 16]),
        ),
        (
            "RANGE EMPLOYEE(X)\nRETRIEVE W:AVE(X.SALARY;X.DEPARTMENT=TOY)",
            Err(51),
        ),
    ];
    for (text, records) in texts {
        assert_eq!(read(text), records, "{text}");
    }
    assert_eq!(
        read("RANGE EMPLOYEE(X)\nRETRIEVE W:AVE(X.SALARY;X.NAME=SMITH)"),
        Ok(vec![34, 3, 0, 0, 2, 21, 1, 33, 0, 0, 32, 1, 0, 0, 0, 16])
    );
    for outside in [
        "RANGE EMPLOYEE(X)\nRETRIEVE W:COUNT(X.NAME>EVANS)",
        "RANGE EMPLOYEE(X)\nRETRIEVE W:AVE(X.SALARY)\nRETRIEVE W:AVE(X.SALARY;X.NAME>EVANS)",
        "RANGE EMPLOYEE(X)\nRETRIEVE W:AVE(X.SALARY;X.NAME>ADAMS;X.DEPT\n=TOY)",
        "RANGE EMPLOYEE(X)\nRETRIEVE ALL",
    ] {
        assert_eq!(read(outside), Err(50), "{outside}");
    }
}

/// Both buffers beside the records are long enough; the rewritten query is not shown.
fn asked_by_text(text: &str, permits: &[u8]) -> (Outcome, Vec<i64>) {
    let (mut records, mut rewritten) = (vec![FILLED; 300], vec![FILLED; 17_216]);
    let mut answer = vec![-77; 64];
    let outcome = ask_text(
        &CATALOGUE,
        &values(),
        permits,
        text.as_bytes(),
        &shop_names(),
        &mut records,
        &mut rewritten,
        &mut answer,
    );
    let read = read(text).unwrap_or_default();
    assert_eq!(records[..read.len()], read);
    assert!(records[read.len()..].iter().all(|byte| *byte == FILLED));
    let cells = (outcome.rows * outcome.columns) as usize;
    assert!(answer[cells..].iter().all(|cell| *cell == -77));
    let written = outcome.length as usize;
    assert!(rewritten[written..].iter().all(|byte| *byte == FILLED));
    answer.truncate(cells);
    (outcome, answer)
}

fn cells_by_text(text: &str, permits: &[u8]) -> Vec<i64> {
    let (outcome, cells) = asked_by_text(text, permits);
    assert_eq!(outcome.number, 0, "{text}");
    cells
}

fn plain_cells(text: &str) -> Vec<i64> {
    let mut answer = [0; 64];
    let outcome = evaluate(&CATALOGUE, &values(), &read(text).unwrap(), &mut answer);
    assert_eq!(outcome.number, 0, "{text}");
    answer[..(outcome.rows * outcome.columns) as usize].to_vec()
}

#[test]
fn answers_to_texts() {
    let jones = "RANGE EMPLOYEE(X) RETRIEVE W:X.SALARY:X.NAME=JONES";
    assert_eq!(plain_cells(jones), [15_000]);
    let first_floor =
        "RANGE EMPLOYEE(X):DEPARTMENT(Y) RETRIEVE W:X.NAME:(X.DEPT=Y.DEPT)^(Y.FLOOR=1)";
    assert_eq!(plain_cells(first_floor), [3, 4]);
    let above_average = "RANGE EMPLOYEE(X) RETRIEVE W:X.NAME:X.SALARY>AVE(X.SALARY)";
    assert_eq!(plain_cells(above_average), [5, 6]);
    let above_managers =
        "RANGE EMPLOYEE(X,Y) RETRIEVE W:X.NAME:(X.MANAGER=Y.NAME)^(X.SALARY>Y.SALARY)";
    assert_eq!(plain_cells(above_managers), []);

    let smith = [64, 0, 15, 0, 21, 1, 33, 0, 0, 32, 1, 0, 0, 0];
    let (outcome, cells) = asked_by_text(jones, &smith);
    assert_eq!((outcome.number, outcome.length), (0, 27));
    assert_eq!(cells, []);

    let permits = PERMITS_3_3.concat();
    let all = "RANGE EMPLOYEE(X) RETRIEVE W: X.SALARY";
    let six = [10_000, 15_000, 12_000, 14_000, 20_000, 40_000];
    assert_eq!(cells_by_text(all, &permits), six);
    let manager = "RANGE EMPLOYEE(X) RETRIEVE W: X.MANAGER:X.NAME=ADAMS";
    assert_eq!(cells_by_text(manager, &permits), [5]);
    assert_eq!(cells_by_text(above_managers, &permits), []);
    let both = "RANGE EMPLOYEE(X) RETRIEVE W:X.DEPT,X.SALARY";
    assert_eq!(asked_by_text(both, &permits).0.number, 33);
    let departments = "RANGE DEPARTMENT(X) RETRIEVE W:X.DEPT";
    assert_eq!(cells_by_text(departments, &permits), [1, 2, 3]);
    let toy = [64, 0, 4, 0, 21, 1, 33, 0, 1, 32, 1, 0, 0, 0];
    let average = "RANGE EMPLOYEE(X) RETRIEVE W: AVE(X.SALARY)";
    assert_eq!(cells_by_text(average, &toy), [12_500]);

    // As document 000 prints them: the question asked, and what it makes of it put to all rows.
    let asked_and_made = [
        (
            "RANGE EMPLOYEE(X)\nRETRIEVE W:X.SALARY:(X.NAME=JONES)",
            &smith[..],
            "RANGE EMPLOYEE(X)\nRETRIEVE W:X.SALARY:(X.NAME=JONES)^(X.NAME=SMITH)",
        ),
        (
            "RANGE EMPLOYEE(X)\nRETRIEVE W: X.MANAGER:X.NAME=ADAMS",
            &permits,
            "RANGE EMPLOYEE(X,Y)\nRETRIEVE W:X.MANAGER:X.NAME=ADAMS^(X.NAME#BAKER V\n\
             (Y.NAME=X.MANAGER^X.SALARY>Y.SALARY))",
        ),
        (
            "RANGE EMPLOYEE(X,Y)\nRETRIEVE W:X.NAME:(X.MANAGER=Y.NAME)^(Y.SALARY\n<X.SALARY)",
            &permits,
            "RANGE EMPLOYEE(X,Y,Z,U)\nRETRIEVE W:X.NAME:(X.MANAGER=Y.NAME)^(Y.SALARY\n\
             <X.SALARY)^(Z.NAME=Y.MANAGER)^(Y.SALARY\n>Z.SALARY)^(U.NAME=X.MANAGER)^(X.SALARY\n\
             >U.SALARY)",
        ),
        (
            "RANGE EMPLOYEE(X)\nRETRIEVE W:X.NAME,X.SALARY",
            &permits,
            "RANGE EMPLOYEE(X,Y)\nRETRIEVE W:X.NAME,X.SALARY:Y.NAME=X.MANAGER^\nX.SALARY>Y.SALARY",
        ),
        (
            "RANGE EMPLOYEE(X)\nRETRIEVE W: AVE(X.SALARY)",
            &toy,
            "RANGE EMPLOYEE(X)\nRETRIEVE W:AVE(X.SALARY;X.DEPT=TOY)",
        ),
    ];
    for (asked, permits, made) in asked_and_made {
        assert_eq!(cells_by_text(asked, permits), plain_cells(made), "{asked}");
    }
}

/// 50, 51 and 52 come before 10, and leave all three buffers; after them the records stay.
#[test]
fn refusals_by_text() {
    let good = "RANGE EMPLOYEE(X) RETRIEVE W:X.NAME";
    let bad_name = "RANGE EMPLOYEE(X) RETRIEVE W:X.SIZE";
    let bad_form = "RANGE EMPLOYEE(X) RETRIEVE X.NAME";
    for (text, room, number, kept) in [
        (bad_form, 0, 50, true),
        (bad_name, 0, 51, true),
        (good, 6, 52, true),
        (good, 7, 10, false),
    ] {
        let (mut records, mut rewritten) = (vec![FILLED; room], [FILLED; 40]);
        let mut answer = [-77; 8];
        let outcome = ask_text(
            &[],
            &[],
            &[],
            text.as_bytes(),
            &shop_names(),
            &mut records,
            &mut rewritten,
            &mut answer,
        );
        let refused = Outcome {
            number,
            rows: 0,
            columns: 0,
            length: 0,
        };
        assert_eq!(outcome, refused);
        assert_eq!((rewritten, answer), ([FILLED; 40], [-77; 8]));
        if kept {
            assert!(records.iter().all(|byte| *byte == FILLED));
        } else {
            assert_eq!(records, [1, 0, 0, 33, 0, 0, 16]);
        }
    }
}

fn is_true(left: i32, right: i32) -> Vec<u8> {
    let constant = |number: i32| [&[32], &number.to_le_bytes()[..]].concat();
    [vec![21, 1], constant(left), constant(right)].concat()
}

#[test]
fn blanks() {
    let plain = read("RANGE EMPLOYEE(X)RETRIEVE W:X.NAME:X.NAME<=5").unwrap();
    for text in [
        " RANGE EMPLOYEE ( X ) RETRIEVE W : X . NAME : X . NAME <= 5 ",
        "\n\rRANGE\nEMPLOYEE\r(X\n)RETRIEVE\rW\n:X\n.\nNAME:X.NAME\n<=\r5\r\n\n",
        "RANGE EMPLOYEE(X)RETRIEVE W:X.NAME:X.NAME<=5     ",
    ] {
        assert_eq!(read(text), Ok(plain.clone()), "{text}");
    }
    for good in ["1=1V 2=2", "1=1V(2=2)", "(1=1)V(2=2)", "(1=1)V 2=2"] {
        let expected = [vec![20], is_true(1, 1), is_true(2, 2)].concat();
        assert_eq!(condition(good), Ok(expected), "{good}");
    }
    assert_eq!(condition("NOT1=1"), Ok([vec![18], is_true(1, 1)].concat()));
    // The word is VX, or RETRIEVEW and so on.
    for bad in ["1=1VX.NAME=2", "1=1VNOT 1=1", "SOMEZ IN EMPLOYEE(1=1)"] {
        assert_eq!(condition(bad), Err(50), "{bad}");
    }
    for bad in [
        "RANGEEMPLOYEE(X) RETRIEVE W:X.NAME",
        "RANGE EMPLOYEE(X) RETRIEVEW:X.NAME",
        "",
        " ",
    ] {
        assert_eq!(read(bad), Err(50), "{bad}");
    }
    for byte in [
        0, 9, 11, 12, b'_', b'+', b'-', b'a', b'"', b'\'', 127, 128, 160, 255,
    ] {
        for place in [0, 5, 17, 30, 44] {
            let mut text = b"RANGE EMPLOYEE(X)RETRIEVE W:X.NAME:X.NAME<=5".to_vec();
            text.insert(place, byte);
            assert_eq!(
                read_with(&text, &shop_names()),
                Err(50),
                "{byte} at {place}"
            );
        }
    }
}

#[test]
fn numbers() {
    for (number, value) in [
        ("0", 0),
        ("-0", 0),
        ("-000", 0),
        ("007", 7),
        ("-5", -5),
        ("2147483647", i32::MAX),
        ("-2147483648", i32::MIN),
        ("00000000000000000000000000000000000002147483647", i32::MAX),
    ] {
        let expected = is_true(value, 1);
        assert_eq!(condition(&format!("{number}=1")), Ok(expected), "{number}");
    }
    let zeros = "0".repeat(1_900);
    assert_eq!(condition(&format!("{zeros}3=1")), Ok(is_true(3, 1)));
    for bad in [
        "2147483648",
        "-2147483649",
        "4294967297",
        "18446744073709551617",
        "99999999999999999999999999999999999999999",
        "- 5",
        "-",
        "--5",
        "+5",
        "5-3",
        "5 3",
        "1.5",
        "5A",
    ] {
        assert_eq!(condition(&format!("{bad}=1")), Err(50), "{bad}");
        assert_eq!(condition(&format!("1={bad}")), Err(50), "{bad}");
    }
}

#[test]
fn signs() {
    let signs = ["=", "#", "<", "<=", ">", ">="];
    for (number, sign) in signs.iter().enumerate() {
        let mut expected = is_true(1, -1);
        expected[1] = number as u8 + 1;
        assert_eq!(condition(&format!("1{sign}-1")), Ok(expected), "{sign}");
    }
    for bad in [
        "=<", "<>", "=>", "==", "< =", "> =", "<=>", "#=", "!=", "^", "V", "",
    ] {
        assert_eq!(condition(&format!("1{bad}1")), Err(50), "{bad}");
    }
}

#[test]
fn binding_of_operators() {
    let [a, b, c, d] = [1, 2, 3, 4].map(|number| is_true(number, 0));
    let (and, or, not) = (vec![19], vec![20], vec![18]);
    for (text, parts) in [
        ("1=0^2=0^3=0", vec![&and, &and, &a, &b, &c]),
        ("1=0V 2=0V 3=0", vec![&or, &or, &a, &b, &c]),
        ("1=0^2=0V 3=0^4=0", vec![&or, &and, &a, &b, &and, &c, &d]),
        ("1=0V 2=0^3=0V 4=0", vec![&or, &or, &a, &and, &b, &c, &d]),
        ("(1=0V 2=0)^3=0", vec![&and, &or, &a, &b, &c]),
        ("1=0^(2=0^3=0)", vec![&and, &a, &and, &b, &c]),
        ("1=0V(2=0V 3=0)", vec![&or, &a, &or, &b, &c]),
        ("NOT 1=0^2=0", vec![&and, &not, &a, &b]),
        ("NOT 1=0V 2=0", vec![&or, &not, &a, &b]),
        ("NOT(1=0^2=0)", vec![&not, &and, &a, &b]),
        ("NOT NOT 1=0", vec![&not, &not, &a]),
        ("1=0^NOT 2=0^3=0", vec![&and, &and, &a, &not, &b, &c]),
        ("((((1=0))))", vec![&a]),
    ] {
        let expected: Vec<u8> = parts.into_iter().flatten().copied().collect();
        assert_eq!(condition(text), Ok(expected), "{text}");
    }
    for bad in [
        "NOT",
        "1=0^",
        "^1=0",
        "1=0V",
        "V 1=0",
        "1=0^^2=0",
        "1=0 2=0",
        "()",
        "(1=0",
        "1=0)",
        "(1)=0",
        "1=(0)",
        "(X.NAME)=1",
        "1",
        "X.NAME",
        "TOY",
        "1=2=3",
        "NOT(X.NAME)=1",
    ] {
        assert_eq!(condition(bad), Err(50), "{bad}");
    }
}

#[test]
fn reserved_words() {
    for word in [
        "RANGE", "RETRIEVE", "NOT", "SOME", "IN", "V", "COUNT", "SUM", "AVE", "MAX", "MIN",
    ] {
        for text in [
            format!("RANGE EMPLOYEE({word}) RETRIEVE W:X.NAME"),
            format!("RANGE {word}(X) RETRIEVE W:X.NAME"),
            format!("RANGE EMPLOYEE(X) RETRIEVE {word}:X.NAME"),
            format!("RANGE EMPLOYEE(X) RETRIEVE W:{word}.NAME"),
            format!("RANGE EMPLOYEE(X) RETRIEVE W:X.{word}"),
            format!("RANGE EMPLOYEE(X) RETRIEVE W:X.NAME:X.NAME={word}"),
            format!("RANGE EMPLOYEE(X) RETRIEVE W:X.NAME:SOME {word} IN EMPLOYEE(1=1)"),
            format!("RANGE EMPLOYEE(X) RETRIEVE W:X.NAME:SOME Z IN {word}(1=1)"),
        ] {
            assert_eq!(read(&text), Err(50), "{text}");
        }
        // In the list it is 51, whichever kind.
        for record in [relation(7, word), attribute(0, 0, word), value(0, word)] {
            let names = [shop_names(), record].concat();
            let text = b"RANGE EMPLOYEE(X) RETRIEVE W:X.NAME";
            assert_eq!(read_with(text, &names), Err(51), "{word}");
        }
    }
    // Ordinary words, also with a reserved one inside.
    for word in [
        "TRUE", "FALSE", "ALL", "AND", "OR", "VV", "INN", "RANGES", "DELETE", "NO",
    ] {
        let names = [
            shop_names(),
            relation(7, word),
            attribute(7, 8, word),
            value(9, word),
        ];
        let text =
            format!("RANGE {word}({word}) RETRIEVE {word}:{word}.{word}:{word}.{word}={word}");
        let expected = vec![1, 0, 7, 33, 0, 8, 21, 1, 33, 0, 8, 32, 9, 0, 0, 0];
        assert_eq!(
            read_with(text.as_bytes(), &names.concat()),
            Ok(expected),
            "{word}"
        );
    }
}

#[test]
fn the_frame() {
    let good = "RANGE EMPLOYEE(X) RETRIEVE W:X.NAME";
    assert_eq!(read(good), Ok(vec![1, 0, 0, 33, 0, 0, 16]));
    for bad in [
        "RETRIEVE W:X.NAME",
        "RANGE EMPLOYEE(X)",
        "RETRIEVE W:X.NAME RANGE EMPLOYEE(X)",
        "RANGE EMPLOYEE(X) RANGE EMPLOYEE(Y) RETRIEVE W:X.NAME",
        "RANGE EMPLOYEE(X):RETRIEVE W:X.NAME",
        "RANGE EMPLOYEE(X):: EMPLOYEE(Y) RETRIEVE W:X.NAME",
        "RANGE EMPLOYEE(X),EMPLOYEE(Y) RETRIEVE W:X.NAME",
        "RANGE EMPLOYEE() RETRIEVE W:X.NAME",
        "RANGE EMPLOYEE(X,) RETRIEVE W:X.NAME",
        "RANGE EMPLOYEE(X Y) RETRIEVE W:X.NAME",
        "RANGE EMPLOYEE X RETRIEVE W:X.NAME",
        "RANGE (X) RETRIEVE W:X.NAME",
        "RANGE EMPLOYEE(X) RETRIEVE :X.NAME",
        "RANGE EMPLOYEE(X) RETRIEVE W X.NAME",
        "RANGE EMPLOYEE(X) RETRIEVE W:",
        "RANGE EMPLOYEE(X) RETRIEVE W::1=1",
        "RANGE EMPLOYEE(X) RETRIEVE W:X.NAME,",
        "RANGE EMPLOYEE(X) RETRIEVE W:X.NAME,:1=1",
        "RANGE EMPLOYEE(X) RETRIEVE W:X.NAME X.DEPT",
        "RANGE EMPLOYEE(X) RETRIEVE W:X.NAME;1=1",
        "RANGE EMPLOYEE(X) RETRIEVE W:X.NAME:",
        "RANGE EMPLOYEE(X) RETRIEVE W:X.NAME:1=1:",
        "RANGE EMPLOYEE(X) RETRIEVE W:X.NAME.",
        "RANGE EMPLOYEE(X) RETRIEVE W:5",
        "RANGE EMPLOYEE(X) RETRIEVE W:TOY",
        "RANGE EMPLOYEE(X) RETRIEVE W:(X.NAME)",
        "RANGE EMPLOYEE(X) RETRIEVE W:COUNT(X)",
        "RANGE EMPLOYEE(X) RETRIEVE W:COUNT(X.NAME;)",
        "RANGE EMPLOYEE(X) RETRIEVE W:COUNT(X.NAME:1=1)",
        "RANGE EMPLOYEE(X) RETRIEVE W:COUNT X.NAME",
        "RANGE EMPLOYEE(X) RETRIEVE W:COUNT((X.NAME))",
        "RANGE EMPLOYEE(X) RETRIEVE W:COUNT(5)",
        "RANGE EMPLOYEE(X) DELETE X",
    ] {
        assert_eq!(read(bad), Err(50), "{bad}");
    }
    for bad in [
        "SOME Z IN EMPLOYEE()",
        "SOME Z IN EMPLOYEE 1=1",
        "SOME Z EMPLOYEE(1=1)",
        "SOME IN EMPLOYEE(1=1)",
        "SOME Z,Y IN EMPLOYEE(1=1)",
        "SOME Z IN EMPLOYEE(1=1)=1",
    ] {
        assert_eq!(condition(bad), Err(50), "{bad}");
    }
    // Any workspace name, and any number of targets.
    let long = "A".repeat(300);
    let many = ["X.NAME"; 100].join(",");
    let read = read(&format!("RANGE EMPLOYEE(X) RETRIEVE {long}:{many}")).unwrap();
    assert_eq!(read.len(), 3 + 300 + 1);
    for name in ["EMPLOYEE", "X", "NAME", "TOY"] {
        let text = format!("RANGE EMPLOYEE(X) RETRIEVE {name}:X.NAME");
        assert_eq!(crate::read(&text), crate::read(good));
    }
}

#[test]
fn lists_of_names() {
    let text = b"RANGE EMPLOYEE(X) RETRIEVE W:X.NAME:X.NAME=TOY";
    let used = [
        relation(3, "EMPLOYEE"),
        attribute(3, 9, "NAME"),
        value(-2, "TOY"),
    ];
    let list = used.concat();
    let expected = vec![1, 0, 3, 33, 0, 9, 21, 1, 33, 0, 9, 32, 254, 255, 255, 255];
    assert_eq!(read_with(text, &list), Ok(expected.clone()));
    let with = |more: &[u8]| {
        let after = read_with(text, &[&list, more].concat());
        assert_eq!(after, read_with(text, &[more, &list].concat()));
        after
    };
    for good in [
        vec![],
        relation(3, "STAFF"),
        relation(3, "NAME"),
        relation(255, "TOY"),
        attribute(3, 9, "N"),
        attribute(4, 1, "NAME"),
        attribute(3, 255, "EMPLOYEE"),
        value(-2, "GAME"),
        value(7, "NAME"),
        value(i32::MIN, "ABCDEFGHIJKL"),
    ] {
        assert_eq!(with(&good), Ok(expected.clone()), "{good:?}");
    }
    for bad in [
        relation(3, "EMPLOYEE"),
        relation(4, "EMPLOYEE"),
        attribute(3, 9, "NAME"),
        attribute(3, 1, "NAME"),
        value(-2, "TOY"),
        value(5, "TOY"),
        relation(4, ""),
        attribute(4, 1, ""),
        value(4, ""),
        relation(4, " STAFF"),
        relation(4, "ST AFF"),
        relation(4, "Staff"),
        relation(4, "STAFF1"),
        relation(4, "STAFF\0"),
        relation(4, "STAFF."),
        vec![0],
        listed(&[79, 1], "STAFF"),
        listed(&[83, 1], "STAFF"),
    ] {
        assert_eq!(with(&bad), Err(51), "{bad:?}");
    }
    // Cut short anywhere, also where no record that is used is touched.
    let longer = [
        &list[..],
        &relation(5, "A"),
        &attribute(5, 1, "B"),
        &value(1, "C"),
    ]
    .concat();
    let ends = [list.len(), list.len() + 14, list.len() + 29, longer.len()];
    for length in 0..=longer.len() {
        let is_whole = ends.contains(&length);
        let read = read_with(text, &longer[..length]);
        assert_eq!(read.is_ok(), is_whole, "{length}");
    }
    for left_out in 0..3 {
        let mut fewer = used.to_vec();
        fewer.remove(left_out);
        assert_eq!(read_with(text, &fewer.concat()), Err(51));
    }
    // 50 goes before a broken list, and 51 before a short buffer.
    assert_eq!(read_with(b"RANGE", &[1]), Err(50));
    assert_eq!(read_text(text, &[1], &mut []), (51, 0));
    assert_eq!(read_text(text, &list, &mut []), (52, 0));
    // A long list.
    let word = |number: usize| {
        let letter = |place: u32| (b'A' + (number / 26usize.pow(place) % 26) as u8) as char;
        [letter(0), letter(1), letter(2), 'Q']
            .iter()
            .collect::<String>()
    };
    let mut many: Vec<u8> = (0..5_000)
        .flat_map(|number| value(1, &word(number)))
        .collect();
    many.extend(&list);
    assert_eq!(read_with(text, &many), Ok(expected));
    many.extend(value(1, &word(2_500)));
    assert_eq!(read_with(text, &many), Err(51));
}

#[test]
fn names_that_are_unknown() {
    for bad in [
        "RANGE STAFF(X) RETRIEVE W:COUNT(X.NAME)",
        "RANGE EMPLOYEE(X):STAFF(Y) RETRIEVE W:X.NAME",
        "RANGE EMPLOYEE(X) RETRIEVE W:X.FLOOR",
        "RANGE EMPLOYEE(X) RETRIEVE W:Y.NAME",
        "RANGE EMPLOYEE(X) RETRIEVE W:EMPLOYEE.NAME",
        "RANGE EMPLOYEE(X) RETRIEVE W:COUNT(Y.NAME)",
        "RANGE EMPLOYEE(X) RETRIEVE W:COUNT(X.FLOOR)",
        "RANGE EMPLOYEE(X) RETRIEVE W:X.NAME:X.NAME=NOBODY",
        "RANGE EMPLOYEE(X) RETRIEVE W:X.NAME:X.NAME=X",
        "RANGE EMPLOYEE(X) RETRIEVE W:X.NAME:SOME Z IN STAFF(1=1)",
        "RANGE EMPLOYEE(X) RETRIEVE W:X.NAME:EMPLOYEE=1",
        "RANGE EMPLOYEEABCDEFGH(X) RETRIEVE W:X.NAME",
        "RANGE EMPLOYEE(X) RETRIEVE W:X.NAMEABCDEFGHIJ",
        "RANGE EMPLOYEE(X) RETRIEVE W:X.NAME:X.NAME=JONESABCDEFGHIJ",
    ] {
        assert_eq!(read(bad), Err(51), "{bad}");
    }
    // Twelve letters are a name; thirteen are not cut to it.
    let names = [shop_names(), relation(0, "ABCDEFGHIJKL")].concat();
    let text = |name: &str| format!("RANGE {name}(X) RETRIEVE W:X.NAME");
    assert!(read_with(text("ABCDEFGHIJKL").as_bytes(), &names).is_ok());
    assert_eq!(read_with(text("ABCDEFGHIJKLM").as_bytes(), &names), Err(51));
    // Symbols may be longer, and are told apart to their ends.
    let (long, longer) = ("ABCDEFGHIJKLMN", "ABCDEFGHIJKLMO");
    let text = format!("RANGE EMPLOYEE({long},{longer}) RETRIEVE W:{longer}.NAME:{long}.DEPT=1");
    let expected = [
        vec![1, 0, 0, 1, 1, 0, 33, 1, 0, 21, 1, 33, 0, 1],
        vec![32, 1, 0, 0, 0],
    ];
    assert_eq!(read(&text), Ok(expected.concat()));
}

#[test]
fn symbols_bound_twice() {
    for bad in [
        "RANGE EMPLOYEE(X,X) RETRIEVE W:X.NAME",
        "RANGE EMPLOYEE(X,Y,Y) RETRIEVE W:X.NAME",
        "RANGE EMPLOYEE(X):DEPARTMENT(X) RETRIEVE W:X.NAME",
        "RANGE EMPLOYEE(X) RETRIEVE W:X.NAME:SOME X IN EMPLOYEE(1=1)",
        "RANGE EMPLOYEE(X,Y) RETRIEVE W:X.NAME:SOME Y IN EMPLOYEE(1=1)",
        "RANGE EMPLOYEE(X) RETRIEVE W:COUNT(X.NAME;SOME X IN EMPLOYEE(1=1))",
        "RANGE EMPLOYEE(X) RETRIEVE W:COUNT(X.NAME;SOME Z IN EMPLOYEE(1=1)):SOME Z IN EMPLOYEE(1=1)",
        "RANGE EMPLOYEE(X) RETRIEVE W:X.NAME:SOME Z IN EMPLOYEE(SOME Z IN DEPARTMENT(1=1))",
    ] {
        assert_eq!(read(bad), Err(51), "{bad}");
    }
    // Aggregates bind anew, as often as they like.
    assert_eq!(
        read("RANGE EMPLOYEE(X) RETRIEVE W:MAX(X.NAME),MIN(X.NAME),X.NAME"),
        Ok(vec![
            1, 0, 0, 34, 4, 1, 0, 0, 16, 34, 5, 2, 0, 0, 16, 33, 0, 0, 16
        ])
    );
}

#[test]
fn reach() {
    let target = |text: &str| {
        let text = format!("RANGE EMPLOYEE(X,Y):DEPARTMENT(D) RETRIEVE W:{text}");
        read(&text)
    };
    // Heads: every RANGE symbol anywhere, a SOME's inside its parentheses.
    assert_eq!(
        target("COUNT(X.NAME;MAX(D.EMP;MIN(Y.NAME)=1)=2)"),
        Ok(vec![
            34, 1, 0, 0, 0, 21, 1, 34, 4, 1, 1, 2, 21, 1, 34, 5, 2, 0, 0, 16, 32, 1, 0, 0, 0, 32,
            2, 0, 0, 0, 16
        ])
    );
    assert_eq!(
        target("Y.NAME:SOME Z IN DEPARTMENT(COUNT(Y.NAME;AVE(Z.EMP;Z.SALES=1)=2)=Z.EMP)"),
        Ok(vec![
            1, 0, 0, 33, 0, 0, 22, 1, 1, 21, 1, 34, 1, 2, 0, 0, 21, 1, 34, 3, 3, 1, 2, 21, 1, 33,
            3, 3, 32, 1, 0, 0, 0, 32, 2, 0, 0, 0, 33, 1, 2
        ])
    );
    // After an aggregate its symbol is what it was.
    assert_eq!(
        target("X.NAME:MAX(X.SALARY;X.NAME=1)=X.SALARY^X.DEPT=2"),
        Ok(vec![
            1, 0, 0, 33, 0, 0, 19, 21, 1, 34, 4, 1, 0, 2, 21, 1, 33, 1, 0, 32, 1, 0, 0, 0, 33, 0,
            2, 21, 1, 33, 0, 1, 32, 2, 0, 0, 0
        ])
    );
    // A SOME inside an aggregate sees the aggregate's symbol.
    assert_eq!(
        target("COUNT(X.NAME;SOME Z IN DEPARTMENT(Z.DEPT=X.DEPT))"),
        Ok(vec![
            34, 1, 0, 0, 0, 22, 1, 1, 21, 1, 33, 1, 0, 33, 0, 1, 16
        ])
    );
    for bad in [
        "COUNT(X.NAME;Y.NAME=1)",
        "X.NAME,COUNT(X.NAME;Y.NAME=1)",
        "Y.NAME,COUNT(X.NAME;Y.NAME=1)",
        "COUNT(X.NAME;MAX(Y.NAME;X.NAME=1)=1)",
        "COUNT(X.NAME;MAX(D.EMP;D.EMP=1)=D.EMP)",
        "X.NAME:SOME Z IN EMPLOYEE(COUNT(X.NAME;Z.NAME=1)=2)",
        "COUNT(X.NAME;SOME Z IN EMPLOYEE(MAX(Y.NAME;Z.NAME=1)=1))",
        "COUNT(X.NAME;SOME Z IN EMPLOYEE(MAX(Z.NAME;X.NAME=1)=1))",
        "X.NAME:SOME Z IN EMPLOYEE(Z.NAME=1)^Z.NAME=1",
        "X.NAME:Z.NAME=1^SOME Z IN EMPLOYEE(Z.NAME=1)",
        "X.NAME:SOME Z IN EMPLOYEE(Z.NAME=1)^MAX(Z.NAME)=1",
        "MAX(Z.NAME):SOME Z IN EMPLOYEE(Z.NAME=1)",
        "Z.NAME:SOME Z IN EMPLOYEE(Z.NAME=1)",
    ] {
        assert_eq!(target(bad), Err(51), "{bad}");
    }
}

#[test]
fn numbering() {
    // Records in the order of the list, whatever the order of use.
    assert_eq!(
        read("RANGE DEPARTMENT(D):EMPLOYEE(A,B,C) RETRIEVE W:C.NAME:A.NAME=D.DEPT"),
        Ok(vec![
            1, 0, 1, 1, 1, 0, 1, 2, 0, 33, 2, 0, 21, 1, 33, 1, 0, 33, 0, 0
        ])
    );
    // The use may be anywhere outside aggregates, in a SOME too; inside one it is none.
    assert_eq!(
        read("RANGE EMPLOYEE(A,B,C) RETRIEVE W:MAX(A.NAME;A.NAME=1):SOME Z IN EMPLOYEE(C.NAME=1)"),
        Ok(vec![
            1, 0, 0, 34, 4, 1, 0, 0, 21, 1, 33, 1, 0, 32, 1, 0, 0, 0, 22, 2, 0, 21, 1, 33, 0, 0,
            32, 1, 0, 0, 0
        ])
    );
    // Past 7, and as far as a text goes.
    let somes = 60;
    let name = |number: usize| {
        let letter = |digit: usize| (b'A' + (digit % 26) as u8) as char;
        format!("{}{}", letter(number / 26), letter(number))
    };
    let inner: String = (0..somes)
        .map(|n| format!("SOME {} IN EMPLOYEE(", name(n)))
        .collect();
    let text = format!("{inner}{}.NAME=1{}", name(somes - 1), ")".repeat(somes));
    let mut expected: Vec<u8> = (1..=somes as u8)
        .flat_map(|number| [22, number, 0])
        .collect();
    expected.extend([21, 1, 33, somes as u8, 0, 32, 1, 0, 0, 0]);
    assert_eq!(condition(&text), Ok(expected));
}

/// Relation R, attribute A.
fn short_names() -> Vec<u8> {
    [relation(0, "R"), attribute(0, 0, "A")].concat()
}

const SHORT: &str = "RANGE R(X)RETRIEVE W:X.A";

/// 25 symbols of one letter and 229 of two: 254 fill a text of 2,000 bytes.
#[test]
fn most_variables() {
    let letters = || (b'A'..=b'Z').map(char::from);
    let one = letters().map(String::from);
    let two = letters().flat_map(|first| letters().map(move |second| format!("{first}{second}")));
    let is_free = |symbol: &String| symbol != "V" && symbol != "IN";
    let symbols: Vec<String> = one.chain(two).filter(is_free).take(254).collect();
    let uses: Vec<String> = symbols.iter().map(|symbol| format!("{symbol}.A")).collect();
    let text = format!(
        "RANGE R({})RETRIEVE W:{}",
        symbols.join(","),
        uses.join(",")
    );
    assert_eq!(text.len(), 2_000);
    let ranges = (0..254).flat_map(|number| [1, number, 0]);
    let targets = (0..254).flat_map(|number| [33, number, 0]);
    let expected: Vec<u8> = ranges.chain(targets).chain([16]).collect();
    assert_eq!(read_with(text.as_bytes(), &short_names()), Ok(expected));
}

#[test]
fn deep_parentheses() {
    let text = |deep: usize| format!("{SHORT}:{}1=1{}", "(".repeat(deep), ")".repeat(deep));
    assert_eq!((text(986).len(), text(987).len()), (2_000, 2_002));
    let expected = [vec![1, 0, 0, 33, 0, 0], is_true(1, 1)].concat();
    assert_eq!(
        read_with(text(986).as_bytes(), &short_names()),
        Ok(expected)
    );
    assert_eq!(read_with(text(987).as_bytes(), &short_names()), Err(50));
    for bad in [
        "(".repeat(2_000),
        ")".repeat(2_000),
        format!("{SHORT}:{}", "(".repeat(1_975)),
        format!("{SHORT}:{}1=1{}", "(".repeat(986), ")".repeat(985)),
        format!("{SHORT}:{}1=1{}", "(".repeat(985), ")".repeat(986)),
        format!("{SHORT}:1=1{}", ")".repeat(1_972)),
    ] {
        assert_eq!(read_with(bad.as_bytes(), &short_names()), Err(50));
    }
    let nots = format!("{SHORT}:{}1=1", "NOT ".repeat(493));
    let read = read_with(nots.as_bytes(), &short_names()).unwrap();
    assert_eq!(read[6..499], [18; 493]);
    let aggregates = 140;
    let nested = format!(
        "{SHORT}:{}MAX(X.A){}",
        "MAX(X.A;".repeat(aggregates),
        "=1)".repeat(aggregates)
    );
    // The outermost is a term alone, and no condition.
    assert_eq!(read_with(nested.as_bytes(), &short_names()), Err(50));
    let nested = format!("{nested}=1");
    assert!(read_with(nested.as_bytes(), &short_names()).is_ok());
}

#[test]
fn two_thousand_bytes() {
    let padded = |length: usize| format!("{SHORT}{}", " ".repeat(length - SHORT.len()));
    assert!(read_with(padded(2_000).as_bytes(), &short_names()).is_ok());
    assert_eq!(read_with(padded(2_001).as_bytes(), &short_names()), Err(50));
    assert_eq!(read_with(padded(100_000).as_bytes(), &[]), Err(50));
    assert_eq!(read_with(&[b'A'; 2_001], &[]), Err(50));
}

/// The longest records, and buffers that just hold them or just do not.
#[test]
fn the_records_buffer() {
    let text = format!("{SHORT}:{}", vec!["1=1"; 494].join("^"));
    assert_eq!(text.len(), 2_000);
    for (text, length) in [(text.as_str(), 6_427), (SHORT, 7)] {
        let read = read_with(text.as_bytes(), &short_names()).unwrap();
        assert_eq!(read.len(), length);
        for room in [0, 1, length - 1] {
            let mut buffer = vec![FILLED; room];
            let refused = read_text(text.as_bytes(), &short_names(), &mut buffer);
            assert_eq!(refused, (52, 0));
            assert!(buffer.iter().all(|byte| *byte == FILLED));
        }
        let mut buffer = vec![FILLED; length];
        let passed = read_text(text.as_bytes(), &short_names(), &mut buffer);
        assert_eq!(passed, (0, length as u64));
        assert_eq!(buffer, read);
    }
}
