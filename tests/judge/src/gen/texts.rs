//! Texts: queries said as QUEL, mostly good, else damaged in the text, in its names or by a short buffer.

use super::grow::{shuffled, Grower};
use super::rng::Rng;
use super::say::{self, join, listed, renumbered, sayable, Said};
use super::tables::Table;
use super::{cost, damaged, draft, lend_buffers, needs, Case, ORDINARY};
use crate::catalogue::Kind;
use crate::query::{Condition, Flat, Query, Term};
use crate::refusal;
use crate::text::names::{ATTRIBUTE, RELATION, VALUE, WIDTH};
use crate::text::words::RESERVED;
use crate::text::{records, MOST_BYTES, MOST_RECORDS};

/// The input of the reader, with what its buffer holds before.
#[derive(Clone, PartialEq, Eq, Debug)]
pub struct TextCase {
    pub text: Vec<u8>,
    pub names: Vec<u8>,
    pub records_before: Vec<u8>,
}

/// A call of ask by text: the query of its case has no part in it.
#[derive(Clone, PartialEq, Eq, Debug)]
pub struct AskedText {
    pub case: Case,
    pub text: TextCase,
}

/// A text that is good, and the records that it means.
pub fn good_text(seed: u64) -> (TextCase, Vec<u8>) {
    let rng = &mut Rng::new(seed);
    loop {
        let query = query(rng);
        let said = say::say(rng, &query);
        let text = joined(rng, &said.words);
        if text.len() > MOST_BYTES {
            continue;
        }
        let records = query.bytes();
        let case = TextCase {
            text,
            names: said.names.concat(),
            records_before: buffer(rng, records.len()),
        };
        return (case, records);
    }
}

pub fn text_case(seed: u64) -> TextCase {
    let rng = &mut Rng::new(seed);
    let aims = choose_aims(rng);
    loop {
        let query = query(rng);
        let case = said_and_damaged(rng, &query, &aims);
        if aims.is_empty() && case.text.len() > MOST_BYTES {
            continue;
        }
        return case;
    }
}

/// A call with a collection: mostly read, and then accepted or refused by ask.
pub fn asked_text(seed: u64) -> AskedText {
    let rng = &mut Rng::new(seed);
    let is_text_aimed = rng.percent(15);
    let aims = if is_text_aimed {
        vec![rng.pick(&TEXT_REFUSALS)]
    } else {
        vec![]
    };
    // A question's own 30 to 32 come by the text: long, wide, or with numbers that no catalogue has.
    let ask_aims: Vec<u64> = match rng.below(10) {
        0..=6 => vec![],
        _ => vec![rng.pick(&[10, 11, 20, 21, 22, 23, 33, 40, 41])],
    };
    loop {
        let draft = draft::draft(rng);
        let tables = draft.tables.clone();
        let pool = draft.pool.clone();
        let mut case = damaged(rng, draft, &ask_aims);
        let Some(flat) = Flat::read(&case.query) else {
            continue;
        };
        let query = match rng.below(25) {
            0 => Some(grown(rng, &tables, &pool)),
            1 => Some(longer(rng, flat.tree())),
            _ => Some(flat.tree()),
        };
        let Some(query) = query.and_then(|query| sayable(rng, &query)) else {
            continue;
        };
        let mut text = said_and_damaged(rng, &query, &aims);
        if rng.below(25) == 0 {
            misnumber(rng, &mut text.names);
        }
        if let Ok(read) = records(&text.text, &text.names) {
            case.query = read;
        }
        if !cost::is_case_within(&ORDINARY, &case) {
            continue;
        }
        let needs = needs(&case);
        let is_short_aimed = ask_aims.contains(&refusal::ANSWER_BUFFER);
        if needs.rows.is_empty() && (is_short_aimed || rng.percent(60)) {
            continue;
        }
        lend_buffers(rng, &mut case, &needs, &ask_aims);
        return AskedText { case, text };
    }
}

const TEXT_REFUSALS: [u64; 3] = [
    refusal::TEXT_FORM,
    refusal::TEXT_NAMES,
    refusal::RECORDS_BUFFER,
];

/// The refusals aimed at, by rising number; 0 is noise.
fn choose_aims(rng: &mut Rng) -> Vec<u64> {
    let [form, names, buffer] = TEXT_REFUSALS;
    match rng.below(100) {
        0..=39 => vec![],
        40..=58 => vec![form],
        59..=81 => vec![names],
        82..=89 => vec![buffer],
        90..=91 => vec![form, names],
        92..=93 => vec![form, buffer],
        94..=95 => vec![names, buffer],
        96 => vec![form, names, buffer],
        _ => vec![0],
    }
}

/// A query for the reader alone: more variables, ranges and targets than ask takes, any numbers.
fn query(rng: &mut Rng) -> Query {
    let tables: Vec<Table> = (0..rng.between(1, 4))
        .map(|_| Table {
            kind: Kind::Stored,
            attributes: rng.between(1, 4),
            rows: Vec::new(),
        })
        .collect();
    let pool = [0, 1, -1, 7, i32::MIN, i32::MAX];
    let query = grown(rng, &tables, &pool);
    let query = sayable(rng, &query).expect("numbers bound once");
    let (relations, attributes) = (rng.byte(), rng.byte());
    let is_moved = rng.percent(30);
    renumbered(
        &query.records(),
        |relation| {
            if is_moved {
                relation ^ relations
            } else {
                relation
            }
        },
        |attribute| {
            if is_moved {
                attribute ^ attributes
            } else {
                attribute
            }
        },
    )
}

fn grown(rng: &mut Rng, tables: &[Table], pool: &[i32]) -> Query {
    let (variables, depth, more) = match rng.below(12) {
        0 => (100, rng.between(3, 6), rng.below(40)),
        1..=2 => (20, rng.between(2, 5), rng.below(4)),
        _ => (8, rng.pick(&[0, 1, 1, 2, 2, 3, 3, 4]), 0),
    };
    let free = shuffled(rng, 0..variables);
    let mut grower = Grower {
        rng,
        tables,
        pool,
        bindable: (0..tables.len() as u8).collect(),
        free,
    };
    let mut query = grower.query(depth);
    for _ in 0..more {
        let Some(binding) = grower.binding() else {
            break;
        };
        query.ranges.push(binding);
        let target = grower.attribute(&[binding]);
        query.targets.push(target);
    }
    query
}

/// With more comparisons than ask takes bytes, or more NOTs than it takes levels.
fn longer(rng: &mut Rng, mut query: Query) -> Query {
    let one = Term::Constant(1);
    let plain = Condition::Compare(crate::query::Operator::Equal, one.clone(), one);
    let is_long = rng.percent(50);
    for _ in 0..rng.between(20, 90) {
        let condition = std::mem::replace(&mut query.condition, Condition::True);
        query.condition = if is_long {
            Condition::and(condition, plain.clone())
        } else {
            Condition::negated(condition)
        };
    }
    query
}

fn joined(rng: &mut Rng, words: &[String]) -> Vec<u8> {
    let blanks = rng.pick(&[0, 0, 0, 5, 5, 20, 50, 90]);
    join(rng, words, blanks)
}

fn said_and_damaged(rng: &mut Rng, query: &Query, aims: &[u64]) -> TextCase {
    let mut said = say::say(rng, query);
    if rng.below(150) == 0 {
        deepen(rng, &mut said);
    }
    let is_form_aimed = aims.contains(&refusal::TEXT_FORM);
    // By a byte, and nothing else is wrong with it.
    let is_too_long = is_form_aimed && rng.percent(4);
    for aim in aims {
        match *aim {
            refusal::TEXT_FORM if is_too_long => {}
            refusal::TEXT_FORM => damage_words(rng, &mut said),
            refusal::TEXT_NAMES => damage_names(rng, &mut said),
            _ => {}
        }
    }
    let mut text = joined(rng, &said.words);
    let mut names = said.names.concat();
    if is_form_aimed && !is_too_long && rng.percent(40) {
        damage_bytes(rng, &mut text);
    }
    if aims.contains(&0) {
        for _ in 0..rng.between(1, 4) {
            damage_bytes(rng, &mut text);
            if rng.percent(30) {
                damage_bytes(rng, &mut names);
            }
        }
    }
    if text.len() < MOST_BYTES && (is_too_long || rng.below(100) == 0) {
        text.resize(MOST_BYTES + usize::from(is_too_long), b' ');
    }
    let needed = records(&text, &names).map_or(40, |read| read.len());
    let is_short = aims.contains(&refusal::RECORDS_BUFFER);
    let records_before = if is_short {
        let room = match rng.below(4) {
            0 => 0,
            1..=2 => needed - 1,
            _ => rng.below(needed),
        };
        filled(rng, room)
    } else {
        buffer(rng, needed)
    };
    TextCase {
        text,
        names,
        records_before,
    }
}

/// Long enough, often just so.
fn buffer(rng: &mut Rng, needed: usize) -> Vec<u8> {
    let room = match rng.below(10) {
        0..=4 => needed,
        5..=8 => needed + rng.below(24),
        _ => MOST_RECORDS.max(needed),
    };
    filled(rng, room)
}

fn filled(rng: &mut Rng, room: usize) -> Vec<u8> {
    (0..room).map(|_| rng.byte()).collect()
}

/// Parentheses round a condition, hundreds deep.
fn deepen(rng: &mut Rng, said: &mut Said) {
    let words = &mut said.words;
    let retrieve = words
        .iter()
        .position(|word| word == "RETRIEVE")
        .unwrap_or(0);
    let marks = (retrieve + 3..words.len()).filter(|place| words[*place] == ":");
    let Some(mark) = marks.last() else {
        return;
    };
    let deep = rng.between(100, 900);
    words.extend(vec![")".to_string(); deep]);
    words.splice(mark + 1..mark + 1, vec!["(".to_string(); deep]);
}

const VOCABULARY: [&str; 40] = [
    "RANGE",
    "RETRIEVE",
    "NOT",
    "SOME",
    "IN",
    "V",
    "COUNT",
    "SUM",
    "AVE",
    "MAX",
    "MIN",
    "(",
    ")",
    ",",
    ":",
    ";",
    ".",
    "^",
    "=",
    "#",
    "<",
    "<=",
    ">",
    ">=",
    "5",
    "-5",
    "-",
    "- 5",
    "=<",
    "<>",
    "2147483648",
    "-2147483649",
    "99999999999999999999",
    "4294967296",
    "+",
    "A",
    "X",
    "W1",
    "a",
    "_",
];

fn is_name(word: &str) -> bool {
    word.bytes().all(|byte| byte.is_ascii_uppercase()) && !RESERVED.contains(&word)
}

fn is_number(word: &str) -> bool {
    word.bytes().any(|byte| byte.is_ascii_digit())
}

/// Where such words stand.
fn places(words: &[String], is_wanted: impl Fn(&str) -> bool) -> Vec<usize> {
    let all = 0..words.len();
    all.filter(|place| is_wanted(&words[*place])).collect()
}

/// Towards a text outside the grammar; some stay inside.
fn damage_words(rng: &mut Rng, said: &mut Said) {
    let words = &mut said.words;
    let place = rng.below(words.len());
    let names = places(words, is_name);
    let numbers = places(words, is_number);
    let other = rng.pick(&VOCABULARY).to_string();
    match rng.below(17) {
        0 => drop(words.remove(place)),
        1 => words.insert(place, words[place].clone()),
        2 => {
            let next = (place + 1) % words.len();
            words.swap(place, next);
        }
        3 => {
            let second = rng.below(words.len());
            words.swap(place, second);
        }
        4 => words[place] = other,
        5 => words.insert(place, other),
        6 => {
            let name = any(rng, &names);
            words[name] = rng.pick(&RESERVED).to_string();
        }
        7 => {
            let name = any(rng, &names);
            let digit = rng.below(10);
            words[name] = if rng.percent(80) {
                format!("{}{digit}", words[name])
            } else {
                words[name].to_lowercase()
            };
        }
        8 | 14 | 15 if !numbers.is_empty() => {
            let number = any(rng, &numbers);
            let size = words[number].trim_start_matches('-').to_string();
            words[number] = match rng.below(5) {
                0 => format!("- {size}"),
                1 => format!("--{size}"),
                2 => format!("+{size}"),
                3 => format!("{size}0000000000"),
                _ => rng
                    .pick(&[
                        "2147483648",
                        "-2147483649",
                        "18446744073709551617",
                        "4294967295",
                    ])
                    .to_string(),
            };
        }
        9 => words.truncate(place),
        10 => {
            let second: Vec<String> = words[place..].to_vec();
            words.extend(second);
        }
        11 => words.push(rng.pick(&[":", ";", ")", "^", "V", "("]).to_string()),
        16 => {
            // No blanks, though a reader may take them for such.
            let other = rng.pick(&["\t", "\t", "\0", "\x0B", "\x0C", "\u{A0}"]);
            words.insert(place, other.to_string());
        }
        12 => {
            let signs = places(words, |word| word == "<=" || word == ">=");
            for sign in signs {
                words[sign].insert(1, rng.pick(&[' ', '\n', '=']));
            }
            words.push(")".to_string());
        }
        _ => {
            // A word joined to the next one.
            let next = (place + 1) % words.len();
            words[place] = format!("{}{}", words[place], words[next]);
            words.remove(next);
        }
    }
    if words.is_empty() {
        words.push("RANGE".to_string());
    }
}

/// Towards a broken list, or names that are unknown, out of reach, bound or listed twice.
fn damage_names(rng: &mut Rng, said: &mut Said) {
    let Said { words, names } = said;
    let place = rng.below(names.len().max(1));
    let record = names
        .get(place)
        .cloned()
        .unwrap_or(listed(&[RELATION, 0], "A"));
    let name_places = places(words, is_name);
    match rng.below(14) {
        0 => {
            if !names.is_empty() {
                names.remove(place);
            }
        }
        1 => names.push(record),
        2 => {
            // The same name with another number.
            let mut record = record;
            let number = match record[0] {
                ATTRIBUTE => 2,
                _ => 1,
            };
            record[number] ^= 1;
            names.insert(rng.below(names.len() + 1), record);
        }
        3 => {
            let name = rng.pick(&RESERVED);
            names.push(in_some_kind(rng, name));
        }
        4 => {
            let name = rng.pick(&["", " A", "A B", "Ab", "A1", "A\0", "A.", "a", "\0"]);
            names.push(in_some_kind(rng, name));
        }
        5 => {
            let mut record = record;
            record[0] = rng.pick(&[0, 1, 33, 48, 64, 79, 83, 112, 255]);
            names.insert(rng.below(names.len() + 1), record);
        }
        6 => {
            let kept = rng.below(record.len());
            names.push(record[..kept].to_vec());
        }
        7 => {
            let place = rng.below(names.len().max(1));
            if let Some(record) = names.get_mut(place) {
                let byte = rng.below(record.len());
                record[byte] = rng.pick(&[0, 1, 32, 65, 80, 81, 82, 90, 97, 255]);
            }
        }
        8..=9 => {
            let name = any(rng, &name_places);
            words[name] = say::word(rng, 16);
        }
        10 => {
            let name = any(rng, &name_places);
            words[name].push_str(rng.pick(&["A", "V", "ABCDEFGHIJKLM"]));
        }
        11..=12 => {
            // The symbol of a use becomes that of another one.
            let mut uses: Vec<usize> = places(words, |word| word == ".");
            let marks = places(words, |word| word == ";");
            if rng.percent(50) {
                // The first one inside an aggregate.
                let mark = any(rng, &marks);
                uses.retain(|point| *point > mark);
                uses.truncate(1);
            }
            let uses: Vec<usize> = uses
                .into_iter()
                .map(|point| point.saturating_sub(1))
                .collect();
            let bound = bound_places(words);
            let (from, to) = (any(rng, &bound), any(rng, &uses));
            words[to] = words[from].clone();
        }
        _ => {
            let mut bound = bound_places(words);
            if rng.percent(50) {
                bound.retain(|place| *place > 0 && words[place - 1] == "SOME");
            }
            let (from, to) = (any(rng, &bound), any(rng, &bound));
            words[to] = words[from].clone();
        }
    }
}

/// Where symbols are bound: in the RANGE list and after SOME.
fn bound_places(words: &[String]) -> Vec<usize> {
    let retrieve = words.iter().position(|word| word == "RETRIEVE");
    let retrieve = retrieve.unwrap_or(words.len());
    let is_bound = |place: &usize| {
        let before = words[place - 1].as_str();
        is_name(&words[*place]) && (before == "SOME" || *place < retrieve && "(,".contains(before))
    };
    (1..words.len()).filter(is_bound).collect()
}

/// One of the places; the first word's if there is none.
fn any(rng: &mut Rng, places: &[usize]) -> usize {
    if places.is_empty() {
        0
    } else {
        rng.pick(places)
    }
}

fn in_some_kind(rng: &mut Rng, name: &str) -> Vec<u8> {
    let number = rng.byte();
    match rng.below(3) {
        0 => listed(&[RELATION, number], name),
        1 => listed(&[ATTRIBUTE, number, number], name),
        _ => listed(&[VALUE, number, 0, 0, 0], name),
    }
}

fn damage_bytes(rng: &mut Rng, bytes: &mut Vec<u8>) {
    if bytes.is_empty() {
        bytes.push(rng.byte());
        return;
    }
    let place = rng.below(bytes.len());
    let other = match rng.below(3) {
        0 => rng.byte(),
        1 => rng.pick(b" \n\r\t-0123456789.,:;^=#<>()_+"),
        _ => b'A' + rng.below(26) as u8,
    };
    match rng.below(6) {
        0..=1 => bytes[place] = other,
        2 => drop(bytes.remove(place)),
        3 => bytes.insert(place, bytes[place]),
        4 => bytes.insert(place, other),
        _ => {
            let second = rng.below(bytes.len());
            bytes.swap(place, second);
        }
    }
}

/// A number of the list that the catalogue may not have.
fn misnumber(rng: &mut Rng, names: &mut [u8]) {
    let mut place = 0;
    while place < names.len() {
        let body = match names[place] {
            RELATION => 1,
            ATTRIBUTE => 2,
            VALUE => 4,
            _ => return,
        };
        if place + body < names.len() && names[place] != VALUE && rng.percent(30) {
            names[place + body] = rng.pick(&[1, 4, 16, 17, 255]);
        }
        place += 1 + body + WIDTH;
    }
}
