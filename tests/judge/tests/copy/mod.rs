//! A second reader, made in one pass with flags for what is wrong with it: names are looked up while
//! the grammar is read, and numbers are put in at the end.

/// What is wrong with a copy.
pub mod wrong {
    pub const NOTHING: u8 = 0;
    pub const AND_AFTER_OR: u8 = 1;
    pub const GROUPS_TO_THE_RIGHT: u8 = 2;
    pub const AGGREGATE_NOT_NEW: u8 = 3;
    pub const NUMBERS_FROM_THE_LIST: u8 = 4;
    pub const NAMES_BEFORE_FORM: u8 = 5;
    pub const TOUCHED_AT_52: u8 = 6;
    pub const WORDS_WITH_DIGITS: u8 = 7;
    pub const MINUS_APART: u8 = 8;
    pub const OUTER_IN_REACH: u8 = 9;
    pub const LISTED_TWICE: u8 = 10;
    pub const RESERVED_LISTED: u8 = 11;
    pub const NUMBERS_WRAP: u8 = 12;
    pub const LONGER_TEXTS: u8 = 13;
    pub const TABS: u8 = 14;
    pub const RECORD_FOR_EVERY_SYMBOL: u8 = 15;
    pub const NOT_BINDS_LAST: u8 = 16;
    pub const ATTRIBUTES_ONCE_IN_ALL: u8 = 17;
    pub const SOMES_APART_MAY_SHARE: u8 = 18;
    pub const NAMES_CUT_AT_TWELVE: u8 = 19;
    pub const MARK_WITHOUT_CONDITION: u8 = 20;
    pub const LIST_READ_AS_NEEDED: u8 = 21;
    pub const BYTE_PAST_THE_RECORDS: u8 = 22;
    pub const FULL_BUFFER_REFUSED: u8 = 23;
    pub const V_IS_A_NAME: u8 = 24;
    pub const NUMBER_OUTSIDE_IS_51: u8 = 25;
    pub const BUFFER_BEFORE_NAMES: u8 = 26;
    pub const NAMES_ACROSS_KINDS: u8 = 27;
    pub const SOME_HEADS_UNKNOWN: u8 = 28;
    pub const NUMBERS_BY_FIRST_USE: u8 = 29;
    pub const UNUSED_RELATION_UNKNOWN: u8 = 30;
    pub const LENGTH_AT_52: u8 = 31;
}
use wrong::*;

#[derive(Clone, PartialEq)]
enum Word {
    Letters(String),
    Number(i32),
    Sign(String),
}

/// A byte, or the number of a variable that is not known yet.
#[derive(Clone, Copy)]
enum Item {
    Byte(u8),
    Variable(usize),
}
use Item::{Byte, Variable};

/// A symbol where it means something.
struct Symbol {
    name: String,
    relation: u8,
    variable: usize,
    /// The aggregate around it, 0 for none.
    aggregate: usize,
    is_range: bool,
}

struct Copy<'a, const WRONG: u8> {
    words: Vec<Word>,
    place: usize,
    names: &'a [u8],
    symbols: Vec<Symbol>,
    /// Which variables have a record.
    has_record: Vec<bool>,
    bound: Vec<String>,
    aggregate: usize,
    aggregates: usize,
    is_name_bad: bool,
}

const RESERVED: &str = " RANGE RETRIEVE NOT SOME IN V COUNT SUM AVE MAX MIN ";
const FUNCTIONS: [&str; 5] = ["COUNT", "SUM", "AVE", "MAX", "MIN"];

fn is_reserved<const WRONG: u8>(word: &str) -> bool {
    if WRONG == V_IS_A_NAME && word == "V" {
        return false;
    }
    RESERVED.contains(&format!(" {word} "))
}

/// The words, and whether a number is outside 32 bits.
fn words<const WRONG: u8>(text: &[u8]) -> Option<(Vec<Word>, bool)> {
    let mut words = Vec::new();
    let mut is_outside = false;
    let mut at = 0;
    while at < text.len() {
        let start = at;
        let byte = text[at];
        at += 1;
        let next = text.get(at).copied().unwrap_or(0);
        match byte {
            b' ' | b'\n' | b'\r' => {}
            b'\t' if WRONG == TABS => {}
            b'A'..=b'Z' => {
                let goes_on = |byte: u8| {
                    byte.is_ascii_uppercase() || WRONG == WORDS_WITH_DIGITS && byte.is_ascii_digit()
                };
                while at < text.len() && goes_on(text[at]) {
                    at += 1;
                }
                let letters = String::from_utf8(text[start..at].to_vec()).unwrap();
                words.push(Word::Letters(letters));
            }
            b'-' | b'0'..=b'9' => {
                while WRONG == MINUS_APART && byte == b'-' && text.get(at) == Some(&b' ') {
                    at += 1;
                }
                let digits_from = if byte == b'-' { at } else { start };
                while at < text.len() && text[at].is_ascii_digit() {
                    at += 1;
                }
                let digits = std::str::from_utf8(&text[digits_from..at]).unwrap();
                if digits.is_empty() {
                    return None;
                }
                let digits = digits.trim_start_matches('0');
                let sign = if byte == b'-' { "-" } else { "" };
                let number = format!("{sign}0{digits}");
                words.push(Word::Number(match number.parse::<i32>() {
                    Ok(number) => number,
                    Err(_) if WRONG == NUMBERS_WRAP => number.parse::<i128>().unwrap_or(0) as i32,
                    Err(_) if WRONG == NUMBER_OUTSIDE_IS_51 => {
                        is_outside = true;
                        0
                    }
                    Err(_) => return None,
                }));
            }
            b'<' | b'>' if next == b'=' => {
                at += 1;
                words.push(Word::Sign(format!("{}=", byte as char)));
            }
            b'(' | b')' | b',' | b':' | b';' | b'.' | b'^' | b'=' | b'#' | b'<' | b'>' => {
                words.push(Word::Sign((byte as char).to_string()));
            }
            _ => return None,
        }
    }
    Some((words, is_outside))
}

/// The fronts and names of the list's records.
fn listed(names: &[u8]) -> Vec<(&[u8], &[u8])> {
    let mut records = Vec::new();
    let mut at = 0;
    while at < names.len() {
        let front = match names[at] {
            80 => 2,
            81 => 3,
            82 => 5,
            _ => break,
        };
        if at + front + 12 > names.len() {
            break;
        }
        records.push((&names[at..at + front], &names[at + front..at + front + 12]));
        at += front + 12;
    }
    records
}

fn is_list_good<const WRONG: u8>(names: &[u8]) -> bool {
    if WRONG == LIST_READ_AS_NEEDED {
        return true;
    }
    let records = listed(names);
    let bytes: usize = records.iter().map(|(front, _)| front.len() + 12).sum();
    let is_name_good = |name: &[u8]| {
        let text = String::from_utf8_lossy(name).into_owned();
        let trimmed = text.trim_end_matches(' ');
        let is_reserved = WRONG != RESERVED_LISTED && is_reserved::<NOTHING>(trimmed);
        !trimmed.is_empty() && trimmed.bytes().all(|byte| byte.is_ascii_uppercase()) && !is_reserved
    };
    let are_alike = |one: &(&[u8], &[u8]), other: &(&[u8], &[u8])| {
        let is_place_alike =
            one.0[0] != 81 || one.0[1] == other.0[1] || WRONG == ATTRIBUTES_ONCE_IN_ALL;
        let is_kind_alike = one.0[0] == other.0[0] || WRONG == NAMES_ACROSS_KINDS;
        one.1 == other.1 && is_kind_alike && is_place_alike
    };
    let is_twice = |place: usize| {
        let earlier = &records[..place];
        earlier
            .iter()
            .any(|record| are_alike(record, &records[place]))
    };
    bytes == names.len()
        && records.iter().all(|(_, name)| is_name_good(name))
        && (WRONG == LISTED_TWICE || !(0..records.len()).any(is_twice))
}

impl<const WRONG: u8> Copy<'_, WRONG> {
    fn sign(&self) -> &str {
        match self.words.get(self.place) {
            Some(Word::Sign(sign)) => sign,
            _ => "",
        }
    }

    fn letters(&self) -> &str {
        match self.words.get(self.place) {
            Some(Word::Letters(letters)) => letters,
            _ => "",
        }
    }

    /// Passes a sign or a reserved word.
    fn pass(&mut self, word: &str) -> Option<()> {
        if self.sign() != word && self.letters() != word {
            return None;
        }
        self.place += 1;
        Some(())
    }

    fn name(&mut self) -> Option<String> {
        let name = self.letters().to_string();
        if name.is_empty() || is_reserved::<WRONG>(&name) {
            return None;
        }
        self.place += 1;
        Some(name)
    }

    /// The front of a record of the list, by kind and name.
    fn front(&mut self, kind: &[u8], name: &str) -> Vec<u8> {
        let mut name = format!("{name:12}");
        if WRONG == NAMES_CUT_AT_TWELVE {
            name.truncate(12);
        }
        let records = listed(self.names);
        let mut found = records
            .iter()
            .filter(|record| record.0.starts_with(kind) && record.1 == name.as_bytes());
        if let Some((front, _)) = found.next() {
            return front.to_vec();
        }
        self.is_name_bad = true;
        vec![0; 5]
    }

    fn relation(&mut self, name: &str) -> u8 {
        self.front(&[80], name)[1]
    }

    fn attribute(&mut self, relation: u8, name: &str) -> u8 {
        self.front(&[81, relation], name)[2]
    }

    fn new_variable(&mut self) -> usize {
        self.has_record.push(false);
        self.has_record.len() - 1
    }

    fn bind(&mut self, name: &str) {
        if self.bound.iter().any(|bound| bound == name) {
            self.is_name_bad = true;
        }
        self.bound.push(name.to_string());
    }

    fn text(&mut self) -> Option<Vec<Item>> {
        self.pass("RANGE")?;
        loop {
            let name = self.name()?;
            let was_bad = self.is_name_bad;
            let relation = self.relation(&name);
            if WRONG == UNUSED_RELATION_UNKNOWN {
                self.is_name_bad = was_bad;
            }
            self.pass("(")?;
            loop {
                let name = self.name()?;
                self.bind(&name);
                let variable = self.new_variable();
                self.has_record[variable] = WRONG == RECORD_FOR_EVERY_SYMBOL;
                self.symbols.push(Symbol {
                    name,
                    relation,
                    variable,
                    aggregate: 0,
                    is_range: true,
                });
                if self.pass(",").is_none() {
                    break;
                }
            }
            self.pass(")")?;
            if self.pass(":").is_none() {
                break;
            }
        }
        self.pass("RETRIEVE")?;
        self.name()?;
        self.pass(":")?;
        let mut items = self.target()?;
        while self.pass(",").is_some() {
            items.extend(self.target()?);
        }
        items.extend(self.qualification(":")?);
        if self.place < self.words.len() {
            return None;
        }
        Some(items)
    }

    fn qualification(&mut self, mark: &str) -> Option<Vec<Item>> {
        if self.pass(mark).is_none() {
            return Some(vec![Byte(16)]);
        }
        let is_end = self.place == self.words.len() || self.sign() == ")";
        if WRONG == MARK_WITHOUT_CONDITION && is_end {
            return Some(vec![Byte(16)]);
        }
        self.condition(0)
    }

    fn target(&mut self) -> Option<Vec<Item>> {
        if !FUNCTIONS.contains(&self.letters()) {
            let name = self.name()?;
            return self.use_of(name);
        }
        self.term()
    }

    /// What follows a symbol.
    fn use_of(&mut self, name: String) -> Option<Vec<Item>> {
        self.pass(".")?;
        let attribute = self.name()?;
        let aggregate = self.aggregate;
        let mut in_reach = self.symbols.iter().rev().filter(|symbol| {
            let is_near = symbol.aggregate == aggregate || WRONG == OUTER_IN_REACH;
            symbol.name == name && is_near
        });
        let Some(symbol) = in_reach.next() else {
            self.is_name_bad = true;
            return Some(vec![]);
        };
        let (variable, relation) = (symbol.variable, symbol.relation);
        self.has_record[variable] = true;
        let attribute = self.attribute(relation, &attribute);
        Some(vec![Byte(33), Variable(variable), Byte(attribute)])
    }

    fn aggregate(&mut self, function: u8) -> Option<Vec<Item>> {
        self.pass("(")?;
        let name = self.name()?;
        self.pass(".")?;
        let attribute = self.name()?;
        let found =
            self.symbols.iter().rev().find(|symbol| {
                symbol.name == name && (symbol.is_range || WRONG != SOME_HEADS_UNKNOWN)
            });
        let (relation, outer) = match found {
            Some(symbol) => (symbol.relation, symbol.variable),
            None => {
                self.is_name_bad = true;
                (0, 0)
            }
        };
        let attribute = self.attribute(relation, &attribute);
        let variable = if WRONG == AGGREGATE_NOT_NEW {
            outer
        } else {
            self.new_variable()
        };
        let around = self.aggregate;
        self.aggregates += 1;
        self.aggregate = self.aggregates;
        self.symbols.push(Symbol {
            name,
            relation,
            variable,
            aggregate: self.aggregate,
            is_range: false,
        });
        let front = [34, function].map(Byte);
        let own = [Variable(variable), Byte(relation), Byte(attribute)];
        let condition = self.qualification(";")?;
        self.symbols.pop();
        self.aggregate = around;
        self.pass(")")?;
        Some([&front[..], &own, &condition].concat())
    }

    fn term(&mut self) -> Option<Vec<Item>> {
        if let Some(Word::Number(number)) = self.words.get(self.place) {
            let bytes = number.to_le_bytes().map(Byte);
            self.place += 1;
            return Some([&[Byte(32)], &bytes[..]].concat());
        }
        let function = FUNCTIONS.iter().position(|word| *word == self.letters());
        if let Some(function) = function {
            self.place += 1;
            return self.aggregate(function as u8 + 1);
        }
        let name = self.name()?;
        if self.sign() == "." {
            return self.use_of(name);
        }
        let value = self.front(&[82], &name)[1..5].to_vec();
        let value: Vec<Item> = value.into_iter().map(Byte).collect();
        Some([&[Byte(32)], &value[..]].concat())
    }

    /// Operators that bind at least so closely.
    fn condition(&mut self, least: usize) -> Option<Vec<Item>> {
        let mut left = self.factor()?;
        loop {
            let is_or = self.letters() == "V";
            if !is_or && self.sign() != "^" {
                return Some(left);
            }
            let is_first = is_or != (WRONG == AND_AFTER_OR);
            let closeness = if is_first { 0 } else { 1 };
            if closeness < least {
                return Some(left);
            }
            self.place += 1;
            let right = if WRONG == GROUPS_TO_THE_RIGHT {
                self.condition(closeness)?
            } else {
                self.condition(closeness + 1)?
            };
            let kind = if is_or { 20 } else { 19 };
            left = [&[Byte(kind)], &left[..], &right].concat();
        }
    }

    fn factor(&mut self) -> Option<Vec<Item>> {
        if self.pass("NOT").is_some() {
            let inner = if WRONG == NOT_BINDS_LAST {
                self.condition(0)?
            } else {
                self.factor()?
            };
            return Some([&[Byte(18)], &inner[..]].concat());
        }
        if self.pass("SOME").is_some() {
            let name = self.name()?;
            self.pass("IN")?;
            let relation = self.name()?;
            let relation = self.relation(&relation);
            self.pass("(")?;
            self.bind(&name);
            let variable = self.new_variable();
            let aggregate = self.aggregate;
            self.symbols.push(Symbol {
                name,
                relation,
                variable,
                aggregate,
                is_range: false,
            });
            let inner = self.condition(0)?;
            self.symbols.pop();
            if WRONG == SOMES_APART_MAY_SHARE {
                self.bound.pop();
            }
            self.pass(")")?;
            let front = [Byte(22), Variable(variable), Byte(relation)];
            return Some([&front[..], &inner].concat());
        }
        if self.pass("(").is_some() {
            let inner = self.condition(0)?;
            self.pass(")")?;
            return Some(inner);
        }
        let left = self.term()?;
        let signs = ["=", "#", "<", "<=", ">", ">="];
        let sign = signs.iter().position(|sign| *sign == self.sign())?;
        self.place += 1;
        let right = self.term()?;
        let front = [21, sign as u8 + 1].map(Byte);
        Some([&front[..], &left, &right].concat())
    }
}

pub fn read_copy<const WRONG: u8>(text: &[u8], names: &[u8], buffer: &mut [u8]) -> (u64, u64) {
    let longest = if WRONG == LONGER_TEXTS { 2_001 } else { 2_000 };
    let is_list_good = is_list_good::<WRONG>(names);
    if WRONG == NAMES_BEFORE_FORM && !is_list_good {
        return (51, 0);
    }
    if text.len() > longest {
        return (50, 0);
    }
    let Some((words, is_outside)) = words::<WRONG>(text) else {
        return (50, 0);
    };
    let mut copy = Copy::<WRONG> {
        words,
        place: 0,
        names,
        symbols: Vec::new(),
        has_record: Vec::new(),
        bound: Vec::new(),
        aggregate: 0,
        aggregates: 0,
        is_name_bad: is_outside,
    };
    let Some(items) = copy.text() else {
        return (50, 0);
    };
    let bytes = numbered(&copy, &items);
    let is_named_well = is_list_good && !copy.is_name_bad;
    let is_short = buffer.len() < bytes.len() + usize::from(WRONG == FULL_BUFFER_REFUSED);
    if WRONG == BUFFER_BEFORE_NAMES && is_short {
        return (52, 0);
    }
    if !is_named_well {
        return (51, 0);
    }
    if is_short {
        if WRONG == TOUCHED_AT_52 {
            let room = buffer.len();
            buffer.copy_from_slice(&bytes[..room]);
        }
        let length = if WRONG == LENGTH_AT_52 {
            bytes.len()
        } else {
            0
        };
        return (52, length as u64);
    }
    buffer[..bytes.len()].copy_from_slice(&bytes);
    if WRONG == BYTE_PAST_THE_RECORDS {
        if let Some(past) = buffer.get_mut(bytes.len()) {
            *past = 0;
        }
    }
    (0, bytes.len() as u64)
}

/// The RANGE records, then the items, with the numbers of their variables.
fn numbered<const WRONG: u8>(copy: &Copy<WRONG>, items: &[Item]) -> Vec<u8> {
    let mut order: Vec<usize> = Vec::new();
    let mut out: Vec<Item> = Vec::new();
    // Only the RANGE symbols are left.
    for symbol in copy.symbols.iter().filter(|symbol| symbol.is_range) {
        let has_record = copy.has_record[symbol.variable];
        if has_record || WRONG == NUMBERS_FROM_THE_LIST {
            order.push(symbol.variable);
        }
        if has_record {
            out.extend([Byte(1), Variable(symbol.variable), Byte(symbol.relation)]);
        }
    }
    if WRONG == NUMBERS_BY_FIRST_USE {
        order.clear();
        for item in items {
            if let Variable(variable) = item {
                order.push(*variable);
            }
        }
    }
    out.extend(items);
    let mut numbers: Vec<usize> = Vec::new();
    let mut number = |variable: usize| {
        let place = numbers.iter().position(|own| *own == variable);
        place.unwrap_or_else(|| {
            numbers.push(variable);
            numbers.len() - 1
        })
    };
    for variable in order {
        number(variable);
    }
    let byte = |item: &Item| match *item {
        Byte(byte) => byte,
        Variable(variable) => number(variable) as u8,
    };
    out.iter().map(byte).collect()
}
