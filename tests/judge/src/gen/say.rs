//! Writes a query as QUEL, with names drawn for it: the way back from records to text.

use super::rng::Rng;
use crate::query::{
    bytes_of, Binding, Condition, Flat, Function, Operator, Query, Record, Term, OPERATORS,
};
use crate::text::names::{ATTRIBUTE, RELATION, VALUE, WIDTH};
use crate::text::words::RESERVED;
use std::collections::{BTreeMap, BTreeSet};

/// A query as near as the grammar has it: TRUE and FALSE are comparisons but for whole
/// qualifications, every RANGE is used outside aggregates, variables are numbered as they are bound.
/// None if the query binds a number twice.
pub fn sayable(rng: &mut Rng, query: &Query) -> Option<Query> {
    let bound: BTreeSet<u8> = query.bindings().iter().map(|own| own.variable).collect();
    if bound.len() != query.bindings().len() {
        return None;
    }
    let mut query = query.clone();
    for target in &mut query.targets {
        say_term(rng, target);
    }
    say_qualification(rng, &mut query.condition);
    let used = used_outside_aggregates(&query);
    query.ranges.retain(|range| used.contains(&range.variable));
    Some(renumbered(
        &query.records(),
        |relation| relation,
        |attribute| attribute,
    ))
}

/// Variables in the order of binding, other numbers as told.
pub fn renumbered(
    records: &[Record],
    relation_of: impl Fn(u8) -> u8,
    attribute_of: impl Fn(u8) -> u8,
) -> Query {
    let bound = records.iter().filter_map(|record| record.binding());
    let numbers: BTreeMap<u8, u8> = bound.map(|own| own.variable).zip(0..).collect();
    // Out of reach already: it stays so.
    let number = |variable: u8| numbers.get(&variable).copied().unwrap_or(variable);
    let moved = |own: Binding| Binding {
        variable: number(own.variable),
        relation: relation_of(own.relation),
    };
    let records: Vec<Record> = records
        .iter()
        .map(|record| match *record {
            Record::Range(own) => Record::Range(moved(own)),
            Record::Exists(own) => Record::Exists(moved(own)),
            Record::Attribute {
                variable,
                attribute,
            } => Record::Attribute {
                variable: number(variable),
                attribute: attribute_of(attribute),
            },
            Record::Aggregate {
                function,
                binding,
                attribute,
            } => Record::Aggregate {
                function,
                binding: moved(binding),
                attribute: attribute_of(attribute),
            },
            other => other,
        })
        .collect();
    let flat = Flat::read(&bytes_of(&records));
    flat.expect("the records were a query").tree()
}

fn say_qualification(rng: &mut Rng, condition: &mut Condition) {
    if *condition != Condition::True {
        say_condition(rng, condition);
    }
}

fn say_condition(rng: &mut Rng, condition: &mut Condition) {
    match condition {
        Condition::True | Condition::False => {
            let is_true = *condition == Condition::True;
            let operator = rng.pick(&OPERATORS);
            let (left, right) = loop {
                let (left, right) = (rng.below(4) as i32 - 1, rng.below(4) as i32 - 1);
                if operator.holds(left.cmp(&right)) == is_true {
                    break (left, right);
                }
            };
            let (left, right) = (Term::Constant(left), Term::Constant(right));
            *condition = Condition::Compare(operator, left, right);
        }
        Condition::Not(inner) | Condition::Exists(_, inner) => say_condition(rng, inner),
        Condition::And(left, right) | Condition::Or(left, right) => {
            say_condition(rng, left);
            say_condition(rng, right);
        }
        Condition::Compare(_, left, right) => {
            say_term(rng, left);
            say_term(rng, right);
        }
    }
}

fn say_term(rng: &mut Rng, term: &mut Term) {
    if let Term::Aggregate(aggregate) = term {
        say_qualification(rng, &mut aggregate.condition);
    }
}

fn used_outside_aggregates(query: &Query) -> BTreeSet<u8> {
    let mut used = BTreeSet::new();
    for target in &query.targets {
        note_term(target, &mut used);
    }
    note_condition(&query.condition, &mut used);
    used
}

fn note_condition(condition: &Condition, used: &mut BTreeSet<u8>) {
    match condition {
        Condition::True | Condition::False => {}
        Condition::Not(inner) | Condition::Exists(_, inner) => note_condition(inner, used),
        Condition::And(left, right) | Condition::Or(left, right) => {
            note_condition(left, used);
            note_condition(right, used);
        }
        Condition::Compare(_, left, right) => {
            note_term(left, used);
            note_term(right, used);
        }
    }
}

fn note_term(term: &Term, used: &mut BTreeSet<u8>) {
    if let Term::Attribute { variable, .. } = term {
        used.insert(*variable);
    }
}

/// What a query is said with: its words, numbers and signs, and the records of its name list.
#[derive(Clone, Debug)]
pub struct Said {
    pub words: Vec<String>,
    pub names: Vec<Vec<u8>>,
}

/// A record of the name list.
pub fn listed(front: &[u8], name: &str) -> Vec<u8> {
    [front, format!("{name:WIDTH$}").as_bytes()].concat()
}

/// Words with which a reader could go wrong, and short ones that meet.
const WORDS: [&str; 32] = [
    "A", "B", "C", "X", "Y", "Z", "W", "U", "AB", "VV", "VA", "AV", "INN", "NOTE", "SOMEX", "RANG",
    "RANGES", "COUNTS", "SU", "AVES", "MAXI", "TRUE", "FALSE", "ALL", "AND", "OR", "TOY", "NAME",
    "PRICE", "DELETE", "REPLACE", "NO",
];

/// A word that is not reserved, of at most this many letters.
pub fn word(rng: &mut Rng, most: usize) -> String {
    loop {
        let word = match rng.below(10) {
            0..=5 => rng.pick(&WORDS).to_string(),
            6..=7 => letters(rng, 1),
            8 => letters(rng, WIDTH),
            _ => {
                let length = rng.between(1, most);
                letters(rng, length)
            }
        };
        if !RESERVED.contains(&word.as_str()) {
            return word;
        }
    }
}

fn letters(rng: &mut Rng, count: usize) -> String {
    let letter = |_| (b'A' + rng.below(26) as u8) as char;
    (0..count).map(letter).collect()
}

struct Sayer<'a> {
    rng: &'a mut Rng,
    words: Vec<String>,
    relations: BTreeMap<String, u8>,
    attributes: BTreeMap<(u8, String), u8>,
    values: BTreeMap<String, i32>,
    /// All symbols of the RANGE and of SOMEs.
    bound: BTreeSet<String>,
    /// The RANGE list: symbols with their relations, in order.
    ranges: Vec<(String, u8)>,
    /// The SOMEs around a place.
    around: Vec<(String, u8)>,
    /// The symbols of variables.
    symbols: BTreeMap<u8, String>,
}

/// Says a query that is sayable.
pub fn say(rng: &mut Rng, query: &Query) -> Said {
    let mut sayer = Sayer {
        rng,
        words: Vec::new(),
        relations: BTreeMap::new(),
        attributes: BTreeMap::new(),
        values: BTreeMap::new(),
        bound: BTreeSet::new(),
        ranges: Vec::new(),
        around: Vec::new(),
        symbols: BTreeMap::new(),
    };
    for range in &query.ranges {
        let symbol = sayer.symbol();
        sayer.ranges.push((symbol.clone(), range.relation));
        sayer.symbols.insert(range.variable, symbol);
    }
    for (place, target) in query.targets.iter().enumerate() {
        if place > 0 {
            sayer.put(",");
        }
        sayer.term(target);
    }
    sayer.qualification(":", &query.condition);
    let body = std::mem::take(&mut sayer.words);
    sayer.idle_symbols(query);
    sayer.frame();
    sayer.words.extend(body);
    let names = sayer.list();
    let words = sayer.words;
    Said { words, names }
}

impl Sayer<'_> {
    fn put(&mut self, word: &str) {
        self.words.push(word.to_string());
    }

    /// A symbol that is not bound yet.
    fn symbol(&mut self) -> String {
        loop {
            let symbol = word(self.rng, 16);
            if self.bound.insert(symbol.clone()) {
                return symbol;
            }
        }
    }

    /// A RANGE symbol that gives no record.
    fn idle_symbol(&mut self, relation: u8) -> String {
        let symbol = self.symbol();
        let place = self.rng.below(self.ranges.len() + 1);
        self.ranges.insert(place, (symbol.clone(), relation));
        symbol
    }

    fn idle_symbols(&mut self, query: &Query) {
        let relations: Vec<u8> = query.bindings().iter().map(|own| own.relation).collect();
        while self.ranges.is_empty() || self.rng.percent(12) {
            let relation = if relations.is_empty() {
                0
            } else {
                self.rng.pick(&relations)
            };
            self.idle_symbol(relation);
        }
    }

    /// RANGE, RETRIEVE and the workspace.
    fn frame(&mut self) {
        self.put("RANGE");
        for (place, (symbol, relation)) in self.ranges.clone().into_iter().enumerate() {
            let is_joined = place > 0 && self.ranges[place - 1].1 == relation;
            if is_joined && self.rng.percent(70) {
                self.put(",");
            } else {
                if place > 0 {
                    self.put(")");
                    self.put(":");
                }
                let name = self.relation(relation);
                self.put(&name);
                self.put("(");
            }
            self.put(&symbol);
        }
        self.put(")");
        self.put("RETRIEVE");
        let workspace = word(self.rng, 20);
        self.put(&workspace);
        self.put(":");
    }

    fn relation(&mut self, number: u8) -> String {
        let known = self.relations.iter().filter(|(_, own)| **own == number);
        let known: Vec<String> = known.map(|(name, _)| name.clone()).collect();
        if !known.is_empty() && !self.rng.percent(5) {
            return known[self.rng.below(known.len())].clone();
        }
        loop {
            let name = word(self.rng, WIDTH);
            if !self.relations.contains_key(&name) {
                self.relations.insert(name.clone(), number);
                return name;
            }
        }
    }

    fn attribute(&mut self, relation: u8, number: u8) -> String {
        let is_own = |(key, own): &(&(u8, String), &u8)| key.0 == relation && **own == number;
        let known = self.attributes.iter().filter(is_own);
        let known: Vec<String> = known.map(|((_, name), _)| name.clone()).collect();
        if !known.is_empty() && !self.rng.percent(5) {
            return known[self.rng.below(known.len())].clone();
        }
        loop {
            let name = word(self.rng, WIDTH);
            let key = (relation, name.clone());
            if !self.attributes.contains_key(&key) {
                self.attributes.insert(key, number);
                return name;
            }
        }
    }

    fn constant(&mut self, number: i32) -> String {
        if self.rng.percent(30) {
            let name = word(self.rng, WIDTH);
            if *self.values.entry(name.clone()).or_insert(number) == number {
                return name;
            }
        }
        let zeros = match self.rng.below(20) {
            0 => self.rng.below(30),
            1..=2 => 1,
            _ => 0,
        };
        let is_minus = number < 0 || number == 0 && self.rng.percent(20);
        let minus = if is_minus { "-" } else { "" };
        format!("{minus}{}{}", "0".repeat(zeros), number.unsigned_abs())
    }

    /// The relation of a variable's symbol is found by the symbol: an aggregate has that of its head.
    fn relation_of(&self, symbol: &str) -> u8 {
        let mut all = self.ranges.iter().chain(&self.around);
        let found = all.find(|(own, _)| own == symbol);
        found.expect("a symbol in reach").1
    }

    fn term(&mut self, term: &Term) {
        match term {
            Term::Constant(number) => {
                let constant = self.constant(*number);
                self.put(&constant);
            }
            Term::Attribute {
                variable,
                attribute,
            } => {
                let symbol = self.symbols[variable].clone();
                let relation = self.relation_of(&symbol);
                self.use_of(&symbol, relation, *attribute);
            }
            Term::Aggregate(aggregate) => {
                let Binding { variable, relation } = aggregate.binding;
                self.put(match aggregate.function {
                    Function::Count => "COUNT",
                    Function::Sum => "SUM",
                    Function::Average => "AVE",
                    Function::Maximum => "MAX",
                    Function::Minimum => "MIN",
                });
                self.put("(");
                let heads = self.ranges.iter().chain(&self.around);
                let heads = heads.filter(|(_, own)| *own == relation);
                let heads: Vec<String> = heads.map(|(symbol, _)| symbol.clone()).collect();
                let head = if heads.is_empty() || self.rng.percent(10) {
                    self.idle_symbol(relation)
                } else {
                    heads[self.rng.below(heads.len())].clone()
                };
                self.use_of(&head, relation, aggregate.attribute);
                self.symbols.insert(variable, head);
                self.qualification(";", &aggregate.condition);
                self.put(")");
            }
        }
    }

    fn use_of(&mut self, symbol: &str, relation: u8, attribute: u8) {
        self.put(symbol);
        self.put(".");
        let name = self.attribute(relation, attribute);
        self.put(&name);
    }

    fn qualification(&mut self, mark: &str, condition: &Condition) {
        if *condition != Condition::True {
            self.put(mark);
            self.condition(condition, 0);
        }
    }

    /// Where OR may stand at level 0, AND up to 1, all else up to 2.
    fn condition(&mut self, condition: &Condition, level: usize) {
        let own = match condition {
            Condition::Or(..) => 0,
            Condition::And(..) => 1,
            _ => 2,
        };
        if own < level || self.rng.percent(12) {
            self.put("(");
            self.condition(condition, 0);
            self.put(")");
            return;
        }
        match condition {
            Condition::True | Condition::False => unreachable!("a sayable query"),
            Condition::Or(left, right) => {
                self.condition(left, 0);
                self.put("V");
                self.condition(right, 1);
            }
            Condition::And(left, right) => {
                self.condition(left, 1);
                self.put("^");
                self.condition(right, 2);
            }
            Condition::Not(inner) => {
                self.put("NOT");
                self.condition(inner, 2);
            }
            Condition::Compare(operator, left, right) => {
                self.term(left);
                self.put(match operator {
                    Operator::Equal => "=",
                    Operator::Unequal => "#",
                    Operator::Less => "<",
                    Operator::AtMost => "<=",
                    Operator::Greater => ">",
                    Operator::AtLeast => ">=",
                });
                self.term(right);
            }
            Condition::Exists(Binding { variable, relation }, inner) => {
                let symbol = self.symbol();
                let name = self.relation(*relation);
                for word in ["SOME", &symbol, "IN", &name, "("] {
                    self.put(word);
                }
                self.symbols.insert(*variable, symbol.clone());
                self.around.push((symbol, *relation));
                self.condition(inner, 0);
                self.around.pop();
                self.put(")");
            }
        }
    }

    /// The name list: what is used, and some more, in any order.
    fn list(&mut self) -> Vec<Vec<u8>> {
        while self.rng.percent(30) {
            let name = word(self.rng, WIDTH);
            let (relation, number) = (self.rng.byte() % 4, self.rng.byte());
            match self.rng.below(3) {
                0 => drop(self.relations.entry(name).or_insert(number)),
                1 => drop(self.attributes.entry((relation, name)).or_insert(number)),
                _ => drop(self.values.entry(name).or_insert(i32::from(number))),
            }
        }
        let mut names = Vec::new();
        for (name, number) in &self.relations {
            names.push(listed(&[RELATION, *number], name));
        }
        for ((relation, name), number) in &self.attributes {
            names.push(listed(&[ATTRIBUTE, *relation, *number], name));
        }
        for (name, value) in &self.values {
            let front = [&[VALUE], &value.to_le_bytes()[..]].concat();
            names.push(listed(&front, name));
        }
        self.rng.shuffle(&mut names);
        names
    }
}

/// The words put together, with blanks where they are needed and, so many in a hundred, elsewhere.
pub fn join(rng: &mut Rng, words: &[String], blanks: usize) -> Vec<u8> {
    let mut text: Vec<u8> = Vec::new();
    for word in words {
        let is_letter = |byte: Option<&u8>| byte.is_some_and(u8::is_ascii_uppercase);
        let is_needed = is_letter(text.last()) && is_letter(word.as_bytes().first());
        if is_needed || rng.percent(blanks) {
            put_blanks(rng, &mut text);
        }
        text.extend(word.as_bytes());
    }
    if rng.percent(blanks) {
        put_blanks(rng, &mut text);
    }
    text
}

fn put_blanks(rng: &mut Rng, text: &mut Vec<u8>) {
    let count = rng.pick(&[1, 1, 1, 1, 2, 3]);
    text.extend((0..count).map(|_| rng.pick(b"   \n\r")));
}
