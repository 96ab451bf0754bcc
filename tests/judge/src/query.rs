//! The records of queries and conditions.
//!
//! Bytes are read into a flat list of entries in prefix order, with an explicit stack, because
//! a query may nest as deep as it is long. Trees are built only after the levels were checked.

use std::cmp::Ordering;

#[derive(Clone, Copy, PartialEq, Eq, Debug)]
pub enum Operator {
    Equal = 1,
    Unequal = 2,
    Less = 3,
    AtMost = 4,
    Greater = 5,
    AtLeast = 6,
}

pub const OPERATORS: [Operator; 6] = [
    Operator::Equal,
    Operator::Unequal,
    Operator::Less,
    Operator::AtMost,
    Operator::Greater,
    Operator::AtLeast,
];

impl Operator {
    fn read(byte: u8) -> Option<Operator> {
        OPERATORS
            .into_iter()
            .find(|operator| *operator as u8 == byte)
    }

    pub fn holds(self, ordering: Ordering) -> bool {
        match self {
            Operator::Equal => ordering == Ordering::Equal,
            Operator::Unequal => ordering != Ordering::Equal,
            Operator::Less => ordering == Ordering::Less,
            Operator::AtMost => ordering != Ordering::Greater,
            Operator::Greater => ordering == Ordering::Greater,
            Operator::AtLeast => ordering != Ordering::Less,
        }
    }
}

#[derive(Clone, Copy, PartialEq, Eq, Debug)]
pub enum Function {
    Count = 1,
    Sum = 2,
    Average = 3,
    Maximum = 4,
    Minimum = 5,
}

pub const FUNCTIONS: [Function; 5] = [
    Function::Count,
    Function::Sum,
    Function::Average,
    Function::Maximum,
    Function::Minimum,
];

impl Function {
    fn read(byte: u8) -> Option<Function> {
        FUNCTIONS
            .into_iter()
            .find(|function| *function as u8 == byte)
    }
}

/// A variable and the relation it runs over.
#[derive(Clone, Copy, PartialEq, Eq, Debug)]
pub struct Binding {
    pub variable: u8,
    pub relation: u8,
}

#[derive(Clone, Copy, PartialEq, Eq, Debug)]
pub enum Record {
    Range(Binding),
    True,
    False,
    Not,
    And,
    Or,
    Compare(Operator),
    /// SOME of the document.
    Exists(Binding),
    Constant(i32),
    Attribute {
        variable: u8,
        attribute: u8,
    },
    Aggregate {
        function: Function,
        binding: Binding,
        attribute: u8,
    },
}

/// What may stand at a place.
#[derive(Clone, Copy, PartialEq, Eq, Debug)]
pub enum Part {
    Range,
    Condition,
    Term,
}

impl Record {
    /// The first record of the bytes; None if it is cut short, or of unknown kind, operator or function.
    fn read(bytes: &[u8]) -> Option<Record> {
        let record = match *bytes {
            [1, variable, relation, ..] => Record::Range(Binding { variable, relation }),
            [16, ..] => Record::True,
            [17, ..] => Record::False,
            [18, ..] => Record::Not,
            [19, ..] => Record::And,
            [20, ..] => Record::Or,
            [21, operator, ..] => Record::Compare(Operator::read(operator)?),
            [22, variable, relation, ..] => Record::Exists(Binding { variable, relation }),
            [32, a, b, c, d, ..] => Record::Constant(i32::from_le_bytes([a, b, c, d])),
            [33, variable, attribute, ..] => Record::Attribute {
                variable,
                attribute,
            },
            [34, function, variable, relation, attribute, ..] => Record::Aggregate {
                function: Function::read(function)?,
                binding: Binding { variable, relation },
                attribute,
            },
            _ => return None,
        };
        Some(record)
    }

    pub fn bytes(self) -> Vec<u8> {
        match self {
            Record::Range(Binding { variable, relation }) => vec![1, variable, relation],
            Record::True => vec![16],
            Record::False => vec![17],
            Record::Not => vec![18],
            Record::And => vec![19],
            Record::Or => vec![20],
            Record::Compare(operator) => vec![21, operator as u8],
            Record::Exists(Binding { variable, relation }) => vec![22, variable, relation],
            Record::Constant(number) => [&[32], &number.to_le_bytes()[..]].concat(),
            Record::Attribute {
                variable,
                attribute,
            } => vec![33, variable, attribute],
            Record::Aggregate {
                function,
                binding,
                attribute,
            } => {
                vec![
                    34,
                    function as u8,
                    binding.variable,
                    binding.relation,
                    attribute,
                ]
            }
        }
    }

    fn part(self) -> Part {
        match self {
            Record::Range(_) => Part::Range,
            Record::Constant(_) | Record::Attribute { .. } | Record::Aggregate { .. } => Part::Term,
            _ => Part::Condition,
        }
    }

    fn children(self) -> &'static [Part] {
        match self {
            Record::Not | Record::Exists(_) | Record::Aggregate { .. } => &[Part::Condition],
            Record::And | Record::Or => &[Part::Condition, Part::Condition],
            Record::Compare(_) => &[Part::Term, Part::Term],
            _ => &[],
        }
    }

    /// What the record binds, if it is a binding record.
    pub fn binding(self) -> Option<Binding> {
        match self {
            Record::Range(binding) | Record::Exists(binding) => Some(binding),
            Record::Aggregate { binding, .. } => Some(binding),
            _ => None,
        }
    }

    /// The variable and attribute that the record uses, an aggregate's own included.
    pub fn attribute_use(self) -> Option<(u8, u8)> {
        match self {
            Record::Attribute {
                variable,
                attribute,
            } => Some((variable, attribute)),
            Record::Aggregate {
                binding, attribute, ..
            } => Some((binding.variable, attribute)),
            _ => None,
        }
    }
}

/// A record where it was read: its offset in the bytes and its level.
#[derive(Clone, Copy, PartialEq, Eq, Debug)]
pub struct Entry {
    pub record: Record,
    pub offset: usize,
    pub level: usize,
}

/// Reads records one after another.
pub struct Reader<'a> {
    pub bytes: &'a [u8],
    pub offset: usize,
}

impl Reader<'_> {
    fn rest(&self) -> &[u8] {
        &self.bytes[self.offset..]
    }

    pub fn at_end(&self) -> bool {
        self.rest().is_empty()
    }

    fn record(&mut self, part: Part, level: usize) -> Option<Entry> {
        let record = Record::read(self.rest())?;
        if record.part() != part {
            return None;
        }
        let offset = self.offset;
        self.offset += record.bytes().len();
        Some(Entry {
            record,
            offset,
            level,
        })
    }

    /// A condition or term at level 1 with everything below it; None if it is not well formed.
    pub fn tree(&mut self, part: Part) -> Option<Vec<Entry>> {
        let mut entries = Vec::new();
        let mut expected = vec![(part, 1)];
        while let Some((part, level)) = expected.pop() {
            let entry = self.record(part, level)?;
            entries.push(entry);
            for child in entry.record.children().iter().rev() {
                expected.push((*child, level + 1));
            }
        }
        Some(entries)
    }
}

/// A well-formed query as its records.
pub struct Flat {
    pub ranges: Vec<Entry>,
    pub targets: Vec<Vec<Entry>>,
    pub condition: Vec<Entry>,
}

impl Flat {
    /// None if the bytes are not a well-formed query.
    pub fn read(bytes: &[u8]) -> Option<Flat> {
        let mut reader = Reader { bytes, offset: 0 };
        let mut ranges = Vec::new();
        while let [1, ..] = reader.rest() {
            ranges.push(reader.record(Part::Range, 0)?);
        }
        let mut targets = Vec::new();
        while let [33 | 34, ..] = reader.rest() {
            targets.push(reader.tree(Part::Term)?);
        }
        let condition = reader.tree(Part::Condition)?;
        let complete = !targets.is_empty() && reader.at_end();
        complete.then_some(Flat {
            ranges,
            targets,
            condition,
        })
    }

    /// All entries, in byte order.
    pub fn entries(&self) -> Vec<Entry> {
        [&self.ranges[..], &self.targets.concat(), &self.condition].concat()
    }

    /// Call it only after the levels were checked: it recurses.
    pub fn tree(&self) -> Query {
        Query {
            ranges: self
                .ranges
                .iter()
                .filter_map(|entry| entry.record.binding())
                .collect(),
            targets: self
                .targets
                .iter()
                .map(|entries| Term::build(&records_of(entries)))
                .collect(),
            condition: Condition::build(&records_of(&self.condition)),
        }
    }
}

pub fn records_of(entries: &[Entry]) -> Vec<Record> {
    entries.iter().map(|entry| entry.record).collect()
}

pub fn bytes_of(records: &[Record]) -> Vec<u8> {
    records.iter().flat_map(|record| record.bytes()).collect()
}

#[derive(Clone, PartialEq, Eq, Debug)]
pub struct Query {
    pub ranges: Vec<Binding>,
    pub targets: Vec<Term>,
    pub condition: Condition,
}

#[derive(Clone, PartialEq, Eq, Debug)]
pub enum Condition {
    True,
    False,
    Not(Box<Condition>),
    And(Box<Condition>, Box<Condition>),
    Or(Box<Condition>, Box<Condition>),
    Compare(Operator, Term, Term),
    Exists(Binding, Box<Condition>),
}

#[derive(Clone, PartialEq, Eq, Debug)]
pub enum Term {
    Constant(i32),
    Attribute { variable: u8, attribute: u8 },
    Aggregate(Box<Aggregate>),
}

#[derive(Clone, PartialEq, Eq, Debug)]
pub struct Aggregate {
    pub function: Function,
    pub binding: Binding,
    pub attribute: u8,
    pub condition: Condition,
}

impl Query {
    /// All records, in byte order.
    pub fn records(&self) -> Vec<Record> {
        let mut out: Vec<Record> = self
            .ranges
            .iter()
            .map(|range| Record::Range(*range))
            .collect();
        for target in &self.targets {
            target.list(&mut out);
        }
        self.condition.list(&mut out);
        out
    }

    pub fn bytes(&self) -> Vec<u8> {
        bytes_of(&self.records())
    }

    /// The variables the query binds, in byte order.
    pub fn bindings(&self) -> Vec<Binding> {
        self.records()
            .into_iter()
            .filter_map(Record::binding)
            .collect()
    }
}

impl Condition {
    pub fn negated(inner: Condition) -> Condition {
        Condition::Not(Box::new(inner))
    }

    pub fn and(left: Condition, right: Condition) -> Condition {
        Condition::And(Box::new(left), Box::new(right))
    }

    pub fn or(left: Condition, right: Condition) -> Condition {
        Condition::Or(Box::new(left), Box::new(right))
    }

    pub fn exists(binding: Binding, inner: Condition) -> Condition {
        Condition::Exists(binding, Box::new(inner))
    }

    /// The condition that these well-formed records are.
    pub fn build(records: &[Record]) -> Condition {
        build_condition(&mut records.iter().copied())
    }

    pub fn records(&self) -> Vec<Record> {
        let mut out = Vec::new();
        self.list(&mut out);
        out
    }

    fn list(&self, out: &mut Vec<Record>) {
        match self {
            Condition::True => out.push(Record::True),
            Condition::False => out.push(Record::False),
            Condition::Not(inner) => list_all(Record::Not, &[inner], out),
            Condition::And(left, right) => list_all(Record::And, &[left, right], out),
            Condition::Or(left, right) => list_all(Record::Or, &[left, right], out),
            Condition::Exists(binding, inner) => list_all(Record::Exists(*binding), &[inner], out),
            Condition::Compare(operator, left, right) => {
                out.push(Record::Compare(*operator));
                left.list(out);
                right.list(out);
            }
        }
    }
}

fn list_all(record: Record, children: &[&Condition], out: &mut Vec<Record>) {
    out.push(record);
    for child in children {
        child.list(out);
    }
}

impl Term {
    fn build(records: &[Record]) -> Term {
        build_term(&mut records.iter().copied())
    }

    fn list(&self, out: &mut Vec<Record>) {
        match self {
            Term::Constant(number) => out.push(Record::Constant(*number)),
            Term::Attribute {
                variable,
                attribute,
            } => {
                out.push(Record::Attribute {
                    variable: *variable,
                    attribute: *attribute,
                });
            }
            Term::Aggregate(aggregate) => {
                let Aggregate {
                    function,
                    binding,
                    attribute,
                    condition,
                } = &**aggregate;
                let record = Record::Aggregate {
                    function: *function,
                    binding: *binding,
                    attribute: *attribute,
                };
                list_all(record, &[condition], out);
            }
        }
    }
}

const WELL_FORMED: &str = "the records are well formed";

fn build_condition(records: &mut dyn Iterator<Item = Record>) -> Condition {
    match records.next().expect(WELL_FORMED) {
        Record::True => Condition::True,
        Record::False => Condition::False,
        Record::Not => Condition::negated(build_condition(records)),
        Record::And => {
            let left = build_condition(records);
            Condition::and(left, build_condition(records))
        }
        Record::Or => {
            let left = build_condition(records);
            Condition::or(left, build_condition(records))
        }
        Record::Compare(operator) => {
            let left = build_term(records);
            Condition::Compare(operator, left, build_term(records))
        }
        Record::Exists(binding) => Condition::exists(binding, build_condition(records)),
        _ => unreachable!("{WELL_FORMED}"),
    }
}

fn build_term(records: &mut dyn Iterator<Item = Record>) -> Term {
    match records.next().expect(WELL_FORMED) {
        Record::Constant(number) => Term::Constant(number),
        Record::Attribute {
            variable,
            attribute,
        } => Term::Attribute {
            variable,
            attribute,
        },
        Record::Aggregate {
            function,
            binding,
            attribute,
        } => {
            let condition = build_condition(records);
            Term::Aggregate(Box::new(Aggregate {
                function,
                binding,
                attribute,
                condition,
            }))
        }
        _ => unreachable!("{WELL_FORMED}"),
    }
}
