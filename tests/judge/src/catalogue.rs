//! The catalogue, and a collection: a catalogue with its slice of values.

use crate::refusal;

pub const STORED: u8 = 48;
pub const WORKSPACE: u8 = 49;
pub const LATEST: u8 = 50;
pub const MOST_RELATIONS: usize = 16;
pub const MOST_ATTRIBUTES: usize = 16;
pub const MOST_ROWS: usize = 1024;

#[derive(Clone, Copy, PartialEq, Eq, Debug)]
pub enum Kind {
    Stored,
    Workspace,
    /// Stored, and walked from the last row to the first (Change 9).
    Latest,
}

impl Kind {
    /// Needs permits.
    pub fn is_stored(self) -> bool {
        self != Kind::Workspace
    }
}

#[derive(Clone, Copy, PartialEq, Eq, Debug)]
pub struct Relation {
    pub kind: Kind,
    pub attributes: usize,
    pub rows: usize,
}

impl Relation {
    fn cells(&self) -> usize {
        self.attributes * self.rows
    }

    /// The stored number of the row that the walk meets after this many others.
    pub fn place(&self, step: usize) -> usize {
        match self.kind {
            Kind::Latest => self.rows - 1 - step,
            Kind::Stored | Kind::Workspace => step,
        }
    }
}

/// The relations of a catalogue, or None if there is a ground for refusal 10.
pub fn read(bytes: &[u8]) -> Option<Vec<Relation>> {
    let records: Vec<&[u8]> = bytes.chunks(4).collect();
    if records.is_empty() || records.len() > MOST_RELATIONS {
        return None;
    }
    records.into_iter().map(read_record).collect()
}

fn read_record(record: &[u8]) -> Option<Relation> {
    let &[kind, attributes, low, high] = record else {
        return None;
    };
    let kind = match kind {
        STORED => Kind::Stored,
        WORKSPACE => Kind::Workspace,
        LATEST => Kind::Latest,
        _ => return None,
    };
    let attributes = usize::from(attributes);
    let rows = usize::from(u16::from_le_bytes([low, high]));
    let in_range = (1..=MOST_ATTRIBUTES).contains(&attributes) && rows <= MOST_ROWS;
    in_range.then_some(Relation {
        kind,
        attributes,
        rows,
    })
}

pub struct Collection<'a> {
    pub relations: Vec<Relation>,
    values: &'a [i32],
}

impl<'a> Collection<'a> {
    /// Checks 10 and 11.
    pub fn read(catalogue: &[u8], values: &'a [i32]) -> Result<Self, u64> {
        let relations = read(catalogue).ok_or(refusal::CATALOGUE)?;
        let total: usize = relations.iter().map(Relation::cells).sum();
        if values.len() != total {
            return Err(refusal::VALUES);
        }
        Ok(Collection { relations, values })
    }

    /// The rows of a relation, in the order of its walk.
    pub fn rows(&self, relation: u8) -> impl Iterator<Item = &'a [i32]> {
        let number = usize::from(relation);
        let start: usize = self.relations[..number].iter().map(Relation::cells).sum();
        let here = self.relations[number];
        let values = &self.values[start..start + here.cells()];
        (0..here.rows).map(move |step| {
            let first = here.place(step) * here.attributes;
            &values[first..first + here.attributes]
        })
    }
}
