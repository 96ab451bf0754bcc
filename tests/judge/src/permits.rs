//! The list of permits and its checks, 20 to 23.

use crate::catalogue::Relation;
use crate::checks::{binding_records, deepest_level, Names};
use crate::query::{bytes_of, records_of, Binding, Condition, Entry, Part, Reader, Record};
use crate::refusal;

pub const PERMIT: u8 = 64;
pub const HEADER: usize = 4;
pub const ALL: u16 = 0xFFFF;
pub const MOST_LIST_BYTES: usize = 2048;
pub const MOST_PERMITS: usize = 8;
pub const MOST_BYTES: usize = 256;
pub const MOST_LEVELS: usize = 16;
pub const MOST_OTHER_VARIABLES: usize = 3;

#[derive(Clone, PartialEq, Eq, Debug)]
pub struct Permit {
    pub relation: u8,
    pub mask: u16,
    pub condition: Condition,
}

impl Permit {
    pub fn bytes(&self) -> Vec<u8> {
        let [low, high] = self.mask.to_le_bytes();
        let header = vec![PERMIT, self.relation, low, high];
        [header, bytes_of(&self.condition.records())].concat()
    }

    /// The condition is the single record FALSE.
    pub fn is_no_access(&self) -> bool {
        self.condition == Condition::False
    }

    /// Rule 3: the relation is the variable's, and the mask contains S. NO ACCESS never applies (Change 6).
    pub fn applies(&self, relation: u8, used: u16) -> bool {
        !self.is_no_access() && self.relation == relation && self.mask & used == used
    }

    /// Change 6: NO ACCESS to an attribute of S.
    pub fn bars(&self, relation: u8, used: u16) -> bool {
        self.is_no_access() && self.relation == relation && self.mask & used != 0
    }
}

/// A well-formed permit as its records.
pub struct Flat {
    pub offset: usize,
    pub length: usize,
    pub relation: u8,
    pub mask: u16,
    pub condition: Vec<Entry>,
}

impl Flat {
    fn tree(&self) -> Permit {
        let condition = Condition::build(&records_of(&self.condition));
        Permit {
            relation: self.relation,
            mask: self.mask,
            condition,
        }
    }

    fn is_oversized(&self) -> bool {
        self.length > MOST_BYTES
            || deepest_level(&self.condition) > MOST_LEVELS
            || binding_records(&self.condition) > MOST_OTHER_VARIABLES
    }
}

/// The permits of a well-formed list; None if it is not well formed.
pub fn read_flat(bytes: &[u8]) -> Option<Vec<Flat>> {
    let mut reader = Reader { bytes, offset: 0 };
    let mut list = Vec::new();
    while !reader.at_end() {
        list.push(read_one(&mut reader)?);
    }
    Some(list)
}

fn read_one(reader: &mut Reader) -> Option<Flat> {
    let offset = reader.offset;
    let &[PERMIT, relation, low, high, ..] = &reader.bytes[offset..] else {
        return None;
    };
    reader.offset += HEADER;
    let condition = reader.tree(Part::Condition)?;
    let length = reader.offset - offset;
    Some(Flat {
        offset,
        length,
        relation,
        mask: u16::from_le_bytes([low, high]),
        condition,
    })
}

/// The permits, or the first of refusals 20 to 23.
pub fn read(bytes: &[u8], relations: &[Relation]) -> Result<Vec<Permit>, u64> {
    if bytes.len() > MOST_LIST_BYTES {
        return Err(refusal::PERMIT_FORM);
    }
    let list = read_flat(bytes).ok_or(refusal::PERMIT_FORM)?;
    if list.len() > MOST_PERMITS || list.iter().any(Flat::is_oversized) {
        return Err(refusal::PERMIT_SIZE);
    }
    let permits: Vec<Permit> = list.iter().map(Flat::tree).collect();
    if !permits
        .iter()
        .all(|permit| are_names_good(permit, relations))
    {
        return Err(refusal::PERMIT_NAMES);
    }
    if permits
        .iter()
        .any(|permit| names_workspace(permit, relations))
    {
        return Err(refusal::PERMIT_WORKSPACE);
    }
    Ok(permits)
}

fn are_names_good(permit: &Permit, relations: &[Relation]) -> bool {
    let mut names = Names {
        relations,
        numbers: MOST_OTHER_VARIABLES + 1,
        bound: vec![0],
    };
    let own = Binding {
        variable: 0,
        relation: permit.relation,
    };
    names.knows_relation(permit.relation)
        && is_mask_good(
            permit.mask,
            relations[usize::from(permit.relation)].attributes,
        )
        && names.condition(&permit.condition, &[own])
}

fn is_mask_good(mask: u16, attributes: usize) -> bool {
    let names_absent = u32::from(mask) >> attributes != 0;
    mask == ALL || (mask != 0 && !names_absent)
}

fn names_workspace(permit: &Permit, relations: &[Relation]) -> bool {
    let records = permit.condition.records();
    let bound = records
        .into_iter()
        .filter_map(Record::binding)
        .map(|binding| binding.relation);
    std::iter::once(permit.relation)
        .chain(bound)
        .any(|relation| !relations[usize::from(relation)].kind.is_stored())
}
