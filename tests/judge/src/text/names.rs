//! The list of names: kinds 80, 81 and 82.

use super::words::RESERVED;
use std::collections::BTreeMap;

pub const RELATION: u8 = 80;
pub const ATTRIBUTE: u8 = 81;
pub const VALUE: u8 = 82;
/// Bytes of a name, filled up with spaces.
pub const WIDTH: usize = 12;

#[derive(Default)]
pub struct Names {
    relations: BTreeMap<String, u8>,
    /// By relation number and name.
    attributes: BTreeMap<(u8, String), u8>,
    values: BTreeMap<String, i32>,
}

impl Names {
    /// None if the list is broken, or lists a name twice.
    pub fn read(bytes: &[u8]) -> Option<Names> {
        let mut names = Names::default();
        let mut rest = bytes;
        while let Some(kind) = rest.first() {
            let body = match *kind {
                RELATION => 1,
                ATTRIBUTE => 2,
                VALUE => 4,
                _ => return None,
            };
            let record = rest.get(1..1 + body + WIDTH)?;
            rest = &rest[1 + body + WIDTH..];
            let name = name(&record[body..])?;
            let is_new = match *kind {
                RELATION => names.relations.insert(name, record[0]).is_none(),
                ATTRIBUTE => {
                    let earlier = names.attributes.insert((record[0], name), record[1]);
                    earlier.is_none()
                }
                _ => {
                    let value = [record[0], record[1], record[2], record[3]];
                    let earlier = names.values.insert(name, i32::from_le_bytes(value));
                    earlier.is_none()
                }
            };
            if !is_new {
                return None;
            }
        }
        Some(names)
    }

    pub fn relation(&self, name: &str) -> Option<u8> {
        self.relations.get(name).copied()
    }

    pub fn attribute(&self, relation: u8, name: &str) -> Option<u8> {
        self.attributes.get(&(relation, name.to_string())).copied()
    }

    pub fn value(&self, name: &str) -> Option<i32> {
        self.values.get(name).copied()
    }
}

/// One to twelve capitals, then spaces; not a reserved word.
fn name(bytes: &[u8]) -> Option<String> {
    let letters = bytes
        .iter()
        .take_while(|byte| byte.is_ascii_uppercase())
        .count();
    let are_spaces_after = bytes[letters..].iter().all(|byte| *byte == b' ');
    let name = std::str::from_utf8(&bytes[..letters]).ok()?;
    let is_good = letters > 0 && are_spaces_after && !RESERVED.contains(&name);
    is_good.then(|| name.to_string())
}
