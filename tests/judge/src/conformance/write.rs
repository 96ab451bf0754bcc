//! Records as bytes, written out plainly: right and wrong ones alike.

pub const ALL: u16 = 0xFFFF;

pub fn join(parts: &[&[u8]]) -> Vec<u8> {
    parts.concat()
}

fn table(kind: u8, attributes: u8, rows: u16) -> Vec<u8> {
    join(&[&[kind, attributes], &rows.to_le_bytes()])
}

pub fn relation(attributes: u8, rows: u16) -> Vec<u8> {
    table(48, attributes, rows)
}

pub fn workspace(attributes: u8, rows: u16) -> Vec<u8> {
    table(49, attributes, rows)
}

/// A stored relation that is walked from its last row (Change 9).
pub fn latest(attributes: u8, rows: u16) -> Vec<u8> {
    table(50, attributes, rows)
}

pub fn range(variable: u8, relation: u8) -> Vec<u8> {
    vec![1, variable, relation]
}

pub fn yes() -> Vec<u8> {
    vec![16]
}

pub fn no() -> Vec<u8> {
    vec![17]
}

pub fn not(condition: &[u8]) -> Vec<u8> {
    join(&[&[18], condition])
}

pub fn and(left: &[u8], right: &[u8]) -> Vec<u8> {
    join(&[&[19], left, right])
}

pub fn or(left: &[u8], right: &[u8]) -> Vec<u8> {
    join(&[&[20], left, right])
}

pub const EQUAL: u8 = 1;
pub const UNEQUAL: u8 = 2;
pub const LESS: u8 = 3;
pub const AT_MOST: u8 = 4;
pub const GREATER: u8 = 5;
pub const AT_LEAST: u8 = 6;

pub fn compare(operator: u8, left: &[u8], right: &[u8]) -> Vec<u8> {
    join(&[&[21, operator], left, right])
}

pub fn some(variable: u8, relation: u8, condition: &[u8]) -> Vec<u8> {
    join(&[&[22, variable, relation], condition])
}

pub fn constant(number: i32) -> Vec<u8> {
    join(&[&[32], &number.to_le_bytes()])
}

pub fn attribute(variable: u8, attribute: u8) -> Vec<u8> {
    vec![33, variable, attribute]
}

pub const COUNT: u8 = 1;
pub const SUM: u8 = 2;
pub const AVE: u8 = 3;
pub const MAX: u8 = 4;
pub const MIN: u8 = 5;

pub fn aggregate(function: u8, variable: u8, relation: u8, attribute: u8, inner: &[u8]) -> Vec<u8> {
    join(&[&[34, function, variable, relation, attribute], inner])
}

pub fn permit(relation: u8, mask: u16, condition: &[u8]) -> Vec<u8> {
    join(&[&[64, relation], &mask.to_le_bytes(), condition])
}

/// NOTs over a TRUE that is at this level.
pub fn nots(level: usize) -> Vec<u8> {
    join(&[&[18].repeat(level - 1), &[16]])
}

/// NOTs over a comparison whose terms are at this level.
pub fn comparison_at(level: usize) -> Vec<u8> {
    let comparison = compare(EQUAL, &constant(0), &constant(0));
    join(&[&[18].repeat(level - 2), &comparison])
}

/// A true condition of few levels and exactly this many bytes.
pub fn padding(bytes: usize) -> Vec<u8> {
    match bytes {
        1 => yes(),
        2 => not(&no()),
        _ => {
            let left = (bytes - 1) / 2;
            and(&padding(left), &padding(bytes - 1 - left))
        }
    }
}
