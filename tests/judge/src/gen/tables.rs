//! Relations with their rows, before they are encoded.

use super::rng::Rng;
use crate::catalogue::{self, Kind, MOST_ATTRIBUTES, MOST_RELATIONS, MOST_ROWS};

#[derive(Clone, PartialEq, Eq, Debug)]
pub struct Table {
    pub kind: Kind,
    pub attributes: usize,
    pub rows: Vec<Vec<i32>>,
}

pub fn encode(tables: &[Table]) -> (Vec<u8>, Vec<i32>) {
    let catalogue = tables.iter().flat_map(record).collect();
    let values = tables
        .iter()
        .flat_map(|table| table.rows.concat())
        .collect();
    (catalogue, values)
}

fn record(table: &Table) -> [u8; 4] {
    let kind = match table.kind {
        Kind::Stored => catalogue::STORED,
        Kind::Workspace => catalogue::WORKSPACE,
        Kind::Latest => catalogue::LATEST,
    };
    let [low, high] = (table.rows.len() as u16).to_le_bytes();
    [kind, table.attributes as u8, low, high]
}

/// The values that rows and constants are drawn from: few, so that they meet.
pub fn pool(rng: &mut Rng) -> Vec<i32> {
    let size = rng.between(2, 5);
    match rng.below(20) {
        0 => (0..size).map(|_| rng.draw() as i32).collect(),
        1..=3 => {
            let extremes = [i32::MIN, i32::MIN + 1, -1, 0, 1, i32::MAX - 1, i32::MAX];
            (0..size).map(|_| rng.pick(&extremes)).collect()
        }
        _ => (0..size).map(|_| rng.below(8) as i32 - 3).collect(),
    }
}

pub fn tables(rng: &mut Rng, pool: &[i32]) -> Vec<Table> {
    let count = match rng.below(50) {
        0 => MOST_RELATIONS,
        1..=3 => rng.between(5, MOST_RELATIONS),
        _ => rng.between(1, 4),
    };
    (0..count).map(|_| table(rng, pool)).collect()
}

fn table(rng: &mut Rng, pool: &[i32]) -> Table {
    let kind = kind(rng, 20);
    let attributes = match rng.below(60) {
        0 => MOST_ATTRIBUTES,
        1 => rng.between(5, MOST_ATTRIBUTES),
        _ => rng.between(1, 4),
    };
    let count = match rng.below(600) {
        0 => MOST_ROWS,
        1 => rng.between(100, MOST_ROWS),
        2..=12 => rng.between(7, 60),
        _ => rng.pick(&[0, 1, 1, 2, 2, 3, 3, 4, 4, 5, 6]),
    };
    let rows = (0..count).map(|_| row(rng, attributes, pool)).collect();
    Table {
        kind,
        attributes,
        rows,
    }
}

pub fn row(rng: &mut Rng, attributes: usize, pool: &[i32]) -> Vec<i32> {
    (0..attributes).map(|_| value(rng, pool)).collect()
}

pub fn value(rng: &mut Rng, pool: &[i32]) -> i32 {
    match rng.below(40) {
        0 => rng.draw() as i32,
        1 => rng.pick(&[i32::MIN, i32::MAX]),
        _ => rng.pick(pool),
    }
}

/// A workspace in so many of a hundred; the stored ones are walked either way, half of them each.
pub fn kind(rng: &mut Rng, workspaces: usize) -> Kind {
    if rng.percent(workspaces) {
        Kind::Workspace
    } else {
        rng.pick(&[Kind::Stored, Kind::Latest])
    }
}

/// The relations that need permits.
pub fn stored(tables: &[Table]) -> Vec<u8> {
    (0..tables.len())
        .filter(|number| tables[*number].kind.is_stored())
        .map(|number| number as u8)
        .collect()
}
