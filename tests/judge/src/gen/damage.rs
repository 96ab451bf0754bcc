//! Damage that aims at one refusal, on the trees or on the bytes, and noise that aims at none.

use super::draft::Draft;
use super::rng::Rng;
use super::{grow, sizes, Case};
use crate::catalogue;
use crate::checks::{ASK, EVALUATE, MOST_RANGES, MOST_TARGETS};
use crate::permits::{
    self, Permit, MOST_BYTES, MOST_LEVELS, MOST_LIST_BYTES, MOST_OTHER_VARIABLES, MOST_PERMITS,
};
use crate::query::{Condition, Entry, Flat, Record};
use crate::{refusal, rewrite};

/// Before encoding: sizes over a limit, and permits that do not apply.
pub fn on_draft(rng: &mut Rng, draft: &mut Draft, aim: u64) {
    match aim {
        refusal::PERMIT_FORM if rng.percent(15) => overfill_list(rng, draft),
        refusal::PERMIT_SIZE => oversize_permits(rng, draft),
        refusal::QUERY_FORM if rng.percent(15) => {
            let bytes = rng.pick(&[ASK.bytes + 1, ASK.bytes + 40, EVALUATE.bytes + 1]);
            sizes::lengthen_query(&mut draft.query, bytes);
        }
        refusal::QUERY_SIZE => oversize_query(rng, draft),
        refusal::NO_PERMIT => withdraw(rng, draft),
        _ => {}
    }
}

fn overfill_list(rng: &mut Rng, draft: &mut Draft) {
    if rng.percent(30) {
        let bytes = MOST_LIST_BYTES + rng.between(1, 30);
        return sizes::lengthen_permit(draft.some_permit(rng), bytes);
    }
    draft.add_permits(rng, MOST_PERMITS + 1);
    for permit in &mut draft.permits {
        sizes::lengthen_permit(permit, MOST_BYTES - rng.below(10));
    }
}

fn oversize_permits(rng: &mut Rng, draft: &mut Draft) {
    let stored = draft.stored();
    match rng.below(4) {
        0 => {
            let count = MOST_PERMITS + 1 + rng.below(3);
            draft.add_permits(rng, count);
        }
        1 => {
            let bytes = MOST_BYTES + 1 + rng.below(3);
            sizes::lengthen_permit(draft.some_permit(rng), bytes);
        }
        2 => {
            let level = MOST_LEVELS + 1 + rng.below(3);
            let permit = draft.some_permit(rng);
            sizes::deepen_permit(rng, permit, level);
        }
        _ => {
            let count = MOST_OTHER_VARIABLES + 1 + rng.below(2);
            let permit = draft.some_permit(rng);
            sizes::add_permit_variables(rng, &stored, permit, count);
        }
    }
}

fn oversize_query(rng: &mut Rng, draft: &mut Draft) {
    let over = 1 + rng.below(2);
    let Draft { tables, query, .. } = draft;
    match rng.below(4) {
        0 => sizes::add_ranges(tables, query, MOST_RANGES + over),
        1 => sizes::add_targets(rng, tables, query, MOST_TARGETS + over),
        2 => sizes::deepen_query(rng, query, ASK.levels + over),
        _ => sizes::add_variables(rng, tables, query, ASK.variables + over),
    }
}

/// Leaves some variable without an applying permit.
fn withdraw(rng: &mut Rng, draft: &mut Draft) {
    let bindings = draft.query.bindings();
    let stored: Vec<_> = bindings
        .into_iter()
        .filter(|binding| draft.tables[usize::from(binding.relation)].kind.is_stored())
        .collect();
    if stored.is_empty() {
        return;
    }
    let binding = rng.pick(&stored);
    let used = rewrite::used_attributes(&draft.query, binding.variable);
    if rng.percent(40) {
        bar(rng, draft, binding.relation, used);
    } else if used.count_ones() > 1 && rng.percent(70) {
        split_masks(rng, draft, binding.relation, used);
    } else {
        draft
            .permits
            .retain(|permit| !permit.applies(binding.relation, used));
    }
}

/// NO ACCESS beside the permits that apply, or in their place.
fn bar(rng: &mut Rng, draft: &mut Draft, relation: u8, used: u16) {
    if used != 0 && draft.permits.len() < MOST_PERMITS && rng.percent(75) {
        let bits = attribute_bits(used);
        let more = rng.draw() as u16 & grow::present(&draft.tables, relation);
        let mask = match rng.below(4) {
            0 => permits::ALL,
            1 => used,
            2 => rng.pick(&bits),
            _ => rng.pick(&bits) | more,
        };
        let place = rng.below(draft.permits.len() + 1);
        let condition = Condition::False;
        let permit = Permit {
            relation,
            mask,
            condition,
        };
        return draft.permits.insert(place, permit);
    }
    for permit in &mut draft.permits {
        if permit.applies(relation, used) {
            permit.condition = Condition::False;
        }
    }
}

fn attribute_bits(mask: u16) -> Vec<u16> {
    (0..16)
        .map(|bit| 1 << bit)
        .filter(|bit| mask & bit != 0)
        .collect()
}

/// No mask contains S any more, though together they may.
fn split_masks(rng: &mut Rng, draft: &mut Draft, relation: u8, used: u16) {
    let bits = attribute_bits(used);
    let present = grow::present(&draft.tables, relation);
    let mut split = Vec::new();
    for permit in &draft.permits {
        if permit.applies(relation, used) {
            let mask = permit.mask & present & !rng.pick(&bits);
            split.push(Permit {
                mask,
                ..permit.clone()
            });
        } else {
            split.push(permit.clone());
        }
    }
    draft.permits = split;
}

/// After encoding: everything else but the buffers.
pub fn on_bytes(rng: &mut Rng, case: &mut Case, aim: u64) {
    match aim {
        refusal::CATALOGUE => spoil_catalogue(rng, &mut case.catalogue),
        refusal::VALUES => spoil_values(rng, &mut case.values),
        refusal::PERMIT_FORM => {
            let spots = permit_spots(&case.permits);
            spoil_permit_form(rng, &mut case.permits, &spots);
        }
        refusal::PERMIT_NAMES => spoil_permit_names(rng, case),
        refusal::PERMIT_WORKSPACE => name_workspace(rng, case),
        refusal::QUERY_FORM => spoil_query_form(rng, &mut case.query),
        refusal::QUERY_NAMES => {
            let relations = case.catalogue.len() / 4;
            spoil_query_names(rng, &mut case.query, relations, ASK.variables);
        }
        _ => {}
    }
}

fn spoil_catalogue(rng: &mut Rng, catalogue: &mut Vec<u8>) {
    if catalogue.len() < 4 {
        return;
    }
    let record = 4 * rng.below(catalogue.len() / 4);
    match rng.below(6) {
        0 => catalogue.clear(),
        1 => {
            let first = catalogue[..4].to_vec();
            while catalogue.len() <= 4 * catalogue::MOST_RELATIONS {
                catalogue.extend(&first);
            }
        }
        2 => catalogue.truncate(catalogue.len() - rng.between(1, 3)),
        3 => catalogue[record] = rng.pick(&[0, 1, 16, 47, 51, 64, 255]),
        4 => catalogue[record + 1] = rng.pick(&[0, 17, 18, 255]),
        _ => {
            let rows = rng.pick(&[1025u16, 1026, 2048, 4096, 65535]);
            catalogue[record + 2..record + 4].copy_from_slice(&rows.to_le_bytes());
        }
    }
}

fn spoil_values(rng: &mut Rng, values: &mut Vec<i32>) {
    match rng.below(4) {
        0 if !values.is_empty() => values.clear(),
        1 if !values.is_empty() => values.truncate(values.len() - 1),
        2 => values.extend([0; 4]),
        _ => values.push(rng.draw() as i32),
    }
}

fn permit_spots(bytes: &[u8]) -> Vec<Entry> {
    let list = permits::read_flat(bytes).unwrap_or_default();
    list.into_iter()
        .flat_map(|permit| permit.condition)
        .collect()
}

fn query_spots(bytes: &[u8]) -> Vec<Entry> {
    Flat::read(bytes)
        .map(|flat| flat.entries())
        .unwrap_or_default()
}

fn spoil_permit_form(rng: &mut Rng, list: &mut Vec<u8>, spots: &[Entry]) {
    let starts: Vec<usize> = permits::read_flat(list)
        .unwrap_or_default()
        .iter()
        .map(|permit| permit.offset)
        .collect();
    match rng.below(6) {
        0 if !starts.is_empty() => {
            let start = rng.pick(&starts);
            list[start] = rng.pick(&[0, 1, 16, 63, 65, 255]);
        }
        1 => list.extend(&[64, 0, 1, 0][..rng.between(1, 4)]),
        _ => spoil_form(rng, list, spots),
    }
}

fn spoil_query_form(rng: &mut Rng, bytes: &mut Vec<u8>) {
    let spots = query_spots(bytes);
    match (rng.below(10), Flat::read(bytes)) {
        (0, _) => bytes.clear(),
        (1, Some(flat)) => {
            // Without targets.
            let kept = [flat.ranges, flat.condition].concat();
            *bytes = kept.iter().flat_map(|entry| entry.record.bytes()).collect();
        }
        (2, Some(flat)) => {
            // A constant as the first target.
            let target = flat.targets[0][0].offset;
            bytes.splice(target..target, Record::Constant(1).bytes());
        }
        _ => spoil_form(rng, bytes, &spots),
    }
}

fn spoil_form(rng: &mut Rng, bytes: &mut Vec<u8>, spots: &[Entry]) {
    if spots.is_empty() {
        return bytes.push(rng.byte());
    }
    let spot = rng.pick(spots);
    match rng.below(8) {
        0 => bytes[spot.offset] = rng.pick(&[0, 2, 15, 23, 31, 35, 48, 50, 64, 65, 255]),
        1 => bytes[spot.offset] = rng.pick(&[1, 16, 19, 21, 22, 32, 33, 34]),
        2 => bytes.truncate(bytes.len() - rng.between(1, bytes.len().min(6))),
        3 => bytes.truncate(spot.offset),
        4 => bytes.push(rng.pick(&[16, 17, 33, 0, 255])),
        5 => {
            bytes.splice(spot.offset..spot.offset, [1, 7, 0]);
        }
        6 => {
            bytes.drain(spot.offset..spot.offset + spot.record.bytes().len());
        }
        _ => spoil_operator(rng, bytes, spots),
    }
}

fn spoil_operator(rng: &mut Rng, bytes: &mut [u8], spots: &[Entry]) {
    let coded: Vec<Entry> = spots
        .iter()
        .copied()
        .filter(|spot| matches!(spot.record, Record::Compare(_) | Record::Aggregate { .. }))
        .collect();
    if !coded.is_empty() {
        let offset = rng.pick(&coded).offset + 1;
        bytes[offset] = rng.pick(&[0, 6, 7, 8, 255]);
    }
}

/// Where the bytes of a name are in a record.
fn variable_place(record: Record) -> Option<usize> {
    match record {
        Record::Range(_) | Record::Exists(_) | Record::Attribute { .. } => Some(1),
        Record::Aggregate { .. } => Some(2),
        _ => None,
    }
}

fn relation_place(record: Record) -> Option<usize> {
    match record {
        Record::Range(_) | Record::Exists(_) => Some(2),
        Record::Aggregate { .. } => Some(3),
        _ => None,
    }
}

fn attribute_place(record: Record) -> Option<usize> {
    match record {
        Record::Attribute { .. } => Some(2),
        Record::Aggregate { .. } => Some(4),
        _ => None,
    }
}

fn places(spots: &[Entry], place: fn(Record) -> Option<usize>) -> Vec<usize> {
    let offset = |spot: &Entry| place(spot.record).map(|place| spot.offset + place);
    spots.iter().filter_map(offset).collect()
}

fn set_somewhere(rng: &mut Rng, bytes: &mut [u8], offsets: &[usize], value: u8) {
    if !offsets.is_empty() {
        bytes[rng.pick(offsets)] = value;
    }
}

/// A good place gets a bad name; `numbers` is the first variable number over the limit.
fn spoil_names(rng: &mut Rng, bytes: &mut [u8], spots: &[Entry], relations: usize, numbers: usize) {
    let binding_spots: Vec<Entry> = spots
        .iter()
        .copied()
        .filter(|spot| spot.record.binding().is_some())
        .collect();
    let bound = binding_spots
        .iter()
        .filter_map(|spot| spot.record.binding());
    let bound: Vec<u8> = bound.map(|binding| binding.variable).chain([0]).collect();
    let attributes = places(spots, attribute_place);
    let relation_offsets = places(spots, relation_place);
    let variables = places(spots, variable_place);
    let bindings = places(&binding_spots, variable_place);
    let (relations, numbers) = (relations as u8, numbers as u8);
    match rng.below(6) {
        0 => {
            let relation = rng.pick(&[relations, relations + 1, 255]);
            set_somewhere(rng, bytes, &relation_offsets, relation);
        }
        1 => {
            let attribute = rng.pick(&[1, 2, 3, 4, 5, 16, 255]);
            set_somewhere(rng, bytes, &attributes, attribute);
        }
        2 => {
            let variable = rng.pick(&[numbers, numbers + 1, 255]);
            set_somewhere(rng, bytes, &bindings, variable);
        }
        3 => {
            let variable = rng.pick(&bound);
            set_somewhere(rng, bytes, &bindings, variable);
        }
        4 => {
            let variable = rng.below(usize::from(numbers) + 1) as u8;
            set_somewhere(rng, bytes, &variables, variable);
        }
        _ => {
            let variable = rng.pick(&bound);
            set_somewhere(rng, bytes, &variables, variable);
        }
    }
}

pub fn spoil_query_names(rng: &mut Rng, bytes: &mut [u8], relations: usize, numbers: usize) {
    let spots = query_spots(bytes);
    spoil_names(rng, bytes, &spots, relations, numbers);
}

fn spoil_permit_names(rng: &mut Rng, case: &mut Case) {
    let relations = case.catalogue.len() / 4;
    let list = permits::read_flat(&case.permits).unwrap_or_default();
    if list.is_empty() {
        return case.permits.extend([64, relations as u8, 255, 255, 16]);
    }
    let start = list[rng.below(list.len())].offset;
    match rng.below(9) {
        0 => case.permits[start + 1] = rng.pick(&[relations as u8, relations as u8 + 1, 255]),
        1 => case.permits[start + 2..start + 4].fill(0),
        2 => {
            let byte = start + rng.between(2, 3);
            case.permits[byte] |= 1 << rng.below(8);
        }
        _ => {
            let spots = permit_spots(&case.permits);
            let numbers = MOST_OTHER_VARIABLES + 1;
            spoil_names(rng, &mut case.permits, &spots, relations, numbers);
        }
    }
}

/// A permit comes to name a workspace: the permit changes, or the relation's kind does.
fn name_workspace(rng: &mut Rng, case: &mut Case) {
    let kinds: Vec<u8> = case.catalogue.chunks(4).map(|record| record[0]).collect();
    let of_kind = |kind| -> Vec<u8> {
        (0..kinds.len() as u8)
            .filter(|number| kinds[usize::from(*number)] == kind)
            .collect()
    };
    let workspaces = of_kind(catalogue::WORKSPACE);
    let mut places = places(&permit_spots(&case.permits), relation_place);
    let list = permits::read_flat(&case.permits).unwrap_or_default();
    places.extend(list.iter().map(|permit| permit.offset + 1));
    if places.is_empty() {
        let relation = rng.below(kinds.len()) as u8;
        case.catalogue[4 * usize::from(relation)] = catalogue::WORKSPACE;
        return case.permits.extend([64, relation, 255, 255, 16]);
    }
    let place = rng.pick(&places);
    if !workspaces.is_empty() && rng.percent(50) {
        case.permits[place] = rng.pick(&workspaces);
    } else {
        let relation = usize::from(case.permits[place]);
        if relation < kinds.len() {
            case.catalogue[4 * relation] = catalogue::WORKSPACE;
        }
    }
}

/// Damage without an aim.
pub fn noise(rng: &mut Rng, case: &mut Case) {
    match rng.below(8) {
        0 => byte_noise(rng, &mut case.catalogue),
        1 => value_noise(rng, &mut case.values),
        2..=4 => byte_noise(rng, &mut case.permits),
        _ => byte_noise(rng, &mut case.query),
    }
}

fn value_noise(rng: &mut Rng, values: &mut Vec<i32>) {
    if values.is_empty() || rng.percent(20) {
        return values.push(rng.draw() as i32);
    }
    let place = rng.below(values.len());
    values[place] = rng.draw() as i32;
}

pub fn byte_noise(rng: &mut Rng, bytes: &mut Vec<u8>) {
    if bytes.is_empty() {
        return bytes.push(rng.byte());
    }
    let place = rng.below(bytes.len());
    match rng.below(8) {
        0 => bytes[place] ^= 1 << rng.below(8),
        1 => bytes[place] = rng.byte(),
        2 => bytes[place] = rng.pick(&[0, 1, 2, 16, 17, 18, 19, 20, 21, 22, 32, 33, 34, 64]),
        3 => bytes[place] = bytes[place].wrapping_add(rng.pick(&[1, 255])),
        4 => bytes.truncate(place),
        5 => bytes.extend((0..rng.between(1, 9)).map(|_| rng.byte())),
        6 => {
            let other = rng.below(bytes.len());
            bytes.swap(place, other);
        }
        _ => {
            let end = (place + rng.between(1, 8)).min(bytes.len());
            let piece = bytes[place..end].to_vec();
            bytes.splice(place..place, piece);
        }
    }
}
