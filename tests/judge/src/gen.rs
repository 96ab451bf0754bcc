//! Seeded cases. A case depends on its seed alone.

pub mod books;
pub mod cost;
pub mod damage;
pub mod draft;
pub mod grants;
pub mod grow;
pub mod limits;
pub mod pairs;
pub mod rng;
pub mod say;
pub mod sizes;
pub mod tables;
pub mod texts;
pub mod turned;

use crate::checks::EVALUATE;
use crate::{calls, meaning, refusal};
use cost::Bound;
use rng::Rng;

/// The input of a call of ask, with what its buffers hold before.
#[derive(Clone, PartialEq, Eq, Debug)]
pub struct Case {
    pub catalogue: Vec<u8>,
    pub values: Vec<i32>,
    pub permits: Vec<u8>,
    pub query: Vec<u8>,
    pub rewritten_before: Vec<u8>,
    pub answer_before: Vec<i64>,
}

const ORDINARY: Bound = Bound {
    steps: 30_000,
    assignments: 1_500,
};
const LARGE: Bound = Bound {
    steps: 1_000_000,
    assignments: 4_096,
};

/// A case for ask; evaluate can take its catalogue, values and query too.
pub fn case(seed: u64) -> Case {
    let rng = &mut Rng::new(seed);
    let bound = if rng.below(200) == 0 { LARGE } else { ORDINARY };
    let aims = choose_aims(rng);
    loop {
        let draft = draft::draft(rng);
        let mut case = damaged(rng, draft, &aims);
        if !cost::is_case_within(&bound, &case) {
            continue;
        }
        let needs = needs(&case);
        if !is_kept(rng, &case, &needs, &aims) {
            continue;
        }
        lend_buffers(rng, &mut case, &needs, &aims);
        return case;
    }
}

/// Most dull cases are left out. A buffer can be too short for an answer only if there is one.
fn is_kept(rng: &mut Rng, case: &Case, needs: &Needs, aims: &[u64]) -> bool {
    if aims.contains(&refusal::ANSWER_BUFFER) {
        return !needs.rows.is_empty();
    }
    !aims.is_empty() || !is_dull(case, needs) || rng.percent(25)
}

/// Tells little: there is no answer, or the guards change nothing in it.
fn is_dull(case: &Case, needs: &Needs) -> bool {
    let plain = calls::plain(&case.catalogue, &case.values, &case.query);
    let plain = plain.map(|(collection, query)| meaning::answer(&collection, &query));
    needs.rows.is_empty() || plain.as_ref() == Ok(&needs.rows)
}

/// The refusals aimed at: mostly none, else one, sometimes two to try the order of the checks.
/// 0 stands for noise.
fn choose_aims(rng: &mut Rng) -> Vec<u64> {
    let one = |rng: &mut Rng| rng.pick(&refusal::ALL);
    match rng.below(100) {
        0..=61 => vec![],
        62..=87 => vec![one(rng)],
        88..=93 => vec![one(rng), one(rng)],
        94..=98 => vec![0],
        _ => vec![0, 0, one(rng)],
    }
}

fn damaged(rng: &mut Rng, mut draft: draft::Draft, aims: &[u64]) -> Case {
    for aim in aims {
        damage::on_draft(rng, &mut draft, *aim);
    }
    let mut case = draft.encode();
    // Falling order, noise last: damage to the catalogue must not hide what permits name.
    let mut aims = aims.to_vec();
    aims.sort_by_key(|aim| std::cmp::Reverse(*aim));
    for aim in aims {
        match aim {
            0 => damage::noise(rng, &mut case),
            _ => damage::on_bytes(rng, &mut case, aim),
        }
    }
    case
}

/// What an accepted call needs of its buffers.
struct Needs {
    length: usize,
    columns: usize,
    rows: Vec<Vec<i64>>,
}

/// The number of a refusal from 10 to 33, if one is due.
fn true_needs(case: &Case) -> Result<Needs, u64> {
    let call = calls::guarded(&case.catalogue, &case.values, &case.permits, &case.query)?;
    Ok(Needs {
        length: call.rewritten.bytes().len(),
        columns: call.query.targets.len(),
        rows: meaning::answer(&call.collection, &call.rewritten),
    })
}

/// Something usual for a call that is refused.
fn needs(case: &Case) -> Needs {
    true_needs(case).unwrap_or_else(|_| Needs {
        length: 40,
        columns: 2,
        rows: vec![vec![0, 0]; 10],
    })
}

fn lend_buffers(rng: &mut Rng, case: &mut Case, needs: &Needs, aims: &[u64]) {
    let short_length = aims.contains(&refusal::REWRITTEN_BUFFER);
    let bytes = buffer_size(rng, needs.length, 1, short_length, EVALUATE.bytes);
    let short_answer = aims.contains(&refusal::ANSWER_BUFFER);
    let needed_cells = needs.rows.len() * needs.columns;
    let cells = buffer_size(rng, needed_cells, needs.columns, short_answer, 4096);
    case.rewritten_before = (0..bytes).map(|_| rng.byte() | 1).collect();
    case.answer_before = (0..cells).map(|_| rng.draw() as i64 | 1).collect();
}

/// A buffer that is short if asked for, else mostly of exactly the size needed or a little over.
fn buffer_size(rng: &mut Rng, needed: usize, unit: usize, is_short: bool, host: usize) -> usize {
    match rng.below(10) {
        0 if is_short => 0,
        1..=4 if is_short => needed.saturating_sub(1),
        5..=6 if is_short => needed.saturating_sub(rng.between(1, unit)),
        _ if is_short => rng.below(needed.max(1)),
        0..=3 => needed,
        4 => host.max(needed),
        5..=6 => needed + rng.below(unit + 1),
        _ => needed + rng.below(24),
    }
}
