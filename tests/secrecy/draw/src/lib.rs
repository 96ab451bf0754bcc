//! Cases for the tests of secrecy: a call, the cells that it must not look at, and a second collection
//! that differs in such cells only. What is permitted, and what an answer is, is the judge's word.

pub mod shapes;

use judge::calls::{self, Guarded};
use judge::gen::rng::Rng;
use judge::query::{Binding, Record};
use judge::{meaning, rewrite, Outcome};

/// The files of a call.
#[derive(Clone)]
pub struct Call {
    pub catalogue: Vec<u8>,
    pub values: Vec<i32>,
    pub permits: Vec<u8>,
    pub query: Vec<u8>,
    pub cells: usize,
}

pub struct Case {
    pub shape: String,
    pub call: Call,
    /// For each value: whether the call must not depend on it.
    pub marked: Vec<bool>,
    /// How many of the marked are in a column that the question uses: what an asker could be after.
    pub sought: usize,
    /// The second collection.
    pub other: Vec<i32>,
    pub outcome: Outcome,
    pub rewritten: Vec<u8>,
    pub answer: Vec<i64>,
}

pub const REWRITTEN_BYTES: usize = 17_216;

/// The places, among all values, of a relation's rows.
fn starts(call: &Guarded, relation: u8) -> (usize, usize, usize) {
    let relations = &call.collection.relations;
    let cells = |of: &judge::catalogue::Relation| of.attributes * of.rows;
    let start = relations[..usize::from(relation)].iter().map(cells).sum();
    let here = relations[usize::from(relation)];
    (start, here.attributes, here.rows)
}

/// Whether each row of the variable's relation, in the order of its walk, is permitted to it.
pub fn permitted(call: &Guarded, binding: Binding) -> Vec<bool> {
    let permits = rewrite::applying(&call.permits, &call.query, binding);
    let is_workspace = !rewrite::is_stored(&call.collection.relations, binding.relation);
    let holds = |row: &[i32]| {
        permits
            .iter()
            .any(|permit| meaning::holds(&call.collection, &permit.condition, &vec![(0, row)]))
    };
    let rows = call.collection.rows(binding.relation);
    rows.map(|row| is_workspace || holds(row)).collect()
}

/// The columns that the conditions of permits name, as relation and attribute.
fn named(call: &Guarded) -> Vec<(u8, u8)> {
    let mut named = Vec::new();
    for permit in &call.permits {
        let records = permit.condition.records();
        let mut relation_of = vec![(0, permit.relation)];
        let bound = records.iter().filter_map(|record| record.binding());
        relation_of.extend(bound.map(|binding| (binding.variable, binding.relation)));
        for (variable, attribute) in records.into_iter().filter_map(Record::attribute_use) {
            let pair = relation_of.iter().find(|(bound, _)| *bound == variable);
            named.push((pair.expect("the names were checked").1, attribute));
        }
    }
    named
}

/// Every cell whose column no permit's condition names, and that is outside S of each variable to which its row is permitted.
pub fn marks(call: &Guarded) -> Vec<bool> {
    let cells: usize = call.collection.relations.iter().map(|of| of.attributes * of.rows).sum();
    let mut marked = vec![true; cells];
    for (relation, attribute) in named(call) {
        let (start, attributes, rows) = starts(call, relation);
        for row in 0..rows {
            marked[start + row * attributes + usize::from(attribute)] = false;
        }
    }
    for binding in call.query.bindings() {
        let used = rewrite::used_attributes(&call.query, binding.variable);
        let (start, attributes, _) = starts(call, binding.relation);
        let relation = call.collection.relations[usize::from(binding.relation)];
        for (step, is_permitted) in permitted(call, binding).into_iter().enumerate() {
            let row = relation.place(step);
            for attribute in (0..attributes).filter(|n| is_permitted && used >> n & 1 == 1) {
                marked[start + row * attributes + attribute] = false;
            }
        }
    }
    marked
}

/// The marked cells in S of some variable over their relation.
fn sought(call: &Guarded, marked: &[bool]) -> usize {
    let mut places = Vec::new();
    for binding in call.query.bindings() {
        let used = rewrite::used_attributes(&call.query, binding.variable);
        let (start, attributes, rows) = starts(call, binding.relation);
        let cells = start..start + attributes * rows;
        places.extend(cells.filter(|at| marked[*at] && used >> ((at - start) % attributes) & 1 == 1));
    }
    places.sort();
    places.dedup();
    places.len()
}

/// The judge's answer.
pub fn judged(call: &Call) -> (Outcome, Vec<u8>, Vec<i64>) {
    let mut rewritten = vec![0; REWRITTEN_BYTES];
    let mut answer = vec![0; call.cells];
    let Call { catalogue, values, permits, query, .. } = call;
    let outcome = judge::ask(catalogue, values, permits, query, &mut rewritten, &mut answer);
    rewritten.truncate(outcome.length as usize);
    answer.truncate((outcome.rows * outcome.columns) as usize);
    (outcome, rewritten, answer)
}

/// None if the call is refused before any row is looked at, or nothing that the question could be after is marked.
pub fn case(rng: &mut Rng, shape: &str, call: Call, fresh: &mut dyn FnMut(&mut Rng, i32) -> i32) -> Option<Case> {
    let Call { catalogue, values, permits, query, .. } = &call;
    let guarded = calls::guarded(catalogue, values, permits, query).ok()?;
    let marked = marks(&guarded);
    let sought = sought(&guarded, &marked);
    let change = |(value, marked): (&i32, &bool)| if *marked { fresh(rng, *value) } else { *value };
    let other: Vec<i32> = values.iter().zip(&marked).map(change).collect();
    if sought == 0 || other == *values {
        return None;
    }
    let alike = judge::permitted_rows(catalogue, values, permits, query);
    assert_eq!(alike, judge::permitted_rows(catalogue, &other, permits, query), "the premise of demand 3");
    let (outcome, rewritten, answer) = judged(&call);
    Some(Case { shape: shape.to_string(), marked, sought, other, outcome, rewritten, answer, call })
}
