//! Checks 30 to 32 of a query, and the names check that permits share.

use crate::catalogue::Relation;
use crate::query::{Binding, Condition, Entry, Flat, Query, Term};
use crate::refusal;

pub const MOST_RANGES: usize = 4;
pub const MOST_TARGETS: usize = 8;

pub struct Limits {
    pub bytes: usize,
    pub levels: usize,
    /// How many binding records, and the first variable number that is over the limit.
    pub variables: usize,
}

pub const ASK: Limits = Limits {
    bytes: 1024,
    levels: 32,
    variables: 8,
};
pub const EVALUATE: Limits = Limits {
    bytes: 17_216,
    levels: 64,
    variables: 200,
};

/// The query as a tree, or the first of refusals 30, 31 and 32.
pub fn read_query(bytes: &[u8], relations: &[Relation], limits: &Limits) -> Result<Query, u64> {
    if bytes.len() > limits.bytes {
        return Err(refusal::QUERY_FORM);
    }
    let flat = Flat::read(bytes).ok_or(refusal::QUERY_FORM)?;
    if is_oversized(&flat, limits) {
        return Err(refusal::QUERY_SIZE);
    }
    let query = flat.tree();
    if !are_names_good(&query, relations, limits) {
        return Err(refusal::QUERY_NAMES);
    }
    Ok(query)
}

fn is_oversized(flat: &Flat, limits: &Limits) -> bool {
    let entries = flat.entries();
    flat.ranges.len() > MOST_RANGES
        || flat.targets.len() > MOST_TARGETS
        || deepest_level(&entries) > limits.levels
        || binding_records(&entries) > limits.variables
}

pub fn deepest_level(entries: &[Entry]) -> usize {
    entries.iter().map(|entry| entry.level).max().unwrap_or(0)
}

pub fn binding_records(entries: &[Entry]) -> usize {
    entries
        .iter()
        .filter(|entry| entry.record.binding().is_some())
        .count()
}

fn are_names_good(query: &Query, relations: &[Relation], limits: &Limits) -> bool {
    let mut names = Names {
        relations,
        numbers: limits.variables,
        bound: Vec::new(),
    };
    let scope = &query.ranges;
    scope.iter().all(|range| names.bind(*range))
        && query.targets.iter().all(|target| names.term(target, scope))
        && names.condition(&query.condition, scope)
}

/// Walks conditions and answers whether every name in them is good.
pub struct Names<'a> {
    pub relations: &'a [Relation],
    /// Variable numbers are below this.
    pub numbers: usize,
    pub bound: Vec<u8>,
}

impl Names<'_> {
    pub fn knows_relation(&self, relation: u8) -> bool {
        usize::from(relation) < self.relations.len()
    }

    pub fn bind(&mut self, binding: Binding) -> bool {
        let is_good = usize::from(binding.variable) < self.numbers
            && !self.bound.contains(&binding.variable)
            && self.knows_relation(binding.relation);
        self.bound.push(binding.variable);
        is_good
    }

    fn knows_attribute(&self, relation: u8, attribute: u8) -> bool {
        self.relations
            .get(usize::from(relation))
            .is_some_and(|relation| usize::from(attribute) < relation.attributes)
    }

    /// The scope holds the variables in reach.
    pub fn condition(&mut self, condition: &Condition, scope: &[Binding]) -> bool {
        match condition {
            Condition::True | Condition::False => true,
            Condition::Not(inner) => self.condition(inner, scope),
            Condition::And(left, right) | Condition::Or(left, right) => {
                self.condition(left, scope) && self.condition(right, scope)
            }
            Condition::Compare(_, left, right) => self.term(left, scope) && self.term(right, scope),
            Condition::Exists(binding, inner) => {
                let inner_scope = [scope, &[*binding]].concat();
                self.bind(*binding) && self.condition(inner, &inner_scope)
            }
        }
    }

    pub fn term(&mut self, term: &Term, scope: &[Binding]) -> bool {
        match term {
            Term::Constant(_) => true,
            Term::Attribute {
                variable,
                attribute,
            } => scope
                .iter()
                .find(|binding| binding.variable == *variable)
                .is_some_and(|binding| self.knows_attribute(binding.relation, *attribute)),
            // The scope starts anew: outer variables are out of reach inside an aggregate.
            Term::Aggregate(aggregate) => {
                let binding = aggregate.binding;
                self.bind(binding)
                    && self.knows_attribute(binding.relation, aggregate.attribute)
                    && self.condition(&aggregate.condition, &[binding])
            }
        }
    }
}
