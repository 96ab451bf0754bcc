//! Grows random conditions, queries and permits whose names are all good.

use super::rng::Rng;
use super::tables::{self, Table};
use crate::checks::ASK;
use crate::permits::{Permit, ALL, MOST_BYTES, MOST_PERMITS};
use crate::query::{Aggregate, Binding, Condition, Operator, Query, Term, FUNCTIONS, OPERATORS};
use crate::rewrite;

pub struct Grower<'a> {
    pub rng: &'a mut Rng,
    pub tables: &'a [Table],
    pub pool: &'a [i32],
    /// The relations that may be bound.
    pub bindable: Vec<u8>,
    /// The variable numbers that are still free.
    pub free: Vec<u8>,
}

impl Grower<'_> {
    pub fn binding(&mut self) -> Option<Binding> {
        if self.bindable.is_empty() {
            return None;
        }
        let variable = self.free.pop()?;
        Some(Binding {
            variable,
            relation: self.rng.pick(&self.bindable),
        })
    }

    pub fn condition(&mut self, scope: &[Binding], depth: usize) -> Condition {
        if depth == 0 {
            return self.leaf(scope);
        }
        let below = depth - 1;
        match self.rng.below(12) {
            0 => self.leaf(scope),
            1 => Condition::negated(self.condition(scope, below)),
            2..=4 => {
                let left = self.condition(scope, below);
                Condition::and(left, self.condition(scope, below))
            }
            5..=6 => {
                let left = self.condition(scope, below);
                Condition::or(left, self.condition(scope, below))
            }
            7..=8 => self.comparison(scope, below),
            _ => self.exists(scope, below),
        }
    }

    fn leaf(&mut self, scope: &[Binding]) -> Condition {
        match self.rng.below(32) {
            0..=7 => Condition::True,
            8 => Condition::False,
            _ => self.comparison(scope, 0),
        }
    }

    fn exists(&mut self, scope: &[Binding], depth: usize) -> Condition {
        let Some(binding) = self.binding() else {
            return self.leaf(scope);
        };
        let inner_scope = [scope, &[binding]].concat();
        Condition::exists(binding, self.condition(&inner_scope, depth))
    }

    fn comparison(&mut self, scope: &[Binding], depth: usize) -> Condition {
        if self.rng.percent(10) {
            if let Some(condition) = self.comparison_with_none(scope) {
                return condition;
            }
        }
        let operator = match self.rng.below(10) {
            // The operators that more often hold: answers should not be mostly empty.
            0..=3 => self
                .rng
                .pick(&[Operator::Unequal, Operator::AtMost, Operator::AtLeast]),
            _ => self.rng.pick(&OPERATORS),
        };
        let left = self.term(scope, depth, 75);
        let right = self.term(scope, depth, 35);
        Condition::Compare(operator, left, right)
    }

    /// One side or both mostly have no value (Change 2), under NOT or not.
    fn comparison_with_none(&mut self, scope: &[Binding]) -> Option<Condition> {
        let operator = self.rng.pick(&OPERATORS);
        let mut sides = [self.seldom_taken()?, self.term(scope, 0, 60)];
        if self.rng.percent(40) {
            sides[1] = self.seldom_taken().unwrap_or(sides[1].clone());
        }
        if self.rng.percent(50) {
            sides.reverse();
        }
        let [left, right] = sides;
        let condition = Condition::Compare(operator, left, right);
        Some(if self.rng.percent(40) {
            Condition::negated(condition)
        } else {
            condition
        })
    }

    /// An aggregate that mostly takes no row.
    fn seldom_taken(&mut self) -> Option<Term> {
        let binding = self.binding()?;
        let attribute = self.attribute_of(binding.relation);
        let own = self.attribute(&[binding]);
        let (operator, limit) = self.rng.pick(&[
            (Operator::Less, i32::MIN),
            (Operator::Greater, i32::MAX),
            (Operator::Less, self.pool[0]),
        ]);
        let condition = match self.rng.below(4) {
            0 => Condition::False,
            _ => Condition::Compare(operator, own, Term::Constant(limit)),
        };
        Some(Term::Aggregate(Box::new(Aggregate {
            function: self.rng.pick(&FUNCTIONS),
            binding,
            attribute,
            condition,
        })))
    }

    fn term(&mut self, scope: &[Binding], depth: usize, attribute_chance: usize) -> Term {
        if !scope.is_empty() && self.rng.percent(attribute_chance) {
            return self.attribute(scope);
        }
        if depth > 0 && self.rng.percent(50) {
            if let Some(term) = self.aggregate(depth - 1) {
                return term;
            }
        }
        Term::Constant(self.constant())
    }

    fn constant(&mut self) -> i32 {
        let value = self.rng.pick(self.pool);
        match self.rng.below(10) {
            0 => value.wrapping_add(1),
            1 => value.wrapping_sub(1),
            2 => self.rng.below(5) as i32,
            _ => value,
        }
    }

    /// Prefers the innermost variable, so that SOME and aggregates use their own.
    pub fn attribute(&mut self, scope: &[Binding]) -> Term {
        let innermost = scope[scope.len() - 1];
        let binding = if self.rng.percent(40) {
            innermost
        } else {
            self.rng.pick(scope)
        };
        let attribute = self.attribute_of(binding.relation);
        Term::Attribute {
            variable: binding.variable,
            attribute,
        }
    }

    fn attribute_of(&mut self, relation: u8) -> u8 {
        self.rng
            .below(self.tables[usize::from(relation)].attributes) as u8
    }

    pub fn aggregate(&mut self, depth: usize) -> Option<Term> {
        let binding = self.binding()?;
        let function = self.rng.pick(&FUNCTIONS);
        let attribute = self.attribute_of(binding.relation);
        let condition = self.condition(&[binding], depth);
        Some(Term::Aggregate(Box::new(Aggregate {
            function,
            binding,
            attribute,
            condition,
        })))
    }

    fn target(&mut self, ranges: &[Binding]) -> Option<Term> {
        if !ranges.is_empty() && self.rng.percent(80) {
            return Some(self.attribute(ranges));
        }
        let depth = self.rng.below(4);
        self.aggregate(depth)
    }

    pub fn query(&mut self, depth: usize) -> Query {
        let range_count = self.rng.pick(&[0, 1, 1, 1, 1, 1, 2, 2, 2, 3, 3, 4]);
        let ranges: Vec<Binding> = (0..range_count).filter_map(|_| self.binding()).collect();
        let target_count = self.rng.pick(&[1, 1, 1, 1, 1, 2, 2, 2, 3, 4, 6, 8]);
        let targets = (0..target_count)
            .filter_map(|_| self.target(&ranges))
            .collect();
        let condition = self.condition(&ranges, depth);
        let mut query = Query {
            ranges,
            targets,
            condition,
        };
        if query.targets.is_empty() {
            query.targets.push(self.attribute(&query.ranges));
        }
        query
    }
}

pub fn shuffled(rng: &mut Rng, numbers: impl Iterator<Item = u8>) -> Vec<u8> {
    let mut numbers: Vec<u8> = numbers.collect();
    rng.shuffle(&mut numbers);
    numbers
}

/// A query for ask.
pub fn query(rng: &mut Rng, tables: &[Table], pool: &[i32]) -> Query {
    let free = shuffled(rng, 0..ASK.variables as u8);
    let depth = rng.pick(&[0, 0, 1, 1, 2, 2, 3, 4]);
    let bindable = (0..tables.len() as u8).collect();
    Grower {
        rng,
        tables,
        pool,
        bindable,
        free,
    }
    .query(depth)
}

/// Permits that mostly let the query through.
pub fn permits(rng: &mut Rng, tables: &[Table], pool: &[i32], query: &Query) -> Vec<Permit> {
    let stored = tables::stored(tables);
    let mut permits: Vec<Permit> = Vec::new();
    for binding in query.bindings() {
        let used = rewrite::used_attributes(query, binding.variable);
        let is_served = permits
            .iter()
            .any(|permit| permit.applies(binding.relation, used));
        if stored.contains(&binding.relation) && !(is_served && rng.percent(60)) {
            permits.push(permit(rng, tables, pool, binding.relation, used));
        }
    }
    while !stored.is_empty() && permits.len() < MOST_PERMITS && rng.percent(30) {
        let relation = rng.pick(&stored);
        permits.push(permit(rng, tables, pool, relation, 0));
    }
    while !stored.is_empty() && permits.len() < MOST_PERMITS && rng.percent(25) {
        let relation = rng.pick(&stored);
        permits.extend(no_access(rng, tables, query, relation));
    }
    rng.shuffle(&mut permits);
    permits
}

/// The attributes of a relation, as a mask.
pub fn present(tables: &[Table], relation: u8) -> u16 {
    let attributes = tables[usize::from(relation)].attributes;
    ((1u32 << attributes) - 1) as u16
}

/// NO ACCESS to some attributes: mostly to none that the query uses, if there is one.
fn no_access(rng: &mut Rng, tables: &[Table], query: &Query, relation: u8) -> Option<Permit> {
    let used = query
        .bindings()
        .into_iter()
        .filter(|binding| binding.relation == relation)
        .map(|binding| rewrite::used_attributes(query, binding.variable))
        .fold(0, |used, more| used | more);
    let present = present(tables, relation);
    let free = present & !used;
    let some = rng.draw() as u16 | 1 << rng.below(16);
    let mask = match rng.below(20) {
        0 => ALL,
        1..=2 => some & present,
        _ if used == 0 && rng.percent(30) => ALL,
        _ if free & some == 0 => free,
        _ => free & some,
    };
    let condition = Condition::False;
    (mask != 0).then_some(Permit {
        relation,
        mask,
        condition,
    })
}

/// A permit on at least these attributes.
pub fn permit(rng: &mut Rng, tables: &[Table], pool: &[i32], relation: u8, used: u16) -> Permit {
    let own = Binding {
        variable: 0,
        relation,
    };
    let mask = mask(rng, tables, relation, used);
    loop {
        let free = shuffled(rng, 1..4);
        let bindable = tables::stored(tables);
        let depth = rng.pick(&[0, 0, 1, 1, 2, 2, 3, 4]);
        let condition = Grower {
            rng,
            tables,
            pool,
            bindable,
            free,
        }
        .condition(&[own], depth);
        // NO ACCESS is drawn by itself.
        let is_too_plain =
            condition == Condition::False || condition == Condition::True && rng.percent(70);
        let permit = Permit {
            relation,
            mask,
            condition,
        };
        if permit.bytes().len() <= MOST_BYTES && !is_too_plain {
            return permit;
        }
    }
}

fn mask(rng: &mut Rng, tables: &[Table], relation: u8, used: u16) -> u16 {
    let present = present(tables, relation);
    let one = 1 << rng.below(tables[usize::from(relation)].attributes);
    match rng.below(4) {
        0 => ALL,
        1 if used != 0 => used,
        _ => (used | one | rng.draw() as u16) & present,
    }
}
