//! The names of a text looked up, its variables numbered: the query that it means.

use super::grammar::{Aggregate, Attribute, Condition, Term, Text};
use super::names::Names;
use crate::query::{self, Binding, Query};
use std::collections::BTreeSet;

/// None if a name is unknown, out of reach or bound twice.
pub fn query(text: &Text, names: &Names) -> Option<Query> {
    if !is_each_bound_once(text) {
        return None;
    }
    let used = used_outside_aggregates(text);
    let mut resolver = Resolver { names, bound: 0 };
    let mut scope = Scope::default();
    let mut ranges = Vec::new();
    for range in &text.ranges {
        let relation = names.relation(&range.relation)?;
        for symbol in &range.symbols {
            scope.heads.push((symbol, relation));
            if used.contains(symbol.as_str()) {
                let binding = resolver.bind(relation);
                ranges.push(binding);
                scope.reach.push((symbol, binding));
            }
        }
    }
    let targets = text
        .targets
        .iter()
        .map(|target| resolver.term(target, &scope))
        .collect::<Option<_>>()?;
    let condition = resolver.qualification(&text.condition, &scope)?;
    Some(Query {
        ranges,
        targets,
        condition,
    })
}

/// What a symbol means at a place.
#[derive(Clone, Default)]
struct Scope<'a> {
    /// Symbols that an aggregate may name, with their relations.
    heads: Vec<(&'a str, u8)>,
    /// Symbols whose attributes may be used.
    reach: Vec<(&'a str, Binding)>,
}

impl<'a> Scope<'a> {
    fn head(&self, symbol: &str) -> Option<u8> {
        let found = self.heads.iter().find(|(own, _)| *own == symbol);
        found.map(|(_, relation)| *relation)
    }

    fn reached(&self, symbol: &str) -> Option<Binding> {
        let found = self.reach.iter().find(|(own, _)| *own == symbol);
        found.map(|(_, binding)| *binding)
    }

    fn within_exists(&self, symbol: &'a str, binding: Binding) -> Scope<'a> {
        let mut scope = self.clone();
        scope.heads.push((symbol, binding.relation));
        scope.reach.push((symbol, binding));
        scope
    }

    /// Nothing from outside is in reach.
    fn within_aggregate(&self, symbol: &'a str, binding: Binding) -> Scope<'a> {
        Scope {
            heads: self.heads.clone(),
            reach: vec![(symbol, binding)],
        }
    }
}

struct Resolver<'a> {
    names: &'a Names,
    /// How many variables were bound so far.
    bound: usize,
}

impl Resolver<'_> {
    fn bind(&mut self, relation: u8) -> Binding {
        let variable = (self.bound % 256) as u8;
        self.bound += 1;
        Binding { variable, relation }
    }

    fn qualification(
        &mut self,
        condition: &Option<Box<Condition>>,
        scope: &Scope,
    ) -> Option<query::Condition> {
        match condition {
            None => Some(query::Condition::True),
            Some(condition) => self.condition(condition, scope),
        }
    }

    fn condition(&mut self, of: &Condition, scope: &Scope) -> Option<query::Condition> {
        let condition = match of {
            Condition::Not(inner) => query::Condition::negated(self.condition(inner, scope)?),
            Condition::And(left, right) => {
                let left = self.condition(left, scope)?;
                query::Condition::and(left, self.condition(right, scope)?)
            }
            Condition::Or(left, right) => {
                let left = self.condition(left, scope)?;
                query::Condition::or(left, self.condition(right, scope)?)
            }
            Condition::Compare(operator, left, right) => {
                let left = self.term(left, scope)?;
                query::Condition::Compare(*operator, left, self.term(right, scope)?)
            }
            Condition::Exists(exists) => {
                let binding = self.bind(self.names.relation(&exists.relation)?);
                let scope = scope.within_exists(&exists.symbol, binding);
                let inner = self.condition(&exists.condition, &scope)?;
                query::Condition::exists(binding, inner)
            }
        };
        Some(condition)
    }

    fn term(&mut self, of: &Term, scope: &Scope) -> Option<query::Term> {
        let term = match of {
            Term::Number(number) => query::Term::Constant(*number),
            Term::Value(name) => query::Term::Constant(self.names.value(name)?),
            Term::Attribute(Attribute { symbol, attribute }) => {
                let binding = scope.reached(symbol)?;
                query::Term::Attribute {
                    variable: binding.variable,
                    attribute: self.names.attribute(binding.relation, attribute)?,
                }
            }
            Term::Aggregate(aggregate) => {
                let Aggregate {
                    function,
                    own,
                    condition,
                } = &**aggregate;
                let relation = scope.head(&own.symbol)?;
                let attribute = self.names.attribute(relation, &own.attribute)?;
                let binding = self.bind(relation);
                let scope = scope.within_aggregate(&own.symbol, binding);
                let condition = self.qualification(condition, &scope)?;
                query::Term::Aggregate(Box::new(query::Aggregate {
                    function: *function,
                    binding,
                    attribute,
                    condition,
                }))
            }
        };
        Some(term)
    }
}

/// What a walk over a text meets.
enum Met<'a> {
    /// The symbol of a SOME.
    Exists(&'a str),
    /// The symbol of an attribute, and whether it is inside an aggregate.
    Attribute(&'a str, bool),
}

/// All symbols of the RANGE and of all SOMEs differ. Aggregates are not counted.
fn is_each_bound_once(text: &Text) -> bool {
    let mut bound: Vec<&str> = Vec::new();
    for range in &text.ranges {
        bound.extend(range.symbols.iter().map(String::as_str));
    }
    walk(text, &mut |met| {
        if let Met::Exists(symbol) = met {
            bound.push(symbol);
        }
    });
    let different: BTreeSet<&str> = bound.iter().copied().collect();
    different.len() == bound.len()
}

fn used_outside_aggregates(text: &Text) -> BTreeSet<&str> {
    let mut used = BTreeSet::new();
    walk(text, &mut |met| {
        if let Met::Attribute(symbol, false) = met {
            used.insert(symbol);
        }
    });
    used
}

fn walk<'a>(text: &'a Text, note: &mut dyn FnMut(Met<'a>)) {
    for target in &text.targets {
        walk_term(target, false, note);
    }
    if let Some(condition) = &text.condition {
        walk_condition(condition, false, note);
    }
}

fn walk_condition<'a>(of: &'a Condition, is_inside: bool, note: &mut dyn FnMut(Met<'a>)) {
    match of {
        Condition::Not(inner) => walk_condition(inner, is_inside, note),
        Condition::And(left, right) | Condition::Or(left, right) => {
            walk_condition(left, is_inside, note);
            walk_condition(right, is_inside, note);
        }
        Condition::Compare(_, left, right) => {
            walk_term(left, is_inside, note);
            walk_term(right, is_inside, note);
        }
        Condition::Exists(exists) => {
            note(Met::Exists(&exists.symbol));
            walk_condition(&exists.condition, is_inside, note);
        }
    }
}

fn walk_term<'a>(of: &'a Term, is_inside: bool, note: &mut dyn FnMut(Met<'a>)) {
    match of {
        Term::Number(_) | Term::Value(_) => {}
        Term::Attribute(attribute) => note(Met::Attribute(&attribute.symbol, is_inside)),
        Term::Aggregate(aggregate) => {
            if let Some(condition) = &aggregate.condition {
                walk_condition(condition, true, note);
            }
        }
    }
}
