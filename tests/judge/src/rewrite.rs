//! The rewriting: which permits apply to a variable, and where its guard goes.

use crate::catalogue::Relation;
use crate::permits::Permit;
use crate::query::{Aggregate, Binding, Condition, Query, Record, Term};

/// The first number for the variables of permits.
const FIRST_FRESH: u8 = 8;

/// S: the attributes used of a variable in the query, as a mask.
pub fn used_attributes(query: &Query, variable: u8) -> u16 {
    query
        .records()
        .into_iter()
        .filter_map(Record::attribute_use)
        .filter(|(user, _)| *user == variable)
        .fold(0, |used, (_, attribute)| used | 1 << attribute)
}

pub fn applying<'a>(permits: &'a [Permit], query: &Query, binding: Binding) -> Vec<&'a Permit> {
    let used = used_attributes(query, binding.variable);
    permits
        .iter()
        .filter(|permit| permit.applies(binding.relation, used))
        .collect()
}

pub fn is_barred(permits: &[Permit], query: &Query, binding: Binding) -> bool {
    let used = used_attributes(query, binding.variable);
    permits
        .iter()
        .any(|permit| permit.bars(binding.relation, used))
}

pub fn is_stored(relations: &[Relation], relation: u8) -> bool {
    relations[usize::from(relation)].kind.is_stored()
}

/// The grounds of refusal 33: a variable over a stored relation is barred, or no permit applies to it.
pub fn lacks_permit(relations: &[Relation], permits: &[Permit], query: &Query) -> bool {
    query.bindings().into_iter().any(|binding| {
        is_stored(relations, binding.relation)
            && (is_barred(permits, query, binding) || applying(permits, query, binding).is_empty())
    })
}

/// Every variable over a stored relation has an applying permit.
pub fn rewrite(relations: &[Relation], permits: &[Permit], query: &Query) -> Query {
    let mut rewriter = Rewriter {
        relations,
        permits,
        query,
        next: FIRST_FRESH,
    };
    let targets = query
        .targets
        .iter()
        .map(|target| rewriter.term(target))
        .collect();
    let mut condition = rewriter.condition(&query.condition);
    for range in &query.ranges {
        condition = rewriter.guarded(condition, *range);
    }
    Query {
        ranges: query.ranges.clone(),
        targets,
        condition,
    }
}

/// Everything is rewritten in byte order, so that fresh numbers rise in byte order.
struct Rewriter<'a> {
    relations: &'a [Relation],
    permits: &'a [Permit],
    query: &'a Query,
    next: u8,
}

impl Rewriter<'_> {
    fn condition(&mut self, condition: &Condition) -> Condition {
        match condition {
            Condition::True => Condition::True,
            Condition::False => Condition::False,
            Condition::Not(inner) => Condition::negated(self.condition(inner)),
            Condition::And(left, right) => {
                let left = self.condition(left);
                Condition::and(left, self.condition(right))
            }
            Condition::Or(left, right) => {
                let left = self.condition(left);
                Condition::or(left, self.condition(right))
            }
            Condition::Compare(operator, left, right) => {
                let left = self.term(left);
                Condition::Compare(*operator, left, self.term(right))
            }
            Condition::Exists(binding, inner) => {
                let inner = self.condition(inner);
                Condition::exists(*binding, self.guarded(inner, *binding))
            }
        }
    }

    fn term(&mut self, term: &Term) -> Term {
        let Term::Aggregate(aggregate) = term else {
            return term.clone();
        };
        let inner = self.condition(&aggregate.condition);
        let condition = self.guarded(inner, aggregate.binding);
        Term::Aggregate(Box::new(Aggregate {
            condition,
            ..**aggregate
        }))
    }

    /// AND, condition, guard; over a workspace the condition alone.
    fn guarded(&mut self, condition: Condition, binding: Binding) -> Condition {
        if !is_stored(self.relations, binding.relation) {
            return condition;
        }
        let guard = self.guard(binding);
        Condition::and(condition, guard)
    }

    fn guard(&mut self, binding: Binding) -> Condition {
        let permits = applying(self.permits, self.query, binding);
        let instances = permits
            .into_iter()
            .map(|permit| instance(permit, binding.variable, &mut self.next))
            .collect();
        right_nested_or(instances)
    }
}

fn right_nested_or(mut conditions: Vec<Condition>) -> Condition {
    let last = conditions
        .pop()
        .expect("a stored relation's variable has an applying permit");
    conditions
        .into_iter()
        .rev()
        .fold(last, |right, left| Condition::or(left, right))
}

/// A permit's condition for one variable, with fresh numbers for the permit's other variables.
fn instance(permit: &Permit, variable: u8, next: &mut u8) -> Condition {
    let mut numbers = vec![(0, variable)];
    let mut renamed = Vec::new();
    for record in permit.condition.records() {
        if let Some(binding) = record.binding() {
            numbers.push((binding.variable, *next));
            *next += 1;
        }
        renamed.push(rename(record, &numbers));
    }
    Condition::build(&renamed)
}

fn rename(record: Record, numbers: &[(u8, u8)]) -> Record {
    let new = |old: u8| {
        let pair = numbers.iter().find(|(from, _)| *from == old);
        pair.expect("the variable is bound before it is used").1
    };
    let bound = |binding: Binding| Binding {
        variable: new(binding.variable),
        ..binding
    };
    match record {
        Record::Exists(binding) => Record::Exists(bound(binding)),
        Record::Aggregate {
            function,
            binding,
            attribute,
        } => Record::Aggregate {
            function,
            binding: bound(binding),
            attribute,
        },
        Record::Attribute {
            variable,
            attribute,
        } => Record::Attribute {
            variable: new(variable),
            attribute,
        },
        other => other,
    }
}
