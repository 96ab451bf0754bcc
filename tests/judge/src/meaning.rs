//! The meaning of a checked query over a collection.

use crate::catalogue::Collection;
use crate::query::{Aggregate, Binding, Condition, Function, Query, Term};
use std::cmp::Ordering;

/// The row each variable stands at.
pub type Assignment<'a> = Vec<(u8, &'a [i32])>;

fn extended<'a>(rows: &Assignment<'a>, variable: u8, row: &'a [i32]) -> Assignment<'a> {
    let mut more = rows.clone();
    more.push((variable, row));
    more
}

/// An exact value: a quotient with a positive count.
#[derive(Clone, Copy, Debug)]
pub struct Value {
    sum: i128,
    count: i128,
}

impl Value {
    fn whole(number: i128) -> Value {
        Value {
            sum: number,
            count: 1,
        }
    }

    fn compare(self, other: Value) -> Ordering {
        (self.sum * other.count).cmp(&(other.sum * self.count))
    }

    /// Rounded to the nearest whole number, halves away from zero (Change 4).
    fn cell(self) -> i64 {
        let size = (2 * self.sum.abs() + self.count) / (2 * self.count);
        i64::try_from(self.sum.signum() * size).expect("sums of 1,024 values fit a cell")
    }
}

/// The distinct rows of the answer, in the order in which they first occur.
pub fn answer(collection: &Collection, query: &Query) -> Vec<Vec<i64>> {
    let mut answer = Vec::new();
    collect(collection, query, &query.ranges, &Vec::new(), &mut answer);
    answer
}

/// Runs the remaining ranges: the first of them is the slowest wheel of the odometer.
fn collect<'a>(
    collection: &Collection<'a>,
    query: &Query,
    ranges: &[Binding],
    rows: &Assignment<'a>,
    answer: &mut Vec<Vec<i64>>,
) {
    if let [range, faster @ ..] = ranges {
        for row in collection.rows(range.relation) {
            let rows = extended(rows, range.variable, row);
            collect(collection, query, faster, &rows, answer);
        }
    } else if holds(collection, &query.condition, rows) {
        // A target without value leaves no row (Change 2).
        let cell = |target| value(collection, target, rows).map(Value::cell);
        let row: Option<Vec<i64>> = query.targets.iter().map(cell).collect();
        answer.extend(row.filter(|row| !answer.contains(row)));
    }
}

pub fn holds<'a>(
    collection: &Collection<'a>,
    condition: &Condition,
    rows: &Assignment<'a>,
) -> bool {
    match condition {
        Condition::True => true,
        Condition::False => false,
        Condition::Not(inner) => !holds(collection, inner, rows),
        Condition::And(left, right) => {
            holds(collection, left, rows) && holds(collection, right, rows)
        }
        Condition::Or(left, right) => {
            holds(collection, left, rows) || holds(collection, right, rows)
        }
        Condition::Compare(operator, left, right) => {
            // With a term that has no value it is false, whichever operator (Change 2).
            let left = value(collection, left, rows);
            let right = value(collection, right, rows);
            match (left, right) {
                (Some(left), Some(right)) => operator.holds(left.compare(right)),
                _ => false,
            }
        }
        Condition::Exists(binding, inner) => collection
            .rows(binding.relation)
            .any(|row| holds(collection, inner, &extended(rows, binding.variable, row))),
    }
}

/// None: an aggregate that has no value.
fn value<'a>(collection: &Collection<'a>, term: &Term, rows: &Assignment<'a>) -> Option<Value> {
    match term {
        Term::Constant(number) => Some(Value::whole(i128::from(*number))),
        Term::Attribute {
            variable,
            attribute,
        } => {
            let (_, row) = rows
                .iter()
                .find(|(number, _)| number == variable)
                .expect("the variable is in reach");
            Some(Value::whole(i128::from(row[usize::from(*attribute)])))
        }
        Term::Aggregate(aggregate) => aggregate_value(collection, aggregate),
    }
}

/// No assignment is handed in: an aggregate uses only variables bound by it or within it.
/// Over no rows AVE, MAX and MIN have no value, COUNT and SUM are 0 (Change 2).
fn aggregate_value(collection: &Collection, aggregate: &Aggregate) -> Option<Value> {
    let Aggregate {
        function,
        binding,
        attribute,
        condition,
    } = aggregate;
    let taken: Vec<i128> = collection
        .rows(binding.relation)
        .filter(|row| holds(collection, condition, &vec![(binding.variable, *row)]))
        .map(|row| i128::from(row[usize::from(*attribute)]))
        .collect();
    let count = taken.len() as i128;
    let sum = taken.iter().sum();
    match function {
        Function::Count => Some(Value::whole(count)),
        Function::Sum => Some(Value::whole(sum)),
        Function::Average => (count > 0).then_some(Value { sum, count }),
        Function::Maximum => taken.into_iter().max().map(Value::whole),
        Function::Minimum => taken.into_iter().min().map(Value::whole),
    }
}
