//! `draw EACH DRAWN FILE`: EACH cases of each shape and DRAWN of the judge's generator, as text, one line a field.

use judge::gen::rng::{case_seed, Rng};
use draw::{case, shapes, Call, Case};
use std::fmt::Write;
use std::{env, fs};

const RUN_SEED: u64 = 1974;

fn line<T: ToString>(out: &mut String, name: &str, items: impl IntoIterator<Item = T>) {
    let items: Vec<String> = items.into_iter().map(|item| item.to_string()).collect();
    writeln!(out, "{name} {} {}", items.len(), items.join(" ")).unwrap();
}

fn write(out: &mut String, case: &Case) {
    writeln!(out, "case {}", case.shape).unwrap();
    line(out, "catalogue", &case.call.catalogue);
    line(out, "permits", &case.call.permits);
    line(out, "query", &case.call.query);
    line(out, "values", &case.call.values);
    line(out, "marked", case.marked.iter().map(|mark| u8::from(*mark)));
    line(out, "other", &case.other);
    line(out, "rewritten", &case.rewritten);
    line(out, "answer", &case.answer);
    let outcome = case.outcome;
    let counts = [outcome.number, outcome.rows, outcome.columns, outcome.length, case.call.cells as u64, case.sought as u64];
    line(out, "outcome", counts);
}

/// Cases of one shape, until there are enough.
fn shaped(out: &mut String, shape: usize, wanted: usize) {
    let rng = &mut Rng::new(case_seed(RUN_SEED, shape as u64));
    let mut found = 0;
    while found < wanted {
        let call = shapes::call(rng, shape);
        let rows = call.catalogue[2].max(4);
        let span = usize::from(rows) * 2;
        let made = case(rng, shapes::SHAPES[shape], call, &mut |rng, old| shapes::fresh(rng, span, old));
        if let Some(made) = made {
            // An answer of no rows over no permitted rows shows little.
            if made.outcome.rows > 0 || rng.percent(30) {
                write(out, &made);
                found += 1;
            }
        }
    }
}

/// Calls of the judge's generator that are accepted, or refused by 41.
fn drawn(out: &mut String, wanted: usize) {
    let mut found = 0;
    for index in 0.. {
        if found == wanted {
            return;
        }
        let seed = case_seed(RUN_SEED, 1000 + index);
        let of = judge::gen::case(seed);
        let call = Call {
            catalogue: of.catalogue,
            values: of.values,
            permits: of.permits,
            query: of.query,
            cells: of.answer_before.len(),
        };
        let rng = &mut Rng::new(seed);
        let pool = call.values.clone();
        let made = case(rng, "drawn by the judge", call, &mut |rng, old| {
            if rng.percent(25) { old } else { rng.pick(&pool).wrapping_add(rng.below(3) as i32 - 1) }
        });
        if let Some(made) = made.filter(|made| [0, 41].contains(&made.outcome.number)) {
            write(out, &made);
            found += 1;
        }
    }
}

fn main() {
    let arguments: Vec<String> = env::args().collect();
    let [_, each, from_judge, file] = &arguments[..] else {
        panic!("usage: draw EACH DRAWN FILE");
    };
    let mut out = String::new();
    for shape in 0..shapes::SHAPES.len() {
        shaped(&mut out, shape, each.parse().unwrap());
    }
    drawn(&mut out, from_judge.parse().unwrap());
    fs::write(file, out).unwrap();
}
