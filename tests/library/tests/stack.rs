//! The deepest inputs, in a thread with the stack that the header asks for, and what they take.

use judge::Outcome;
use library::deep::{self, Place, NESTS, PLACES};
use library::stack::Stack;
use std::thread;

/// WALDUMRE_STACK_BYTES of the header, in bytes.
fn promised() -> usize {
    let header = include_str!("../../../include/waldumre.h");
    let (_, after) = header.split_once("#define WALDUMRE_STACK_BYTES ").unwrap();
    after.lines().next().unwrap().trim().parse().unwrap()
}

const CATALOGUE: [u8; 4] = [48, 1, 1, 0];
const VALUES: [i32; 1] = [5];

fn run(
    evaluate: fn(&[u8], &[i32], &[u8], &mut [i64]) -> Outcome,
    query: &[u8],
) -> (Outcome, [i64; 3]) {
    let mut answer = [-77; 3];
    let outcome = evaluate(&CATALOGUE, &VALUES, query, &mut answer);
    (outcome, answer)
}

#[test]
fn the_deepest_inputs_pass_in_the_promised_stack() {
    assert!(promised() <= 1 << 20, "more than 1 MiB is promised");
    compare_in(promised());
}

/// The library runs in a thread with this stack, the judge outside it.
fn compare_in(stack: usize) {
    let in_thread = || {
        let mut given = Vec::new();
        deep::each(&mut |query| given.push(run(library::evaluate, &query)));
        given
    };
    let thread = thread::Builder::new().stack_size(stack);
    let mut given = thread.spawn(in_thread).unwrap().join().unwrap().into_iter();
    let (mut cases, mut accepted) = (0, 0);
    deep::each(&mut |query| {
        let judged = run(judge::evaluate, &query);
        assert_eq!(given.next(), Some(judged), "query {query:?}");
        cases += 1;
        accepted += usize::from(judged.0.number == 0);
    });
    println!("deep queries {cases}, accepted {accepted}");
    assert!(cases > 10_000 && accepted > 2_000);
}

fn taken(stack: &mut Stack, query: &[u8]) -> usize {
    let mut answer = [0; 3];
    stack.used(&mut || {
        library::evaluate(&CATALOGUE, &VALUES, query, &mut answer);
    })
}

#[derive(Default)]
struct Most {
    bytes: usize,
    query: Vec<u8>,
}

impl Most {
    fn note(&mut self, stack: &mut Stack, query: Vec<u8>) {
        let bytes = taken(stack, &query);
        if bytes > self.bytes {
            *self = Most { bytes, query };
        }
    }

    fn print(&self, name: &str) {
        let Most { bytes, query } = self;
        let shown = &query[..query.len().min(24)];
        println!(
            "{name}: {bytes} bytes of stack for a query of {} bytes {shown:?}..",
            query.len()
        );
    }
}

/// Legal: 64 levels, each kind of record inside itself and in turn with each other kind.
fn deepest_legal(stack: &mut Stack) -> Most {
    let mut most = Most::default();
    for place in PLACES {
        let room = if place == Place::Target { 62 } else { 63 };
        for first in NESTS {
            for second in NESTS {
                let turns = room / (first.levels + second.levels);
                let mut chain = [first, second].repeat(turns);
                let levels: usize = chain.iter().map(|nest| nest.levels).sum();
                chain.extend(vec![NESTS[0]; room - levels]);
                let query = deep::query(place, &chain, &[16]);
                assert_eq!(run(judge::evaluate, &query).0.number, 0);
                most.note(stack, query);
            }
        }
    }
    most
}

/// What the header asks for has a margin of half of what was measured, or more.
#[test]
fn the_stack_taken_is_within_the_promise() {
    let stack = &mut Stack::new(8192);
    let legal = deepest_legal(stack);
    legal.print("accepted");
    let mut any = Most::default();
    deep::openings(&mut |query| any.note(stack, query));
    any.print("refused");
    let most = legal.bytes.max(any.bytes);
    println!(
        "most {} KiB, promised {} KiB",
        most.div_ceil(1024),
        promised() / 1024
    );
    assert!(most + most / 2 <= promised());
}

/// ask: permits and queries nested without end, and the deepest legal ones.
#[cfg(feature = "ask")]
mod asked {
    use super::*;

    type Call = fn(&[u8], &[i32], &[u8], &[u8], &mut [u8], &mut [i64]) -> Outcome;

    fn run(ask: Call, permits: &[u8], query: &[u8]) -> (Outcome, Vec<u8>, [i64; 3]) {
        let (mut rewritten, mut answer) = (vec![99; 17_216], [-77; 3]);
        let outcome = ask(
            &CATALOGUE,
            &VALUES,
            permits,
            query,
            &mut rewritten,
            &mut answer,
        );
        (outcome, rewritten, answer)
    }

    /// Bytes that open a level, over and over.
    fn endless(start: &[u8], opening: &[u8], length: usize) -> Vec<u8> {
        let mut bytes = start.to_vec();
        bytes.extend(opening.iter().cycle().take(length - start.len()));
        bytes
    }

    fn cases() -> Vec<(Vec<u8>, Vec<u8>)> {
        let permit = vec![64, 0, 255, 255, 16];
        let (permit_start, query_start) = ([64, 0, 255, 255], [34, 1, 0, 0, 0]);
        let mut cases = Vec::new();
        for nest in NESTS {
            let opening: Vec<u8> = nest.opening.iter().map(|byte| byte % 254).collect();
            for cut in 0..16 {
                let permits = endless(&permit_start, &opening, 2_048 - cut);
                cases.push((permits, vec![34, 1, 0, 0, 0, 16, 16]));
                cases.push((permit.clone(), endless(&query_start, &opening, 1_024 - cut)));
            }
        }
        // 8 variables one inside the other, each guarded by 8 permits of 16 levels.
        let deep = [&permit_start[..], &[18; 14], &[22, 1, 0, 16]].concat();
        let somes: Vec<u8> = (1..8)
            .flat_map(|variable| [18, 18, 18, 22, variable, 0])
            .collect();
        let query = [&[1, 0, 0, 33, 0, 0], &somes[..], &[18, 18, 16]].concat();
        cases.push((deep.repeat(8), query));
        cases
    }

    #[test]
    fn the_deepest_inputs_of_ask() {
        let stack = &mut Stack::new(8192);
        let (mut most, mut numbers) = (0, Vec::new());
        for (permits, query) in cases() {
            let judged = run(judge::ask, &permits, &query);
            let mut given = None;
            let used = stack.used(&mut || given = Some(run(library::ask, &permits, &query)));
            most = most.max(used);
            numbers.push(judged.0.number);
            assert_eq!(given, Some(judged), "permits {permits:?} query {query:?}");
        }
        numbers.sort();
        numbers.dedup();
        println!("ask: most {most} bytes of stack, numbers {numbers:?}");
        assert!(numbers.contains(&0));
        assert!(most + most / 2 <= promised());
    }
}
