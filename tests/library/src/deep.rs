//! The deepest inputs of evaluate, legal and illegal.

/// One record (or part of one) that opens a level, and what closes it.
#[derive(Clone, Copy)]
pub struct Nest {
    pub name: &'static str,
    /// A 255 stands for the number of a variable not yet bound.
    pub opening: &'static [u8],
    pub closing: &'static [u8],
    pub levels: usize,
}

pub const NESTS: [Nest; 8] = [
    nest("NOT", &[18], &[], 1),
    nest("AND, left", &[19], &[16], 1),
    nest("AND, right", &[19, 16], &[], 1),
    nest("OR, left", &[20], &[17], 1),
    nest("OR, right", &[20, 17], &[], 1),
    nest("SOME", &[22, FRESH, 0], &[], 1),
    nest(
        "aggregate, left",
        &[21, 6, 34, 1, FRESH, 0, 0],
        &[32, 0, 0, 0, 0],
        2,
    ),
    nest(
        "aggregate, right",
        &[21, 4, 32, 0, 0, 0, 0, 34, 3, FRESH, 0, 0],
        &[],
        2,
    ),
];

const FRESH: u8 = 255;
const MOST_BYTES: usize = 17_216;

const fn nest(
    name: &'static str,
    opening: &'static [u8],
    closing: &'static [u8],
    levels: usize,
) -> Nest {
    Nest {
        name,
        opening,
        closing,
        levels,
    }
}

#[derive(Clone, Copy, PartialEq, Eq, Debug)]
pub enum Place {
    /// Below the final condition.
    Condition,
    /// In the condition of an aggregate that is a target, so one level deeper.
    Target,
    /// Below the final condition, with four RANGE records.
    Ranges,
}

pub const PLACES: [Place; 3] = [Place::Condition, Place::Target, Place::Ranges];

/// The nests one inside the other around `middle`, in a whole query.
pub fn query(place: Place, nests: &[Nest], middle: &[u8]) -> Vec<u8> {
    let mut fresh = 10..200u8;
    let mut bytes: Vec<u8> = match place {
        Place::Condition => vec![34, 1, 0, 0, 0, 16],
        Place::Target => vec![34, 5, 0, 0, 0],
        Place::Ranges => vec![1, 0, 0, 1, 1, 0, 1, 2, 0, 1, 3, 0, 33, 3, 0],
    };
    for nest in nests {
        // Past the last number the query is over the variables anyway.
        let number = if nest.opening.contains(&FRESH) {
            fresh.next().unwrap_or(199)
        } else {
            0
        };
        bytes.extend(
            nest.opening
                .iter()
                .map(|byte| if *byte == FRESH { number } else { *byte }),
        );
    }
    bytes.extend(middle);
    for nest in nests.iter().rev() {
        bytes.extend(nest.closing);
    }
    if place == Place::Target {
        bytes.push(16);
    }
    bytes
}

/// What stands innermost: none (wrong), TRUE, a comparison of terms.
pub const MIDDLES: [&[u8]; 3] = [&[], &[16], &[21, 1, 32, 0, 0, 0, 0, 32, 0, 0, 0, 0]];

/// How many times: around the limit of 64 levels, then up to what fits the bytes and one more.
fn depths(nest: Nest) -> Vec<usize> {
    let most = (MOST_BYTES - 16) / (nest.opening.len() + nest.closing.len());
    let around = 64 / nest.levels;
    let mut depths: Vec<usize> = (1..around + 4).collect();
    let mut depth = around + 4;
    while depth < most {
        depths.push(depth);
        depth += depth / 4;
    }
    depths.extend([most - 1, most, most + 1, most + 20]);
    depths
}

/// Each kind of record inside itself.
pub fn uniform(visit: &mut dyn FnMut(Vec<u8>)) {
    for place in PLACES {
        for nest in NESTS {
            for depth in depths(nest) {
                for middle in MIDDLES {
                    visit(query(place, &vec![nest; depth], middle));
                }
            }
        }
    }
}

/// The longest of each kind, and the deepest legal ones, cut short at many bytes.
pub fn cut_short(visit: &mut dyn FnMut(Vec<u8>)) {
    for place in PLACES {
        for nest in NESTS {
            let most = (MOST_BYTES - 16) / (nest.opening.len() + nest.closing.len());
            let longest = query(place, &vec![nest; most], &[16]);
            for part in 0..=64 {
                visit(longest[..longest.len() * part / 64].to_vec());
            }
            let legal = query(place, &vec![nest; 60 / nest.levels], &[16]);
            for length in 0..=legal.len() {
                visit(legal[..length].to_vec());
            }
        }
    }
}

/// Openings and nothing after them, up to the most bytes and at many lengths below.
pub fn openings(visit: &mut dyn FnMut(Vec<u8>)) {
    for place in PLACES {
        for nest in NESTS {
            let open = Nest {
                closing: &[],
                ..nest
            };
            let longest = query(place, &vec![open; MOST_BYTES / nest.opening.len() + 1], &[]);
            for part in 1..32 {
                visit(longest[..MOST_BYTES * part / 32].to_vec());
            }
            for less in 0..16 {
                visit(longest[..MOST_BYTES - less].to_vec());
            }
        }
    }
}

/// Nothing but one byte, over and over: every kind, at the most bytes and one more.
pub fn repeated(visit: &mut dyn FnMut(Vec<u8>)) {
    for byte in [1, 16, 17, 18, 19, 20, 21, 22, 32, 33, 34] {
        for length in [
            1,
            2,
            64,
            1024,
            8192,
            MOST_BYTES - 1,
            MOST_BYTES,
            MOST_BYTES + 1,
        ] {
            visit(vec![byte; length]);
        }
    }
}

/// Legal queries of 64 levels with all kinds mixed: pairs of kinds taking turns.
pub fn mixed(visit: &mut dyn FnMut(Vec<u8>)) {
    for place in PLACES {
        for first in NESTS {
            for second in NESTS {
                let room = if place == Place::Target { 62 } else { 63 };
                let turns = room / (first.levels + second.levels);
                visit(query(place, &[first, second].repeat(turns), &[16]));
                visit(query(place, &[first, second].repeat(turns + 1), &[16]));
            }
        }
    }
}

/// All of them.
pub fn each(visit: &mut dyn FnMut(Vec<u8>)) {
    uniform(visit);
    cut_short(visit);
    openings(visit);
    repeated(visit);
    mixed(visit);
}
