//! Records of the blocks call.

use crate::generate::broken::{self, broken};
use crate::generate::cascade::{cascade, longest, Plan};
use crate::generate::damage::{self, damaged};
use crate::generate::draft::{Draft, SUPPORT_MEMBERS};
use crate::generate::limits;
use crate::generate::problems;
use crate::generate::rng::Rng;
use crate::generate::samples;
use crate::generate::support;

/// Streams of a few bytes.
const TINY: [&[u8]; 20] = [
    &[6],
    &[7],
    &[0],
    &[2],
    &[3],
    &[0x10],
    &[255],
    &[1],
    &[1, 0],
    &[1, 9],
    &[1, 1],
    &[1, 1, 6],
    &[1, 8, 6],
    &[1, 1, 6, 6],
    &[1, 1, 6, 7],
    &[1, 1, 1],
    &[1, 1, 4],
    &[1, 1, 5, 9],
    &[1, 1, 3, 6],
    &[1, 1, 3, 3, 3, 3, 3, 3, 3, 3, 3, 6],
];

/// A random problem stream; most are short, and about half are refused.
pub fn problem(rng: &mut Rng) -> Vec<u8> {
    match rng.below(100) {
        0..=37 => valid(rng),
        38..=47 => at_limit(rng),
        48..=67 => several_rules(rng),
        _ => {
            let draft = valid_draft(rng);
            let way = rng.below(damage::WAYS);
            let commands = draft.mixed_commands(rng);
            damaged(rng, damage::PROBLEM, &commands, way)
        }
    }
}

/// A problem that the reader takes; a few have too many members in S.
fn valid(rng: &mut Rng) -> Vec<u8> {
    if rng.once_in(60) {
        return exact_support(rng);
    }
    let draft = valid_draft(rng);
    if rng.once_in(3) {
        draft.bytes()
    } else {
        draft.mixed(rng)
    }
}

pub fn valid_draft(rng: &mut Rng) -> Draft {
    match rng.below(24) {
        0..=6 => problems::typical(rng),
        7..=15 => problems::crowded(rng),
        16..=18 => problems::wide(rng),
        19..=20 => problems::hollow(rng),
        _ => {
            let plan = short_plan(rng);
            cascade(rng, &plan)
        }
    }
}

fn at_limit(rng: &mut Rng) -> Vec<u8> {
    let number = rng.below(limits::LIMITS);
    let number = if number == 0 && !rng.once_in(4) {
        1
    } else {
        number
    };
    let past = rng.once_in(2);
    limits::at(rng, number, past)
}

fn several_rules(rng: &mut Rng) -> Vec<u8> {
    let kind = rng.below(broken::KINDS);
    let kind = if kind == broken::LONG && !rng.once_in(8) {
        0
    } else {
        kind
    };
    broken(rng, kind)
}

/// A chain of joins with a few dozen rounds at most.
fn short_plan(rng: &mut Rng) -> Plan {
    Plan {
        variables: rng.between(4, 8),
        constraints: rng.below(5),
        basis: rng.between(4, 12),
        block: rng.between(2, 5),
        terms: rng.between(1, 2),
        rounds: rng.between(2, 24),
    }
}

/// The plan of the longest chains.
pub fn long_plan() -> Plan {
    Plan {
        variables: 8,
        constraints: 8,
        basis: 64,
        block: 8,
        terms: 1,
        rounds: 600,
    }
}

/// Problems with S of 2,047 to 2,049 members, with and without the zero exponent, or joined ones.
fn exact_support(rng: &mut Rng) -> Vec<u8> {
    if rng.once_in(3) {
        let over = rng.below(2);
        return support::joined(rng, over).bytes();
    }
    let size = rng.between(SUPPORT_MEMBERS - 1, SUPPORT_MEMBERS + 1);
    let zero = rng.once_in(2);
    support::like_h(rng, size, zero).bytes()
}

/// The special cases, each once.
pub fn special() -> Vec<Vec<u8>> {
    let rng = &mut Rng::new(1);
    let mut all = samples::problems();
    all.extend(TINY.iter().map(|bytes| bytes.to_vec()));
    for number in 0..limits::LIMITS {
        for past in [false, true] {
            all.push(limits::at(rng, number, past));
        }
    }
    for zero in [false, true] {
        for size in SUPPORT_MEMBERS - 1..=SUPPORT_MEMBERS + 1 {
            all.push(support::like_h(rng, size, zero).bytes());
        }
    }
    for over in [0, 1] {
        all.push(support::joined(rng, over).bytes());
        all.push(support::joined(rng, over).bytes());
    }
    all.push(longest(rng, &long_plan(), 40).bytes());
    for (constraints, block, terms) in [(8, 2, 2), (8, 3, 2), (4, 4, 1), (0, 64, 1)] {
        let plan = Plan {
            constraints,
            block,
            terms,
            ..long_plan()
        };
        all.push(cascade(rng, &plan).bytes());
    }
    for even in [false, true] {
        all.push(problems::largest(rng, even).bytes());
    }
    all.extend(cuts());
    all
}

/// A short problem with all commands, cut at every point.
fn cuts() -> Vec<Vec<u8>> {
    let bytes = samples::f().bytes();
    (0..=bytes.len()).map(|cut| bytes[..cut].to_vec()).collect()
}
