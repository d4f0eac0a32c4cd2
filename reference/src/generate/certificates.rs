//! Records of the check and of the pair.

use crate::generate::accepted::{case, Case};
use crate::generate::blocks::problem;
use crate::generate::changes::{change_case, CHANGES};
use crate::generate::damage::{self, damaged};
use crate::generate::largest::{extreme, largest};
use crate::generate::rng::Rng;
use crate::generate::rules::{break_rule, RULES};
use crate::records::{Record, CHECK};

/// How many ways there are to swap the certificates or their sides.
const SWAPS: usize = 6;

/// Certificate streams of a few bytes.
const TINY: [&[u8]; 10] = [
    &[0x13],
    &[0x10],
    &[0x11],
    &[0x12],
    &[0x14],
    &[1],
    &[0x10, 0, 1, 0, 0, 0, 0, 0, 1],
    &[0x10, 0, 1, 0, 0, 0, 0, 0, 1, 0],
    &[0x10, 0, 1, 0, 0, 0, 0, 0, 1, 0, 0x12],
    &[0x10, 0, 1, 0, 0, 0, 0, 0, 1, 0, 0x13, 0x13],
];

/// A random record of this kind.
pub fn record(rng: &mut Rng, kind: u8) -> Record {
    let mut case = case(rng);
    match rng.below(100) {
        0..=19 => {}
        20..=57 => {
            let change = rng.below(CHANGES);
            change_case(rng, &mut case, change);
        }
        58..=65 => {
            let way = rng.below(SWAPS);
            swap(&mut case, way);
        }
        66..=69 => {
            let streams = streams(&case).map(|commands| commands.concat());
            let [_, lower, upper] = streams;
            return as_record(kind, case.focus, [problem(rng), lower, upper]);
        }
        70..=84 => {
            let number = rng.below(RULES);
            return with_broken_rule(rng, kind, &case, number);
        }
        _ => {
            let (stream, way) = (*rng.pick(&[0, 1, 1, 2, 2]), rng.below(damage::WAYS));
            return with_damage(rng, kind, &case, stream, way);
        }
    }
    plain(kind, &case)
}

/// The special cases, each once.
pub fn special(kind: u8) -> Vec<Record> {
    let rng = &mut Rng::new(3);
    let mut all = Vec::new();
    for focus in [0, 1] {
        let next = |rng: &mut Rng| Case { focus, ..case(rng) };
        for tiny in TINY {
            let mut bytes = streams(&next(rng)).map(|commands| commands.concat());
            bytes[focus + 1] = tiny.to_vec();
            all.push(as_record(kind, focus, bytes));
        }
        for change in 0..CHANGES {
            let mut case = next(rng);
            change_case(rng, &mut case, change);
            all.push(plain(kind, &case));
        }
        for number in 0..RULES {
            let case = next(rng);
            all.push(with_broken_rule(rng, kind, &case, number));
        }
        for way in 0..damage::WAYS {
            let case = next(rng);
            all.push(with_damage(rng, kind, &case, focus + 1, way));
        }
        for way in 0..SWAPS {
            let mut case = next(rng);
            swap(&mut case, way);
            all.push(plain(kind, &case));
        }
    }
    all.push(plain(kind, &largest(rng)));
    all.extend([1, -1].map(|sign| plain(kind, &extreme(sign))));
    all
}

/// The commands of the three streams.
pub fn streams(case: &Case) -> [Vec<Vec<u8>>; 3] {
    [
        case.problem.commands(),
        case.lower.commands(),
        case.upper.commands(),
    ]
}

/// The case as it stands.
pub fn plain(kind: u8, case: &Case) -> Record {
    let streams = streams(case).map(|commands| commands.concat());
    as_record(kind, case.focus, streams)
}

/// A record of these streams; a check takes the certificate in focus.
pub fn as_record(kind: u8, focus: usize, [problem, lower, upper]: [Vec<u8>; 3]) -> Record {
    if kind != CHECK {
        Record::pair(problem, lower, upper)
    } else if focus == 0 {
        Record::check(problem, lower)
    } else {
        Record::check(problem, upper)
    }
}

/// The certificate in focus with a broken rule, and now and then cut there.
fn with_broken_rule(rng: &mut Rng, kind: u8, case: &Case, number: usize) -> Record {
    let mut streams = streams(case);
    let commands = &mut streams[case.focus + 1];
    break_rule(rng, commands, &case.problem, number);
    if rng.once_in(8) {
        commands.pop();
    }
    let streams = streams.map(|commands| commands.concat());
    as_record(kind, case.focus, streams)
}

/// One stream damaged.
pub fn with_damage(rng: &mut Rng, kind: u8, case: &Case, stream: usize, way: usize) -> Record {
    let commands = streams(case);
    let mut bytes = commands.each_ref().map(|commands| commands.concat());
    let stream_kind = [damage::PROBLEM, damage::CERTIFICATE][stream.min(1)];
    bytes[stream] = damaged(rng, stream_kind, &commands[stream], way);
    let focus = if stream == 0 { case.focus } else { stream - 1 };
    as_record(kind, focus, bytes)
}

/// The certificates in the wrong places, or one with the wrong side.
fn swap(case: &mut Case, way: usize) {
    match way {
        0 => std::mem::swap(&mut case.lower, &mut case.upper),
        1 => case.upper = case.lower.clone(),
        2 => case.lower = case.upper.clone(),
        3 => {
            case.lower = case.upper.clone();
            case.upper.p ^= 1;
        }
        4 => {
            case.lower = case.upper.clone();
            case.upper.denominator = 0;
        }
        _ => case.focused().side ^= 1,
    }
}
