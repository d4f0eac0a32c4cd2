//! Request 13: certificates with changes of the objective.

use super::{Change, Streams};
use crate::generate::accepted::case;
use crate::generate::blocks;
use crate::generate::boxed::boxed;
use crate::generate::damage::{self, damaged};
use crate::generate::draft::{adjustment, power, random_monomial};
use crate::generate::refusals::{case_f, cases_to, met};
use crate::generate::rng::Rng;
use crate::monomial::Monomial;
use crate::records::{Record, ADJUSTED};

fn record(problem: Vec<u8>, certificate: Vec<u8>, changes: &[Vec<u8>]) -> Record {
    Record {
        kind: ADJUSTED,
        runs: vec![problem, certificate, changes.concat()],
    }
}

/// Changes of case F, whose lower bound is -1, and the lines found by hand.
fn found() -> Vec<(Record, &'static str)> {
    let [problem, low, _] = case_f();
    let one = |exponent: u8, d: i32| adjustment(power(1, exponent), d);
    let with = |changes: &[Vec<u8>]| record(problem.clone(), low.clone(), changes);
    vec![
        (with(&[]), "adjusted -1/1"),
        (with(&[one(1, 5)]), "adjusted -6/1"),
        (with(&[one(1, -5)]), "adjusted -6/1"),
        (with(&[one(3, 0)]), "adjusted -1/1"),
        (with(&[one(1, 3), one(1, -3)]), "adjusted -7/1"),
        (with(&[one(32, 1), one(0, -1)]), "adjusted -3/1"),
        (with(&[one(2, i32::MIN)]), "adjusted -2147483649/1"),
        (
            with(&vec![one(2, i32::MIN); 256]),
            "adjusted -549755813889/1",
        ),
    ]
}

/// Those, and the refusals.
pub fn special() -> Vec<Record> {
    let mut all: Vec<Record> = found().into_iter().map(|(record, _)| record).collect();
    all.extend(met(cases_to(13), ADJUSTED));
    all
}

/// A certificate in a box with a few changes, and commands of some of these requests; now and then
/// without a box, upper, damaged, or with a change that breaks a rule.
pub fn random(rng: &mut Rng, mut requests: Vec<&Change>) -> Record {
    let turned = rng.once_in(2);
    let case = if rng.once_in(6) {
        case(rng)
    } else {
        boxed(rng, turned)
    };
    let variables = usize::from(case.problem.variables);
    let changes: Vec<Vec<u8>> = (0..rng.below(7)).map(|_| change(rng, variables)).collect();
    let sides = [case.lower.commands(), case.upper.commands()];
    let certificate = sides[usize::from(rng.once_in(3))].clone();
    let mut streams: Streams = [case.problem.commands(), certificate.clone(), certificate];
    rng.shuffle(&mut requests);
    requests.truncate(rng.below(3));
    for request in requests {
        (request.put)(rng, &mut streams);
    }
    let [mut problem, certificate, _] = streams;
    lose_box(rng, &mut problem);
    let problem = if rng.once_in(30) {
        blocks::problem(rng)
    } else {
        problem.concat()
    };
    let certificate = if rng.once_in(12) {
        let way = rng.below(damage::WAYS);
        damaged(rng, damage::CERTIFICATE, &certificate, way)
    } else {
        certificate.concat()
    };
    let mut record = record(problem, certificate, &changes);
    if rng.once_in(8) {
        let length = record.runs[2].len();
        record.runs[2].truncate(rng.below(length + 1));
    }
    record
}

fn change(rng: &mut Rng, variables: usize) -> Vec<u8> {
    let monomial = match rng.below(24) {
        0 => power(8, 1),
        1 => power(1, *rng.pick(&[33, 255])),
        2 => Monomial([255, 1, 0, 0, 0, 0, 0, 0]),
        _ => random_monomial(rng, variables, 6),
    };
    let d = match rng.below(6) {
        0 => *rng.pick(&[0, i32::MIN, i32::MAX]),
        _ => rng.nonzero(1_000),
    };
    adjustment(monomial, d)
}

/// Now and then one inequality becomes an equality, or a term of one gets another coefficient.
fn lose_box(rng: &mut Rng, problem: &mut [Vec<u8>]) {
    let (byte, way) = (*rng.pick(&[0x03, 0x04]), rng.below(5));
    let found = super::places(problem, byte);
    if way > 0 || found.is_empty() {
        return;
    }
    let place = *rng.pick(&found);
    match byte {
        0x03 => problem[place] = vec![0x07],
        _ => problem[place][9] ^= 2,
    }
}

#[cfg(test)]
mod tests {
    use super::*;
    use crate::plain::line;

    #[test]
    fn lines_found_by_hand() {
        for (record, expected) in found() {
            assert_eq!(line(&record), expected);
        }
    }
}
