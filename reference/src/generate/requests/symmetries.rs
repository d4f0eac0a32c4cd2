//! Request 01: records of the sign symmetries.

use super::{changed, Change, Streams};
use crate::generate::draft::{monomial, power, random_monomial, Draft};
use crate::generate::problems::largest;
use crate::generate::refusals::symmetries::{Symmetric, SYMMETRIC};
use crate::generate::refusals::{cases_to, met};
use crate::generate::rng::Rng;
use crate::generate::{blocks, samples};
use crate::monomial::Monomial;
use crate::records::{Record, BLOCKS, SYMMETRIES};

/// The problems with masks found by hand, every refusal of a problem, one with all 256 masks, two with
/// as many exponents as there may be, of which one has even ones alone, and the samples.
pub fn special() -> Vec<Record> {
    let mut all: Vec<Record> = SYMMETRIC.iter().map(Symmetric::record).collect();
    all.extend(met(cases_to(9), SYMMETRIES));
    let mut even = Draft::new(8, 0);
    even.objective.push((monomial(&[2; 8]), 1));
    let rng = &mut Rng::new(1);
    let full = [false, true].map(|even| largest(rng, even).bytes());
    let mut problems = vec![even.bytes()];
    problems.extend(full);
    problems.extend(samples::problems());
    all.extend(problems.into_iter().map(Record::symmetries));
    all
}

/// A problem of the blocks call, or, two times out of three, one of theirs or one whose exponents are
/// mostly even with up to two of the requests that change problems.
pub fn random(rng: &mut Rng, mut changes: Vec<&Change>) -> Record {
    if rng.once_in(3) {
        return Record::symmetries(blocks::problem(rng));
    }
    changes.retain(|change| change.kinds.contains(&BLOCKS));
    rng.shuffle(&mut changes);
    changes.truncate(rng.below(3));
    if rng.once_in(2) {
        return Record {
            kind: SYMMETRIES,
            ..changed(rng, BLOCKS, &changes)
        };
    }
    let mut streams: Streams = [mostly_even(rng), Vec::new(), Vec::new()];
    for change in changes {
        (change.put)(rng, &mut streams);
    }
    Record::symmetries(streams[0].concat())
}

/// The commands of a problem whose exponents are mostly even, so that some masks meet them.
fn mostly_even(rng: &mut Rng) -> Vec<Vec<u8>> {
    let variables = rng.between(1, 8);
    let mut draft = Draft::new(variables, rng.below(3));
    let doubled = |m: Monomial| Monomial(m.0.map(|e| 2 * e));
    let mut exponent = |degree: usize| {
        let even = doubled(random_monomial(rng, variables, degree / 2));
        let odd = power(rng.between(1, variables), 1);
        let odd = odd.times(&power(rng.between(1, variables), 1));
        if rng.once_in(3) {
            even.times(&odd)
        } else {
            even
        }
    };
    for _ in 0..4 {
        let m = exponent(20);
        if draft.objective.iter().all(|&(other, _)| other != m) {
            draft.objective.push((m, 3));
        }
    }
    for terms in &mut draft.constraints {
        terms.push((exponent(10), -1));
    }
    for basis in &mut draft.bases {
        for _ in 0..6 {
            let m = random_monomial(rng, variables, 4);
            if !basis.contains(&m) {
                basis.push(m);
            }
        }
    }
    draft.mixed_commands(rng)
}

#[cfg(test)]
mod tests {
    use super::*;
    use crate::plain::line;

    #[test]
    fn masks_found_by_hand() {
        for case in SYMMETRIC {
            assert_eq!(line(&case.record()), case.line(), "{}", case.name);
        }
    }
}
