//! The accepted pair that takes longest: all limits at once, and no two rows in turn on one basis.
//!
//! There are 8 variables, 256 objective terms, 8 constraints of 32 terms, 9 bases of 64 monomials,
//! each of them one block, an S of exactly 2,048 members, and 128 rows of 64 entries on each side.
//! Nearly all squares cancel: constraints 3 to 8 come in pairs g, -g with the same rows; constraints
//! 1 and 2 are -c + h and -c - h, whose rows of weight w cancel those of weight 2cw on basis 0. What
//! is left is w (z + u)² + w (z - u)² - 2w z² = 2w u² on constraint 3, and the objective is a
//! constant and 2w u² g_3. On constraint 4 the same gives the upper bound.

use crate::generate::accepted::{add, Case};
use crate::generate::draft::{monomial, product, Draft, DraftCertificate, DraftRow};
use crate::generate::rng::Rng;
use crate::monomial::Monomial;

/// Rows on all nine bases in turn, so many times; 11 rows of the 128 are left.
const TURNS: usize = 13;

/// The largest size of an entry of u.
const SMALL: i32 = 9;

/// Entries on all 64 monomials of a basis.
type Entries = Vec<i32>;

/// A pair with all limits at once.
pub fn worst(rng: &mut Rng) -> Case {
    let constant = rng.between(1, 9) as i16;
    let mut problem = problem(rng, constant);
    let bound = rng.nonzero(1_000);
    let weight = rng.between(1, 50) as i32;
    let u = loop {
        let u = inner(rng, &problem.bases[3]);
        problem.objective = objective(&problem, &u, weight, bound);
        if problem.objective.len() == 256 {
            break u;
        }
    };
    let mut rows = Vec::new();
    for _ in 0..TURNS {
        cancelling(rng, &mut rows, constant);
    }
    for up in [5, 7, 5, 7] {
        opposite(rng, &mut rows, up);
    }
    let z = full(rng, i32::from(i16::MAX) - SMALL);
    let certificate = |side: u8, (up, down): (usize, usize)| DraftCertificate {
        side,
        denominator: 1,
        p: bound,
        q: 1,
        rows: [&square(&z, &u, weight, up, down)[..], &rows].concat(),
    };
    Case {
        lower: certificate(0, (3, 4)),
        upper: certificate(1, (4, 3)),
        problem,
        focus: 0,
    }
}

/// The monomials x1^a x3^b x5^c x6^d (x7 x8)^e with exponents below these bounds.
fn lattice(bounds: [u8; 5]) -> Vec<Monomial> {
    let count = bounds.iter().map(|&bound| u16::from(bound)).product();
    let mut all = Vec::new();
    for number in 0..count {
        let mut rest = number;
        let [a, b, c, d, e] = bounds.map(|bound| {
            let digit = (rest % u16::from(bound)) as u8;
            rest /= u16::from(bound);
            digit
        });
        all.push(monomial(&[a, 0, b, 0, c, d, e, e]));
    }
    all
}

/// The constraints and the bases; bases whose rows cancel have the same order.
fn problem(rng: &mut Rng, constant: i16) -> Draft {
    let mut draft = Draft::new(8, 0);
    let mut shuffled = || {
        let mut basis = lattice([4, 2, 2, 2, 2]);
        rng.shuffle(&mut basis);
        basis
    };
    let bases = [(); 4].map(|()| shuffled());
    draft.bases[0] = bases[0].clone();
    for basis in bases {
        let mut terms = lattice([2; 5]).into_iter();
        let first = draft.constraints.is_empty();
        let one = terms.next().expect("it begins with 1");
        let rest = terms.map(|m| (m, rng.nonzero(999) as i16));
        let rest: Vec<(Monomial, i16)> = rest.collect();
        let (up, down) = if first {
            (-constant, -constant)
        } else {
            (constant, -constant)
        };
        let turned = rest.iter().map(|&(m, c)| (m, -c)).collect();
        draft.constrain([vec![(one, up)], rest].concat(), basis.clone());
        draft.constrain([vec![(one, down)], turned].concat(), basis);
    }
    draft
}

/// The polynomial u: small entries on the eight monomials with a, b and c at most 1, d and e 0.
fn inner(rng: &mut Rng, basis: &[Monomial]) -> Entries {
    let part = lattice([2, 2, 2, 1, 1]);
    let entry = |m| {
        if part.contains(m) {
            rng.nonzero(SMALL)
        } else {
            0
        }
    };
    basis.iter().map(entry).collect()
}

/// The bound and 2w u² g_3, without terms that are 0.
fn objective(problem: &Draft, u: &Entries, weight: i32, bound: i32) -> Vec<(Monomial, i32)> {
    let mut terms = vec![(Monomial::ONE, bound)];
    let (basis, g) = (&problem.bases[3], &problem.constraints[2]);
    let inside = |i: &usize| u[*i] != 0;
    for i in (0..64).filter(inside) {
        for k in (0..64).filter(inside) {
            for &(t, c) in g {
                let monomial = product(t, product(basis[i], basis[k]));
                add(
                    &mut terms,
                    monomial,
                    2 * weight * u[i] * u[k] * i32::from(c),
                );
            }
        }
    }
    terms
}

/// Entries that are all not 0.
fn full(rng: &mut Rng, most: i32) -> Entries {
    let entry = |_| loop {
        // One that u could take away to 0 is not taken.
        let entry = rng.nonzero(most);
        if entry.abs() > SMALL {
            return entry;
        }
    };
    (0..64).map(entry).collect()
}

fn row(basis: usize, weight: i32, entries: &Entries) -> DraftRow {
    let entries = entries.iter().enumerate();
    let entries: Vec<(u8, i16)> = entries.map(|(i, &l)| (i as u8, l as i16)).collect();
    DraftRow::new(basis, weight as u16, &entries)
}

/// One row on each basis, whose squares cancel.
fn cancelling(rng: &mut Rng, rows: &mut Vec<DraftRow>, constant: i16) {
    let constant = i32::from(constant);
    let weight = 1 + rng.below((65_535 / (2 * constant)) as usize) as i32;
    let entries = full(rng, i32::from(i16::MAX));
    rows.push(row(0, 2 * constant * weight, &entries));
    rows.push(row(1, weight, &entries));
    rows.push(row(2, weight, &entries));
    for up in [3, 5, 7] {
        opposite(rng, rows, up);
    }
}

/// The same row on two constraints of opposite signs.
fn opposite(rng: &mut Rng, rows: &mut Vec<DraftRow>, up: usize) {
    let weight = rng.between(1, 65_535) as i32;
    let entries = full(rng, i32::from(i16::MAX));
    rows.push(row(up, weight, &entries));
    rows.push(row(up + 1, weight, &entries));
}

/// The rows z + u and z - u on one constraint, and z on the opposite one: 2w u² is left.
fn square(z: &Entries, u: &Entries, weight: i32, up: usize, down: usize) -> [DraftRow; 3] {
    let pairs = || z.iter().zip(u);
    let sum = pairs().map(|(z, u)| z + u).collect();
    let difference = pairs().map(|(z, u)| z - u).collect();
    [
        row(up, weight, &sum),
        row(down, 2 * weight, z),
        row(up, weight, &difference),
    ]
}

#[cfg(test)]
mod tests {
    use super::*;
    use crate::generate::certificates::plain;
    use crate::generate::support::members;
    use crate::plain::line;
    use crate::records::PAIR;

    #[test]
    fn all_limits_are_met_and_the_pair_is_accepted() {
        for seed in 0..3 {
            let case = worst(&mut Rng::new(seed));
            let problem = &case.problem;
            assert_eq!((problem.variables, problem.objective.len()), (8, 256));
            assert_eq!((problem.constraints.len(), problem.bases.len()), (8, 9));
            assert!(problem.constraints.iter().all(|terms| terms.len() == 32));
            assert!(problem.bases.iter().all(|basis| basis.len() == 64));
            for certificate in [&case.lower, &case.upper] {
                let rows = &certificate.rows;
                assert_eq!(rows.len(), 128);
                assert!(rows.iter().all(|row| row.entries.len() == 64));
                assert!(rows.windows(2).all(|two| two[0].basis != two[1].basis));
            }
            assert_eq!(members(problem), Some(2_048));
            let line = line(&plain(PAIR, &case));
            assert!(line.starts_with("pair "), "{line}");
        }
    }
}
