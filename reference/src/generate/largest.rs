//! Certificates as large as they may be.

use crate::generate::accepted::{add, Case};
use crate::generate::draft::{product, Draft, DraftCertificate, DraftRow};
use crate::generate::problems::{self, grid};
use crate::generate::rng::Rng;
use crate::monomial::Monomial;

/// Rows on each constraint, and on basis 0: 128 in all.
const ROWS: usize = 13;
const SQUARES: usize = 24;

/// A case with the largest counts: constraints in pairs of opposite signs with the same full rows,
/// whose sums leave 64 bits by far and cancel, and squares on basis 0 that make the objective.
pub fn largest(rng: &mut Rng) -> Case {
    let mut problem = problems::largest(rng, false);
    let mut rows = squares(rng, &mut problem);
    for pair in 0..4 {
        let (up, down) = (2 * pair, 2 * pair + 1);
        let opposite = problem.constraints[up].iter().map(|&(m, c)| (m, -c));
        problem.constraints[down] = opposite.collect();
        problem.bases[down + 1] = problem.bases[up + 1].clone();
        let full: Vec<DraftRow> = (0..ROWS).map(|_| full_row(rng, up + 1)).collect();
        rows.extend(full.iter().cloned());
        let moved = |row: DraftRow| DraftRow {
            basis: down as u8 + 1,
            ..row
        };
        rows.extend(full.into_iter().map(moved));
    }
    let lower = DraftCertificate {
        side: 0,
        denominator: 1,
        p: 0,
        q: 1,
        rows,
    };
    Case {
        problem,
        upper: lower.clone(),
        lower,
        focus: 0,
    }
}

/// A row with all 64 entries.
fn full_row(rng: &mut Rng, basis: usize) -> DraftRow {
    let entries: Vec<(u8, i16)> = (0..64).map(|i| (i, rng.nonzero(32_767) as i16)).collect();
    DraftRow::new(basis, rng.between(1, 65_535) as u16, &entries)
}

/// Rows on a part of basis 0 with at most 256 products; the objective becomes their sum.
fn squares(rng: &mut Rng, problem: &mut Draft) -> Vec<DraftRow> {
    let part = grid([3, 3, 2, 2], 1);
    let basis = &problem.bases[0];
    let inside = (0..64).filter(|&i| part.contains(&basis[i]));
    let inside: Vec<usize> = inside.collect();
    let mut rows = Vec::new();
    let mut objective: Vec<(Monomial, i32)> = Vec::new();
    for _ in 0..SQUARES {
        let entry = |&i: &usize| (i as u8, rng.nonzero(100) as i16);
        let entries: Vec<(u8, i16)> = inside.iter().map(entry).collect();
        for &(i, l) in &entries {
            for &(k, m) in &entries {
                let monomial = product(basis[usize::from(i)], basis[usize::from(k)]);
                add(&mut objective, monomial, i32::from(l) * i32::from(m));
            }
        }
        rows.push(DraftRow::new(0, 1, &entries));
    }
    problem.objective = objective;
    rows
}

/// A case with the largest sums: full rows of one sign with all factors and weights at the limit.
pub fn extreme(sign: i16) -> Case {
    let mut problem = Draft::new(4, 0);
    let terms = grid([2, 4, 2, 2], 1).into_iter();
    let coefficient = if sign > 0 { i16::MAX } else { i16::MIN };
    let terms = terms.map(|m| (m, coefficient)).collect();
    problem.constrain(terms, grid([4, 4, 2, 2], 1));
    let entries: Vec<(u8, i16)> = (0..64).map(|i| (i, i16::MIN)).collect();
    let lower = DraftCertificate {
        side: 0,
        denominator: 65_535,
        p: i32::MIN,
        q: 65_535,
        rows: vec![DraftRow::new(1, 65_535, &entries); 128],
    };
    Case {
        problem,
        upper: lower.clone(),
        lower,
        focus: 0,
    }
}
