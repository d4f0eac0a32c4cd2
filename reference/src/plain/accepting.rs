//! "Accepting": the rows keep to the blocks, and the identity holds.

use super::certificate::{Certificate, Row, LOWER};
use super::joining::Joined;
use super::polynomial::Polynomial;
use super::problem::Problem;
use crate::refusal::{Refusal, BLOCKS, IDENTITY};

/// 8: "All entries of a row are in one block." The place is that of the first entry outside the
/// row's first block.
pub fn keep_to_blocks(
    certificate: &Certificate,
    joined: &Joined,
    stream: u8,
) -> Result<(), Refusal> {
    for row in &certificate.rows {
        let blocks = &joined.blocks[row.basis];
        for entry in &row.entries {
            if blocks[entry.index] != blocks[row.entries[0].index] {
                return Err(Refusal::new(BLOCKS, stream, entry.place));
            }
        }
    }
    Ok(())
}

/// 9: "Side 0 needs D x (q x objective - p) = T; an upper bound is the same identity with both
/// signs turned on the left". The key is the smallest that differs.
pub fn identity_holds(
    certificate: &Certificate,
    problem: &Problem,
    stream: u8,
) -> Result<(), Refusal> {
    let difference = difference(certificate, problem);
    let mut differing = difference.coefficients();
    differing.next().map_or(Ok(()), |(key, _)| {
        Err(Refusal {
            key,
            ..Refusal::new(IDENTITY, stream, 0)
        })
    })
}

/// The left side less T.
pub fn difference(certificate: &Certificate, problem: &Problem) -> Polynomial {
    let sign = if certificate.side == LOWER { 1 } else { -1 };
    let d = sign * i128::from(certificate.d);
    let mut difference = Polynomial::default();
    let objective = Polynomial::of(&problem.objective);
    difference.add(d * i128::from(certificate.q), &objective);
    difference.add(-d * i128::from(certificate.p), &Polynomial::constant(1));
    for row in &certificate.rows {
        difference.add(-i128::from(row.weight), &square(row, problem));
    }
    difference
}

/// "(sum of l x b)² x g_j"
fn square(row: &Row, problem: &Problem) -> Polynomial {
    let basis = &problem.bases[row.basis];
    let entries = row.entries.iter();
    let terms: Vec<_> = entries.map(|e| (basis[e.index], e.factor)).collect();
    let sum = Polynomial::of(&terms);
    sum.times(&sum).times(&problem.multiplier(row.basis))
}
