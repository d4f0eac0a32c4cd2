//! Request 01: sign symmetries beside the blocks.

use std::fmt::{Display, Formatter};

use super::calls::close;
use super::problem::{monomials, Problem};
use crate::monomial::Monomial;
use crate::records::hexadecimal;
use crate::refusal::Refusal;

/// "A new call lists all sign symmetries, rising and each once, into 256 lent bytes. It returns their
/// number; the rest of the 256 is 0."
pub struct Symmetries {
    pub count: usize,
    pub bytes: [u8; 256],
}

/// The call: "refusals 1 to 7 as the blocks call does".
pub fn symmetries(problem: &[u8]) -> Result<Symmetries, Refusal> {
    let problem = close(problem)?.problem;
    let masks = (0..=255).filter(|&mask| is_symmetry(mask, &problem));
    let mut bytes = [0; 256];
    let mut count = 0;
    for mask in masks {
        bytes[count] = mask;
        count += 1;
    }
    Ok(Symmetries { count, bytes })
}

/// "A mask r from 0 to 2^n - 1 .. is a sign symmetry when, for every exponent of the objective and
/// constraints, r has an even number of ones in common with its odd positions"; equalities are
/// treated as constraints (Req 04).
fn is_symmetry(mask: u8, problem: &Problem) -> bool {
    let conditions = problem.conditions.iter();
    let exponents = conditions.flat_map(|condition| monomials(&condition.terms));
    let mut exponents = exponents.chain(monomials(&problem.objective));
    usize::from(mask) < 1 << problem.variables && exponents.all(|e| meets_evenly(mask, &e))
}

/// Whether the mask, "bit i - 1 for variable i", has an even number of ones in common with the odd
/// positions of an exponent.
pub fn meets_evenly(mask: u8, exponents: &Monomial) -> bool {
    let odd = |i: &usize| exponents.0[*i] % 2 == 1;
    let in_mask = |i: &usize| (mask >> i) & 1 == 1;
    (0..8).filter(odd).filter(in_mask).count() % 2 == 0
}

impl Display for Symmetries {
    fn fmt(&self, out: &mut Formatter) -> std::fmt::Result {
        write!(
            out,
            "symmetries {} {}",
            self.count,
            hexadecimal(&self.bytes)
        )
    }
}
