//! Request 13: how far an adjusted coefficient moves the bound.

use super::calls::{check, Fraction};
use super::certificate::LOWER;
use super::problem::{Kind, Problem};
use super::stream::Operands;
use crate::monomial::Monomial;
use crate::refusal::{Refusal, COUNT, CUT, NOT_LOWER, NO_BOX, OPERAND, PROBLEM, SECOND};

/// "A change is 12 bytes, E then d".
const BYTES: usize = 12;
/// "up to 256 changes"
const CHANGES: usize = 256;

/// "returns p - q x (sum of absolute d) over q". The changes are looked at after the check; then 16;
/// then 17.
pub fn adjusted(problem: &[u8], certificate: &[u8], changes: &[u8]) -> Result<Fraction, Refusal> {
    let verdict = check(problem, certificate)?;
    let problem = Problem::read(problem)?;
    let sum = sum_of_sizes(changes, &problem)?;
    // "16 unless for every variable some inequality is exactly 1 - x_i²"
    if !(0..problem.variables).all(|i| is_boxed(&problem, i)) {
        return Err(Refusal::new(NO_BOX, PROBLEM, 0));
    }
    // "17 for an upper certificate"
    if verdict.side != LOWER {
        return Err(Refusal::new(NOT_LOWER, PROBLEM, 0));
    }
    let Fraction {
        numerator: p,
        denominator: q,
    } = verdict.bound;
    Ok(Fraction {
        numerator: p - q * sum,
        denominator: q,
    })
}

/// The sum of the absolute d: "Repeated monomials add up by the absolute values listed." Before it, "a
/// last change cut short meets refusal 2, then more than 256 changes meet refusal 6, then exponents
/// against n or degree 32 meet 4, each with stream 2 and the first such change's index, from 0, as
/// place (256 at 6)".
fn sum_of_sizes(bytes: &[u8], problem: &Problem) -> Result<i64, Refusal> {
    let refusal = |number: u8, place: usize| Refusal::new(number, SECOND, place);
    let changes = bytes.chunks_exact(BYTES);
    let count = changes.len();
    if !changes.remainder().is_empty() {
        return Err(refusal(CUT, count));
    }
    if count > CHANGES {
        return Err(refusal(COUNT, CHANGES));
    }
    let mut sum = 0;
    for (index, change) in changes.enumerate() {
        let mut operands = Operands(change);
        let (monomial, d) = (operands.monomial(), operands.i32());
        if !problem.allows(&monomial, 32) {
            return Err(refusal(OPERAND, index));
        }
        sum += i64::from(d).abs();
    }
    Ok(sum)
}

/// Whether some inequality has exactly the terms 1 and -x², in either order, for the variable at
/// place i.
fn is_boxed(problem: &Problem, i: usize) -> bool {
    let mut square = Monomial::ONE;
    square.0[i] = 2;
    let terms = [(Monomial::ONE, 1), (square, -1)];
    let turned = [terms[1], terms[0]];
    let inequalities = problem.conditions.iter();
    let mut inequalities = inequalities.filter(|condition| condition.kind == Kind::Inequality);
    inequalities.any(|condition| condition.terms == terms || condition.terms == turned)
}
