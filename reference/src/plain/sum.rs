//! Request 12: two errors added.

use std::fmt::{Display, Formatter};

use super::calls::{pair, Fraction};
use super::problem::Problem;
use crate::refusal::{Refusal, OTHER, PROBLEM, REGIONS};

/// "the sum of the lower bounds and of the upper bounds, each over the product of the denominators,
/// unreduced, and the rule used by each problem"
pub struct Sum {
    lower: Fraction,
    upper: Fraction,
    rules: [u8; 2],
}

/// The call on the first problem with its lower and upper certificate, and the second with its own.
/// "Refusals of the first problem's pair come before the second's, whose streams are 3 to 5"; 15 "after
/// both pairs, with stream and place 0".
pub fn sum(streams: [&[u8]; 6]) -> Result<Sum, Refusal> {
    let [problem, low, high, other_problem, other_low, other_high] = streams;
    let first = pair(problem, low, high)?;
    let second = pair(other_problem, other_low, other_high).map_err(|refusal| Refusal {
        stream: OTHER + refusal.stream,
        ..refusal
    })?;
    if !same_region(&Problem::read(problem)?, &Problem::read(other_problem)?) {
        return Err(Refusal::new(REGIONS, PROBLEM, 0));
    }
    Ok(Sum {
        lower: added(first.lower, second.lower),
        upper: added(first.upper, second.upper),
        rules: [first.rule, second.rule],
    })
}

/// "15 when the numbers of variables or of conditions differ, or two conditions of one number differ in
/// kind (03 or 07) or, term by term as sent, in terms"
fn same_region(first: &Problem, second: &Problem) -> bool {
    let mut conditions = first.conditions.iter().zip(&second.conditions);
    first.variables == second.variables
        && first.conditions.len() == second.conditions.len()
        && conditions.all(|(one, other)| one.kind == other.kind && one.terms == other.terms)
}

/// The sum over the product of the denominators.
fn added(one: Fraction, other: Fraction) -> Fraction {
    Fraction {
        numerator: one.numerator * other.denominator + other.numerator * one.denominator,
        denominator: one.denominator * other.denominator,
    }
}

impl Display for Sum {
    fn fmt(&self, out: &mut Formatter) -> std::fmt::Result {
        let Sum {
            lower,
            upper,
            rules: [first, second],
        } = self;
        write!(out, "sum {lower} {upper} rules {first} {second}")
    }
}
