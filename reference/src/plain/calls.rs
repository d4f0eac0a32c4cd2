//! "Calls, and what they leave": the verdicts. Work tables count as lent in full.

use super::accepting::{identity_holds, keep_to_blocks};
use super::certificate::{Certificate, LOWER, UPPER};
use super::joining::Joined;
use super::problem::Problem;
use crate::refusal::{Refusal, FIRST, PROBLEM, SECOND, SIDES, SUPPORT};

/// A numerator over a denominator, not reduced.
#[derive(Clone, Copy, Debug, PartialEq, Eq)]
pub struct Fraction {
    pub numerator: i64,
    pub denominator: i64,
}

impl Fraction {
    /// "Two fractions are compared by cross products." Denominators are above 0.
    pub fn is_below(self, other: Fraction) -> bool {
        self.numerator * other.denominator < other.numerator * self.denominator
    }

    /// "(P x q - p x Q)/(Q x q), not reduced"
    fn gap(lower: Fraction, upper: Fraction) -> Fraction {
        let (p, q) = (lower.numerator, lower.denominator);
        let (upper_p, upper_q) = (upper.numerator, upper.denominator);
        Fraction {
            numerator: upper_p * q - p * upper_q,
            denominator: upper_q * q,
        }
    }
}

/// "Blocks (problem, 576 bytes out): byte 64j + i gets the block number of index i in basis j, all
/// others 255. Also the number of blocks and the rounds."; "Each verdict of the blocks call, the check
/// and the pair says the rule used" (Req 08).
pub struct Blocks {
    pub count: usize,
    pub rounds: usize,
    pub rule: u8,
    pub bytes: [u8; 576],
}

/// "Check (problem, certificate): side, p, q, rounds."
pub struct Check {
    pub side: u8,
    pub bound: Fraction,
    pub rounds: usize,
    pub rule: u8,
}

/// "Pair: both bounds, gap, rounds."
pub struct Pair {
    pub lower: Fraction,
    pub upper: Fraction,
    /// None where it is marked as empty: "The pair now marks a negative gap as 'empty'" (Req 06).
    pub gap: Option<Fraction>,
    pub rounds: usize,
    pub rule: u8,
}

/// A problem that was read, with its blocks and S.
pub struct Closed {
    pub problem: Problem,
    pub joined: Joined,
}

/// "the problem by commands, ..; 7"
pub fn close(problem: &[u8]) -> Result<Closed, Refusal> {
    let problem = Problem::read(problem)?;
    let joined = Joined::of(&problem);
    if joined.is_too_large(&problem) {
        return Err(Refusal::new(SUPPORT, PROBLEM, 0));
    }
    Ok(Closed { problem, joined })
}

/// "the first certificate by commands likewise; 8 by rows; 9; the second certificate the same"
pub fn judge(closed: &Closed, certificate: &[u8], stream: u8) -> Result<Check, Refusal> {
    let certificate = Certificate::read(certificate, stream, &closed.problem)?;
    keep_to_blocks(&certificate, &closed.joined, stream)?;
    identity_holds(&certificate, &closed.problem, stream)?;
    Ok(Check {
        side: certificate.side,
        bound: Fraction {
            numerator: i64::from(certificate.p),
            denominator: i64::from(certificate.q),
        },
        rounds: closed.joined.rounds,
        rule: closed.problem.rule,
    })
}

/// The blocks call.
pub fn blocks(problem: &[u8]) -> Result<Blocks, Refusal> {
    let Closed { problem, joined } = close(problem)?;
    let mut bytes = [255; 576];
    for (j, blocks) in joined.blocks.iter().enumerate() {
        for (i, &block) in blocks.iter().enumerate() {
            bytes[64 * j + i] = block as u8;
        }
    }
    Ok(Blocks {
        count: joined.count(),
        rounds: joined.rounds,
        rule: problem.rule,
        bytes,
    })
}

/// The check.
pub fn check(problem: &[u8], certificate: &[u8]) -> Result<Check, Refusal> {
    judge(&close(problem)?, certificate, FIRST)
}

/// The pair.
pub fn pair(problem: &[u8], first: &[u8], second: &[u8]) -> Result<Pair, Refusal> {
    let closed = close(problem)?;
    let first = judge(&closed, first, FIRST)?;
    let second = judge(&closed, second, SECOND)?;
    // 10: "in a pair, first side not 0 or second not 1"; "the first wrong stream"
    if first.side != LOWER {
        return Err(Refusal::new(SIDES, FIRST, 0));
    }
    if second.side != UPPER {
        return Err(Refusal::new(SIDES, SECOND, 0));
    }
    let gap = Fraction::gap(first.bound, second.bound);
    Ok(Pair {
        lower: first.bound,
        upper: second.bound,
        gap: (gap.numerator >= 0).then_some(gap),
        rounds: closed.joined.rounds,
        rule: closed.problem.rule,
    })
}
