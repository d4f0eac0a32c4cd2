//! The baseline for speed: the rules of document 01, with keys in tables, partitions, parities and sums
//! by indices. Its rounds go as those of the proved calls did before 0.18.0; theirs go by the members
//! of S that came last.
//!
//! What it answers is evidence of little, as it may err where the proved calls' design errs; the
//! plain version is there for the answers. The tests hold the two to each other.

mod certificate;
mod identity;
mod joining;
mod pairs;
mod parity;
mod partition;
mod problem;
mod stream;
mod sums;
mod table;
pub mod timing;

use std::fmt::{self, Display};
use std::hint::black_box;

use crate::records::{hexadecimal, Record, BLOCKS, CHECK, PAIR};
use crate::refusal::{Refusal, FIRST, SECOND, SIDES};
use certificate::{Certificate, LOWER, UPPER};
use identity::Identity;
use joining::Closure;
use problem::{Problem, BASES, BASIS};

/// "Blocks (problem, 576 bytes out)".
pub const BLOCK_BYTES: usize = BASES * BASIS;

/// A bound p/q, or a gap; never reduced.
#[derive(Clone, Copy, Debug, PartialEq, Eq)]
pub struct Fraction {
    pub numerator: i64,
    pub denominator: i64,
}

impl Fraction {
    /// The gap from a lower bound p/q to this upper bound P/Q: (P x q - p x Q)/(Q x q).
    pub fn gap_from(&self, lower: &Fraction) -> Fraction {
        let (upper, lower) = (self, lower);
        Fraction {
            numerator: upper.numerator * lower.denominator - lower.numerator * upper.denominator,
            denominator: upper.denominator * lower.denominator,
        }
    }
}

impl Display for Fraction {
    fn fmt(&self, out: &mut fmt::Formatter) -> fmt::Result {
        write!(out, "{}/{}", self.numerator, self.denominator)
    }
}

/// What the blocks call leaves.
#[derive(Clone, Debug, PartialEq, Eq)]
pub struct Blocks {
    pub count: usize,
    pub rounds: usize,
    pub bytes: [u8; BLOCK_BYTES],
}

/// What the check leaves.
#[derive(Clone, Debug, PartialEq, Eq)]
pub struct Check {
    pub side: u8,
    pub bound: Fraction,
    pub rounds: usize,
}

/// What the pair leaves.
#[derive(Clone, Debug, PartialEq, Eq)]
pub struct Pair {
    pub lower: Fraction,
    pub upper: Fraction,
    pub gap: Fraction,
    pub rounds: usize,
}

/// The three calls, with the room they use.
#[derive(Default)]
pub struct Checker {
    problem: Problem,
    closure: Closure,
    certificate: Certificate,
    identity: Identity,
}

impl Checker {
    /// What a record asks for: the line that answers it, or its refusal.
    pub fn answer(&mut self, record: &Record) -> Result<String, Refusal> {
        let run = |place: usize| record.runs[place].as_slice();
        match record.kind {
            BLOCKS => self.blocks(run(0)).map(|verdict| verdict.to_string()),
            CHECK => self
                .check(run(0), run(1))
                .map(|verdict| verdict.to_string()),
            PAIR => self
                .pair(run(0), run(1), run(2))
                .map(|verdict| verdict.to_string()),
            other => unreachable!("the baseline has no call {other}"),
        }
    }

    /// Answers a record without telling what; whether it is accepted keeps the work alive.
    pub fn accepts(&mut self, record: &Record) -> bool {
        let run = |place: usize| record.runs[place].as_slice();
        match record.kind {
            BLOCKS => black_box(self.blocks(run(0))).is_ok(),
            CHECK => black_box(self.check(run(0), run(1))).is_ok(),
            PAIR => black_box(self.pair(run(0), run(1), run(2))).is_ok(),
            other => unreachable!("the baseline has no call {other}"),
        }
    }

    /// Blocks (problem).
    pub fn blocks(&mut self, problem: &[u8]) -> Result<Blocks, Refusal> {
        self.close(problem)?;
        let mut bytes = [255; BLOCK_BYTES];
        for j in self.problem.in_use() {
            for index in 0..self.problem.bases[j].len() {
                bytes[BASIS * j + index] = self.closure.block(j, index);
            }
        }
        Ok(Blocks {
            count: self.closure.count(&self.problem),
            rounds: self.closure.rounds(),
            bytes,
        })
    }

    /// Check (problem, certificate).
    pub fn check(&mut self, problem: &[u8], certificate: &[u8]) -> Result<Check, Refusal> {
        self.close(problem)?;
        self.accept(certificate, FIRST)
    }

    /// Pair (problem, first certificate, second certificate).
    pub fn pair(&mut self, problem: &[u8], first: &[u8], second: &[u8]) -> Result<Pair, Refusal> {
        self.close(problem)?;
        let first = self.accept(first, FIRST)?;
        let second = self.accept(second, SECOND)?;
        if first.side != LOWER {
            return Err(Refusal::new(SIDES, FIRST, 0));
        }
        if second.side != UPPER {
            return Err(Refusal::new(SIDES, SECOND, 0));
        }
        Ok(Pair {
            lower: first.bound,
            upper: second.bound,
            gap: second.bound.gap_from(&first.bound),
            rounds: first.rounds,
        })
    }

    /// How many members the closed S with zero has.
    pub fn members(&mut self, problem: &[u8]) -> Result<usize, Refusal> {
        self.close(problem)?;
        Ok(self.closure.support().len())
    }

    /// Reads and closes a problem.
    fn close(&mut self, problem: &[u8]) -> Result<(), Refusal> {
        self.problem.read(problem)?;
        self.closure.close(&self.problem)
    }

    /// Reads a certificate of the closed problem; then 8 by rows; then 9.
    fn accept(&mut self, bytes: &[u8], stream: u8) -> Result<Check, Refusal> {
        let certificate = &mut self.certificate;
        certificate.read(bytes, stream, &self.problem)?;
        certificate.check_blocks(stream, &self.closure)?;
        self.identity
            .check(&self.problem, &mut self.closure, certificate, stream)?;
        Ok(Check {
            side: certificate.side,
            bound: Fraction {
                numerator: i64::from(certificate.p),
                denominator: i64::from(certificate.q),
            },
            rounds: self.closure.rounds(),
        })
    }
}

impl Display for Blocks {
    fn fmt(&self, out: &mut fmt::Formatter) -> fmt::Result {
        let Blocks { count, rounds, .. } = self;
        let digits = hexadecimal(&self.bytes);
        write!(out, "blocks {count} rounds {rounds} {digits}")
    }
}

impl Display for Check {
    fn fmt(&self, out: &mut fmt::Formatter) -> fmt::Result {
        let Check {
            side,
            bound,
            rounds,
        } = self;
        write!(out, "check {side} {bound} rounds {rounds}")
    }
}

impl Display for Pair {
    fn fmt(&self, out: &mut fmt::Formatter) -> fmt::Result {
        let Pair {
            lower,
            upper,
            gap,
            rounds,
        } = self;
        write!(out, "pair {lower} {upper} gap {gap} rounds {rounds}")
    }
}
