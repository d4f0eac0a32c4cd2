//! The lines that tell verdicts.

use std::fmt::{Display, Formatter, Result};

use super::calls::{Blocks, Check, Fraction, Pair};
use crate::records::hexadecimal;

impl Display for Fraction {
    fn fmt(&self, out: &mut Formatter) -> Result {
        write!(out, "{}/{}", self.numerator, self.denominator)
    }
}

impl Display for Blocks {
    fn fmt(&self, out: &mut Formatter) -> Result {
        let Blocks {
            count,
            rounds,
            rule,
            bytes,
        } = self;
        let digits = hexadecimal(bytes);
        write!(out, "blocks {count} rounds {rounds} rule {rule} {digits}")
    }
}

impl Display for Check {
    fn fmt(&self, out: &mut Formatter) -> Result {
        let Check {
            side,
            bound,
            rounds,
            rule,
        } = self;
        write!(out, "check {side} {bound} rounds {rounds} rule {rule}")
    }
}

impl Display for Pair {
    fn fmt(&self, out: &mut Formatter) -> Result {
        let Pair {
            lower,
            upper,
            rounds,
            rule,
            ..
        } = self;
        let gap = self.gap_text();
        write!(
            out,
            "pair {lower} {upper} gap {gap} rounds {rounds} rule {rule}"
        )
    }
}

impl Pair {
    /// The gap, or `empty`.
    pub fn gap_text(&self) -> String {
        self.gap.map_or("empty".to_string(), |gap| gap.to_string())
    }
}
