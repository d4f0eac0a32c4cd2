//! Request 01: problems with the sign symmetries that its words give them, found by hand. They stand
//! beside the refusals.

use super::bytes;
use crate::records::{hexadecimal, Record};

const MASKS: &str = "Req 01: A mask r from 0 to 2^n − 1, bit i − 1 for variable i";
const EVEN: &str =
    "Req 01: for every exponent of the objective and constraints, r has an even number of \
    ones in common with its odd positions";
const ALIKE: &str =
    "Req 04: Blocks, symmetries, refusal 8 and the identity treat an equality as a constraint.";

/// A problem: its name, what it has, the words, its stream, and its masks.
pub struct Symmetric {
    pub name: &'static str,
    pub what: &'static str,
    pub words: &'static str,
    pub problem: &'static str,
    pub masks: &'static [u8],
}

impl Symmetric {
    pub fn record(&self) -> Record {
        Record::symmetries(bytes(self.problem))
    }

    /// The line of its answer.
    pub fn line(&self) -> String {
        let mut masks = [0; 256];
        masks[..self.masks.len()].copy_from_slice(self.masks);
        format!("symmetries {} {}", self.masks.len(), hexadecimal(&masks))
    }
}

/// A line of the list.
const fn with(
    name: &'static str,
    what: &'static str,
    words: &'static str,
    problem: &'static str,
    masks: &'static [u8],
) -> Symmetric {
    Symmetric {
        name,
        what,
        words,
        problem,
        masks,
    }
}

#[rustfmt::skip]
pub const SYMMETRIC: &[Symmetric] = &[
    with("nothing", "no term", MASKS, "01 01 | 06", &[0, 1]),
    with("x", "the objective x", EVEN, "01 01 | 02 01 0⁷ 01 00 00 00 | 06", &[0]),
    with("x²", "the objective x²", EVEN, "01 01 | 02 02 0⁷ 01 00 00 00 | 06", &[0, 1]),
    with("x1 x2", "the objective x1 x2", EVEN, "01 02 | 02 01 01 00 00 00 00 00 00 01 00 00 00 | 06", &[0, 3]),
    with("x1 x2 and x1", "the objective x1 x2 + x1", EVEN, "01 02 | 02 01 01 00 00 00 00 00 00 01 00 00 00 | 02 01 0⁷ 01 00 00 00 | 06", &[0]),
    with("a constraint", "the objective x1 x2 and the constraint x2³ x3", EVEN, "01 03 | 02 01 01 00 00 00 00 00 00 01 00 00 00 | 03 | 04 00 03 01 00 00 00 00 00 01 00 | 06", &[0, 7]),
    with("the constraint alone", "the constraint x2³ x3", EVEN, "01 03 | 03 | 04 00 03 01 00 00 00 00 00 01 00 | 06", &[0, 1, 6, 7]),
    with("the second constraint", "a constraint without terms and the constraint x2", EVEN, "01 02 | 03 | 03 | 04 00 01 00 00 00 00 00 00 01 00 | 06", &[0, 1]),
    with("an equality", "the equality x1 x2 x3", ALIKE, "01 03 | 07 | 04 01 01 01 00 00 00 00 00 01 00 | 06", &[0, 3, 5, 6]),
    with("both kinds", "the constraint x1 x2 and the equality x2 x3", ALIKE, "01 03 | 03 | 04 01 01 00 00 00 00 00 00 01 00 | 07 | 04 00 01 01 00 00 00 00 00 01 00 | 06", &[0, 7]),
    with("rule 2", "the constraint x2³ x3, the basis x2 for it, and rule 2, which the masks do not ask for", EVEN, "01 03 | 08 02 | 03 | 04 00 03 01 00 00 00 00 00 01 00 | 05 01 00 01 00 00 00 00 00 00 | 06", &[0, 1, 6, 7]),
    with("a basis", "the basis x, whose monomials do not count", EVEN, "01 01 | 05 00 01 0⁷ | 06", &[0, 1]),
    with("even and odd", "the objective x1² x2⁴ + x3⁵", EVEN, "01 03 | 02 02 04 00 00 00 00 00 00 01 00 00 00 | 02 00 00 05 00 00 00 00 00 01 00 00 00 | 06", &[0, 1, 2, 3]),
    with("paper 003", "x2² + x1³ x2 + x1 x2³ + x1² x2², an example of paper 003", EVEN, "01 02 | 02 00 02 00 00 00 00 00 00 01 00 00 00 | 02 03 01 00 00 00 00 00 00 01 00 00 00 | 02 01 03 00 00 00 00 00 00 01 00 00 00 | 02 02 02 00 00 00 00 00 00 01 00 00 00 | 06", &[0, 3]),
    with("the last variable", "in eight variables, all of x1 to x6 odd one by one, and x7 x8", MASKS, "01 08 | 02 01 0⁷ 01 00 00 00 | 02 00 01 00 00 00 00 00 00 01 00 00 00 | 02 00 00 01 00 00 00 00 00 01 00 00 00 | 02 00 00 00 01 00 00 00 00 01 00 00 00 | 02 00 00 00 00 01 00 00 00 01 00 00 00 | 02 00 00 00 00 00 01 00 00 01 00 00 00 | 02 00 00 00 00 00 00 01 01 01 00 00 00 | 06", &[0, 192]),
    with("unused variables", "in three variables, the objective x1", MASKS, "01 03 | 02 01 0⁷ 01 00 00 00 | 06", &[0, 2, 4, 6]),
];
