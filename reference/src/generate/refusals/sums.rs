//! Refusal 9: identities that are false, with the smallest key at which the two sides differ.

use super::{bytes, case, Case};
use crate::refusal::{Refusal, FIRST, IDENTITY, SECOND};

const EXACT: &str = "Equality is per monomial, on exact whole numbers.";
const SMALLEST: &str = "key is the smallest that differs";
const LOWER: &str = "Side 0 needs D × (q × objective − p) = T";
const UPPER: &str = "an upper bound is the same identity with both signs turned on the left";
const CROSS: &str = "Counting a cross product l × l' once in a square.";
const SIGN: &str = "Turning the sign of p but not of the objective for side 1.";

/// A problem and a certificate that holds for it.
type Given = (&'static str, &'static str);

/// x² − 2x + 3, basis 1, x; the lower bound 2.
#[rustfmt::skip]
const CASE_A: Given = (
    "01 01 | 02 02 0⁷ 01 00 00 00 | 02 01 0⁷ FE FF FF FF | 02 0⁸ 03 00 00 00 | 05 00 0⁸ | 05 00 01 0⁷ | 06",
    "10 00 01 00 02 00 00 00 01 00 | 11 00 01 00 | 12 00 FF FF | 12 01 01 00 | 13",
);
/// x on 1 − x², bases {1, x} and {1}; the lower bound −1.
#[rustfmt::skip]
const CASE_F: Given = (
    "01 01 | 02 01 0⁷ 01 00 00 00 | 03 | 04 0⁸ 01 00 | 04 02 0⁷ FF FF | 05 00 0⁸ | 05 00 01 0⁷ | 05 01 0⁸ | 06",
    "10 00 02 00 FF FF FF FF 01 00 | 11 00 01 00 | 12 00 01 00 | 12 01 01 00 | 11 01 01 00 | 12 00 01 00 | 13",
);
/// x2² + x1², in this order, basis x1, x2; the lower bound 0.
#[rustfmt::skip]
const TWO_SQUARES: Given = (
    "01 02 | 02 00 02 00 00 00 00 00 00 01 00 00 00 | 02 02 0⁷ 01 00 00 00 | 05 00 01 0⁷ | 05 00 00 01 00 00 00 00 00 00 | 06",
    "10 00 01 00 00 00 00 00 01 00 | 11 00 01 00 | 12 00 01 00 | 11 00 01 00 | 12 01 01 00 | 13",
);
/// x8², basis x8; the lower bound 0.
const LAST_SQUARE: Given = (
    "01 08 | 02 0⁷ 02 01 00 00 00 | 05 00 0⁷ 01 | 06",
    "10 00 01 00 00 00 00 00 01 00 | 11 00 01 00 | 12 00 01 00 | 13",
);
/// x², basis x; the lower bound 0.
const SQUARE: Given = (
    "01 01 | 02 02 0⁷ 01 00 00 00 | 05 00 01 0⁷ | 06",
    "10 00 01 00 00 00 00 00 01 00 | 11 00 01 00 | 12 00 01 00 | 13",
);
/// 1 + x + x², basis 1, x; the lower bound 3/4, as 4 (1 + x + x²) − 3 = (1 + 2x)².
#[rustfmt::skip]
const ALL_ONE: Given = (
    "01 01 | 02 0⁸ 01 00 00 00 | 02 01 0⁷ 01 00 00 00 | 02 02 0⁷ 01 00 00 00 | 05 00 0⁸ | 05 00 01 0⁷ | 06",
    "10 00 01 00 03 00 00 00 04 00 | 11 00 01 00 | 12 00 01 00 | 12 01 02 00 | 13",
);
/// No objective, basis x; the bound 0.
const NO_OBJECTIVE: Given = ("01 01 | 05 00 01 0⁷ | 06", NO_ROW);
/// No objective, constraint 1 with basis 1; the bound 0.
const PLUS: Given = ("01 01 | 03 | 04 0⁸ 01 00 | 05 01 0⁸ | 06", NO_ROW);
/// No objective, constraint −2^15 with basis 1; the bound 0.
const MINUS: Given = ("01 01 | 03 | 04 0⁸ 00 80 | 05 01 0⁸ | 06", NO_ROW);

const NO_ROW: &str = "10 00 01 00 00 00 00 00 01 00 | 13";

/// Name, what the certificate has, words of document 01, what is given, the certificate, the key.
type Line = (
    &'static str,
    &'static str,
    &'static str,
    Given,
    &'static str,
    u64,
);

#[rustfmt::skip]
const LINES: &[Line] = &[
    ("p one more", "case B: p = 3 for x² − 2x + 3", LOWER, CASE_A, "10 00 01 00 03 00 00 00 01 00 | 11 00 01 00 | 12 00 FF FF | 12 01 01 00 | 13", 0),
    ("D one more", "D = 3 in case F: 3 + 3x against 2 + 2x", LOWER, CASE_F, "10 00 03 00 FF FF FF FF 01 00 | 11 00 01 00 | 12 00 01 00 | 12 01 01 00 | 11 01 01 00 | 12 00 01 00 | 13", 0),
    ("q one more", "q = 2 in case F: 2 + 4x against 2 + 2x", LOWER, CASE_F, "10 00 02 00 FF FF FF FF 02 00 | 11 00 01 00 | 12 00 01 00 | 12 01 01 00 | 11 01 01 00 | 12 00 01 00 | 13", 1),
    ("weight one more", "weight 2 on the constraint in case F: 2 + 2x against 3 + 2x − x²", LOWER, CASE_F, "10 00 02 00 FF FF FF FF 01 00 | 11 00 01 00 | 12 00 01 00 | 12 01 01 00 | 11 01 02 00 | 12 00 01 00 | 13", 0),
    ("factor turned", "the row 1 − x in case F: 2 + 2x against 2 − 2x", LOWER, CASE_F, "10 00 02 00 FF FF FF FF 01 00 | 11 00 01 00 | 12 00 01 00 | 12 01 FF FF | 11 01 01 00 | 12 00 01 00 | 13", 1),
    ("upper with p of the lower", "side 1 with p = −1 in case F: −2 − 2x against 2 − 2x", UPPER, CASE_F, "10 01 02 00 FF FF FF FF 01 00 | 11 00 01 00 | 12 00 01 00 | 12 01 FF FF | 11 01 01 00 | 12 00 01 00 | 13", 0),
    ("objective not turned", "side 1 for x² by the row x: −x² against x²", SIGN, SQUARE, "10 01 01 00 00 00 00 00 01 00 | 11 00 01 00 | 12 00 01 00 | 13", 2),
    ("cross product once", "the row 1 + x for 1 + x + x²", CROSS, ALL_ONE, "10 00 01 00 00 00 00 00 01 00 | 11 00 01 00 | 12 00 01 00 | 12 01 01 00 | 13", 1),
    ("only in the objective", "no row in case F: 2x against 0", EXACT, CASE_F, "10 00 02 00 00 00 00 00 01 00 | 13", 1),
    ("only in T", "the row x without an objective: 0 against x²", EXACT, NO_OBJECTIVE, "10 00 01 00 00 00 00 00 01 00 | 11 00 01 00 | 12 00 01 00 | 13", 2),
    ("constant outside S", "p = 1 for x², where zero is not in S: x² − 1 against x²", EXACT, SQUARE, "10 00 01 00 01 00 00 00 01 00 | 11 00 01 00 | 12 00 01 00 | 13", 0),
    ("two monomials", "no row for x2² + x1²: the keys 512 and 2 differ", SMALLEST, TWO_SQUARES, NO_ROW, 2),
    ("second of two", "weight 2 on x2² alone", SMALLEST, TWO_SQUARES, "10 00 01 00 00 00 00 00 01 00 | 11 00 01 00 | 12 00 01 00 | 11 00 02 00 | 12 01 01 00 | 13", 512),
    ("variable 8", "weight 2 on x8²: the key is 2 × 256^7", SMALLEST, LAST_SQUARE, "10 00 01 00 00 00 00 00 01 00 | 11 00 02 00 | 12 00 01 00 | 13", 144_115_188_075_855_872),
    ("by 2^32", "T is 4 × 2^30 and the left side 0", EXACT, PLUS, "10 00 01 00 00 00 00 00 01 00 | 11 01 04 00 | 12 00 00 80 | 13", 0),
    ("by 2^60", "T is −2^15 × 2^30 × 2^15 and the left side 0", EXACT, MINUS, "10 00 01 00 00 00 00 00 01 00 | 11 01 00 80 | 12 00 00 80 | 13", 0),
    ("by 2^64", "16 rows: T is −16 × 2^60 and the left side 0", EXACT, MINUS, SIXTEEN, 0),
];

/// Two rows of weight 2^15 and factor −2^15 on basis 1.
macro_rules! two {
    () => {
        " | 11 01 00 80 | 12 00 00 80 | 11 01 00 80 | 12 00 00 80"
    };
}

/// Sixteen of these rows.
const SIXTEEN: &str = concat!(
    "10 00 01 00 00 00 00 00 01 00",
    two!(),
    two!(),
    two!(),
    two!(),
    two!(),
    two!(),
    two!(),
    two!(),
    " | 13"
);

/// Refusal 9 of the first and of the second certificate.
pub fn cases() -> Vec<Case> {
    let of_stream = |stream| LINES.iter().map(move |line| different(line, stream));
    [FIRST, SECOND].into_iter().flat_map(of_stream).collect()
}

fn different(line: &Line, stream: u8) -> Case {
    let &(name, what, words, (problem, holds), text, key) = line;
    let mut runs = [problem, holds, holds].map(bytes);
    runs[usize::from(stream)] = bytes(text);
    let expected = Refusal {
        key,
        ..Refusal::new(IDENTITY, stream, 0)
    };
    Case {
        text: Some(text),
        ..case(expected, name, what, words, runs)
    }
}
