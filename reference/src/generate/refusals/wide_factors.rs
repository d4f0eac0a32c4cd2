//! Request 05: refusals of entries with factors of 32 bits.

use super::{bytes, case_f, written, Case, Line};
use crate::generate::refusals::case;
use crate::refusal::{Refusal, FIRST, IDENTITY, SECOND};

const ENTRY: &str = "Req 05: Certificate command 15 i(u8) l(i32) is an entry with a wider factor";
const BEFORE: &str = "Req 05: a 15 before any row is misplaced";
const RISE: &str = "Req 05: both kinds may stand in one row and share the rising indices";
const EXACT: &str = "Req 05: The sums stay exact";

/// For case F, whose bases have two monomials and one.
#[rustfmt::skip]
const LINES: &[Line] = &[
    (2, 14, "15 cut", "a wide entry without its last byte", ENTRY, "10 00 02 00 FF FF FF FF 01 00 | 11 00 01 00 | 15 00 01 00 00"),
    (2, 20, "no end after 15", "a row with a wide entry, and no end", ENTRY, "10 00 02 00 FF FF FF FF 01 00 | 11 00 01 00 | 15 00 01 00 00 00"),
    (2, 14, "2 before 4, 15", "a cut wide entry with index 9", ENTRY, "10 00 02 00 FF FF FF FF 01 00 | 11 00 01 00 | 15 09"),
    (3, 0, "15 first", "15 as the first command", "First, and only first.", "15 00 01 00 00 00 | 13"),
    (3, 10, "15 before 11", "a wide entry before any row", BEFORE, "10 00 02 00 FF FF FF FF 01 00 | 15 00 01 00 00 00 | 13"),
    (3, 10, "3 before 2, 15", "a cut 15 before any row", BEFORE, "10 00 02 00 FF FF FF FF 01 00 | 15"),
    (4, 14, "15, index 2", "index 2 in basis 0, which has two monomials", ENTRY, "10 00 02 00 FF FF FF FF 01 00 | 11 00 01 00 | 15 02 01 00 00 00 | 13"),
    (4, 14, "15, factor 0", "a wide entry with factor 0", "Coefficients and factors are never 0.", "10 00 02 00 FF FF FF FF 01 00 | 11 00 01 00 | 15 00 00 00 00 00 | 13"),
    (4, 20, "4 before 5, 15", "a wide entry whose index does not rise, with factor 0", RISE, "10 00 02 00 FF FF FF FF 01 00 | 11 00 01 00 | 15 01 01 00 00 00 | 15 00 00 00 00 00 | 13"),
    (5, 20, "12 after 15", "index 0 again, after a wide entry", RISE, "10 00 02 00 FF FF FF FF 01 00 | 11 00 01 00 | 15 00 01 00 00 00 | 12 00 01 00 | 13"),
    (5, 18, "15 after 12", "index 0 again, as a wide entry", RISE, "10 00 02 00 FF FF FF FF 01 00 | 11 00 01 00 | 12 00 01 00 | 15 00 01 00 00 00 | 13"),
    (5, 20, "15 falls", "index 0 after index 1, both wide", RISE, "10 00 02 00 FF FF FF FF 01 00 | 11 00 01 00 | 15 01 01 00 00 00 | 15 00 01 00 00 00 | 13"),
];

/// Case D, x1² + x2² on the basis 1, x1, x2: each is a block. The place of the third entry counts
/// the six bytes of a wide one.
const CASE_D: &str = "01 02 | 02 02 0⁷ 01 00 00 00 | 02 00 02 00 00 00 00 00 00 01 00 00 00 \
    | 05 00 0⁸ | 05 00 01 0⁷ | 05 00 00 01 00 00 00 00 00 00 | 06";
const ON_D: &str = "10 00 01 00 00 00 00 00 01 00 | 11 00 01 00 | 12 01 01 00 \
    | 11 00 01 00 | 12 02 01 00 | 13";
#[rustfmt::skip]
const SPLIT: &[Line] = &[
    (8, 20, "12 after 15", "a row on x1, wide, and x2", "All entries of a row are in one block.", "10 00 01 00 00 00 00 00 01 00 | 11 00 01 00 | 15 01 01 00 00 00 | 12 02 01 00 | 13"),
    (8, 18, "15 after 12", "a row on x1 and x2, wide", "All entries of a row are in one block.", "10 00 01 00 00 00 00 00 01 00 | 11 00 01 00 | 12 01 01 00 | 15 02 01 00 00 00 | 13"),
];

/// x² with basis x, and the bound 0. A factor of 2^16 makes T x² times 2^32, one of -2^31 2^62, and
/// four rows of -2^31 with weight 1 make 2^64: none is x².
const SQUARE: &str = "01 01 | 02 02 0⁷ 01 00 00 00 | 05 00 01 0⁷ | 06";
const ON_SQUARE: &str = "10 00 01 00 00 00 00 00 01 00 | 11 00 01 00 | 12 00 01 00 | 13";
#[rustfmt::skip]
const FALSE: &[(&str, &str, &str)] = &[
    ("15, 2^16", "the factor 2^16 for 1, which a narrow product takes for 0", "10 00 01 00 00 00 00 00 01 00 | 11 00 01 00 | 12 00 01 00 | 11 00 01 00 | 15 00 00 00 01 00 | 13"),
    ("15, 2^31", "1 and four rows of the factor -2^31: T is off by 2^64", "10 00 01 00 00 00 00 00 01 00 | 11 00 01 00 | 12 00 01 00 | 11 00 04 00 | 15 00 00 00 00 80 | 13"),
];

pub fn cases() -> Vec<Case> {
    let mut all = Vec::new();
    for stream in [FIRST, SECOND] {
        all.extend(LINES.iter().map(|line| written(line, stream, case_f())));
        let on_d = [CASE_D, ON_D, ON_D].map(bytes);
        all.extend(SPLIT.iter().map(|line| written(line, stream, on_d.clone())));
        all.extend(FALSE.iter().map(|line| different(line, stream)));
    }
    all
}

/// The identity is false at x², whose key is 2.
fn different(&(name, what, text): &(&'static str, &'static str, &'static str), stream: u8) -> Case {
    let mut runs = [SQUARE, ON_SQUARE, ON_SQUARE].map(bytes);
    runs[usize::from(stream)] = bytes(text);
    let expected = Refusal {
        key: 2,
        ..Refusal::new(IDENTITY, stream, 0)
    };
    Case {
        text: Some(text),
        ..case(expected, name, what, EXACT, runs)
    }
}
