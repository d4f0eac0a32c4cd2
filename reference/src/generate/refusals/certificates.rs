//! Refusals 2 to 6 and 8 of a certificate, as the first and as the second one.

use super::{bytes, case, case_f, written, Case, Line, BEFORE, NEVER, ONLY, THREE, TWO};
use crate::generate::draft::{bound, certificate_end, row};
use crate::refusal::{Refusal, FIRST, SECOND};

const ORDER: &str = "each checked 3, 2, 4, 5, 6; .. the first certificate by commands likewise; .. the second certificate the same";
const BOUND: &str = "side 0 lower, 1 upper; D and q at least 1";
const ROW: &str = "begins a row on basis j, 0 or a constraint of the problem, with weight w at least 1; at most 128 rows";
const ENTRY: &str = "factor l on basis index i, less than the basis's length";
const RISE: &str = "Indices rise within a row.";
const EIGHT: &str = "All entries of a row are in one block.";
const PLACE: &str = "first entry outside the row's first block";

/// For case F, whose bases have two monomials and one.
#[rustfmt::skip]
const LINES: &[Line] = &[
    (2, 0, "empty", "no byte", TWO, ""),
    (2, 0, "10 cut", "10 without its last byte", TWO, "10 00 02 00 FF FF FF FF 01"),
    (2, 10, "11 cut", "a row without its last byte", TWO, "10 00 02 00 FF FF FF FF 01 00 | 11 00 01"),
    (2, 14, "12 cut", "an entry without its last byte", TWO, "10 00 02 00 FF FF FF FF 01 00 | 11 00 01 00 | 12 00 01"),
    (2, 10, "no end", "no command after 10", TWO, "10 00 02 00 FF FF FF FF 01 00"),
    (2, 18, "no end after 12", "a row with an entry, and no end", TWO, "10 00 02 00 FF FF FF FF 01 00 | 11 00 01 00 | 12 00 01 00"),
    (2, 11, "on after 13", "a second 13", TWO, "10 00 02 00 FF FF FF FF 01 00 | 13 | 13"),
    (2, 11, "on after 13, 00", "a byte after 13 that begins no command", TWO, "10 00 02 00 FF FF FF FF 01 00 | 13 | 00"),
    (2, 0, "2 before 4, 10", "a cut 10 with side 2", ORDER, "10 02"),
    (2, 10, "2 before 4, 11", "a cut row on basis 9", ORDER, "10 00 02 00 FF FF FF FF 01 00 | 11 09"),
    (2, 18, "2 before 5", "a cut entry whose index does not rise", ORDER, "10 00 02 00 FF FF FF FF 01 00 | 11 00 01 00 | 12 01 01 00 | 12 00 01"),
    (3, 0, "14 first", "14, which may not stand first", ONLY, "14"),
    (3, 10, "unknown later", "00, which is no command, after 10", THREE, "10 00 02 00 FF FF FF FF 01 00 | 00 | 13"),
    (3, 0, "of a problem", "01, a command of problems", THREE, "01 01 | 13"),
    (3, 10, "end of a problem", "06, the end of problems", THREE, "10 00 02 00 FF FF FF FF 01 00 | 06"),
    (3, 0, "11 first", "11 as the first command", ONLY, "11 00 01 00 | 13"),
    (3, 0, "12 first", "12 as the first command", ONLY, "12 00 01 00 | 13"),
    (3, 0, "13 first", "13 as the first command", ONLY, "13"),
    (3, 10, "second 10", "10 again", ONLY, "10 00 02 00 FF FF FF FF 01 00 | 10 00 02 00 FF FF FF FF 01 00 | 13"),
    (3, 10, "12 before 11", "an entry before any row", BEFORE, "10 00 02 00 FF FF FF FF 01 00 | 12 00 01 00 | 13"),
    (3, 10, "3 before 2, 10", "a second 10 that is cut", ORDER, "10 00 02 00 FF FF FF FF 01 00 | 10"),
    (3, 10, "3 before 2, 12", "a cut 12 before any row", ORDER, "10 00 02 00 FF FF FF FF 01 00 | 12"),
    (4, 0, "side 2", "side 2", BOUND, "10 02 02 00 FF FF FF FF 01 00 | 13"),
    (4, 0, "side 255", "side 255", BOUND, "10 FF 02 00 FF FF FF FF 01 00 | 13"),
    (4, 0, "D is 0", "D = 0", BOUND, "10 00 00 00 FF FF FF FF 01 00 | 13"),
    (4, 0, "q is 0", "q = 0 (case I)", BOUND, "10 00 02 00 FF FF FF FF 00 00 | 13"),
    (4, 10, "row on basis 2", "a row on basis 2 of a problem with one constraint", ROW, "10 00 02 00 FF FF FF FF 01 00 | 11 02 01 00 | 13"),
    (4, 10, "row on basis 255", "a row on basis 255", ROW, "10 00 02 00 FF FF FF FF 01 00 | 11 FF 01 00 | 13"),
    (4, 10, "weight 0", "a row with weight 0", ROW, "10 00 02 00 FF FF FF FF 01 00 | 11 00 00 00 | 13"),
    (4, 14, "index 2", "index 2 in basis 0, which has two monomials", ENTRY, "10 00 02 00 FF FF FF FF 01 00 | 11 00 01 00 | 12 02 01 00 | 13"),
    (4, 14, "index 1 in basis 1", "index 1 in basis 1, which has one monomial", ENTRY, "10 00 02 00 FF FF FF FF 01 00 | 11 01 01 00 | 12 01 01 00 | 13"),
    (4, 14, "index 255", "index 255", ENTRY, "10 00 02 00 FF FF FF FF 01 00 | 11 00 01 00 | 12 FF 01 00 | 13"),
    (4, 14, "factor 0", "an entry with factor 0", NEVER, "10 00 02 00 FF FF FF FF 01 00 | 11 00 01 00 | 12 00 00 00 | 13"),
    (4, 18, "4 before 5", "an entry whose index does not rise, with factor 0", ORDER, "10 00 02 00 FF FF FF FF 01 00 | 11 00 01 00 | 12 00 01 00 | 12 00 00 00 | 13"),
    (5, 18, "index again", "index 0 again", RISE, "10 00 02 00 FF FF FF FF 01 00 | 11 00 01 00 | 12 00 01 00 | 12 00 01 00 | 13"),
    (5, 18, "index falls", "index 0 after index 1", RISE, "10 00 02 00 FF FF FF FF 01 00 | 11 00 01 00 | 12 01 01 00 | 12 00 01 00 | 13"),
    (5, 26, "index again in row 2", "index 1 again in the second row", RISE, "10 00 02 00 FF FF FF FF 01 00 | 11 00 01 00 | 12 01 01 00 | 11 00 01 00 | 12 01 01 00 | 12 01 01 00 | 13"),
];

/// A problem without a term: constraint 1 is zero, and basis 1 is empty.
const EMPTY: &str = "01 01 | 03 | 06";
/// A problem without a term: constraint 1 is zero, and basis 1 has 1 and x.
const ZERO: &str = "01 01 | 03 | 05 01 0⁸ | 05 01 01 0⁷ | 06";
/// The lower bound 0 of a zero objective, without a row.
const NOTHING: &str = "10 00 01 00 00 00 00 00 01 00 | 13";
/// Case D: x1² + x2², basis 1, x1, x2. Each is a block.
const CASE_D: &str = "01 02 | 02 02 0⁷ 01 00 00 00 | 02 00 02 00 00 00 00 00 00 01 00 00 00 \
    | 05 00 0⁸ | 05 00 01 0⁷ | 05 00 00 01 00 00 00 00 00 00 | 06";
/// Its lower bound 0 by a row on x1 and one on x2.
const ON_D: &str = "10 00 01 00 00 00 00 00 01 00 | 11 00 01 00 | 12 01 01 00 \
    | 11 00 01 00 | 12 02 01 00 | 13";
/// 1 + 2 x1 + x1², basis 1, x1, x2. The blocks are 1 with x1, and x2.
const SQUARE: &str = "01 02 | 02 0⁸ 01 00 00 00 | 02 01 0⁷ 02 00 00 00 | 02 02 0⁷ 01 00 00 00 \
    | 05 00 0⁸ | 05 00 01 0⁷ | 05 00 00 01 00 00 00 00 00 00 | 06";
/// Its lower bound 0 by the row 1 + x1.
const ON_SQUARE: &str =
    "10 00 01 00 00 00 00 00 01 00 | 11 00 01 00 | 12 00 01 00 | 12 01 01 00 | 13";

/// For other problems, each with its stream and with a certificate that holds.
#[rustfmt::skip]
const OTHERS: &[(&str, &str, Line)] = &[
    (EMPTY, NOTHING, (4, 14, "index in an empty basis", "index 0 in basis 1, which is empty", ENTRY, "10 00 01 00 00 00 00 00 01 00 | 11 01 01 00 | 12 00 01 00 | 13")),
    (CASE_D, ON_D, (8, 18, "x1 and x2", "case D, a row on x1 and x2, each of them a block", EIGHT, "10 00 01 00 00 00 00 00 01 00 | 11 00 01 00 | 12 01 01 00 | 12 02 01 00 | 13")),
    (CASE_D, ON_D, (8, 26, "in row 2", "a row on x1, and a row on x1 and x2", EIGHT, "10 00 01 00 00 00 00 00 01 00 | 11 00 01 00 | 12 01 01 00 | 11 00 01 00 | 12 01 01 00 | 12 02 01 00 | 13")),
    (CASE_D, ON_D, (8, 18, "in rows 1 and 2", "two rows over two blocks each", PLACE, "10 00 01 00 00 00 00 00 01 00 | 11 00 01 00 | 12 00 01 00 | 12 02 01 00 | 11 00 01 00 | 12 01 01 00 | 12 02 01 00 | 13")),
    (CASE_D, ON_D, (8, 18, "three blocks", "a row over three blocks", PLACE, "10 00 01 00 00 00 00 00 01 00 | 11 00 01 00 | 12 00 01 00 | 12 01 01 00 | 12 02 01 00 | 13")),
    (SQUARE, ON_SQUARE, (8, 22, "third entry", "a row on 1, x1 and x2 where 1 and x1 are in one block", PLACE, "10 00 01 00 00 00 00 00 01 00 | 11 00 01 00 | 12 00 01 00 | 12 01 01 00 | 12 02 01 00 | 13")),
    (ZERO, NOTHING, (8, 18, "zero constraint", "a row over 1 and x on a constraint without terms", EIGHT, "10 00 01 00 00 00 00 00 01 00 | 11 01 01 00 | 12 00 01 00 | 12 01 01 00 | 13")),
];

/// The refusals 2 to 6 and 8 of the first and of the second certificate.
pub fn cases() -> Vec<Case> {
    let mut all = Vec::new();
    for stream in [FIRST, SECOND] {
        all.extend(LINES.iter().map(|line| written(line, stream, case_f())));
        for (problem, holds, line) in OTHERS {
            let runs = [problem, holds, holds].map(|text| bytes(text));
            all.push(written(line, stream, runs));
        }
        all.extend(full_rows(stream));
    }
    all
}

/// After 10, ten bytes, and 128 rows of four bytes each.
fn full_rows(stream: u8) -> Vec<Case> {
    let full = [vec![bound(0, 2, -1, 1)], vec![row(0, 1); 128]].concat();
    let place = 10 + 128 * 4;
    let made = |number, name, what, words, last: &[Vec<u8>]| {
        let mut runs = case_f();
        runs[usize::from(stream)] = [full.concat(), last.concat()].concat();
        case(Refusal::new(number, stream, place), name, what, words, runs)
    };
    let (light, far, cut) = (row(0, 0), row(2, 1), vec![0x11, 0]);
    let end = certificate_end;
    vec![
        made(6, "row 129", "129 rows", ROW, &[row(0, 1), end()]),
        made(
            4,
            "4 before 6, weight",
            "129 rows, the last with weight 0",
            ORDER,
            &[light, end()],
        ),
        made(
            4,
            "4 before 6, basis",
            "129 rows, the last on basis 2",
            ORDER,
            &[far, end()],
        ),
        made(2, "2 before 6", "128 rows and a cut one", ORDER, &[cut]),
    ]
}
