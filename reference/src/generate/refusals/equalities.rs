//! Request 04: refusals of equalities and of rows on them, and what stands just beside them and is
//! accepted.

use super::{bytes, case, case_f, written, Accepted, Case, Line, ONLY, THREE};
use crate::generate::draft::*;
use crate::generate::samples;
use crate::records::{BLOCKS, CHECK, PAIR};
use crate::refusal::{Refusal, FIRST, PROBLEM, SECOND};

const AMONG_8: &str = "Req 04: numbered together with the constraints and counted among the 8";
const TERMS: &str = "Req 04: its terms use 04, which from now on needs a 03 or 07 before it";
const ROW: &str =
    "Req 04: begins a row on an equality, with w negative or positive, never 0, counted among the 128";
const OTHER: &str =
    "Req 04: Command 11 on an equality, or 14 on another basis, breaks an operand rule.";
const ALIKE: &str =
    "Req 04: Blocks, symmetries, refusal 8 and the identity treat an equality as a constraint.";
const READ: &str = "Req 04: a 07 between 01 and 06 that met refusal 3 is now read";

/// In the problem.
#[rustfmt::skip]
const PROBLEMS: &[Line] = &[
    (2, 3, "no end after 07", "an equality begun, and no end", AMONG_8, "01 01 | 07"),
    (3, 0, "unknown", "0B, which is no command", THREE, "0B"),
    (3, 0, "07 first, with an end", "07 as the first command, with an end", ONLY, "07 | 06"),
    (3, 2, "04 before 07", "a term before the equality", TERMS, "01 01 | 04 0⁸ 01 00 | 07 | 06"),
    (4, 3, "07, 04 of degree 17", "x^17 in an equality", TERMS, "01 01 | 07 | 04 11 0⁷ 01 00 | 06"),
    (4, 3, "07, 04 with 0", "a term of an equality with coefficient 0", TERMS, "01 01 | 07 | 04 0⁸ 00 00 | 06"),
    (4, 2, "05 before its equality", "a monomial of basis 1 before its equality is begun", AMONG_8, "01 01 | 05 01 0⁸ | 07 | 06"),
    (4, 4, "05 past the conditions", "a monomial of basis 3 after a constraint and an equality", AMONG_8, "01 01 | 03 | 07 | 05 03 0⁸ | 06"),
    (5, 14, "07, 04 twice", "an equality's monomial 1 again", TERMS, "01 01 | 07 | 04 0⁸ 01 00 | 04 0⁸ 01 00 | 06"),
    (5, 13, "05 twice in an equality's basis", "monomial 1 twice in the basis of an equality", AMONG_8, "01 01 | 07 | 05 01 0⁸ | 05 01 0⁸ | 06"),
    (6, 10, "condition 9, 07", "an equality after eight constraints", AMONG_8, "01 01 | 03 | 03 | 03 | 03 | 03 | 03 | 03 | 03 | 07 | 06"),
    (6, 10, "condition 9, 03", "a constraint after eight equalities", AMONG_8, "01 01 | 07 | 07 | 07 | 07 | 07 | 07 | 07 | 07 | 03 | 06"),
    (6, 10, "equality 9", "the ninth equality", AMONG_8, "01 01 | 07 | 07 | 07 | 07 | 07 | 07 | 07 | 07 | 07 | 06"),
    (6, 10, "condition 9, both kinds", "an equality after four constraints and four equalities", AMONG_8, "01 01 | 03 | 07 | 03 | 07 | 03 | 07 | 03 | 07 | 07 | 06"),
];

/// Case F with the equality 1 − x² = 0 for its constraint.
const EQUAL_F: &str = "01 01 | 02 01 0⁷ 01 00 00 00 | 07 | 04 0⁸ 01 00 | 04 02 0⁷ FF FF \
    | 05 00 0⁸ | 05 00 01 0⁷ | 05 01 0⁸ | 06";
/// Its lower bound −1: 2 (x + 1) = (1 + x)² + (1 − x²).
const ON_EQUAL_F: &str = "10 00 02 00 FF FF FF FF 01 00 | 11 00 01 00 | 12 00 01 00 \
    | 12 01 01 00 | 14 01 01 00 | 12 00 01 00 | 13";
/// Its upper bound 1: 2 (1 − x) = (1 − x)² + (1 − x²).
const ABOVE_EQUAL_F: &str = "10 01 02 00 01 00 00 00 01 00 | 11 00 01 00 | 12 00 01 00 \
    | 12 01 FF FF | 14 01 01 00 | 12 00 01 00 | 13";

/// The streams of case F with an equality.
pub fn equal_f() -> [Vec<u8>; 3] {
    [EQUAL_F, ON_EQUAL_F, ABOVE_EQUAL_F].map(bytes)
}

/// In a certificate for it.
#[rustfmt::skip]
const CERTIFICATES: &[Line] = &[
    (2, 10, "14 cut", "a row on an equality without its last byte", ROW, "10 00 02 00 FF FF FF FF 01 00 | 14 01 01"),
    (2, 10, "2 before 4, 14", "a cut 14 on basis 0", OTHER, "10 00 02 00 FF FF FF FF 01 00 | 14 00"),
    (2, 18, "no end after 14 and 12", "a row on an equality with an entry, and no end", ROW, "10 00 02 00 FF FF FF FF 01 00 | 14 01 01 00 | 12 00 01 00"),
    (3, 0, "unknown", "17, which is no command", THREE, "17"),
    (3, 0, "14 first, whole", "a whole 14 as the first command", ONLY, "14 01 01 00 | 13"),
    (3, 10, "12 before 14", "an entry before any row, of either kind", "a 12 before any row, is misplaced.", "10 00 02 00 FF FF FF FF 01 00 | 12 00 01 00 | 14 01 01 00 | 13"),
    (4, 10, "11 on an equality", "11 on an equality", OTHER, "10 00 02 00 FF FF FF FF 01 00 | 11 01 01 00 | 13"),
    (4, 10, "14 on basis 0", "14 on basis 0", OTHER, "10 00 02 00 FF FF FF FF 01 00 | 14 00 01 00 | 13"),
    (4, 10, "14 past the conditions", "14 on basis 2 of a problem with one condition", OTHER, "10 00 02 00 FF FF FF FF 01 00 | 14 02 01 00 | 13"),
    (4, 10, "14 on basis 255", "14 on basis 255", OTHER, "10 00 02 00 FF FF FF FF 01 00 | 14 FF 01 00 | 13"),
    (4, 10, "14 with weight 0", "14 with weight 0", ROW, "10 00 02 00 FF FF FF FF 01 00 | 14 01 00 00 | 13"),
    (4, 14, "14, index 1", "index 1 in the basis of the equality, which has one monomial", ALIKE, "10 00 02 00 FF FF FF FF 01 00 | 14 01 FF FF | 12 01 01 00 | 13"),
    (4, 14, "14, factor 0", "an entry with factor 0 in a row on an equality", ALIKE, "10 00 02 00 FF FF FF FF 01 00 | 14 01 FF FF | 12 00 00 00 | 13"),
    (5, 18, "14, index again", "index 0 again in a row on an equality of weight −32,768", ALIKE, "10 00 02 00 FF FF FF FF 01 00 | 14 01 00 80 | 12 00 01 00 | 12 00 01 00 | 13"),
    (9, 0, "14 left out", "without the row on the equality: (1 + x)² has the constant 1, and 2 (x + 1) has 2", ALIKE, "10 00 02 00 FF FF FF FF 01 00 | 11 00 01 00 | 12 00 01 00 | 12 01 01 00 | 13"),
    (9, 0, "14 with the other sign", "weight −1: (1 + x)² − (1 − x²) has no constant", ALIKE, "10 00 02 00 FF FF FF FF 01 00 | 11 00 01 00 | 12 00 01 00 | 12 01 01 00 | 14 01 FF FF | 12 00 01 00 | 13"),
    (9, 0, "14 with −32,768", "weight −32,768, which is allowed: (1 + x)² − 32,768 (1 − x²) has the constant −32,767", ROW, "10 00 02 00 FF FF FF FF 01 00 | 11 00 01 00 | 12 00 01 00 | 12 01 01 00 | 14 01 00 80 | 12 00 01 00 | 13"),
];

/// In a certificate for case F, whose condition is an inequality.
#[rustfmt::skip]
const ON_F: &[Line] = &[
    (2, 10, "14 cut on an inequality", "a cut 14 on the constraint of case F", OTHER, "10 00 02 00 FF FF FF FF 01 00 | 14 01 01"),
    (4, 10, "14 on an inequality", "14 on the constraint of case F", OTHER, "10 00 02 00 FF FF FF FF 01 00 | 14 01 01 00 | 13"),
    (4, 10, "14 on an inequality, below 0", "14 with weight −1 on the constraint of case F", OTHER, "10 00 02 00 FF FF FF FF 01 00 | 14 01 FF FF | 12 00 01 00 | 13"),
    (4, 10, "14 on basis 0 of case F", "14 on basis 0 of a problem without equalities", OTHER, "10 00 02 00 FF FF FF FF 01 00 | 14 00 01 00 | 13"),
];

/// A problem whose only condition is the equality 0 = 0 on the basis 1, x; a bound for it; a row over
/// both monomials, which are two blocks.
const ZERO: &str = "01 01 | 07 | 05 01 0⁸ | 05 01 01 0⁷ | 06";
const NOTHING: &str = "10 00 01 00 00 00 00 00 01 00 | 13";
const SPLIT: Line = (
    8,
    18,
    "zero equality",
    "a row over 1 and x on an equality without terms",
    ALIKE,
    "10 00 01 00 00 00 00 00 01 00 | 14 01 FF FF | 12 00 01 00 | 12 01 01 00 | 13",
);

pub fn cases() -> Vec<Case> {
    let mut all: Vec<Case> = Vec::new();
    all.extend(PROBLEMS.iter().map(|line| written(line, PROBLEM, case_f())));
    all.extend([full_terms(), large_support()]);
    for stream in [FIRST, SECOND] {
        let beside = [EQUAL_F, ON_EQUAL_F, ON_EQUAL_F].map(bytes);
        let with = |line| written(line, stream, beside.clone());
        all.extend(CERTIFICATES.iter().map(with));
        all.extend(ON_F.iter().map(|line| written(line, stream, case_f())));
        all.push(written(&SPLIT, stream, [ZERO, NOTHING, NOTHING].map(bytes)));
        all.extend(full_rows(stream, beside));
    }
    all
}

/// After 01 and 07, three bytes, and 32 terms of 11 bytes each, x1^i x2^k with i below 8.
fn full_terms() -> Case {
    let plane = |i: u8| constraint_term(monomial(&[i % 8, i / 8]), 1);
    let mut commands = vec![variables(2), equality()];
    commands.extend((0..33).map(plane));
    commands.push(problem_end());
    let mut runs = case_f();
    runs[0] = commands.concat();
    let expected = Refusal::new(6, PROBLEM, 3 + 32 * 11);
    let what = "33 terms of an equality";
    case(expected, "07, term 33", what, TERMS, runs)
}

/// Case H with the objective term x1 closes to 2,049 members, whatever the kind of its condition.
fn large_support() -> Case {
    let mut commands = samples::h_with_objective().commands();
    for command in &mut commands {
        if *command == constraint() {
            *command = equality();
        }
    }
    let mut runs = case_f();
    runs[0] = commands.concat();
    let expected = Refusal::new(7, PROBLEM, 0);
    let what = "case H with the objective term x1 and an equality for its constraint";
    case(expected, "2,049 members, 07", what, ALIKE, runs)
}

/// After 10, ten bytes, and 128 rows of four bytes each of one kind, a row of either.
fn full_rows(stream: u8, runs: [Vec<u8>; 3]) -> Vec<Case> {
    let full = |row: Vec<u8>| [vec![bound(0, 2, -1, 1)], vec![row; 128]].concat();
    let (inequality, equality) = (full(row(0, 1)), full(equality_row(1, -1)));
    let with = |number, name, what, rows: &[Vec<u8>], last: Vec<u8>| {
        let mut runs = runs.clone();
        runs[usize::from(stream)] = [rows.concat(), last, certificate_end()].concat();
        let expected = Refusal::new(number, stream, 10 + 128 * 4);
        case(expected, name, what, ROW, runs)
    };
    vec![
        with(
            6,
            "row 129, 14",
            "128 rows on basis 0, and one on an equality",
            &inequality,
            equality_row(1, 1),
        ),
        with(
            6,
            "row 129, 11",
            "128 rows on an equality, and one on basis 0",
            &equality,
            row(0, 1),
        ),
        with(
            6,
            "row 129, all 14",
            "129 rows on an equality",
            &equality,
            equality_row(1, 1),
        ),
        with(
            4,
            "4 before 6, 14",
            "128 rows, and one on an equality with weight 0",
            &inequality,
            equality_row(1, 0),
        ),
    ]
}

/// 32,768 x² where x² is 1; basis 0 is empty, and basis 1 is 1.
const LARGE: &str =
    "01 01 | 02 02 0⁷ 00 80 00 00 | 07 | 04 0⁸ 01 00 | 04 02 0⁷ FF FF | 05 01 0⁸ | 06";
/// 32,768 x² − 32,768 = −32,768 (1 − x²).
const LARGE_LOW: &str = "10 00 01 00 00 80 00 00 01 00 | 14 01 00 80 | 12 00 01 00 | 13";
/// 32,768 − 32,768 x² = 16,384 (1 − x²) + 16,384 (1 − x²).
const LARGE_HIGH: &str =
    "10 01 01 00 00 80 00 00 01 00 | 14 01 00 40 | 12 00 01 00 | 14 01 00 40 | 12 00 01 00 | 13";

/// What stands beside the refusals of request 04, with the lines found by hand.
#[rustfmt::skip]
pub const ACCEPTED: &[Accepted] = &[
    Accepted {
        name: "07 alone",
        what: "an equality without terms, which met refusal 3 before; a round that changes nothing",
        words: READ,
        kind: BLOCKS,
        streams: ["01 01 | 07 | 06", "", ""],
        line: "blocks 0 rounds 1 rule 1 ",
    },
    Accepted {
        name: "04 and 05 after 07",
        what: "case F with the equality 1 − x²: the blocks and the rounds are those of case F",
        words: TERMS,
        kind: BLOCKS,
        streams: [EQUAL_F, "", ""],
        line: "blocks 2 rounds 2 rule 1 0000ffffffffffffffffffffffffffffffffffffffffffffffffffffffffffffffffffffffffffffffffffffffffffffffffffffffffffffffffffffffffffff00",
    },
    Accepted {
        name: "eight of both kinds",
        what: "four constraints and four equalities without terms, and 1 in basis 0",
        words: AMONG_8,
        kind: BLOCKS,
        streams: ["01 01 | 03 | 07 | 03 | 07 | 03 | 07 | 03 | 07 | 05 00 0⁸ | 06", "", ""],
        line: "blocks 1 rounds 1 rule 1 00",
    },
    Accepted {
        name: "12 after 14",
        what: "2 (x + 1) = (1 + x)² + (1 − x²), the last by a row on the equality",
        words: ROW,
        kind: CHECK,
        streams: [EQUAL_F, ON_EQUAL_F, ""],
        line: "check 0 -1/1 rounds 2 rule 1",
    },
    Accepted {
        name: "14 with −32,768, accepted",
        what: "32,768 x² − 32,768 = −32,768 (1 − x²)",
        words: ROW,
        kind: CHECK,
        streams: [LARGE, LARGE_LOW, ""],
        line: "check 0 32768/1 rounds 1 rule 1",
    },
    Accepted {
        name: "14 with 32,767 and −32,768",
        what: "three rows that cancel, 32,767 + 1 − 32,768 = 0, beside those of case F",
        words: ROW,
        kind: CHECK,
        streams: [
            EQUAL_F,
            "10 00 02 00 FF FF FF FF 01 00 | 14 01 FF 7F | 12 00 00 80 | 14 01 01 00 | 12 00 00 80 | 14 01 00 80 | 12 00 00 80 \
             | 11 00 01 00 | 12 00 01 00 | 12 01 01 00 | 14 01 01 00 | 12 00 01 00 | 13",
            "",
        ],
        line: "check 0 -1/1 rounds 2 rule 1",
    },
    Accepted {
        name: "a pair on an equality",
        what: "case F with the equality 1 − x²: its bounds, which are its values",
        words: ROW,
        kind: PAIR,
        streams: [EQUAL_F, ON_EQUAL_F, ABOVE_EQUAL_F],
        line: "pair -1/1 1/1 gap 2/1 rounds 2 rule 1",
    },
    Accepted {
        name: "rows of both signs",
        what: "32,768 x² where x² = 1 is 32,768: −32,768 (1 − x²) below it, 16,384 (1 − x²) twice above",
        words: ROW,
        kind: PAIR,
        streams: [LARGE, LARGE_LOW, LARGE_HIGH],
        line: "pair 32768/1 32768/1 gap 0/1 rounds 1 rule 1",
    },
];
