//! Request 08: refusals of the joining rule's command and of rule 2, and what is accepted beside them.

use super::{bytes, case, case_f, written, Accepted, Case, Line};
use crate::generate::draft::rule;
use crate::generate::samples;
use crate::records::{BLOCKS, CHECK, PAIR};
use crate::refusal::{Refusal, FIRST, IDENTITY, PROBLEM, SECOND};

const DIRECTLY: &str = "Req 08: stands directly after 01 and only there";
const VALUE: &str = "Req 08: value 1 or 2";
const ABSENT: &str = "Req 08: absent means 1";
const ONLY: &str = "Req 08: adds to S only the products of basis 0";
const JUDGED: &str = "Req 08: \"Least\" and the rounds are judged by the named rule.";
const LIMIT: &str = "Req 08: The limit of 2,048 counts the closed S with the zero exponent and all in-block products t + b + b', under either.";
const INSIDE: &str = "Req 08: Blocks of rule 2 lie inside those of rule 1";

#[rustfmt::skip]
const LINES: &[Line] = &[
    (2, 2, "08 cut", "08 without its operand", DIRECTLY, "01 01 | 08"),
    (2, 4, "no end after 08", "08, and no end", DIRECTLY, "01 01 | 08 02"),
    (2, 3, "on after 06, 08", "08 after 06, which is no command there", DIRECTLY, "01 01 | 06 | 08 02"),
    (3, 0, "08 first", "08 as the first command", DIRECTLY, "08 01 | 06"),
    (3, 0, "08 before 01", "08, and 01 after it", DIRECTLY, "08 01 | 01 01 | 06"),
    (3, 15, "08 after 02", "08 after an objective term", DIRECTLY, "01 01 | 02 0⁸ 01 00 00 00 | 08 01 | 06"),
    (3, 3, "08 after 03", "08 after a constraint is begun", DIRECTLY, "01 01 | 03 | 08 02 | 06"),
    (3, 14, "08 after 04", "08 after a constraint term", DIRECTLY, "01 01 | 03 | 04 0⁸ 01 00 | 08 02 | 06"),
    (3, 12, "08 after 05", "08 after a basis monomial", DIRECTLY, "01 01 | 05 00 0⁸ | 08 02 | 06"),
    (3, 3, "08 after 07", "08 after an equality is begun", DIRECTLY, "01 01 | 07 | 08 02 | 06"),
    (3, 4, "08 twice", "08 again", DIRECTLY, "01 01 | 08 02 | 08 02 | 06"),
    (3, 3, "3 before 2, 08", "a cut 08 after a constraint is begun", DIRECTLY, "01 01 | 03 | 08"),
    (3, 3, "3 before 4, 08", "08 with the value 0 after a constraint is begun", DIRECTLY, "01 01 | 03 | 08 00 | 06"),
    (4, 2, "rule 0", "the rule 0", VALUE, "01 01 | 08 00 | 06"),
    (4, 2, "rule 3", "the rule 3", VALUE, "01 01 | 08 03 | 06"),
    (4, 2, "rule 255", "the rule 255", VALUE, "01 01 | 08 FF | 06"),
];

/// Case E, x⁶ where x ≥ 0, on the bases 1, x³ and x: under rule 1 x³ enters S as x × x × x of basis 1
/// and joins 1 with x³, under rule 2 nothing is added.
const E_ONE: &str = "01 01 | 08 01 | 02 06 0⁷ 01 00 00 00 | 03 | 04 01 0⁷ 01 00 | 05 00 0⁸ | 05 00 03 0⁷ | 05 01 01 0⁷ | 06";
const E_TWO: &str = "01 01 | 08 02 | 02 06 0⁷ 01 00 00 00 | 03 | 04 01 0⁷ 01 00 | 05 00 0⁸ | 05 00 03 0⁷ | 05 01 01 0⁷ | 06";
const E: &str = "01 01 | 02 06 0⁷ 01 00 00 00 | 03 | 04 01 0⁷ 01 00 | 05 00 0⁸ | 05 00 03 0⁷ | 05 01 01 0⁷ | 06";
/// x⁶ = (x³)².
const ON_E: &str = "10 00 01 00 00 00 00 00 01 00 | 11 00 01 00 | 12 01 01 00 | 13";

/// x⁶ + 1 where −x ≥ 0, on the same bases: (1 + x³)² + 2 (−x) x², by a row on 1 and x³.
const ACROSS_ONE: &str =
    "01 01 | 08 01 | 02 0⁸ 01 00 00 00 | 02 06 0⁷ 01 00 00 00 | 03 | 04 01 0⁷ FF FF \
    | 05 00 0⁸ | 05 00 03 0⁷ | 05 01 01 0⁷ | 06";
const ACROSS_TWO: &str =
    "01 01 | 08 02 | 02 0⁸ 01 00 00 00 | 02 06 0⁷ 01 00 00 00 | 03 | 04 01 0⁷ FF FF \
    | 05 00 0⁸ | 05 00 03 0⁷ | 05 01 01 0⁷ | 06";
const ON_ACROSS: &str =
    "10 00 01 00 00 00 00 00 01 00 | 11 00 01 00 | 12 00 01 00 | 12 01 01 00 | 11 01 02 00 | 12 00 01 00 | 13";
/// x⁶ + 1 = 1² + (x³)².
const WITHIN: &str =
    "10 00 01 00 00 00 00 00 01 00 | 11 00 01 00 | 12 00 01 00 | 11 00 01 00 | 12 01 01 00 | 13";

/// For case E under rule 2: x × x × x is counted and compared, and x³ has the key 3.
const BESIDE: &str =
    "10 00 01 00 00 00 00 00 01 00 | 11 00 01 00 | 12 01 01 00 | 11 01 01 00 | 12 00 01 00 | 13";

pub fn cases() -> Vec<Case> {
    let mut all: Vec<Case> = Vec::new();
    all.extend(LINES.iter().map(|line| written(line, PROBLEM, case_f())));
    all.push(large_support());
    for stream in [FIRST, SECOND] {
        let split: Line = (
            8,
            18,
            "rule 2",
            "a row on 1 and x³, which are one block under rule 1 alone",
            ONLY,
            ON_ACROSS,
        );
        all.push(written(
            &split,
            stream,
            [ACROSS_TWO, WITHIN, WITHIN].map(bytes),
        ));
        all.push(different(stream));
    }
    all
}

/// Case H with the objective term x1 under rule 2: 2,048 products of basis 1 that are not in S, and
/// x1.
fn large_support() -> Case {
    let mut commands = samples::h_with_objective().commands();
    commands.insert(1, rule(2));
    let mut runs = case_f();
    runs[0] = commands.concat();
    let expected = Refusal::new(7, PROBLEM, 0);
    let what = "case H with the objective term x1, under rule 2";
    case(expected, "2,049 counted under rule 2", what, LIMIT, runs)
}

/// The identity is false at x³, which is not in S.
fn different(stream: u8) -> Case {
    let mut runs = [E_TWO, ON_E, ON_E].map(bytes);
    runs[usize::from(stream)] = bytes(BESIDE);
    let expected = Refusal {
        key: 3,
        ..Refusal::new(IDENTITY, stream, 0)
    };
    let what = "x³ too much, by a row on basis 1, under rule 2: it is not in S, and compared";
    Case {
        text: Some(BESIDE),
        ..case(expected, "rule 2, outside S", what, LIMIT, runs)
    }
}

/// What stands beside them, with the lines found by hand.
#[rustfmt::skip]
pub const ACCEPTED: &[Accepted] = &[
    Accepted {
        name: "08 alone",
        what: "no more than the rule; a round that changes nothing",
        words: DIRECTLY,
        kind: BLOCKS,
        streams: ["01 01 | 08 02 | 06", "", ""],
        line: "blocks 0 rounds 1 rule 2 ",
    },
    Accepted {
        name: "case E without 08",
        what: "x³ enters S in the first round, as x × x × x of basis 1, and joins 1 with x³ in the second; the third changes nothing",
        words: ABSENT,
        kind: BLOCKS,
        streams: [E, "", ""],
        line: "blocks 2 rounds 3 rule 1 0000ffffffffffffffffffffffffffffffffffffffffffffffffffffffffffffffffffffffffffffffffffffffffffffffffffffffffffffffffffffffffffff00",
    },
    Accepted {
        name: "case E, rule 1",
        what: "the same",
        words: ABSENT,
        kind: BLOCKS,
        streams: [E_ONE, "", ""],
        line: "blocks 2 rounds 3 rule 1 0000ffffffffffffffffffffffffffffffffffffffffffffffffffffffffffffffffffffffffffffffffffffffffffffffffffffffffffffffffffffffffffff00",
    },
    Accepted {
        name: "case E, rule 2",
        what: "x³ is not added, so 1 and x³ stay apart, and the first round changes nothing",
        words: ONLY,
        kind: BLOCKS,
        streams: [E_TWO, "", ""],
        line: "blocks 3 rounds 1 rule 2 0001ffffffffffffffffffffffffffffffffffffffffffffffffffffffffffffffffffffffffffffffffffffffffffffffffffffffffffffffffffffffffffff00",
    },
    Accepted {
        name: "a check on case E, rule 1",
        what: "x⁶ = (x³)²",
        words: JUDGED,
        kind: CHECK,
        streams: [E_ONE, ON_E, ""],
        line: "check 0 0/1 rounds 3 rule 1",
    },
    Accepted {
        name: "a check on case E, rule 2",
        what: "the same certificate",
        words: JUDGED,
        kind: CHECK,
        streams: [E_TWO, ON_E, ""],
        line: "check 0 0/1 rounds 1 rule 2",
    },
    Accepted {
        name: "a row on 1 and x³, rule 1",
        what: "x⁶ + 1 = (1 + x³)² + 2 (−x) x²; under rule 2 it is refused by 8",
        words: INSIDE,
        kind: CHECK,
        streams: [ACROSS_ONE, ON_ACROSS, ""],
        line: "check 0 0/1 rounds 3 rule 1",
    },
    Accepted {
        name: "rows on 1 and on x³, rule 2",
        what: "x⁶ + 1 = 1² + (x³)²",
        words: INSIDE,
        kind: CHECK,
        streams: [ACROSS_TWO, WITHIN, ""],
        line: "check 0 0/1 rounds 1 rule 2",
    },
    Accepted {
        name: "case F, rule 2",
        what: "x is in S from the start and joins 1 with x; the second round changes nothing, as under rule 1",
        words: JUDGED,
        kind: PAIR,
        streams: [
            "01 01 | 08 02 | 02 01 0⁷ 01 00 00 00 | 03 | 04 0⁸ 01 00 | 04 02 0⁷ FF FF | 05 00 0⁸ | 05 00 01 0⁷ | 05 01 0⁸ | 06",
            "10 00 02 00 FF FF FF FF 01 00 | 11 00 01 00 | 12 00 01 00 | 12 01 01 00 | 11 01 01 00 | 12 00 01 00 | 13",
            "10 01 02 00 01 00 00 00 01 00 | 11 00 01 00 | 12 00 01 00 | 12 01 FF FF | 11 01 01 00 | 12 00 01 00 | 13",
        ],
        line: "pair -1/1 1/1 gap 2/1 rounds 2 rule 2",
    },
];
