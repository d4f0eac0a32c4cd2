//! Request 09: refusals of the sparse order's command and at an order, and what is accepted beside them.

use super::{bytes, case, case_f, written, Accepted, Case, Line};
use crate::generate::draft::order;
use crate::generate::support::late;
use crate::records::{BLOCKS, CHECK, PAIR};
use crate::refusal::{Refusal, FIRST, PROBLEM, SECOND};

const DIRECTLY: &str = "Req 09: stands directly after 01 or 08";
const VALUE: &str = "Req 09: k(u8), from 1 to 255";
const RULE_DIRECTLY: &str = "Req 08: stands directly after 01 and only there";
const ENDS: &str = "Req 09: ends the rounds after k, if they haven't ended sooner";
const USED: &str = "Req 09: the blocks reported and used are those after the last round";
const LIMIT: &str = "Req 09: The limit counts the S reached, with zero and its in-block products.";
const DONE: &str = "Req 09: Reported rounds are those done, so also at most k.";
const LARGER: &str =
    "Req 09: A certificate accepted at k is accepted at every larger k and at full closure";

#[rustfmt::skip]
const LINES: &[Line] = &[
    (2, 2, "09 cut", "09 without its operand", DIRECTLY, "01 01 | 09"),
    (2, 4, "09 cut after 08", "08, and 09 without its operand", DIRECTLY, "01 01 | 08 02 | 09"),
    (2, 4, "no end after 09", "09, and no end", DIRECTLY, "01 01 | 09 01"),
    (2, 6, "no end after 08 and 09", "08 and 09, and no end", DIRECTLY, "01 01 | 08 02 | 09 01"),
    (2, 3, "on after 06, 09", "09 after 06, which is no command there", DIRECTLY, "01 01 | 06 | 09 01"),
    (3, 0, "09 first", "09 as the first command", DIRECTLY, "09 01 | 06"),
    (3, 0, "09 before 01", "09, and 01 after it", DIRECTLY, "09 01 | 01 01 | 06"),
    (3, 15, "09 after 02", "09 after an objective term", DIRECTLY, "01 01 | 02 0⁸ 01 00 00 00 | 09 01 | 06"),
    (3, 3, "09 after 03", "09 after a constraint is begun", DIRECTLY, "01 01 | 03 | 09 02 | 06"),
    (3, 4, "09 after 03 and 03", "09 at offset 4, after two constraints are begun", DIRECTLY, "01 01 | 03 | 03 | 09 02 | 06"),
    (3, 14, "09 after 04", "09 after a constraint term", DIRECTLY, "01 01 | 03 | 04 0⁸ 01 00 | 09 02 | 06"),
    (3, 12, "09 after 05", "09 after a basis monomial", DIRECTLY, "01 01 | 05 00 0⁸ | 09 02 | 06"),
    (3, 3, "09 after 07", "09 after an equality is begun", DIRECTLY, "01 01 | 07 | 09 02 | 06"),
    (3, 5, "09 after 08 and 03", "09 after 08 and a constraint that is begun", DIRECTLY, "01 01 | 08 01 | 03 | 09 02 | 06"),
    (3, 4, "09 twice", "09 again", DIRECTLY, "01 01 | 09 02 | 09 02 | 06"),
    (3, 6, "09 twice after 08", "08, and 09 again", DIRECTLY, "01 01 | 08 02 | 09 02 | 09 02 | 06"),
    (3, 4, "08 after 09", "08 after 09", RULE_DIRECTLY, "01 01 | 09 02 | 08 02 | 06"),
    (3, 3, "3 before 2, 09", "a cut 09 after a constraint is begun", DIRECTLY, "01 01 | 03 | 09"),
    (3, 3, "3 before 4, 09", "09 with the value 0 after a constraint is begun", DIRECTLY, "01 01 | 03 | 09 00 | 06"),
    (4, 2, "order 0", "the order 0", VALUE, "01 01 | 09 00 | 06"),
    (4, 4, "order 0 after 08", "the order 0 after 08", VALUE, "01 01 | 08 02 | 09 00 | 06"),
];

/// x⁶ + 1 where −x ≥ 0, on the bases 1, x³ and x: (1 + x³)² + 2 (−x) x², by a row on 1 and x³. Round 1
/// adds x³ to S, round 2 joins 1 with x³, and round 3 changes nothing.
const ACROSS: [&str; 4] = [
    "01 01 | 02 0⁸ 01 00 00 00 | 02 06 0⁷ 01 00 00 00 | 03 | 04 01 0⁷ FF FF \
    | 05 00 0⁸ | 05 00 03 0⁷ | 05 01 01 0⁷ | 06",
    "01 01 | 09 01 | 02 0⁸ 01 00 00 00 | 02 06 0⁷ 01 00 00 00 | 03 | 04 01 0⁷ FF FF \
    | 05 00 0⁸ | 05 00 03 0⁷ | 05 01 01 0⁷ | 06",
    "01 01 | 09 02 | 02 0⁸ 01 00 00 00 | 02 06 0⁷ 01 00 00 00 | 03 | 04 01 0⁷ FF FF \
    | 05 00 0⁸ | 05 00 03 0⁷ | 05 01 01 0⁷ | 06",
    "01 01 | 09 FF | 02 0⁸ 01 00 00 00 | 02 06 0⁷ 01 00 00 00 | 03 | 04 01 0⁷ FF FF \
    | 05 00 0⁸ | 05 00 03 0⁷ | 05 01 01 0⁷ | 06",
];
const ON_ACROSS: &str =
    "10 00 01 00 00 00 00 00 01 00 | 11 00 01 00 | 12 00 01 00 | 12 01 01 00 | 11 01 02 00 | 12 00 01 00 | 13";
/// x⁶ + 1 = 1² + (x³)².
const WITHIN: &str =
    "10 00 01 00 00 00 00 00 01 00 | 11 00 01 00 | 12 00 01 00 | 11 00 01 00 | 12 01 01 00 | 13";

pub fn cases() -> Vec<Case> {
    let mut all: Vec<Case> = Vec::new();
    all.extend(LINES.iter().map(|line| written(line, PROBLEM, case_f())));
    all.push(large_support());
    for stream in [FIRST, SECOND] {
        let split: Line = (
            8,
            18,
            "order 1",
            "a row on 1 and x³, which are one block after round 2 and not before",
            USED,
            ON_ACROSS,
        );
        all.push(written(
            &split,
            stream,
            [ACROSS[1], WITHIN, WITHIN].map(bytes),
        ));
    }
    all
}

/// 2,048 members after round 1, and one more after round 2, at the order 2.
fn large_support() -> Case {
    let mut commands = late(2_042).commands();
    commands.insert(1, order(2));
    let mut runs = case_f();
    runs[0] = commands.concat();
    let expected = Refusal::new(7, PROBLEM, 0);
    let what = "a member more than 2,048 with zero, which round 2 adds, at the order 2";
    case(expected, "2,049 after round 2", what, LIMIT, runs)
}

/// What stands beside them, with the lines found by hand.
#[rustfmt::skip]
pub const ACCEPTED: &[Accepted] = &[
    Accepted {
        name: "09 alone",
        what: "no more than the order; a round that changes nothing",
        words: DONE,
        kind: BLOCKS,
        streams: ["01 01 | 09 FF | 06", "", ""],
        line: "blocks 0 rounds 1 rule 1 ",
    },
    Accepted {
        name: "08 and 09",
        what: "no more than rule and order",
        words: DIRECTLY,
        kind: BLOCKS,
        streams: ["01 01 | 08 02 | 09 01 | 06", "", ""],
        line: "blocks 0 rounds 1 rule 2 ",
    },
    Accepted {
        name: "case E at 1",
        what: "x³ enters S in the first round, as x × x × x of basis 1, and has joined nothing yet: finer blocks than the closure's",
        words: USED,
        kind: BLOCKS,
        streams: ["01 01 | 09 01 | 02 06 0⁷ 01 00 00 00 | 03 | 04 01 0⁷ 01 00 | 05 00 0⁸ | 05 00 03 0⁷ | 05 01 01 0⁷ | 06", "", ""],
        line: "blocks 3 rounds 1 rule 1 0001ffffffffffffffffffffffffffffffffffffffffffffffffffffffffffffffffffffffffffffffffffffffffffffffffffffffffffffffffffffffffffff00",
    },
    Accepted {
        name: "case E at 2",
        what: "one below the full number: x³ joins 1 with x³ in the second round, and the third would change nothing",
        words: USED,
        kind: BLOCKS,
        streams: ["01 01 | 09 02 | 02 06 0⁷ 01 00 00 00 | 03 | 04 01 0⁷ 01 00 | 05 00 0⁸ | 05 00 03 0⁷ | 05 01 01 0⁷ | 06", "", ""],
        line: "blocks 2 rounds 2 rule 1 0000ffffffffffffffffffffffffffffffffffffffffffffffffffffffffffffffffffffffffffffffffffffffffffffffffffffffffffffffffffffffffffff00",
    },
    Accepted {
        name: "case E at 3",
        what: "the full number",
        words: ENDS,
        kind: BLOCKS,
        streams: ["01 01 | 09 03 | 02 06 0⁷ 01 00 00 00 | 03 | 04 01 0⁷ 01 00 | 05 00 0⁸ | 05 00 03 0⁷ | 05 01 01 0⁷ | 06", "", ""],
        line: "blocks 2 rounds 3 rule 1 0000ffffffffffffffffffffffffffffffffffffffffffffffffffffffffffffffffffffffffffffffffffffffffffffffffffffffffffffffffffffffffffff00",
    },
    Accepted {
        name: "case E at 4",
        what: "one above the full number",
        words: DONE,
        kind: BLOCKS,
        streams: ["01 01 | 09 04 | 02 06 0⁷ 01 00 00 00 | 03 | 04 01 0⁷ 01 00 | 05 00 0⁸ | 05 00 03 0⁷ | 05 01 01 0⁷ | 06", "", ""],
        line: "blocks 2 rounds 3 rule 1 0000ffffffffffffffffffffffffffffffffffffffffffffffffffffffffffffffffffffffffffffffffffffffffffffffffffffffffffffffffffffffffffff00",
    },
    Accepted {
        name: "case E at 255",
        what: "the largest order",
        words: DONE,
        kind: BLOCKS,
        streams: ["01 01 | 09 FF | 02 06 0⁷ 01 00 00 00 | 03 | 04 01 0⁷ 01 00 | 05 00 0⁸ | 05 00 03 0⁷ | 05 01 01 0⁷ | 06", "", ""],
        line: "blocks 2 rounds 3 rule 1 0000ffffffffffffffffffffffffffffffffffffffffffffffffffffffffffffffffffffffffffffffffffffffffffffffffffffffffffffffffffffffffffff00",
    },
    Accepted {
        name: "case E at 1, rule 1",
        what: "the same as at 1 without 08",
        words: DIRECTLY,
        kind: BLOCKS,
        streams: ["01 01 | 08 01 | 09 01 | 02 06 0⁷ 01 00 00 00 | 03 | 04 01 0⁷ 01 00 | 05 00 0⁸ | 05 00 03 0⁷ | 05 01 01 0⁷ | 06", "", ""],
        line: "blocks 3 rounds 1 rule 1 0001ffffffffffffffffffffffffffffffffffffffffffffffffffffffffffffffffffffffffffffffffffffffffffffffffffffffffffffffffffffffffffff00",
    },
    Accepted {
        name: "case E at 1, rule 2",
        what: "the first round changes nothing, so there is no other",
        words: ENDS,
        kind: BLOCKS,
        streams: ["01 01 | 08 02 | 09 01 | 02 06 0⁷ 01 00 00 00 | 03 | 04 01 0⁷ 01 00 | 05 00 0⁸ | 05 00 03 0⁷ | 05 01 01 0⁷ | 06", "", ""],
        line: "blocks 3 rounds 1 rule 2 0001ffffffffffffffffffffffffffffffffffffffffffffffffffffffffffffffffffffffffffffffffffffffffffffffffffffffffffffffffffffffffffff00",
    },
    Accepted {
        name: "case E at 2, rule 2",
        what: "the same",
        words: DONE,
        kind: BLOCKS,
        streams: ["01 01 | 08 02 | 09 02 | 02 06 0⁷ 01 00 00 00 | 03 | 04 01 0⁷ 01 00 | 05 00 0⁸ | 05 00 03 0⁷ | 05 01 01 0⁷ | 06", "", ""],
        line: "blocks 3 rounds 1 rule 2 0001ffffffffffffffffffffffffffffffffffffffffffffffffffffffffffffffffffffffffffffffffffffffffffffffffffffffffffffffffffffffffffff00",
    },
    Accepted {
        name: "a row on 1 and x³ at 2",
        what: "x⁶ + 1 = (1 + x³)² + 2 (−x) x²; at 1 it is refused by 8",
        words: USED,
        kind: CHECK,
        streams: [ACROSS[2], ON_ACROSS, ""],
        line: "check 0 0/1 rounds 2 rule 1",
    },
    Accepted {
        name: "a row on 1 and x³ at 255",
        what: "the same",
        words: LARGER,
        kind: CHECK,
        streams: [ACROSS[3], ON_ACROSS, ""],
        line: "check 0 0/1 rounds 3 rule 1",
    },
    Accepted {
        name: "a row on 1 and x³ without 09",
        what: "the same",
        words: LARGER,
        kind: CHECK,
        streams: [ACROSS[0], ON_ACROSS, ""],
        line: "check 0 0/1 rounds 3 rule 1",
    },
    Accepted {
        name: "rows on 1 and on x³ at 1",
        what: "x⁶ + 1 = 1² + (x³)²",
        words: USED,
        kind: CHECK,
        streams: [ACROSS[1], WITHIN, ""],
        line: "check 0 0/1 rounds 1 rule 1",
    },
    Accepted {
        name: "case F at 1",
        what: "x is in S from the start and joins 1 with x; the second round would change nothing",
        words: DONE,
        kind: PAIR,
        streams: [
            "01 01 | 09 01 | 02 01 0⁷ 01 00 00 00 | 03 | 04 0⁸ 01 00 | 04 02 0⁷ FF FF | 05 00 0⁸ | 05 00 01 0⁷ | 05 01 0⁸ | 06",
            "10 00 02 00 FF FF FF FF 01 00 | 11 00 01 00 | 12 00 01 00 | 12 01 01 00 | 11 01 01 00 | 12 00 01 00 | 13",
            "10 01 02 00 01 00 00 00 01 00 | 11 00 01 00 | 12 00 01 00 | 12 01 FF FF | 11 01 01 00 | 12 00 01 00 | 13",
        ],
        line: "pair -1/1 1/1 gap 2/1 rounds 1 rule 1",
    },
];
