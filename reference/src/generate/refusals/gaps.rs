//! Request 06: pairs on regions with no points, with the lines found by hand. Nothing is refused; the
//! gap is empty where the bounds cross, and stays a gap where they do not.

use super::Accepted;
use crate::records::PAIR;

const MARKED: &str = "Req 06: The pair now marks a negative gap";
const BELOW: &str = "Req 06: the gap comes out below zero, which is no distance";
const POINTS: &str = "Req 06: no rational point meets all the conditions";

/// The objective 0 where x ≥ 0 and −x − 1 ≥ 0, whose sum is −1; every basis is 1. S is 1 and x from
/// the start, so that one round changes nothing.
const CROSSED: &str = "01 01 | 03 | 04 01 0⁷ 01 00 | 03 | 04 01 0⁷ FF FF | 04 0⁸ FF FF \
    | 05 00 0⁸ | 05 01 0⁸ | 05 02 0⁸ | 06";
/// The objective 0 where x = 0 and x − 1 = 0.
const EQUAL: &str = "01 01 | 07 | 04 01 0⁷ 01 00 | 07 | 04 01 0⁷ 01 00 | 04 0⁸ FF FF \
    | 05 01 0⁸ | 05 02 0⁸ | 06";
/// The objective 0 where x = 0 and x − 1 ≥ 0.
const MIXED: &str = "01 01 | 07 | 04 01 0⁷ 01 00 | 03 | 04 01 0⁷ 01 00 | 04 0⁸ FF FF \
    | 05 01 0⁸ | 05 02 0⁸ | 06";
/// The objective 0 where x² + 1 = 0; basis 0 is x.
const ROOTLESS: &str = "01 01 | 07 | 04 0⁸ 01 00 | 04 02 0⁷ 01 00 | 05 00 01 0⁷ | 05 01 0⁸ | 06";

#[rustfmt::skip]
pub const ACCEPTED: &[Accepted] = &[
    Accepted {
        name: "bounds that cross",
        what: "−1 = x + (−x − 1): 0 is at least 1, and at most −1",
        words: BELOW,
        kind: PAIR,
        streams: [
            CROSSED,
            "10 00 01 00 01 00 00 00 01 00 | 11 01 01 00 | 12 00 01 00 | 11 02 01 00 | 12 00 01 00 | 13",
            "10 01 01 00 FF FF FF FF 01 00 | 11 01 01 00 | 12 00 01 00 | 11 02 01 00 | 12 00 01 00 | 13",
        ],
        line: "pair 1/1 -1/1 gap empty rounds 1 rule 1",
    },
    Accepted {
        name: "a gap of 0",
        what: "0 = 0 twice: a gap of 0 is a gap, whether or not a point is allowed",
        words: MARKED,
        kind: PAIR,
        streams: [
            CROSSED,
            "10 00 01 00 00 00 00 00 01 00 | 13",
            "10 01 01 00 00 00 00 00 01 00 | 13",
        ],
        line: "pair 0/1 0/1 gap 0/1 rounds 1 rule 1",
    },
    Accepted {
        name: "a gap of 0 that is not reduced",
        what: "1/2 and 2/4: −1 by the conditions, and 2 by basis 0; 2 × 2 − 1 × 4 = 0",
        words: MARKED,
        kind: PAIR,
        streams: [
            CROSSED,
            "10 00 01 00 01 00 00 00 02 00 | 11 01 01 00 | 12 00 01 00 | 11 02 01 00 | 12 00 01 00 | 13",
            "10 01 01 00 02 00 00 00 04 00 | 11 00 02 00 | 12 00 01 00 | 13",
        ],
        line: "pair 1/2 2/4 gap 0/8 rounds 1 rule 1",
    },
    Accepted {
        name: "just below 0, both bounds above it",
        what: "1/2 and 1/3: 1 × 2 − 1 × 3 = −1",
        words: MARKED,
        kind: PAIR,
        streams: [
            CROSSED,
            "10 00 01 00 01 00 00 00 02 00 | 11 01 01 00 | 12 00 01 00 | 11 02 01 00 | 12 00 01 00 | 13",
            "10 01 01 00 01 00 00 00 03 00 | 11 00 01 00 | 12 00 01 00 | 13",
        ],
        line: "pair 1/2 1/3 gap empty rounds 1 rule 1",
    },
    Accepted {
        name: "just below 0, both bounds below it",
        what: "−1/3 and −1/2: (−1) × 3 − (−1) × 2 = −1",
        words: MARKED,
        kind: PAIR,
        streams: [
            CROSSED,
            "10 00 01 00 FF FF FF FF 03 00 | 11 00 01 00 | 12 00 01 00 | 13",
            "10 01 01 00 FF FF FF FF 02 00 | 11 01 01 00 | 12 00 01 00 | 11 02 01 00 | 12 00 01 00 | 13",
        ],
        line: "pair -1/3 -1/2 gap empty rounds 1 rule 1",
    },
    Accepted {
        name: "no point, and a gap above 0",
        what: "1 = 1 by basis 0, twice: no point is allowed here either, and nothing tells so",
        words: MARKED,
        kind: PAIR,
        streams: [
            CROSSED,
            "10 00 01 00 FF FF FF FF 01 00 | 11 00 01 00 | 12 00 01 00 | 13",
            "10 01 01 00 01 00 00 00 01 00 | 11 00 01 00 | 12 00 01 00 | 13",
        ],
        line: "pair -1/1 1/1 gap 2/1 rounds 1 rule 1",
    },
    Accepted {
        name: "the largest lower bound",
        what: "2^31 − 1 = 2 × 32,767² + 65,535 + 65,534 and 2^31 = 2 × 32,768²: a numerator of about −2^47",
        words: MARKED,
        kind: PAIR,
        streams: [
            CROSSED,
            "10 00 01 00 FF FF FF 7F 01 00 | 11 01 02 00 | 12 00 FF 7F | 11 01 FF FF | 12 00 01 00 | 11 01 FE FF | 12 00 01 00 \
             | 11 02 02 00 | 12 00 FF 7F | 11 02 FF FF | 12 00 01 00 | 11 02 FE FF | 12 00 01 00 | 13",
            "10 01 01 00 00 00 00 80 FF FF | 11 01 02 00 | 12 00 00 80 | 11 02 02 00 | 12 00 00 80 | 13",
        ],
        line: "pair 2147483647/1 -2147483648/65535 gap empty rounds 1 rule 1",
    },
    Accepted {
        name: "a numerator of −2^32",
        what: "0/2 and −2^31/1, whose gap's numerator is 0 in its last 32 bits",
        words: MARKED,
        kind: PAIR,
        streams: [
            CROSSED,
            "10 00 01 00 00 00 00 00 02 00 | 13",
            "10 01 01 00 00 00 00 80 01 00 | 11 01 02 00 | 12 00 00 80 | 11 02 02 00 | 12 00 00 80 | 13",
        ],
        line: "pair 0/2 -2147483648/1 gap empty rounds 1 rule 1",
    },
    Accepted {
        name: "a numerator of 2^32",
        what: "−2^31/1 and 0/2: no point, and a gap",
        words: MARKED,
        kind: PAIR,
        streams: [
            CROSSED,
            "10 00 01 00 00 00 00 80 01 00 | 11 00 02 00 | 12 00 00 80 | 13",
            "10 01 01 00 00 00 00 00 02 00 | 13",
        ],
        line: "pair -2147483648/1 0/2 gap 4294967296/2 rounds 1 rule 1",
    },
    Accepted {
        name: "two equalities",
        what: "−1 = −1 × x + (x − 1) where both are 0",
        words: POINTS,
        kind: PAIR,
        streams: [
            EQUAL,
            "10 00 01 00 01 00 00 00 01 00 | 14 01 FF FF | 12 00 01 00 | 14 02 01 00 | 12 00 01 00 | 13",
            "10 01 01 00 FF FF FF FF 01 00 | 14 01 FF FF | 12 00 01 00 | 14 02 01 00 | 12 00 01 00 | 13",
        ],
        line: "pair 1/1 -1/1 gap empty rounds 1 rule 1",
    },
    Accepted {
        name: "an equality and an inequality",
        what: "the same where x is 0 and x − 1 at least 0, for the lower bound alone: 1 and 0",
        words: POINTS,
        kind: PAIR,
        streams: [
            MIXED,
            "10 00 01 00 01 00 00 00 01 00 | 14 01 FF FF | 12 00 01 00 | 11 02 01 00 | 12 00 01 00 | 13",
            "10 01 01 00 00 00 00 00 01 00 | 13",
        ],
        line: "pair 1/1 0/1 gap empty rounds 1 rule 1",
    },
    Accepted {
        name: "an equality without roots",
        what: "−1 = x² − (x² + 1)",
        words: POINTS,
        kind: PAIR,
        streams: [
            ROOTLESS,
            "10 00 01 00 01 00 00 00 01 00 | 11 00 01 00 | 12 00 01 00 | 14 01 FF FF | 12 00 01 00 | 13",
            "10 01 01 00 FF FF FF FF 01 00 | 11 00 01 00 | 12 00 01 00 | 14 01 FF FF | 12 00 01 00 | 13",
        ],
        line: "pair 1/1 -1/1 gap empty rounds 1 rule 1",
    },
];
