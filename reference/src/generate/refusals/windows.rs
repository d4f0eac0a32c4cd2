//! Refusal 14: lists of arrivals at the window of gaps, each with the line that request 11 gives,
//! found by hand. A refusal stands in the line as its number, and the outcomes after it tell that the
//! state is unchanged.

use crate::records::Record;

const NUMERATOR: &str = "Req 11: 14 exactly for a numerator below 0 or from 2^48";
const DENOMINATOR: &str = "Req 11: 14 exactly for .. a denominator of 0 or from 2^32";
const UNCHANGED: &str = "Req 11: the state is unchanged";
const AGE: &str = "Req 11: its age (accepted arrivals since it)";

/// The name, what arrives, the words of request 11, the arrivals, and the line.
pub type Arrivals = (
    &'static str,
    &'static str,
    &'static str,
    &'static [(i64, u64)],
    &'static str,
);

/// 9, thirty times 1, −1, and 1 twice.
const LATE: [(i64, u64); 34] = {
    let mut all = [(1, 1); 34];
    all[0] = (9, 1);
    all[31] = (-1, 1);
    all
};

#[rustfmt::skip]
pub const CASES: &[Arrivals] = &[
    ("numerator −1", "the first numerator below 0", NUMERATOR, &[(-1, 1)], "window 14"),
    ("least numerator", "−2^63", NUMERATOR, &[(i64::MIN, 1)], "window 14"),
    ("0 and −1", "the last numerator that is allowed, and the next", NUMERATOR, &[(0, 1), (-1, 1)], "window 0/1 0; 14"),
    ("numerator 2^48", "the first numerator that is too large", NUMERATOR, &[(1 << 48, 1)], "window 14"),
    ("largest numerator", "2^63 − 1", NUMERATOR, &[(i64::MAX, 1)], "window 14"),
    ("2^48 − 1 and 2^48", "the last numerator that is allowed, and the next", NUMERATOR, &[((1 << 48) - 1, 1), (1 << 48, 1)], "window 281474976710655/1 0; 14"),
    ("denominator 0", "1 over 0", DENOMINATOR, &[(1, 0)], "window 14"),
    ("0 over 0", "what a refusal has in the place of a gap", DENOMINATOR, &[(0, 0)], "window 14"),
    ("1 and 0", "the last denominator that is allowed, and the next", DENOMINATOR, &[(1, 1), (1, 0)], "window 1/1 0; 14"),
    ("denominator 2^32", "the first denominator that is too large", DENOMINATOR, &[(1, 1 << 32)], "window 14"),
    ("largest denominator", "2^64 − 1", DENOMINATOR, &[(1, u64::MAX)], "window 14"),
    ("2^32 − 1 and 2^32", "the last denominator that is allowed, and the next", DENOMINATOR, &[(1, (1 << 32) - 1), (1, 1 << 32)], "window 1/4294967295 0; 14"),
    ("both too small", "−1 over 0", NUMERATOR, &[(-1, 0)], "window 14"),
    ("both too large", "2^48 over 2^32, which is less than gaps that are allowed", NUMERATOR, &[(1 << 48, 1 << 32)], "window 14"),
    ("refused from the start", "three refused ones, and one that is not", UNCHANGED, &[(0, 0), (-5, 1), (1, 1 << 32), (1, 2)], "window 14; 14; 14; 1/2 0"),
    ("wider and refused", "one that would be the widest, between two that are allowed", UNCHANGED, &[(3, 1), (1 << 48, 1), (2, 1)], "window 3/1 0; 14; 3/1 1"),
    ("many refused", "three refused ones, which do not age the widest", AGE, &[(3, 1), (-1, 1), (1, 0), (1, 1 << 32), (2, 1)], "window 3/1 0; 14; 14; 14; 3/1 1"),
    ("32 with one refused", "9, thirty times 1, −1, and 1 twice: −1 pushes nothing out, and the last 1 pushes 9 out", UNCHANGED, &LATE,
     "window 9/1 0; 9/1 1; 9/1 2; 9/1 3; 9/1 4; 9/1 5; 9/1 6; 9/1 7; 9/1 8; 9/1 9; 9/1 10; 9/1 11; 9/1 12; 9/1 13; 9/1 14; 9/1 15; \
      9/1 16; 9/1 17; 9/1 18; 9/1 19; 9/1 20; 9/1 21; 9/1 22; 9/1 23; 9/1 24; 9/1 25; 9/1 26; 9/1 27; 9/1 28; 9/1 29; 9/1 30; 14; \
      9/1 31; 1/1 0"),
];

/// The records of these cases.
pub fn records() -> Vec<Record> {
    let cases = CASES.iter();
    cases
        .map(|(.., arrivals, _)| Record::window(arrivals))
        .collect()
}

#[cfg(test)]
mod tests {
    use super::*;
    use crate::plain::line;
    use std::collections::BTreeSet;

    #[test]
    fn the_reference_gives_what_is_written_down() {
        for (name, _, _, arrivals, expected) in CASES {
            assert_eq!(line(&Record::window(arrivals)), *expected, "{name}");
        }
    }

    #[test]
    fn names_tell_the_cases_apart() {
        let names: BTreeSet<&str> = CASES.iter().map(|(name, ..)| *name).collect();
        assert_eq!(names.len(), CASES.len());
    }
}
