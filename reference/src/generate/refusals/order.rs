//! Refusal 10, and which refusal comes first where several streams or rules are at fault.

use super::{bytes, case, case_f, Case};
use crate::generate::samples;
use crate::records::PAIR;
use crate::refusal::{Refusal, SIDES};

const TEN: &str = "in a pair, first side not 0 or second not 1";
const WRONG: &str = "the first wrong stream";
const ORDER: &str =
    "Order: 1; the problem by commands, ..; 7; the first certificate by commands likewise; \
     8 by rows; 9; the second certificate the same; 10.";

/// A problem without a term: constraint 1 is zero, and basis 1 has 1 and x.
const ZERO: &str = "01 01 | 03 | 05 01 0⁸ | 05 01 01 0⁷ | 06";
/// The upper bound 0 of a zero objective, without a row.
const UPPER_ZERO: &str = "10 01 01 00 00 00 00 00 01 00 | 13";
/// A row over both monomials of basis 1, which are two blocks.
const SPLIT: &str = "10 01 01 00 00 00 00 00 01 00 | 11 01 01 00 | 12 00 01 00 | 12 01 01 00 | 13";
/// The same, and then a row in which index 0 stands twice.
const SPLIT_AND_REPEATED: &str = "10 01 01 00 00 00 00 00 01 00 | 11 01 01 00 | 12 00 01 00 \
     | 12 01 01 00 | 11 01 01 00 | 12 00 01 00 | 12 00 01 00 | 13";
/// The split row with p = 1, so that the identity is false at key 0 too.
const SPLIT_AND_FALSE: &str =
    "10 01 01 00 01 00 00 00 01 00 | 11 01 01 00 | 12 00 01 00 | 12 01 01 00 | 13";
/// The upper certificate of case F with p = 0: −2x against 2 − 2x.
const FALSE_UPPER: &str = "10 01 02 00 00 00 00 00 01 00 | 11 00 01 00 | 12 00 01 00 \
     | 12 01 FF FF | 11 01 01 00 | 12 00 01 00 | 13";

/// The cases with more than one stream at fault, and refusal 10.
pub fn cases() -> Vec<Case> {
    let [f, low, high] = case_f();
    let none = Vec::new;
    let h = samples::h_with_objective().bytes();
    let (a, b) = (samples::a().bytes(), samples::a_certificate(3));
    let [zero, upper, split] = [ZERO, UPPER_ZERO, SPLIT].map(bytes);
    let [repeated, false_too] = [SPLIT_AND_REPEATED, SPLIT_AND_FALSE].map(bytes);
    let false_upper = bytes(FALSE_UPPER);
    #[rustfmt::skip]
    let all = vec![
        met((2, 0, 0), "all empty", "three empty streams", ORDER, [none(), none(), none()]),
        met((7, 0, 0), "7 before a certificate", "case H with x1, and empty certificates", ORDER, [h, none(), none()]),
        met((2, 1, 0), "both certificates empty", "case F with two empty certificates", ORDER, [f.clone(), none(), none()]),
        met((5, 1, 30), "5 before 8", "a row over two blocks, and a later row that repeats an index", ORDER, [zero.clone(), repeated.clone(), none()]),
        met((5, 2, 30), "5 before 8", "the same in the second certificate", ORDER, [zero.clone(), upper.clone(), repeated]),
        met((8, 1, 18), "8 before 9", "a row over two blocks, and p = 1 for a zero objective", ORDER, [zero.clone(), false_too.clone(), none()]),
        met((8, 2, 18), "8 before 9", "the same in the second certificate", ORDER, [zero.clone(), upper.clone(), false_too]),
        met((8, 1, 18), "8 before the second", "a row over two blocks, and an empty second certificate", ORDER, [zero.clone(), split.clone(), none()]),
        met((9, 1, 0), "9 before the second", "case B, and an empty second certificate", ORDER, [a, b, none()]),
        met((2, 2, 0), "2 before 10", "the upper certificate of case F first, and an empty second one", ORDER, [f.clone(), high.clone(), none()]),
        met((8, 2, 18), "8 before 10", "an upper certificate first, and a second one with a row over two blocks", ORDER, [zero, upper, split]),
        met((9, 2, 0), "9 before 10", "the upper certificate of case F first, and a second one that is false", ORDER, [f.clone(), high.clone(), false_upper]),
        met((10, 1, 0), "two upper ones", "the upper certificate of case F twice", TEN, [f.clone(), high.clone(), high.clone()]),
        met((10, 2, 0), "two lower ones", "the lower certificate of case F twice", TEN, [f.clone(), low.clone(), low.clone()]),
        met((10, 1, 0), "exchanged", "the certificates of case F exchanged", WRONG, [f, high, low]),
    ];
    all
}

/// Refusal 10 is the pair's alone.
fn met(
    (number, stream, place): (u8, u8, usize),
    name: &'static str,
    what: &'static str,
    words: &'static str,
    runs: [Vec<u8>; 3],
) -> Case {
    let mut made = case(Refusal::new(number, stream, place), name, what, words, runs);
    if number == SIDES {
        made.calls = &[PAIR];
    }
    made
}
