//! Request 02: refusals of the call on two certificates for one problem, where these are not one
//! certificate twice.

use super::{bytes, case, case_f, Case};
use crate::generate::samples;
use crate::records::TIGHTER;
use crate::refusal::Refusal;

const DIFFER: &str =
    "Req 02: 11 when both are accepted and their sides differ, last in order, stream 2 and place 0";
const NEITHER: &str = "Req 02: If neither is, the first one's refusal comes";

/// A problem without a term: constraint 1 is zero, and basis 1 has 1 and x. A row over both is in two
/// blocks.
const ZERO: &str = "01 01 | 03 | 05 01 0⁸ | 05 01 01 0⁷ | 06";
const SPLIT: &str = "10 01 01 00 00 00 00 00 01 00 | 11 01 01 00 | 12 00 01 00 | 12 01 01 00 | 13";
/// A bound with side 2, which is no side, and a command that is none.
const NO_SIDE: &str = "10 02 01 00 00 00 00 00 01 00 | 13";
const UNKNOWN: &str = "FF";

pub fn cases() -> Vec<Case> {
    let [f, low, high] = case_f();
    let none = Vec::new;
    let (a, b) = (samples::a().bytes(), samples::a_certificate(3));
    let [zero, split, no_side, unknown] = [ZERO, SPLIT, NO_SIDE, UNKNOWN].map(bytes);
    #[rustfmt::skip]
    let all = vec![
        met((11, 2, 0), "lower and upper", "both certificates of case F", DIFFER, [f.clone(), low.clone(), high.clone()]),
        met((11, 2, 0), "upper and lower", "both certificates of case F, exchanged", DIFFER, [f.clone(), high, low]),
        met((4, 1, 0), "4 and 3", "side 2, and a second certificate with an unknown command", NEITHER, [f.clone(), no_side.clone(), unknown.clone()]),
        met((3, 1, 0), "3 and 4", "an unknown command, and a second certificate with side 2", NEITHER, [f, unknown, no_side]),
        met((8, 1, 18), "8 and 2", "a row over two blocks, and an empty second certificate", NEITHER, [zero.clone(), split.clone(), none()]),
        met((2, 1, 0), "2 and 8", "an empty certificate, and a second one with a row over two blocks", NEITHER, [zero, none(), split]),
        met((9, 1, 0), "9 and 2", "case B, and an empty second certificate", NEITHER, [a.clone(), b.clone(), none()]),
        met((2, 1, 0), "2 and 9", "an empty certificate, and case B as the second one", NEITHER, [a, none(), b]),
    ];
    all
}

/// The other calls do not meet it, or answer otherwise.
fn met(
    (number, stream, place): (u8, u8, usize),
    name: &'static str,
    what: &'static str,
    words: &'static str,
    runs: [Vec<u8>; 3],
) -> Case {
    Case {
        calls: &[TIGHTER],
        ..case(Refusal::new(number, stream, place), name, what, words, runs)
    }
}
