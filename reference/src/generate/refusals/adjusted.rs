//! Request 13: refusals of changes of the objective.

use super::equalities::equal_f;
use super::{bytes, case, case_f, Case};
use crate::generate::draft::{adjustment, monomial, power};
use crate::generate::samples;
use crate::records::ADJUSTED;
use crate::refusal::Refusal;

const CUT: &str = "Req 13: After the check, a last change cut short meets refusal 2";
const COUNT: &str = "Req 13: then more than 256 changes meet refusal 6 .. (256 at 6)";
const RULE: &str = "Req 13: then exponents against n or degree 32 meet 4, each with stream 2 and the first such change's index, from 0, as place";
const BOX: &str = "Req 13: 16 unless for every variable some inequality is exactly 1 − x_i²";
const UPPER: &str =
    "Req 13: 17 for an upper certificate; both last, in this order, with stream and place 0";

/// A problem in two variables with 1 - x1² alone, one with 2 - 2x², one with 1 - x² + x, and one with
/// 1 - x⁴; without an objective, so that bounds of 0 need no row.
const ONE_OF_TWO: &str = "01 02 | 03 | 04 0⁸ 01 00 | 04 02 0⁷ FF FF | 06";
const DOUBLED: &str = "01 01 | 03 | 04 0⁸ 02 00 | 04 02 0⁷ FE FF | 06";
const LONGER: &str = "01 01 | 03 | 04 0⁸ 01 00 | 04 02 0⁷ FF FF | 04 01 0⁷ 01 00 | 06";
const FOURTH: &str = "01 01 | 03 | 04 0⁸ 01 00 | 04 04 0⁷ FF FF | 06";
const OTHER_SIGN: &str = "01 01 | 03 | 04 0⁸ FF FF | 04 02 0⁷ 01 00 | 06";
const LOWER_ZERO: &str = "10 00 01 00 00 00 00 00 01 00 | 13";
const UPPER_ZERO: &str = "10 01 01 00 00 00 00 00 01 00 | 13";

pub fn cases() -> Vec<Case> {
    let [f, low, high] = case_f();
    let x = |exponent: u8| adjustment(power(1, exponent), 1);
    let second = adjustment(monomial(&[0, 1]), 1);
    let wrapped = adjustment(monomial(&[255, 1]), 1);
    let (a, a_low) = (samples::a().bytes(), samples::a_certificate(2));
    let b_low = samples::a_certificate(3);
    let [equal, on_equal, _] = equal_f();
    let none = Vec::new;
    let zero = |problem: &str, certificate: &str| (bytes(problem), bytes(certificate));
    let on_f = |changes: Vec<u8>| [f.clone(), low.clone(), changes];
    let plain = |(problem, certificate): (Vec<u8>, Vec<u8>)| [problem, certificate, Vec::new()];
    #[rustfmt::skip]
    let all = vec![
        met((2, 2, 0), "change cut", "eleven bytes of a change", CUT, on_f(x(1)[..11].to_vec())),
        met((2, 2, 0), "change of one byte", "one byte", CUT, on_f(vec![0])),
        met((2, 2, 1), "second change cut", "a change, and one byte", CUT, on_f([x(1), vec![0]].concat())),
        met((2, 2, 1), "2 before 4, change", "a change of x2 in one variable, and a cut one", CUT, on_f([second.clone(), vec![0]].concat())),
        met((2, 2, 256), "change 257 cut", "256 changes, and a cut one", CUT, on_f([x(1).repeat(256), vec![0; 11]].concat())),
        met((2, 2, 300), "2 before 6, change", "300 changes, and a cut one", CUT, on_f([x(1).repeat(300), vec![0; 3]].concat())),
        met((6, 2, 256), "257 changes", "257 changes", COUNT, on_f(x(1).repeat(257))),
        met((6, 2, 256), "300 changes", "300 changes", COUNT, on_f(x(1).repeat(300))),
        met((6, 2, 256), "6 before 4, change", "257 changes, the first of degree 33", COUNT, on_f([x(33), x(1).repeat(256)].concat())),
        met((4, 2, 0), "change above n", "a change of x2 in one variable", RULE, on_f(second.clone())),
        met((4, 2, 0), "change of degree 33", "a change of x^33", RULE, on_f(x(33))),
        met((4, 2, 0), "change above n with d = 0", "a change of x2 by 0", RULE, on_f(adjustment(monomial(&[0, 1]), 0))),
        met((4, 2, 1), "second change of degree 33", "a change of x^32, one of x^33 and one of x2", RULE, on_f([x(32), x(33), second.clone()].concat())),
        met((4, 2, 0), "change of degree 256", "x1^255 x2 in two variables", RULE, [bytes(ONE_OF_TWO), bytes(LOWER_ZERO), wrapped]),
        met((4, 2, 0), "4 before 16", "case A, which has no box, and a change of x^33", RULE, [a.clone(), a_low.clone(), x(33)]),
        met((9, 1, 0), "9 before 2, change", "case B, and a cut change", CUT, [a.clone(), b_low, vec![0]]),
        met((2, 1, 0), "2 of the certificate", "case F without a certificate, and a cut change", CUT, [f.clone(), none(), vec![0]]),
        met((2, 0, 0), "2 of the problem", "no problem", CUT, [none(), low.clone(), none()]),
        met((16, 0, 0), "no constraint", "case A", BOX, [a, a_low, none()]),
        met((16, 0, 0), "an equality", "case F with the equality 1 - x² = 0", BOX, [equal, on_equal, none()]),
        met((16, 0, 0), "one of two variables", "1 - x1² alone, in two variables", BOX, plain(zero(ONE_OF_TWO, LOWER_ZERO))),
        met((16, 0, 0), "doubled", "2 - 2x²", BOX, plain(zero(DOUBLED, LOWER_ZERO))),
        met((16, 0, 0), "three terms", "1 - x² + x", BOX, plain(zero(LONGER, LOWER_ZERO))),
        met((16, 0, 0), "1 - x⁴", "1 - x⁴", BOX, plain(zero(FOURTH, LOWER_ZERO))),
        met((16, 0, 0), "the other sign", "x² - 1", BOX, plain(zero(OTHER_SIGN, LOWER_ZERO))),
        met((16, 0, 0), "16 before 17", "2 - 2x², and an upper certificate", UPPER, plain(zero(DOUBLED, UPPER_ZERO))),
        met((17, 0, 0), "upper", "the upper certificate of case F", UPPER, [f.clone(), high.clone(), none()]),
        met((17, 0, 0), "upper, with a change", "the upper certificate of case F, and a change", UPPER, [f.clone(), high.clone(), x(1)]),
        met((4, 2, 0), "4 before 17", "the upper certificate of case F, and a change of x^33", RULE, [f, high, x(33)]),
    ];
    all
}

fn met(
    (number, stream, place): (u8, u8, usize),
    name: &'static str,
    what: &'static str,
    words: &'static str,
    runs: [Vec<u8>; 3],
) -> Case {
    Case {
        calls: &[ADJUSTED],
        ..case(Refusal::new(number, stream, place), name, what, words, runs)
    }
}
