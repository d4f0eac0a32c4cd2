//! Request 12: refusals of two problems with a pair for each, and what stands beside them and is
//! accepted.

use super::{bytes, case_f, Case};
use crate::generate::refusals::equalities::equal_f;
use crate::records::{Record, SUM};
use crate::refusal::Refusal;

const ORDER: &str =
    "Req 12: Refusals of the first problem's pair come before the second's, whose streams are 3 to 5.";
const REGION: &str = "Req 12: 15 when the numbers of variables or of conditions differ, or two conditions of one number differ in kind (03 or 07) or, term by term as sent, in terms; after both pairs, with stream and place 0";
const SUMS: &str = "Req 12: the sum of the lower bounds and of the upper bounds, each over the product of the denominators, unreduced";
const RULES: &str = "Req 12: the rule used by each problem";
const SENT: &str = "Req 12: term by term as sent";

/// Case F, with its certificates.
const F: [&str; 3] = [
    "01 01 | 02 01 0⁷ 01 00 00 00 | 03 | 04 0⁸ 01 00 | 04 02 0⁷ FF FF | 05 00 0⁸ | 05 00 01 0⁷ | 05 01 0⁸ | 06",
    "10 00 02 00 FF FF FF FF 01 00 | 11 00 01 00 | 12 00 01 00 | 12 01 01 00 | 11 01 01 00 | 12 00 01 00 | 13",
    "10 01 02 00 01 00 00 00 01 00 | 11 00 01 00 | 12 00 01 00 | 12 01 FF FF | 11 01 01 00 | 12 00 01 00 | 13",
];
/// Case F in two variables, with a second constraint, with the constraint's terms exchanged, and under
/// both rules; its certificates stay.
const TWO_VARIABLES: &str = "01 02 | 02 01 0⁷ 01 00 00 00 | 03 | 04 0⁸ 01 00 | 04 02 0⁷ FF FF | 05 00 0⁸ | 05 00 01 0⁷ | 05 01 0⁸ | 06";
const TWO_CONDITIONS: &str = "01 01 | 02 01 0⁷ 01 00 00 00 | 03 | 04 0⁸ 01 00 | 04 02 0⁷ FF FF | 05 00 0⁸ | 05 00 01 0⁷ | 05 01 0⁸ | 03 | 06";
const EXCHANGED: &str = "01 01 | 02 01 0⁷ 01 00 00 00 | 03 | 04 02 0⁷ FF FF | 04 0⁸ 01 00 | 05 00 0⁸ | 05 00 01 0⁷ | 05 01 0⁸ | 06";
const RULE_1: &str = "01 01 | 08 01 | 02 01 0⁷ 01 00 00 00 | 03 | 04 0⁸ 01 00 | 04 02 0⁷ FF FF | 05 00 0⁸ | 05 00 01 0⁷ | 05 01 0⁸ | 06";
const RULE_2: &str = "01 01 | 08 02 | 02 01 0⁷ 01 00 00 00 | 03 | 04 0⁸ 01 00 | 04 02 0⁷ FF FF | 05 00 0⁸ | 05 00 01 0⁷ | 05 01 0⁸ | 06";
/// The same commands in another order, with the constraint's terms as they were.
const MIXED: &str = "01 01 | 03 | 05 01 0⁸ | 04 0⁸ 01 00 | 05 00 0⁸ | 02 01 0⁷ 01 00 00 00 | 04 02 0⁷ FF FF | 05 00 01 0⁷ | 06";
/// The constraint 2 - 2x²: 4 (x + 1) = 2 (1 + x)² + (2 - 2x²), and 4 (1 - x) = 2 (1 - x)² + (2 - 2x²).
const DOUBLED: [&str; 3] = [
    "01 01 | 02 01 0⁷ 01 00 00 00 | 03 | 04 0⁸ 02 00 | 04 02 0⁷ FE FF | 05 00 0⁸ | 05 00 01 0⁷ | 05 01 0⁸ | 06",
    "10 00 04 00 FF FF FF FF 01 00 | 11 00 02 00 | 12 00 01 00 | 12 01 01 00 | 11 01 01 00 | 12 00 01 00 | 13",
    "10 01 04 00 01 00 00 00 01 00 | 11 00 02 00 | 12 00 01 00 | 12 01 FF FF | 11 01 01 00 | 12 00 01 00 | 13",
];
/// The objective 2x on the region of case F: 2x + 2 = (1 + x)² + (1 - x²), and 2 - 2x likewise.
const TWO_X: [&str; 3] = [
    "01 01 | 02 01 0⁷ 02 00 00 00 | 03 | 04 0⁸ 01 00 | 04 02 0⁷ FF FF | 05 00 0⁸ | 05 00 01 0⁷ | 05 01 0⁸ | 06",
    "10 00 01 00 FE FF FF FF 01 00 | 11 00 01 00 | 12 00 01 00 | 12 01 01 00 | 11 01 01 00 | 12 00 01 00 | 13",
    "10 01 01 00 02 00 00 00 01 00 | 11 00 01 00 | 12 00 01 00 | 12 01 FF FF | 11 01 01 00 | 12 00 01 00 | 13",
];
/// The lower bound -1 of case F as -2/2: 1 x (2x + 2) = (1 + x)² + (1 - x²).
const AS_HALVES: &str = "10 00 01 00 FE FF FF FF 02 00 | 11 00 01 00 | 12 00 01 00 | 12 01 01 00 | 11 01 01 00 | 12 00 01 00 | 13";
/// No objective: both bounds are 0, whatever the conditions are.
const ZERO: [&str; 2] = [
    "10 00 01 00 00 00 00 00 01 00 | 13",
    "10 01 01 00 00 00 00 00 01 00 | 13",
];
const FREE_F: [&str; 3] = [
    "01 01 | 03 | 04 0⁸ 01 00 | 04 02 0⁷ FF FF | 06",
    ZERO[0],
    ZERO[1],
];
/// No objective and no condition, on the basis 1: -2^31 = -(2 x 32,768²), and 2^31 - 1 = 7 x 16,384² +
/// 16,383² + 32,766; over 65,535 and over 65,534.
const FAR: [&str; 3] = [
    "01 01 | 05 00 0⁸ | 06",
    "10 00 01 00 00 00 00 80 FF FF | 11 00 02 00 | 12 00 00 80 | 13",
    "10 01 01 00 FF FF FF 7F FF FF | 11 00 07 00 | 12 00 00 40 | 11 00 01 00 | 12 00 FF 3F | 11 00 FE 7F | 12 00 01 00 | 13",
];
const FAR_OTHER: [&str; 3] = [
    "01 01 | 05 00 0⁸ | 06",
    "10 00 01 00 00 00 00 80 FE FF | 11 00 02 00 | 12 00 00 80 | 13",
    "10 01 01 00 FF FF FF 7F FE FF | 11 00 07 00 | 12 00 00 40 | 11 00 01 00 | 12 00 FF 3F | 11 00 FE 7F | 12 00 01 00 | 13",
];
/// The objective 0 where x ≥ 0 and -x - 1 ≥ 0, which no point meets: 0 is at least 1 and at most -1;
/// and at least -1 and at most 1.
const CROSSED: [&str; 3] = [
    "01 01 | 03 | 04 01 0⁷ 01 00 | 03 | 04 01 0⁷ FF FF | 04 0⁸ FF FF | 05 00 0⁸ | 05 01 0⁸ | 05 02 0⁸ | 06",
    "10 00 01 00 01 00 00 00 01 00 | 11 01 01 00 | 12 00 01 00 | 11 02 01 00 | 12 00 01 00 | 13",
    "10 01 01 00 FF FF FF FF 01 00 | 11 01 01 00 | 12 00 01 00 | 11 02 01 00 | 12 00 01 00 | 13",
];
const UNCROSSED: [&str; 3] = [
    CROSSED[0],
    "10 00 01 00 FF FF FF FF 01 00 | 11 00 01 00 | 12 00 01 00 | 13",
    "10 01 01 00 01 00 00 00 01 00 | 11 00 01 00 | 12 00 01 00 | 13",
];

/// Two problems that are accepted: the name, what they have, the words, the streams of each, and the
/// line.
pub type Added = (
    &'static str,
    &'static str,
    &'static str,
    [&'static str; 3],
    [&'static str; 3],
    &'static str,
);

#[rustfmt::skip]
pub const ADDED: &[Added] = &[
    ("case F twice", "−1 and −1, 1 and 1", SUMS, F, F, "sum -2/1 2/1 rules 1 1"),
    ("another objective", "case F, and the objective 2x: −1 and −2, 1 and 2", SUMS, F, TWO_X, "sum -3/1 3/1 rules 1 1"),
    ("no objective, no bases", "case F, and its constraint alone: −1 and 0, 1 and 0", SUMS, F, FREE_F, "sum -1/1 1/1 rules 1 1"),
    ("another denominator", "−1/1 and −2/2: (−1 × 2 + −2 × 1)/(1 × 2)", SUMS, F, [F[0], AS_HALVES, F[2]], "sum -4/2 2/1 rules 1 1"),
    ("the other first", "−2/2 and −1/1", SUMS, [F[0], AS_HALVES, F[2]], F, "sum -4/2 2/1 rules 1 1"),
    ("the largest denominators", "−2^31 × 65,535 twice over 65,535², and (2^31 − 1) × 65,535 twice", SUMS, FAR, FAR, "sum -281470681743360/4294836225 281470681612290/4294836225 rules 1 1"),
    ("65,535 and 65,534", "−2^31 × 131,069 over 65,535 × 65,534, and (2^31 − 1) × 131,069", SUMS, FAR, FAR_OTHER, "sum -281468534259712/4294770690 281468534128643/4294770690 rules 1 1"),
    ("a region with no points", "1 and 1, −1 and −1: bounds that cross", SUMS, CROSSED, CROSSED, "sum 2/1 -2/1 rules 1 1"),
    ("sums of 0", "1 and −1, −1 and 1", SUMS, CROSSED, UNCROSSED, "sum 0/1 0/1 rules 1 1"),
    ("rules 1 and 2", "case F, and the same under rule 2", RULES, F, [RULE_2, F[1], F[2]], "sum -2/1 2/1 rules 1 2"),
    ("rules 2 and 1", "case F under rule 2, and under rule 1 by its name", RULES, [RULE_2, F[1], F[2]], [RULE_1, F[1], F[2]], "sum -2/1 2/1 rules 2 1"),
    ("rule 2 twice", "case F under rule 2, twice", RULES, [RULE_2, F[1], F[2]], [RULE_2, F[1], F[2]], "sum -2/1 2/1 rules 2 2"),
    ("commands in another order", "case F, and the same with other commands between the constraint's terms", SENT, F, [MIXED, F[1], F[2]], "sum -2/1 2/1 rules 1 1"),
];

/// The record of two problems that are accepted.
pub fn record(&(_, _, _, first, second, _): &Added) -> Record {
    Record::sum(first.map(bytes), second.map(bytes))
}

/// Conditions of two problems in one variable without an objective, and in what they differ.
#[rustfmt::skip]
const DIFFERENT: &[(&str, &str, &str, &str)] = &[
    ("none and one", "no condition, and an empty constraint", "", "03"),
    ("one and two", "one empty constraint, and two", "03", "03 | 03"),
    ("kind, empty", "an empty constraint, and an empty equality", "03", "07"),
    ("kind, second", "two constraints, and a constraint and an equality", "03 | 04 0⁸ 01 00 | 03 | 04 01 0⁷ 01 00", "03 | 04 0⁸ 01 00 | 07 | 04 01 0⁷ 01 00"),
    ("order of conditions", "1 and x, and x and 1", "03 | 04 0⁸ 01 00 | 03 | 04 01 0⁷ 01 00", "03 | 04 01 0⁷ 01 00 | 03 | 04 0⁸ 01 00"),
    ("order of kinds", "a constraint and an equality, exchanged", "03 | 07", "07 | 03"),
    ("one term more", "1, and 1 + x", "03 | 04 0⁸ 01 00", "03 | 04 0⁸ 01 00 | 04 01 0⁷ 01 00"),
    ("one term less", "1 + x, and 1", "03 | 04 0⁸ 01 00 | 04 01 0⁷ 01 00", "03 | 04 0⁸ 01 00"),
    ("no term", "1, and nothing", "03 | 04 0⁸ 01 00", "03"),
    ("another condition's term", "x in the first, and in the second", "03 | 04 01 0⁷ 01 00 | 03", "03 | 03 | 04 01 0⁷ 01 00"),
    ("monomial", "x, and x²", "03 | 04 01 0⁷ 01 00", "03 | 04 02 0⁷ 01 00"),
    ("sign", "x, and −x", "03 | 04 01 0⁷ 01 00", "03 | 04 01 0⁷ FF FF"),
    ("last term", "1 + x + x², and 1 + x − x²", "03 | 04 0⁸ 01 00 | 04 01 0⁷ 01 00 | 04 02 0⁷ 01 00", "03 | 04 0⁸ 01 00 | 04 01 0⁷ 01 00 | 04 02 0⁷ FF FF"),
    ("last condition", "eight constraints 1, and the last −1", "03 | 04 0⁸ 01 00 | 03 | 04 0⁸ 01 00 | 03 | 04 0⁸ 01 00 | 03 | 04 0⁸ 01 00 | 03 | 04 0⁸ 01 00 | 03 | 04 0⁸ 01 00 | 03 | 04 0⁸ 01 00 | 03 | 04 0⁸ 01 00", "03 | 04 0⁸ 01 00 | 03 | 04 0⁸ 01 00 | 03 | 04 0⁸ 01 00 | 03 | 04 0⁸ 01 00 | 03 | 04 0⁸ 01 00 | 03 | 04 0⁸ 01 00 | 03 | 04 0⁸ 01 00 | 03 | 04 0⁸ FF FF"),
];

pub fn cases() -> Vec<Case> {
    let f = case_f();
    let [problem, low, high] = case_f();
    let with = |text: &str| [bytes(text), low.clone(), high.clone()];
    let equal = equal_f();
    let doubled = DOUBLED.map(bytes);
    let none = || [Vec::new(), Vec::new(), Vec::new()];
    let exchanged = [problem.clone(), high.clone(), low.clone()];
    let twice = [problem.clone(), low.clone(), low.clone()];
    let without = |stream: usize| {
        let mut runs = case_f();
        runs[stream] = Vec::new();
        runs
    };
    #[rustfmt::skip]
    let mut all = vec![
        met((2, 0), "two pairs, all empty", "six empty streams", ORDER, none(), none()),
        met((2, 3), "second problem empty", "case F, and an empty second problem", ORDER, f.clone(), none()),
        met((2, 4), "second lower empty", "case F twice, the second without its lower certificate", ORDER, f.clone(), without(1)),
        met((2, 5), "second upper empty", "case F twice, the second without its upper certificate", ORDER, f.clone(), without(2)),
        met((10, 1), "10 before the second", "case F with its certificates exchanged, and an empty second problem", ORDER, exchanged.clone(), none()),
        met((10, 4), "second exchanged", "case F twice, the second with its certificates exchanged", ORDER, f.clone(), exchanged.clone()),
        met((10, 5), "second twice lower", "case F twice, the second with two lower certificates", ORDER, f.clone(), twice),
        met((10, 4), "10 before 15", "case F, and one in two variables with its certificates exchanged", ORDER, f.clone(), [bytes(TWO_VARIABLES), high.clone(), low.clone()]),
        met((15, 0), "variables", "case F, and the same in two variables", REGION, f.clone(), with(TWO_VARIABLES)),
        met((15, 0), "variables, no conditions", "no command but 01 and 06, in one variable and in eight", REGION, free("01 01 | 06"), free("01 08 | 06")),
        met((15, 0), "conditions", "case F, and the same with an empty second constraint", REGION, f.clone(), with(TWO_CONDITIONS)),
        met((15, 0), "kind", "case F, and the same with an equality", REGION, f.clone(), equal.clone()),
        met((15, 0), "kind, exchanged", "case F with an equality, and case F", REGION, equal, f.clone()),
        met((15, 0), "order of terms", "case F, and the same with the constraint's terms exchanged", REGION, f.clone(), with(EXCHANGED)),
        met((15, 0), "coefficients", "case F, and the same with the constraint doubled", REGION, f, doubled),
    ];
    all.extend(DIFFERENT.iter().map(|&(name, what, first, second)| {
        let [one, other] = [first, second].map(|text| free(&format!("01 01 | {text} | 06")));
        met((15, 0), name, what, REGION, one, other)
    }));
    all
}

/// A problem without an objective, and its bounds 0.
fn free(problem: &str) -> [Vec<u8>; 3] {
    [problem, ZERO[0], ZERO[1]].map(bytes)
}

/// No other call meets it.
fn met(
    (number, stream): (u8, u8),
    name: &'static str,
    what: &'static str,
    words: &'static str,
    first: [Vec<u8>; 3],
    second: [Vec<u8>; 3],
) -> Case {
    Case {
        name,
        what,
        words,
        text: None,
        runs: [first, second].concat(),
        calls: &[SUM],
        expected: Refusal::new(number, stream, 0),
    }
}
