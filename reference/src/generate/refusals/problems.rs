//! Refusals of the problem: 2 to 7.

use super::{case, case_f, written, Case, Line, NEVER, ONLY, THREE, TWO};
use crate::generate::draft::*;
use crate::generate::rng::Rng;
use crate::generate::samples;
use crate::generate::support::like_h;
use crate::refusal::{Refusal, PROBLEM};

const ORDER: &str = "each checked 3, 2, 4, 5, 6";
const TERM_BEFORE: &str = "Req 04: 04, which from now on needs a 03 or 07 before it";
const VARIABLES: &str = "number of variables, 1 to 8";
const OBJECTIVE: &str = "objective term, total degree at most 32, at most 256";
const CONSTRAINT: &str = "begins the next constraint, at most 8";
const TERM: &str = "term of the constraint begun last, degree at most 16, at most 32 each";
const MEMBER: &str = "next monomial of basis j, degree at most 8, at most 64 each";
const BEGUN: &str = "j is 0 or a constraint already begun";
const ABOVE: &str = "Exponents of variables above n are 0.";
const TWICE: &str = "A polynomial or a basis has no monomial twice.";
const SEVEN: &str = "The closed S with the zero exponent added may have at most 2,048 members.";

#[rustfmt::skip]
const LINES: &[Line] = &[
    (2, 0, "empty", "no byte (case G)", TWO, ""),
    (2, 0, "01 cut", "01 without its operand", TWO, "01"),
    (2, 2, "02 cut", "an objective term without its last byte", TWO, "01 01 | 02 01 0⁷ 01 00 00"),
    (2, 3, "04 cut", "a constraint term without its last byte", TWO, "01 01 | 03 | 04 0⁸ 01"),
    (2, 2, "05 cut", "a basis monomial without its last byte", TWO, "01 01 | 05 00 0⁷"),
    (2, 2, "no end", "no command after 01", TWO, "01 01"),
    (2, 3, "no end after 03", "a constraint begun, and no end", TWO, "01 01 | 03"),
    (2, 3, "on after 06", "a second 06", TWO, "01 01 | 06 | 06"),
    (2, 3, "on after 06, 01", "a whole 01 after 06, which is no command there", TWO, "01 01 | 06 | 01 01"),
    (2, 3, "on after 06, 07", "07 after 06, which is no command there", TWO, "01 01 | 06 | 07"),
    (2, 2, "2 before 4", "a cut 05 with a j that is not begun", ORDER, "01 01 | 05 09"),
    (2, 15, "2 before 5", "a cut objective term whose monomial is there", ORDER, "01 01 | 02 0⁸ 01 00 00 00 | 02 0⁸ 01 00 00"),
    (3, 0, "07 first", "07, which may not stand first", ONLY, "07"),
    (3, 2, "unknown later", "00, which is no command, after 01", THREE, "01 01 | 00 | 06"),
    (3, 2, "unknown, 255", "FF as the last byte", THREE, "01 01 | FF"),
    (3, 2, "of a certificate", "10, a command of certificates", THREE, "01 01 | 10 00 01 00 00 00 00 00 01 00 | 06"),
    (3, 0, "02 first", "02 as the first command", ONLY, "02 0⁸ 01 00 00 00 | 06"),
    (3, 0, "03 first", "03 as the first command", ONLY, "03 | 06"),
    (3, 0, "04 first", "04 as the first command", ONLY, "04 0⁸ 01 00 | 06"),
    (3, 0, "05 first", "05 as the first command", ONLY, "05 00 0⁸ | 06"),
    (3, 0, "06 first", "06 as the first command", ONLY, "06"),
    (3, 2, "second 01", "01 again", ONLY, "01 01 | 01 01 | 06"),
    (3, 2, "04 before 03", "a constraint term before any condition", TERM_BEFORE, "01 01 | 04 0⁸ 01 00 | 06"),
    (3, 2, "3 before 2, 01", "a second 01 that is cut", ORDER, "01 01 | 01"),
    (3, 2, "3 before 2, 04", "a cut 04 before any 03", ORDER, "01 01 | 04"),
    (3, 2, "3 before 4", "a second 01 with 0 variables", ORDER, "01 01 | 01 00"),
    (4, 0, "n is 0", "no variables", VARIABLES, "01 00"),
    (4, 0, "n is 9", "nine variables", VARIABLES, "01 09 | 06"),
    (4, 0, "n is 255", "255 variables", VARIABLES, "01 FF | 06"),
    (4, 2, "02 of degree 33", "x^33 in the objective", OBJECTIVE, "01 01 | 02 21 0⁷ 01 00 00 00 | 06"),
    (4, 2, "02 of total degree 33", "x1^32 x2 in the objective", OBJECTIVE, "01 02 | 02 20 01 00 00 00 00 00 00 01 00 00 00 | 06"),
    (4, 2, "02 of degree 256", "x1^255 x2 in the objective: degrees are not taken modulo 256", OBJECTIVE, "01 02 | 02 FF 01 00 00 00 00 00 00 01 00 00 00 | 06"),
    (4, 2, "02 above n", "x2 in the objective of one variable", ABOVE, "01 01 | 02 00 01 00 00 00 00 00 00 01 00 00 00 | 06"),
    (4, 2, "02 with 0", "an objective term with coefficient 0", NEVER, "01 01 | 02 01 0⁷ 00 00 00 00 | 06"),
    (4, 3, "04 of degree 17", "x^17 in a constraint", TERM, "01 01 | 03 | 04 11 0⁷ 01 00 | 06"),
    (4, 3, "04 of total degree 17", "x1^16 x2 in a constraint", TERM, "01 02 | 03 | 04 10 01 00 00 00 00 00 00 01 00 | 06"),
    (4, 3, "04 of degree 256", "x1^255 x2 in a constraint", TERM, "01 02 | 03 | 04 FF 01 00 00 00 00 00 00 01 00 | 06"),
    (4, 3, "04 above n", "x8 in a constraint of seven variables", ABOVE, "01 07 | 03 | 04 0⁷ 01 01 00 | 06"),
    (4, 3, "04 with 0", "a constraint term with coefficient 0", NEVER, "01 01 | 03 | 04 0⁸ 00 00 | 06"),
    (4, 2, "05 of degree 9", "x^9 in basis 0", MEMBER, "01 01 | 05 00 09 0⁷ | 06"),
    (4, 2, "05 of total degree 9", "x1^8 x2 in basis 0", MEMBER, "01 02 | 05 00 08 01 00 00 00 00 00 00 | 06"),
    (4, 2, "05 of degree 256", "x1^255 x2 in basis 0", MEMBER, "01 02 | 05 00 FF 01 00 00 00 00 00 00 | 06"),
    (4, 2, "05 above n", "x2 in basis 0 of one variable", ABOVE, "01 01 | 05 00 00 01 00 00 00 00 00 00 | 06"),
    (4, 2, "05 without a constraint", "a monomial of basis 1 where no constraint is begun", BEGUN, "01 01 | 05 01 0⁸ | 06"),
    (4, 2, "05 before its constraint", "a monomial of basis 1 before its constraint is begun", BEGUN, "01 01 | 05 01 0⁸ | 03 | 06"),
    (4, 3, "05 past the constraints", "a monomial of basis 2 after one constraint", BEGUN, "01 01 | 03 | 05 02 0⁸ | 06"),
    (4, 3, "05 with 255", "a monomial of basis 255", BEGUN, "01 01 | 03 | 05 FF 0⁸ | 06"),
    (4, 15, "4 before 5, 02", "an objective term whose monomial is there, with coefficient 0", ORDER, "01 01 | 02 0⁸ 01 00 00 00 | 02 0⁸ 00 00 00 00 | 06"),
    (4, 14, "4 before 5, 04", "a constraint term whose monomial is there, with coefficient 0", ORDER, "01 01 | 03 | 04 0⁸ 01 00 | 04 0⁸ 00 00 | 06"),
    (5, 15, "02 twice", "the objective's monomial 1 again, with another coefficient", TWICE, "01 01 | 02 0⁸ 01 00 00 00 | 02 0⁸ 02 00 00 00 | 06"),
    (5, 14, "04 twice", "a constraint's monomial 1 again", TWICE, "01 01 | 03 | 04 0⁸ 01 00 | 04 0⁸ 01 00 | 06"),
    (5, 24, "04 twice, 05 between", "the same with a basis monomial between", TWICE, "01 01 | 03 | 04 0⁸ 01 00 | 05 00 0⁸ | 04 0⁸ 01 00 | 06"),
    (5, 12, "05 twice in basis 0", "monomial 1 twice in basis 0", TWICE, "01 01 | 05 00 0⁸ | 05 00 0⁸ | 06"),
    (5, 13, "05 twice in basis 1", "monomial 1 twice in basis 1", TWICE, "01 01 | 03 | 05 01 0⁸ | 05 01 0⁸ | 06"),
    (6, 10, "constraint 9", "the ninth constraint", CONSTRAINT, "01 01 | 03 | 03 | 03 | 03 | 03 | 03 | 03 | 03 | 03 | 06"),
];

/// The refusals 2 to 7 of the problem; the certificates beside it are those of case F.
pub fn cases() -> Vec<Case> {
    let short = LINES.iter().map(|line| written(line, PROBLEM, case_f()));
    let mut all: Vec<Case> = short.collect();
    all.extend(full_objective());
    all.extend(full_constraint());
    all.extend([0, 1, 8].into_iter().flat_map(full_basis));
    all.extend(large_support());
    all
}

/// A case with these commands as the problem.
fn made(
    (number, place): (u8, usize),
    name: &'static str,
    what: &'static str,
    words: &'static str,
    commands: &[Vec<u8>],
) -> Case {
    let mut runs = case_f();
    runs[0] = commands.concat();
    case(
        Refusal::new(number, PROBLEM, place),
        name,
        what,
        words,
        runs,
    )
}

/// After 01, two bytes, and 256 objective terms of 13 bytes each, x1^i x2^k with i below 16.
fn full_objective() -> Vec<Case> {
    let plane = |i: usize| monomial(&[(i % 16) as u8, (i / 16) as u8]);
    let mut full = vec![variables(2)];
    full.extend((0..256).map(|i| objective_term(plane(i), 1)));
    let place = 2 + 256 * 13;
    let with = |last: Vec<u8>| [full.clone(), vec![last, problem_end()]].concat();
    let cut = [full.clone(), vec![vec![0x02, 0]]].concat();
    let fresh = power(1, 16);
    vec![
        made(
            (6, place),
            "objective term 257",
            "257 objective terms",
            OBJECTIVE,
            &with(objective_term(fresh, 1)),
        ),
        made(
            (5, place),
            "5 before 6, 02",
            "257 objective terms, the last repeated",
            ORDER,
            &with(objective_term(plane(0), 1)),
        ),
        made(
            (4, place),
            "4 before 6, 02",
            "257 objective terms, the last with coefficient 0",
            ORDER,
            &with(objective_term(fresh, 0)),
        ),
        made(
            (2, place),
            "2 before 6",
            "256 objective terms and a cut one",
            ORDER,
            &cut,
        ),
    ]
}

/// After 01 and 03, three bytes, and 32 terms of 11 bytes each, x1^i x2^k with i below 8.
fn full_constraint() -> Vec<Case> {
    let plane = |i: usize| monomial(&[(i % 8) as u8, (i / 8) as u8]);
    let mut full = vec![variables(2), constraint()];
    full.extend((0..32).map(|i| constraint_term(plane(i), 1)));
    let place = 3 + 32 * 11;
    let with = |last: Vec<u8>| [full.clone(), vec![last, problem_end()]].concat();
    let fresh = power(1, 8);
    vec![
        made(
            (6, place),
            "constraint term 33",
            "33 terms of a constraint",
            TERM,
            &with(constraint_term(fresh, 1)),
        ),
        made(
            (5, place),
            "5 before 6, 04",
            "33 terms of a constraint, the last repeated",
            ORDER,
            &with(constraint_term(plane(0), 1)),
        ),
        made(
            (4, place),
            "4 before 6, 04",
            "33 terms of a constraint, the last with coefficient 0",
            ORDER,
            &with(constraint_term(fresh, 0)),
        ),
    ]
}

/// After 01, two bytes, and j commands 03, 64 monomials of 10 bytes each: the subsets of x1..x6.
fn full_basis(j: u8) -> Vec<Case> {
    let mut full = vec![variables(8)];
    full.extend((0..j).map(|_| constraint()));
    full.extend(samples::subsets().into_iter().map(|m| basis_monomial(j, m)));
    let place = 2 + usize::from(j) + 64 * 10;
    let with = |m| [full.clone(), vec![basis_monomial(j, m), problem_end()]].concat();
    let (fresh, high) = (power(8, 1), power(8, 9));
    let [name, what] = match j {
        0 => ["monomial 65 of basis 0", "65 monomials of basis 0"],
        1 => ["monomial 65 of basis 1", "65 monomials of basis 1"],
        _ => ["monomial 65 of basis 8", "65 monomials of basis 8"],
    };
    let mut all = vec![made((6, place), name, what, MEMBER, &with(fresh))];
    if j == 1 {
        all.push(made(
            (5, place),
            "5 before 6, 05",
            "65 monomials of basis 1, the last repeated",
            ORDER,
            &with(power(1, 1)),
        ));
        all.push(made(
            (4, place),
            "4 before 6, 05",
            "65 monomials of basis 1, the last of degree 9",
            ORDER,
            &with(high),
        ));
    }
    all
}

/// Problems that close to more than 2,048 members.
fn large_support() -> Vec<Case> {
    let h = samples::h_with_objective().commands();
    // Nothing joins: S is 2,048 sums t + 2b and objective terms, and zero is none of them.
    let zero = like_h(&mut Rng::new(7), SUPPORT_MEMBERS, false).commands();
    vec![
        made(
            (7, 0),
            "2,049 members",
            "case H with the objective term x1",
            SEVEN,
            &h,
        ),
        made(
            (7, 0),
            "2,048 members and zero",
            "S of 2,048 members without zero",
            SEVEN,
            &zero,
        ),
    ]
}
