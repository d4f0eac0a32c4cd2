//! Problems whose last command breaks several rules, so that the order of the checks shows.

use crate::generate::draft::*;
use crate::generate::rng::Rng;
use crate::monomial::Monomial;

/// How many kinds of last command there are.
pub const KINDS: usize = 10;
/// The kind that needs a full objective, and so some thousand bytes.
pub const LONG: usize = 1;

/// A problem ended by a command of kind `number`, which may be cut, full, repeated and wrong.
///
/// The objective, the last constraint, basis 0 and the last basis hold x1³; for kinds 1, 3, 5, 6
/// and 7 the count of the last command is full.
pub fn broken(rng: &mut Rng, number: usize) -> Vec<u8> {
    let common = power(1, 3);
    let constraints = match number {
        2 if rng.once_in(3) => 0,
        7 => 8,
        _ => rng.between(1, 3) as u8,
    };
    let mut bytes = prefix(constraints, common);
    bytes.extend(filling(number, constraints));
    bytes.extend(last(rng, number, constraints, common));
    match rng.below(4) {
        0 => bytes.truncate(bytes.len() - rng.below(3)),
        1 => bytes.extend(problem_end()),
        2 => bytes.push(rng.byte()),
        _ => {}
    }
    bytes
}

/// A command of kind `number` with none, some or all of its rules broken.
fn last(rng: &mut Rng, number: usize, constraints: u8, common: Monomial) -> Vec<u8> {
    let (wrong, foreign) = (rng.once_in(3), rng.once_in(4));
    let monomial = if rng.once_in(2) { common } else { power(4, 5) };
    let monomial = if foreign {
        product(monomial, power(5, 1))
    } else {
        monomial
    };
    let coefficient = i16::from(!wrong);
    let beyond = if wrong { constraints + 1 } else { 0 };
    match number {
        0 | 1 => objective_term(monomial, i32::from(coefficient)),
        2 | 3 => constraint_term(monomial, coefficient),
        4 | 5 => basis_monomial(beyond, monomial),
        6 => basis_monomial(constraints, monomial),
        7 => constraint(),
        8 => variables(if wrong { 0 } else { 3 }),
        _ => vec![*rng.pick(&[0, 7, 16, 255])],
    }
}

fn prefix(constraints: u8, common: Monomial) -> Vec<u8> {
    let mut bytes = [variables(4), objective_term(common, 5)].concat();
    for _ in 0..constraints {
        bytes.extend(constraint());
        bytes.extend(constraint_term(common, -5));
    }
    bytes.extend(basis_monomial(0, common));
    if constraints > 0 {
        bytes.extend(basis_monomial(constraints, common));
    }
    bytes
}

/// Commands that fill the objective, the last constraint or a basis, which hold one already.
fn filling(number: usize, constraints: u8) -> Vec<u8> {
    let digits = |i: u16| [i % 3, (i / 3) % 3, (i / 9) % 3, i / 27].map(|digit| digit as u8);
    let fill = |count: u16| (1..count).map(move |i| monomial(&digits(i)));
    match number {
        LONG => fill(256).flat_map(|m| objective_term(m, 1)).collect(),
        3 => fill(32).flat_map(|m| constraint_term(m, 1)).collect(),
        5 => fill(64).flat_map(|m| basis_monomial(0, m)).collect(),
        6 => fill(64)
            .flat_map(|m| basis_monomial(constraints, m))
            .collect(),
        _ => Vec::new(),
    }
}
