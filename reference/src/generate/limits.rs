//! Problems at each limit, and one past it.

use crate::generate::draft::*;
use crate::generate::problems::monomials;
use crate::generate::rng::Rng;
use crate::monomial::Monomial;

/// How many limits there are.
pub const LIMITS: usize = 22;

/// A problem at limit `number`, or past it.
pub fn at(rng: &mut Rng, number: usize, past: bool) -> Vec<u8> {
    let more = usize::from(past);
    let one_more = u8::from(past);
    match number {
        0 => objective_terms(256 + more),
        1 => constraints(rng, 8 + more),
        2 => constraint_terms(rng, 32 + more),
        3 => basis_monomials(rng, 0, 64 + more),
        4 => basis_monomials(rng, 3, 64 + more),
        5 => single(objective_term(spread(rng, 32 + one_more), 1)),
        6 => single(constraint_term(spread(rng, 16 + one_more), 1)),
        7 => single(basis_monomial(1, spread(rng, 8 + one_more))),
        8 => variable_count(8 + one_more),
        9 => variable_count(1 - one_more),
        10 => foreign(objective_term(power(4 + more, 1), 1)),
        11 => foreign(constraint_term(power(4 + more, 1), 1)),
        12 => foreign(basis_monomial(1, power(4 + more, 1))),
        13 => single(objective_term(wrapped(rng, 32, past), 1)),
        14 => single(constraint_term(wrapped(rng, 16, past), 1)),
        15 => single(basis_monomial(0, wrapped(rng, 8, past))),
        16 => single(objective_term(Monomial::ONE, thin(rng, 31, past) as i32)),
        17 => single(constraint_term(Monomial::ONE, thin(rng, 15, past) as i16)),
        18 => single(objective_term(Monomial::ONE, least(past, i32::MIN))),
        19 => single(constraint_term(
            Monomial::ONE,
            least(past, i32::from(i16::MIN)) as i16,
        )),
        20 => single(basis_monomial(1 + one_more, power(1, 1))),
        _ => single(basis_monomial(if past { 255 } else { 0 }, power(8, 8))),
    }
}

/// Eight variables and one constraint, then one command.
fn single(command: Vec<u8>) -> Vec<u8> {
    [variables(8), constraint(), command, problem_end()].concat()
}

/// Four variables and one constraint, then one command.
fn foreign(command: Vec<u8>) -> Vec<u8> {
    [variables(4), constraint(), command, problem_end()].concat()
}

fn variable_count(count: u8) -> Vec<u8> {
    let term = objective_term(power(1, 2), 1);
    [variables(count), term, problem_end()].concat()
}

/// A monomial of this degree.
fn spread(rng: &mut Rng, degree: u8) -> Monomial {
    let mut all = [0; 8];
    for _ in 0..degree {
        all[rng.below(8)] += 1;
    }
    Monomial(all)
}

/// A monomial of degree 256 or more, whose degree modulo 256 is small; or just the degree.
fn wrapped(rng: &mut Rng, degree: u8, past: bool) -> Monomial {
    if !past {
        return power(rng.between(1, 8), degree);
    }
    let low = rng.between(1, 7);
    let (high, rest) = (power(low, 255), 1 + rng.below(usize::from(degree)) as u8);
    product(high, power(low + 1, rest))
}

/// A coefficient with a single one bit, or 0.
fn thin(rng: &mut Rng, bits: usize, past: bool) -> i64 {
    if past {
        0
    } else {
        1 << rng.below(bits)
    }
}

fn least(past: bool, least: i32) -> i32 {
    if past {
        0
    } else {
        least
    }
}

/// Different monomials x1^i x2^k.
fn plane(count: usize, width: usize) -> impl Iterator<Item = Monomial> {
    (0..count).map(move |i| monomial(&[(i % width) as u8, (i / width) as u8]))
}

fn objective_terms(count: usize) -> Vec<u8> {
    let terms = plane(count, 17).map(|m| objective_term(m, -7));
    let terms: Vec<u8> = terms.flatten().collect();
    [variables(2), terms, problem_end()].concat()
}

fn constraints(rng: &mut Rng, count: usize) -> Vec<u8> {
    let mut all = variables(3);
    for number in 1..=count {
        all.extend(constraint());
        for m in monomials(rng, 2, 3, 4) {
            all.extend(constraint_term(m, 5));
        }
        for m in monomials(rng, 3, 3, 3) {
            all.extend(basis_monomial(number as u8, m));
        }
    }
    all.extend(problem_end());
    all
}

fn constraint_terms(rng: &mut Rng, count: usize) -> Vec<u8> {
    let terms = plane(count, 6).map(|m| constraint_term(m, -1));
    let terms: Vec<u8> = terms.flatten().collect();
    let basis = monomials(rng, 4, 3, 3).into_iter();
    let basis: Vec<u8> = basis.flat_map(|m| basis_monomial(1, m)).collect();
    [variables(3), constraint(), terms, basis, problem_end()].concat()
}

fn basis_monomials(rng: &mut Rng, basis: u8, count: usize) -> Vec<u8> {
    let mut all = variables(4);
    for _ in 0..3 {
        all.extend(constraint());
        all.extend(constraint_term(power(rng.between(1, 4), 1), 1));
    }
    for i in 0..count as u8 {
        let m = monomial(&[i % 3, (i / 3) % 3, (i / 9) % 3, i / 27]);
        all.extend(basis_monomial(basis, m));
    }
    all.extend(problem_end());
    all
}
