//! Random problems within all limits.

use crate::generate::draft::{power, product, random_monomial, Draft};
use crate::generate::rng::Rng;
use crate::monomial::Monomial;

/// Up to `count` different random monomials.
pub fn monomials(rng: &mut Rng, count: usize, variables: usize, degree: usize) -> Vec<Monomial> {
    let mut all: Vec<Monomial> = Vec::new();
    for _ in 0..count {
        let monomial = random_monomial(rng, variables, degree);
        if !all.contains(&monomial) {
            all.push(monomial);
        }
    }
    all
}

/// All monomials of degree at most `degree` in the first `variables`, from low degrees on.
pub fn all_monomials(variables: usize, degree: usize) -> Vec<Monomial> {
    let mut all = vec![Monomial::ONE];
    let mut from = 0;
    for _ in 0..degree {
        let to = all.len();
        for place in from..to {
            for variable in 1..=variables {
                let next = product(all[place], power(variable, 1));
                if !all.contains(&next) {
                    all.push(next);
                }
            }
        }
        from = to;
    }
    all
}

fn objective(rng: &mut Rng, monomials: Vec<Monomial>, most: i32) -> Vec<(Monomial, i32)> {
    let term = |m| (m, rng.nonzero(most));
    monomials.into_iter().map(term).collect()
}

fn constraint(rng: &mut Rng, monomials: Vec<Monomial>, most: i32) -> Vec<(Monomial, i16)> {
    let term = |m| (m, rng.nonzero(most) as i16);
    monomials.into_iter().map(term).collect()
}

/// A problem as solvers pose them: a sparse objective in a box or a ball, and dense bases.
pub fn typical(rng: &mut Rng) -> Draft {
    let variables = rng.between(2, 5);
    let degree = if variables <= 3 { rng.between(1, 3) } else { 2 };
    let mut draft = Draft::new(variables, 0);
    let count = rng.between(2, 12);
    let terms = monomials(rng, count, variables, 2 * degree);
    draft.objective = objective(rng, terms, 100);
    draft.bases[0] = thinned(rng, all_monomials(variables, degree));
    let localizing = thinned(rng, all_monomials(variables, degree - 1));
    for terms in region(rng, variables) {
        draft.constrain(terms, localizing.clone());
    }
    draft
}

/// Leaves some members out, now and then.
fn thinned(rng: &mut Rng, mut monomials: Vec<Monomial>) -> Vec<Monomial> {
    if rng.once_in(2) {
        monomials.retain(|_| !rng.once_in(4));
    }
    if rng.once_in(3) {
        rng.shuffle(&mut monomials);
    }
    monomials
}

/// The constraints of a box, a ball, an ordering of the variables, or a few random ones.
fn region(rng: &mut Rng, variables: usize) -> Vec<Vec<(Monomial, i16)>> {
    let square = |i| (power(i, 2), -1);
    match rng.below(4) {
        0 => (1..=variables)
            .map(|i| vec![(Monomial::ONE, 1), square(i)])
            .collect(),
        1 => {
            let mut ball = vec![(Monomial::ONE, rng.between(1, 9) as i16)];
            ball.extend((1..=variables).map(square));
            vec![ball]
        }
        2 => (1..variables)
            .map(|i| vec![(power(i, 1), 1), (power(i + 1, 1), -1)])
            .collect(),
        _ => (0..rng.below(4))
            .map(|_| {
                let terms = monomials(rng, 4, variables, 2);
                constraint(rng, terms, 50)
            })
            .collect(),
    }
}

/// A small problem with few monomials to choose from, so that much meets.
pub fn crowded(rng: &mut Rng) -> Draft {
    let variables = rng.between(1, 3);
    let degree = if variables == 1 { 8 } else { rng.between(2, 5) };
    let mut draft = Draft::new(variables, 0);
    let count = rng.below(7);
    let terms = monomials(rng, count, variables, 2 * degree);
    draft.objective = objective(rng, terms, 1_000);
    let count = rng.below(8);
    draft.bases[0] = monomials(rng, count, variables, degree);
    for _ in 0..rng.below(5) {
        let (count, size) = (rng.below(4), rng.below(7));
        let most = rng.between(1, 6);
        let terms = monomials(rng, count, variables, most);
        let basis = monomials(rng, size, variables, degree);
        let terms = constraint(rng, terms, 100);
        draft.constrain(terms, basis);
    }
    draft
}

/// A wide problem: up to 8 variables, all degrees, any coefficients.
pub fn wide(rng: &mut Rng) -> Draft {
    let variables = rng.between(4, 8);
    let mut draft = Draft::new(variables, 0);
    let count = rng.below(10);
    let terms = monomials(rng, count, variables, 32);
    draft.objective = objective(rng, terms, i32::MAX);
    let count = rng.below(12);
    draft.bases[0] = monomials(rng, count, variables, 8);
    for _ in 0..rng.below(9) {
        let (count, size) = (rng.below(5), rng.below(6));
        let terms = monomials(rng, count, variables, 16);
        let basis = monomials(rng, size, variables, 8);
        let terms = constraint(rng, terms, i32::from(i16::MAX));
        draft.constrain(terms, basis);
    }
    draft
}

/// A problem that lacks something: terms, bases, constraints or all.
pub fn hollow(rng: &mut Rng) -> Draft {
    let mut draft = crowded(rng);
    match rng.below(5) {
        0 => draft.bases.iter_mut().for_each(Vec::clear),
        1 => draft.constraints.iter_mut().for_each(Vec::clear),
        2 => draft.objective.clear(),
        3 => draft.bases[0].clear(),
        _ => return Draft::new(rng.between(1, 8), rng.below(9)),
    }
    draft
}

/// A problem with all of the largest counts whose S stays within 2,048 members.
///
/// Bases and constraints live on a grid in four variables, so that sums meet often; with `even`
/// the constraints and the objective have even exponents, so that many pairs stay apart.
pub fn largest(rng: &mut Rng, even: bool) -> Draft {
    let mut draft = Draft::new(8, 0);
    let step = if even { 2 } else { 1 };
    let terms = grid([2 * step, 4 * step, 2 * step, 2 * step], step);
    let basis = grid([4, 4, 2, 2], 1);
    draft.bases[0] = shuffled(rng, &basis);
    for _ in 0..8 {
        let terms = shuffled(rng, &terms);
        let terms = constraint(rng, terms, i32::from(i16::MAX));
        draft.constrain(terms, shuffled(rng, &basis));
    }
    let inner = grid([4 * step, 6 * step, 2 * step, 2 * step], step);
    let mut support = shuffled(rng, &inner);
    while support.len() < 256 {
        let last = power(rng.between(5, 8), 2 * rng.between(1, 3) as u8);
        let monomial = product(last, *rng.pick(&inner));
        if !support.contains(&monomial) {
            support.push(monomial);
        }
    }
    draft.objective = objective(rng, support, i32::MAX);
    draft
}

fn shuffled(rng: &mut Rng, monomials: &[Monomial]) -> Vec<Monomial> {
    let mut all = monomials.to_vec();
    rng.shuffle(&mut all);
    all
}

/// The monomials whose first four exponents are below `bounds` and multiples of `step`.
pub fn grid(bounds: [u8; 4], step: u8) -> Vec<Monomial> {
    let mut all = vec![Monomial::ONE];
    for (place, &bound) in bounds.iter().enumerate() {
        let powers = (0..bound).step_by(usize::from(step));
        let powers: Vec<Monomial> = powers.map(|e| power(place + 1, e)).collect();
        let products = |&m: &Monomial| powers.iter().map(move |&p| product(m, p));
        all = all.iter().flat_map(products).collect();
    }
    all
}
