//! Problems with certificates that hold by construction.
//!
//! For polynomials h_s with constraints R_s - h_s², and a at least 1,
//! the sum over s of (h_s ± a)² + (R_s - h_s²) is ±2a x (sum of h_s) + sum of (a² + R_s).
//! So the sum of the h_s lies between -C/(2a) and C/(2a) with C the sum of a² + R_s.

use crate::generate::boxed::boxed;
use crate::generate::draft::{product, random_monomial, Draft, DraftCertificate, DraftRow};
use crate::generate::rng::Rng;
use crate::monomial::Monomial;

/// Most constraints that bound a polynomial; the rest is left for other use.
const BOUNDED: usize = 4;

/// A problem with a lower and an upper certificate.
#[derive(Clone)]
pub struct Case {
    pub problem: Draft,
    pub lower: DraftCertificate,
    pub upper: DraftCertificate,
    /// Which certificate a check takes and a change concerns: 0 the lower, 1 the upper.
    pub focus: usize,
}

impl Case {
    /// The certificate that a check takes and a change concerns.
    pub fn focused(&mut self) -> &mut DraftCertificate {
        if self.focus == 0 {
            &mut self.lower
        } else {
            &mut self.upper
        }
    }
}

/// A polynomial with its constraint.
struct Bounded {
    terms: Vec<(Monomial, i32)>,
    radius: i32,
}

/// The numbers that both certificates share.
struct Scale {
    /// The constant a.
    shift: i32,
    /// The factor on the entries, and the weight of the rows.
    factor: i32,
    weight: i32,
}

/// A random case of either family.
pub fn case(rng: &mut Rng) -> Case {
    if rng.once_in(4) {
        let turned = rng.once_in(2);
        return boxed(rng, turned);
    }
    bounded_sum(rng)
}

/// A case with a sum of bounded polynomials.
fn bounded_sum(rng: &mut Rng) -> Case {
    let variables = rng.between(1, 5);
    let count = rng.between(1, BOUNDED);
    let bounded: Vec<Bounded> = (0..count).map(|_| bounded(rng, variables)).collect();
    let scale = Scale {
        shift: rng.between(1, 30) as i32,
        factor: rng.between(1, 9) as i32,
        weight: rng.between(1, 500) as i32,
    };
    let problem = problem(rng, variables, &bounded);
    let lower = certificate(rng, &problem, &bounded, &scale, 0);
    let upper = certificate(rng, &problem, &bounded, &scale, 1);
    Case {
        problem,
        lower,
        upper,
        focus: rng.below(2),
    }
}

fn bounded(rng: &mut Rng, variables: usize) -> Bounded {
    let mut terms = Vec::new();
    for _ in 0..rng.between(1, 4) {
        let monomial = random_monomial(rng, variables, 4);
        add(&mut terms, monomial, rng.nonzero(12));
    }
    terms.retain(|&(m, _)| m != Monomial::ONE);
    Bounded {
        terms,
        radius: rng.between(1, 20) as i32,
    }
}

/// Adds a term to a sum of terms; a coefficient that becomes 0 goes.
pub fn add(terms: &mut Vec<(Monomial, i32)>, monomial: Monomial, coefficient: i32) {
    match terms.iter_mut().find(|(m, _)| *m == monomial) {
        Some((_, sum)) => *sum += coefficient,
        None => terms.push((monomial, coefficient)),
    }
    terms.retain(|&(_, c)| c != 0);
}

/// The square of a polynomial.
fn square(terms: &[(Monomial, i32)]) -> Vec<(Monomial, i32)> {
    let mut all = Vec::new();
    for &(m, c) in terms {
        for &(n, d) in terms {
            add(&mut all, product(m, n), c * d);
        }
    }
    all
}

fn problem(rng: &mut Rng, variables: usize, bounded: &[Bounded]) -> Draft {
    let mut draft = Draft::new(variables, 0);
    let mut basis = vec![Monomial::ONE];
    let mut objective = Vec::new();
    for each in bounded {
        for &(m, c) in &each.terms {
            add(&mut objective, m, c);
            basis.push(m);
        }
        let mut terms = vec![(Monomial::ONE, each.radius)];
        for (m, c) in square(&each.terms) {
            add(&mut terms, m, -c);
        }
        let terms = terms.into_iter().map(|(m, c)| (m, c as i16)).collect();
        let mut basis = vec![Monomial::ONE];
        basis.extend((0..rng.below(3)).map(|_| random_monomial(rng, variables, 3)));
        draft.constrain(terms, different(rng, basis));
    }
    basis.extend((0..rng.below(4)).map(|_| random_monomial(rng, variables, 4)));
    draft.objective = objective;
    draft.bases[0] = different(rng, basis);
    draft
}

/// The different members of a list, in random order.
fn different(rng: &mut Rng, mut monomials: Vec<Monomial>) -> Vec<Monomial> {
    monomials.sort_unstable();
    monomials.dedup();
    rng.shuffle(&mut monomials);
    monomials
}

fn certificate(
    rng: &mut Rng,
    problem: &Draft,
    bounded: &[Bounded],
    scale: &Scale,
    side: u8,
) -> DraftCertificate {
    let sign = if side == 0 { 1 } else { -1 };
    let mut rows = Vec::new();
    let mut total = 0;
    for (place, each) in bounded.iter().enumerate() {
        let mut terms = each.terms.clone();
        terms.push((Monomial::ONE, sign * scale.shift));
        let scaled = terms.iter().map(|&(m, c)| (m, c * scale.factor));
        let weight = scale.weight as u16;
        push_row(rng, &mut rows, row(problem, 0, weight, scaled));
        let one = [(Monomial::ONE, scale.factor)].into_iter();
        push_row(rng, &mut rows, row(problem, place + 1, weight, one));
        total += scale.shift * scale.shift + each.radius;
    }
    // D x q = w x factor² x 2a, and the factor's square goes to D or to q.
    let (square, weight) = (scale.factor * scale.factor, scale.weight);
    let to_q = rng.once_in(2) || square * weight > 65_535;
    let (in_d, in_q) = if to_q { (1, square) } else { (square, 1) };
    DraftCertificate {
        side,
        denominator: (weight * in_d) as u16,
        p: -sign * total * in_q,
        q: (2 * scale.shift * in_q) as u16,
        rows,
    }
}

/// Puts a row in, or two that share its weight; now and then an empty row stands before it.
fn push_row(rng: &mut Rng, rows: &mut Vec<DraftRow>, row: DraftRow) {
    if rng.once_in(12) {
        rows.push(DraftRow::new(usize::from(row.basis), 7, &[]));
    }
    if row.weight > 1 && rng.once_in(4) {
        let part = rng.between(1, usize::from(row.weight) - 1) as u16;
        let weight = row.weight - part;
        rows.push(DraftRow {
            weight: part,
            ..row.clone()
        });
        rows.push(DraftRow { weight, ..row });
    } else {
        rows.push(row);
    }
}

/// A row with these terms, by their indices in a basis.
pub fn row(
    problem: &Draft,
    basis: usize,
    weight: u16,
    terms: impl Iterator<Item = (Monomial, i32)>,
) -> DraftRow {
    let index = |m| problem.bases[basis].iter().position(|&b| b == m);
    let entry = |(m, c)| (index(m).expect("the basis holds it") as u8, c as i16);
    let mut entries: Vec<(u8, i16)> = terms.map(entry).collect();
    entries.sort_unstable();
    DraftRow::new(basis, weight, &entries)
}
