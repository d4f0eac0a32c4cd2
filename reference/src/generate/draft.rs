//! Problems and certificates before they are written as streams.

use crate::generate::rng::Rng;
use crate::monomial::{Monomial, VARIABLES};

/// "The closed S with the zero exponent added may have at most 2,048 members."
pub const SUPPORT_MEMBERS: usize = 2_048;
/// "at most 128 rows"
pub const ROWS: usize = 128;

/// The commands of a problem, one function for each.
pub fn variables(count: u8) -> Vec<u8> {
    vec![0x01, count]
}

pub fn objective_term(monomial: Monomial, coefficient: i32) -> Vec<u8> {
    let coefficient = coefficient.to_le_bytes();
    [&[0x02], &monomial.0[..], &coefficient].concat()
}

pub fn constraint() -> Vec<u8> {
    vec![0x03]
}

pub fn constraint_term(monomial: Monomial, coefficient: i16) -> Vec<u8> {
    let coefficient = coefficient.to_le_bytes();
    [&[0x04], &monomial.0[..], &coefficient].concat()
}

pub fn basis_monomial(basis: u8, monomial: Monomial) -> Vec<u8> {
    [&[0x05, basis], &monomial.0[..]].concat()
}

pub fn problem_end() -> Vec<u8> {
    vec![0x06]
}

pub fn equality() -> Vec<u8> {
    vec![0x07]
}

pub fn rule(number: u8) -> Vec<u8> {
    vec![0x08, number]
}

pub fn order(rounds: u8) -> Vec<u8> {
    vec![0x09, rounds]
}

/// The commands of a certificate, one function for each.
pub fn bound(side: u8, denominator: u16, p: i32, q: u16) -> Vec<u8> {
    let denominator = denominator.to_le_bytes();
    [
        &[0x10, side],
        &denominator[..],
        &p.to_le_bytes(),
        &q.to_le_bytes(),
    ]
    .concat()
}

pub fn row(basis: u8, weight: u16) -> Vec<u8> {
    [&[0x11, basis], &weight.to_le_bytes()[..]].concat()
}

pub fn entry(index: u8, factor: i16) -> Vec<u8> {
    [&[0x12, index], &factor.to_le_bytes()[..]].concat()
}

pub fn equality_row(basis: u8, weight: i16) -> Vec<u8> {
    [&[0x14, basis], &weight.to_le_bytes()[..]].concat()
}

pub fn wide_entry(index: u8, factor: i32) -> Vec<u8> {
    [&[0x15, index], &factor.to_le_bytes()[..]].concat()
}

pub fn note(bytes: [u8; 8]) -> Vec<u8> {
    [&[0x40], &bytes[..]].concat()
}

pub fn certificate_end() -> Vec<u8> {
    vec![0x13]
}

/// A change of the objective (Req 13).
pub fn adjustment(monomial: Monomial, d: i32) -> Vec<u8> {
    [&monomial.0[..], &d.to_le_bytes()].concat()
}

/// A monomial from the exponents of its first variables.
pub fn monomial(exponents: &[u8]) -> Monomial {
    let mut all = [0; VARIABLES];
    all[..exponents.len()].copy_from_slice(exponents);
    Monomial(all)
}

/// The monomial x_variable ^ exponent; variables count from 1.
pub fn power(variable: usize, exponent: u8) -> Monomial {
    let mut all = [0; VARIABLES];
    all[variable - 1] = exponent;
    Monomial(all)
}

/// The product of two monomials.
pub fn product(first: Monomial, second: Monomial) -> Monomial {
    first.times(&second)
}

/// A random monomial of degree at most `degree` in the first `variables`.
pub fn random_monomial(rng: &mut Rng, variables: usize, degree: usize) -> Monomial {
    let mut all = [0; VARIABLES];
    for _ in 0..rng.between(0, degree) {
        all[rng.below(variables)] += 1;
    }
    Monomial(all)
}

/// A problem.
#[derive(Clone, Default)]
pub struct Draft {
    pub variables: u8,
    pub objective: Vec<(Monomial, i32)>,
    pub constraints: Vec<Vec<(Monomial, i16)>>,
    /// Basis 0 and one for each constraint.
    pub bases: Vec<Vec<Monomial>>,
}

impl Draft {
    /// A problem without terms, in `variables`, with `constraints` empty constraints.
    pub fn new(variables: usize, constraints: usize) -> Self {
        Draft {
            variables: variables as u8,
            objective: Vec::new(),
            constraints: vec![Vec::new(); constraints],
            bases: vec![Vec::new(); constraints + 1],
        }
    }

    /// Adds a constraint with its basis, and gives its number.
    pub fn constrain(&mut self, terms: Vec<(Monomial, i16)>, basis: Vec<Monomial>) -> usize {
        self.constraints.push(terms);
        self.bases.push(basis);
        self.constraints.len()
    }

    /// The commands in plain order: objective, constraints, bases.
    pub fn commands(&self) -> Vec<Vec<u8>> {
        let mut all = vec![variables(self.variables)];
        all.extend(self.objective.iter().map(|&(m, c)| objective_term(m, c)));
        for terms in &self.constraints {
            all.push(constraint());
            all.extend(terms.iter().map(|&(m, c)| constraint_term(m, c)));
        }
        for (j, basis) in self.bases.iter().enumerate() {
            all.extend(basis.iter().map(|&m| basis_monomial(j as u8, m)));
        }
        all.push(problem_end());
        all
    }

    /// The stream in plain order.
    pub fn bytes(&self) -> Vec<u8> {
        self.commands().concat()
    }

    /// The stream with the commands of objective, constraints and bases mixed.
    pub fn mixed(&self, rng: &mut Rng) -> Vec<u8> {
        self.mixed_commands(rng).concat()
    }

    /// The commands mixed: the constraints' own in order, all others wherever they may stand.
    pub fn mixed_commands(&self, rng: &mut Rng) -> Vec<Vec<u8>> {
        let mut waiting: Vec<Vec<u8>> = Vec::new();
        waiting.extend(self.objective.iter().map(|&(m, c)| objective_term(m, c)));
        waiting.extend(self.bases[0].iter().map(|&m| basis_monomial(0, m)));
        let mut all = vec![variables(self.variables)];
        rng.shuffle(&mut waiting);
        for (place, terms) in self.constraints.iter().enumerate() {
            release(rng, &mut waiting, &mut all);
            all.push(constraint());
            let basis = &self.bases[place + 1];
            let number = place as u8 + 1;
            waiting.extend(basis.iter().map(|&m| basis_monomial(number, m)));
            rng.shuffle(&mut waiting);
            for &(m, c) in terms {
                release(rng, &mut waiting, &mut all);
                all.push(constraint_term(m, c));
            }
        }
        all.append(&mut waiting);
        all.push(problem_end());
        all
    }
}

/// Moves a few commands from the waiting ones.
fn release(rng: &mut Rng, waiting: &mut Vec<Vec<u8>>, all: &mut Vec<Vec<u8>>) {
    let count = rng.below(4).min(waiting.len());
    all.extend(waiting.drain(waiting.len() - count..));
}

/// A row: basis, weight and its entries.
#[derive(Clone)]
pub struct DraftRow {
    pub basis: u8,
    pub weight: u16,
    pub entries: Vec<(u8, i16)>,
}

impl DraftRow {
    pub fn new(basis: usize, weight: u16, entries: &[(u8, i16)]) -> Self {
        DraftRow {
            basis: basis as u8,
            weight,
            entries: entries.to_vec(),
        }
    }
}

/// A certificate.
#[derive(Clone)]
pub struct DraftCertificate {
    pub side: u8,
    pub denominator: u16,
    pub p: i32,
    pub q: u16,
    pub rows: Vec<DraftRow>,
}

impl DraftCertificate {
    /// The commands in order.
    pub fn commands(&self) -> Vec<Vec<u8>> {
        let mut all = vec![bound(self.side, self.denominator, self.p, self.q)];
        for each in &self.rows {
            all.push(row(each.basis, each.weight));
            all.extend(each.entries.iter().map(|&(i, l)| entry(i, l)));
        }
        all.push(certificate_end());
        all
    }

    pub fn bytes(&self) -> Vec<u8> {
        self.commands().concat()
    }
}
