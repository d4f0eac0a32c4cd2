//! The identity of a certificate ("Accepting"), on exact whole numbers.
//!
//! T is summed as the squares' Gram matrix for each basis, then the polynomial of that matrix,
//! then its product with g_j. Widths: a coefficient of the squares of one basis is at most
//! 128 rows x 64 ordered pairs x 2^16 x 2^15 x 2^15 = 2^59 in size, and one of T at most 9 bases x
//! 32 terms x 2^15 times that, below 2^83; the left side is below 2^16 x 2^16 x 2^32. So the
//! squares fit in 64 signed bits and the sums in 128.

use super::certificate::{Certificate, Entry, LOWER};
use super::joining::Closure;
use super::partition::bits;
use super::problem::{Problem, BASIS};
use crate::refusal::{Refusal, IDENTITY};

/// The sum over the rows of one basis of w x l x l', for the indices i and i' >= i of l and l'.
struct Gram {
    /// At 64i + i'; zero between uses.
    products: Box<[i64; BASIS * BASIS]>,
    /// The indices i' in use for each i, as bits; zero between uses.
    used: [u64; BASIS],
}

impl Default for Gram {
    fn default() -> Self {
        Gram {
            products: Box::new([0; BASIS * BASIS]),
            used: [0; BASIS],
        }
    }
}

impl Gram {
    /// Adds the products of a row.
    fn add(&mut self, weight: u16, entries: &[Entry]) {
        let (Some(first), Some(last)) = (entries.first(), entries.last()) else {
            return;
        };
        let gapless = last.index() - first.index() + 1 == entries.len();
        let mut rest: u64 = entries.iter().map(|entry| 1 << entry.index()).sum();
        for (place, entry) in entries.iter().enumerate() {
            let (index, others) = (entry.index(), &entries[place..]);
            self.used[index] |= rest;
            rest &= rest - 1;
            let factor = i64::from(weight) * i64::from(entry.factor);
            let line = &mut self.products[BASIS * index..][..BASIS];
            if gapless {
                for (product, other) in line[index..].iter_mut().zip(others) {
                    *product += factor * i64::from(other.factor);
                }
            } else {
                for other in others {
                    line[other.index()] += factor * i64::from(other.factor);
                }
            }
        }
    }
}

/// The room for comparing the two sides.
#[derive(Default)]
pub struct Identity {
    gram: Gram,
    /// Left side less T, for each member of the closed S with zero.
    differences: Vec<i128>,
    /// The coefficients of the squares of one basis, by the number of the sum b + b'.
    squares: Vec<i64>,
}

impl Identity {
    /// Refuses with 9 at the smallest key where the sides differ.
    ///
    /// All monomials of both sides are in the closed S with zero: the objective's start it, and
    /// every row lies in one block.
    pub fn check(
        &mut self,
        problem: &Problem,
        closure: &mut Closure,
        certificate: &Certificate,
        stream: u8,
    ) -> Result<(), Refusal> {
        self.differences.clear();
        self.differences.resize(closure.support().len(), 0);
        self.add_left_side(problem, closure, certificate);
        for j in problem.in_use() {
            // Rows on a constraint without terms add nothing.
            if !problem.multipliers[j].support.is_empty() {
                self.square(problem, closure, certificate, j);
                self.subtract_product(problem, closure, j);
            }
        }
        let keys = closure.support().keys();
        let pairs = keys.iter().zip(&self.differences);
        let unequal = pairs.filter(|(_, &difference)| difference != 0);
        match unequal.map(|(&key, _)| key).min() {
            None => Ok(()),
            Some(key) => Err(Refusal {
                key,
                ..Refusal::new(IDENTITY, stream, 0)
            }),
        }
    }

    /// Side 0: D x (q x objective - p); side 1: both signs turned.
    fn add_left_side(&mut self, problem: &Problem, closure: &Closure, certificate: &Certificate) {
        let sign = if certificate.side == LOWER { 1 } else { -1 };
        let scale = sign * i128::from(certificate.denominator);
        let objective = &problem.objective;
        for (&key, &c) in objective.support.iter().zip(&objective.coefficients) {
            let place = place(closure, key);
            self.differences[place] += scale * i128::from(certificate.q) * i128::from(c);
        }
        self.differences[place(closure, 0)] -= scale * i128::from(certificate.p);
    }

    /// The sum over the rows of basis j of w x (sum of l x b)²; each l x l' counts twice in it.
    fn square(
        &mut self,
        problem: &Problem,
        closure: &mut Closure,
        certificate: &Certificate,
        j: usize,
    ) {
        self.squares.clear();
        for row in certificate.rows.iter().filter(|row| row.basis == j) {
            self.gram.add(row.weight, certificate.entries(row));
        }
        let basis = &problem.bases[j];
        for (first, &key) in basis.iter().enumerate() {
            for second in bits(std::mem::take(&mut self.gram.used[first])) {
                let product = std::mem::take(&mut self.gram.products[BASIS * first + second]);
                let times = if first == second { 1 } else { 2 };
                let number = closure.number(problem, j, key + basis[second]);
                if number >= self.squares.len() {
                    self.squares.resize(number + 1, 0);
                }
                self.squares[number] += times * product;
            }
        }
    }

    /// Takes the squares times g_j away.
    fn subtract_product(&mut self, problem: &Problem, closure: &Closure, j: usize) {
        let coefficients = &problem.multipliers[j].coefficients;
        for (places, &square) in closure.places(problem, j).zip(&self.squares) {
            if square != 0 {
                for (&place, &c) in places.iter().zip(coefficients) {
                    self.differences[usize::from(place)] -= i128::from(square) * i128::from(c);
                }
            }
        }
    }
}

fn place(closure: &Closure, key: u64) -> usize {
    let number = closure.support().find(key);
    number.expect("both sides stay in the closed S with zero")
}
