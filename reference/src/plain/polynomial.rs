//! Polynomials with whole coefficients, by the keys of their monomials. Every step is exact: a sum
//! or product that does not fit 128 bits ends the program.

use std::collections::BTreeMap;

use crate::monomial::Monomial;

/// A polynomial; a monomial that it does not hold has the coefficient 0.
#[derive(Clone, Debug, Default)]
pub struct Polynomial(BTreeMap<u64, i128>);

impl Polynomial {
    /// The constant c.
    pub fn constant(c: i128) -> Self {
        Polynomial::of(&[(Monomial::ONE, c)])
    }

    /// The sum of these terms.
    pub fn of<C: Copy + Into<i128>>(terms: &[(Monomial, C)]) -> Self {
        let mut sum = Polynomial::default();
        for &(monomial, c) in terms {
            sum.add_term(monomial.key(), c.into());
        }
        sum
    }

    fn add_term(&mut self, key: u64, c: i128) {
        let sum = self.0.entry(key).or_default();
        *sum = sum.checked_add(c).expect("the sum fits 128 bits");
    }

    /// Adds `factor` times another polynomial.
    pub fn add(&mut self, factor: i128, other: &Polynomial) {
        for (&key, &c) in &other.0 {
            self.add_term(key, exact_product(factor, c));
        }
    }

    /// The product of two polynomials of degrees at most 32 in all: the key of a product of
    /// monomials is the sum of their keys.
    pub fn times(&self, other: &Polynomial) -> Polynomial {
        let mut product = Polynomial::default();
        for (&key, &c) in &self.0 {
            for (&other_key, &d) in &other.0 {
                product.add_term(key + other_key, exact_product(c, d));
            }
        }
        product
    }

    /// Its coefficients that are not 0, by keys from the smallest on.
    pub fn coefficients(&self) -> impl Iterator<Item = (u64, i128)> + '_ {
        let all = self.0.iter().map(|(&key, &c)| (key, c));
        all.filter(|&(_, c)| c != 0)
    }
}

fn exact_product(a: i128, b: i128) -> i128 {
    a.checked_mul(b).expect("the product fits 128 bits")
}
