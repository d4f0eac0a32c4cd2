//! Monomials as eight exponents, and their keys.

/// Number of exponent bytes in a command ("E is 8 exponent bytes").
pub const VARIABLES: usize = 8;

/// A monomial as the streams give it: the exponent of variable i at place i - 1.
#[derive(Clone, Copy, Debug, PartialEq, Eq, PartialOrd, Ord)]
pub struct Monomial(pub [u8; VARIABLES]);

impl Monomial {
    /// The monomial 1, whose exponents are all zero.
    pub const ONE: Monomial = Monomial([0; VARIABLES]);

    /// The total degree, a number up to 8 x 255.
    pub fn degree(&self) -> u32 {
        self.0.iter().map(|&exponent| u32::from(exponent)).sum()
    }

    /// Whether the exponents of all variables above `variables` are 0.
    pub fn within(&self, variables: usize) -> bool {
        self.0[variables..].iter().all(|&exponent| exponent == 0)
    }

    /// The product of two monomials, whose exponents add up.
    pub fn times(&self, other: &Monomial) -> Monomial {
        Monomial(std::array::from_fn(|i| self.0[i] + other.0[i]))
    }

    /// "A monomial's key is the sum of e_i x 256^(i-1)".
    ///
    /// Degrees stay at most 32 after the reader, so the key of a product is the sum of the keys.
    pub fn key(&self) -> u64 {
        u64::from_le_bytes(self.0)
    }
}

/// Whether the monomial of key `divisor` divides that of key `key`; all exponents are below 128.
pub fn divides(divisor: u64, key: u64) -> bool {
    const HIGH: u64 = 0x8080_8080_8080_8080;
    ((key | HIGH) - divisor) & HIGH == HIGH
}

#[cfg(test)]
mod tests {
    use super::*;

    #[test]
    fn the_degree_is_no_byte() {
        assert_eq!(Monomial([255, 1, 0, 0, 0, 0, 0, 0]).degree(), 256);
        assert_eq!(Monomial([255; 8]).degree(), 2_040);
    }

    #[test]
    fn division_goes_by_every_exponent() {
        let low = Monomial([1, 2, 0, 0, 0, 0, 0, 3]).key();
        let high = Monomial([1, 3, 0, 0, 0, 0, 0, 3]).key();
        assert!(divides(low, high) && !divides(high, low));
        assert!(divides(0, low) && divides(low, low));
        assert!(!divides(Monomial([1, 0, 0, 0, 0, 0, 0, 0]).key(), 256));
    }
}
