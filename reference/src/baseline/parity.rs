//! Parities of exponents: a quick test that rules most sums out of S.
//!
//! The parity of t + b + b' is that of t and of b + b' together, so a sum whose parity no member
//! of S has is not in S.

use super::problem::CONSTRAINT_TERMS;

/// The lowest bits of the eight exponents of a key.
pub fn parity(key: u64) -> u8 {
    const LOWEST: u64 = 0x0101_0101_0101_0101;
    const GATHER: u64 = 0x0102_0408_1020_4080;
    ((key & LOWEST).wrapping_mul(GATHER) >> 56) as u8
}

/// A set of parities.
#[derive(Clone, Copy, Default)]
pub struct Parities([u64; 4]);

impl Parities {
    /// Puts one in; tells whether it is new.
    pub fn insert(&mut self, parity: u8) -> bool {
        let bit = 1 << (parity % 64);
        let word = &mut self.0[usize::from(parity / 64)];
        let new = *word & bit == 0;
        *word |= bit;
        new
    }

    pub fn contains(&self, parity: u8) -> bool {
        self.0[usize::from(parity / 64)] >> (parity % 64) & 1 == 1
    }
}

/// The different parities of the exponents of a multiplier.
#[derive(Clone, Copy, Default)]
pub struct Shifts {
    parities: [u8; CONSTRAINT_TERMS],
    count: usize,
}

impl Shifts {
    /// The parities of these keys.
    pub fn of(keys: &[u64]) -> Self {
        let (mut shifts, mut seen) = (Shifts::default(), Parities::default());
        for &key in keys {
            if seen.insert(parity(key)) {
                shifts.parities[shifts.count] = parity(key);
                shifts.count += 1;
            }
        }
        shifts
    }

    /// Whether some exponent t and this sum together have a parity of the set.
    pub fn reach(&self, sum: u64, set: &Parities) -> bool {
        let parities = &self.parities[..self.count];
        let sum = parity(sum);
        parities.iter().any(|&shift| set.contains(shift ^ sum))
    }
}

#[cfg(test)]
mod tests {
    use super::*;
    use crate::monomial::Monomial;

    #[test]
    fn parity_gathers_the_lowest_bits() {
        let key = |exponents| Monomial(exponents).key();
        let parities: Vec<u8> = (0..8).map(|i| parity(1 << (8 * i))).collect();
        let mut different = parities.clone();
        different.sort_unstable();
        different.dedup();
        assert_eq!(different.len(), 8);
        let (a, b) = ([1, 2, 3, 4, 5, 6, 7, 8], [3, 2, 2, 5, 1, 8, 0, 1]);
        assert_eq!(parity(key(a) + key(b)), parity(key(a)) ^ parity(key(b)));
        assert_eq!(parity(key([2, 4, 6, 8, 0, 2, 4, 6])), 0);
    }
}
