//! Sums b + b' of one basis, with the places of t + b + b' in S.

use super::table::KeyTable;

/// The sums of one basis, each once.
#[derive(Default)]
pub struct Sums {
    table: KeyTable,
    /// For each sum the places in S of t + sum, for the exponents t in order.
    places: Vec<u16>,
}

impl Sums {
    /// Takes all sums out, and makes room for those of a basis of this size.
    pub fn start(&mut self, size: usize) {
        self.table.reset(size * (size + 1) / 2);
        self.places.clear();
    }

    /// The number of a sum. When it is new, t + sum is added to S for all exponents t.
    #[inline]
    pub fn add(&mut self, sum: u64, exponents: &[u64], support: &mut KeyTable) -> usize {
        let before = self.table.len();
        let number = self.table.insert(sum);
        if number == before {
            let places = exponents.iter().map(|t| support.insert(t + sum) as u16);
            self.places.extend(places);
        }
        number
    }

    /// The places in S of the first sum, of the second and so on, for so many exponents.
    pub fn places(&self, exponents: usize) -> impl Iterator<Item = &[u16]> {
        self.places.chunks_exact(exponents)
    }
}
