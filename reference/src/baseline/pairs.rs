//! The pairs of a basis by their sums, for joining by the members of S that came last.

use super::partition::Partition;
use super::problem::BASIS;
use super::table::KeyTable;

/// Pairs i < k are held as 64i + k.
const PAIRS: usize = BASIS * BASIS;
const NONE: u16 = u16::MAX;

/// The pairs of two indices of one basis. It serves from its start until it is cleared.
pub struct Pairs {
    sums: KeyTable,
    /// The first pair of each sum; none when its pairs were joined.
    first: Vec<u16>,
    /// The next pair with the same sum.
    next: Box<[u16; PAIRS]>,
    /// What joining without it has cost so far, in steps.
    spent: usize,
    started: bool,
}

impl Default for Pairs {
    fn default() -> Self {
        Pairs {
            sums: KeyTable::default(),
            first: Vec::new(),
            next: Box::new([NONE; PAIRS]),
            spent: 0,
            started: false,
        }
    }
}

impl Pairs {
    /// Forgets the pairs.
    pub fn clear(&mut self) {
        self.spent = 0;
        self.started = false;
    }

    /// Whether the pairs serve now. They are found once the steps spent without them would pay for
    /// it, as most problems end before.
    pub fn serve(&mut self, basis: &[u64], steps: usize) -> bool {
        if !self.started {
            self.spent += steps;
            self.started = self.spent > 2 * basis.len() * basis.len();
            if self.started {
                self.find(basis);
            }
        }
        self.started
    }

    fn find(&mut self, basis: &[u64]) {
        self.sums.reset(basis.len() * basis.len() / 2);
        self.first.clear();
        for (i, &first) in basis.iter().enumerate() {
            for (k, &second) in basis.iter().enumerate().skip(i + 1) {
                let number = self.sums.insert(first + second);
                if number == self.first.len() {
                    self.first.push(NONE);
                }
                let pair = BASIS * i + k;
                self.next[pair] = std::mem::replace(&mut self.first[number], pair as u16);
            }
        }
    }

    /// Joins every pair for which one of these members of S is t + b + b'.
    pub fn join(&mut self, members: &[u64], exponents: &[u64], partition: &mut Partition) {
        for member in members {
            for t in exponents {
                // What is found is exact also where t does not divide the member, as no t + b + b'
                // overflows an exponent.
                if let Some(number) = self.sums.find(member.wrapping_sub(*t)) {
                    let mut pair = std::mem::replace(&mut self.first[number], NONE);
                    while pair != NONE {
                        let pair_at = usize::from(pair);
                        partition.join(pair_at / BASIS, pair_at % BASIS);
                        pair = self.next[pair_at];
                    }
                }
            }
        }
    }
}
