//! The steps that the proved checker's index of the support takes on a problem: a model for the search
//! of slow pairs, which has to compare thousands of problems by a cost that no other work disturbs.
//!
//! Keys of one remainder stand in one chain, and a search goes from the last that was put in to the
//! first. A key that is put in behind many leaves a mark, and then the index is made anew with the next
//! divisor; behind the last key with the first divisor that spreads all. Products are put in basis by
//! basis, in the order of the indices and not in that of the rounds, so that the count is near the true
//! one and not the same.

use std::collections::HashSet;

/// The divisors are FIRST, and each STEP below the one before; a chain above LONG is long.
pub const FIRST: u64 = 3_821;
pub const STEP: u64 = 26;
pub const DIVISORS: u64 = 17;
const LONG: usize = 16;

/// What a search costs beside its steps, in steps.
const SEARCH: u64 = 2;

/// A problem as the index sees it: the multiplier's exponents and the basis, by blocks, of each basis.
pub struct Seen {
    pub objective: Vec<u64>,
    pub bases: Vec<SeenBasis>,
}

pub struct SeenBasis {
    pub exponents: Vec<u64>,
    pub blocks: Vec<Vec<u64>>,
}

/// The longest chain with which the index stays, with the divisor of this number.
pub fn allowed(number: u64) -> usize {
    LONG + (STEP * number) as usize / 2
}

pub fn divisor(number: u64) -> u64 {
    FIRST - STEP * number
}

struct Index {
    number: u64,
    mark: usize,
    chains: Vec<Vec<u64>>,
    keys: Vec<u64>,
    cost: u64,
}

impl Index {
    fn new() -> Self {
        Index {
            number: 0,
            mark: 0,
            chains: vec![Vec::new(); FIRST as usize],
            keys: Vec::new(),
            cost: 0,
        }
    }

    fn chain(&self, key: u64) -> usize {
        (key % divisor(self.number)) as usize
    }

    /// The steps of a search, and whether the key is there.
    fn find(&self, key: u64) -> (u64, bool) {
        let chain = &self.chains[self.chain(key)];
        match chain.iter().rev().position(|&other| other == key) {
            Some(before) => (before as u64 + 1, true),
            None => (chain.len() as u64, false),
        }
    }

    fn put(&mut self, key: u64) {
        let (steps, found) = self.find(key);
        self.cost += SEARCH + steps;
        if found {
            return;
        }
        if LONG < steps as usize {
            self.mark = steps as usize;
        }
        let chain = self.chain(key);
        self.chains[chain].push(key);
        self.keys.push(key);
    }

    fn renew(&mut self, number: u64) {
        self.number = number;
        self.mark = 0;
        self.chains.iter_mut().for_each(Vec::clear);
        self.cost += 2 * self.keys.len() as u64;
        for key in self.keys.clone() {
            let chain = self.chain(key);
            self.chains[chain].push(key);
        }
    }

    fn shorten(&mut self) {
        if self.number + 1 < DIVISORS && allowed(self.number) < self.mark {
            self.renew(self.number + 1);
        }
    }

    /// Whether at most two keys stand before a key, on average.
    fn is_spread(&self) -> bool {
        let before = self.chains.iter().map(|chain| chain.len() * chain.len().saturating_sub(1) / 2);
        before.sum::<usize>() <= 2 * self.keys.len()
    }

    fn spread(&mut self) {
        if self.number > 0 || self.mark > 0 {
            for number in 0..DIVISORS {
                self.renew(number);
                if self.is_spread() {
                    break;
                }
            }
        }
    }
}

/// What was counted: the cost of blocks, of one walk over all products of a certificate with full rows,
/// the number of the last divisor, and of the keys.
#[derive(Clone, Copy, Debug, Default)]
pub struct Counted {
    pub blocks: u64,
    pub walk: u64,
    pub divisor: u64,
    pub keys: usize,
}

impl Counted {
    /// The cost of a pair: the blocks once, and for each certificate one walk, or three with factors of
    /// 32 bits.
    pub fn pair(&self, wide: bool) -> u64 {
        self.blocks + self.walk * if wide { 6 } else { 2 }
    }
}

/// The count for a problem whose blocks are known.
pub fn count(seen: &Seen) -> Counted {
    let mut index = Index::new();
    seen.objective.iter().for_each(|&key| index.put(key));
    for basis in &seen.bases[1..] {
        basis.exponents.iter().for_each(|&key| index.put(key));
    }
    let first = seen.bases[0].blocks.iter().flatten();
    first.for_each(|&key| index.put(2 * key));
    for basis in &seen.bases {
        for &b in basis.blocks.iter().flatten() {
            basis.exponents.iter().for_each(|t| index.put(t + 2 * b));
        }
        index.shorten();
    }
    let mut products: Vec<u64> = Vec::new();
    for basis in &seen.bases {
        let mut done: HashSet<u64> = HashSet::new();
        for block in &basis.blocks {
            for (i, a) in block.iter().enumerate() {
                for b in &block[..=i] {
                    if done.insert(a + b) {
                        for t in &basis.exponents {
                            index.put(t + a + b);
                            products.push(t + a + b);
                        }
                    }
                }
                index.shorten();
            }
        }
    }
    index.put(0);
    index.spread();
    let walk = products.iter().map(|&key| SEARCH + index.find(key).0);
    Counted {
        blocks: index.cost,
        walk: walk.sum(),
        divisor: index.number,
        keys: index.keys.len(),
    }
}

#[cfg(test)]
mod tests {
    use super::*;

    /// 17 keys of one remainder behind the first leave a mark, and the next divisor comes.
    #[test]
    fn a_long_chain_changes_the_divisor() {
        let seen = |keys: u64| Seen {
            objective: (0..keys).map(|i| 1 + i * FIRST).collect(),
            bases: vec![SeenBasis {
                exponents: vec![0],
                blocks: vec![vec![0]],
            }],
        };
        assert_eq!(count(&seen(17)).divisor, 0);
        assert_eq!(count(&seen(18)).keys, 19);
        // At the end the first divisor comes again where it spreads the keys, and here it does not.
        assert_eq!(count(&seen(18)).divisor, 1);
    }
}
