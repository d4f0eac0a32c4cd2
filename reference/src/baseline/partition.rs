//! The blocks of one basis.

use super::problem::BASIS;

/// The blocks of one basis.
pub struct Partition {
    /// The block number of each index: the lowest index of its block.
    block: [u8; BASIS],
    /// The indices of each block, as bits, at the block's number.
    members: [u64; BASIS],
    /// The partners of each index, as bits, whose sums are already in S.
    spread: [u64; BASIS],
    /// How many pairs of indices lie in two blocks.
    split: usize,
    /// How many blocks there are.
    count: usize,
    /// Whether a block has changed since the sums were last put in S.
    changed: bool,
}

impl Default for Partition {
    fn default() -> Self {
        Partition {
            block: [0; BASIS],
            members: [0; BASIS],
            spread: [0; BASIS],
            split: 0,
            count: 0,
            changed: false,
        }
    }
}

impl Partition {
    /// "Every basis starts as single blocks."
    pub fn start(&mut self, size: usize) {
        for index in 0..size {
            self.block[index] = index as u8;
            self.members[index] = 1 << index;
            self.spread[index] = 0;
        }
        self.split = size * size.saturating_sub(1) / 2;
        self.count = size;
        self.changed = size > 0;
    }

    /// The block number of an index.
    pub fn block(&self, index: usize) -> u8 {
        self.block[index]
    }

    /// How many blocks there are.
    pub fn count(&self) -> usize {
        self.count
    }

    /// How many pairs of indices lie in two blocks.
    pub fn split(&self) -> usize {
        self.split
    }

    /// The indices in the block of an index, as bits.
    pub fn block_of(&self, index: usize) -> u64 {
        self.members[usize::from(self.block[index])]
    }

    /// Makes one block of the blocks of two indices.
    pub fn join(&mut self, first: usize, second: usize) {
        let (first, second) = (self.block[first], self.block[second]);
        if first == second {
            return;
        }
        let (low, high) = (first.min(second), first.max(second));
        let moved = self.members[usize::from(high)];
        let kept = self.members[usize::from(low)];
        for index in bits(moved) {
            self.block[index] = low;
        }
        self.members[usize::from(low)] = kept | moved;
        self.split -= (kept.count_ones() * moved.count_ones()) as usize;
        self.count -= 1;
        self.changed = true;
    }

    /// Whether a block has changed since this was last asked.
    pub fn take_change(&mut self) -> bool {
        std::mem::take(&mut self.changed)
    }

    /// The indices from `first` on in the block of `first`, as bits, that were not taken before.
    pub fn take_partners(&mut self, first: usize) -> u64 {
        let block = self.block_of(first);
        let partners = block & !self.spread[first] & (u64::MAX << first);
        self.spread[first] = block;
        partners
    }
}

/// The places of the ones of a word, from the lowest.
pub fn bits(mut word: u64) -> impl Iterator<Item = usize> {
    std::iter::from_fn(move || {
        if word == 0 {
            return None;
        }
        let place = word.trailing_zeros() as usize;
        word &= word - 1;
        Some(place)
    })
}
