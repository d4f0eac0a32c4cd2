//! A set of keys with a dense number for each, by open addressing.

/// Bits of a slot number at most; then there are four slots for each of 2,048 members.
const MOST_BITS: u32 = 13;
const LEAST_BITS: u32 = 4;
const SLOTS: usize = 1 << MOST_BITS;
/// Most members.
const KEYS: usize = SLOTS / 2;
const EMPTY: u16 = u16::MAX;

/// An insertion-ordered set of keys. The room it holds is kept when it is cleared.
///
/// Places in the two arrays are taken modulo their lengths, which changes none and spares a test.
pub struct KeyTable {
    slots: Box<[u16; SLOTS]>,
    keys: Box<[u64; KEYS]>,
    len: usize,
    /// The slots in use are 0 to this one; the number of ones in it is 64 less the shift.
    last_slot: usize,
    shift: u32,
}

impl Default for KeyTable {
    fn default() -> Self {
        KeyTable {
            slots: Box::new([EMPTY; SLOTS]),
            keys: Box::new([0; KEYS]),
            len: 0,
            last_slot: SLOTS - 1,
            shift: 64 - MOST_BITS,
        }
    }
}

impl KeyTable {
    /// The members in the order they were put in.
    pub fn keys(&self) -> &[u64] {
        &self.keys[..self.len]
    }

    pub fn len(&self) -> usize {
        self.len
    }

    /// Takes all members out.
    pub fn clear(&mut self) {
        if 16 * self.len > self.last_slot {
            self.slots[..=self.last_slot].fill(EMPTY);
        } else {
            for number in 0..self.len {
                let mut slot = self.home(self.keys[number]);
                while usize::from(self.slots[slot]) != number {
                    slot = (slot + 1) & self.last_slot;
                }
                self.slots[slot] = EMPTY;
            }
        }
        self.len = 0;
    }

    /// Takes all members out, and makes room for so many, as close together as serves.
    pub fn reset(&mut self, members: usize) {
        self.clear();
        let bits = (4 * members).next_power_of_two().trailing_zeros();
        let bits = bits.clamp(LEAST_BITS, MOST_BITS);
        self.last_slot = (1 << bits) - 1;
        self.shift = 64 - bits;
    }

    /// The slot where the search for a key begins.
    #[inline]
    fn home(&self, key: u64) -> usize {
        (key.wrapping_mul(0x9E37_79B9_7F4A_7C15) >> self.shift) as usize
    }

    /// The number of a key, or the slot that is free for it.
    #[inline]
    fn search(&self, key: u64) -> Result<usize, usize> {
        let mut slot = self.home(key);
        loop {
            let number = self.slots[slot % SLOTS];
            if number == EMPTY {
                return Err(slot);
            }
            if self.keys[usize::from(number) % KEYS] == key {
                return Ok(usize::from(number));
            }
            slot = (slot + 1) & self.last_slot;
        }
    }

    /// The number of a key, when it is a member.
    #[inline]
    pub fn find(&self, key: u64) -> Option<usize> {
        self.search(key).ok()
    }

    /// Whether the key is a member.
    #[inline]
    pub fn contains(&self, key: u64) -> bool {
        self.search(key).is_ok()
    }

    /// The number of a key, which becomes a member when it is none.
    #[inline]
    pub fn insert(&mut self, key: u64) -> usize {
        match self.search(key) {
            Ok(number) => number,
            Err(slot) => {
                let number = self.len;
                assert!(number < KEYS, "the callers stop far below");
                self.slots[slot % SLOTS] = number as u16;
                self.keys[number] = key;
                self.len += 1;
                number
            }
        }
    }
}

#[cfg(test)]
mod tests {
    use super::*;

    #[test]
    fn members_are_found_and_cleared() {
        let mut table = KeyTable::default();
        for size in [3_000_u64, 5, 2_080, 7, 1, 0] {
            if size != 3_000 {
                table.reset(size as usize);
            }
            for key in 0..size {
                assert_eq!(table.insert(key * 257), key as usize);
                assert_eq!(table.insert(key * 257), key as usize);
            }
            assert_eq!(table.len() as u64, size);
            assert!((0..size).all(|key| table.find(key * 257) == Some(key as usize)));
            assert!(!table.contains(1));
            table.clear();
            assert!((0..size).all(|key| !table.contains(key * 257)));
        }
    }
}
