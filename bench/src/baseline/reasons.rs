//! Sets of choice levels.

/// A set of levels 1 to 256.
#[derive(Clone, Copy, Default, PartialEq)]
pub struct Levels([u64; 4]);

impl Levels {
    pub fn up_to(k: usize) -> Levels {
        let mut levels = Levels::default();
        for j in 1..=k {
            levels.insert(j);
        }
        levels
    }

    pub fn insert(&mut self, level: usize) {
        self.0[(level - 1) / 64] |= 1 << ((level - 1) % 64);
    }

    pub fn remove(&mut self, level: usize) {
        self.0[(level - 1) / 64] &= !(1 << ((level - 1) % 64));
    }

    pub fn add(&mut self, other: &Levels) {
        for (word, other) in self.0.iter_mut().zip(&other.0) {
            *word |= other;
        }
    }

    /// The highest level, or 0 for the empty set.
    pub fn highest(&self) -> usize {
        for i in (0..4).rev() {
            if self.0[i] != 0 {
                return i * 64 + 64 - self.0[i].leading_zeros() as usize;
            }
        }
        0
    }
}
