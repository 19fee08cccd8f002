//! Sets of boxes: four words by value.

use std::ops::{BitAnd, BitOr, BitOrAssign, Sub, SubAssign};

/// A set of numbers below 256: word q has those from 64 × q on, the lowest bit first. Aligned, so that
/// no set lies across two lines of the cache.
#[derive(Clone, Copy, PartialEq, Eq)]
#[repr(align(32))]
pub struct Set([u64; 4]);

impl Set {
    pub const EMPTY: Set = Set([0; 4]);

    #[inline]
    pub fn is_empty(self) -> bool {
        let [a, b, c, d] = self.0;
        a | b | c | d == 0
    }

    /// The remainder of the four words, joined by exclusive or.
    #[inline]
    pub fn remainder(self, by: u64) -> u64 {
        let [a, b, c, d] = self.0;
        (a ^ b ^ c ^ d) % by
    }

    #[inline]
    pub fn has(&self, k: u8) -> bool {
        self.0[k as usize / 64] >> (k % 64) & 1 == 1
    }

    #[inline]
    pub fn add(&mut self, k: u8) {
        self.0[k as usize / 64] |= 1 << (k % 64);
    }

    #[inline]
    pub fn lowest(self) -> Option<u8> {
        for (q, word) in self.0.into_iter().enumerate() {
            if word != 0 {
                return Some((64 * q) as u8 + word.trailing_zeros() as u8);
            }
        }
        None
    }

    /// Whether a number passes the test; they are tried in rising order. Always inlined, as `each`
    /// is, so that what the closure changes stays in registers.
    #[inline(always)]
    pub fn any(self, mut test: impl FnMut(u8) -> bool) -> bool {
        for (q, word) in self.0.into_iter().enumerate() {
            if any_bit(word, |bit| test((64 * q) as u8 + bit)) {
                return true;
            }
        }
        false
    }

    #[inline(always)]
    pub fn each(self, mut f: impl FnMut(u8)) {
        self.any(|k| {
            f(k);
            false
        });
    }

    /// Sets the byte of each number to 1.
    pub fn mark(self, bytes: &mut [u8]) {
        for (part, word) in bytes.chunks_mut(64).zip(self.0) {
            // in a whole part every bit has its place: no index is checked
            match part.first_chunk_mut::<64>() {
                Some(whole) => each_bit(word, |bit| whole[bit as usize] = 1),
                None => each_bit(word, |bit| part[bit as usize] = 1),
            }
        }
    }
}

/// Whether a bit of the word passes the test; they are tried from the lowest on.
#[inline(always)]
fn any_bit(mut word: u64, mut test: impl FnMut(u8) -> bool) -> bool {
    while word != 0 {
        if test(word.trailing_zeros() as u8) {
            return true;
        }
        word &= word - 1;
    }
    false
}

#[inline(always)]
fn each_bit(word: u64, mut f: impl FnMut(u8)) {
    any_bit(word, |bit| {
        f(bit);
        false
    });
}

impl FromIterator<u8> for Set {
    fn from_iter<I: IntoIterator<Item = u8>>(numbers: I) -> Set {
        let mut set = Set::EMPTY;
        for k in numbers {
            set.add(k);
        }
        set
    }
}

#[inline]
fn words(x: Set, y: Set, f: impl Fn(u64, u64) -> u64) -> Set {
    Set(std::array::from_fn(|q| f(x.0[q], y.0[q])))
}

impl BitAnd for Set {
    type Output = Set;

    #[inline]
    fn bitand(self, other: Set) -> Set {
        words(self, other, |a, b| a & b)
    }
}

impl BitOr for Set {
    type Output = Set;

    #[inline]
    fn bitor(self, other: Set) -> Set {
        words(self, other, |a, b| a | b)
    }
}

impl BitOrAssign for Set {
    #[inline]
    fn bitor_assign(&mut self, other: Set) {
        *self = *self | other;
    }
}

impl Sub for Set {
    type Output = Set;

    #[inline]
    fn sub(self, other: Set) -> Set {
        words(self, other, |a, b| a & !b)
    }
}

impl SubAssign for Set {
    #[inline]
    fn sub_assign(&mut self, other: Set) {
        *self = *self - other;
    }
}
