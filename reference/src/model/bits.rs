//! Fixed-size bit sets, one bit a unit or map.

use core::ops::Range;

/// "bit u mod 64 of word u/64 is 1 if unit u is free, all else 0" (01).
#[derive(Clone, Debug, PartialEq, Eq)]
pub(crate) struct BitSet<const WORDS: usize> {
    words: [u64; WORDS],
}

impl<const WORDS: usize> BitSet<WORDS> {
    pub fn empty() -> Self {
        BitSet { words: [0; WORDS] }
    }

    /// The set of these numbers; the bits below them and from their end on are
    /// 0 (Decisions 7 and 75).
    pub fn of(numbers: Range<usize>) -> Self {
        let Range { start, end } = numbers;
        let mut set = BitSet::empty();
        set.words[..end / 64].fill(u64::MAX);
        if !end.is_multiple_of(64) {
            set.words[end / 64] = (1 << (end % 64)) - 1;
        }
        set.words[..start / 64].fill(0);
        if !start.is_multiple_of(64) {
            set.words[start / 64] &= u64::MAX << (start % 64);
        }
        set
    }

    /// The members below a limit of a set in lent words, of which there are at
    /// least as many as this set has; what they hold from the limit on is left
    /// out (Decision 102).
    pub fn below(words: &[u64], limit: usize) -> Self {
        let mut set = BitSet::of(0..limit);
        for (word, lent) in set.words.iter_mut().zip(words) {
            *word &= lent;
        }
        set
    }

    pub fn contains(&self, bit: usize) -> bool {
        self.words[bit / 64] >> (bit % 64) & 1 != 0
    }

    pub fn insert(&mut self, bit: usize) {
        self.words[bit / 64] |= 1 << (bit % 64);
    }

    /// Takes a number out and says whether it was there.
    pub fn remove(&mut self, bit: usize) -> bool {
        let word = &mut self.words[bit / 64];
        let mask = 1 << (bit % 64);
        let was_there = *word & mask != 0;
        *word &= !mask;
        was_there
    }

    pub fn count(&self) -> u64 {
        self.words
            .iter()
            .map(|word| u64::from(word.count_ones()))
            .sum()
    }

    /// The members in rising order.
    pub fn iter(&self) -> impl Iterator<Item = usize> + '_ {
        let words = self.words.iter().enumerate();
        words.flat_map(|(at, &word)| Ones(word).map(move |bit| 64 * at + bit))
    }

    pub fn into_words(self) -> [u64; WORDS] {
        self.words
    }
}

/// The places of a word's one-bits, rising.
struct Ones(u64);

impl Iterator for Ones {
    type Item = usize;

    fn next(&mut self) -> Option<usize> {
        if self.0 == 0 {
            return None;
        }
        let lowest = self.0.trailing_zeros() as usize;
        self.0 &= self.0 - 1;
        Some(lowest)
    }
}

#[cfg(test)]
mod tests {
    use super::*;

    #[test]
    fn a_range_counts_and_iterates() {
        for end in 0..=192 {
            for start in 0..=end {
                let set = BitSet::<3>::of(start..end);
                assert_eq!(set.count(), (end - start) as u64);
                assert!(set.iter().eq(start..end));
                let numbers = start..end;
                assert!((0..192).all(|bit| set.contains(bit) == numbers.contains(&bit)));
            }
        }
    }

    #[test]
    fn of_lent_words_those_below_the_limit_count() {
        let lent = [u64::MAX, 1 << 63 | 5, u64::MAX];
        assert!(BitSet::<2>::below(&lent, 128)
            .iter()
            .eq((0..65).chain([66, 127])));
        assert!(BitSet::<2>::below(&lent, 127)
            .iter()
            .eq((0..65).chain([66])));
        assert!(BitSet::<2>::below(&lent, 3).iter().eq(0..3));
    }

    #[test]
    fn remove_tells_what_was_there() {
        let mut set = BitSet::<2>::of(0..70);
        assert!(set.remove(65));
        assert!(!set.remove(65));
        assert!(!set.contains(65));
        set.insert(65);
        assert!(set.contains(65));
        assert!(!set.remove(70));
    }
}
