//! A bitmap of numbers, whose lowest is asked for most.

pub const UNIT_WORDS: usize = 72;
pub const MAP_WORDS: usize = 5;

#[derive(Clone)]
pub struct Bitmap<const WORDS: usize> {
    words: [u64; WORDS],
    /// No word below this one has a bit.
    low: usize,
}

impl<const WORDS: usize> Bitmap<WORDS> {
    /// The numbers from one to before another.
    pub fn full(from: usize, to: usize) -> Self {
        let mut words = [0; WORDS];
        for number in from..to {
            words[number / 64] |= 1 << (number % 64);
        }
        Bitmap { words, low: 0 }
    }

    pub fn words(&self) -> &[u64] {
        &self.words
    }

    pub fn contains(&self, number: usize) -> bool {
        self.words[number / 64] >> (number % 64) & 1 == 1
    }

    pub fn insert(&mut self, number: usize) {
        let at = number / 64;
        self.words[at] |= 1 << (number % 64);
        self.low = self.low.min(at);
    }

    pub fn remove(&mut self, number: usize) {
        let at = number / 64;
        self.words[at] &= !(1 << (number % 64));
        while self.low < WORDS && self.words[self.low] == 0 {
            self.low += 1;
        }
    }

    /// Fills the slice with the lowest numbers; answers how many there were.
    pub fn lowest(&self, out: &mut [u32]) -> usize {
        let mut found = 0;
        for (at, &word) in self.words.iter().enumerate().skip(self.low) {
            let mut word = word;
            while word != 0 {
                if found == out.len() {
                    return found;
                }
                out[found] = (64 * at) as u32 + word.trailing_zeros();
                found += 1;
                word &= word - 1;
            }
            if found == out.len() {
                return found;
            }
        }
        found
    }

    pub fn first(&self) -> Option<u32> {
        let mut one = [0];
        (self.lowest(&mut one) == 1).then_some(one[0])
    }
}
