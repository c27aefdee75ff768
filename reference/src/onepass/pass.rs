//! The one pass over the named maps, and what it finds.

use super::refuse;
use super::shape::{Shape, Word};
use crate::model::Answer;

/// "X is 2^64-1." (01)
pub(super) const X: u64 = u64::MAX;

pub(super) const UNIT_WORDS: usize = 72;
pub(super) const MAP_WORDS: usize = 5;

/// What is known of a sound image: a bit for each unit and map that is not free,
/// and how many chunks and units there are in its maps. Of the sets only the
/// words that have a bit below N and M mean anything.
pub(super) struct Claims {
    pub units: [u64; UNIT_WORDS],
    pub maps: [u64; MAP_WORDS],
    pub mapped: usize,
    pub held: usize,
}

impl Claims {
    pub const NONE: Self = Claims {
        units: [0; UNIT_WORDS],
        maps: [0; MAP_WORDS],
        mapped: 0,
        held: 0,
    };

    /// Fills in the claims of a sound image; otherwise answers which of rows 4 to
    /// 6 holds.
    #[inline(always)]
    pub fn fill(&mut self, shape: &Shape, image: &[u8]) -> Answer<()> {
        match self.fill_if_sound(shape, image) {
            true => Ok(()),
            false => Err(refuse::verdict(shape, image)),
        }
    }

    /// Whether the image is sound; then the claims are filled in.
    #[inline(never)]
    pub fn fill_if_sound(&mut self, shape: &Shape, image: &[u8]) -> bool {
        let Claims { units, maps, .. } = self;
        let units = &mut units[..shape.unit_words()];
        let claim = |unit: u64| match units.get_mut((unit / 64) as usize) {
            Some(word) => {
                *word |= 1 << (unit % 64);
                true
            }
            None => false,
        };
        let Some(held) = pass(shape, image, maps, claim) else {
            return false;
        };
        self.is_sound(shape, held)
    }

    /// Whether so many claims are as many units, none of them below R or from N
    /// on. What cannot be free counts as claimed from there on.
    #[inline(always)]
    pub fn is_sound(&mut self, shape: &Shape, held: usize) -> bool {
        let units = &mut self.units[..shape.unit_words()];
        let maps = &mut self.maps[..shape.map_words()];
        (self.mapped, self.held) = (ones(maps), held);
        let once = ones(units) == held;
        take_from(maps, shape.m);
        once && take_from(units, shape.n) && take_below(units, shape.r)
    }
}

/// Goes over the entries and the maps that they name, each unit of which is
/// claimed without looking at what was claimed before; the claim says whether
/// there is such a place. Answers how many units were claimed. None if a link is
/// bad or a map has the wrong form. What is claimed twice, or out of range by
/// little, shows in the sets; who shares a map shares its units.
#[inline(always)]
pub(super) fn pass(
    shape: &Shape,
    image: &[u8],
    maps: &mut [u64; MAP_WORDS],
    claim: impl FnMut(u64) -> bool,
) -> Option<usize> {
    match shape.head {
        0 => pass_in::<0>(shape, image, maps, claim),
        _ => pass_in::<1>(shape, image, maps, claim),
    }
}

/// The same, of maps with so many words before their units.
#[inline(always)]
fn pass_in<const HEAD: usize>(
    shape: &Shape,
    image: &[u8],
    maps: &mut [u64; MAP_WORDS],
    mut claim: impl FnMut(u64) -> bool,
) -> Option<usize> {
    let (entries, tables) = shape.tables(image);
    let width = shape.p + HEAD;
    let mut held = 0;
    let mut rest = Rest::NOTHING;
    let mut sizes_fit = true;
    for entry in entries {
        let map = u64::from_le_bytes(*entry);
        if map == X {
            continue;
        }
        if map >= shape.m as u64 {
            return None;
        }
        let map = map as usize;
        maps[map / 64] |= 1 << (map % 64);
        let words = &tables[map * width..][..width];
        let units = &words[HEAD..];
        let k = claimed(units, &mut claim);
        if k == 0 {
            return None;
        }
        held += k;
        rest.and(&units[k..]);
        if HEAD == 1 {
            sizes_fit &= size_fits(words[0], k);
        }
    }
    (rest.is_absent() && sizes_fit).then_some(held)
}

/// How many units are claimed before the first word that is none.
#[inline(always)]
fn claimed(units: &[Word], claim: &mut impl FnMut(u64) -> bool) -> usize {
    for (at, unit) in units.iter().enumerate() {
        if !claim(u64::from_le_bytes(*unit)) {
            return at;
        }
    }
    units.len()
}

/// "k equal to the size rounded up in units" (02, request 4); k is above 0.
#[inline(always)]
pub(super) fn size_fits(size: Word, k: usize) -> bool {
    u64::from_le_bytes(size).wrapping_sub(1) / 4096 == k as u64 - 1
}

/// The AND of all words that must be X, in two lanes.
pub(super) struct Rest([u64; 2]);

impl Rest {
    pub const NOTHING: Self = Rest([X; 2]);

    pub fn is_absent(&self) -> bool {
        self.0 == [X; 2]
    }

    /// Takes up to 16 words in two blocks of one length, the first and the last
    /// ones of them, which may overlap.
    #[inline(always)]
    pub fn and(&mut self, words: &[Word]) {
        match words.len() {
            0 => {}
            1 => self.and_blocks::<1>(words),
            2..=3 => self.and_blocks::<2>(words),
            4..=7 => self.and_blocks::<4>(words),
            _ => self.and_blocks::<8>(words),
        }
    }

    #[inline(always)]
    fn and_blocks<const LEN: usize>(&mut self, words: &[Word]) {
        let blocks = words.first_chunk::<LEN>().zip(words.last_chunk::<LEN>());
        let (first, last) = blocks.expect("as many words");
        for (at, (first, last)) in first.iter().zip(last).enumerate() {
            self.0[at % 2] &= u64::from_le_bytes(*first) & u64::from_le_bytes(*last);
        }
    }
}

fn ones(set: &[u64]) -> usize {
    set.iter().map(|word| word.count_ones() as usize).sum()
}

/// Takes the numbers from the limit on, of which the last word of the set may
/// have some; says whether nobody had claimed one.
#[inline(always)]
fn take_from(set: &mut [u64], limit: usize) -> bool {
    let past = match limit % 64 {
        0 => 0,
        bits => X << bits,
    };
    let Some(last) = set.last_mut() else {
        return true;
    };
    let none = *last & past == 0;
    *last |= past;
    none
}

/// The same for the numbers below R.
#[inline(always)]
fn take_below(set: &mut [u64], r: usize) -> bool {
    if r == 0 {
        return true;
    }
    let (whole, rest) = set.split_at_mut(r / 64);
    let reserved = (1 << (r % 64)) - 1;
    let part = rest[0] & reserved;
    let claimed = whole.iter().fold(part, |all, word| all | word);
    whole.fill(X);
    rest[0] |= reserved;
    claimed == 0
}
