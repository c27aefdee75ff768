//! The numbers in a trailer, and where the tables of such an image stand.

use crate::model::refusals::{FOREIGN, GEOMETRY, RANGE, SHORT, SIZE};
use crate::model::{Answer, Refusal};

/// "The trailer begins with the four bytes 52 4D 41 50, then u16 version" (01):
/// the low six bytes of its first word, in either edition.
const EDITION_1: u64 = 0x0001_5041_4D52;
const EDITION_2: u64 = 0x0002_5041_4D52;
const START: u64 = (1 << 48) - 1;

/// A word of an image, which may lie at any address.
pub(super) type Word = [u8; 8];

/// A geometry within the limits.
#[derive(Clone, Copy)]
pub(super) struct Shape {
    /// Words of a map before its units: 0 in edition 1, 1 in edition 2.
    pub head: usize,
    pub p: usize,
    pub c: usize,
    pub m: usize,
    pub n: usize,
    pub r: usize,
}

fn word_at(trailer: &[u8; 32], word: usize) -> u64 {
    let (words, _) = trailer.as_chunks();
    u64::from_le_bytes(words[word])
}

/// The two u32 of a word.
fn halves(word: u64) -> [usize; 2] {
    [(word as u32) as usize, (word >> 32) as usize]
}

impl Shape {
    /// Rows 1 to 3. "The last 32 bytes are tried as edition 1 first, then the
    /// last 40 as edition 2; if neither has tag and version, 2." (02, request 4)
    #[inline(always)]
    pub fn of_image(image: &[u8]) -> Answer<Self> {
        let Some(last) = image.last_chunk::<32>() else {
            return Err(Refusal::plain(SHORT));
        };
        let (head, fields, r) = if word_at(last, 0) & START == EDITION_1 {
            (0, last, 0)
        } else {
            let longer = image.last_chunk::<40>().ok_or(Refusal::plain(FOREIGN))?;
            let (fields, end) = longer.split_first_chunk::<32>().expect("32 of 40 bytes");
            if word_at(fields, 0) & START != EDITION_2 {
                return Err(Refusal::plain(FOREIGN));
            }
            // R, and a u32 that must be 0: as one number it is then small.
            (
                1,
                fields,
                u64::from_le_bytes(end.try_into().expect("8 bytes")),
            )
        };
        let p = (word_at(fields, 0) >> 48) as usize;
        let [c, m] = halves(word_at(fields, 1));
        let [n, to_entries] = halves(word_at(fields, 2));
        let [to_maps, length] = halves(word_at(fields, 3));
        let good = (2..=16).contains(&p)
            && (1..=256).contains(&c)
            && (c + 1..=c + 32).contains(&m)
            && (p..=p * m).contains(&n)
            && r <= (n - p) as u64
            && to_maps == 8 * m * (p + head)
            && to_entries == to_maps + 8 * c
            && length == to_entries + 32 + 8 * head
            && length == image.len();
        if !good {
            return Err(Refusal::plain(GEOMETRY));
        }
        let r = r as usize;
        Ok(Shape {
            head,
            p,
            c,
            m,
            n,
            r,
        })
    }

    /// Words of a map.
    pub fn width(&self) -> usize {
        self.p + self.head
    }

    /// Words of the set of units that have a bit below N.
    pub fn unit_words(&self) -> usize {
        self.n.div_ceil(64)
    }

    /// The same for maps and M.
    pub fn map_words(&self) -> usize {
        self.m.div_ceil(64)
    }

    /// The entries, then the maps.
    #[inline(always)]
    pub fn tables<'a>(&self, image: &'a [u8]) -> (&'a [Word], &'a [Word]) {
        let (words, _) = image.as_chunks();
        let (entries, rest) = words.split_at(self.c);
        (entries, &rest[..self.m * self.width()])
    }

    /// Row 7: "chunk not below C".
    pub fn chunk(&self, chunk: u64) -> Answer<usize> {
        match chunk < self.c as u64 {
            true => Ok(chunk as usize),
            false => Err(Refusal::plain(RANGE)),
        }
    }

    /// Row 8: "compressed size 0 or above P·4,096"; else the units it takes.
    pub fn units_for(&self, size: u64) -> Answer<usize> {
        match size.wrapping_sub(1) < 4096 * self.p as u64 {
            true => Ok(size.div_ceil(4096) as usize),
            false => Err(Refusal::plain(SIZE)),
        }
    }
}
