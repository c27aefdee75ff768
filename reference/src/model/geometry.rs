//! The edition and the five numbers of a volume, their limits, and the
//! trailer that holds them.
//!
//! What the two editions differ in is here: the version, the trailer's length,
//! whether units can be reserved, and how many words of a map stand before its
//! units. Everything else asks these functions and is the same for both. Which
//! numbers are units is said here too, by [`Geometry::units`] alone.

use core::ops::Range;

use super::image::Shape;
use super::refusals::{FOREIGN, GEOMETRY, SHORT};
use super::{Answer, Refusal};

/// "A unit is 4,096 bytes." (01)
pub const UNIT: u64 = 4096;
/// "P units make a chunk, 2 to 16." (01)
pub const MAX_UNITS_PER_CHUNK: usize = 16;
/// The words of the longest map: edition 2 has "P+1 words for each map" (02,
/// request 4).
pub(crate) const MAX_MAP_WORDS: usize = MAX_UNITS_PER_CHUNK + 1;
/// "M chunk maps, C+1 to C+32" with C at most 256 (01).
pub const MAX_MAPS: usize = 256 + 32;
/// 8·256 + 8·288·16 + 32, "longer than any image" of edition 1 from there on
/// (01).
pub const MAX_IMAGE_LEN: usize = 38_944;
/// 8·256 + 8·288·17 + 40: "Every program's file limit becomes 41,256." (02,
/// request 4)
pub const MAX_IMAGE2_LEN: usize = 41_256;

/// Words of the free-unit set: "72 words of 64 bits, one bit a unit" (01).
pub(crate) const UNIT_WORDS: usize = 72;
/// Words of the free-map set: "maps likewise in 5 words" (01).
pub(crate) const MAP_WORDS: usize = 5;
/// Words of a set of chunks, of which there are at most 256.
pub(crate) const CHUNK_WORDS: usize = 4;

/// Bytes of a word of the logical map or of a chunk map.
pub(crate) const WORD: usize = 8;
/// "The trailer begins with the four bytes 52 4D 41 50" (01).
const TAG: [u8; 4] = *b"RMAP";
/// Bytes of edition 2's trailer, the longer one: "edition 1's fields, then two
/// u32" (02, request 4).
const MAX_TRAILER: usize = 40;

/// Which of the two layouts an image has.
#[derive(Clone, Copy, Debug, PartialEq, Eq)]
pub enum Edition {
    One,
    Two,
}

impl Edition {
    /// In the order in which they are tried.
    pub const ALL: [Edition; 2] = [Edition::One, Edition::Two];

    pub const fn number(self) -> u64 {
        match self {
            Edition::One => 1,
            Edition::Two => 2,
        }
    }

    /// "a 32-byte trailer" (01); "Edition 2 has version 2, a 40-byte trailer"
    /// (02, request 4).
    pub(crate) const fn trailer_len(self) -> usize {
        match self {
            Edition::One => 32,
            Edition::Two => MAX_TRAILER,
        }
    }

    /// Words of a map before its units: "P+1 words for each map: first the
    /// compressed size, then the units" (02, request 4).
    pub(crate) const fn size_words(self) -> usize {
        match self {
            Edition::One => 0,
            Edition::Two => 1,
        }
    }

    /// "The trailer begins with the four bytes 52 4D 41 50, then u16 version"
    /// (01), which is the edition's number.
    fn start(self) -> [u8; 6] {
        let [a, b, c, d] = TAG;
        let [low, high] = (self.number() as u16).to_le_bytes();
        [a, b, c, d, low, high]
    }

    /// The trailer of this edition, if the image ends in one by its tag and
    /// version.
    fn trailer_in(self, image: &[u8]) -> Option<&[u8]> {
        let from = image.len().checked_sub(self.trailer_len())?;
        let trailer = &image[from..];
        trailer.starts_with(&self.start()).then_some(trailer)
    }

    /// Rows 1 and 2: "image under 32 bytes" (01); "The last 32 bytes are tried
    /// as edition 1 first, then the last 40 as edition 2; if neither has tag
    /// and version, 2." (02, request 4) Tag and version alone decide
    /// (Decision 62). Answers the trailer as well.
    pub(crate) fn of_image(image: &[u8]) -> Answer<(Self, &[u8])> {
        if image.len() < Edition::One.trailer_len() {
            return Err(Refusal::plain(SHORT));
        }
        for edition in Edition::ALL {
            if let Some(trailer) = edition.trailer_in(image) {
                return Ok((edition, trailer));
            }
        }
        Err(Refusal::plain(FOREIGN))
    }
}

/// A geometry within the limits. All figures are small, so the sums and
/// products below cannot overflow.
#[derive(Clone, Copy, Debug, PartialEq, Eq)]
pub(crate) struct Geometry {
    pub edition: Edition,
    /// Units in a chunk, P.
    pub p: usize,
    /// Chunks, C.
    pub c: usize,
    /// Chunk maps, M.
    pub m: usize,
    /// Backing units, N.
    pub n: usize,
    /// Reserved units, R, the first of the N. "Edition 1 behaves as R = 0."
    /// (02, request 5)
    pub r: usize,
}

impl Geometry {
    /// "P units make a chunk, 2 to 16. C chunks, 1 to 256. M chunk maps, C+1
    /// to C+32. N backing units, P to P·M." (01) "R, the reserved units, 0 to
    /// N-P" (02, request 5). The limits of the first four are the same in both
    /// editions (Decision 63), and edition 1 has no R but 0. Each is tested
    /// before its number is used to make the next one, so that nothing wraps
    /// (Decision 74).
    pub fn within_limits(edition: Edition, [p, c, m, n, r]: [u64; 5]) -> Option<Self> {
        let good = (2..=16).contains(&p)
            && (1..=256).contains(&c)
            && (c + 1..=c + 32).contains(&m)
            && (p..=p * m).contains(&n)
            && r <= n - p
            && (edition == Edition::Two || r == 0);
        good.then_some(Geometry {
            edition,
            p: p as usize,
            c: c as usize,
            m: m as usize,
            n: n as usize,
            r: r as usize,
        })
    }

    /// The edition and the five numbers as calls answer them.
    pub fn shape(&self) -> Shape {
        Shape {
            edition: self.edition.number(),
            p: self.p as u64,
            c: self.c as u64,
            m: self.m as u64,
            n: self.n as u64,
            r: self.r as u64,
        }
    }

    /// "The units that a chunk may hold are R to N-1." (Decision 75) These can
    /// be free or held: "Units below R are never free and never held" (02,
    /// request 5). Rule 1 alone asks for less, "units below N" (01).
    pub fn units(&self) -> Range<usize> {
        self.r..self.n
    }

    /// Whether a word of a map is a unit, compared as 64 bits: 2^32-1 is none,
    /// and no X (Decision 5).
    pub fn is_unit(&self, word: u64) -> bool {
        let Range { start, end } = self.units();
        (start as u64..end as u64).contains(&word)
    }

    /// The words of a map: "M chunk maps of P words each" (01), "P+1 words for
    /// each map" in edition 2 (02, request 4).
    pub fn map_words(&self) -> usize {
        self.edition.size_words() + self.p
    }

    fn logical_len(&self) -> usize {
        WORD * self.c
    }

    fn maps_len(&self) -> usize {
        WORD * self.m * self.map_words()
    }

    /// "length of the whole image (8C+8MP+32)" (01), "counted the same way"
    /// in edition 2: 8C+8M(P+1)+40 (Decision 63).
    pub fn image_len(&self) -> usize {
        self.logical_len() + self.maps_len() + self.edition.trailer_len()
    }

    /// Bytes of the volume that the caller sees: C·P·4,096.
    pub fn volume_bytes(&self) -> u64 {
        self.c as u64 * self.chunk_bytes()
    }

    pub fn chunk_bytes(&self) -> u64 {
        self.p as u64 * UNIT
    }

    /// Byte position of a chunk's logical entry: "First the logical map, C
    /// words of 64 bits" (01).
    pub fn entry_at(&self, chunk: usize) -> usize {
        WORD * chunk
    }

    /// Byte position of a word of a chunk map: the maps stand after the
    /// logical map, one after the other (01).
    pub fn map_word_at(&self, map: usize, word: usize) -> usize {
        self.logical_len() + WORD * (map * self.map_words() + word)
    }

    /// Byte position of a map's j-th unit: the units come last in a map.
    pub fn unit_at(&self, map: usize, j: usize) -> usize {
        self.map_word_at(map, self.edition.size_words() + j)
    }

    /// "The trailer begins with the four bytes 52 4D 41 50, then u16 version 1,
    /// u16 P, and u32 each: C, M, N, distance back from the trailer's first
    /// byte to the logical map (8C+8MP), distance back to the chunk maps (8MP),
    /// length of the whole image (8C+8MP+32)." (01) "The first of edition 2's
    /// two last u32 becomes R" (02, request 5), and the other is 0. Edition 1's
    /// ends before these two.
    fn trailer(&self) -> [u8; MAX_TRAILER] {
        let words = [
            self.c,
            self.m,
            self.n,
            self.logical_len() + self.maps_len(),
            self.maps_len(),
            self.image_len(),
            self.r,
            0,
        ];
        let mut trailer = [0; MAX_TRAILER];
        trailer[..6].copy_from_slice(&self.edition.start());
        trailer[6..8].copy_from_slice(&(self.p as u16).to_le_bytes());
        for (field, word) in trailer[8..].chunks_exact_mut(4).zip(words) {
            field.copy_from_slice(&(word as u32).to_le_bytes());
        }
        trailer
    }

    /// Writes the trailer. The slice must have its length.
    pub fn write_trailer(&self, trailer: &mut [u8]) {
        trailer.copy_from_slice(&self.trailer()[..self.edition.trailer_len()]);
    }

    /// Rows 1 to 3 of the table; row 3: "a limit broken, or a distance or
    /// length that disagrees" (01), or edition 2's last number that is not 0:
    /// "the u32 after it must still be 0" (Decision 74). The slice is the
    /// image, with no slack before it (Decision 6). What is wrong besides tag
    /// and version is not tried again as the other edition (Decision 62).
    pub fn of_image(image: &[u8]) -> Answer<Self> {
        let (edition, trailer) = Edition::of_image(image)?;
        let number = |at: usize| {
            let b = &trailer[at..at + 4];
            u64::from(u32::from_le_bytes([b[0], b[1], b[2], b[3]]))
        };
        let p = u64::from(u16::from_le_bytes([trailer[6], trailer[7]]));
        let r = match edition {
            Edition::One => 0,
            Edition::Two => number(32),
        };
        // Once the five numbers are good they fix the whole trailer, so the
        // distances, the length and the last number are compared all at once.
        Geometry::within_limits(edition, [p, number(8), number(12), number(16), r])
            .filter(|geometry| geometry.image_len() == image.len())
            .filter(|geometry| geometry.trailer()[..trailer.len()] == *trailer)
            .ok_or(Refusal::plain(GEOMETRY))
    }
}
