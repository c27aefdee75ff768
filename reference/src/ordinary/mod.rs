//! An ordinary program for the same volumes, written for the benchmark of the
//! held index and for nothing else: "Measure both against an ordinary Rust
//! program, written for the purpose, doing equal writes on 256 chunks" (02,
//! request 7).
//!
//! It has nothing of the library's and nothing of the model's. It keeps the image
//! as it is on the disk, opens it once, and then keeps two bitmaps of what is
//! free. It makes, checks and carries out the same plans, with the same refusals,
//! and trusts its own image and bitmaps in between: nobody else writes to them.
//! `tests/ordinary.rs` holds it to the model.

mod bitmap;
mod check;
mod plan;

use bitmap::{Bitmap, MAP_WORDS, UNIT_WORDS};

/// Bytes of a unit.
const UNIT: u64 = 4096;
/// Bytes of a step.
pub const STEP: usize = 16;
/// An absent word of the image, and of a step.
const ABSENT: u64 = u64::MAX;
const ABSENT32: u32 = u32::MAX;
/// Units in the largest chunk.
const MOST_UNITS: usize = 16;

const DATA: u32 = 1;
const MAP: u32 = 2;
const LINK: u32 = 3;
const FENCE: u32 = 4;

/// Why a request is turned down.
#[derive(Clone, Copy, Debug, PartialEq, Eq)]
pub enum Refused {
    /// The image is not one that this program can work on.
    Unsound,
    /// No such chunk, byte range or step.
    Range,
    /// No such compressed size.
    Size,
    NoRoom {
        free: u32,
    },
    /// The output is too short.
    Small {
        needed: usize,
    },
    BadPlan {
        rule: u8,
    },
}

/// What a piece reads first.
#[derive(Clone, Copy, Debug, PartialEq, Eq)]
pub enum Reads {
    Nothing,
    Zeros,
    Chunk,
}

/// An open volume.
#[derive(Clone)]
pub struct Volume {
    image: Vec<u8>,
    /// Units in a chunk, chunks, maps, backing units.
    p: usize,
    c: usize,
    m: usize,
    n: usize,
    /// Words of a map, and how many stand before its units: 1 if it keeps the
    /// compressed size.
    width: usize,
    head: usize,
    free_units: Bitmap<UNIT_WORDS>,
    free_maps: Bitmap<MAP_WORDS>,
}

fn u32_at(bytes: &[u8], at: usize) -> u32 {
    u32::from_le_bytes(bytes[at..at + 4].try_into().unwrap())
}

impl Volume {
    /// Reads the trailer, and finds what is free.
    pub fn open(image: Vec<u8>) -> Result<Self, Refused> {
        let tagged = |trailer: usize, version: u8| {
            let from = image.len().checked_sub(trailer)?;
            let tag = [b'R', b'M', b'A', b'P', version, 0];
            image[from..].starts_with(&tag).then_some(from)
        };
        let (trailer, head) = match (tagged(32, 1), tagged(40, 2)) {
            (Some(trailer), _) => (trailer, 0),
            (None, Some(trailer)) => (trailer, 1),
            (None, None) => return Err(Refused::Unsound),
        };
        let p = usize::from(u16::from_le_bytes([image[trailer + 6], image[trailer + 7]]));
        let field = |at: usize| u32_at(&image, trailer + at) as usize;
        let (c, m, n) = (field(8), field(12), field(16));
        let r = if head == 1 { field(32) } else { 0 };
        let good = (2..=16).contains(&p)
            && (1..=256).contains(&c)
            && (c + 1..=c + 32).contains(&m)
            && (p..=p * m).contains(&n)
            && r <= n - p
            && trailer == 8 * c + 8 * m * (p + head)
            && field(20) == trailer
            && field(24) == 8 * m * (p + head)
            && field(28) == image.len()
            && (head == 0 || field(36) == 0);
        if !good {
            return Err(Refused::Unsound);
        }
        let mut volume = Volume {
            image,
            p,
            c,
            m,
            n,
            width: p + head,
            head,
            free_units: Bitmap::full(r, n),
            free_maps: Bitmap::full(0, m),
        };
        for chunk in 0..c {
            let map = match volume.entry(chunk) {
                ABSENT => continue,
                map if map < m as u64 => map as usize,
                _ => return Err(Refused::Unsound),
            };
            let k = volume.held_units(map);
            let rest = k..p;
            let size_fits = head == 0 || volume.word(map, 0).div_ceil(UNIT) == k as u64;
            let form = k > 0
                && size_fits
                && rest.into_iter().all(|j| volume.unit(map, j) == ABSENT)
                && volume.free_maps.contains(map);
            if !form {
                return Err(Refused::Unsound);
            }
            volume.free_maps.remove(map);
            for j in 0..k {
                let unit = volume.unit(map, j);
                let fresh = unit < n as u64 && volume.free_units.contains(unit as usize);
                if !fresh {
                    return Err(Refused::Unsound);
                }
                volume.free_units.remove(unit as usize);
            }
        }
        Ok(volume)
    }

    /// The image, as it goes to the disk.
    pub fn image(&self) -> &[u8] {
        &self.image
    }

    /// What is free, 72 words for the units and 5 for the maps.
    pub fn free(&self) -> (&[u64], &[u64]) {
        (self.free_units.words(), self.free_maps.words())
    }

    fn word_at(&self, at: usize) -> u64 {
        u64::from_le_bytes(self.image[at..at + 8].try_into().unwrap())
    }

    fn put_word(&mut self, at: usize, value: u64) {
        self.image[at..at + 8].copy_from_slice(&value.to_le_bytes());
    }

    fn entry(&self, chunk: usize) -> u64 {
        self.word_at(8 * chunk)
    }

    /// Byte position of a word of a map.
    fn map_at(&self, map: usize, word: usize) -> usize {
        8 * (self.c + map * self.width + word)
    }

    fn word(&self, map: usize, word: usize) -> u64 {
        self.word_at(self.map_at(map, word))
    }

    fn unit(&self, map: usize, j: usize) -> u64 {
        self.word(map, self.head + j)
    }

    /// How many units a map holds.
    fn held_units(&self, map: usize) -> usize {
        (0..self.p)
            .find(|&j| self.unit(map, j) == ABSENT)
            .unwrap_or(self.p)
    }

    fn chunk(&self, chunk: u64) -> Result<usize, Refused> {
        match chunk < self.c as u64 {
            true => Ok(chunk as usize),
            false => Err(Refused::Range),
        }
    }

    fn units_for(&self, size: u64) -> Result<usize, Refused> {
        match size {
            0 => Err(Refused::Size),
            _ if size > self.p as u64 * UNIT => Err(Refused::Size),
            _ => Ok(size.div_ceil(UNIT) as usize),
        }
    }

    /// What a piece of the volume reads before anything else happens to it.
    #[inline(never)]
    pub fn access(&self, write: bool, offset: u64, length: u64) -> Result<Reads, Refused> {
        let chunk_bytes = self.p as u64 * UNIT;
        let chunk = offset / chunk_bytes;
        let within = offset % chunk_bytes;
        if chunk >= self.c as u64
            || length == 0
            || !(offset | length).is_multiple_of(UNIT)
            || length > chunk_bytes - within
        {
            return Err(Refused::Range);
        }
        Ok(if write && length == chunk_bytes {
            Reads::Nothing
        } else if self.entry(chunk as usize) == ABSENT {
            Reads::Zeros
        } else {
            Reads::Chunk
        })
    }

    /// First byte and number of bytes of a chunk's units in the image.
    #[inline(never)]
    pub fn held(&self, chunk: u64) -> Result<(usize, usize), Refused> {
        let chunk = self.chunk(chunk)?;
        Ok(match self.entry(chunk) {
            ABSENT => (0, 0),
            map => {
                let map = map as usize;
                (self.map_at(map, self.head), 8 * self.held_units(map))
            }
        })
    }

    /// How many compressed bytes a chunk has.
    pub fn stored_size(&self, chunk: u64) -> Result<u64, Refused> {
        let chunk = self.chunk(chunk)?;
        Ok(match self.entry(chunk) {
            ABSENT => 0,
            map if self.head == 1 => self.word(map as usize, 0),
            map => self.held_units(map as usize) as u64 * UNIT,
        })
    }

    /// Checks a write's plan and carries out its first n steps.
    #[inline(never)]
    pub fn carry_write(
        &mut self,
        chunk: u64,
        size: u64,
        plan: &[u8],
        n: u64,
    ) -> Result<(), Refused> {
        self.chunk(chunk)?;
        if n > (plan.len() / STEP) as u64 {
            return Err(Refused::Range);
        }
        let checked = self.checked_write(chunk, size, plan)?;
        let n = n as usize;
        let old = self.entry(chunk as usize);
        self.store(&plan[..STEP * n]);
        if n > checked.link {
            self.give_back(old);
            for &unit in checked.units() {
                self.free_units.remove(unit as usize);
            }
            self.free_maps.remove(checked.map as usize);
        }
        Ok(())
    }

    /// The same for a discard.
    #[inline(never)]
    pub fn carry_discard(&mut self, chunk: u64, plan: &[u8], n: u64) -> Result<(), Refused> {
        self.chunk(chunk)?;
        if n > (plan.len() / STEP) as u64 {
            return Err(Refused::Range);
        }
        let link = self.checked_discard(chunk, plan)?;
        let n = n as usize;
        let old = self.entry(chunk as usize);
        self.store(&plan[..STEP * n]);
        if n > link {
            self.give_back(old);
        }
        Ok(())
    }

    /// Stores the MAP and LINK words of checked steps.
    fn store(&mut self, steps: &[u8]) {
        let stored = |value: u32| match value {
            ABSENT32 => ABSENT,
            number => u64::from(number),
        };
        for step in steps.chunks_exact(STEP) {
            let [kind, at, word, value] = fields(step);
            match kind {
                MAP => self.put_word(self.map_at(at as usize, word as usize), stored(value)),
                LINK => self.put_word(8 * at as usize, stored(value)),
                _ => {}
            }
        }
    }

    /// What an entry named is free again.
    fn give_back(&mut self, entry: u64) {
        if entry == ABSENT {
            return;
        }
        let map = entry as usize;
        for j in 0..self.p {
            match self.unit(map, j) {
                ABSENT => break,
                unit => self.free_units.insert(unit as usize),
            }
        }
        self.free_maps.insert(map);
    }
}

/// The four numbers of a step.
#[inline(always)]
fn fields(step: &[u8]) -> [u32; 4] {
    let step: &[u8; STEP] = step.try_into().unwrap();
    [0, 4, 8, 12].map(|at| u32::from_le_bytes(step[at..at + 4].try_into().unwrap()))
}
