//! A volume as the simulator keeps it, and a reading of its image that asks
//! neither the library nor the model.

use sumbilak_reference::ffi::{self, LOAD_WORDS};
use sumbilak_reference::inputs::{
    entry, put_entry, put_map, put_word, size_in, size_of, word, Edition, Shape, X,
};
use sumbilak_reference::rng::Rng;

/// "P units make a chunk, 2 to 16." (01)
pub const MOST_PIECES: usize = 16;

/// What a reserved unit holds from the start on: the boot loader's content, which
/// no payload has.
pub fn boot(unit: u64) -> u64 {
    0xB007_0000_0000_0000 + unit
}

/// The contents of the units at the start: the boot loader's in the reserved
/// ones, "anything" (01) in the others.
pub fn contents(shape: &Shape, mut content: impl FnMut() -> u64) -> Vec<u64> {
    let of_unit = |unit| match unit < shape.r {
        true => boot(unit),
        false => content(),
    };
    (0..shape.n).map(of_unit).collect()
}

/// Image, units and ledger. "Each event gets image and units as the last one
/// left them; nobody else writes them meanwhile." (01)
#[derive(Debug, PartialEq, Eq, Hash)]
pub struct Volume {
    /// The metadata, changed only by what landed.
    pub image: Vec<u8>,
    /// What each unit holds, as a tag for its 4,096 bytes.
    pub units: Vec<u64>,
    /// "The ledger gives each chunk a list of pieces, or nothing (the empty
    /// list)" (01).
    pub ledger: Vec<Vec<u64>>,
    /// Beside the ledger, which "keeps pieces, not sizes" (Decision 70): what
    /// each chunk's stored size has to be.
    pub sizes: Vec<u64>,
}

/// Written out because the derived `clone_from` would not reuse the buffers.
impl Clone for Volume {
    fn clone(&self) -> Self {
        Volume {
            image: self.image.clone(),
            units: self.units.clone(),
            ledger: self.ledger.clone(),
            sizes: self.sizes.clone(),
        }
    }

    fn clone_from(&mut self, other: &Self) {
        self.image.clone_from(&other.image);
        self.units.clone_from(&other.units);
        self.ledger.clone_from(&other.ledger);
        self.sizes.clone_from(&other.sizes);
    }
}

impl Volume {
    /// "It starts from the image that format writes." "A unit's content is
    /// anything at the start"; the ledger gives "at the start nothing" (01).
    pub fn formatted(shape: &Shape, content: impl FnMut() -> u64) -> Self {
        let Shape { p, c, m, n, r, .. } = *shape;
        // Format has to write every byte, so it starts on some that are wrong.
        let mut image = vec![0x5A; shape.image_len()];
        let answer = match shape.edition {
            Edition::One => ffi::format(&mut image, p, c, m, n),
            Edition::Two => ffi::format2(&mut image, p, c, m, n, r),
        };
        assert_eq!(answer.number, 0, "format of {shape:?}");
        Volume {
            image,
            units: contents(shape, content),
            ledger: vec![Vec::new(); c as usize],
            sizes: vec![0; c as usize],
        }
    }

    /// "The theorem holds from any sound image whose ledger begins with what
    /// that image holds" (Decision 25): chunks on random maps and units, up to
    /// `full` percent of the units held, dead maps with anything in them.
    pub fn scattered(rng: &mut Rng, shape: &Shape, full: u64) -> Self {
        let mut volume = Volume::formatted(shape, || rng.next_u64());
        let mut units: Vec<u64> = shape.units().collect();
        let mut maps: Vec<u64> = (0..shape.m).collect();
        let mut chunks: Vec<u64> = (0..shape.c).collect();
        rng.shuffle(&mut units);
        rng.shuffle(&mut maps);
        rng.shuffle(&mut chunks);
        units.truncate(units.len() * full as usize / 100);
        for &chunk in &chunks {
            if units.is_empty() {
                break;
            }
            let map = maps.pop().expect("more maps than chunks");
            let k = rng.between(1, shape.p.min(units.len() as u64));
            put_entry(&mut volume.image, chunk, map);
            let held = units.split_off(units.len() - k as usize);
            let size = size_of(rng, k);
            put_map(shape, &mut volume.image, map, size, &held);
            let contents = held.iter().map(|&unit| volume.units[unit as usize]);
            volume.ledger[chunk as usize] = contents.collect();
            volume.sizes[chunk as usize] = stored(shape, size);
        }
        for map in maps {
            for at in 0..shape.map_words() {
                let junk = match rng.below(4) {
                    0 => X,
                    1 => rng.next_u64(),
                    _ => rng.below(shape.n),
                };
                put_word(&mut volume.image, shape.word_at(map, at), junk);
            }
        }
        volume
    }

    /// "a chunk with no landed plan since holding what that image gives it"
    /// (02, request 3): the ledger starts with it.
    pub fn holding(shape: &Shape, image: Vec<u8>, units: Vec<u64>) -> Self {
        let pieces = |chunk: u64| Held::of(shape, &image, chunk).pieces(&units).collect();
        let ledger = (0..shape.c).map(pieces).collect();
        let size = |chunk: u64| Held::of(shape, &image, chunk).size;
        let sizes = (0..shape.c).map(size).collect();
        Volume {
            image,
            units,
            ledger,
            sizes,
        }
    }

    /// The first reserved unit that does not hold the boot loader's content any
    /// more: "a reserved unit holds at the end what it held at the start"
    /// (Decision 80).
    pub fn overwritten(&self, shape: &Shape) -> Option<u64> {
        (0..shape.r).find(|&unit| self.units[unit as usize] != boot(unit))
    }

    pub fn trailer(&self, shape: &Shape) -> &[u8] {
        &self.image[self.image.len() - shape.trailer_len()..]
    }
}

/// What a chunk's stored size is once a write of this size has landed: "k·4,096
/// in edition 1" (02, request 4), the size itself in edition 2.
pub fn stored(shape: &Shape, size: u64) -> u64 {
    match shape.edition {
        Edition::One => size.div_ceil(4096) * 4096,
        Edition::Two => size,
    }
}

/// The first units of a chunk's map, in order, and its size.
#[derive(Clone, Copy)]
pub struct Held {
    units: [usize; MOST_PIECES],
    len: usize,
    /// The stored size: the size word in edition 2, 4,096 for each unit in
    /// edition 1, 0 for an unmapped chunk.
    pub size: u64,
}

impl Held {
    /// What a chunk's map names, up to the first word that is no unit; an
    /// entry that is no map counts as unmapped. Where that hides a flaw,
    /// [`Reading`] tells of it.
    pub fn of(shape: &Shape, image: &[u8], chunk: u64) -> Self {
        let mut held = Held {
            units: [0; MOST_PIECES],
            len: 0,
            size: 0,
        };
        let map = entry(image, chunk);
        if map < shape.m {
            for at in 0..shape.p {
                let unit = word(image, shape.unit_at(map, at));
                if !shape.is_unit(unit) {
                    break;
                }
                held.units[held.len] = unit as usize;
                held.len += 1;
            }
            held.size = size_in(shape, image, map).unwrap_or(4096 * held.len as u64);
        }
        held
    }

    /// "A sound map has k equal to the size rounded up in units" (02,
    /// request 4).
    fn size_fits(&self) -> bool {
        self.size.div_ceil(4096) == self.len as u64
    }

    pub fn units(&self) -> &[usize] {
        &self.units[..self.len]
    }

    /// "a chunk holds the contents of its map's units in order, and an
    /// unmapped one holds no pieces" (01).
    pub fn pieces<'a>(&'a self, contents: &'a [u64]) -> impl Iterator<Item = u64> + 'a {
        self.units().iter().map(|&unit| contents[unit])
    }
}

/// What keeps an image from being sound.
#[derive(Clone, Debug, PartialEq, Eq)]
pub enum Flaw {
    /// "each logical entry is X or below M"
    Link { chunk: u64 },
    /// "each named map holds 1 to P units below N, then only X"
    Map { chunk: u64 },
    /// "Units below R are never free and never held" (02, request 5).
    Reserved { chunk: u64, unit: u64 },
    /// "A sound map has k equal to the size rounded up in units" (02,
    /// request 4).
    Size { chunk: u64 },
    /// "no two chunks name the same map"
    MapTwice { map: u64, first: u64, second: u64 },
    /// "no unit is named twice in named maps"
    UnitTwice { unit: u64, first: u64, second: u64 },
}

/// An image read word by word: who owns which map and unit. "A unit's owners
/// are the chunks whose maps name it." (01)
pub struct Reading {
    shape: Shape,
    map_owner: Vec<Option<u64>>,
    unit_owner: Vec<Option<u64>>,
    pub flaws: Vec<Flaw>,
}

impl Reading {
    pub fn of(shape: &Shape, image: &[u8]) -> Self {
        let mut reading = Reading {
            shape: *shape,
            map_owner: vec![None; shape.m as usize],
            unit_owner: vec![None; shape.n as usize],
            flaws: Vec::new(),
        };
        for second in 0..shape.c {
            let map = entry(image, second);
            if map == X {
                continue;
            }
            if map >= shape.m {
                reading.flaws.push(Flaw::Link { chunk: second });
                continue;
            }
            if let Some(first) = reading.map_owner[map as usize].replace(second) {
                reading.flaws.push(Flaw::MapTwice { map, first, second });
            }
            let held = Held::of(shape, image, second);
            let k = held.units().len() as u64;
            // From the first word on that is no unit.
            let rest = || (k..shape.p).map(|at| word(image, shape.unit_at(map, at)));
            if let Some(unit) = rest().next().filter(|&word| word < shape.r) {
                let chunk = second;
                reading.flaws.push(Flaw::Reserved { chunk, unit });
            } else if k == 0 || rest().any(|word| word != X) {
                reading.flaws.push(Flaw::Map { chunk: second });
            } else if !held.size_fits() {
                reading.flaws.push(Flaw::Size { chunk: second });
            }
            for &unit in held.units() {
                if let Some(first) = reading.unit_owner[unit].replace(second) {
                    let unit = unit as u64;
                    reading.flaws.push(Flaw::UnitTwice {
                        unit,
                        first,
                        second,
                    });
                }
            }
        }
        reading
    }

    /// "Held units are those in named maps; all others are free" (01), but for
    /// the reserved ones.
    pub fn free_units(&self) -> impl Iterator<Item = u64> + '_ {
        let units = self.shape.units();
        units.filter(|&unit| self.unit_owner[unit as usize].is_none())
    }

    pub fn held_units(&self) -> u64 {
        self.unit_owner.iter().flatten().count() as u64
    }

    /// "The same for maps." (01)
    pub fn free_maps(&self) -> impl Iterator<Item = u64> + '_ {
        (0..self.shape.m).filter(|&map| self.map_owner[map as usize].is_none())
    }

    /// The units of other chunks than this one.
    pub fn units_of_others(&self, chunk: u64) -> impl Iterator<Item = u64> + '_ {
        (0..self.shape.n)
            .filter(move |&unit| self.unit_owner[unit as usize].is_some_and(|owner| owner != chunk))
    }

    /// The maps that some chunk names.
    pub fn named_maps(&self) -> impl Iterator<Item = u64> + '_ {
        (0..self.shape.m).filter(|&map| self.map_owner[map as usize].is_some())
    }

    /// What load has to answer: P, C, M, N, and both free sets, "bit u mod 64
    /// of word u/64 is 1 if unit u is free, all else 0" (01).
    pub fn load_words(&self) -> [u64; LOAD_WORDS] {
        let Shape { p, c, m, n, .. } = self.shape;
        let mut words = [0; LOAD_WORDS];
        words[..4].copy_from_slice(&[p, c, m, n]);
        for unit in self.free_units() {
            words[4 + unit as usize / 64] |= 1 << (unit % 64);
        }
        for map in self.free_maps() {
            words[76 + map as usize / 64] |= 1 << (map % 64);
        }
        words
    }
}

/// Why a repair unlinks a chunk (02, request 3); the first of these that holds.
#[derive(Clone, Copy, Debug, PartialEq, Eq)]
pub enum Fault {
    /// "every chunk with a bad link"
    Link,
    /// "or bad map"
    Map,
    /// "and then, among chunks with good links and maps, every chunk that
    /// shares a map"
    SharedMap,
    /// "or unit with another"
    SharedUnit,
    /// "or names a unit twice"
    UnitTwice,
}

impl Fault {
    pub const NAMES: [&'static str; 5] = [
        "bad link",
        "bad map",
        "shared map",
        "shared unit",
        "unit twice",
    ];

    pub fn index(self) -> usize {
        self as usize
    }
}

/// The chunks that a repair unlinks, rising, by who owns what among the good
/// ones.
pub fn faults(shape: &Shape, image: &[u8]) -> Vec<(u64, Fault)> {
    let mut map_owners = vec![Vec::new(); shape.m as usize];
    let mut unit_owners = vec![Vec::new(); shape.n as usize];
    let mut alone: Vec<Option<Fault>> = Vec::new();
    for chunk in 0..shape.c {
        let map = entry(image, chunk);
        let held = Held::of(shape, image, chunk);
        let k = held.units().len() as u64;
        let mut rest = (k..shape.p).map(|at| word(image, shape.unit_at(map, at)));
        let fault = match map {
            X => None,
            _ if map >= shape.m => Some(Fault::Link),
            _ if k == 0 || rest.any(|word| word != X) => Some(Fault::Map),
            _ if !held.size_fits() => Some(Fault::Map),
            _ => None,
        };
        if map != X && fault.is_none() {
            map_owners[map as usize].push(chunk);
            for &unit in held.units() {
                unit_owners[unit].push(chunk);
            }
        }
        alone.push(fault);
    }
    let together = |chunk: u64| {
        let map = entry(image, chunk);
        if map == X {
            return None;
        }
        let held = Held::of(shape, image, chunk);
        let owned = |others: bool| {
            let owners = held.units().iter().map(|&unit| &unit_owners[unit]);
            owners.into_iter().any(|owners| match others {
                true => owners.iter().any(|&owner| owner != chunk),
                false => owners.len() > 1,
            })
        };
        if map_owners[map as usize].len() > 1 {
            Some(Fault::SharedMap)
        } else if owned(true) {
            Some(Fault::SharedUnit)
        } else {
            owned(false).then_some(Fault::UnitTwice)
        }
    };
    (0..shape.c)
        .zip(alone)
        .filter_map(|(chunk, alone)| Some((chunk, alone.or_else(|| together(chunk))?)))
        .collect()
}
