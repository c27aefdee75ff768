//! Format, load and shape: the image as a whole, and what makes it sound.

use core::ops::Range;

use super::bits::BitSet;
use super::geometry::{Edition, Geometry, MAP_WORDS, UNIT, UNIT_WORDS, WORD};
use super::refusals::{BAD_LINK, BAD_MAP, GEOMETRY, RANGE, SHARED};
use super::{Answer, Refusal};

/// "X is 2^64-1." (01)
pub(crate) const X: u64 = u64::MAX;

pub(crate) type Units = BitSet<UNIT_WORDS>;
pub(crate) type Maps = BitSet<MAP_WORDS>;

/// "Load answers P, C, M, N and both" free sets (01), and R (02, request 5).
#[derive(Clone, Debug, PartialEq, Eq)]
pub struct Loaded {
    pub p: u64,
    pub c: u64,
    pub m: u64,
    pub n: u64,
    pub r: u64,
    pub units: [u64; 72],
    pub maps: [u64; 5],
}

/// "The edition comes from a new call" (Decision 71): edition, P, C, M, N and
/// the number of reserved units (Decision 78).
#[derive(Clone, Copy, Debug, PartialEq, Eq)]
pub struct Shape {
    pub edition: u64,
    pub p: u64,
    pub c: u64,
    pub m: u64,
    pub n: u64,
    pub r: u64,
}

/// What planner, checker, carrier, held words, report and alarm go by: the two
/// tables, and the free sets. They are those of a sound image, rebuilt
/// ([`Volume::open`]), or what an index says (`index.rs`).
pub(crate) struct Volume<'a> {
    pub geometry: Geometry,
    pub free_units: Units,
    pub free_maps: Maps,
    pub words: Words<'a>,
}

/// The two tables of an image whose trailer is good, as 64-bit words.
#[derive(Clone, Copy)]
pub(crate) struct Words<'a> {
    logical: &'a [[u8; WORD]],
    maps: &'a [[u8; WORD]],
    geometry: Geometry,
}

impl<'a> Words<'a> {
    /// "First the logical map, C words of 64 bits; then M chunk maps of P
    /// words each" (01), of P+1 in edition 2 (02, request 4).
    pub fn of_image(image: &'a [u8], geometry: &Geometry) -> Self {
        let (words, _) = image.as_chunks::<WORD>();
        let (logical, rest) = words.split_at(geometry.c);
        Words {
            logical,
            maps: &rest[..geometry.m * geometry.map_words()],
            geometry: *geometry,
        }
    }

    /// A chunk's entry as it stands.
    pub fn entry(self, chunk: usize) -> u64 {
        u64::from_le_bytes(self.logical[chunk])
    }

    /// Chunk and map number of each mapped chunk, chunks rising.
    pub fn links(self) -> impl Iterator<Item = (usize, u64)> + 'a {
        let entries = self.logical.iter().map(|word| u64::from_le_bytes(*word));
        entries.enumerate().filter(|&(_, entry)| entry != X)
    }

    /// The P unit words of a map, the last ones of it.
    fn units(self, map: u64) -> impl Iterator<Item = u64> + 'a {
        let end = (map as usize + 1) * self.geometry.map_words();
        let units = &self.maps[end - self.geometry.p..end];
        units.iter().map(|word| u64::from_le_bytes(*word))
    }

    /// The size that a map keeps: "first the compressed size, then the units"
    /// (02, request 4). Edition 1 keeps none.
    pub fn size(self, map: u64) -> Option<u64> {
        let first = map as usize * self.geometry.map_words();
        let has_size = self.geometry.edition.size_words() > 0;
        has_size.then(|| u64::from_le_bytes(self.maps[first]))
    }

    /// "A sound map has k equal to the size rounded up in units" (02,
    /// request 4), the size being 64 bits wide (Decision 65).
    fn size_takes(self, map: u64, k: usize) -> bool {
        self.size(map)
            .is_none_or(|size| size.div_ceil(UNIT) == k as u64)
    }

    /// "What a map holds is its unit words up to the first that is not one of
    /// R to N-1" (Decision 102). In a map of the right form these are the words
    /// before the first X.
    pub fn held(self, map: u64) -> impl Iterator<Item = u64> + 'a {
        let Range { start, end } = self.geometry.units();
        let units = start as u64..end as u64;
        self.units(map).take_while(move |word| units.contains(word))
    }

    /// Whether a map "holds 1 to P units below N, then only X" (01), none of
    /// them reserved, with a size that takes just those units, if it keeps one.
    pub fn is_well_formed(self, map: u64) -> bool {
        let held = self.held(map).count();
        let only_x = self.units(map).skip(held).all(|word| word == X);
        held > 0 && only_x && self.size_takes(map, held)
    }

    /// "The first chunk is the lowest one it clashes with, or itself if none
    /// is lower." (01) Sharing a map is sharing its units, of which a
    /// well-formed map has at least one, so units alone decide.
    fn first_claimant(self, second: usize, map: u64) -> usize {
        let mut claimed = Units::empty();
        self.held(map)
            .for_each(|unit| claimed.insert(unit as usize));
        self.links()
            .find(|&(_, map)| self.held(map).any(|unit| claimed.contains(unit as usize)))
            .map_or(second, |(first, _)| first)
    }
}

impl<'a> Volume<'a> {
    /// Rows 1 to 6: "Every entry point first applies 1 to 6 to its image"
    /// (01), each row asked of all chunks before the next (Decision 3). "The
    /// free set is rebuilt at load" from the named maps only.
    ///
    /// Inlined, so that a caller does not copy both sets on their way out.
    #[inline(always)]
    pub fn open(image: &'a [u8]) -> Answer<Self> {
        let geometry = Geometry::of_image(image)?;
        let words = Words::of_image(image, &geometry);

        // Row 4: "entry neither X nor below M", the lowest such chunk.
        if let Some((chunk, _)) = words.links().find(|&(_, map)| map >= geometry.m as u64) {
            return Err(Refusal::at(BAD_LINK, chunk as u64));
        }

        let mut free_units = Units::of(geometry.units());
        let mut free_maps = Maps::of(0..geometry.m);
        // The first clash is kept until every map's form has been seen: row 5
        // of a higher chunk still wins over row 6.
        let mut clash = None;
        for (chunk, map) in words.links() {
            // Row 5: a named map that is not "1 to P units below N, then only
            // X", or whose size takes other units, the lowest such chunk.
            // "Units below R are never free and never held: a named map with
            // one gives 5." (02, request 5)
            // Row 6: "the second chunk is the lowest that claims a map or unit
            // of a lower chunk, or one unit twice"; in each case the map or
            // unit is gone by then.
            let mut fresh = free_maps.remove(map as usize);
            let mut held = 0;
            let mut rest = words.units(map);
            for unit in rest.by_ref().take_while(|&word| word != X) {
                if !geometry.is_unit(unit) {
                    return Err(Refusal::at(BAD_MAP, chunk as u64));
                }
                fresh &= free_units.remove(unit as usize);
                held += 1;
            }
            if held == 0 || !rest.all(|word| word == X) || !words.size_takes(map, held) {
                return Err(Refusal::at(BAD_MAP, chunk as u64));
            }
            if !fresh && clash.is_none() {
                clash = Some((chunk, map));
            }
        }
        if let Some((second, map)) = clash {
            return Err(Refusal {
                number: SHARED,
                place: words.first_claimant(second, map) as u64,
                second: second as u64,
            });
        }
        Ok(Volume {
            geometry,
            free_units,
            free_maps,
            words,
        })
    }

    /// Row 7: "chunk not below C". Compared as 64 bits: chunk 2^32 is out of
    /// range, never chunk 0 (Decision 1).
    pub fn chunk(&self, chunk: u64) -> Answer<usize> {
        if chunk < self.geometry.c as u64 {
            Ok(chunk as usize)
        } else {
            Err(Refusal::plain(RANGE))
        }
    }

    /// The map of a chunk, if it is mapped.
    pub fn link(&self, chunk: usize) -> Option<usize> {
        let entry = self.words.entry(chunk);
        (entry != X).then_some(entry as usize)
    }

    /// How many units a map holds.
    pub fn held_in(&self, map: usize) -> usize {
        self.words.held(map as u64).count()
    }

    /// "a call answers a chunk's stored size, k·4,096 in edition 1" and the
    /// size word in edition 2 (02, request 4).
    pub fn size_in(&self, map: usize) -> u64 {
        let whole = || self.held_in(map) as u64 * UNIT;
        self.words.size(map as u64).unwrap_or_else(whole)
    }

    /// Chunk and map number of each mapped chunk, chunks rising.
    pub fn links(&self) -> impl Iterator<Item = (usize, u64)> + 'a {
        self.words.links()
    }

    /// The units that a map holds, in order.
    pub fn units_in(&self, map: usize) -> impl Iterator<Item = u64> + 'a {
        self.words.held(map as u64)
    }

    pub fn mapped_chunks(&self) -> u64 {
        self.words.links().count() as u64
    }
}

/// Load. "Held units are those in named maps; all others are free. The same
/// for maps." (01) Reserved units are neither; "load answers" how many there
/// are (02, request 5).
pub fn load(image: &[u8]) -> Answer<Loaded> {
    let volume = Volume::open(image)?;
    let Geometry { p, c, m, n, r, .. } = volume.geometry;
    Ok(Loaded {
        p: p as u64,
        c: c as u64,
        m: m as u64,
        n: n as u64,
        r: r as u64,
        units: volume.free_units.into_words(),
        maps: volume.free_maps.into_words(),
    })
}

/// Shape. Judges the image as every entry point does, and answers its edition
/// and geometry (Decision 71).
pub fn shape(image: &[u8]) -> Answer<Shape> {
    Ok(Volume::open(image)?.geometry.shape())
}

/// "A fresh image has X in every entry and every map word" (01), the size too
/// (Decision 65). The buffer must have the image's length.
pub(crate) fn write_fresh(image: &mut [u8], geometry: &Geometry) {
    let (tables, trailer) = image.split_at_mut(image.len() - geometry.edition.trailer_len());
    // X is all ones, so every byte of both tables is FF.
    tables.fill(0xFF);
    geometry.write_trailer(trailer);
}

/// Format of either edition. It "gives only 3 (also if the lent buffer isn't
/// exactly the image's length)" (01).
fn format_as(image: &mut [u8], geometry: Option<Geometry>) -> Answer<()> {
    let geometry = geometry
        .filter(|geometry| geometry.image_len() == image.len())
        .ok_or(Refusal::plain(GEOMETRY))?;
    write_fresh(image, &geometry);
    Ok(())
}

/// Format of edition 1.
pub fn format(image: &mut [u8], p: u64, c: u64, m: u64, n: u64) -> Answer<()> {
    format_as(
        image,
        Geometry::within_limits(Edition::One, [p, c, m, n, 0]),
    )
}

/// Format of edition 2, which takes R: "R above N-P gives 3 like any other limit
/// broken, in format too, for any 64-bit number" (Decision 74).
pub fn format2(image: &mut [u8], p: u64, c: u64, m: u64, n: u64, r: u64) -> Answer<()> {
    format_as(
        image,
        Geometry::within_limits(Edition::Two, [p, c, m, n, r]),
    )
}
