//! Geometries, and images of them that hold nothing.

use std::ops::Range;

use super::*;

/// A geometry: the edition, P, C, M, N, R.
#[derive(Clone, Copy, Debug, PartialEq, Eq)]
pub struct Shape {
    pub edition: Edition,
    pub p: u64,
    pub c: u64,
    pub m: u64,
    pub n: u64,
    pub r: u64,
}

impl Shape {
    /// A geometry of edition 1.
    pub const fn one(p: u64, c: u64, m: u64, n: u64) -> Self {
        let (edition, r) = (Edition::One, 0);
        Shape {
            edition,
            p,
            c,
            m,
            n,
            r,
        }
    }

    /// The same numbers in this edition; edition 1 has no reserved units.
    pub const fn in_edition(self, edition: Edition) -> Self {
        match edition {
            Edition::One => Shape::one(self.p, self.c, self.m, self.n),
            Edition::Two => Shape { edition, ..self },
        }
    }

    /// The same in edition 2, with this many units reserved.
    pub const fn reserving(self, r: u64) -> Self {
        let edition = Edition::Two;
        Shape { edition, r, ..self }
    }

    /// The same in edition 2, with this many units reserved, or fewer: they are
    /// put before its own as far as P·M allows, and P are left.
    pub fn reserving_before(self, r: u64) -> Self {
        let n = (self.n + r).min(self.p * self.m);
        let longer = Shape { n, ..self };
        longer.reserving(r.min(longer.most_reserved()))
    }

    /// The numbers that are units: R to N-1.
    pub const fn units(&self) -> Range<u64> {
        self.r..self.n
    }

    pub const fn is_unit(&self, word: u64) -> bool {
        self.r <= word && word < self.n
    }

    /// The most units that can be reserved: N-P.
    pub const fn most_reserved(&self) -> u64 {
        self.n.saturating_sub(self.p)
    }

    /// Words of a map before its units: the size, in edition 2.
    pub const fn size_words(&self) -> u64 {
        match self.edition {
            Edition::One => 0,
            Edition::Two => 1,
        }
    }

    /// Words of a map.
    pub const fn map_words(&self) -> u64 {
        self.p + self.size_words()
    }

    pub const fn trailer_len(&self) -> usize {
        match self.edition {
            Edition::One => 32,
            Edition::Two => 40,
        }
    }

    pub const fn image_len(&self) -> usize {
        (8 * self.c + 8 * self.m * self.map_words()) as usize + self.trailer_len()
    }

    pub const fn chunk_bytes(&self) -> u64 {
        self.p * UNIT
    }

    pub const fn volume_bytes(&self) -> u64 {
        self.c * self.chunk_bytes()
    }

    /// Byte position of a word of a map.
    pub const fn word_at(&self, map: u64, word: u64) -> usize {
        (8 * self.c + 8 * (map * self.map_words() + word)) as usize
    }

    /// Byte position of a map's j-th unit.
    pub const fn unit_at(&self, map: u64, j: u64) -> usize {
        self.word_at(map, self.size_words() + j)
    }

    /// Steps of the planner's write of k units.
    pub const fn write_steps(&self, k: u64) -> u64 {
        k + self.map_words() + 3
    }
}

/// Either edition, each as likely.
pub fn edition(rng: &mut Rng) -> Edition {
    rng.pick(&Edition::ALL)
}

/// A geometry within the limits; both ends of each limit come up often, as do
/// unit counts around (C+1)·P and around full words of the free set, in edition
/// 2 besides the reserved ones.
pub fn shape(rng: &mut Rng) -> Shape {
    let (p, c, m) = match rng.below(10) {
        0 => (4, 4, 5),
        1..=5 => {
            let c = rng.between(1, 8);
            let m = c + rng.pick(&[1, 1, 2, 3, 4, 32]);
            (rng.pick(&[2, 2, 3, 4, 5, 8, 16]), c, m)
        }
        6 | 7 => {
            let c = rng.between(1, 64);
            (rng.between(2, 16), c, c + rng.between(1, 32))
        }
        8 => {
            let c = rng.pick(&[1, 1, 1, 256]);
            (rng.pick(&[2, 16]), c, c + rng.pick(&[1, 32]))
        }
        _ => {
            let c = rng.pick(&[1, 2, 31, 32, 63, 64, 65, 127, 128, 255, 256]);
            (rng.between(2, 16), c, c + rng.between(1, 32))
        }
    };
    let room = (c + 1) * p;
    let n = match rng.below(12) {
        0 => p,
        1 => p * m,
        2 => p * m - 1,
        3 => room - 1,
        4 => room,
        5 => room + 1,
        6 => c * p,
        7 => c * p - 1,
        8 => p + 1,
        9 => rng.pick(&[63, 64, 65, 127, 128, 129, 4607]),
        _ => rng.between(p, p * m),
    };
    let one = Shape::one(p, c, m, n.clamp(p, p * m));
    match edition(rng) {
        Edition::One => one,
        Edition::Two => {
            let r = reserved(rng, &one);
            // Taken from the N units, or put before them.
            match rng.chance(50) {
                true => one.reserving(r),
                false => one.reserving_before(r),
            }
        }
    }
}

/// A number of units to reserve: none, few, many, as many as can be, or so many
/// that N-R is around (C+1)·P or C·P.
fn reserved(rng: &mut Rng, shape: &Shape) -> u64 {
    let Shape { p, c, n, .. } = *shape;
    let most = shape.most_reserved();
    let besides = |units: u64| n.saturating_sub(units);
    let r = match rng.below(12) {
        0..=2 => 0,
        3 => rng.between(1, 3),
        4 => rng.pick(&[p - 1, p, p + 1]),
        5 => most,
        6 => most.saturating_sub(1),
        7 => besides((c + 1) * p),
        8 => besides((c + 1) * p - 1),
        9 => besides(rng.pick(&[c * p, c * p - 1])),
        10 => rng.pick(&[63, 64, 65, 127, 128, 129]),
        _ => rng.between(0, most),
    };
    r.min(most)
}

/// One of the reserved units, of which there must be some: the last, the first
/// or any.
pub fn reserved_unit(rng: &mut Rng, shape: &Shape) -> u64 {
    match rng.below(3) {
        0 => shape.r - 1,
        1 => 0,
        _ => rng.below(shape.r),
    }
}

/// An image of any geometry, good or not, with X in every word and a trailer
/// that agrees with it in every field.
pub fn blank(shape: &Shape) -> Vec<u8> {
    let Shape { p, c, m, n, r, .. } = *shape;
    let mut image = vec![0xFF; shape.image_len()];
    let at = image.len() - shape.trailer_len();
    let maps = 8 * m * shape.map_words();
    let words = [c, m, n, 8 * c + maps, maps, image.len() as u64, r, 0];
    image[at..at + 4].copy_from_slice(b"RMAP");
    image[at + 4..at + 6].copy_from_slice(&(shape.edition.number() as u16).to_le_bytes());
    image[at + 6..at + 8].copy_from_slice(&(p as u16).to_le_bytes());
    let fields = image[at + 8..].chunks_exact_mut(4);
    for (field, word) in fields.zip(words) {
        field.copy_from_slice(&(word as u32).to_le_bytes());
    }
    image
}

/// A geometry just past one limit and good otherwise.
pub fn past_a_limit(rng: &mut Rng, shape: &Shape) -> Shape {
    let mut past = *shape;
    match rng.below(8) {
        0 => past.p = rng.pick(&[1, 17]),
        1 => past.c = rng.pick(&[0, 257]),
        2 => past.m = past.c,
        3 => past.m = past.c + 33,
        4 => past.n = past.p - 1,
        6 | 7 if shape.edition == Edition::Two => {
            let far = rng.pick(&[shape.n, u64::from(u32::MAX)]);
            past.r = rng.pick(&[shape.most_reserved() + 1, far]);
            return past;
        }
        _ => past.n = past.p * past.m + 1,
    }
    if past.c != shape.c {
        past.m = past.c + rng.between(1, 32);
    }
    if past.n == shape.n {
        past.n = past.n.clamp(past.p, past.p * past.m);
    }
    // N below P leaves no R that is good, and none makes up for it.
    if past.n >= past.p || rng.chance(50) {
        past.r = past.r.min(past.most_reserved());
    }
    past
}

/// A fresh image.
pub fn fresh(shape: &Shape) -> Vec<u8> {
    let mut image = vec![0; shape.image_len()];
    let Shape { p, c, m, n, r, .. } = *shape;
    match shape.edition {
        Edition::One => model::format(&mut image, p, c, m, n),
        Edition::Two => model::format2(&mut image, p, c, m, n, r),
    }
    .expect("the shape is within the limits");
    image
}
