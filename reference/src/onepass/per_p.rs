//! What specialising would buy: a load compiled for each P of each edition, with
//! two banks of bits. Places of a map are claimed in the one and the other in
//! turn, so that a store need not wait for the one before it.

use super::pass::{size_fits, Claims, Rest, UNIT_WORDS, X};
use super::shape::Shape;
use super::{put_loaded, refuse};
use crate::model::Answer;

type Fill = fn(&mut Claims, &Shape, &[u8]) -> bool;

macro_rules! compiled {
    ($($p:literal)*) => {
        [$([fill::<$p, $p>, fill::<$p, { $p + 1 }>]),*]
    };
}

/// For P from 2 on, in both editions.
static COMPILED: [[Fill; 2]; 15] = compiled!(2 3 4 5 6 7 8 9 10 11 12 13 14 15 16);

#[inline(never)]
pub fn load(image: &[u8], out: &mut [u64]) -> Answer<u64> {
    let shape = Shape::of_image(image)?;
    let mut claims = Claims::NONE;
    match COMPILED[shape.p - 2][shape.head](&mut claims, &shape, image) {
        true => put_loaded(&shape, &claims, out),
        false => Err(refuse::verdict(&shape, image)),
    }
}

/// The pass over maps of P units and WIDTH words.
fn fill<const P: usize, const WIDTH: usize>(
    claims: &mut Claims,
    shape: &Shape,
    image: &[u8],
) -> bool {
    let count = shape.unit_words();
    let mut odd = [0; UNIT_WORDS];
    let banks = [&mut claims.units[..count], &mut odd[..count]];
    let (entries, tables) = shape.tables(image);
    let (tables, _) = tables.as_chunks::<WIDTH>();
    let mut held = 0;
    let mut rest = Rest::NOTHING;
    let mut sizes_fit = true;
    for entry in entries {
        let map = u64::from_le_bytes(*entry);
        if map == X {
            continue;
        }
        let map = map as usize;
        let Some(words) = tables.get(map) else {
            return false;
        };
        claims.maps[map / 64] |= 1 << (map % 64);
        let units: &[_; P] = words.last_chunk().expect("P of P or P + 1 words");
        let mut k = P;
        for (at, unit) in units.iter().enumerate() {
            let unit = u64::from_le_bytes(*unit);
            let Some(word) = banks[at % 2].get_mut((unit / 64) as usize) else {
                k = at;
                break;
            };
            *word |= 1 << (unit % 64);
        }
        if k == 0 {
            return false;
        }
        held += k;
        rest.and(&units[k..]);
        if P < WIDTH {
            sizes_fit &= size_fits(words[0], k);
        }
    }
    let [even, odd] = banks;
    for (even, odd) in even.iter_mut().zip(odd) {
        *even |= *odd;
    }
    rest.is_absent() && sizes_fit && claims.is_sound(shape, held)
}
