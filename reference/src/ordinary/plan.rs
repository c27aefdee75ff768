//! The planner.

use super::*;

/// Writes steps one after the other.
struct Steps<'a> {
    out: &'a mut [u8],
    at: usize,
}

impl Steps<'_> {
    #[inline(always)]
    fn put(&mut self, fields: [u32; 4]) {
        let step = &mut self.out[self.at..self.at + STEP];
        for (bytes, field) in step.chunks_exact_mut(4).zip(fields) {
            bytes.copy_from_slice(&field.to_le_bytes());
        }
        self.at += STEP;
    }
}

impl Volume {
    /// Plans a write on the lowest free units by the lowest free map. Answers the
    /// number of steps.
    #[inline(never)]
    pub fn plan_write(&self, chunk: u64, size: u64, out: &mut [u8]) -> Result<usize, Refused> {
        let chunk = self.chunk(chunk)?;
        let k = self.units_for(size)?;
        // The units, then absent, as the map's words will be.
        let mut units = [ABSENT32; MOST_UNITS];
        let found = self.free_units.lowest(&mut units[..k]);
        if found < k {
            return Err(Refused::NoRoom { free: found as u32 });
        }
        let map = self.free_maps.first().expect("more maps than chunks");
        let steps = k + self.width + 3;
        if out.len() < STEP * steps {
            let needed = STEP * steps;
            return Err(Refused::Small { needed });
        }
        let out = &mut out[..STEP * steps];

        let mut put = Steps { out, at: 0 };
        for (piece, &unit) in units[..k].iter().enumerate() {
            put.put([DATA, unit, piece as u32, 0]);
        }
        if self.head == 1 {
            put.put([MAP, map, 0, size as u32]);
        }
        for (j, &unit) in units[..self.p].iter().enumerate() {
            put.put([MAP, map, (self.head + j) as u32, unit]);
        }
        put.put([FENCE, 0, 0, 0]);
        put.put([LINK, chunk as u32, 0, map]);
        put.put([FENCE, 0, 0, 0]);
        Ok(steps)
    }

    /// Plans a discard.
    #[inline(never)]
    pub fn plan_discard(&self, chunk: u64, out: &mut [u8]) -> Result<usize, Refused> {
        let chunk = self.chunk(chunk)?;
        if self.entry(chunk) == ABSENT {
            return Ok(0);
        }
        let needed = 2 * STEP;
        if out.len() < needed {
            return Err(Refused::Small { needed });
        }
        let mut put = Steps { out, at: 0 };
        put.put([LINK, chunk as u32, 0, ABSENT32]);
        put.put([FENCE, 0, 0, 0]);
        Ok(2)
    }
}
