//! The plan checker: one pass over the steps, then the rules in order.

use super::*;

const MOST_STEPS: usize = 64;
const NO_MAP: u32 = u32::MAX;

/// A write's plan that passed: its units, its map, and which step is LINK.
pub(super) struct Checked {
    units: [u32; MOST_UNITS],
    k: usize,
    pub map: u32,
    pub link: usize,
}

impl Checked {
    pub fn units(&self) -> &[u32] {
        &self.units[..self.k]
    }
}

fn broken<T>(rule: u8) -> Result<T, Refused> {
    Err(Refused::BadPlan { rule })
}

impl Volume {
    /// Checks a write's plan.
    #[inline(never)]
    pub fn check_write(&self, chunk: u64, size: u64, plan: &[u8]) -> Result<(), Refused> {
        self.checked_write(chunk, size, plan).map(|_| ())
    }

    /// Checks a discard's plan.
    #[inline(never)]
    pub fn check_discard(&self, chunk: u64, plan: &[u8]) -> Result<(), Refused> {
        self.checked_discard(chunk, plan).map(|_| ())
    }

    /// Rule 1 for a MAP step's value: a good size in the size word, else a unit's
    /// number or absent.
    #[inline(always)]
    fn is_value(&self, word: u32, value: u32) -> bool {
        if (word as usize) < self.head {
            value != 0 && u64::from(value) <= self.p as u64 * UNIT
        } else {
            (value as usize) < self.n || value == ABSENT32
        }
    }

    #[inline(always)]
    pub(super) fn checked_write(
        &self,
        chunk: u64,
        size: u64,
        plan: &[u8],
    ) -> Result<Checked, Refused> {
        let chunk = self.chunk(chunk)? as u32;
        let k = self.units_for(size)?;
        if !plan.len().is_multiple_of(STEP) || plan.len() > STEP * MOST_STEPS {
            return broken(1);
        }
        // What each word of the map has to be: the size, the lowest free units,
        // absent. Where units are missing, no unit of a step is right.
        let mut units = [ABSENT32; MOST_UNITS];
        self.free_units.lowest(&mut units[..k]);

        let (mut pieces, mut words) = (0_u32, 0_u32);
        let (mut units_good, mut words_good, mut order_good) = (true, true, true);
        let mut map = NO_MAP;
        let (mut links, mut linked, mut link) = (0, [0; 2], 0);
        // Stores since the last fence.
        let mut unfenced = false;
        let mut last = 0;
        for (at, step) in plan.chunks_exact(STEP).enumerate() {
            let [kind, a, b, value] = fields(step);
            last = kind;
            match kind {
                DATA => {
                    if a as usize >= self.n || b as usize >= self.p || value != 0 {
                        return broken(1);
                    }
                    units_good &= units[b as usize] == a && pieces >> b & 1 == 0;
                    pieces |= 1 << b;
                    order_good &= links == 0;
                    unfenced = true;
                }
                MAP => {
                    let fits = (a as usize) < self.m
                        && (b as usize) < self.width
                        && self.is_value(b, value);
                    if !fits {
                        return broken(1);
                    }
                    if map == NO_MAP {
                        map = a;
                    }
                    let due = match (b as usize).checked_sub(self.head) {
                        Some(j) => units[j],
                        None => size as u32,
                    };
                    words_good &= map == a && due == value && words >> b & 1 == 0;
                    words |= 1 << b;
                    order_good &= links == 0;
                    unfenced = true;
                }
                LINK => {
                    let fits = (a as usize) < self.c
                        && b == 0
                        && ((value as usize) < self.m || value == ABSENT32);
                    if !fits {
                        return broken(1);
                    }
                    links += 1;
                    linked = [a, value];
                    link = at;
                    order_good &= !unfenced;
                }
                FENCE => {
                    if a | b | value != 0 {
                        return broken(1);
                    }
                    unfenced = false;
                }
                _ => return broken(1),
            }
        }
        if !units_good || pieces != (1 << k) - 1 {
            return broken(2);
        }
        let all = (1_u32 << self.width) - 1;
        if !words_good || words != all || !self.free_maps.contains(map as usize) {
            return broken(3);
        }
        if links != 1 || linked != [chunk, map] {
            return broken(4);
        }
        if !order_good || last != FENCE {
            return broken(5);
        }
        Ok(Checked {
            units,
            k,
            map,
            link,
        })
    }

    /// Answers which step is LINK; where there is none, one past every plan.
    #[inline(always)]
    pub(super) fn checked_discard(&self, chunk: u64, plan: &[u8]) -> Result<usize, Refused> {
        let chunk = self.chunk(chunk)?;
        if !plan.len().is_multiple_of(STEP) || plan.len() > STEP * MOST_STEPS {
            return broken(1);
        }
        let (mut data, mut maps, mut links) = (false, false, 0);
        let (mut linked, mut link, mut last) = ([0; 2], MOST_STEPS, 0);
        for (at, step) in plan.chunks_exact(STEP).enumerate() {
            let [kind, a, b, value] = fields(step);
            last = kind;
            let fits = match kind {
                DATA => (a as usize) < self.n && (b as usize) < self.p && value == 0,
                MAP => {
                    (a as usize) < self.m && (b as usize) < self.width && self.is_value(b, value)
                }
                LINK => {
                    (a as usize) < self.c
                        && b == 0
                        && ((value as usize) < self.m || value == ABSENT32)
                }
                FENCE => a | b | value == 0,
                _ => false,
            };
            if !fits {
                return broken(1);
            }
            match kind {
                DATA => data = true,
                MAP => maps = true,
                LINK => {
                    links += 1;
                    linked = [a, value];
                    link = at;
                }
                _ => {}
            }
        }
        if data {
            return broken(2);
        }
        if maps {
            return broken(3);
        }
        if self.entry(chunk) == ABSENT {
            return match (links, plan.is_empty()) {
                (0, true) => Ok(link),
                (0, false) => broken(5),
                _ => broken(4),
            };
        }
        if links != 1 || linked != [chunk as u32, ABSENT32] {
            return broken(4);
        }
        if last != FENCE {
            return broken(5);
        }
        Ok(link)
    }
}
