//! The writes of the benchmark of the held index: round after round over all
//! chunks, "doing equal writes on 256 chunks" (02, request 7), with sizes of one
//! to P units mixed.

use crate::inputs::{Edition, Shape};
use crate::rng::Rng;

/// Sizes in a row, before they come again; no multiple of the chunks.
const SIZES: usize = 4093;

pub struct Workload {
    pub name: &'static str,
    pub shape: Shape,
    sizes: Vec<u64>,
}

impl Workload {
    fn new(name: &'static str, shape: Shape) -> Self {
        let mut rng = Rng::new(7);
        let mut size = || {
            let k = rng.between(1, shape.p);
            rng.between(4096 * (k - 1) + 1, 4096 * k)
        };
        let sizes = (0..SIZES).map(|_| size()).collect();
        Workload { name, shape, sizes }
    }

    /// The volumes that are measured: 16, 64 and 256 chunks, in either edition.
    pub fn all() -> Vec<Workload> {
        let shapes = [
            ("16 chunks", Shape::one(16, 16, 18, 288)),
            ("64 chunks", Shape::one(16, 64, 72, 1152)),
            ("256 chunks", Shape::one(16, 256, 288, 4608)),
        ];
        let in_edition =
            |edition| shapes.map(|(name, shape)| Workload::new(name, shape.in_edition(edition)));
        Edition::ALL.into_iter().flat_map(in_edition).collect()
    }

    /// Chunk and size of a write, counted from 0.
    pub fn write(&self, at: u64) -> (u64, u64) {
        (at % self.shape.c, self.sizes[at as usize % SIZES])
    }
}
