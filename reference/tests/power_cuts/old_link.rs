//! "No last FENCE: the next plan reuses old units while the old link may come
//! back." (01)
//!
//! In 01's events every plan is over before the next begins. Here one that
//! lacks its last FENCE is believed to be over: the next is planned on the
//! image as the caller sees it, while LINK is still on its way. The two are
//! then cut as the one row of steps that they are to the device.

use sumbilak_reference::inputs::{decode, Edition, Fields, Shape, LONGEST_PLAN};

use crate::event::{Event, Hand, Leftovers, Payload, Request};
use crate::rules::{fenced, land, landed, Library, Rules};
use crate::volume::{Held, Volume};

/// What became of the chunk in all cuts of the second plan.
#[derive(Clone, Copy, Debug, Default, PartialEq, Eq)]
pub struct Cuts {
    pub tried: u64,
    /// Cuts after which the first plan's write is gone, though it was told to
    /// be finished.
    pub lost: u64,
    /// Cuts after which the chunk holds what nobody ever gave it.
    pub lies: u64,
}

fn write(volume: &Volume, shape: &Shape, number: u64, size: u64) -> Event {
    let request = Request {
        chunk: 0,
        size: Some(size),
    };
    let mut out = [0; LONGEST_PLAN];
    let answer = Library.plan(shape, &volume.image, request, &mut out);
    assert_eq!(answer.number, 0, "there is room");
    Event {
        request,
        payload: Payload { base: number << 6 },
        plan: out[..16 * answer.value as usize].to_vec(),
        hand: Hand::Planner,
        n: answer.value,
        choice: 0,
        leftovers: Leftovers::Unchanged,
    }
}

/// Lands a whole plan.
fn finish(volume: &mut Volume, shape: &Shape, event: &Event) {
    let steps = decode(&event.plan);
    land(&Library, shape, volume, event, &steps, u64::MAX);
}

/// A volume with one chunk, written three times: safely, then with or without
/// the last FENCE, then by the planner once more, cut at every point and with
/// every subset.
pub fn run(edition: Edition, last_fence: bool) -> Cuts {
    let shape = Shape::one(2, 1, 2, 4).in_edition(edition);
    let mut durable = Volume::formatted(&shape, || 0);
    let old = write(&durable, &shape, 1, 8192);
    finish(&mut durable, &shape, &old);

    let mut first = write(&durable, &shape, 2, 4096);
    if !last_fence {
        first.plan.truncate(first.plan.len() - 16);
    }
    let mut seen = durable.clone();
    finish(&mut seen, &shape, &first);
    let mut second = write(&seen, &shape, 3, 8192);

    let first_steps = decode(&first.plan);
    let second_steps = decode(&second.plan);
    let row: Vec<Fields> = [first_steps.clone(), second_steps.clone()].concat();
    let pieces = |event: &Event| -> Vec<u64> {
        let payload = event.payload;
        (0..event.request.k()).map(|j| payload.piece(j)).collect()
    };
    first.n = first_steps.len() as u64;
    let mut cuts = Cuts::default();
    for n in first_steps.len()..=row.len() {
        let fence = fenced(&row, n);
        second.n = (n - first_steps.len()) as u64;
        let left = [Leftovers::Unchanged, Leftovers::Garbage(n as u64)];
        let subsets = 0..1u64 << (n - fence);
        for (subset, leftovers) in subsets.flat_map(|subset| left.map(|left| (subset, left))) {
            second.leftovers = leftovers;
            let landed = landed(&Library, &row, n, subset << fence);
            let mut found = durable.clone();
            land(&Library, &shape, &mut found, &first, &first_steps, landed);
            let landed = landed >> first_steps.len();
            land(&Library, &shape, &mut found, &second, &second_steps, landed);

            let held = Held::of(&shape, &found.image, 0);
            let holds: Vec<u64> = held.pieces(&found.units).collect();
            cuts.tried += 1;
            cuts.lost += u64::from(holds == pieces(&old));
            let given = [&old, &first, &second].map(pieces);
            cuts.lies += u64::from(!given.contains(&holds));
        }
    }
    cuts
}
