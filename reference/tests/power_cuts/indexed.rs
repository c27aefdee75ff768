//! Event lists through the calls with a held index (02, request 7): the index is
//! kept as long as plans are refused or finish, and "A crash, format, repair or
//! new N means loading anew."

use std::cell::RefCell;
use std::ops::AddAssign;

use sumbilak_reference::ffi::{self, CAnswer, CIndex, INDEX_WORDS};
use sumbilak_reference::inputs::Shape;

use crate::event::Request;
use crate::rules::Rules;

/// Up to so many chunks each is asked for its held words and its size.
const FEW_CHUNKS: u64 = 16;

/// An index, and the image that it is of.
#[derive(Clone)]
struct Held {
    image: Vec<u8>,
    index: CIndex,
    sets: [u64; INDEX_WORDS],
}

impl Held {
    fn open(image: &[u8]) -> Self {
        let mut sets = [0; INDEX_WORDS];
        let opened = ffi::open(image, &mut sets);
        assert_eq!(opened.answer.number, 0, "the image found opens");
        Held {
            image: image.to_vec(),
            index: opened.index,
            sets,
        }
    }
}

/// How often an index was opened, taken over from a plan that finished, and used
/// by a call.
#[derive(Clone, Copy, Debug, Default, PartialEq, Eq)]
pub struct Uses {
    pub opened: u64,
    pub kept: u64,
    pub plans: u64,
    pub checks: u64,
    pub carried: u64,
}

impl AddAssign for Uses {
    fn add_assign(&mut self, other: Uses) {
        self.opened += other.opened;
        self.kept += other.kept;
        self.plans += other.plans;
        self.checks += other.checks;
        self.carried += other.carried;
    }
}

#[derive(Default)]
struct State {
    held: Option<Held>,
    /// What the event's plan leaves, should it finish.
    finished: Option<Held>,
    /// A plan was checked, and not carried out yet: the next carrying out is the
    /// event's own, those after it are on copies.
    checked: bool,
    /// The event is a cut: what is held is given up when it is over.
    cut: bool,
    uses: Uses,
}

/// The library through its index.
#[derive(Default)]
pub struct Indexed(RefCell<State>);

impl Indexed {
    pub fn uses(&self) -> Uses {
        self.0.borrow().uses
    }
}

impl State {
    /// The index for an image: the one that is held, the one that a plan left
    /// that finished, or one that is opened.
    fn at(&mut self, image: &[u8]) -> Held {
        let fits = |held: &Option<Held>| held.as_ref().is_some_and(|held| held.image == image);
        if !fits(&self.held) {
            if fits(&self.finished) {
                self.uses.kept += 1;
                self.held = self.finished.take();
            } else {
                self.uses.opened += 1;
                self.held = Some(Held::open(image));
            }
        }
        self.held.clone().expect("held by now")
    }
}

impl Rules for Indexed {
    const RIGHT: bool = true;

    /// After each event, on the image found: the index that goes on is current,
    /// and reads by it are those that scan.
    fn load(&self, shape: &Shape, image: &[u8], out: &mut [u64]) -> CAnswer {
        let answer = ffi::load(image, out);
        if answer.number != 0 {
            return answer;
        }
        let mut state = self.0.borrow_mut();
        if std::mem::take(&mut state.cut) {
            state.held = None;
        }
        let Held { index, sets, .. } = state.at(image);
        assert_eq!(out[4..], sets, "the index is current");
        let report = ffi::index_report(index, &sets, image);
        assert_eq!(report, ffi::report(image), "report");
        if shape.c <= FEW_CHUNKS {
            for chunk in 0..shape.c {
                let held = ffi::index_held(index, &sets, image, chunk);
                assert_eq!(held, ffi::held(image, chunk), "held words");
                let size = ffi::index_stored_size(index, &sets, image, chunk);
                assert_eq!(size, ffi::stored_size(image, chunk), "stored size");
            }
        }
        answer
    }

    fn plan(&self, _shape: &Shape, image: &[u8], request: Request, out: &mut [u8]) -> CAnswer {
        let mut state = self.0.borrow_mut();
        state.uses.plans += 1;
        let Held { index, sets, .. } = state.at(image);
        let chunk = request.chunk;
        match request.size {
            Some(size) => ffi::index_plan_write(index, &sets, image, chunk, size, out),
            None => ffi::index_plan_discard(index, &sets, image, chunk, out),
        }
    }

    fn check(&self, _shape: &Shape, image: &[u8], request: Request, plan: &[u8]) -> CAnswer {
        let mut state = self.0.borrow_mut();
        state.uses.checks += 1;
        state.checked = true;
        let Held { index, sets, .. } = state.at(image);
        let chunk = request.chunk;
        match request.size {
            Some(size) => ffi::index_check_write(index, &sets, image, chunk, size, plan),
            None => ffi::index_check_discard(index, &sets, image, chunk, plan),
        }
    }

    fn carry(
        &self,
        _shape: &Shape,
        image: &mut [u8],
        request: Request,
        plan: &[u8],
        n: u64,
    ) -> CAnswer {
        let mut state = self.0.borrow_mut();
        let mut next = state.at(image);
        let (index, sets, chunk) = (next.index, &mut next.sets, request.chunk);
        let answer = match request.size {
            Some(size) => ffi::index_carry_write(index, sets, image, chunk, size, plan, n),
            None => ffi::index_carry_discard(index, sets, image, chunk, plan, n),
        };
        next.image.clear();
        next.image.extend_from_slice(image);
        if answer.number == 0 {
            state.uses.carried += 1;
            let due = Held::open(image);
            assert_eq!(next.sets, due.sets, "current after {n} steps");
        } else {
            let held = state.held.as_ref().expect("held");
            assert!(next.sets == held.sets, "a refused call");
        }
        if std::mem::take(&mut state.checked) {
            let accepted = answer.number == 0;
            let all = n == plan.len() as u64 / 16;
            state.cut = accepted && !all;
            state.finished = (accepted && all).then_some(next);
        }
        answer
    }
}
