//! What was simulated, counted and printed.

use std::io::Write;
use std::ops::AddAssign;

use sumbilak_reference::inputs::decode;

use crate::event::{Event, Hand, DATA};
use crate::simulate::{Ending, Outcome};

#[derive(Clone, Debug, Default)]
pub struct Figures {
    pub lists: u64,
    pub events: u64,
    pub refused: u64,
    pub finished: u64,
    pub cut: u64,
    /// Cuts with the LINK landed.
    pub cut_linked: u64,
    /// Cuts with at least one step before the point that has not landed.
    pub cut_partial: u64,
    pub steps_landed: u64,
    /// DATA steps that have not landed.
    pub data_left: u64,
    /// Calls of the carrier on copies.
    pub carried: u64,
    pub violations: u64,
    /// By hand: plans accepted, plans refused, and good plans with a step
    /// count above their steps.
    pub hands: [[u64; 3]; Hand::NAMES.len()],
}

impl Figures {
    pub fn count(&mut self, event: &Event, outcome: &Outcome) {
        self.events += 1;
        let verdict = match outcome.ending {
            Ending::Refused(_) if outcome.plan_passed => 2,
            Ending::Refused(_) => 1,
            _ => 0,
        };
        self.hands[event.hand.index()][verdict] += 1;
        match outcome.ending {
            Ending::Refused(_) => {
                self.refused += 1;
                return;
            }
            Ending::Finished => self.finished += 1,
            Ending::Cut => {
                self.cut += 1;
                self.cut_linked += u64::from(outcome.link_landed);
                let partial = u64::from(outcome.landed.count_ones()) < event.n;
                self.cut_partial += u64::from(partial);
            }
        }
        self.steps_landed += u64::from(outcome.landed.count_ones());
        let left = |at: usize| outcome.landed >> at & 1 == 0;
        let steps = decode(&event.plan);
        let data = steps.iter().enumerate().filter(|(_, step)| step[0] == DATA);
        self.data_left += data.filter(|&(at, _)| left(at)).count() as u64;
    }
}

impl AddAssign<&Figures> for Figures {
    fn add_assign(&mut self, other: &Figures) {
        self.lists += other.lists;
        self.events += other.events;
        self.refused += other.refused;
        self.finished += other.finished;
        self.cut += other.cut;
        self.cut_linked += other.cut_linked;
        self.cut_partial += other.cut_partial;
        self.steps_landed += other.steps_landed;
        self.data_left += other.data_left;
        self.carried += other.carried;
        self.violations += other.violations;
        for (sum, more) in self.hands.iter_mut().zip(other.hands) {
            for (sum, more) in sum.iter_mut().zip(more) {
                *sum += more;
            }
        }
    }
}

/// Prints past the test harness, which would keep it to itself for a test that
/// passes.
pub fn print(text: &str) {
    let mut out = std::io::stdout().lock();
    // A closed pipe is no reason for a test to fail.
    let _ = out.write_all(text.as_bytes());
    let _ = out.flush();
}

/// A Markdown table, the columns padded; the first is set flush left.
pub fn table(title: &str, rows: &[Vec<String>]) -> String {
    let columns = rows.first().map_or(0, Vec::len);
    let widths: Vec<usize> = (0..columns)
        .map(|column| rows.iter().map(|row| row[column].chars().count()).max())
        .map(|widest| widest.unwrap_or(0).max(3))
        .collect();
    let mut text = format!("\n{title}\n\n");
    for (at, row) in rows.iter().enumerate() {
        for (column, (cell, width)) in row.iter().zip(&widths).enumerate() {
            text += &match column {
                0 => format!("| {cell:<width$} "),
                _ => format!("| {cell:>width$} "),
            };
        }
        text += "|\n";
        if at == 0 {
            for (column, width) in widths.iter().enumerate() {
                let dashes = "-".repeat(*width);
                text += &match column {
                    0 => format!("|-{dashes}-"),
                    _ => format!("|-{dashes}:"),
                };
            }
            text += "|\n";
        }
    }
    text
}

/// A row of a table.
pub fn row<T: ToString>(name: &str, cells: &[T]) -> Vec<String> {
    let cells = cells.iter().map(T::to_string);
    std::iter::once(name.to_string()).chain(cells).collect()
}
