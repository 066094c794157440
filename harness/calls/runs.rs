//! Runs into a lent slice: eight places a step, and how a run ends.
use crate::words::{slice, word, Slot};

/// The endings. The paper names them and gives no number; these are the port's.
#[derive(Clone, Copy, PartialEq, Debug)]
pub enum Ending {
    Voltage = 1,
    Time = 2,
    Full = 3,
    Refused = 4,
    Done = 5,
    Spent = 6,
}

pub const ROW: usize = 8;

/// What a run gives: how it ended, the number where it was refused (else 0), the rows, and the cell after them.
pub struct Run<C> {
    pub ending: Ending,
    pub refusal: u64,
    pub rows: Vec<[f64; ROW]>,
    pub cell: C,
}

impl<C> Run<C> {
    /// Ending, refusal and rows; then, where there is a row, what the run changed in the cell.
    pub fn slots(&self, changed: impl Fn(&C) -> Vec<Slot>) -> Vec<Slot> {
        let mut slots = vec![word(self.ending as u64), word(self.refusal), slice(&self.rows.concat())];
        if !self.rows.is_empty() {
            slots.extend(changed(&self.cell));
        }
        slots
    }
}

/// One step of a run: the cell after it, its row, and whether the voltage ended the run.
pub struct Turn<C> {
    pub cell: C,
    pub row: [f64; ROW],
    pub cutoff: bool,
}

/// Steps until an ending holds, tested after each row in the order voltage, time, full. `time_over` says, of the count of
/// rows and the cell, whether the time is over; where `test_before_first`, it is asked before the first step too.
pub fn run<C: Clone>(
    start: &C,
    places: usize,
    mut step: impl FnMut(&C) -> Result<Turn<C>, u64>,
    mut time_over: impl FnMut(usize, &C) -> bool,
    test_before_first: bool,
) -> Run<C> {
    let capacity = places / ROW;
    let mut rows = Vec::new();
    let mut cell = start.clone();
    if test_before_first && time_over(0, &cell) {
        return Run { ending: Ending::Time, refusal: 0, rows, cell };
    }
    loop {
        let turn = match step(&cell) {
            Ok(turn) => turn,
            Err(refusal) => return Run { ending: Ending::Refused, refusal, rows, cell },
        };
        rows.push(turn.row);
        cell = turn.cell;
        let ending = if turn.cutoff {
            Ending::Voltage
        } else if time_over(rows.len(), &cell) {
            Ending::Time
        } else if rows.len() == capacity {
            Ending::Full
        } else {
            continue;
        };
        return Run { ending, refusal: 0, rows, cell };
    }
}

/// A run that is refused as a whole.
pub fn refused<C: Clone>(cell: &C, refusal: u64) -> Run<C> {
    Run { ending: Ending::Refused, refusal, rows: Vec::new(), cell: cell.clone() }
}
