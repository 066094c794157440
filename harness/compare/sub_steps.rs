//! Calls of the single-particle cell by the counts of sub-steps of their steps, before change request (vii) and now. Where all counts are alike, rows and
//! cell have to have the bits that a solver without that request gives. No count may be less, and no step that was refused with 7 may be accepted.
use crate::call::{Answer, Call, Function};
use crate::images::{image_of, words_of, Record};
use crate::rows::{cell_of, interval, rows_of, temperature, Row, Table, CURRENT, FUNCTIONS};
use calls::earlier::{self, EarlierSubSteps};
use calls::solver::{count_sub_steps, Cell, SUB_STEP};

/// All counts are alike; one is more; a step is refused with 7 that was not before.
const COLUMNS: [&str; 3] = ["alike", "more", "now 7"];

/// Calls by `COLUMNS`.
#[derive(Default)]
pub struct SubSteps(Table<{ COLUMNS.len() }>);

/// Whether a solver without the request makes the same rows and the same cell of them.
fn same_before(call: &Call, oracle: &Answer, cell: &Cell, rows: &[Row]) -> bool {
    let (mut earlier, temp_k) = (EarlierSubSteps::of(cell), temperature(call));
    let same_row = |(number, now): (usize, &Row)| {
        let before = earlier.row(now[CURRENT], interval(call, number), temp_k);
        before.map(f64::to_bits) == now.map(f64::to_bits)
    };
    let same_rows = rows.iter().enumerate().all(same_row);
    let cell = image_of(Record::Cell.parts(), &earlier.after(cell).slots());
    same_rows && oracle.image.as_ref().is_some_and(|image| image.starts_with(&cell))
}

/// The column of a call that made these rows and was refused with 7 after them or not; what is wrong with it where it has none, and nothing where no
/// step was accepted, before or now.
fn column(call: &Call, oracle: &Answer) -> Result<Option<usize>, String> {
    let (cell, temp_k, refused) = (cell_of(call), temperature(call), oracle.number == 7);
    let rows = if oracle.image.is_some() { rows_of(call, oracle) } else { Vec::new() };
    let longest = [earlier::SUB_STEP, SUB_STEP].map(|part| cell.longest_sub_step(part, temp_k));
    let (mut more, mut now_7) = (false, false);
    for step in 0..rows.len() + usize::from(refused) {
        let dt = interval(call, step);
        let [before, now] = longest.map(|longest| count_sub_steps(dt, longest));
        if now.is_err() != (step == rows.len()) {
            return Err(format!("step {step} has the count {now:?}"));
        }
        match (before, now) {
            (Ok(before), Ok(now)) if now < before => return Err(format!("step {step} had {before} sub-steps and has {now}")),
            (Err(7), Ok(_)) => return Err(format!("step {step} was refused with 7 and is not")),
            (Ok(before), Ok(now)) => more |= before < now,
            (before, _) => now_7 = before.is_ok(),
        }
    }
    if call.function == Function::CellStep && !rows.is_empty() {
        let (said, counted) = (words_of(oracle.image.as_ref().expect("an accepted step")), count_sub_steps(interval(call, 0), longest[1]));
        if said.last().copied() != counted.ok() {
            return Err(format!("the report says {:?} sub-steps, not {counted:?}", said.last()));
        }
    }
    match (now_7, more) {
        _ if rows.is_empty() && !now_7 => Ok(None),
        (true, _) => Ok(Some(2)),
        (false, true) => Ok(Some(1)),
        (false, false) if same_before(call, oracle, &cell, &rows) => Ok(Some(0)),
        (false, false) => Err("all counts are alike, and a row or the cell has other bits than before".to_string()),
    }
}

impl SubSteps {
    pub fn add(&mut self, call: &Call, oracle: &Answer) {
        let function = call.function;
        if !FUNCTIONS.contains(&function) || oracle.image.is_none() && oracle.number != 7 {
            return;
        }
        match column(call, oracle) {
            Ok(Some(at)) => self.0.add(function, at),
            Ok(None) => {}
            Err(why) => self.0.add_wrong(format!("{}: {why}", function.name())),
        }
    }

    pub fn join(&mut self, other: Self) {
        self.0.join(other.0);
    }

    /// The table, and what a comparison that has seen everything would have.
    pub fn print(&self) -> Vec<String> {
        let mut missing = self.0.print_head("calls, by sub-steps", COLUMNS);
        for function in FUNCTIONS {
            let counts = self.0.counts(function);
            println!("{:<24}{}", function.name(), counts.map(|count| format!("{count:>14}")).concat());
            for (_, name) in counts.into_iter().zip(COLUMNS).filter(|(count, _)| *count == 0) {
                missing.push(format!("sub-steps before and now: {} has no call under '{name}'", function.name()));
            }
        }
        missing
    }
}
