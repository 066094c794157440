//! Rows of the single-particle cell asked once more of a solver without change request (v), whose ohmic drop is multiplied by
//! the current's sign. A row whose current has no negative sign has to keep its bits; one of a charge may have a higher voltage, and with it
//! another cutoff, and nothing else.
use crate::call::{Answer, Call, Function};
use crate::rows::{cell_of, interval, rows_of, temperature, Row, Table, CURRENT, CUTOFF, FUNCTIONS, VOLTAGE};
use calls::earlier::EarlierOhmicDrop;

const COLUMNS: [&str; 5] = ["not negative", "-0", "charge, same", "higher", "and cutoff"];

/// Rows by `COLUMNS`.
#[derive(Default)]
pub struct OhmicDrop(Table<{ COLUMNS.len() }>);

/// Whether a call can have a row in a column: a cycle's currents are never -0.
fn can(function: Function, column: &str) -> bool {
    function != Function::Cycle || column != "-0"
}

/// The column of a row, from the one before and the one now; none where they differ in what they must not.
fn column(before: &Row, now: &Row) -> Option<usize> {
    let same = |at: usize| before[at].to_bits() == now[at].to_bits();
    let current = now[CURRENT];
    if !(CURRENT..CUTOFF).all(same) {
        return None;
    }
    if same(VOLTAGE) {
        let column = if !current.is_sign_negative() {
            0
        } else if current == 0.0 {
            1
        } else {
            2
        };
        return same(CUTOFF).then_some(column);
    }
    let higher = current < 0.0 && now[VOLTAGE] > before[VOLTAGE];
    higher.then_some(if same(CUTOFF) { 3 } else { 4 })
}

impl OhmicDrop {
    pub fn add(&mut self, call: &Call, oracle: &Answer) {
        let function = call.function;
        if !FUNCTIONS.contains(&function) || oracle.image.is_none() {
            return;
        }
        let (mut earlier, temp_k) = (EarlierOhmicDrop::of(&cell_of(call)), temperature(call));
        for (number, now) in rows_of(call, oracle).iter().enumerate() {
            let before = earlier.row(now[CURRENT], interval(call, number), temp_k);
            match column(&before, now) {
                Some(at) => self.0.add(function, at),
                None => self.0.add_wrong(format!("{}, a row at {:e} A: before {before:?}, now {now:?}", function.name(), now[CURRENT])),
            }
        }
    }

    pub fn join(&mut self, other: Self) {
        self.0.join(other.0);
    }

    /// The table, and what a comparison that has seen everything would have.
    pub fn print(&self) -> Vec<String> {
        let mut missing = self.0.print_head("rows, by the current", COLUMNS);
        for function in FUNCTIONS {
            let counts = self.0.counts(function);
            let mut line = format!("{:<24}", function.name());
            for (count, name) in counts.into_iter().zip(COLUMNS) {
                line += &if can(function, name) { format!("{count:>14}") } else { format!("{:>14}", "-") };
                if can(function, name) == (count == 0) {
                    let what = if count == 0 { "no row" } else { "a row" };
                    missing.push(format!("the ohmic drop before and now: {} has {what} under '{name}'", function.name()));
                }
            }
            println!("{line}");
        }
        missing
    }
}
