//! The rows of an accepted call of the single-particle cell, with what each was asked, and a table of what became of calls or rows since a change request.
use crate::call::{Answer, Argument, Call, Function};
use crate::images::{slots_of, words_of};
use calls::replay::LINE;
use calls::runs::ROW;
use calls::solver::Cell;
use calls::words::Reader;
use std::collections::{BTreeMap, BTreeSet};

/// The calls that have such rows.
pub const FUNCTIONS: [Function; 4] = [Function::CellStep, Function::Discharge, Function::Replay, Function::Cycle];
/// places of a row
pub const VOLTAGE: usize = 0;
pub const CURRENT: usize = 1;
pub const CUTOFF: usize = 7;

pub type Row = [f64; ROW];

/// The rows of an accepted call; a step has one, its report.
pub fn rows_of(call: &Call, oracle: &Answer) -> Vec<Row> {
    let floats = |words: &[u64]| -> Row { std::array::from_fn(|at| f64::from_bits(words[at])) };
    if call.function.is_run() {
        return oracle.rows.chunks(ROW).map(floats).collect();
    }
    let words = words_of(oracle.image.as_deref().expect("an accepted step"));
    let report = &words[words.len() - ROW - 1..];
    let mut row = floats(report);
    row[CUTOFF] = report[CUTOFF] as f64;
    vec![row]
}

/// The cell that the call is lent.
pub fn cell_of(call: &Call) -> Cell {
    Cell::read(&mut Reader::new(&slots_of(call.function.record().parts(), &call.image)))
}

/// The call's number of this meaning.
fn number(call: &Call, meant: fn(&Argument) -> bool) -> f64 {
    f64::from_bits(call.numbers[call.function.arguments().iter().position(meant).expect("such a number")])
}

pub fn temperature(call: &Call) -> f64 {
    number(call, |argument| matches!(argument, Argument::Temperature))
}

/// The interval of a call's row.
pub fn interval(call: &Call, row: usize) -> f64 {
    if call.function != Function::Replay {
        return number(call, |argument| matches!(argument, Argument::Interval));
    }
    let digits = std::str::from_utf8(&call.text[row * LINE..][..16]).expect("digits");
    f64::from_bits(u64::from_str_radix(digits, 16).expect("digits"))
}

/// Counts by call and column, and what was wrong.
pub struct Table<const N: usize> {
    by_function: BTreeMap<Function, [u64; N]>,
    wrong: BTreeSet<String>,
}

impl<const N: usize> Default for Table<N> {
    fn default() -> Self {
        Self { by_function: BTreeMap::new(), wrong: BTreeSet::new() }
    }
}

impl<const N: usize> Table<N> {
    pub fn add(&mut self, function: Function, column: usize) {
        self.by_function.entry(function).or_insert([0; N])[column] += 1;
    }

    pub fn add_wrong(&mut self, why: String) {
        self.wrong.insert(why);
    }

    pub fn counts(&self, function: Function) -> [u64; N] {
        self.by_function.get(&function).copied().unwrap_or([0; N])
    }

    pub fn join(&mut self, other: Self) {
        for (function, counts) in other.by_function {
            let own = self.by_function.entry(function).or_insert([0; N]);
            own.iter_mut().zip(counts).for_each(|(own, count)| *own += count);
        }
        self.wrong.extend(other.wrong);
    }

    /// Prints the names of the columns; the first ten of what was wrong.
    pub fn print_head(&self, title: &str, columns: [&str; N]) -> Vec<String> {
        println!("{title:<24}{}", columns.map(|name| format!("{name:>14}")).concat());
        self.wrong.iter().take(10).cloned().collect()
    }
}
