//! The lowest voltage of each group of a run's rows, and the search by it for the first row under a chosen voltage. The Rust has neither.
use crate::runs::ROW;
use crate::table::Met;

/// Rows of a group; the last group may have fewer.
pub const GROUP: usize = 64;
/// What wrote the rows, `simulate_discharge` or `run_galvanostatic`; a row of either begins with its voltage.
pub const WRITERS: [u64; 2] = [1, 2];

/// The groups of so many rows.
pub fn groups(rows: usize) -> usize {
    rows.div_ceil(GROUP)
}

/// The first voltage of a group that no other one of it is below.
fn lowest_of(group: &[[f64; ROW]]) -> f64 {
    let first = group.iter().find(|row| !group.iter().any(|other| other[0] < row[0]));
    first.expect("a row whose voltage is a number")[0]
}

/// A place for each group.
pub fn lowest(rows: &[[f64; ROW]]) -> Vec<f64> {
    rows.chunks(GROUP).map(lowest_of).collect()
}

/// What a run that wrote these rows, however it ended, leaves in a summary that held these places.
pub fn left_in(places: &[f64], rows: &[[f64; ROW]]) -> Vec<f64> {
    let lowest = lowest(rows);
    [&lowest[..], &places[lowest.len()..]].concat()
}

/// The first row under the voltage among the first `count`, those of groups whose lowest value is not under it being passed over.
pub fn first_below(which: u64, rows: &[f64], lowest: &[f64], count: usize, voltage: f64) -> Result<Option<usize>, u64> {
    let mut met = Met::default();
    met.when(10, rows.len() / ROW < count);
    met.when(10, lowest.len() < groups(count));
    met.when(2, !WRITERS.contains(&which));
    met.when(2, !voltage.is_finite());
    met.refuse()?;
    for group in 0..groups(count) {
        if !(lowest[group] < voltage) {
            continue;
        }
        for row in GROUP * group..count.min(GROUP * (group + 1)) {
            if rows[ROW * row] < voltage {
                return Ok(Some(row));
            }
        }
    }
    Ok(None)
}

/// The first row under the voltage among the first `count`.
pub fn full_read(rows: &[[f64; ROW]], count: usize, voltage: f64) -> Option<usize> {
    rows[..count].iter().position(|row| row[0] < voltage)
}
