//! A recorded load on the single-particle cell: a text of lines, each an interval and a current, and one temperature. The Rust has no such
//! call; its step makes each row.
use crate::runs::{refused, Ending, Run, ROW};
use crate::solver::Cell;
use crate::table::TEMPERATURE;

pub const MOST_TEXT: usize = 65_536;
/// Bytes of a line: 16 digits, a tab, 16 digits, a line feed.
pub const LINE: usize = 34;
/// Lines that a text can have.
pub const MOST_LINES: usize = MOST_TEXT / LINE;

/// An upper-case hexadecimal digit's value.
fn digit(byte: u8) -> Result<u64, u64> {
    match byte {
        b'0'..=b'9' => Ok(u64::from(byte - b'0')),
        b'A'..=b'F' => Ok(u64::from(byte - b'A') + 10),
        _ => Err(11),
    }
}

/// The binary64 whose bits these digits are, the highest first.
fn number(digits: &[u8]) -> Result<f64, u64> {
    let mut bits = 0;
    for byte in digits {
        bits = 16 * bits + digit(*byte)?;
    }
    Ok(f64::from_bits(bits))
}

/// Interval and current of the line that a text begins with; 11 where it begins with none.
fn first_line(text: &[u8]) -> Result<[f64; 2], u64> {
    if text.len() < LINE || text[16] != b'\t' || text[33] != b'\n' {
        return Err(11);
    }
    Ok([number(&text[..16])?, number(&text[17..33])?])
}

impl Cell {
    /// A row for each line, until the voltage, the last line, the slice's last row or a refusal ends it.
    pub fn replay(&self, text: &[u8], temp_k: f64, places: usize) -> Run<Self> {
        let mut met = self.met();
        met.when(12, text.len() > MOST_TEXT);
        met.when(10, places < ROW);
        met.when(5, !TEMPERATURE.holds(temp_k));
        if let Err(number) = met.refuse() {
            return refused(self, number);
        }
        let (mut cell, mut rows, mut left) = (self.clone(), Vec::new(), text);
        let (ending, refusal) = loop {
            if left.is_empty() {
                break (Ending::Done, 0);
            }
            if rows.len() == places / ROW {
                break (Ending::Full, 0);
            }
            let step = first_line(left).and_then(|[dt, current_a]| cell.step(current_a, dt, temp_k));
            let (next, report) = match step {
                Ok(made) => made,
                Err(number) => break (Ending::Refused, number),
            };
            cell = next;
            rows.push(report.row());
            left = &left[LINE..];
            if report.state.cutoff {
                break (Ending::Voltage, 0);
            }
        };
        Run { ending, refusal, rows, cell }
    }
}
