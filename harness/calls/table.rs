//! The table of refusals (docs/REFERENCE.md): which numbers a call meets, and which of these it answers.

/// The order in which refusals are tested; the first that is met is answered. 11, a line that is none, is met before its step is asked.
const ORDER: [u64; 11] = [12, 1, 10, 2, 3, 4, 5, 6, 7, 8, 9];

/// The numbers that a call meets.
#[derive(Default)]
pub struct Met(Vec<u64>);

impl Met {
    pub fn when(&mut self, number: u64, met: bool) {
        if met {
            self.0.push(number);
        }
    }

    /// The first number in the table's order, as a refusal.
    pub fn refuse(&self) -> Result<(), u64> {
        match ORDER.iter().find(|number| self.0.contains(number)) {
            Some(number) => Err(*number),
            None => Ok(()),
        }
    }
}

/// A closed range of binary64; no NaN lies in one.
#[derive(Clone, Copy)]
pub struct Range {
    pub low: f64,
    pub high: f64,
}

pub const fn range(low: f64, high: f64) -> Range {
    Range { low, high }
}

impl Range {
    pub fn holds(&self, x: f64) -> bool {
        self.low <= x && x <= self.high
    }
}

pub fn all_in(values: &[f64], ranges: &[Range]) -> bool {
    assert_eq!(values.len(), ranges.len());
    values.iter().zip(ranges).all(|(x, range)| range.holds(*x))
}

/// An unused place: +0 by its bits, so no -0.
pub fn unused(x: f64) -> bool {
    x.to_bits() == 0
}

/// The first `count` places pass `test`, the others are +0.
pub fn places(all: &[f64], count: usize, test: impl Fn(f64) -> bool) -> bool {
    all.iter().enumerate().all(|(i, x)| if i < count { test(*x) } else { unused(*x) })
}

pub fn all_finite(values: &[f64]) -> bool {
    values.iter().all(|x| x.is_finite())
}

/// 8 where a part of what the Rust would give holds a NaN or an infinity.
pub fn finite_or_8(parts: &[&[f64]]) -> Result<(), u64> {
    if parts.iter().all(|part| all_finite(part)) {
        Ok(())
    } else {
        Err(8)
    }
}

/// A current, a flux or a source: finite and at most `most` in size.
pub fn load(x: f64, most: f64) -> bool {
    x.is_finite() && x.abs() <= most
}

/// Above 0, at most 86,400 s.
pub fn interval(dt: f64) -> bool {
    dt > 0.0 && dt <= 86_400.0
}

pub const TEMPERATURE: Range = range(200.0, 400.0);

pub fn clock(time_s: f64) -> bool {
    time_s.is_finite() && time_s >= 0.0
}

pub const MOST_CURRENT: f64 = 1e6;
pub const MOST_FLUX: f64 = 1e13;
pub const MOST_SOURCE: f64 = 1e9;
