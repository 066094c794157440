//! Texts of a recorded load: good lines, and what may be wrong with a text.
use crate::cases::{around, interval_of};
use crate::draw::Draw;
use crate::records;
use calls::replay::{LINE, MOST_TEXT};

/// A line by the bits of its interval and its current.
pub fn line([dt, current_a]: [u64; 2]) -> Vec<u8> {
    format!("{dt:016X}\t{current_a:016X}\n").into_bytes()
}

/// Intervals and currents, mostly of few sub-steps, of which `least` is one.
pub fn loads(draw: &mut Draw, count: usize, least: f64, area: f64) -> Vec<[f64; 2]> {
    let size = area * records::power(draw, -4.0, 6.0);
    let load = |draw: &mut Draw| {
        let dt = least * records::power(draw, -6.0, 2.0);
        let current = if draw.below(16) == 0 { draw.pick(&[0.0, -0.0]) } else { size * draw.uniform(-0.5, 1.0) };
        [dt.clamp(f64::from_bits(1), 86_400.0), current.clamp(-1e6, 1e6)]
    };
    (0..count).map(|_| load(draw)).collect()
}

pub fn text_of(loads: &[[f64; 2]]) -> Vec<u8> {
    loads.iter().flat_map(|numbers| line(numbers.map(f64::to_bits))).collect()
}

/// How many lines: none, a few, or some hundred.
pub fn count(draw: &mut Draw) -> usize {
    match draw.below(16) {
        0 => 0,
        1 => draw.count(100, 400) as usize,
        2..=4 => draw.count(20, 60) as usize,
        _ => draw.count(1, 12) as usize,
    }
}

/// A line with its interval, its current or both at their limits; one in four has a wrong byte too.
fn limit_line(draw: &mut Draw, least: f64) -> Vec<u8> {
    let dt = if draw.below(3) == 0 { interval_of(draw, least).to_bits() } else { around(draw, 0.0, 86_400.0) };
    let current = around(draw, -1e6, 1e6);
    let mut line = line(match draw.below(4) {
        0 => [dt, current],
        1 => [1f64.to_bits(), current],
        _ => [dt, 0],
    });
    if draw.below(4) == 0 {
        change_byte(draw, &mut line);
    }
    line
}

/// A byte in place of one of a line's: next to the digits, a digit, another white space, or any.
fn other_byte(draw: &mut Draw) -> u8 {
    match draw.below(4) {
        0 => draw.pick(b"/:@G`abcdefg"),
        1 => draw.pick(b" \t\n\r\0"),
        2 => draw.pick(b"0123456789ABCDEF"),
        _ => draw.bits() as u8,
    }
}

/// Changes a digit, the tab or the line feed of a line.
fn change_byte(draw: &mut Draw, line: &mut [u8]) {
    let at = match draw.below(4) {
        0 => 16,
        1 => 33,
        _ => draw.below(LINE as u64) as usize,
    };
    line[at] = other_byte(draw);
}

/// Changes a text in one place: a byte, a line, its length.
pub fn with_fault(draw: &mut Draw, text: &mut Vec<u8>, least: f64) {
    let lines = text.len() / LINE;
    let start = LINE * draw.below(1 + lines as u64) as usize;
    let at = draw.below(1 + text.len() as u64) as usize;
    match draw.below(20) {
        0..=4 if start + LINE <= text.len() => change_byte(draw, &mut text[start..start + LINE]),
        5 if at < text.len() => drop(text.remove(at)),
        6 => text.insert(at, other_byte(draw)),
        7 => text.truncate(at),
        8 => text.truncate(text.len().saturating_sub(1)),
        9 => text[start.min(at)..].make_ascii_lowercase(),
        10 => text.insert(start, b'\n'),
        11 => *text = text.iter().flat_map(|byte| if *byte == b'\n' { vec![b'\r', b'\n'] } else { vec![*byte] }).collect(),
        _ => drop(text.splice(start..start, limit_line(draw, least))),
    }
}

/// Lengthens a text to the limit, one byte beyond, or more.
pub fn lengthen(draw: &mut Draw, text: &mut Vec<u8>) {
    let bytes = draw.pick(&[MOST_TEXT - 1, MOST_TEXT, MOST_TEXT + 1, MOST_TEXT + 1, MOST_TEXT + LINE, 2 * MOST_TEXT]);
    let with = draw.pick(b"0\n\0x");
    text.resize(bytes.max(text.len()), with);
}
