//! A recorded load on the single-particle cell.
use super::{charge, low_current, reference, sub_steps};
use super::solver::{alike_counts, cell_kinds, config, diffusivity_out, equal_electrodes, pairs_of_sheets, random_cell};
use crate::cover::{arguments, one_fault, pairs, singles, Argument, Kind};
use crate::draw::Draw;
use calls::replay::{LINE, MOST_TEXT};
use calls::runs::ROW;
use calls::solver::Cell;
use calls::table::MOST_CURRENT;
use calls::words::{float, word, Reader, Slot};

const T: f64 = 298.15;

/// A line by the bits of its interval and its current.
fn line_of([dt, current_a]: [u64; 2]) -> Vec<u8> {
    format!("{dt:016X}\t{current_a:016X}\n").into_bytes()
}

/// A text of intervals and currents.
pub(super) fn text(lines: &[[f64; 2]]) -> Vec<u8> {
    lines.iter().flat_map(|numbers| line_of(numbers.map(f64::to_bits))).collect()
}

/// Lines whose intervals and currents may be exchanged and give other rows.
const LINES: [[f64; 2]; 3] = [[1.0, 3.0], [2.5, -1.5], [0.1, 4.25]];

/// A text of so many bytes: those listed, then 0.
fn text_slots(listed: &[u8], length: usize) -> Vec<Slot> {
    let mut slots = vec![word(length as u64), word(listed.len() as u64)];
    for bytes in listed.chunks(8) {
        let mut eight = [0; 8];
        eight[..bytes.len()].copy_from_slice(bytes);
        slots.push(word(u64::from_be_bytes(eight)));
    }
    slots
}

fn read_text(reader: &mut Reader) -> Vec<u8> {
    let (length, listed) = (reader.word() as usize, reader.word() as usize);
    let mut text: Vec<u8> = (0..listed.div_ceil(8)).flat_map(|_| reader.word().to_be_bytes()).collect();
    text.truncate(listed);
    text.resize(length, 0);
    text
}

/// Text, temperature and the length of the slice.
pub(super) fn replaying(cell: &Cell, text: &[u8], temp_k: f64, places: u64) -> Vec<Slot> {
    [cell.slots(), text_slots(text, text.len()), vec![float(temp_k), word(places)]].concat()
}

fn text_kinds(text: &[u8]) -> Vec<Kind> {
    let mut kinds = vec![Kind::TextLength(MOST_TEXT as u64), Kind::Fixed];
    kinds.extend((0..text.len().div_ceil(8)).map(|k| if k == 0 { Kind::Digits } else { Kind::Fixed }));
    kinds
}

fn base(cell: &Cell, text: &[u8], temp_k: f64, places: u64) -> Vec<Argument> {
    let kinds = [cell_kinds(cell), text_kinds(text), vec![Kind::Temperature, Kind::Length(ROW as u64)]].concat();
    arguments(replaying(cell, text, temp_k, places), kinds)
}

/// Bytes that stand just outside of `0`-`9` and `A`-`F`, lower case, and others that are no digit.
const NO_DIGITS: [u8; 16] = [b'/', b':', b'@', b'G', b'`', b'a', b'f', b'g', b' ', b'\t', b'\n', b'\r', 0, b'0' | 0x80, b'A' | 0x80, 0xFF];
const NO_TABS: [u8; 8] = [b' ', b'\n', b'\r', b',', b'0', 8, 0x0B, 0x89];
const NO_FEEDS: [u8; 8] = [b'\r', b'\t', b' ', b'0', 0, 9, 0x0B, 0x8A];

/// A line with one byte changed, so that it is none.
fn wrong_bytes() -> Vec<Vec<u8>> {
    let good = text(&LINES[..1]);
    let with = |at: usize, byte: u8| {
        let mut line = good.clone();
        line[at] = byte;
        line
    };
    let mut all: Vec<Vec<u8>> = (0..LINE).map(|at| with(at, b'b')).collect();
    for at in [0, 15, 17, 32] {
        all.extend(NO_DIGITS.iter().map(|byte| with(at, *byte)));
    }
    all.extend(NO_TABS.iter().map(|byte| with(16, *byte)));
    all.extend(NO_FEEDS.iter().map(|byte| with(33, *byte)));
    all
}

/// What a hand or another program may write in place of a line: no line feed at the end, CR LF, a blank line, ..
fn wrong_lines() -> Vec<Vec<u8>> {
    let good = text(&LINES[..1]);
    let mut all: Vec<Vec<u8>> = (1..LINE).map(|length| good[..length].to_vec()).collect();
    let line = String::from_utf8(good).expect("ASCII");
    let body = &line[..LINE - 1];
    let others = [
        "\n".to_string(),
        format!("\n{line}"),
        format!(" {line}"),
        format!("\u{feff}{line}"),
        format!("0x{line}"),
        format!("{body}\r\n"),
        format!("{body} \n"),
        format!("{body}\t\n"),
        format!("{body}0\n"),
        format!("{body}\0"),
        line.replace('\t', "\t\t"),
        line.replace('\t', ""),
        line.replace('\n', "\r"),
        line[1..].to_string(),
        "60\t2\n".to_string(),
        "4024000000000000 40ABCDEF00000000\n".to_string(),
        "4024abcdef000000\t4000000000000000\n".to_string(),
        "4024000000000000\t400abcdef0000000\n".to_string(),
    ];
    all.extend(others.map(String::into_bytes));
    all
}

/// Wrong lines in the first place and after a good line, with good ones behind.
fn wrong_texts(cell: &Cell) -> Vec<Vec<Slot>> {
    let (first, rest) = (text(&LINES[1..2]), text(&LINES[2..]));
    let mut all = Vec::new();
    for wrong in [wrong_bytes(), wrong_lines()].concat() {
        all.push(replaying(cell, &wrong, T, 16));
        all.push(replaying(cell, &[&first[..], &wrong].concat(), T, 24));
        all.push(replaying(cell, &[&first[..], &wrong, &rest].concat(), T, 32));
    }
    all
}

/// Patterns of NaNs: quiet, signalling, of either sign, with every digit.
const NANS: [u64; 6] =
    [0x7FF8_0000_0000_0000, 0xFFF8_0000_0000_0000, 0x7FF0_0000_0000_0001, 0xFFF0_0000_0000_0001, 0x7FFA_BCDE_F012_3456, u64::MAX];

fn intervals() -> Vec<u64> {
    let tiny = f64::from_bits(1);
    let most: f64 = 86_400.0;
    let numbers = [0.0, -0.0, tiny, -tiny, 1.0, -1.0, most.next_down(), most, most.next_up(), f64::MAX, f64::INFINITY, f64::NEG_INFINITY];
    numbers.iter().map(|x| x.to_bits()).chain(NANS).collect()
}

fn currents() -> Vec<u64> {
    let (tiny, most) = (f64::from_bits(1), MOST_CURRENT);
    let numbers = [0.0, -0.0, tiny, -tiny, most.next_down(), most, most.next_up(), f64::MAX, f64::INFINITY];
    numbers.iter().flat_map(|x| [x.to_bits(), (-x).to_bits()]).chain(NANS).collect()
}

/// Intervals and currents at their limits, one at a time and both, in the first line and in the second; 3 goes before 4, 11 before both.
fn limit_lines(cell: &Cell) -> Vec<Vec<Slot>> {
    let good = LINES[0].map(f64::to_bits);
    let mut lines: Vec<[u64; 2]> = intervals().into_iter().map(|dt| [dt, good[1]]).collect();
    lines.extend(currents().into_iter().map(|current| [good[0], current]));
    let (no_interval, no_current) = ([0, 1 << 63, NANS[0], 90_000f64.to_bits()], [NANS[1], NANS[2], 2e6f64.to_bits()]);
    lines.extend(no_interval.iter().flat_map(|dt| no_current.map(|current| [*dt, current])));
    let first = text(&LINES[2..]);
    let mut all = Vec::new();
    for numbers in lines {
        let line = line_of(numbers);
        all.push(replaying(cell, &line, T, 16));
        all.push(replaying(cell, &[&first[..], &line, &first].concat(), T, 32));
        let mut no_line = line.clone();
        no_line[33] = b'\r';
        all.push(replaying(cell, &no_line, T, 16));
    }
    all
}

/// Every count of lines against every count of rows: done, done on the last row, full with a line left.
fn lengths(cell: &Cell) -> Vec<Vec<Slot>> {
    let mut all = Vec::new();
    for lines in [0, 1, 2, 3, 31, 32, 33] {
        let text: Vec<u8> = (0..lines).flat_map(|k| text(&LINES[k % 3..=k % 3])).collect();
        for places in [0, 7, 8, 9, 15, 16, 17, 23, 24, 247, 248, 255, 256] {
            all.push(replaying(cell, &text, T, places));
        }
    }
    all
}

/// Full with a byte left, whatever it is; the same bytes where there is room for a row.
fn after_the_last_row(cell: &Cell) -> Vec<Vec<Slot>> {
    let good = text(&LINES[..2]);
    let no_step = line_of([NANS[0], NANS[0]]);
    let behind: [&[u8]; 7] = [b"0", b"\n", b"\r\n", b"\0", b"garbage that is longer than one line of text", &no_step, &no_step[..33]];
    let mut all = Vec::new();
    for more in behind {
        let text = [&good, more].concat();
        all.extend([8, 15, 16, 23, 24].map(|places| replaying(cell, &text, T, places)));
    }
    all
}

/// The voltage ends the replay in the first row and in later ones: with lines left, with none, with garbage left, on the last row that there is room for.
fn cutoffs(cell: &Cell) -> Vec<Vec<Slot>> {
    let mut all = Vec::new();
    for current in [200.0, 1000.0, -300.0] {
        for before in [0, 1, 3] {
            let start = [text(&vec![[0.5, 1.0]; before]), text(&[[1.0, current]])].concat();
            let after: [&[u8]; 4] = [b"", b"\r", &text(&LINES), &line_of([NANS[0], NANS[0]])];
            for rest in after {
                let text = [&start, rest].concat();
                let room = 8 * before as u64;
                all.extend([8, room, room + 8, room + 15, room + 16, 256].map(|places| replaying(cell, &text, T, places)));
            }
        }
    }
    // a current at which the voltage falls row by row
    let falling: Vec<u8> = text(&[[1.0, 40.0]; 30]);
    all.extend([8, 16, 80, 160, 240, 256].map(|places| replaying(cell, &falling, T, places)));
    all
}

/// Texts of 65,536 and 65,537 bytes.
fn long_texts(cell: &Cell) -> Vec<Vec<Slot>> {
    let good = text(&LINES[..2]);
    let mut all = Vec::new();
    for length in [MOST_TEXT - 1, MOST_TEXT, MOST_TEXT + 1] {
        for listed in [&good[..], b"", b"\n"] {
            for (temp_k, places) in [(T, 16), (T, 24), (T, 256), (T, 7), (401.0, 16), (f64::NAN, 7)] {
                all.push([cell.slots(), text_slots(listed, length), vec![float(temp_k), word(places)]].concat());
            }
        }
    }
    all
}

/// 6, which the temperature decides, so that the first step has it; 7 in the first line and in a later one; each with lower numbers, and where no
/// step is due.
fn refused_steps(draw: &mut Draw, lfp: &Cell) -> Vec<Vec<Slot>> {
    let mut all = Vec::new();
    for (at_anode, high) in [(true, true), (true, false), (false, true), (false, false)] {
        let (out, temp_k) = diffusivity_out(draw, at_anode, high);
        for lines in [&[][..], &LINES, &[[86_400.0, 3.0]], &[[0.0, 3.0]], &[[1.0, 2e6]], &[[-1.0, f64::NAN]]] {
            all.push(replaying(&out, &text(lines), temp_k, 16));
        }
        all.push(replaying(&out, b"\n", temp_k, 16));
        all.extend(one_fault(&base(&out, &text(&LINES[..1]), temp_k, 16)));
    }
    let mut quick = lfp.clone();
    quick.anode.sheet.numbers[0] = 1e-7;
    for before in 0..3 {
        let start = text(&[[0.01, 1.0]; 3][..before]);
        for line in [[86_400.0, 3.0], [86_400.0, 2e6], [90_000.0, 3.0]] {
            all.extend([8, 16, 24, 32].map(|places| replaying(&quick, &[&start[..], &text(&[line, [0.01, 1.0]])].concat(), T, places)));
        }
    }
    all.extend(one_fault(&base(&quick, &text(&[[86_400.0, 3.0]]), T, 16)));
    all
}

/// Drawn cells under drawn loads, of which some have a line that is none or that no step takes.
fn drawn(draw: &mut Draw) -> Vec<Vec<Slot>> {
    let mut all = Vec::new();
    for _ in 0..80 {
        let n = draw.count(3, 12);
        let sheets = draw.pick(&pairs_of_sheets());
        let cell = random_cell(draw, config(n), sheets);
        let count = draw.below(24) as usize;
        let mut text: Vec<u8> =
            (0..count).flat_map(|_| text(&[[draw.uniform(0.01, 20.0), draw.uniform(-12.0, 12.0)]])).collect();
        if count > 0 && draw.below(3) == 0 {
            let at = draw.below(text.len() as u64) as usize;
            text[at] = draw.bits() as u8;
        }
        let temp_k = draw.uniform(270.0, 330.0);
        all.push(replaying(&cell, &text, temp_k, draw.count(8, 220)));
    }
    all
}

pub fn cases(draw: &mut Draw) -> Vec<Vec<Slot>> {
    let [(graphite, lfp), (_, nmc)] = pairs_of_sheets();
    let lfp = Cell::new(config(3), graphite, lfp).expect("ready sheets");
    let nmc = Cell::new(config(5), graphite, nmc).expect("ready sheets");
    let plain = base(&lfp, &text(&LINES[..2]), T, 24);
    let mut all = [singles(&plain), pairs(&plain)].concat();
    // no line is due, or its numbers are refused, and each fault of another argument goes before
    for lines in [&[][..], &[[-1.0, 3.0]], &[[1.0, f64::NAN]]] {
        all.extend(one_fault(&base(&lfp, &text(lines), T, 16)));
    }
    all.extend(wrong_texts(&lfp));
    all.extend(limit_lines(&lfp));
    for cell in [&lfp, &nmc] {
        all.extend([lengths(cell), cutoffs(cell)].concat());
    }
    all.extend([after_the_last_row(&nmc), long_texts(&lfp)].concat());
    all.extend(refused_steps(draw, &lfp));
    all.extend(drawn(draw));
    all.extend(alike_counts().iter().map(|cell| replaying(cell, &text(&LINES), T, 24)));
    for _ in 0..8 {
        let cell = equal_electrodes(draw);
        let loads: Vec<[f64; 2]> = (0..12).map(|_| [0.1, low_current(draw, cell.anode.sheet.numbers[6])]).collect();
        all.push(replaying(&cell, &text(&loads), T, 96));
    }
    all.extend(reference::replays(draw));
    all.extend(charge::replays());
    all.extend(sub_steps::replays(draw));
    all
}

pub fn answer(arguments: &[Slot]) -> Vec<Slot> {
    let mut reader = Reader::new(arguments);
    let cell = Cell::read(&mut reader);
    let text = read_text(&mut reader);
    let (temp_k, places) = (reader.float(), reader.word() as usize);
    reader.end();
    cell.replay(&text, temp_k, places).slots(Cell::changed_slots)
}
