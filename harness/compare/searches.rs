//! What a search for the first row under a voltage is given: a run's rows and summary as the run left them, or anything else; and
//! how many places a run is lent for its summary.
use crate::call::{Answer, Asked, Call, Function};
use crate::cases::{around, count_around, wrong_length, SPECIAL};
use crate::draw::Draw;
use crate::records;
use calls::lowest::{groups, lowest, GROUP};
use calls::runs::ROW;

/// As it crosses the boundary, but for the chosen voltage; the words of rows and summary are bit patterns.
#[derive(Clone, Default, PartialEq)]
pub struct Search {
    pub which: u64,
    pub rows: Vec<u64>,
    pub lowest: Vec<u64>,
    pub count: u64,
    /// where all of it is as a run left it, the rows that the run wrote
    pub left: Option<usize>,
}

/// What the last run of a case that keeps a summary left in its slices.
#[derive(Clone, Default)]
pub struct Left {
    which: u64,
    rows: Vec<u64>,
    lowest: Vec<u64>,
    made: usize,
}

impl Left {
    pub fn take(&mut self, call: &Call, oracle: &Answer, port: &Asked) {
        if let Some(which) = call.function.summed() {
            *self = Self { which, rows: port.rows(), lowest: port.lowest(), made: oracle.rows.len() / ROW };
        }
    }
}

/// Places for the summary of what a slice of so many places can take: as many as its groups, or more.
pub fn places(draw: &mut Draw, rows: usize) -> usize {
    let more = if draw.below(3) == 0 { draw.count(1, 4) } else { 0 };
    groups(rows / ROW) + more as usize
}

/// One place too few, or none.
pub fn too_few(draw: &mut Draw, rows: usize) -> usize {
    if draw.below(4) == 0 {
        0
    } else {
        groups(rows / ROW).saturating_sub(1)
    }
}

/// A number, or one beside it.
fn beside(draw: &mut Draw, number: f64) -> f64 {
    match draw.below(4) {
        0 => number.next_down(),
        1 => number,
        _ => number.next_up(),
    }
}

fn wild_voltage(draw: &mut Draw) -> f64 {
    match draw.below(4) {
        0 => draw.pick(&[f64::MAX, -f64::MAX, 0.0, -0.0, 5e-324, -5e-324]),
        1 => records::power(draw, -1000.0, 1000.0) * records::sign(draw),
        _ => draw.uniform(-10.0, 10.0),
    }
}

/// A voltage at or beside that of a row or a place of the summary; or any.
fn voltage_among(draw: &mut Draw, rows: &[u64], lowest: &[u64]) -> f64 {
    let among = |draw: &mut Draw, words: &[u64], step: usize| {
        let at = draw.below((words.len() / step) as u64) as usize;
        f64::from_bits(words[step * at])
    };
    let number = match draw.below(8) {
        0 => return wild_voltage(draw),
        1 | 2 if !lowest.is_empty() => among(draw, lowest, 1),
        _ if rows.len() >= ROW => among(draw, rows, ROW),
        _ => return wild_voltage(draw),
    };
    if number.is_finite() {
        beside(draw, number)
    } else {
        wild_voltage(draw)
    }
}

/// A count of so many rows at most: all, all but one, none, about a group's end, any.
fn count_up_to(draw: &mut Draw, made: u64) -> u64 {
    match draw.below(8) {
        0 => draw.pick(&[0, made.min(1)]),
        1 => made.saturating_sub(1),
        2 => made.min(GROUP as u64 * draw.count(1, 3) + draw.count(0, 2) - 1),
        3 | 4 => draw.count(0, made),
        _ => made,
    }
}

/// Gives a call a search in what a run left, now and then with a fault. Of a run without a row it is mostly in what the slices held before.
pub fn in_left(draw: &mut Draw, left: &Left, call: &mut Call) {
    let room = (left.rows.len() / ROW).min(GROUP * left.lowest.len());
    let of_run = left.made > 0 || draw.below(4) == 0;
    let made = if of_run { left.made } else { room };
    let count = count_up_to(draw, made as u64);
    let voltage = voltage_among(draw, &left.rows[..ROW * made], &left.lowest[..groups(made)]);
    let (mut rows, mut lowest) = (left.rows.clone(), left.lowest.clone());
    if draw.below(3) == 0 {
        // no place more than is asked for
        rows.truncate(ROW * count as usize);
        lowest.truncate(groups(count as usize));
    }
    call.search = Search { which: left.which, rows, lowest, count, left: of_run.then_some(made) };
    call.numbers = vec![voltage.to_bits()];
    if draw.below(8) == 0 {
        faults(draw, call);
    }
}

/// Voltages of so many rows: special numbers; one voltage and those beside it; a curve that falls or rises, with steps and turns.
fn voltages(draw: &mut Draw, count: usize) -> Vec<f64> {
    let (level, slope, turn) = (draw.uniform(-1.0, 5.0), records::power(draw, -40.0, 0.0) * records::sign(draw), draw.below(1 + count as u64));
    let way = draw.below(8);
    let voltage = |row: usize, draw: &mut Draw| match way {
        0 => f64::from_bits(draw.pick(&SPECIAL)),
        1 => draw.pick(&[0.0, -0.0, 5e-324, -5e-324]),
        2 => draw.pick(&[level, level.next_up(), level.next_down()]),
        3 if draw.below(20) != 0 => 4.0,
        4 if draw.below(8) == 0 => draw.pick(&[f64::NAN, -f64::NAN, f64::INFINITY, f64::NEG_INFINITY]),
        5 => level + slope * (row / 5) as f64,
        _ => level + slope * (row as f64 - turn as f64).abs(),
    };
    (0..count).map(|row| voltage(row, draw)).collect()
}

/// The lowest of each group where every voltage is a number; else the first.
fn true_summary(voltages: &[f64]) -> Vec<f64> {
    let sum = |group: &[f64]| {
        let rows: Vec<[f64; ROW]> = group.iter().map(|voltage| [*voltage; ROW]).collect();
        if group.iter().any(|voltage| voltage.is_nan()) {
            group[0]
        } else {
            lowest(&rows)[0]
        }
    };
    voltages.chunks(GROUP).map(sum).collect()
}

/// A summary that says less, more or anything of some groups or of all.
fn lie(draw: &mut Draw, lowest: &mut [f64]) {
    let all = draw.below(3) == 0;
    for place in lowest {
        if all || draw.below(3) == 0 {
            *place = match draw.below(5) {
                0 => f64::NEG_INFINITY,
                1 => f64::INFINITY,
                2 => f64::NAN,
                3 => beside(draw, *place),
                _ => f64::from_bits(draw.pick(&SPECIAL)),
            };
        }
    }
}

/// A search in rows that no run wrote. What is no voltage in them is under every one, so that a place beside the voltage shows.
pub fn invented(draw: &mut Draw, call: &mut Call) {
    let room = match draw.below(8) {
        0 => draw.below(3),
        1 | 2 => GROUP as u64 * draw.count(1, 3) + draw.count(0, 2) - 1,
        _ => draw.count(1, 260),
    } as usize;
    let numbers = voltages(draw, room);
    let mut lowest = true_summary(&numbers);
    if draw.below(2) == 0 {
        lie(draw, &mut lowest);
    }
    let under = draw.pick(&[f64::NEG_INFINITY, -f64::MAX]).to_bits();
    let bits = |numbers: &[f64]| -> Vec<u64> { numbers.iter().map(|number| number.to_bits()).collect() };
    let mut rows: Vec<u64> = bits(&numbers).into_iter().flat_map(|voltage| [voltage, under, under, under, under, under, under, under]).collect();
    rows.extend((0..draw.below(ROW as u64)).map(|_| under));
    let mut lowest = bits(&lowest);
    let voltage = voltage_among(draw, &rows[..ROW * room], &lowest);
    lowest.extend((0..draw.below(3)).map(|_| under));
    call.search = Search { which: draw.count(1, 2), rows, lowest, count: count_up_to(draw, room as u64), left: None };
    call.numbers = vec![voltage.to_bits()];
    if draw.below(4) == 0 {
        faults(draw, call);
    }
}

/// A run that is none, mostly.
fn some_run(draw: &mut Draw) -> u64 {
    draw.pick(&[0, 3, 1 << 8, (1 << 32) + 1, (1 << 32) + 2, 1 << 63, u64::MAX, 1, 2])
}

/// One fault, or two at once: the run, the voltage, the count, a slice that is too short, the length of the answer.
fn faults(draw: &mut Draw, call: &mut Call) {
    for _ in 0..draw.count(1, 2) {
        let search = &mut call.search;
        let count = search.count as usize;
        match draw.below(12) {
            0 | 1 => search.which = some_run(draw),
            2 | 3 => call.numbers[0] = around(draw, -f64::MAX, f64::MAX),
            4 => search.count = count_around(draw, 1, 1 + (search.rows.len() / ROW) as u64),
            5 => search.count = draw.pick(&[0u64, 1 << 61, 1 << 62, 1 << 63]).wrapping_add(search.count).wrapping_sub(draw.below(3)),
            6 | 7 => search.rows.truncate((ROW * count.min(search.rows.len() / ROW)).saturating_sub(1)),
            8 | 9 => search.lowest.truncate(groups(count.min(1 << 20)).saturating_sub(1)),
            _ => call.answer_bytes = wrong_length(draw, Function::FirstBelow.answer_bytes()),
        }
    }
    // a count beyond what the run wrote looks at rows that are not the run's
    let search = &mut call.search;
    search.left = search.left.filter(|made| search.count <= *made as u64);
}

/// Any words at all.
pub fn random(draw: &mut Draw) -> Search {
    let words = |draw: &mut Draw, most: u64| -> Vec<u64> { (0..draw.below(most)).map(|_| draw.bits()).collect() };
    let (rows, lowest) = (words(draw, 40), words(draw, 3));
    let count = if draw.below(2) == 0 { draw.below(5) } else { draw.bits() >> draw.below(64) };
    Search { which: draw.below(4), rows, lowest, count, left: None }
}
