//! The cases: a record, and a list of calls on it, each of which gets what the call before it handed back.
use crate::call::{Answer, Argument, Asked, Call, Function, System};
use crate::draw::Draw;
use crate::images::{image_of, words_of, Meaning, Record};
use crate::records;
use crate::schedules::{self, Phases};
use crate::searches::{self, Left, Search};
use crate::texts;
use calls::cycle::{Schedule, MOST_BUDGET, MOST_REPEATS, PLACES};
use calls::dfn;
use calls::electrode::{self, Sheet};
use calls::electrolyte::{Electrolyte, POROSITY};
use calls::particle::Particle;
use calls::replay::MOST_LINES;
use calls::runs::ROW;
use calls::solver::{Cell, Config, DIFFUSIVITY, SUB_STEP};
use calls::table::{Range, TEMPERATURE};
use calls::words::{word, Slot};

/// A call in a list. Its image is the record so far with some words changed, cut off or lengthened.
#[derive(Clone)]
pub struct Turn {
    /// the call; its image is not looked at
    pub call: Call,
    pub changes: Vec<(usize, u64)>,
    pub image_bytes: Option<usize>,
    /// of a search in what the last run left: the seed that it is drawn from
    pub look: Option<u64>,
}

#[derive(Clone)]
pub struct Case {
    pub start: Vec<u8>,
    pub turns: Vec<Turn>,
}

/// What the calls of a case hand on: the record, and what the last run left in its slices.
pub struct Held {
    record: Vec<u8>,
    left: Left,
}

impl Held {
    pub fn of(case: &Case) -> Self {
        Self { record: case.start.clone(), left: Left::default() }
    }

    pub fn take(&mut self, call: &Call, oracle: &Answer, port: &Asked) {
        let next = call.function.next();
        if next != Record::Nothing && oracle.image.is_some() {
            self.record = port.answer()[..next.bytes()].to_vec();
        }
        self.left.take(call, oracle, port);
    }
}

impl Turn {
    pub fn new(draw: &mut Draw, function: Function, numbers: &[f64]) -> Self {
        let call = Call {
            function,
            image: Vec::new(),
            numbers: numbers.iter().map(|x| x.to_bits()).collect(),
            rows: 0,
            lowest: 0,
            text: Vec::new(),
            phases: Phases::default(),
            search: Search::default(),
            system: System::default(),
            answer_bytes: function.answer_bytes(),
            filler: draw.bits(),
        };
        Self { call, changes: Vec::new(), image_bytes: None, look: None }
    }

    fn with_rows(mut self, rows: usize) -> Self {
        self.call.rows = rows;
        self
    }

    /// A run into so many places, with room for its summary, and so many searches in what it leaves.
    fn summed(draw: &mut Draw, function: Function, numbers: &[f64], rows: usize, looks: u64) -> Vec<Self> {
        let mut turns = vec![Self::new(draw, function, numbers).with_rows(rows)];
        turns[0].call.lowest = searches::places(draw, rows);
        for _ in 0..looks {
            let look = Some(draw.bits());
            turns.push(Self { look, ..Self::new(draw, Function::FirstBelow, &[0.0]) });
        }
        turns
    }

    /// On the record as it is, with the right lengths.
    fn is_plain(&self) -> bool {
        self.changes.is_empty() && self.image_bytes.is_none() && self.call.answer_bytes == self.call.function.answer_bytes()
    }

    /// The call on what those before it hand on.
    pub fn on(&self, held: &Held) -> Call {
        let mut call = self.call.clone();
        if !call.function.takes_image() {
            if let Some(seed) = self.look {
                searches::in_left(&mut Draw::seeded(seed), &held.left, &mut call);
            }
            return call;
        }
        let mut image = held.record.clone();
        for (at, to) in &self.changes {
            if let Some(place) = image.get_mut(8 * at..8 * at + 8) {
                place.copy_from_slice(&to.to_le_bytes());
            }
        }
        if let Some(bytes) = self.image_bytes {
            image.resize(bytes, (self.call.filler >> 20) as u8);
        }
        Call { image, ..call }
    }
}

impl Case {
    pub fn single(call: &Call) -> Self {
        Self { start: call.image.clone(), turns: vec![Turn { call: call.clone(), changes: Vec::new(), image_bytes: None, look: None }] }
    }
}

/// Patterns that are special to binary64: zeros, subnormals, the ends of the format, infinities, NaNs of several kinds.
pub const SPECIAL: [u64; 18] = [
    0,
    1 << 63,
    1,
    (1 << 63) | 1,
    0x000F_FFFF_FFFF_FFFF,
    0x0010_0000_0000_0000,
    0x7FEF_FFFF_FFFF_FFFF,
    0xFFEF_FFFF_FFFF_FFFF,
    0x7FF0_0000_0000_0000,
    0xFFF0_0000_0000_0000,
    0x7FF8_0000_0000_0000,
    0xFFF8_0000_0000_0000,
    0x7FF0_0000_0000_0001,
    0xFFF0_0000_0000_0001,
    0x7FF4_0000_0000_0000,
    u64::MAX,
    0x3FF0_0000_0000_0000,
    0xBFF0_0000_0000_0000,
];

/// A number at or around a limit, special, or of random bits.
pub fn around(draw: &mut Draw, low: f64, high: f64) -> u64 {
    match draw.below(4) {
        0 => draw.pick(&SPECIAL),
        1 if draw.below(2) == 0 => draw.bits(),
        1 => (-draw.within(Range { low, high })).to_bits(),
        _ => {
            let (inside, outside) = ([low, high, low.next_up(), high.next_down()], [low.next_down(), high.next_up()]);
            (if draw.below(2) == 0 { draw.pick(&inside) } else { draw.pick(&outside) }).to_bits()
        }
    }
}

pub fn count_around(draw: &mut Draw, low: u64, high: u64) -> u64 {
    match draw.below(4) {
        0 => draw.bits() >> draw.below(64),
        1 => draw.count(low, high),
        _ => draw.pick(&[0, 1, low.wrapping_sub(1), low, low + 1, high - 1, high, high + 1, 1 << 32, (1 << 32) + low, 1 << 63, u64::MAX]),
    }
}

fn word_around(draw: &mut Draw, meaning: Meaning) -> u64 {
    match meaning {
        Meaning::Count(low, high) => count_around(draw, low, high),
        Meaning::Number(range) => around(draw, range.low, range.high),
        Meaning::Clock => around(draw, 0.0, f64::MAX),
        Meaning::Unused if draw.below(2) == 0 => draw.pick(&[1 << 63, 1, 0x3FF0_0000_0000_0000, 0x7FF8_0000_0000_0000]),
        Meaning::Unused | Meaning::Free => draw.pick(&SPECIAL),
    }
}

fn argument_around(draw: &mut Draw, argument: Argument) -> u64 {
    match argument {
        Argument::Ignored => draw.pick(&SPECIAL),
        Argument::Finite => around(draw, -f64::MAX, f64::MAX),
        Argument::Temperature => around(draw, TEMPERATURE.low, TEMPERATURE.high),
        Argument::Radius => around(draw, electrode::RANGES[0].low, electrode::RANGES[0].high),
        Argument::Porosity => around(draw, POROSITY.low, POROSITY.high),
        Argument::Load(most) => around(draw, -most, most),
        Argument::Interval => around(draw, 0.0, 86_400.0),
    }
}

/// A word of the record: a field, a place at the edge of what is used, or any.
fn some_word(draw: &mut Draw, record: Record, words: &[u64]) -> usize {
    let fields = record.fields();
    if fields.arrays.is_empty() || draw.below(2) == 0 {
        return draw.pick(&fields.plain);
    }
    let array = draw.pick(&fields.arrays);
    let used = array.used_of(words);
    let at = match draw.below(4) {
        0 => draw.below(array.places as u64) as usize,
        1 => used,
        2 => used.saturating_sub(1),
        _ => draw.below(used.max(1) as u64) as usize,
    };
    array.start + at.min(array.places - 1)
}

/// Where a cell's image has its three counts of nodes: the config's, the anode's and the cathode's.
const CELL_COUNTS: [usize; 3] = [0, 17, 93];

/// One argument or one word of the record at its limits; for a run, the length of a slice; of a cell, all its counts at once.
fn one_fault(draw: &mut Draw, turn: &mut Turn, record: Record, words: &[u64]) {
    if record == Record::Cell && draw.below(16) == 0 {
        let count = count_around(draw, 3, 64);
        turn.changes.extend(CELL_COUNTS.map(|at| (at, count)));
        return;
    }
    if turn.call.function.is_run() && draw.below(8) == 0 {
        turn.call.rows = draw.below(9) as usize;
        return;
    }
    if turn.call.function.summed().is_some() && draw.below(6) == 0 {
        turn.call.lowest = searches::too_few(draw, turn.call.rows);
        return;
    }
    let arguments = turn.call.function.arguments();
    let to_argument = !arguments.is_empty() && (words.is_empty() || draw.below(2) == 0);
    if to_argument {
        let at = draw.below(arguments.len() as u64) as usize;
        turn.call.numbers[at] = argument_around(draw, arguments[at]);
    } else if !words.is_empty() {
        let at = some_word(draw, record, words);
        turn.changes.push((at, word_around(draw, record.fields().meaning(at, words))));
    }
}

pub fn wrong_length(draw: &mut Draw, right: usize) -> usize {
    match draw.below(4) {
        0 => draw.below(2 * right as u64 + 16) as usize,
        1 => right + 8,
        2 => right.saturating_sub(8),
        _ => draw.pick(&[0, 1, 7, 8, right.saturating_sub(1), right + 1]),
    }
}

/// Faults in some of the calls: one, two at once, wrong lengths. `words` is the record that the calls are on.
fn with_faults(draw: &mut Draw, mut turns: Vec<Turn>, record: Record, words: &[u64]) -> Vec<Turn> {
    // a search has its own
    for turn in turns.iter_mut().filter(|turn| turn.call.function != Function::FirstBelow) {
        match draw.below(20) {
            0..=4 => one_fault(draw, turn, record, words),
            5 | 6 => {
                one_fault(draw, turn, record, words);
                one_fault(draw, turn, record, words);
            }
            7 => {
                lengths(draw, turn);
                if draw.below(2) == 0 {
                    one_fault(draw, turn, record, words);
                }
            }
            _ => {}
        }
    }
    turns
}

/// A wrong length of the image, of the answer, or of both.
fn lengths(draw: &mut Draw, turn: &mut Turn) {
    let function = turn.call.function;
    let which = if function.takes_image() { draw.below(3) } else { 1 };
    if which != 1 {
        turn.image_bytes = Some(wrong_length(draw, function.record().bytes()));
    }
    if which != 0 {
        turn.call.answer_bytes = wrong_length(draw, function.answer_bytes());
    }
}

/// A list of calls on a drawn record, or on one that its first call builds.
fn listed(draw: &mut Draw, record: Record, slots: &[Slot], build: Option<(Function, Vec<Slot>)>, turns: Vec<Turn>) -> Case {
    let image = image_of(record.parts(), slots);
    let words = words_of(&image);
    let mut turns = with_faults(draw, turns, record, &words);
    let Some((function, given)) = build else {
        return Case { start: image, turns };
    };
    let start = image_of(function.record().parts(), &given);
    let plain = Turn::new(draw, function, &[]);
    let mut built = with_faults(draw, vec![plain.clone()], function.record(), &words_of(&start));
    if !built[0].is_plain() {
        built.push(plain);
    }
    turns.splice(0..0, built);
    Case { start, turns }
}

pub type Plan = fn(&mut Draw, u64) -> Case;

fn stoichiometry(draw: &mut Draw) -> f64 {
    match draw.below(4) {
        0 => f64::from_bits(draw.pick(&SPECIAL)),
        1 => draw.pick(&[0.0, 1.0, 0.01, 0.99, 0.1, 0.9, 1e-4, 1.0 - 1e-4, 0.5]),
        _ => draw.uniform(-0.1, 1.1),
    }
}

fn sheet_numbers(draw: &mut Draw, _: u64) -> Case {
    let sheet = records::sheet(draw);
    let mut turns = Vec::new();
    for _ in 0..draw.count(1, 3) {
        let free = f64::from_bits(draw.pick(&SPECIAL));
        let temp_k = records::temperature(draw, &[sheet.numbers[9]]);
        turns.push(Turn::new(draw, Function::Number(1), &[temp_k, free]));
        turns.push(Turn::new(draw, Function::Number(2), &[free, free]));
        let theta = stoichiometry(draw);
        turns.push(Turn::new(draw, Function::Number(3), &[theta, free]));
        turns.push(Turn::new(draw, Function::Number(4), &[theta, free]));
    }
    listed(draw, Record::Sheet, &sheet.slots(), None, turns)
}

fn sphere(draw: &mut Draw, _: u64) -> Case {
    let turns = (0..4)
        .map(|_| {
            let (radius, free) = (draw.within(electrode::RANGES[0]), f64::from_bits(draw.pick(&SPECIAL)));
            Turn::new(draw, Function::Number(5), &[radius, free])
        })
        .collect();
    listed(draw, Record::Nothing, &[], None, turns)
}

/// Ready records, and calls that are not listed.
fn ready(draw: &mut Draw, turn: u64) -> Case {
    let ready = Turn::new(draw, Function::Build(1 + turn % 6), &[]);
    let number = draw.pick(&[0, 20, 21, 1 << 32, (1 << 32) + 1, u64::MAX, 13 << 8]);
    let build = draw.pick(&[0, 13, 14, 1 << 32, (1 << 32) + 1, u64::MAX, 7 << 8]);
    let free = f64::from_bits(draw.pick(&SPECIAL));
    let mut unlisted = [Turn::new(draw, Function::Number(number), &[free, 298.15]), Turn::new(draw, Function::Build(build), &[])];
    for turn in &mut unlisted {
        turn.image_bytes = Some(draw.pick(&[0, 8, 88, 608, 1272]));
        turn.call.answer_bytes = draw.pick(&[0, 8, 88, 608, 1272]);
    }
    let mut turns = with_faults(draw, vec![ready], Record::Nothing, &[]);
    if draw.below(4) == 0 {
        lengths(draw, &mut turns[0]);
    }
    turns.extend(unlisted);
    Case { start: Vec::new(), turns }
}

/// An interval in which so many sub-steps of the given length go, up to 6,144 of them: 4,096 of the length before change request (vii).
pub fn interval_of(draw: &mut Draw, least: f64) -> f64 {
    let count = match draw.below(8) {
        0 => draw.pick(&[0.01, 0.5, 1.0, 1.5, 2.0, 3.0, 4095.0, 4096.0, 4097.0, 5000.0, 6143.0, 6144.0]),
        1 => draw.count(1, 40) as f64,
        2..=6 => records::power(draw, -3.0, 7.0),
        _ => records::power(draw, 3.0, 12.5),
    };
    let exact = least * count;
    let near = match draw.below(6) {
        0 => exact.next_up(),
        1 => exact.next_down(),
        2 => draw.pick(&[0.1, 1.0, 10.0, 60.0]),
        _ => exact,
    };
    near.clamp(f64::from_bits(1), 86_400.0)
}

fn particle_numbers(draw: &mut Draw, t_ref: f64) -> Turn {
    let (call, free) = (draw.count(6, 10), f64::from_bits(draw.pick(&SPECIAL)));
    let x = if call == 6 { records::temperature(draw, &[t_ref]) } else { free };
    Turn::new(draw, Function::Number(call), &[x, free])
}

fn next_to_empty(place: f64) -> bool {
    place < 1e-3
}

fn particle_steps(draw: &mut Draw, turn: u64) -> Case {
    let (sheet, n) = (records::sheet(draw), 3 + turn % 62);
    let build = draw.below(3) == 0;
    let particle = if build { Particle::new(sheet, n).expect("a sheet in range") } else { records::particle(draw, sheet, n) };
    let mut turns = Vec::new();
    for _ in 0..draw.count(1, 8) {
        let temp_k = records::temperature(draw, &[sheet.numbers[9]]);
        // near the stability limit: a particle's own step has no factor of it
        let least = 0.45 * particle.dt_stable(temp_k).expect("a particle in range");
        let d_s = sheet.d_s(temp_k).expect("a sheet in range");
        let flux = match draw.below(8) {
            0 => draw.pick(&[0.0, -0.0, 1e13, -1e13, -1e-300]),
            1 => records::power(draw, -60.0, 43.0) * records::sign(draw),
            _ => d_s * sheet.c_s_max() / sheet.numbers[0] * n as f64 * draw.uniform(-1.0, 1.0),
        };
        let dt = if draw.below(8) == 0 { records::power(draw, -1000.0, 16.0) } else { least * draw.pick(&[0.01, 0.3, 0.9, 2.0]) };
        // a change too small for a subnormal keeps the sign of a zero
        let short = next_to_empty(particle.c_s[0]) && draw.below(2) == 0;
        let (flux, dt) = if short { (draw.pick(&[-1e-300, 1e-300, -0.0, flux]), records::short_interval(draw)) } else { (flux, dt) };
        let numbers = [flux.clamp(-1e13, 1e13), dt.clamp(f64::from_bits(1), 86_400.0), temp_k];
        turns.push(Turn::new(draw, Function::ParticleStep, &numbers));
        if draw.below(2) == 0 {
            turns.push(particle_numbers(draw, sheet.numbers[9]));
        }
    }
    let build = build.then(|| (Function::Build(7), [sheet.slots(), vec![word(n)]].concat()));
    listed(draw, Record::Particle, &particle.slots(), build, turns)
}

fn least_interval(cell: &Cell, temp_k: f64) -> f64 {
    let longest = |p: &Particle| SUB_STEP * p.dt_stable(temp_k).expect("a particle in range");
    longest(&cell.anode).min(longest(&cell.cathode))
}

/// A cell, and how it can be built where it is as it was built.
fn some_cell(draw: &mut Draw, n: u64) -> (Cell, Option<(Function, Vec<Slot>)>) {
    if draw.below(3) != 0 {
        return (records::cell(draw, n), None);
    }
    let config = records::config(draw, n);
    match draw.below(3) {
        0 => (Cell::graphite_lfp(config).expect("a config in range"), Some((Function::Build(8), config.slots()))),
        1 => (Cell::graphite_nmc(config).expect("a config in range"), Some((Function::Build(9), config.slots()))),
        _ => {
            let (anode, cathode) = records::sheets(draw);
            let given = [config.slots(), anode.slots(), cathode.slots()].concat();
            (Cell::new(config, anode, cathode).expect("sheets in range"), Some((Function::Build(10), given)))
        }
    }
}

fn references(cell: &Cell) -> [f64; 2] {
    [cell.anode.sheet.numbers[9], cell.cathode.sheet.numbers[9]]
}

/// A temperature at which both diffusivities are in range, mostly.
fn cell_temperature(draw: &mut Draw, cell: &Cell) -> f64 {
    let in_range = |sheet: &Sheet, temp_k: f64| DIFFUSIVITY.holds(sheet.d_s(temp_k).expect("a sheet in range"));
    for _ in 0..6 {
        let temp_k = records::temperature(draw, &references(cell));
        if draw.below(6) == 0 || in_range(&cell.anode.sheet, temp_k) && in_range(&cell.cathode.sheet, temp_k) {
            return temp_k;
        }
    }
    298.15
}

/// Moves an electrode's d_s_ref so that its corrected diffusivity is a limit or next to one, where there is such a number.
fn diffusivity_to_limit(draw: &mut Draw, sheet: &mut Sheet, temp_k: f64) {
    let limit = draw.pick(&[DIFFUSIVITY.low, DIFFUSIVITY.high]);
    let wanted = draw.pick(&[limit.next_down(), limit, limit.next_up()]);
    let ratio = sheet.numbers[1] / sheet.d_s(temp_k).expect("a sheet in range");
    let near = (wanted * ratio).to_bits();
    let mut tried = *sheet;
    for bits in near - 8..near + 8 {
        tried.numbers[1] = f64::from_bits(bits);
        if tried.d_s(temp_k) == Ok(wanted) {
            *sheet = tried;
            return;
        }
    }
}

fn cell_steps(draw: &mut Draw, turn: u64) -> Case {
    let (mut cell, mut build) = some_cell(draw, 3 + turn % 62);
    let limit_at = records::temperature(draw, &references(&cell));
    if draw.below(12) == 0 {
        let sheet = if draw.below(2) == 0 { &mut cell.anode.sheet } else { &mut cell.cathode.sheet };
        diffusivity_to_limit(draw, sheet, limit_at);
        build = None;
    }
    let area = cell.anode.sheet.numbers[6];
    let mut turns = Vec::new();
    for _ in 0..draw.count(1, 6) {
        let temp_k = if draw.below(4) == 0 { limit_at } else { cell_temperature(draw, &cell) };
        let (mut current, mut dt) = (records::current(draw, area), interval_of(draw, least_interval(&cell, temp_k)));
        if (next_to_empty(cell.anode.c_s[0]) || next_to_empty(cell.cathode.c_s[0])) && draw.below(2) == 0 {
            (current, dt) = (draw.pick(&[1e-300, -1e-300, 0.0, -0.0, current]), records::short_interval(draw));
        }
        let numbers = [current, dt, temp_k];
        turns.push(Turn::new(draw, Function::CellStep, &numbers));
        if draw.below(3) == 0 {
            let (call, free) = (draw.count(11, 12), f64::from_bits(draw.pick(&SPECIAL)));
            turns.push(Turn::new(draw, Function::Number(call), &[free, free]));
        }
    }
    listed(draw, Record::Cell, &cell.slots(), build, turns)
}

fn slice_length(draw: &mut Draw) -> usize {
    match draw.below(8) {
        0 => draw.count(8, 24) as usize,
        1 => draw.count(400, 1600) as usize,
        2 => 8 * draw.count(1, 5) as usize,
        _ => draw.count(8, 240) as usize,
    }
}

fn time_limit(draw: &mut Draw, start: f64, dt: f64) -> f64 {
    let rows = draw.count(1, 60) as f64;
    match draw.below(8) {
        0 => draw.pick(&[0.0, -0.0, -1.0, -1e300, 5e-324, f64::MAX, -f64::MAX]),
        1 => (start + dt * rows).next_up(),
        2 => (start + dt * rows).next_down(),
        3 | 4 => 1e300,
        _ => start + dt * rows,
    }
}

/// A voltage limit that a cell with these voltages, row by row, meets after a while.
fn limit_between(draw: &mut Draw, voltages: &[f64], limits: &mut [f64]) {
    let Some((last, before)) = voltages.split_last() else { return };
    let Some(before) = before.last() else { return };
    let between = 0.5 * (last + before);
    let exact = if draw.below(3) == 0 { *last } else { between };
    let exact = exact.clamp(-10.0, 10.0);
    if last < before {
        limits[0] = exact;
        limits[1] = 10.0;
    } else {
        limits[0] = -10.0;
        limits[1] = exact;
    }
}

/// A slice for rows of two to four groups, the last of them mostly short.
fn long_slice(draw: &mut Draw) -> usize {
    let rows = if draw.below(6) == 0 { draw.pick(&[64, 128, 192]) } else { draw.count(65, 200) };
    8 * rows as usize + draw.below(8) as usize
}

/// A run of some groups of rows on a cell of few nodes. A ready one is emptied or filled in about so many steps, so that voltages fall, rise,
/// turn and stay.
fn long_discharges(draw: &mut Draw) -> Case {
    let (n, rows) = (draw.count(3, 8), long_slice(draw));
    let config = Config { n_nodes: n, numbers: records::READY_CONFIG };
    let ready = draw.below(4);
    let mut cell = match ready {
        0 => records::cell(draw, n),
        1 => Cell::graphite_lfp(config).expect("a config in range"),
        _ => Cell::graphite_nmc(config).expect("a config in range"),
    };
    if draw.below(8) != 0 {
        cell.config.numbers[..2].copy_from_slice(&[-10.0, 10.0]);
    }
    let temp_k = cell_temperature(draw, &cell);
    let dt = (least_interval(&cell, temp_k) * records::power(draw, -3.0, 1.0)).clamp(f64::from_bits(1), 86_400.0);
    let current = if ready == 0 {
        records::current(draw, cell.anode.sheet.numbers[6])
    } else {
        // 5 A empty the NMC cell in 1,560 s
        let size = 5.0 * 1560.0 / (dt * (rows / ROW) as f64) * draw.uniform(0.2, 1.5);
        if draw.below(4) == 0 { -size } else { size }
    };
    let limit = if draw.below(4) == 0 { dt * draw.count(60, 200) as f64 } else { 1e300 };
    let looks = draw.count(4, 10);
    let turns = Turn::summed(draw, Function::Discharge, &[current.clamp(-1e6, 1e6), dt, temp_k, limit], rows, looks);
    listed(draw, Record::Cell, &cell.slots(), None, turns)
}

fn discharges(draw: &mut Draw, turn: u64) -> Case {
    if draw.below(6) == 0 {
        return long_discharges(draw);
    }
    let n = if draw.below(2) == 0 { 3 + turn % 62 } else { draw.count(3, 12) };
    let (mut cell, mut build) = some_cell(draw, n);
    let area = cell.anode.sheet.numbers[6];
    let temp_k = cell_temperature(draw, &cell);
    let current = records::current(draw, area);
    let least = least_interval(&cell, temp_k);
    let few = draw.below(20) != 0;
    let dt = if few { least * records::power(draw, -2.0, 4.0) } else { interval_of(draw, least) };
    let dt = dt.clamp(f64::from_bits(1), 86_400.0);
    if draw.below(2) == 0 {
        let (mut voltages, mut next) = (Vec::new(), cell.clone());
        for _ in 0..draw.count(2, 12) {
            let Ok((after, report)) = next.step(current, dt, temp_k) else { break };
            voltages.push(report.state.voltage);
            next = after;
        }
        limit_between(draw, &voltages, &mut cell.config.numbers[..2]);
        build = None;
    }
    let mut turns = Vec::new();
    for _ in 0..draw.count(1, 3) {
        let limit = time_limit(draw, 0.0, dt);
        let (rows, looks) = (slice_length(draw), draw.below(4));
        turns.extend(Turn::summed(draw, Function::Discharge, &[current, dt, temp_k, limit], rows, looks));
    }
    listed(draw, Record::Cell, &cell.slots(), build, turns)
}

/// A slice for a text of so many lines: for all of them, for one fewer or more, or any.
fn room_for(draw: &mut Draw, lines: usize) -> usize {
    match draw.below(8) {
        0 => slice_length(draw),
        1 => 8 * lines.saturating_sub(1) + draw.below(8) as usize,
        2 => 8 * draw.count(1, 1 + lines as u64) as usize,
        3 | 4 => 8 * lines,
        _ => 8 * lines + draw.count(1, 16) as usize,
    }
    .max(8)
}

/// A replay of drawn loads on the cell, the text whole or with a fault; of few it is as long as can be.
fn replay(draw: &mut Draw, cell: &Cell, loads: &[[f64; 2]], temp_k: f64) -> Turn {
    let least = least_interval(cell, temp_k);
    let mut text = texts::text_of(loads);
    if draw.below(2) == 0 {
        for _ in 0..draw.count(1, 2) {
            texts::with_fault(draw, &mut text, least);
        }
    }
    if draw.below(24) == 0 {
        texts::lengthen(draw, &mut text);
    }
    let rows = room_for(draw, loads.len());
    let mut turn = Turn::new(draw, Function::Replay, &[temp_k]).with_rows(rows);
    turn.call.text = text;
    turn
}

/// The longest text, on a cell whose voltage stays between its limits.
fn longest_replay(draw: &mut Draw) -> Case {
    let n = draw.count(3, 12);
    let mut cell = Cell::graphite_nmc(records::config(draw, n)).expect("a config in range");
    cell.config.numbers[..2].copy_from_slice(&[-10.0, 10.0]);
    let temp_k = draw.uniform(270.0, 330.0);
    let loads = texts::loads(draw, MOST_LINES, least_interval(&cell, temp_k), cell.anode.sheet.numbers[6]);
    let mut turn = Turn::new(draw, Function::Replay, &[temp_k]).with_rows(8 * MOST_LINES);
    turn.call.text = texts::text_of(&loads);
    Case { start: image_of(Record::Cell.parts(), &cell.slots()), turns: vec![turn] }
}

fn replays(draw: &mut Draw, turn: u64) -> Case {
    if draw.below(200) == 0 {
        return longest_replay(draw);
    }
    let n = if draw.below(4) == 0 { 3 + turn % 62 } else { draw.count(3, 12) };
    let (mut cell, mut build) = some_cell(draw, n);
    let temp_k = cell_temperature(draw, &cell);
    let count = texts::count(draw);
    let mut loads = texts::loads(draw, count, least_interval(&cell, temp_k), cell.anode.sheet.numbers[6]);
    let way = draw.below(3);
    if way == 0 {
        cell.config.numbers[..2].copy_from_slice(&[-10.0, 10.0]);
        build = None;
    }
    if way == 1 {
        let (mut voltages, mut next) = (Vec::new(), cell.clone());
        for [dt, current] in loads.iter().take(draw.count(2, 12) as usize) {
            let Ok((after, report)) = next.step(*current, *dt, temp_k) else { break };
            voltages.push(report.state.voltage);
            next = after;
        }
        limit_between(draw, &voltages, &mut cell.config.numbers[..2]);
        build = None;
        // the voltage ends the replay on its last line
        if draw.below(3) == 0 {
            loads.truncate(voltages.len());
        }
    }
    let turns = (0..draw.count(1, 2)).map(|_| replay(draw, &cell, &loads, temp_k)).collect();
    listed(draw, Record::Cell, &cell.slots(), build, turns)
}

/// A cycle with room for its budget, and with anything or nothing at the places that are not looked at.
fn cycle_of(draw: &mut Draw, schedule: &Schedule) -> Turn {
    let more = if draw.below(2) == 0 { 0 } else { draw.below(16) as usize };
    let rows = ROW * schedule.budget as usize + more;
    let mut turn = Turn::new(draw, Function::Cycle, &[schedule.dt, schedule.temp_k]).with_rows(rows);
    turn.call.phases = Phases::of(schedule);
    if draw.below(2) == 0 {
        schedules::fill_unused(draw, &mut turn.call.phases);
    }
    turn
}

/// A cycle of a drawn budget, whole or with a fault.
fn cycle(draw: &mut Draw, cell: &Cell, schedule: &Schedule) -> Turn {
    let most = schedules::most_steps(draw);
    let budget = schedules::budget(draw, cell, schedule, most);
    let mut turn = cycle_of(draw, &Schedule { budget, ..*schedule });
    if draw.below(4) == 0 {
        for _ in 0..draw.count(1, 2) {
            schedules::with_fault(draw, &mut turn.call);
        }
    }
    turn
}

/// What a cycle has as many of as can be.
enum Most {
    /// phases of one step each, on a cell whose every row has cutoff
    Repeats,
    /// rests that take the budget just so
    Rests,
    Steps,
}

fn longest_cycle(draw: &mut Draw, most: Most) -> Case {
    let config = Config { n_nodes: draw.count(3, 6), numbers: records::READY_CONFIG };
    let mut cell = Cell::graphite_nmc(config).expect("a config in range");
    let temp_k = draw.uniform(290.0, 310.0);
    let dt = least_interval(&cell, temp_k) * draw.uniform(0.05, 0.5);
    let (size, repeats) = (draw.uniform(2.0, 8.0), MOST_REPEATS);
    let (limits, phases, count) = match most {
        Most::Repeats => ([10.0, -10.0], schedules::single_steps(draw, size, dt), draw.count(1, PLACES as u64)),
        Most::Rests => ([3.0, 4.2], schedules::longest_rests(dt), 4),
        Most::Steps => ([3.0, 4.2], schedules::phases(draw, size, dt), 4),
    };
    cell.config.numbers[..2].copy_from_slice(&limits);
    let budget = if matches!(most, Most::Repeats) { count * repeats + draw.count(0, 2) - 1 } else { MOST_BUDGET };
    let schedule = Schedule { phases, count, repeats, budget, dt, temp_k };
    Case { start: image_of(Record::Cell.parts(), &cell.slots()), turns: vec![cycle_of(draw, &schedule)] }
}

/// Voltage limits with some of these voltages beyond them.
fn limits_among(draw: &mut Draw, mut voltages: Vec<f64>, limits: &mut [f64]) {
    voltages.sort_by(f64::total_cmp);
    let half = voltages.len() / 2;
    if half == 0 {
        return;
    }
    for (limit, start) in limits.iter_mut().zip([0, half - 1]) {
        let at = start + draw.below(half as u64) as usize;
        let between = 0.5 * (voltages[at] + voltages[at + 1]);
        *limit = (if draw.below(3) == 0 { voltages[at] } else { between }).clamp(-10.0, 10.0);
    }
}

/// The voltages of a few steps of each phase.
fn voltages_in(draw: &mut Draw, cell: &Cell, schedule: &Schedule) -> Vec<f64> {
    let (mut voltages, mut next) = (Vec::new(), cell.clone());
    for phase in &schedule.phases[..schedule.count as usize] {
        for _ in 0..draw.count(1, 6) {
            let Ok((after, report)) = next.step(schedules::current_of(*phase), schedule.dt, schedule.temp_k) else { return voltages };
            voltages.push(report.state.voltage);
            next = after;
        }
    }
    voltages
}

fn cycles(draw: &mut Draw, turn: u64) -> Case {
    // the turn rises by five from case to case
    match turn / 5 % 2000 {
        0 => return longest_cycle(draw, Most::Steps),
        1000 => return longest_cycle(draw, Most::Rests),
        number if number % 250 == 50 => return longest_cycle(draw, Most::Repeats),
        _ => {}
    }
    let n = if draw.below(4) == 0 { 3 + turn % 62 } else { draw.count(3, 12) };
    let (mut cell, mut build) = some_cell(draw, n);
    let temp_k = cell_temperature(draw, &cell);
    let least = least_interval(&cell, temp_k);
    let dt = if draw.below(12) == 0 { interval_of(draw, least) } else { least * records::power(draw, -4.0, 2.0) };
    let dt = dt.clamp(f64::from_bits(1), 86_400.0);
    let size = cell.anode.sheet.numbers[6] * records::power(draw, -4.0, 6.0);
    let (phases, count, repeats) = (schedules::phases(draw, size, dt), draw.count(1, PLACES as u64), schedules::repeats(draw));
    let schedule = Schedule { phases, count, repeats, budget: 1, dt, temp_k };
    let way = draw.below(4);
    if way == 0 {
        // every row has cutoff
        cell.config.numbers[..2].copy_from_slice(&[10.0, -10.0]);
    } else if way < 3 {
        let voltages = voltages_in(draw, &cell, &schedule);
        limits_among(draw, voltages, &mut cell.config.numbers[..2]);
    }
    if way < 3 {
        build = None;
    }
    let turns = (0..draw.count(1, 2)).map(|_| cycle(draw, &cell, &schedule)).collect();
    listed(draw, Record::Cell, &cell.slots(), build, turns)
}

fn salt_numbers(draw: &mut Draw, _: u64) -> Case {
    let salt = records::salt(draw);
    let mut turns = Vec::new();
    for _ in 0..draw.count(1, 2) {
        let (temp_k, free) = (records::temperature(draw, &[salt.numbers[7]]), f64::from_bits(draw.pick(&SPECIAL)));
        // few binary digits: among them where the logarithm halves its argument
        let porosity = if draw.below(8) == 0 { draw.pick(&[0.75, 0.375, 0.1875, 0.5, 0.25, 1.0]) } else { draw.within(POROSITY) };
        for (call, x) in [(13, free), (14, free), (15, porosity), (16, porosity)] {
            turns.push(Turn::new(draw, Function::Number(call), &[x, temp_k]));
        }
    }
    listed(draw, Record::ElectrolyteParams, &salt.slots(), None, turns)
}

fn electrolyte_steps(draw: &mut Draw, _: u64) -> Case {
    let build = draw.below(3) == 0;
    let electrolyte = if build { Electrolyte::new(records::regions(draw)).expect("regions in range") } else { records::electrolyte(draw) };
    let mut turns = Vec::new();
    for _ in 0..draw.count(1, 6) {
        let temp_k = records::temperature(draw, &[electrolyte.regions.params.numbers[7]]);
        let stable = electrolyte.dt_stable(temp_k).expect("an electrolyte in range");
        let dt = if draw.below(6) == 0 { records::power(draw, -60.0, 16.4) } else { stable * draw.pick(&[0.01, 0.2, 0.9, 5.0]) };
        let sizes = [0.0, -0.0, 1.0, 50.0, 1e4, 1e9];
        let sources = [0, 1].map(|_| draw.pick(&sizes) * draw.uniform(-1.0, 1.0));
        let numbers = [sources[0], sources[1], dt.clamp(f64::from_bits(1), 86_400.0), temp_k];
        turns.push(Turn::new(draw, Function::ElectrolyteStep, &numbers));
        let (call, free) = (draw.count(17, 19), f64::from_bits(draw.pick(&SPECIAL)));
        let x = if call == 19 { temp_k } else { free };
        turns.push(Turn::new(draw, Function::Number(call), &[x, free]));
    }
    let build = build.then(|| (Function::Build(11), electrolyte.regions.slots()));
    listed(draw, Record::Electrolyte, &electrolyte.slots(), build, turns)
}

fn some_dfn(draw: &mut Draw) -> (dfn::Cell, Option<(Function, Vec<Slot>)>) {
    if draw.below(3) != 0 {
        return (records::dfn_cell(draw), None);
    }
    let (mut params, mut config) = (records::dfn_params(draw), records::dfn_config(draw));
    if draw.below(8) == 0 {
        records::breaking(draw, &mut params, &mut config);
    }
    let given = [params.slots(), config.slots()].concat();
    (dfn::Cell::new(params, config).expect("parameters in range"), Some((Function::Build(12), given)))
}

fn dfn_current(draw: &mut Draw, cell: &dfn::Cell) -> f64 {
    if cell.params.numbers[18] > 900.0 && draw.below(2) == 0 {
        return 0.0;
    }
    records::current(draw, cell.params.numbers[3])
}

fn dfn_interval(draw: &mut Draw, cell: &dfn::Cell) -> f64 {
    let empty = next_to_empty(cell.c_s_neg[0]) || next_to_empty(cell.c_s_pos[0]);
    let steep = (40.0..900.0).contains(&cell.params.numbers[18]);
    match draw.below(4) {
        1 | 2 if empty => records::short_interval(draw),
        1 | 2 | 3 if steep => records::steep_interval(draw, cell),
        0 => draw.pick(&[1.0, 10.0, 0.1, 5e-324, 86_400.0]),
        _ => records::power(draw, -16.0, 10.0),
    }
}

fn dfn_steps(draw: &mut Draw, _: u64) -> Case {
    let (cell, build) = some_dfn(draw);
    let mut turns = Vec::new();
    for _ in 0..draw.count(1, 6) {
        let numbers = [dfn_current(draw, &cell), dfn_interval(draw, &cell)];
        turns.push(Turn::new(draw, Function::DfnStep, &numbers));
    }
    listed(draw, Record::DfnCell, &cell.slots(), build, turns)
}

/// A step in which all digits of the electrolyte's diffusivities show.
fn dfn_exponents(draw: &mut Draw, _: u64) -> Case {
    let (cell, dt) = records::by_exponents(draw);
    let current = records::current(draw, cell.params.numbers[3]);
    Case { start: image_of(Record::DfnCell.parts(), &cell.slots()), turns: vec![Turn::new(draw, Function::DfnStep, &[current, dt])] }
}

/// A step whose voltage is the overpotentials alone.
fn dfn_overpotentials(draw: &mut Draw, _: u64) -> Case {
    let (cell, numbers) = records::by_overpotentials(draw);
    Case { start: image_of(Record::DfnCell.parts(), &cell.slots()), turns: vec![Turn::new(draw, Function::DfnStep, &numbers)] }
}

/// Currents so small that H has arguments below 2^-10, on cells in which its last digits show: steps and runs of either model, replays, cycles.
fn low_rates(draw: &mut Draw, turn: u64) -> Case {
    if turn % 2 == 0 {
        let cell = records::bare_overpotentials(draw);
        let (current, dt) = (records::low_current(draw, cell.params.numbers[3]), records::power(draw, -16.0, 10.0));
        let mut turns = vec![Turn::new(draw, Function::DfnStep, &[current, dt])];
        if draw.below(3) == 0 {
            let rows = slice_length(draw);
            turns.extend(Turn::summed(draw, Function::Galvanostatic, &[current, dt, 1e300], rows, 1));
        } else {
            turns.push(Turn::new(draw, Function::DfnStep, &[-current, dt]));
        }
        return Case { start: image_of(Record::DfnCell.parts(), &cell.slots()), turns };
    }
    let n = draw.count(3, 12);
    let cell = records::equal_electrodes(draw, n);
    let (area, temp_k) = (cell.anode.sheet.numbers[6], cell_temperature(draw, &cell));
    let dt = (least_interval(&cell, temp_k) * records::power(draw, -2.0, 2.0)).clamp(f64::from_bits(1), 86_400.0);
    let current = records::low_current(draw, area);
    let last = match draw.below(4) {
        0 => {
            let rows = slice_length(draw);
            Turn::summed(draw, Function::Discharge, &[current, dt, temp_k, 1e300], rows, 1)
        }
        1 => {
            let loads: Vec<[f64; 2]> = (0..draw.count(1, 12)).map(|_| [dt, records::low_current(draw, area)]).collect();
            let mut turn = Turn::new(draw, Function::Replay, &[temp_k]).with_rows(8 * loads.len());
            turn.call.text = texts::text_of(&loads);
            vec![turn]
        }
        2 => {
            let (phases, count, budget) = (schedules::low_phases(draw, area, dt), draw.count(1, PLACES as u64), draw.count(1, 16));
            vec![cycle_of(draw, &Schedule { phases, count, repeats: 2, budget, dt, temp_k })]
        }
        _ => vec![Turn::new(draw, Function::CellStep, &[-current, dt, temp_k])],
    };
    let mut turns = vec![Turn::new(draw, Function::CellStep, &[current, dt, temp_k])];
    turns.extend(last);
    Case { start: image_of(Record::Cell.parts(), &cell.slots()), turns }
}

/// A particle's or an electrolyte's rates at their largest and least: the largest activation energies, the two temperatures far apart.
fn far_temperatures(draw: &mut Draw, turn: u64) -> Case {
    let ((t_ref, temp_k), free) = (records::far_apart(draw), f64::from_bits(draw.pick(&SPECIAL)));
    if turn % 2 == 0 {
        let mut e = records::electrolyte(draw);
        e.regions.params.numbers[5..].copy_from_slice(&[1e5, 1e5, t_ref]);
        let dt = e.dt_stable(temp_k).expect("an electrolyte in range") * draw.pick(&[0.2, 0.9, 5.0]);
        let step = [draw.uniform(-50.0, 50.0), draw.uniform(-50.0, 50.0), dt.clamp(f64::from_bits(1), 86_400.0), temp_k];
        let turns = vec![Turn::new(draw, Function::Number(19), &[temp_k, free]), Turn::new(draw, Function::ElectrolyteStep, &step)];
        return Case { start: image_of(Record::Electrolyte.parts(), &e.slots()), turns };
    }
    let (mut sheet, n) = (records::sheet(draw), draw.count(3, 64));
    (sheet.numbers[7], sheet.numbers[9]) = (1e5, t_ref);
    sheet.numbers[1] = draw.pick(&[electrode::RANGES[1].low, electrode::RANGES[1].high, sheet.numbers[1]]);
    let particle = records::particle(draw, sheet, n);
    let dt = particle.dt_stable(temp_k).expect("a particle in range") * draw.pick(&[0.3, 0.9, 1e3]);
    let flux = draw.pick(&[0.0, 1e13, -1e13, 1e-6]) * draw.unit();
    let step = [flux, dt.clamp(f64::from_bits(1), 86_400.0), temp_k];
    let turns = vec![Turn::new(draw, Function::Number(6), &[temp_k, free]), Turn::new(draw, Function::ParticleStep, &step)];
    Case { start: image_of(Record::Particle.parts(), &particle.slots()), turns }
}

/// As `long_discharges`, of a DFN cell of few nodes, whose voltage falls on charge.
fn long_galvanostatic(draw: &mut Draw) -> Case {
    let (counts, rows) = ([draw.count(1, 3), draw.count(1, 3), draw.count(2, 4)], long_slice(draw));
    let voltages = if draw.below(8) == 0 { [2.5, 4.3] } else { [-10.0, 10.0] };
    let ready = draw.below(4) != 0;
    let params = if ready { draw.pick(&[dfn::Params::nmc_graphite(), dfn::Params::lfp_graphite()]) } else { records::dfn_params(draw) };
    let mut cell = dfn::Cell::new(params, dfn::Config { counts, voltages }).expect("parameters in range");
    cell.time_s = records::clock(draw);
    let (current, dt) = if ready {
        let dt = records::power(draw, -2.0, 5.0);
        let size = 20.0 * 1520.0 / (dt * (rows / ROW) as f64) * draw.uniform(0.2, 1.5);
        (if draw.below(4) == 0 { size } else { -size }, dt)
    } else {
        (records::current(draw, params.numbers[3]), records::power(draw, -10.0, 6.0))
    };
    let limit = if draw.below(4) == 0 { cell.time_s + dt * draw.count(60, 200) as f64 } else { 1e300 };
    let looks = draw.count(4, 10);
    let turns = Turn::summed(draw, Function::Galvanostatic, &[current, dt, limit], rows, looks);
    listed(draw, Record::DfnCell, &cell.slots(), None, turns)
}

/// Searches in rows and summaries that no run wrote.
fn invented_searches(draw: &mut Draw, _: u64) -> Case {
    let search = |draw: &mut Draw| {
        let mut turn = Turn::new(draw, Function::FirstBelow, &[0.0]);
        searches::invented(draw, &mut turn.call);
        turn
    };
    Case { start: Vec::new(), turns: (0..4).map(|_| search(draw)).collect() }
}

fn galvanostatic(draw: &mut Draw, _: u64) -> Case {
    if draw.below(8) == 0 {
        return long_galvanostatic(draw);
    }
    let (mut cell, mut build) = some_dfn(draw);
    let (current, dt) = (dfn_current(draw, &cell), dfn_interval(draw, &cell));
    if draw.below(2) == 0 {
        let (mut voltages, mut next) = (Vec::new(), cell.clone());
        for _ in 0..draw.count(2, 12) {
            let Ok((after, report)) = next.step(current, dt) else { break };
            voltages.push(report.voltage);
            next = after;
        }
        limit_between(draw, &voltages, &mut cell.config.voltages);
        build = None;
    }
    let mut turns = Vec::new();
    for _ in 0..draw.count(1, 2) {
        let limit = time_limit(draw, cell.time_s, dt);
        let (rows, looks) = (slice_length(draw), draw.below(4));
        turns.extend(Turn::summed(draw, Function::Galvanostatic, &[current, dt, limit], rows, looks));
    }
    listed(draw, Record::DfnCell, &cell.slots(), build, turns)
}

/// Entries of a matrix: ordinary, tiny about the singular limit, huge, small whole numbers, special.
fn entries(draw: &mut Draw, n: usize) -> Vec<f64> {
    let way = draw.below(7);
    let size = draw.pick(&[1.0, 1e3, 1e-13, 3e-14, 1e150, 1e307]);
    let entry = |draw: &mut Draw| match way {
        0 => draw.pick(&[0.0, 1.0, -1.0, 2.0, -0.0]),
        1 => records::power(draw, -60.0, 1000.0) * records::sign(draw),
        2 => draw.pick(&[1e-14, 1e-14f64.next_down(), 1e-14f64.next_up(), -1e-14, 0.0]),
        _ => draw.uniform(-size, size),
    };
    (0..n * n).map(|_| entry(draw)).collect()
}

fn system(draw: &mut Draw, n: usize) -> System {
    let mut a = entries(draw, n);
    let size = draw.pick(&[1.0, 1e3, 1e-300, 1e307]);
    let mut b: Vec<f64> = (0..n).map(|_| draw.uniform(-size, size)).collect();
    if n > 0 {
        let row = |draw: &mut Draw| draw.below(n as u64) as usize;
        match draw.below(8) {
            0 => {
                // a row that is another's multiple, or nearly so
                let (from, to, times) = (row(draw), row(draw), draw.pick(&[1.0, -2.0, 0.5, 1e-14]));
                let off = draw.pick(&[0.0, 1e-14, 1e-16, 1e-13]);
                for k in 0..n {
                    a[to * n + k] = times * a[from * n + k] + off * draw.unit();
                }
            }
            1 => {
                let column = row(draw);
                for k in 0..n {
                    a[k * n + column] = draw.pick(&[0.0, -0.0, 1e-15, 9.99e-15]);
                }
            }
            2 => {
                // an exchange of rows of the identity
                a.fill(0.0);
                for k in 0..n {
                    a[k * n + (n - 1 - k)] = 1.0;
                }
            }
            3 => {
                let at = draw.below((n * n) as u64) as usize;
                a[at] = f64::from_bits(draw.pick(&SPECIAL));
            }
            4 => b[row(draw)] = f64::from_bits(draw.pick(&SPECIAL)),
            _ => {}
        }
    }
    let bits = |all: &[f64]| all.iter().map(|x| x.to_bits()).collect();
    System { a: bits(&a), b: bits(&b), n: n as u64 }
}

fn solve(draw: &mut Draw, turn: u64) -> Case {
    let mut turns = Vec::new();
    for part in 0..2 {
        let n = if part == 0 { turn % 33 } else { draw.count(1, 6) } as usize;
        let mut turn = Turn::new(draw, Function::Solve, &[]);
        turn.call.system = system(draw, n);
        let system = &mut turn.call.system;
        match draw.below(24) {
            0 => system.n = count_around(draw, 0, 32),
            1 => system.a.truncate(draw.below(1 + system.a.len() as u64) as usize),
            2 => system.b.push(0),
            3 => {
                system.n = count_around(draw, 0, 32);
                system.a.push(draw.pick(&SPECIAL));
            }
            4 => lengths(draw, &mut turn),
            _ => {}
        }
        turns.push(turn);
    }
    Case { start: Vec::new(), turns }
}

/// Images of random bytes, and right images with one random byte.
fn random_images(draw: &mut Draw, _: u64) -> Case {
    let functions = crate::call::listed();
    let function = draw.pick(&functions);
    let record = function.record();
    let numbers: Vec<f64> = function.arguments().iter().map(|_| f64::from_bits(draw.bits())).collect();
    let mut turn = Turn::new(draw, function, &numbers);
    turn.call.rows = draw.below(40) as usize;
    turn.call.lowest = draw.below(3) as usize;
    if function == Function::FirstBelow {
        turn.call.search = searches::random(draw);
    }
    if function == Function::Replay {
        turn.call.text = (0..draw.below(80)).map(|_| draw.bits() as u8).collect();
    }
    if function == Function::Cycle {
        turn.call.phases.image = (0..schedules::IMAGE).map(|_| draw.bits() as u8).collect();
        turn.call.phases.counts = [0; 3].map(|_: u64| draw.bits() >> draw.below(64));
    }
    let start = (0..record.bytes()).map(|_| draw.bits() as u8).collect();
    Case { start, turns: vec![turn] }
}

/// One random byte in a record that was right.
fn random_byte(draw: &mut Draw, turn: u64) -> Case {
    let plans: [Plan; 6] = [particle_steps, cell_steps, electrolyte_steps, dfn_steps, sheet_numbers, salt_numbers];
    let mut case = plans[(turn % 6) as usize](draw, turn / 6);
    case.turns.truncate(2);
    if !case.start.is_empty() {
        let at = draw.below(case.start.len() as u64) as usize;
        case.start[at] = draw.bits() as u8;
    }
    case
}

/// The plans in turn, some more often than others.
pub const PLANS: [Plan; 31] = [
    sheet_numbers, particle_steps, cell_steps, electrolyte_steps, dfn_steps, solve, discharges, galvanostatic, ready, salt_numbers,
    particle_steps, cell_steps, random_byte, dfn_steps, solve, sphere, electrolyte_steps, random_images, particle_steps, cell_steps,
    sheet_numbers, dfn_steps, discharges, galvanostatic, dfn_exponents, dfn_overpotentials, replays, cycles,
    low_rates, far_temperatures, invented_searches,
];

/// A case by its number; it depends on the seed and the number alone.
pub fn case(seed: u64, number: u64) -> Case {
    let mut draw = Draw::seeded(seed.wrapping_mul(0x9E6C_63D0_876A_68EE) ^ number.wrapping_mul(0xD605_BBB5_8C8A_BBC9));
    draw.bits();
    let plan = (number % PLANS.len() as u64) as usize;
    PLANS[plan](&mut draw, number / PLANS.len() as u64 * 5 + plan as u64)
}
