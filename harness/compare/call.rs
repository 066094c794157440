//! A call, what the oracle answers to it, what the port answers, and where the two differ.
use crate::images::{bytes_of, image_of, slots_of, words_of, Part, Record, DFN_PARAMS};
use crate::schedules::{self, Phases};
use crate::searches::Search;
use calls::cycle::{Phase, Schedule};
use calls::electrode::Sheet;
use calls::electrolyte::{Electrolyte, Params, Regions};
use calls::lowest::{first_below, lowest};
use calls::particle::Particle;
use calls::replay::MOST_TEXT;
use calls::runs::{Ending, Run, ROW};
use calls::solver::{Cell, Config};
use calls::words::{bits, Reader, Slot};
use calls::{dense, dfn, electrode};
use Part::{Places, Words};

#[derive(Clone, Copy, PartialEq, Eq, PartialOrd, Ord, Debug)]
pub enum Function {
    Number(u64),
    Build(u64),
    ParticleStep,
    CellStep,
    ElectrolyteStep,
    DfnStep,
    Discharge,
    Galvanostatic,
    Replay,
    Cycle,
    FirstBelow,
    Solve,
}

/// What an argument may be.
#[derive(Clone, Copy)]
pub enum Argument {
    Ignored,
    Temperature,
    Finite,
    Radius,
    Porosity,
    /// at most so much in size
    Load(f64),
    Interval,
}

const NUMBERS: [&str; 19] = [
    "d_s", "specific_area", "ocp", "docp_dtheta", "sphere_volume", "dt_stable", "theta_surface", "theta_avg", "c_avg", "ocp_surface",
    "ocv", "soc_estimate", "d_e", "kappa", "d_e_eff", "kappa_eff", "n_total", "c_avg (salt)", "dt_stable (salt)",
];
const BUILDS: [&str; 12] = [
    "graphite_anode", "lfp_cathode", "nmc_cathode", "lipf6_ec_dmc", "nmc_graphite", "lfp_graphite", "new particle", "graphite_lfp",
    "graphite_nmc", "cell of two sheets", "new electrolyte", "new DFN cell",
];
/// Every call that the boundary lists.
pub fn listed() -> Vec<Function> {
    let mut all: Vec<Function> = (1..=19).map(Function::Number).collect();
    all.extend((1..=12).map(Function::Build));
    all.extend([Function::ParticleStep, Function::CellStep, Function::ElectrolyteStep, Function::DfnStep]);
    all.extend([Function::Discharge, Function::Galvanostatic, Function::Replay, Function::Cycle, Function::FirstBelow, Function::Solve]);
    all
}

impl Function {
    pub fn is_listed(self) -> bool {
        match self {
            Function::Number(call) => (1..=19).contains(&call),
            Function::Build(call) => (1..=12).contains(&call),
            _ => true,
        }
    }

    pub fn name(self) -> String {
        match self {
            Function::Number(call) if self.is_listed() => NUMBERS[call as usize - 1].to_string(),
            Function::Build(call) if self.is_listed() => BUILDS[call as usize - 1].to_string(),
            Function::Number(_) => "pj_number, not listed".to_string(),
            Function::Build(_) => "pj_build, not listed".to_string(),
            Function::ParticleStep => "particle step".to_string(),
            Function::CellStep => "cell step".to_string(),
            Function::ElectrolyteStep => "step_concentration".to_string(),
            Function::DfnStep => "DFN step".to_string(),
            Function::Discharge => "simulate_discharge".to_string(),
            Function::Galvanostatic => "run_galvanostatic".to_string(),
            Function::Replay => "replay".to_string(),
            Function::Cycle => "cycle".to_string(),
            Function::FirstBelow => "first_below".to_string(),
            Function::Solve => "solve_dense".to_string(),
        }
    }

    /// Whether the call writes rows into a lent slice.
    pub fn is_run(self) -> bool {
        matches!(self, Function::Discharge | Function::Galvanostatic | Function::Replay | Function::Cycle)
    }

    /// Whether the call keeps a summary of lowest voltages beside its rows: its number as the run that a search is told of.
    pub fn summed(self) -> Option<u64> {
        match self {
            Function::Discharge => Some(1),
            Function::Galvanostatic => Some(2),
            _ => None,
        }
    }

    /// Whether the call is lent an image, be it an empty one.
    pub fn takes_image(self) -> bool {
        !matches!(self, Function::FirstBelow | Function::Solve)
    }

    /// The record that the call is lent.
    pub fn record(self) -> Record {
        match self {
            Function::Number(call) => match call {
                1..=4 => Record::Sheet,
                6..=10 => Record::Particle,
                11 | 12 => Record::Cell,
                13..=16 => Record::ElectrolyteParams,
                17..=19 => Record::Electrolyte,
                _ => Record::Nothing,
            },
            Function::Build(call) => match call {
                7 => Record::SheetAndNodes,
                8 | 9 => Record::Config,
                10 => Record::ConfigAndSheets,
                11 => Record::Regions,
                12 => Record::DfnParamsAndConfig,
                _ => Record::Nothing,
            },
            Function::ParticleStep => Record::Particle,
            Function::CellStep | Function::Discharge | Function::Replay | Function::Cycle => Record::Cell,
            Function::ElectrolyteStep => Record::Electrolyte,
            Function::DfnStep | Function::Galvanostatic => Record::DfnCell,
            Function::FirstBelow | Function::Solve => Record::Nothing,
        }
    }

    /// The record that the answer starts with, where it can be handed in again.
    pub fn next(self) -> Record {
        match self {
            Function::Build(7) => Record::Particle,
            Function::Build(8..=10) => Record::Cell,
            Function::Build(11) => Record::Electrolyte,
            Function::Build(12) => Record::DfnCell,
            Function::Number(_) | Function::Build(_) | Function::FirstBelow | Function::Solve => Record::Nothing,
            _ => self.record(),
        }
    }

    pub fn answer_bytes(self) -> usize {
        let after = match self {
            Function::Number(_) => 8,
            Function::Build(1..=3) => Record::Sheet.bytes(),
            Function::Build(4) => Record::ElectrolyteParams.bytes(),
            Function::Build(5 | 6) => bytes_of(&DFN_PARAMS),
            Function::CellStep => 72,
            Function::DfnStep => 64,
            _ if self.is_run() => 16,
            Function::FirstBelow => 16,
            Function::Solve => 256,
            _ => 0,
        };
        self.next().bytes() + after
    }

    pub fn arguments(self) -> &'static [Argument] {
        use Argument::{Finite, Ignored, Interval, Load, Porosity, Radius, Temperature};
        match self {
            Function::Number(call) => match call {
                1 | 6 | 19 => &[Temperature, Ignored],
                3 | 4 => &[Finite, Ignored],
                5 => &[Radius, Ignored],
                13 | 14 => &[Ignored, Temperature],
                15 | 16 => &[Porosity, Temperature],
                _ => &[Ignored, Ignored],
            },
            Function::Build(_) | Function::Solve => &[],
            Function::ParticleStep => &[Load(1e13), Interval, Temperature],
            Function::CellStep => &[Load(1e6), Interval, Temperature],
            Function::ElectrolyteStep => &[Load(1e9), Load(1e9), Interval, Temperature],
            Function::DfnStep => &[Load(1e6), Interval],
            Function::Discharge => &[Load(1e6), Interval, Temperature, Finite],
            Function::Galvanostatic => &[Load(1e6), Interval, Finite],
            Function::Replay => &[Temperature],
            Function::Cycle => &[Interval, Temperature],
            Function::FirstBelow => &[Finite],
        }
    }

    /// The numbers that the table and the boundary's lengths let this call be refused with, those aside that no input meets.
    pub fn refusals(self) -> &'static [u64] {
        match self {
            _ if !self.is_listed() => &[2],
            Function::Number(call) => match call {
                1 | 13..=16 => &[2, 5, 10],
                2..=5 => &[2, 10],
                6 | 19 => &[1, 2, 5, 10],
                18 => &[1, 2, 8, 10],
                _ => &[1, 2, 10],
            },
            Function::Build(1..=6) => &[10],
            Function::Build(_) => &[1, 2, 10],
            Function::ParticleStep => &[1, 2, 3, 4, 5, 10],
            Function::CellStep | Function::Discharge | Function::Cycle => &[1, 2, 3, 4, 5, 6, 7, 10],
            Function::Replay => &[1, 2, 3, 4, 5, 6, 7, 10, 11, 12],
            Function::ElectrolyteStep => &[1, 2, 3, 4, 5, 8, 10],
            Function::DfnStep | Function::Galvanostatic => &[1, 2, 3, 4, 8, 10],
            Function::FirstBelow => &[2, 10],
            Function::Solve => &[1, 2, 8, 9, 10],
        }
    }
}

/// A linear system; the words are bit patterns.
#[derive(Clone, Default, PartialEq)]
pub struct System {
    pub a: Vec<u64>,
    pub b: Vec<u64>,
    pub n: u64,
}

/// A call with all that it is given.
#[derive(Clone, PartialEq)]
pub struct Call {
    pub function: Function,
    pub image: Vec<u8>,
    /// bit patterns
    pub numbers: Vec<u64>,
    /// places of the slice that a run is lent for its rows
    pub rows: usize,
    /// places of the slice for their summary
    pub lowest: usize,
    /// a replay's lines
    pub text: Vec<u8>,
    /// a cycle's phases and counts
    pub phases: Phases,
    pub search: Search,
    pub system: System,
    pub answer_bytes: usize,
    /// what lent memory holds before the call, and where in a word its bytes start
    pub filler: u64,
}

/// What a call answers: the number, the answer where it is written, the rows, the places of their summary.
#[derive(PartialEq)]
pub struct Answer {
    pub number: u64,
    pub image: Option<Vec<u8>>,
    pub rows: Vec<u64>,
    pub lowest: Vec<u64>,
    pub ending: Option<Ending>,
}

impl Answer {
    fn refused(number: u64) -> Self {
        Self { number, image: None, rows: Vec::new(), lowest: Vec::new(), ending: None }
    }

    fn of(parts: &[Part], result: Result<Vec<Slot>, u64>) -> Self {
        match result {
            Ok(slots) => Self { image: Some(image_of(parts, &slots)), ..Self::refused(0) },
            Err(number) => Self::refused(number),
        }
    }

    fn number(result: Result<f64, u64>) -> Self {
        Self::of(&[Words(1)], result.map(|x| vec![Slot::Word(bits(x))]))
    }

    /// The cell, how the run ended and how many rows it wrote; a run that is refused before its first row has no answer.
    fn run<C>(parts: &[Part], made: &Run<C>, slots: impl Fn(&C) -> Vec<Slot>) -> Self {
        let rows: Vec<u64> = made.rows.iter().flatten().map(|x| bits(*x)).collect();
        if made.ending == Ending::Refused && rows.is_empty() {
            return Self { ending: Some(Ending::Refused), ..Self::refused(made.refusal) };
        }
        let mut all = slots(&made.cell);
        all.extend([Slot::Word(made.ending as u64), Slot::Word(made.rows.len() as u64)]);
        Self { image: Some(image_of(parts, &all)), rows, ending: Some(made.ending), ..Self::refused(made.refusal) }
    }

    /// A run that keeps a summary of its rows.
    fn summed<C>(parts: &[Part], made: &Run<C>, slots: impl Fn(&C) -> Vec<Slot>) -> Self {
        Self { lowest: lowest(&made.rows).into_iter().map(bits).collect(), ..Self::run(parts, made, slots) }
    }
}

fn floats(words: &[u64]) -> Vec<f64> {
    words.iter().map(|word| f64::from_bits(*word)).collect()
}

/// What was found, 1 a row or 2 none, and which row.
fn searched(search: &Search, voltage: f64) -> Answer {
    let (rows, lowest) = (floats(&search.rows), floats(&search.lowest));
    let found = first_below(search.which, &rows, &lowest, search.count as usize, voltage);
    let words = |row: Option<usize>| row.map_or([2, 0], |row| [1, row as u64]);
    Answer::of(&[Words(2)], found.map(|row| words(row).map(Slot::Word).to_vec()))
}

fn join(parts: &[Part], after: usize) -> Vec<Part> {
    [parts, &[Words(after)]].concat()
}

fn of_number(call: u64, reader: &mut Reader, x: f64, y: f64) -> Answer {
    Answer::number(match call {
        1 => Sheet::read(reader).d_s(x),
        2 => Sheet::read(reader).specific_area(),
        3 => Sheet::read(reader).ocp(x),
        4 => Sheet::read(reader).docp_dtheta(x),
        5 => electrode::sphere_volume(x),
        6 => Particle::read(reader).dt_stable(x),
        7 => Particle::read(reader).theta_surface(),
        8 => Particle::read(reader).theta_avg(),
        9 => Particle::read(reader).c_avg(),
        10 => Particle::read(reader).ocp_surface(),
        11 => Cell::read(reader).ocv(),
        12 => Cell::read(reader).soc_estimate(),
        13 => Params::read(reader).d_e(y),
        14 => Params::read(reader).kappa(y),
        15 => Params::read(reader).d_e_eff(x, y),
        16 => Params::read(reader).kappa_eff(x, y),
        17 => Electrolyte::read(reader).n_total().map(|n| n as f64),
        18 => Electrolyte::read(reader).c_avg(),
        _ => Electrolyte::read(reader).dt_stable(x),
    })
}

fn of_build(call: u64, reader: &mut Reader) -> Answer {
    let parts = Function::Build(call).next().parts();
    let sheet = |sheet: Sheet| Answer::of(Record::Sheet.parts(), Ok(sheet.slots()));
    match call {
        1 => sheet(Sheet::graphite_anode()),
        2 => sheet(Sheet::lfp_cathode()),
        3 => sheet(Sheet::nmc_cathode()),
        4 => Answer::of(Record::ElectrolyteParams.parts(), Ok(Params::lipf6_ec_dmc().slots())),
        5 => Answer::of(&DFN_PARAMS, Ok(dfn::Params::nmc_graphite().slots())),
        6 => Answer::of(&DFN_PARAMS, Ok(dfn::Params::lfp_graphite().slots())),
        7 => {
            let sheet = Sheet::read(reader);
            Answer::of(parts, Particle::new(sheet, reader.word()).map(|p| p.slots()))
        }
        8 => Answer::of(parts, Cell::graphite_lfp(Config::read(reader)).map(|c| c.slots())),
        9 => Answer::of(parts, Cell::graphite_nmc(Config::read(reader)).map(|c| c.slots())),
        10 => {
            let (config, anode, cathode) = (Config::read(reader), Sheet::read(reader), Sheet::read(reader));
            Answer::of(parts, Cell::new(config, anode, cathode).map(|c| c.slots()))
        }
        11 => Answer::of(parts, Electrolyte::new(Regions::read(reader)).map(|e| e.slots())),
        _ => {
            let (params, config) = (dfn::Params::read(reader), dfn::Config::read(reader));
            Answer::of(parts, dfn::Cell::new(params, config).map(|c| c.slots()))
        }
    }
}

/// A kind that is none of the three, among the phases that are looked at, is 2, after 1 and the rows' 10. The oracle has no such kind: a charge that is
/// no number stands for it, which would be 3.
fn cycled(cell: &Cell, call: &Call, dt: f64, temp_k: f64) -> Run<Cell> {
    let read = call.phases.read();
    let [count, repeats, budget] = call.phases.counts;
    let phases = std::array::from_fn(|at| read[at].unwrap_or(Phase::Charge(f64::NAN)));
    let mut made = cell.cycle(&Schedule { phases, count, repeats, budget, dt, temp_k }, call.rows);
    if made.refusal == 3 && read[..call.phases.meant()].contains(&None) {
        made.refusal = 2;
    }
    made
}

/// What the oracle answers. Lengths that the header fixes come before all else but a text that is too long; a call that is not listed is 2.
pub fn ask_oracle(call: &Call) -> Answer {
    let function = call.function;
    if !function.is_listed() {
        return Answer::refused(2);
    }
    let takes_image = function.takes_image();
    let phases_fit = function != Function::Cycle || call.phases.image.len() == schedules::IMAGE;
    if call.answer_bytes != function.answer_bytes() || takes_image && call.image.len() != function.record().bytes() || !phases_fit {
        return Answer::refused(if call.text.len() > MOST_TEXT { 12 } else { 10 });
    }
    let slots = if takes_image { slots_of(function.record().parts(), &call.image) } else { Vec::new() };
    let mut reader = Reader::new(&slots);
    let numbers = floats(&call.numbers);
    let parts = function.next().parts();
    match (function, &numbers[..]) {
        (Function::Number(number), [x, y]) => of_number(number, &mut reader, *x, *y),
        (Function::Build(build), []) => of_build(build, &mut reader),
        (Function::ParticleStep, [j_n, dt, temp_k]) => {
            Answer::of(parts, Particle::read(&mut reader).step(*j_n, *dt, *temp_k).map(|p| p.slots()))
        }
        (Function::CellStep, [current_a, dt, temp_k]) => {
            let made = Cell::read(&mut reader).step(*current_a, *dt, *temp_k);
            Answer::of(&join(parts, 9), made.map(|(cell, report)| [cell.slots(), report.slots()].concat()))
        }
        (Function::ElectrolyteStep, [j_n_neg, j_n_pos, dt, temp_k]) => {
            let made = Electrolyte::read(&mut reader).step_concentration(*j_n_neg, *j_n_pos, *dt, *temp_k);
            Answer::of(parts, made.map(|e| e.slots()))
        }
        (Function::DfnStep, [current_a, dt_s]) => {
            let made = dfn::Cell::read(&mut reader).step(*current_a, *dt_s);
            Answer::of(&join(parts, 8), made.map(|(cell, report)| [cell.slots(), dfn::report_slots(&report)].concat()))
        }
        (Function::Discharge, [current_a, dt, temp_k, limit]) => {
            let made = Cell::read(&mut reader).simulate_discharge(*current_a, *dt, *temp_k, *limit, call.rows, call.lowest);
            Answer::summed(&join(parts, 2), &made, Cell::slots)
        }
        (Function::Galvanostatic, [current_a, dt_s, limit]) => {
            let made = dfn::Cell::read(&mut reader).run_galvanostatic(*current_a, *dt_s, *limit, call.rows, call.lowest);
            Answer::summed(&join(parts, 2), &made, dfn::Cell::slots)
        }
        (Function::Replay, [temp_k]) => {
            let made = Cell::read(&mut reader).replay(&call.text, *temp_k, call.rows);
            Answer::run(&join(parts, 2), &made, Cell::slots)
        }
        (Function::Cycle, [dt, temp_k]) => {
            let made = cycled(&Cell::read(&mut reader), call, *dt, *temp_k);
            Answer::run(&join(parts, 2), &made, Cell::slots)
        }
        (Function::FirstBelow, [voltage]) => searched(&call.search, *voltage),
        (Function::Solve, []) => {
            let made = dense::solve_dense(&floats(&call.system.a), &floats(&call.system.b), call.system.n);
            Answer::of(&[Places(32)], made.map(|x| vec![calls::words::array(&x)]))
        }
        _ => panic!("a call with another count of arguments"),
    }
}

/// Words from a seed: what lent memory holds before a call.
struct Filler(u64);

impl Filler {
    fn word(&mut self) -> u64 {
        self.0 = self.0.wrapping_mul(0xD134_2543_DE82_EF95).wrapping_add(0x9E37_79B9_7F4A_7C15);
        self.0 ^ (self.0 >> 29)
    }
}

/// Words of memory with guards around what is lent.
struct Lent {
    memory: Vec<u64>,
    before: Vec<u64>,
    /// the lent bytes
    start: usize,
    len: usize,
}

const GUARD: usize = 8;

impl Lent {
    /// So many bytes, from the given place in a word; they hold `content`, or what the filler gives.
    fn new(filler: &mut Filler, shift: usize, len: usize, content: Option<&[u8]>) -> Self {
        let mut memory: Vec<u64> = (0..len.div_ceil(8) + 1 + 2 * GUARD).map(|_| filler.word()).collect();
        let start = 8 * GUARD + shift;
        if let Some(content) = content {
            let bytes: &mut [u8] = unsafe { std::slice::from_raw_parts_mut(memory.as_mut_ptr().cast(), 8 * memory.len()) };
            bytes[start..start + len].copy_from_slice(content);
        }
        Self { before: memory.clone(), memory, start, len }
    }

    fn bytes(&mut self) -> &mut [u8] {
        let (start, len) = (self.start, self.len);
        let all: &mut [u8] = unsafe { std::slice::from_raw_parts_mut(self.memory.as_mut_ptr().cast(), 8 * self.memory.len()) };
        &mut all[start..start + len]
    }

    /// The lent bytes as numbers; they start at a whole word.
    fn floats(&mut self) -> &mut [f64] {
        let (start, len) = (self.start / 8, self.len / 8);
        unsafe { std::slice::from_raw_parts_mut(self.memory[start..start + len].as_mut_ptr().cast(), len) }
    }

    fn raw(words: &[u64]) -> &[u8] {
        unsafe { std::slice::from_raw_parts(words.as_ptr().cast(), 8 * words.len()) }
    }

    fn now(&self) -> &[u8] {
        &Self::raw(&self.memory)[self.start..self.start + self.len]
    }

    fn then(&self) -> &[u8] {
        &Self::raw(&self.before)[self.start..self.start + self.len]
    }

    fn guards_kept(&self) -> bool {
        let (now, then) = (Self::raw(&self.memory), Self::raw(&self.before));
        let end = self.start + self.len;
        now[..self.start] == then[..self.start] && now[end..] == then[end..]
    }
}

/// What the port answers, and what it left in the memory that it was lent.
pub struct Asked {
    pub number: u64,
    image: Lent,
    text: Lent,
    phases: Lent,
    a: Lent,
    b: Lent,
    rows: Lent,
    lowest: Lent,
    answer: Lent,
}

pub fn ask_port(call: &Call) -> Asked {
    let mut filler = Filler(call.filler);
    let shift = (call.filler >> 7) as usize % 8;
    let raw = Lent::raw;
    let mut image = Lent::new(&mut filler, shift, call.image.len(), Some(&call.image));
    let mut a = Lent::new(&mut filler, 0, 8 * call.system.a.len(), Some(raw(&call.system.a)));
    let mut b = Lent::new(&mut filler, 0, 8 * call.system.b.len(), Some(raw(&call.system.b)));
    // a search is lent what a run has written
    let search = (call.function == Function::FirstBelow).then_some(&call.search);
    let mut rows = Lent::new(&mut filler, 0, 8 * search.map_or(call.rows, |s| s.rows.len()), search.map(|s| raw(&s.rows)));
    let mut lowest = Lent::new(&mut filler, 0, 8 * search.map_or(call.lowest, |s| s.lowest.len()), search.map(|s| raw(&s.lowest)));
    let mut text = Lent::new(&mut filler, (call.filler >> 10) as usize % 8, call.text.len(), Some(&call.text));
    let mut phases = Lent::new(&mut filler, (call.filler >> 16) as usize % 8, call.phases.image.len(), Some(&call.phases.image));
    let mut answer = Lent::new(&mut filler, (call.filler >> 13) as usize % 8, call.answer_bytes, None);
    let numbers = floats(&call.numbers);
    let number = match (call.function, &numbers[..]) {
        (Function::Number(number), [x, y]) => port::number(number, image.bytes(), [*x, *y], answer.bytes()),
        (Function::Build(build), []) => port::build(build, image.bytes(), answer.bytes()),
        (Function::ParticleStep, [j, dt, t]) => port::particle_step(image.bytes(), [*j, *dt, *t], answer.bytes()),
        (Function::CellStep, [i, dt, t]) => port::cell_step(image.bytes(), [*i, *dt, *t], answer.bytes()),
        (Function::ElectrolyteStep, [p, q, dt, t]) => port::electrolyte_step(image.bytes(), [*p, *q, *dt, *t], answer.bytes()),
        (Function::DfnStep, [i, dt]) => port::dfn_step(image.bytes(), [*i, *dt], answer.bytes()),
        (Function::Discharge, [i, dt, t, limit]) => {
            port::simulate_discharge(image.bytes(), [*i, *dt, *t, *limit], rows.floats(), lowest.floats(), answer.bytes())
        }
        (Function::Galvanostatic, [i, dt, limit]) => {
            port::run_galvanostatic(image.bytes(), [*i, *dt, *limit], rows.floats(), lowest.floats(), answer.bytes())
        }
        (Function::Replay, [t]) => port::replay(image.bytes(), text.bytes(), *t, rows.floats(), answer.bytes()),
        (Function::Cycle, [dt, t]) => {
            let counts = call.phases.counts.map(|count| count as usize);
            port::cycle(image.bytes(), phases.bytes(), counts, [*dt, *t], rows.floats(), answer.bytes())
        }
        (Function::FirstBelow, [voltage]) => {
            let (which, count) = (call.search.which, call.search.count as usize);
            port::first_below(which, rows.floats(), lowest.floats(), count, *voltage, answer.bytes())
        }
        (Function::Solve, []) => port::solve_dense(a.floats(), b.floats(), call.system.n as usize, answer.bytes()),
        _ => panic!("a call with another count of arguments"),
    };
    Asked { number, image, text, phases, a, b, rows, lowest, answer }
}

impl Asked {
    pub fn answer(&self) -> &[u8] {
        self.answer.now()
    }

    pub fn rows(&self) -> Vec<u64> {
        words_of(self.rows.now())
    }

    pub fn lowest(&self) -> Vec<u64> {
        words_of(self.lowest.now())
    }

    pub fn wrote_no_answer(&self) -> bool {
        self.answer.now() == self.answer.then()
    }

    /// Where the port differs from the oracle, in words; none where it agrees.
    pub fn differences(&self, oracle: &Answer) -> Vec<String> {
        let mut all = Vec::new();
        if self.number != oracle.number {
            all.push(format!("number: oracle {}, port {}", oracle.number, self.number));
        }
        match &oracle.image {
            None if !self.wrote_no_answer() => all.push("the answer of a refused call is written".to_string()),
            Some(_) if self.wrote_no_answer() => all.push("the answer is not written".to_string()),
            Some(image) if self.answer.now() != &image[..] => {
                let (expected, got) = (words_of(image), words_of(self.answer.now()));
                for (at, (e, g)) in expected.iter().zip(&got).enumerate().filter(|(_, (e, g))| e != g) {
                    all.push(format!("answer, word {at}: oracle {}, port {}", shown(*e), shown(*g)));
                }
            }
            _ => {}
        }
        let rows = 8 * oracle.rows.len();
        let (now, then) = (self.rows.now(), self.rows.then());
        if now[..rows] != *Lent::raw(&oracle.rows) {
            for (at, (e, g)) in oracle.rows.iter().zip(words_of(now)).enumerate().filter(|(_, (e, g))| *e != g) {
                all.push(format!("row {}, place {}: oracle {}, port {}", at / ROW, at % ROW, shown(*e), shown(g)));
            }
        }
        if now[rows..] != then[rows..] {
            all.push("places after the last row are written".to_string());
        }
        let groups = 8 * oracle.lowest.len();
        let (now, then) = (self.lowest.now(), self.lowest.then());
        if now[..groups] != *Lent::raw(&oracle.lowest) {
            for (group, (e, g)) in oracle.lowest.iter().zip(words_of(now)).enumerate().filter(|(_, (e, g))| *e != g) {
                all.push(format!("lowest of group {group}: oracle {}, port {}", shown(*e), shown(g)));
            }
        }
        if now[groups..] != then[groups..] {
            all.push("places after the last row's group are written".to_string());
        }
        let read = [("image", &self.image), ("text", &self.text), ("phases", &self.phases), ("matrix", &self.a), ("right side", &self.b)];
        for (what, lent) in read {
            if lent.now() != lent.then() {
                all.push(format!("the lent {what} is changed"));
            }
        }
        for (what, lent) in read.into_iter().chain([("rows", &self.rows), ("summary", &self.lowest), ("answer", &self.answer)]) {
            if !lent.guards_kept() {
                all.push(format!("memory beside the {what} is written"));
            }
        }
        all
    }

    /// How many bytes had to stay as they were.
    pub fn kept_bytes(&self, oracle: &Answer) -> u64 {
        let lent = [&self.image, &self.text, &self.phases, &self.a, &self.b, &self.rows, &self.lowest, &self.answer];
        let all: usize = lent.iter().map(|lent| 8 * lent.memory.len()).sum();
        (all - 8 * oracle.rows.len() - 8 * oracle.lowest.len() - oracle.image.as_ref().map_or(0, Vec::len)) as u64
    }
}

pub fn shown(word: u64) -> String {
    format!("{word:016X} ({:e})", f64::from_bits(word))
}
