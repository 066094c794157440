//! The single-particle cell's calls and its run.
use super::electrode::{self, random_sheet, ready_sheets};
use super::{about_small_limit, charge, low_current, number, particle, reference, sub_steps, READY_REFERENCE};
use crate::cover::{arguments, one_fault, pairs, singles, Argument, Kind};
use crate::draw::Draw;
use calls::earlier;
use calls::electrode::Sheet;
use calls::lowest::groups;
use calls::runs::ROW;
use calls::solver::{Cell, Config, DIFFUSIVITY, RANGES};
use calls::table::{MOST_CURRENT, TEMPERATURE};
use calls::words::{answer, float, word, Reader, Slot};

fn config_kinds() -> Vec<Kind> {
    std::iter::once(Kind::Count(3, 64)).chain(RANGES.iter().map(|range| Kind::Number(*range))).collect()
}

pub(super) fn cell_kinds(cell: &Cell) -> Vec<Kind> {
    [config_kinds(), particle::kinds(&cell.anode), particle::kinds(&cell.cathode), vec![Kind::Clock]].concat()
}

pub(super) fn config(n_nodes: u64) -> Config {
    Config { n_nodes, numbers: [2.5, 4.2, 96_485.0, 8.314, 2e-4] }
}

pub(super) fn random_config(draw: &mut Draw, n_nodes: u64) -> Config {
    Config { n_nodes, numbers: draw.all_within(&RANGES) }
}

pub(super) fn pairs_of_sheets() -> [(Sheet, Sheet); 2] {
    let [graphite, lfp, nmc] = ready_sheets();
    [(graphite, lfp), (graphite, nmc)]
}

/// A cell with drawn profiles and a clock.
pub(super) fn random_cell(draw: &mut Draw, config: Config, (anode, cathode): (Sheet, Sheet)) -> Cell {
    let n = config.n_nodes;
    Cell {
        config,
        anode: particle::random_profile(draw, anode, n),
        cathode: particle::random_profile(draw, cathode, n),
        time_s: draw.uniform(0.0, 1e5),
    }
}

pub fn ready_cases(draw: &mut Draw) -> Vec<Vec<Slot>> {
    let base = arguments(config(11).slots(), config_kinds());
    let mut all = [singles(&base), pairs(&base)].concat();
    all.extend((3..=64).map(|n| random_config(draw, n).slots()));
    all
}

/// `graphite_lfp`, then `graphite_nmc`: of each the whole cell.
pub fn ready(arguments: &[Slot]) -> Vec<Slot> {
    let mut reader = Reader::new(arguments);
    let config = Config::read(&mut reader);
    reader.end();
    [Cell::graphite_lfp(config), Cell::graphite_nmc(config)].into_iter().flat_map(|made| answer(made.map(|c| c.slots()))).collect()
}

pub fn new_cases(draw: &mut Draw) -> Vec<Vec<Slot>> {
    let slots = |config: Config, anode: Sheet, cathode: Sheet| [config.slots(), anode.slots(), cathode.slots()].concat();
    let (anode, cathode) = pairs_of_sheets()[1];
    let kinds = [config_kinds(), electrode::kinds(), electrode::kinds()].concat();
    let base = arguments(slots(config(4), anode, cathode), kinds);
    let mut all = [singles(&base), pairs(&base)].concat();
    all.extend((3..=64).map(|n| slots(random_config(draw, n), random_sheet(draw), random_sheet(draw))));
    all.extend((3..=64).map(|n| slots(random_config(draw, n), reference::sheet(draw), reference::sheet(draw))));
    all
}

/// A cell from two sheets: what it holds beside config and sheets.
pub fn new(arguments: &[Slot]) -> Vec<Slot> {
    let mut reader = Reader::new(arguments);
    let (config, anode, cathode) = (Config::read(&mut reader), Sheet::read(&mut reader), Sheet::read(&mut reader));
    reader.end();
    answer(Cell::new(config, anode, cathode).map(|cell| cell.changed_slots()))
}

pub(super) fn stepping(cell: &Cell, current_a: f64, dt: f64, temp_k: f64) -> Vec<Slot> {
    [cell.slots(), vec![float(current_a), float(dt), float(temp_k)]].concat()
}

pub(super) fn step_base(cell: &Cell, current_a: f64, dt: f64, temp_k: f64) -> Vec<Argument> {
    let kinds = [cell_kinds(cell), vec![Kind::Load(MOST_CURRENT), Kind::Above0(86_400.0), Kind::Temperature]].concat();
    arguments(stepping(cell, current_a, dt, temp_k), kinds)
}

/// The largest dt that makes one sub-step of at most this part of the stability limit.
pub(super) fn one_sub_step(cell: &Cell, part: f64, temp_k: f64) -> f64 {
    let longest = |p: &calls::particle::Particle| p.dt_stable(temp_k).expect("a particle in range") * part;
    longest(&cell.anode).min(longest(&cell.cathode))
}

/// Cells whose three counts of nodes are alike, at the limits and outside: neither particle's count differs from the config's.
pub(super) fn alike_counts() -> Vec<Cell> {
    let made = Cell::new(config(3), pairs_of_sheets()[0].0, pairs_of_sheets()[0].1).expect("ready sheets");
    let cell = |n: u64| {
        let mut cell = made.clone();
        (cell.config.n_nodes, cell.anode.n, cell.cathode.n) = (n, n, n);
        cell.anode.c_s[..n.min(64) as usize].fill(made.anode.c_s[0]);
        cell.cathode.c_s[..n.min(64) as usize].fill(made.cathode.c_s[0]);
        cell
    };
    [0, 1, 2, 64, 65, 1 << 32, u64::MAX].map(cell).to_vec()
}

/// A ready cell whose diffusivity leaves its range at one electrode, at the temperature beside it.
pub(super) fn diffusivity_out(draw: &mut Draw, at_anode: bool, high: bool) -> (Cell, f64) {
    let (mut anode, mut cathode) = pairs_of_sheets()[0];
    let sheet = if at_anode { &mut anode } else { &mut cathode };
    sheet.numbers[1] = if high { 1e-8 } else { 1e-20 };
    sheet.numbers[7] = 5e4;
    (random_cell(draw, config(3), (anode, cathode)), if high { 350.0 } else { 250.0 })
}

/// Ready cells of which one electrode, with this t_ref, has a corrected diffusivity at a limit or next to one, each with its temperature.
pub(super) fn diffusivity_at_limits(t_ref: f64) -> Vec<(Cell, f64)> {
    let mut all = Vec::new();
    for (limit, temp_k) in [(DIFFUSIVITY.low, 290.0), (DIFFUSIVITY.high, 310.0)] {
        for wanted in [limit.next_down(), limit, limit.next_up()] {
            for at_anode in [true, false] {
                let mut cell = Cell::new(config(3), pairs_of_sheets()[0].0, pairs_of_sheets()[0].1).expect("ready sheets");
                let sheet = if at_anode { &mut cell.anode.sheet } else { &mut cell.cathode.sheet };
                (sheet.numbers[1], sheet.numbers[9]) = (1e-14, t_ref);
                let factor = sheet.d_s(temp_k).expect("a sheet in range") / 1e-14;
                let near = (wanted / factor).to_bits();
                for bits in near - 8..near + 8 {
                    sheet.numbers[1] = f64::from_bits(bits);
                    if sheet.d_s(temp_k) == Ok(wanted) {
                        break;
                    }
                }
                all.push((cell, temp_k));
            }
        }
    }
    all
}

/// Graphite against graphite, both alike: the open-circuit voltages cancel, and at a small current the last digits of the overpotentials show.
pub(super) fn equal_electrodes(draw: &mut Draw) -> Cell {
    let (n, graphite) = (draw.count(3, 8), ready_sheets()[0]);
    let mut cell = random_cell(draw, config(n), (graphite, graphite));
    cell.cathode = cell.anode.clone();
    cell.config.numbers[..2].copy_from_slice(&[-10.0, 10.0]);
    cell
}

/// Small currents of both signs on such cells, and those next to which H changes its form.
fn low_rate_steps(draw: &mut Draw) -> Vec<Vec<Slot>> {
    let mut all = Vec::new();
    for turn in 0..60 {
        let cell = equal_electrodes(draw);
        let temp_k = draw.uniform(270.0, 330.0);
        all.push(stepping(&cell, low_current(draw, cell.anode.sheet.numbers[6]), 0.1, temp_k));
        if turn < 10 {
            let limit = about_small_limit(|current| drop(cell.step(current, 0.1, temp_k)));
            all.extend(limit.into_iter().flat_map(|current| [current, -current]).map(|current| stepping(&cell, current, 0.1, temp_k)));
        }
    }
    all
}

pub fn step_cases(draw: &mut Draw) -> Vec<Vec<Slot>> {
    let mut all = Vec::new();
    for (sheets, n) in pairs_of_sheets().into_iter().zip([3, 4]) {
        let base = step_base(&random_cell(draw, config(n), sheets), 3.0, 1.0, 298.15);
        all.extend([singles(&base), pairs(&base)].concat());
    }
    // 6 at either electrode and either end, alone and with a fault of a lower number
    for (at_anode, high) in [(true, true), (true, false), (false, true), (false, false)] {
        let (cell, temp_k) = diffusivity_out(draw, at_anode, high);
        all.extend(one_fault(&step_base(&cell, 3.0, 1.0, temp_k)));
        // and with 7, which it comes before
        all.push(stepping(&cell, 3.0, 86_400.0, temp_k));
    }
    // 7, alone and with a fault of a lower number
    let mut quick = random_cell(draw, config(3), pairs_of_sheets()[0]);
    quick.anode.sheet.numbers[0] = 1e-7;
    all.extend(one_fault(&step_base(&quick, 3.0, 86_400.0, 298.15)));
    // a quotient of 4,096 exactly and its neighbours, by the earlier sub-steps
    let least = one_sub_step(&quick, earlier::SUB_STEP, 298.15);
    for whole in [1.0, 2.0, 4096.0] {
        for dt in [(least * whole).next_down(), least * whole, (least * whole).next_up()] {
            all.push(stepping(&quick, 0.5, dt, 298.15));
        }
    }
    for n in 3..=64 {
        for sheets in pairs_of_sheets() {
            let config = if draw.below(2) == 0 { config(n) } else { random_config(draw, n) };
            let cell = random_cell(draw, config, sheets);
            all.push(stepping(&cell, draw.uniform(-20.0, 20.0), draw.pick(&[0.1, 1.0, 10.0]), draw.uniform(270.0, 330.0)));
        }
    }
    for _ in 0..1400 {
        let n = draw.count(3, 8);
        let (sheets, config) = ((random_sheet(draw), random_sheet(draw)), random_config(draw, n));
        let cell = random_cell(draw, config, sheets);
        let temp_k = draw.within(TEMPERATURE);
        let refused = [&cell.anode, &cell.cathode].iter().any(|p| !DIFFUSIVITY.holds(p.sheet.d_s(temp_k).expect("a sheet in range")));
        if refused && draw.below(8) != 0 {
            continue;
        }
        let dt = (one_sub_step(&cell, earlier::SUB_STEP, temp_k) * draw.pick(&[0.5, 1.0, 2.5, 30.0])).clamp(f64::MIN_POSITIVE, 86_400.0);
        let current = cell.anode.sheet.numbers[6] * draw.pick(&[0.0, -0.0, 1.0, -1.0, 30.0, 1e3]) * draw.unit();
        all.push(stepping(&cell, current.clamp(-MOST_CURRENT, MOST_CURRENT), dt, temp_k));
    }
    // steps one after the other: discharge, rest with both zeros, charge
    for (sheets, n) in pairs_of_sheets().into_iter().zip([11, 6]) {
        let mut cell = Cell::new(config(n), sheets.0, sheets.1).expect("ready sheets");
        for (turn, current) in [3.0, 3.0, 6.0, 0.0, -0.0, -3.0, -1.0, 3.0, 3.0, 12.0, 0.5, 3.0].into_iter().enumerate() {
            let dt = if turn % 3 == 0 { 10.0 } else { 1.0 };
            all.push(stepping(&cell, current, dt, 298.15));
            cell = cell.step(current, dt, 298.15).expect("a step in range").0;
        }
    }
    all.extend(alike_counts().iter().map(|cell| stepping(cell, 3.0, 1.0, 298.15)));
    all.extend(diffusivity_at_limits(READY_REFERENCE).iter().map(|(cell, temp_k)| stepping(cell, 3.0, 0.01, *temp_k)));
    all.extend(low_rate_steps(draw));
    all.extend(reference::cell_steps(draw));
    all.extend(charge::cell_steps(draw));
    all.extend(sub_steps::cell_steps(draw));
    all
}

/// Report, count of sub-steps, then what the step changed.
pub fn step(arguments: &[Slot]) -> Vec<Slot> {
    let mut reader = Reader::new(arguments);
    let cell = Cell::read(&mut reader);
    let [current_a, dt, temp_k] = reader.floats();
    reader.end();
    answer(cell.step(current_a, dt, temp_k).map(|(next, report)| [report.slots(), next.changed_slots()].concat()))
}

pub fn number_cases(draw: &mut Draw) -> Vec<Vec<Slot>> {
    let mut all = Vec::new();
    for (sheets, n) in pairs_of_sheets().into_iter().zip([3, 4]) {
        let cell = random_cell(draw, config(n), sheets);
        let base = arguments(cell.slots(), cell_kinds(&cell));
        all.extend(singles(&base));
    }
    let cell = random_cell(draw, config(3), pairs_of_sheets()[0]);
    all.extend(pairs(&arguments(cell.slots(), cell_kinds(&cell))));
    for n in 3..=64 {
        let (sheets, config) = ((random_sheet(draw), random_sheet(draw)), random_config(draw, n));
        all.push(random_cell(draw, config, sheets).slots());
    }
    all.extend(alike_counts().iter().map(Cell::slots));
    all.extend((3..=64).map(|n| reference::cell(draw, n).slots()));
    all
}

/// `ocv` and `soc_estimate`.
pub fn numbers(arguments: &[Slot]) -> Vec<Slot> {
    let mut reader = Reader::new(arguments);
    let cell = Cell::read(&mut reader);
    reader.end();
    [cell.ocv(), cell.soc_estimate()].into_iter().flat_map(number).collect()
}

/// Current, interval, temperature, time limit, and the length of the slice.
pub(super) fn running(cell: &Cell, [current_a, dt, temp_k, limit]: [f64; 4], length: u64) -> Vec<Slot> {
    [cell.slots(), [current_a, dt, temp_k, limit].map(float).to_vec(), vec![word(length)]].concat()
}

pub(super) fn run_base(cell: &Cell, numbers: [f64; 4], length: u64) -> Vec<Argument> {
    let loads = vec![Kind::Load(MOST_CURRENT), Kind::Above0(86_400.0), Kind::Temperature, Kind::Finite, Kind::Length(ROW as u64)];
    arguments(running(cell, numbers, length), [cell_kinds(cell), loads].concat())
}

pub fn run_cases(draw: &mut Draw) -> Vec<Vec<Slot>> {
    let lfp = Cell::new(config(3), pairs_of_sheets()[0].0, pairs_of_sheets()[0].1).expect("ready sheets");
    let nmc = Cell::new(config(5), pairs_of_sheets()[1].0, pairs_of_sheets()[1].1).expect("ready sheets");
    let base = run_base(&lfp, [3.0, 1.0, 298.15, 2.0], 24);
    let mut all = [singles(&base), pairs(&base)].concat();
    for cell in [&lfp, &nmc] {
        for length in [8, 9, 16, 79, 80, 88, 96, 200] {
            for limit in [0.0, -0.0, -1.0, 0.05, 0.1, 0.3, 1.0, 1e300] {
                all.push(running(cell, [3.0, 0.1, 298.15, limit], length));
            }
        }
        // the voltage ends the run, also on the last row that there is room for and when time is over with it
        for current in [40.0, 200.0, 1000.0, -300.0] {
            for length in [8, 16, 24, 160] {
                for limit in [1.0, 2.0, 5.0, 1e6] {
                    all.push(running(cell, [current, 1.0, 298.15, limit], length));
                }
            }
        }
    }
    // 6 and 7 end a run at its first step, and come only where a step is due
    let (out, temp_k) = diffusivity_out(draw, true, true);
    let mut quick = lfp.clone();
    quick.anode.sheet.numbers[0] = 1e-7;
    for limit in [0.0, -5.0, 1.0, 1e9] {
        all.push(running(&out, [3.0, 1.0, temp_k, limit], 16));
        all.push(running(&quick, [3.0, 86_400.0, 298.15, limit], 16));
    }
    all.extend(one_fault(&run_base(&out, [3.0, 1.0, temp_k, 10.0], 16)));
    // a cell whose clock is past the limit: only the run's own clock counts
    let mut late = nmc.clone();
    late.time_s = 1e9;
    all.push(running(&late, [3.0, 1.0, 298.15, 3.0], 80));
    for _ in 0..60 {
        let n = draw.count(3, 12);
        let sheets = draw.pick(&pairs_of_sheets());
        let cell = random_cell(draw, config(n), sheets);
        let numbers = [draw.uniform(-10.0, 10.0), draw.uniform(0.5, 5.0), draw.uniform(270.0, 330.0), draw.uniform(0.0, 60.0)];
        all.push(running(&cell, numbers, draw.count(8, 120)));
    }
    all.extend(alike_counts().iter().map(|cell| running(cell, [3.0, 1.0, 298.15, 2.0], 24)));
    // no step is due, and each fault is refused all the same
    all.extend(one_fault(&run_base(&lfp, [3.0, 1.0, 298.15, 0.0], 16)));
    for _ in 0..8 {
        let cell = equal_electrodes(draw);
        all.push(running(&cell, [low_current(draw, cell.anode.sheet.numbers[6]), 0.1, 298.15, 1e9], 160));
    }
    all.extend(reference::runs(draw));
    all.extend(charge::runs());
    all.extend(sub_steps::runs(draw));
    all
}

pub fn run(arguments: &[Slot]) -> Vec<Slot> {
    let mut reader = Reader::new(arguments);
    let cell = Cell::read(&mut reader);
    let [current_a, dt, temp_k, limit] = reader.floats();
    let length = reader.word() as usize;
    reader.end();
    let made = cell.simulate_discharge(current_a, dt, temp_k, limit, length, groups(length / ROW));
    made.slots(Cell::changed_slots)
}
