//! The DFN cell's calls and its run, and the ready parameters of both electrolyte models.
use super::{about_small_limit, low_current};
use crate::cover::{arguments, one_fault, pairs, singles, Argument, Kind};
use crate::draw::Draw;
use calls::dfn::{
    report_slots, Cell, Coefficients, Config, Params, COEFFICIENT, CONCENTRATION, ELECTROLYTE_PLACES, MOST_COEFFICIENTS, MOST_R, MOST_X,
    RANGES, SOLID_PLACES, VOLTAGE,
};
use calls::electrolyte;
use calls::lowest::groups;
use calls::runs::ROW;
use calls::table::{range, MOST_CURRENT};
use calls::words::{answer, float, word, Reader, Slot};

fn params_kinds(p: &Params) -> Vec<Kind> {
    let side = |c: &Coefficients| {
        let values = Kind::Places { total: MOST_COEFFICIENTS, used: c.count as usize, each: COEFFICIENT };
        vec![Kind::Count(0, MOST_COEFFICIENTS as u64), values]
    };
    [RANGES.iter().map(|range| Kind::Number(*range)).collect(), side(&p.ocv_neg), side(&p.ocv_pos)].concat()
}

fn config_kinds() -> Vec<Kind> {
    vec![Kind::Count(1, MOST_X), Kind::Count(1, MOST_X), Kind::Count(2, MOST_R), Kind::Number(VOLTAGE), Kind::Number(VOLTAGE)]
}

fn kinds(cell: &Cell) -> Vec<Kind> {
    let [n_x_neg, n_x_pos, n_r] = cell.config.counts.map(|n| n as usize);
    let solid = |n_x: usize, most: f64| Kind::Places { total: SOLID_PLACES, used: n_x * n_r, each: range(0.0, most) };
    let state = vec![
        solid(n_x_neg, cell.params.numbers[6]),
        solid(n_x_pos, cell.params.numbers[12]),
        Kind::Places { total: ELECTROLYTE_PLACES, used: n_x_neg + 1 + n_x_pos, each: CONCENTRATION },
        Kind::Clock,
        Kind::Free,
        Kind::Free,
        Kind::Free,
        Kind::Free,
    ];
    [params_kinds(&cell.params), config_kinds(), state].concat()
}

pub(super) fn config(counts: [u64; 3]) -> Config {
    Config { counts, voltages: [2.5, 4.3] }
}

fn random_params(draw: &mut Draw) -> Params {
    let mut side = || {
        let count = draw.below(1 + MOST_COEFFICIENTS as u64) as usize;
        let values: Vec<f64> = (0..count).map(|_| draw.within(COEFFICIENT)).collect();
        Coefficients::of(&values)
    };
    let (ocv_neg, ocv_pos) = (side(), side());
    Params { numbers: draw.all_within(&RANGES), ocv_neg, ocv_pos }
}

/// A cell with drawn concentrations.
pub(super) fn random_cell(draw: &mut Draw, params: Params, config: Config) -> Cell {
    let mut cell = Cell::new(params, config).expect("parameters in range");
    let [n_x_neg, n_x_pos, n_r] = config.counts.map(|n| n as usize);
    let way = draw.below(3);
    let mut draw_all = |places: &mut [f64], low: f64, high: f64| {
        for place in places {
            *place = match way {
                0 => draw.uniform(low, high),
                1 => draw.pick(&[low, high, 0.5 * (low + high)]),
                _ => (*place * draw.uniform(0.9, 1.1)).clamp(low, high),
            };
        }
    };
    draw_all(&mut cell.c_s_neg[..n_x_neg * n_r], 0.0, params.numbers[6]);
    draw_all(&mut cell.c_s_pos[..n_x_pos * n_r], 0.0, params.numbers[12]);
    draw_all(&mut cell.c_e[..n_x_neg + 1 + n_x_pos], 1.0, 1e5);
    cell.time_s = draw.uniform(0.0, 1e5);
    cell
}

pub fn ready_cases(_: &mut Draw) -> Vec<Vec<Slot>> {
    vec![Vec::new()]
}

/// `lipf6_ec_dmc`, `nmc_graphite`, `lfp_graphite`.
pub fn ready(_: &[Slot]) -> Vec<Slot> {
    [electrolyte::Params::lipf6_ec_dmc().slots(), Params::nmc_graphite().slots(), Params::lfp_graphite().slots()].concat()
}

pub fn new_cases(draw: &mut Draw) -> Vec<Vec<Slot>> {
    let p = Params::lfp_graphite();
    let base = arguments([p.slots(), config([2, 1, 2]).slots()].concat(), [params_kinds(&p), config_kinds()].concat());
    let mut all = [singles(&base), pairs(&base)].concat();
    for _ in 0..40 {
        let counts = [draw.count(1, 5), draw.count(1, 5), draw.count(2, 8)];
        all.push([random_params(draw).slots(), config(counts).slots()].concat());
    }
    all.push([Params::nmc_graphite().slots(), config([16, 16, 32]).slots()].concat());
    all
}

/// What the cell holds beside parameters and config.
pub fn new(arguments: &[Slot]) -> Vec<Slot> {
    let mut reader = Reader::new(arguments);
    let (params, config) = (Params::read(&mut reader), Config::read(&mut reader));
    reader.end();
    answer(Cell::new(params, config).map(|cell| cell.changed_slots()))
}

fn stepping(cell: &Cell, current_a: f64, dt_s: f64) -> Vec<Slot> {
    [cell.slots(), vec![float(current_a), float(dt_s)]].concat()
}

fn step_base(cell: &Cell, current_a: f64, dt_s: f64) -> Vec<Argument> {
    let more = vec![Kind::Load(MOST_CURRENT), Kind::Above0(86_400.0)];
    arguments(stepping(cell, current_a, dt_s), [kinds(cell), more].concat())
}

/// The cell whose first step passes and whose second gives 8.
fn breaking() -> Cell {
    let mut params = Params::nmc_graphite();
    params.numbers[16] = 1e5;
    params.numbers[18] = 1000.0;
    Cell::new(params, config([3, 1, 2])).expect("parameters in range")
}

/// A cell without open-circuit voltage and with hardly a resistance: its voltage is the overpotentials, whose digits show.
fn overpotentials(draw: &mut Draw) -> Cell {
    let none = Coefficients::of(&[]);
    let mut params = Params { ocv_neg: none, ocv_pos: none, ..Params::nmc_graphite() };
    let drawn = [8, 9, 14, 15].map(|at| (at, draw.within(RANGES[at])));
    let fixed = [(0, 1e-7), (1, 1e-7), (2, 1e-7), (16, draw.uniform(100.0, 1000.0)), (20, 100.0)];
    for (at, to) in drawn.into_iter().chain(fixed) {
        params.numbers[at] = to;
    }
    let mut cell = Cell::new(params, config([1, 1, 2])).expect("parameters in range");
    cell.c_e[..3].fill(params.numbers[16] * draw.uniform(1.0, 3.0));
    cell
}

/// A cell without open-circuit voltage and with an even electrolyte: its voltage is the overpotentials of both electrodes and the ohmic drop.
fn bare_overpotentials(draw: &mut Draw) -> Cell {
    let none = Coefficients::of(&[]);
    let params = Params { ocv_neg: none, ocv_pos: none, ..draw.pick(&[Params::nmc_graphite(), Params::lfp_graphite()]) };
    let config = Config { counts: [1, draw.count(1, 3), draw.count(2, 4)], voltages: [-10.0, 10.0] };
    Cell::new(params, config).expect("parameters in range")
}

/// Small currents on such cells, and those next to which H changes its form.
fn low_rate_steps(draw: &mut Draw) -> Vec<Vec<Slot>> {
    let mut all = Vec::new();
    for turn in 0..60 {
        let cell = bare_overpotentials(draw);
        let (current, dt) = (low_current(draw, cell.params.numbers[3]), draw.within(range(1e-6, 1.0)));
        all.push(stepping(&cell, current, dt));
        if turn < 10 {
            all.extend(about_small_limit(|current| drop(cell.step(current, dt))).map(|current| stepping(&cell, current, dt)));
        }
    }
    all
}

pub fn step_cases(draw: &mut Draw) -> Vec<Vec<Slot>> {
    let mut all = Vec::new();
    let cell = random_cell(draw, Params::nmc_graphite(), config([2, 1, 3]));
    let base = step_base(&cell, 20.0, 1.0);
    all.extend([singles(&base), pairs(&base)].concat());
    // the first step, then 8, alone and with a fault of a lower number
    all.push(stepping(&breaking(), 0.0, 1.0));
    let (second, _) = breaking().step(0.0, 1.0).expect("the first step passes");
    all.extend(one_fault(&step_base(&second, 0.0, 1.0)));
    // n_r = 2: node 0 takes the old surface value
    let mut two = Cell::new(Params::nmc_graphite(), config([1, 1, 2])).expect("parameters in range");
    two.c_s_neg[..2].copy_from_slice(&[10.0, 20.0]);
    all.push(stepping(&two, 0.0, 1.0));
    for counts in [[1, 1, 2], [2, 1, 3], [1, 2, 3], [2, 2, 2], [3, 3, 4], [4, 5, 6], [5, 5, 6], [16, 1, 2], [1, 16, 2], [2, 3, 32], [16, 16, 32]] {
        for params in [Params::nmc_graphite(), Params::lfp_graphite()] {
            let cell = random_cell(draw, params, config(counts));
            all.push(stepping(&cell, draw.uniform(-100.0, 100.0), draw.pick(&[0.01, 1.0, 10.0])));
        }
    }
    for _ in 0..300 {
        let counts = [draw.count(1, 5), draw.count(1, 5), draw.count(2, 6)];
        let params = if draw.below(3) == 0 { Params::lfp_graphite() } else { random_params(draw) };
        let cell = random_cell(draw, params, config(counts));
        let current = params.numbers[3] * draw.pick(&[0.0, -0.0, 1.0, -1.0, 100.0]) * draw.unit();
        all.push(stepping(&cell, current.clamp(-MOST_CURRENT, MOST_CURRENT), draw.within(range(1e-6, 86_400.0))));
    }
    for (params, counts) in [(Params::nmc_graphite(), [5, 5, 6]), (Params::lfp_graphite(), [3, 4, 5])] {
        let mut cell = Cell::new(params, config(counts)).expect("parameters in range");
        for current in [20.0, 20.0, 50.0, 0.0, -0.0, -20.0, -5.0, 30.0] {
            all.push(stepping(&cell, current, 1.0));
            cell = cell.step(current, 1.0).expect("a step in range").0;
        }
    }
    for turn in 0..120 {
        let current = if turn % 6 == 0 { 0.0 } else { draw.within(range(1e-6, 1e3)) };
        all.push(stepping(&overpotentials(draw), current, draw.within(range(1e-6, 1.0))));
    }
    all.extend(low_rate_steps(draw));
    all
}

/// Report, then what the step changed.
pub fn step(arguments: &[Slot]) -> Vec<Slot> {
    let mut reader = Reader::new(arguments);
    let cell = Cell::read(&mut reader);
    let [current_a, dt_s] = reader.floats();
    reader.end();
    answer(cell.step(current_a, dt_s).map(|(next, report)| [report_slots(&report), next.changed_slots()].concat()))
}

/// Current, interval, time limit, and the length of the slice.
pub(super) fn running(cell: &Cell, numbers: [f64; 3], length: u64) -> Vec<Slot> {
    [cell.slots(), numbers.map(float).to_vec(), vec![word(length)]].concat()
}

pub(super) fn run_base(cell: &Cell, numbers: [f64; 3], length: u64) -> Vec<Argument> {
    let more = vec![Kind::Load(MOST_CURRENT), Kind::Above0(86_400.0), Kind::Finite, Kind::Length(ROW as u64)];
    arguments(running(cell, numbers, length), [kinds(cell), more].concat())
}

pub fn run_cases(draw: &mut Draw) -> Vec<Vec<Slot>> {
    let nmc = Cell::new(Params::nmc_graphite(), config([1, 1, 2])).expect("parameters in range");
    let lfp = Cell::new(Params::lfp_graphite(), config([2, 3, 3])).expect("parameters in range");
    let base = run_base(&nmc, [10.0, 1.0, 3.0], 24);
    let mut all = [singles(&base), pairs(&base)].concat();
    for cell in [&nmc, &lfp] {
        for length in [8, 9, 16, 47, 48, 160] {
            for limit in [-1.0, 0.0, 0.1, 0.3, 0.5, 1e300] {
                all.push(running(cell, [10.0, 0.1, limit], length));
            }
        }
        // the voltage ends the run, also with time or room running out at the same row
        for current in [3e3, 1e5, -1e5] {
            for length in [8, 16, 160] {
                for limit in [0.0, 1.0, 2.0, 1e6] {
                    all.push(running(cell, [current, 1.0, limit], length));
                }
            }
        }
        let mut late = cell.clone();
        late.time_s = 1e9;
        all.push(running(&late, [10.0, 1.0, 5.0], 80));
    }
    // 8 at the second step, at the first, and no step for it to come
    for length in [8, 16, 80] {
        all.push(running(&breaking(), [0.0, 1.0, 100.0], length));
    }
    let (second, _) = breaking().step(0.0, 1.0).expect("the first step passes");
    all.extend(one_fault(&run_base(&second, [0.0, 1.0, 100.0], 16)));
    for _ in 0..60 {
        let counts = [draw.count(1, 4), draw.count(1, 4), draw.count(2, 5)];
        let params = draw.pick(&[Params::nmc_graphite(), Params::lfp_graphite()]);
        let cell = random_cell(draw, params, config(counts));
        all.push(running(&cell, [draw.uniform(-50.0, 50.0), draw.uniform(0.5, 5.0), cell.time_s + draw.uniform(-5.0, 60.0)], draw.count(8, 120)));
    }
    for _ in 0..8 {
        let cell = bare_overpotentials(draw);
        all.push(running(&cell, [low_current(draw, cell.params.numbers[3]), 0.1, 1e9], 160));
    }
    all
}

pub fn run(arguments: &[Slot]) -> Vec<Slot> {
    let mut reader = Reader::new(arguments);
    let cell = Cell::read(&mut reader);
    let [current_a, dt_s, limit] = reader.floats();
    let length = reader.word() as usize;
    reader.end();
    let made = cell.run_galvanostatic(current_a, dt_s, limit, length, groups(length / ROW));
    made.slots(Cell::changed_slots)
}
