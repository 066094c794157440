//! A list of phases on the single-particle cell.
use super::charge::{self, between};
use super::solver::{alike_counts, cell_kinds, config, diffusivity_out, equal_electrodes, pairs_of_sheets, random_cell};
use super::{low_current, reference, sub_steps};
use crate::cover::{arguments, one_fault, pairs, singles, Argument, Kind};
use crate::draw::Draw;
use calls::cycle::Phase::{Charge, Discharge, Rest};
use calls::cycle::{Phase, Schedule, MOST_BUDGET, MOST_REPEATS, MOST_REST, PLACES};
use calls::runs::ROW;
use calls::solver::Cell;
use calls::table::{range, MOST_CURRENT};
use calls::words::{float, word, Reader, Slot};

const T: f64 = 298.15;
/// Rows of a cycle of the list, at most.
const MOST_ROWS: u64 = 32;
const MOST_PLACES: u64 = MOST_ROWS * ROW as u64;

/// What stands in the places from the count on.
const UNFIT: [Phase; PLACES] =
    [Rest(-1.0), Charge(-1.0), Discharge(f64::NAN), Rest(2e9), Charge(0.0), Discharge(f64::INFINITY), Rest(f64::NAN), Discharge(-0.0)];

/// These phases, at 298.15 K.
pub(super) fn schedule(phases: &[Phase], repeats: u64, budget: u64, dt: f64) -> Schedule {
    let mut all = UNFIT;
    all[..phases.len()].copy_from_slice(phases);
    Schedule { phases: all, count: phases.len() as u64, repeats, budget, dt, temp_k: T }
}

/// Kind and number; a NaN keeps its bits.
fn phase_slots(phase: &Phase) -> [Slot; 2] {
    let (kind, number) = match *phase {
        Charge(current_a) => (1, current_a),
        Rest(time_s) => (2, time_s),
        Discharge(current_a) => (3, current_a),
    };
    [word(kind), word(number.to_bits())]
}

fn read_phase(reader: &mut Reader) -> Phase {
    match (reader.word(), reader.float()) {
        (1, current_a) => Charge(current_a),
        (2, time_s) => Rest(time_s),
        (3, current_a) => Discharge(current_a),
        (kind, _) => panic!("a phase of kind {kind}"),
    }
}

/// The eight phases; count, repeats, budget; interval, temperature and the length of the slice.
pub(super) fn cycling(cell: &Cell, schedule: &Schedule, places: u64) -> Vec<Slot> {
    let mut slots = cell.slots();
    slots.extend(schedule.phases.iter().flat_map(phase_slots));
    slots.extend([schedule.count, schedule.repeats, schedule.budget].map(word));
    slots.extend([float(schedule.dt), float(schedule.temp_k), word(places)]);
    slots
}

/// With as many places as the budget needs.
pub(super) fn fitting(cell: &Cell, schedule: &Schedule) -> Vec<Slot> {
    cycling(cell, schedule, schedule.budget * ROW as u64)
}

fn schedule_kinds(schedule: &Schedule) -> Vec<Kind> {
    let number = |at: usize| match schedule.phases[at] {
        _ if at as u64 >= schedule.count => Kind::Free,
        Charge(_) | Discharge(_) => Kind::Above0(MOST_CURRENT),
        Rest(_) => Kind::Time(range(0.0, MOST_REST)),
    };
    let mut kinds: Vec<Kind> = (0..PLACES).flat_map(|at| [Kind::Fixed, number(at)]).collect();
    kinds.extend([PLACES as u64, MOST_REPEATS, MOST_BUDGET].map(|most| Kind::Count(1, most)));
    kinds.extend([Kind::Above0(86_400.0), Kind::Temperature, Kind::Length(schedule.budget * ROW as u64)]);
    kinds
}

fn base(cell: &Cell, schedule: &Schedule) -> Vec<Argument> {
    arguments(fitting(cell, schedule), [cell_kinds(cell), schedule_kinds(schedule)].concat())
}

/// The same, with a cell that stays as it is.
fn schedule_base(cell: &Cell, schedule: &Schedule) -> Vec<Argument> {
    let kinds = vec![Kind::Fixed; cell.slots().len()];
    arguments(fitting(cell, schedule), [kinds, schedule_kinds(schedule)].concat())
}

/// Each fault of the cell beside one of the schedule, of every number that a cycle is refused with before its first step.
fn two_faults(cell: &Cell, plain: &Schedule) -> Vec<Vec<Slot>> {
    let mut no_current = *plain;
    no_current.phases[2] = Charge(0.0);
    let faulty = [Schedule { count: 9, ..*plain }, no_current, Schedule { dt: 0.0, ..*plain }, Schedule { temp_k: 500.0, ..*plain }];
    let short = cycling(cell, plain, plain.budget * ROW as u64 - 1);
    let with_another = |slots: Vec<Slot>| {
        let mut kinds = cell_kinds(cell);
        kinds.resize(slots.len(), Kind::Fixed);
        one_fault(&arguments(slots, kinds))
    };
    faulty.iter().map(|schedule| fitting(cell, schedule)).chain([short]).flat_map(with_another).collect()
}

/// Patterns of NaNs: quiet, signalling, of either sign.
const NANS: [u64; 5] = [0x7FF8_0000_0000_0000, 0xFFF8_0000_0000_0000, 0x7FF0_0000_0000_0001, 0xFFF0_0000_0000_0001, u64::MAX];

/// Both signs of zero, of the least number, of 1, of a limit and its neighbours, of the largest number and of infinity; NaNs.
fn about(most: f64) -> Vec<f64> {
    let numbers = [0.0, f64::from_bits(1), 1.0, most.next_down(), most, most.next_up(), f64::MAX, f64::INFINITY];
    numbers.into_iter().flat_map(|x| [x, -x]).chain(NANS.map(f64::from_bits)).collect()
}

/// Currents and times at their limits: in the first place, in the last of eight, which no step reaches, and in one that is not looked at.
fn limit_phases(cell: &Cell) -> Vec<Vec<Slot>> {
    let mut phases: Vec<Phase> = about(MOST_CURRENT).into_iter().flat_map(|x| [Charge(x), Discharge(x)]).collect();
    phases.extend(about(MOST_REST).into_iter().map(Rest));
    let mut all = Vec::new();
    for phase in phases {
        all.push(fitting(cell, &schedule(&[phase], 1, 2, 1.0)));
        let mut last = schedule(&[Discharge(3.0); PLACES], 1, 2, 1.0);
        last.phases[PLACES - 1] = phase;
        all.push(fitting(cell, &last));
        all.push(fitting(cell, &Schedule { count: PLACES as u64 - 1, ..last }));
    }
    all
}

/// A phase that is unfit in each place: the last that is looked at, one of eight, the first that is not looked at; and two of different numbers
/// in either order.
fn unfit_phases(cell: &Cell) -> Vec<Vec<Slot>> {
    let mut all = Vec::new();
    for at in 0..PLACES {
        for phase in [Charge(0.0), Rest(-1.0), Discharge(f64::NAN)] {
            let mut one = schedule(&[Discharge(3.0); PLACES], 2, 2, 1.0);
            one.phases[at] = phase;
            all.extend([at, at + 1, PLACES].map(|count| fitting(cell, &Schedule { count: count as u64, ..one })));
        }
        let mut two = schedule(&[Rest(1.0); PLACES], 1, 8, 1.0);
        (two.phases[at], two.phases[(at + 3) % PLACES]) = (Rest(1e10), Charge(1e7));
        let (no_interval, no_temperature) = (Schedule { dt: 0.0, ..two }, Schedule { temp_k: 500.0, ..two });
        all.extend([two, no_interval, no_temperature].map(|two| fitting(cell, &two)));
        two.phases[(at + 3) % PLACES] = Discharge(1.0);
        all.push(fitting(cell, &Schedule { temp_k: 500.0, ..two }));
    }
    all
}

/// A cell of which every row has cutoff: its voltage is below the window, above it, or both of an empty one.
fn outside(cell: &Cell) -> [Cell; 3] {
    [[9.0, 10.0], [-10.0, -9.0], [10.0, -10.0]].map(|[v_min, v_max]| between(cell, v_min, v_max))
}

/// Phases of one step where every row has cutoff, each with a current of its own.
fn short_phases() -> [Phase; PLACES] {
    [Charge(1.0), Discharge(2.0), Rest(0.0), Discharge(3.0), Charge(4.0), Rest(1.0), Charge(5.0), Discharge(6.0)]
}

/// Each count at and about its ends, alone and with a slice that is too short.
fn counts(cell: &Cell) -> Vec<Vec<Slot>> {
    let [cut, ..] = outside(cell);
    let plain = schedule(&short_phases(), 1, MOST_ROWS, 1.0);
    let huge = [1 << 32, (1 << 32) + 1, 1 << 61, (1 << 61) + 1, 1 << 63, u64::MAX];
    let mut all = Vec::new();
    for count in (0..=9).chain(huge) {
        all.extend([1, 2].map(|repeats| cycling(&cut, &Schedule { count, repeats, ..plain }, MOST_PLACES)));
    }
    for repeats in [0, 1, 2, 3, 4, 5, 31, 32, 33, 999, 1_000, 1_001].into_iter().chain(huge) {
        all.extend([1, 3].map(|count| cycling(&cut, &Schedule { count, repeats, ..plain }, MOST_PLACES)));
    }
    for budget in [0, 1, 2, 31, 32, 33, 99_999, 100_000, 100_001].into_iter().chain(huge) {
        for places in [0, 1, 7, 8, 9, 16, 255, 256] {
            all.push(cycling(&cut, &Schedule { budget, ..plain }, places));
        }
    }
    for (count, repeats, budget) in [(0, 0, 0), (9, 1, 1), (1, 1_001, 1), (9, 1_001, 100_001), (0, 1, 1 << 61), (8, 0, 1 << 61)] {
        all.extend([0, 8, 256].map(|places| cycling(&cut, &Schedule { count, repeats, budget, ..plain }, places)));
    }
    all
}

/// A slice that is one place short, that fits, and longer ones; the budget is spent, or the last phase ends before.
fn lengths(cell: &Cell) -> Vec<Vec<Slot>> {
    let mut all = Vec::new();
    for budget in [1, 2, 3, 31, 32] {
        let least = budget * ROW as u64;
        for time_s in [1.0, 2.0, 3.0, 40.0] {
            let rest = schedule(&[Rest(time_s)], 1, budget, 1.0);
            let places = [least - 8, least - 1, least, least + 1, least + 7, MOST_PLACES];
            all.extend(places.map(|places| cycling(cell, &rest, places.min(MOST_PLACES))));
        }
    }
    all
}

/// Rests about the sums of their intervals, which are no products; alone and, the clock set back, again and after other phases.
fn rests(cell: &Cell) -> Vec<Vec<Slot>> {
    let mut all = Vec::new();
    for (time_s, dt) in [(1.0, 0.1), (0.0, 0.1), (-0.0, 0.1), (0.8, 0.1), (1e9, 86_400.0), (1e9, 1.0), (5e-324, 5e-324), (1e-3, 1e3)] {
        for phases in [&[Rest(time_s)][..], &[Rest(time_s), Discharge(3.0)], &[Rest(time_s), Rest(2.5 * dt), Rest(time_s)]] {
            all.extend([1, 2].map(|repeats| fitting(cell, &schedule(phases, repeats, 26, dt))));
        }
    }
    for dt in [0.1, 1.0 / 3.0, 7.7] {
        let mut clock: f64 = 0.0;
        for steps in 1..=7 {
            clock += dt;
            for time_s in [clock.next_down(), clock, clock.next_up(), f64::from(steps) * dt] {
                all.push(fitting(cell, &schedule(&[Rest(time_s)], 1, 9, dt)));
            }
        }
    }
    all
}

/// Every budget up to the one that is not used up, or 14.
fn budgets(cell: &Cell, phases: &[Phase], repeats: u64, dt: f64) -> Vec<Vec<Slot>> {
    let rows = cell.cycle(&schedule(phases, repeats, 13, dt), MOST_PLACES as usize).rows.len() as u64;
    (1..=rows + 1).map(|budget| fitting(cell, &schedule(phases, repeats, budget, dt))).collect()
}

/// A cutoff on either side ends a charge and a discharge in their first row; no rest.
fn cutoffs(cell: &Cell) -> Vec<Vec<Slot>> {
    let mut all = Vec::new();
    for cut in outside(cell) {
        for phase in [Charge(2.0), Rest(3.0), Discharge(2.0)] {
            all.extend(budgets(&cut, &[phase], 2, 1.0));
        }
        all.extend(budgets(&cut, &[Charge(2.0), Rest(2.0), Discharge(3.0)], 2, 1.0));
        all.extend(budgets(&cut, &[Discharge(1.0), Discharge(2.0), Rest(2.5)], 2, 1.0));
    }
    all
}

/// The voltage after steps with these currents.
pub(super) fn voltage(cell: &Cell, currents: &[f64], dt: f64) -> f64 {
    let (mut cell, mut voltage) = (cell.clone(), f64::NAN);
    for current_a in currents {
        let (next, report) = cell.step(*current_a, dt, T).expect("a step in range");
        (cell, voltage) = (next, report.state.voltage);
    }
    voltage
}

/// One row of a phase decides, by its voltage at a limit and next to it.
fn limits(cell: &Cell) -> Vec<Vec<Slot>> {
    let mut all = Vec::new();
    for (phase, current_a, other) in [(Discharge(20.0), 20.0, Charge(5.0)), (Charge(20.0), -20.0, Discharge(5.0)), (Rest(5.0), 0.0, Discharge(20.0))] {
        for rows in [1, 2, 4] {
            let own = voltage(cell, &vec![current_a; rows], 1.0);
            for limit in [own.next_down(), own, own.next_up()] {
                for cell in [between(cell, limit, 10.0), between(cell, -10.0, limit)] {
                    all.push(fitting(&cell, &schedule(&[phase, Rest(1.5), other], 1, 8, 1.0)));
                }
            }
        }
    }
    all
}

/// A cell with a window that a charge and a discharge with this current leave in their third row.
fn narrow(cell: &Cell, current_a: f64, dt: f64) -> Cell {
    let limit = |current_a: f64| (voltage(cell, &[current_a; 2], dt) + voltage(cell, &[current_a; 3], dt)) / 2.0;
    between(cell, limit(current_a), limit(-current_a))
}

/// Cycles of several steps a phase, gone through twice, with every budget: spent in each phase and between two, done on the last step.
fn several_steps(cell: &Cell) -> Vec<Vec<Slot>> {
    let mut all = Vec::new();
    for (current_a, dt) in [(5.0, 10.0), (40.0, 1.0)] {
        let cell = narrow(cell, current_a, dt);
        let (charge, rest, discharge) = (Charge(current_a), Rest(1.5 * dt), Discharge(current_a));
        for phases in [&[discharge][..], &[charge], &[discharge, rest], &[charge, rest, discharge], &[rest, discharge, rest, charge]] {
            all.extend(budgets(&cell, phases, 2, dt));
        }
    }
    all
}

/// The profile is at its limit and the voltage stays within the window: spent.
fn saturated(cell: &Cell) -> Vec<Vec<Slot>> {
    let wide = charge::wide(cell);
    let mut all = Vec::new();
    for current_a in [300.0, 1e4, 1e6] {
        for phase in [Discharge(current_a), Charge(current_a)] {
            all.extend([10.0, 1000.0].map(|dt| fitting(&wide, &schedule(&[phase, Rest(0.0)], 3, 8, dt))));
        }
    }
    all
}

/// 6 and 7, which sheets, interval and temperature decide, so that the first step has them; each with lower numbers and at each kind of phase.
fn refused_steps(draw: &mut Draw, lfp: &Cell) -> Vec<Vec<Slot>> {
    let firsts = [Charge(1.0), Rest(0.0), Discharge(1.0)];
    let mut all = Vec::new();
    for (at_anode, high) in [(true, true), (true, false), (false, true), (false, false)] {
        let (out, temp_k) = diffusivity_out(draw, at_anode, high);
        for first in firsts {
            let plain = Schedule { temp_k, ..schedule(&[first, Discharge(2.0)], 2, 2, 1.0) };
            all.extend([plain, Schedule { dt: 86_400.0, ..plain }].map(|plain| fitting(&out, &plain)));
            all.extend(one_fault(&schedule_base(&out, &plain)));
        }
    }
    let mut quick = lfp.clone();
    quick.anode.sheet.numbers[0] = 1e-7;
    for first in firsts {
        let plain = schedule(&[first, Discharge(2.0)], 2, 2, 86_400.0);
        all.extend([plain, Schedule { dt: 1e-3, ..plain }].map(|plain| fitting(&quick, &plain)));
        all.extend(one_fault(&schedule_base(&quick, &plain)));
    }
    all.extend(one_fault(&base(&quick, &schedule(&firsts, 1, 2, 86_400.0))));
    all
}

fn drawn_phase(draw: &mut Draw, dt: f64) -> Phase {
    match draw.below(3) {
        0 => Charge(draw.within(range(0.5, 60.0))),
        1 => {
            let any = draw.uniform(0.0, 5.0);
            Rest(dt * draw.pick(&[0.0, 0.5, 1.0, 2.5, 4.0, any, any]))
        }
        _ => Discharge(draw.within(range(0.5, 60.0))),
    }
}

/// Drawn cells with a window about their voltage, and drawn phases, of which some have one that is unfit, perhaps in a place that is not looked at.
fn drawn(draw: &mut Draw) -> Vec<Vec<Slot>> {
    let mut all = Vec::new();
    for _ in 0..160 {
        let n = draw.count(3, 12);
        let sheets = draw.pick(&pairs_of_sheets());
        let cell = random_cell(draw, config(n), sheets);
        let (ocv, half) = (cell.ocv().expect("a cell in range"), draw.within(range(0.01, 0.5)));
        let cell = between(&cell, (ocv - half).max(-10.0), (ocv + half).min(10.0));
        let any = draw.uniform(0.01, 20.0);
        let dt = draw.pick(&[0.1, 1.0, any]);
        let mut phases = [(); PLACES].map(|()| drawn_phase(draw, dt));
        if draw.below(4) == 0 {
            phases[draw.below(PLACES as u64) as usize] = draw.pick(&UNFIT);
        }
        let (count, repeats, budget) = (draw.count(1, 8), draw.count(1, 5), draw.count(1, MOST_ROWS));
        let temp_k = draw.uniform(270.0, 330.0);
        all.push(fitting(&cell, &Schedule { phases, count, repeats, budget, dt, temp_k }));
    }
    all
}

/// Small currents on cells whose electrodes are alike; clocks of the cell that are far on.
fn other_cells(draw: &mut Draw, nmc: &Cell) -> Vec<Vec<Slot>> {
    let phases = [Discharge(2.0), Rest(1.5), Charge(1.0)];
    let mut all: Vec<Vec<Slot>> = alike_counts().iter().map(|cell| fitting(cell, &schedule(&phases, 1, 2, 1.0))).collect();
    for turn in 0..8 {
        let cell = equal_electrodes(draw);
        let current_a = low_current(draw, cell.anode.sheet.numbers[6]).abs();
        let phase = if turn % 2 == 0 { Charge(current_a) } else { Discharge(current_a) };
        all.push(fitting(&cell, &schedule(&[Rest(0.3), phase], 1, 12, 0.1)));
    }
    for time_s in [1e9, f64::MAX] {
        let late = Cell { time_s, ..nmc.clone() };
        all.push(fitting(&late, &schedule(&[Rest(3.0), Discharge(2.0)], 1, 6, 1.0)));
        all.push(fitting(&late, &schedule(&[Rest(3.0)], 2, 8, 1.0)));
    }
    all
}

pub fn cases(draw: &mut Draw) -> Vec<Vec<Slot>> {
    let [(graphite, lfp), (_, nmc)] = pairs_of_sheets();
    let lfp = Cell::new(config(3), graphite, lfp).expect("ready sheets");
    let nmc = Cell::new(config(5), graphite, nmc).expect("ready sheets");
    let mut plain = schedule(&[Discharge(3.0), Rest(2.5), Charge(1.5), Rest(1.0), Charge(4.0), Discharge(2.0), Rest(0.5), Rest(0.0)], 2, 3, 1.0);
    plain.count = 4;
    let mut all = [singles(&base(&lfp, &plain)), pairs(&schedule_base(&lfp, &plain))].concat();
    let rest_first = schedule_base(&nmc, &schedule(&[Rest(2.0), Charge(1.5), Discharge(3.0)], 1, 4, 1.0));
    all.extend([singles(&rest_first), pairs(&rest_first)].concat());
    all.extend(two_faults(&lfp, &plain));
    all.extend([limit_phases(&lfp), unfit_phases(&lfp), counts(&lfp), lengths(&lfp), rests(&lfp)].concat());
    for cell in [&lfp, &nmc] {
        all.extend([cutoffs(cell), limits(cell), several_steps(cell), saturated(cell)].concat());
    }
    all.extend(refused_steps(draw, &lfp));
    all.extend(drawn(draw));
    all.extend(other_cells(draw, &nmc));
    all.extend(reference::cycles(draw));
    all.extend(charge::cycles());
    all.extend(sub_steps::cycles(draw));
    all
}

pub fn answer(arguments: &[Slot]) -> Vec<Slot> {
    let mut reader = Reader::new(arguments);
    let cell = Cell::read(&mut reader);
    let phases = [(); PLACES].map(|()| read_phase(&mut reader));
    let [count, repeats, budget] = [(); 3].map(|()| reader.word());
    let [dt, temp_k] = reader.floats();
    let places = reader.word() as usize;
    reader.end();
    cell.cycle(&Schedule { phases, count, repeats, budget, dt, temp_k }, places).slots(Cell::changed_slots)
}
