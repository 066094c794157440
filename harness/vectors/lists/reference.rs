//! Reference temperatures other than 298.15: the last cases of each list that takes a sheet or an electrolyte's parameters, so that
//! the cases before them stay as they are.
use super::cycle::{fitting, schedule};
use super::electrode::{self, ready_sheets};
use super::electrolyte::{self, ready_regions};
use super::particle::{self, random_profile};
use super::replay::{replaying, text};
use super::solver::{self, config, one_sub_step, pairs_of_sheets, random_cell};
use super::READY_REFERENCE;
use crate::cover::one_fault;
use crate::draw::Draw;
use calls::cycle::Phase::{Charge, Discharge, Rest};
use calls::cycle::Schedule;
use calls::earlier;
use calls::electrode::{Sheet, RANGES};
use calls::electrolyte::{Electrolyte, Params, Regions, POROSITY};
use calls::particle::Particle;
use calls::solver::{Cell, MOST_SUB_STEPS, SUB_STEP};
use calls::table::{Range, MOST_FLUX, TEMPERATURE};
use calls::words::{float, Slot};

const REFERENCE: Range = RANGES[9];
/// Reference temperature and temperature as far apart as they can be: with the largest activation energy, E(±30).
const FARTHEST: [(f64, f64); 2] = [(REFERENCE.low, TEMPERATURE.high), (REFERENCE.high, TEMPERATURE.low)];

/// The ends, next to them inside, and what some suppliers measure at.
fn named() -> [f64; 5] {
    let Range { low, high } = REFERENCE;
    [low, low.next_up(), 293.15, high.next_down(), high]
}

fn drawn(draw: &mut Draw) -> f64 {
    if draw.below(4) == 0 {
        draw.pick(&named())
    } else {
        draw.uniform(REFERENCE.low, REFERENCE.high)
    }
}

/// The named ones and as many drawn.
fn several(draw: &mut Draw) -> Vec<f64> {
    let more = [(); 5].map(|()| draw.uniform(REFERENCE.low, REFERENCE.high));
    [named(), more].concat()
}

/// The reference temperature itself, or any.
fn temperature(draw: &mut Draw, t_ref: f64) -> f64 {
    if draw.below(3) == 0 {
        t_ref
    } else {
        draw.within(TEMPERATURE)
    }
}

/// A current of a ready cell, of some cases so large that the voltage ends a run.
fn current(draw: &mut Draw) -> f64 {
    if draw.below(4) == 0 {
        200.0
    } else {
        draw.uniform(-4.0, 10.0)
    }
}

fn interval(dt: f64) -> f64 {
    dt.clamp(f64::MIN_POSITIVE, 86_400.0)
}

// ---- sheet and particle

fn with(mut sheet: Sheet, t_ref: f64) -> Sheet {
    sheet.numbers[9] = t_ref;
    sheet
}

/// A ready sheet or a drawn one.
pub fn sheet(draw: &mut Draw) -> Sheet {
    let sheet = if draw.below(3) == 0 { draw.pick(&ready_sheets()) } else { electrode::random_sheet(draw) };
    with(sheet, drawn(draw))
}

/// Sheets whose corrected diffusivity is the largest and the least that there are, about 1.2e5 and 8e-34, and two between, each with its
/// temperature.
fn farthest_sheets() -> Vec<(Sheet, f64)> {
    let mut all = Vec::new();
    for (t_ref, temp_k) in FARTHEST {
        for d_s_ref in [RANGES[1].low, RANGES[1].high] {
            let mut sheet = with(ready_sheets()[0], t_ref);
            (sheet.numbers[1], sheet.numbers[7]) = (d_s_ref, RANGES[7].high);
            all.push((sheet, temp_k));
        }
    }
    all
}

pub fn d_s(draw: &mut Draw) -> Vec<Vec<Slot>> {
    let asked = |sheet: Sheet, temp_k: f64| [sheet.slots(), vec![float(temp_k)]].concat();
    let mut all: Vec<_> = farthest_sheets().into_iter().map(|(sheet, temp_k)| asked(sheet, temp_k)).collect();
    for sheet in electrode::sheets(draw, 4) {
        for t_ref in several(draw) {
            all.extend([t_ref, READY_REFERENCE, draw.within(TEMPERATURE)].map(|temp_k| asked(with(sheet, t_ref), temp_k)));
        }
    }
    all
}

pub fn particle(draw: &mut Draw, n: u64) -> Particle {
    let sheet = sheet(draw);
    random_profile(draw, sheet, n)
}

/// Particles with those sheets, of the least and the largest radius and count of nodes.
fn farthest_particles(draw: &mut Draw) -> Vec<(Particle, f64)> {
    let mut all = Vec::new();
    for (mut sheet, temp_k) in farthest_sheets() {
        for (radius, n) in [(RANGES[0].low, 3), (RANGES[0].high, 3), (RANGES[0].low, 64), (RANGES[0].high, 64)] {
            sheet.numbers[0] = radius;
            all.push((random_profile(draw, sheet, n), temp_k));
        }
    }
    all
}

pub fn particle_steps(draw: &mut Draw) -> Vec<Vec<Slot>> {
    let mut all = Vec::new();
    for (p, temp_k) in farthest_particles(draw) {
        let stable = p.dt_stable(temp_k).expect("a particle in range");
        for (flux, dt) in [(0.0, 86_400.0), (MOST_FLUX, 86_400.0), (-MOST_FLUX, stable), (-0.0, 0.3 * stable)] {
            all.push(particle::stepping(&p, flux, interval(dt), temp_k));
        }
    }
    for turn in 0..160 {
        let n = if turn < 62 { 3 + turn } else { draw.count(3, 12) };
        let p = particle(draw, n);
        let temp_k = temperature(draw, p.sheet.numbers[9]);
        let (stable, d_s) = (p.dt_stable(temp_k).expect("a particle in range"), p.sheet.d_s(temp_k).expect("a sheet in range"));
        let flux = d_s * p.sheet.c_s_max() / p.sheet.numbers[0] * n as f64 * draw.uniform(-1.0, 1.0);
        let dt = interval(stable * draw.pick(&[0.01, 0.3, 0.9, 3.0]));
        all.push(particle::stepping(&p, flux.clamp(-MOST_FLUX, MOST_FLUX), dt, temp_k));
    }
    all
}

pub fn particle_dt_stable(draw: &mut Draw) -> Vec<Vec<Slot>> {
    let mut asked = farthest_particles(draw);
    for n in 3..=64 {
        let p = particle(draw, n);
        let temp_k = temperature(draw, p.sheet.numbers[9]);
        asked.push((p, temp_k));
    }
    asked.into_iter().map(|(p, temp_k)| [p.slots(), vec![float(temp_k)]].concat()).collect()
}

// ---- the single-particle cell

pub fn cell(draw: &mut Draw, n: u64) -> Cell {
    let (sheets, config) = ((sheet(draw), sheet(draw)), solver::random_config(draw, n));
    random_cell(draw, config, sheets)
}

/// Ready cells of which the anode alone, the cathode alone or both have another reference temperature, each at four temperatures,
/// both of these among them.
fn ready_cells(draw: &mut Draw) -> Vec<(Cell, f64)> {
    let mut all = Vec::new();
    for (sheets, n) in pairs_of_sheets().into_iter().zip([3, 11]) {
        let (one, other, ready) = (drawn(draw), drawn(draw), READY_REFERENCE);
        let both = [(293.15, ready), (ready, 293.15), (200.0, 400.0), (400.0, 200.0), (one, ready), (ready, one), (one, other), (one, one)];
        for (anode, cathode) in both {
            let cell = random_cell(draw, config(n), (with(sheets.0, anode), with(sheets.1, cathode)));
            all.extend([anode, cathode, ready, draw.uniform(270.0, 330.0)].map(|temp_k| (cell.clone(), temp_k)));
        }
    }
    all
}

fn sheet_of(cell: &mut Cell, at_anode: bool) -> &mut Sheet {
    if at_anode {
        &mut cell.anode.sheet
    } else {
        &mut cell.cathode.sheet
    }
}

/// A cell whose step has another number with 298.15 in both sheets; 0 is accepted.
struct Turned {
    cell: Cell,
    dt: f64,
    temp_k: f64,
    /// with 298.15, and as it is
    numbers: [u64; 2],
}

impl Turned {
    fn new(mut cell: Cell, at_anode: bool, t_ref: f64, [dt, temp_k]: [f64; 2], numbers: [u64; 2]) -> Self {
        sheet_of(&mut cell, at_anode).numbers[9] = t_ref;
        Self { cell, dt, temp_k, numbers }
    }

    fn check(&self) {
        let mut before = self.cell.clone();
        for at_anode in [true, false] {
            sheet_of(&mut before, at_anode).numbers[9] = READY_REFERENCE;
        }
        let number = |cell: &Cell| cell.step(3.0, self.dt, self.temp_k).err().unwrap_or(0);
        assert_eq!([number(&before), number(&self.cell)], self.numbers, "a step that t_ref turns");
    }
}

/// Accepted, or refused with 6, by the reference temperature alone: the sheet's diffusivity is an end of its range.
fn turned_by_6(at_anode: bool) -> Vec<Turned> {
    let rows = [
        (1e-8, 350.0, [350.0, 400.0], [6, 0]),
        (1e-8, 298.15, [293.15, 200.0], [0, 6]),
        (1e-20, 250.0, [250.0, 200.0], [6, 0]),
        (1e-20, 298.15, [303.15, 400.0], [0, 6]),
    ];
    let mut all = Vec::new();
    for (d_s_ref, temp_k, references, numbers) in rows {
        let (anode, cathode) = pairs_of_sheets()[0];
        let mut cell = Cell::new(config(3), anode, cathode).expect("ready sheets");
        let sheet = sheet_of(&mut cell, at_anode);
        (sheet.numbers[1], sheet.numbers[7]) = (d_s_ref, 5e4);
        all.extend(references.map(|t_ref| Turned::new(cell.clone(), at_anode, t_ref, [0.01, temp_k], numbers)));
    }
    all
}

/// Accepted, or refused with 7, by the reference temperature alone: a small particle, and an interval about which 4,096 sub-steps end that are at
/// most this part of the stability limit.
fn turned_by_7(at_anode: bool, part: f64) -> Vec<Turned> {
    let (anode, cathode) = pairs_of_sheets()[0];
    let mut cell = Cell::new(config(3), anode, cathode).expect("ready sheets");
    sheet_of(&mut cell, at_anode).numbers[0] = 1e-7;
    let longest = |cell: &Cell, temp_k: f64| MOST_SUB_STEPS * one_sub_step(cell, part, temp_k);
    let mut all = Vec::new();
    for temp_k in [298.15, 310.0] {
        let before = longest(&cell, temp_k);
        let mut slower = cell.clone();
        sheet_of(&mut slower, at_anode).numbers[9] = 350.0;
        let after = longest(&slower, temp_k);
        // up to the last interval that is accepted
        all.extend([before.next_up(), 2.0 * before, after].map(|dt| Turned::new(cell.clone(), at_anode, 350.0, [dt, temp_k], [7, 0])));
        let refused = [(293.15, before), (250.0, 0.5 * before), (200.0, 0.25 * before)];
        all.extend(refused.map(|(t_ref, dt)| Turned::new(cell.clone(), at_anode, t_ref, [dt, temp_k], [0, 7])));
    }
    all
}

fn all_turned(part: f64) -> Vec<Turned> {
    [true, false].into_iter().flat_map(|at_anode| turned_by_6(at_anode).into_iter().chain(turned_by_7(at_anode, part))).collect()
}

pub fn turned_steps(part: f64) -> Vec<Vec<Slot>> {
    all_turned(part).iter().map(|t| solver::stepping(&t.cell, 3.0, t.dt, t.temp_k)).collect()
}

/// No step is due, one is, two are.
pub fn turned_runs(part: f64) -> Vec<Vec<Slot>> {
    let run = |Turned { cell, dt, temp_k, .. }| [0.0, dt, 2.0 * dt].map(|limit| solver::running(&cell, [3.0, dt, temp_k, limit], 24));
    all_turned(part).into_iter().flat_map(run).collect()
}

/// No line; the line alone; after one that is accepted, but for 6.
pub fn turned_replays(part: f64) -> Vec<Vec<Slot>> {
    let mut all = Vec::new();
    for Turned { cell, dt, temp_k, .. } in all_turned(part) {
        for lines in [&[][..], &[[dt, 3.0]], &[[1e-3, 1.0], [dt, 3.0]]] {
            all.push(replaying(&cell, &text(lines), temp_k, 24));
        }
    }
    all
}

pub fn turned_cycles(part: f64) -> Vec<Vec<Slot>> {
    let mut all = Vec::new();
    for Turned { cell, dt, temp_k, .. } in all_turned(part) {
        for first in [Charge(3.0), Rest(dt), Discharge(3.0)] {
            all.push(fitting(&cell, &Schedule { temp_k, ..schedule(&[first, Rest(0.0)], 1, 2, dt) }));
        }
    }
    all
}

pub fn cell_steps(draw: &mut Draw) -> Vec<Vec<Slot>> {
    let mut all = Vec::new();
    for (cell, temp_k) in ready_cells(draw) {
        let dt = interval(one_sub_step(&cell, earlier::SUB_STEP, temp_k) * draw.pick(&[0.5, 1.0, 2.5, 30.0]));
        all.push(solver::stepping(&cell, draw.uniform(-20.0, 20.0), dt, temp_k));
    }
    all.extend(turned_steps(earlier::SUB_STEP));
    let turned = all_turned(earlier::SUB_STEP);
    // 6 and 7, each with a fault of a lower number
    for number in [6, 7] {
        let t = turned.iter().find(|t| t.numbers[1] == number).expect("a refused step");
        all.extend(one_fault(&solver::step_base(&t.cell, 3.0, t.dt, t.temp_k)));
    }
    all.extend(solver::diffusivity_at_limits(293.15).iter().map(|(cell, temp_k)| solver::stepping(cell, 3.0, 0.01, *temp_k)));
    for _ in 0..60 {
        let n = draw.count(3, 8);
        let cell = cell(draw, n);
        let t_ref = draw.pick(&[&cell.anode, &cell.cathode]).sheet.numbers[9];
        let temp_k = temperature(draw, t_ref);
        let dt = interval(one_sub_step(&cell, earlier::SUB_STEP, temp_k) * draw.pick(&[0.5, 1.0, 2.5, 30.0]));
        let current = cell.anode.sheet.numbers[6] * draw.pick(&[0.0, -0.0, 1.0, -1.0, 30.0]) * draw.unit();
        all.push(solver::stepping(&cell, current, dt, temp_k));
    }
    all
}

pub fn runs(draw: &mut Draw) -> Vec<Vec<Slot>> {
    let mut all = Vec::new();
    for (cell, temp_k) in ready_cells(draw) {
        let dt = interval(one_sub_step(&cell, earlier::SUB_STEP, temp_k) * draw.pick(&[0.5, 1.0, 4.0]));
        let numbers = [current(draw), dt, temp_k, dt * draw.uniform(0.0, 12.0)];
        all.push(solver::running(&cell, numbers, draw.count(8, 80)));
    }
    all.extend(turned_runs(earlier::SUB_STEP));
    all
}

pub fn replays(draw: &mut Draw) -> Vec<Vec<Slot>> {
    let mut all = Vec::new();
    for (cell, temp_k) in ready_cells(draw) {
        let least = one_sub_step(&cell, earlier::SUB_STEP, temp_k);
        let loads: Vec<[f64; 2]> = (0..draw.count(1, 6)).map(|_| [interval(least * draw.uniform(0.1, 4.0)), current(draw)]).collect();
        all.push(replaying(&cell, &text(&loads), temp_k, draw.count(8, 56)));
    }
    all.extend(turned_replays(earlier::SUB_STEP));
    all
}

pub fn cycles(draw: &mut Draw) -> Vec<Vec<Slot>> {
    let mut all = Vec::new();
    for (cell, temp_k) in ready_cells(draw) {
        let dt = interval(one_sub_step(&cell, earlier::SUB_STEP, temp_k) * draw.uniform(0.1, 4.0));
        let (out, back) = (Discharge(current(draw).abs()), Charge(current(draw).abs()));
        let phases = draw.pick(&[[out, Rest(1.5 * dt), back], [Rest(2.0 * dt), back, out], [back, out, Rest(dt)]]);
        let repeats = draw.count(1, 3);
        all.push(fitting(&cell, &Schedule { temp_k, ..schedule(&phases, repeats, draw.count(1, 7), dt) }));
    }
    all.extend(turned_cycles(earlier::SUB_STEP));
    all
}

// ---- the electrolyte

fn salt_with(mut p: Params, t_ref: f64) -> Params {
    p.numbers[7] = t_ref;
    p
}

pub fn regions(draw: &mut Draw) -> Regions {
    let regions = electrolyte::random_regions(draw);
    let params = if draw.below(3) == 0 { Params::lipf6_ec_dmc() } else { regions.params };
    Regions { params: salt_with(params, drawn(draw)), ..regions }
}

/// Parameters whose rates are the largest and the least that there are, each with its temperature.
fn farthest_salts() -> Vec<(Params, f64)> {
    let ranges = calls::electrolyte::RANGES;
    let mut all = Vec::new();
    for (t_ref, temp_k) in FARTHEST {
        for end in [|range: Range| range.low, |range: Range| range.high] {
            let mut p = salt_with(Params::lipf6_ec_dmc(), t_ref);
            p.numbers[..2].copy_from_slice(&[end(ranges[0]), end(ranges[1])]);
            p.numbers[5..7].copy_from_slice(&[ranges[5].high, ranges[6].high]);
            all.push((p, temp_k));
        }
    }
    all
}

pub fn rates(draw: &mut Draw) -> Vec<Vec<Slot>> {
    let mut all = Vec::new();
    for (mut p, temp_k) in farthest_salts() {
        for (porosity, bruggeman) in [(POROSITY.low, 4.0), (POROSITY.high, 1.5)] {
            p.numbers[3] = bruggeman;
            all.push(electrolyte::asking(p, porosity, temp_k));
        }
    }
    for turn in 0..7 {
        let p = if turn == 0 { Params::lipf6_ec_dmc() } else { electrolyte::random_params(draw) };
        for t_ref in several(draw) {
            let temperatures = [t_ref, READY_REFERENCE, draw.within(TEMPERATURE)];
            all.extend(temperatures.map(|temp_k| electrolyte::asking(salt_with(p, t_ref), draw.within(POROSITY), temp_k)));
        }
    }
    all
}

/// A profile with peaks, from which a long step at 400 K gives 8 or is accepted, as the diffusivity says.
fn peaks(d_e_ref: f64, t_ref: f64) -> Electrolyte {
    let mut e = Electrolyte::new(ready_regions([1, 1, 1])).expect("regions in range");
    e.c_e[..3].copy_from_slice(&[1e298, 1.0, 1e298]);
    (e.regions.params.numbers[0], e.regions.params.numbers[5], e.regions.params.numbers[7]) = (d_e_ref, 1e5, t_ref);
    e
}

/// Diffusivity, reference temperature, and the number with 298.15 and with it.
const TURNED_BY_8: [(f64, f64, [u64; 2]); 2] = [(7.5e-11, 200.0, [0, 8]), (1e-6, 400.0, [8, 0])];
const LONG_STEP: [f64; 4] = [0.0, 0.0, 86_400.0, 400.0];

/// Ends the program where a case is not turned by its reference temperature, after the lists are written.
pub fn check_turned() {
    all_turned(SUB_STEP).iter().for_each(Turned::check);
    for (d_e_ref, t_ref, numbers) in TURNED_BY_8 {
        let [j_n_neg, j_n_pos, dt, temp_k] = LONG_STEP;
        let number = |t_ref: f64| peaks(d_e_ref, t_ref).step_concentration(j_n_neg, j_n_pos, dt, temp_k).err().unwrap_or(0);
        assert_eq!([READY_REFERENCE, t_ref].map(number), numbers, "a step of the electrolyte that t_ref turns");
    }
}

pub fn electrolyte_steps(draw: &mut Draw) -> Vec<Vec<Slot>> {
    let mut all: Vec<_> = TURNED_BY_8.iter().map(|(d_e_ref, t_ref, _)| electrolyte::stepping(&peaks(*d_e_ref, *t_ref), LONG_STEP)).collect();
    for turn in 0..120 {
        let t_ref = drawn(draw);
        let counts = [draw.count(1, 12), draw.count(1, 6), draw.count(1, 12)];
        let ready = Regions { params: salt_with(Params::lipf6_ec_dmc(), t_ref), ..ready_regions(counts) };
        let regions = if turn % 2 == 0 { ready } else { regions(draw) };
        let e = electrolyte::random_state(draw, regions);
        let temp_k = temperature(draw, regions.params.numbers[7]);
        let dt = interval(e.dt_stable(temp_k).expect("a state in range") * draw.pick(&[0.01, 0.2, 0.9, 5.0]));
        let source = draw.pick(&[0.0, -0.0, 50.0, 1e4, 1e9]);
        all.push(electrolyte::stepping(&e, [source * draw.unit(), -source * draw.unit(), dt, temp_k]));
    }
    all
}

pub fn electrolyte_dt_stable(draw: &mut Draw) -> Vec<Vec<Slot>> {
    let mut asked = Vec::new();
    for (params, temp_k) in farthest_salts() {
        asked.push((Regions { params, ..ready_regions([1, 2, 1]) }, temp_k));
    }
    for _ in 0..80 {
        let regions = regions(draw);
        asked.push((regions, temperature(draw, regions.params.numbers[7])));
    }
    let state = |regions: Regions| Electrolyte::new(regions).expect("regions in range");
    asked.into_iter().map(|(regions, temp_k)| [state(regions).slots(), vec![float(temp_k)]].concat()).collect()
}
