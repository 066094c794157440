//! Charges, whose voltage the ohmic drop raises: the resistance at its ends and between, currents of both signs and both zeros, and voltage limits
//! over which the drop alone decides.
use super::cycle::{fitting, schedule, voltage};
use super::replay::{replaying, text};
use super::solver::{config, pairs_of_sheets, random_cell, running, stepping};
use crate::draw::Draw;
use calls::cycle::Phase::{Charge, Discharge, Rest};
use calls::electrode::Sheet;
use calls::lowest::groups;
use calls::solver::Cell;
use calls::words::Slot;

const T: f64 = 298.15;
const RESISTANCES: [f64; 5] = [0.0, f64::from_bits(1), 2e-4, 1e-2, 1.0];
const CURRENTS: [f64; 8] = [0.0, -0.0, f64::from_bits(1 | 1 << 63), -1e-9, -3.0, 3.0, -300.0, 300.0];
/// v_min and v_max, and the resistance, among a config's numbers
const LIMITS: [usize; 2] = [0, 1];
const RESISTANCE: usize = 4;

fn with(cell: &Cell, at: usize, number: f64) -> Cell {
    let mut cell = cell.clone();
    cell.config.numbers[at] = number;
    cell
}

/// With these limits of the voltage.
pub fn between(cell: &Cell, v_min: f64, v_max: f64) -> Cell {
    with(&with(cell, LIMITS[0], v_min), LIMITS[1], v_max)
}

/// A cell that no voltage cuts off.
pub fn wide(cell: &Cell) -> Cell {
    between(cell, -10.0, 10.0)
}

/// Such a cell with each limit once at a voltage that it has, next to it, halfway to the one that it has without resistance, and at that one.
fn limited(cell: &Cell, voltage: impl Fn(&Cell) -> f64) -> Vec<Cell> {
    let cell = wide(cell);
    let (own, without) = (voltage(&cell), voltage(&with(&cell, RESISTANCE, 0.0)));
    let limits = [own.next_down(), own, own.next_up(), (own + without) / 2.0, without];
    LIMITS.iter().flat_map(|at| limits.map(|limit| with(&cell, *at, limit))).collect()
}

fn ready(sheets: (Sheet, Sheet), resistance: f64) -> Cell {
    with(&Cell::new(config(5), sheets.0, sheets.1).expect("ready sheets"), RESISTANCE, resistance)
}

pub fn cell_steps(draw: &mut Draw) -> Vec<Vec<Slot>> {
    let mut all = Vec::new();
    for sheets in pairs_of_sheets() {
        for resistance in RESISTANCES {
            let n = draw.count(3, 8);
            let cell = with(&random_cell(draw, config(n), sheets), RESISTANCE, resistance);
            all.extend(CURRENTS.iter().map(|current| stepping(&cell, *current, 1.0, T)));
        }
        for current in [-3.0, 3.0, -30.0] {
            let voltage = |cell: &Cell| cell.step(current, 1.0, T).expect("a step in range").1.state.voltage;
            all.extend(limited(&ready(sheets, 2e-4), voltage).iter().map(|cell| stepping(cell, current, 1.0, T)));
        }
    }
    all
}

/// The drop decides over the third row.
pub fn runs() -> Vec<Vec<Slot>> {
    let mut all = Vec::new();
    for sheets in pairs_of_sheets() {
        for current in [-3.0, 3.0, -30.0] {
            let numbers = [current, 10.0, T, 60.0];
            let third = |cell: &Cell| cell.simulate_discharge(current, 10.0, T, 60.0, 48, groups(6)).rows[2][0];
            all.extend(limited(&ready(sheets, 1e-2), third).iter().map(|cell| running(cell, numbers, 48)));
        }
    }
    all
}

/// Discharge, charge, rest with both zeros; the drop decides over the charge in the fifth row.
pub fn replays() -> Vec<Vec<Slot>> {
    let load = text(&[[10.0, 3.0], [1.0, -3.0], [10.0, 0.0], [10.0, -0.0], [10.0, -12.0], [1.0, 3.0]]);
    let fifth = |cell: &Cell| cell.replay(&load, T, 48).rows[4][0];
    let mut all = Vec::new();
    for sheets in pairs_of_sheets() {
        all.extend(RESISTANCES.iter().map(|resistance| replaying(&wide(&ready(sheets, *resistance)), &load, T, 48)));
        all.extend(limited(&ready(sheets, 1e-2), fifth).iter().map(|cell| replaying(cell, &load, T, 48)));
    }
    all
}

/// A rest of two steps, then a charge or a discharge; the drop decides over its second row.
pub fn cycles() -> Vec<Vec<Slot>> {
    let mut all = Vec::new();
    for (phase, current, other) in [(Charge(12.0), -12.0, Discharge(3.0)), (Discharge(12.0), 12.0, Charge(3.0))] {
        let load = schedule(&[Rest(15.0), phase, other], 1, 6, 10.0);
        let fourth = |cell: &Cell| voltage(cell, &[0.0, 0.0, current, current], 10.0);
        for sheets in pairs_of_sheets() {
            all.extend(RESISTANCES.iter().map(|resistance| fitting(&wide(&ready(sheets, *resistance)), &load)));
            all.extend(limited(&ready(sheets, 1e-2), fourth).iter().map(|cell| fitting(cell, &load)));
        }
    }
    all
}
