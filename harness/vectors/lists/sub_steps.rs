//! Intervals about those at which the count of sub-steps changes: 1, 2 and 4,096 of the longest ones, which are at most a part of the stability limit,
//! and what a reference temperature turns there. By the part that was before change request (vii), too, and between the two.
use super::charge::wide;
use super::cycle::{fitting, schedule};
use super::electrode::random_sheet;
use super::reference;
use super::replay::{replaying, text};
use super::solver::{config, one_sub_step, pairs_of_sheets, random_cell, running, stepping};
use crate::draw::Draw;
use calls::cycle::Phase::{Charge, Discharge, Rest};
use calls::earlier;
use calls::solver::{count_sub_steps, Cell, DIFFUSIVITY, MOST_SUB_STEPS, SUB_STEP};
use calls::words::Slot;

const T: f64 = 298.15;
/// Parts of the stability limit, and how many sub-steps such an interval took before and takes now, or its refusal.
const COUNTS: [(f64, [Result<u64, u64>; 2]); 8] = [
    (0.2, [Ok(1), Ok(1)]),
    (0.4, [Ok(1), Ok(2)]),
    (0.55, [Ok(2), Ok(2)]),
    (0.8, [Ok(2), Ok(3)]),
    (1199.0, [Ok(2665), Ok(3997)]),
    (1500.0, [Ok(3334), Err(7)]),
    (1843.0, [Ok(4096), Err(7)]),
    (1900.0, [Err(7), Err(7)]),
];

/// Cells no voltage of which is cut off: the ready LFP cell with 11 nodes, whose cathode has the shorter sub-steps, and two with a small particle, in
/// the anode and in the cathode.
fn cells(draw: &mut Draw) -> [Cell; 3] {
    let [ready, nmc] = pairs_of_sheets();
    let (mut quick_anode, mut quick_cathode) = (ready, nmc);
    quick_anode.0.numbers[0] = 1e-7;
    quick_cathode.1.numbers[0] = 1e-7;
    [(11, ready), (3, quick_anode), (4, quick_cathode)].map(|(n, sheets)| wide(&random_cell(draw, config(n), sheets)))
}

/// The intervals of `COUNTS`.
fn between(cell: &Cell) -> [f64; 8] {
    COUNTS.map(|(part, _)| one_sub_step(cell, part, T))
}

/// Ends the program where one of these has another count, after the lists are written.
pub fn check_counts() {
    for cell in cells(&mut Draw::seeded(0)) {
        for (dt, (_, counts)) in between(&cell).into_iter().zip(COUNTS) {
            let counted = [earlier::SUB_STEP, SUB_STEP].map(|part| count_sub_steps(dt, one_sub_step(&cell, part, T)));
            assert_eq!(counted, counts, "the count of sub-steps before and now");
        }
    }
}

/// So many sub-steps of the longest, and the binary64 next to that.
fn about(longest: f64, count: f64) -> [f64; 3] {
    let dt = longest * count;
    [dt.next_down(), dt, dt.next_up()]
}

fn corners(cell: &Cell, part: f64) -> Vec<f64> {
    [1.0, 2.0, MOST_SUB_STEPS].into_iter().flat_map(|count| about(one_sub_step(cell, part, T), count)).collect()
}

/// All of them.
fn intervals(cell: &Cell) -> Vec<f64> {
    [&between(cell)[..], &corners(cell, SUB_STEP), &corners(cell, earlier::SUB_STEP)].concat()
}

/// Drawn cells at drawn temperatures, at and next to a whole count: what is rounded otherwise shows in some of them.
fn drawn_steps(draw: &mut Draw) -> Vec<Vec<Slot>> {
    let mut all = Vec::new();
    while all.len() < 120 {
        let n = draw.count(3, 8);
        let sheets = (random_sheet(draw), random_sheet(draw));
        let cell = random_cell(draw, config(n), sheets);
        let temp_k = draw.uniform(250.0, 350.0);
        let count = draw.pick(&[1.0, 1.0, 2.0, 3.0, MOST_SUB_STEPS]);
        let dt = draw.pick(&about(one_sub_step(&cell, SUB_STEP, temp_k), count));
        let fit = [&cell.anode, &cell.cathode].iter().all(|p| DIFFUSIVITY.holds(p.sheet.d_s(temp_k).expect("a sheet in range")));
        if fit && dt <= 86_400.0 {
            all.push(stepping(&cell, cell.anode.sheet.numbers[6] * draw.uniform(-1.0, 1.0), dt, temp_k));
        }
    }
    all
}

pub fn cell_steps(draw: &mut Draw) -> Vec<Vec<Slot>> {
    let mut all = Vec::new();
    for cell in cells(draw) {
        all.extend(intervals(&cell).into_iter().map(|dt| stepping(&cell, draw.uniform(-3.0, 3.0), dt, T)));
    }
    all.extend(drawn_steps(draw));
    all.extend(reference::turned_steps(SUB_STEP));
    all
}

/// Of three rows each.
pub fn runs(draw: &mut Draw) -> Vec<Vec<Slot>> {
    let mut all = Vec::new();
    for cell in cells(draw) {
        all.extend(intervals(&cell).into_iter().map(|dt| running(&cell, [draw.uniform(-1.0, 1.0), dt, T, 2.5 * dt], 32)));
    }
    all.extend(reference::turned_runs(SUB_STEP));
    all
}

/// Each interval alone, and after two of one and two sub-steps.
pub fn replays(draw: &mut Draw) -> Vec<Vec<Slot>> {
    let mut all = Vec::new();
    for cell in cells(draw) {
        let [one, _, two, ..] = between(&cell);
        for dt in intervals(&cell) {
            let lines = [[one, 1.0], [two, -1.0], [dt, draw.uniform(-1.0, 1.0)]];
            all.extend([&lines[2..], &lines].map(|lines| replaying(&cell, &text(lines), T, 32)));
        }
    }
    all.extend(reference::turned_replays(SUB_STEP));
    all
}

/// Two steps of a rest, and a charge or a discharge that takes the rest of the budget.
pub fn cycles(draw: &mut Draw) -> Vec<Vec<Slot>> {
    let mut all = Vec::new();
    for cell in cells(draw) {
        for dt in intervals(&cell) {
            let current_a = draw.uniform(0.1, 1.0);
            let other = draw.pick(&[Charge(current_a), Discharge(current_a)]);
            all.push(fitting(&cell, &schedule(&[Rest(1.5 * dt), other], 1, 3, dt)));
        }
    }
    all.extend(reference::turned_cycles(SUB_STEP));
    all
}
