//! The sheet's calls.
use super::{number, random_numbers, reference};
use crate::cover::{arguments, pairs, singles, with_reference, Argument, Kind};
use crate::draw::Draw;
use calls::electrode::{sphere_volume as volume, Sheet, RANGES};
use calls::words::{float, Reader, Slot};

pub fn kinds() -> Vec<Kind> {
    [vec![Kind::Count(1, 3)], with_reference(&RANGES)].concat()
}

pub fn ready_sheets() -> [Sheet; 3] {
    [Sheet::graphite_anode(), Sheet::lfp_cathode(), Sheet::nmc_cathode()]
}

pub fn random_sheet(draw: &mut Draw) -> Sheet {
    Sheet { chemistry: draw.count(1, 3), numbers: random_numbers(draw, &RANGES) }
}

/// The three ready sheets, then random ones.
pub fn sheets(draw: &mut Draw, random: usize) -> Vec<Sheet> {
    ready_sheets().into_iter().chain((0..random).map(|_| random_sheet(draw))).collect()
}

/// A sheet with further arguments, at their limits and two faults at once.
fn covered(sheet: &Sheet, more: Vec<(Slot, Kind)>) -> Vec<Vec<Slot>> {
    let (slots, more_kinds): (Vec<Slot>, Vec<Kind>) = more.into_iter().unzip();
    let base: Vec<Argument> = arguments([sheet.slots(), slots].concat(), [kinds(), more_kinds].concat());
    [singles(&base), pairs(&base)].concat()
}

pub fn ready_cases(_: &mut Draw) -> Vec<Vec<Slot>> {
    vec![Vec::new()]
}

/// The three ready sheets, one after the other.
pub fn ready(_: &[Slot]) -> Vec<Slot> {
    ready_sheets().iter().flat_map(Sheet::slots).collect()
}

fn read<const N: usize>(arguments: &[Slot]) -> (Sheet, [f64; N]) {
    let mut reader = Reader::new(arguments);
    let read = (Sheet::read(&mut reader), reader.floats());
    reader.end();
    read
}

pub fn d_s_cases(draw: &mut Draw) -> Vec<Vec<Slot>> {
    let mut all: Vec<_> = ready_sheets().iter().flat_map(|s| covered(s, vec![(float(310.0), Kind::Temperature)])).collect();
    for sheet in sheets(draw, 300) {
        for t in [200.0, 298.15, 400.0, draw.uniform(200.0, 400.0)] {
            all.push([sheet.slots(), vec![float(t)]].concat());
        }
    }
    all.extend(reference::d_s(draw));
    all
}

pub fn d_s(arguments: &[Slot]) -> Vec<Slot> {
    let (sheet, [temp_k]) = read(arguments);
    number(sheet.d_s(temp_k))
}

pub fn sheet_cases(draw: &mut Draw) -> Vec<Vec<Slot>> {
    let mut all: Vec<_> = ready_sheets().iter().flat_map(|s| covered(s, Vec::new())).collect();
    all.extend(sheets(draw, 300).iter().map(Sheet::slots));
    all.extend((0..60).map(|_| reference::sheet(draw).slots()));
    all
}

pub fn specific_area(arguments: &[Slot]) -> Vec<Slot> {
    let (sheet, []) = read(arguments);
    number(sheet.specific_area())
}

pub fn theta_cases(draw: &mut Draw) -> Vec<Vec<Slot>> {
    let mut all: Vec<_> = ready_sheets().iter().flat_map(|s| covered(s, vec![(float(0.5), Kind::Finite)])).collect();
    for sheet in ready_sheets() {
        let ends = [0.0, 1e-4, 0.01, 0.08, 0.1, 0.85, 0.9, 0.92, 0.99, 1.0 - 1e-4, 1.0];
        let near = ends.iter().flat_map(|x: &f64| [x.next_down(), *x, x.next_up()]);
        let drawn: Vec<f64> = (0..200).map(|_| draw.unit()).collect();
        all.extend(near.chain(drawn).chain([-3.0, 7.5, 1e300]).map(|x| [sheet.slots(), vec![float(x)]].concat()));
    }
    all.extend((0..300).map(|_| [random_sheet(draw).slots(), vec![float(draw.uniform(-0.1, 1.1))]].concat()));
    all.extend((0..60).map(|_| [reference::sheet(draw).slots(), vec![float(draw.uniform(-0.1, 1.1))]].concat()));
    all
}

/// `ocp`, then `docp_dtheta`.
pub fn ocp(arguments: &[Slot]) -> Vec<Slot> {
    let (sheet, [theta]) = read(arguments);
    [number(sheet.ocp(theta)), number(sheet.docp_dtheta(theta))].concat()
}

pub fn radius_cases(draw: &mut Draw) -> Vec<Vec<Slot>> {
    let mut all = singles(&arguments(vec![float(5e-6)], vec![Kind::Number(RANGES[0])]));
    all.extend((0..200).map(|_| vec![float(draw.within(RANGES[0]))]));
    all
}

pub fn sphere_volume(arguments: &[Slot]) -> Vec<Slot> {
    let mut reader = Reader::new(arguments);
    let r = reader.float();
    reader.end();
    number(volume(r))
}
