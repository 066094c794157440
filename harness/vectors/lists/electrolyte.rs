//! The electrolyte's calls.
use super::{number, random_numbers, reference};
use crate::cover::{arguments, one_fault, pairs, singles, with_reference, Argument, Kind};
use crate::draw::Draw;
use calls::electrolyte::{Electrolyte, Params, Regions, FLOOR, LENGTH, MOST_NODES, PLACES, POROSITY, RANGES};
use calls::table::{MOST_SOURCE, TEMPERATURE};
use calls::words::{answer, array, float, word, Reader, Slot};

fn regions_kinds() -> Vec<Kind> {
    let numbers = [vec![Kind::Number(LENGTH); 3], vec![Kind::Number(POROSITY); 3]].concat();
    [with_reference(&RANGES), numbers, vec![Kind::Count(1, MOST_NODES); 3]].concat()
}

fn used(regions: &Regions) -> usize {
    regions.counts.iter().sum::<u64>() as usize
}

fn kinds(e: &Electrolyte) -> Vec<Kind> {
    [regions_kinds(), vec![Kind::Places { total: PLACES, used: used(&e.regions), each: FLOOR }]].concat()
}

pub(super) fn ready_regions(counts: [u64; 3]) -> Regions {
    Regions { params: Params::lipf6_ec_dmc(), lengths: [1e-4, 2.5e-5, 8e-5], porosities: [0.3, 0.4, 0.35], counts }
}

pub(super) fn random_params(draw: &mut Draw) -> Params {
    Params { numbers: random_numbers(draw, &RANGES) }
}

pub(super) fn random_regions(draw: &mut Draw) -> Regions {
    Regions {
        params: random_params(draw),
        lengths: draw.all_within(&[LENGTH; 3]),
        porosities: draw.all_within(&[POROSITY; 3]),
        counts: std::array::from_fn(|_| draw.count(1, MOST_NODES)),
    }
}

pub(super) fn random_state(draw: &mut Draw, regions: Regions) -> Electrolyte {
    let mut e = Electrolyte::new(regions).expect("regions in range");
    let count = used(&regions);
    let way = draw.below(3);
    for place in &mut e.c_e[..count] {
        *place = match way {
            0 => draw.uniform(0.5, 2000.0),
            1 => draw.pick(&[1e-10, 1000.0, 1e5]),
            _ => *place * draw.uniform(0.9, 1.1),
        };
    }
    e
}

pub(super) fn asking(p: Params, porosity: f64, temp_k: f64) -> Vec<Slot> {
    [p.slots(), vec![float(porosity), float(temp_k)]].concat()
}

pub fn rate_cases(draw: &mut Draw) -> Vec<Vec<Slot>> {
    let kinds = [with_reference(&RANGES), vec![Kind::Number(POROSITY), Kind::Temperature]].concat();
    let base = arguments(asking(Params::lipf6_ec_dmc(), 0.3, 310.0), kinds);
    let mut all = [singles(&base), pairs(&base)].concat();
    for _ in 0..300 {
        let p = random_params(draw);
        all.push(asking(p, draw.within(POROSITY), draw.within(TEMPERATURE)));
    }
    all.extend(reference::rates(draw));
    all
}

/// `d_e` and `kappa` of the parameters and the temperature; `d_e_eff` and `kappa_eff` with the porosity too.
pub fn rates(arguments: &[Slot]) -> Vec<Slot> {
    let mut reader = Reader::new(arguments);
    let p = Params::read(&mut reader);
    let [porosity, temp_k] = reader.floats();
    reader.end();
    let all = [p.d_e(temp_k), p.kappa(temp_k), p.d_e_eff(porosity, temp_k), p.kappa_eff(porosity, temp_k)];
    all.into_iter().flat_map(number).collect()
}

pub fn new_cases(draw: &mut Draw) -> Vec<Vec<Slot>> {
    let base = arguments(ready_regions([3, 2, 4]).slots(), regions_kinds());
    let mut all = [singles(&base), pairs(&base)].concat();
    all.extend((0..60).map(|_| random_regions(draw).slots()));
    all.extend((0..60).map(|_| reference::regions(draw).slots()));
    all
}

pub fn new(arguments: &[Slot]) -> Vec<Slot> {
    let mut reader = Reader::new(arguments);
    let regions = Regions::read(&mut reader);
    reader.end();
    answer(Electrolyte::new(regions).map(|e| vec![array(&e.c_e)]))
}

/// A state whose sum or whose step leaves the finite numbers.
fn huge() -> Electrolyte {
    let mut e = Electrolyte::new(ready_regions([1, 1, 1])).expect("regions in range");
    e.c_e[..3].fill(1e308);
    e
}

pub fn number_cases(draw: &mut Draw) -> Vec<Vec<Slot>> {
    let e = random_state(draw, ready_regions([2, 1, 2]));
    let base = arguments(e.slots(), kinds(&e));
    let mut all = [singles(&base), pairs(&base)].concat();
    all.extend(one_fault(&arguments(huge().slots(), kinds(&huge()))));
    for _ in 0..60 {
        let regions = random_regions(draw);
        all.push(random_state(draw, regions).slots());
    }
    for _ in 0..60 {
        let regions = reference::regions(draw);
        all.push(random_state(draw, regions).slots());
    }
    all
}

/// `n_total`, then `c_avg`.
pub fn numbers(arguments: &[Slot]) -> Vec<Slot> {
    let mut reader = Reader::new(arguments);
    let e = Electrolyte::read(&mut reader);
    reader.end();
    [answer(e.n_total().map(|n| vec![word(n)])), number(e.c_avg())].concat()
}

pub(super) fn stepping(e: &Electrolyte, numbers: [f64; 4]) -> Vec<Slot> {
    [e.slots(), numbers.map(float).to_vec()].concat()
}

fn step_base(e: &Electrolyte, numbers: [f64; 4]) -> Vec<Argument> {
    let more = vec![Kind::Load(MOST_SOURCE), Kind::Load(MOST_SOURCE), Kind::Above0(86_400.0), Kind::Temperature];
    arguments(stepping(e, numbers), [kinds(e), more].concat())
}

pub fn step_cases(draw: &mut Draw) -> Vec<Vec<Slot>> {
    let mut all = Vec::new();
    for counts in [[2, 1, 2], [1, 1, 1]] {
        let base = step_base(&random_state(draw, ready_regions(counts)), [20.0, -25.0, 0.05, 300.0]);
        all.extend([singles(&base), pairs(&base)].concat());
    }
    // 8, alone and with a fault of a lower number; and a fall to minus infinity, which the floor takes
    let mut peaks = huge();
    peaks.c_e[..3].copy_from_slice(&[1.7e308, 1.0, 1.7e308]);
    all.extend(one_fault(&step_base(&peaks, [0.0, 0.0, 1.0, 300.0])));
    peaks.c_e[..3].copy_from_slice(&[1.0, 1.7e308, 1.0]);
    all.push(stepping(&peaks, [0.0, 0.0, 1.0, 300.0]));
    for _ in 0..150 {
        let regions = if draw.below(2) == 0 { random_regions(draw) } else { ready_regions([draw.count(1, 12), draw.count(1, 6), draw.count(1, 12)]) };
        let e = random_state(draw, regions);
        let temp_k = draw.within(TEMPERATURE);
        let stable = e.dt_stable(temp_k).expect("a state in range");
        let dt = (stable * draw.pick(&[0.01, 0.2, 0.9, 5.0])).clamp(f64::MIN_POSITIVE, 86_400.0);
        let source = draw.pick(&[0.0, -0.0, 50.0, 1e4, 1e9]);
        all.push(stepping(&e, [source * draw.unit(), -source * draw.unit(), dt, temp_k]));
    }
    let mut e = Electrolyte::new(ready_regions([4, 2, 5])).expect("regions in range");
    for turn in 0..12 {
        let source = if turn % 5 == 4 { -80.0 } else { 40.0 };
        all.push(stepping(&e, [source, -source, 0.1, 298.15]));
        e = e.step_concentration(source, -source, 0.1, 298.15).expect("a step in range");
    }
    all.extend(reference::electrolyte_steps(draw));
    all
}

pub fn step(arguments: &[Slot]) -> Vec<Slot> {
    let mut reader = Reader::new(arguments);
    let e = Electrolyte::read(&mut reader);
    let [j_n_neg, j_n_pos, dt, temp_k] = reader.floats();
    reader.end();
    answer(e.step_concentration(j_n_neg, j_n_pos, dt, temp_k).map(|next| vec![array(&next.c_e)]))
}

pub fn dt_stable_cases(draw: &mut Draw) -> Vec<Vec<Slot>> {
    let e = random_state(draw, ready_regions([1, 2, 1]));
    let base = arguments([e.slots(), vec![float(310.0)]].concat(), [kinds(&e), vec![Kind::Temperature]].concat());
    let mut all = [singles(&base), pairs(&base)].concat();
    for _ in 0..60 {
        let regions = random_regions(draw);
        all.push([random_state(draw, regions).slots(), vec![float(draw.within(TEMPERATURE))]].concat());
    }
    all.extend(reference::electrolyte_dt_stable(draw));
    all
}

pub fn dt_stable(arguments: &[Slot]) -> Vec<Slot> {
    let mut reader = Reader::new(arguments);
    let (e, temp_k) = (Electrolyte::read(&mut reader), reader.float());
    reader.end();
    number(e.dt_stable(temp_k))
}
