//! The lists, a file for each source file of the Rust.
use crate::draw::Draw;
use calls::table::{range, Range};
use calls::words::Slot;
use oracle::standins::with_small_arguments;

mod charge;
mod cycle;
mod dense;
mod dfn;
mod electrode;
mod electrolyte;
mod elementary;
pub mod lowest;
mod particle;
pub mod reference;
mod replay;
mod solver;
pub mod sub_steps;

pub struct List {
    pub name: &'static str,
    pub cases: fn(&mut Draw) -> Vec<Vec<Slot>>,
    pub answer: fn(&[Slot]) -> Vec<Slot>,
}

const fn list(name: &'static str, cases: fn(&mut Draw) -> Vec<Vec<Slot>>, answer: fn(&[Slot]) -> Vec<Slot>) -> List {
    List { name, cases, answer }
}

/// A new list goes to the end: a list's place is its seed.
pub const ALL: [List; 35] = [
    list("ranges", elementary::range_cases, elementary::ranges),
    list("elementary", elementary::function_cases, elementary::functions),
    list("powf", elementary::powf_cases, elementary::power),
    list("small", elementary::small_cases, elementary::small),
    list("counts", elementary::count_cases, elementary::counts),
    list("ready_sheets", electrode::ready_cases, electrode::ready),
    list("d_s", electrode::d_s_cases, electrode::d_s),
    list("specific_area", electrode::sheet_cases, electrode::specific_area),
    list("ocp", electrode::theta_cases, electrode::ocp),
    list("sphere_volume", electrode::radius_cases, electrode::sphere_volume),
    list("particle_new", particle::new_cases, particle::new),
    list("particle_step", particle::step_cases, particle::step),
    list("particle_dt_stable", particle::dt_stable_cases, particle::dt_stable),
    list("particle_numbers", particle::number_cases, particle::numbers),
    list("ready_cells", solver::ready_cases, solver::ready),
    list("cell_new", solver::new_cases, solver::new),
    list("cell_step", solver::step_cases, solver::step),
    list("cell_numbers", solver::number_cases, solver::numbers),
    list("simulate_discharge", solver::run_cases, solver::run),
    list("electrolyte_rates", electrolyte::rate_cases, electrolyte::rates),
    list("electrolyte_new", electrolyte::new_cases, electrolyte::new),
    list("electrolyte_numbers", electrolyte::number_cases, electrolyte::numbers),
    list("step_concentration", electrolyte::step_cases, electrolyte::step),
    list("electrolyte_dt_stable", electrolyte::dt_stable_cases, electrolyte::dt_stable),
    list("ready_parameters", dfn::ready_cases, dfn::ready),
    list("dfn_new", dfn::new_cases, dfn::new),
    list("dfn_step", dfn::step_cases, dfn::step),
    list("run_galvanostatic", dfn::run_cases, dfn::run),
    list("solve_dense", dense::cases, dense::solve),
    list("exp", elementary::exp_cases, elementary::exp),
    list("replay", replay::cases, replay::answer),
    list("cycle", cycle::cases, cycle::answer),
    list("discharge_lowest", lowest::discharge_cases, lowest::discharge),
    list("galvanostatic_lowest", lowest::galvanostatic_cases, lowest::galvanostatic),
    list("first_below", lowest::search_cases, lowest::search),
];

/// The currents next to which the overpotentials' argument passes 2^-10: of the discharges that `step` makes, the largest that still meets one
/// below, and the next two binary64.
fn about_small_limit(step: impl Fn(f64)) -> [f64; 3] {
    let met = |bits: u64| with_small_arguments(|| step(f64::from_bits(bits))).1 > 0;
    let (mut low, mut high) = (1e-12f64.to_bits(), 1e6f64.to_bits());
    assert!(met(low) && !met(high), "no such current");
    while high - low > 1 {
        let middle = low + (high - low) / 2;
        if met(middle) {
            low = middle;
        } else {
            high = middle;
        }
    }
    [low, high, high + 1].map(f64::from_bits)
}

/// A current by which, per area, the overpotentials' arguments are mostly small.
fn low_current(draw: &mut Draw, area: f64) -> f64 {
    area * draw.pick(&[1.0, -1.0]) * draw.within(range(1e-18, 1.0))
}

/// The reference temperature of the ready records.
const READY_REFERENCE: f64 = 298.15;

/// A sheet's or an electrolyte's numbers, the last of which, the reference temperature, is not drawn.
fn random_numbers<const N: usize>(draw: &mut Draw, ranges: &[Range; N]) -> [f64; N] {
    std::array::from_fn(|i| if i + 1 < N { draw.within(ranges[i]) } else { READY_REFERENCE })
}

/// The answer of a call that gives a number.
pub fn number(result: Result<f64, u64>) -> Vec<Slot> {
    calls::words::answer(result.map(|x| vec![calls::words::float(x)]))
}
