//! H near 0 and the overpotentials at tiny currents, before change request (ii) and now.
use calls::dfn;
use calls::electrode::Sheet;
use calls::lowest::groups;
use calls::solver::{Cell, Config};
use oracle::standins::{asinh, with_earlier_asinh};
use std::collections::BTreeSet;

const LIMIT: f64 = 0.0009765625;

fn before(x: f64) -> f64 {
    with_earlier_asinh(|| asinh(x))
}

/// How far a value is from asinh(x), as a part of x. asinh(x) - x = -x^3/6 + 3x^5/40 - 15x^7/336 + ..; value - x is exact, since the two are close.
fn relative_error(value: f64, x: f64) -> f64 {
    let q = x * x;
    ((value - x) / x + q / 6.0 * (1.0 - q * 9.0 / 20.0 * (1.0 - q * 25.0 / 42.0))).abs()
}

/// So many arguments, evenly from low on, below high.
fn evenly(low: f64, high: f64) -> impl Iterator<Item = f64> {
    (0..10_000).map(move |k| low + (high - low) * k as f64 / 10_000.0)
}

fn values(of: impl Fn(f64) -> f64, low: f64, high: f64) -> usize {
    evenly(low, high).map(|x| of(x).to_bits()).collect::<BTreeSet<_>>().len()
}

pub fn print_grain() {
    for (low, high) in [(1e-4, LIMIT), (1e-5, 1e-4), (1e-7, 1e-6), (1e-10, 1e-9), (1e-13, 1e-12), (1e-16, 1e-15)] {
        let largest = |of: &dyn Fn(f64) -> f64| evenly(low, high).map(|x| relative_error(of(x), x)).fold(0.0, f64::max);
        println!("H near 0: largest relative error at 10,000 x from {low:e} to {high:e}: {:.1e} before, {:.1e} now", largest(&before), largest(&asinh));
    }
    let (low, high) = (1e-15, 1e-14);
    println!("H near 0: values at 10,000 x from {low:e} to {high:e}: {} before, {} now", values(before, low, high), values(asinh, low, high));
    let (zero, above) = (f64::powi(2.0, -53), f64::powi(2.0, -53).next_up());
    println!("H near 0: at x = {zero:e} it was {:e} and at the next x {:e}, now {:e} and {:e}", before(zero), before(above), asinh(zero), asinh(above));
    let last = LIMIT.next_down();
    println!("H at 2^-10: from the last x below, {:.1e} away, it rose by {:.1e} before and rises by {:.1e} now", LIMIT - last, before(LIMIT) - before(last), asinh(LIMIT) - asinh(last));
}

fn config(voltages: [f64; 2]) -> Config {
    Config { n_nodes: 11, numbers: [voltages[0], voltages[1], 96_485.0, 8.314, 2e-4] }
}

/// How many of 1,000 rows of a discharge moved, and by how much at most.
pub fn print_rows() {
    let graphite = Sheet::graphite_anode();
    let cells = [
        ("graphite_lfp", Cell::graphite_lfp(config([2.5, 4.2]))),
        ("graphite_nmc", Cell::graphite_nmc(config([2.5, 4.2]))),
        ("graphite against graphite", Cell::new(config([-10.0, 10.0]), graphite, graphite)),
    ];
    for (name, cell) in cells {
        let cell = cell.expect("a cell of ready sheets");
        for current in [3e-2, 3e-4, 3e-6] {
            let run = || cell.simulate_discharge(current, 10.0, 298.15, 10_000.0, 8_000, groups(1_000)).rows;
            let (earlier, now) = (with_earlier_asinh(run), run());
            let moved: Vec<f64> = earlier.iter().zip(&now).filter(|(a, b)| a[0].to_bits() != b[0].to_bits()).map(|(a, b)| (a[0] - b[0]).abs()).collect();
            let most = moved.iter().fold(0.0, |a: f64, b| a.max(*b));
            println!("low rates: {name}, 11 nodes, {current:e} A, 10 s: {} of {} rows moved, by at most {most:.1e} V", moved.len(), now.len());
        }
    }
}

/// A DFN cell of slow kinetics without open-circuit voltage and with hardly a resistance: its voltage is the overpotentials of both electrodes.
fn bare_cell() -> dfn::Cell {
    let none = dfn::Coefficients::of(&[]);
    let mut params = dfn::Params { ocv_neg: none, ocv_pos: none, ..dfn::Params::nmc_graphite() };
    for (at, to) in [(9, 1e-11), (15, 1e-11), (20, 100.0)] {
        params.numbers[at] = to;
    }
    dfn::Cell::new(params, dfn::Config { counts: [1, 1, 2], voltages: [-10.0, 10.0] }).expect("parameters in range")
}

/// Its voltage at tiny currents, before and now, as CSV.
pub fn print_curve() {
    let cell = bare_cell();
    let voltage = |current: f64| cell.step(current, 1e-6).expect("a step in range").1.voltage;
    println!("current [A],before [V],now [V]");
    for k in 0..=400 {
        let current = f64::from(k) * 2.5e-17;
        println!("{current:e},{:e},{:e}", with_earlier_asinh(|| voltage(current)), voltage(current));
    }
}
