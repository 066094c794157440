//! Prints, for each entry of docs/DIFFERENCES.md, what the oracle gives for the input that shows it, beside what the source
//! of the model or the plain formula would give; with the argument `low_rates` the curve of the overpotential at tiny currents,
//! with `charge` that of a charge, with `sub_steps` that of a particle's centre.
mod charge;
mod low_rates;
mod sub_steps;

use calls::dfn;
use calls::electrode::Sheet;
use calls::electrolyte::{Electrolyte, Params, Regions};
use calls::lowest::groups;
use calls::particle::Particle;
use calls::solver::{Cell, Config};

const T: f64 = 298.15;

fn spm(n_nodes: u64) -> Cell {
    let config = Config { n_nodes, numbers: [2.5, 4.2, 96_485.0, 8.314, 2e-4] };
    Cell::graphite_lfp(config).expect("the ready cell")
}

fn dfn_cell(counts: [u64; 3]) -> dfn::Cell {
    let config = dfn::Config { counts, voltages: [2.5, 4.3] };
    dfn::Cell::new(dfn::Params::nmc_graphite(), config).expect("the ready cell")
}

fn anode_curve() {
    let x: f64 = 0.01;
    let rust = Sheet::graphite_anode().ocp(x).unwrap();
    let published = 0.7222 + 0.1387 * x + 0.029 * x.sqrt() - 0.0172 / x + 0.0019 / x.powf(1.5) + 0.2808 * (0.90 - 15.0 * x).exp()
        - 0.7984 * (0.4465 * x - 0.4108).exp();
    println!("anode curve: graphite at theta 0.01: {rust:.4} V, with exp(0.90 - 15 theta) {published:.4} V");
}

fn nmc() -> Cell {
    let config = Config { n_nodes: 11, numbers: [2.5, 4.2, 96_485.0, 8.314, 2e-4] };
    Cell::graphite_nmc(config).expect("the ready cell")
}

/// mol of lithium in both electrodes
fn lithium(anode: f64, cathode: f64, cell: &Cell) -> f64 {
    [(anode, &cell.anode.sheet), (cathode, &cell.cathode.sheet)]
        .iter()
        .map(|(theta, sheet)| theta * sheet.c_s_max() * sheet.numbers[5] * sheet.numbers[6] * sheet.numbers[4])
        .sum()
}

fn lfp_curve() {
    let sheet = Sheet::lfp_cathode();
    let [low, middle, high] = [0.05, 0.5, 0.97].map(|theta| sheet.ocp(theta).unwrap());
    println!("LFP curve: {low:.4} V at theta 0.05, {middle:.4} V at 0.5, {high:.4} V at 0.97");
}

fn clamped_run() {
    let cell = spm(11);
    let rows = cell.simulate_discharge(3.0, 10.0, T, 3600.0, 8 * 360, groups(360)).rows;
    let rises = rows.windows(2).filter(|pair| pair[1][0] > pair[0][0]).count();
    let (first, middle) = (&rows[0], &rows[89]);
    println!("LFP discharge: 3 A, 10 s: {:.6} V at 10 s, {:.6} V at 900 s; the voltage rises in {rises} of {} steps", first[0], middle[0], rows.len() - 1);
    let full = rows.iter().find(|row| row[3] == 1.0).expect("a full cathode");
    let empty = rows.iter().find(|row| row[2] == 0.0).expect("an empty anode");
    let last = &rows[359];
    let still = rows.iter().rev().take_while(|row| row[0].to_bits() == last[0].to_bits()).last().expect("the last row");
    println!("clamp: the same run: the cathode's surface is full from {} s on, the anode's empty from {} s on", full[6], empty[6]);
    println!("clamp: one voltage, {:.6} V, from {} s to {} s; v_min 2.5 is not met", last[0], still[6], last[6]);
    let held = |row: &[f64; 8]| lithium(row[4], row[5], &cell);
    println!("clamp: mol of lithium in both electrodes: {:.4} at 10 s, {:.4} at 1420 s, {:.4} at 3600 s", held(first), held(&rows[141]), held(last));
}

fn graphite_bump() {
    let rows = nmc().simulate_discharge(5.0, 10.0, T, 3600.0, 8 * 360, groups(360)).rows;
    let at = rows.windows(2).position(|pair| pair[1][0] > pair[0][0]).expect("a rise");
    let top = rows[at..].iter().max_by(|a, b| a[0].total_cmp(&b[0])).expect("a row");
    let last = &rows[rows.len() - 1];
    println!("graphite bump: graphite_nmc, 11 nodes, 5 A, 10 s: {:.4} V at {} s, up to {:.4} V at {} s, anode's surface {:.3} to {:.3}", rows[at][0], rows[at][6], top[0], top[6], rows[at][2], top[2]);
    println!("NMC floor: the same run stands at {:.4} V at {} s, after {} rows; v_min 2.5 is not met", last[0], last[6], rows.len());
}

fn dfn_discharge() {
    let run = dfn_cell([5, 5, 6]).run_galvanostatic(20.0, 10.0, 3600.0, 8 * 360, groups(360));
    let (first, last) = (&run.rows[0], &run.rows[run.rows.len() - 1]);
    println!("DFN discharge: nmc_graphite, 5/5/6, 20 A, 10 s: {:.4} V at {} s, {:.4} V at {} s, ended by {:?} at v_max 4.3", first[0], first[2], last[0], last[2], run.ending);
}

fn even_nodes() {
    for n in [4, 5] {
        let mut sheet = Sheet::graphite_anode();
        sheet.numbers[3] = 0.8;
        let p = Particle::new(sheet, n).unwrap();
        println!("even count of nodes: theta_avg of a uniform 0.8 at n = {n}: {:.4}", p.theta_avg().unwrap());
    }
}

fn soc_window() {
    let mut cell = spm(11);
    cell.anode.c_s[..11].fill(0.9 * cell.anode.sheet.c_s_max());
    println!("state of charge: an anode at 0.9 gives {:.4}, one at 0.8 {:.4}", cell.soc_estimate().unwrap(), spm(11).soc_estimate().unwrap());
}

fn dfn_signs() {
    let cell = dfn_cell([5, 5, 6]);
    let (next, report) = cell.step(20.0, 10.0).unwrap();
    println!("DFN flux sign: nmc_graphite, 5/5/6, 20 A, 10 s: theta_neg from 0.8 to {:.6}, theta_pos from 0.5 to {:.6}", report.theta_neg, report.theta_pos);
    let (rest, at_rest) = cell.step(0.0, 10.0).unwrap();
    let mut slow = dfn_cell([2, 2, 6]);
    slow.params.numbers[9] = 1e-11;
    slow.params.numbers[15] = 1e-11;
    let voltage = |current: f64| slow.step(current, 1e-6).unwrap().1.voltage;
    println!("DFN voltage sign: 2/2/6, k_neg = k_pos = 1e-11, 1e-6 s: {:.6} V at rest, {:.6} V at 1 A of discharge", voltage(0.0), voltage(1.0));
    println!("DFN frozen nodes: c_e after 10 s at 20 A: {:?}", next.c_e[..11].iter().map(|c| format!("{c:.2}")).collect::<Vec<_>>());
    println!("DFN newton_iter: {} in both", report.newton_iter.max(at_rest.newton_iter));
    let mut uneven = rest;
    uneven.c_s_neg[5] = 20_000.0;
    let (moved, _) = uneven.step(0.0, 10.0).unwrap();
    println!("DFN surface: nodes 4 and 5 of the first anode particle, from {:.2} and 20000 at no current: {:.2} and {:.2}", uneven.c_s_neg[4], moved.c_s_neg[4], moved.c_s_neg[5]);
    println!("DFN centre: nodes 0 and 1 of a particle (10, 20) at n_r = 2: {:?}", two_nodes());
    let mut salt = dfn_cell([2, 2, 2]);
    salt.c_e[..5].fill(50.0);
    let (kept, _) = salt.step(0.0, 1.0).unwrap();
    println!("DFN clamp: an electrolyte at 50 everywhere, no current: {:?}", &kept.c_e[..5]);
}

fn two_nodes() -> [f64; 2] {
    let mut cell = dfn_cell([1, 1, 2]);
    cell.c_s_neg[..2].copy_from_slice(&[10.0, 20.0]);
    let (next, _) = cell.step(0.0, 1.0).unwrap();
    [next.c_s_neg[0], next.c_s_neg[1]]
}

fn electrolyte() {
    let regions = Regions { params: Params::lipf6_ec_dmc(), lengths: [1e-4, 2.5e-5, 1e-4], porosities: [0.9, 0.4, 0.9], counts: [10, 5, 10] };
    let e = Electrolyte::new(regions).unwrap();
    let d = |porosity: f64| regions.params.d_e_eff(porosity, T).unwrap();
    let dx: f64 = 5e-6;
    println!("electrolyte limit: porosities 0.9, 0.4, 0.9: {:.4} s by the least porosity, {:.4} s by the largest", e.dt_stable(T).unwrap(), 0.5 * dx * dx / d(0.9));
    let mut step = e.clone();
    step.c_e[..10].fill(1100.0);
    let total = |e: &Electrolyte| e.c_e[..10].iter().sum::<f64>() * 0.9 * 1e-5 + e.c_e[10..15].iter().sum::<f64>() * 0.4 * 5e-6 + e.c_e[15..25].iter().sum::<f64>() * 0.9 * 1e-5;
    let next = step.step_concentration(0.0, 0.0, 0.01, T).unwrap();
    println!("electrolyte interfaces: salt per area with no source: {:.9} before, {:.9} after a step of 0.01 s", total(&step), total(&next));
    let mut low = e;
    low.c_e[0] = 1e-10;
    let floored = low.step_concentration(-1e9, 0.0, 1.0, T).unwrap();
    println!("electrolyte floor: a source of -1e9 for 1 s leaves {:e}", floored.c_e[0]);
}

/// The ready NMC cell at 298.15 K, by the temperature at which its diffusivities are taken to have been measured.
fn reference_temperature() {
    for t_ref in [288.15, 293.15, T, 303.15] {
        let mut cell = nmc();
        cell.config.numbers[0] = 3.0;
        cell.anode.sheet.numbers[9] = t_ref;
        cell.cathode.sheet.numbers[9] = t_ref;
        let rows = cell.simulate_discharge(5.0, 10.0, T, 3600.0, 8 * 360, groups(360)).rows;
        let (d, at_600, end) = (cell.anode.sheet.d_s(T).unwrap(), rows[59][0], rows[rows.len() - 1][6]);
        println!("reference temperature {t_ref} K: graphite_nmc, 11 nodes, 5 A, 10 s, {T} K: the anode's D {d:.3e}, {at_600:.4} V at 600 s, 3 V at {end} s");
    }
}

fn stand_ins() {
    let t: f64 = -7.25;
    println!("stand-ins: exp({t}) is {:016X}", oracle::standins::exp(t).to_bits());
}

fn main() {
    match std::env::args().nth(1).as_deref() {
        None => print_differences(),
        Some("low_rates") => low_rates::print_curve(),
        Some("charge") => charge::print_curve(),
        Some("sub_steps") => sub_steps::print_curve(),
        Some(_) => {
            eprintln!("differences: no argument, low_rates, charge or sub_steps");
            std::process::exit(2);
        }
    }
}

fn print_differences() {
    anode_curve();
    lfp_curve();
    clamped_run();
    graphite_bump();
    even_nodes();
    sub_steps::print_stability();
    soc_window();
    dfn_signs();
    dfn_discharge();
    electrolyte();
    stand_ins();
    low_rates::print_grain();
    low_rates::print_rows();
    reference_temperature();
    charge::print_step();
    charge::print_charges();
    sub_steps::print_counts();
    sub_steps::print_centre();
    sub_steps::print_rows();
}
