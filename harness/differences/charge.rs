//! Rows of a charge before change request (v), when the ohmic drop was multiplied by the current's sign, and now.
use calls::earlier::EarlierOhmicDrop;
use calls::lowest::groups;
use calls::runs::ROW;
use calls::solver::{Cell, Config};

const T: f64 = 298.15;
const DT: f64 = 10.0;
const V_MAX: f64 = 4.2;

type Row = [f64; ROW];

fn config(v_max: f64, resistance: f64) -> Config {
    Config { n_nodes: 11, numbers: [2.5, v_max, 96_485.0, 8.314, resistance] }
}

pub fn print_step() {
    let cell = Cell::graphite_lfp(config(V_MAX, 2e-4)).expect("the ready cell");
    let now = cell.step(-3.0, 0.5, T).expect("a step in range").1.state.voltage;
    let before = EarlierOhmicDrop::of(&cell).row(-3.0, 0.5, T)[0];
    println!("ohmic rise: graphite_lfp, 11 nodes, -3 A, 0.5 s: {before:.6} V before, {now:.6} V now");
}

/// The ready NMC cell after 1,200 s at 5 A, charged with 5 A for so long or until a row is above v_max: before and now.
fn charge(v_max: f64, resistance: f64, seconds: f64) -> [Vec<Row>; 2] {
    let full = Cell::graphite_nmc(config(v_max, resistance)).expect("the ready cell");
    let cell = Cell { time_s: 0.0, ..full.simulate_discharge(5.0, DT, T, 1200.0, 120 * ROW, groups(120)).cell };
    let (mut earlier, mut before) = (EarlierOhmicDrop::of(&cell), Vec::<Row>::new());
    while before.last().map_or(true, |row| row[6] < seconds && row[7] == 0.0) {
        before.push(earlier.row(-5.0, DT, T));
    }
    [before, cell.simulate_discharge(-5.0, DT, T, seconds, 1000 * ROW, groups(1000)).rows]
}

/// The first and the last row of an hour's charge, by the resistance.
pub fn print_charges() {
    for resistance in [0.0, 2e-4, 1e-3, 2e-3] {
        let [before, now] = charge(V_MAX, resistance, 3600.0).map(|rows| {
            let last = &rows[rows.len() - 1];
            let met = if last[7] == 1.0 { "is" } else { "is not" };
            format!("{:.4} V at {} s, v_max {met} met at {} s with {:.4} V", rows[0][0], rows[0][6], last[6], last[0])
        });
        println!("ohmic rise: graphite_nmc, 11 nodes, {resistance} ohm m2, after 1200 s at 5 A charged with 5 A, 10 s: before {before}; now {now}");
    }
}

/// The voltage of such a charge that nothing cuts off, as CSV.
pub fn print_curve() {
    let ([before, now], [without, _]) = (charge(10.0, 1e-3, 1400.0), charge(10.0, 0.0, 1400.0));
    println!("time [min],before [V],now [V],without resistance [V]");
    for ((before, now), without) in before.iter().zip(&now).zip(&without) {
        println!("{:.4},{:.6},{:.6},{:.6}", now[6] / 60.0, before[0], now[0], without[0]);
    }
}
