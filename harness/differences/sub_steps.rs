//! The single-particle cell before change request (vii), when sub-steps were up to half as long again, and now.
use calls::earlier::{self, EarlierSubSteps};
use calls::lowest::groups;
use calls::runs::ROW;
use calls::solver::{count_sub_steps, Cell, Config, SUB_STEP};

const T: f64 = 298.15;
const LONGEST: f64 = 86_400.0;
const PARTS: [f64; 2] = [earlier::SUB_STEP, SUB_STEP];

type Row = [f64; ROW];

fn config(n_nodes: u64, v_min: f64) -> Config {
    Config { n_nodes, numbers: [v_min, 4.2, 96_485.0, 8.314, 2e-4] }
}

fn lfp(n_nodes: u64) -> Cell {
    Cell::graphite_lfp(config(n_nodes, 2.5)).expect("the ready cell")
}

fn nmc(n_nodes: u64) -> Cell {
    Cell::graphite_nmc(config(n_nodes, 3.0)).expect("the ready cell")
}

/// The count of sub-steps that are at most this part of the stability limit, or 7.
fn counted(cell: &Cell, part: f64, dt: f64) -> Result<u64, u64> {
    count_sub_steps(dt, cell.longest_sub_step(part, T))
}

/// 6 D t / h^2 of the cathode, whose sub-steps have the length t.
fn part_of_gap(cell: &Cell, t: f64) -> f64 {
    let h = cell.cathode.sheet.numbers[0] / (cell.cathode.n - 1) as f64;
    6.0 * cell.cathode.sheet.d_s(T).expect("a sheet in range") * t / (h * h)
}

pub fn print_stability() {
    let cell = lfp(11);
    for dt in [1.0, 60.0] {
        let [before, now] = PARTS.map(|part| {
            let count = counted(&cell, part, dt).expect("an interval in range");
            format!("{count} sub-steps, 6 D t / h^2 at the cathode {:.3}", part_of_gap(&cell, dt / count as f64))
        });
        println!("stability: graphite_lfp, 11 nodes, {dt} s: before {before}; now {now}");
    }
}

/// The longest interval that is not refused with 7, to the last bit.
fn reach(cell: &Cell, part: f64) -> f64 {
    let accepted = |bits: u64| counted(cell, part, f64::from_bits(bits)).is_ok();
    let (mut low, mut high) = (1.0f64.to_bits(), LONGEST.to_bits());
    assert!(accepted(low) && !accepted(high), "the longest interval is from 1 to {LONGEST} s");
    while low + 1 < high {
        let middle = low + (high - low) / 2;
        if accepted(middle) {
            low = middle;
        } else {
            high = middle;
        }
    }
    f64::from_bits(low)
}

pub fn print_counts() {
    for (name, ready) in [("graphite_lfp", lfp as fn(u64) -> Cell), ("graphite_nmc", nmc)] {
        for n in [11, 20, 64] {
            let cell = ready(n);
            let counts: Vec<String> = [0.1, 1.0, 10.0, 60.0, 3600.0]
                .iter()
                .map(|dt| {
                    let [before, now] = PARTS.map(|part| counted(&cell, part, *dt).map_or_else(|number| format!("refused with {number}"), |count| count.to_string()));
                    format!("{dt} s {before} before, {now} now")
                })
                .collect();
            let [before, now] = PARTS.map(|part| reach(&cell, part));
            println!("sub-steps: {name}, {n} nodes, {T} K: {}; the longest interval {before} s before, {now} s now", counts.join("; "));
        }
    }
}

/// graphite_lfp at rest, every node of its cathode at 0.6 of c_s_max but the centre, which is at 0.5.
fn uneven() -> Cell {
    let mut cell = lfp(11);
    let most = cell.cathode.sheet.c_s_max();
    cell.cathode.c_s[..11].fill(0.6 * most);
    cell.cathode.c_s[0] = 0.5 * most;
    cell
}

/// Centre of the cathode before and now and its neighbour now, at the start and after each step of 1.4 s.
fn centres(steps: usize) -> Vec<[f64; 3]> {
    let start = uneven();
    let (mut earlier, mut cell) = (EarlierSubSteps::of(&start), start.clone());
    let mut all = vec![[start.cathode.c_s[0], start.cathode.c_s[0], start.cathode.c_s[1]]];
    for _ in 0..steps {
        earlier.row(0.0, 1.4, T);
        cell = cell.step(0.0, 1.4, T).expect("a step in range").0;
        all.push([earlier.after(&start).cathode.c_s[0], cell.cathode.c_s[0], cell.cathode.c_s[1]]);
    }
    all
}

pub fn print_centre() {
    let cell = uneven();
    let most = cell.cathode.sheet.c_s_max();
    let [before, now] = PARTS.map(|part| {
        let count = counted(&cell, part, 1.4).expect("an interval in range");
        format!("{count} in 1.4 s, 6 D t / h^2 {:.3}", part_of_gap(&cell, 1.4 / count as f64))
    });
    println!("centre: graphite_lfp, 11 nodes, no current, the cathode at 0.6 and its centre at 0.5: before {before}; now {now}");
    for (step, values) in centres(3).iter().enumerate() {
        let [before, now, beside] = values.map(|c| c / most);
        println!("centre: after {:.1} s {before:.4} before, {now:.4} now, beside {beside:.4}", step as f64 * 1.4);
    }
}

/// The centre over six such steps, as CSV.
pub fn print_curve() {
    println!("time [s],before [mol/m³],now [mol/m³],all other nodes [mol/m³]");
    for (step, [before, now, beside]) in centres(6).iter().enumerate() {
        println!("{:.1},{before:.3},{now:.3},{beside:.3}", step as f64 * 1.4);
    }
}

/// An hour's discharge, up to the first row beyond a limit.
fn rows_before(cell: &Cell, current: f64, dt: f64) -> Vec<Row> {
    let (mut earlier, mut rows) = (EarlierSubSteps::of(cell), Vec::<Row>::new());
    while rows.last().map_or(true, |row| row[6] < 3600.0 && row[7] == 0.0) {
        rows.push(earlier.row(current, dt, T));
    }
    rows
}

/// How far the voltages of a discharge moved, and what steps of 0.01 s give where they moved most.
pub fn print_rows() {
    for (name, cell, current) in [("graphite_lfp", lfp(11), 3.0), ("graphite_nmc", nmc(11), 5.0)] {
        for dt in [1.0, 10.0, 60.0] {
            let (before, now) = (rows_before(&cell, current, dt), cell.simulate_discharge(current, dt, T, 3600.0, 3600 * ROW, groups(3600)).rows);
            let moved: Vec<(&Row, &Row)> = before.iter().zip(&now).filter(|(a, b)| a[0].to_bits() != b[0].to_bits()).collect();
            let size = |pair: &(&Row, &Row)| (pair.0[0] - pair.1[0]).abs();
            let most = moved.iter().max_by(|a, b| size(a).total_cmp(&size(b))).map_or(String::new(), |pair| {
                let (a, b) = *pair;
                let fine = cell.simulate_discharge(current, 0.01, T, a[6] - 0.005, 8000 * ROW, groups(8000)).rows;
                let last = fine[fine.len() - 1];
                format!(", at most by {:.1e} V, at {} s: {:.6} V before, {:.6} V now, {:.6} V at {:.2} s by steps of 0.01 s", size(pair), a[6], a[0], b[0], last[0], last[6])
            });
            let end = |rows: &[Row]| format!("{} rows, the last at {} s with {:.4} V", rows.len(), rows[rows.len() - 1][6], rows[rows.len() - 1][0]);
            println!("rows: {name}, 11 nodes, {current} A, {dt} s: {} moved{most}; before {}; now {}", moved.len(), end(&before), end(&now));
        }
    }
}
