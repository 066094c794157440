//! What a program must write, from the oracle: the same rows, in the shortest decimals, and below 1e-4 with an exponent.
//!
//!     rows PROGRAM DRIVE_CSV
//!
//! PROGRAM is `cycle`, `discharge`, `first_curve` or `replay`, each with the arguments in its file `args`; DRIVE_CSV has the load of `replay` in decimals.
use oracle::solver::{SpmConfig, SpmSolver, SpmState};

const TEMP_K: f64 = 298.15;

fn spelled(x: f64) -> String {
    if x != 0.0 && x.abs() < 1e-4 {
        format!("{x:e}")
    } else {
        format!("{x}")
    }
}

/// The line of a row.
fn line(r: &SpmState) -> String {
    let numbers = [r.time_s, r.voltage, r.current, r.theta_neg, r.theta_pos, r.theta_neg_avg, r.theta_pos_avg].map(spelled);
    format!("{},{}", numbers.join(","), u8::from(r.cutoff))
}

/// The lines of a run, and how it ended.
type Run = (Vec<String>, String);

/// The Rust's own run at 5 A.
fn discharge(mut cell: SpmSolver, dt: f64) -> Run {
    let rows = cell.simulate_discharge(5.0, dt, TEMP_K, 3600.0);
    let ending = if rows.iter().any(|r| r.cutoff) { "voltage" } else { "time" };
    (rows.iter().map(line).collect(), ending.to_string())
}

/// A step for each line of a CSV with the columns interval and current, up to the first cutoff.
fn replay(mut cell: SpmSolver, path: &str) -> Run {
    let text = std::fs::read_to_string(path).unwrap_or_else(|e| panic!("{path}: {e}"));
    let mut lines = Vec::new();
    for load in text.lines().skip(1) {
        let (interval, current) = load.split_once(',').unwrap_or_else(|| panic!("{path}: {load}"));
        let row = cell.step(current.parse().unwrap(), interval.parse().unwrap(), TEMP_K);
        lines.push(line(&row));
        if row.cutoff {
            return (lines, "voltage".to_string());
        }
    }
    (lines, "done".to_string())
}

/// The phases, each by its name and its number, and as often as asked: a charge or discharge up to its first cutoff, a rest until its time has passed. Each line has its
/// repeat and its phase too.
fn cycle(mut cell: SpmSolver, phases: &[(&str, f64)], repeats: usize, dt: f64, budget: usize) -> Run {
    let mut lines = Vec::new();
    for repeat in 1..=repeats {
        for (place, &(kind, number)) in phases.iter().enumerate() {
            let current = match kind {
                "charge" => -number,
                "rest" => 0.0,
                _ => number,
            };
            let (mut clock, mut over) = (0.0, false);
            while !over {
                if lines.len() == budget {
                    return (lines, format!("a spent budget at phase {} of repeat {repeat}", place + 1));
                }
                let row = cell.step(current, dt, TEMP_K);
                clock += dt;
                over = if kind == "rest" { clock >= number } else { row.cutoff };
                lines.push(format!("{},{repeat},{},{kind}", line(&row), place + 1));
            }
        }
    }
    (lines, "done".to_string())
}

fn main() {
    let words: Vec<String> = std::env::args().skip(1).collect();
    let [program, drive] = &words[..] else { panic!("rows PROGRAM DRIVE_CSV") };
    let defaults = SpmConfig::default();
    let v_max = if program == "cycle" { 4.1 } else { defaults.v_max };
    let config = SpmConfig { v_min: 3.0, v_max, ..defaults };
    let limits = format!("temperature={} K v_min={} V v_max={} V", spelled(TEMP_K), spelled(config.v_min), spelled(config.v_max));
    let cell = SpmSolver::graphite_nmc(config);
    let (said, (lines, ending)) = match program.as_str() {
        "cycle" => (
            "nmc discharge=5 A rest=600 s charge=2.5 A rest=600 s repeat=2 dt=60 s budget=10000",
            cycle(cell, &[("discharge", 5.0), ("rest", 600.0), ("charge", 2.5), ("rest", 600.0)], 2, 60.0, 10000),
        ),
        "discharge" => ("cell.txt current=5 A", discharge(cell, 60.0)),
        "first_curve" => ("nmc current=5 A", discharge(cell, 10.0)),
        "replay" => ("nmc load=drive.txt", replay(cell, drive)),
        _ => panic!("no program {program}"),
    };
    let more = if program == "cycle" { ",repeat [1],phase [1],kind" } else { "" };
    println!("time [s],voltage [V],current [A],theta_neg [1],theta_pos [1],theta_neg_avg [1],theta_pos_avg [1],cutoff [1]{more}");
    for line in &lines {
        println!("{line}");
    }
    println!("# {said} {limits}");
    if program != "first_curve" {
        println!("# ended by {ending} after {} rows", lines.len());
    }
}
