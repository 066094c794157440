//! Times of oracle, port and published Rust on the same inputs, as three tables in markdown: of what computes; of a
//! particle's averages, by themselves a few operations beside the reading and checking of an image; and of the search for the first
//! row under a voltage beside a read of all rows.
//!
//!     speed [ROUNDS]
//!
//! In every round each side does the same work once, one after the other, in an order that changes from round to round.
//! A number of the table is the median of the rounds; the spread is that of the ratio, from its lower to its upper quartile.
mod clock;
mod oracle_side {
    use oracle as model;
    include!("rust_side.rs");
}
mod port_side;
mod published_side {
    use published as model;
    include!("rust_side.rs");
}

use std::hint::black_box;
use std::time::Duration;

/// the ready sheets' reference temperature, K; there the Arrhenius factor is 1
const REFERENCE: f64 = 298.15;
const ROUNDS: usize = 21;
/// how long one side's part of a round is to take
const ROUND: Duration = Duration::from_millis(30);

/// Bits of what was worked out last, by which oracle and port are held together.
pub type Answer = Vec<u64>;

#[derive(Clone, Copy)]
pub struct Load {
    pub current_a: f64,
    pub dt: f64,
    pub temp_k: f64,
}

impl Load {
    /// In turns out of the cell and into it, so that it stays near where it was.
    pub fn current(&self, turn: usize) -> f64 {
        if turn % 2 == 0 {
            self.current_a
        } else {
            -self.current_a
        }
    }
}

/// A particle's average, with its number in harness/c/persimmonjib.h.
#[derive(Clone, Copy)]
pub enum Average {
    Theta = 8,
    Concentration = 9,
}

/// A ready cell: graphite_lfp with limits that no voltage meets, or graphite_nmc with those that end a charger's phases.
#[derive(Clone, Copy)]
pub enum Ready {
    Lfp,
    Nmc,
}

impl Ready {
    /// v_min and v_max
    pub fn limits(self) -> [f64; 2] {
        match self {
            Ready::Lfp => [-10.0, 10.0],
            Ready::Nmc => [3.0, 4.2],
        }
    }
}

/// Kinds of a phase, by their numbers in harness/c/persimmonjib.h.
pub const CHARGE: u64 = 1;
pub const REST: u64 = 2;
pub const DISCHARGE: u64 = 3;

/// A charger's phases, each a kind and its number, repeated, in so many steps at most.
#[derive(Clone, Copy)]
pub struct Cycle {
    pub phases: [(u64, f64); 4],
    pub repeats: usize,
    pub budget: usize,
    pub dt: f64,
    pub temp_k: f64,
}

/// A run's rows and their summary.
pub struct Rows {
    pub rows: Vec<f64>,
    pub lowest: Vec<f64>,
}

pub struct System {
    pub n: usize,
    pub a: Vec<f64>,
    pub b: Vec<f64>,
}

impl System {
    /// A full matrix with a heavy diagonal, its rows in reverse, so that rows are exchanged.
    fn of_order(n: usize) -> Self {
        let entry = |i: usize, j: usize| ((i * 31 + j * 17) % 23) as f64 / 23.0 - 0.5 + if i + j + 1 == n { n as f64 } else { 0.0 };
        let a = (0..n * n).map(|k| entry(k / n, k % n)).collect();
        Self { n, a, b: (0..n).map(|i| i as f64 - 2.5).collect() }
    }
}

/// One side's work, so many times; how long it took and what came out.
type Work<'a> = Box<dyn Fn(usize) -> (Duration, Answer) + 'a>;

struct Case<'a> {
    name: String,
    /// oracle, port, published
    sides: [Work<'a>; 3],
    /// units in one time
    units: f64,
    /// done once a round, where one time is long enough
    once: bool,
}

fn quartiles(mut values: Vec<f64>) -> [f64; 3] {
    values.sort_by(f64::total_cmp);
    [1, 2, 3].map(|quarter| values[(values.len() - 1) * quarter / 4])
}

/// Each side's ns for one unit, round by round. Beside a side's work stands how often it is done in a round.
fn timed<const N: usize>(name: &str, sides: [(&Work, usize); N], units: f64, rounds: usize) -> [Vec<f64>; N] {
    let mut taken = [(); N].map(|_| Vec::new());
    for round in 0..rounds {
        let mut answers = [(); N].map(|_| Answer::new());
        for turn in 0..N {
            let side = (round + turn) % N;
            let (work, times) = sides[side];
            let (time, answer) = work(times);
            taken[side].push(time.as_nanos() as f64 / times as f64 / units);
            answers[side] = answer;
        }
        assert_eq!(answers[0], answers[1], "{name}: the first two sides differ");
    }
    taken
}

/// How often work is to be done in a round.
fn times_of(work: &Work) -> usize {
    (ROUND.as_secs_f64() / (work(3).0.as_secs_f64() / 3.0)).clamp(1.0, 1e7) as usize
}

fn ratios(taken: &[Vec<f64>], over: usize) -> [f64; 3] {
    quartiles(taken[over].iter().zip(&taken[1]).map(|(a, b)| a / b).collect())
}

fn medians<const N: usize>(taken: &[Vec<f64>; N]) -> [f64; N] {
    std::array::from_fn(|side| quartiles(taken[side].clone())[1])
}

/// A row of the table: medians in ns, the ratio with its spread.
fn row(case: &Case, rounds: usize) -> String {
    let [oracle, port, published] = &case.sides;
    assert_eq!(oracle(3).1, port(3).1, "{}: oracle and port differ", case.name);
    published(3);
    // the same work of all sides, whose cells move with each time
    let times = if case.once { 1 } else { times_of(oracle) };
    let taken = timed(&case.name, [oracle, port, published].map(|work| (work, times)), case.units, rounds);
    let ([low, middle, high], [of_oracle, of_port, of_published]) = (ratios(&taken, 0), medians(&taken));
    let published_ratio = ratios(&taken, 2)[1];
    format!(
        "| {} | {of_oracle:.0} | {of_port:.0} | {middle:.2} | {low:.2} to {high:.2} | {of_published:.0} | {published_ratio:.2} |",
        case.name
    )
}

/// A read of all rows from the first: 1 and the row, or 2 and 0.
fn full_reads(made: &Rows, voltage: f64, times: usize) -> (Duration, Answer) {
    let mut found = None;
    let started = clock::now();
    for _ in 0..times {
        let voltage = black_box(voltage);
        found = black_box(black_box(&made.rows[..]).chunks_exact(8).position(|row| row[0] < voltage));
    }
    (clock::now() - started, found.map_or(vec![2, 0], |row| vec![1, row as u64]))
}

/// A row of the table of searches: a full read and the port's search, each as often as its own time allows.
fn search_row(made: &Rows, voltage: f64, rounds: usize) -> String {
    let name = match full_reads(made, voltage, 1).1[..] {
        [1, row] => format!("under {voltage:.4} V: row {row}"),
        _ => format!("under {voltage:.4} V: none"),
    };
    let read: Work = Box::new(move |times| full_reads(made, voltage, times));
    let search: Work = Box::new(move |times| port_side::searches(made, voltage, times));
    let taken = timed(&name, [&read, &search].map(|work| (work, times_of(work))), 1.0, rounds);
    let ([low, middle, high], [of_read, of_search]) = (ratios(&taken, 0), medians(&taken));
    format!("| {name} | {of_read:.0} | {of_search:.0} | {middle:.1} | {low:.1} to {high:.1} |")
}

/// Voltages that a slow discharge has under it at once, early, half-way, late and not at all.
fn print_searches(rounds: usize) {
    let count = 100_000;
    let made = port_side::rows_of(Ready::Nmc, 11, Load { current_a: 0.02, dt: 1.0, temp_k: REFERENCE }, count);
    println!("| the first of {count} rows, in ns | full read | port's search | full read / search | quartiles of the ratio |");
    println!("|---|---|---|---|---|");
    let at = |row: usize| made.rows[8 * row].next_up();
    for voltage in [at(0), at(1_000), at(count / 2), at(count - 1), 3.0] {
        println!("{}", search_row(&made, voltage, rounds));
    }
    println!();
}

fn cell_steps(name: String, n: usize, load: Load, units: f64) -> Case<'static> {
    Case {
        name,
        sides: [
            Box::new(move |times| oracle_side::cell_steps(n, load, times)),
            Box::new(move |times| {
                let (taken, answer, _) = port_side::cell_steps(n, load, times);
                (taken, answer)
            }),
            Box::new(move |times| published_side::cell_steps(n, load, times)),
        ],
        units,
        once: false,
    }
}

/// A recorded load of so many lines.
fn text_of(load: Load, lines: usize) -> Vec<u8> {
    (0..lines).flat_map(|k| format!("{:016X}\t{:016X}\n", load.dt.to_bits(), load.current(k).to_bits()).into_bytes()).collect()
}

fn replays(text: &[u8]) -> Case<'_> {
    let lines = text.len() / 34;
    Case {
        name: format!("a cell step of 1 s in a replay of {lines} lines, n = 11"),
        sides: [
            Box::new(move |times| oracle_side::replays(11, text, REFERENCE, times)),
            Box::new(move |times| port_side::replays(11, text, REFERENCE, times)),
            Box::new(move |times| published_side::replays(11, text, REFERENCE, times)),
        ],
        units: lines as f64,
        once: false,
    }
}

/// A run of so many rows on a ready cell.
fn cell_run(name: &str, ready: Ready, rows: usize) -> Case<'static> {
    let run = Load { current_a: 0.3, dt: 1.0, temp_k: REFERENCE };
    Case {
        name: format!("a cell step of 1 s in a run of {rows} rows, {name}n = 11"),
        sides: [
            Box::new(move |_| oracle_side::cell_run(ready, 11, run, rows)),
            Box::new(move |_| port_side::cell_run(ready, 11, run, rows)),
            Box::new(move |_| published_side::cell_run(ready, 11, run, rows)),
        ],
        units: rows as f64,
        once: true,
    }
}

/// 5 A out, 600 s of rest, 2.5 A in, 600 s of rest, and again, until the budget is made.
fn cell_cycle(budget: usize) -> Case<'static> {
    let phases = [(DISCHARGE, 5.0), (REST, 600.0), (CHARGE, 2.5), (REST, 600.0)];
    let cycle = Cycle { phases, repeats: 1000, budget, dt: 1.0, temp_k: REFERENCE };
    Case {
        name: format!("a cell step of 1 s in a cycle of {budget} rows, graphite_nmc, n = 11"),
        sides: [
            Box::new(move |_| oracle_side::cell_cycle(Ready::Nmc, 11, cycle)),
            Box::new(move |_| port_side::cell_cycle(Ready::Nmc, 11, cycle)),
            Box::new(move |_| published_side::cell_cycle(Ready::Nmc, 11, cycle)),
        ],
        units: budget as f64,
        once: true,
    }
}

fn cases<'a>(systems: &'a [System; 2], text: &'a [u8]) -> Vec<Case<'a>> {
    let mut all = Vec::new();
    for (n, dt) in [(11, 1000.0), (20, 400.0), (64, 40.0)] {
        let load = Load { current_a: 3.0, dt, temp_k: REFERENCE };
        let (_, _, count) = port_side::cell_steps(n, load, 1);
        all.push(cell_steps(format!("a sub-step, n = {n} ({count} in {dt} s)"), n, load, count as f64));
    }
    for n in [11, 20, 64] {
        for dt in [1.0, 10.0] {
            all.push(cell_steps(format!("a cell step of {dt} s, n = {n}"), n, Load { current_a: 3.0, dt, temp_k: REFERENCE }, 1.0));
        }
    }
    let warm = Load { current_a: 3.0, dt: 1.0, temp_k: 310.0 };
    all.push(cell_steps("a cell step of 1 s, n = 11, at 310 K".into(), 11, warm, 1.0));
    let low = Load { current_a: 1e-3, dt: 1.0, temp_k: REFERENCE };
    all.push(cell_steps("a cell step of 1 s, n = 11, at 1 mA".into(), 11, low, 1.0));
    let rows = 10_000;
    all.push(cell_run("", Ready::Lfp, rows));
    all.push(replays(text));
    all.push(cell_run("graphite_nmc, ", Ready::Nmc, rows));
    all.push(cell_cycle(100_000));
    let load = Load { current_a: 20.0, dt: 1.0, temp_k: REFERENCE };
    for counts in [[5, 5, 6], [16, 16, 32]] {
        let [a, b, c] = counts;
        all.push(Case {
            name: format!("a DFN step of 1 s, {a}/{b}/{c}"),
            sides: [
                Box::new(move |times| oracle_side::dfn_steps(counts, load, times)),
                Box::new(move |times| port_side::dfn_steps(counts, load, times)),
                Box::new(move |times| published_side::dfn_steps(counts, load, times)),
            ],
            units: 1.0,
            once: false,
        });
    }
    let (counts, run) = ([5, 5, 6], Load { current_a: 0.3, dt: 1.0, temp_k: REFERENCE });
    all.push(Case {
        name: format!("a DFN step of 1 s in a run of {rows} rows, 5/5/6"),
        sides: [
            Box::new(move |_| oracle_side::dfn_run(counts, run, rows)),
            Box::new(move |_| port_side::dfn_run(counts, run, rows)),
            Box::new(move |_| published_side::dfn_run(counts, run, rows)),
        ],
        units: rows as f64,
        once: true,
    });
    for system in systems {
        all.push(Case {
            name: format!("solve_dense, order {}", system.n),
            sides: [
                Box::new(move |times| oracle_side::solves(system, times)),
                Box::new(move |times| port_side::solves(system, times)),
                Box::new(move |times| published_side::solves(system, times)),
            ],
            units: 1.0,
            once: false,
        });
    }
    all
}

fn averages() -> Vec<Case<'static>> {
    let load = Load { current_a: 3.0, dt: 10.0, temp_k: REFERENCE };
    let mut all = Vec::new();
    for n in [11, 64] {
        for (name, average) in [("c_avg", Average::Concentration), ("theta_avg", Average::Theta)] {
            all.push(Case {
                name: format!("{name}, n = {n}"),
                sides: [
                    Box::new(move |times| oracle_side::averages(average, n, load, times)),
                    Box::new(move |times| port_side::averages(average, n, load, times)),
                    Box::new(move |times| published_side::averages(average, n, load, times)),
                ],
                units: 1.0,
                once: false,
            });
        }
    }
    all
}

fn print_table(cases: &[Case], rounds: usize) {
    println!("| what, in ns | oracle | port | oracle / port | quartiles of the ratio | published Rust | published / port |");
    println!("|---|---|---|---|---|---|---|");
    for case in cases {
        println!("{}", row(case, rounds));
    }
    println!();
}

fn main() {
    let rounds = match std::env::args().nth(1).map(|given| given.parse::<usize>()) {
        None => ROUNDS,
        Some(Ok(rounds)) if rounds > 0 => rounds,
        _ => {
            eprintln!("speed: a count of rounds above 0");
            std::process::exit(2);
        }
    };
    let systems = [System::of_order(8), System::of_order(32)];
    let text = text_of(Load { current_a: 3.0, dt: 1.0, temp_k: REFERENCE }, 300);
    print_table(&cases(&systems, &text), rounds);
    print_table(&averages(), rounds);
    print_searches(rounds);
    println!("Medians of {rounds} rounds.");
}
