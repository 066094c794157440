//! What is timed of the port: images in, images out, as firmware calls it.
use crate::{clock, Answer, Average, Cycle, Load, Ready, Rows, System};
use std::hint::black_box;
use std::time::Duration;

// lengths of harness/c/persimmonjib.h, in bytes
const CELL: usize = 1272;
const PARTICLE: usize = 608;
const AT_CELL_ANODE: usize = 48;
const REPORT: usize = 72;
const DFN_CELL: usize = 9008;
const DFN_REPORT: usize = 64;
const ENDING: usize = 16;
const FOUND: usize = 16;
/// rows of a group
const GROUP: usize = 64;

fn image(words: &[u64]) -> Vec<u8> {
    words.iter().flat_map(|word| word.to_le_bytes()).collect()
}

pub fn word(image: &[u8], at: usize) -> u64 {
    u64::from_le_bytes(image[8 * at..8 * at + 8].try_into().expect("eight bytes"))
}

fn accepted(number: u64) {
    assert_eq!(number, 0, "the port refused");
}

fn spm_of(ready: Ready, n_nodes: usize) -> Vec<u8> {
    let [v_min, v_max] = ready.limits();
    let numbers = [v_min, v_max, 96_485.0, 8.314, 2e-4].map(f64::to_bits);
    let call = match ready {
        Ready::Lfp => 8,
        Ready::Nmc => 9,
    };
    let mut cell = vec![0; CELL];
    accepted(port::build(call, &image(&[&[n_nodes as u64], &numbers[..]].concat()), &mut cell));
    cell
}

fn spm(n_nodes: usize) -> Vec<u8> {
    spm_of(Ready::Lfp, n_nodes)
}

fn dfn(counts: [usize; 3]) -> Vec<u8> {
    let (mut given, mut cell) = (vec![0; 472], vec![0; DFN_CELL]);
    accepted(port::build(5, &[], &mut given));
    given.extend(image(&counts.map(|n| n as u64)));
    given.extend(image(&[(-10.0f64).to_bits(), 10f64.to_bits()]));
    accepted(port::build(12, &given, &mut cell));
    cell
}

/// Steps one after the other, the answer of each being the image of the next. Two buffers take turns, so nothing is copied.
fn steps(start: Vec<u8>, answer: usize, times: usize, mut step: impl FnMut(usize, &[u8], &mut [u8]) -> u64) -> (Duration, Vec<u8>) {
    let cell = start.len();
    let mut now = start;
    now.resize(answer, 0);
    let mut next = vec![0; answer];
    let started = clock::now();
    for turn in 0..times {
        accepted(step(turn, black_box(&now[..cell]), black_box(&mut next)));
        std::mem::swap(&mut now, &mut next);
    }
    (clock::now() - started, now)
}

/// Steps of the cell, and the count of sub-steps of the last.
pub fn cell_steps(n_nodes: usize, load: Load, times: usize) -> (Duration, Answer, u64) {
    let (taken, last) = steps(spm(n_nodes), CELL + REPORT, times, |turn, cell, answer| {
        port::cell_step(cell, [load.current(turn), load.dt, load.temp_k], answer)
    });
    // voltage, clock, the cathode's first place
    (taken, vec![word(&last, CELL / 8), word(&last, CELL / 8 - 1), word(&last, 94)], word(&last, CELL / 8 + 8))
}

/// An average of the anode after one step.
pub fn averages(average: Average, n_nodes: usize, load: Load, times: usize) -> (Duration, Answer) {
    let mut stepped = vec![0; CELL + REPORT];
    accepted(port::cell_step(&spm(n_nodes), [load.current_a, load.dt, load.temp_k], &mut stepped));
    let anode = &stepped[AT_CELL_ANODE..AT_CELL_ANODE + PARTICLE];
    let mut answer = [0; 8];
    let started = clock::now();
    for _ in 0..times {
        accepted(port::number(average as u64, black_box(anode), [0.0, 0.0], black_box(&mut answer)));
    }
    (clock::now() - started, vec![word(&answer, 0)])
}

pub fn dfn_steps(counts: [usize; 3], load: Load, times: usize) -> (Duration, Answer) {
    let (taken, last) = steps(dfn(counts), DFN_CELL + DFN_REPORT, times, |turn, cell, answer| {
        port::dfn_step(cell, [load.current(turn), load.dt], answer)
    });
    (taken, vec![word(&last, DFN_CELL / 8), word(&last, DFN_CELL / 8 - 5), word(&last, 64 + 512)])
}

/// How many rows a run of the cell made, and of its last one voltage and the cathode's average.
fn last_row(answer: &[u8], rows: &[f64]) -> Answer {
    let written = word(answer, CELL / 8 + 1);
    let last = &rows[8 * (written as usize - 1)..];
    vec![written, last[0].to_bits(), last[5].to_bits()]
}

/// A run with its summary: how long it took, rows and summary, the answer.
fn run_of(ready: Ready, n_nodes: usize, load: Load, rows: usize) -> (Duration, Rows, Vec<u8>) {
    let (cell, mut answer) = (spm_of(ready, n_nodes), vec![0; CELL + ENDING]);
    let mut made = Rows { rows: vec![-1.0; 8 * rows], lowest: vec![-1.0; rows.div_ceil(GROUP)] };
    let numbers = [load.current_a, load.dt, load.temp_k, load.dt * rows as f64];
    let started = clock::now();
    accepted(port::simulate_discharge(black_box(&cell), numbers, black_box(&mut made.rows), black_box(&mut made.lowest), &mut answer));
    (clock::now() - started, made, answer)
}

pub fn cell_run(ready: Ready, n_nodes: usize, load: Load, rows: usize) -> (Duration, Answer) {
    let (taken, made, answer) = run_of(ready, n_nodes, load, rows);
    (taken, last_row(&answer, &made.rows))
}

/// The rows of a run that fills its slice, with their summary.
pub fn rows_of(ready: Ready, n_nodes: usize, load: Load, rows: usize) -> Rows {
    let (_, made, answer) = run_of(ready, n_nodes, load, rows);
    assert_eq!(word(&answer, CELL / 8 + 1), rows as u64, "a run of another length");
    made
}

/// The first row under a voltage, by the summary: 1 and the row, or 2 and 0.
pub fn searches(made: &Rows, voltage: f64, times: usize) -> (Duration, Answer) {
    let (mut answer, count) = ([0; FOUND], made.rows.len() / 8);
    let started = clock::now();
    for _ in 0..times {
        accepted(port::first_below(1, black_box(&made.rows), black_box(&made.lowest), count, black_box(voltage), black_box(&mut answer)));
    }
    (clock::now() - started, vec![word(&answer, 0), word(&answer, 1)])
}

pub fn cell_cycle(ready: Ready, n_nodes: usize, cycle: Cycle) -> (Duration, Answer) {
    let (cell, mut lent, mut answer) = (spm_of(ready, n_nodes), vec![-1.0; 8 * cycle.budget], vec![0; CELL + ENDING]);
    let mut phases = image(&cycle.phases.map(|(kind, number)| [kind, number.to_bits()]).concat());
    phases.resize(128, 0);
    let counts = [cycle.phases.len(), cycle.repeats, cycle.budget];
    let started = clock::now();
    accepted(port::cycle(black_box(&cell), &phases, counts, [cycle.dt, cycle.temp_k], black_box(&mut lent), &mut answer));
    (clock::now() - started, last_row(&answer, &lent))
}

pub fn replays(n_nodes: usize, text: &[u8], temp_k: f64, times: usize) -> (Duration, Answer) {
    let (cell, mut lent, mut answer) = (spm(n_nodes), vec![-1.0; 8 * (text.len() / 34)], vec![0; CELL + ENDING]);
    let started = clock::now();
    for _ in 0..times {
        accepted(port::replay(black_box(&cell), black_box(text), temp_k, black_box(&mut lent), black_box(&mut answer)));
    }
    (clock::now() - started, last_row(&answer, &lent))
}

pub fn dfn_run(counts: [usize; 3], load: Load, rows: usize) -> (Duration, Answer) {
    let (cell, mut lent, mut answer) = (dfn(counts), vec![-1.0; 8 * rows], vec![0; DFN_CELL + ENDING]);
    let (mut lowest, numbers) = (vec![-1.0; rows.div_ceil(GROUP)], [load.current_a, load.dt, load.dt * rows as f64]);
    let started = clock::now();
    accepted(port::run_galvanostatic(black_box(&cell), numbers, black_box(&mut lent), black_box(&mut lowest), &mut answer));
    let taken = clock::now() - started;
    let written = word(&answer, DFN_CELL / 8 + 1);
    let last = &lent[8 * (written as usize - 1)..];
    (taken, vec![written, last[0].to_bits(), last[4].to_bits()])
}

pub fn solves(system: &System, times: usize) -> (Duration, Answer) {
    let mut answer = [0; 256];
    let started = clock::now();
    for _ in 0..times {
        accepted(port::solve_dense(black_box(&system.a), black_box(&system.b), black_box(system.n), black_box(&mut answer)));
    }
    (clock::now() - started, (0..system.n).map(|i| word(&answer, i)).collect())
}
