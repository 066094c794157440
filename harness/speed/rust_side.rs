// What is timed of the Rust; included once for the oracle and once for the published Rust, with `model` as its name.
use crate::{clock, Answer, Average, Cycle, Load, Ready, System, CHARGE, REST};
use model::dfn::{access, DfnConfig, DfnParams, DfnSolver};
use model::solver::{SpmConfig, SpmSolver};
use std::hint::black_box;
use std::time::Duration;

fn spm_of(ready: Ready, n_nodes: usize) -> SpmSolver {
    let [v_min, v_max] = ready.limits();
    let config = SpmConfig { n_nodes, v_min, v_max, ..SpmConfig::default() };
    match ready {
        Ready::Lfp => SpmSolver::graphite_lfp(config),
        Ready::Nmc => SpmSolver::graphite_nmc(config),
    }
}

fn spm(n_nodes: usize) -> SpmSolver {
    spm_of(Ready::Lfp, n_nodes)
}

pub fn cell_steps(n_nodes: usize, load: Load, times: usize) -> (Duration, Answer) {
    let mut solver = spm(n_nodes);
    let mut voltage = 0.0;
    let started = clock::now();
    for turn in 0..times {
        voltage = black_box(solver.step(black_box(load.current(turn)), black_box(load.dt), black_box(load.temp_k))).voltage;
    }
    let taken = clock::now() - started;
    (taken, vec![voltage.to_bits(), solver.time_s.to_bits(), solver.cathode.c_s[0].to_bits()])
}

pub fn cell_run(ready: Ready, n_nodes: usize, load: Load, rows: usize) -> (Duration, Answer) {
    let mut solver = spm_of(ready, n_nodes);
    let limit = load.dt * rows as f64;
    let started = clock::now();
    let states = black_box(solver.simulate_discharge(black_box(load.current_a), black_box(load.dt), black_box(load.temp_k), limit));
    let taken = clock::now() - started;
    let last = states.last().expect("rows");
    (taken, vec![states.len() as u64, last.voltage.to_bits(), last.theta_pos_avg.to_bits()])
}

/// Phases one after the other, each until its cutoff or for its time, until the budget is made or the last has ended.
pub fn cell_cycle(ready: Ready, n_nodes: usize, cycle: Cycle) -> (Duration, Answer) {
    let (mut solver, mut states) = (spm_of(ready, n_nodes), Vec::new());
    let Cycle { phases, repeats, budget, dt, temp_k } = black_box(cycle);
    let (mut at, mut resting) = (0, 0.0);
    let started = clock::now();
    while at < phases.len() * repeats && states.len() < budget {
        let (kind, number) = phases[at % phases.len()];
        let current_a = match kind {
            CHARGE => -number,
            REST => 0.0,
            _ => number,
        };
        let state = solver.step(current_a, dt, temp_k);
        resting += dt;
        let over = if kind == REST { !(resting < number) } else { state.cutoff };
        if over {
            (at, resting) = (at + 1, 0.0);
        }
        states.push(black_box(state));
    }
    let taken = clock::now() - started;
    let last = states.last().expect("rows");
    (taken, vec![states.len() as u64, last.voltage.to_bits(), last.theta_pos_avg.to_bits()])
}

/// A recorded load, line by line: both fields from their digits, a step, a row.
pub fn replays(n_nodes: usize, text: &[u8], temp_k: f64, times: usize) -> (Duration, Answer) {
    let mut states = Vec::new();
    let field = |digits: &[u8]| f64::from_bits(u64::from_str_radix(std::str::from_utf8(digits).expect("ASCII"), 16).expect("digits"));
    let started = clock::now();
    for _ in 0..times {
        let mut solver = spm(n_nodes);
        states.clear();
        for line in black_box(text).chunks(34) {
            let (dt, current_a) = (field(&line[..16]), field(&line[17..33]));
            states.push(black_box(solver.step(current_a, dt, black_box(temp_k))));
        }
    }
    let taken = clock::now() - started;
    let last = states.last().expect("rows");
    (taken, vec![states.len() as u64, last.voltage.to_bits(), last.theta_pos_avg.to_bits()])
}

/// An average of the anode after one step.
pub fn averages(average: Average, n_nodes: usize, load: Load, times: usize) -> (Duration, Answer) {
    let mut solver = spm(n_nodes);
    solver.step(load.current_a, load.dt, load.temp_k);
    let mut last = 0.0;
    let started = clock::now();
    for _ in 0..times {
        let anode = black_box(&solver.anode);
        last = black_box(match average {
            Average::Theta => anode.theta_avg(),
            Average::Concentration => anode.c_avg(),
        });
    }
    (clock::now() - started, vec![last.to_bits()])
}

fn dfn([n_x_neg, n_x_pos, n_r]: [usize; 3]) -> DfnSolver {
    DfnSolver::new(DfnParams::nmc_graphite(), DfnConfig { n_x_neg, n_x_pos, n_r, v_min: -10.0, v_max: 10.0, ..DfnConfig::default() })
}

pub fn dfn_steps(counts: [usize; 3], load: Load, times: usize) -> (Duration, Answer) {
    let mut solver = dfn(counts);
    let mut voltage = 0.0;
    let started = clock::now();
    for turn in 0..times {
        voltage = black_box(solver.step(black_box(load.current(turn)), black_box(load.dt))).voltage;
    }
    let taken = clock::now() - started;
    let state = access::state_of(solver);
    (taken, vec![voltage.to_bits(), state.time_s.to_bits(), state.c_s_pos[0][0].to_bits()])
}

pub fn dfn_run(counts: [usize; 3], load: Load, rows: usize) -> (Duration, Answer) {
    let mut solver = dfn(counts);
    let limit = load.dt * rows as f64;
    let started = clock::now();
    let steps = black_box(solver.run_galvanostatic(black_box(load.current_a), black_box(load.dt), limit));
    let taken = clock::now() - started;
    let last = steps.last().expect("rows");
    (taken, vec![steps.len() as u64, last.voltage.to_bits(), last.theta_pos.to_bits()])
}

pub fn solves(system: &System, times: usize) -> (Duration, Answer) {
    let mut last = Vec::new();
    let started = clock::now();
    for _ in 0..times {
        last = black_box(access::solve(black_box(&system.a), black_box(&system.b), black_box(system.n)).expect("a regular matrix"));
    }
    (clock::now() - started, last.iter().map(|x| x.to_bits()).collect())
}
