//! A list of phases on the single-particle cell, gone through several times, with one interval and one temperature. The Rust has no such
//! call; its step makes each row.
use crate::runs::{refused, Ending, Run, ROW};
use crate::solver::Cell;
use crate::table::{interval, range, Met, MOST_CURRENT, TEMPERATURE};

/// Phases that a list can have.
pub const PLACES: usize = 8;
pub const MOST_REPEATS: u64 = 1_000;
/// Steps that a cycle can be given.
pub const MOST_BUDGET: u64 = 100_000;
pub const MOST_REST: f64 = 1e9;

/// A charge and a discharge have a current, above 0; a rest has a time.
#[derive(Clone, Copy, Debug, PartialEq)]
pub enum Phase {
    Charge(f64),
    Rest(f64),
    Discharge(f64),
}

impl Phase {
    fn current_fits(self) -> bool {
        match self {
            Phase::Charge(current_a) | Phase::Discharge(current_a) => current_a > 0.0 && current_a <= MOST_CURRENT,
            Phase::Rest(_) => true,
        }
    }

    fn time_fits(self) -> bool {
        match self {
            Phase::Rest(time_s) => range(0.0, MOST_REST).holds(time_s),
            Phase::Charge(_) | Phase::Discharge(_) => true,
        }
    }

    /// What its steps apply.
    fn current(self) -> f64 {
        match self {
            Phase::Charge(current_a) => -current_a,
            Phase::Rest(_) => 0.0,
            Phase::Discharge(current_a) => current_a,
        }
    }

    /// Whether it is over, by the cutoff of the row just made and by its own clock.
    fn over(self, cutoff: bool, clock: f64) -> bool {
        match self {
            Phase::Charge(_) | Phase::Discharge(_) => cutoff,
            Phase::Rest(time_s) => !(clock < time_s),
        }
    }
}

/// The first `count` of the phases, `repeats` times, in at most `budget` steps.
#[derive(Clone, Copy, Debug)]
pub struct Schedule {
    pub phases: [Phase; 8],
    pub count: u64,
    pub repeats: u64,
    pub budget: u64,
    pub dt: f64,
    pub temp_k: f64,
}

impl Schedule {
    /// The phases that are looked at: of a count that is too large, all.
    fn first_phases(&self) -> &[Phase] {
        &self.phases[..self.count.min(PLACES as u64) as usize]
    }

    fn counts_fit(&self) -> bool {
        (1..=PLACES as u64).contains(&self.count) && (1..=MOST_REPEATS).contains(&self.repeats) && (1..=MOST_BUDGET).contains(&self.budget)
    }

    fn meet(&self, places: usize, met: &mut Met) {
        let phases = self.first_phases();
        met.when(1, !self.counts_fit());
        met.when(10, ((places / ROW) as u64) < self.budget);
        met.when(3, !phases.iter().all(|phase| phase.current_fits()));
        met.when(4, !interval(self.dt) || !phases.iter().all(|phase| phase.time_fits()));
        met.when(5, !TEMPERATURE.holds(self.temp_k));
    }

    /// Every phase that is to be made, one after the other.
    fn written_out(&self) -> Vec<Phase> {
        self.first_phases().repeat(self.repeats as usize)
    }
}

impl Cell {
    /// A row for each step, until the last phase is over, the budget is spent or a step is refused.
    pub fn cycle(&self, schedule: &Schedule, places: usize) -> Run<Self> {
        let mut met = self.met();
        schedule.meet(places, &mut met);
        if let Err(number) = met.refuse() {
            return refused(self, number);
        }
        let phases = schedule.written_out();
        let (mut cell, mut rows) = (self.clone(), Vec::new());
        // the place of the phase under way, and its clock
        let (mut at, mut clock) = (0, 0.0);
        let (ending, refusal) = loop {
            let phase = phases[at];
            let (next, report) = match cell.step(phase.current(), schedule.dt, schedule.temp_k) {
                Ok(made) => made,
                Err(number) => break (Ending::Refused, number),
            };
            cell = next;
            rows.push(report.row());
            clock += schedule.dt;
            if phase.over(report.state.cutoff, clock) {
                (at, clock) = (at + 1, 0.0);
            }
            if at == phases.len() {
                break (Ending::Done, 0);
            }
            if rows.len() as u64 >= schedule.budget {
                break (Ending::Spent, 0);
            }
        };
        Run { ending, refusal, rows, cell }
    }
}
