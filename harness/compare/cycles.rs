//! What has to be among the cycles compared.
use crate::call::{ask_oracle, Answer, Call, Function};
use crate::images::{bytes_from, words_of};
use crate::schedules::Phases;
use calls::cycle::{MOST_BUDGET, MOST_REPEATS, PLACES};
use calls::runs::{Ending, ROW};
use std::collections::{BTreeMap, BTreeSet};

/// places of a row
const CURRENT: usize = 1;
const CUTOFF: usize = 7;

const WHATS: [&str; 10] = [
    "rows of charges",
    "rows of rests",
    "rows of discharges",
    "rows of rests after a rest's row with cutoff",
    "done before the budget was made",
    "done on the last step of the budget",
    "done after repeats",
    "done after 1,000 repeats",
    "accepted, with a kind that is none behind the phases",
    "refused with 2 by a kind alone",
];

#[derive(Default)]
pub struct Cycles {
    seen: BTreeMap<&'static str, u64>,
    /// counts of phases, of accepted cycles
    counts: BTreeSet<u64>,
    /// rows of the longest
    longest: u64,
}

/// Rows of charges, of rests and of discharges, which their currents tell, and rows of rests with cutoff before a row of a rest.
fn rows_by_kind(rows: &[u64]) -> [u64; 4] {
    let mut counts = [0; 4];
    let mut resting_with_cutoff = false;
    for row in rows.chunks(ROW) {
        let (current_a, cutoff) = (f64::from_bits(row[CURRENT]), f64::from_bits(row[CUTOFF]) == 1.0);
        let kind = if current_a < 0.0 { 0 } else { 1 + usize::from(current_a > 0.0) };
        counts[kind] += 1;
        counts[3] += u64::from(kind == 1 && resting_with_cutoff);
        resting_with_cutoff = kind == 1 && cutoff;
    }
    counts
}

/// The phases with a rest in place of every kind that is none.
fn with_kinds(phases: &Phases) -> Phases {
    let mut words = words_of(&phases.image);
    for kind in words.iter_mut().step_by(2).filter(|kind| !(1..=3).contains(*kind)) {
        *kind = 2;
    }
    Phases { image: bytes_from(&words), ..phases.clone() }
}

impl Cycles {
    fn count(&mut self, what: usize, times: u64) {
        *self.seen.entry(WHATS[what]).or_default() += times;
    }

    pub fn add(&mut self, call: &Call, oracle: &Answer) {
        if call.function != Function::Cycle {
            return;
        }
        let [count, repeats, budget] = call.phases.counts;
        if oracle.number == 2 && call.phases.read().iter().take(call.phases.meant()).any(Option::is_none) {
            let known = Call { phases: with_kinds(&call.phases), ..call.clone() };
            self.count(9, u64::from(ask_oracle(&known).number != 2));
        }
        if oracle.image.is_none() {
            return;
        }
        for (what, times) in rows_by_kind(&oracle.rows).into_iter().enumerate() {
            self.count(what, times);
        }
        let made = (oracle.rows.len() / ROW) as u64;
        if oracle.ending == Some(Ending::Done) {
            self.count(if made < budget { 4 } else { 5 }, 1);
            self.count(6, u64::from(repeats > 1));
            self.count(7, u64::from(repeats == MOST_REPEATS));
        }
        self.count(8, u64::from(call.phases.read().iter().skip(call.phases.meant()).any(Option::is_none)));
        self.counts.insert(count);
        self.longest = self.longest.max(made);
    }

    pub fn join(&mut self, other: Self) {
        for (what, times) in other.seen {
            *self.seen.entry(what).or_default() += times;
        }
        self.counts.extend(other.counts);
        self.longest = self.longest.max(other.longest);
    }

    /// The counts, and what a comparison that has seen everything would have.
    pub fn print(&self) -> Vec<String> {
        let mut missing = Vec::new();
        for what in WHATS {
            let times = self.seen.get(what).copied().unwrap_or(0);
            println!("cycles, {what}: {times}");
            if times == 0 {
                missing.push(format!("cycles: no {what}"));
            }
        }
        for (what, seen, all) in [
            ("counts of phases in accepted cycles", self.counts.len() as u64, PLACES as u64),
            ("rows of the longest cycle", self.longest, MOST_BUDGET),
        ] {
            println!("{what}: {seen} of {all}");
            if seen != all {
                missing.push(format!("{what}: {seen} of {all}"));
            }
        }
        missing
    }
}
