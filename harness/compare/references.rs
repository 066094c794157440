//! Calls on records whose reference temperatures are not all 298.15: what has to be among those compared.
use crate::call::{ask_oracle, listed, Answer, Argument, Call, Function};
use crate::images::{bytes_from, words_of};
use calls::electrode::RANGES;
use std::collections::BTreeMap;

const READY: u64 = 298.15f64.to_bits();

/// What a call may be among.
#[derive(Clone, Copy, PartialEq, Eq, PartialOrd, Ord)]
enum What {
    /// accepted, of a cell whose electrodes differ in it
    Unlike,
    /// accepted at the temperature that it is
    Equal,
    Refused6,
    Refused7,
    /// refused with 2, and not with 298.15 in its place
    OutOfRange,
}

const WHATS: [(What, &str); 5] = [
    (What::Unlike, "unlike"),
    (What::Equal, "= temp_k"),
    (What::Refused6, "6"),
    (What::Refused7, "7"),
    (What::OutOfRange, "2 by it"),
];

fn is_cell(function: Function) -> bool {
    matches!(function, Function::CellStep | Function::Discharge | Function::Replay | Function::Cycle)
}

fn temperature_at(function: Function) -> Option<usize> {
    function.arguments().iter().position(|argument| matches!(argument, Argument::Temperature))
}

/// Whether a call can be among these.
fn can(function: Function, what: What) -> bool {
    match what {
        What::Unlike | What::Refused6 | What::Refused7 => is_cell(function),
        What::Equal => temperature_at(function).is_some(),
        What::OutOfRange => true,
    }
}

#[derive(Default)]
pub struct References(BTreeMap<(Function, What), u64>);

impl References {
    pub fn add(&mut self, call: &Call, oracle: &Answer) {
        let (function, words) = (call.function, words_of(&call.image));
        let places = &function.record().fields().references;
        if call.image.len() != function.record().bytes() || places.iter().all(|at| words[*at] == READY) {
            return;
        }
        let accepted = oracle.image.is_some();
        let temp_k = temperature_at(function).map(|at| call.numbers[at]);
        let out = |at: &&usize| !RANGES[9].holds(f64::from_bits(words[**at]));
        let mut met = Vec::new();
        if accepted && is_cell(function) && words[places[0]] != words[places[1]] {
            met.push(What::Unlike);
        }
        if accepted && places.iter().any(|at| words[*at] != READY && Some(words[*at]) == temp_k) {
            met.push(What::Equal);
        }
        match oracle.number {
            6 => met.push(What::Refused6),
            7 => met.push(What::Refused7),
            2 if places.iter().any(|at| out(&at)) => {
                let mut ready = words.clone();
                places.iter().filter(out).for_each(|at| ready[*at] = READY);
                if ask_oracle(&Call { image: bytes_from(&ready), ..call.clone() }).number != 2 {
                    met.push(What::OutOfRange);
                }
            }
            _ => {}
        }
        for what in met {
            *self.0.entry((function, what)).or_default() += 1;
        }
    }

    pub fn join(&mut self, other: Self) {
        for (key, count) in other.0 {
            *self.0.entry(key).or_default() += count;
        }
    }

    /// The table, and what a comparison that has seen everything would have.
    pub fn print(&self) -> Vec<String> {
        let mut missing = Vec::new();
        println!("{:<24}{}", "t_ref not 298.15", WHATS.map(|(_, name)| format!("{name:>12}")).concat());
        for function in listed().into_iter().filter(|function| !function.record().fields().references.is_empty()) {
            let mut line = format!("{:<24}", function.name());
            for (what, name) in WHATS {
                let count = self.0.get(&(function, what)).copied().unwrap_or(0);
                line += &if can(function, what) { format!("{count:>12}") } else { format!("{:>12}", "-") };
                if count == 0 && can(function, what) {
                    missing.push(format!("{}: no reference temperature other than 298.15 under '{name}'", function.name()));
                }
            }
            println!("{line}");
        }
        missing
    }
}
