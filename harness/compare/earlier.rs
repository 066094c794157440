//! Calls of both cell models asked once more with H as it was before change request (ii): what met no argument below 2^-10 in size
//! has to keep its bits.
use crate::call::{ask_oracle, Answer, Call, Function};
use oracle::standins::{with_earlier_asinh, with_small_arguments};
use std::collections::{BTreeMap, BTreeSet};

/// Accepted calls: those that met no such argument, those that met one and have the bits of before, and those that have others.
#[derive(Default, Clone, Copy)]
struct Counts {
    none_met: u64,
    same: u64,
    moved: u64,
}

impl Counts {
    fn add(&mut self, other: Self) {
        self.none_met += other.none_met;
        self.same += other.same;
        self.moved += other.moved;
    }
}

#[derive(Default)]
pub struct Earlier {
    by_function: BTreeMap<Function, Counts>,
    unkept: BTreeSet<String>,
}

const FUNCTIONS: [Function; 6] =
    [Function::CellStep, Function::Discharge, Function::Replay, Function::Cycle, Function::DfnStep, Function::Galvanostatic];

impl Earlier {
    pub fn add(&mut self, call: &Call, oracle: &Answer) {
        if !FUNCTIONS.contains(&call.function) || oracle.image.is_none() {
            return;
        }
        let (before, small_arguments) = with_small_arguments(|| with_earlier_asinh(|| ask_oracle(call)));
        let counts = self.by_function.entry(call.function).or_default();
        match (small_arguments, before == *oracle) {
            (0, true) => counts.none_met += 1,
            (0, false) => {
                self.unkept.insert(format!("{} met no argument of H below 2^-10 and has other bits than before", call.function.name()));
            }
            (_, true) => counts.same += 1,
            (_, false) => counts.moved += 1,
        }
    }

    pub fn join(&mut self, other: Self) {
        for (function, counts) in other.by_function {
            self.by_function.entry(function).or_default().add(counts);
        }
        self.unkept.extend(other.unkept);
    }

    /// The table, and what a comparison that has seen everything would have.
    pub fn print(&self) -> Vec<String> {
        let mut missing: Vec<String> = self.unkept.iter().cloned().collect();
        println!("{:<24}{:>12}{:>12}{:>12}", "H below 2^-10", "none met", "same bits", "other bits");
        let mut all = Counts::default();
        for function in FUNCTIONS {
            let Counts { none_met, same, moved } = self.by_function.get(&function).copied().unwrap_or_default();
            println!("{:<24}{none_met:>12}{same:>12}{moved:>12}", function.name());
            all.add(Counts { none_met, same, moved });
            for (count, what) in [(none_met, "never met none"), (same, "never met one and kept its bits"), (moved, "never met one that moved its bits")] {
                if count == 0 {
                    missing.push(format!("arguments of H below 2^-10: {} {what}", function.name()));
                }
            }
        }
        println!("{:<24}{:>12}{:>12}{:>12}", "all", all.none_met, all.same, all.moved);
        missing
    }
}
