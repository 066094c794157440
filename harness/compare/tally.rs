//! What was compared: by call, accepted and refused, and by refusal number; endings, counts of nodes, orders.
use crate::call::{listed, Answer, Call, Function};
use crate::cycles::Cycles;
use crate::earlier::Earlier;
use crate::images::words_of;
use crate::lowest::Lowest;
use crate::ohmic_drop::OhmicDrop;
use crate::references::References;
use crate::sub_steps::SubSteps;
use crate::weights::Weights;
use calls::replay::MOST_LINES;
use calls::runs::Ending;
use std::collections::{BTreeMap, BTreeSet};

#[derive(Default)]
struct Row {
    accepted: u64,
    by_number: [u64; 13],
}

#[derive(Default)]
pub struct Tally {
    rows: BTreeMap<String, Row>,
    /// calls, words of answers and rows, of these the words that are not 0, bytes that had to stay
    pub calls: u64,
    pub words: u64,
    pub nonzero: u64,
    pub kept_bytes: u64,
    run_rows: u64,
    /// rows of the longest replay
    longest_replay: u64,
    sub_steps: u64,
    endings: BTreeMap<(String, &'static str), u64>,
    particle_nodes: BTreeSet<u64>,
    cell_nodes: BTreeSet<u64>,
    orders: BTreeSet<u64>,
    unexpected: BTreeSet<String>,
    earlier: Earlier,
    references: References,
    weights: Weights,
    ohmic_drop: OhmicDrop,
    by_sub_steps: SubSteps,
    cycles: Cycles,
    lowest: Lowest,
}

const ENDINGS: [(Function, &str); 15] = [
    (Function::Discharge, "voltage"),
    (Function::Discharge, "time"),
    (Function::Discharge, "time, no row"),
    (Function::Discharge, "full"),
    (Function::Galvanostatic, "voltage"),
    (Function::Galvanostatic, "time"),
    (Function::Galvanostatic, "full"),
    (Function::Galvanostatic, "refused after a row"),
    (Function::Replay, "voltage"),
    (Function::Replay, "done"),
    (Function::Replay, "done, no row"),
    (Function::Replay, "full"),
    (Function::Replay, "refused after a row"),
    (Function::Cycle, "done"),
    (Function::Cycle, "spent"),
];

impl Tally {
    pub fn add(&mut self, call: &Call, oracle: &Answer, kept_bytes: u64) {
        let name = call.function.name();
        let row = self.rows.entry(name.clone()).or_default();
        if oracle.number == 0 {
            row.accepted += 1;
        } else {
            row.by_number[oracle.number as usize] += 1;
            if !call.function.refusals().contains(&oracle.number) {
                self.unexpected.insert(format!("{name} was refused with {}, which its row of the table does not have", oracle.number));
            }
        }
        self.earlier.add(call, oracle);
        self.references.add(call, oracle);
        self.weights.add(call, oracle);
        self.ohmic_drop.add(call, oracle);
        self.by_sub_steps.add(call, oracle);
        self.cycles.add(call, oracle);
        self.lowest.add(call, oracle);
        self.calls += 1;
        self.kept_bytes += kept_bytes;
        let words = oracle.image.as_deref().map(words_of).unwrap_or_default();
        self.words += (1 + words.len() + oracle.rows.len() + oracle.lowest.len()) as u64;
        self.nonzero += words.iter().chain(&oracle.rows).chain(&oracle.lowest).filter(|word| **word != 0).count() as u64;
        self.run_rows += oracle.rows.len() as u64 / 8;
        if call.function == Function::Replay {
            self.longest_replay = self.longest_replay.max(oracle.rows.len() as u64 / 8);
        }
        if let Some(ending) = oracle.ending {
            let said = match (ending, oracle.rows.is_empty()) {
                (Ending::Voltage, _) => "voltage",
                (Ending::Time, false) => "time",
                (Ending::Time, true) => "time, no row",
                (Ending::Full, _) => "full",
                (Ending::Done, false) => "done",
                (Ending::Done, true) => "done, no row",
                (Ending::Spent, _) => "spent",
                (Ending::Refused, false) => "refused after a row",
                (Ending::Refused, true) => "refused",
            };
            *self.endings.entry((name, said)).or_default() += 1;
        }
        if oracle.number == 0 {
            match call.function {
                Function::ParticleStep => self.particle_nodes.insert(words[11]),
                Function::CellStep => {
                    self.sub_steps += words[words.len() - 1];
                    self.cell_nodes.insert(words[0])
                }
                Function::Solve => self.orders.insert(call.system.n),
                _ => false,
            };
        }
    }

    /// Takes over what another worker compared.
    pub fn join(&mut self, other: Tally) {
        for (name, row) in other.rows {
            let own = self.rows.entry(name).or_default();
            own.accepted += row.accepted;
            for (number, count) in own.by_number.iter_mut().zip(row.by_number) {
                *number += count;
            }
        }
        for (ending, count) in other.endings {
            *self.endings.entry(ending).or_default() += count;
        }
        self.calls += other.calls;
        self.words += other.words;
        self.nonzero += other.nonzero;
        self.kept_bytes += other.kept_bytes;
        self.run_rows += other.run_rows;
        self.longest_replay = self.longest_replay.max(other.longest_replay);
        self.sub_steps += other.sub_steps;
        self.particle_nodes.extend(other.particle_nodes);
        self.cell_nodes.extend(other.cell_nodes);
        self.orders.extend(other.orders);
        self.unexpected.extend(other.unexpected);
        self.earlier.join(other.earlier);
        self.references.join(other.references);
        self.weights.join(other.weights);
        self.ohmic_drop.join(other.ohmic_drop);
        self.by_sub_steps.join(other.by_sub_steps);
        self.cycles.join(other.cycles);
        self.lowest.join(other.lowest);
    }

    /// The table, and what is missing for a comparison that has seen everything.
    pub fn print(&self) -> Vec<String> {
        println!("{:<24}{:>9}{:>9} |{}", "call", "accepted", "refused", (1..=12).map(|n| format!("{n:>7}")).collect::<String>());
        let unlisted = [Function::Number(0), Function::Build(0)];
        let mut missing: Vec<String> = self.unexpected.iter().cloned().collect();
        for function in listed().into_iter().chain(unlisted) {
            let (name, none) = (function.name(), Row::default());
            let row = self.rows.get(&name).unwrap_or(&none);
            let refused: u64 = row.by_number.iter().sum();
            let number = |n: u64| match row.by_number[n as usize] {
                0 if !function.refusals().contains(&n) => format!("{:>7}", "-"),
                count => format!("{count:>7}"),
            };
            println!("{name:<24}{:>9}{refused:>9} |{}", row.accepted, (1..=12).map(number).collect::<String>());
            if row.accepted == 0 && function.is_listed() {
                missing.push(format!("{name} was never accepted"));
            }
            for n in function.refusals().iter().filter(|n| row.by_number[**n as usize] == 0) {
                missing.push(format!("{name} was never refused with {n}"));
            }
        }
        println!();
        for (function, said) in ENDINGS {
            let count = self.endings.get(&(function.name(), said)).copied().unwrap_or(0);
            println!("{}, ended by {said}: {count}", function.name());
            if count == 0 {
                missing.push(format!("{} never ended by {said}", function.name()));
            }
        }
        let sets = [
            ("counts of nodes in a particle's accepted steps", &self.particle_nodes, 62),
            ("counts of nodes in a cell's accepted steps", &self.cell_nodes, 62),
            ("orders of accepted systems", &self.orders, 33),
        ];
        for (what, seen, all) in sets {
            println!("{what}: {} of {all}", seen.len());
            if seen.len() != all {
                missing.push(format!("{what}: not all were seen"));
            }
        }
        missing.extend(self.weights.print());
        println!();
        missing.extend(self.earlier.print());
        println!();
        missing.extend(self.references.print());
        println!();
        missing.extend(self.ohmic_drop.print());
        println!();
        missing.extend(self.by_sub_steps.print());
        println!();
        missing.extend(self.cycles.print());
        println!();
        missing.extend(self.lowest.print());
        println!();
        println!("rows of the longest replay: {} of {MOST_LINES}", self.longest_replay);
        if self.longest_replay != MOST_LINES as u64 {
            missing.push("no replay of the longest text".to_string());
        }
        println!("rows of runs: {}; sub-steps of a cell's steps: {}", self.run_rows, self.sub_steps);
        println!(
            "calls: {}; words of answers, rows and summaries compared: {} ({} of them not 0); bytes that had to stay: {}",
            self.calls, self.words, self.nonzero, self.kept_bytes
        );
        missing
    }
}
