//! Inner places of a particle, at each count of nodes, that entered an accepted average with a concentration above 0, and so with
//! their weight.
use crate::call::{Answer, Call, Function};
use crate::images::words_of;
use std::collections::BTreeMap;

/// theta_avg and c_avg
const AVERAGES: [Function; 2] = [Function::Number(8), Function::Number(9)];
// words of a particle's image: its count of nodes, then its profile
const AT_N_NODES: usize = 11;
const AT_C_S: usize = 12;
/// n - 2 at each count n from 3 to 64
const INNER_PLACES: u32 = 1953;

/// By call and count of nodes, a bit for each place.
#[derive(Default)]
pub struct Weights(BTreeMap<(Function, u64), u64>);

impl Weights {
    pub fn add(&mut self, call: &Call, oracle: &Answer) {
        if !AVERAGES.contains(&call.function) || oracle.image.is_none() {
            return;
        }
        let words = words_of(&call.image);
        let n = words[AT_N_NODES];
        let seen = self.0.entry((call.function, n)).or_default();
        for place in 1..n - 1 {
            *seen |= u64::from(f64::from_bits(words[AT_C_S + place as usize]) > 0.0) << place;
        }
    }

    pub fn join(&mut self, other: Self) {
        for (key, seen) in other.0 {
            *self.0.entry(key).or_default() |= seen;
        }
    }

    /// The counts, and what a comparison that has seen everything would have.
    pub fn print(&self) -> Vec<String> {
        let mut missing = Vec::new();
        for function in AVERAGES {
            let seen: u32 = self.0.iter().filter(|((of, _), _)| *of == function).map(|(_, seen)| seen.count_ones()).sum();
            println!("inner places weighed in an accepted {}: {seen} of {INNER_PLACES}", function.name());
            if seen != INNER_PLACES {
                missing.push(format!("{}: not every inner place was weighed at every count of nodes", function.name()));
            }
        }
        missing
    }
}
