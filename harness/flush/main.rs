//! Counts how many of the comparison's drawn calls give other bits where the caller has left the processor flushing denormal numbers
//! to zero, which persimmonjib.h forbids.
//!
//!     flush CASES
#[allow(dead_code)]
#[path = "../compare/call.rs"]
mod call;
#[allow(dead_code)]
#[path = "../compare/cases.rs"]
mod cases;
#[allow(dead_code)]
#[path = "../vectors/draw.rs"]
mod draw;
#[allow(dead_code)]
#[path = "../compare/images.rs"]
mod images;
#[allow(dead_code)]
#[path = "../compare/records.rs"]
mod records;
#[allow(dead_code)]
#[path = "../compare/schedules.rs"]
mod schedules;
#[allow(dead_code)]
#[path = "../compare/searches.rs"]
mod searches;
#[allow(dead_code)]
#[path = "../compare/texts.rs"]
mod texts;

use call::{ask_oracle, ask_port, Asked, Call};
use std::arch::asm;

const SEED: u64 = 20_040_613;
/// Results that are denormal become 0; operands that are denormal are taken for 0.
const FLUSH_TO_ZERO: u32 = 1 << 15;
const DENORMALS_ARE_ZERO: u32 = 1 << 6;

/// What the port answers with some bits of MXCSR set.
fn ask_with(bits: u32, call: &Call) -> Asked {
    let mut before: u32 = 0;
    unsafe { asm!("stmxcsr [{}]", in(reg) &mut before, options(nostack)) };
    let during = before | bits;
    unsafe { asm!("ldmxcsr [{}]", in(reg) &during, options(nostack)) };
    let asked = ask_port(call);
    unsafe { asm!("ldmxcsr [{}]", in(reg) &before, options(nostack)) };
    asked
}

fn main() {
    let count: u64 = std::env::args().nth(1).and_then(|n| n.parse().ok()).expect("flush CASES");
    let modes = [("flush to zero", FLUSH_TO_ZERO), ("denormals are zero", DENORMALS_ARE_ZERO), ("both", FLUSH_TO_ZERO | DENORMALS_ARE_ZERO)];
    let (mut calls, mut accepted, mut other, mut refused, mut lists) = (0u64, 0u64, [0u64; 3], [0u64; 3], [0u64; 3]);
    for number in 0..count {
        let case = cases::case(SEED, number);
        let (mut held, before) = (cases::Held::of(&case), other);
        for turn in &case.turns {
            let call = turn.on(&held);
            let (oracle, port) = (ask_oracle(&call), ask_with(0, &call));
            assert!(port.differences(&oracle).is_empty(), "case {number} differs without either");
            calls += 1;
            accepted += u64::from(oracle.number == 0);
            for (k, (_, bits)) in modes.iter().enumerate() {
                let asked = ask_with(*bits, &call);
                other[k] += u64::from(!asked.differences(&oracle).is_empty());
                refused[k] += u64::from(asked.number != oracle.number);
            }
            held.take(&call, &oracle, &port);
        }
        for k in 0..3 {
            lists[k] += u64::from(other[k] > before[k]);
        }
    }
    println!("flush: seed {SEED}, {count} cases, {calls} calls, {accepted} of them accepted");
    for (k, (name, _)) in modes.iter().enumerate() {
        let (of_calls, of_lists) = (100.0 * other[k] as f64 / calls as f64, 100.0 * lists[k] as f64 / count as f64);
        println!("flush: {name}: {} calls give other bits, {of_calls:.2} in 100, in {of_lists:.2} of 100 cases; {} return another number", other[k], refused[k]);
    }
}
