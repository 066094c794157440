//! The comparison at scale: oracle and port on the same calls, drawn from a seed, bit for bit.
//!
//!     compare [--seed N] [--minutes M | --cases N] [--case K] [--trace]
//!
//! Without --minutes a fixed count of cases is compared, and two runs print the same. --case compares one case, by the number
//! that a difference was printed with. --trace prints each case's number before it, should a call not come back.
mod call;
mod cases;
mod cycles;
#[allow(dead_code)]
#[path = "../vectors/draw.rs"]
mod draw;
mod earlier;
mod images;
mod lowest;
mod ohmic_drop;
mod records;
mod references;
mod rows;
mod schedules;
mod searches;
mod shrink;
mod sub_steps;
mod tally;
mod texts;
mod weights;

use call::{ask_oracle, ask_port, Call, Function};
use cases::{Case, Held};
use images::words_of;
use shrink::{first_difference, shrunk};
use std::process::exit;
use std::sync::atomic::{AtomicU64, Ordering};
use std::thread;
use std::time::{Duration, Instant};
use tally::Tally;

const GATE_SEED: u64 = 20_040_613;
const GATE_CASES: u64 = 21_000 * cases::PLANS.len() as u64;

struct Options {
    seed: u64,
    cases: u64,
    minutes: Option<f64>,
    case: Option<u64>,
    trace: bool,
}

fn usage() -> ! {
    eprintln!("compare: [--seed N] [--minutes M | --cases N] [--case K] [--trace]");
    exit(2);
}

fn options() -> Options {
    let mut options = Options { seed: GATE_SEED, cases: GATE_CASES, minutes: None, case: None, trace: false };
    let mut given = std::env::args().skip(1);
    while let Some(name) = given.next() {
        if name == "--trace" {
            options.trace = true;
            continue;
        }
        let value = given.next().unwrap_or_else(|| usage());
        let whole = || value.parse().unwrap_or_else(|_| usage());
        match name.as_str() {
            "--seed" => options.seed = whole(),
            "--cases" => options.cases = whole(),
            "--case" => options.case = Some(whole()),
            "--minutes" => match value.parse::<f64>() {
                Ok(minutes) if minutes > 0.0 && minutes < 1e6 => options.minutes = Some(minutes),
                _ => usage(),
            },
            _ => usage(),
        }
    }
    options
}

/// Words eight a line, with what repeats said once.
fn print_words(title: &str, words: &[u64]) {
    println!("  {title}, {} words:", words.len());
    let mut at = 0;
    while at < words.len() {
        let same = words[at..].iter().take_while(|word| **word == words[at]).count();
        if same > 8 {
            println!("    [{at}..{}] {:016X}, {same} times", at + same, words[at]);
            at += same;
        } else {
            let line: Vec<String> = words[at..words.len().min(at + 8)].iter().map(|word| format!("{word:016X}")).collect();
            println!("    [{at}] {}", line.join(" "));
            at += line.len();
        }
    }
}

fn print_bytes(title: &str, bytes: &[u8]) {
    print_words(title, &words_of(bytes));
    let rest = &bytes[bytes.len() / 8 * 8..];
    if !rest.is_empty() {
        println!("    and the bytes {rest:02X?}");
    }
}

fn print_call(call: &Call) {
    let function = call.function;
    let code = if let Function::Number(code) | Function::Build(code) = function { format!(" ({code})") } else { String::new() };
    println!("  call {}{code}, filler {:016X}", function.name(), call.filler);
    print_bytes("image", &call.image);
    if call.image.len() == function.record().bytes() {
        let (fields, words) = (function.record().fields(), words_of(&call.image));
        for at in &fields.plain {
            let value = if fields.is_count(*at) { words[*at].to_string() } else { format!("{:e}", f64::from_bits(words[*at])) };
            println!("    {:>20} {:016X} ({value})", fields.name(*at), words[*at]);
        }
    }
    if !call.numbers.is_empty() {
        print_words("arguments", &call.numbers);
    }
    if function.is_run() {
        println!("  a slice of {} places", call.rows);
    }
    if function.summed().is_some() {
        println!("  a summary of {} places", call.lowest);
    }
    if function == Function::FirstBelow {
        println!("  the first {} rows of run {}", call.search.count, call.search.which);
        print_words("rows", &call.search.rows);
        print_words("summary", &call.search.lowest);
    }
    if function == Function::Replay {
        println!("  a text of {} bytes:", call.text.len());
        for line in call.text.split_inclusive(|byte| *byte == b'\n').take(40) {
            println!("    {}", line.escape_ascii());
        }
    }
    if function == Function::Cycle {
        println!("  phases, repeats and steps: {:?}", call.phases.counts);
        print_bytes("phases", &call.phases.image);
        println!("    {:?}", call.phases.read());
    }
    if function == Function::Solve {
        println!("  order {}", call.system.n);
        print_words("a", &call.system.a);
        print_words("b", &call.system.b);
    }
    let (oracle, port) = (ask_oracle(call), ask_port(call));
    println!("  the oracle answers {}", oracle.number);
    match &oracle.image {
        Some(image) => print_bytes("oracle's answer", image),
        None => println!("  and writes no answer"),
    }
    println!("  the port answers {}", port.number);
    if port.wrote_no_answer() {
        println!("  and writes no answer");
    } else {
        print_bytes("port's answer", port.answer());
    }
    if call.rows > 0 {
        print_words("oracle's rows", &oracle.rows);
        print_words("port's slice", &port.rows());
    }
    if call.lowest > 0 {
        print_words("oracle's summary", &oracle.lowest);
        print_words("port's summary", &port.lowest());
    }
    print_differences(&port.differences(&oracle));
}

fn print_differences(differences: &[String]) {
    println!("  differences: {}", differences.len());
    for line in differences.iter().take(40) {
        println!("    {line}");
    }
}

fn report(seed: u64, number: u64, case: &Case, (at, call, differences): (usize, Call, Vec<String>)) -> ! {
    println!("compare: oracle and port differ: --seed {seed} --case {number}, call {} of {}", at + 1, case.turns.len());
    print_differences(&differences);
    print_call(&call);
    let Some(small) = shrunk(case, at, &call) else {
        println!("compare: asked again, the port answers as the oracle does: its answer does not depend on its input alone");
        exit(1);
    };
    println!("compare: the smallest failing input found, {} call(s):", small.turns.len());
    let mut held = Held::of(&small);
    for turn in &small.turns {
        let call = turn.on(&held);
        print_call(&call);
        held.take(&call, &ask_oracle(&call), &ask_port(&call));
    }
    exit(1);
}

/// A difference: the case's number, the case, and which call of it differs in what.
type Difference = (u64, Case, (usize, Call, Vec<String>));

/// What the workers share: the next case to compare, and the lowest that is known to differ.
struct Queue {
    next: AtomicU64,
    found: AtomicU64,
    last: u64,
    started: Instant,
    end: Option<Instant>,
}

impl Queue {
    /// The next case. They are handed out in order, so every case below the lowest that differs is compared.
    fn take(&self) -> Option<u64> {
        if self.end.is_some_and(|end| Instant::now() >= end) {
            return None;
        }
        let number = self.next.fetch_add(1, Ordering::Relaxed);
        (number < self.last.min(self.found.load(Ordering::Relaxed))).then_some(number)
    }
}

/// Compares cases of the queue until it is empty or one differs; says what was compared, how many cases, and the difference.
/// The worker that speaks tells every five seconds how far it came.
fn work(options: &Options, queue: &Queue, speaks: bool) -> (Tally, u64, Option<Difference>) {
    let (mut tally, mut compared, mut said) = (Tally::default(), 0, queue.started);
    while let Some(number) = queue.take() {
        if options.trace {
            eprintln!("compare: case {number}");
        }
        let case = cases::case(options.seed, number);
        let found = first_difference(&case, |call, oracle, kept| tally.add(call, oracle, kept));
        if let Some(difference) = found {
            queue.found.fetch_min(number, Ordering::Relaxed);
            return (tally, compared, Some((number, case, difference)));
        }
        compared += 1;
        if speaks && said.elapsed() >= Duration::from_secs(5) {
            said = Instant::now();
            eprintln!("compare: {} s, case {number}, no difference", queue.started.elapsed().as_secs());
        }
    }
    (tally, compared, None)
}

fn main() {
    let options = options();
    let started = Instant::now();
    let end = options.minutes.map(|minutes| started + Duration::from_secs_f64(60.0 * minutes));
    let (first, last) = match options.case {
        Some(case) => (case, case.saturating_add(1)),
        None => (0, if end.is_some() { u64::MAX } else { options.cases }),
    };
    let queue = Queue { next: AtomicU64::new(first), found: AtomicU64::new(u64::MAX), last, started, end };
    // one worker where the cases are traced, so that the last number printed is the call that did not come back
    let workers = if options.trace { 1 } else { thread::available_parallelism().map_or(1, |n| n.get()) };
    let (given, shared) = (&options, &queue);
    let worked: Vec<_> = thread::scope(|scope| {
        let workers: Vec<_> = (0..workers).map(|k| scope.spawn(move || work(given, shared, k == 0 && end.is_some()))).collect();
        workers.into_iter().map(|worker| worker.join().expect("a worker ended early")).collect()
    });
    let (mut tally, mut compared, mut lowest) = (Tally::default(), 0, None::<Difference>);
    for (part, count, difference) in worked {
        tally.join(part);
        compared += count;
        if let Some(found) = difference {
            if lowest.as_ref().map_or(true, |low| found.0 < low.0) {
                lowest = Some(found);
            }
        }
    }
    if let Some((number, case, difference)) = lowest {
        report(options.seed, number, &case, difference);
    }
    if options.case.is_some() {
        println!("compare: --seed {} --case {first}: {} calls, no difference", options.seed, tally.calls);
        return;
    }
    println!("compare: seed {}, {compared} cases, no difference between oracle and port", options.seed);
    println!();
    let missing = tally.print();
    if !missing.is_empty() {
        for line in &missing {
            eprintln!("compare: {line}");
        }
        exit(1);
    }
}
