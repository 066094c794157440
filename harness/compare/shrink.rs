//! The smallest failing input that can be found from one that fails.
use crate::call::{ask_oracle, ask_port, Answer, Argument, Call, Function};
use crate::cases::{Case, Held, Turn};
use crate::images::{bytes_from, image_of, words_of, Record};
use crate::records::{READY_CONFIG, READY_REGIONS};
use crate::schedules::{self, Phases};
use crate::searches::Search;
use crate::texts::line;
use calls::cycle::PLACES;
use calls::dfn;
use calls::electrode::Sheet;
use calls::electrolyte::{Electrolyte, Params, Regions};
use calls::lowest::groups;
use calls::particle::Particle;
use calls::replay::LINE;
use calls::runs::ROW;
use calls::solver::{Cell, Config};
use calls::words::word;
use std::time::{Duration, Instant};

/// The calls of a case one after the other, up to the first that differs; `each` is told of every call.
pub fn first_difference(case: &Case, mut each: impl FnMut(&Call, &Answer, u64)) -> Option<(usize, Call, Vec<String>)> {
    let mut held = Held::of(case);
    for (at, turn) in case.turns.iter().enumerate() {
        let call = turn.on(&held);
        let (oracle, port) = (ask_oracle(&call), ask_port(&call));
        let differences = port.differences(&oracle);
        if !differences.is_empty() {
            return Some((at, call, differences));
        }
        each(&call, &oracle, port.kept_bytes(&oracle));
        held.take(&call, &oracle, &port);
    }
    None
}

/// The two numbers, where oracle and port differ.
fn failure(call: &Call) -> Option<(u64, u64)> {
    let (oracle, port) = (ask_oracle(call), ask_port(call));
    (!port.differences(&oracle).is_empty()).then_some((oracle.number, port.number))
}

fn ready_config(n_nodes: u64) -> Config {
    Config { n_nodes, numbers: READY_CONFIG }
}

/// The ready record with such counts of nodes, as words.
fn ready_words(record: Record, words: &[u64]) -> Vec<u64> {
    let count = |at: usize, low: u64, high: u64| words.get(at).copied().filter(|n| (low..=high).contains(n)).unwrap_or(low + 2);
    let (anode, cathode) = (Sheet::graphite_anode(), Sheet::lfp_cathode());
    let regions = || {
        let (lengths, porosities, _) = READY_REGIONS;
        let counts = [14, 15, 16].map(|at| count(at, 1, 32));
        Regions { params: Params::lipf6_ec_dmc(), lengths, porosities, counts }
    };
    let dfn_config = || dfn::Config { counts: [count(59, 1, 16), count(60, 1, 16), count(61, 2, 32)], voltages: [2.5, 4.3] };
    let slots = match record {
        Record::Nothing => Vec::new(),
        Record::Sheet => anode.slots(),
        Record::SheetAndNodes => [anode.slots(), vec![word(count(11, 3, 64))]].concat(),
        Record::Particle => Particle::new(anode, count(11, 3, 64)).expect("ready").slots(),
        Record::Config => ready_config(count(0, 3, 64)).slots(),
        Record::ConfigAndSheets => [ready_config(count(0, 3, 64)).slots(), anode.slots(), cathode.slots()].concat(),
        Record::Cell => Cell::graphite_lfp(ready_config(count(0, 3, 64))).expect("ready").slots(),
        Record::ElectrolyteParams => Params::lipf6_ec_dmc().slots(),
        Record::Regions => regions().slots(),
        Record::Electrolyte => Electrolyte::new(regions()).expect("ready").slots(),
        Record::DfnParamsAndConfig => [dfn::Params::nmc_graphite().slots(), dfn_config().slots()].concat(),
        Record::DfnCell => dfn::Cell::new(dfn::Params::nmc_graphite(), dfn_config()).expect("ready").slots(),
    };
    words_of(&image_of(record.parts(), &slots))
}

/// The words with one count changed, the arrays that depend on it packed anew.
fn with_count(record: Record, words: &[u64], changes: &[(usize, u64)]) -> Vec<u64> {
    let fields = record.fields();
    let mut next = words.to_vec();
    for (at, to) in changes {
        next[*at] = *to;
    }
    for array in &fields.arrays {
        let (before, after) = (array.used_of(words), array.used_of(&next));
        let places = array.start..array.start + array.places;
        let kept: Vec<u64> = match array.used {
            crate::images::Used::Product(_, n_r) => {
                let (old, new) = (words[n_r].clamp(1, 64) as usize, next[n_r].clamp(1, 64) as usize);
                (0..after).map(|i| words[array.start + (i / new * old + i % new).min(array.places - 1)]).collect()
            }
            _ => words[array.start..array.start + after.min(before)].to_vec(),
        };
        let last = *kept.last().unwrap_or(&0);
        for (i, at) in places.enumerate() {
            next[at] = if i < after { *kept.get(i).unwrap_or(&last) } else { 0 };
        }
    }
    next
}

/// Words that hold counts of nodes, in groups that go together.
fn counts(record: Record) -> &'static [&'static [usize]] {
    match record {
        Record::SheetAndNodes | Record::Particle => &[&[11]],
        Record::Config | Record::ConfigAndSheets => &[&[0]],
        Record::Cell => &[&[0, 17, 93]],
        Record::Regions | Record::Electrolyte => &[&[14], &[15], &[16]],
        Record::DfnParamsAndConfig | Record::DfnCell => &[&[59], &[60], &[61]],
        _ => &[],
    }
}

fn ready_argument(argument: Argument) -> f64 {
    match argument {
        Argument::Ignored | Argument::Load(_) => 0.0,
        Argument::Temperature => 298.15,
        Argument::Finite | Argument::Interval => 1.0,
        Argument::Radius => 1e-6,
        Argument::Porosity => 0.5,
    }
}

/// Calls that are a little smaller or plainer than this one, the boldest first.
fn smaller(call: &Call) -> Vec<Call> {
    let mut all = Vec::new();
    let function = call.function;
    let record = function.record();
    if function.is_listed() {
        for (at, argument) in function.arguments().iter().enumerate() {
            for to in [ready_argument(*argument), 1.0] {
                let mut next = call.clone();
                next.numbers[at] = to.to_bits();
                all.push(next);
            }
        }
        if call.answer_bytes != function.answer_bytes() {
            all.push(Call { answer_bytes: function.answer_bytes(), ..call.clone() });
        }
    }
    for rows in [8, call.rows / 2, call.rows.saturating_sub(8), call.rows.saturating_sub(1)] {
        if rows < call.rows {
            all.push(Call { rows, ..call.clone() });
            all.push(Call { rows, lowest: call.lowest.min(groups(rows / ROW)), ..call.clone() });
        }
    }
    for lowest in [groups(call.rows / ROW), call.lowest / 2, call.lowest.saturating_sub(1)] {
        if lowest < call.lowest {
            all.push(Call { lowest, ..call.clone() });
        }
    }
    if function == Function::FirstBelow {
        smaller_searches(call, &mut all);
    }
    if function == Function::Solve {
        smaller_systems(call, &mut all);
    }
    if function == Function::Replay {
        smaller_texts(call, &mut all);
    }
    if function == Function::Cycle {
        smaller_schedules(call, &mut all);
    }
    if call.image.len() == record.bytes() && record != Record::Nothing {
        let words = words_of(&call.image);
        let mut push = |words: &[u64]| all.push(Call { image: bytes_from(words), ..call.clone() });
        push(&ready_words(record, &words));
        for group in counts(record) {
            let now = words[group[0]];
            for to in [1, 2, 3, now / 2, now.saturating_sub(1)] {
                if to < now {
                    let changes: Vec<(usize, u64)> = group.iter().map(|at| (*at, to)).collect();
                    push(&with_count(record, &words, &changes));
                }
            }
        }
        let ready = ready_words(record, &words);
        let fields = record.fields();
        for array in &fields.arrays {
            let used = array.used_of(&words);
            let flat = |with: u64| {
                let mut next = words.clone();
                next[array.start..array.start + used].fill(with);
                next
            };
            if used > 0 {
                let mut next = words.clone();
                let places = array.start..array.start + array.places;
                next[places.clone()].copy_from_slice(&ready[places]);
                push(&next);
                push(&flat(words[array.start]));
                push(&flat(0));
            }
            for at in array.start..array.start + array.places {
                for to in [ready[at], if at > array.start { words[at - 1] } else { 0 }, 0] {
                    if words[at] != to {
                        let mut next = words.clone();
                        next[at] = to;
                        push(&next);
                    }
                }
            }
        }
        for at in &fields.plain {
            if words[*at] != ready[*at] {
                let mut next = words.clone();
                next[*at] = ready[*at];
                push(&next);
            }
        }
    }
    all.retain(|next| size(next) < size(call));
    all
}

/// A line of 1 s with no current.
fn ready_line() -> Vec<u8> {
    line([1f64.to_bits(), 0])
}

/// The text's halves; the text without one line (of a long text, a few), or with ready ones in their place; without its last byte.
fn smaller_texts(call: &Call, all: &mut Vec<Call>) {
    let text = &call.text;
    let lines: Vec<&[u8]> = text.chunks(LINE).collect();
    let (first, second) = lines.split_at(lines.len() / 2);
    let mut texts = vec![first.concat(), second.concat()];
    let few = 1 + lines.len() / 64;
    for at in (0..lines.len()).step_by(few) {
        let end = lines.len().min(at + few);
        texts.push([&lines[..at], &lines[end..]].concat().concat());
        texts.push([lines[..at].concat(), ready_line().repeat(end - at), lines[end..].concat()].concat());
    }
    texts.push(text[..text.len().saturating_sub(1)].to_vec());
    all.extend(texts.into_iter().map(|text| Call { text, ..call.clone() }));
}

/// A rest of 0 s, which takes one step.
const READY_PHASE: [u64; 2] = [2, 0];

/// Lower counts; the phases without one of them, with a ready one in its place, or with a whole number; a right length.
fn smaller_schedules(call: &Call, all: &mut Vec<Call>) {
    let mut push = |words: &[u64], counts: [u64; 3]| {
        all.push(Call { phases: Phases { image: bytes_from(words), counts }, ..call.clone() });
    };
    let (counts, mut words) = (call.phases.counts, words_of(&call.phases.image));
    words.resize(2 * PLACES, 0);
    push(&words, counts);
    for (which, now) in counts.into_iter().enumerate() {
        for to in [1, now / 2, now.saturating_sub(1)] {
            let mut fewer = counts;
            fewer[which] = to;
            push(&words, fewer);
        }
    }
    for at in 0..PLACES {
        let [before, after] = [&words[..2 * at], &words[2 * at + 2..]];
        push(&[before, &READY_PHASE, after].concat(), counts);
        push(&[before, after, &READY_PHASE].concat(), [counts[0].saturating_sub(1), counts[1], counts[2]]);
        push(&[before, &[words[2 * at], 1f64.to_bits()], after].concat(), counts);
    }
}

/// Fewer rows, counted or lent; a place of the summary fewer; 0 or 1 in a row or a place.
fn smaller_searches(call: &Call, all: &mut Vec<Call>) {
    let search = &call.search;
    let mut push = |next: Search| all.push(Call { search: next, ..call.clone() });
    for count in [0, search.count / 2, search.count.saturating_sub(64), search.count.saturating_sub(1)] {
        let (mut rows, mut lowest) = (search.rows.clone(), search.lowest.clone());
        push(Search { count, ..search.clone() });
        rows.truncate(ROW * count.min(rows.len() as u64) as usize);
        lowest.truncate(groups(count.min(1 << 32) as usize));
        push(Search { count, rows, lowest, ..search.clone() });
    }
    for [rows, lowest] in [[ROW, 0], [1, 0], [0, 1]] {
        let mut next = search.clone();
        next.rows.truncate(next.rows.len().saturating_sub(rows));
        next.lowest.truncate(next.lowest.len().saturating_sub(lowest));
        push(next);
    }
    for to in [0, 1f64.to_bits()] {
        let rows = vec![to; search.rows.len()];
        push(Search { rows, ..search.clone() });
        for at in (0..search.rows.len()).step_by(ROW) {
            let mut next = search.clone();
            next.rows[at] = to;
            next.rows[at + 1..].iter_mut().take(ROW - 1).for_each(|place| *place = 0);
            push(next);
        }
        for at in 0..search.lowest.len() {
            let mut next = search.clone();
            next.lowest[at] = to;
            push(next);
        }
    }
}

fn smaller_systems(call: &Call, all: &mut Vec<Call>) {
    let system = &call.system;
    let n = system.n as usize;
    let square = n <= 64 && system.a.len() == n * n && system.b.len() == n;
    if square && n > 0 {
        for out in 0..n {
            let mut next = call.clone();
            next.system.n -= 1;
            next.system.a = (0..n * n).filter(|i| i / n != out && i % n != out).map(|i| system.a[i]).collect();
            next.system.b.remove(out);
            all.push(next);
        }
    }
    for to in [0, 1f64.to_bits()] {
        for at in 0..system.a.len() {
            let mut next = call.clone();
            next.system.a[at] = to;
            all.push(next);
        }
        for at in 0..system.b.len() {
            let mut next = call.clone();
            next.system.b[at] = to;
            all.push(next);
        }
    }
}

/// How large a call is: nodes, rows, text and counts, then words that are not as in the ready record, then words that are not 0.
fn size(call: &Call) -> (usize, usize, usize) {
    let words = words_of(&call.image);
    let record = call.function.record();
    let plain = call.image.len() == record.bytes() && record != Record::Nothing;
    let nodes: u64 = if plain { counts(record).iter().flat_map(|group| group.iter()).map(|at| words[*at].min(1 << 20)).sum() } else { 0 };
    let unlike = if plain {
        let ready = ready_words(record, &words);
        words.iter().zip(&ready).filter(|(a, b)| a != b).count()
    } else {
        words.len()
    };
    let arguments = call.function.arguments().iter().zip(&call.numbers);
    let strange = arguments.filter(|(a, n)| **n != ready_argument(**a).to_bits()).count()
        + call.numbers.iter().filter(|n| ![0, 1f64.to_bits()].contains(n)).count();
    let (system, search) = (&call.system, &call.search);
    let numbers = system.a.iter().chain(&system.b).chain(&search.rows).chain(&search.lowest);
    let entries = numbers.map(|n| if *n == 0 { 0 } else { 1 + usize::from(*n != 1f64.to_bits()) }).sum::<usize>();
    let ready = ready_line();
    let loads = call.text.chunks(LINE).filter(|line| *line != &ready[..]).count();
    let phases = words_of(&call.phases.image);
    let unready: usize = phases.chunks(2).map(|phase| if phase == READY_PHASE { 0 } else { 2 - usize::from(phase.ends_with(&[1f64.to_bits()])) }).sum();
    let counts: u64 = call.phases.counts.iter().map(|count| count.min(&(1 << 20))).sum();
    let lengths = usize::from(call.answer_bytes != call.function.answer_bytes()) + usize::from(call.phases.image.len() % schedules::IMAGE != 0);
    let changing = words.windows(2).filter(|pair| pair[0] != pair[1]).count();
    let searched = search.rows.len() + search.lowest.len() + search.count.min(1 << 20) as usize;
    let long = nodes as usize + call.rows + call.lowest + call.text.len() + counts as usize + searched + system.a.len() + system.b.len();
    (long, 2 * unlike + strange + loads + unready + lengths, changing + entries)
}

/// The smallest call that was found in half a minute and fails with the same two numbers.
fn smallest(mut call: Call, numbers: (u64, u64)) -> Call {
    let end = Instant::now() + Duration::from_secs(30);
    while Instant::now() < end {
        match smaller(&call).into_iter().find(|next| Instant::now() < end && failure(next) == Some(numbers)) {
            Some(next) => call = next,
            None => break,
        }
    }
    call
}

/// The failing call by itself and made small; or, where it fails after other calls only, the shortest list; or nothing,
/// where the difference does not come again.
pub fn shrunk(case: &Case, at: usize, call: &Call) -> Option<Case> {
    if let Some(numbers) = failure(call) {
        return Some(Case::single(&smallest(call.clone(), numbers)));
    }
    let mut turns: Vec<Turn> = case.turns[..=at].to_vec();
    let still = |turns: &[Turn]| first_difference(&Case { start: case.start.clone(), turns: turns.to_vec() }, |_, _, _| ()).is_some();
    if !still(&turns) {
        return None;
    }
    let mut out = 0;
    while out < turns.len() {
        let mut fewer = turns.clone();
        fewer.remove(out);
        if still(&fewer) {
            turns = fewer;
        } else {
            out += 1;
        }
    }
    Some(Case { start: case.start.clone(), turns })
}
