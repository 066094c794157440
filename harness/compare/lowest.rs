//! What has to be among the runs that keep a summary of lowest voltages, and among the searches by it. In what a run left, a search has to
//! find what a read of all rows from the first does.
use crate::call::{Answer, Call, Function};
use crate::images::words_of;
use crate::rows::{Table, VOLTAGE};
use calls::lowest::{full_read, groups, GROUP};
use calls::runs::{Ending, ROW};
use std::collections::BTreeMap;

const RUNS: [Function; 2] = [Function::Discharge, Function::Galvanostatic];
/// Runs by their rows, of more groups by the last one; those that are refused for the length of the summary; groups by the row that is lowest in
/// them, and those in which several rows are.
const RUN_COLUMNS: [&str; 9] =
    ["no row", "one group", "more, short", "more, whole", "too few", "lowest first", "inner", "last", "of equals"];

/// Whose rows are searched.
const SEARCHED: [&str; 3] = ["rows left by run 1", "rows left by run 2", "rows of no run"];
/// Where the row is that is found: in a first group; in a later one; in the last of several, which is short.
const SEARCH_COLUMNS: [&str; 5] = ["first group", "a later one", "a short last", "none", "refused"];

const WHATS: [&str; 14] = [
    "groups passed over",
    "groups passed over for a NaN",
    "groups looked at without a row under the voltage",
    "groups of a run looked at so, their lowest row being beyond the count",
    "in no row",
    "at the voltage of a row before the one that is found, or of all that are left",
    "that find another row than a read of all, or none",
    "for 2^61 rows or more",
    "refused with 10 for the rows alone",
    "refused with 10 for the summary alone",
    "refused with 10 for the answer alone",
    "refused with 2 for the run alone",
    "refused with 2 for the voltage alone",
    "refused with 10, where 2 is met too",
];

#[derive(Default)]
pub struct Lowest {
    runs: Table<{ RUN_COLUMNS.len() }>,
    /// runs that ended with a refused step after a row
    refused_steps: u64,
    /// places of summaries that were lent and not written
    kept_places: u64,
    searches: [[u64; SEARCH_COLUMNS.len()]; SEARCHED.len()],
    seen: BTreeMap<&'static str, u64>,
}

fn voltages(words: &[u64]) -> Vec<f64> {
    words.iter().skip(VOLTAGE).step_by(ROW).map(|word| f64::from_bits(*word)).collect()
}

/// Of a group: which row is lowest, the first of equals, as a column; whether there are equals.
fn lowest_row(group: &[f64], lowest: u64) -> (usize, bool) {
    let lowest = f64::from_bits(lowest);
    let first = group.iter().position(|voltage| *voltage == lowest).expect("the lowest voltage is that of a row");
    let column = match first {
        0 => 5,
        _ if first + 1 < group.len() => 6,
        _ => 7,
    };
    (column, group[first + 1..].contains(&lowest))
}

impl Lowest {
    fn count(&mut self, what: usize, times: u64) {
        *self.seen.entry(WHATS[what]).or_default() += times;
    }

    fn add_run(&mut self, call: &Call, oracle: &Answer) {
        let function = call.function;
        let lengths_fit = call.answer_bytes == function.answer_bytes() && call.image.len() == function.record().bytes() && call.rows >= ROW;
        if oracle.number == 10 && lengths_fit {
            self.runs.add(function, 4);
        }
        if oracle.image.is_none() {
            return;
        }
        self.kept_places += (call.lowest - oracle.lowest.len()) as u64;
        self.refused_steps += u64::from(oracle.ending == Some(Ending::Refused));
        let made = voltages(&oracle.rows);
        let column = match groups(made.len()) {
            0 => 0,
            1 => 1,
            _ => 2 + usize::from(made.len() % GROUP == 0),
        };
        self.runs.add(function, column);
        for (group, lowest) in made.chunks(GROUP).zip(&oracle.lowest) {
            let (column, equals) = lowest_row(group, *lowest);
            self.runs.add(function, column);
            if equals {
                self.runs.add(function, 8);
            }
        }
    }

    /// The faults of a search, each as its place in `WHATS`.
    fn faults(call: &Call) -> Vec<usize> {
        let (search, voltage) = (&call.search, f64::from_bits(call.numbers[0]));
        let met = [
            search.count > (search.rows.len() / ROW) as u64,
            search.count.div_ceil(GROUP as u64) > search.lowest.len() as u64,
            call.answer_bytes != call.function.answer_bytes(),
            ![1, 2].contains(&search.which),
            !voltage.is_finite(),
        ];
        (8..).zip(met).filter(|(_, met)| *met).map(|(what, _)| what).collect()
    }

    /// The groups up to the one in which a row is found, or all: which are passed over, and which looked at for nothing.
    fn add_groups(&mut self, call: &Call, voltages: &[f64], found: Option<usize>) {
        let (search, voltage) = (&call.search, f64::from_bits(call.numbers[0]));
        for (at, group) in voltages.chunks(GROUP).enumerate() {
            let lowest = f64::from_bits(search.lowest[at]);
            if !(lowest < voltage) {
                self.count(0, 1);
                self.count(1, u64::from(lowest.is_nan()));
                continue;
            }
            if found.is_some_and(|row| row / GROUP == at) {
                return;
            }
            self.count(2, 1);
            self.count(3, u64::from(search.left.is_some() && group.len() < GROUP));
        }
    }

    fn add_search(&mut self, call: &Call, oracle: &Answer) {
        let (search, voltage) = (&call.search, f64::from_bits(call.numbers[0]));
        let source = if search.left.is_some() { search.which.min(2).saturating_sub(1) as usize } else { 2 };
        self.count(7, u64::from(search.count >= 1 << 61));
        let faults = Self::faults(call);
        let expected = faults.first().map_or(0, |what| if *what < 11 { 10 } else { 2 });
        if oracle.number != expected {
            self.runs.add_wrong(format!("first_below: {} and not {expected} of the faults {faults:?}", oracle.number));
            return;
        }
        if let Some(what) = faults.first() {
            self.searches[source][4] += 1;
            if faults.len() == 1 {
                self.count(*what, 1);
            } else if *what < 11 && faults.last() >= Some(&11) {
                self.count(13, 1);
            }
            return;
        }
        let words = words_of(oracle.image.as_deref().expect("an accepted search"));
        let found = (words[0] == 1).then_some(words[1] as usize);
        let count = search.count as usize;
        let rows = voltages(&search.rows[..ROW * count]);
        let all: Vec<[f64; ROW]> = rows.iter().map(|voltage| [*voltage; ROW]).collect();
        let read = full_read(&all, count, voltage);
        if search.left.is_some() && found != read {
            self.runs.add_wrong(format!("first_below: {found:?} in the first {count} rows that a run left, a full read finds {read:?}"));
        }
        self.count(6, u64::from(found != read));
        self.count(4, u64::from(count == 0));
        self.count(5, u64::from(rows[..found.unwrap_or(count)].contains(&voltage)));
        let column = match found {
            None => 3,
            Some(row) if row >= GROUP && row / GROUP + 1 == groups(count) && count % GROUP != 0 => 2,
            Some(row) => usize::from(row >= GROUP),
        };
        self.searches[source][column] += 1;
        self.add_groups(call, &rows, found);
    }

    pub fn add(&mut self, call: &Call, oracle: &Answer) {
        if RUNS.contains(&call.function) {
            self.add_run(call, oracle);
        }
        if call.function == Function::FirstBelow {
            self.add_search(call, oracle);
        }
    }

    pub fn join(&mut self, other: Self) {
        self.runs.join(other.runs);
        self.refused_steps += other.refused_steps;
        self.kept_places += other.kept_places;
        for (own, other) in self.searches.iter_mut().flatten().zip(other.searches.into_iter().flatten()) {
            *own += other;
        }
        for (what, times) in other.seen {
            *self.seen.entry(what).or_default() += times;
        }
    }

    /// The tables, and what a comparison that has seen everything would have.
    pub fn print(&self) -> Vec<String> {
        let mut missing = self.runs.print_head("summaries, runs, groups", RUN_COLUMNS);
        let mut line = |name: &str, counts: &[u64], columns: &[&str], can: fn(usize) -> bool| {
            let shown = |(at, count): (usize, &u64)| if can(at) { format!("{count:>14}") } else { format!("{:>14}", "-") };
            println!("{name:<24}{}", counts.iter().enumerate().map(shown).collect::<String>());
            for (at, column) in columns.iter().enumerate().filter(|(at, _)| can(*at) == (counts[*at] == 0)) {
                let what = if counts[at] == 0 { "nothing" } else { "something" };
                missing.push(format!("lowest voltages: {name} has {what} under '{column}'"));
            }
        };
        line(&RUNS[0].name(), &self.runs.counts(RUNS[0]), &RUN_COLUMNS, |_| true);
        // a run of a DFN cell has a first row
        line(&RUNS[1].name(), &self.runs.counts(RUNS[1]), &RUN_COLUMNS, |column| column > 0);
        line("refused after a row", &[self.refused_steps], &["a refused step"], |_| true);
        line("places that are kept", &[self.kept_places], &["a place"], |_| true);
        println!();
        println!("{:<24}{}", "searches, rows found", SEARCH_COLUMNS.map(|name| format!("{name:>14}")).concat());
        for (name, counts) in SEARCHED.into_iter().zip(&self.searches) {
            line(name, counts, &SEARCH_COLUMNS, |_| true);
        }
        for what in WHATS {
            let times = self.seen.get(what).copied().unwrap_or(0);
            println!("searches, {what}: {times}");
            if times == 0 {
                missing.push(format!("searches: none {what}"));
            }
        }
        missing
    }
}
