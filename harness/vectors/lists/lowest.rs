//! The lowest voltage of each group of rows: what a run leaves in the summary, and the search by it.
use super::charge::between;
use super::solver::{config, diffusivity_out, pairs_of_sheets, random_cell, running};
use super::{dfn, solver};
use crate::cover::{one_fault, Argument, Kind};
use crate::draw::Draw;
use calls::dfn::{Cell as DfnCell, Coefficients, Params};
use calls::lowest::{first_below, full_read, left_in, lowest, GROUP};
use calls::runs::{Ending, Run, ROW};
use calls::solver::Cell;
use calls::words::{answer, float, slice, word, Reader, Slot};

type Row = [f64; ROW];

const T: f64 = 298.15;
/// Places of a lent slice of rows, and of a summary, at most.
const MOST_PLACES: usize = 2_048;
const MOST_SUMMARY: usize = 8;
/// Counts of rows about the ends of groups.
const COUNTS: [usize; 9] = [0, 1, 3, 63, 64, 65, 127, 128, 129];
const WIDE: [f64; 2] = [-10.0, 10.0];

/// The groups of so many rows, also where a wrong oracle counts otherwise.
fn groups(rows: usize) -> usize {
    rows.div_ceil(GROUP)
}

// ---- runs

/// A cell of either model with a current and an interval.
trait Load: Clone {
    fn dt(&self) -> f64;
    /// With these limits of the voltage.
    fn between(&self, limits: [f64; 2]) -> Self;
    /// The arguments of its run, for a time limit and a slice of so many places.
    fn arguments(&self, limit: f64, length: usize) -> Vec<Slot>;
    /// Up to so many rows.
    fn rows(&self, most: usize) -> Vec<Row>;
}

#[derive(Clone)]
struct Discharge {
    cell: Cell,
    current_a: f64,
    dt: f64,
}

impl Load for Discharge {
    fn dt(&self) -> f64 {
        self.dt
    }

    fn between(&self, [v_min, v_max]: [f64; 2]) -> Self {
        Self { cell: between(&self.cell, v_min, v_max), ..*self }
    }

    fn arguments(&self, limit: f64, length: usize) -> Vec<Slot> {
        running(&self.cell, [self.current_a, self.dt, T, limit], length as u64)
    }

    fn rows(&self, most: usize) -> Vec<Row> {
        self.cell.simulate_discharge(self.current_a, self.dt, T, f64::MAX, most * ROW, groups(most)).rows
    }
}

#[derive(Clone)]
struct Galvanostatic {
    cell: DfnCell,
    current_a: f64,
    dt: f64,
}

impl Load for Galvanostatic {
    fn dt(&self) -> f64 {
        self.dt
    }

    fn between(&self, limits: [f64; 2]) -> Self {
        let mut load = self.clone();
        load.cell.config.voltages = limits;
        load
    }

    fn arguments(&self, limit: f64, length: usize) -> Vec<Slot> {
        dfn::running(&self.cell, [self.current_a, self.dt, limit], length as u64)
    }

    fn rows(&self, most: usize) -> Vec<Row> {
        self.run(most).rows
    }
}

impl Galvanostatic {
    fn run(&self, most: usize) -> Run<DfnCell> {
        self.cell.run_galvanostatic(self.current_a, self.dt, f64::MAX, most * ROW, groups(most))
    }
}

/// The arguments of a run, and a summary that holds something in so many places.
fn lending(draw: &mut Draw, mut arguments: Vec<Slot>, places: usize) -> Vec<Slot> {
    let content = |place: usize| {
        let mark = -(1.0 + place as f64);
        draw.pick(&[mark, mark, f64::NAN, f64::INFINITY, f64::NEG_INFINITY, -0.0, 3.5])
    };
    let summary: Vec<f64> = (0..places).map(content).collect();
    arguments.push(slice(&summary));
    arguments
}

/// Slices that end about rows and groups, with a summary that is a place too short, that fits, and longer ones; no limit ends the run.
fn lengths(draw: &mut Draw, load: &impl Load) -> Vec<Vec<Slot>> {
    let wide = load.between(WIDE);
    let mut all = Vec::new();
    for length in [0, 7, 8, 15, 16, 504, 511, 512, 519, 520, 527, 528, 1_023, 1_024, 1_031, 1_032, 1_536, 1_543, 2_047, MOST_PLACES] {
        let needed = groups(length / ROW);
        for places in [needed.saturating_sub(1), needed, needed + 1, MOST_SUMMARY] {
            all.push(lending(draw, wide.arguments(f64::MAX, length), places));
        }
    }
    all
}

/// The time ends the run about the end of a group, on the last row that there is room for, a row before and many before; the summary has as many
/// places as are asked.
fn by_time(draw: &mut Draw, load: &impl Load) -> Vec<Vec<Slot>> {
    let wide = load.between(WIDE);
    let mut all = Vec::new();
    for rows in COUNTS {
        for room in [rows.max(1), rows + 1, rows + 100] {
            let limit = load.dt() * (rows as f64 - 0.5);
            all.push(lending(draw, wide.arguments(limit, room * ROW), groups(room)));
        }
    }
    all
}

/// Limits of the voltage that this row is the first to leave, where there are such.
fn first_to_leave(rows: &[Row], last: usize) -> Option<[f64; 2]> {
    let (earlier, own) = (&rows[..last], rows[last][0]);
    if earlier.iter().all(|row| row[0] > own) {
        Some([own.next_up(), WIDE[1]])
    } else if earlier.iter().all(|row| row[0] < own) {
        Some([WIDE[0], own.next_down()])
    } else {
        None
    }
}

/// The voltage ends the run about the end of a group.
fn by_voltage(draw: &mut Draw, load: &impl Load) -> Vec<Vec<Slot>> {
    let rows = load.between(WIDE).rows(130);
    let mut all = Vec::new();
    for count in COUNTS.into_iter().filter(|count| (1..=rows.len()).contains(count)) {
        if let Some(limits) = first_to_leave(&rows, count - 1) {
            for room in [count, 160] {
                all.push(lending(draw, load.between(limits).arguments(f64::MAX, room * ROW), groups(room)));
            }
        }
    }
    all
}

/// Where the lowest voltage of a group stands.
#[derive(Clone, Copy, PartialEq, Debug)]
enum Stands {
    First,
    Inside,
    Last,
    InSeveral,
}

fn stands(group: &[Row]) -> Stands {
    let low = group.iter().map(|row| row[0]).fold(f64::INFINITY, f64::min);
    let at: Vec<usize> = (0..group.len()).filter(|row| group[*row][0] == low).collect();
    match at[..] {
        [0] => Stands::First,
        [row] if row + 1 == group.len() => Stands::Last,
        [_] => Stands::Inside,
        _ => Stands::InSeveral,
    }
}

/// Runs of one to four groups, until their slice is full. Among their first groups and among their short last ones, the lowest voltage stands in
/// each kind of place.
fn shapes(draw: &mut Draw, loads: &[impl Load]) -> Vec<Vec<Slot>> {
    let (mut all, mut whole, mut short) = (Vec::new(), Vec::new(), Vec::new());
    for (turn, load) in loads.iter().enumerate() {
        let room = [130, 65, 200, 100, 256, 40][turn % 6];
        let wide = load.between(WIDE);
        for group in wide.rows(room).chunks(GROUP) {
            (if group.len() == GROUP { &mut whole } else { &mut short }).push(stands(group));
        }
        all.push(lending(draw, wide.arguments(f64::MAX, room * ROW), groups(room)));
    }
    for place in [Stands::First, Stands::Inside, Stands::Last, Stands::InSeveral] {
        assert!(whole.contains(&place) && short.contains(&place), "no group whose lowest voltage stands thus: {place:?}");
    }
    all
}

/// One fault in each argument, beside a summary that fits and beside one that is too short.
fn faults(draw: &mut Draw, base: &[Argument]) -> Vec<Vec<Slot>> {
    let mut all = Vec::new();
    for places in [1, 0] {
        let slot = lending(draw, Vec::new(), places).remove(0);
        all.extend(one_fault(&[base, &[Argument { slot, kind: Kind::Fixed }]].concat()));
    }
    all
}

/// Ending, refusal, count of rows, and what the run leaves in the summary.
fn left<C>(run: &Run<C>, summary: &[f64]) -> Vec<Slot> {
    vec![word(run.ending as u64), word(run.refusal), word(run.rows.len() as u64), slice(&left_in(summary, &run.rows))]
}

/// The search in what a run left is a full read, for every count about the ends of groups, and for voltages about those of its rows.
fn check_search(which: u64, rows: &[Row]) {
    let (places, summary) = (rows.concat(), lowest(rows));
    let mut voltages: Vec<f64> = summary.iter().flat_map(|low| [low.next_down(), *low, low.next_up()]).collect();
    voltages.extend(rows.iter().step_by(13).map(|row| row[0]));
    voltages.extend([f64::MIN, f64::MAX]);
    for count in COUNTS.into_iter().chain([rows.len()]).filter(|count| *count <= rows.len()) {
        for voltage in &voltages {
            let found = first_below(which, &places, &summary, count, *voltage);
            assert_eq!(found, Ok(full_read(rows, count, *voltage)), "the search in what a run left");
        }
    }
}

/// Ends the program where a search is no full read, after the lists are written.
pub fn check_searches() {
    let draw = &mut Draw::seeded(0);
    let discharges = discharges().into_iter().chain((0..40).map(|_| drawn_discharge(draw)));
    discharges.for_each(|load| check_search(1, &load.between(WIDE).rows(200)));
    let draw = &mut Draw::seeded(0);
    let galvanostatics = galvanostatics().into_iter().chain((0..40).flat_map(|k| [drawn_galvanostatic(draw), losing_salt(65.0 * f64::from(k + 2))]));
    galvanostatics.for_each(|load| check_search(2, &load.between(WIDE).rows(200)));
}

// ---- simulate_discharge

/// Voltages that fall and that rise, by either current, and that stay: at rest, and where an electrode is full.
fn discharges() -> Vec<Discharge> {
    let [lfp, nmc] = pairs_of_sheets().map(|(anode, cathode)| Cell::new(config(3), anode, cathode).expect("ready sheets"));
    let loads = [(&nmc, 3.0, 1.0), (&lfp, 3.0, 10.0), (&nmc, -3.0, 10.0), (&lfp, -3.0, 10.0), (&nmc, 5.0, 20.0), (&lfp, 3.0, 60.0), (&lfp, 0.0, 1.0)];
    loads.map(|(cell, current_a, dt)| Discharge { cell: cell.clone(), current_a, dt }).to_vec()
}

fn drawn_discharge(draw: &mut Draw) -> Discharge {
    let n = draw.count(3, 5);
    let sheets = draw.pick(&pairs_of_sheets());
    let cell = random_cell(draw, config(n), sheets);
    Discharge { cell, current_a: draw.uniform(-3.0, 3.0), dt: draw.pick(&[0.1, 1.0, 10.0, 60.0]) }
}

pub fn discharge_cases(draw: &mut Draw) -> Vec<Vec<Slot>> {
    let mut loads = discharges();
    let mut all = faults(draw, &solver::run_base(&loads[1].cell, [3.0, 1.0, T, 2.0], 24));
    all.extend(loads[..2].iter().flat_map(|load| lengths(draw, load)));
    for load in &loads {
        all.extend([by_time(draw, load), by_voltage(draw, load)].concat());
    }
    // 6 and 7 end a run before its first row
    let (out, temp_k) = diffusivity_out(draw, true, true);
    let mut quick = loads[1].cell.clone();
    quick.anode.sheet.numbers[0] = 1e-7;
    for length in [8, 520] {
        all.push(lending(draw, running(&out, [3.0, 1.0, temp_k, 9.0], length), 3));
        all.push(lending(draw, running(&quick, [3.0, 86_400.0, T, 9.0], length), 3));
    }
    loads.extend((0..40).map(|_| drawn_discharge(draw)));
    all.extend(shapes(draw, &loads));
    all
}

pub fn discharge(arguments: &[Slot]) -> Vec<Slot> {
    let mut reader = Reader::new(arguments);
    let cell = Cell::read(&mut reader);
    let [current_a, dt, temp_k, limit] = reader.floats();
    let (length, summary) = (reader.word() as usize, reader.slice());
    reader.end();
    left(&cell.simulate_discharge(current_a, dt, temp_k, limit, length, summary.len()), &summary)
}

// ---- run_galvanostatic

fn galvanostatics() -> Vec<Galvanostatic> {
    let [nmc, lfp] = [(Params::nmc_graphite(), [1, 1, 2]), (Params::lfp_graphite(), [1, 1, 3])]
        .map(|(params, counts)| DfnCell::new(params, dfn::config(counts)).expect("parameters in range"));
    let loads = [(&nmc, 10.0, 1.0), (&lfp, 10.0, 1.0), (&nmc, -10.0, 1.0), (&lfp, -10.0, 1.0), (&nmc, 1e5, 1.0), (&nmc, 0.0, 1.0)];
    loads.map(|(cell, current_a, dt)| Galvanostatic { cell: cell.clone(), current_a, dt }).to_vec()
}

fn drawn_galvanostatic(draw: &mut Draw) -> Galvanostatic {
    let params = draw.pick(&[Params::nmc_graphite(), Params::lfp_graphite()]);
    let counts = [draw.count(1, 4), 1, draw.count(2, 4)];
    let cell = dfn::random_cell(draw, params, dfn::config(counts));
    Galvanostatic { cell, current_a: draw.uniform(-50.0, 50.0), dt: draw.pick(&[0.1, 1.0, 10.0]) }
}

/// A ready cell with another open-circuit curve, which is lowest at a stoichiometry of the cathode that the run passes.
fn lowest_between(draw: &mut Draw) -> Galvanostatic {
    let mut load = galvanostatics().swap_remove(draw.below(4) as usize);
    let rows = load.between(WIDE).rows(200);
    let theta = draw.pick(&rows)[4];
    load.cell.params.ocv_neg = Coefficients::of(&[]);
    load.cell.params.ocv_pos = Coefficients::of(&[10.0, -20.0 * theta, 10.0 * theta * theta + 3.5]);
    load
}

/// A cell whose anode loses salt, 13 mol/m3 a step from `start` on, until its diffusivity has grown so much that a step is refused with 8.
fn losing_salt(start: f64) -> Galvanostatic {
    let mut params = Params::nmc_graphite();
    (params.numbers[16], params.numbers[17], params.numbers[18]) = (1_000.0, 1e-16, 1_000.0);
    let mut cell = DfnCell::new(params, dfn::config([6, 1, 2])).expect("parameters in range");
    cell.c_e[1..5].fill(start);
    let [l_neg, area, t_plus, eps_e_elec] = [0, 3, 19, 21].map(|at| params.numbers[at]);
    Galvanostatic { cell, current_a: 13.0 * eps_e_elec * l_neg * area / (1.0 - t_plus), dt: 1.0 }.between(WIDE)
}

/// A step is refused after so many rows, about the end of a group.
fn refused_later(draw: &mut Draw) -> Vec<Vec<Slot>> {
    let loads: Vec<Galvanostatic> = (16..=461).map(|k| losing_salt(6.5 * f64::from(k))).collect();
    let runs: Vec<Run<DfnCell>> = loads.iter().map(|load| load.run(200)).collect();
    let mut all = Vec::new();
    for rows in COUNTS {
        let found = runs.iter().position(|run| run.ending == Ending::Refused && run.rows.len() == rows);
        let load = &loads[found.unwrap_or_else(|| panic!("no run that is refused after {rows} rows"))];
        for room in [rows.max(1), rows + 1, rows + 70] {
            all.push(lending(draw, load.arguments(f64::MAX, room * ROW), groups(room) + 1));
        }
    }
    all
}

pub fn galvanostatic_cases(draw: &mut Draw) -> Vec<Vec<Slot>> {
    let mut loads = galvanostatics();
    let mut all = faults(draw, &dfn::run_base(&loads[0].cell, [10.0, 1.0, 3.0], 24));
    all.extend(lengths(draw, &loads[0]));
    for load in &loads {
        all.extend([by_time(draw, load), by_voltage(draw, load)].concat());
    }
    all.extend(refused_later(draw));
    loads.extend((0..40).map(|turn| if turn % 2 == 0 { drawn_galvanostatic(draw) } else { lowest_between(draw) }));
    all.extend(shapes(draw, &loads));
    all
}

pub fn galvanostatic(arguments: &[Slot]) -> Vec<Slot> {
    let mut reader = Reader::new(arguments);
    let cell = DfnCell::read(&mut reader);
    let [current_a, dt_s, limit] = reader.floats();
    let (length, summary) = (reader.word() as usize, reader.slice());
    reader.end();
    left(&cell.run_galvanostatic(current_a, dt_s, limit, length, summary.len()), &summary)
}

// ---- the search

/// The arguments of a search. `voltages` stand in the first places of rows; every other place of the slice holds -infinity.
#[derive(Clone)]
struct Search {
    which: u64,
    length: u64,
    voltages: Vec<f64>,
    summary: Vec<f64>,
    count: u64,
    voltage: f64,
}

impl Search {
    /// All of these rows, in a slice that they fill.
    fn of(voltages: &[f64], summary: &[f64], voltage: f64) -> Self {
        let rows = voltages.len() as u64;
        Self { which: 1 + rows % 2, length: rows * ROW as u64, voltages: voltages.to_vec(), summary: summary.to_vec(), count: rows, voltage }
    }

    fn slots(&self) -> Vec<Slot> {
        vec![word(self.which), word(self.length), slice(&self.voltages), slice(&self.summary), word(self.count), float(self.voltage)]
    }
}

/// The summary that a run leaves beside these voltages.
fn summary(voltages: &[f64]) -> Vec<f64> {
    lowest(&voltages.iter().map(|voltage| [*voltage; ROW]).collect::<Vec<Row>>())
}

fn voltages(rows: usize, voltage: impl Fn(usize) -> f64) -> Vec<f64> {
    (0..rows).map(voltage).collect()
}

/// Rows and summary as a run leaves them: voltages that fall, rise, fall and rise, stay, and come again.
fn as_left() -> Vec<Vec<Slot>> {
    let curves: [fn(usize) -> f64; 5] =
        [|j| 4.2 - 0.01 * j as f64, |j| 3.0 + 0.01 * j as f64, |j| 3.5 + 0.01 * j.abs_diff(70) as f64, |_| 3.25, |j| 3.0 + 0.25 * (j % 3) as f64];
    let mut all = Vec::new();
    for curve in curves {
        for rows in COUNTS {
            let voltages = voltages(rows, curve);
            let summary = summary(&voltages);
            let mut chosen = vec![2.0, 5.0];
            chosen.extend(voltages.get(rows / 2));
            chosen.extend([summary.first(), summary.last()].into_iter().flatten().flat_map(|low| [*low, low.next_up()]));
            all.extend(chosen.iter().map(|voltage| Search::of(&voltages, &summary, *voltage).slots()));
        }
    }
    // fewer rows than were written, and with no more places of the summary than these have
    let (voltages, chosen) = (voltages(130, curves[0]), [1, 62, 63, 64, 65, 128, 129]);
    let summary = summary(&voltages);
    for count in COUNTS {
        for row in chosen {
            let lent = if row % 2 == 0 { &summary[..] } else { &summary[..groups(count)] };
            all.push(Search { count: count as u64, ..Search::of(&voltages, lent, voltages[row].next_up()) }.slots());
        }
    }
    all
}

/// One low row in each place about the ends of groups, the last that is read, the first that is not, and one among more.
fn one_low() -> Vec<Vec<Slot>> {
    let mut all = Vec::new();
    for low in [0, 1, 62, 63, 64, 65, 127, 128] {
        let voltages = voltages(129, |row| if row == low { 3.0 } else { 4.0 });
        for count in [low, low + 1, 129] {
            all.push(Search { count: count as u64, ..Search::of(&voltages, &summary(&voltages), 3.5) }.slots());
        }
    }
    all
}

/// A summary that says something else than the rows, in each of three groups: lower than all, no number, equal to the chosen voltage, just below it.
/// There is a low row in each group, or the first of a group, or none.
fn lying() -> Vec<Vec<Slot>> {
    let said = [f64::NEG_INFINITY, f64::NAN, 3.5, 3.5f64.next_down()];
    let mut all = Vec::new();
    for lows in [[10, 70, 128], [64, 64, 128]] {
        let voltages = voltages(129, |row| if lows.contains(&row) { 3.0 } else { 4.0 });
        for first in said {
            for second in said {
                all.extend(said.map(|third| Search::of(&voltages, &[first, second, third], 3.5).slots()));
            }
        }
        all.push(Search::of(&voltages, &[f64::INFINITY; 3], 3.5).slots());
    }
    all.extend(said.map(|low| Search::of(&[4.0; 129], &[low; 3], 3.5).slots()));
    all
}

/// What is special to binary64 in a row, in the summary and for the chosen voltage.
fn special() -> Vec<Vec<Slot>> {
    let least = f64::from_bits(1);
    let values = [f64::NAN, f64::INFINITY, f64::NEG_INFINITY, 0.0, -0.0, least, -least, 1e308, -1e308, f64::MAX, f64::MIN, 1.0];
    let mut all = Vec::new();
    for voltage in values {
        for value in values {
            all.extend([f64::NEG_INFINITY, f64::NAN, f64::INFINITY, value, voltage].map(|low| Search::of(&[value], &[low], voltage).slots()));
            all.push(Search::of(&[f64::NAN, value, f64::NEG_INFINITY], &[f64::NEG_INFINITY], voltage).slots());
        }
    }
    all
}

/// Slices at and about the lengths that a count asks for, counts up to the largest, and every pair of faults.
fn refusals() -> Vec<Vec<Slot>> {
    let mut all = Vec::new();
    let whiches = [0, 1, 2, 3, (1 << 32) + 1, 1 << 63, u64::MAX];
    let chosen = [3.5, f64::NAN, f64::INFINITY, f64::NEG_INFINITY];
    for rows in [0, 1, 2, 64, 65] {
        let plain = Search::of(&voltages(rows, |_| 3.0), &vec![3.0; groups(rows)], 3.5);
        let short = plain.length.saturating_sub(1);
        for length in [short, plain.length, plain.length + 1, plain.length + 7] {
            for places in [groups(rows).saturating_sub(1), groups(rows), groups(rows) + 1, MOST_SUMMARY] {
                // rows that the slice has no first place of are not listed
                let listed = plain.voltages[..rows.min((length as usize).div_ceil(ROW))].to_vec();
                let lent = Search { length, voltages: listed, summary: vec![3.0; places], ..plain.clone() };
                all.push(lent.slots());
                if rows <= 2 {
                    all.extend(whiches.iter().flat_map(|which| chosen.map(|voltage| Search { which: *which, voltage, ..lent.clone() }.slots())));
                }
            }
        }
    }
    let huge = [1 << 32, (1 << 32) + 1, (1 << 61) - 1, 1 << 61, (1 << 61) + 1, (1 << 61) + 2, 1 << 63, (1 << 63) + 1, u64::MAX - 63, u64::MAX];
    for count in huge {
        for rows in [0, 1, 65] {
            let plain = Search { count, ..Search::of(&voltages(rows, |_| 3.0), &[3.0; MOST_SUMMARY], 3.5) };
            all.extend([plain.clone(), Search { which: 0, ..plain.clone() }, Search { voltage: f64::NAN, ..plain }].map(|search| search.slots()));
        }
    }
    all
}

/// Few voltages in rows and summary, so that many are equal; true and false summaries, counts up to one too many.
fn drawn(draw: &mut Draw) -> Vec<Vec<Slot>> {
    let levels = [3.0, 3.25, 3.5, 3.75, 4.0, f64::NAN, -0.0];
    let mut all = Vec::new();
    for turn in 0..160 {
        let known = if turn % 4 == 0 { 7 } else { 5 };
        let rows = draw.count(0, 150) as usize;
        // low ones are rare
        let voltages: Vec<f64> = (0..rows).map(|_| if draw.below(40) == 0 { draw.pick(&levels[..known]) } else { 4.0 }).collect();
        let mut said = if known == 5 { summary(&voltages) } else { vec![3.0; groups(rows)] };
        if turn % 2 == 0 {
            said.iter_mut().for_each(|low| *low = if draw.below(2) == 0 { draw.pick(&levels) } else { *low });
        }
        let any = draw.count(0, rows as u64 + 1);
        let count = draw.pick(&[rows as u64, any]);
        all.push(Search { count, ..Search::of(&voltages, &said, draw.pick(&levels)) }.slots());
    }
    all
}

pub fn search_cases(draw: &mut Draw) -> Vec<Vec<Slot>> {
    [as_left(), one_low(), lying(), special(), refusals(), drawn(draw)].concat()
}

/// The number of the refusal, 0 where there is none; then 1 and the row, or 2 and 0.
pub fn search(arguments: &[Slot]) -> Vec<Slot> {
    let mut reader = Reader::new(arguments);
    let which = reader.word();
    let mut rows = vec![f64::NEG_INFINITY; reader.word() as usize];
    for (row, voltage) in reader.slice().into_iter().enumerate() {
        rows[ROW * row] = voltage;
    }
    let (summary, count, voltage) = (reader.slice(), reader.word() as usize, reader.float());
    reader.end();
    answer(first_below(which, &rows, &summary, count, voltage).map(|found| match found {
        Some(row) => vec![word(1), word(row as u64)],
        None => vec![word(2), word(0)],
    }))
}
