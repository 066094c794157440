//! The single-particle cell: solver.rs.
use crate::electrode::{finite, Sheet};
use crate::lowest::groups;
use crate::particle::{nodes_fit, Particle};
use crate::runs::{refused, run, Ending, Run, Turn, ROW};
use crate::table::{all_in, clock, finite_or_8, interval, load, range, Met, Range, MOST_CURRENT, TEMPERATURE};
use crate::words::{array, flag, float, word, Reader, Slot};
use oracle::solver::{SpmConfig, SpmSolver, SpmState};

/// v_min, v_max, faraday, r_gas, r_electrolyte_ohm_m2
pub const RANGES: [Range; 5] = [range(-10.0, 10.0), range(-10.0, 10.0), range(9e4, 1e5), range(8.0, 9.0), range(0.0, 1.0)];
pub const DIFFUSIVITY: Range = range(1e-20, 1e-8);
/// The largest part of the stability limit that a sub-step is.
pub const SUB_STEP: f64 = 0.30;
pub const MOST_SUB_STEPS: f64 = 4096.0;

#[derive(Clone, Copy)]
pub struct Config {
    pub n_nodes: u64,
    pub numbers: [f64; 5],
}

impl Config {
    pub fn read(reader: &mut Reader) -> Self {
        Self { n_nodes: reader.word(), numbers: reader.floats() }
    }

    pub fn slots(&self) -> Vec<Slot> {
        std::iter::once(word(self.n_nodes)).chain(self.numbers.iter().map(|x| float(*x))).collect()
    }

    fn spm(&self) -> SpmConfig {
        let [v_min, v_max, faraday, r_gas, r_electrolyte_ohm_m2] = self.numbers;
        SpmConfig { n_nodes: self.n_nodes as usize, v_min, v_max, faraday, r_gas, r_electrolyte_ohm_m2 }
    }
}

#[derive(Clone)]
pub struct Cell {
    pub config: Config,
    pub anode: Particle,
    pub cathode: Particle,
    pub time_s: f64,
}

/// A step's report: the Rust's state and the count of sub-steps.
pub struct Report {
    pub state: SpmState,
    pub sub_steps: u64,
}

impl Report {
    pub fn row(&self) -> [f64; ROW] {
        let s = &self.state;
        let cutoff = if s.cutoff { 1.0 } else { 0.0 };
        [s.voltage, s.current, s.theta_neg, s.theta_pos, s.theta_neg_avg, s.theta_pos_avg, s.time_s, cutoff]
    }

    pub fn slots(&self) -> Vec<Slot> {
        let row = self.row();
        let mut slots: Vec<Slot> = row[..7].iter().map(|x| float(*x)).collect();
        slots.push(flag(self.state.cutoff));
        slots.push(word(self.sub_steps));
        slots
    }
}

/// The least whole number not below q, of q from 0 to 2^53.
pub fn least_count(q: f64) -> u64 {
    let whole = q as u64;
    if (whole as f64) < q {
        whole + 1
    } else {
        whole
    }
}

/// The longest sub-step that is at most this part of each electrode's stability limit.
fn longest_sub_step(cell: &SpmSolver, part: f64, temp_k: f64) -> f64 {
    let dt_neg = cell.anode.dt_stable(temp_k) * part;
    let dt_pos = cell.cathode.dt_stable(temp_k) * part;
    dt_neg.min(dt_pos)
}

/// How many sub-steps of at most this length an interval takes; 7 where they are too many.
pub fn count_sub_steps(dt: f64, longest: f64) -> Result<u64, u64> {
    let q = dt / dt.min(longest);
    if q > MOST_SUB_STEPS {
        return Err(7);
    }
    let count = least_count(q);
    assert_eq!(count, q.ceil() as u64, "the Rust's count");
    Ok(count)
}

impl Cell {
    pub fn read(reader: &mut Reader) -> Self {
        Self { config: Config::read(reader), anode: Particle::read(reader), cathode: Particle::read(reader), time_s: reader.float() }
    }

    pub fn slots(&self) -> Vec<Slot> {
        let mut slots = self.config.slots();
        slots.extend(self.anode.slots());
        slots.extend(self.cathode.slots());
        slots.push(float(self.time_s));
        slots
    }

    /// What a step changes.
    pub fn changed_slots(&self) -> Vec<Slot> {
        vec![array(&self.anode.c_s), array(&self.cathode.c_s), float(self.time_s)]
    }

    pub fn new(config: Config, anode: Sheet, cathode: Sheet) -> Result<Self, u64> {
        let mut met = Met::default();
        met.when(1, !nodes_fit(config.n_nodes));
        met.when(2, !all_in(&config.numbers, &RANGES) || !anode.fits() || !cathode.fits());
        met.refuse()?;
        let n = config.n_nodes;
        Ok(Self { config, anode: Particle::new(anode, n)?, cathode: Particle::new(cathode, n)?, time_s: 0.0 })
    }

    /// A cell that the Rust builds, with the config's n in both.
    fn built(config: Config, build: impl Fn(SpmConfig) -> SpmSolver) -> Result<Self, u64> {
        let mut met = Met::default();
        met.when(1, !nodes_fit(config.n_nodes));
        met.when(2, !all_in(&config.numbers, &RANGES));
        met.refuse()?;
        let made = build(config.spm());
        let electrode = |p: &oracle::electrode::ParticleDiffusion| -> Particle {
            let sheet = Sheet::ready(p.params.clone());
            Particle { sheet, n: p.n_nodes as u64, c_s: [0.0; 64] }.with(p)
        };
        Ok(Self { config, anode: electrode(&made.anode), cathode: electrode(&made.cathode), time_s: made.time_s })
    }

    pub fn graphite_lfp(config: Config) -> Result<Self, u64> {
        Self::built(config, SpmSolver::graphite_lfp)
    }

    pub fn graphite_nmc(config: Config) -> Result<Self, u64> {
        Self::built(config, SpmSolver::graphite_nmc)
    }

    pub fn met(&self) -> Met {
        let n = self.config.n_nodes;
        let mut met = Met::default();
        met.when(1, !nodes_fit(n) || self.anode.n != n || self.cathode.n != n);
        met.when(2, !all_in(&self.config.numbers, &RANGES) || !self.anode.fits() || !self.cathode.fits() || !clock(self.time_s));
        met
    }

    pub fn spm(&self) -> SpmSolver {
        let (anode, cathode) = (self.anode.diffusion(), self.cathode.diffusion());
        let electrode_area = anode.params.area;
        SpmSolver { config: self.config.spm(), anode, cathode, electrode_area, time_s: self.time_s }
    }

    fn after(&self, made: &SpmSolver) -> Self {
        Self {
            config: self.config,
            anode: self.anode.with(&made.anode),
            cathode: self.cathode.with(&made.cathode),
            time_s: made.time_s,
        }
    }

    pub fn step(&self, current_a: f64, dt: f64, temp_k: f64) -> Result<(Self, Report), u64> {
        let mut met = self.met();
        met.when(3, !load(current_a, MOST_CURRENT));
        met.when(4, !interval(dt));
        met.when(5, !TEMPERATURE.holds(temp_k));
        met.refuse()?;
        let mut made = self.spm();
        let in_range = |p: &oracle::electrode::ParticleDiffusion| DIFFUSIVITY.holds(p.params.d_s(temp_k));
        met.when(6, !in_range(&made.anode) || !in_range(&made.cathode));
        let counted = count_sub_steps(dt, longest_sub_step(&made, SUB_STEP, temp_k));
        met.when(7, counted.is_err());
        met.refuse()?;
        let sub_steps = counted?;
        let state = made.step(current_a, dt, temp_k);
        let report = Report { state, sub_steps };
        finite_or_8(&[&made.anode.c_s, &made.cathode.c_s, &[made.time_s], &report.row()])?;
        Ok((self.after(&made), report))
    }

    /// The longest sub-step of a cell that fits, by the part of the stability limit.
    pub fn longest_sub_step(&self, part: f64, temp_k: f64) -> f64 {
        longest_sub_step(&self.spm(), part, temp_k)
    }

    pub fn ocv(&self) -> Result<f64, u64> {
        self.met().refuse()?;
        finite(self.spm().ocv())
    }

    pub fn soc_estimate(&self) -> Result<f64, u64> {
        self.met().refuse()?;
        finite(self.spm().soc_estimate())
    }

    /// Rows go to so many places, the summary of their lowest voltages to so many.
    pub fn simulate_discharge(&self, current_a: f64, dt: f64, temp_k: f64, max_time_s: f64, places: usize, lowest_places: usize) -> Run<Self> {
        let mut met = self.met();
        met.when(10, places < ROW);
        met.when(10, lowest_places < groups(places / ROW));
        met.when(3, !load(current_a, MOST_CURRENT));
        met.when(4, !interval(dt) || !max_time_s.is_finite());
        met.when(5, !TEMPERATURE.holds(temp_k));
        if let Err(number) = met.refuse() {
            return refused(self, number);
        }
        let step = |cell: &Self| {
            let (cell, report) = cell.step(current_a, dt, temp_k)?;
            Ok(Turn { cell, row: report.row(), cutoff: report.state.cutoff })
        };
        // the run's own clock starts at 0 and gains dt with each row
        let own_clock = |rows: usize| (0..rows).fold(0.0, |t, _| t + dt);
        let made = run(self, places, step, |rows, _| !(own_clock(rows) < max_time_s), true);
        if matches!(made.ending, Ending::Voltage | Ending::Time) {
            let mut published = self.spm();
            let states = published.simulate_discharge(current_a, dt, temp_k, max_time_s);
            let rows: Vec<[f64; ROW]> = states.into_iter().map(|state| Report { state, sub_steps: 0 }.row()).collect();
            assert_eq!(rows, made.rows, "the Rust's own run");
        }
        made
    }
}
