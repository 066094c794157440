//! The DFN cell: dfn.rs.
use crate::lowest::groups;
use crate::runs::{refused, run, Ending, Run, Turn, ROW};
use crate::table::{all_in, clock, finite_or_8, interval, load, places, range, Met, Range, MOST_CURRENT};
use crate::words::{array, flag, float, word, Reader, Slot};
use oracle::dfn::{access, DfnConfig, DfnParams, DfnSolver, DfnState, DfnStep};

/// The parameters in the Rust's order, from l_neg to temperature_k.
pub const RANGES: [Range; 25] = [
    range(1e-7, 1e-2),     // l_neg
    range(1e-7, 1e-2),     // l_sep
    range(1e-7, 1e-2),     // l_pos
    range(1e-6, 1e4),      // area
    range(1e-8, 1e-3),     // r_neg
    range(1e-20, 1e-8),    // d_s_neg_ref
    range(1.0, 131_072.0), // c_s_neg_max
    range(0.01, 1.0),      // eps_neg
    range(0.0, 1.0),       // theta_neg_0
    range(1e-16, 1.0),     // k_neg
    range(1e-8, 1e-3),     // r_pos
    range(1e-20, 1e-8),    // d_s_pos_ref
    range(1.0, 131_072.0), // c_s_pos_max
    range(0.01, 1.0),      // eps_pos
    range(0.0, 1.0),       // theta_pos_0
    range(1e-16, 1.0),     // k_pos
    range(1.0, 1e5),       // c_e0
    range(1e-16, 1e-6),    // d_e0
    range(0.0, 1000.0),    // gamma_e
    range(0.0, 1.0),       // t_plus
    range(1e-6, 100.0),    // kappa0
    range(0.01, 1.0),      // eps_e_elec
    range(0.01, 1.0),      // eps_e_sep
    range(0.0, 4.0),       // brugg
    range(200.0, 400.0),   // temperature_k
];
pub const COEFFICIENT: Range = range(-1000.0, 1000.0);
pub const MOST_COEFFICIENTS: usize = 16;
pub const VOLTAGE: Range = range(-10.0, 10.0);
pub const CONCENTRATION: Range = range(1.0, 1e5);
pub const MOST_X: u64 = 16;
pub const MOST_R: u64 = 32;
pub const SOLID_PLACES: usize = 512;
pub const ELECTROLYTE_PLACES: usize = 33;

#[derive(Clone, Copy)]
pub struct Coefficients {
    pub count: u64,
    pub values: [f64; MOST_COEFFICIENTS],
}

impl Coefficients {
    pub fn of(values: &[f64]) -> Self {
        let mut all = [0.0; MOST_COEFFICIENTS];
        all[..values.len()].copy_from_slice(values);
        Self { count: values.len() as u64, values: all }
    }

    fn fits(&self) -> bool {
        self.count <= MOST_COEFFICIENTS as u64 && places(&self.values, self.count as usize, |x| COEFFICIENT.holds(x))
    }

    fn used(&self) -> Vec<f64> {
        self.values[..self.count as usize].to_vec()
    }
}

#[derive(Clone, Copy)]
pub struct Params {
    pub numbers: [f64; 25],
    pub ocv_neg: Coefficients,
    pub ocv_pos: Coefficients,
}

impl Params {
    pub fn read(reader: &mut Reader) -> Self {
        let numbers = reader.floats();
        let mut coefficients = || Coefficients { count: reader.word(), values: reader.array() };
        Self { numbers, ocv_neg: coefficients(), ocv_pos: coefficients() }
    }

    pub fn slots(&self) -> Vec<Slot> {
        let mut slots: Vec<Slot> = self.numbers.iter().map(|x| float(*x)).collect();
        for side in [&self.ocv_neg, &self.ocv_pos] {
            slots.extend([word(side.count), array(&side.values)]);
        }
        slots
    }

    pub fn ready(p: DfnParams) -> Self {
        let numbers = [
            p.l_neg, p.l_sep, p.l_pos, p.area, p.r_neg, p.d_s_neg_ref, p.c_s_neg_max, p.eps_neg, p.theta_neg_0, p.k_neg, p.r_pos,
            p.d_s_pos_ref, p.c_s_pos_max, p.eps_pos, p.theta_pos_0, p.k_pos, p.c_e0, p.d_e0, p.gamma_e, p.t_plus, p.kappa0,
            p.eps_e_elec, p.eps_e_sep, p.brugg, p.temperature_k,
        ];
        Self { numbers, ocv_neg: Coefficients::of(&p.ocv_neg_coeffs), ocv_pos: Coefficients::of(&p.ocv_pos_coeffs) }
    }

    pub fn nmc_graphite() -> Self {
        Self::ready(DfnParams::nmc_graphite())
    }

    pub fn lfp_graphite() -> Self {
        Self::ready(DfnParams::lfp_graphite())
    }

    fn fits(&self) -> bool {
        all_in(&self.numbers, &RANGES) && self.ocv_neg.fits() && self.ocv_pos.fits()
    }

    fn params(&self) -> DfnParams {
        let [l_neg, l_sep, l_pos, area, r_neg, d_s_neg_ref, c_s_neg_max, eps_neg, theta_neg_0, k_neg, r_pos, d_s_pos_ref, c_s_pos_max, eps_pos, theta_pos_0, k_pos, c_e0, d_e0, gamma_e, t_plus, kappa0, eps_e_elec, eps_e_sep, brugg, temperature_k] =
            self.numbers;
        let (ocv_neg_coeffs, ocv_pos_coeffs) = (self.ocv_neg.used(), self.ocv_pos.used());
        DfnParams {
            l_neg, l_sep, l_pos, area, r_neg, d_s_neg_ref, c_s_neg_max, eps_neg, theta_neg_0, k_neg, r_pos, d_s_pos_ref, c_s_pos_max,
            eps_pos, theta_pos_0, k_pos, c_e0, d_e0, gamma_e, t_plus, kappa0, eps_e_elec, eps_e_sep, brugg, temperature_k,
            ocv_neg_coeffs, ocv_pos_coeffs,
        }
    }
}

/// n_x_neg, n_x_pos, n_r; v_min, v_max. The Newton settings are dropped.
#[derive(Clone, Copy)]
pub struct Config {
    pub counts: [u64; 3],
    pub voltages: [f64; 2],
}

impl Config {
    pub fn read(reader: &mut Reader) -> Self {
        Self { counts: std::array::from_fn(|_| reader.word()), voltages: reader.floats() }
    }

    pub fn slots(&self) -> Vec<Slot> {
        self.counts.iter().map(|n| word(*n)).chain(self.voltages.iter().map(|x| float(*x))).collect()
    }

    fn grid_fits(&self) -> bool {
        let [n_x_neg, n_x_pos, n_r] = self.counts;
        (1..=MOST_X).contains(&n_x_neg) && (1..=MOST_X).contains(&n_x_pos) && (2..=MOST_R).contains(&n_r)
    }

    fn dfn(&self) -> DfnConfig {
        let [n_x_neg, n_x_pos, n_r] = self.counts.map(|n| n as usize);
        let [v_min, v_max] = self.voltages;
        DfnConfig { n_x_neg, n_x_pos, n_r, v_min, v_max, ..DfnConfig::default() }
    }
}

#[derive(Clone)]
pub struct Cell {
    pub params: Params,
    pub config: Config,
    /// place xi * n_r + ri
    pub c_s_neg: [f64; SOLID_PLACES],
    pub c_s_pos: [f64; SOLID_PLACES],
    pub c_e: [f64; ELECTROLYTE_PLACES],
    pub time_s: f64,
    /// voltage, current, theta_neg_surf, theta_pos_surf: a step only overwrites them
    pub overwritten: [f64; 4],
}

pub fn report_row(s: &DfnStep) -> [f64; ROW] {
    let cutoff = if s.cutoff { 1.0 } else { 0.0 };
    [s.voltage, s.current, s.time_s, s.theta_neg, s.theta_pos, s.delta_c_e_max, cutoff, s.newton_iter as f64]
}

pub fn report_slots(s: &DfnStep) -> Vec<Slot> {
    let mut slots: Vec<Slot> = report_row(s)[..6].iter().map(|x| float(*x)).collect();
    slots.extend([flag(s.cutoff), word(s.newton_iter as u64)]);
    slots
}

fn flat<const N: usize>(rows: &[Vec<f64>]) -> [f64; N] {
    let all: Vec<f64> = rows.concat();
    std::array::from_fn(|i| all.get(i).copied().unwrap_or(0.0))
}

impl Cell {
    pub fn read(reader: &mut Reader) -> Self {
        Self {
            params: Params::read(reader),
            config: Config::read(reader),
            c_s_neg: reader.array(),
            c_s_pos: reader.array(),
            c_e: reader.array(),
            time_s: reader.float(),
            overwritten: reader.floats(),
        }
    }

    pub fn slots(&self) -> Vec<Slot> {
        let mut slots = self.params.slots();
        slots.extend(self.config.slots());
        slots.extend(self.changed_slots());
        slots
    }

    /// What a step changes.
    pub fn changed_slots(&self) -> Vec<Slot> {
        let mut slots = vec![array(&self.c_s_neg), array(&self.c_s_pos), array(&self.c_e), float(self.time_s)];
        slots.extend(self.overwritten.iter().map(|x| float(*x)));
        slots
    }

    pub fn new(params: Params, config: Config) -> Result<Self, u64> {
        let mut met = Met::default();
        met.when(1, !config.grid_fits());
        met.when(2, !params.fits() || !config.voltages.iter().all(|x| VOLTAGE.holds(*x)));
        met.refuse()?;
        Ok(Self::holding(params, config, access::state_of(DfnSolver::new(params.params(), config.dfn()))))
    }

    fn holding(params: Params, config: Config, state: DfnState) -> Self {
        let mut c_e = [0.0; ELECTROLYTE_PLACES];
        c_e[..state.c_e.len()].copy_from_slice(&state.c_e);
        Self {
            params,
            config,
            c_s_neg: flat(&state.c_s_neg),
            c_s_pos: flat(&state.c_s_pos),
            c_e,
            time_s: state.time_s,
            overwritten: [state.voltage, state.current, state.theta_neg_surf, state.theta_pos_surf],
        }
    }

    fn met(&self) -> Met {
        let mut met = Met::default();
        met.when(1, !self.config.grid_fits());
        let [n_x_neg, n_x_pos] = [0, 1].map(|i| self.config.counts[i].min(MOST_X) as usize);
        let n_r = self.config.counts[2].min(MOST_R) as usize;
        let solid = |all: &[f64], n_x: usize, c_s_max: f64| places(all, n_x * n_r, |x| range(0.0, c_s_max).holds(x));
        let fields = self.params.fits()
            && self.config.voltages.iter().all(|x| VOLTAGE.holds(*x))
            && solid(&self.c_s_neg, n_x_neg, self.params.numbers[6])
            && solid(&self.c_s_pos, n_x_pos, self.params.numbers[12])
            && places(&self.c_e, n_x_neg + 1 + n_x_pos, |x| CONCENTRATION.holds(x))
            && clock(self.time_s);
        met.when(2, !fields);
        met
    }

    fn solver(&self) -> DfnSolver {
        let [n_x_neg, n_x_pos, n_r] = self.config.counts.map(|n| n as usize);
        let rows = |all: &[f64], n_x: usize| all[..n_x * n_r].chunks(n_r).map(<[f64]>::to_vec).collect();
        let [voltage, current, theta_neg_surf, theta_pos_surf] = self.overwritten;
        let state = DfnState {
            c_s_neg: rows(&self.c_s_neg, n_x_neg),
            c_s_pos: rows(&self.c_s_pos, n_x_pos),
            c_e: self.c_e[..n_x_neg + 1 + n_x_pos].to_vec(),
            time_s: self.time_s,
            voltage,
            current,
            theta_neg_surf,
            theta_pos_surf,
        };
        access::solver(self.params.params(), self.config.dfn(), state)
    }

    pub fn step(&self, current_a: f64, dt_s: f64) -> Result<(Self, DfnStep), u64> {
        let mut met = self.met();
        met.when(3, !load(current_a, MOST_CURRENT));
        met.when(4, !interval(dt_s));
        met.refuse()?;
        let mut made = self.solver();
        let report = made.step(current_a, dt_s);
        let next = Self::holding(self.params, self.config, access::state_of(made));
        finite_or_8(&[&next.c_s_neg, &next.c_s_pos, &next.c_e, &[next.time_s], &next.overwritten, &report_row(&report)])?;
        Ok((next, report))
    }

    /// Rows go to so many places, the summary of their lowest voltages to so many.
    pub fn run_galvanostatic(&self, current_a: f64, dt_s: f64, max_time_s: f64, places: usize, lowest_places: usize) -> Run<Self> {
        let mut met = self.met();
        met.when(10, places < ROW);
        met.when(10, lowest_places < groups(places / ROW));
        met.when(3, !load(current_a, MOST_CURRENT));
        met.when(4, !interval(dt_s) || !max_time_s.is_finite());
        if let Err(number) = met.refuse() {
            return refused(self, number);
        }
        let step = |cell: &Self| {
            let (cell, report) = cell.step(current_a, dt_s)?;
            Ok(Turn { cell, row: report_row(&report), cutoff: report.cutoff })
        };
        let made = run(self, places, step, |_, cell| cell.time_s >= max_time_s, false);
        if matches!(made.ending, Ending::Voltage | Ending::Time) {
            let steps = self.solver().run_galvanostatic(current_a, dt_s, max_time_s);
            let rows: Vec<[f64; ROW]> = steps.iter().map(report_row).collect();
            assert_eq!(rows, made.rows, "the Rust's own run");
        }
        made
    }
}
