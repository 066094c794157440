//! The electrolyte's record and profile: electrolyte.rs.
use crate::electrode::finite;
use crate::table::{all_in, finite_or_8, interval, load, places, range, Met, Range, MOST_SOURCE, TEMPERATURE};
use crate::words::{array, float, word, Reader, Slot};
use oracle::electrolyte::{ElectrolyteParams, ElectrolyteState};

/// d_e_ref, kappa_ref, t_plus, bruggeman, c_e_init, e_a_de, e_a_kappa, t_ref
pub const RANGES: [Range; 8] = [
    range(1e-16, 1e-6),
    range(1e-6, 100.0),
    range(0.0, 1.0),
    range(0.0, 4.0),
    range(1.0, 1e5),
    range(0.0, 1e5),
    range(0.0, 1e5),
    range(200.0, 400.0),
];
pub const LENGTH: Range = range(1e-7, 1e-2);
pub const POROSITY: Range = range(0.01, 1.0);
pub const MOST_NODES: u64 = 32;
pub const PLACES: usize = 96;
pub const FLOOR: Range = range(1e-10, f64::MAX);

#[derive(Clone, Copy)]
pub struct Params {
    pub numbers: [f64; 8],
}

impl Params {
    pub fn read(reader: &mut Reader) -> Self {
        Self { numbers: reader.floats() }
    }

    pub fn slots(&self) -> Vec<Slot> {
        self.numbers.iter().map(|x| float(*x)).collect()
    }

    pub fn lipf6_ec_dmc() -> Self {
        let p = ElectrolyteParams::lipf6_ec_dmc();
        Self { numbers: [p.d_e_ref, p.kappa_ref, p.t_plus, p.bruggeman, p.c_e_init, p.e_a_de, p.e_a_kappa, p.t_ref] }
    }

    pub fn fits(&self) -> bool {
        all_in(&self.numbers, &RANGES)
    }

    pub fn params(&self) -> ElectrolyteParams {
        let [d_e_ref, kappa_ref, t_plus, bruggeman, c_e_init, e_a_de, e_a_kappa, t_ref] = self.numbers;
        ElectrolyteParams { d_e_ref, kappa_ref, t_plus, bruggeman, c_e_init, e_a_de, e_a_kappa, t_ref }
    }

    fn checked(&self, porosity: f64, temp_k: f64) -> Result<ElectrolyteParams, u64> {
        let mut met = Met::default();
        met.when(2, !self.fits() || !POROSITY.holds(porosity));
        met.when(5, !TEMPERATURE.holds(temp_k));
        met.refuse()?;
        Ok(self.params())
    }

    pub fn d_e(&self, temp_k: f64) -> Result<f64, u64> {
        finite(self.checked(1.0, temp_k)?.d_e(temp_k))
    }

    pub fn kappa(&self, temp_k: f64) -> Result<f64, u64> {
        finite(self.checked(1.0, temp_k)?.kappa(temp_k))
    }

    pub fn d_e_eff(&self, porosity: f64, temp_k: f64) -> Result<f64, u64> {
        finite(self.checked(porosity, temp_k)?.d_e_eff(porosity, temp_k))
    }

    pub fn kappa_eff(&self, porosity: f64, temp_k: f64) -> Result<f64, u64> {
        finite(self.checked(porosity, temp_k)?.kappa_eff(porosity, temp_k))
    }
}

/// Parameters, three lengths, three porosities, three counts of nodes, in the order of the Rust's `new`.
#[derive(Clone, Copy)]
pub struct Regions {
    pub params: Params,
    pub lengths: [f64; 3],
    pub porosities: [f64; 3],
    pub counts: [u64; 3],
}

impl Regions {
    pub fn read(reader: &mut Reader) -> Self {
        let params = Params::read(reader);
        let (lengths, porosities) = (reader.floats(), reader.floats());
        Self { params, lengths, porosities, counts: std::array::from_fn(|_| reader.word()) }
    }

    pub fn slots(&self) -> Vec<Slot> {
        let mut slots = self.params.slots();
        slots.extend(self.lengths.iter().chain(&self.porosities).map(|x| float(*x)));
        slots.extend(self.counts.iter().map(|n| word(*n)));
        slots
    }

    fn met(&self) -> Met {
        let mut met = Met::default();
        met.when(1, !self.counts.iter().all(|n| (1..=MOST_NODES).contains(n)));
        let in_range = self.lengths.iter().all(|x| LENGTH.holds(*x)) && self.porosities.iter().all(|x| POROSITY.holds(*x));
        met.when(2, !self.params.fits() || !in_range);
        met
    }

    fn state(&self) -> ElectrolyteState {
        let [l_neg, l_sep, l_pos] = self.lengths;
        let [eps_neg, eps_sep, eps_pos] = self.porosities;
        let [n_neg, n_sep, n_pos] = self.counts.map(|n| n as usize);
        ElectrolyteState::new(self.params.params(), l_neg, l_sep, l_pos, eps_neg, eps_sep, eps_pos, n_neg, n_sep, n_pos)
    }
}

#[derive(Clone)]
pub struct Electrolyte {
    pub regions: Regions,
    pub c_e: [f64; PLACES],
}

impl Electrolyte {
    pub fn read(reader: &mut Reader) -> Self {
        Self { regions: Regions::read(reader), c_e: reader.array() }
    }

    pub fn slots(&self) -> Vec<Slot> {
        let mut slots = self.regions.slots();
        slots.push(array(&self.c_e));
        slots
    }

    pub fn new(regions: Regions) -> Result<Self, u64> {
        regions.met().refuse()?;
        Ok(Self { regions, c_e: [0.0; PLACES] }.with(&regions.state()))
    }

    fn with(&self, state: &ElectrolyteState) -> Self {
        let mut next = self.clone();
        next.c_e[..state.c_e.len()].copy_from_slice(&state.c_e);
        next
    }

    fn met(&self) -> Met {
        let used: u64 = self.regions.counts.iter().map(|n| n.min(&MOST_NODES)).sum();
        let mut met = self.regions.met();
        met.when(2, !places(&self.c_e, used as usize, |x| FLOOR.holds(x)));
        met
    }

    fn state(&self) -> ElectrolyteState {
        let mut state = self.regions.state();
        let used = state.c_e.len();
        state.c_e.copy_from_slice(&self.c_e[..used]);
        state
    }

    pub fn n_total(&self) -> Result<u64, u64> {
        self.met().refuse()?;
        Ok(self.state().n_total() as u64)
    }

    pub fn c_avg(&self) -> Result<f64, u64> {
        self.met().refuse()?;
        finite(self.state().c_avg())
    }

    pub fn step_concentration(&self, j_n_neg: f64, j_n_pos: f64, dt: f64, temp_k: f64) -> Result<Self, u64> {
        let mut met = self.met();
        met.when(3, !load(j_n_neg, MOST_SOURCE) || !load(j_n_pos, MOST_SOURCE));
        met.when(4, !interval(dt));
        met.when(5, !TEMPERATURE.holds(temp_k));
        met.refuse()?;
        let mut moved = self.state();
        moved.step_concentration(j_n_neg, j_n_pos, dt, temp_k);
        finite_or_8(&[&moved.c_e])?;
        Ok(self.with(&moved))
    }

    pub fn dt_stable(&self, temp_k: f64) -> Result<f64, u64> {
        let mut met = self.met();
        met.when(5, !TEMPERATURE.holds(temp_k));
        met.refuse()?;
        finite(self.state().dt_stable(temp_k))
    }
}
