//! The electrode sheet: electrode.rs without the particle.
use crate::table::{all_in, finite_or_8, range, Met, Range, TEMPERATURE};
use crate::words::{float, word, Reader, Slot};
use oracle::electrode::{self, ElectrodeParams, ElectrodeType};

/// r_particle, d_s_ref, c_s_max, theta_init, thickness, epsilon_s, area, e_a_ds, k_bv, t_ref
pub const RANGES: [Range; 10] = [
    range(1e-8, 1e-3),
    range(1e-20, 1e-8),
    range(1.0, 131_072.0),
    range(0.0, 1.0),
    range(1e-7, 1e-2),
    range(0.01, 1.0),
    range(1e-6, 1e4),
    range(0.0, 1e5),
    range(1e-16, 1.0),
    range(200.0, 400.0),
];

#[derive(Clone, Copy)]
pub struct Sheet {
    /// 1 graphite, 2 LFP, 3 NMC
    pub chemistry: u64,
    pub numbers: [f64; 10],
}

impl Sheet {
    pub fn read(reader: &mut Reader) -> Self {
        Self { chemistry: reader.word(), numbers: reader.floats() }
    }

    pub fn slots(&self) -> Vec<Slot> {
        std::iter::once(word(self.chemistry)).chain(self.numbers.iter().map(|x| float(*x))).collect()
    }

    pub fn ready(params: ElectrodeParams) -> Self {
        let chemistry = match params.electrode_type {
            ElectrodeType::Graphite => 1,
            ElectrodeType::LFP => 2,
            ElectrodeType::NMC => 3,
        };
        let numbers = [
            params.r_particle,
            params.d_s_ref,
            params.c_s_max,
            params.theta_init,
            params.thickness,
            params.epsilon_s,
            params.area,
            params.e_a_ds,
            params.k_bv,
            params.t_ref,
        ];
        Self { chemistry, numbers }
    }

    pub fn graphite_anode() -> Self {
        Self::ready(ElectrodeParams::graphite_anode())
    }

    pub fn lfp_cathode() -> Self {
        Self::ready(ElectrodeParams::lfp_cathode())
    }

    pub fn nmc_cathode() -> Self {
        Self::ready(ElectrodeParams::nmc_cathode())
    }

    pub fn c_s_max(&self) -> f64 {
        self.numbers[2]
    }

    pub fn fits(&self) -> bool {
        (1..=3).contains(&self.chemistry) && all_in(&self.numbers, &RANGES)
    }

    /// The Rust's record, of a sheet that fits.
    pub fn params(&self) -> ElectrodeParams {
        let [r_particle, d_s_ref, c_s_max, theta_init, thickness, epsilon_s, area, e_a_ds, k_bv, t_ref] = self.numbers;
        let electrode_type = match self.chemistry {
            1 => ElectrodeType::Graphite,
            2 => ElectrodeType::LFP,
            _ => ElectrodeType::NMC,
        };
        ElectrodeParams { electrode_type, r_particle, d_s_ref, c_s_max, theta_init, thickness, epsilon_s, area, e_a_ds, k_bv, t_ref }
    }

    fn checked(&self, argument_ok: bool) -> Result<ElectrodeParams, u64> {
        let mut met = Met::default();
        met.when(2, !self.fits() || !argument_ok);
        met.refuse()?;
        Ok(self.params())
    }

    pub fn d_s(&self, temp_k: f64) -> Result<f64, u64> {
        let mut met = Met::default();
        met.when(2, !self.fits());
        met.when(5, !TEMPERATURE.holds(temp_k));
        met.refuse()?;
        finite(self.params().d_s(temp_k))
    }

    pub fn specific_area(&self) -> Result<f64, u64> {
        finite(self.checked(true)?.specific_area())
    }

    pub fn ocp(&self, theta: f64) -> Result<f64, u64> {
        finite(self.checked(theta.is_finite())?.ocp(theta))
    }

    pub fn docp_dtheta(&self, theta: f64) -> Result<f64, u64> {
        finite(self.checked(theta.is_finite())?.docp_dtheta(theta))
    }
}

/// The number, or 8 where it is a NaN or an infinity.
pub fn finite(x: f64) -> Result<f64, u64> {
    finite_or_8(&[&[x]]).map(|()| x)
}

pub fn sphere_volume(r: f64) -> Result<f64, u64> {
    let mut met = Met::default();
    met.when(2, !RANGES[0].holds(r));
    met.refuse()?;
    finite(electrode::sphere_volume(r))
}
