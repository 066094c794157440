//! The particle of electrode.rs: its sheet, its count of nodes and its profile.
use crate::electrode::{finite, Sheet};
use crate::table::{finite_or_8, interval, load, places, range, Met, MOST_FLUX, TEMPERATURE};
use crate::words::{array, word, Reader, Slot};
use oracle::electrode::ParticleDiffusion;

pub const PLACES: usize = 64;

#[derive(Clone)]
pub struct Particle {
    pub sheet: Sheet,
    pub n: u64,
    pub c_s: [f64; PLACES],
}

pub fn nodes_fit(n: u64) -> bool {
    (3..=PLACES as u64).contains(&n)
}

impl Particle {
    pub fn read(reader: &mut Reader) -> Self {
        Self { sheet: Sheet::read(reader), n: reader.word(), c_s: reader.array() }
    }

    pub fn slots(&self) -> Vec<Slot> {
        let mut slots = self.sheet.slots();
        slots.push(word(self.n));
        slots.push(array(&self.c_s));
        slots
    }

    pub fn new(sheet: Sheet, n: u64) -> Result<Self, u64> {
        let mut met = Met::default();
        met.when(1, !nodes_fit(n));
        met.when(2, !sheet.fits());
        met.refuse()?;
        let made = ParticleDiffusion::new(sheet.params(), n as usize);
        Ok(Self { sheet, n, c_s: [0.0; PLACES] }.with(&made))
    }

    /// Sheet and places, as a particle that is handed in is checked.
    pub fn fits(&self) -> bool {
        let solid = range(0.0, self.sheet.c_s_max());
        self.sheet.fits() && places(&self.c_s, self.n.min(PLACES as u64) as usize, |x| solid.holds(x))
    }

    pub fn met(&self) -> Met {
        let mut met = Met::default();
        met.when(1, !nodes_fit(self.n));
        met.when(2, !self.fits());
        met
    }

    /// The Rust's particle, of one that fits.
    pub fn diffusion(&self) -> ParticleDiffusion {
        let mut made = ParticleDiffusion::new(self.sheet.params(), self.n as usize);
        made.c_s.copy_from_slice(&self.c_s[..self.n as usize]);
        made
    }

    /// This particle with the profile that the Rust's holds.
    pub fn with(&self, changed: &ParticleDiffusion) -> Self {
        let mut next = self.clone();
        next.c_s[..changed.c_s.len()].copy_from_slice(&changed.c_s);
        next
    }

    fn checked(&self) -> Result<ParticleDiffusion, u64> {
        self.met().refuse()?;
        Ok(self.diffusion())
    }

    pub fn step(&self, j_n: f64, dt: f64, temp_k: f64) -> Result<Self, u64> {
        let mut met = self.met();
        met.when(3, !load(j_n, MOST_FLUX));
        met.when(4, !interval(dt));
        met.when(5, !TEMPERATURE.holds(temp_k));
        met.refuse()?;
        let mut moved = self.diffusion();
        moved.step(j_n, dt, temp_k);
        finite_or_8(&[&moved.c_s])?;
        Ok(self.with(&moved))
    }

    pub fn dt_stable(&self, temp_k: f64) -> Result<f64, u64> {
        let mut met = self.met();
        met.when(5, !TEMPERATURE.holds(temp_k));
        met.refuse()?;
        finite(self.diffusion().dt_stable(temp_k))
    }

    pub fn theta_surface(&self) -> Result<f64, u64> {
        finite(self.checked()?.theta_surface())
    }

    pub fn theta_avg(&self) -> Result<f64, u64> {
        finite(self.checked()?.theta_avg())
    }

    pub fn c_avg(&self) -> Result<f64, u64> {
        finite(self.checked()?.c_avg())
    }

    pub fn ocp_surface(&self) -> Result<f64, u64> {
        finite(self.checked()?.ocp_surface())
    }
}
