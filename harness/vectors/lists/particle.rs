//! The particle's calls.
use super::electrode::{self, random_sheet, ready_sheets};
use super::{number, reference};
use crate::cover::{arguments, pairs, singles, Kind};
use crate::draw::Draw;
use calls::electrode::Sheet;
use calls::particle::{Particle, PLACES};
use calls::table::{range, MOST_FLUX, TEMPERATURE};
use calls::words::{answer, array, float, word, Reader, Slot};

pub fn kinds(p: &Particle) -> Vec<Kind> {
    let each = range(0.0, p.sheet.c_s_max());
    [electrode::kinds(), vec![Kind::Count(3, PLACES as u64), Kind::Places { total: PLACES, used: p.n as usize, each }]].concat()
}

pub fn uniform(sheet: Sheet, n: u64) -> Particle {
    Particle::new(sheet, n).expect("a sheet and a count in range")
}

/// A profile drawn in its range: smooth, rough, or at the ends.
pub fn random_profile(draw: &mut Draw, sheet: Sheet, n: u64) -> Particle {
    let most = sheet.c_s_max();
    let mut particle = uniform(sheet, n);
    let (start, slope, way) = (draw.unit(), draw.uniform(-1.0, 1.0) / n as f64, draw.below(4));
    for (i, place) in particle.c_s[..n as usize].iter_mut().enumerate() {
        let part = match way {
            0 => draw.unit(),
            1 => draw.pick(&[0.0, 1.0, 0.5]),
            _ => start + slope * i as f64,
        };
        *place = (part * most).clamp(0.0, most);
    }
    particle
}

pub fn random_particle(draw: &mut Draw, n: u64) -> Particle {
    let sheet = if draw.below(3) == 0 { draw.pick(&ready_sheets()) } else { random_sheet(draw) };
    random_profile(draw, sheet, n)
}

pub fn new_cases(draw: &mut Draw) -> Vec<Vec<Slot>> {
    let mut all = Vec::new();
    for sheet in ready_sheets() {
        let base = arguments([sheet.slots(), vec![word(11)]].concat(), [electrode::kinds(), vec![Kind::Count(3, PLACES as u64)]].concat());
        all.extend([singles(&base), pairs(&base)].concat());
    }
    all.extend((2..=65).map(|n| [random_sheet(draw).slots(), vec![word(n)]].concat()));
    all.extend((3..=64).map(|n| [reference::sheet(draw).slots(), vec![word(n)]].concat()));
    all
}

pub fn new(arguments: &[Slot]) -> Vec<Slot> {
    let mut reader = Reader::new(arguments);
    let (sheet, n) = (Sheet::read(&mut reader), reader.word());
    reader.end();
    answer(Particle::new(sheet, n).map(|p| vec![array(&p.c_s)]))
}

pub(super) fn stepping(p: &Particle, j_n: f64, dt: f64, temp_k: f64) -> Vec<Slot> {
    [p.slots(), vec![float(j_n), float(dt), float(temp_k)]].concat()
}

pub fn step_cases(draw: &mut Draw) -> Vec<Vec<Slot>> {
    let mut all = Vec::new();
    for (sheet, n) in ready_sheets().into_iter().zip([3, 4, 5]) {
        let p = random_profile(draw, sheet, n);
        let kinds = [kinds(&p), vec![Kind::Load(MOST_FLUX), Kind::Above0(86_400.0), Kind::Temperature]].concat();
        let base = arguments(stepping(&p, 1e-6, 0.5, 310.0), kinds);
        all.extend([singles(&base), pairs(&base)].concat());
    }
    // -0 in the profile and in the flux: it stays at the surface and nowhere else
    let mut zeros = uniform(Sheet::graphite_anode(), 3);
    zeros.c_s[..3].fill(-0.0);
    all.push(stepping(&zeros, -1e-300, f64::from_bits(1), 298.15));
    all.push(stepping(&zeros, -0.0, 1.0, 298.15));
    for n in 3..=PLACES as u64 {
        for _ in 0..if n <= 12 { 90 } else { 3 } {
            let p = random_particle(draw, n);
            let temp_k = draw.within(TEMPERATURE);
            let (stable, most) = (p.dt_stable(temp_k).expect("a particle in range"), p.sheet.c_s_max());
            let d_s = p.sheet.d_s(temp_k).expect("a sheet in range");
            let dt = (stable * draw.pick(&[0.01, 0.3, 0.9, 3.0])).clamp(f64::MIN_POSITIVE, 86_400.0);
            let flux = (d_s * most / p.sheet.numbers[0] * n as f64 * draw.uniform(-1.0, 1.0)).clamp(-MOST_FLUX, MOST_FLUX);
            all.push(stepping(&p, flux, dt, temp_k));
        }
    }
    for (sheet, n) in ready_sheets().into_iter().zip([11, 8, 20]) {
        let mut p = uniform(sheet, n);
        let dt = 0.4 * p.dt_stable(298.15).expect("a particle in range");
        for turn in 0..12 {
            let flux = if turn % 4 == 3 { -2e-5 } else { 1e-5 };
            all.push(stepping(&p, flux, dt, 298.15));
            p = p.step(flux, dt, 298.15).expect("a step in range");
        }
    }
    all.extend(reference::particle_steps(draw));
    all
}

pub fn step(arguments: &[Slot]) -> Vec<Slot> {
    let mut reader = Reader::new(arguments);
    let p = Particle::read(&mut reader);
    let [j_n, dt, temp_k] = reader.floats();
    reader.end();
    answer(p.step(j_n, dt, temp_k).map(|next| vec![array(&next.c_s)]))
}

pub fn dt_stable_cases(draw: &mut Draw) -> Vec<Vec<Slot>> {
    let p = random_profile(draw, Sheet::nmc_cathode(), 3);
    let base = arguments([p.slots(), vec![float(250.0)]].concat(), [kinds(&p), vec![Kind::Temperature]].concat());
    let mut all = [singles(&base), pairs(&base)].concat();
    all.extend((3..=PLACES as u64).map(|n| [random_particle(draw, n).slots(), vec![float(draw.within(TEMPERATURE))]].concat()));
    all.extend(reference::particle_dt_stable(draw));
    all
}

pub fn dt_stable(arguments: &[Slot]) -> Vec<Slot> {
    let mut reader = Reader::new(arguments);
    let (p, temp_k) = (Particle::read(&mut reader), reader.float());
    reader.end();
    number(p.dt_stable(temp_k))
}

pub fn number_cases(draw: &mut Draw) -> Vec<Vec<Slot>> {
    let mut all = Vec::new();
    for (sheet, n) in ready_sheets().into_iter().zip([3, 4, 5]) {
        let p = random_profile(draw, sheet, n);
        let base = arguments(p.slots(), kinds(&p));
        all.extend([singles(&base), pairs(&base)].concat());
    }
    for n in 3..=PLACES as u64 {
        all.extend((0..3).map(|_| random_particle(draw, n).slots()));
    }
    all.extend((3..=PLACES as u64).map(|n| reference::particle(draw, n).slots()));
    all
}

/// `theta_surface`, `theta_avg`, `c_avg` and `ocp_surface`.
pub fn numbers(arguments: &[Slot]) -> Vec<Slot> {
    let mut reader = Reader::new(arguments);
    let p = Particle::read(&mut reader);
    reader.end();
    [p.theta_surface(), p.theta_avg(), p.c_avg(), p.ocp_surface()].into_iter().flat_map(number).collect()
}
