//! What a cycle is given besides its cell: phases, repeats, a budget of steps; and what may be wrong with it.
use crate::call::Call;
use crate::cases::{around, count_around, wrong_length, SPECIAL};
use crate::draw::Draw;
use crate::images::{bytes_from, words_of};
use crate::records;
use calls::cycle::{Phase, Schedule, MOST_BUDGET, MOST_REPEATS, MOST_REST, PLACES};
use calls::runs::ROW;
use calls::solver::Cell;
use calls::table::MOST_CURRENT;

/// Bytes of the image of all phases; each is two words, its kind and its number.
pub const IMAGE: usize = 16 * PLACES;
const LEAST: f64 = f64::from_bits(1);

/// As they cross the boundary: the phases' image, and the counts of phases, repeats and steps.
#[derive(Clone, Default, PartialEq)]
pub struct Phases {
    pub image: Vec<u8>,
    pub counts: [u64; 3],
}

impl Phases {
    pub fn of(schedule: &Schedule) -> Self {
        let words = |phase: &Phase| match *phase {
            Phase::Charge(current_a) => [1, current_a.to_bits()],
            Phase::Rest(time_s) => [2, time_s.to_bits()],
            Phase::Discharge(current_a) => [3, current_a.to_bits()],
        };
        let words: Vec<u64> = schedule.phases.iter().flat_map(words).collect();
        Self { image: bytes_from(&words), counts: [schedule.count, schedule.repeats, schedule.budget] }
    }

    /// The phase of each place; none where its kind is none of the three.
    pub fn read(&self) -> Vec<Option<Phase>> {
        let phase = |words: &[u64]| match (words[0], f64::from_bits(words[1])) {
            (1, current_a) => Some(Phase::Charge(current_a)),
            (2, time_s) => Some(Phase::Rest(time_s)),
            (3, current_a) => Some(Phase::Discharge(current_a)),
            _ => None,
        };
        words_of(&self.image).chunks_exact(2).map(phase).collect()
    }

    /// How many places are looked at.
    pub fn meant(&self) -> usize {
        self.counts[0].min(PLACES as u64) as usize
    }

    fn put(&mut self, word: usize, to: u64) {
        if let Some(place) = self.image.get_mut(8 * word..8 * word + 8) {
            place.copy_from_slice(&to.to_le_bytes());
        }
    }
}

fn current(draw: &mut Draw, size: f64) -> f64 {
    match draw.below(24) {
        0 => draw.pick(&[LEAST, MOST_CURRENT]),
        _ => (size * draw.uniform(0.1, 1.0)).clamp(LEAST, MOST_CURRENT),
    }
}

/// A rest's clock after so many steps.
pub fn clock_after(steps: u64, dt: f64) -> f64 {
    (0..steps).fold(0.0, |clock, _| clock + dt)
}

/// The time of a rest of a few steps: a value of its clock, one beside it, a multiple of the interval; or an end of its range.
fn time(draw: &mut Draw, dt: f64) -> f64 {
    let steps = draw.count(1, 6);
    let clock = clock_after(steps, dt);
    match draw.below(10) {
        0 => draw.pick(&[0.0, -0.0, LEAST, 1.0, MOST_REST]),
        1 => clock.next_up(),
        2 => clock.next_down(),
        3 | 4 => clock,
        5 => dt * steps as f64,
        _ => dt * draw.uniform(0.0, 6.0),
    }
}

/// Phases at all places, currents of about one size; in turns out and in with rests between, or in any order.
pub fn phases(draw: &mut Draw, size: f64, dt: f64) -> [Phase; PLACES] {
    let (in_turns, first) = (draw.below(2) == 0, draw.below(4));
    std::array::from_fn(|at| {
        let kind = if in_turns { (first + at as u64) % 4 } else { draw.below(4) };
        match kind {
            0 => Phase::Discharge(current(draw, size)),
            2 => Phase::Charge(current(draw, size)),
            _ => Phase::Rest(time(draw, dt)),
        }
    })
}

/// What a phase's steps apply.
pub fn current_of(phase: Phase) -> f64 {
    match phase {
        Phase::Charge(current_a) => -current_a,
        Phase::Rest(_) => 0.0,
        Phase::Discharge(current_a) => current_a,
    }
}

pub fn repeats(draw: &mut Draw) -> u64 {
    match draw.below(8) {
        0 => draw.count(1, MOST_REPEATS),
        1..=3 => 1,
        _ => draw.count(1, 5),
    }
}

/// How many steps at most: a few, some dozen, some hundred, of few some thousand.
pub fn most_steps(draw: &mut Draw) -> u64 {
    match draw.below(64) {
        0 => draw.count(1000, 4000),
        1..=12 => draw.count(100, 400),
        13..=36 => draw.count(20, 60),
        _ => draw.count(1, 16),
    }
}

/// A budget about the steps that the cycle makes, where these are so many at most; or any.
pub fn budget(draw: &mut Draw, cell: &Cell, schedule: &Schedule, most: u64) -> u64 {
    let made = cell.cycle(&Schedule { budget: most, ..*schedule }, ROW * most as usize).rows.len() as u64;
    match draw.below(8) {
        0 => draw.count(1, most),
        1 | 2 => made.max(1),
        3 => made.saturating_sub(1).max(1),
        4 => made + 1,
        _ => most,
    }
}

/// Anything at the places that are not looked at.
pub fn fill_unused(draw: &mut Draw, phases: &mut Phases) {
    for word in 2 * phases.meant()..2 * PLACES {
        let to = if draw.below(2) == 0 { draw.pick(&SPECIAL) } else { draw.count(0, 4) };
        phases.put(word, to);
    }
}

/// A kind: one of the three, next to them, or none of them.
fn some_kind(draw: &mut Draw) -> u64 {
    draw.pick(&[0, 4, 5, 1 << 8, (1 << 32) + 1, 1 << 63, u64::MAX, 1, 2, 3])
}

/// A budget at its limit with room for its rows; rests of one step each keep the cycle short.
fn budget_at_limit(draw: &mut Draw, call: &mut Call) {
    let budget = draw.pick(&[MOST_BUDGET - 1, MOST_BUDGET, MOST_BUDGET, MOST_BUDGET + 1]);
    call.phases.counts[1..].copy_from_slice(&[draw.count(1, 4), budget]);
    for at in 0..PLACES {
        call.phases.put(2 * at, 2);
        call.phases.put(2 * at + 1, 0);
    }
    call.rows = ROW * budget as usize - draw.pick(&[0, 0, 1]);
}

/// Changes one thing: a count, a kind, a number, the length of the image or of the slice.
pub fn with_fault(draw: &mut Draw, call: &mut Call) {
    let most = [PLACES as u64, MOST_REPEATS, MOST_BUDGET];
    // among the places that are looked at, mostly
    let places = if draw.below(4) == 0 { PLACES } else { call.phases.meant().max(1) };
    let at = draw.below(places as u64) as usize;
    match draw.below(16) {
        0..=3 => {
            let which = draw.below(3) as usize;
            call.phases.counts[which] = count_around(draw, 1, most[which]);
        }
        4..=6 => call.phases.put(2 * at, some_kind(draw)),
        7 | 8 => call.phases.put(2 * at + 1, around(draw, 0.0, MOST_CURRENT)),
        9 | 10 => call.phases.put(2 * at + 1, around(draw, 0.0, MOST_REST)),
        11 => call.phases.put(2 * at + 1, draw.pick(&[0.0, -0.0, f64::INFINITY, f64::NAN]).to_bits()),
        12 => call.phases.image.resize(wrong_length(draw, IMAGE), (call.filler >> 20) as u8),
        13 if draw.below(8) == 0 => budget_at_limit(draw, call),
        _ => {
            let room = ROW as u64 * call.phases.counts[2].min(MOST_BUDGET);
            call.rows = draw.pick(&[0, room / 2, room.saturating_sub(ROW as u64), room.saturating_sub(1), room]) as usize;
        }
    }
}

/// Phases of one step each, to be repeated as often as can be: rests that are over after it, and, of a cell whose every row has cutoff,
/// charges and discharges.
pub fn single_steps(draw: &mut Draw, size: f64, dt: f64) -> [Phase; PLACES] {
    std::array::from_fn(|_| match draw.below(3) {
        0 => Phase::Charge(current(draw, size)),
        1 => Phase::Rest(draw.pick(&[0.0, 0.5 * dt, dt])),
        _ => Phase::Discharge(current(draw, size)),
    })
}

/// Rests that take all steps of the largest budget: 1,000 times four of 25 steps.
pub fn longest_rests(dt: f64) -> [Phase; PLACES] {
    [Phase::Rest(clock_after(MOST_BUDGET / MOST_REPEATS / 4, dt)); PLACES]
}

/// Currents so small as those of `records::low_current`, and rests.
pub fn low_phases(draw: &mut Draw, area: f64, dt: f64) -> [Phase; PLACES] {
    std::array::from_fn(|_| {
        let current_a = records::low_current(draw, area).abs().clamp(LEAST, MOST_CURRENT);
        match draw.below(4) {
            0 => Phase::Rest(time(draw, dt)),
            1 | 2 => Phase::Charge(current_a),
            _ => Phase::Discharge(current_a),
        }
    })
}
