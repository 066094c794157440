//! Every argument of a call at its limits: one at a time, and two faults at once.
use calls::table::{Range, TEMPERATURE};
use calls::words::{bits, Slot};

/// What an argument may be.
#[derive(Clone)]
pub enum Kind {
    /// in a closed range, else 2
    Number(Range),
    /// a reference temperature: in a closed range, else 2
    Reference(Range),
    /// in its range, else 5
    Temperature,
    /// above 0, at most so much
    Above0(f64),
    /// finite and at most so much in size
    Load(f64),
    /// any finite number
    Finite,
    /// finite and not below 0
    Clock,
    /// a time in a closed range, else 4
    Time(Range),
    /// not checked at all
    Free,
    /// a whole number from .. to
    Count(u64, u64),
    /// the length of a lent slice, which is at least so much
    Length(u64),
    /// how many bytes a text has, at most so many, else 12; those that are not listed are 0
    TextLength(u64),
    /// the first eight bytes of a line's first field, else 11
    Digits,
    /// not changed
    Fixed,
    /// an array of `total` places, the first `used` in a range, the others +0
    Places { total: usize, used: usize, each: Range },
}

/// An argument of a call that nothing refuses.
#[derive(Clone)]
pub struct Argument {
    pub slot: Slot,
    pub kind: Kind,
}

/// An argument for each slot.
pub fn arguments(slots: Vec<Slot>, kinds: Vec<Kind>) -> Vec<Argument> {
    assert_eq!(slots.len(), kinds.len());
    slots.into_iter().zip(kinds).map(|(slot, kind)| Argument { slot, kind }).collect()
}

/// Numbers in these ranges, the last a reference temperature.
pub fn with_reference(ranges: &[Range]) -> Vec<Kind> {
    let (last, others) = ranges.split_last().expect("a range at least");
    others.iter().map(|range| Kind::Number(*range)).chain([Kind::Reference(*last)]).collect()
}

/// The ends, their neighbours on both sides, and what is special to binary64.
fn limits(low: f64, high: f64) -> Vec<u64> {
    let subnormal = f64::from_bits(1);
    let largest_subnormal = f64::from_bits((1 << 52) - 1);
    [
        low, high, low.next_up(), high.next_down(), low.next_down(), high.next_up(), 0.0, -0.0, f64::NAN, f64::INFINITY,
        f64::NEG_INFINITY, subnormal, -subnormal, largest_subnormal, f64::MAX,
    ]
    .iter()
    .map(|x| bits(*x))
    .collect()
}

fn counts(low: u64, high: u64) -> Vec<u64> {
    vec![0, 1, low.wrapping_sub(1), low, low + 1, high - 1, high, high + 1, 1 << 32, (1 << 32) + low, u64::MAX]
}

/// The slot's array with one place changed.
fn changed(slot: &Slot, at: usize, to: u64) -> Slot {
    let Slot::Places(listed) = slot else { panic!("an array") };
    let mut places = listed.clone();
    places.resize(places.len().max(at + 1), 0);
    places[at] = to;
    Slot::Places(places)
}

impl Argument {
    fn variants(&self) -> Vec<Slot> {
        let words = |list: Vec<u64>| list.into_iter().map(Slot::Word).collect();
        match self.kind {
            Kind::Number(range) | Kind::Reference(range) | Kind::Time(range) => words(limits(range.low, range.high)),
            Kind::Temperature => words(limits(TEMPERATURE.low, TEMPERATURE.high)),
            Kind::Above0(most) => words(limits(0.0, most)),
            Kind::Load(most) => words(limits(-most, most)),
            Kind::Finite | Kind::Free => words(limits(f64::MIN, f64::MAX)),
            Kind::Clock => words(limits(0.0, f64::MAX)),
            Kind::Count(low, high) => words(counts(low, high)),
            Kind::Length(least) => words(vec![0, 1, least - 1, least, least + 1, 2 * least - 1, 2 * least, 3 * least + 5]),
            Kind::TextLength(most) => words(vec![most, most + 1]),
            Kind::Digits => self.faults(),
            Kind::Fixed => Vec::new(),
            Kind::Places { total, used, each } => {
                let mut all = Vec::new();
                let mut inside = vec![0, used / 2, used.saturating_sub(1)];
                inside.dedup();
                for at in inside.into_iter().filter(|at| *at < used) {
                    all.extend(limits(each.low, each.high).into_iter().map(|to| changed(&self.slot, at, to)));
                }
                let mut outside = vec![used, total - 1];
                outside.dedup();
                for at in outside.into_iter().filter(|at| used <= *at && *at < total) {
                    for to in [-0.0, f64::from_bits(1), each.low.max(1.0), f64::NAN] {
                        all.push(changed(&self.slot, at, bits(to)));
                    }
                }
                all
            }
        }
    }

    fn faults(&self) -> Vec<Slot> {
        let one = |x: f64| vec![Slot::Word(bits(x))];
        match self.kind {
            Kind::Number(range) | Kind::Reference(range) | Kind::Time(range) => one(range.high.next_up()),
            Kind::Temperature => one(TEMPERATURE.high.next_up()),
            Kind::Above0(_) => one(0.0),
            Kind::Load(_) => one(f64::NAN),
            Kind::Finite => one(f64::INFINITY),
            Kind::Clock => one(-1.0),
            Kind::Free | Kind::Fixed => Vec::new(),
            Kind::Count(_, high) => vec![Slot::Word(high + 1)],
            Kind::Length(least) => vec![Slot::Word(least - 1)],
            Kind::TextLength(most) => vec![Slot::Word(most + 1)],
            Kind::Digits => vec![Slot::Word(u64::from_be_bytes(*b"0000000g"))],
            Kind::Places { used, total, each } => {
                let mut all = Vec::new();
                if used > 0 {
                    all.push(changed(&self.slot, used / 2, bits(each.high.next_up())));
                }
                if used < total {
                    all.push(changed(&self.slot, used, bits(-0.0)));
                }
                all
            }
        }
    }
}

fn with(base: &[Argument], changes: &[(usize, &Slot)]) -> Vec<Slot> {
    let mut slots: Vec<Slot> = base.iter().map(|a| a.slot.clone()).collect();
    for (at, slot) in changes {
        slots[*at] = (*slot).clone();
    }
    slots
}

/// The call itself, then each argument at its limits.
pub fn singles(base: &[Argument]) -> Vec<Vec<Slot>> {
    let mut cases = vec![with(base, &[])];
    for (at, argument) in base.iter().enumerate() {
        cases.extend(argument.variants().iter().map(|slot| with(base, &[(at, slot)])));
    }
    cases
}

/// Two faults at once, in every pair of arguments; of two that only a range each holds to, which share a number, in
/// neighbours alone; a reference temperature does not part its own neighbours.
pub fn pairs(base: &[Argument]) -> Vec<Vec<Slot>> {
    let ranged = |at: usize| matches!(base[at].kind, Kind::Number(_) | Kind::Reference(_));
    let neighbours = |at: usize, other: usize| at + 1 == other || at + 2 == other && matches!(base[at + 1].kind, Kind::Reference(_));
    let faults: Vec<(usize, Slot)> =
        base.iter().enumerate().flat_map(|(at, a)| a.faults().into_iter().map(move |slot| (at, slot))).collect();
    let mut cases = Vec::new();
    for (i, (at, first)) in faults.iter().enumerate() {
        for (other, second) in &faults[i + 1..] {
            let alike = ranged(*at) && ranged(*other);
            if at != other && (!alike || neighbours(*at, *other)) {
                cases.push(with(base, &[(*at, first), (*other, second)]));
            }
        }
    }
    cases
}

/// One fault in each argument.
pub fn one_fault(base: &[Argument]) -> Vec<Vec<Slot>> {
    let mut cases = vec![with(base, &[])];
    for (at, argument) in base.iter().enumerate() {
        cases.extend(argument.faults().iter().map(|slot| with(base, &[(at, slot)])));
    }
    cases
}
