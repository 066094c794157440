//! The elementary functions, the tests of a range, and the count of sub-steps.
use crate::draw::Draw;
use calls::solver::least_count;
use calls::table::{clock, interval, load, range, unused, TEMPERATURE};
use calls::words::{bits, flag, float, word, Reader, Slot};
use oracle::standins;

/// Zeros, ends of the format, powers of two, thresholds, each with its neighbours and with both signs.
fn specials() -> Vec<f64> {
    let mut chosen: Vec<f64> = (0..52).map(|k| f64::from_bits(1 << k)).collect();
    chosen.extend((1..2047).map(|e| f64::from_bits(e << 52)));
    chosen.extend([
        0.0, 1.5, 3.0, 6.0, 0.75, 0.1, 10.0, 1e150, 1e154, 1e155, 708.0, 709.0, 709.5, 745.0, 0.01, 0.99, 1e-14, 298.15, 8.314, f64::MAX,
        f64::INFINITY,
    ]);
    let mut all: Vec<u64> = Vec::new();
    for x in chosen {
        let n = x.to_bits();
        all.extend([n.saturating_sub(1), n, (n + 1).min(f64::INFINITY.to_bits())]);
    }
    all.sort_unstable();
    all.dedup();
    let mut both: Vec<f64> = all.iter().flat_map(|n| [f64::from_bits(*n), -f64::from_bits(*n)]).collect();
    both.push(f64::NAN);
    both
}

/// A number of moderate size, either sign.
fn moderate(draw: &mut Draw) -> f64 {
    let size = draw.within(range(1e-7, 1e3));
    if draw.below(2) == 0 {
        size
    } else {
        -size
    }
}

fn any(draw: &mut Draw) -> f64 {
    f64::from_bits(draw.bits())
}

/// Arguments at which H has other bits with x*(x/6) or (x*x)*(1/6) for (x*x)/6, or with 1 - (x*x)/6 rounded once.
const SIXTHS: [u64; 5] =
    [0x3F4B_48A4_1E82_F2E3, 0x3F4A_9074_535F_40E0, 0x3F4A_EF39_98F3_75E3, 0x3F4E_621C_8A8B_B511, 0x3F46_86D8_EC55_F657];

pub fn function_cases(draw: &mut Draw) -> Vec<Vec<Slot>> {
    let mut all = specials();
    all.extend((0..6000).map(|_| any(draw)));
    all.extend((0..6000).map(|_| moderate(draw)));
    all.extend((0..2000).map(|_| f64::from_bits(draw.bits() >> (12 + draw.below(40)))));
    // where L's last terms matter most
    all.extend((0..3000).map(|_| draw.uniform(1.48, 1.5)));
    // where H is by its series
    all.extend((0..2000).map(|_| draw.pick(&[1.0, -1.0]) * draw.within(range(8.7e-19, 0.0009765625))));
    all.extend(SIXTHS.iter().map(|n| f64::from_bits(*n)));
    all.iter().map(|x| vec![float(*x)]).collect()
}

/// E, L, S and H.
pub fn functions(arguments: &[Slot]) -> Vec<Slot> {
    let mut reader = Reader::new(arguments);
    let x = reader.float();
    reader.end();
    [standins::exp(x), standins::ln(x), x.sqrt(), standins::asinh(x)].map(float).to_vec()
}

/// Arguments that tell how many terms E's series has: 17 and 18 differ at the first two, 18 and 19 at the others.
const TERMS: [u64; 4] = [0x4086_17DA_14B8_3F81, 0xC084_F2D8_D089_2694, 0x4085_A4E9_5055_7529, 0xC084_E645_9E55_4398];

/// Where E has its largest and least values: 17 terms for 18 differ at about one in 2,000 of these.
pub fn exp_cases(draw: &mut Draw) -> Vec<Vec<Slot>> {
    let mut all: Vec<f64> = TERMS.iter().map(|n| f64::from_bits(*n)).collect();
    for limit in [709.0f64, -708.0] {
        all.extend([limit.next_down(), limit, limit.next_up()]);
    }
    all.extend((0..20_000).map(|_| draw.pick(&[1.0, -1.0]) * draw.uniform(650.0, 709.0)));
    all.iter().map(|t| vec![float(*t)]).collect()
}

/// E.
pub fn exp(arguments: &[Slot]) -> Vec<Slot> {
    let mut reader = Reader::new(arguments);
    let t = reader.float();
    reader.end();
    vec![float(standins::exp(t))]
}

pub fn powf_cases(draw: &mut Draw) -> Vec<Vec<Slot>> {
    let mut all = Vec::new();
    for b in [0.0, 0.5, 1.0, 1.5, 4.0] {
        for x in [0.01, 0.1, 0.3, 0.5, 0.9, 0.99, 1.0, 2.0, 0.0, -1.0, f64::MAX, f64::from_bits(1), f64::INFINITY, f64::NAN] {
            all.push(vec![float(x), float(b)]);
        }
    }
    all.extend((0..2000).map(|_| vec![float(draw.within(range(0.01, 1.0))), float(draw.within(range(0.0, 4.0)))]));
    all.extend((0..1000).map(|_| vec![float(any(draw)), float(moderate(draw))]));
    all.extend((0..500).map(|_| vec![float(any(draw)), float(any(draw))]));
    all
}

pub fn power(arguments: &[Slot]) -> Vec<Slot> {
    let mut reader = Reader::new(arguments);
    let [x, b] = reader.floats();
    reader.end();
    vec![float(standins::powf(x, b))]
}

/// x, a range's ends in order, and y, which is no zero of the other sign where x is a zero.
pub fn small_cases(draw: &mut Draw) -> Vec<Vec<Slot>> {
    let chosen = [0.0, -0.0, 1.0, -1.0, 0.5, 1e200, -1e200, f64::INFINITY, f64::NEG_INFINITY, f64::NAN, f64::from_bits(1), -f64::from_bits(1)];
    let mut all = Vec::new();
    for x in chosen {
        for y in chosen {
            for (low, high) in [(0.0, 1.0), (-1.0, 0.0), (0.01, 0.99), (0.0, 0.0)] {
                all.push([x, low, high, y]);
            }
        }
    }
    for _ in 0..2000 {
        let (a, b) = (moderate(draw), moderate(draw));
        let x = if draw.below(2) == 0 { any(draw) } else { moderate(draw) };
        all.push([x, a.min(b), a.max(b), if draw.below(2) == 0 { any(draw) } else { moderate(draw) }]);
    }
    let opposite_zeros = |x: f64, y: f64| x == 0.0 && y == 0.0 && x.to_bits() != y.to_bits();
    all.into_iter().filter(|[x, _, _, y]| !opposite_zeros(*x, *y)).map(|c| c.map(float).to_vec()).collect()
}

/// The powers 2, 3 and 4 of x, x clamped, the larger and the smaller of x and y, |x|.
pub fn small(arguments: &[Slot]) -> Vec<Slot> {
    let mut reader = Reader::new(arguments);
    let [x, low, high, y] = reader.floats();
    reader.end();
    let powers = [2, 3, 4].map(|k| standins::powi(x, k));
    let rest = [x.clamp(low, high), x.max(y), x.min(y), x.abs()];
    powers.iter().chain(&rest).map(|r| float(*r)).collect()
}

pub fn count_cases(draw: &mut Draw) -> Vec<Vec<Slot>> {
    let mut all = vec![0.0, -0.0, f64::from_bits(1), 0.5, 4096.0, 9_007_199_254_740_992.0];
    for whole in [1.0f64, 2.0, 3.0, 7.0, 64.0, 4095.0, 4096.0, 4_503_599_627_370_495.0] {
        all.extend([whole.next_down(), whole, whole.next_up(), whole + 0.5]);
    }
    all.extend((0..1000).map(|_| draw.uniform(0.0, 4097.0)));
    all.iter().map(|q| vec![float(*q)]).collect()
}

/// The least whole number not below q.
pub fn counts(arguments: &[Slot]) -> Vec<Slot> {
    let mut reader = Reader::new(arguments);
    let q = reader.float();
    reader.end();
    assert_eq!(least_count(q), q.ceil() as u64);
    vec![word(least_count(q))]
}

pub fn range_cases(draw: &mut Draw) -> Vec<Vec<Slot>> {
    let mut all = Vec::new();
    let ends = [(1e-8, 1e-3), (0.0, 1.0), (-10.0, 10.0), (200.0, 400.0), (0.0, 86_400.0), (1e-20, 1e-8), (-1e13, 1e13), (f64::MIN, f64::MAX)];
    for (low, high) in ends {
        let (low, high): (f64, f64) = (low, high);
        for x in [
            low, high, low.next_down(), low.next_up(), high.next_down(), high.next_up(), 0.0, -0.0, f64::NAN, f64::INFINITY,
            f64::NEG_INFINITY, f64::from_bits(1), -f64::from_bits(1), f64::MAX, f64::MIN,
        ] {
            all.push([x, low, high]);
        }
        all.extend((0..50).map(|_| [any(draw), low, high]));
    }
    all.extend((0..500).map(|_| [any(draw), any(draw), any(draw)]));
    all.into_iter().map(|case| case.map(|x| Slot::Word(bits(x))).to_vec()).collect()
}

/// Whether x lies in the range, is finite, is +0; is a load of at most `high`, an interval, a temperature, a clock; whether
/// its bits lie between the ends' bits; then the number x's bits where it does not lie in the range, else 0; and the first
/// of the ends' bits that is not 0.
pub fn ranges(arguments: &[Slot]) -> Vec<Slot> {
    let mut reader = Reader::new(arguments);
    let [x, low, high] = reader.floats();
    reader.end();
    let inside = range(low, high).holds(x);
    let tests = [inside, x.is_finite(), unused(x), load(x, high), interval(x), TEMPERATURE.holds(x), clock(x)];
    let [n, a, b] = [x, low, high].map(bits);
    let mut slots: Vec<Slot> = tests.map(flag).to_vec();
    slots.push(flag((a..=b).contains(&n)));
    slots.push(word(if inside { 0 } else { n }));
    slots.push(word([a, b].into_iter().find(|number| *number != 0).unwrap_or(0)));
    slots
}
