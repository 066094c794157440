//! Drawn records: ready ones, ready ones with every number moved, and ones from the whole of their ranges.
use crate::draw::Draw;
use calls::dfn::{self, Coefficients};
use calls::electrode::{self, Sheet};
use calls::electrolyte::{self, Electrolyte, Params, Regions};
use calls::particle::Particle;
use calls::solver::{self, Cell, Config};
use calls::table::{Range, TEMPERATURE};

/// Each number moved by up to a factor of two, in its range.
fn moved<const N: usize>(draw: &mut Draw, numbers: [f64; N], ranges: &[Range; N]) -> [f64; N] {
    std::array::from_fn(|i| (numbers[i] * draw.uniform(0.5, 2.0)).clamp(ranges[i].low, ranges[i].high))
}

/// A reference temperature: the ready records', what some suppliers measure at, at an end, or any.
pub fn reference(draw: &mut Draw) -> f64 {
    let Range { low, high } = electrode::RANGES[9];
    match draw.below(8) {
        0 => 298.15,
        1 => 293.15,
        2 => draw.pick(&[low, low.next_up(), high.next_down(), high]),
        3 | 4 => draw.uniform(270.0, 330.0),
        _ => draw.uniform(low, high),
    }
}

/// The sheet, mostly with another reference temperature.
fn measured(draw: &mut Draw, mut sheet: Sheet) -> Sheet {
    if draw.below(4) != 0 {
        sheet.numbers[9] = reference(draw);
    }
    sheet
}

pub fn sheet(draw: &mut Draw) -> Sheet {
    let ready = draw.pick(&[Sheet::graphite_anode(), Sheet::lfp_cathode(), Sheet::nmc_cathode()]);
    let sheet = match draw.below(4) {
        0 => ready,
        1 => Sheet { chemistry: ready.chemistry, numbers: moved(draw, ready.numbers, &electrode::RANGES) },
        _ => Sheet { chemistry: draw.count(1, 3), numbers: draw.all_within(&electrode::RANGES) },
    };
    measured(draw, sheet)
}

/// A solid or electrolyte profile in a range: rough, smooth, at the ends, nearly flat, with zeros and subnormals; next to empty.
fn profile(draw: &mut Draw, places: &mut [f64], range: Range) {
    let Range { low, high } = range;
    let (start, slope, way) = (draw.unit(), draw.uniform(-1.0, 1.0) / places.len() as f64, draw.below(8));
    if low == 0.0 && draw.below(12) == 0 {
        let most = if draw.below(2) == 0 { 0.0 } else { power(draw, -400.0, -10.0) };
        for place in places {
            *place = if most == 0.0 { -0.0 } else { (most * draw.unit()).min(high) };
        }
        return;
    }
    for (i, place) in places.iter_mut().enumerate() {
        let part = match way {
            0 | 1 => draw.unit(),
            2 => draw.pick(&[0.0, 1.0, 0.5]),
            3 => start + 1e-12 * draw.unit(),
            _ => start + slope * i as f64,
        };
        *place = (low + part * (high - low)).clamp(low, high);
        if way == 1 && low == 0.0 && draw.below(6) == 0 {
            *place = draw.pick(&[0.0, -0.0, f64::from_bits(1), 1e-310, high, high.next_down()]);
        }
    }
}

pub fn particle(draw: &mut Draw, sheet: Sheet, n: u64) -> Particle {
    let mut particle = Particle::new(sheet, n).expect("a sheet and a count in range");
    if draw.below(5) != 0 {
        profile(draw, &mut particle.c_s[..n as usize], Range { low: 0.0, high: sheet.c_s_max() });
    }
    particle
}

pub const READY_CONFIG: [f64; 5] = [2.5, 4.2, 96_485.0, 8.314, 2e-4];

pub fn config(draw: &mut Draw, n_nodes: u64) -> Config {
    let mut numbers = if draw.below(2) == 0 { READY_CONFIG } else { draw.all_within(&solver::RANGES) };
    if draw.below(2) == 0 {
        // limits that seldom end a run
        (numbers[0], numbers[1]) = (-10.0, 10.0);
    }
    Config { n_nodes, numbers }
}

pub fn clock(draw: &mut Draw) -> f64 {
    match draw.below(8) {
        0..=3 => 0.0,
        4 => draw.pick(&[-0.0, 5e-324, 1e300, f64::MAX, 86_400.0]),
        _ => draw.uniform(0.0, 1e6),
    }
}

/// Two sheets of one cell; their reference temperatures mostly differ.
pub fn sheets(draw: &mut Draw) -> (Sheet, Sheet) {
    let cathode = match draw.below(4) {
        0 => Sheet::lfp_cathode(),
        1 => Sheet::nmc_cathode(),
        _ => return (sheet(draw), sheet(draw)),
    };
    (measured(draw, Sheet::graphite_anode()), measured(draw, cathode))
}

pub fn cell(draw: &mut Draw, n: u64) -> Cell {
    let (anode, cathode) = sheets(draw);
    let (anode, cathode) = (particle(draw, anode, n), particle(draw, cathode, n));
    Cell { config: config(draw, n), anode, cathode, time_s: clock(draw) }
}

/// A temperature, of some calls the reference temperature of a record of theirs.
pub fn temperature(draw: &mut Draw, references: &[f64]) -> f64 {
    match draw.below(6) {
        0 => 298.15,
        1 => draw.within(TEMPERATURE),
        2 => draw.pick(references),
        _ => draw.uniform(270.0, 330.0),
    }
}

/// Reference temperature and temperature at opposite ends, or next to them.
pub fn far_apart(draw: &mut Draw) -> (f64, f64) {
    let low = [TEMPERATURE.low, TEMPERATURE.low.next_up()];
    let high = [TEMPERATURE.high, TEMPERATURE.high.next_down()];
    let (low, high) = (draw.pick(&low), draw.pick(&high));
    if draw.below(2) == 0 {
        (low, high)
    } else {
        (high, low)
    }
}

/// An interval in which a concentration next to 0 stays there.
pub fn short_interval(draw: &mut Draw) -> f64 {
    draw.pick(&[5e-324, 5e-324, 1e-300, 1e-100, 1e-30, 1e-12])
}

/// Two to the whole part of the exponent, and evenly on to the next power.
fn two_to(exponent: f64) -> f64 {
    let (whole, half) = (exponent.floor(), (0.5 * exponent).floor());
    let scale = |power: f64| f64::from_bits(((1023.0 + power) as u64) << 52);
    scale(half) * scale(whole - half) * (1.0 + (exponent - whole))
}

/// From 2^low to 2^high, evenly by the exponent.
pub fn power(draw: &mut Draw, low: f64, high: f64) -> f64 {
    two_to(draw.uniform(low, high))
}

pub fn sign(draw: &mut Draw) -> f64 {
    draw.pick(&[1.0, -1.0])
}

/// A current that moves such an area: zeros, ordinary densities, and up to the limit.
pub fn current(draw: &mut Draw, area: f64) -> f64 {
    match draw.below(8) {
        0 => draw.pick(&[0.0, -0.0, 1e6, -1e6, 5e-324, -5e-324]),
        1 => draw.uniform(-1e6, 1e6),
        _ => (area * power(draw, -10.0, 12.0) * sign(draw)).clamp(-1e6, 1e6),
    }
}

/// A current at which the overpotentials' arguments are small, mostly below 2^-10.
pub fn low_current(draw: &mut Draw, area: f64) -> f64 {
    area * power(draw, -70.0, 0.0) * sign(draw)
}

/// A cell of two equal electrodes, whose open-circuit voltages cancel: the last digits of the overpotentials show.
pub fn equal_electrodes(draw: &mut Draw, n: u64) -> Cell {
    let sheet = if draw.below(2) == 0 { Sheet::graphite_anode() } else { Sheet { chemistry: 1, ..sheet(draw) } };
    let particle = particle(draw, sheet, n);
    Cell { config: config(draw, n), anode: particle.clone(), cathode: particle, time_s: clock(draw) }
}

/// A DFN cell without open-circuit voltage and with an even electrolyte: its voltage is the overpotentials of both electrodes and the ohmic drop.
pub fn bare_overpotentials(draw: &mut Draw) -> dfn::Cell {
    let none = Coefficients::of(&[]);
    let params = dfn::Params { ocv_neg: none, ocv_pos: none, ..dfn_params(draw) };
    let config = dfn::Config { counts: [1, draw.count(1, 3), draw.count(2, 4)], voltages: [-10.0, 10.0] };
    dfn::Cell::new(params, config).expect("parameters in range")
}

pub fn salt(draw: &mut Draw) -> Params {
    let ready = Params::lipf6_ec_dmc();
    let mut salt = match draw.below(4) {
        0 => ready,
        1 => Params { numbers: moved(draw, ready.numbers, &electrolyte::RANGES) },
        _ => Params { numbers: draw.all_within(&electrolyte::RANGES) },
    };
    if draw.below(4) != 0 {
        salt.numbers[7] = reference(draw);
    }
    salt
}

pub const READY_REGIONS: ([f64; 3], [f64; 3], [u64; 3]) = ([1e-4, 2.5e-5, 8e-5], [0.3, 0.4, 0.35], [5, 3, 5]);

pub fn regions(draw: &mut Draw) -> Regions {
    let params = salt(draw);
    let most = if draw.below(3) == 0 { 3 } else { electrolyte::MOST_NODES };
    let counts = std::array::from_fn(|_| draw.count(1, most));
    let (lengths, porosities, _) = READY_REGIONS;
    if draw.below(3) == 0 {
        return Regions { params, lengths, porosities, counts };
    }
    Regions {
        params,
        lengths: draw.all_within(&[electrolyte::LENGTH; 3]),
        porosities: draw.all_within(&[electrolyte::POROSITY; 3]),
        counts,
    }
}

/// An electrolyte; now and then with places so large that a sum or a step leaves the finite numbers.
pub fn electrolyte(draw: &mut Draw) -> Electrolyte {
    let mut made = Electrolyte::new(regions(draw)).expect("regions in range");
    let used: u64 = made.regions.counts.iter().sum();
    let places = &mut made.c_e[..used as usize];
    match draw.below(8) {
        0 => {}
        1 => {
            for place in places {
                *place = draw.pick(&[1e-10, 1.0, 1e5, 1e300, 1e307, 1e308, f64::MAX]);
            }
        }
        2 => {
            for place in places {
                *place = power(draw, -33.0, 1000.0).max(1e-10);
            }
        }
        3 => {
            for place in places {
                *place = draw.pick(&[1e-10, 1e-10f64.next_up(), 1000.0, 1e5]);
            }
        }
        _ => profile(draw, places, Range { low: 0.5, high: 2000.0 }),
    }
    made
}

fn coefficients(draw: &mut Draw) -> Coefficients {
    let count = draw.below(1 + dfn::MOST_COEFFICIENTS as u64) as usize;
    let size = draw.pick(&[1.0, 5.0, 1000.0]);
    let values: Vec<f64> = (0..count).map(|_| draw.within(Range { low: -size, high: size })).collect();
    Coefficients::of(&values)
}

pub fn dfn_params(draw: &mut Draw) -> dfn::Params {
    let ready = draw.pick(&[dfn::Params::nmc_graphite(), dfn::Params::lfp_graphite()]);
    match draw.below(5) {
        0 => ready,
        1 | 2 => dfn::Params { numbers: moved(draw, ready.numbers, &dfn::RANGES), ..ready },
        3 => dfn::Params { ocv_neg: coefficients(draw), ocv_pos: coefficients(draw), numbers: moved(draw, ready.numbers, &dfn::RANGES) },
        _ => dfn::Params { numbers: draw.all_within(&dfn::RANGES), ocv_neg: coefficients(draw), ocv_pos: coefficients(draw) },
    }
}

pub fn dfn_config(draw: &mut Draw) -> dfn::Config {
    let (most_x, most_r) = draw.pick(&[(3, 4), (6, 8), (dfn::MOST_X, dfn::MOST_R)]);
    let counts = [draw.count(1, most_x), draw.count(1, most_x), draw.count(2, most_r)];
    let voltages = match draw.below(4) {
        0 => [2.5, 4.3],
        1 => draw.all_within(&[dfn::VOLTAGE; 2]),
        _ => [-10.0, 10.0],
    };
    dfn::Config { counts, voltages }
}

/// Parameters of a cell whose first step passes and whose second gives 8: a node that falls to the clamp, far below
/// c_e0, has an electrolyte diffusivity that is no number.
pub fn breaking(draw: &mut Draw, params: &mut dfn::Params, config: &mut dfn::Config) {
    params.numbers[16] = draw.pick(&[1e5, 9e4]);
    params.numbers[18] = draw.pick(&[1000.0, 990.0]);
    config.counts[0] = draw.count(3, 6);
}

/// The binary exponent.
fn exponent(x: f64) -> f64 {
    ((x.to_bits() >> 52) & 0x7FF) as f64 - 1023.0
}

/// A cell whose electrolyte diffusivity spans many decades.
fn steep(draw: &mut Draw) -> dfn::Cell {
    let (mut params, mut config) = (dfn_params(draw), dfn_config(draw));
    params.numbers[16] = draw.uniform(500.0, 2000.0);
    params.numbers[18] = draw.uniform(40.0, 1000.0);
    config.counts[0] = draw.count(3, 8);
    let mut made = dfn::Cell::new(params, config).expect("parameters in range");
    for place in made.c_e.iter_mut().filter(|place| **place != 0.0) {
        *place *= draw.uniform(0.4, 1.2);
    }
    made
}

/// An interval in which such a cell's electrolyte moves, and not all of it to the clamp.
pub fn steep_interval(draw: &mut Draw, cell: &dfn::Cell) -> f64 {
    let numbers = &cell.params.numbers;
    let least = cell.c_e.iter().filter(|place| **place != 0.0).fold(numbers[16], |a, b| a.min(*b));
    let diffusivity = exponent(numbers[17]) + numbers[18] * (1.0 - least / numbers[16]) / std::f64::consts::LN_2;
    let spacing = exponent(numbers[0] / cell.config.counts[0] as f64);
    let middle = (2.0 * spacing - diffusivity).clamp(-1000.0, 10.0);
    power(draw, middle - 12.0, middle + 4.0)
}

pub fn dfn_cell(draw: &mut Draw) -> dfn::Cell {
    if draw.below(8) == 0 {
        return steep(draw);
    }
    let (mut params, mut config) = (dfn_params(draw), dfn_config(draw));
    if draw.below(12) == 0 {
        breaking(draw, &mut params, &mut config);
    }
    let mut made = dfn::Cell::new(params, config).expect("parameters in range");
    let [n_x_neg, n_x_pos, n_r] = config.counts.map(|n| n as usize);
    if draw.below(4) != 0 {
        profile(draw, &mut made.c_s_neg[..n_x_neg * n_r], Range { low: 0.0, high: params.numbers[6] });
        profile(draw, &mut made.c_s_pos[..n_x_pos * n_r], Range { low: 0.0, high: params.numbers[12] });
        let range = draw.pick(&[dfn::CONCENTRATION, Range { low: 100.0, high: 3000.0 }, Range { low: 900.0, high: 1500.0 }]);
        let c_e = &mut made.c_e[..n_x_neg + 1 + n_x_pos];
        if draw.below(12) == 0 {
            // a ratio to c_e0 at which the logarithm halves its argument
            c_e.fill((params.numbers[16] * draw.pick(&[0.1875, 0.09375, 0.75, 12.0, 24.0])).clamp(1.0, 1e5));
        } else {
            profile(draw, c_e, range);
        }
        made.time_s = clock(draw);
    }
    if draw.below(6) == 0 {
        // fields that a step only overwrites may hold anything
        for place in &mut made.overwritten {
            *place = f64::from_bits(draw.pick(&[0x7FF8_0000_0000_0000, 0xFFF0_0000_0000_0001, 0x7FF0_0000_0000_0000, 1, 1 << 63]));
        }
    }
    made
}

/// Exponents at which E is told from a wrong one: its limits, and where one term more or fewer shows.
const EXPONENTS: [f64; 5] =
    [709.0, 709.0f64.next_down(), 709.0f64.next_up(), f64::from_bits(0x4086_17DA_14B8_3F81), f64::from_bits(0x4085_A4E9_5055_7529)];
const LEAST_EXPONENTS: [f64; 3] = [-708.0, -708.0f64.next_up(), -708.0f64.next_down()];

/// The electrolyte's concentration whose diffusivity has this exponent, -gamma_e*(c_e/c_e0 - 1); one near to it where there is none.
fn concentration_at(exponent: f64, c_e0: f64, gamma_e: f64) -> f64 {
    let near = (c_e0 * (1.0 - exponent / gamma_e)).to_bits();
    let found = (0..32).flat_map(|k| [near + k, near - k]).map(f64::from_bits).find(|c_e| -gamma_e * ((c_e / c_e0) - 1.0) == exponent);
    found.unwrap_or(f64::from_bits(near)).clamp(dfn::CONCENTRATION.low, dfn::CONCENTRATION.high)
}

/// A cell and an interval in which all digits of E show, at exponents up to its limits: each other node of the electrolyte has a
/// diffusivity D beside which its neighbours' is nothing, and D*dt/dx^2 is about 1.
pub fn by_exponents(draw: &mut Draw) -> (dfn::Cell, f64) {
    let exponent = match draw.below(8) {
        0 => draw.pick(&EXPONENTS),
        1 => draw.uniform(-30.0, 40.0),
        2 | 3 => draw.uniform(40.0, 650.0),
        _ => draw.uniform(650.0, 709.0),
    };
    let (mut params, mut config) = (dfn_params(draw), dfn_config(draw));
    config.counts = [draw.count(3, dfn::MOST_X), draw.count(2, dfn::MOST_X), 2];
    let (c_e0, gamma_e) = (draw.uniform(200.0, 2500.0), draw.uniform(1.01 * exponent.abs().max(40.0), 1000.0));
    let (brugg, d_e0) = (draw.uniform(0.0, 4.0), draw.uniform(-53.0, if exponent > 600.0 { -36.0 } else { -20.0 }));
    let (porosity, spacing) = (draw.uniform(-6.0, -0.1), draw.uniform(-23.0, -11.0));
    let lengths = [0, 1].map(|side| (two_to(spacing) * config.counts[side] as f64).clamp(dfn::RANGES[0].low, dfn::RANGES[0].high));
    for (at, to) in [(0, lengths[0]), (2, lengths[1]), (16, c_e0), (17, two_to(d_e0)), (18, gamma_e), (21, two_to(porosity)), (23, brugg)] {
        params.numbers[at] = to.clamp(dfn::RANGES[at].low, dfn::RANGES[at].high);
    }
    let least = if draw.below(4) == 0 { draw.pick(&LEAST_EXPONENTS) } else { exponent - draw.uniform(40.0, 400.0) };
    let mut made = dfn::Cell::new(params, config).expect("parameters in range");
    for i in 0..(config.counts[0] + 1 + config.counts[1]) as usize {
        let own = if i == 1 { exponent } else { 709.0 - (709.0 - exponent - draw.uniform(-1.5, 1.5)).abs() };
        made.c_e[i] = concentration_at(if i % 2 == 1 { own } else { least }, params.numbers[16], params.numbers[18]);
    }
    let diffusivity = d_e0 + brugg * porosity + exponent / std::f64::consts::LN_2;
    let dt = two_to(draw.uniform(-4.0, 1.0) + porosity + 2.0 * spacing - diffusivity);
    (made, dt.clamp(f64::from_bits(1), 86_400.0))
}

/// A cell without open-circuit voltage, a current and an interval: its voltage is the overpotentials, so the digits of L show, and
/// with a current those of H. L's last terms matter most just below 1.5, from where on it halves its argument.
pub fn by_overpotentials(draw: &mut Draw) -> (dfn::Cell, [f64; 2]) {
    let mut params = dfn::Params { ocv_neg: Coefficients::of(&[]), ocv_pos: Coefficients::of(&[]), ..dfn_params(draw) };
    let config = dfn::Config { counts: [draw.count(1, 2), 1, 2], voltages: [-10.0, 10.0] };
    let (c_e0, ratio) = match draw.below(8) {
        0 => draw.pick(&[(128.0, 1.5f64.next_down()), (16.0, 12.0), (16.0, 24.0)]),
        1..=3 => (draw.uniform(100.0, 1000.0), power(draw, 0.0, 3.0)),
        _ => (draw.uniform(100.0, 1000.0), draw.uniform(1.48, 1.5)),
    };
    let current = if draw.below(2) == 0 { draw.pick(&[0.0, -0.0]) } else { params.numbers[3] * power(draw, -30.0, 10.0) };
    for (at, to) in [(0, 1e-7), (1, 1e-7), (2, 1e-7), (9, draw.within(dfn::RANGES[9])), (15, draw.within(dfn::RANGES[15])), (16, c_e0), (20, 100.0)] {
        params.numbers[at] = to;
    }
    let mut made = dfn::Cell::new(params, config).expect("parameters in range");
    for place in made.c_e.iter_mut().filter(|place| **place != 0.0) {
        *place = (c_e0 * ratio).min(3000.0);
    }
    (made, [current.min(1e6), power(draw, -16.0, 10.0)])
}
