//! The stand-ins (docs/REFERENCE.md) for exp, ln, powf, asinh and powi: each operation rounds once, in the order written there.
//! The square root is the machine's, which is correctly rounded; standins.py has it by whole numbers.
use std::cell::Cell;

/// c of L: the binary64 nearest to the natural logarithm of 2.
const LN_2: f64 = f64::from_bits(0x3FE6_2E42_FEFA_39EF);

/// E(t).
pub fn exp(t: f64) -> f64 {
    if t.is_nan() {
        return t;
    }
    if t > 709.0 {
        return f64::INFINITY;
    }
    if t < -708.0 {
        return 0.0;
    }
    let y = t / 1024.0;
    let mut a = 1.0;
    for k in (1..=18).rev() {
        a = 1.0 + (a * y) / f64::from(k);
    }
    for _ in 0..10 {
        a *= a;
    }
    a
}

/// x = m * 2^k with 1 <= m < 2, for x above 0 and finite.
fn parts(x: f64) -> (f64, i32) {
    let bits = x.to_bits();
    let exponent = (bits >> 52) as i32;
    let digits = bits & ((1 << 52) - 1);
    if exponent == 0 {
        // subnormal: its first digit moves up to the place of 2^52
        let shift = digits.leading_zeros() - 11;
        let m = f64::from_bits((1023 << 52) | ((digits << shift) & ((1 << 52) - 1)));
        (m, -1022 - shift as i32)
    } else {
        (f64::from_bits((1023 << 52) | digits), exponent - 1023)
    }
}

/// L(x).
pub fn ln(x: f64) -> f64 {
    if x.is_nan() || x < 0.0 {
        return f64::NAN;
    }
    if x == 0.0 {
        return f64::NEG_INFINITY;
    }
    if x == f64::INFINITY {
        return x;
    }
    let (mut m, mut k) = parts(x);
    if m >= 1.5 {
        m /= 2.0;
        k += 1;
    }
    let s = (m - 1.0) / (m + 1.0);
    let q = s * s;
    let mut a = 1.0 / 23.0;
    for d in (1..=21).rev().step_by(2) {
        a = 1.0 / f64::from(d) + q * a;
    }
    f64::from(k) * LN_2 + (2.0 * s) * a
}

thread_local! {
    /// How many arguments of H were below 2^-10 in size, in this thread.
    static SMALL_ARGUMENTS: Cell<u64> = const { Cell::new(0) };
    /// Whether H is by L there too, as it was before change request (ii).
    static ALL_BY_LN: Cell<bool> = const { Cell::new(false) };
}

/// What `ask` gives, and how many arguments of H below 2^-10 in size it met.
pub fn with_small_arguments<R>(ask: impl FnOnce() -> R) -> (R, u64) {
    let before = SMALL_ARGUMENTS.get();
    let given = ask();
    (given, SMALL_ARGUMENTS.get() - before)
}

/// What `ask` gives with H as it was before change request (ii).
pub fn with_earlier_asinh<R>(ask: impl FnOnce() -> R) -> R {
    ALL_BY_LN.set(true);
    let given = ask();
    ALL_BY_LN.set(false);
    given
}

/// H(x): below 2^-10 in size by two terms of its series, else by L.
pub fn asinh(x: f64) -> f64 {
    if x.abs() < 0.0009765625 {
        SMALL_ARGUMENTS.set(SMALL_ARGUMENTS.get() + 1);
        if !ALL_BY_LN.get() {
            return x * (1.0 - (x * x) / 6.0);
        }
    }
    asinh_by_ln(x)
}

/// L(a + S(a * a + 1)), a = |x|, with the sign of x.
fn asinh_by_ln(x: f64) -> f64 {
    if x.is_nan() {
        return x;
    }
    let a = x.abs();
    ln(a + (a * a + 1.0).sqrt()).copysign(x)
}

/// powf(b) on x.
pub fn powf(x: f64, b: f64) -> f64 {
    exp(b * ln(x))
}

/// The powers 2, 3 and 4.
pub fn powi(x: f64, power: i32) -> f64 {
    match power {
        2 => x * x,
        3 => x * (x * x),
        4 => (x * x) * (x * x),
        _ => unreachable!("the sources use the powers 2, 3 and 4"),
    }
}

/// What the edited sources call, with the receiver and the argument where they were.
pub trait StandIn {
    fn oracle_exp(self) -> f64;
    fn oracle_ln(self) -> f64;
    fn oracle_powf(self, b: f64) -> f64;
    fn oracle_asinh(self) -> f64;
    fn oracle_powi(self, power: i32) -> f64;
}

impl StandIn for f64 {
    fn oracle_exp(self) -> f64 {
        exp(self)
    }
    fn oracle_ln(self) -> f64 {
        ln(self)
    }
    fn oracle_powf(self, b: f64) -> f64 {
        powf(self, b)
    }
    fn oracle_asinh(self) -> f64 {
        asinh(self)
    }
    fn oracle_powi(self, power: i32) -> f64 {
        powi(self, power)
    }
}
