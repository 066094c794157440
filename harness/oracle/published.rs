//! The functions of the published Rust, in place of the stand-ins: for harness/speed alone, which times the Rust as it was
//! published beside the oracle. Compiled where `published` is set.
pub trait StandIn {
    fn oracle_exp(self) -> f64;
    fn oracle_ln(self) -> f64;
    fn oracle_powf(self, b: f64) -> f64;
    fn oracle_asinh(self) -> f64;
    fn oracle_powi(self, power: i32) -> f64;
}

impl StandIn for f64 {
    fn oracle_exp(self) -> f64 {
        self.exp()
    }
    fn oracle_ln(self) -> f64 {
        self.ln()
    }
    fn oracle_powf(self, b: f64) -> f64 {
        self.powf(b)
    }
    fn oracle_asinh(self) -> f64 {
        self.asinh()
    }
    fn oracle_powi(self, power: i32) -> f64 {
        self.powi(power)
    }
}
