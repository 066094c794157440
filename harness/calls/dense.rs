//! `solve_dense` of dfn.rs.
use crate::table::{all_finite, finite_or_8, Met};
use oracle::dfn::access;

pub const MOST_ORDER: u64 = 32;

pub fn solve_dense(a: &[f64], b: &[f64], n: u64) -> Result<[f64; MOST_ORDER as usize], u64> {
    let mut met = Met::default();
    met.when(1, n > MOST_ORDER);
    met.when(10, n <= MOST_ORDER && (a.len() as u64 != n * n || b.len() as u64 != n));
    met.when(2, !all_finite(a) || !all_finite(b));
    met.refuse()?;
    let Some(x) = access::solve(a, b, n as usize) else {
        return Err(9);
    };
    finite_or_8(&[&x])?;
    let mut solution = [0.0; MOST_ORDER as usize];
    solution[..x.len()].copy_from_slice(&x);
    Ok(solution)
}
