//! The oracle: the published Rust as make_oracle.py edits it, read from the folder that ORACLE_SOURCES names at compile time.
//! Each file stands in a module of its own name; dfn.rs gets a child module that reaches its private members.
#![allow(dead_code, clippy::all)]

#[cfg_attr(published, path = "published.rs")]
pub mod standins;

pub mod electrode {
    include!(concat!(env!("ORACLE_SOURCES"), "/electrode.rs"));
}

pub mod electrolyte {
    include!(concat!(env!("ORACLE_SOURCES"), "/electrolyte.rs"));
}

pub mod solver {
    include!(concat!(env!("ORACLE_SOURCES"), "/solver.rs"));
}

/// solver.rs without change request (v): its ohmic drop is multiplied by the current's sign.
pub mod earlier_ohmic_drop {
    include!(concat!(env!("ORACLE_SOURCES"), "/earlier_ohmic_drop.rs"));
}

/// solver.rs without change request (vii): its sub-steps are up to half as long again.
pub mod earlier_sub_steps {
    include!(concat!(env!("ORACLE_SOURCES"), "/earlier_sub_steps.rs"));
}

pub mod dfn {
    include!(concat!(env!("ORACLE_SOURCES"), "/dfn.rs"));

    /// The private members that the comparison needs.
    pub mod access {
        use super::*;

        pub fn solver(params: DfnParams, config: DfnConfig, state: DfnState) -> DfnSolver {
            DfnSolver { params, config, state }
        }

        pub fn state_of(solver: DfnSolver) -> DfnState {
            solver.state
        }

        pub fn solve(a: &[f64], b: &[f64], n: usize) -> Option<Vec<f64>> {
            solve_dense(a, b, n)
        }
    }
}
