//! The single-particle cell in solvers that lack one change request: (v), and the ohmic drop is multiplied by the current's sign, or (vii), and
//! sub-steps are longer. Nothing is refused here: they are asked for the rows of calls that are accepted.
use crate::runs::ROW;
use crate::solver::Cell;

/// The largest part of the stability limit that a sub-step was before change request (vii).
pub const SUB_STEP: f64 = 0.45;

/// A cell whose solver is this module of the oracle.
macro_rules! earlier_cell {
    ($name:ident, $solver:ident) => {
        pub struct $name(oracle::$solver::SpmSolver);

        impl $name {
            pub fn of(cell: &Cell) -> Self {
                let oracle::solver::SpmSolver { config: now, anode, cathode, electrode_area, time_s } = cell.spm();
                let config = oracle::$solver::SpmConfig {
                    n_nodes: now.n_nodes,
                    v_min: now.v_min,
                    v_max: now.v_max,
                    faraday: now.faraday,
                    r_gas: now.r_gas,
                    r_electrolyte_ohm_m2: now.r_electrolyte_ohm_m2,
                };
                Self(oracle::$solver::SpmSolver { config, anode, cathode, electrode_area, time_s })
            }

            /// The row of its next step.
            pub fn row(&mut self, current_a: f64, dt: f64, temp_k: f64) -> [f64; ROW] {
                let s = self.0.step(current_a, dt, temp_k);
                [s.voltage, s.current, s.theta_neg, s.theta_pos, s.theta_neg_avg, s.theta_pos_avg, s.time_s, f64::from(u8::from(s.cutoff))]
            }

            /// What the steps have made of the cell that it was.
            pub fn after(&self, cell: &Cell) -> Cell {
                let (anode, cathode) = (cell.anode.with(&self.0.anode), cell.cathode.with(&self.0.cathode));
                Cell { config: cell.config, anode, cathode, time_s: self.0.time_s }
            }
        }
    };
}

earlier_cell!(EarlierOhmicDrop, earlier_ohmic_drop);
earlier_cell!(EarlierSubSteps, earlier_sub_steps);
