//! The public calls of docs/REFERENCE.md over the oracle. The published Rust refuses nothing, lets a run go on without end and
//! knows no `full`: here its members stand behind its refusals and endings, written from the paper in plain Rust,
//! apart from the definitions that the port is proved against.
//!
//! A refusal is `Err(number)`; what is not refused is what the Rust gives.

pub mod cycle;
pub mod dense;
pub mod dfn;
pub mod earlier;
pub mod electrode;
pub mod electrolyte;
pub mod lowest;
pub mod particle;
pub mod replay;
pub mod runs;
pub mod solver;
pub mod table;
pub mod words;
