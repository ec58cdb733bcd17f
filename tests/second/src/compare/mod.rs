//! Comparison with another program, byte for byte, on generated cases.

mod back_coverage;
pub mod coverage;
mod fleet_coverage;
pub mod listings;
pub mod probes;
pub mod runner;

use std::path::PathBuf;

/// What the caller asked for.
pub struct Plan {
    pub seed: u64,
    pub cases: u64,
    /// Cases through one process, for `probe`.
    pub batch: u64,
    /// The comparison ends once so many differences are met.
    pub stop: u64,
    /// Where inputs that differ are kept.
    pub keep: Option<PathBuf>,
    pub program: Vec<String>,
}

/// How many differences are shown in full; all are counted.
pub const SHOWN: u64 = 5;
