//! The table's rules in plain Rust, written from `docs/` alone. The library is compared with it, in answers and in speed.
//! Points are arrays of `A` coordinates: 2 for the flat kind, 3 for the mould kind.

pub mod bench;
pub mod file;
pub mod pack;
pub mod predict;
pub mod range;
pub mod seam;

/// The least and the greatest vertex count of a panel.
pub const FEWEST: usize = 2;
pub const MOST: usize = 4096;

/// Why a call says no: its number in `docs/BENCH.md`, and the place.
#[derive(Clone, Copy, Debug, PartialEq, Eq)]
pub struct Refusal {
    pub number: u32,
    pub place: usize,
}

/// A refusal as an answer.
pub fn refuse<T>(number: u32, place: usize) -> Result<T, Refusal> {
    Err(Refusal { number, place })
}
