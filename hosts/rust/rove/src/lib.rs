//! rove's moves, proved: the functions that the archive exports, with Rust types. `exports` has them as they are, over
//! slices and a record of words; the rest fills the record and reads it.

mod answer;
pub mod exports;
mod file;
mod generator;
mod moves;
mod newick;
mod parameters;
mod record;
mod tree;

pub use answer::{Answer, Moved, Proposal, Ratio, Refusal};
pub use file::{LONGEST_ANSWER, answer};
pub use generator::{Drawn, Generator};
pub use moves::{Move, scaler};
pub use newick::{LONGEST_NEWICK, NewickTree, read_newick};
pub use parameters::{
    Ages, Clock, Density, Field, Priors, Process, Speciation, birth_difference_scale, birth_rate_scale,
    branch_rate_scale, clock_rate_scale, clock_sigma_scale, fbd_scale, relative_death_scale, scale,
};
pub use record::{Record, WORDS, word};
pub use tree::{Started, Tree};
