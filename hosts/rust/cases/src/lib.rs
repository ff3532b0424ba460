//! Inputs for the hosts that compare, damage and time: trees, state files, Newick texts, damaged ones, and plain readings
//! of document 01's state file and answer and of Newick copies; slices with guards, and lines of progress. Nothing here
//! is of the Rust or of the port.

pub mod age;
pub mod answers;
pub mod chance;
pub mod damage;
pub mod guarded;
pub mod newick;
pub mod progress;
pub mod shapes;
pub mod statefile;
pub mod text;

pub use chance::Chance;
pub use guarded::Guarded;
pub use progress::Progress;
pub use shapes::Sample;
pub use statefile::{Kind, StateFile};
