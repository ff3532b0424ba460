//! The Rust that was ported, its files unchanged.
#![allow(dead_code, unexpected_cfgs)]

mod door;

include!(concat!(env!("OUT_DIR"), "/rust/root.rs"));

pub use door::*;

use random::Random;

pub fn state(random: &Random) -> [u64; 4] {
    random.state()
}

/// The generator of four words; none of four zeros.
pub fn from_state(state: [u64; 4]) -> Option<Random> {
    Random::from_state(state)
}
