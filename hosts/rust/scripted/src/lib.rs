//! The Rust, its files unchanged but for the generator, which draws as the Rust's does and can be told what to draw: so
//! that the second call of a slide, with its node and step given, is the Rust's own, and so that the moves can be run
//! with four zero words.
#![allow(dead_code, unexpected_cfgs)]

#[path = "../../reference/src/door.rs"]
mod door;
pub mod random;

include!(concat!(env!("OUT_DIR"), "/rust/root.rs"));

pub use door::*;
