//! The Rust that is ported, built unchanged beside stand-ins, and the code that compares our library with it.

pub mod beside;
pub mod bits;
pub mod dice;
pub mod grids;
pub mod shells;

include!(concat!(env!("OUT_DIR"), "/source/lib.rs"));
