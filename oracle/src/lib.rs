//! The proved library and the Rust side by side: what the program `oracle` runs. See README.md.

pub mod bench;
pub mod compare;
#[cfg(manta)]
pub mod examples;
pub mod exhaustive;
pub mod forms;
pub mod hullathan;
#[cfg(manta)]
pub mod journal;
pub mod keyed;
pub mod keying;
pub mod layers;
pub mod log01;
#[cfg(manta)]
#[allow(dead_code)]
pub mod manta;
pub mod patterns;
pub mod random;
pub mod reached;
pub mod refusals;
#[cfg(manta)]
pub mod replay;
pub mod shrink;
pub mod states;
