//! The version of the library.
//!
//! Structs change between versions, and an archive of another one would write where there is no room. So version and
//! sizes are compared once, before the first call into the archive. Where they differ that call panics, and names
//! both versions: the archive is linked into the program, so this is a fault of its build, the same at every run,
//! which no receiver can mend while it listens and which is no refusal of document 01. A program that wants to say so
//! itself asks [`check`] first:
//!
//! ```
//! if let Err(mismatch) = hullathan::version::check() {
//!     eprintln!("{mismatch}");
//!     std::process::exit(1);
//! }
//! ```
//!
//! An archive from before version 2 does not say its version, and is not linked.

pub use crate::sys::{check, Mismatch, VERSION};
