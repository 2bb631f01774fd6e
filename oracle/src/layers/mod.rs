//! The layers of the library that can be compared. A new one is a module with a `Layer`, and a line in `LAYERS`.

use crate::compare::{report, Limit};

#[cfg(manta)]
pub mod bank;
#[cfg(manta)]
pub mod journal;
pub mod numbers;
#[cfg(manta)]
pub mod sender;
#[cfg(manta)]
pub mod station;
#[cfg(manta)]
pub mod tracker;

/// Runs a layer from a seed up to a limit, and prints what was seen. Whether nothing was wrong.
type Report = fn(u64, Limit) -> bool;

/// A layer as the command line knows it.
pub struct Entry {
    pub name: &'static str,
    /// How long the gate compares it, in seconds.
    pub gate: u64,
    /// Whether the other side is manta's Rust, and not Rust's own library.
    pub needs_manta: bool,
    pub report: Report,
}

/// A layer beside manta's Rust; without it nothing is run.
macro_rules! beside_manta {
    ($report:expr) => {{
        #[cfg(manta)]
        let report: Report = $report;
        #[cfg(not(manta))]
        let report: Report = |_, _| false;
        report
    }};
}

pub const LAYERS: &[Entry] = &[
    Entry {
        name: "numbers",
        gate: 30,
        needs_manta: false,
        report: report::<numbers::Numbers>,
    },
    Entry {
        name: "sender",
        gate: 10,
        needs_manta: true,
        report: beside_manta!(report::<sender::Sender>),
    },
    Entry {
        name: "tracker",
        gate: 45,
        needs_manta: true,
        report: beside_manta!(report::<tracker::Tracker>),
    },
    Entry {
        name: "bank",
        gate: 60,
        needs_manta: true,
        report: beside_manta!(report::<bank::Banks>),
    },
    Entry {
        name: "station",
        gate: 60,
        needs_manta: true,
        report: beside_manta!(report::<station::Stations>),
    },
    Entry {
        name: "journal",
        gate: 45,
        needs_manta: true,
        report: beside_manta!(journal::report),
    },
];
