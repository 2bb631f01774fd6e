//! The timing station of a Morse receiver: from the lengths of marks and gaps it finds a sender's dit, dah and speed,
//! and keeps a bank of rival readings that may replace its own. The work is done by the proved library, which every
//! call goes to; this crate gives it Rust's types.
//!
//! A call does its work or is refused by a number of the specification ("document 01"), and then leaves the station
//! as it was. Nothing here panics, whatever a receiver hears. Only a program that was linked with another version of
//! the library panics, at its first call: see [`version`].
//!
//! ```
//! use hullathan::{Event, Station};
//!
//! let mut station = Station::start(2, true)?; // one rival, and it may take over
//! let heard = [(50.0, 50.0), (150.0, 50.0), (50.0, 150.0), (150.0, 50.0), (150.0, 350.0)];
//! for (ms, gap) in heard {
//!     let answer = station.call(Event::Mark { ms, live: true })?;
//!     println!("{:?}: dit {} ms, dah {} ms", answer.code, answer.dit_ms, answer.dah_ms);
//!     station.call(Event::Gap { ms: gap })?;
//! }
//! assert_eq!((station.read().dit_ms, station.read().dah_ms), (50.0, 150.0));
//! # Ok::<(), hullathan::Refusal>(())
//! ```
//!
//! The reading that stands is the primary; a rival, or challenger, is another reading of the same marks and gaps. A
//! reading is ready once it has a dit and a dah: the primary at the fifth mark, at a finish, or by a seed.
//!
//! For lists there are [`Station::calls`], event by event, and [`Station::batches`], 64 at a time. [`Sender`] keeps
//! how long a sender's dots, dashes and gaps are; [`Bank::take_switch`] is the switch alone, with a tracker of the
//! host's. [`environment`] is about the floating-point environment, which a plug-in may have to set.

#![deny(missing_docs)]
#![deny(unsafe_op_in_unsafe_fn)]
#![deny(unsafe_code)]

mod answer;
mod bank;
mod batches;
pub mod environment;
mod event;
mod reading;
mod refusal;
mod sender;
mod station;
#[allow(unsafe_code)]
mod sys;
pub mod version;

pub use answer::{Answer, Cause, Code, Departure};
pub use bank::{Bank, Tracker};
pub use batches::Batches;
pub use event::Event;
pub use reading::{Reading, Rival, SwitchRecord};
pub use refusal::Refusal;
pub use sender::{Class, ClassReading, Dits, Millis, Sender, SenderReading};
pub use station::Station;

/// The example of README.md, run as a test.
#[cfg(doctest)]
#[doc = include_str!("../README.md")]
struct Readme;
