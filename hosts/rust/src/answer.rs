//! What a station answers.

use crate::{sys, Refusal};
use std::fmt;

/// What an accepted event did.
#[repr(u8)]
#[derive(Clone, Copy, Debug, PartialEq, Eq, PartialOrd, Ord, Hash)]
pub enum Code {
    /// Done.
    Done = 0,
    /// Done, and an unready primary became ready: by a mark, a finish or a seed.
    BecameReady = 1,
    /// A rival took over.
    Switched = 2,
    /// Nothing to do: a finish that found no lock to make, or a switch with no choice pending
    /// or with switching off.
    Nothing = 3,
}

impl Code {
    /// The number that a journal's line has for it.
    ///
    /// ```
    /// assert_eq!(hullathan::Code::Switched.number(), 2);
    /// ```
    #[must_use]
    pub const fn number(self) -> u8 {
        self as u8
    }
}

/// What a code of the library says. It has no others: 0 to 3, and 128 + a refusal's number.
#[inline]
pub(crate) fn outcome(code: u8) -> Result<Code, Refusal> {
    match code {
        0 => Ok(Code::Done),
        1 => Ok(Code::BecameReady),
        2 => Ok(Code::Switched),
        3 => Ok(Code::Nothing),
        _ => Err(Refusal::from_number(code & 127).unwrap_or(Refusal::UnsoundState)),
    }
}

/// Why a rival left.
#[repr(u8)]
#[derive(Clone, Copy, Debug, PartialEq, Eq, PartialOrd, Ord, Hash)]
pub enum Cause {
    /// Its dit and dah came too close to the primary's.
    Twin = 0,
    /// Its score was 12 or more behind the primary's.
    Outscored = 1,
    /// It was there for 64 marks and did not take over.
    Aged = 2,
    /// A new one took its place.
    Replaced = 3,
    /// A clear or a seed let it go.
    Cleared = 4,
}

impl Cause {
    /// All five, in document 01's order.
    pub const ALL: [Cause; 5] = [
        Cause::Twin,
        Cause::Outscored,
        Cause::Aged,
        Cause::Replaced,
        Cause::Cleared,
    ];

    /// The cause by its number in the library, which has none above 4.
    fn of(number: u8) -> Cause {
        match number {
            0 => Cause::Twin,
            1 => Cause::Outscored,
            2 => Cause::Aged,
            3 => Cause::Replaced,
            _ => Cause::Cleared,
        }
    }
}

/// A rival that left in a call, and why.
#[derive(Clone, Copy, Debug, PartialEq, Eq, Hash)]
#[non_exhaustive]
pub struct Departure {
    /// Its serial.
    pub serial: u64,
    /// Why it left.
    pub cause: Cause,
}

/// The answer to an accepted event: its code, the station after it, and who left in it.
///
/// ```
/// use hullathan::{Cause, Code, Event, Station};
///
/// // two marks of 150 ms and the end: dits, or dahs; the other reading starts as a rival
/// let mut station = Station::start(2, true)?;
/// for _ in 0..2 {
///     station.call(Event::Mark { ms: 150.0, live: true })?;
/// }
/// let answer = station.call(Event::Finish)?;
/// assert_eq!(answer.code, Code::BecameReady);
/// assert_eq!((answer.dit_ms, answer.dah_ms), (150.0, 450.0));
/// assert_eq!((answer.serial, answer.challengers), (0, 1));
/// assert_eq!(answer.departures().len(), 0);
///
/// let answer = station.call(Event::Clear)?;
/// let left: Vec<_> = answer.departures().map(|d| (d.serial, d.cause)).collect();
/// assert_eq!(left, [(1, Cause::Cleared)]);
/// # Ok::<(), hullathan::Refusal>(())
/// ```
#[derive(Clone, Copy, PartialEq)]
pub struct Answer {
    /// What the event did.
    pub code: Code,
    /// The primary's dit in milliseconds; 0 while it is unready.
    pub dit_ms: f32,
    /// The primary's dah in milliseconds; 0 while it is unready.
    pub dah_ms: f32,
    /// The primary's serial.
    pub serial: u64,
    /// How many challengers the bank holds.
    pub challengers: usize,
    left: [sys::Departure; 7],
    left_len: usize,
}

impl Answer {
    /// The library's answer, or its refusal.
    #[inline]
    pub(crate) fn of(answer: &sys::Answer) -> Result<Answer, Refusal> {
        Ok(Answer {
            code: outcome(answer.code)?,
            dit_ms: answer.dit_ms,
            dah_ms: answer.dah_ms,
            serial: answer.serial,
            challengers: answer.challengers,
            left: answer.left,
            left_len: answer.left_len,
        })
    }

    /// Those that left in the call, at most seven; their order has no meaning.
    pub fn departures(&self) -> impl ExactSizeIterator<Item = Departure> + '_ {
        let left = self.left.iter().take(self.left_len);
        left.map(|d| Departure {
            serial: d.serial,
            cause: Cause::of(d.cause),
        })
    }
}

impl fmt::Debug for Answer {
    fn fmt(&self, f: &mut fmt::Formatter<'_>) -> fmt::Result {
        f.debug_struct("Answer")
            .field("code", &self.code)
            .field("dit_ms", &self.dit_ms)
            .field("dah_ms", &self.dah_ms)
            .field("serial", &self.serial)
            .field("challengers", &self.challengers)
            .field("departures", &self.departures().collect::<Vec<_>>())
            .finish()
    }
}
