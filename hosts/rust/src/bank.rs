//! The switch alone, with the host's own tracker lent.

use crate::answer::outcome;
use crate::{sys, Code, Refusal, Station};
use std::fmt;
use std::mem::offset_of;

/// A reading of a sender as a host keeps it: its dit, dah and speed, and what they were learnt from.
#[derive(Clone)]
pub struct Tracker {
    memory: sys::TrackerMemory,
}

impl Tracker {
    /// How many bytes a tracker has.
    pub const BYTES: usize = size_of::<sys::Tracker>();

    /// The float that stands at a place of the memory.
    fn float_at(&self, place: usize) -> f32 {
        let bytes = &self.memory.0[place..place + 4];
        f32::from_le_bytes(bytes.try_into().expect("these are four"))
    }

    /// Whether it has found a dit and a dah.
    #[must_use]
    pub fn ready(&self) -> bool {
        self.memory.0[offset_of!(sys::Tracker, pair.ready)] != 0
    }

    /// Its dit in milliseconds; 0 while it is unready.
    #[must_use]
    pub fn dit_ms(&self) -> f32 {
        self.float_at(offset_of!(sys::Tracker, pair.lo))
    }

    /// Its dah in milliseconds; 0 while it is unready.
    #[must_use]
    pub fn dah_ms(&self) -> f32 {
        self.float_at(offset_of!(sys::Tracker, pair.hi))
    }

    /// The tracker's memory, to be stored.
    #[must_use]
    pub fn as_bytes(&self) -> &[u8; Tracker::BYTES] {
        &self.memory.0
    }

    /// A tracker that was stored.
    ///
    /// # Errors
    /// [`Refusal::UnsoundState`], where these are not the bytes of a sound tracker or not so many.
    pub fn from_bytes(bytes: &[u8]) -> Result<Tracker, Refusal> {
        let memory = sys::Memory(bytes.try_into().map_err(|_| Refusal::UnsoundState)?);
        let tracker = Tracker { memory };
        // with a bank that holds no choice, only an unsound tracker is refused
        let mut bank = Station::default().bank();
        bank.take_switch(&mut tracker.clone(), &mut 0)?;
        Ok(tracker)
    }
}

impl fmt::Debug for Tracker {
    fn fmt(&self, f: &mut fmt::Formatter<'_>) -> fmt::Result {
        f.debug_struct("Tracker")
            .field("ready", &self.ready())
            .field("dit_ms", &self.dit_ms())
            .field("dah_ms", &self.dah_ms())
            .finish_non_exhaustive()
    }
}

/// The rivals of a station, their scores and the choice among them, without the primary: for a host that keeps that
/// itself.
///
/// ```
/// use hullathan::{Event, Station};
///
/// // CQ at 24 words a minute, then a slower sender: marks, and gaps below 0
/// let heard = [
///     150, -50, 50, -50, 150, -50, 50, -150, 150, -50, 150, -50, 50, -50, 150, -350, 300, -100, 100, -100, 100, -300,
///     100, -700, 300, -100, 300, -100, 300, -300,
/// ];
/// let mut station = Station::start(2, true)?;
/// station.extend(heard.map(|ms: i16| match f32::from(ms) {
///     ms if ms < 0.0 => Event::Gap { ms: -ms },
///     ms => Event::Mark { ms, live: true },
/// }));
///
/// let (mut bank, mut primary) = (station.bank(), station.primary());
/// let mut serial = station.read().serial;
/// assert_eq!((primary.dit_ms(), serial), (50.0, 0));
/// assert!(bank.take_switch(&mut primary, &mut serial)?);
/// assert_eq!((primary.dah_ms(), serial), (300.0, 1)); // the rival's
/// assert!(!bank.take_switch(&mut primary, &mut serial)?); // once
/// # Ok::<(), hullathan::Refusal>(())
/// ```
#[derive(Clone)]
pub struct Bank {
    memory: sys::BankMemory,
}

impl Bank {
    /// How many bytes a bank has.
    pub const BYTES: usize = size_of::<sys::Bank>();

    /// The switch of a station ([`Event::Switch`](crate::Event::Switch)) on the bank alone, with the primary and its
    /// serial lent. Switched, true, the chosen rival is found in both, and the former primary is a rival in its place.
    /// Nothing to do, false, both are as they were; with switching off a choice that stood is now in the log.
    ///
    /// # Errors
    /// [`Refusal::UnsoundState`], where a choice stands and the primary is unready; [`Refusal::CountsFull`]. Then all
    /// three are as they were.
    pub fn take_switch(
        &mut self,
        primary: &mut Tracker,
        serial: &mut u64,
    ) -> Result<bool, Refusal> {
        let code = outcome(sys::take_switch(
            &mut self.memory,
            &mut primary.memory,
            serial,
        ))?;
        Ok(code == Code::Switched)
    }

    /// The bank's memory, to be stored.
    #[must_use]
    pub fn as_bytes(&self) -> &[u8; Bank::BYTES] {
        &self.memory.0
    }

    /// A bank that was stored.
    ///
    /// # Errors
    /// [`Refusal::UnsoundState`], where these are not the bytes of a sound bank or not so many.
    pub fn from_bytes(bytes: &[u8]) -> Result<Bank, Refusal> {
        let memory = sys::Memory(bytes.try_into().map_err(|_| Refusal::UnsoundState)?);
        let bank = Bank { memory };
        // with a ready primary, only an unsound bank is refused by 1
        let mut seeded = Station::default();
        seeded.call(crate::Event::Seed { wpm: 20.0 })?;
        match bank.clone().take_switch(&mut seeded.primary(), &mut 0) {
            Err(Refusal::UnsoundState) => Err(Refusal::UnsoundState),
            _ => Ok(bank),
        }
    }
}

impl fmt::Debug for Bank {
    fn fmt(&self, f: &mut fmt::Formatter<'_>) -> fmt::Result {
        f.debug_struct("Bank").finish_non_exhaustive()
    }
}

impl Station {
    /// A copy of the bank, for [`Bank::take_switch`].
    #[must_use]
    pub fn bank(&self) -> Bank {
        let place = offset_of!(sys::Station, bank);
        let mut memory = sys::Memory([0; Bank::BYTES]);
        memory
            .0
            .copy_from_slice(&self.as_bytes()[place..place + Bank::BYTES]);
        Bank { memory }
    }

    /// A copy of the primary, for [`Bank::take_switch`].
    #[must_use]
    pub fn primary(&self) -> Tracker {
        let place = offset_of!(sys::Station, primary);
        let mut memory = sys::Memory([0; Tracker::BYTES]);
        memory
            .0
            .copy_from_slice(&self.as_bytes()[place..place + Tracker::BYTES]);
        Tracker { memory }
    }
}
