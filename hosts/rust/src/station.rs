//! The station.

use crate::answer::outcome;
use crate::{sys, Answer, Batches, Event, Reading, Refusal};
use std::fmt;

/// A station: a reading of the sender, the primary, and a bank of rivals that may replace it.
///
/// It is 4,056 bytes that hold no pointer and nothing of the system: it can be cloned, sent to another thread, and
/// stored as bytes.
///
/// Document 01's worked watch, `W 2 1`, `M 3200 1`, `M 9600 1`, `F`, `X`:
///
/// ```
/// use hullathan::{Code, Event, Station};
///
/// let mut station = Station::start(2, true)?;
/// let shown = |code, dit_ms, dah_ms| (code, dit_ms, dah_ms, 0, 0);
/// for (event, line) in [
///     (Event::Mark { ms: 3200.0 / 64.0, live: true }, shown(Code::Done, 0.0, 0.0)),
///     (Event::Mark { ms: 9600.0 / 64.0, live: true }, shown(Code::Done, 0.0, 0.0)),
///     (Event::Finish, shown(Code::BecameReady, 50.0, 150.0)),
///     (Event::Switch, shown(Code::Nothing, 50.0, 150.0)),
/// ] {
///     let a = station.call(event)?;
///     assert_eq!((a.code, a.dit_ms, a.dah_ms, a.serial, a.challengers), line);
/// }
/// # Ok::<(), hullathan::Refusal>(())
/// ```
#[derive(Clone)]
pub struct Station {
    pub(crate) memory: sys::StationMemory,
}

impl Station {
    /// How many bytes a station has.
    pub const BYTES: usize = size_of::<sys::Station>();

    /// A fresh station with room for so many readings, its own included; width 0 counts as 1.
    ///
    /// # Errors
    /// [`Refusal::WidthAbove8`]. The fresh width 1 station that document 01 hands back there is [`Station::default`].
    ///
    /// ```
    /// use hullathan::{Refusal, Station};
    ///
    /// assert_eq!(Station::start(8, true)?.read().width, 8);
    /// assert_eq!(Station::start(0, true)?.read().width, 1);
    /// assert_eq!(Station::start(9, true).unwrap_err(), Refusal::WidthAbove8);
    /// # Ok::<(), Refusal>(())
    /// ```
    pub fn start(width: usize, switching: bool) -> Result<Station, Refusal> {
        let mut station = Station {
            memory: sys::Memory([0; Station::BYTES]),
        };
        outcome(sys::start(&mut station.memory, width, switching))?;
        Ok(station)
    }

    /// One event.
    ///
    /// # Errors
    /// [`Refusal::CountsFull`], and of a number that the event carries [`Refusal::DurationNotFinite`],
    /// [`Refusal::DurationTooShort`], [`Refusal::DurationTooLong`] or [`Refusal::SpeedNotPositive`]. A refused call
    /// leaves the station as it was.
    ///
    /// ```
    /// use hullathan::{Event, Refusal, Station};
    ///
    /// let mut station = Station::start(2, true)?;
    /// let before = station.clone();
    /// let mark = |ms| Event::Mark { ms, live: true };
    /// assert_eq!(station.call(mark(f32::NAN)), Err(Refusal::DurationNotFinite));
    /// assert_eq!(station.call(mark(-1.0)), Err(Refusal::DurationTooShort));
    /// assert_eq!(station.call(mark(262_145.0)), Err(Refusal::DurationTooLong));
    /// assert_eq!(station.call(Event::Seed { wpm: 0.0 }), Err(Refusal::SpeedNotPositive));
    /// assert_eq!(station.as_bytes(), before.as_bytes());
    /// # Ok::<(), Refusal>(())
    /// ```
    #[inline]
    pub fn call(&mut self, event: Event) -> Result<Answer, Refusal> {
        Answer::of(&sys::call(&mut self.memory, event.plain()))
    }

    /// The answers to events, each taken and called when its answer is asked for.
    ///
    /// ```
    /// use hullathan::{Code, Event, Station};
    ///
    /// let mut station = Station::start(2, true)?;
    /// let lengths = [50.0, 150.0, 50.0, 50.0, 150.0, 150.0];
    /// let marks = lengths.map(|ms| Event::Mark { ms, live: true });
    /// // the fifth mark finds a dit and a dah; the sixth is never called
    /// let mut answers = station.calls(marks);
    /// let found = answers.position(|a| a.is_ok_and(|a| a.code == Code::BecameReady));
    /// assert_eq!(found, Some(4));
    /// drop(answers);
    /// assert_eq!(station.read().accepted, 5);
    /// # Ok::<(), hullathan::Refusal>(())
    /// ```
    pub fn calls<'a, I>(
        &'a mut self,
        events: I,
    ) -> impl Iterator<Item = Result<Answer, Refusal>> + use<'a, I>
    where
        I: IntoIterator<Item = Event>,
    {
        events.into_iter().map(|event| self.call(event))
    }

    /// The same answers by batches: each time that an answer is asked for and none is held, up to 64 events are taken
    /// and called at once.
    ///
    /// Each event has its answer, in order, and a refused one changes nothing: go on after it, and nothing is lost.
    /// Who leaves at the first refusal (with `?`, say) loses answers: up to 63 events after it have been heard. To
    /// hear nothing after a refusal there is [`Station::calls`]. It holds one batch, of 10,248 bytes.
    ///
    /// ```
    /// use hullathan::{Event, Station};
    ///
    /// let watch = [50.0, 150.0, 50.0, 0.0, 150.0, 50.0].map(|ms| Event::Mark { ms, live: true });
    /// let mut one = Station::start(2, true)?;
    /// let mut other = one.clone();
    /// assert!(one.batches(watch).eq(other.calls(watch)));
    /// assert_eq!(one.read(), other.read());
    ///
    /// // every event with what came of it
    /// for (event, answer) in watch.into_iter().zip(one.batches(watch)) {
    ///     match answer {
    ///         Ok(answer) => println!("{event:?}: {:?}, dit {} ms", answer.code, answer.dit_ms),
    ///         Err(refusal) => println!("{event:?}: {refusal}"),
    ///     }
    /// }
    /// # Ok::<(), hullathan::Refusal>(())
    /// ```
    pub fn batches<I>(&mut self, events: I) -> Batches<'_, I::IntoIter>
    where
        I: IntoIterator<Item = Event>,
    {
        Batches::new(self, events.into_iter())
    }

    /// The station as it stands.
    #[must_use]
    pub fn read(&self) -> Reading {
        Reading::of(&sys::read(&self.memory))
    }

    /// The station's memory, to be stored. Two stations that are alike have the same bytes: what is no part of a
    /// station, such as places beyond a count, holds zeros. (In one that was handed in by [`Station::from_bytes`] it
    /// holds what stood there, until a call is accepted.)
    ///
    /// ```
    /// use hullathan::{Event, Station};
    ///
    /// let mut station = Station::start(2, true)?;
    /// station.call(Event::Seed { wpm: 24.0 })?;
    /// let stored = station.as_bytes().to_vec();
    /// assert_eq!(Station::from_bytes(&stored)?.read(), station.read());
    /// # Ok::<(), hullathan::Refusal>(())
    /// ```
    #[must_use]
    pub fn as_bytes(&self) -> &[u8; Station::BYTES] {
        &self.memory.0
    }

    /// A station that was stored.
    ///
    /// # Errors
    /// [`Refusal::UnsoundState`], where these are not the bytes of a sound station or not so many.
    ///
    /// ```
    /// use hullathan::{Refusal, Station};
    ///
    /// let mut bytes = *Station::start(2, true)?.as_bytes();
    /// assert!(Station::from_bytes(&bytes).is_ok());
    /// bytes.fill(0xFF);
    /// assert_eq!(Station::from_bytes(&bytes).unwrap_err(), Refusal::UnsoundState);
    /// assert_eq!(Station::from_bytes(&[]).unwrap_err(), Refusal::UnsoundState);
    /// # Ok::<(), Refusal>(())
    /// ```
    pub fn from_bytes(bytes: &[u8]) -> Result<Station, Refusal> {
        let bytes = bytes.try_into().map_err(|_| Refusal::UnsoundState)?;
        let station = Station {
            memory: sys::Memory(bytes),
        };
        // a switch call meets every clause of refusal 1, "a choice pending and the primary unready" too
        match station.clone().call(Event::Switch) {
            Err(Refusal::UnsoundState) => Err(Refusal::UnsoundState),
            _ => Ok(station),
        }
    }
}

/// A fresh station of width 1 that does not switch.
impl Default for Station {
    fn default() -> Station {
        Station::start(1, false).expect("a width of 1 is not refused")
    }
}

/// Hears all events, by batches. Those that are refused change nothing, and no answer is kept.
impl Extend<Event> for Station {
    fn extend<I: IntoIterator<Item = Event>>(&mut self, events: I) {
        self.batches(events).for_each(drop);
    }
}

impl<'e> Extend<&'e Event> for Station {
    fn extend<I: IntoIterator<Item = &'e Event>>(&mut self, events: I) {
        self.extend(events.into_iter().copied());
    }
}

impl fmt::Debug for Station {
    fn fmt(&self, f: &mut fmt::Formatter<'_>) -> fmt::Result {
        f.debug_tuple("Station").field(&self.read()).finish()
    }
}
