//! A sender's habits.

use crate::answer::outcome;
use crate::{sys, Refusal};
use std::fmt;

/// A length in milliseconds.
#[derive(Clone, Copy, Debug, PartialEq, PartialOrd)]
pub struct Millis(pub f32);

/// A length in dits. Milliseconds and dits are never given for each other: [`Sender::observe`] makes the second of the
/// first.
#[derive(Clone, Copy, Debug, PartialEq, PartialOrd)]
pub struct Dits(pub f32);

/// A class of lengths.
#[repr(u8)]
#[derive(Clone, Copy, Debug, PartialEq, Eq, PartialOrd, Ord, Hash)]
pub enum Class {
    /// A short mark.
    Dot = 0,
    /// A long mark.
    Dash = 1,
    /// A gap within a letter.
    ElementGap = 2,
    /// A gap between letters.
    CharacterGap = 3,
    /// A gap between words.
    WordGap = 4,
}

impl Class {
    /// All five, in document 01's order.
    pub const ALL: [Class; 5] = [
        Class::Dot,
        Class::Dash,
        Class::ElementGap,
        Class::CharacterGap,
        Class::WordGap,
    ];
}

/// What is known of one class.
#[derive(Clone, Copy, Debug, PartialEq)]
#[non_exhaustive]
pub struct ClassReading {
    /// The average, in which each new length weighs 0.15.
    pub mean: Dits,
    /// The variance about it, in dits squared.
    pub variance: f32,
    /// How many lengths were observed; it stays at 4,294,967,295.
    pub observed: u32,
}

/// What is known of a sender.
#[derive(Clone, Copy, Debug, PartialEq)]
#[non_exhaustive]
pub struct SenderReading {
    /// The dit that was handed in.
    pub dit: Millis,
    /// A dash by a dot, once three of both were observed: a good hint for a station.
    pub ratio: Option<f32>,
    /// From here on a gap parts words, once a gap between letters was observed: 3 to 12 dits.
    pub word: Option<Dits>,
    classes: [Option<ClassReading>; 5],
}

impl SenderReading {
    /// What is known of a class, once one of it was observed.
    #[must_use]
    pub fn class(&self, class: Class) -> Option<ClassReading> {
        self.classes[class as usize]
    }
}

/// What is shown of a class.
fn class_reading(c: &sys::ClassStats) -> Option<ClassReading> {
    (c.n > 0).then_some(ClassReading {
        mean: Dits(c.mean),
        variance: c.var,
        observed: c.n,
    })
}

/// A sender's habits: how long its dots, dashes and gaps are, in dits. A receiver that has read a mark or a gap as
/// one of the five classes observes it with the dit estimate of its station at that time, and starts anew after a
/// switch.
///
/// It is 60 bytes that hold no pointer, and can be cloned and stored as a station can.
///
/// ```
/// use hullathan::{Class, Dits, Millis, Refusal, Sender};
///
/// let mut sender = Sender::start();
/// let dit = Millis(40.0);
/// for _ in 0..3 {
///     sender.observe(Class::Dot, Millis(40.0), dit)?;
///     sender.observe(Class::Dash, Millis(120.0), dit)?;
/// }
/// sender.observe(Class::CharacterGap, Millis(160.0), dit)?;
/// sender.observe(Class::WordGap, Millis(360.0), dit)?;
///
/// let reading = sender.read(dit);
/// assert_eq!(reading.ratio, Some(3.0));
/// assert_eq!(reading.word, Some(Dits(6.0))); // the root of 4 times 9
/// assert_eq!(reading.class(Class::ElementGap), None);
/// assert!(sender.is_pause(Dits(16.0)) && !sender.is_pause(Dits(15.9)));
/// assert_eq!(sender.observe(Class::Dot, Millis(0.0), dit), Err(Refusal::DurationTooShort));
/// # Ok::<(), Refusal>(())
/// ```
#[derive(Clone)]
pub struct Sender {
    memory: sys::SenderMemory,
}

impl Sender {
    /// How many bytes a sender has.
    pub const BYTES: usize = size_of::<sys::Sender>();

    /// A sender with no observations.
    #[must_use]
    pub fn start() -> Sender {
        let mut memory = sys::Memory([0; Sender::BYTES]);
        sys::sender_start(&mut memory);
        Sender { memory }
    }

    /// One length of a class, and the dit that it is measured by.
    ///
    /// # Errors
    /// [`Refusal::DurationNotFinite`], [`Refusal::DurationTooShort`] or [`Refusal::DurationTooLong`] of the length,
    /// [`Refusal::DitOutOfRange`] of the dit. Then the sender is as it was.
    pub fn observe(&mut self, class: Class, length: Millis, dit: Millis) -> Result<(), Refusal> {
        outcome(sys::sender_observe(
            &mut self.memory,
            class as u8,
            length.0,
            dit.0,
        ))
        .map(drop)
    }

    /// What is known; the dit is copied into it.
    #[must_use]
    pub fn read(&self, dit: Millis) -> SenderReading {
        let r = sys::sender_read(&self.memory, dit.0);
        SenderReading {
            dit: Millis(r.dit_ms),
            ratio: (r.has_ratio != 0).then_some(r.ratio),
            word: (r.has_word != 0).then_some(Dits(r.word_dits)),
            classes: [&r.dot, &r.dash, &r.element_gap, &r.char_gap, &r.word_gap].map(class_reading),
        }
    }

    /// Whether a gap between words is a pause: of 15 dits and of four average gaps between letters, or more.
    #[must_use]
    pub fn is_pause(&self, gap: Dits) -> bool {
        sys::sender_is_pause(&self.memory, gap.0) == 1
    }

    /// The sender's memory, to be stored.
    #[must_use]
    pub fn as_bytes(&self) -> &[u8; Sender::BYTES] {
        &self.memory.0
    }

    /// A sender that was stored.
    ///
    /// # Errors
    /// [`Refusal::UnsoundState`], where these are not the bytes of a sound sender or not so many.
    ///
    /// ```
    /// use hullathan::{Refusal, Sender};
    ///
    /// let stored = *Sender::start().as_bytes();
    /// assert!(Sender::from_bytes(&stored).is_ok());
    /// assert_eq!(Sender::from_bytes(&[0xFF; 60]).unwrap_err(), Refusal::UnsoundState);
    /// ```
    pub fn from_bytes(bytes: &[u8]) -> Result<Sender, Refusal> {
        let memory = sys::Memory(bytes.try_into().map_err(|_| Refusal::UnsoundState)?);
        outcome(sys::sender_read(&memory, 0.0).code)?;
        Ok(Sender { memory })
    }
}

/// No observations.
impl Default for Sender {
    fn default() -> Sender {
        Sender::start()
    }
}

impl fmt::Debug for Sender {
    fn fmt(&self, f: &mut fmt::Formatter<'_>) -> fmt::Result {
        let reading = self.read(Millis(0.0));
        let classes = Class::ALL.map(|class| (class, reading.class(class)));
        f.debug_tuple("Sender").field(&classes).finish()
    }
}
