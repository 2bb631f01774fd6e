//! The refusals.

use std::error::Error;
use std::fmt;

/// Why a call was refused: document 01's numbers, in checking order. A refused call leaves the station as it was.
///
/// A station refuses by 1 (bytes that are handed in), 2, 3 and 5 to 8, a sender by 1, 5 to 7 and 9. The others are
/// those of calls and of a journal that are not in this crate; they stand here so that a log has one type for all of
/// them. More numbers will come: a `match` has a last arm for them.
///
/// ```
/// use hullathan::{Event, Refusal, Station};
///
/// let refusal = Station::start(9, true).unwrap_err();
/// assert_eq!(refusal, Refusal::WidthAbove8);
/// assert_eq!(refusal.number(), 3);
/// assert_eq!(refusal.to_string(), "refused by 3: the width is above 8");
///
/// let mut station = Station::start(8, true)?;
/// assert_eq!(station.call(Event::Gap { ms: 0.0 }), Err(Refusal::DurationTooShort));
/// # Ok::<(), Refusal>(())
/// ```
#[repr(u8)]
#[derive(Clone, Copy, Debug, PartialEq, Eq, PartialOrd, Ord, Hash)]
#[non_exhaustive]
pub enum Refusal {
    /// 1: a state handed in is unsound.
    UnsoundState = 1,
    /// 2: the marks, the gaps or the accepted calls counted have reached 4,294,967,295.
    CountsFull = 2,
    /// 3: a fresh station is wanted with a width above 8.
    WidthAbove8 = 3,
    /// 4: a list of marks or gaps has more than 12 entries.
    ListTooLong = 4,
    /// 5: a duration is NaN or infinite.
    DurationNotFinite = 5,
    /// 6: a duration is below 1/64 ms, zero and negatives included.
    DurationTooShort = 6,
    /// 7: a duration is above 262,144 ms.
    DurationTooLong = 7,
    /// 8: a seeding speed is not finite or not above zero.
    SpeedNotPositive = 8,
    /// 9: the dit given to the sender statistics is NaN or outside 20 to 150 ms.
    DitOutOfRange = 9,
    /// 10: the logarithm's input is not finite and positive.
    NoLogarithm = 10,
    /// 11: the root's input is NaN, infinite or below zero.
    NoRoot = 11,
    /// 12: a journal line, an event or a class breaks its form.
    BrokenForm = 12,
}

impl Refusal {
    /// All that there are, by their numbers.
    pub const ALL: &'static [Refusal] = &[
        Refusal::UnsoundState,
        Refusal::CountsFull,
        Refusal::WidthAbove8,
        Refusal::ListTooLong,
        Refusal::DurationNotFinite,
        Refusal::DurationTooShort,
        Refusal::DurationTooLong,
        Refusal::SpeedNotPositive,
        Refusal::DitOutOfRange,
        Refusal::NoLogarithm,
        Refusal::NoRoot,
        Refusal::BrokenForm,
    ];

    /// Document 01's number.
    #[must_use]
    pub const fn number(self) -> u8 {
        self as u8
    }

    /// The refusal with that number; none where there is no such number.
    ///
    /// ```
    /// use hullathan::Refusal;
    ///
    /// assert_eq!(Refusal::from_number(5), Some(Refusal::DurationNotFinite));
    /// assert_eq!(Refusal::from_number(13), None);
    /// ```
    #[must_use]
    pub fn from_number(number: u8) -> Option<Refusal> {
        Refusal::ALL.iter().copied().find(|r| r.number() == number)
    }

    /// What was wrong, in document 01's words.
    fn wrong(self) -> &'static str {
        match self {
            Refusal::UnsoundState => "the state handed in is unsound",
            Refusal::CountsFull => {
                "4,294,967,295 or more marks, gaps or accepted calls are counted"
            }
            Refusal::WidthAbove8 => "the width is above 8",
            Refusal::ListTooLong => "the list has more than 12 entries",
            Refusal::DurationNotFinite => "the duration is NaN or infinite",
            Refusal::DurationTooShort => "the duration is below 1/64 ms",
            Refusal::DurationTooLong => "the duration is above 262,144 ms",
            Refusal::SpeedNotPositive => "the seeding speed is not finite or not above zero",
            Refusal::DitOutOfRange => "the dit is NaN or outside 20 to 150 ms",
            Refusal::NoLogarithm => "the logarithm's input is not finite and positive",
            Refusal::NoRoot => "the root's input is NaN, infinite or below zero",
            Refusal::BrokenForm => "the line, the event or the class breaks its form",
        }
    }
}

impl fmt::Display for Refusal {
    fn fmt(&self, f: &mut fmt::Formatter<'_>) -> fmt::Result {
        write!(f, "refused by {}: {}", self.number(), self.wrong())
    }
}

impl Error for Refusal {}
