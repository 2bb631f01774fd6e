//! What a display and a log need of a station.

use crate::{sys, Cause};
use std::fmt;

/// A rival as it stands.
#[derive(Clone, Copy, Debug, PartialEq)]
#[non_exhaustive]
pub struct Rival {
    /// Its serial.
    pub serial: u64,
    /// Its dit in milliseconds.
    pub dit_ms: f32,
    /// Its dah in milliseconds.
    pub dah_ms: f32,
    /// How well marks and gaps fit it: 0 is best, -30 worst.
    pub score: f32,
    /// The same of the gaps alone.
    pub gap_score: f32,
}

/// A switch that was made, or that would have been made with switching on.
#[derive(Clone, Copy, Debug, PartialEq)]
#[non_exhaustive]
pub struct SwitchRecord {
    /// The mark at which the rival was chosen, counted from 1 as [`Reading::marks`] counts them.
    pub mark: u64,
    /// The dit of the primary, in milliseconds.
    pub from_dit_ms: f32,
    /// The dit of the rival.
    pub to_dit_ms: f32,
    /// Whether it was made.
    pub applied: bool,
}

/// A station as it stands.
///
/// ```
/// use hullathan::{Cause, Event, Station};
///
/// let mut station = Station::start(2, true)?;
/// assert!(!station.read().ready);
/// station.extend([Event::Mark { ms: 150.0, live: true }; 2]);
/// station.call(Event::Finish)?;
///
/// let reading = station.read();
/// assert!(reading.ready);
/// assert_eq!((reading.dit_ms, reading.dah_ms), (150.0, 450.0));
/// assert_eq!((reading.accepted, reading.started), (3, 1));
/// let rival = reading.rivals().next().expect("the other reading of equal marks");
/// assert_eq!((rival.serial, rival.dit_ms, rival.dah_ms), (1, 50.0, 150.0));
/// assert_eq!(Cause::ALL.map(|cause| reading.departed(cause)), [0; 5]);
/// # Ok::<(), hullathan::Refusal>(())
/// ```
#[derive(Clone, PartialEq)]
pub struct Reading {
    /// Whether the primary has found a dit and a dah.
    pub ready: bool,
    /// The primary's dit in milliseconds; 0 while it is unready.
    pub dit_ms: f32,
    /// The primary's dah in milliseconds; 0 while it is unready.
    pub dah_ms: f32,
    /// The primary's dit estimate in milliseconds, the unit of speed and gaps: the dit, corrected by the gaps within
    /// letters.
    pub dit_estimate_ms: f32,
    /// The primary's speed in words a minute, where it has one.
    pub wpm: Option<f32>,
    /// How well marks and gaps fit the primary: 0 is best, -30 worst.
    pub score: f32,
    /// The same of the gaps alone.
    pub gap_score: f32,
    /// The primary's serial.
    pub serial: u64,
    /// How many readings there can be, the primary included.
    pub width: usize,
    /// Whether a rival may take over.
    pub switching: bool,
    /// How many calls were accepted.
    pub accepted: u64,
    /// How many marks the bank heard: those with a ready primary, at a width of 2 or more.
    pub marks: u64,
    /// How many gaps the bank heard.
    pub gaps: u64,
    /// How many rivals were ever started.
    pub started: u64,
    /// How many challengers the bank holds.
    pub challengers: usize,
    departed: [u64; 5],
    rivals: [sys::Rival; 8],
    log_len: usize,
    log: [sys::SwitchRecord; 16],
}

impl Reading {
    /// The library's reading of a sound station.
    pub(crate) fn of(r: &sys::Reading) -> Reading {
        Reading {
            ready: r.ready != 0,
            dit_ms: r.dit_ms,
            dah_ms: r.dah_ms,
            dit_estimate_ms: r.dit_estimate_ms,
            wpm: (r.has_wpm != 0).then_some(r.wpm),
            score: r.score,
            gap_score: r.gap_score,
            serial: r.serial,
            width: r.width,
            switching: r.switching != 0,
            accepted: r.accepted,
            marks: r.marks,
            gaps: r.gaps,
            started: r.started,
            challengers: r.challengers,
            departed: [r.twins, r.outscored, r.aged, r.replaced, r.cleared],
            rivals: r.rivals,
            log_len: r.log_len,
            log: r.log,
        }
    }

    /// How many left by this cause since the station's start.
    #[must_use]
    pub fn departed(&self, cause: Cause) -> u64 {
        self.departed[cause as usize]
    }

    /// The rivals, in bank order.
    pub fn rivals(&self) -> impl ExactSizeIterator<Item = Rival> + '_ {
        let rivals = self.rivals.iter().take(self.challengers);
        rivals.map(|r| Rival {
            serial: r.serial,
            dit_ms: r.dit_ms,
            dah_ms: r.dah_ms,
            score: r.score,
            gap_score: r.gap_score,
        })
    }

    /// The last switches, at most 16, oldest first.
    ///
    /// ```
    /// let station = hullathan::Station::start(2, true)?;
    /// for switch in station.read().log() {
    ///     println!("at mark {}: {} ms after {}", switch.mark, switch.to_dit_ms, switch.from_dit_ms);
    /// }
    /// # Ok::<(), hullathan::Refusal>(())
    /// ```
    pub fn log(&self) -> impl ExactSizeIterator<Item = SwitchRecord> + '_ {
        let log = self.log.iter().take(self.log_len);
        log.map(|r| SwitchRecord {
            mark: r.mark_index,
            from_dit_ms: r.from_dit_ms,
            to_dit_ms: r.to_dit_ms,
            applied: r.applied != 0,
        })
    }
}

impl fmt::Debug for Reading {
    fn fmt(&self, f: &mut fmt::Formatter<'_>) -> fmt::Result {
        let departed = Cause::ALL.map(|cause| (cause, self.departed(cause)));
        f.debug_struct("Reading")
            .field("ready", &self.ready)
            .field("dit_ms", &self.dit_ms)
            .field("dah_ms", &self.dah_ms)
            .field("dit_estimate_ms", &self.dit_estimate_ms)
            .field("wpm", &self.wpm)
            .field("score", &self.score)
            .field("gap_score", &self.gap_score)
            .field("serial", &self.serial)
            .field("width", &self.width)
            .field("switching", &self.switching)
            .field("accepted", &self.accepted)
            .field("marks", &self.marks)
            .field("gaps", &self.gaps)
            .field("started", &self.started)
            .field("departed", &departed)
            .field("rivals", &self.rivals().collect::<Vec<_>>())
            .field("log", &self.log().collect::<Vec<_>>())
            .finish()
    }
}
