//! What a station hears and is asked.

use crate::sys;

/// One event: one call of a station.
///
/// ```
/// use hullathan::Event;
///
/// // a journal's `M 3200 1`: a tick is 1/64 ms
/// let dit = Event::Mark { ms: 3200.0 / 64.0, live: true };
/// assert_eq!(dit, Event::Mark { ms: 50.0, live: true });
/// ```
#[derive(Clone, Copy, Debug, PartialEq)]
pub enum Event {
    /// A mark (key down).
    ///
    /// A live one is heard for the first time: the primary learns it, each rival is scored by it and then learns it,
    /// and it may start a new rival. One that is not live was learnt before and is handed over again, as when a
    /// receiver that held back the first marks until the station was ready plays them once more: every reading is
    /// scored by it, rivals grow older, leave or are chosen, but none learns from it and none is started by it. Where
    /// the primary is unready or the width is 1, it does nothing. A receiver that hands over each mark once, when it
    /// ends, says `true`.
    Mark {
        /// Its length in milliseconds, from 1/64 to 262,144.
        ms: f32,
        /// Whether it is heard for the first time: see above.
        live: bool,
    },
    /// A gap (key up).
    Gap {
        /// Its length in milliseconds, from 1/64 to 262,144.
        ms: f32,
    },
    /// The signal has ended: lock on the marks that are there, if there are two.
    Finish,
    /// Seed the speed, and let all rivals go.
    Seed {
        /// Words a minute, finite and above zero.
        wpm: f32,
    },
    /// How many dits a dah of this sender has.
    Hint {
        /// Dah by dit, from 2.2 to 6.0; others count as the nearer of the two. One that is not finite empties the
        /// hint.
        ratio: f32,
    },
    /// Let all rivals go: after a break in the reception, say.
    Clear,
    /// May the chosen rival take over?
    ///
    /// Each mark makes the choice anew, and it stands until the next mark, clear, seed or switch call; gaps do not
    /// end it. So ask after a mark and before the next one, where the decoder can bear another dit: once the gap
    /// tells that a letter has ended (twice [`Reading::dit_estimate_ms`](crate::Reading::dit_estimate_ms) or more),
    /// or a word. Asked after each mark, one letter may be read by two dits; never asked, the primary stays whatever
    /// the scores. With switching off the answer is always [`Code::Nothing`](crate::Code::Nothing), and the switch
    /// that would have been made is put into the log, once for each lead.
    Switch,
}

impl Event {
    /// The event as the library has it: a kind and its numbers.
    #[inline]
    pub(crate) fn plain(self) -> sys::Event {
        let (kind, live, value) = match self {
            Event::Mark { ms, live } => (0, live, ms),
            Event::Gap { ms } => (1, false, ms),
            Event::Finish => (2, false, 0.0),
            Event::Seed { wpm } => (3, false, wpm),
            Event::Hint { ratio } => (4, false, ratio),
            Event::Clear => (5, false, 0.0),
            Event::Switch => (6, false, 0.0),
        };
        let live = live.into();
        sys::Event {
            kind,
            live,
            pad_live: [0; 2],
            value,
        }
    }
}
