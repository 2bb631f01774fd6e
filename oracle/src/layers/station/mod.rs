//! The station, beside manta's `SpeedTracker` and `TimingBank` driven by document 01's "Station", with its refusals before them, and
//! serials, departures and counts followed beside them.

mod batch;
mod cases;
mod count;
#[cfg(test)]
mod damaged;
pub(crate) mod drive;

use crate::compare::{agree, Difference, Follow, Layer};
use crate::forms;
use crate::hullathan::bank::Departure;
use crate::hullathan::station as ours;
use crate::hullathan::station::{Reading, Rival, Station};
use crate::hullathan::Bit;
use crate::layers::bank::{follow, same_left, state};
use crate::layers::tracker;
use crate::random::Random;
use crate::refusals;
use crate::shrink::{simpler_f32, smaller_list};
use crate::states::{self, State};
use batch::Batches;
use drive::{Driven, Heard};
use std::fmt;

pub use cases::watched as watched_case;
pub use count::reached;

/// The kinds of events.
pub const MARK: u8 = 0;
pub const GAP: u8 = 1;
pub const FINISH: u8 = 2;
pub const SEED: u8 = 3;
pub const HINT: u8 = 4;
pub const CLEAR: u8 = 5;
pub const SWITCH: u8 = 6;

/// An event: its kind, its number by its bits, and whether it is live. What a kind does not carry is junk.
#[derive(Clone, Copy, PartialEq)]
pub struct Event {
    pub kind: u8,
    pub value: u32,
    pub live: bool,
}

impl Event {
    pub fn number(&self) -> f32 {
        f32::from_bits(self.value)
    }

    /// As C has it: of a live one, any byte but 0.
    fn plain(&self) -> ours::Event {
        let other = 1 + (self.value % 255) as u8;
        ours::Event {
            kind: self.kind,
            live: if self.live { other } else { 0 },
            value: self.number(),
            ..ours::Event::default()
        }
    }
}

impl fmt::Debug for Event {
    fn fmt(&self, f: &mut fmt::Formatter<'_>) -> fmt::Result {
        let value = tracker::show(self.value);
        match self.kind {
            MARK => write!(f, "mark {value} live {}", self.live),
            GAP => write!(f, "gap {value}"),
            FINISH => write!(f, "finish"),
            SEED => write!(f, "seed {value}"),
            HINT => write!(f, "hint {value}"),
            CLEAR => write!(f, "clear"),
            SWITCH => write!(f, "switch"),
            k => write!(f, "an event of kind {k}"),
        }
    }
}

#[derive(Clone, Debug)]
pub enum Call {
    Fresh(usize, bool),
    Event(Event),
    /// A station handed in, for the next call.
    Hand(Box<Station>),
}

/// What a call answers: whether it is refused, the code, and those that left.
#[derive(Debug, Clone, PartialEq)]
pub struct Answer {
    pub refused: bool,
    pub code: u8,
    pub left: Vec<Departure>,
}

impl Answer {
    fn refused(code: u8) -> Answer {
        Answer {
            refused: true,
            code,
            left: Vec::new(),
        }
    }

    fn accepted(code: u8, left: Vec<Departure>) -> Answer {
        Answer {
            refused: false,
            code,
            left,
        }
    }

    /// The byte that says all: a refusal is 128 and its number.
    fn byte(&self) -> u8 {
        self.code + if self.refused { 128 } else { 0 }
    }
}

/// The refusals of a call, in order; 12 where no event has the kind.
fn refusal(s: &Station, e: &Event) -> Result<(), u8> {
    refusals::station(s)?;
    if e.kind == SWITCH && s.bank.has_pending.is() && !s.primary.pair.ready {
        return Err(1);
    }
    refusals::calls(s)?;
    match e.kind {
        MARK | GAP => refusals::duration(e.number()),
        SEED => refusals::speed(e.number()),
        k if k > SWITCH => Err(12),
        _ => Ok(()),
    }
}

/// The Rust's side: document 01's station over manta's tracker and bank, with its refusals before them and the books
/// beside them, and the form that it stands for. What a script sets and what the Rust does make it; nothing of it comes
/// from the library.
#[derive(Clone)]
pub struct Rust {
    form: Station,
    /// There is none while the form is unsound: every call is refused by 1.
    driven: Option<Driven>,
    /// Whether no station was handed in since the fresh one.
    watch: bool,
}

impl Rust {
    pub fn new() -> Rust {
        Rust::fresh(1, false)
    }

    fn fresh(width: usize, switching: bool) -> Rust {
        let driven = Driven::fresh(width, switching);
        let form = Station {
            primary: tracker::plain(&driven.primary),
            bank: state::plain(&driven.bank, &[], 0),
            ..Station::default()
        };
        Rust {
            form,
            driven: Some(driven),
            watch: true,
        }
    }

    fn hand(form: Station) -> Rust {
        let driven = || Driven {
            primary: tracker::manta(&form.primary),
            bank: state::manta(&form.bank),
        };
        Rust {
            form,
            driven: refusals::station(&form).is_ok().then(driven),
            watch: false,
        }
    }

    /// The station in the library's form: as it was handed in, or as the last call that was not refused left it.
    pub fn form(&self) -> &Station {
        &self.form
    }

    pub fn step(&mut self, call: &Call) -> Answer {
        match call {
            Call::Event(e) => self.event(e),
            Call::Fresh(width, switching) => match refusals::width(*width) {
                Ok(()) => {
                    *self = Rust::fresh(*width, *switching);
                    Answer::accepted(0, Vec::new())
                }
                Err(code) => {
                    *self = Rust::new();
                    Answer::refused(code)
                }
            },
            Call::Hand(s) => {
                *self = Rust::hand(**s);
                Answer::accepted(0, Vec::new())
            }
        }
    }

    fn event(&mut self, e: &Event) -> Answer {
        if let Err(code) = refusal(&self.form, e) {
            return Answer::refused(code);
        }
        let (before, form) = (self.form.bank, &mut self.form);
        let driven = self.driven.as_mut().expect("a sound station");
        let (code, heard) = driven.event(e);
        let Driven { primary, bank } = driven;
        let left = match heard {
            Heard::Mark(live) => follow::left_at_mark(&before, bank, primary, e.number(), live),
            Heard::Ready => follow::left_at_ready(&before, bank),
            Heard::Clear => follow::left_at_clear(&before, bank),
            Heard::Nothing => Vec::new(),
        };
        let (mut serials, started) = follow::serials(&before, bank);
        follow::number(bank);
        if code == 2 {
            // "A serial travels with its tracker"
            std::mem::swap(&mut serials[before.pending], &mut form.serial);
        }
        for d in &left {
            form.counts[usize::from(d.cause)] += 1;
        }
        form.accepted += 1;
        form.primary = tracker::plain(primary);
        form.bank = state::plain(bank, &serials, started);
        Answer::accepted(code, left)
    }
}

impl Default for Rust {
    fn default() -> Rust {
        Rust::new()
    }
}

/// What a host is shown of a station; of an unsound one a refusal by 1, and zeros.
fn reading(rust: &Rust) -> Reading {
    let (Some(driven), books) = (&rust.driven, &rust.form) else {
        return Reading {
            code: 129,
            ..Reading::default()
        };
    };
    let (p, b) = (&driven.primary, &driven.bank);
    let serials = state::serials(&books.bank);
    let mut rivals = [Rival::default(); 8];
    for (place, (h, &serial)) in rivals.iter_mut().zip(b.challengers().iter().zip(&serials)) {
        *place = Rival {
            serial,
            dit_ms: h.tracker().mu_dit_ms(),
            dah_ms: h.tracker().mu_dah_ms(),
            score: h.score,
            gap_score: h.gap_score,
        };
    }
    Reading {
        code: 0,
        ready: Bit::from(p.ready()),
        has_wpm: Bit::from(p.wpm().is_some()),
        switching: Bit::from(b.cfg.switching),
        width: b.cfg.width,
        dit_ms: p.mu_dit_ms(),
        dah_ms: p.mu_dah_ms(),
        dit_estimate_ms: p.dit_estimate_ms(),
        wpm: p.wpm().unwrap_or(0.0),
        score: b.primary_score,
        gap_score: b.primary_gap_score,
        serial: books.serial,
        accepted: books.accepted,
        marks: b.marks_seen(),
        gaps: b.gaps_seen(),
        started: books.bank.started,
        counts: books.counts,
        challengers: b.challengers().len(),
        rivals,
        log_len: b.switch_log().count(),
        log: state::plain(b, &serials, 0).log,
        ..Reading::default()
    }
}

/// Both sides of a run.
#[derive(Clone)]
pub struct Both {
    pub ours: Station,
    rust: Rust,
    batches: Batches,
}

impl Default for Both {
    fn default() -> Both {
        Both::new()
    }
}

impl Both {
    pub fn new() -> Both {
        let first = ours::fresh(1, false);
        Both {
            ours: first,
            rust: Rust::new(),
            batches: Batches::new(first),
        }
    }

    /// One call to both sides: the answers, and both whole stations afterwards; after a refusal each bit of what was lent. Then what a
    /// host reads of it, and once a batch is full the same calls as a batch.
    pub fn step(&mut self, call: &Call) -> Result<Answer, Difference> {
        let answer = match call {
            Call::Event(e) => {
                let plain = e.plain();
                let mut after = self.ours;
                let back = ours::call(&mut after, e.kind, plain.live, plain.value);
                let answer = self.hold(call, back, after)?;
                if self.batches.push(plain, back, answer.refused) {
                    self.flush(call)?;
                }
                answer
            }
            Call::Fresh(width, switching) => {
                self.flush(call)?;
                let mut after = self.ours;
                let any = if *switching { 1 + *width as u8 } else { 0 };
                let code = ours::start(&mut after, *width, any);
                let answer = self.rust.step(call);
                agree(call, "the code", code, answer.byte())?;
                self.compare(&after, call)?;
                self.lend(after);
                answer
            }
            Call::Hand(_) => {
                self.flush(call)?;
                let answer = self.rust.step(call);
                self.lend(*self.rust.form());
                answer
            }
        };
        agree(
            call,
            "the reading",
            ours::read(&self.ours),
            reading(&self.rust),
        )?;
        Ok(answer)
    }

    /// A station for the next call, and for the next batch.
    fn lend(&mut self, s: Station) {
        (self.ours, self.batches.station) = (s, s);
    }

    /// Runs the events that wait for their batch to be full: the station after it is the Rust's.
    fn flush(&mut self, call: &Call) -> Result<(), Difference> {
        if self.batches.is_empty() {
            return Ok(());
        }
        self.batches.run(call, self.rust.driven.is_some())?;
        self.compare(&self.batches.station, call)
    }

    /// What the library answers to an event and leaves in the station, held to the Rust's.
    fn hold(
        &mut self,
        call: &Call,
        back: ours::Answer,
        after: Station,
    ) -> Result<Answer, Difference> {
        let expected = self.rust.step(call);
        same_left(call, &back.left, back.left_len, &expected.left)?;
        let now = reading(&self.rust);
        let shown = ours::Answer {
            code: expected.byte(),
            dit_ms: now.dit_ms,
            dah_ms: now.dah_ms,
            serial: now.serial,
            challengers: now.challengers,
            left: back.left,
            left_len: expected.left.len(),
            ..ours::Answer::default()
        };
        agree(call, "the answer", back, shown)?;
        self.compare(&after, call)?;
        self.ours = after;
        Ok(expected)
    }

    /// Whether a station is the Rust's, to the last byte: a refused call leaves what was lent, any other a form with
    /// zeros where nothing is.
    fn compare(&self, s: &Station, call: &Call) -> Result<(), Difference> {
        let form = self.rust.form();
        if forms::identical(s, form) {
            return Ok(());
        }
        let (ours, theirs) = (State::from(s), State::from(form));
        Err(states::unlike(&format!("{call:?}"), &ours, &theirs))
    }
}

pub struct Stations;

impl Layer for Stations {
    type Case = Vec<Call>;

    const NAME: &'static str = "station";

    fn fixed() -> Vec<Vec<Call>> {
        cases::fixed()
    }

    fn random(random: &mut Random) -> Vec<Call> {
        cases::random(random)
    }

    fn run(case: &Vec<Call>) -> Result<u64, Difference> {
        let mut both = Both::new();
        let mut calls = 0;
        for call in case {
            let before = *both.rust.form();
            let answer = both.step(call)?;
            let (after, watch) = (both.rust.form(), both.rust.watch);
            count::count(&before, after, watch, call, &answer);
            calls += u64::from(!matches!(call, Call::Hand(_)));
        }
        if let Some(last) = case.last() {
            both.flush(last)?;
        }
        Ok(calls)
    }

    fn smaller(case: &Vec<Call>) -> Vec<Vec<Call>> {
        smaller_list(case, simpler)
    }

    fn reached() -> &'static [&'static crate::reached::Branch] {
        reached::ALL
    }
}

impl Follow for Stations {
    fn follow(case: &Vec<Call>) {
        let mut rust = Rust::new();
        for call in case {
            let before = *rust.form();
            let answer = rust.step(call);
            count::count(&before, rust.form(), rust.watch, call, &answer);
        }
    }
}

/// The call with its number made simpler.
fn simpler(call: &Call) -> Vec<Call> {
    match call {
        Call::Event(e) => simpler_f32(e.value)
            .into_iter()
            .map(|value| Call::Event(Event { value, ..*e }))
            .collect(),
        _ => Vec::new(),
    }
}
