//! The bank of rivals, beside manta's `TimingBank` with the refusals of document 01 before it, and serials and departures beside it.

pub(crate) mod cases;
mod count;
#[cfg(test)]
pub(crate) mod damaged;
pub(crate) mod follow;
mod parts;
pub(crate) mod state;

use crate::compare::{agree, Difference, Follow, Layer};
use crate::forms;
use crate::hullathan::bank as ours;
use crate::hullathan::bank::{Bank, Departure, Hypothesis, Record};
use crate::hullathan::tracker::SpeedTracker as Plain;
use crate::layers::tracker;
use crate::manta::timing::{SpeedBankConfig, TimingBank};
use crate::random::Random;
use crate::refusals;
use crate::shrink::{simpler_f32, smaller_list};
use crate::states::{self, State};
use std::fmt;

pub use cases::random as random_case;
pub use count::reached;
pub use parts::{flags, spelled, Part, PARTS};

/// A call, its numbers by their bits; or a part of the bank, all of it, or the primary, set on both sides before the next call.
#[derive(Clone)]
pub enum Call {
    New(usize, bool),
    /// A mark, and whether it is live.
    Mark(u32, bool),
    Gap(u32),
    Ready(Vec<u32>),
    Clear,
    Switch,
    /// Every call that only reads, with a place.
    Read(usize),
    /// A call of the primary, or one handed in.
    Primary(tracker::Call),
    /// The primary's serial.
    Serial(u64),
    Set(Part, u8, u32),
    /// A part of the tracker of the challenger at a place.
    SetTracker(u8, tracker::Part, u8, u32),
    Hand(Box<Bank>),
    /// Nothing is called: a script shows both states.
    Show,
}

impl Call {
    /// Whether the bank is called, and nothing only set or shown or fed to the primary.
    fn is_of_bank(&self) -> bool {
        !matches!(
            self,
            Call::Primary(_)
                | Call::Serial(_)
                | Call::Set(..)
                | Call::SetTracker(..)
                | Call::Hand(_)
                | Call::Show
        )
    }
}

fn floats(bits: &[u32]) -> Vec<f32> {
    bits.iter().map(|&b| f32::from_bits(b)).collect()
}

impl fmt::Debug for Call {
    fn fmt(&self, f: &mut fmt::Formatter<'_>) -> fmt::Result {
        let show = tracker::show;
        match self {
            Call::New(width, switching) => write!(f, "new {width} {switching}"),
            Call::Mark(d, live) => write!(f, "on_mark {} live {live}", show(*d)),
            Call::Gap(d) => write!(f, "on_gap {}", show(*d)),
            Call::Ready(marks) => write!(f, "on_ready {:?}", floats(marks)),
            Call::Clear => write!(f, "clear"),
            Call::Switch => write!(f, "take_switch"),
            Call::Read(i) => write!(f, "every reading, place {i}"),
            Call::Primary(c) => write!(f, "primary: {c:?}"),
            Call::Serial(n) => write!(f, "the primary's serial set to {n}"),
            Call::Set(part, i, v) => write!(f, "{part:?} {i} set to {}", show(*v)),
            Call::SetTracker(k, part, i, v) => {
                write!(f, "challenger {k}, {part:?} {i} set to {}", show(*v))
            }
            Call::Hand(b) => write!(f, "handed in: {b:?}"),
            Call::Show => write!(f, "both states shown"),
        }
    }
}

/// What the readings tell: each count with its code; whether there is a challenger and a record at the place, with
/// their codes, and what they are, zeros where there is none.
#[derive(Debug, Clone, Copy)]
pub struct Readings {
    pub counts: [(u8, u64); 3],
    pub challenger: (u8, bool, Hypothesis),
    pub record: (u8, bool, Record),
}

impl PartialEq for Readings {
    fn eq(&self, other: &Readings) -> bool {
        let (a, b) = (&self.challenger, &other.challenger);
        let (r, s) = (&self.record, &other.record);
        self.counts == other.counts
            && (a.0, a.1) == (b.0, b.1)
            && forms::identical(&a.2, &b.2)
            && (r.0, r.1) == (s.0, s.1)
            && forms::identical_numbers(&r.2, &s.2)
    }
}

#[derive(Debug, Clone, PartialEq)]
pub enum Told {
    Nothing,
    Flag(bool),
    Readings(Box<Readings>),
    Primary(tracker::Answer),
}

#[derive(Debug, Clone)]
pub struct Answer {
    pub code: u8,
    pub told: Told,
    /// Those that left: one replaced, then those that were pruned or cleared, in bank order.
    pub left: Vec<Departure>,
}

impl Answer {
    fn done(told: Told) -> Answer {
        Answer {
            code: 0,
            told,
            left: Vec::new(),
        }
    }
}

/// What a call of the library hands back: those that left with their number, and all three states.
#[derive(Debug, Clone)]
struct Back {
    code: u8,
    yes: bool,
    left: Vec<Departure>,
    left_len: usize,
    bank: Bank,
    primary: Plain,
    serial: u64,
}

/// The refusals of a call, in order.
fn refusal(b: &Bank, primary: &Plain, call: &Call) -> Result<(), u8> {
    refusals::bank(b)?;
    if matches!(
        call,
        Call::Mark(..) | Call::Gap(_) | Call::Ready(_) | Call::Switch
    ) {
        refusals::tracker(primary)?;
    }
    if matches!(call, Call::Switch) && b.has_pending.is() && !primary.pair.ready {
        return Err(1);
    }
    if !matches!(call, Call::Read(_)) {
        refusals::counts(b)?;
    }
    match call {
        Call::Mark(d, _) | Call::Gap(d) => refusals::duration(f32::from_bits(*d)),
        Call::Ready(marks) => {
            let marks = floats(marks);
            refusals::list(&marks)?;
            marks.into_iter().try_for_each(refusals::duration)
        }
        _ => Ok(()),
    }
}

/// The Rust's side: manta's bank and primary with document 01's refusals before them, the serials followed beside them,
/// and the forms that they stand for. What a script sets and what the Rust does make it; nothing of it comes from the
/// library.
#[derive(Debug, Clone)]
pub struct Rust {
    form: Bank,
    /// There is none while the form is unsound, and none is made of what was set before it is wanted.
    bank: Option<TimingBank>,
    stale: bool,
    pub primary: tracker::Rust,
    /// The primary's serial.
    pub serial: u64,
}

impl Rust {
    pub fn new() -> Rust {
        let bank = TimingBank::new(SpeedBankConfig {
            width: 1,
            switching: false,
        });
        Rust {
            form: state::plain(&bank, &[], 0),
            bank: Some(bank),
            stale: false,
            primary: tracker::Rust::new(),
            serial: 0,
        }
    }

    /// The bank in the library's form: as it was set, or as the last call that was not refused left it.
    pub fn form(&self) -> &Bank {
        &self.form
    }

    pub fn step(&mut self, call: &Call) -> Answer {
        match call {
            Call::Set(part, i, v) => parts::set(&mut self.form, *part, *i, *v),
            Call::SetTracker(k, part, i, v) => {
                let place = usize::from(*k) % 8;
                tracker::set(&mut self.form.challengers[place].tracker, *part, *i, *v);
            }
            Call::Hand(b) => self.form = **b,
            Call::Serial(n) => self.serial = *n,
            Call::Show => return Answer::done(Told::Nothing),
            Call::Primary(c) => {
                let answer = self.primary.step(c);
                return Answer {
                    code: answer.code,
                    ..Answer::done(Told::Primary(answer))
                };
            }
            Call::New(width, switching) => return self.fresh(*width, *switching),
            Call::Read(i) => return self.read(*i, call),
            _ => return self.call(call),
        }
        self.stale = true;
        Answer::done(Told::Nothing)
    }

    /// manta's bank of what was set.
    fn settle(&mut self) {
        if self.stale {
            let sound = refusals::bank(&self.form).is_ok();
            self.bank = sound.then(|| state::manta(&self.form));
            self.stale = false;
        }
    }

    fn fresh(&mut self, width: usize, switching: bool) -> Answer {
        let refused = refusals::width(width).err();
        let cfg = match refused {
            None => SpeedBankConfig { width, switching },
            Some(_) => SpeedBankConfig::default(),
        };
        let bank = TimingBank::new(cfg);
        self.form = state::plain(&bank, &[], 0);
        self.bank = Some(bank);
        self.stale = false;
        Answer {
            code: refused.unwrap_or(0),
            ..Answer::done(Told::Nothing)
        }
    }

    fn read(&mut self, i: usize, call: &Call) -> Answer {
        self.settle();
        let code = refusal(&self.form, self.primary.form(), call)
            .err()
            .unwrap_or(0);
        let bank = self.bank.as_ref().filter(|_| code == 0);
        let counts = bank.map_or([0; 3], |m| {
            [m.hypotheses() as u64, m.marks_seen(), m.gaps_seen()]
        });
        let there = bank.is_some_and(|m| i < m.challengers().len());
        let logged = bank.is_some_and(|m| i < m.switch_log().count());
        // the serials stand in the form; what else is in it was read from manta's bank or into it
        let canonical = bank.map(|m| state::plain(m, &state::serials(&self.form), 0));
        let challenger = canonical.filter(|_| there).map(|b| b.challengers[i]);
        let record = canonical.filter(|_| logged).map(|b| b.log[i]);
        Answer {
            code,
            ..Answer::done(Told::Readings(Box::new(Readings {
                counts: counts.map(|n| (code, n)),
                challenger: (code, there, challenger.unwrap_or_default()),
                record: (code, logged, record.unwrap_or_default()),
            })))
        }
    }

    fn call(&mut self, call: &Call) -> Answer {
        self.settle();
        let said = |yes| match call {
            Call::Switch => Told::Flag(yes),
            _ => Told::Nothing,
        };
        if let Err(code) = refusal(&self.form, self.primary.form(), call) {
            return Answer {
                code,
                ..Answer::done(said(false))
            };
        }
        let (yes, left) = self.act(call);
        Answer {
            left,
            ..Answer::done(said(yes))
        }
    }

    /// A call that is not refused: whether the two were exchanged, and who left.
    fn act(&mut self, call: &Call) -> (bool, Vec<Departure>) {
        let (before, primary) = (self.form, &mut self.primary);
        let bank = self.bank.as_mut().expect("a sound bank");
        let (mut yes, mut left) = (false, Vec::new());
        match call {
            Call::Mark(d, live) => {
                let (primary, d) = (primary.sound(), f32::from_bits(*d));
                bank.on_mark(primary, d, *live);
                left = follow::left_at_mark(&before, bank, primary, d, *live);
            }
            Call::Gap(d) => bank.on_gap(primary.sound(), f32::from_bits(*d)),
            Call::Ready(marks) => {
                bank.on_ready(primary.sound(), &floats(marks));
                left = follow::left_at_ready(&before, bank);
            }
            Call::Clear => {
                bank.clear();
                left = follow::left_at_clear(&before, bank);
            }
            _ => yes = primary.change(|t| bank.take_switch(t)),
        }
        let (mut serials, started) = follow::serials(&before, bank);
        follow::number(bank);
        if yes {
            // a serial travels with its tracker
            std::mem::swap(&mut serials[before.pending], &mut self.serial);
        }
        self.form = state::plain(bank, &serials, started);
        (yes, left)
    }
}

impl Default for Rust {
    fn default() -> Rust {
        Rust::new()
    }
}

/// Both sides of a run: the library's bank and primary with its serial, and the Rust's.
#[derive(Clone)]
struct Both {
    ours: Bank,
    primary: Plain,
    serial: u64,
    rust: Rust,
}

impl Both {
    fn new() -> Both {
        Both {
            ours: ours::new(1, false).bank,
            primary: crate::hullathan::tracker::new(),
            serial: 0,
            rust: Rust::new(),
        }
    }

    /// One call to both sides: the answers, and both whole states afterwards; after a refusal each bit of what was
    /// handed in. What is set is set on both sides.
    fn step(&mut self, call: &Call) -> Result<Answer, Difference> {
        match call {
            Call::Primary(c) => {
                let answer = tracker::step(&mut self.primary, &mut self.rust.primary, c)?;
                Ok(Answer {
                    code: answer.code,
                    ..Answer::done(Told::Primary(answer))
                })
            }
            Call::Read(i) => {
                let expected = self.rust.step(call);
                let told = Told::Readings(Box::new(readings(self.ours, *i)));
                agree(call, "the readings", &told, &expected.told)?;
                Ok(expected)
            }
            _ if call.is_of_bank() => {
                let back = self.library(call);
                if matches!(call, Call::Switch) {
                    self.lent(call)?;
                }
                self.hold(call, back)
            }
            _ => {
                let answer = self.rust.step(call);
                (self.ours, self.serial) = (*self.rust.form(), self.rust.serial);
                Ok(answer)
            }
        }
    }

    /// The library's answer.
    fn library(&self, call: &Call) -> Back {
        let (b, primary, serial) = (self.ours, self.primary, self.serial);
        let back = |code, bank| Back {
            code,
            yes: false,
            left: Vec::new(),
            left_len: 0,
            bank,
            primary,
            serial,
        };
        // no field of an answer is left out
        let answered = |r| {
            let ours::Answered {
                code,
                bank,
                left,
                left_len,
            } = r;
            let left = left.to_vec();
            Back {
                left,
                left_len,
                ..back(code, bank)
            }
        };
        let heard = |ours::Heard { code, bank }| back(code, bank);
        match call {
            Call::New(width, switching) => heard(ours::new(*width, *switching)),
            Call::Mark(d, live) => answered(ours::on_mark(b, primary, f32::from_bits(*d), *live)),
            Call::Ready(marks) => answered(ours::on_ready(b, primary, &floats(marks))),
            Call::Clear => answered(ours::clear(b)),
            Call::Gap(d) => heard(ours::on_gap(b, primary, f32::from_bits(*d))),
            _ => {
                let ours::Switched {
                    code,
                    yes,
                    bank,
                    primary,
                    serial,
                } = ours::take_switch(b, primary, serial);
                Back {
                    yes,
                    primary,
                    serial,
                    ..back(code, bank)
                }
            }
        }
    }

    /// What the library hands back, held to the Rust's answer and states.
    fn hold(&mut self, call: &Call, back: Back) -> Result<Answer, Difference> {
        let expected = self.rust.step(call);
        agree(call, "the code", back.code, expected.code)?;
        agree(
            call,
            "the answer",
            back.yes,
            expected.told == Told::Flag(true),
        )?;
        same_left(call, &back.left, back.left_len, &expected.left)?;
        agree(call, "the primary's serial", back.serial, self.rust.serial)?;
        // to the last byte: a refused call hands back what it was handed, any other a form with zeros where nothing is
        if !forms::identical(&back.bank, self.rust.form()) {
            let (ours, theirs) = (State::from(&back.bank), State::from(self.rust.form()));
            return Err(states::unlike(&format!("{call:?}"), &ours, &theirs));
        }
        let kept = expected.code == 0 || tracker::identical(&self.primary, &back.primary);
        agree(call, "refused: the primary is as it was", kept, true)?;
        tracker::compare(&back.primary, &self.rust.primary, call)?;
        (self.ours, self.primary, self.serial) = (back.bank, back.primary, back.serial);
        Ok(expected)
    }

    /// The same switch call with the primary lent: its answer and states; what is not exchanged stays as it was.
    fn lent(&self, call: &Call) -> Result<(), Difference> {
        let mut lent = self.primary;
        let ours::Lent {
            code,
            yes,
            bank,
            serial,
        } = ours::take_switch_lent(self.ours, &mut lent, self.serial);
        let back = Back {
            code,
            yes,
            left: Vec::new(),
            left_len: 0,
            bank,
            primary: lent,
            serial,
        };
        let answer = self.clone().hold(call, back)?;
        let kept = answer.told == Told::Flag(true) || tracker::identical(&lent, &self.primary);
        agree(call, "lent: a primary that stays is as it was", kept, true)
    }
}

/// Every reading of the library.
fn readings(b: Bank, i: usize) -> Readings {
    let tallies = [ours::hypotheses(b), ours::marks_seen(b), ours::gaps_seen(b)];
    let there = |ours::Challenger {
                     code,
                     has,
                     challenger,
                 }| (code, has, challenger);
    let logged = |ours::Logged { code, has, record }| (code, has, record);
    Readings {
        counts: tallies.map(|ours::Tally { code, value }| (code, value)),
        challenger: there(ours::challenger(b, i)),
        record: logged(ours::switch_record(b, i)),
    }
}

/// Those that left are the Rust's, and beyond their number an answer has zeros.
pub(crate) fn same_left(
    call: &dyn fmt::Debug,
    left: &[Departure],
    n: usize,
    expected: &[Departure],
) -> Result<(), Difference> {
    agree(call, "how many left", n, expected.len())?;
    agree(call, "there is room for them", n <= left.len(), true)?;
    let (gone, beyond) = left.split_at(n);
    // "Only the order of departures within one answer is free"
    agree(call, "those that left", sorted(gone), sorted(expected))?;
    let zeros = beyond.iter().all(|d| *d == Departure::default());
    agree(call, "zeros beyond those that left", zeros, true)
}

fn sorted(left: &[Departure]) -> Vec<Departure> {
    let mut all = left.to_vec();
    all.sort_by_key(|d| (d.serial, d.cause));
    all
}

/// The challengers of a bank.
fn held(b: &Bank) -> &[Hypothesis] {
    &b.challengers[..b.challengers_len.min(8)]
}

pub struct Banks;

impl Layer for Banks {
    type Case = Vec<Call>;

    const NAME: &'static str = "bank";

    fn fixed() -> Vec<Vec<Call>> {
        cases::fixed()
    }

    fn random(random: &mut Random) -> Vec<Call> {
        cases::with_flags(random)
    }

    fn run(case: &Vec<Call>) -> Result<u64, Difference> {
        let mut both = Both::new();
        let mut calls = 0;
        for call in case {
            let (before, primary) = (*both.rust.form(), *both.rust.primary.form());
            let answer = both.step(call)?;
            count::count(&before, both.rust.form(), &primary, call, &answer);
            calls += u64::from(call.is_of_bank());
        }
        Ok(calls)
    }

    fn smaller(case: &Vec<Call>) -> Vec<Vec<Call>> {
        smaller_list(case, simpler)
    }

    fn reached() -> &'static [&'static crate::reached::Branch] {
        reached::ALL
    }
}

impl Follow for Banks {
    fn follow(case: &Vec<Call>) {
        let mut rust = Rust::new();
        for call in case {
            let (before, primary) = (*rust.form(), *rust.primary.form());
            let answer = rust.step(call);
            count::count(&before, rust.form(), &primary, call, &answer);
        }
    }
}

/// The call with one of its numbers made simpler.
fn simpler(call: &Call) -> Vec<Call> {
    match call {
        Call::Mark(d, live) => simpler_f32(*d)
            .into_iter()
            .map(|d| Call::Mark(d, *live))
            .collect(),
        Call::Gap(d) => simpler_f32(*d).into_iter().map(Call::Gap).collect(),
        Call::Ready(marks) => smaller_list(marks, |&m| simpler_f32(m))
            .into_iter()
            .map(Call::Ready)
            .collect(),
        Call::Primary(c) => tracker::simpler(c).into_iter().map(Call::Primary).collect(),
        _ => Vec::new(),
    }
}
