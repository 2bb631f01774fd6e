//! The speed tracker, beside manta's `SpeedTracker` with the refusals of document 01 before it.

pub(crate) mod cases;
mod count;
#[cfg(test)]
pub(crate) mod damaged;

use crate::compare::{agree, Difference, Follow, Layer};
use crate::forms;
use crate::hullathan::tracker as ours;
use crate::hullathan::tracker::{RingEntry, SpeedTracker as Plain};
use crate::hullathan::Bit;
use crate::manta::timing::SpeedTracker;
use crate::random::Random;
use crate::refusals;
use crate::shrink::{simpler_f32, smaller_list};
use crate::states::{self, State};
use std::fmt;

pub use cases::random as random_case;
pub use count::reached;

/// A part of a tracker that a call may set, with its place in a list.
#[derive(Debug, Clone, Copy, PartialEq)]
#[repr(u8)]
pub enum Part {
    Lo,
    Hi,
    InitLen,
    Init,
    Ready,
    Confirmed,
    PlaceholderIsLo,
    LoN,
    RingLen,
    RingDur,
    RingDit,
    RingLo,
    RingHi,
    HasWpm,
    Wpm,
    RecentLen,
    Recent,
    HasEgap,
    Egap,
    HasHint,
    Hint,
    Regime,
    Recovered,
    Uncorroborated,
}

/// Each part at its number.
pub const PARTS: [Part; 24] = [
    Part::Lo,
    Part::Hi,
    Part::InitLen,
    Part::Init,
    Part::Ready,
    Part::Confirmed,
    Part::PlaceholderIsLo,
    Part::LoN,
    Part::RingLen,
    Part::RingDur,
    Part::RingDit,
    Part::RingLo,
    Part::RingHi,
    Part::HasWpm,
    Part::Wpm,
    Part::RecentLen,
    Part::Recent,
    Part::HasEgap,
    Part::Egap,
    Part::HasHint,
    Part::Hint,
    Part::Regime,
    Part::Recovered,
    Part::Uncorroborated,
];

/// A call, its numbers by their bits; or a part of the tracker, or all of it, set on both sides before the next call.
#[derive(Clone, PartialEq)]
pub enum Call {
    Mark(u32),
    Gap(u32),
    Seed(u32),
    Hint(u32),
    Finish,
    Take,
    Reseed,
    Resolve(Vec<u32>),
    /// Every call that only reads.
    Read,
    Set(Part, u8, u32),
    Hand(Box<Handed>),
    Fresh,
}

/// A tracker that is handed in; two are the same if every part is.
#[derive(Debug, Clone, Copy)]
pub struct Handed(pub Plain);

impl PartialEq for Handed {
    fn eq(&self, other: &Handed) -> bool {
        identical(&self.0, &other.0)
    }
}

pub fn show(bits: u32) -> String {
    format!("{bits:08X} ({:e})", f32::from_bits(bits))
}

impl fmt::Debug for Call {
    fn fmt(&self, f: &mut fmt::Formatter<'_>) -> fmt::Result {
        match self {
            Call::Mark(d) => write!(f, "on_mark {}", show(*d)),
            Call::Gap(d) => write!(f, "on_element_gap {}", show(*d)),
            Call::Seed(w) => write!(f, "seed_wpm {}", show(*w)),
            Call::Hint(h) => write!(f, "set_ratio_hint {}", show(*h)),
            Call::Finish => write!(f, "bootstrap"),
            Call::Take => write!(f, "take_badlock_recovered"),
            Call::Reseed => write!(f, "reseed_wpm_after_warmup"),
            Call::Resolve(gaps) => {
                let gaps: Vec<_> = gaps.iter().map(|&g| show(g)).collect();
                write!(f, "resolve_unimodal_bootstrap {gaps:?}")
            }
            Call::Read => write!(f, "every reading"),
            Call::Set(part, i, v) => write!(f, "{part:?} {i} set to {}", show(*v)),
            Call::Hand(t) => write!(f, "handed in: {:?}", t.0),
            Call::Fresh => write!(f, "new"),
        }
    }
}

/// A part set.
pub fn set(t: &mut Plain, part: Part, i: u8, v: u32) {
    let (x, on) = (f32::from_bits(v), Bit::from(v != 0));
    let (n, i) = (v as usize, usize::from(i));
    match part {
        Part::Lo => t.pair.lo = x,
        Part::Hi => t.pair.hi = x,
        Part::InitLen => t.pair.init_len = n,
        Part::Init => t.pair.init[i % 12] = x,
        Part::Ready => t.pair.ready = on,
        Part::Confirmed => t.pair.confirmed = on,
        Part::PlaceholderIsLo => t.pair.placeholder_is_lo = on,
        Part::LoN => t.pair.lo_n = n,
        Part::RingLen => t.ring_len = n,
        Part::RingDur => t.ring[i % 12].dur_ms = x,
        Part::RingDit => t.ring[i % 12].assigned_dit = on,
        Part::RingLo => t.ring[i % 12].pre_lo = x,
        Part::RingHi => t.ring[i % 12].pre_hi = x,
        Part::HasWpm => t.has_wpm = on,
        Part::Wpm => t.wpm_ema = x,
        Part::RecentLen => t.recent_len = n,
        Part::Recent => t.recent[i % 5] = x,
        Part::HasEgap => t.has_egap = on,
        Part::Egap => t.mu_egap_ms = x,
        Part::HasHint => t.has_hint = on,
        Part::Hint => t.ratio_hint = x,
        Part::Regime => t.regime = v,
        Part::Recovered => t.badlock_recovered = on,
        Part::Uncorroborated => t.lo_uncorroborated = on,
    }
}

/// Every flag of a tracker, those beyond its counts too.
pub fn flags(t: &mut Plain) -> Vec<&mut Bit> {
    let p = &mut t.pair;
    let of_ring = t.ring.iter_mut().map(|e| &mut e.assigned_dit);
    [
        &mut p.ready,
        &mut p.confirmed,
        &mut p.placeholder_is_lo,
        &mut t.has_wpm,
        &mut t.has_egap,
        &mut t.has_hint,
        &mut t.badlock_recovered,
        &mut t.lo_uncorroborated,
    ]
    .into_iter()
    .chain(of_ring)
    .collect()
}

/// A tracker that is handed in, part for part, onto a fresh one.
pub fn parts(t: &Plain) -> Vec<Call> {
    let p = &t.pair;
    let bits = |v: f32| if v.is_nan() { 0x7FC0_0000 } else { v.to_bits() };
    let mut all = vec![Call::Fresh];
    let mut put = |part, i: usize, v: u32| all.push(Call::Set(part, i as u8, v));
    put(Part::Lo, 0, bits(p.lo));
    put(Part::Hi, 0, bits(p.hi));
    put(Part::InitLen, 0, p.init_len as u32);
    put(Part::Ready, 0, u32::from(p.ready.0));
    put(Part::Confirmed, 0, u32::from(p.confirmed.0));
    put(Part::PlaceholderIsLo, 0, u32::from(p.placeholder_is_lo.0));
    put(Part::LoN, 0, p.lo_n as u32);
    put(Part::RingLen, 0, t.ring_len as u32);
    for i in 0..12 {
        put(Part::Init, i, bits(p.init[i]));
        put(Part::RingDur, i, bits(t.ring[i].dur_ms));
        put(Part::RingDit, i, u32::from(t.ring[i].assigned_dit.0));
        put(Part::RingLo, i, bits(t.ring[i].pre_lo));
        put(Part::RingHi, i, bits(t.ring[i].pre_hi));
    }
    put(Part::HasWpm, 0, u32::from(t.has_wpm.0));
    put(Part::Wpm, 0, bits(t.wpm_ema));
    put(Part::RecentLen, 0, t.recent_len as u32);
    for i in 0..5 {
        put(Part::Recent, i, bits(t.recent[i]));
    }
    put(Part::HasEgap, 0, u32::from(t.has_egap.0));
    put(Part::Egap, 0, bits(t.mu_egap_ms));
    put(Part::HasHint, 0, u32::from(t.has_hint.0));
    put(Part::Hint, 0, bits(t.ratio_hint));
    put(Part::Regime, 0, t.regime);
    put(Part::Recovered, 0, u32::from(t.badlock_recovered.0));
    put(Part::Uncorroborated, 0, u32::from(t.lo_uncorroborated.0));
    all
}

/// The same tracker in manta's struct, where no count is above its capacity.
pub fn manta(t: &Plain) -> SpeedTracker {
    let p = &t.pair;
    let mut m = SpeedTracker::new();
    m.pair.lo = p.lo;
    m.pair.hi = p.hi;
    m.pair.init = p.init[..p.init_len].to_vec();
    m.pair.ready = p.ready.is();
    m.pair.confirmed = p.confirmed.is();
    m.pair.placeholder_is_lo = p.placeholder_is_lo.is();
    m.pair.lo_n = p.lo_n;
    let entry = |e: &RingEntry| (e.dur_ms, e.assigned_dit.is(), e.pre_lo, e.pre_hi);
    m.ring = t.ring[..t.ring_len].iter().map(entry).collect();
    m.wpm_ema = t.has_wpm.is().then_some(t.wpm_ema);
    m.recent = t.recent[..t.recent_len].iter().copied().collect();
    m.mu_egap_ms = t.has_egap.is().then_some(t.mu_egap_ms);
    m.ratio_hint = t.has_hint.is().then_some(t.ratio_hint);
    m.regime = t.regime;
    m.badlock_recovered = t.badlock_recovered.is();
    m.lo_uncorroborated = t.lo_uncorroborated.is();
    m
}

/// manta's tracker in the library's form: zeros beyond a count and in place of a number that is absent.
pub fn plain(m: &SpeedTracker) -> Plain {
    let q = &m.pair;
    let mut t = Plain {
        ring_len: m.ring.len(),
        recent_len: m.recent.len(),
        has_wpm: Bit::from(m.wpm_ema.is_some()),
        wpm_ema: m.wpm_ema.unwrap_or(0.0),
        has_egap: Bit::from(m.mu_egap_ms.is_some()),
        mu_egap_ms: m.mu_egap_ms.unwrap_or(0.0),
        has_hint: Bit::from(m.ratio_hint.is_some()),
        ratio_hint: m.ratio_hint.unwrap_or(0.0),
        regime: m.regime,
        badlock_recovered: Bit::from(m.badlock_recovered),
        lo_uncorroborated: Bit::from(m.lo_uncorroborated),
        ..Plain::default()
    };
    let p = &mut t.pair;
    (p.lo, p.hi, p.init_len, p.lo_n) = (q.lo, q.hi, q.init.len(), q.lo_n);
    p.init[..q.init.len()].copy_from_slice(&q.init);
    p.ready = Bit::from(q.ready);
    p.confirmed = Bit::from(q.confirmed);
    p.placeholder_is_lo = Bit::from(q.placeholder_is_lo);
    for (i, &(dur_ms, is_dit, pre_lo, pre_hi)) in m.ring.iter().enumerate() {
        let e = &mut t.ring[i];
        (e.dur_ms, e.pre_lo, e.pre_hi) = (dur_ms, pre_lo, pre_hi);
        e.assigned_dit = Bit::from(is_dit);
    }
    for (i, &d) in m.recent.iter().enumerate() {
        t.recent[i] = d;
    }
    t
}

/// The form with zeros beyond each count and in place of each number that is absent: nothing else of it is a state's.
fn cut(t: &Plain) -> Plain {
    let mut c = *t;
    let beyond = |n: usize, most: usize| n.min(most);
    c.pair.init[beyond(t.pair.init_len, 12)..].fill(0.0);
    c.ring[beyond(t.ring_len, 12)..].fill(RingEntry::default());
    c.recent[beyond(t.recent_len, 5)..].fill(0.0);
    for (has, x) in [
        (t.has_wpm, &mut c.wpm_ema),
        (t.has_egap, &mut c.mu_egap_ms),
        (t.has_hint, &mut c.ratio_hint),
    ] {
        if has == Bit::NO {
            *x = 0.0;
        }
    }
    c
}

/// Whether two are the same bit for bit, places beyond a count and absent numbers too.
pub fn identical(a: &Plain, b: &Plain) -> bool {
    forms::identical_numbers(a, b)
}

/// What the readings tell, in the order of the Rust's calls; each with the code.
#[derive(Debug, Clone, Copy, PartialEq)]
pub struct Readings {
    pub codes: [u8; 8],
    pub ready: bool,
    /// dit, dah, boundary, speed, gap, estimate: whether there is one, and its bits, 0 where there is none.
    pub numbers: [(bool, u32); 6],
    pub regime: u32,
}

/// What a call answers: the code, and what it tells.
#[derive(Debug, Clone, Copy, PartialEq)]
pub enum Told {
    Nothing,
    Flag(bool),
    Readings(Readings),
}

#[derive(Debug, Clone, Copy, PartialEq)]
pub struct Answer {
    pub code: u8,
    pub told: Told,
}

/// The Rust's side: manta's tracker with document 01's refusals before it, and the form that it stands for. What a
/// script sets and what the Rust does make it; nothing of it comes from the library.
#[derive(Debug, Clone)]
pub struct Rust {
    form: Plain,
    /// There is none while the form is unsound: every call is refused by 1.
    tracker: Option<SpeedTracker>,
}

impl Rust {
    pub fn new() -> Rust {
        Rust::hand(plain(&SpeedTracker::new()))
    }

    pub fn hand(form: Plain) -> Rust {
        let sound = refusals::tracker(&form).is_ok();
        let tracker = sound.then(|| manta(&form));
        Rust { form, tracker }
    }

    /// The tracker in the library's form: as it was set, or as the last call that was not refused left it.
    pub fn form(&self) -> &Plain {
        &self.form
    }

    pub fn step(&mut self, call: &Call) -> Answer {
        match call {
            Call::Set(part, i, v) => {
                let mut form = self.form;
                set(&mut form, *part, *i, *v);
                *self = Rust::hand(form);
            }
            Call::Hand(t) => *self = Rust::hand(t.0),
            Call::Fresh => *self = Rust::new(),
            _ => return self.call(call),
        }
        Answer {
            code: 0,
            told: Told::Nothing,
        }
    }

    fn call(&mut self, call: &Call) -> Answer {
        let floats: Vec<f32>;
        let list = match call {
            Call::Resolve(gaps) => {
                floats = gaps.iter().map(|&g| f32::from_bits(g)).collect();
                &floats[..]
            }
            _ => &[],
        };
        if let Err(code) = refusal(&self.form, call, list) {
            return Answer {
                code,
                told: refused(call),
            };
        }
        let told = match call {
            Call::Read => readings(self.sound()),
            _ => self.change(|t| told(t, call, list)),
        };
        Answer { code: 0, told }
    }

    /// manta's tracker, where the form is sound.
    pub fn sound(&self) -> &SpeedTracker {
        self.tracker.as_ref().expect("a sound tracker")
    }

    /// The same, changed by a call.
    pub fn change<A>(&mut self, call: impl FnOnce(&mut SpeedTracker) -> A) -> A {
        let t = self.tracker.as_mut().expect("a sound tracker");
        let answer = call(t);
        self.form = plain(t);
        answer
    }
}

/// The refusals of a call, in order.
fn refusal(state: &Plain, call: &Call, list: &[f32]) -> Result<(), u8> {
    refusals::tracker(state)?;
    refusals::list(list)?;
    match call {
        Call::Mark(d) | Call::Gap(d) => refusals::duration(f32::from_bits(*d)),
        Call::Seed(w) => refusals::speed(f32::from_bits(*w)),
        _ => Ok(()),
    }
}

fn refused(call: &Call) -> Told {
    match call {
        Call::Finish | Call::Take | Call::Resolve(_) => Told::Flag(false),
        Call::Read => Told::Readings(Readings {
            codes: [1; 8],
            ready: false,
            numbers: [(false, 0); 6],
            regime: 0,
        }),
        _ => Told::Nothing,
    }
}

fn told(t: &mut SpeedTracker, call: &Call, list: &[f32]) -> Told {
    let float = f32::from_bits;
    match *call {
        Call::Mark(d) => t.on_mark(float(d)),
        Call::Gap(d) => t.on_element_gap(float(d)),
        Call::Seed(w) => t.seed_wpm(float(w)),
        Call::Hint(h) => t.set_ratio_hint(Some(float(h))),
        Call::Reseed => t.reseed_wpm_after_warmup(),
        Call::Finish => return Told::Flag(t.bootstrap()),
        Call::Take => return Told::Flag(t.take_badlock_recovered()),
        Call::Resolve(_) => return Told::Flag(t.resolve_unimodal_bootstrap(list)),
        Call::Read | Call::Set(..) | Call::Hand(_) | Call::Fresh => {}
    }
    Told::Nothing
}

fn readings(t: &SpeedTracker) -> Told {
    let number = |x: Option<f32>| (x.is_some(), x.unwrap_or(0.0).to_bits());
    Told::Readings(Readings {
        codes: [0; 8],
        ready: t.ready(),
        numbers: [
            Some(t.mu_dit_ms()),
            Some(t.mu_dah_ms()),
            Some(t.boundary_ms()),
            t.wpm(),
            t.mu_egap_ms(),
            Some(t.dit_estimate_ms()),
        ]
        .map(number),
        regime: t.regime(),
    })
}

/// The library's answer, and the tracker that it hands back.
fn library(t: Plain, call: &Call) -> (Answer, Plain) {
    let float = f32::from_bits;
    // no field of an answer is left out
    let done = |ours::Told { code, tracker }| (code, Told::Nothing, tracker);
    let flagged = |ours::Flagged { code, yes, tracker }| (code, Told::Flag(yes), tracker);
    let (code, told, next) = match call {
        Call::Mark(d) => done(ours::on_mark(t, float(*d))),
        Call::Gap(d) => done(ours::on_element_gap(t, float(*d))),
        Call::Seed(w) => done(ours::seed_wpm(t, float(*w))),
        Call::Hint(h) => done(ours::set_ratio_hint(t, float(*h))),
        Call::Reseed => done(ours::reseed_wpm_after_warmup(t)),
        Call::Finish => flagged(ours::bootstrap(t)),
        Call::Take => flagged(ours::take_badlock_recovered(t)),
        Call::Resolve(gaps) => {
            let gaps: Vec<f32> = gaps.iter().map(|&g| float(g)).collect();
            flagged(ours::resolve_unimodal_bootstrap(t, &gaps))
        }
        Call::Read => {
            let ours::Flag { code: first, yes } = ours::ready(t);
            let ours::Count {
                code: second,
                value,
            } = ours::regime(t);
            let readers = [
                ours::mu_dit_ms,
                ours::mu_dah_ms,
                ours::boundary_ms,
                ours::wpm,
                ours::mu_egap_ms,
                ours::dit_estimate_ms,
            ];
            let read = readers.map(|f| f(t));
            let mut codes = [first, second, 0, 0, 0, 0, 0, 0];
            for (code, r) in codes[2..].iter_mut().zip(&read) {
                *code = r.code;
            }
            let number = |ours::Number { has, value, .. }| (has, value.to_bits());
            let r = Readings {
                codes,
                ready: yes,
                numbers: read.map(number),
                regime: value,
            };
            (codes[0], Told::Readings(r), t)
        }
        Call::Set(..) | Call::Hand(_) | Call::Fresh => (0, Told::Nothing, t),
    };
    (Answer { code, told }, next)
}

/// One call to both sides: the answers, and the whole tracker afterwards; after a refusal each bit of what was handed
/// in. What is set is set on both sides.
pub fn step(ours: &mut Plain, rust: &mut Rust, call: &Call) -> Result<Answer, Difference> {
    if !matches!(call, Call::Set(..) | Call::Hand(_) | Call::Fresh) {
        let (answer, next) = library(*ours, call);
        return hold(ours, rust, call, (answer, next));
    }
    let answer = rust.step(call);
    *ours = match call {
        Call::Fresh => ours::new(),
        _ => *rust.form(),
    };
    compare(ours, rust, call)?;
    Ok(answer)
}

/// What the library answers to a call and hands back, held to the Rust's.
fn hold(
    ours: &mut Plain,
    rust: &mut Rust,
    call: &Call,
    (answer, next): (Answer, Plain),
) -> Result<Answer, Difference> {
    let expected = rust.step(call);
    agree(call, "the answer", answer, expected)?;
    if expected.code != 0 && !identical(ours, &next) {
        return Err(Difference {
            call: format!("{call:?}, refused: the tracker is to be handed back as it was"),
            hullathan: format!("{next:?}"),
            rust: format!("{ours:?}"),
        });
    }
    *ours = next;
    compare(ours, rust, call)?;
    Ok(expected)
}

/// Whether the library's tracker is the Rust's now, after what the text says. An unsound one is as it was set, to the
/// last bit.
pub fn compare(ours: &Plain, rust: &Rust, call: &dyn fmt::Debug) -> Result<(), Difference> {
    let same = match rust.tracker {
        Some(_) => identical(&cut(ours), &cut(&rust.form)),
        None => identical(ours, &rust.form),
    };
    if same {
        return Ok(());
    }
    let (ours, theirs) = (State::from(ours), State::from(&rust.form));
    Err(states::unlike(&format!("{call:?}"), &ours, &theirs))
}

impl Default for Rust {
    fn default() -> Rust {
        Rust::new()
    }
}

pub struct Tracker;

impl Layer for Tracker {
    type Case = Vec<Call>;

    const NAME: &'static str = "tracker";

    fn fixed() -> Vec<Vec<Call>> {
        cases::fixed()
    }

    fn random(random: &mut Random) -> Vec<Call> {
        cases::random(random)
    }

    fn run(case: &Vec<Call>) -> Result<u64, Difference> {
        let (mut ours, mut rust) = (ours::new(), Rust::new());
        let mut watch = count::Watch::default();
        for call in case {
            let before = *rust.form();
            let answer = step(&mut ours, &mut rust, call)?;
            watch.count(&before, rust.form(), call, answer);
        }
        Ok(case.len() as u64)
    }

    fn smaller(case: &Vec<Call>) -> Vec<Vec<Call>> {
        smaller_list(case, simpler)
    }

    fn reached() -> &'static [&'static crate::reached::Branch] {
        reached::ALL
    }
}

impl Follow for Tracker {
    fn follow(case: &Vec<Call>) {
        let mut rust = Rust::new();
        let mut watch = count::Watch::default();
        for call in case {
            let before = *rust.form();
            let answer = rust.step(call);
            watch.count(&before, rust.form(), call, answer);
        }
    }
}

/// The call with one of its numbers made simpler.
pub fn simpler(call: &Call) -> Vec<Call> {
    let with = |bits: u32, of: fn(u32) -> Call| simpler_f32(bits).into_iter().map(of).collect();
    match call {
        Call::Mark(d) => with(*d, Call::Mark),
        Call::Gap(d) => with(*d, Call::Gap),
        Call::Seed(w) => with(*w, Call::Seed),
        Call::Hint(h) => with(*h, Call::Hint),
        Call::Resolve(gaps) => smaller_list(gaps, |&g| simpler_f32(g))
            .into_iter()
            .map(Call::Resolve)
            .collect(),
        Call::Set(part, i, v) => simpler_f32(*v)
            .into_iter()
            .map(|v| Call::Set(*part, *i, v))
            .collect(),
        _ => Vec::new(),
    }
}
