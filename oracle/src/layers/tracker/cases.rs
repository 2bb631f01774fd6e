//! Lists of calls: keyed text with jitter, speed changes, fragments, runs of one class; trackers handed in, sound and just not sound.

use super::{manta, set, Call, Handed, Part};
use crate::hullathan::tracker::{RingEntry, SpeedTracker as Plain};
use crate::hullathan::Bit;
use crate::keying::{Sender, Style};
use crate::manta::timing::SpeedTracker;
use crate::patterns::near32;
use crate::random::Random;
use crate::refusals;

pub const NAN: u32 = 0x7FC0_0000;
pub const INFINITY: u32 = 0x7F80_0000;
pub const MINUS: u32 = 1 << 31;
pub const ODD: [u32; 9] = [
    NAN,
    INFINITY,
    INFINITY | MINUS,
    0,
    MINUS,
    1,
    MINUS | 1,
    0x7F7F_FFFF,
    0xC280_0000,
];

/// A number at one of the limits, or next to it.
pub fn about(random: &mut Random, limits: &[f32]) -> u32 {
    let limit = random.pick(limits).to_bits();
    match random.below(4) {
        0 => limit,
        1 => limit.wrapping_add(1),
        2 => limit.wrapping_sub(1),
        _ => near32(limit, random),
    }
}

/// A duration from 1/64 to 262,144, more often one of a keyed mark.
pub fn good(random: &mut Random) -> f32 {
    match random.below(6) {
        0 => random.scale(1.0 / 64.0, 262_144.0) as f32,
        1 => random.pick(&[1.0 / 64.0, 262_144.0, 20.0, 150.0, 60.0, 450.0]),
        _ => random.scale(10.0, 900.0) as f32,
    }
}

/// A sender, and the Rust's tracker as far as the list goes.
struct Session<'a> {
    random: &'a mut Random,
    sender: Sender,
    rust: SpeedTracker,
    calls: Vec<Call>,
}

impl Session<'_> {
    fn push(&mut self, call: Call) {
        let t = &mut self.rust;
        match &call {
            Call::Mark(d) if refusals::duration(f32::from_bits(*d)).is_ok() => {
                t.on_mark(f32::from_bits(*d))
            }
            Call::Gap(d) if refusals::duration(f32::from_bits(*d)).is_ok() => {
                t.on_element_gap(f32::from_bits(*d))
            }
            Call::Seed(w) => t.seed_wpm(f32::from_bits(*w)),
            Call::Hint(h) => t.set_ratio_hint(Some(f32::from_bits(*h))),
            Call::Finish => {
                t.bootstrap();
            }
            Call::Fresh => *t = SpeedTracker::new(),
            Call::Hand(h) => *t = manta(&h.0),
            _ => {}
        }
        self.calls.push(call);
    }

    /// A mark that meets a limit of the tracker as it is.
    fn special(&mut self) -> u32 {
        let t = &self.rust;
        let (lo, hi, boundary) = (t.mu_dit_ms(), t.mu_dah_ms(), t.boundary_ms());
        match self.random.below(6) {
            0 => boundary.to_bits(),
            1 => about(self.random, &[boundary.max(1.0)]),
            2 => (2.0 * lo).to_bits(),
            3 => (0.5 * hi).to_bits(),
            4 => about(self.random, &[1.0 / 64.0, 262_144.0]),
            _ => self.random.pick(&ODD),
        }
    }

    /// Gaps as the Rust's decoder has them between five marks.
    fn gaps(&mut self) -> Vec<u32> {
        let lo = self.rust.mu_dit_ms().max(20.0);
        let (low, high) = (lo * (1.0 / 6.0), lo * 0.577_35);
        let spread = self.random.pick(&[0.05, 0.05, 0.3, 0.9]);
        let count = self.random.pick(&[0, 1, 2, 2, 3, 4, 4, 11, 12, 13]);
        (0..count)
            .map(|_| match self.random.below(8) {
                0 => about(self.random, &[low, high]),
                1 => self.random.pick(&ODD),
                2 => lo.to_bits(),
                _ => {
                    let off = 1.0 + spread * (2.0 * self.random.fraction() as f32 - 1.0);
                    (lo / 3.0 * off).to_bits()
                }
            })
            .collect()
    }

    fn other(&mut self) {
        let call = match self.random.below(16) {
            0 | 1 => Call::Hint(match self.random.below(3) {
                0 => about(self.random, &[2.2, 6.0]),
                1 => self.random.pick(&ODD),
                _ => (self.random.scale(1.5, 8.0) as f32).to_bits(),
            }),
            2 => Call::Seed(match self.random.below(4) {
                0 => about(self.random, &[8.0, 60.0]),
                1 => self.random.pick(&ODD),
                _ => (self.random.scale(4.0, 100.0) as f32).to_bits(),
            }),
            3 => Call::Finish,
            4 | 5 => Call::Take,
            6 => Call::Reseed,
            7 | 8 => Call::Resolve(self.gaps()),
            9 => Call::Gap(about(self.random, &[1.0 / 64.0, 262_144.0])),
            10 => Call::Gap(self.random.pick(&ODD)),
            _ => Call::Read,
        };
        self.push(call);
    }

    fn key(&mut self, marks: u64) {
        for _ in 0..marks {
            if self.random.below(40) == 0 {
                self.sender.change(self.random);
            }
            let d = if self.random.below(30) == 0 {
                self.special()
            } else {
                self.sender.mark(self.random)
            };
            self.push(Call::Mark(d));
            if self.sender.gap > 0.0 && self.random.below(3) > 0 {
                let g = self.sender.gap_of(self.sender.gap, self.random);
                self.push(Call::Gap(g));
            }
            if self.random.below(16) == 0 {
                self.other();
            }
        }
    }
}

fn session(random: &mut Random) -> Session<'_> {
    let sender = Sender::new(random);
    Session {
        random,
        sender,
        rust: SpeedTracker::new(),
        calls: Vec::new(),
    }
}

/// Text from the first mark on.
fn keyed(random: &mut Random) -> Vec<Call> {
    let mut s = session(random);
    s.key(1);
    let marks = 8 + s.random.below(56);
    s.key(marks);
    s.calls
}

/// A short first run, then marks of one class, with or without gaps: a lock on a fragment.
fn fragment(random: &mut Random) -> Vec<Call> {
    let mut s = session(random);
    s.sender.style = s.random.pick(&[Style::Dits, Style::Dahs, Style::Dahs]);
    s.sender.jitter = s.random.pick(&[0.0, 0.05, 0.2]);
    s.sender.gap = s.random.pick(&[0.0, 0.0, 1.0, 1.0, 3.0]);
    let unit = match s.sender.style {
        Style::Dits => s.sender.dit,
        _ => s.sender.dit * s.sender.ratio,
    };
    let first = unit * s.random.scale(0.1, 0.45) as f32;
    if s.random.below(4) == 0 {
        let wpm = 1200.0 / first.clamp(20.0, 150.0);
        s.push(Call::Seed(wpm.to_bits()));
    } else {
        s.push(Call::Mark(first.to_bits()));
    }
    if s.random.below(4) == 0 {
        s.key(2);
        s.push(Call::Finish);
    }
    let marks = 17 + s.random.below(12);
    s.key(marks);
    s.push(Call::Take);
    s.calls
}

/// A few marks and a finish, or gaps that resolve the lock.
fn short(random: &mut Random) -> Vec<Call> {
    let mut s = session(random);
    if s.random.below(2) == 0 {
        s.sender.style = s.random.pick(&[Style::Dits, Style::Dahs]);
    }
    let marks = s.random.below(7);
    s.key(marks);
    s.push(Call::Finish);
    if s.random.below(3) == 0 {
        s.push(Call::Set(Part::Lo, 0, 60f32.to_bits()));
    }
    let gaps = s.gaps();
    s.push(Call::Resolve(gaps));
    s.push(Call::Resolve(Vec::new()));
    s.push(Call::Read);
    s.key(4);
    s.calls
}

pub fn centroids(random: &mut Random) -> (f32, f32) {
    match random.below(6) {
        0 => (20.0, 16.0),
        1 => (150.0, 2_500.0),
        2 => (
            random.scale(20.0, 150.0) as f32,
            random.scale(16.0, 2_500.0) as f32,
        ),
        _ => {
            let lo = random.scale(20.0, 150.0) as f32;
            (
                lo,
                (lo * random.scale(2.2, 6.0) as f32).clamp(16.0, 2_500.0),
            )
        }
    }
}

/// A positive number, more often one that a tracker has.
fn positive(random: &mut Random, low: f64, high: f64) -> f32 {
    match random.below(8) {
        0 => random.pick(&[f32::from_bits(1), f32::MAX, f32::MIN_POSITIVE]),
        _ => random.scale(low, high) as f32,
    }
}

/// Any sound tracker; what is no part of it is junk.
pub fn sound(random: &mut Random) -> Plain {
    let mut t = Plain::default();
    let flags = random.bits();
    let flag = |i: u32| Bit::from(flags >> i & 1 == 1);
    t.pair.ready = Bit::from(random.below(5) > 0);
    if t.pair.ready.is() {
        (t.pair.lo, t.pair.hi) = centroids(random);
    }
    t.pair.init_len = random.below(if t.pair.ready.is() { 13 } else { 5 }) as usize;
    t.ring_len = random.pick(&[0, 3, 11, 11, 12, 12]);
    t.recent_len = random.below(6) as usize;
    let junk = f32::from_bits(random.pick(&ODD));
    for i in 0..12 {
        t.pair.init[i] = if i < t.pair.init_len {
            good(random)
        } else {
            junk
        };
        t.ring[i] = RingEntry {
            dur_ms: junk,
            assigned_dit: flag(8),
            pre_lo: junk,
            pre_hi: junk,
            ..RingEntry::default()
        };
        if i < t.ring_len {
            (t.ring[i].pre_lo, t.ring[i].pre_hi) = centroids(random);
            t.ring[i].dur_ms = good(random);
            t.ring[i].assigned_dit = match random.below(16) {
                0 => Bit::from(!flag(10)),
                _ => flag(10),
            };
        }
    }
    for i in 0..5 {
        t.recent[i] = if i < t.recent_len { good(random) } else { junk };
    }
    t.pair.confirmed = flag(0);
    t.pair.placeholder_is_lo = flag(1);
    t.pair.lo_n = random.pick(&[0, 1, 2, 12, u32::MAX as usize]);
    (t.has_wpm, t.has_egap, t.has_hint) = (flag(2), flag(3), flag(4));
    t.wpm_ema = if t.has_wpm.is() {
        positive(random, 8.0, 60.0)
    } else {
        junk
    };
    t.mu_egap_ms = if t.has_egap.is() {
        positive(random, 5.0, 400.0)
    } else {
        junk
    };
    t.ratio_hint = match (t.has_hint.is(), random.below(3)) {
        (false, _) => junk,
        (true, 0) => random.pick(&[2.2, 6.0]),
        (true, _) => (random.scale(2.2, 6.0) as f32).clamp(2.2, 6.0),
    };
    t.regime = random.pick(&[0, 7, u32::MAX]);
    (t.badlock_recovered, t.lo_uncorroborated) = (flag(5), flag(6));
    t
}

/// A ring that one more mark fills with marks of one class.
fn primed(random: &mut Random) -> Vec<Call> {
    let mut t = sound(random);
    let (lo, hi) = (
        random.scale(20.0, 150.0) as f32,
        random.scale(2.2, 6.0) as f32,
    );
    (t.pair.lo, t.pair.hi, t.pair.ready) = (lo, (lo * hi).min(900.0), Bit::YES);
    let dit = random.below(2) == 0;
    let boundary = (t.pair.lo * t.pair.hi).sqrt();
    let middle = match dit {
        true => boundary * random.scale(0.1, 0.98) as f32,
        false => boundary * random.scale(1.02, 6.0) as f32,
    };
    let spread = random.pick(&[0.02, 0.1, 0.5, 0.95]);
    let mark = |random: &mut Random| {
        let off = 1.0 + spread * (2.0 * random.fraction() as f32 - 1.0);
        (middle * off).clamp(1.0 / 64.0, 262_144.0)
    };
    let pre = match random.below(3) {
        0 => (t.pair.lo, t.pair.hi),
        _ => centroids(random),
    };
    t.ring_len = 11;
    for e in &mut t.ring[..11] {
        (e.pre_lo, e.pre_hi) = pre;
        e.assigned_dit = Bit::from(dit);
        e.dur_ms = mark(random);
    }
    t.ring[11].pre_lo = f32::NAN;
    t.recent_len = 5;
    for r in &mut t.recent {
        *r = mark(random);
    }
    if random.below(2) == 0 {
        t.has_egap = Bit::YES;
        t.mu_egap_ms = middle * random.scale(0.2, 1.5) as f32;
    }
    let mut calls = vec![Call::Hand(Box::new(Handed(t)))];
    for _ in 0..3 {
        calls.push(Call::Mark(mark(random).to_bits()));
        calls.push(random.pick_call());
    }
    calls
}

impl Random {
    /// A call with nothing given, or with something bad.
    fn pick_call(&mut self) -> Call {
        match self.below(10) {
            0 => Call::Take,
            1 => Call::Finish,
            2 => Call::Reseed,
            3 => Call::Mark(self.pick(&ODD)),
            4 => Call::Gap(self.pick(&ODD)),
            5 => Call::Seed(self.pick(&ODD)),
            6 => Call::Resolve(vec![30f32.to_bits(); self.pick(&[0, 2, 12, 13])]),
            7 => Call::Hint(3f32.to_bits()),
            _ => Call::Read,
        }
    }
}

/// A part of a tracker at one of its limits, from either side.
pub fn limit(random: &mut Random, t: &mut Plain) {
    let duration = [1.0 / 64.0, 262_144.0];
    let i = random.below(12) as u8;
    let odd = |random: &mut Random, limits: &[f32]| match random.below(5) {
        0 => NAN,
        _ => about(random, limits),
    };
    match random.below(12) {
        0 if t.pair.ready.is() => set(t, Part::Lo, 0, odd(random, &[20.0, 150.0])),
        0 => set(t, Part::Lo, 0, random.pick(&[MINUS, 1, MINUS | 1, NAN])),
        1 if t.pair.ready.is() => set(t, Part::Hi, 0, odd(random, &[16.0, 2_500.0])),
        1 => set(t, Part::Hi, 0, random.pick(&[MINUS, 1, MINUS | 1, NAN])),
        2 => set(t, Part::InitLen, 0, random.pick(&[4, 5, 12, 13, u32::MAX])),
        3 => set(t, Part::RingLen, 0, random.pick(&[11, 12, 13, u32::MAX])),
        4 => set(t, Part::RecentLen, 0, random.pick(&[4, 5, 6, u32::MAX])),
        5 => set(t, Part::RingLo, i, odd(random, &[20.0, 150.0])),
        6 => set(t, Part::RingHi, i, odd(random, &[16.0, 2_500.0])),
        7 => {
            let part = random.pick(&[Part::RingDur, Part::Init, Part::Recent]);
            set(t, part, i, odd(random, &duration));
        }
        8 => {
            t.has_wpm = Bit::YES;
            set(
                t,
                Part::Wpm,
                0,
                random.pick(&[0, MINUS, 1, 0x7F7F_FFFF, INFINITY, NAN, MINUS | 1]),
            );
        }
        9 => {
            t.has_egap = Bit::YES;
            set(
                t,
                Part::Egap,
                0,
                random.pick(&[0, MINUS, 1, 0x7F7F_FFFF, INFINITY, NAN, MINUS | 1]),
            );
        }
        10 => {
            t.has_hint = Bit::YES;
            set(t, Part::Hint, 0, odd(random, &[2.2, 6.0]));
        }
        _ => t.pair.ready = Bit::from(!t.pair.ready),
    }
}

/// A tracker handed in, sound or at a limit, and some calls of it.
fn handed(random: &mut Random) -> Vec<Call> {
    let mut calls = Vec::new();
    for _ in 0..4 {
        let mut t = sound(random);
        if random.below(3) > 0 {
            limit(random, &mut t);
        }
        calls.push(Call::Hand(Box::new(Handed(t))));
        calls.push(random.pick_call());
        calls.push(Call::Mark(good(random).to_bits()));
        calls.push(random.pick_call());
    }
    calls
}

pub fn random(random: &mut Random) -> Vec<Call> {
    match random.below(16) {
        0..=5 => keyed(random),
        6 | 7 => fragment(random),
        8..=10 => short(random),
        11 | 12 => primed(random),
        _ => handed(random),
    }
}

pub fn fixed() -> Vec<Vec<Call>> {
    vec![crate::replay::tracker::script()]
}
