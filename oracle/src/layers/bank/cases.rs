//! Lists of calls: a station's watch with changes of speed, banks handed in near their limits, contested choices, damaged banks.

use super::{Call, Part};
use crate::hullathan::bank::{Bank, Hypothesis, Record};
use crate::hullathan::tracker::SpeedTracker as Plain;
use crate::hullathan::Bit;
use crate::keying::{Sender, Style};
use crate::layers::tracker;
use crate::layers::tracker::cases::{about, centroids, good, sound, INFINITY, MINUS, NAN, ODD};
use crate::log01::Ln01;
use crate::manta::timing::{SpeedBankConfig, SpeedTracker, TimingBank};
use crate::random::Random;
use crate::refusals;

const LONGEST: f32 = 262_144.0;
const SHORTEST: f32 = 1.0 / 64.0;

/// A watch: a sender, and the Rust's primary and bank as far as the list goes.
struct Watch<'a> {
    random: &'a mut Random,
    sender: Sender,
    primary: SpeedTracker,
    bank: TimingBank,
    calls: Vec<Call>,
}

impl Watch<'_> {
    fn push(&mut self, call: Call) {
        let float = f32::from_bits;
        match &call {
            Call::Mark(d, live) if refusals::duration(float(*d)).is_ok() => {
                self.bank.on_mark(&self.primary, float(*d), *live)
            }
            Call::Gap(d) if refusals::duration(float(*d)).is_ok() => {
                self.bank.on_gap(&self.primary, float(*d))
            }
            Call::Clear => self.bank.clear(),
            Call::Switch => {
                self.bank.take_switch(&mut self.primary);
            }
            Call::Primary(tracker::Call::Mark(d)) => self.primary.on_mark(float(*d)),
            Call::Primary(tracker::Call::Gap(d)) => self.primary.on_element_gap(float(*d)),
            Call::Primary(tracker::Call::Seed(w)) => self.primary.seed_wpm(float(*w)),
            Call::Primary(tracker::Call::Finish) => {
                self.primary.bootstrap();
            }
            _ => {}
        }
        self.calls.push(call);
    }

    fn ready(&mut self) {
        let marks: Vec<f32> = self.primary.recent.iter().copied().collect();
        self.bank.on_ready(&self.primary, &marks);
        let bits = marks.iter().map(|m| m.to_bits()).collect();
        self.calls.push(Call::Ready(bits));
    }

    /// A mark as the station has it.
    fn mark(&mut self, d: u32) {
        let was = self.primary.ready();
        self.push(Call::Primary(tracker::Call::Mark(d)));
        if was {
            self.push(Call::Mark(d, true));
        } else if self.primary.ready() {
            self.ready();
        }
    }

    fn gap(&mut self, g: u32) {
        self.push(Call::Gap(g));
        if self.primary.ready() && f32::from_bits(g) < 2.0 * self.primary.dit_estimate_ms() {
            self.push(Call::Primary(tracker::Call::Gap(g)));
        }
    }

    /// A gap of twelve of the greatest units, or next to it.
    fn pause(&mut self) {
        let units = self.bank.challengers().iter();
        let units = units.map(|c| c.tracker().dit_estimate_ms());
        let greatest = units.fold(self.primary.dit_estimate_ms(), f32::max);
        let g = match self.random.below(3) {
            0 => (12.0 * greatest).to_bits(),
            1 => about(self.random, &[(12.0 * greatest).max(1.0)]),
            _ => (40.0 * greatest).to_bits(),
        };
        self.gap(g);
    }

    fn other(&mut self) {
        let call = match self.random.below(16) {
            0 => Call::Mark(self.random.pick(&ODD), true),
            1 => Call::Gap(self.random.pick(&ODD)),
            2 => Call::Mark(about(self.random, &[SHORTEST, LONGEST]), true),
            3 => Call::Gap(about(self.random, &[SHORTEST, LONGEST])),
            4 => Call::Clear,
            5 => {
                let wpm = self.random.scale(5.0, 80.0) as f32;
                self.push(Call::Primary(tracker::Call::Seed(wpm.to_bits())));
                Call::Clear
            }
            6 => Call::Ready(list(self.random)),
            7 | 8 => Call::Mark(self.sender.mark(self.random), false),
            9 => return self.pause(),
            10 => Call::Primary(tracker::Call::Finish),
            _ => Call::Read(self.random.below(17) as usize),
        };
        self.push(call);
    }

    /// The mark that comes next: mostly the sender's, at times the boundary of the primary.
    fn next(&mut self) -> u32 {
        match self.random.below(40) {
            0 => self.primary.boundary_ms().max(1.0).to_bits(),
            1 => (self.primary.mu_dit_ms() * 2.0).max(1.0).to_bits(),
            _ => self.sender.mark(self.random),
        }
    }

    fn key(&mut self, marks: u64) {
        for _ in 0..marks {
            match self.random.below(48) {
                0 => self.sender.change(self.random),
                1 => self.sender.dit = (self.sender.dit * 3.0).min(400.0),
                2 => self.sender.dit = (self.sender.dit / 3.0).max(8.0),
                _ => {}
            }
            let d = self.next();
            self.mark(d);
            if self.random.below(3) > 0 {
                self.push(Call::Switch);
            }
            if self.random.below(4) > 0 {
                let dits = self.random.pick(&[1.0, 1.0, 1.0, 3.0, 7.0]);
                let g = self.sender.gap_of(dits, self.random);
                self.gap(g);
            }
            if self.random.below(24) == 0 {
                self.other();
            }
        }
    }
}

fn watch(random: &mut Random, width: usize, switching: bool) -> Watch<'_> {
    let sender = Sender::new(random);
    let cfg = SpeedBankConfig {
        width: width.min(8),
        switching,
    };
    Watch {
        random,
        sender,
        primary: SpeedTracker::new(),
        bank: TimingBank::new(cfg),
        calls: vec![Call::New(width, switching)],
    }
}

/// Marks for `on_ready`, 0 to 13 of them, at times with a bad one.
fn list(random: &mut Random) -> Vec<u32> {
    let count = random.pick(&[0, 1, 2, 3, 4, 5, 5, 5, 11, 12, 13]);
    let whole = random.below(3) > 0;
    (0..count)
        .map(|_| match random.below(if whole { 1_000 } else { 8 }) {
            0 => random.pick(&ODD),
            1 => about(random, &[SHORTEST, LONGEST]),
            2 => 60f32.to_bits(),
            _ => good(random).to_bits(),
        })
        .collect()
}

/// Keyed text from the first mark on.
fn keyed(random: &mut Random) -> Vec<Call> {
    let width = random.pick(&[0, 1, 2, 2, 3, 4, 5, 6, 7, 8, 8, 9]);
    let switching = random.below(3) > 0;
    let mut w = watch(random, width, switching);
    let marks = 12 + w.random.below(80);
    w.key(marks);
    w.calls
}

/// A lock on marks of one class, on a lone first mark, or a seed: what `on_ready` reads anew.
fn started(random: &mut Random) -> Vec<Call> {
    let width = random.pick(&[1, 2, 3, 8]);
    let mut w = watch(random, width, true);
    w.sender.style = w.random.pick(&[Style::Dits, Style::Dahs, Style::Text]);
    w.sender.jitter = w.random.pick(&[0.0, 0.05, 0.2]);
    if w.random.below(3) == 0 {
        let first = w.sender.dit * w.random.scale(0.2, 0.6) as f32;
        w.mark(first.to_bits());
    }
    let marks = 3 + w.random.below(4);
    w.key(marks);
    w.push(Call::Primary(tracker::Call::Finish));
    w.ready();
    let marks = list(w.random);
    w.push(Call::Ready(marks));
    w.push(Call::Read(0));
    w.key(12);
    w.calls
}

fn score(random: &mut Random) -> f32 {
    match random.below(6) {
        0 => 0.0,
        1 => -0.0,
        2 => -30.0,
        3 => random.pick(&[-3.0, -12.0, -16.0]),
        _ => -(30.0 * random.fraction() as f32),
    }
}

/// The logarithms are those of the centroids.
fn lned(h: &mut Hypothesis) {
    let p = &h.tracker.pair;
    (h.ln_lo, h.ln_hi) = (p.lo.ln01(), p.hi.ln01());
}

fn hypothesis(random: &mut Random) -> Hypothesis {
    let mut tracker = sound(random);
    if !tracker.pair.ready {
        tracker.pair.ready = Bit::YES;
        (tracker.pair.lo, tracker.pair.hi) = centroids(random);
    }
    let mut h = Hypothesis {
        tracker,
        score: score(random),
        gap_score: score(random),
        lead_marks: random.pick(&[0, 0, 1, 1, 2, 9, u32::MAX]),
        age_marks: random.pick(&[0, 1, 2, 6, 7, 8, 30, 62, 63, 64, u32::MAX]),
        origin: random.below(3) as u8,
        retain_marks: random.pick(&[0, 1, 2, 24, u32::MAX]),
        reported: Bit::from(random.below(2) == 0),
        ..Hypothesis::default()
    };
    lned(&mut h);
    h
}

fn log(random: &mut Random, b: &mut Bank) {
    b.log_len = random.pick(&[0, 0, 1, 7, 15, 16, 16]);
    for r in &mut b.log[..b.log_len] {
        *r = Record {
            mark_index: random.below(1 << 32),
            from_dit_ms: good(random),
            to_dit_ms: good(random),
            applied: Bit::from(random.below(2) == 0),
            ..Record::default()
        };
    }
}

/// A streak on a side, with its gaps, and the held gap.
fn streak(random: &mut Random, b: &mut Bank) {
    b.streak_len = random.pick(&[0, 1, 2, 3, 3, 3, 4]);
    b.streak_gaps_len = random.below(b.streak_len as u64 + 1) as usize;
    b.has_side = Bit::from(b.streak_len > 0 || random.below(3) > 0);
    b.streak_side = Bit::from(random.below(2) == 0);
    let unit = random.scale(20.0, 450.0) as f32;
    for i in 0..4 {
        let near = 0.9 + 0.2 * random.fraction() as f32;
        b.streak[i] = if i < b.streak_len {
            unit * near
        } else {
            f32::NAN
        };
        let gap = good(random);
        b.streak_gaps[i] = if i < b.streak_gaps_len { gap } else { -1.0 };
    }
    b.has_last_gap = Bit::from(random.below(2) == 0);
    b.last_gap = if b.has_last_gap.is() {
        good(random)
    } else {
        f32::NAN
    };
}

/// Any sound bank; what is no part of it is junk.
pub fn sound_bank(random: &mut Random) -> Bank {
    let mut b = Bank {
        width: random.pick(&[1, 2, 2, 3, 4, 8, 8]),
        switching: Bit::from(random.below(2) == 0),
        primary_score: score(random),
        primary_gap_score: score(random),
        marks_seen: random.pick(&[0, 5, 77, 4_294_967_293, 4_294_967_294]),
        gaps_seen: random.pick(&[0, 3, 4_294_967_294]),
        started: random.pick(&[8, 9, 1 << 33, u64::MAX]),
        ..Bank::default()
    };
    b.challengers_len = match random.below(3) {
        0 => random.below(b.width as u64) as usize,
        _ => b.width - 1,
    };
    let n = b.challengers_len;
    for (i, h) in b.challengers.iter_mut().enumerate() {
        *h = hypothesis(random);
        h.serial = 1 + i as u64;
        if i >= n {
            h.origin = random.pick(&[0, 3, 255]);
            h.score = f32::NAN;
        }
    }
    streak(random, &mut b);
    b.has_pending = Bit::from(n > 0 && random.below(3) == 0);
    b.pending = match b.has_pending.is() {
        true => random.below(n as u64) as usize,
        false => random.pick(&[0, 8, usize::MAX]),
    };
    log(random, &mut b);
    b
}

/// A primary, mostly ready; at times with the lone start mark that `on_ready` looks for.
fn primary(random: &mut Random) -> Plain {
    let mut t = sound(random);
    if !t.pair.ready && random.below(8) > 0 {
        t.pair.ready = Bit::YES;
        (t.pair.lo, t.pair.hi) = centroids(random);
    }
    if random.below(3) == 0 {
        (t.pair.confirmed, t.pair.lo_n) = (Bit::YES, 1);
    }
    t
}

/// Some challengers as near the primary as twins are, or just not.
fn relate(random: &mut Random, b: &mut Bank, p: &Plain) {
    if !p.pair.ready {
        return;
    }
    for i in 0..b.challengers_len {
        if random.below(3) > 0 {
            continue;
        }
        let factor = random.pick(&[1.0, 1.1, 1.25, 1.28, 1.284, 1.29, 0.78, 0.779]);
        let h = &mut b.challengers[i];
        h.tracker.pair.lo = (p.pair.lo * factor).clamp(20.0, 150.0);
        h.tracker.pair.hi = (p.pair.hi * factor).clamp(16.0, 2_500.0);
        lned(h);
    }
}

fn hand(b: Bank, p: Plain, serial: u64) -> Vec<Call> {
    vec![
        Call::Hand(Box::new(b)),
        Call::Primary(tracker::Call::Hand(Box::new(tracker::Handed(p)))),
        Call::Serial(serial),
    ]
}

/// A call, with something given that mostly is good.
fn any(random: &mut Random) -> Call {
    let duration = |random: &mut Random| match random.below(10) {
        0 => random.pick(&ODD),
        1 => about(random, &[SHORTEST, LONGEST]),
        _ => good(random).to_bits(),
    };
    match random.below(12) {
        0..=3 => Call::Mark(duration(random), random.below(4) > 0),
        4 | 5 => Call::Gap(duration(random)),
        6 | 7 => Call::Switch,
        8 | 9 => Call::Ready(list(random)),
        10 => Call::Clear,
        _ => Call::Read(random.below(17) as usize),
    }
}

/// A sound bank and a primary handed in, and some calls of them.
pub fn handed(random: &mut Random) -> Vec<Call> {
    let mut calls = Vec::new();
    for _ in 0..3 {
        let p = primary(random);
        let mut b = sound_bank(random);
        relate(random, &mut b, &p);
        calls.extend(hand(b, p, random.pick(&[0, 40, u64::MAX])));
        calls.extend((0..3).map(|_| any(random)));
    }
    calls
}

/// The score that a mark far from every centroid leaves: less its floor.
fn after(s: f32) -> f32 {
    0.9 * s + -3.0
}

/// A score that after such a mark differs from the primary's by exactly so much, where there is one.
fn exactly(primary: f32, lead: f32) -> f32 {
    let near = ((after(primary) + lead + 3.0) / 0.9).clamp(-30.0, 0.0);
    let found = (0..200u32)
        .flat_map(|i| {
            [
                near.to_bits().wrapping_add(i),
                near.to_bits().wrapping_sub(i),
            ]
        })
        .map(f32::from_bits)
        .find(|&s| after(s) - after(primary) == lead);
    found.unwrap_or(near)
}

/// Challengers of equal or nearly equal scores about the lead or the distance that decides, and a mark that moves none of them.
pub fn contested(random: &mut Random) -> Vec<Call> {
    let mut b = sound_bank(random);
    let mut p = primary(random);
    (p.pair.ready, p.pair.lo, p.pair.hi) = (Bit::YES, 50.0, 150.0);
    b.marks_seen %= 1_000;
    b.gaps_seen %= 1_000;
    b.width = random.pick(&[2, 3, 4, 8]);
    b.challengers_len = b.width - 1;
    let lead = random.pick(&[4.0, 4.0, -12.0, 0.0]);
    b.primary_score = match lead > 0.0 {
        true => random.pick(&[-30.0, -20.0, -12.0]),
        false => 0.0,
    };
    b.primary_gap_score = random.pick(&[-9.0, -9.0, -3.0]);
    let equal = exactly(b.primary_score, lead);
    for i in 0..8 {
        let h = &mut b.challengers[i];
        (h.origin, h.age_marks, h.lead_marks) = (1, random.pick(&[0, 1, 7, 8, 20]), 1);
        h.score = random.pick(&[
            equal,
            equal,
            equal,
            f32::from_bits(equal.to_bits() + 1),
            -20.0,
        ]);
        h.gap_score = random.pick(&[-1.0, -1.0, -9.0, -3.0]);
        let lo = 21.0 * 1.3f32.powi(i as i32);
        h.tracker.pair.lo = lo.min(150.0);
        h.tracker.pair.hi = (lo * 5.5).min(900.0);
        lned(h);
    }
    b.has_pending = Bit::NO;
    let mut calls = hand(b, p, 0);
    let live = random.below(3) == 0;
    for _ in 0..3 {
        let far = random.pick(&[LONGEST, LONGEST, SHORTEST]);
        calls.push(Call::Mark(far.to_bits(), live));
        if random.below(2) == 0 {
            calls.push(Call::Switch);
        }
    }
    calls
}

/// A full bank, three marks on a side, and the fourth: the candidate replaces one, or is dropped.
pub fn crowded(random: &mut Random) -> Vec<Call> {
    let mut b = sound_bank(random);
    let mut p = primary(random);
    (p.pair.ready, p.pair.lo, p.pair.hi) = (Bit::YES, 60.0, 180.0);
    b.width = random.pick(&[2, 3, 4]);
    b.challengers_len = b.width - 1;
    (b.marks_seen, b.gaps_seen, b.has_pending) = (9, 9, Bit::NO);
    b.primary_score = -3.0;
    let equal = random.pick(&[-4.0, -14.0]);
    for h in &mut b.challengers {
        h.score = random.pick(&[equal, equal, -5.0, -0.0]);
        h.age_marks = random.pick(&[6, 7, 8, 9, 63]);
    }
    relate(random, &mut b, &p);
    let unit = random.pick(&[25.0, 40.0, 60.0, 100.0, 180.0, 300.0, 450.0, 700.0]);
    b.streak_len = 3;
    b.streak_gaps_len = b.streak_gaps_len.min(3);
    (b.has_side, b.streak_side) = (Bit::YES, Bit::from(unit >= 103.9));
    for m in &mut b.streak {
        *m = unit * (0.95 + 0.1 * random.fraction() as f32);
    }
    if random.below(3) == 0 {
        b.streak[0] = unit * 2.5;
    }
    let gaps = b.streak_gaps_len;
    for g in &mut b.streak_gaps[..gaps] {
        *g = 0.8 * unit;
    }
    let mut calls = hand(b, p, 0);
    calls.push(Call::Mark(f32::to_bits(unit), random.below(5) > 0));
    calls.push(Call::Switch);
    calls.push(Call::Mark(f32::to_bits(unit), true));
    calls
}

/// A number at one of the limits, next to it, or a NaN.
fn odd(random: &mut Random, limits: &[f32]) -> u32 {
    match random.below(5) {
        0 => NAN,
        _ => about(random, limits),
    }
}

/// A count of a bank at its limit, from either side.
fn count_limit(random: &mut Random) -> (Part, u32) {
    let last = u32::MAX;
    match random.below(6) {
        0 => (Part::Width, random.pick(&[0, 1, 8, 9, last])),
        1 => (Part::Challengers, random.pick(&[7, 8, 9, last])),
        2 => (Part::StreakLen, random.pick(&[4, 5, last])),
        3 => (Part::GapsLen, random.pick(&[1, 4, 5, last])),
        4 => (Part::LogLen, random.pick(&[16, 17, last])),
        _ => (
            random.pick(&[Part::Marks, Part::Gaps]),
            random.pick(&[last - 1, last]),
        ),
    }
}

/// A score or a held duration at its limit, from either side.
fn number_limit(random: &mut Random) -> (Part, u32) {
    let scores = [-30.0, 0.0];
    let held = [SHORTEST, LONGEST];
    let (part, limits) = match random.below(6) {
        0 => (random.pick(&[Part::Score, Part::GapScore]), scores),
        1 => (random.pick(&[Part::OfScore, Part::OfGapScore]), scores),
        2 => (Part::Streak, held),
        3 => (Part::Gap, held),
        4 => (Part::LastGap, held),
        _ => (random.pick(&[Part::LogFrom, Part::LogTo]), held),
    };
    (part, odd(random, &limits))
}

/// Another logarithm, next to that of the dit or the dah.
fn other_logarithm(random: &mut Random, h: &mut Hypothesis) {
    let x = match random.below(2) {
        0 => &mut h.ln_lo,
        _ => &mut h.ln_hi,
    };
    let bits = x.to_bits();
    *x = f32::from_bits(random.pick(&[bits + 1, bits - 1, NAN, INFINITY, MINUS]));
}

/// A number that no flag has, in the place of one of these.
pub fn no_flag(random: &mut Random, flags: Vec<&mut Bit>) {
    let i = random.below(flags.len() as u64) as usize;
    let other = random.pick(&[2, 3, 128, 254, 255]);
    *flags.into_iter().nth(i).expect("below their number") = Bit(other);
}

/// A part of a bank at one of its limits, from either side.
pub fn limit(random: &mut Random, b: &mut Bank) {
    let i = random.below(8) as u8;
    let rival = usize::from(i % 2);
    match random.below(17) {
        0..=5 => {
            let (part, v) = count_limit(random);
            super::parts::set(b, part, 0, v);
        }
        6..=11 => {
            let (part, v) = number_limit(random);
            if part == Part::LastGap {
                b.has_last_gap = Bit::YES;
            }
            super::parts::set(b, part, i % 2, v);
        }
        12 => {
            b.has_pending = Bit::YES;
            b.pending = random.pick(&[0, 1, 2, 7, 8, usize::MAX]);
        }
        13 => b.challengers[rival].origin = random.pick(&[2, 3, 255]),
        14 => other_logarithm(random, &mut b.challengers[rival]),
        15 => b.challengers[rival].tracker = Plain::default(),
        _ => tracker::cases::limit(random, &mut b.challengers[rival].tracker),
    }
}

/// A bank or a primary with one part that may not be sound, and every kind of call.
fn damaged(random: &mut Random) -> Vec<Call> {
    let mut b = sound_bank(random);
    let mut p = primary(random);
    match random.below(6) {
        0 => tracker::cases::limit(random, &mut p),
        1 => {
            b.has_pending = Bit::from(b.challengers_len > 0);
            b.pending = 0;
            p = sound(random);
        }
        _ => limit(random, &mut b),
    }
    if random.below(5) == 0 {
        b.marks_seen = 4_294_967_295;
    }
    let mut calls = hand(b, p, 3);
    calls.extend((0..4).map(|_| any(random)));
    calls
}

pub fn random(random: &mut Random) -> Vec<Call> {
    match random.below(20) {
        0..=6 => keyed(random),
        7 | 8 => started(random),
        9..=11 => handed(random),
        12 | 13 => contested(random),
        14..=16 => crowded(random),
        _ => damaged(random),
    }
}

/// A list as above; in some the bank that is handed in has a number that no flag has, which no script of a replay can spell.
pub fn with_flags(random: &mut Random) -> Vec<Call> {
    let mut list = self::random(random);
    let hand = list.iter_mut().find_map(|c| match c {
        Call::Hand(b) => Some(b),
        _ => None,
    });
    if let (Some(b), 0) = (hand, random.below(16)) {
        no_flag(random, super::flags(b));
    }
    list
}

pub fn fixed() -> Vec<Vec<Call>> {
    vec![crate::replay::bank::script()]
}

#[cfg(test)]
mod tests {
    use super::*;
    use crate::layers::bank::state::manta;

    /// What is meant to be sound is, and a mark that is meant to leave a lead of 4 does.
    #[test]
    fn as_meant() {
        let mut random = Random::new(5);
        for _ in 0..500 {
            let b = sound_bank(&mut random);
            assert_eq!(refusals::bank(&b), Ok(()));
            assert_eq!(manta(&b).challengers.len(), b.challengers_len);
        }
        assert_eq!(after(exactly(-30.0, 4.0)) - after(-30.0), 4.0);
    }
}
