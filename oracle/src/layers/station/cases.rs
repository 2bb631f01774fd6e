//! Lists of calls: watches of keyed text with changes of speed, stations handed in near their limits, damaged stations.

use super::drive::Driven;
use super::{Call, Event, CLEAR, FINISH, GAP, HINT, MARK, SEED, SWITCH};
use crate::hullathan::bank::Bank;
use crate::hullathan::station::Station;
use crate::hullathan::tracker::SpeedTracker as Plain;
use crate::hullathan::Bit;
use crate::keying::{Sender, Style};
use crate::layers::bank;
use crate::layers::tracker;
use crate::layers::tracker::cases::{about, good, sound, ODD};
use crate::random::Random;
use crate::refusals;

const LONGEST: f32 = 262_144.0;
const SHORTEST: f32 = 1.0 / 64.0;
const LAST: u64 = 4_294_967_295;

/// A watch: a sender, and the Rust's primary and bank as far as the list goes.
struct Watch<'a> {
    random: &'a mut Random,
    sender: Sender,
    driven: Driven,
    calls: Vec<Call>,
}

impl Watch<'_> {
    fn push(&mut self, kind: u8, value: u32, live: bool) {
        let e = Event { kind, value, live };
        let good = match kind {
            MARK | GAP => refusals::duration(e.number()).is_ok(),
            SEED => refusals::speed(e.number()).is_ok(),
            k => k <= SWITCH,
        };
        if good {
            self.driven.event(&e);
        }
        self.calls.push(Call::Event(e));
    }

    fn mark(&mut self, d: u32) {
        self.push(MARK, d, true);
    }

    /// A gap at twice the dit estimate, at twelve of it, or next to them.
    fn special_gap(&mut self) {
        let unit = self.driven.primary.dit_estimate_ms().max(1.0);
        let g = match self.random.below(4) {
            0 => (2.0 * unit).to_bits(),
            1 => about(self.random, &[2.0 * unit, 12.0 * unit]),
            2 => (12.0 * unit).to_bits(),
            _ => (40.0 * unit).to_bits(),
        };
        self.push(GAP, g, false);
    }

    fn other(&mut self) {
        let odd = self.random.pick(&ODD);
        let limit = about(self.random, &[SHORTEST, LONGEST]);
        let live = self.random.below(2) == 0;
        match self.random.below(18) {
            0 => self.push(MARK, odd, live),
            1 => self.push(GAP, odd, live),
            2 => self.push(MARK, limit, live),
            3 => self.push(GAP, limit, live),
            4 => self.push(CLEAR, odd, live),
            5 => {
                let wpm = self.random.scale(5.0, 80.0) as f32;
                self.push(SEED, wpm.to_bits(), live);
            }
            6 => self.push(SEED, odd, live),
            7 => self.push(HINT, odd, live),
            8 => {
                let hint = self.random.scale(1.5, 8.0) as f32;
                self.push(HINT, hint.to_bits(), live);
            }
            9 => self.push(FINISH, odd, live),
            10 => {
                let kind = self.random.pick(&[7, 8, 255]);
                self.push(kind, odd, live);
            }
            11..=13 => {
                let d = self.sender.mark(self.random);
                self.push(MARK, d, false);
            }
            _ => self.special_gap(),
        }
    }

    /// The mark that comes next: mostly the sender's, at times the boundary of the primary.
    fn next(&mut self) -> u32 {
        let p = &self.driven.primary;
        match self.random.below(40) {
            0 => p.boundary_ms().max(1.0).to_bits(),
            1 => (p.mu_dit_ms() * 2.0).max(1.0).to_bits(),
            _ => self.sender.mark(self.random),
        }
    }

    /// So many marks; a change of sender at one in so many, and another call at one in so many.
    fn key(&mut self, marks: u64, changes: u64, others: u64) {
        for _ in 0..marks {
            match self.random.below(changes) {
                0 => self.sender.change(self.random),
                1 => self.sender.dit = (self.sender.dit * 3.0).min(400.0),
                2 => self.sender.dit = (self.sender.dit / 3.0).max(8.0),
                _ => {}
            }
            let d = self.next();
            self.mark(d);
            if self.random.below(3) > 0 {
                self.push(SWITCH, 0, false);
            }
            if self.random.below(4) > 0 {
                let dits = self.random.pick(&[1.0, 1.0, 1.0, 3.0, 7.0]);
                let g = self.sender.gap_of(dits, self.random);
                self.push(GAP, g, true);
            }
            if self.random.below(others) == 0 {
                self.other();
            }
        }
    }
}

fn watch(random: &mut Random, width: usize, switching: bool) -> Watch<'_> {
    let sender = Sender::new(random);
    let (w, s) = match width {
        9.. => (1, false),
        _ => (width, switching),
    };
    Watch {
        random,
        sender,
        driven: Driven::fresh(w, s),
        calls: vec![Call::Fresh(width, switching)],
    }
}

/// Keyed text from the first mark on.
fn keyed(random: &mut Random) -> Vec<Call> {
    let width = random.pick(&[0, 1, 2, 2, 3, 4, 5, 6, 7, 8, 8, 9]);
    let switching = random.below(3) > 0;
    let mut w = watch(random, width, switching);
    let marks = 12 + w.random.below(90);
    w.key(marks, 48, 20);
    w.calls
}

/// A long watch: two senders by turns, one of them at times with marks of one class.
fn long(random: &mut Random) -> Vec<Call> {
    let width = random.pick(&[2, 3, 4, 8]);
    let switching = random.below(4) > 0;
    let mut w = watch(random, width, switching);
    let turns = 8 + w.random.below(16);
    let mut other = Sender::new(w.random);
    other.dit = (w.sender.dit * w.random.pick(&[0.4, 0.6, 1.7, 2.5, 3.0])).clamp(8.0, 400.0);
    for _ in 0..turns {
        std::mem::swap(&mut w.sender, &mut other);
        if w.random.below(4) == 0 {
            w.sender.style = w.random.pick(&[Style::Dits, Style::Dahs, Style::Text]);
            w.sender.jitter = w.random.pick(&[0.0, 0.05]);
        }
        let marks = w.random.pick(&[6, 14, 30, 70]);
        w.key(marks, 400, 120);
    }
    w.calls
}

/// A lock that rests on a lone short mark, or a seed, then dahs only: the primary recovers. Or a run of one class, and it drifts.
fn recovering(random: &mut Random) -> Vec<Call> {
    let width = random.pick(&[1, 2, 3, 8]);
    let switching = random.below(2) == 0;
    let mut w = watch(random, width, switching);
    let jitter = w.random.pick(&[0.0, 0.02, 0.1]);
    let dah = w.random.scale(90.0, 400.0) as f32;
    let (first, run) = match w.random.below(3) {
        0 => (dah * w.random.scale(0.15, 0.45) as f32, dah),
        1 => (0.0, dah),
        _ => (dah / 3.0, (dah / 3.0) * w.random.pick(&[0.5, 1.5, 1.65])),
    };
    match first > 0.0 {
        true => w.mark(first.to_bits()),
        false => w.push(SEED, (1200.0 / (dah * 0.25)).to_bits(), false),
    }
    for i in 0..18 {
        let near = 1.0 + jitter * (2.0 * w.random.fraction() as f32 - 1.0);
        let d = if run == dah || i > 4 {
            run
        } else {
            first * [1.0, 3.0][i % 2]
        };
        w.mark((d * near).to_bits());
        if w.random.below(12) == 0 {
            w.special_gap();
        }
    }
    w.key(20, 48, 20);
    w.calls
}

/// Few marks, a finish, and what may follow.
fn finished(random: &mut Random) -> Vec<Call> {
    let width = random.pick(&[1, 2, 3, 8]);
    let mut w = watch(random, width, true);
    w.sender.style = w.random.pick(&[Style::Dits, Style::Dahs, Style::Text]);
    let marks = w.random.below(5);
    for _ in 0..marks {
        let d = w.sender.mark(w.random);
        w.mark(d);
        if w.random.below(3) == 0 {
            let g = w.sender.gap_of(1.0, w.random);
            w.push(GAP, g, false);
        }
    }
    w.push(FINISH, 0, true);
    w.key(10, 48, 6);
    w.calls
}

/// A sound station of a sound bank and a primary: serials that differ, counts that balance.
fn stationed(random: &mut Random, mut b: Bank, primary: Plain) -> Station {
    let n = b.challengers_len as u64;
    b.started = n + random.pick(&[0, 0, 1, 13, 1 << 20]);
    let first = random.below(b.started + 1);
    for (i, h) in (1..).zip(b.challengers.iter_mut()) {
        h.serial = match i <= n {
            true => (first + i) % (b.started + 1),
            false => first,
        };
    }
    let mut counts = [0; 5];
    let mut rest = b.started - n;
    for c in &mut counts[1..] {
        *c = random.below(rest + 1);
        rest -= *c;
    }
    counts[0] = rest;
    let accepted = match random.below(4) {
        0 => b.started,
        1 => b.started + random.below(1_000),
        _ => random.pick(&[LAST - 1, LAST - 2, LAST - 3]),
    };
    Station {
        primary,
        serial: first,
        bank: b,
        counts,
        accepted,
    }
}

/// A list of calls of a bank as calls of a station: each bank that is handed in, with the primary after it, makes a station.
fn of_bank(random: &mut Random, list: Vec<bank::Call>) -> Vec<Call> {
    let mut calls = Vec::new();
    let mut held = Bank::default();
    let push = |kind, value, live| Call::Event(Event { kind, value, live });
    for call in list {
        let next = match call {
            bank::Call::Hand(b) => {
                held = *b;
                continue;
            }
            bank::Call::Primary(tracker::Call::Hand(p)) => {
                Call::Hand(Box::new(stationed(random, held, p.0)))
            }
            bank::Call::Mark(d, live) => push(MARK, d, live),
            bank::Call::Gap(d) => push(GAP, d, false),
            bank::Call::Clear => push(CLEAR, 0, false),
            bank::Call::Switch => push(SWITCH, 0, false),
            _ => any(random),
        };
        calls.push(next);
    }
    calls
}

/// A call, with a number that mostly is good.
fn any(random: &mut Random) -> Call {
    let value = match random.below(10) {
        0 => random.pick(&ODD),
        1 => about(random, &[SHORTEST, LONGEST]),
        _ => good(random).to_bits(),
    };
    let kind = random.pick(&[
        MARK, MARK, MARK, GAP, GAP, FINISH, SEED, HINT, CLEAR, SWITCH, SWITCH, 7,
    ]);
    let live = random.below(3) > 0;
    Call::Event(Event { kind, value, live })
}

/// The books of a station with one entry that may be wrong.
fn damage(random: &mut Random, s: &mut Station) {
    let n = s.bank.challengers_len;
    let place = random.below(n.max(1) as u64) as usize;
    let (a, b) = (random.below(5) as usize, random.below(5) as usize);
    let started = s.bank.started;
    match random.below(18) {
        0 => s.serial = started + 1,
        1 => s.bank.challengers[place].serial = started + 1,
        2 => s.bank.challengers[place].serial = s.serial,
        3 => s.bank.challengers[place].serial = s.bank.challengers[n.max(1) - 1].serial,
        4 => s.accepted = started.saturating_sub(random.below(2)),
        5 => s.counts[a] += 1,
        6 => s.counts[a] = s.counts[a].wrapping_sub(1),
        // in balance only where the sum wraps
        7 => {
            s.counts[a] = s.counts[a].wrapping_add(1 << 63);
            s.counts[b] = s.counts[b].wrapping_add(1 << 63);
        }
        8 => s.accepted = random.pick(&[LAST - 1, LAST, LAST + 1, u64::MAX]),
        9 => {
            (s.bank.started, s.accepted) = (u64::MAX, u64::MAX);
            s.counts[a] += u64::MAX - started;
        }
        10 => bank::cases::limit(random, &mut s.bank),
        11..=16 => unflag(random, s),
        _ => tracker::cases::limit(random, &mut s.primary),
    }
}

/// A number that no flag has, in a part of the station or beyond a count.
fn unflag(random: &mut Random, s: &mut Station) {
    let b = &mut s.bank;
    let of_ring = s.primary.ring.iter_mut().map(|e| &mut e.assigned_dit);
    let flags = match random.below(6) {
        0 => of_ring.collect(),
        1 => tracker::flags(&mut s.primary),
        2 => bank::flags(b),
        3 => vec![&mut b.switching, &mut b.has_side, &mut b.has_last_gap],
        4 => b.challengers.iter_mut().map(|h| &mut h.reported).collect(),
        _ => b.log.iter_mut().map(|r| &mut r.applied).collect(),
    };
    bank::cases::no_flag(random, flags);
}

/// A station with one part that may not be sound, and every kind of call.
fn damaged(random: &mut Random) -> Vec<Call> {
    let b = bank::cases::sound_bank(random);
    let p = sound(random);
    let mut s = stationed(random, b, p);
    match random.below(8) {
        0 => {
            s.bank.has_pending = Bit::from(s.bank.challengers_len > 0);
            s.bank.pending = 0;
        }
        _ => damage(random, &mut s),
    }
    if random.below(6) == 0 {
        s.bank.marks_seen = LAST;
    } else if random.below(8) == 0 {
        s.bank.gaps_seen = LAST;
    }
    let mut calls = vec![Call::Hand(Box::new(s))];
    calls.extend((0..4).map(|_| any(random)));
    calls
}

/// A watch from a fresh station.
pub fn watched(random: &mut Random) -> Vec<Call> {
    match random.below(12) {
        0..=5 => keyed(random),
        6 => long(random),
        7..=9 => recovering(random),
        _ => finished(random),
    }
}

pub fn random(random: &mut Random) -> Vec<Call> {
    match random.below(24) {
        0..=11 => watched(random),
        12..=18 => {
            let list = match random.below(3) {
                0 => bank::cases::handed(random),
                1 => bank::cases::contested(random),
                _ => bank::cases::crowded(random),
            };
            of_bank(random, list)
        }
        _ => damaged(random),
    }
}

/// The journal's example of document 01.
fn journal() -> Vec<Call> {
    let event = |kind, value: f32, live| {
        Call::Event(Event {
            kind,
            value: value.to_bits(),
            live,
        })
    };
    vec![
        Call::Fresh(2, true),
        event(MARK, 50.0, true),
        event(MARK, 150.0, true),
        event(FINISH, 0.0, false),
        event(SWITCH, 0.0, false),
    ]
}

/// And the list of the program `station_replay`.
pub fn fixed() -> Vec<Vec<Call>> {
    vec![journal(), crate::replay::station::script()]
}

#[cfg(test)]
mod tests {
    use super::*;
    use crate::layers::station::Both;

    /// What is meant to be sound is.
    #[test]
    fn as_meant() {
        let mut random = Random::new(5);
        for _ in 0..500 {
            let b = bank::cases::sound_bank(&mut random);
            let p = sound(&mut random);
            assert_eq!(refusals::station(&stationed(&mut random, b, p)), Ok(()));
        }
    }

    /// The journal's example gives the codes that document 01 prints.
    #[test]
    fn the_journals_example() {
        let mut both = Both::new();
        let codes: Vec<u8> = journal()
            .iter()
            .map(|c| both.step(c).expect("the same").code)
            .collect();
        assert_eq!(codes, [0, 0, 0, 1, 3]);
        let p = &both.ours.primary.pair;
        assert_eq!((p.lo.to_bits(), p.hi.to_bits()), (0x4248_0000, 0x4316_0000));
    }
}
