//! What the comparison sees: every byte of what the library answers and leaves in the station, and of the Rust's
//! station, damaged one at a time.

use super::*;
use crate::forms::{places, turned};
use crate::layers::bank::damaged::full;

/// Both sides with the same sound station, which has something in every place that has one.
fn both() -> Both {
    let mut s = Station {
        primary: tracker::damaged::full(),
        bank: full(),
        serial: 900,
        counts: [800, 50, 30, 7, 6],
        accepted: 2_000,
    };
    for (i, h) in (1..).zip(s.bank.challengers.iter_mut()) {
        h.serial = i;
    }
    assert_eq!(refusals::station(&s), Ok(()));
    let mut both = Both::new();
    both.step(&Call::Hand(Box::new(s)))
        .expect("the same is set on both sides");
    both
}

fn event(kind: u8, value: f32) -> Event {
    Event {
        kind,
        value: value.to_bits(),
        live: true,
    }
}

/// The library's answer, and the station that it leaves.
fn library(s: &Station, e: &Event) -> (ours::Answer, Station) {
    let (mut after, plain) = (*s, e.plain());
    let back = ours::call(&mut after, e.kind, plain.live, plain.value);
    (back, after)
}

/// Every kind of event, accepted and refused.
#[test]
fn every_byte() {
    let first = both();
    let all = [MARK, GAP, FINISH, SEED, HINT, CLEAR, SWITCH, 7];
    let events = all.map(|kind| event(kind, 60.0)).into_iter();
    for e in events.chain([event(MARK, 0.0), event(SEED, 0.0)]) {
        let (call, (back, after)) = (Call::Event(e), library(&first.ours, &e));
        let held = |back, after| first.clone().hold(&call, back, after).is_ok();
        assert!(held(back, after), "{e:?}");
        for at in places::<ours::Answer>() {
            assert!(!held(turned(&back, at), after), "{e:?}, answer's byte {at}");
        }
        for at in places::<Station>() {
            assert!(!held(back, turned(&after, at)), "{e:?}, byte {at}");
        }
    }
}

#[test]
fn every_byte_of_the_rusts() {
    let first = both();
    let e = event(MARK, 0.0);
    let (back, after) = library(&first.ours, &e);
    for at in places::<Station>() {
        let mut other = first.clone();
        other.rust = Rust::hand(turned(first.rust.form(), at));
        let held = other.hold(&Call::Event(e), back, after);
        assert!(held.is_err(), "byte {at}");
    }
}

/// What a host reads, of a sound station and of one that is refused.
#[test]
fn every_byte_of_a_reading() {
    let first = both();
    let mut bad = *first.rust.form();
    bad.bank.width = 0;
    for rust in [first.rust.clone(), Rust::hand(bad)] {
        let (r, expected) = (ours::read(rust.form()), reading(&rust));
        assert_eq!(r, expected);
        for at in places::<Reading>() {
            assert_ne!(turned(&r, at), expected, "byte {at}");
        }
    }
}

/// A batch's answers, each byte of them, and its station.
#[test]
fn batches() {
    let mut first = both();
    first.batches = Batches::new(first.ours);
    let e = event(GAP, 60.0);
    let (back, after) = library(&first.ours, &e);
    first
        .hold(&Call::Event(e), back, after)
        .expect("the library and the Rust agree");
    let run = |back: ours::Answer, s: Station| {
        let mut other = first.clone();
        other.batches.push(e.plain(), back, false);
        other.batches.station = s;
        other.flush(&Call::Event(e)).is_ok()
    };
    let before = first.batches.station;
    assert!(run(back, before));
    for at in places::<ours::Answer>() {
        assert!(!run(turned(&back, at), before), "answer's byte {at}");
    }
    let mut other = before;
    other.bank.started += 1;
    assert!(!run(back, other));
}
