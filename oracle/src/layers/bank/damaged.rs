//! What the comparison sees: every byte of what the library hands back, and of the Rust's bank, damaged one at a time.

use super::cases::sound_bank;
use super::*;
use crate::forms::{places, places_of_numbers, turned};
use crate::hullathan::Bit;

/// A sound bank with something in every place that has one.
pub fn full() -> Bank {
    let banks = (1..).map(|seed| sound_bank(&mut Random::new(seed)));
    let is = |b: &Bank| {
        let counts = (b.challengers_len, b.log_len, b.streak_len);
        counts == (7, 16, 3) && b.streak_gaps_len == 3 && b.marks_seen < 100
    };
    let mut b = banks.into_iter().find(is).expect("one of them");
    (b.has_side, b.has_pending, b.pending) = (Bit::YES, Bit::YES, 3);
    (b.has_last_gap, b.last_gap) = (Bit::YES, 60.0);
    (b.gaps_seen, b.started) = (5, 900);
    for h in &mut b.challengers {
        (h.origin, h.retain_marks) = (2, 9);
        h.tracker.has_wpm = Bit::NO;
    }
    assert_eq!(refusals::bank(&b), Ok(()));
    b
}

/// Both sides with the same bank and primary.
fn both(b: Bank) -> Both {
    let mut both = Both::new();
    let primary = tracker::Handed(tracker::damaged::full());
    for call in [
        Call::Hand(Box::new(b)),
        Call::Primary(tracker::Call::Hand(Box::new(primary))),
        Call::Serial(77),
    ] {
        both.step(&call).expect("the same is set on both sides");
    }
    both
}

/// Calls that are accepted and calls that are refused, each of a bank and a primary with something in every place.
fn calls() -> Vec<Call> {
    let (d, nan) = (60f32.to_bits(), f32::NAN.to_bits());
    vec![
        Call::Mark(d, true),
        Call::Mark(nan, true),
        Call::Gap(d),
        Call::Gap(nan),
        Call::Ready(vec![d; 5]),
        Call::Ready(vec![d; 13]),
        Call::Clear,
        Call::Switch,
        Call::New(8, true),
        Call::New(9, true),
    ]
}

#[test]
fn every_byte() {
    let first = both(full());
    for call in calls() {
        let back = first.library(&call);
        let held = |back: Back| first.clone().hold(&call, back).is_ok();
        assert!(held(back.clone()), "{call:?}");
        let damaged = |change: &dyn Fn(&mut Back)| {
            let mut other = back.clone();
            change(&mut other);
            !held(other)
        };
        for at in places::<Bank>() {
            let is = damaged(&|b| b.bank = turned(&b.bank, at));
            assert!(is, "{call:?}, byte {at}");
        }
        for at in places_of_numbers::<Plain>() {
            // what a switch hands over may have fewer parts
            let counted = State::from(&turned(&back.primary, at)) != State::from(&back.primary);
            let is = damaged(&|b| b.primary = turned(&b.primary, at));
            assert!(is || !counted, "{call:?}, byte {at} of the primary");
        }
        assert!(damaged(&|b| b.code ^= 1) && damaged(&|b| b.yes ^= true));
        assert!(damaged(&|b| b.serial ^= 1) && damaged(&|b| b.left_len ^= 1));
        assert!(damaged(&|b| b.left_len = usize::MAX));
        for i in 0..back.left.len() {
            for at in places::<Departure>() {
                let is = damaged(&|b| b.left[i] = turned(&b.left[i], at));
                assert!(is, "{call:?}, one that left");
            }
        }
    }
}

/// Those that left may be told in any order, and in no other way.
#[test]
fn the_order_is_free() {
    let first = both(full());
    let mut back = first.library(&Call::Clear);
    assert_eq!(back.left_len, 7);
    back.left.swap(0, 6);
    assert!(first.clone().hold(&Call::Clear, back.clone()).is_ok());
    back.left[0].serial = back.left[1].serial;
    assert!(first.clone().hold(&Call::Clear, back).is_err());
}

/// The Rust's bank, primary and serial.
#[test]
fn every_byte_of_the_rusts() {
    let first = both(full());
    let call = Call::Mark(0, true);
    let back = first.library(&call);
    for at in places::<Bank>() {
        let mut other = first.clone();
        let form = turned(first.rust.form(), at);
        other.rust.step(&Call::Hand(Box::new(form)));
        assert!(other.hold(&call, back.clone()).is_err(), "byte {at}");
    }
    for at in places_of_numbers::<Plain>() {
        let mut other = first.clone();
        let form = turned(first.rust.primary.form(), at);
        other.rust.primary = tracker::Rust::hand(form);
        assert!(other.hold(&call, back.clone()).is_err(), "byte {at}");
    }
    let mut other = first.clone();
    other.rust.serial = 78;
    assert!(other.hold(&call, back).is_err());
}

/// The readings, where there is a challenger and a record and where there is none.
#[test]
fn every_reading() {
    let b = full();
    for i in [0, 20] {
        let r = readings(b, i);
        let mut rust = both(b).rust;
        let Told::Readings(expected) = rust.step(&Call::Read(i)).told else {
            panic!("readings")
        };
        assert!(r == *expected && r.challenger.1 == (i == 0));
        let damaged = |change: &dyn Fn(&mut Readings)| {
            let mut other = r;
            change(&mut other);
            other != *expected
        };
        for k in 0..3 {
            assert!(damaged(&|r| r.counts[k].0 ^= 1) && damaged(&|r| r.counts[k].1 ^= 1));
        }
        assert!(damaged(&|r| r.challenger.0 ^= 1) && damaged(&|r| r.challenger.1 ^= true));
        assert!(damaged(&|r| r.record.0 ^= 1) && damaged(&|r| r.record.1 ^= true));
        for at in places::<Hypothesis>() {
            assert!(damaged(&|r| r.challenger.2 = turned(&r.challenger.2, at)));
        }
        for at in places_of_numbers::<Record>() {
            assert!(damaged(&|r| r.record.2 = turned(&r.record.2, at)));
        }
    }
}
