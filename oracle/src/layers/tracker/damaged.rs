//! What the comparison sees: every byte of the library's tracker, of its answers and of the Rust's tracker, damaged one
//! at a time.

use super::cases::{random, sound};
use super::*;
use crate::forms::{places_of_numbers, turned};

/// A sound tracker with something in every place.
pub fn full() -> Plain {
    let all = (1..).map(|seed| sound(&mut Random::new(seed)));
    let is = |t: &Plain| {
        let held = [t.has_wpm, t.has_egap, t.has_hint, t.pair.ready];
        let counts = (t.pair.init_len, t.ring_len, t.recent_len);
        counts == (12, 12, 5) && held == [Bit::YES; 4]
    };
    all.into_iter().find(is).expect("one of them")
}

/// Each side's bytes, of a sound tracker and of one that every call refuses.
#[test]
fn every_byte() {
    let t = full();
    let mut unsound = t;
    unsound.pair.lo = 19.0;
    (unsound.pair.init_len, unsound.ring_len, unsound.recent_len) = (0, 0, 0);
    for t in [t, unsound] {
        let rust = Rust::hand(t);
        let same = |t: &Plain, rust: &Rust| compare(t, rust, &"").is_ok();
        assert!(same(&t, &rust));
        for at in places_of_numbers::<Plain>() {
            assert!(!same(&turned(&t, at), &rust), "byte {at}");
            let other = Rust::hand(turned(&t, at));
            assert!(!same(&t, &other), "the Rust's byte {at}");
        }
    }
}

/// What lies beyond a count, and a number that is absent, is no part of a sound tracker; of one that a call refuses it
/// is to stay.
#[test]
fn beyond_the_counts() {
    let t = Plain::default();
    let (mut other, mut rust) = (t, Rust::hand(t));
    (other.pair.init[4], other.ring[7].pre_lo, other.wpm_ema) = (5.0, 6.0, 7.0);
    assert!(compare(&other, &rust, &"").is_ok());
    let nan = Call::Mark(f32::NAN.to_bits());
    let (answer, _) = library(t, &nan);
    assert!(hold(&mut t.clone(), &mut rust, &nan, (answer, t)).is_ok());
    assert!(hold(&mut t.clone(), &mut rust, &nan, (answer, other)).is_err());
}

/// The answers: each of their numbers, and each byte of the tracker that comes with them.
#[test]
fn every_answer() {
    let t = full();
    let d = t.pair.lo.to_bits();
    let calls = [
        Call::Mark(d),
        Call::Gap(d),
        Call::Seed(20f32.to_bits()),
        Call::Hint(3f32.to_bits()),
        Call::Finish,
        Call::Take,
        Call::Reseed,
        Call::Resolve(vec![d, d]),
        Call::Mark(0),
        Call::Resolve(vec![d; 13]),
    ];
    for call in calls {
        let back = library(t, &call);
        let held = |back| hold(&mut t.clone(), &mut Rust::hand(t), &call, back).is_ok();
        assert!(held(back), "{call:?}");
        let code = back.0.code ^ 1;
        assert!(!held((Answer { code, ..back.0 }, back.1)), "{call:?}");
        let told = match back.0.told {
            Told::Flag(yes) => Told::Flag(!yes),
            _ => Told::Flag(false),
        };
        assert!(!held((Answer { told, ..back.0 }, back.1)), "{call:?}");
        // a seed empties lists, and beyond a count nothing is compared
        let counted = State::from(&back.1);
        for at in places_of_numbers::<Plain>() {
            let other = turned(&back.1, at);
            let seen = back.0.code != 0 || State::from(&other) != counted;
            assert!(!held((back.0, other)) || !seen, "{call:?}, byte {at}");
        }
    }
}

#[test]
fn every_reading() {
    let mut unready = full();
    (unready.pair, unready.has_wpm) = (Default::default(), Bit::NO);
    for t in [full(), unready] {
        let (answer, _) = library(t, &Call::Read);
        let Told::Readings(r) = answer.told else {
            panic!("readings")
        };
        let held = |r: Readings| {
            let told = Told::Readings(r);
            let back = (Answer { told, ..answer }, t);
            hold(&mut t.clone(), &mut Rust::hand(t), &Call::Read, back).is_ok()
        };
        assert!(held(r));
        let damaged = |change: &dyn Fn(&mut Readings)| {
            let mut other = r;
            change(&mut other);
            !held(other)
        };
        for i in 0..8 {
            assert!(damaged(&|r| r.codes[i] ^= 1));
        }
        for i in 0..6 {
            assert!(damaged(&|r| r.numbers[i].0 ^= true));
            assert!(damaged(&|r| r.numbers[i].1 ^= 1));
        }
        assert!(damaged(&|r| r.ready ^= true));
        assert!(damaged(&|r| r.regime ^= 1));
    }
}

/// From one form to the other and back nothing is lost: of manta's as it shows itself.
#[test]
fn there_and_back() {
    for seed in 1..300 {
        let mut rust = Rust::new();
        for call in random(&mut Random::new(seed)) {
            rust.step(&call);
            if let Some(m) = &rust.tracker {
                assert_eq!(format!("{:?}", manta(&plain(m))), format!("{m:?}"));
            }
        }
    }
}
