//! One station is one sequence of bytes: what is no part of it is never looked at, and holds zeros once a call has
//! stored the station.

mod random;
#[allow(dead_code)]
#[path = "../src/sys.rs"]
mod sys;

use hullathan::{Event, Refusal, Station};
use random::Random;
use std::mem::offset_of;
use sys::Memory;

/// The places of all pads of a station.
fn pads() -> Vec<usize> {
    let mut pads = Vec::new();
    let mut add = |place: usize, bytes: usize| pads.extend(place..place + bytes);
    let primary = offset_of!(sys::Station, primary);
    let bank = offset_of!(sys::Station, bank);
    let rival = |i| bank + offset_of!(sys::Bank, challengers) + i * size_of::<sys::Hypothesis>();
    for tracker in (0..8).map(rival).chain([primary]) {
        add(
            tracker + offset_of!(sys::Tracker, pair.pad_placeholder_is_lo),
            5,
        );
        for i in 0..12 {
            let entry = tracker + offset_of!(sys::Tracker, ring) + i * size_of::<sys::RingEntry>();
            add(entry + offset_of!(sys::RingEntry, pad_assigned_dit), 3);
        }
        add(tracker + offset_of!(sys::Tracker, pad_has_wpm), 3);
        add(tracker + offset_of!(sys::Tracker, pad_recent), 4);
        add(tracker + offset_of!(sys::Tracker, pad_has_egap), 3);
        add(tracker + offset_of!(sys::Tracker, pad_has_hint), 3);
        add(tracker + offset_of!(sys::Tracker, pad_lo_uncorroborated), 2);
    }
    for i in 0..8 {
        add(rival(i) + offset_of!(sys::Hypothesis, pad_origin), 3);
        add(rival(i) + offset_of!(sys::Hypothesis, pad_reported), 3);
        add(rival(i) + offset_of!(sys::Hypothesis, pad_ln_hi), 4);
    }
    for i in 0..16 {
        let record = bank + offset_of!(sys::Bank, log) + i * size_of::<sys::SwitchRecord>();
        add(record + offset_of!(sys::SwitchRecord, pad_applied), 7);
    }
    add(bank + offset_of!(sys::Bank, pad_switching), 3);
    add(bank + offset_of!(sys::Bank, pad_primary_gap_score), 4);
    add(bank + offset_of!(sys::Bank, pad_has_last_gap), 1);
    add(bank + offset_of!(sys::Bank, pad_has_pending), 7);
    pads
}

fn fresh() -> Station {
    Station::start(8, true).expect("a width of 8 is not refused")
}

/// A start on any bytes is the same station, to the byte.
#[test]
fn starts() {
    for width in 0..=9 {
        let start = |byte| {
            let mut memory = Memory([byte; Station::BYTES]);
            let code = sys::start(&mut memory, width, true);
            (code, memory.0)
        };
        for byte in 1..=255 {
            assert!(start(byte) == start(0), "width {width}, bytes {byte}");
        }
    }
}

/// After every event, accepted or refused, one by one and in batches: the pads are zeros, and both stations are the
/// same bytes.
#[test]
fn calls() {
    let pads = pads();
    let clean = |station: &Station| pads.iter().all(|&place| station.as_bytes()[place] == 0);
    let (mut one, mut many) = (fresh(), fresh());
    assert!(clean(&one));
    for events in Random::new(21).watch(6_000).chunks(50) {
        for &event in events {
            let _ = one.call(event);
            assert!(clean(&one));
        }
        many.extend(events);
        assert!(one.as_bytes() == many.as_bytes());
    }
}

/// What stands in pads changes no answer, stays where a call is refused, and is zeros where one is accepted.
#[test]
fn pads_that_are_handed_in() {
    let mut station = fresh();
    station.extend(Random::new(22).watch(700));
    for byte in [1, 2, 0x80, 0xFF] {
        let mut bytes = *station.as_bytes();
        for place in pads() {
            bytes[place] = byte;
        }
        let mut other = Station::from_bytes(&bytes).expect("pads are not looked at");
        assert_eq!(other.read(), station.read());
        assert_eq!(
            other.call(Event::Gap { ms: -1.0 }),
            Err(Refusal::DurationTooShort)
        );
        assert_eq!(
            other
                .batches([Event::Gap { ms: -1.0 }; 70])
                .filter(Result::is_ok)
                .count(),
            0
        );
        assert!(other.as_bytes() == &bytes);
        let mut usual = station.clone();
        let mark = Event::Mark {
            ms: 61.0,
            live: true,
        };
        assert_eq!(other.call(mark), usual.call(mark));
        assert!(other.as_bytes() == usual.as_bytes());
    }
}

/// An event as the library has it.
fn plain(event: Event) -> sys::Event {
    let (kind, live, value) = match event {
        Event::Mark { ms, live } => (0, live.into(), ms),
        Event::Gap { ms } => (1, 0, ms),
        Event::Finish => (2, 0, 0.0),
        Event::Seed { wpm } => (3, 0, wpm),
        Event::Hint { ratio } => (4, 0, ratio),
        Event::Clear => (5, 0, 0.0),
        Event::Switch => (6, 0, 0.0),
    };
    sys::Event {
        kind,
        live,
        value,
        pad_live: [0xAB; 2],
    }
}

/// Every byte of what a call hands back is fixed too: zeros in pads, and beyond a count.
#[test]
fn answers_and_readings() {
    let mut memory = Memory(*fresh().as_bytes());
    let (mut left, mut logged) = (0, 0);
    for event in Random::new(23).watch(6_000) {
        let answer = sys::call(&mut memory, plain(event));
        assert_eq!((answer.pad_code, answer.pad_dah_ms), ([0; 3], [0; 4]));
        let (held, beyond) = answer.left.split_at(answer.left_len);
        assert!(held.iter().all(|d| d.pad_cause == [0; 7]));
        assert!(beyond.iter().all(|d| *d == sys::Departure::default()));
        left += held.len();

        let reading = sys::read(&memory);
        assert_eq!(reading.pad_switching, [0; 4]);
        let (held, beyond) = reading.log.split_at(reading.log_len);
        assert!(held.iter().all(|r| r.pad_applied == [0; 7]));
        assert!(beyond
            .iter()
            .all(|r| (r.mark_index, r.applied, r.pad_applied) == (0, 0, [0; 7])));
        assert!(beyond
            .iter()
            .all(|r| r.from_dit_ms.to_bits() | r.to_dit_ms.to_bits() == 0));
        logged = logged.max(held.len());
        let beyond = &reading.rivals[reading.challengers..];
        assert!(beyond
            .iter()
            .all(|r| r.serial == 0 && r.score.to_bits() == 0));
    }
    // so that there was something to see
    assert!(left > 100 && logged > 3, "{left} left, {logged} in the log");
}
