//! Each refusal that a station can meet, and bytes that are no station's.

mod random;
#[allow(dead_code)]
#[path = "../src/sys.rs"]
mod sys;

use hullathan::{Event, Refusal, Station};
use random::Random;
use std::mem::offset_of;
use sys::{Memory, StationMemory};

/// The code for refusal 1.
const UNSOUND: u8 = 128 + 1;

/// A station in the middle of a watch, with rivals.
fn watched(seed: u64) -> Station {
    let mut station = Station::start(8, true).expect("a width of 8 is not refused");
    station.extend(Random::new(seed).watch(600));
    station
}

fn memory(station: &Station) -> StationMemory {
    Memory(*station.as_bytes())
}

/// One event of each kind, one of no kind, and two whose number is refused.
fn events() -> [sys::Event; 10] {
    let kinds = [0, 1, 2, 3, 4, 5, 6, 7, 1, 3];
    let numbers = [
        60.0,
        60.0,
        0.0,
        20.0,
        3.0,
        0.0,
        0.0,
        0.0,
        0.0,
        f32::INFINITY,
    ];
    std::array::from_fn(|i| sys::Event {
        kind: kinds[i],
        live: 1,
        value: numbers[i],
        pad_live: [0x77; 2],
    })
}

/// A batch of all those events, with answers that no call gives.
fn batch() -> sys::Batch {
    let odd = sys::Answer {
        code: 77,
        ..sys::Answer::default()
    };
    let mut batch = sys::Batch {
        len: events().len(),
        events: [sys::Event::default(); 64],
        answers: [odd; 64],
    };
    batch.events[..events().len()].copy_from_slice(&events());
    batch
}

/// Every function over bytes that may be no station's: they agree on that, and a refused call changes nothing.
/// Whether they are a station's.
fn tried(bytes: &StationMemory) -> bool {
    let sound = sys::read(bytes).code == 0;
    for event in events() {
        let mut s = bytes.clone();
        let answer = sys::call(&mut s, event);
        if answer.code >= 128 {
            assert!(s.0 == bytes.0, "a refused call changed the station");
        } else {
            assert_eq!(sys::read(&s).code, 0, "a call left an unsound station");
        }
        if answer.code == UNSOUND {
            let code = UNSOUND;
            let zeros = sys::Answer::default();
            assert_eq!(answer, sys::Answer { code, ..zeros });
        }
        // at a switch there is one clause more
        assert!(sound == (answer.code != UNSOUND) || event.kind == 6 && sound);
    }
    if sound {
        ran(bytes);
    } else {
        not_run(bytes);
        assert!(Station::from_bytes(&bytes.0).is_err());
    }
    sound
}

/// A batch over a sound station: as the calls one after the other, and nothing else of the batch is touched.
fn ran(bytes: &StationMemory) {
    let (mut s, mut b) = (bytes.clone(), batch());
    assert_eq!(sys::run(&mut s, &mut b), 0);
    let mut expected = batch();
    let mut one = bytes.clone();
    for (event, answer) in events().into_iter().zip(&mut expected.answers) {
        *answer = sys::call(&mut one, event);
    }
    assert_eq!(b, expected);
    assert!(
        s.0 == one.0,
        "a batch leaves the bytes that the calls leave"
    );
}

/// A batch over bytes that are no station's: nothing is changed.
fn not_run(bytes: &StationMemory) {
    let (mut s, mut b) = (bytes.clone(), batch());
    assert_eq!(sys::run(&mut s, &mut b), UNSOUND);
    assert!(s.0 == bytes.0 && b == batch());
}

#[test]
fn each_byte_changed() {
    let mut counts = [0; 2];
    for seed in 1..=3 {
        let good = memory(&watched(seed));
        assert!(tried(&good));
        for place in 0..Station::BYTES {
            for change in [0x01, 0x80, 0xFF] {
                let mut bytes = good.clone();
                bytes.0[place] ^= change;
                counts[usize::from(tried(&bytes))] += 1;
            }
        }
    }
    // so that both were tried
    assert!(counts.iter().all(|&n| n > 1_000), "{counts:?}");
}

#[test]
fn some_bytes_changed() {
    let mut random = Random::new(11);
    let good = memory(&watched(4));
    for _ in 0..3_000 {
        let mut bytes = good.clone();
        for _ in 0..2 + random.below(5) {
            bytes.0[random.below(Station::BYTES)] = random.bits() as u8;
        }
        tried(&bytes);
    }
}

#[test]
fn random_bytes() {
    let mut random = Random::new(12);
    for _ in 0..3_000 {
        assert!(!tried(&Memory(
            [0; Station::BYTES].map(|_| random.bits() as u8)
        )));
    }
    for byte in [0, 1, 0xFF] {
        assert!(!tried(&Memory([byte; Station::BYTES])));
    }
}

#[test]
fn bytes_of_another_length() {
    let station = watched(5);
    let mut bytes = station.as_bytes().to_vec();
    assert_eq!(Station::from_bytes(&bytes).unwrap().read(), station.read());
    bytes.push(0);
    let refused = |bytes: &[u8]| Station::from_bytes(bytes).unwrap_err();
    assert_eq!(refused(&bytes), Refusal::UnsoundState);
    bytes.truncate(Station::BYTES - 1);
    assert_eq!(refused(&bytes), Refusal::UnsoundState);
}

/// A stored station goes on as the one that was not stored.
#[test]
fn stored_and_handed_back() {
    let mut station = watched(6);
    let mut again = Station::from_bytes(station.as_bytes()).expect("it is sound");
    let watch = Random::new(8).watch(2_000);
    assert!(station
        .calls(watch.iter().copied())
        .eq(again.batches(watch.iter().copied())));
    assert_eq!(station.read(), again.read());
}

/// "At a switch: a choice pending and the primary unready": not met by a reader, and yet refused when the bytes are
/// handed in.
#[test]
fn pending_and_unready() {
    let mut bytes = *Station::default().as_bytes();
    let mut with_rival = Station::start(2, true).unwrap();
    with_rival.extend([150.0, 150.0].map(|ms| Event::Mark { ms, live: true }));
    with_rival.call(Event::Finish).unwrap();
    assert_eq!(with_rival.read().challengers, 1);
    // the bank and the books of the one with the unready primary of the other
    let bank = offset_of!(sys::Station, bank);
    bytes[bank..].copy_from_slice(&with_rival.as_bytes()[bank..]);
    bytes[bank + offset_of!(sys::Bank, pending)..][..8].fill(0);
    assert!(Station::from_bytes(&bytes).is_ok());
    bytes[bank + offset_of!(sys::Bank, has_pending)] = 1;
    assert_eq!(sys::read(&Memory(bytes)).code, 0);
    let refused = Station::from_bytes(&bytes).unwrap_err();
    assert_eq!(refused, Refusal::UnsoundState);
}

#[test]
fn counts_that_are_full() {
    let mut bytes = *watched(7).as_bytes();
    let accepted = offset_of!(sys::Station, accepted);
    bytes[accepted..][..8].copy_from_slice(&4_294_967_294_u64.to_le_bytes());
    let mut station = Station::from_bytes(&bytes).expect("it is sound");
    assert!(station.call(Event::Clear).is_ok());
    let full = station.clone();
    for event in [Event::Clear, Event::Gap { ms: f32::NAN }, Event::Switch] {
        assert_eq!(station.call(event), Err(Refusal::CountsFull));
    }
    assert!(station.as_bytes() == full.as_bytes());
    assert!(station
        .batches([Event::Clear; 70])
        .all(|a| a == Err(Refusal::CountsFull)));
    assert!(station.as_bytes() == full.as_bytes());
    assert_eq!(station.read().accepted, 4_294_967_295);
    assert!(Station::from_bytes(station.as_bytes()).is_ok());
}

#[test]
fn widths() {
    for (width, readings) in [(0, 1), (1, 1), (2, 2), (8, 8)] {
        let reading = Station::start(width, true).unwrap().read();
        assert_eq!((reading.width, reading.switching), (readings, true));
    }
    for width in [9, 255, 256, usize::MAX] {
        let refused = Station::start(width, true).unwrap_err();
        assert_eq!(refused, Refusal::WidthAbove8);
        // what the library hands back there
        let mut s = Memory([0xAA; Station::BYTES]);
        assert_eq!(sys::start(&mut s, width, true), 128 + 3);
        assert!(&s.0 == Station::default().as_bytes());
    }
    let fresh = Station::default().read();
    assert_eq!((fresh.width, fresh.switching), (1, false));
    assert_eq!((fresh.wpm, fresh.accepted, fresh.started), (None, 0, 0));
}

/// Numbers that an event cannot carry, in document 01's order; the station is as it was, bit for bit.
#[test]
fn numbers_that_are_refused() {
    use Refusal::*;
    let lengths = [
        (f32::NAN, DurationNotFinite),
        (f32::INFINITY, DurationNotFinite),
        (f32::NEG_INFINITY, DurationNotFinite),
        (0.0, DurationTooShort),
        (-0.0, DurationTooShort),
        (-50.0, DurationTooShort),
        (0.015_624_999, DurationTooShort),
        (262_144.03, DurationTooLong),
        (f32::MAX, DurationTooLong),
    ];
    let speeds = [f32::NAN, f32::INFINITY, 0.0, -0.0, -20.0];
    let mut events: Vec<_> = speeds
        .map(|wpm| (Event::Seed { wpm }, SpeedNotPositive))
        .into();
    for (ms, refusal) in lengths {
        events.push((Event::Gap { ms }, refusal));
        events.extend([false, true].map(|live| (Event::Mark { ms, live }, refusal)));
    }
    for mut station in [Station::default(), watched(9)] {
        let before = station.clone();
        for &(event, refusal) in &events {
            assert_eq!(station.call(event), Err(refusal), "{event:?}");
        }
        assert!(station.as_bytes() == before.as_bytes());
        let answers = station.batches(events.iter().map(|e| e.0));
        assert!(answers.eq(events.iter().map(|e| Err(e.1))));
        assert!(station.as_bytes() == before.as_bytes());
    }
}

/// An event of no kind is refused by 12, with the station's numbers as they are.
#[test]
fn kinds_that_are_none() {
    let station = watched(10);
    let reading = station.read();
    for kind in 7..=255 {
        let mut s = memory(&station);
        let event = sys::Event {
            kind,
            live: 1,
            value: 60.0,
            ..sys::Event::default()
        };
        let answer = sys::call(&mut s, event);
        let expected = sys::Answer {
            code: 128 + 12,
            dit_ms: reading.dit_ms,
            dah_ms: reading.dah_ms,
            serial: reading.serial,
            challengers: reading.challengers,
            ..sys::Answer::default()
        };
        assert_eq!(answer, expected);
        assert!(&s.0 == station.as_bytes());
    }
}

/// More events than a batch has places: nothing is run.
#[test]
fn a_batch_too_long() {
    let good = memory(&watched(2));
    for len in [65, 66, 1 << 32, usize::MAX] {
        let mut b = batch();
        b.len = len;
        let before = b;
        let mut s = good.clone();
        assert_eq!(sys::run(&mut s, &mut b), UNSOUND);
        assert!(s.0 == good.0 && b == before);
    }
}

/// Each refusal tells its number, and has the words that the header for C has.
#[test]
fn numbers_and_words() {
    let header = include_str!("../../c/hullathan_text.h");
    assert_eq!(Refusal::ALL.len(), 12);
    for (number, &refusal) in (1..).zip(Refusal::ALL) {
        assert_eq!(refusal.number(), number);
        assert_eq!(Refusal::from_number(number), Some(refusal));
        let words = format!("refused by {number}: ");
        assert!(refusal.to_string().starts_with(&words));
        let in_c = format!("case HULLATHAN_REFUSED + {number}:\n        return \"{refusal}\";");
        assert!(header.contains(&in_c), "{in_c}");
    }
    assert_eq!(
        (Refusal::from_number(0), Refusal::from_number(13)),
        (None, None)
    );
}
