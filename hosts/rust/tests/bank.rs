//! The switch alone, with the primary and its serial lent: what a station's switch does; and nothing where it is
//! refused.

mod random;
#[allow(dead_code)]
#[path = "../src/sys.rs"]
mod sys;

use hullathan::{Bank, Code, Event, Refusal, Station, Tracker};
use random::Random;
use std::mem::offset_of;
use sys::Memory;

/// What a station's bank has at a place of eight bytes.
fn number(bank: &Bank, place: usize) -> u64 {
    u64::from_le_bytes(
        bank.as_bytes()[place..place + 8]
            .try_into()
            .expect("these are eight"),
    )
}

fn has_choice(bank: &Bank) -> bool {
    bank.as_bytes()[offset_of!(sys::Bank, has_pending)] == 1
}

/// Stations on the air, each time that a choice stands.
fn chosen(switching: bool) -> Vec<Station> {
    let mut stations = Vec::new();
    for seed in 1..=60 {
        let mut random = Random::new(seed);
        let mut station =
            Station::start(2 + random.below(7), switching).expect("the width is at most 8");
        for event in random.watch(600) {
            let _ = station.call(event);
            if has_choice(&station.bank()) {
                stations.push(station.clone());
            }
        }
    }
    assert!(stations.len() > 20, "{} choices", stations.len());
    stations
}

/// A rival of a station by its serial, as a reading shows it.
fn rival(station: &Station, serial: u64) -> Option<(f32, f32)> {
    let reading = station.read();
    let mut rivals = reading.rivals();
    rivals
        .find(|r| r.serial == serial)
        .map(|r| (r.dit_ms, r.dah_ms))
}

/// Exchanged: what a station's own switch does, and what its reading showed of the rival before.
#[test]
fn exchanged() {
    for station in chosen(true) {
        let (mut bank, mut primary) = (station.bank(), station.primary());
        let mut serial = station.read().serial;
        let former = (serial, primary.dit_ms(), primary.dah_ms());
        assert_eq!(bank.take_switch(&mut primary, &mut serial), Ok(true));
        assert_ne!(serial, former.0);
        assert_eq!(
            rival(&station, serial),
            Some((primary.dit_ms(), primary.dah_ms()))
        );

        let mut other = station.clone();
        let answer = other.call(Event::Switch).expect("it is not refused");
        assert_eq!((answer.code, answer.serial), (Code::Switched, serial));
        assert!(other.bank().as_bytes() == bank.as_bytes());
        assert!(other.primary().as_bytes() == primary.as_bytes());
        assert_eq!(rival(&other, former.0), Some((former.1, former.2)));

        let log: Vec<_> = other.read().log().collect();
        let last = log.last().expect("the switch is in the log");
        assert_eq!(
            (last.from_dit_ms, last.to_dit_ms),
            (former.1, primary.dit_ms())
        );
        assert_eq!((last.mark, last.applied), (station.read().marks, true));
        assert_eq!(log.len(), (station.read().log().len() + 1).min(16));

        // once: the choice is taken
        let (was, at) = (bank.clone(), primary.clone());
        assert_eq!(bank.take_switch(&mut primary, &mut serial), Ok(false));
        assert!(bank.as_bytes() == was.as_bytes() && primary.as_bytes() == at.as_bytes());
    }
}

/// With switching off the choice goes into the log, once, and tracker and serial stay to the byte.
#[test]
fn written_down() {
    for station in chosen(false) {
        let (mut bank, primary) = (station.bank(), station.primary());
        let (mut lent, mut serial) = (primary.clone(), 77);
        assert_eq!(bank.take_switch(&mut lent, &mut serial), Ok(false));
        assert!(lent.as_bytes() == primary.as_bytes() && serial == 77);
        assert!(!has_choice(&bank));
        let mut other = station.clone();
        assert_eq!(other.call(Event::Switch).map(|a| a.code), Ok(Code::Nothing));
        assert!(other.bank().as_bytes() == bank.as_bytes());
        assert!(other.read().log().all(|r| !r.applied));
    }
}

/// Nothing exchanged: also what is no part of a tracker stays.
#[test]
fn nothing() {
    let mut bytes = *Station::default().primary().as_bytes();
    bytes[offset_of!(sys::Tracker, pad_recent)] = 9;
    bytes[offset_of!(sys::Tracker, wpm_ema)] = 9;
    let mut primary = Tracker::from_bytes(&bytes).expect("both are no part of it");
    let (mut bank, mut serial) = (Station::default().bank(), u64::MAX);
    assert_eq!(bank.take_switch(&mut primary, &mut serial), Ok(false));
    assert!(primary.as_bytes() == &bytes && serial == u64::MAX);
}

/// 1 where a choice stands and the primary is unready, 2 where the bank has counted to its end; all stays.
#[test]
fn refused() {
    let station = chosen(true).swap_remove(0);
    let unready = Station::default().primary();
    let (mut bank, mut primary, mut serial) = (station.bank(), unready.clone(), 5);
    assert_eq!(
        bank.take_switch(&mut primary, &mut serial),
        Err(Refusal::UnsoundState)
    );
    assert!(bank.as_bytes() == station.bank().as_bytes() && serial == 5);
    assert!(primary.as_bytes() == unready.as_bytes());
    for count in [
        offset_of!(sys::Bank, marks_seen),
        offset_of!(sys::Bank, gaps_seen),
    ] {
        let mut bytes = *station.bank().as_bytes();
        bytes[count..count + 8].copy_from_slice(&4_294_967_295_u64.to_le_bytes());
        let full = Bank::from_bytes(&bytes).expect("it is sound");
        assert_eq!(number(&full, count), 4_294_967_295);
        let (mut bank, mut primary) = (full.clone(), station.primary());
        assert_eq!(
            bank.take_switch(&mut primary, &mut serial),
            Err(Refusal::CountsFull)
        );
        assert!(bank.as_bytes() == full.as_bytes() && serial == 5);
        assert!(primary.as_bytes() == station.primary().as_bytes());
        // 1 before 2
        let mut unready = unready.clone();
        assert_eq!(
            bank.take_switch(&mut unready, &mut serial),
            Err(Refusal::UnsoundState)
        );
    }
}

/// Bytes that are no bank's or no tracker's are refused by 1, and stay.
#[test]
fn damaged_bytes() {
    let station = chosen(true).swap_remove(3);
    let mut random = Random::new(41);
    let mut counts = [[0; 2]; 2];
    for i in 0..20_000 {
        let (mut bank, mut tracker) = (
            Memory(*station.bank().as_bytes()),
            Memory(*station.primary().as_bytes()),
        );
        for _ in 0..1 + random.below(3) {
            let byte = if random.below(2) == 0 {
                random.bits() as u8
            } else {
                random.below(4) as u8
            };
            if i % 2 == 0 {
                bank.0[random.below(Bank::BYTES)] = byte;
            } else {
                tracker.0[random.below(Tracker::BYTES)] = byte;
            }
        }
        let (bank_was, tracker_was, mut serial) = (bank.0, tracker.0, 6);
        let sound = match i % 2 {
            0 => Bank::from_bytes(&bank.0).is_ok(),
            _ => Tracker::from_bytes(&tracker.0).is_ok(),
        };
        let code = sys::take_switch(&mut bank, &mut tracker, &mut serial);
        assert!([2, 3, 129, 130].contains(&code), "{code}");
        // of an unready tracker the switch says more
        assert!(sound || code == 129);
        if code >= 128 {
            assert!(bank.0 == bank_was && tracker.0 == tracker_was && serial == 6);
        } else {
            assert!(Bank::from_bytes(&bank.0).is_ok() && Tracker::from_bytes(&tracker.0).is_ok());
        }
        counts[i % 2][usize::from(sound)] += 1;
    }
    assert!(counts.iter().flatten().all(|&n| n > 500), "{counts:?}");
    assert_eq!(Bank::from_bytes(&[]).unwrap_err(), Refusal::UnsoundState);
    assert_eq!(
        Tracker::from_bytes(&[0; 343]).unwrap_err(),
        Refusal::UnsoundState
    );
    assert_eq!(
        Tracker::from_bytes(&[0xFF; 344]).unwrap_err(),
        Refusal::UnsoundState
    );
}
