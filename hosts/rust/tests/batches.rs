//! Event by event and by batches are the same; and what each of the two takes when.

mod random;

use hullathan::{Cause, Code, Event, Station};
use random::Random;
use std::cell::Cell;

const MARK: Event = Event::Mark {
    ms: 60.0,
    live: true,
};

fn fresh() -> Station {
    Station::start(8, true).expect("a width of 8 is not refused")
}

#[test]
fn the_same_answers() {
    let (mut codes, mut causes, mut refused) = ([0; 4], [0; 5], 0);
    for seed in 1..=400 {
        let mut random = Random::new(seed);
        let (width, switching) = (random.below(9), random.below(4) > 0);
        let len = random.below(700);
        let watch = random.watch(len);
        let mut one = Station::start(width, switching).expect("the width is at most 8");
        let mut other = one.clone();
        let answers: Vec<_> = one.calls(watch.iter().copied()).collect();
        let batched: Vec<_> = other.batches(watch).collect();
        assert_eq!(answers, batched, "seed {seed}");
        assert_eq!(one.read(), other.read(), "seed {seed}");
        for answer in answers.iter().flatten() {
            codes[usize::from(answer.code.number())] += 1;
            answer
                .departures()
                .for_each(|d| causes[d.cause as usize] += 1);
        }
        refused += answers.iter().filter(|a| a.is_err()).count();
    }
    // so that the comparison is about something
    assert!(codes.iter().all(|&n| n > 10), "codes {codes:?}");
    assert!(causes.iter().all(|&n| n > 10), "causes {causes:?}");
    assert!(refused > 10, "{refused} refused");
}

/// What the answers tell of departures is what the reading counts, and the serials add up.
#[test]
fn the_books() {
    let mut station = fresh();
    let mut left = [0; 5];
    let watch = Random::new(7).watch(20_000);
    for answer in station.batches(watch).flatten() {
        answer
            .departures()
            .for_each(|d| left[d.cause as usize] += 1);
    }
    let reading = station.read();
    assert_eq!(Cause::ALL.map(|cause| reading.departed(cause)), left);
    let held = reading.challengers as u64;
    assert_eq!(reading.started, left.iter().sum::<u64>() + held);
    assert_eq!(reading.rivals().len(), reading.challengers);
}

#[test]
fn what_is_taken_when() {
    let taken = Cell::new(0);
    let events = || (0..100).map(|_| (taken.set(taken.get() + 1), MARK).1);
    let mut station = fresh();
    let mut calls = station.calls(events());
    assert_eq!(calls.size_hint(), (100, Some(100)));
    assert_eq!(taken.get(), 0);
    calls.next();
    assert_eq!(taken.replace(0), 1);
    drop(calls);

    let mut batches = station.batches(events());
    assert_eq!(taken.get(), 0);
    for (answers, ahead) in [(1, 64), (63, 64), (1, 100), (35, 100)] {
        assert_eq!(batches.by_ref().take(answers).count(), answers);
        assert_eq!(taken.get(), ahead);
    }
    assert_eq!(batches.size_hint(), (0, Some(0)));
    assert!(batches.next().is_none() && batches.next().is_none());
    assert_eq!(station.read().accepted, 101);
}

#[test]
fn sizes_of_batches() {
    for len in [0, 1, 63, 64, 65, 127, 128, 129] {
        let mut station = fresh();
        let mut batches = station.batches(vec![MARK; len]);
        for left in (0..len).rev() {
            assert!(batches.next().is_some_and(|a| a.is_ok()));
            assert_eq!(batches.size_hint(), (left, Some(left)));
        }
        assert!(batches.next().is_none());
        assert_eq!(station.read().accepted, len as u64);
    }
}

#[test]
fn extended() {
    let (mut one, mut other) = (fresh(), fresh());
    let watch = Random::new(3).watch(1_000);
    one.extend(&watch);
    other.extend(watch);
    assert_eq!(one.read(), other.read());
    assert!(one.read().accepted > 900);
}

/// A clone goes its own way.
#[test]
fn cloned() {
    let mut station = fresh();
    station.extend([MARK; 4]);
    let mut clone = station.clone();
    assert_eq!(clone.call(MARK).map(|a| a.code), Ok(Code::BecameReady));
    assert!(clone.read().ready && !station.read().ready);
}
