//! What document 01 adds to the Rust's bank: serials, how many were started, and who left. It is found by following the Rust's own
//! challengers through a call: each has a name before it, its place (`substitutions.rs`), and one that the call makes has none.

use super::state::manta;
use crate::hullathan::bank::{Bank, Departure};
use crate::log01::Ln01;
use crate::manta::timing::bank::{duplicates, ln_centroids, TimingHypothesis};
use crate::manta::timing::{SpeedTracker, TimingBank};

pub const TWIN: u8 = 0;
pub const OUTSCORED: u8 = 1;
pub const AGED: u8 = 2;
pub const REPLACED: u8 = 3;
pub const CLEARED: u8 = 4;

/// Each challenger is named by its place, before the next call.
pub fn number(bank: &mut TimingBank) {
    for (i, h) in bank.challengers.iter_mut().enumerate() {
        h.name = Some(i);
    }
}

/// The serials of a bank after a call, and how many were started then: one without a name is new, and gets the next.
pub fn serials(before: &Bank, after: &TimingBank) -> (Vec<u64>, u64) {
    let mut started = before.started;
    let each = after.challengers.iter().map(|h| match h.name {
        Some(i) => before.challengers[i].serial,
        None => {
            started = started.wrapping_add(1);
            started
        }
    });
    (each.collect(), started)
}

fn names(bank: &TimingBank) -> Vec<Option<usize>> {
    bank.challengers.iter().map(|h| h.name).collect()
}

fn gone(before: &Bank, h: &TimingHypothesis, cause: u8) -> Departure {
    let place = h.name.expect("one that leaves was there before");
    let serial = before.challengers[place].serial;
    Departure {
        serial,
        cause,
        ..Departure::default()
    }
}

/// Who was replaced: the list before and after a spawn, place by place.
fn replaced(before: &Bank, after: &TimingBank) -> Vec<Departure> {
    let first = manta(before);
    let both = first.challengers.iter().zip(&after.challengers);
    both.filter(|(_, new)| new.name.is_none())
        .map(|(old, _)| gone(before, old, REPLACED))
        .collect()
}

/// "twin or else outscored (12 or more behind) or else aged (64 marks) at `prune`", of one that the Rust dropped.
fn why(h: &TimingHypothesis, primary: &SpeedTracker, primary_score: f32) -> u8 {
    let ours = (h.tracker.mu_dit_ms().ln01(), h.tracker.mu_dah_ms().ln01());
    if duplicates(ours, ln_centroids(primary)) {
        TWIN
    } else if primary_score - h.score >= 12.0 {
        OUTSCORED
    } else {
        assert!(h.age_marks >= 64, "the Rust dropped one for no reason");
        AGED
    }
}

/// The bank as the Rust has it before it prunes at this mark.
pub fn before_prune(before: &Bank, primary: &SpeedTracker, dur_ms: f32, live: bool) -> TimingBank {
    let mut held = manta(before);
    held.held = true;
    held.on_mark(primary, dur_ms, live);
    held
}

/// Who left at a mark: replaced at the spawn, or dropped at `prune`.
pub fn left_at_mark(
    before: &Bank,
    after: &TimingBank,
    primary: &SpeedTracker,
    dur_ms: f32,
    live: bool,
) -> Vec<Departure> {
    let stayed = names(after);
    if stayed == (0..before.challengers_len).map(Some).collect::<Vec<_>>() {
        return Vec::new();
    }
    let held = before_prune(before, primary, dur_ms, live);
    let mut left = replaced(before, &held);
    let dropped = held
        .challengers
        .iter()
        .filter(|h| !stayed.contains(&h.name));
    left.extend(dropped.map(|h| gone(before, h, why(h, primary, held.primary_score))));
    left
}

/// Who left at a bootstrap's other reading.
pub fn left_at_ready(before: &Bank, after: &TimingBank) -> Vec<Departure> {
    replaced(before, after)
}

/// Who left at a clear.
pub fn left_at_clear(before: &Bank, after: &TimingBank) -> Vec<Departure> {
    let stayed = names(after);
    let first = manta(before);
    let dropped = first
        .challengers
        .iter()
        .filter(|h| !stayed.contains(&h.name));
    dropped.map(|h| gone(before, h, CLEARED)).collect()
}

#[cfg(test)]
mod tests {
    use super::*;
    use crate::hullathan::bank::Hypothesis;
    use crate::hullathan::Bit;

    fn rival(serial: u64, lo: f32) -> Hypothesis {
        let mut h = Hypothesis {
            serial,
            ln_lo: lo.ln01(),
            ln_hi: (3.0 * lo).ln01(),
            ..Hypothesis::default()
        };
        let p = &mut h.tracker.pair;
        (p.ready, p.confirmed, p.lo, p.hi) = (Bit::YES, Bit::YES, lo, 3.0 * lo);
        h
    }

    /// A bank of three rivals of a primary of 60 and 180, and the Rust's after a mark of the primary's dah that is not live.
    fn after_mark(change: impl Fn(&mut Bank)) -> (Bank, TimingBank, Vec<Departure>) {
        let mut b = Bank {
            width: 4,
            challengers_len: 3,
            started: 9,
            ..Bank::default()
        };
        for (i, lo) in [22.0, 100.0, 140.0].into_iter().enumerate() {
            b.challengers[i] = rival(5 + i as u64, lo);
        }
        change(&mut b);
        let primary = SpeedTracker::from_marks(&[60.0, 60.0, 180.0, 180.0], &[]);
        let mut m = manta(&b);
        m.on_mark(&primary, 180.0, false);
        let left = left_at_mark(&b, &m, &primary, 180.0, false);
        (b, m, left)
    }

    fn gone(serial: u64, cause: u8) -> Departure {
        Departure {
            serial,
            cause,
            ..Departure::default()
        }
    }

    #[test]
    fn no_one_leaves() {
        let (b, m, left) = after_mark(|_| {});
        assert_eq!(left, []);
        assert_eq!(serials(&b, &m), (vec![5, 6, 7], 9));
    }

    /// A twin though it is protected, one far behind though it is old, one that is only old.
    #[test]
    fn each_by_its_cause() {
        let (b, m, left) = after_mark(|b| {
            b.challengers[0] = rival(5, 61.0);
            (b.challengers[0].origin, b.challengers[0].retain_marks) = (2, 24);
            (b.challengers[1].score, b.challengers[1].age_marks) = (-15.0, 70);
            b.challengers[2].age_marks = 63;
        });
        assert_eq!(left, [gone(5, TWIN), gone(6, OUTSCORED), gone(7, AGED)]);
        assert_eq!(serials(&b, &m), (vec![], 9));
    }

    /// One that comes gets the next serial, also after the largest; the one whose place it takes is replaced.
    #[test]
    fn one_comes() {
        let (mut b, mut m, _) = after_mark(|_| {});
        m.challengers[1].name = None;
        assert_eq!(serials(&b, &m), (vec![5, 10, 7], 10));
        assert_eq!(left_at_ready(&b, &m), [gone(6, REPLACED)]);
        b.started = u64::MAX;
        assert_eq!(serials(&b, &m), (vec![5, 0, 7], 0));
    }

    #[test]
    fn all_are_cleared() {
        let (b, mut m, _) = after_mark(|_| {});
        m.clear();
        let left = [gone(5, CLEARED), gone(6, CLEARED), gone(7, CLEARED)];
        assert_eq!(left_at_clear(&b, &m), left);
    }
}
