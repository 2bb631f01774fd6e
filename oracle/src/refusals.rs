//! The refusals of document 01, "Refusals in checking order", written from the paper: what the library must refuse, and by which number.

use crate::hullathan::bank::{Bank, Hypothesis, Record};
use crate::hullathan::station::Station;
use crate::hullathan::tracker::SpeedTracker;
use crate::hullathan::Bit;
use crate::log01;

/// A number within limits; a NaN is outside every range.
pub fn within(low: f32, high: f32, x: f32) -> bool {
    x >= low && x <= high
}

/// 5: NaN or infinite; 6: below 1/64; 7: above 262,144.
pub fn duration(x: f32) -> Result<(), u8> {
    if !x.is_finite() {
        Err(5)
    } else if x < 1.0 / 64.0 {
        Err(6)
    } else if x > 262_144.0 {
        Err(7)
    } else {
        Ok(())
    }
}

/// 8: a seeding speed that is not finite or not above zero.
pub fn speed(wpm: f32) -> Result<(), u8> {
    if wpm.is_finite() && wpm > 0.0 {
        Ok(())
    } else {
        Err(8)
    }
}

/// 9: the dit given to `observe` is NaN or outside 20 to 150.
pub fn dit(dit_ms: f32) -> Result<(), u8> {
    if within(20.0, 150.0, dit_ms) {
        Ok(())
    } else {
        Err(9)
    }
}

/// 1, of one observed class: a mean outside 0.0001 to 13,108, or a variance negative or not finite.
pub fn class(mean: f32, var: f32) -> Result<(), u8> {
    if within(0.0001, 13_108.0, mean) && var.is_finite() && var >= 0.0 {
        Ok(())
    } else {
        Err(1)
    }
}

/// 4: a list of marks or gaps has more than 12 entries.
pub fn list(entries: &[f32]) -> Result<(), u8> {
    if entries.len() > 12 {
        Err(4)
    } else {
        Ok(())
    }
}

/// Of refusal 1: a ready tracker's dit and dah, and those of an entry of its ring.
fn centroids(dit: f32, dah: f32) -> bool {
    within(20.0, 150.0, dit) && within(16.0, 2_500.0, dah)
}

/// Of refusal 1: a number held that is finite and positive.
fn positive(held: bool, x: f32) -> bool {
    !held || x.is_finite() && x > 0.0
}

/// Of refusal 1, in the plain form of a state: each flag is 0 or 1.
fn flags(all: &[Bit]) -> bool {
    all.iter().all(|b| b.is_flag())
}

/// 1, of a tracker.
pub fn tracker(t: &SpeedTracker) -> Result<(), u8> {
    let p = &t.pair;
    // "a count above its capacity": start marks 12, recent 5, ring 12
    if p.init_len > 12 || t.recent_len > 5 || t.ring_len > 12 {
        return Err(1);
    }
    let (init, recent, ring) = (
        &p.init[..p.init_len],
        &t.recent[..t.recent_len],
        &t.ring[..t.ring_len],
    );
    let settled = if p.ready.is() {
        centroids(p.lo, p.hi)
    } else {
        p.lo.to_bits() == 0 && p.hi.to_bits() == 0 && init.len() <= 4
    };
    // "a held duration that 5 to 7 would refuse"
    let held = init
        .iter()
        .chain(recent)
        .copied()
        .chain(ring.iter().map(|e| e.dur_ms));
    let named = [
        p.ready,
        p.confirmed,
        p.placeholder_is_lo,
        t.has_wpm,
        t.has_egap,
        t.has_hint,
        t.badlock_recovered,
        t.lo_uncorroborated,
    ];
    let sound = settled
        && flags(&named)
        && ring.iter().all(|e| e.assigned_dit.is_flag())
        && held.into_iter().all(|d| duration(d).is_ok())
        && ring.iter().all(|e| centroids(e.pre_lo, e.pre_hi))
        && positive(t.has_wpm.is(), t.wpm_ema)
        && positive(t.has_egap.is(), t.mu_egap_ms)
        && (!t.has_hint || within(2.2, 6.0, t.ratio_hint));
    if sound {
        Ok(())
    } else {
        Err(1)
    }
}

/// Of refusal 1: "a score outside -30 to 0".
fn score(x: f32) -> bool {
    within(-30.0, 0.0, x)
}

/// Of refusal 1: "one unready, or one holding other logarithms than its centroids have"; and in its plain form an origin's number.
fn hypothesis(h: &Hypothesis) -> bool {
    let (lo, hi) = (h.tracker.pair.lo, h.tracker.pair.hi);
    tracker(&h.tracker).is_ok()
        && h.tracker.pair.ready.is()
        && log01::ln(lo) == Ok(h.ln_lo)
        && log01::ln(hi) == Ok(h.ln_hi)
        && score(h.score)
        && score(h.gap_score)
        && h.origin <= 2
        && h.reported.is_flag()
}

/// Of refusal 1: the dits of a switch record are held durations.
fn record(r: &Record) -> bool {
    duration(r.from_dit_ms).is_ok() && duration(r.to_dit_ms).is_ok() && r.applied.is_flag()
}

/// 1, of a bank.
pub fn bank(b: &Bank) -> Result<(), u8> {
    // "width 0 or above 8; challengers not below the width", and counts above their capacities
    if b.width == 0
        || b.width > 8
        || b.challengers_len >= b.width
        || b.streak_len > 4
        || b.streak_gaps_len > 4
        || b.log_len > 16
    {
        return Err(1);
    }
    let (streak, gaps) = (
        &b.streak[..b.streak_len],
        &b.streak_gaps[..b.streak_gaps_len],
    );
    let named = [b.switching, b.has_side, b.has_last_gap, b.has_pending];
    let sound = flags(&named)
        && (!b.has_side || b.streak_side.is_flag())
        && b.challengers[..b.challengers_len].iter().all(hypothesis)
        && (!b.has_pending || b.pending < b.challengers_len)
        && gaps.len() <= streak.len()
        && score(b.primary_score)
        && score(b.primary_gap_score)
        && streak.iter().chain(gaps).all(|&d| duration(d).is_ok())
        && (!b.has_last_gap || duration(b.last_gap).is_ok())
        && b.log[..b.log_len].iter().all(record);
    if sound {
        Ok(())
    } else {
        Err(1)
    }
}

/// 2: "the bank has counted 4,294,967,295 or more marks or gaps".
pub fn counts(b: &Bank) -> Result<(), u8> {
    if b.marks_seen >= 4_294_967_295 || b.gaps_seen >= 4_294_967_295 {
        Err(2)
    } else {
        Ok(())
    }
}

/// The serials that a station holds: the primary's, then the challengers'.
pub fn serials(s: &Station) -> Vec<u64> {
    let rivals = &s.bank.challengers[..s.bank.challengers_len.min(8)];
    std::iter::once(s.serial)
        .chain(rivals.iter().map(|h| h.serial))
        .collect()
}

/// How many hypotheses are held or have left; they may be more than 64 bits count.
pub fn booked(s: &Station) -> u128 {
    let left: u128 = s.counts.iter().map(|&n| u128::from(n)).sum();
    s.bank.challengers_len as u128 + left
}

/// 1, of a station: "a serial above started or held twice, started above the accepted calls, counts out of balance".
pub fn station(s: &Station) -> Result<(), u8> {
    tracker(&s.primary)?;
    bank(&s.bank)?;
    let started = s.bank.started;
    let mut held = serials(s);
    held.sort_unstable();
    let sound = held.iter().all(|&n| n <= started)
        && held.windows(2).all(|w| w[0] != w[1])
        && started <= s.accepted
        && u128::from(started) == booked(s);
    if sound {
        Ok(())
    } else {
        Err(1)
    }
}

/// 2: ".. or the station as many accepted calls".
pub fn calls(s: &Station) -> Result<(), u8> {
    counts(&s.bank)?;
    if s.accepted >= 4_294_967_295 {
        Err(2)
    } else {
        Ok(())
    }
}

/// 3: "A fresh bank or station is wanted with width above 8".
pub fn width(n: usize) -> Result<(), u8> {
    if n > 8 {
        Err(3)
    } else {
        Ok(())
    }
}

#[cfg(test)]
mod tests {
    use super::*;

    #[test]
    fn each_number_at_its_limit() {
        let next = |x: f32| f32::from_bits(x.to_bits() + 1);
        let last = |x: f32| f32::from_bits(x.to_bits() - 1);
        assert_eq!(duration(f32::NAN), Err(5));
        assert_eq!(duration(f32::NEG_INFINITY), Err(5));
        assert_eq!(duration(last(1.0 / 64.0)), Err(6));
        assert_eq!(duration(-1.0), Err(6));
        assert_eq!(duration(1.0 / 64.0), Ok(()));
        assert_eq!(duration(262_144.0), Ok(()));
        assert_eq!(duration(next(262_144.0)), Err(7));
        assert_eq!(dit(last(20.0)), Err(9));
        assert_eq!(dit(20.0), Ok(()));
        assert_eq!(dit(150.0), Ok(()));
        assert_eq!(dit(next(150.0)), Err(9));
        assert_eq!(dit(f32::NAN), Err(9));
        assert_eq!(speed(f32::from_bits(1)), Ok(()));
        assert_eq!(speed(0.0), Err(8));
        assert_eq!(speed(f32::INFINITY), Err(8));
        assert_eq!(class(0.0001, -0.0), Ok(()));
        assert_eq!(class(13_108.0, f32::MAX), Ok(()));
        assert_eq!(class(last(0.0001), 0.0), Err(1));
        assert_eq!(class(next(13_108.0), 0.0), Err(1));
        assert_eq!(class(1.0, -f32::from_bits(1)), Err(1));
        assert_eq!(class(1.0, f32::NAN), Err(1));
    }

    /// A bank that is sound but for one part, each at its limit.
    #[test]
    fn a_bank_at_its_limits() {
        let mut b = Bank {
            width: 2,
            challengers_len: 1,
            ..Bank::default()
        };
        let h = &mut b.challengers[0];
        h.tracker.pair.ready = Bit::YES;
        (h.tracker.pair.lo, h.tracker.pair.hi) = (60.0, 180.0);
        (h.ln_lo, h.ln_hi) = (log01::ln(60.0).unwrap(), log01::ln(180.0).unwrap());
        assert_eq!(bank(&b), Ok(()));
        let with = |f: fn(&mut Bank)| {
            let mut c = b;
            f(&mut c);
            bank(&c)
        };
        assert_eq!(with(|b| b.width = 1), Err(1));
        assert_eq!(with(|b| b.challengers[0].origin = 3), Err(1));
        assert_eq!(with(|b| b.challengers[1].origin = 3), Ok(()));
        assert_eq!(with(|b| b.challengers[0].ln_hi = 5.0), Err(1));
        assert_eq!(with(|b| b.challengers[0].reported = Bit(2)), Err(1));
        assert_eq!(with(|b| b.challengers[1].reported = Bit(2)), Ok(()));
        assert_eq!(with(|b| b.challengers[0].tracker.has_wpm = Bit(2)), Err(1));
        assert_eq!(
            with(|b| b.challengers[0].tracker.ring[0].assigned_dit = Bit(2)),
            Ok(())
        );
        assert_eq!(with(|b| b.switching = Bit(255)), Err(1));
        assert_eq!(with(|b| b.streak_side = Bit(2)), Ok(()));
        let side = |b: &mut Bank| (b.has_side, b.streak_side) = (Bit::YES, Bit(2));
        assert_eq!(with(side), Err(1));
        assert_eq!(with(|b| b.log[0].applied = Bit(2)), Ok(()));
        assert_eq!(
            with(|b| b.challengers[0].tracker.pair.ready = Bit::NO),
            Err(1)
        );
        assert_eq!(with(|b| b.challengers[0].score = -30.0), Ok(()));
        assert_eq!(with(|b| b.primary_gap_score = f32::from_bits(1)), Err(1));
        assert_eq!(with(|b| (b.has_pending, b.pending) = (Bit::YES, 1)), Err(1));
        assert_eq!(with(|b| b.streak_gaps_len = 1), Err(1));
        assert_eq!(with(|b| b.log_len = 1), Err(1));
        let counted = |n| counts(&Bank { gaps_seen: n, ..b });
        assert_eq!(
            (counted(4_294_967_294), counted(4_294_967_295)),
            (Ok(()), Err(2))
        );
    }

    /// The books of a station, each clause at its limit.
    #[test]
    fn a_station_at_its_limits() {
        let mut s = Station {
            counts: [1, 0, 2, 0, 1],
            accepted: 5,
            serial: 5,
            ..Station::default()
        };
        (s.bank.width, s.bank.challengers_len, s.bank.started) = (2, 1, 5);
        let h = &mut s.bank.challengers[0];
        h.tracker.pair.ready = Bit::YES;
        (h.tracker.pair.lo, h.tracker.pair.hi) = (60.0, 180.0);
        (h.ln_lo, h.ln_hi) = (log01::ln(60.0).unwrap(), log01::ln(180.0).unwrap());
        assert_eq!((station(&s), calls(&s)), (Ok(()), Ok(())));
        let with = |f: fn(&mut Station)| {
            let mut t = s;
            f(&mut t);
            station(&t)
        };
        assert_eq!(with(|s| s.serial = 6), Err(1));
        assert_eq!(with(|s| s.serial = 0), Err(1));
        assert_eq!(with(|s| s.bank.challengers[0].serial = 6), Err(1));
        assert_eq!(with(|s| s.bank.challengers[1].serial = 5), Ok(()));
        assert_eq!(with(|s| s.accepted = 4), Err(1));
        assert_eq!(with(|s| s.counts[4] = 2), Err(1));
        assert_eq!(with(|s| s.counts[4] = 0), Err(1));
        assert_eq!(
            with(|s| s.counts = [4 + (1 << 63), 1 << 63, 0, 0, 0]),
            Err(1)
        );
        let accepted = |n| calls(&Station { accepted: n, ..s });
        assert_eq!(
            (accepted(4_294_967_294), accepted(4_294_967_295)),
            (Ok(()), Err(2))
        );
    }
}
