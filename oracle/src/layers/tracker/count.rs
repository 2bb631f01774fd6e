//! How often a run reached each branch of the Rust's calls, and each clause of each refusal.

use super::{Answer, Call, Told};
use crate::hullathan::tracker::{RingEntry, SpeedTracker as Plain};
use crate::hullathan::Bit;
use crate::refusals;

pub mod reached {
    crate::branches! {
        START_KEPT: "on_mark: a start mark is kept",
        LOCK_5: "on_mark: a lock from 5 marks",
        LOCK_CUT: "on_mark: the lock cuts the marks",
        LOCK_CUT_AT_TWO: "on_mark: the lock cuts at a ratio of 2.0 exactly",
        LOCK_LONE: "on_mark: the lock's dit rests on one mark",
        LOCK_DITS: "on_mark: the lock assumes dits",
        LOCK_DAHS: "on_mark: the lock assumes dahs",
        ANCHOR_DAH: "on_mark: the dah re-anchors",
        ANCHOR_DAH_EQUAL: "on_mark: the dah re-anchors at twice the dit exactly",
        ANCHOR_DIT: "on_mark: the dit re-anchors",
        ANCHOR_DIT_EQUAL: "on_mark: the dit re-anchors at half the dah exactly",
        MOVES_DIT: "on_mark: the dit moves",
        MOVES_DAH: "on_mark: the dah moves",
        EQUAL: "on_mark: a mark equal to the boundary moves the dah",
        CLASS_TURNS: "on_mark: the class of a mark turns with what was learned from it",
        DIT_UP: "on_mark: the dit is clamped to 20",
        DIT_DOWN: "on_mark: the dit is clamped to 150",
        RATIO_LOW: "on_mark: a ratio below 2.2 is mended",
        RATIO_HIGH: "on_mark: a ratio above 6.0 is mended",
        HINT_USED: "on_mark: it is mended by the hint",
        CORROBORATED: "on_mark: a dit speaks for a lone start mark or a seed",
        RING_FILLS: "on_mark: the ring is not full",
        RING_MIXED: "on_mark: a full ring of both classes",
        DRIFT_DITS: "on_mark: drift by dits",
        DRIFT_DAHS: "on_mark: drift by dahs",
        DRIFT_CUT: "on_mark: drift, and the recent marks are cut",
        DRIFT_WHOLE: "on_mark: drift, and the recent marks are not cut",
        SPREAD_DITS: "on_mark: twelve dits, spread too far",
        SPREAD_DAHS: "on_mark: twelve dahs, spread too far",
        NEAR_DITS: "on_mark: twelve dits, too near their centroid",
        NEAR_DAHS: "on_mark: twelve dahs, too near their centroid",
        FRAGMENT_NO_GAP: "on_mark: a fragment is recovered from, no gap centroid",
        FRAGMENT_GAP: "on_mark: a fragment is recovered from, the gap centroid is long",
        FRAGMENT_LONE: "on_mark: a fragment is recovered from, a lone start mark",
        FRAGMENT_SEED: "on_mark: a fragment is recovered from, a seed",
        NO_FRAGMENT_GAP: "on_mark: no recovery, the gap centroid says dahs",
        NO_FRAGMENT_DIT: "on_mark: no recovery, there was a dit since",
        NO_FRAGMENT_FINISH: "on_mark: no recovery, the lone start mark came by a finish",
        NO_FRAGMENT_OTHER: "on_mark: no recovery, the dit rests on more marks",
        WRAPPED: "on_mark: the regime count wraps",
        WPM_FIRST: "on_mark: the speed average begins",
        WPM_MOVES: "on_mark: the speed average moves",
        GAP_FIRST: "on_element_gap: the first",
        GAP_LATER: "on_element_gap: a later one",
        SEED_UNREADY: "seed_wpm: an unready tracker",
        SEED_READY: "seed_wpm: a ready one",
        SEED_UP: "seed_wpm: the dit is clamped to 20",
        SEED_DOWN: "seed_wpm: the dit is clamped to 150",
        SEED_INFINITE: "seed_wpm: a speed so small that the dit overflows",
        HINT_LOW: "set_ratio_hint: clamped to 2.2",
        HINT_HIGH: "set_ratio_hint: clamped to 6.0",
        HINT_IS: "set_ratio_hint: kept",
        HINT_EMPTY: "set_ratio_hint: not finite, emptied",
        FINISH_2: "bootstrap: a lock from 2 marks",
        FINISH_3: "bootstrap: a lock from 3 marks",
        FINISH_4: "bootstrap: a lock from 4 marks",
        FINISH_CUT: "bootstrap: the marks are cut",
        FINISH_DITS: "bootstrap: dits assumed",
        FINISH_DAHS: "bootstrap: dahs assumed",
        FINISH_NONE: "bootstrap: no, without a mark",
        FINISH_1: "bootstrap: no, one mark",
        FINISH_READY: "bootstrap: no, ready already",
        TAKE_YES: "take_badlock_recovered: yes",
        TAKE_NO: "take_badlock_recovered: no",
        RESEED: "reseed_wpm_after_warmup: begins anew",
        RESEED_UNREADY: "reseed_wpm_after_warmup: unready",
        RESOLVED: "resolve_unimodal_bootstrap: yes",
        RESOLVED_TWO: "resolve_unimodal_bootstrap: yes, by two gaps",
        RESOLVED_TWELVE: "resolve_unimodal_bootstrap: a list of 12",
        RESOLVE_UNREADY: "resolve_unimodal_bootstrap: no, unready",
        RESOLVE_CONFIRMED: "resolve_unimodal_bootstrap: no, confirmed",
        RESOLVE_DAHS: "resolve_unimodal_bootstrap: no, dahs assumed already",
        RESOLVE_SHORT: "resolve_unimodal_bootstrap: no, a dit below 60",
        RESOLVE_SIXTY: "resolve_unimodal_bootstrap: a dit of 60 exactly",
        RESOLVE_FEW: "resolve_unimodal_bootstrap: no, fewer than two gaps in the band",
        RESOLVE_SPREAD: "resolve_unimodal_bootstrap: no, the gaps disagree",
        RESOLVE_NONE: "resolve_unimodal_bootstrap: an empty list",
        RESOLVE_ODD: "resolve_unimodal_bootstrap: odd entries are skipped",
        RESOLVE_AT_LEAST: "resolve_unimodal_bootstrap: a gap at the band's lower limit",
        RESOLVE_AT_MOST: "resolve_unimodal_bootstrap: a gap at the band's upper limit",
        READ_UNREADY: "readings: unready",
        READ_WPM: "readings: a speed average",
        ESTIMATE_PLAIN: "dit_estimate_ms: no gap centroid",
        ESTIMATE_GAP: "dit_estimate_ms: by the gap centroid",
        ESTIMATE_CAP_DOWN: "dit_estimate_ms: the cap, a short gap",
        ESTIMATE_CAP_UP: "dit_estimate_ms: the cap, a long gap",
        ESTIMATE_20: "dit_estimate_ms: clamped to 20",
        ESTIMATE_150: "dit_estimate_ms: clamped to 150",
        FOUR: "refused by 4",
        FIVE_NAN: "refused by 5: NaN",
        FIVE_INFINITE: "refused by 5: infinite",
        SIX: "refused by 6: just below 1/64",
        SIX_NEGATIVE: "refused by 6: zero or less",
        SHORTEST: "accepted: 1/64",
        LONGEST: "accepted: 262,144",
        SEVEN: "refused by 7: just above 262,144",
        EIGHT_ZERO: "refused by 8: zero or less",
        EIGHT_NAN: "refused by 8: NaN",
        EIGHT_INFINITE: "refused by 8: infinite",
        ONE_FIRST: "refused by 1 where 4, 5 to 7 or 8 would refuse too",
        DIT_BELOW: "refused by 1: ready, a dit just below 20",
        DIT_LEAST: "sound: ready, a dit of 20",
        DIT_ABOVE: "refused by 1: ready, a dit just above 150",
        DIT_MOST: "sound: ready, a dit of 150",
        DIT_NAN: "refused by 1: ready, a dit that is NaN",
        DAH_BELOW: "refused by 1: ready, a dah just below 16",
        DAH_LEAST: "sound: ready, a dah of 16",
        DAH_ABOVE: "refused by 1: ready, a dah just above 2,500",
        DAH_MOST: "sound: ready, a dah of 2,500",
        DAH_NAN: "refused by 1: ready, a dah that is NaN",
        LO_MINUS: "refused by 1: unready, a dit of -0",
        LO_LEAST: "refused by 1: unready, the least dit above 0",
        HI_MINUS: "refused by 1: unready, a dah of -0",
        HI_LEAST: "refused by 1: unready, the least dah above 0",
        LO_NAN: "refused by 1: unready, a dit that is NaN",
        START_4: "sound: unready, 4 start marks",
        START_5: "refused by 1: unready, 5 start marks",
        START_12: "sound: ready, 12 start marks",
        START_13: "refused by 1: 13 start marks",
        RING_12: "sound: a ring of 12",
        RING_13: "refused by 1: a ring of 13",
        RECENT_5: "sound: 5 recent marks",
        RECENT_6: "refused by 1: 6 recent marks",
        COUNT_LARGE: "refused by 1: the largest count of 32 bits",
        ENTRY_DIT_BELOW: "refused by 1: a ring entry's dit just below 20",
        ENTRY_DIT_ABOVE: "refused by 1: a ring entry's dit just above 150",
        ENTRY_DAH_BELOW: "refused by 1: a ring entry's dah just below 16",
        ENTRY_DAH_ABOVE: "refused by 1: a ring entry's dah just above 2,500",
        ENTRY_NAN: "refused by 1: a ring entry's centroid that is NaN",
        ENTRY_LIMITS: "sound: a ring entry's centroids at their limits",
        HELD_SHORT: "refused by 1: a held duration just below 1/64",
        HELD_LONG: "refused by 1: a held duration just above 262,144",
        HELD_NAN: "refused by 1: a held duration that is NaN",
        HELD_LIMITS: "sound: held durations at their limits",
        WPM_ZERO: "refused by 1: a speed average of 0",
        WPM_MINUS: "refused by 1: a speed average of -0",
        WPM_INFINITE: "refused by 1: a speed average that is infinite",
        WPM_NAN: "refused by 1: a speed average that is NaN",
        WPM_LIMITS: "sound: the least and the largest speed average",
        EGAP_ZERO: "refused by 1: a gap centroid of 0",
        EGAP_INFINITE: "refused by 1: a gap centroid that is infinite",
        EGAP_NAN: "refused by 1: a gap centroid that is NaN",
        EGAP_LIMITS: "sound: the least and the largest gap centroid",
        HINT_BELOW: "refused by 1: a hint just below 2.2",
        HINT_ABOVE: "refused by 1: a hint just above 6.0",
        HINT_NAN: "refused by 1: a hint that is NaN",
        HINT_LIMITS: "sound: a hint of 2.2 or 6.0",
        ABSENT: "sound: numbers that no sound tracker has, marked absent or beyond a count",
    }
}

use reached::*;

fn next(x: f32) -> f32 {
    f32::from_bits(x.to_bits() + 1)
}

fn last(x: f32) -> f32 {
    f32::from_bits(x.to_bits() - 1)
}

const SHORT: f32 = 1.0 / 64.0;
const LONG: f32 = 262_144.0;

/// What is remembered between calls: a finish that rests on a lone start mark, with no dit since.
#[derive(Default)]
pub struct Watch {
    lone_finish: bool,
    dit_since: bool,
}

impl Watch {
    /// Counts one call, from the tracker before and after it.
    pub fn count(&mut self, before: &Plain, after: &Plain, call: &Call, answer: Answer) {
        if matches!(call, Call::Set(..) | Call::Hand(_) | Call::Fresh) {
            *self = Watch::default();
            return;
        }
        match answer.code {
            0 => {
                sound(before);
                self.accepted(before, after, call, answer);
            }
            1 => unsound(before, call),
            code => refused(call, code),
        }
    }

    fn accepted(&mut self, before: &Plain, after: &Plain, call: &Call, answer: Answer) {
        let yes = answer.told == Told::Flag(true);
        match call {
            Call::Mark(d) => {
                limits(*d);
                self.mark(before, after, f32::from_bits(*d));
            }
            Call::Gap(d) => {
                limits(*d);
                GAP_FIRST.when(!before.has_egap);
                GAP_LATER.when(before.has_egap.is());
            }
            Call::Seed(w) => {
                let dit = 1200.0 / f32::from_bits(*w);
                SEED_UNREADY.when(!before.pair.ready);
                SEED_READY.when(before.pair.ready.is());
                SEED_UP.when(dit < 20.0);
                SEED_DOWN.when(dit > 150.0);
                SEED_INFINITE.when(dit.is_infinite());
                *self = Watch::default();
            }
            Call::Hint(h) => {
                let h = f32::from_bits(*h);
                HINT_LOW.when(h < 2.2 && h.is_finite());
                HINT_HIGH.when(h > 6.0 && h.is_finite());
                HINT_IS.when((2.2..=6.0).contains(&h));
                HINT_EMPTY.when(!h.is_finite());
            }
            Call::Finish => {
                self.finish(before, after, yes);
            }
            Call::Take => {
                TAKE_YES.when(yes);
                TAKE_NO.when(!yes);
            }
            Call::Reseed => {
                RESEED.when(before.pair.ready.is());
                RESEED_UNREADY.when(!before.pair.ready);
            }
            Call::Resolve(gaps) => resolve(before, gaps, yes),
            Call::Read => read(before),
            Call::Set(..) | Call::Hand(_) | Call::Fresh => {}
        }
    }

    fn finish(&mut self, before: &Plain, after: &Plain, yes: bool) {
        let n = before.pair.init_len;
        if yes {
            FINISH_2.when(n == 2);
            FINISH_3.when(n == 3);
            FINISH_4.when(n == 4);
            FINISH_CUT.when(after.pair.confirmed.is());
            FINISH_DITS.when(!after.pair.confirmed && !after.pair.placeholder_is_lo);
            FINISH_DAHS.when(!after.pair.confirmed && after.pair.placeholder_is_lo.is());
            self.lone_finish = after.pair.lo_n == 1;
            self.dit_since = false;
        } else {
            FINISH_READY.when(before.pair.ready.is());
            FINISH_NONE.when(!before.pair.ready && n == 0);
            FINISH_1.when(!before.pair.ready && n == 1);
        }
    }

    fn mark(&mut self, before: &Plain, after: &Plain, d: f32) {
        let p = &before.pair;
        if !p.ready {
            START_KEPT.when(!after.pair.ready);
            if after.pair.ready.is() {
                lock(before, after, d);
            }
            return;
        }
        WPM_FIRST.when(!before.has_wpm);
        WPM_MOVES.when(before.has_wpm.is());
        let (lo, hi) = learned(before, d);
        constrained(before, lo, hi);
        let lo = lo.clamp(20.0, 150.0);
        let ratio = hi / lo;
        let hi = if (2.2..=6.0).contains(&ratio) {
            hi
        } else {
            lo * if before.has_hint.is() {
                before.ratio_hint
            } else {
                3.0
            }
        };
        let is_dit = d < (lo * hi).sqrt();
        CLASS_TURNS.when(is_dit != (d < (p.lo * p.hi).sqrt()) && p.confirmed.is());
        CORROBORATED.when(is_dit && before.lo_uncorroborated.is());
        self.dit_since |= is_dit;
        let mut ring = before.ring[..before.ring_len].to_vec();
        ring.push(RingEntry {
            dur_ms: d,
            assigned_dit: Bit::from(is_dit),
            pre_lo: p.lo,
            pre_hi: p.hi,
            ..RingEntry::default()
        });
        let ring = &ring[ring.len().saturating_sub(12)..];
        self.ring(before, after, ring, is_dit);
        WRAPPED.when(before.regime == u32::MAX && after.regime == 0);
        if after.regime != before.regime {
            *self = Watch::default();
        }
    }

    /// Drift and fragments, of the ring with the mark in it.
    fn ring(&mut self, before: &Plain, after: &Plain, ring: &[RingEntry], is_dit: bool) {
        RING_FILLS.when(ring.len() < 12);
        if ring.len() < 12 {
            return;
        }
        if ring.iter().any(|e| e.assigned_dit != Bit::from(is_dit)) {
            RING_MIXED.reached();
            return;
        }
        let mean = ring.iter().map(|e| f64::from(e.dur_ms)).sum::<f64>() / 12.0;
        let square = |e: &RingEntry| (f64::from(e.dur_ms) - mean).powi(2);
        let cv = (ring.iter().map(square).sum::<f64>() / 12.0).sqrt() / mean;
        let anchor = f64::from(if is_dit {
            ring[0].pre_lo
        } else {
            ring[0].pre_hi
        });
        let (spread, near) = (cv >= 0.35, (mean - anchor).abs() / anchor <= 0.40);
        if !spread && !near {
            DRIFT_DITS.when(is_dit);
            DRIFT_DAHS.when(!is_dit);
            DRIFT_CUT.when(after.pair.confirmed.is());
            DRIFT_WHOLE.when(!after.pair.confirmed);
            return;
        }
        SPREAD_DITS.when(is_dit && spread);
        SPREAD_DAHS.when(!is_dit && spread);
        NEAR_DITS.when(is_dit && near);
        NEAR_DAHS.when(!is_dit && near);
        if is_dit {
            return;
        }
        if after.regime != before.regime {
            FRAGMENT_NO_GAP.when(!before.has_egap);
            FRAGMENT_GAP.when(before.has_egap.is());
            FRAGMENT_LONE.when(before.pair.lo_n == 1);
            FRAGMENT_SEED.when(before.pair.lo_n == 0);
        } else if before.lo_uncorroborated.is() {
            NO_FRAGMENT_GAP.reached();
        } else {
            NO_FRAGMENT_FINISH.when(self.lone_finish && !self.dit_since);
            NO_FRAGMENT_DIT.when(before.pair.lo_n == 1 && self.dit_since);
            NO_FRAGMENT_OTHER.when(before.pair.lo_n != 1);
        }
    }
}

/// The fifth mark.
fn lock(before: &Plain, after: &Plain, d: f32) {
    let mut marks = before.pair.init[..before.pair.init_len].to_vec();
    marks.push(d);
    marks.sort_by(f32::total_cmp);
    LOCK_5.when(marks.len() == 5);
    LOCK_CUT.when(after.pair.confirmed.is());
    LOCK_CUT_AT_TWO.when(marks[marks.len() - 1] / marks[0] == 2.0);
    LOCK_LONE.when(after.pair.lo_n == 1);
    LOCK_DITS.when(!after.pair.confirmed && !after.pair.placeholder_is_lo);
    LOCK_DAHS.when(!after.pair.confirmed && after.pair.placeholder_is_lo.is());
}

/// Both centroids as the mark moves them.
fn learned(before: &Plain, d: f32) -> (f32, f32) {
    let p = &before.pair;
    if !p.confirmed && p.placeholder_is_lo.is() && d <= 0.5 * p.hi {
        ANCHOR_DIT.reached();
        ANCHOR_DIT_EQUAL.when(d == 0.5 * p.hi);
        return (d, p.hi);
    }
    if !p.confirmed && !p.placeholder_is_lo && d >= 2.0 * p.lo {
        ANCHOR_DAH.reached();
        ANCHOR_DAH_EQUAL.when(d == 2.0 * p.lo);
        return (p.lo, d);
    }
    let boundary = (p.lo * p.hi).sqrt();
    EQUAL.when(d == boundary);
    if d < boundary {
        MOVES_DIT.reached();
        (p.lo + 0.15 * (d - p.lo), p.hi)
    } else {
        MOVES_DAH.reached();
        (p.lo, p.hi + 0.15 * (d - p.hi))
    }
}

fn constrained(before: &Plain, lo: f32, hi: f32) {
    DIT_UP.when(lo < 20.0);
    DIT_DOWN.when(lo > 150.0);
    let ratio = hi / lo.clamp(20.0, 150.0);
    RATIO_LOW.when(ratio < 2.2);
    RATIO_HIGH.when(ratio > 6.0);
    HINT_USED.when(before.has_hint.is() && !(2.2..=6.0).contains(&ratio));
}

fn resolve(before: &Plain, gaps: &[u32], yes: bool) {
    let p = &before.pair;
    let gaps: Vec<f32> = gaps.iter().map(|&g| f32::from_bits(g)).collect();
    let (low, high) = (p.lo * (1.0 / 6.0), p.lo * 0.577_35);
    let band = gaps
        .iter()
        .filter(|&&g| g.is_finite() && g >= low && g < high)
        .count();
    RESOLVE_UNREADY.when(!p.ready);
    RESOLVE_CONFIRMED.when(p.ready.is() && p.confirmed.is());
    RESOLVE_DAHS.when(p.ready.is() && !p.confirmed && p.placeholder_is_lo.is());
    if !p.ready || p.confirmed.is() || p.placeholder_is_lo.is() {
        return;
    }
    RESOLVE_SHORT.when(p.lo < 60.0);
    RESOLVE_SIXTY.when(p.lo == 60.0);
    if p.lo < 60.0 {
        return;
    }
    RESOLVED.when(yes);
    RESOLVED_TWO.when(yes && band == 2);
    RESOLVED_TWELVE.when(gaps.len() == 12);
    RESOLVE_FEW.when(band < 2);
    RESOLVE_SPREAD.when(!yes && band >= 2);
    RESOLVE_NONE.when(gaps.is_empty());
    RESOLVE_ODD.when(yes && gaps.iter().any(|g| g.is_nan()) && gaps.iter().any(|&g| g < 0.0));
    RESOLVE_AT_LEAST.when(gaps.contains(&low));
    RESOLVE_AT_MOST.when(gaps.contains(&high));
}

fn read(t: &Plain) {
    READ_UNREADY.when(!t.pair.ready);
    READ_WPM.when(t.has_wpm.is());
    ESTIMATE_PLAIN.when(!t.has_egap);
    if t.has_egap.is() && t.pair.ready.is() {
        let (lo, cap) = (t.pair.lo, 0.35 * t.pair.lo);
        let half = 0.5 * (lo - t.mu_egap_ms);
        ESTIMATE_GAP.when(half.abs() < cap);
        ESTIMATE_CAP_DOWN.when(half > cap);
        ESTIMATE_CAP_UP.when(half < -cap);
        let estimate = lo - half.clamp(-cap, cap);
        ESTIMATE_20.when(estimate < 20.0);
        ESTIMATE_150.when(estimate > 150.0);
    }
}

fn limits(bits: u32) {
    SHORTEST.when(bits == SHORT.to_bits());
    LONGEST.when(bits == LONG.to_bits());
}

/// Which call was refused, and why, where the tracker is sound.
fn refused(call: &Call, code: u8) {
    match call {
        Call::Resolve(_) => FOUR.when(code == 4),
        Call::Mark(d) | Call::Gap(d) => {
            let d = f32::from_bits(*d);
            FIVE_NAN.when(d.is_nan());
            FIVE_INFINITE.when(d.is_infinite());
            SIX.when(d == last(SHORT));
            SIX_NEGATIVE.when(d <= 0.0 && d.is_finite());
            SEVEN.when(d == next(LONG));
        }
        Call::Seed(w) => {
            let w = f32::from_bits(*w);
            EIGHT_ZERO.when(w <= 0.0);
            EIGHT_NAN.when(w.is_nan());
            EIGHT_INFINITE.when(w.is_infinite());
        }
        _ => {}
    }
}

/// Which clauses of refusal 1 hold, each at its limit.
fn unsound(t: &Plain, call: &Call) {
    let p = &t.pair;
    ONE_FIRST.when(match call {
        Call::Mark(d) | Call::Gap(d) => refusals::duration(f32::from_bits(*d)).is_err(),
        Call::Seed(w) => refusals::speed(f32::from_bits(*w)).is_err(),
        Call::Resolve(gaps) => gaps.len() > 12,
        _ => false,
    });
    START_13.when(p.init_len == 13);
    RING_13.when(t.ring_len == 13);
    RECENT_6.when(t.recent_len == 6);
    COUNT_LARGE.when([p.init_len, t.ring_len, t.recent_len].contains(&(u32::MAX as usize)));
    if p.init_len > 12 || t.ring_len > 12 || t.recent_len > 5 {
        return;
    }
    if p.ready.is() {
        DIT_BELOW.when(p.lo == last(20.0));
        DIT_ABOVE.when(p.lo == next(150.0));
        DIT_NAN.when(p.lo.is_nan());
        DAH_BELOW.when(p.hi == last(16.0));
        DAH_ABOVE.when(p.hi == next(2_500.0));
        DAH_NAN.when(p.hi.is_nan());
    } else {
        LO_MINUS.when(p.lo.to_bits() == 1 << 31);
        LO_LEAST.when(p.lo.to_bits() == 1);
        HI_MINUS.when(p.hi.to_bits() == 1 << 31);
        HI_LEAST.when(p.hi.to_bits() == 1);
        LO_NAN.when(p.lo.is_nan());
        START_5.when(p.init_len == 5);
    }
    for e in &t.ring[..t.ring_len] {
        ENTRY_DIT_BELOW.when(e.pre_lo == last(20.0));
        ENTRY_DIT_ABOVE.when(e.pre_lo == next(150.0));
        ENTRY_DAH_BELOW.when(e.pre_hi == last(16.0));
        ENTRY_DAH_ABOVE.when(e.pre_hi == next(2_500.0));
        ENTRY_NAN.when(e.pre_lo.is_nan() || e.pre_hi.is_nan());
    }
    for d in durations(t) {
        HELD_SHORT.when(d == last(SHORT));
        HELD_LONG.when(d == next(LONG));
        HELD_NAN.when(d.is_nan());
    }
    if t.has_wpm.is() {
        WPM_ZERO.when(t.wpm_ema.to_bits() == 0);
        WPM_MINUS.when(t.wpm_ema.to_bits() == 1 << 31);
        WPM_INFINITE.when(t.wpm_ema == f32::INFINITY);
        WPM_NAN.when(t.wpm_ema.is_nan());
    }
    if t.has_egap.is() {
        EGAP_ZERO.when(t.mu_egap_ms == 0.0);
        EGAP_INFINITE.when(t.mu_egap_ms == f32::INFINITY);
        EGAP_NAN.when(t.mu_egap_ms.is_nan());
    }
    if t.has_hint.is() {
        HINT_BELOW.when(t.ratio_hint == last(2.2));
        HINT_ABOVE.when(t.ratio_hint == next(6.0));
        HINT_NAN.when(t.ratio_hint.is_nan());
    }
}

fn durations(t: &Plain) -> impl Iterator<Item = f32> + '_ {
    let init = t.pair.init[..t.pair.init_len].iter().copied();
    let recent = t.recent[..t.recent_len].iter().copied();
    let ring = t.ring[..t.ring_len].iter().map(|e| e.dur_ms);
    init.chain(recent).chain(ring)
}

/// What is just sound, and what is no part of a tracker.
fn sound(t: &Plain) {
    let p = &t.pair;
    if p.ready.is() {
        DIT_LEAST.when(p.lo == 20.0);
        DIT_MOST.when(p.lo == 150.0);
        DAH_LEAST.when(p.hi == 16.0);
        DAH_MOST.when(p.hi == 2_500.0);
        START_12.when(p.init_len == 12);
    } else {
        START_4.when(p.init_len == 4);
    }
    RING_12.when(t.ring_len == 12);
    RECENT_5.when(t.recent_len == 5);
    for e in &t.ring[..t.ring_len] {
        ENTRY_LIMITS
            .when(e.pre_lo == 20.0 && e.pre_hi == 16.0 || e.pre_lo == 150.0 && e.pre_hi == 2_500.0);
    }
    HELD_LIMITS.when(durations(t).any(|d| d == SHORT) && durations(t).any(|d| d == LONG));
    let least = |x: f32| x.to_bits() == 1 || x == f32::MAX;
    WPM_LIMITS.when(t.has_wpm.is() && least(t.wpm_ema));
    EGAP_LIMITS.when(t.has_egap.is() && least(t.mu_egap_ms));
    HINT_LIMITS.when(t.has_hint.is() && (t.ratio_hint == 2.2 || t.ratio_hint == 6.0));
    ABSENT.when(
        !t.has_wpm && t.wpm_ema.is_nan() && !t.has_hint && t.ratio_hint.is_nan()
            || t.ring[t.ring_len..].iter().any(|e| e.pre_lo.is_nan()),
    );
}
