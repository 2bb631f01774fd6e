//! How often a run reached each branch of document 01's "Station", and each clause of each refusal.

use super::{Answer, Call, Event, CLEAR, FINISH, GAP, HINT, MARK, SEED, SWITCH};
use crate::hullathan::bank::{Bank, Hypothesis};
use crate::hullathan::station::Station;
use crate::hullathan::Bit;
use crate::layers::bank::follow::{AGED, CLEARED, OUTSCORED, REPLACED, TWIN};
use crate::refusals;

pub mod reached {
    crate::branches! {
        FRESH_0: "fresh: width 0 counts as 1",
        FRESH_8: "fresh: width 8",
        FRESH_9: "fresh: width 9, refused by 3",
        MARK_START: "mark, live: the primary stays unready",
        MARK_LOCK: "mark, live: the primary becomes ready",
        MARK_LOCK_RIVAL: "mark, live: it becomes ready, and another reading starts",
        MARK_LIVE: "mark, live: the primary was ready",
        MARK_STARTS: "mark, live: a streak starts a hypothesis",
        MARK_SILENT: "mark, not live",
        MARK_SILENT_UNREADY: "mark, not live, the primary is not ready",
        MARK_OFF: "mark: the bank is off",
        GAP_UNREADY: "gap: the primary is not ready",
        GAP_ELEMENT: "gap: an element gap of the primary",
        GAP_LONG: "gap: too long for an element gap",
        GAP_TWO: "gap: 2.0 times the dit estimate exactly",
        GAP_OFF: "gap: the bank is off, the primary hears it",
        FINISH_YES: "finish: the primary becomes ready",
        FINISH_RIVAL: "finish: it becomes ready, and another reading starts",
        FINISH_FEW: "finish: nothing to do, fewer than 2 marks",
        FINISH_READY: "finish: nothing to do, ready already",
        SEED_UNREADY: "seed: the primary becomes ready",
        SEED_READY: "seed: it was ready",
        SEED_CLEARS: "seed: challengers leave",
        SEED_PENDING: "seed: a choice was pending",
        HINT_KEPT: "hint: kept",
        HINT_EMPTY: "hint: not finite, emptied",
        CLEAR_SOME: "clear: challengers leave",
        CLEAR_NONE: "clear: there are none",
        CLEAR_PENDING: "clear: a choice was pending",
        SWITCHED: "switch: switched",
        SWITCHED_FIRST: "switch: the first primary leaves its place",
        SWITCHED_BACK: "switch: a former primary comes back",
        SWITCH_NONE: "switch: nothing is pending",
        SWITCH_OFF: "switch: the bank is off",
        SWITCH_OBSERVED: "switch: noted only, switching is off",
        SWITCH_AGAIN: "switch: noted before, switching is off",
        SWITCH_UNREADY: "switch: nothing is pending, the primary is not ready",
        LEFT_TWIN: "left: a twin",
        LEFT_TWIN_PROTECTED: "left: a twin that is protected",
        LEFT_OUTSCORED: "left: outscored",
        LEFT_AGED: "left: aged",
        LEFT_REPLACED: "left: replaced",
        LEFT_CLEARED: "left: cleared",
        LEFT_SEVERAL: "left: more than one",
        LEFT_TWO_CAUSES: "left: more than one, by two causes",
        PROTECTED: "stays: protected, 12 or more behind or of age 64 or more",
        WATCH_TWIN: "in a watch: a twin leaves",
        WATCH_OUTSCORED: "in a watch: one is outscored",
        WATCH_AGED: "in a watch: one has aged",
        WATCH_REPLACED: "in a watch: one is replaced",
        WATCH_CLEARED: "in a watch: one is cleared",
        WATCH_SWITCHED: "in a watch: switched",
        WATCH_BACK: "in a watch: a former primary comes back",
        WATCH_OBSERVED: "in a watch: a switch is noted only",
        WATCH_PROTECTED: "in a watch: one stays since it is protected",
        WATCH_DRIFT: "in a watch: the primary drifts",
        WATCH_FRAGMENT: "in a watch: the primary recovers from a fragment",
        WATCH_FULL: "in a watch: seven challengers",
        WATCH_LONG: "in a watch: the 1,000th call",
        LOG_FULL: "in a watch: 16 switch records",
        LAST_CALL: "accepted: the last call that is counted",
        STARTED_ALL: "sound: as many started as calls accepted",
        BEYOND: "sound: a serial beyond the count that is held",
        FLAG_BEYOND: "sound: a flag beyond a count that is neither 0 nor 1",
        FLAG_RING: "sound: a flag beyond the primary's ring that is neither 0 nor 1",
        BATCH_ONE: "batch: of one event",
        BATCH_64: "batch: of 64 events",
        BATCH_REFUSED: "batch: an event is refused, and the next goes on",
        BATCH_UNSOUND: "batch: refused by 1, the station is unsound",
        BATCH_MANY: "batch: refused by 1, more than 64 events",
        UNKNOWN: "refused by 12: no event has the kind",
        UNKNOWN_ONE: "refused by 1 where 12 would refuse too",
        UNKNOWN_TWO: "refused by 2 where 12 would refuse too",
        ONE_PRIMARY: "refused by 1: the primary",
        ONE_BANK: "refused by 1: the bank",
        ONE_FORM: "refused by 1: an origin's number above 2",
        ONE_FLAG_PRIMARY: "refused by 1: a flag of the primary that is neither 0 nor 1",
        ONE_FLAG_BANK: "refused by 1: a flag of the bank that is neither 0 nor 1",
        ONE_FLAG_RIVAL: "refused by 1: a flag of a challenger that is neither 0 nor 1",
        ONE_FLAG_LOG: "refused by 1: a flag of a switch record that is neither 0 nor 1",
        ONE_ABOVE: "refused by 1: the primary's serial just above started",
        ONE_RIVAL_ABOVE: "refused by 1: a challenger's serial just above started",
        ONE_TWICE: "refused by 1: a challenger has the primary's serial",
        ONE_RIVALS_TWICE: "refused by 1: two challengers have one serial",
        ONE_STARTED: "refused by 1: started just above the accepted calls",
        ONE_MORE: "refused by 1: one more is counted than started",
        ONE_LESS: "refused by 1: one fewer is counted than started",
        ONE_WRAPS: "refused by 1: counts that balance only where their sum wraps",
        ONE_SWITCH: "refused by 1: a choice pending and the primary not ready, at a switch",
        ONE_NO_SWITCH: "accepted: a choice pending and the primary not ready, at another call",
        ONE_FIRST: "refused by 1 where 2 would refuse too",
        TWO_MARKS: "refused by 2: 4,294,967,295 marks",
        TWO_GAPS: "refused by 2: 4,294,967,295 gaps",
        TWO_CALLS: "refused by 2: 4,294,967,295 accepted calls",
        TWO_MOST: "refused by 2: as many accepted calls as 64 bits count",
        TWO_FIRST: "refused by 2 where 5 to 8 would refuse too",
        FIVE_MARK: "refused by 5: a mark",
        SIX_MARK: "refused by 6: a mark",
        SEVEN_MARK: "refused by 7: a mark",
        FIVE_GAP: "refused by 5: a gap",
        SIX_GAP: "refused by 6: a gap",
        SEVEN_GAP: "refused by 7: a gap",
        EIGHT: "refused by 8",
        EIGHT_NAN: "refused by 8: a NaN",
    }
}

use reached::*;

const LAST: u64 = 4_294_967_295;

/// Counts one call, from the station before and after it.
pub fn count(before: &Station, after: &Station, watch: bool, call: &Call, answer: &Answer) {
    let e = match call {
        Call::Fresh(width, _) => {
            FRESH_0.when(*width == 0);
            FRESH_8.when(*width == 8);
            FRESH_9.when(*width == 9);
            return;
        }
        Call::Hand(_) => return,
        Call::Event(e) => e,
    };
    if answer.refused {
        return refused(before, e, answer.code);
    }
    books(before, e);
    accepted(before, after, e, answer.code);
    left(before, after, answer);
    if watch {
        watched(before, after, e, answer);
    }
}

fn held(b: &Bank) -> &[Hypothesis] {
    &b.challengers[..b.challengers_len.min(8)]
}

fn accepted(before: &Station, after: &Station, e: &Event, code: u8) {
    let new = after.bank.started != before.bank.started;
    match e.kind {
        MARK => mark(before, e, code, new),
        GAP => gap(before, after, e),
        FINISH => {
            FINISH_YES.when(code == 1);
            FINISH_RIVAL.when(code == 1 && new);
            FINISH_FEW.when(code == 3 && !before.primary.pair.ready);
            FINISH_READY.when(code == 3 && before.primary.pair.ready.is());
        }
        SEED => {
            SEED_UNREADY.when(code == 1);
            SEED_READY.when(code == 0);
            SEED_CLEARS.when(before.bank.challengers_len > 0);
            SEED_PENDING.when(before.bank.has_pending.is());
        }
        HINT => {
            HINT_KEPT.when(after.primary.has_hint.is());
            HINT_EMPTY.when(before.primary.has_hint.is() && !after.primary.has_hint);
        }
        CLEAR => {
            CLEAR_SOME.when(before.bank.challengers_len > 0);
            CLEAR_NONE.when(before.bank.challengers_len == 0);
            CLEAR_PENDING.when(before.bank.has_pending.is());
        }
        _ => switch(before, code),
    }
}

fn mark(before: &Station, e: &Event, code: u8, new: bool) {
    let ready = before.primary.pair.ready;
    MARK_START.when(e.live && !ready && code == 0);
    MARK_LOCK.when(code == 1);
    MARK_LOCK_RIVAL.when(code == 1 && new);
    MARK_LIVE.when(e.live && ready.is());
    MARK_STARTS.when(e.live && ready.is() && new);
    MARK_SILENT.when(!e.live && ready.is());
    MARK_SILENT_UNREADY.when(!e.live && !ready);
    MARK_OFF.when(before.bank.width == 1);
}

fn gap(before: &Station, after: &Station, e: &Event) {
    let p = &before.primary;
    GAP_UNREADY.when(!p.pair.ready);
    if !p.pair.ready {
        return;
    }
    let twice = 2.0 * crate::layers::tracker::manta(p).dit_estimate_ms();
    GAP_ELEMENT.when(e.number() < twice);
    GAP_LONG.when(e.number() > twice);
    GAP_TWO.when(e.number() == twice);
    GAP_OFF.when(before.bank.width == 1 && after.primary.has_egap.is() && e.number() < twice);
}

/// The challenger that a switch may move.
fn pending(s: &Station) -> Option<&Hypothesis> {
    let b = &s.bank;
    (b.width > 1 && b.has_pending.is()).then(|| &b.challengers[b.pending])
}

fn switch(before: &Station, code: u8) {
    SWITCH_OFF.when(before.bank.width == 1);
    SWITCH_NONE.when(before.bank.width > 1 && !before.bank.has_pending);
    SWITCH_UNREADY.when(!before.bank.has_pending && !before.primary.pair.ready);
    SWITCHED.when(code == 2);
    SWITCHED_FIRST.when(code == 2 && before.serial == 0);
    if let Some(h) = pending(before) {
        SWITCHED_BACK.when(code == 2 && h.origin == 2);
        SWITCH_OBSERVED.when(code == 3 && !before.bank.switching && !h.reported);
        SWITCH_AGAIN.when(code == 3 && h.reported.is());
    }
}

/// Whether one that is protected stays where another would leave.
fn stays(before: &Station, after: &Station) -> bool {
    let mark = after.bank.marks_seen != before.bank.marks_seen;
    mark && held(&after.bank).iter().any(|h| {
        let far = after.bank.primary_score - h.score >= 12.0 || h.age_marks >= 64;
        h.origin == 2 && h.retain_marks > 0 && far
    })
}

fn left(before: &Station, after: &Station, answer: &Answer) {
    for d in &answer.left {
        LEFT_TWIN.when(d.cause == TWIN);
        let protected = |h: &Hypothesis| h.origin == 2 && h.retain_marks > 1;
        let was = held(&before.bank).iter().find(|h| h.serial == d.serial);
        LEFT_TWIN_PROTECTED.when(d.cause == TWIN && was.is_some_and(protected));
        LEFT_OUTSCORED.when(d.cause == OUTSCORED);
        LEFT_AGED.when(d.cause == AGED);
        LEFT_REPLACED.when(d.cause == REPLACED);
        LEFT_CLEARED.when(d.cause == CLEARED);
    }
    LEFT_SEVERAL.when(answer.left.len() > 1);
    LEFT_TWO_CAUSES.when(answer.left.iter().any(|d| d.cause != answer.left[0].cause));
    PROTECTED.when(stays(before, after));
}

/// What a watch from a fresh station comes to.
fn watched(before: &Station, after: &Station, e: &Event, answer: &Answer) {
    let any = |cause| answer.left.iter().any(|d| d.cause == cause);
    WATCH_TWIN.when(any(TWIN));
    WATCH_OUTSCORED.when(any(OUTSCORED));
    WATCH_AGED.when(any(AGED));
    WATCH_REPLACED.when(any(REPLACED));
    WATCH_CLEARED.when(any(CLEARED));
    WATCH_PROTECTED.when(stays(before, after));
    WATCH_SWITCHED.when(answer.code == 2);
    if let (SWITCH, Some(h)) = (e.kind, pending(before)) {
        WATCH_BACK.when(answer.code == 2 && h.origin == 2);
        WATCH_OBSERVED.when(answer.code == 3 && !h.reported);
    }
    let (p, q) = (&before.primary, &after.primary);
    let recovers = !p.badlock_recovered && q.badlock_recovered.is();
    WATCH_DRIFT.when(e.kind == MARK && p.regime != q.regime && !recovers);
    WATCH_FRAGMENT.when(e.kind == MARK && recovers);
    WATCH_FULL.when(after.bank.challengers_len == 7);
    WATCH_LONG.when(after.accepted == 1_000);
    LOG_FULL.when(after.bank.log_len == 16 && before.bank.log_len == 15);
}

/// What is just sound.
fn books(s: &Station, e: &Event) {
    LAST_CALL.when(s.accepted == LAST - 1);
    STARTED_ALL.when(s.bank.started == s.accepted && s.bank.started > 0);
    let beyond = &s.bank.challengers[s.bank.challengers_len..];
    BEYOND.when(beyond.iter().any(|h| h.serial == s.serial) && s.serial > 0);
    let none = |b: Bit| !b.is_flag();
    FLAG_BEYOND.when(
        beyond.iter().any(|h| none(h.reported))
            || s.bank.log[s.bank.log_len..].iter().any(|r| none(r.applied)),
    );
    let ring = &s.primary.ring[s.primary.ring_len..];
    FLAG_RING.when(ring.iter().any(|e| none(e.assigned_dit)));
    ONE_NO_SWITCH.when(s.bank.has_pending.is() && !s.primary.pair.ready && e.kind != SWITCH);
}

fn refused(s: &Station, e: &Event, code: u8) {
    match code {
        1 => {
            UNKNOWN_ONE.when(e.kind > SWITCH);
            unsound(s);
        }
        2 => {
            TWO_MARKS.when(s.bank.marks_seen == LAST);
            TWO_GAPS.when(s.bank.gaps_seen == LAST);
            TWO_CALLS.when(s.accepted == LAST);
            TWO_MOST.when(s.accepted == u64::MAX && s.bank.started == u64::MAX);
            let bad = match e.kind {
                MARK | GAP => refusals::duration(e.number()).is_err(),
                SEED => refusals::speed(e.number()).is_err(),
                _ => false,
            };
            TWO_FIRST.when(bad);
            UNKNOWN_TWO.when(e.kind > SWITCH);
        }
        12 => UNKNOWN.reached(),
        _ => {
            let all = match e.kind {
                MARK => [&FIVE_MARK, &SIX_MARK, &SEVEN_MARK],
                _ => [&FIVE_GAP, &SIX_GAP, &SEVEN_GAP],
            };
            for (n, b) in (5..).zip(all) {
                b.when(code == n);
            }
            EIGHT.when(code == 8);
            EIGHT_NAN.when(code == 8 && e.number().is_nan());
        }
    }
}

/// Which clauses of refusal 1 hold; of the books only where all else is sound, and each alone.
fn unsound(s: &Station) {
    ONE_FIRST.when(refusals::calls(s).is_err());
    let parts = (refusals::tracker(&s.primary), refusals::bank(&s.bank));
    ONE_PRIMARY.when(parts.0.is_err() && parts.1.is_ok());
    ONE_BANK.when(parts.0.is_ok() && parts.1.is_err());
    ONE_FORM.when(held(&s.bank).iter().any(|h| h.origin > 2));
    let none = |b: Bit| !b.is_flag();
    let p = &s.primary;
    ONE_FLAG_PRIMARY.when(none(p.pair.confirmed) || none(p.lo_uncorroborated));
    ONE_FLAG_BANK.when(none(s.bank.switching) || none(s.bank.has_last_gap));
    ONE_FLAG_RIVAL.when(held(&s.bank).iter().any(|h| none(h.reported)));
    let log = s.bank.log.iter().take(s.bank.log_len);
    ONE_FLAG_LOG.when(log.into_iter().any(|r| none(r.applied)));
    if parts != (Ok(()), Ok(())) {
        return;
    }
    let started = s.bank.started;
    let all = refusals::serials(s);
    let above = all.iter().any(|&n| n > started);
    let twice = (1..all.len()).any(|i| all[..i].contains(&all[i]));
    let late = started > s.accepted;
    let (want, is) = (u128::from(started), refusals::booked(s));
    let alone = [above, twice, late, want != is]
        .iter()
        .filter(|&&x| x)
        .count()
        == 1;
    let next = started.wrapping_add(1);
    ONE_ABOVE.when(alone && all[0] == next);
    ONE_RIVAL_ABOVE.when(alone && all[1..].contains(&next));
    ONE_TWICE.when(alone && all[1..].contains(&all[0]));
    ONE_RIVALS_TWICE.when(alone && twice && !all[1..].contains(&all[0]));
    ONE_STARTED.when(alone && s.accepted.checked_add(1) == Some(started));
    ONE_MORE.when(alone && is == want + 1);
    ONE_LESS.when(alone && is + 1 == want);
    ONE_WRAPS.when(alone && is != want && is as u64 == started);
    ONE_SWITCH.when(refusals::station(s).is_ok());
}
