//! How often a run reached each branch of the Rust's calls, and each clause of each refusal.

use super::follow::{AGED, OUTSCORED, REPLACED, TWIN};
use super::state::manta;
use super::{floats, held, Answer, Call, Told};
use crate::hullathan::bank::{Bank, Hypothesis};
use crate::hullathan::tracker::SpeedTracker as Plain;
use crate::hullathan::Bit;
use crate::layers::tracker;
use crate::log01;
use crate::manta::timing::bank::{duplicates, ln_centroids, Origin, TimingHypothesis};
use crate::manta::timing::{SpeedTracker, TimingBank};
use crate::refusals;

pub mod reached {
    crate::branches! {
        NEW_0: "new: width 0 counts as 1",
        NEW_1: "new: width 1",
        NEW_8: "new: width 8",
        NEW_9: "new: width 9, refused by 3",
        MARK_OFF: "on_mark: the bank is off",
        MARK_UNREADY: "on_mark: the primary is not ready",
        MARK_LIVE: "on_mark: live",
        MARK_SILENT: "on_mark: not live",
        SILENT_GAP: "on_mark: not live, and the held gap is taken away",
        SILENT_STREAK: "on_mark: not live, and the streak stays",
        SCORE_FLOOR: "on_mark: the primary's mark has the floor",
        AGE_FULL: "on_mark: an age at its largest",
        PROTECTION_FALLS: "on_mark: protection is counted down",
        PROTECTION_ENDS: "on_mark: the last mark of protection",
        LEARNT_RECOVERED: "on_mark: a challenger recovers from a fragment, and the flag is taken",
        STREAK_BEGINS: "streak: the first mark",
        STREAK_LOW: "streak: goes on below the boundary",
        STREAK_HIGH: "streak: goes on above the boundary",
        STREAK_EQUAL: "streak: a mark equal to the boundary is above",
        STREAK_TURNS: "streak: the side turns",
        STREAK_GAP: "streak: the held gap joins it",
        STREAK_FULL: "streak: one handed in full begins anew",
        STREAK_GAPS_4: "streak: as many gaps as marks",
        CANDIDATE_LOW: "candidate: four marks below the boundary",
        CANDIDATE_HIGH: "candidate: four marks above the boundary",
        CANDIDATE_TURNED: "candidate: a twin of the primary, turned",
        CANDIDATE_CONFIRMED: "candidate: a twin of the primary, dropped since its marks are cut",
        CANDIDATE_RANGE: "candidate: a twin of the primary, dropped since the other dit leaves 20 to 150",
        SPAWN_TWIN_PRIMARY: "spawn: a twin of the primary",
        SPAWN_TWIN_CHALLENGER: "spawn: a twin of a challenger",
        SPAWN_PUSHED: "spawn: there is room",
        SPAWN_REPLACED: "spawn: one is replaced",
        SPAWN_FIRST: "spawn: the first of equal scores is replaced",
        SPAWN_OTHER: "spawn: one that is not the first is replaced",
        SPAWN_YOUNG: "spawn: dropped, none is old enough",
        SPAWN_PROTECTED: "spawn: dropped, one is old enough and protected",
        SPAWN_AGE_8: "spawn: one of age 8 exactly is replaced",
        STARTED_WRAPS: "spawn: the serials begin again at 0",
        PRUNE_TWIN: "prune: a twin",
        PRUNE_TWIN_PROTECTED: "prune: a twin that is protected",
        PRUNE_OUTSCORED: "prune: outscored",
        PRUNE_TWELVE: "prune: outscored by 12 exactly",
        PRUNE_AGED: "prune: aged",
        PRUNE_BOTH: "prune: outscored and aged is outscored",
        PRUNE_SEVERAL: "prune: more than one",
        PRUNE_REPLACED: "prune: one leaves where another was replaced",
        PROTECTED_SCORE: "prune: protected, 12 or more behind",
        PROTECTED_AGE: "prune: protected, of age 64 or more",
        LEADS: "choice: a lead is counted",
        LEAD_FOUR: "choice: a lead of 4.0 exactly",
        LEAD_LOST: "choice: a lead is lost",
        LEAD_FULL: "choice: a lead at its largest",
        REPORT_LOST: "choice: a lead that was reported is lost",
        VETO: "choice: the gap score says no",
        VETO_EQUAL: "choice: equal gap scores say no",
        YOUNG: "choice: too young",
        PENDING: "choice: one is pending",
        PENDING_LATER: "choice: not the first challenger",
        PENDING_FIRST: "choice: the first of equal scores",
        PENDING_LOST: "choice: one that was pending is not any more",
        GAP_OFF: "on_gap: the bank is off",
        GAP_UNREADY: "on_gap: the primary is not ready",
        GAP_PAUSE: "on_gap: a pause",
        GAP_PAUSE_HELD: "on_gap: a pause empties the held gap",
        GAP_TWELVE: "on_gap: a pause of 12 units exactly",
        GAP_CHALLENGER: "on_gap: no pause, since a challenger has the greatest unit",
        GAP_SCORED: "on_gap: scored",
        GAP_FLOOR: "on_gap: the primary's gap has the floor",
        GAP_LEARNT: "on_gap: a challenger takes it for an element gap",
        GAP_PASSED: "on_gap: a challenger does not",
        READY_OFF: "on_ready: the bank is off",
        READY_UNREADY: "on_ready: the primary is not ready",
        READY_DAHS: "on_ready: dits were assumed, the other reading is dahs",
        READY_DITS: "on_ready: dahs were assumed, the other reading is dits",
        READY_RANGE: "on_ready: the other dit leaves 20 to 150",
        READY_LONE: "on_ready: the dit rests on one mark",
        READY_FEW: "on_ready: the dit rests on one mark, fewer than 3 are given",
        READY_NONE: "on_ready: a lock with no other reading",
        READY_EMPTY: "on_ready: an empty list",
        READY_12: "on_ready: a list of 12",
        READY_PUSHED: "on_ready: the other reading comes in",
        READY_REPLACED: "on_ready: the other reading replaces one",
        CLEAR_OFF: "clear: the bank is off",
        CLEAR_SOME: "clear: challengers leave",
        CLEAR_NONE: "clear: there are none",
        CLEAR_PENDING: "clear: a choice was pending",
        SWITCH_OFF: "take_switch: the bank is off",
        SWITCH_NONE: "take_switch: nothing is pending",
        SWITCH_UNREADY: "take_switch: nothing is pending, the primary is not ready",
        SWITCHED: "take_switch: switched",
        SWITCHED_BACK: "take_switch: a former primary comes back",
        SWITCHED_RECOVERED: "take_switch: the flag of the new primary is taken",
        OBSERVED: "take_switch: noted only",
        OBSERVED_AGAIN: "take_switch: noted before",
        LOG_FULL: "take_switch: the oldest record goes",
        READ_CHALLENGER: "challenger: there is one",
        READ_NO_CHALLENGER: "challenger: there is none",
        READ_RECORD: "switch_record: there is one",
        READ_NO_RECORD: "switch_record: there is none",
        TWO_MARKS: "refused by 2: 4,294,967,295 marks",
        TWO_GAPS: "refused by 2: 4,294,967,295 gaps",
        TWO_CLEAR: "refused by 2: a clear",
        TWO_SWITCH: "refused by 2: a switch with nothing pending",
        TWO_FIRST: "refused by 2 where 4 to 7 would refuse too",
        LAST_MARK: "accepted: the last mark that is counted",
        LAST_GAP: "accepted: the last gap that is counted",
        FOUR: "refused by 4: 13 marks",
        FOUR_FIRST: "refused by 4 where 5 to 7 would refuse too",
        FIVE: "refused by 5",
        SIX: "refused by 6",
        SEVEN: "refused by 7",
        LIST_FIVE: "refused by 5: an entry of a list",
        LIST_SIX: "refused by 6: an entry of a list",
        LIST_SEVEN: "refused by 7: an entry of a list",
        LIST_FIRST: "refused: the first bad entry of a list decides",
        ONE_FIRST: "refused by 1 where 2 would refuse too",
        ONE_READING: "refused by 1: a call that only reads",
        ONE_PRIMARY: "refused by 1: the primary",
        ONE_SWITCH: "refused by 1: a choice pending and the primary not ready",
        WIDTH_0: "refused by 1: width 0",
        WIDTH_9: "refused by 1: width 9",
        WIDTH_FULL: "refused by 1: as many challengers as the width",
        WIDTH_BELOW: "sound: one challenger fewer than the width of 8",
        COUNT_LARGE: "refused by 1: the largest count of 32 bits",
        RIVAL_TRACKER: "refused by 1: a challenger's tracker",
        RIVAL_UNREADY: "refused by 1: a challenger that is not ready",
        RIVAL_LN_LO: "refused by 1: another logarithm of a dit",
        RIVAL_LN_HI: "refused by 1: another logarithm of a dah",
        RIVAL_ORIGIN: "refused by 1: an origin's number above 2",
        RIVAL_BEYOND: "sound: an origin's number above 2 beyond the count",
        PENDING_AT: "refused by 1: a pending place at the challenger count",
        PENDING_ABSENT: "sound: a place beyond the count, marked absent",
        MORE_GAPS: "refused by 1: more streak gaps than streak marks",
        STREAK_5: "refused by 1: 5 streak marks",
        STREAK_4: "sound: 4 streak marks",
        GAPS_5: "refused by 1: 5 streak gaps",
        LOG_17: "refused by 1: 17 switch records",
        SCORE_LOW: "refused by 1: a score just below -30",
        SCORE_HIGH: "refused by 1: a score just above 0",
        SCORE_NAN: "refused by 1: a score that is NaN",
        SCORE_LIMITS: "sound: scores of -30, 0 and -0",
        RIVAL_SCORE: "refused by 1: a challenger's score",
        HELD_STREAK: "refused by 1: a streak mark that 5 to 7 refuse",
        HELD_STREAK_GAP: "refused by 1: a streak gap that 5 to 7 refuse",
        HELD_GAP: "refused by 1: a held gap that 5 to 7 refuse",
        HELD_FROM: "refused by 1: the old dit of a switch record",
        HELD_TO: "refused by 1: the new dit of a switch record",
        HELD_LIMITS: "sound: held durations at their limits",
        ABSENT: "sound: numbers that no sound bank has, marked absent or beyond a count",
    }
}

use reached::*;

fn next(x: f32) -> f32 {
    f32::from_bits(x.to_bits() + 1)
}

/// Counts one call, from the bank before and after it and the primary before it.
pub fn count(before: &Bank, after: &Bank, primary: &Plain, call: &Call, answer: &Answer) {
    match call {
        Call::New(width, _) => return fresh(*width),
        Call::Set(..) | Call::SetTracker(..) | Call::Hand(_) => return,
        Call::Serial(_) | Call::Primary(_) | Call::Show => return,
        _ => {}
    }
    match answer.code {
        0 => {
            sound(before);
            accepted(before, after, primary, call, answer);
        }
        1 => unsound(before, primary, call),
        code => refused(before, call, code),
    }
}

fn fresh(width: usize) {
    NEW_0.when(width == 0);
    NEW_1.when(width == 1);
    NEW_8.when(width == 8);
    NEW_9.when(width == 9);
}

fn accepted(before: &Bank, after: &Bank, primary: &Plain, call: &Call, answer: &Answer) {
    match call {
        Call::Mark(d, live) => {
            LAST_MARK.when(before.marks_seen == 4_294_967_294);
            mark(before, after, primary, (f32::from_bits(*d), *live), answer);
        }
        Call::Gap(d) => {
            LAST_GAP.when(before.gaps_seen == 4_294_967_294);
            gap(before, after, primary, f32::from_bits(*d));
        }
        Call::Ready(marks) => ready(before, after, primary, &floats(marks)),
        Call::Clear => clear(before),
        Call::Switch => switch(before, primary, answer),
        _ => read(answer),
    }
}

fn protected(h: &Hypothesis) -> bool {
    h.origin == 2 && h.retain_marks > 0
}

/// The hypothesis with the same serial in another bank.
fn same<'a>(b: &'a Bank, h: &Hypothesis) -> Option<&'a Hypothesis> {
    held(b).iter().find(|g| g.serial == h.serial)
}

fn mark(before: &Bank, after: &Bank, primary: &Plain, heard: (f32, bool), answer: &Answer) {
    let (d, live) = heard;
    MARK_OFF.when(before.width == 1);
    MARK_UNREADY.when(before.width > 1 && !primary.pair.ready);
    if before.width == 1 || !primary.pair.ready {
        return;
    }
    MARK_LIVE.when(live);
    MARK_SILENT.when(!live);
    SILENT_GAP.when(!live && before.has_last_gap.is());
    SILENT_STREAK.when(!live && before.streak_len > 0);
    SCORE_FLOOR.when(after.primary_score == 0.9 * before.primary_score + -3.0);
    for h in held(before) {
        AGE_FULL.when(h.age_marks == u32::MAX);
        PROTECTION_FALLS.when(h.origin == 2 && h.retain_marks > 1);
        PROTECTION_ENDS.when(h.origin == 2 && h.retain_marks == 1);
        LEARNT_RECOVERED.when(live && h.tracker.badlock_recovered.is());
    }
    let rust = tracker::manta(primary);
    let candidate = live && streak(before, &rust, d);
    if candidate || !answer.left.is_empty() {
        let wide = wide(before, &rust, d, live);
        if candidate {
            four(before, after, &rust, d, &wide);
        }
        left(before, &wide, answer);
    }
    choice(before, after);
}

/// The bank as the Rust has it before it prunes, with room for everyone: no one is replaced.
fn wide(before: &Bank, primary: &SpeedTracker, d: f32, live: bool) -> TimingBank {
    let mut m = manta(before);
    (m.held, m.cfg.width) = (true, 99);
    m.on_mark(primary, d, live);
    m
}

/// The streak with this mark; whether it makes a candidate.
fn streak(before: &Bank, primary: &SpeedTracker, d: f32) -> bool {
    let side = d >= primary.boundary_ms();
    let same = before.has_side.is() && before.streak_side == Bit::from(side);
    let on = same && before.streak_len < 4;
    STREAK_EQUAL.when(d == primary.boundary_ms());
    STREAK_BEGINS.when(!before.has_side);
    STREAK_TURNS.when(before.has_side.is() && !same);
    STREAK_FULL.when(same && !on);
    STREAK_LOW.when(on && !side);
    STREAK_HIGH.when(on && side);
    STREAK_GAP.when(on && before.has_last_gap.is());
    STREAK_GAPS_4.when(on && before.has_last_gap.is() && before.streak_gaps_len == 3);
    on && before.streak_len == 3
}

/// Four marks on one side.
fn four(before: &Bank, after: &Bank, primary: &SpeedTracker, d: f32, wide: &TimingBank) {
    let mut marks = before.streak[..3].to_vec();
    marks.push(d);
    let mut gaps = before.streak_gaps[..before.streak_gaps_len].to_vec();
    gaps.extend(before.has_last_gap.is().then_some(before.last_gap));
    CANDIDATE_LOW.when(!before.streak_side);
    CANDIDATE_HIGH.when(before.streak_side.is());
    let mut c = SpeedTracker::from_marks(&marks, &gaps);
    if duplicates(ln_centroids(&c), ln_centroids(primary)) {
        match c.three_to_one_alternative() {
            Some(other) => {
                CANDIDATE_TURNED.reached();
                c = other;
            }
            None => {
                CANDIDATE_CONFIRMED.when(c.pair.confirmed);
                CANDIDATE_RANGE.when(!c.pair.confirmed);
                return;
            }
        }
    }
    spawn(before, after, primary, &c, wide);
}

fn retained(h: &TimingHypothesis) -> bool {
    matches!(h.origin, Origin::FormerPrimary { retain_marks } if retain_marks > 0)
}

/// A candidate before the bank; `wide` has its challengers as they are then.
fn spawn(before: &Bank, after: &Bank, primary: &SpeedTracker, c: &SpeedTracker, wide: &TimingBank) {
    let ln = ln_centroids(c);
    let old = &wide.challengers[..before.challengers_len];
    if duplicates(ln, ln_centroids(primary)) {
        return SPAWN_TWIN_PRIMARY.reached();
    }
    if old.iter().any(|h| duplicates(ln, (h.ln_lo, h.ln_hi))) {
        return SPAWN_TWIN_CHALLENGER.reached();
    }
    STARTED_WRAPS.when(before.started == u64::MAX && after.started == 0);
    if before.challengers_len + 1 < before.width {
        return SPAWN_PUSHED.reached();
    }
    let eligible = |h: &&TimingHypothesis| h.age_marks >= 8 && !retained(h);
    let least = |a: f32, b: f32| if b.total_cmp(&a).is_lt() { b } else { a };
    let low = old.iter().filter(eligible).map(|h| h.score).reduce(least);
    let Some(low) = low else {
        SPAWN_YOUNG.when(old.iter().all(|h| h.age_marks < 8));
        SPAWN_PROTECTED.when(old.iter().any(|h| h.age_marks >= 8));
        return;
    };
    SPAWN_REPLACED.reached();
    let at = |h: &&TimingHypothesis| h.score.to_bits() == low.to_bits();
    let victims = || old.iter().filter(eligible).filter(at);
    SPAWN_FIRST.when(victims().count() > 1);
    SPAWN_AGE_8.when(victims().next().is_some_and(|h| h.age_marks == 8));
    SPAWN_OTHER.when(victims().next().is_some_and(|h| h.name != old[0].name));
}

/// Those that left at a mark.
fn left(before: &Bank, wide: &TimingBank, answer: &Answer) {
    let gone = &answer.left;
    let pruned = gone.iter().filter(|d| d.cause != REPLACED);
    PRUNE_SEVERAL.when(pruned.clone().count() > 1);
    PRUNE_REPLACED.when(gone.len() > 1 && gone.iter().any(|d| d.cause == REPLACED));
    for d in pruned {
        let old = &wide.challengers[..before.challengers_len];
        let place = held(before).iter().position(|h| h.serial == d.serial);
        let h = &old[place.expect("one that left was there")];
        let behind = wide.primary_score - h.score;
        PRUNE_TWIN.when(d.cause == TWIN);
        PRUNE_TWIN_PROTECTED.when(d.cause == TWIN && retained(h));
        PRUNE_OUTSCORED.when(d.cause == OUTSCORED);
        PRUNE_TWELVE.when(d.cause == OUTSCORED && behind == 12.0);
        PRUNE_BOTH.when(d.cause == OUTSCORED && h.age_marks >= 64);
        PRUNE_AGED.when(d.cause == AGED);
    }
}

/// Leads, and who is pending.
fn choice(before: &Bank, after: &Bank) {
    let primary = after.primary_score;
    for h in held(after) {
        PROTECTED_SCORE.when(protected(h) && primary - h.score >= 12.0);
        PROTECTED_AGE.when(protected(h) && h.age_marks >= 64);
        LEADS.when(h.lead_marks > 0);
        LEAD_FOUR.when(h.score - primary == 4.0);
        let Some(old) = same(before, h) else { continue };
        LEAD_LOST.when(old.lead_marks > 0 && h.lead_marks == 0);
        REPORT_LOST.when(old.reported.is() && !h.reported);
        LEAD_FULL.when(old.lead_marks == u32::MAX && h.lead_marks == u32::MAX);
        let leads = h.lead_marks >= 2;
        YOUNG.when(leads && h.age_marks < 2);
        VETO.when(leads && h.age_marks >= 2 && h.gap_score < after.primary_gap_score);
        VETO_EQUAL.when(leads && h.age_marks >= 2 && h.gap_score == after.primary_gap_score);
    }
    PENDING.when(after.has_pending.is());
    PENDING_LOST.when(before.has_pending.is() && !after.has_pending);
    if after.has_pending.is() {
        let first = &after.challengers[after.pending];
        PENDING_LATER.when(after.pending > 0);
        let equal = |h: &&Hypothesis| {
            h.lead_marks >= 2
                && h.age_marks >= 2
                && h.gap_score > after.primary_gap_score
                && h.score == first.score
        };
        PENDING_FIRST.when(held(after).iter().filter(equal).count() > 1);
    }
}

fn gap(before: &Bank, after: &Bank, primary: &Plain, d: f32) {
    GAP_OFF.when(before.width == 1);
    GAP_UNREADY.when(before.width > 1 && !primary.pair.ready);
    if before.width == 1 || !primary.pair.ready {
        return;
    }
    let unit = tracker::manta(primary).dit_estimate_ms();
    let units = held(before).iter();
    let units: Vec<f32> = units
        .map(|h| tracker::manta(&h.tracker).dit_estimate_ms())
        .collect();
    let greatest = units.iter().copied().fold(unit, f32::max);
    if d >= 12.0 * greatest {
        GAP_PAUSE.reached();
        GAP_PAUSE_HELD.when(before.has_last_gap.is());
        GAP_TWELVE.when(d == 12.0 * greatest);
        return;
    }
    GAP_SCORED.reached();
    GAP_CHALLENGER.when(d >= 12.0 * unit);
    GAP_FLOOR.when(after.primary_gap_score == 0.9 * before.primary_gap_score + -3.0);
    for u in units {
        GAP_LEARNT.when(d < 2.0 * u);
        GAP_PASSED.when(d >= 2.0 * u);
    }
}

fn ready(before: &Bank, after: &Bank, primary: &Plain, marks: &[f32]) {
    READY_OFF.when(before.width == 1);
    READY_EMPTY.when(marks.is_empty());
    READY_12.when(marks.len() == 12);
    READY_UNREADY.when(!primary.pair.ready);
    if before.width == 1 {
        return;
    }
    let p = &primary.pair;
    let rust = tracker::manta(primary);
    let other = if !p.confirmed {
        let other = rust.three_to_one_alternative();
        READY_DAHS.when(other.is_some() && !p.placeholder_is_lo);
        READY_DITS.when(other.is_some() && p.placeholder_is_lo.is());
        READY_RANGE.when(p.ready.is() && other.is_none());
        other
    } else {
        READY_NONE.when(p.lo_n != 1);
        READY_FEW.when(p.lo_n == 1 && marks.len() < 3);
        let lone = p.lo_n == 1 && marks.len() >= 3;
        READY_LONE.when(lone);
        lone.then(|| SpeedTracker::from_marks(&without_least(marks), &[]))
    };
    if let Some(c) = other {
        spawn(before, after, &rust, &c, &manta(before));
        READY_PUSHED.when(after.challengers_len > before.challengers_len);
        READY_REPLACED.when(
            after.started != before.started && after.challengers_len == before.challengers_len,
        );
    }
}

/// All marks but the first least.
fn without_least(marks: &[f32]) -> Vec<f32> {
    let mut all = marks.to_vec();
    let least = all.iter().copied().fold(f32::INFINITY, f32::min);
    let at = all.iter().position(|&m| m == least).unwrap_or(0);
    all.remove(at);
    all
}

fn clear(before: &Bank) {
    let on = before.width > 1;
    CLEAR_OFF.when(!on);
    CLEAR_SOME.when(on && before.challengers_len > 0);
    CLEAR_NONE.when(on && before.challengers_len == 0);
    CLEAR_PENDING.when(on && before.has_pending.is());
}

fn switch(before: &Bank, primary: &Plain, answer: &Answer) {
    SWITCH_OFF.when(before.width == 1);
    SWITCH_NONE.when(before.width > 1 && !before.has_pending);
    SWITCH_UNREADY.when(before.width > 1 && !before.has_pending && !primary.pair.ready);
    if before.width == 1 || !before.has_pending {
        return;
    }
    let h = &before.challengers[before.pending];
    let yes = matches!(answer.told, Told::Flag(true));
    SWITCHED.when(yes);
    SWITCHED_BACK.when(yes && h.origin == 2);
    SWITCHED_RECOVERED.when(yes && h.tracker.badlock_recovered.is());
    OBSERVED.when(!yes && !h.reported);
    OBSERVED_AGAIN.when(!yes && h.reported.is());
    LOG_FULL.when(before.log_len == 16 && (yes || !h.reported));
}

fn read(answer: &Answer) {
    if let Told::Readings(r) = &answer.told {
        READ_CHALLENGER.when(r.challenger.1);
        READ_NO_CHALLENGER.when(!r.challenger.1);
        READ_RECORD.when(r.record.1);
        READ_NO_RECORD.when(!r.record.1);
    }
}

/// The numbers by which a call's durations are refused, in order.
fn bad(call: &Call) -> Vec<u8> {
    let durations = match call {
        Call::Mark(d, _) | Call::Gap(d) => vec![f32::from_bits(*d)],
        Call::Ready(marks) => floats(marks),
        _ => Vec::new(),
    };
    let refused = |d| refusals::duration(d).err();
    durations.into_iter().filter_map(refused).collect()
}

/// Which call was refused, and why, where both states are sound.
fn refused(before: &Bank, call: &Call, code: u8) {
    let bad = bad(call);
    let long = matches!(call, Call::Ready(marks) if marks.len() > 12);
    if code == 2 {
        TWO_MARKS.when(before.marks_seen == 4_294_967_295);
        TWO_GAPS.when(before.gaps_seen == 4_294_967_295);
        TWO_CLEAR.when(matches!(call, Call::Clear));
        TWO_SWITCH.when(matches!(call, Call::Switch) && !before.has_pending);
        TWO_FIRST.when(long || !bad.is_empty());
        return;
    }
    FOUR.when(code == 4);
    FOUR_FIRST.when(code == 4 && !bad.is_empty());
    let of_list = matches!(call, Call::Ready(_));
    let [five, six, seven] = match of_list {
        true => [&LIST_FIVE, &LIST_SIX, &LIST_SEVEN],
        false => [&FIVE, &SIX, &SEVEN],
    };
    five.when(code == 5);
    six.when(code == 6);
    seven.when(code == 7);
    LIST_FIRST.when(of_list && code > 4 && bad.iter().any(|&n| n != bad[0]));
}

/// Which clauses of refusal 1 hold, each at its limit.
fn unsound(b: &Bank, primary: &Plain, call: &Call) {
    ONE_FIRST.when(refusals::counts(b).is_err());
    ONE_READING.when(matches!(call, Call::Read(_)));
    if refusals::bank(b).is_ok() {
        ONE_PRIMARY.when(refusals::tracker(primary).is_err());
        ONE_SWITCH.when(refusals::tracker(primary).is_ok() && !primary.pair.ready);
        return;
    }
    WIDTH_0.when(b.width == 0);
    WIDTH_9.when(b.width == 9);
    WIDTH_FULL.when(b.challengers_len == b.width && b.width <= 8);
    STREAK_5.when(b.streak_len == 5);
    GAPS_5.when(b.streak_gaps_len == 5);
    LOG_17.when(b.log_len == 17);
    let counts = [
        b.challengers_len,
        b.streak_len,
        b.streak_gaps_len,
        b.log_len,
    ];
    COUNT_LARGE.when(counts.contains(&(u32::MAX as usize)));
    MORE_GAPS.when(b.streak_gaps_len == b.streak_len + 1);
    PENDING_AT.when(b.has_pending.is() && b.pending == b.challengers_len);
    for x in [b.primary_score, b.primary_gap_score] {
        SCORE_LOW.when(x == next(-30.0));
        SCORE_HIGH.when(x.to_bits() == 1);
        SCORE_NAN.when(x.is_nan());
    }
    for h in b.challengers.iter().take(b.challengers_len) {
        rival(h);
    }
    let bad = |list: &[f32], n: usize| list.iter().take(n).any(|&d| refusals::duration(d).is_err());
    HELD_STREAK.when(bad(&b.streak, b.streak_len));
    HELD_STREAK_GAP.when(bad(&b.streak_gaps, b.streak_gaps_len));
    HELD_GAP.when(b.has_last_gap.is() && bad(&[b.last_gap], 1));
    for r in b.log.iter().take(b.log_len) {
        HELD_FROM.when(bad(&[r.from_dit_ms], 1));
        HELD_TO.when(bad(&[r.to_dit_ms], 1));
    }
}

fn rival(h: &Hypothesis) {
    let p = &h.tracker.pair;
    RIVAL_TRACKER.when(refusals::tracker(&h.tracker).is_err());
    RIVAL_UNREADY.when(refusals::tracker(&h.tracker).is_ok() && !p.ready);
    RIVAL_LN_LO.when(log01::ln(p.lo).is_ok_and(|x| x != h.ln_lo));
    RIVAL_LN_HI.when(log01::ln(p.hi).is_ok_and(|x| x != h.ln_hi));
    RIVAL_ORIGIN.when(h.origin == 3);
    let scores = [h.score, h.gap_score];
    RIVAL_SCORE.when(scores.contains(&next(-30.0)) || scores.contains(&f32::from_bits(1)));
}

/// What is just sound, and what is no part of a bank.
fn sound(b: &Bank) {
    WIDTH_BELOW.when(b.width == 8 && b.challengers_len == 7);
    STREAK_4.when(b.streak_len == 4);
    RIVAL_BEYOND.when(
        b.challengers[b.challengers_len..]
            .iter()
            .any(|h| h.origin > 2),
    );
    PENDING_ABSENT.when(!b.has_pending && b.pending >= 8);
    let scores: Vec<f32> = held(b)
        .iter()
        .flat_map(|h| [h.score, h.gap_score])
        .collect();
    let has = |x: f32| scores.iter().any(|s| s.to_bits() == x.to_bits());
    SCORE_LIMITS.when(has(-30.0) && has(0.0) && has(-0.0));
    let limit = |d: f32| d == 1.0 / 64.0 || d == 262_144.0;
    let dits = b.log[..b.log_len]
        .iter()
        .flat_map(|r| [r.from_dit_ms, r.to_dit_ms]);
    HELD_LIMITS.when(b.has_last_gap.is() && limit(b.last_gap) || dits.into_iter().any(limit));
    ABSENT.when(
        !b.has_last_gap
            && b.last_gap.is_nan()
            && b.streak[b.streak_len..].iter().any(|m| m.is_nan()),
    );
}
