//! The bank of rivals, as C has it: numbers in place of enums.

use super::tracker::SpeedTracker;
use super::Bit;

/// One challenger; where it came from: 0 the bootstrap, 1 a streak, 2 a former primary.
#[repr(C)]
#[derive(Debug, Clone, Copy, Default)]
pub struct Hypothesis {
    pub tracker: SpeedTracker,
    pub score: f32,
    pub gap_score: f32,
    pub lead_marks: u32,
    pub age_marks: u32,
    pub origin: u8,
    pub pad_origin: [u8; 3],
    pub retain_marks: u32,
    pub reported: Bit,
    pub pad_reported: [u8; 3],
    pub ln_lo: f32,
    pub ln_hi: f32,
    pub pad_ln_hi: [u8; 4],
    pub serial: u64,
}

/// A switch that was made, or would have been.
#[repr(C)]
#[derive(Debug, Clone, Copy, Default)]
pub struct Record {
    pub mark_index: u64,
    pub from_dit_ms: f32,
    pub to_dit_ms: f32,
    pub applied: Bit,
    pub pad_applied: [u8; 7],
}

#[repr(C)]
#[derive(Debug, Clone, Copy, Default)]
pub struct Bank {
    pub width: usize,
    pub switching: Bit,
    pub pad_switching: [u8; 3],
    pub primary_score: f32,
    pub primary_gap_score: f32,
    pub pad_primary_gap_score: [u8; 4],
    pub challengers: [Hypothesis; 8],
    pub challengers_len: usize,
    pub streak: [f32; 4],
    pub streak_len: usize,
    pub streak_gaps: [f32; 4],
    pub streak_gaps_len: usize,
    pub has_side: Bit,
    pub streak_side: Bit,
    pub has_last_gap: Bit,
    pub pad_has_last_gap: [u8; 1],
    pub last_gap: f32,
    pub marks_seen: u64,
    pub gaps_seen: u64,
    pub has_pending: Bit,
    pub pad_has_pending: [u8; 7],
    pub pending: usize,
    pub log: [Record; 16],
    pub log_len: usize,
    pub started: u64,
}

/// One that left; why: 0 twin, 1 outscored, 2 aged, 3 replaced, 4 cleared.
#[repr(C)]
#[derive(Debug, Clone, Copy, Default, PartialEq)]
pub struct Departure {
    pub serial: u64,
    pub cause: u8,
    pub pad_cause: [u8; 7],
}

/// The most that leave in one call.
pub const LEFT: usize = 7;

#[repr(C)]
#[derive(Debug, Clone, Copy)]
pub struct Answered {
    pub code: u8,
    pub bank: Bank,
    pub left: [Departure; LEFT],
    pub left_len: usize,
}

#[repr(C)]
#[derive(Debug, Clone, Copy)]
pub struct Heard {
    pub code: u8,
    pub bank: Bank,
}

#[repr(C)]
#[derive(Debug, Clone, Copy)]
pub struct Switched {
    pub code: u8,
    pub yes: bool,
    pub bank: Bank,
    pub primary: SpeedTracker,
    pub serial: u64,
}

#[repr(C)]
#[derive(Debug, Clone, Copy)]
pub struct Tally {
    pub code: u8,
    pub value: u64,
}

#[repr(C)]
#[derive(Debug, Clone, Copy)]
pub struct Challenger {
    pub code: u8,
    pub has: bool,
    pub challenger: Hypothesis,
}

#[repr(C)]
#[derive(Debug, Clone, Copy)]
pub struct Logged {
    pub code: u8,
    pub has: bool,
    pub record: Record,
}

/// The answer of a switch call but for the primary, which is found in the tracker that was lent.
#[repr(C)]
#[derive(Debug, Clone, Copy)]
pub struct Lent {
    pub code: u8,
    pub yes: bool,
    pub bank: Bank,
    pub serial: u64,
}

/// A bank after an inner call, and those that left it.
#[repr(C)]
#[derive(Debug, Clone, Copy)]
pub struct Changed {
    pub bank: Bank,
    pub left: [Departure; LEFT],
    pub left_len: usize,
}

/// A bank and a primary after an inner switch call.
#[repr(C)]
#[derive(Debug, Clone, Copy)]
pub struct Taken {
    pub bank: Bank,
    pub primary: SpeedTracker,
    pub serial: u64,
    pub switched: bool,
}

mod c {
    use super::*;

    extern "C" {
        pub fn hullathan_bank_new(width: usize, switching: bool) -> Heard;
        pub fn hullathan_bank_hypotheses(b: Bank) -> Tally;
        pub fn hullathan_bank_marks_seen(b: Bank) -> Tally;
        pub fn hullathan_bank_gaps_seen(b: Bank) -> Tally;
        pub fn hullathan_bank_challenger(b: Bank, i: usize) -> Challenger;
        pub fn hullathan_bank_switch_record(b: Bank, i: usize) -> Logged;
        pub fn hullathan_bank_clear(b: Bank) -> Answered;
        pub fn hullathan_bank_on_ready(
            b: Bank,
            p: SpeedTracker,
            marks: *const f32,
            count: usize,
        ) -> Answered;
        pub fn hullathan_bank_on_gap(b: Bank, p: SpeedTracker, dur_ms: f32) -> Heard;
        pub fn hullathan_bank_on_mark(
            b: Bank,
            p: SpeedTracker,
            dur_ms: f32,
            live: bool,
        ) -> Answered;
        pub fn hullathan_bank_take_switch_by_value(
            b: Bank,
            p: SpeedTracker,
            serial: u64,
        ) -> Switched;
        pub fn hullathan_bank_take_switch_lent(b: Bank, p: *mut SpeedTracker, serial: u64) -> Lent;
        pub fn hullathan_inner_bank_on_gap(b: Bank, p: SpeedTracker, dur_ms: f32) -> Bank;
        pub fn hullathan_inner_bank_on_mark(
            b: Bank,
            p: SpeedTracker,
            dur_ms: f32,
            live: bool,
        ) -> Changed;
        pub fn hullathan_inner_bank_take_switch(b: Bank, p: SpeedTracker, serial: u64) -> Taken;
        pub fn hullathan_inner_bank_same(b: Bank) -> Bank;
    }
}

// Safety of each public call: the library is proved to take every number, and reads and writes of what is lent to it only the list's
// entries and the tracker.

pub fn new(width: usize, switching: bool) -> Heard {
    unsafe { c::hullathan_bank_new(width, switching) }
}

pub fn hypotheses(b: Bank) -> Tally {
    unsafe { c::hullathan_bank_hypotheses(b) }
}

pub fn marks_seen(b: Bank) -> Tally {
    unsafe { c::hullathan_bank_marks_seen(b) }
}

pub fn gaps_seen(b: Bank) -> Tally {
    unsafe { c::hullathan_bank_gaps_seen(b) }
}

pub fn challenger(b: Bank, i: usize) -> Challenger {
    unsafe { c::hullathan_bank_challenger(b, i) }
}

pub fn switch_record(b: Bank, i: usize) -> Logged {
    unsafe { c::hullathan_bank_switch_record(b, i) }
}

pub fn clear(b: Bank) -> Answered {
    unsafe { c::hullathan_bank_clear(b) }
}

pub fn on_ready(b: Bank, p: SpeedTracker, marks: &[f32]) -> Answered {
    unsafe { c::hullathan_bank_on_ready(b, p, marks.as_ptr(), marks.len()) }
}

pub fn on_gap(b: Bank, p: SpeedTracker, dur_ms: f32) -> Heard {
    unsafe { c::hullathan_bank_on_gap(b, p, dur_ms) }
}

pub fn on_mark(b: Bank, p: SpeedTracker, dur_ms: f32, live: bool) -> Answered {
    unsafe { c::hullathan_bank_on_mark(b, p, dur_ms, live) }
}

pub fn take_switch(b: Bank, p: SpeedTracker, serial: u64) -> Switched {
    unsafe { c::hullathan_bank_take_switch_by_value(b, p, serial) }
}

/// The switch call with the primary lent.
pub fn take_switch_lent(b: Bank, p: &mut SpeedTracker, serial: u64) -> Lent {
    unsafe { c::hullathan_bank_take_switch_lent(b, p, serial) }
}

/// The bank as it was handed in, over the library's own form.
pub fn same(b: Bank) -> Bank {
    unsafe { c::hullathan_inner_bank_same(b) }
}

/// A gap, a mark and a switch call with no test of the bank, the primary or the duration.
///
/// # Safety
///
/// Bank and primary are what the library handed back, and the duration lies from 1/64 to 262,144.
pub unsafe fn inner_on_gap(b: Bank, p: SpeedTracker, dur_ms: f32) -> Bank {
    c::hullathan_inner_bank_on_gap(b, p, dur_ms)
}

/// # Safety
///
/// As of `inner_on_gap`.
pub unsafe fn inner_on_mark(b: Bank, p: SpeedTracker, dur_ms: f32, live: bool) -> Changed {
    c::hullathan_inner_bank_on_mark(b, p, dur_ms, live)
}

/// # Safety
///
/// As of `inner_on_gap`; and where a choice is pending the primary is ready.
pub unsafe fn inner_take_switch(b: Bank, p: SpeedTracker, serial: u64) -> Taken {
    c::hullathan_inner_bank_take_switch(b, p, serial)
}

#[cfg(test)]
mod tests {
    use super::*;
    use std::mem::{offset_of, size_of};

    /// The structs lie as C lays them: the library reads and writes them so.
    #[test]
    fn layout() {
        assert_eq!(
            (size_of::<Hypothesis>(), offset_of!(Hypothesis, serial)),
            (392, 384)
        );
        assert_eq!(
            (
                offset_of!(Hypothesis, origin),
                offset_of!(Hypothesis, retain_marks),
                offset_of!(Hypothesis, ln_hi)
            ),
            (360, 364, 376)
        );
        assert_eq!((size_of::<Record>(), offset_of!(Record, applied)), (24, 16));
        assert_eq!(
            (
                offset_of!(Bank, challengers),
                offset_of!(Bank, challengers_len)
            ),
            (24, 3160)
        );
        assert_eq!((size_of::<Bank>(), offset_of!(Bank, log)), (3656, 3256));
        assert_eq!(size_of::<Departure>(), 16);
        assert_eq!(
            (size_of::<Answered>(), offset_of!(Answered, left)),
            (3784, 3664)
        );
    }

    /// Every part of a bank comes back from the place where it was put; what lies beyond a count comes back empty.
    #[test]
    fn every_part_arrives() {
        let mut b = Bank {
            width: 7,
            switching: Bit::YES,
            primary_score: -1.0,
            primary_gap_score: -2.0,
            streak_len: 4,
            streak_gaps_len: 4,
            has_side: Bit::YES,
            has_last_gap: Bit::YES,
            last_gap: 9.0,
            marks_seen: 1 << 40,
            gaps_seen: 1 << 41,
            has_pending: Bit::YES,
            pending: 5,
            log_len: 16,
            started: 1 << 42,
            challengers_len: 8,
            ..Bank::default()
        };
        for (i, h) in b.challengers.iter_mut().enumerate() {
            h.origin = (i % 3) as u8;
            h.retain_marks = if h.origin == 2 { 24 - i as u32 } else { 0 };
            h.serial = 100 + i as u64;
            h.score = -(i as f32);
            h.tracker.recent[4] = i as f32;
            h.tracker.recent_len = 5;
        }
        for (i, r) in b.log.iter_mut().enumerate() {
            r.to_dit_ms = i as f32;
            r.applied = Bit::from(i % 2 == 0);
        }
        b.streak = [1.0, 2.0, 3.0, 4.0];
        b.streak_gaps = [5.0, 6.0, 7.0, 8.0];
        let shown = |b: &Bank| format!("{b:?}");
        assert_eq!(shown(&b), shown(&same(b)));
        (b.challengers_len, b.log_len) = (6, 11);
        (b.streak_len, b.streak_gaps_len) = (3, 2);
        b.challengers[5].tracker.recent_len = 4;
        let mut cut = b;
        cut.streak[3] = 0.0;
        cut.streak_gaps[2..].fill(0.0);
        cut.challengers[5].tracker.recent[4] = 0.0;
        cut.challengers[6..].fill(Hypothesis::default());
        cut.log[11..].fill(Record::default());
        assert_eq!(shown(&cut), shown(&same(b)));
    }
}
