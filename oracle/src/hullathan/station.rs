//! The station in the host's own memory, as `tools/archive hullathan` has it for C and Rust: an event by its kind, 0 mark, 1 gap, 2 finish,
//! 3 seed, 4 hint, 5 clear, 6 switch. A code is one byte: 0 done, 1 became ready, 2 switched, 3 nothing to do; refused: 128 and the number.

use super::bank::{Bank, Departure, Record, LEFT};
use super::tracker::SpeedTracker;
use super::Bit;

#[repr(C)]
#[derive(Debug, Clone, Copy, Default)]
pub struct Station {
    pub primary: SpeedTracker,
    pub serial: u64,
    pub bank: Bank,
    /// How many left, by the number of the cause.
    pub counts: [u64; 5],
    pub accepted: u64,
}

/// What a call answers: the dit, the dah, the primary's serial and the challengers are those after it.
#[repr(C)]
#[derive(Debug, Clone, Copy, Default)]
pub struct Answer {
    pub code: u8,
    pub pad_code: [u8; 3],
    pub dit_ms: f32,
    pub dah_ms: f32,
    pub pad_dah_ms: [u8; 4],
    pub serial: u64,
    pub challengers: usize,
    pub left: [Departure; LEFT],
    pub left_len: usize,
}

/// An event: `live`, of a mark, is 0 for no, and any other byte is yes.
#[repr(C)]
#[derive(Debug, Clone, Copy, Default)]
pub struct Event {
    pub kind: u8,
    pub live: u8,
    pub pad_live: [u8; 2],
    pub value: f32,
}

/// The most events of one batch.
pub const MOST: usize = 64;

#[repr(C)]
#[derive(Debug, Clone, Copy)]
pub struct Batch {
    pub len: usize,
    pub events: [Event; MOST],
    pub answers: [Answer; MOST],
}

#[repr(C)]
#[derive(Debug, Clone, Copy, Default)]
pub struct Rival {
    pub serial: u64,
    pub dit_ms: f32,
    pub dah_ms: f32,
    pub score: f32,
    pub gap_score: f32,
}

/// What a display and a log need.
#[repr(C)]
#[derive(Debug, Clone, Copy, Default)]
pub struct Reading {
    pub code: u8,
    pub ready: Bit,
    pub has_wpm: Bit,
    pub switching: Bit,
    pub pad_switching: [u8; 4],
    pub width: usize,
    pub dit_ms: f32,
    pub dah_ms: f32,
    pub dit_estimate_ms: f32,
    pub wpm: f32,
    pub score: f32,
    pub gap_score: f32,
    pub serial: u64,
    pub accepted: u64,
    pub marks: u64,
    pub gaps: u64,
    pub started: u64,
    pub counts: [u64; 5],
    pub challengers: usize,
    pub rivals: [Rival; 8],
    /// The switches, the oldest first.
    pub log_len: usize,
    pub log: [Record; 16],
}

// Two of each are the same where every byte of every field is.
macro_rules! same_by_bytes {
    ($($form:ty),*) => {
        $(impl PartialEq for $form {
            fn eq(&self, other: &$form) -> bool {
                crate::forms::identical(self, other)
            }
        })*
    };
}

same_by_bytes!(Answer, Event, Rival, Reading);

mod c {
    use super::*;

    extern "C" {
        pub fn hullathan_start(s: *mut Station, width: usize, switching: u8) -> u8;
        pub fn hullathan_call(s: *mut Station, kind: u8, live: u8, value: f32) -> Answer;
        pub fn hullathan_run(s: *mut Station, b: *mut Batch) -> u8;
        pub fn hullathan_read(s: *const Station) -> Reading;
    }
}

// Safety of each: the library is proved to take whatever stands in the station and the batch, and to touch nothing else.

pub fn start(s: &mut Station, width: usize, switching: u8) -> u8 {
    unsafe { c::hullathan_start(s, width, switching) }
}

pub fn call(s: &mut Station, kind: u8, live: u8, value: f32) -> Answer {
    unsafe { c::hullathan_call(s, kind, live, value) }
}

pub fn run(s: &mut Station, b: &mut Batch) -> u8 {
    unsafe { c::hullathan_run(s, b) }
}

pub fn read(s: &Station) -> Reading {
    unsafe { c::hullathan_read(s) }
}

/// A fresh station; of width 1 where the width is above 8.
pub fn fresh(width: usize, switching: bool) -> Station {
    let mut s = Station::default();
    start(&mut s, width, u8::from(switching));
    s
}

impl Batch {
    pub fn new() -> Batch {
        Batch {
            len: 0,
            events: [Event::default(); MOST],
            answers: [Answer::default(); MOST],
        }
    }
}

impl Default for Batch {
    fn default() -> Batch {
        Batch::new()
    }
}

#[cfg(test)]
mod tests {
    use super::*;
    use std::mem::{offset_of, size_of};

    /// The structs lie as C lays them: the library reads and writes them so.
    #[test]
    fn layout() {
        let tracker = size_of::<SpeedTracker>();
        assert_eq!(offset_of!(Station, serial), tracker);
        assert_eq!(offset_of!(Station, bank), tracker + 8);
        assert_eq!(offset_of!(Station, counts), tracker + 8 + 3656);
        assert_eq!(size_of::<Station>(), tracker + 8 + 3656 + 48);
        assert_eq!((size_of::<Answer>(), offset_of!(Answer, left)), (152, 32));
        assert_eq!((size_of::<Event>(), offset_of!(Event, value)), (8, 4));
        assert_eq!(offset_of!(Batch, answers), 8 + 64 * 8);
        assert_eq!((size_of::<Rival>(), offset_of!(Rival, gap_score)), (24, 20));
        assert_eq!(offset_of!(Reading, width), 8);
        assert_eq!(offset_of!(Reading, serial), 40);
        assert_eq!(offset_of!(Reading, rivals), 40 + 11 * 8);
    }

    mod c {
        use super::*;

        extern "C" {
            pub fn hullathan_layout_station() -> Station;
            pub fn hullathan_layout_answer() -> Answer;
            pub fn hullathan_layout_batch() -> Batch;
            pub fn hullathan_layout_reading() -> Reading;
        }
    }

    /// Each number of the library's own structs stands where it is looked for here: it holds its place, and the last of a list 100 more.
    #[test]
    fn every_part_arrives() {
        let s = unsafe { c::hullathan_layout_station() };
        assert_eq!((s.serial, s.counts, s.accepted), (2, [4, 5, 6, 7, 8], 9));
        let (p, b) = (&s.primary, &s.bank);
        assert_eq!((p.pair.hi.to_bits(), p.pair.lo_n), (2, 9));
        assert_eq!(
            (p.pair.init[0].to_bits(), p.pair.init[11].to_bits()),
            (3, 103)
        );
        assert_eq!(p.pair.pad_placeholder_is_lo, [8, 8, 8, 8, 108]);
        assert_eq!(
            (p.ring[0].assigned_dit, p.ring[11].assigned_dit),
            (Bit(2), Bit(102))
        );
        assert_eq!((p.has_wpm, p.lo_uncorroborated), (Bit(4), Bit(18)));
        assert_eq!(p.pad_lo_uncorroborated, [19, 119]);
        assert_eq!(
            (b.switching, b.has_pending, b.started),
            (Bit(2), Bit(20), 25)
        );
        let (first, last) = (&b.challengers[0], &b.challengers[7]);
        assert_eq!((first.origin, first.serial), (6, 14));
        assert_eq!(
            (last.reported, last.serial, last.tracker.regime),
            (Bit(109), 114, 16)
        );
        assert_eq!((b.log[0].applied, b.log[15].applied), (Bit(4), Bit(104)));
        let a = unsafe { c::hullathan_layout_answer() };
        assert_eq!((a.code, a.dah_ms.to_bits(), a.serial), (1, 4, 6));
        assert_eq!(
            (a.left[6].serial, a.left[6].cause, a.left_len),
            (101, 102, 9)
        );
        let q = unsafe { c::hullathan_layout_batch() };
        assert_eq!((q.len, q.events[0].live, q.events[63].kind), (1, 2, 101));
        assert_eq!((q.answers[0].code, q.answers[63].left_len), (1, 109));
        let r = unsafe { c::hullathan_layout_reading() };
        assert_eq!((r.code, r.switching, r.wpm.to_bits()), (1, Bit(4), 10));
        assert_eq!(
            (r.serial, r.counts, r.challengers),
            (13, [18, 19, 20, 21, 22], 23)
        );
        assert_eq!(
            (r.rivals[0].serial, r.rivals[7].gap_score.to_bits()),
            (1, 105)
        );
        assert_eq!((r.log_len, r.log[15].applied), (25, Bit(104)));
    }
}
