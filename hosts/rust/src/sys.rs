//! The library as C links it: the one place with unsafe code, and the place where the proof ends.
//!
//! What lies behind these functions is proved for every input: whatever bytes a struct has, whatever number an event
//! has, a call returns, reads and writes nothing but what it was lent, and does its work or refuses. That the
//! declarations here are those of the library is not proved: version and sizes are compared before the first call
//! ([`check`]), and `tests/layout.rs` asks the library for the place of each field.
//!
//! Every field is a whole number or a float, so there are no bytes that a struct cannot have. A flag is a byte 0 or
//! 1. A pad is zeros.

use std::arch::asm;
use std::error::Error;
use std::fmt;
use std::sync::atomic::{AtomicBool, Ordering};

/// Structs of the library. That every byte of each belongs to a field is asserted.
macro_rules! plain {
    ($($(#[$about:meta])* pub struct $name:ident { $(pub $field:ident: $type:ty,)* })*) => {$(
        $(#[$about])*
        #[repr(C)]
        #[derive(Clone, Copy, Debug, PartialEq)]
        pub struct $name { $(pub $field: $type,)* }

        const _: () = assert!(size_of::<$name>() == 0 $(+ size_of::<$type>())*);
    )*};
}

plain! {
    /// Two centroids, and the marks that they start from.
    pub struct Pair {
        pub lo: f32,
        pub hi: f32,
        pub init: [f32; 12],
        pub init_len: usize,
        pub ready: u8,
        pub confirmed: u8,
        pub placeholder_is_lo: u8,
        pub pad_placeholder_is_lo: [u8; 5],
        pub lo_n: usize,
    }

    /// A mark that a tracker heard, and the centroids before it.
    pub struct RingEntry {
        pub dur_ms: f32,
        pub assigned_dit: u8,
        pub pad_assigned_dit: [u8; 3],
        pub pre_lo: f32,
        pub pre_hi: f32,
    }

    /// A reading of the sender: its dit, dah and speed.
    pub struct Tracker {
        pub pair: Pair,
        pub ring: [RingEntry; 12],
        pub ring_len: usize,
        pub has_wpm: u8,
        pub pad_has_wpm: [u8; 3],
        pub wpm_ema: f32,
        pub recent: [f32; 5],
        pub pad_recent: [u8; 4],
        pub recent_len: usize,
        pub has_egap: u8,
        pub pad_has_egap: [u8; 3],
        pub mu_egap_ms: f32,
        pub has_hint: u8,
        pub pad_has_hint: [u8; 3],
        pub ratio_hint: f32,
        pub regime: u32,
        pub badlock_recovered: u8,
        pub lo_uncorroborated: u8,
        pub pad_lo_uncorroborated: [u8; 2],
    }

    /// A switch that was made, or would have been.
    pub struct SwitchRecord {
        pub mark_index: u64,
        pub from_dit_ms: f32,
        pub to_dit_ms: f32,
        pub applied: u8,
        pub pad_applied: [u8; 7],
    }

    /// One challenger. Its origin: 0 the bootstrap, 1 a streak, 2 a former primary, with so many marks of protection
    /// left.
    pub struct Hypothesis {
        pub tracker: Tracker,
        pub score: f32,
        pub gap_score: f32,
        pub lead_marks: u32,
        pub age_marks: u32,
        pub origin: u8,
        pub pad_origin: [u8; 3],
        pub retain_marks: u32,
        pub reported: u8,
        pub pad_reported: [u8; 3],
        pub ln_lo: f32,
        pub ln_hi: f32,
        pub pad_ln_hi: [u8; 4],
        pub serial: u64,
    }

    /// The challengers, and what is heard for the next one.
    pub struct Bank {
        pub width: usize,
        pub switching: u8,
        pub pad_switching: [u8; 3],
        pub primary_score: f32,
        pub primary_gap_score: f32,
        pub pad_primary_gap_score: [u8; 4],
        pub challengers: [Hypothesis; 8],
        pub challengers_len: usize,
        pub streak: [f32; 4],
        pub streak_len: usize,
        pub streak_gaps: [f32; 4],
        pub streak_gaps_len: usize,
        pub has_side: u8,
        pub streak_side: u8,
        pub has_last_gap: u8,
        pub pad_has_last_gap: [u8; 1],
        pub last_gap: f32,
        pub marks_seen: u64,
        pub gaps_seen: u64,
        pub has_pending: u8,
        pub pad_has_pending: [u8; 7],
        pub pending: usize,
        pub log: [SwitchRecord; 16],
        pub log_len: usize,
        pub started: u64,
    }

    /// A station: the primary, its bank, and the books.
    pub struct Station {
        pub primary: Tracker,
        pub serial: u64,
        pub bank: Bank,
        pub twins: u64,
        pub outscored: u64,
        pub aged: u64,
        pub replaced: u64,
        pub cleared: u64,
        pub accepted: u64,
    }

    /// One that left. Its cause: 0 twin, 1 outscored, 2 aged, 3 replaced, 4 cleared.
    #[derive(Default)]
    pub struct Departure {
        pub serial: u64,
        pub cause: u8,
        pub pad_cause: [u8; 7],
    }

    /// What a call says. Its code: 0 done, 1 became ready, 2 switched, 3 nothing to do, 128 + n refused by n.
    #[derive(Default)]
    pub struct Answer {
        pub code: u8,
        pub pad_code: [u8; 3],
        pub dit_ms: f32,
        pub dah_ms: f32,
        pub pad_dah_ms: [u8; 4],
        pub serial: u64,
        pub challengers: usize,
        pub left: [Departure; 7],
        pub left_len: usize,
    }

    /// One event. Its kind: 0 mark, 1 gap, 2 finish, 3 seed, 4 hint, 5 clear, 6 switch.
    #[derive(Default)]
    pub struct Event {
        pub kind: u8,
        pub live: u8,
        pub pad_live: [u8; 2],
        pub value: f32,
    }

    /// Up to 64 events, and their answers.
    pub struct Batch {
        pub len: usize,
        pub events: [Event; 64],
        pub answers: [Answer; 64],
    }

    /// What is shown of one challenger.
    pub struct Rival {
        pub serial: u64,
        pub dit_ms: f32,
        pub dah_ms: f32,
        pub score: f32,
        pub gap_score: f32,
    }

    /// What is shown of a station. Its code: 0, or 128 + 1 where it is unsound.
    pub struct Reading {
        pub code: u8,
        pub ready: u8,
        pub has_wpm: u8,
        pub switching: u8,
        pub pad_switching: [u8; 4],
        pub width: usize,
        pub dit_ms: f32,
        pub dah_ms: f32,
        pub dit_estimate_ms: f32,
        pub wpm: f32,
        pub score: f32,
        pub gap_score: f32,
        pub serial: u64,
        pub accepted: u64,
        pub marks: u64,
        pub gaps: u64,
        pub started: u64,
        pub twins: u64,
        pub outscored: u64,
        pub aged: u64,
        pub replaced: u64,
        pub cleared: u64,
        pub challengers: usize,
        pub rivals: [Rival; 8],
        pub log_len: usize,
        pub log: [SwitchRecord; 16],
    }

    /// What is known of one class of lengths, in dits.
    pub struct ClassStats {
        pub mean: f32,
        pub var: f32,
        pub n: u32,
    }

    /// A sender's statistics.
    pub struct Sender {
        pub dot: ClassStats,
        pub dash: ClassStats,
        pub element_gap: ClassStats,
        pub char_gap: ClassStats,
        pub word_gap: ClassStats,
    }

    /// What is shown of a sender. Its code: 0, or 128 + 1 where it is unsound.
    pub struct SenderReading {
        pub code: u8,
        pub has_ratio: u8,
        pub has_word: u8,
        pub pad_has_word: [u8; 1],
        pub dit_ms: f32,
        pub ratio: f32,
        pub word_dits: f32,
        pub dot: ClassStats,
        pub dash: ClassStats,
        pub element_gap: ClassStats,
        pub char_gap: ClassStats,
        pub word_gap: ClassStats,
    }
}

/// The memory of a struct, as bytes: whoever holds them may read and write each.
#[repr(C, align(8))]
#[derive(Clone)]
pub struct Memory<const N: usize>(pub [u8; N]);

pub type StationMemory = Memory<{ size_of::<Station>() }>;
pub type BankMemory = Memory<{ size_of::<Bank>() }>;
pub type TrackerMemory = Memory<{ size_of::<Tracker>() }>;
pub type SenderMemory = Memory<{ size_of::<Sender>() }>;

const _: () = assert!(align_of::<Memory<1>>() == align_of::<Station>());

mod linked {
    use super::*;

    unsafe extern "C" {
        pub safe fn hullathan_version() -> u32;
        pub safe fn hullathan_size(what: u8) -> usize;
        pub fn hullathan_start(s: *mut Station, width: usize, switching: u8) -> u8;
        pub fn hullathan_call(s: *mut Station, kind: u8, live: u8, value: f32) -> Answer;
        pub fn hullathan_run(s: *mut Station, b: *mut Batch) -> u8;
        pub fn hullathan_read(s: *const Station) -> Reading;
        pub fn hullathan_bank_take_switch(
            b: *mut Bank,
            primary: *mut Tracker,
            serial: *mut u64,
        ) -> u8;
        pub fn hullathan_sender_start(t: *mut Sender);
        pub fn hullathan_sender_observe(
            t: *mut Sender,
            timing_class: u8,
            dur_ms: f32,
            dit_ms: f32,
        ) -> u8;
        pub fn hullathan_sender_read(t: *const Sender, dit_ms: f32) -> SenderReading;
        pub fn hullathan_sender_is_pause(t: *const Sender, gap_dits: f32) -> u8;
    }
}

/// A version of the library, and the sizes of its structs by their numbers.
#[derive(Clone, Copy, Debug, PartialEq, Eq)]
pub struct Interface {
    pub version: u32,
    pub sizes: [usize; 9],
}

/// The version that the crate is written for.
pub const VERSION: u32 = 2;

/// What is declared here.
pub const DECLARED: Interface = Interface {
    version: VERSION,
    sizes: [
        size_of::<Station>(),
        size_of::<Answer>(),
        size_of::<Event>(),
        size_of::<Batch>(),
        size_of::<Reading>(),
        size_of::<Bank>(),
        size_of::<Tracker>(),
        size_of::<Sender>(),
        size_of::<SenderReading>(),
    ],
};

/// The structs by their numbers.
const SIZED: [&str; 9] = [
    "station",
    "answer",
    "event",
    "batch",
    "reading",
    "bank",
    "tracker",
    "sender",
    "sender's reading",
];

/// The archive that was linked is none that this crate can call: it has another version, or a struct of another size.
#[derive(Clone, Copy, Debug, PartialEq, Eq)]
pub struct Mismatch {
    declared: u32,
    linked: u32,
    /// The first struct that has another size: its name, its size here and in the archive.
    size: Option<(&'static str, usize, usize)>,
}

impl Mismatch {
    /// The version that the crate is written for.
    #[must_use]
    pub const fn declared(&self) -> u32 {
        self.declared
    }

    /// The version of the archive.
    #[must_use]
    pub const fn linked(&self) -> u32 {
        self.linked
    }
}

impl fmt::Display for Mismatch {
    fn fmt(&self, f: &mut fmt::Formatter<'_>) -> fmt::Result {
        let Mismatch {
            declared,
            linked,
            size,
        } = self;
        write!(
            f,
            "the crate hullathan is for version {declared} of its library, "
        )?;
        write!(f, "and libhullathan.a has version {linked}")?;
        if let Some((name, ours, theirs)) = size {
            write!(f, ", where a {name} has {theirs} bytes and not {ours}")?;
        }
        Ok(())
    }
}

impl Error for Mismatch {}

/// Whether what is linked is what is declared.
pub fn compare(declared: Interface, linked: Interface) -> Result<(), Mismatch> {
    if declared == linked {
        return Ok(());
    }
    let sizes = declared.sizes.into_iter().zip(linked.sizes);
    let mut differing = SIZED
        .into_iter()
        .zip(sizes)
        .filter(|(_, (ours, theirs))| ours != theirs);
    Err(Mismatch {
        declared: declared.version,
        linked: linked.version,
        size: differing
            .next()
            .map(|(name, (ours, theirs))| (name, ours, theirs)),
    })
}

/// Whether the archive that was linked is one that this crate can call.
///
/// # Errors
/// [`Mismatch`], where it has another version, or structs of other sizes.
pub fn check() -> Result<(), Mismatch> {
    let mut sizes = [0; 9];
    for (what, size) in (0..).zip(&mut sizes) {
        *size = linked::hullathan_size(what);
    }
    let version = linked::hullathan_version();
    compare(DECLARED, Interface { version, sizes })
}

/// Stands before every call below: with another archive it would write where there is no room.
#[inline]
fn checked() {
    static FITS: AtomicBool = AtomicBool::new(false);
    if !FITS.load(Ordering::Relaxed) {
        if let Err(mismatch) = check() {
            panic!("{mismatch}");
        }
        FITS.store(true, Ordering::Relaxed);
    }
}

// Safety of each: the memory has the struct's size and alignment and is lent for the call; the library takes every
// byte in it and keeps no pointer; and the archive is the one that is declared.

/// A fresh station in the memory, whatever stood there.
pub fn start(s: &mut StationMemory, width: usize, switching: bool) -> u8 {
    checked();
    unsafe { linked::hullathan_start((&raw mut *s).cast(), width, switching.into()) }
}

/// One event.
#[inline]
pub fn call(s: &mut StationMemory, e: Event) -> Answer {
    checked();
    unsafe { linked::hullathan_call((&raw mut *s).cast(), e.kind, e.live, e.value) }
}

/// The first `len` events of the batch, one after the other.
pub fn run(s: &mut StationMemory, b: &mut Batch) -> u8 {
    checked();
    unsafe { linked::hullathan_run((&raw mut *s).cast(), b) }
}

/// What a display and a log need.
pub fn read(s: &StationMemory) -> Reading {
    checked();
    unsafe { linked::hullathan_read((&raw const *s).cast()) }
}

/// The switch of a bank, with the primary and its serial lent.
pub fn take_switch(b: &mut BankMemory, primary: &mut TrackerMemory, serial: &mut u64) -> u8 {
    checked();
    unsafe {
        linked::hullathan_bank_take_switch((&raw mut *b).cast(), (&raw mut *primary).cast(), serial)
    }
}

/// A sender with no observations in the memory, whatever stood there.
pub fn sender_start(t: &mut SenderMemory) {
    checked();
    unsafe { linked::hullathan_sender_start((&raw mut *t).cast()) }
}

/// One length of a class.
pub fn sender_observe(t: &mut SenderMemory, timing_class: u8, dur_ms: f32, dit_ms: f32) -> u8 {
    checked();
    unsafe { linked::hullathan_sender_observe((&raw mut *t).cast(), timing_class, dur_ms, dit_ms) }
}

/// What a display and a decoder need of a sender.
pub fn sender_read(t: &SenderMemory, dit_ms: f32) -> SenderReading {
    checked();
    unsafe { linked::hullathan_sender_read((&raw const *t).cast(), dit_ms) }
}

/// Whether a gap is a pause.
pub fn sender_is_pause(t: &SenderMemory, gap_dits: f32) -> u8 {
    checked();
    unsafe { linked::hullathan_sender_is_pause((&raw const *t).cast(), gap_dits) }
}

/// MXCSR at the start of a program.
pub const MXCSR_DEFAULT: u32 = 0x1F80;

/// The control and status register of this thread's floats.
pub fn mxcsr() -> u32 {
    let mut mxcsr = 0_u32;
    // writes four bytes to the place that it is handed
    unsafe { asm!("stmxcsr [{}]", in(reg) &raw mut mxcsr, options(nostack, preserves_flags)) };
    mxcsr
}

/// Makes the register the default one, and hands back what it was.
pub fn enter_default() -> u32 {
    let (saved, default) = (mxcsr(), MXCSR_DEFAULT);
    // the default is what Rust itself expects
    unsafe { asm!("ldmxcsr [{}]", in(reg) &raw const default, options(nostack, preserves_flags)) };
    saved
}

/// Makes the register what `enter_default` handed back.
pub fn leave_default(saved: u32) {
    // a value that the register had: what this thread was called with
    unsafe { asm!("ldmxcsr [{}]", in(reg) &raw const saved, options(nostack, preserves_flags)) };
}

/// Structs in which each number is its place: for `tests/layout.rs`, which takes this file as a module of its own.
#[allow(dead_code)]
pub mod layout {
    use super::{Answer, Batch, Reading, Sender, SenderReading, Station};

    unsafe extern "C" {
        pub safe fn hullathan_layout_station() -> Station;
        pub safe fn hullathan_layout_answer() -> Answer;
        pub safe fn hullathan_layout_batch() -> Batch;
        pub safe fn hullathan_layout_reading() -> Reading;
        pub safe fn hullathan_layout_sender() -> Sender;
        pub safe fn hullathan_layout_sender_reading() -> SenderReading;
    }
}
