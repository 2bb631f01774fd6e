//! The proved library, as `tools/archive exports` and, of the station, `tools/archive hullathan` write it. Each function takes plain numbers,
//! answers 0 or the number of a refusal, and leaves its result behind the reference; after a refusal what stood there is untouched.

pub mod bank;
pub mod station;

use std::ops::Not;

/// A flag as a byte, 0 or 1; in a bank's or a station's memory another byte may stand there, which no flag has.
#[repr(transparent)]
#[derive(Debug, Clone, Copy, Default, PartialEq)]
pub struct Bit(pub u8);

impl Bit {
    pub const NO: Bit = Bit(0);
    pub const YES: Bit = Bit(1);

    /// Whether it says yes.
    pub fn is(self) -> bool {
        self.0 == 1
    }

    /// Whether it is a flag's.
    pub fn is_flag(self) -> bool {
        self.0 <= 1
    }
}

impl From<bool> for Bit {
    fn from(on: bool) -> Bit {
        Bit(u8::from(on))
    }
}

impl Not for Bit {
    type Output = bool;

    fn not(self) -> bool {
        !self.is()
    }
}

pub mod numbers {
    mod c {
        extern "C" {
            pub fn hullathan_ln(v: f32, out: &mut f32) -> u8;
            pub fn hullathan_sqrt32(v: f32, out: &mut f32) -> u8;
            pub fn hullathan_sqrt64(v: f64, out: &mut f64) -> u8;
            pub fn hullathan_narrow(v: f64, out: &mut f32) -> u8;
            pub fn hullathan_clamp32(v: f32, lo: f32, hi: f32, out: &mut f32) -> u8;
            pub fn hullathan_max32(a: f32, b: f32, out: &mut f32) -> u8;
            pub fn hullathan_abs32(v: f32, out: &mut f32) -> u8;
            pub fn hullathan_abs64(v: f64, out: &mut f64) -> u8;
            pub fn hullathan_is_finite32(v: f32, out: &mut bool) -> u8;
            pub fn hullathan_negative32(v: f32, out: &mut bool) -> u8;
            pub fn hullathan_root32(v: f32, out: &mut f32) -> u8;
            pub fn hullathan_root64(v: f64, out: &mut f64) -> u8;
            pub fn hullathan_below_root(x: f32, v: f32, out: &mut bool) -> u8;
            pub fn hullathan_total_less32(a: f32, b: f32, out: &mut bool) -> u8;
        }
    }

    // Safety of each: the library is proved to take every number, and to touch nothing but what `out` refers to.

    pub fn ln(v: f32, out: &mut f32) -> u8 {
        unsafe { c::hullathan_ln(v, out) }
    }

    pub fn sqrt32(v: f32, out: &mut f32) -> u8 {
        unsafe { c::hullathan_sqrt32(v, out) }
    }

    pub fn sqrt64(v: f64, out: &mut f64) -> u8 {
        unsafe { c::hullathan_sqrt64(v, out) }
    }

    pub fn narrow(v: f64, out: &mut f32) -> u8 {
        unsafe { c::hullathan_narrow(v, out) }
    }

    pub fn clamp32(v: f32, lo: f32, hi: f32, out: &mut f32) -> u8 {
        unsafe { c::hullathan_clamp32(v, lo, hi, out) }
    }

    pub fn max32(a: f32, b: f32, out: &mut f32) -> u8 {
        unsafe { c::hullathan_max32(a, b, out) }
    }

    pub fn abs32(v: f32, out: &mut f32) -> u8 {
        unsafe { c::hullathan_abs32(v, out) }
    }

    pub fn abs64(v: f64, out: &mut f64) -> u8 {
        unsafe { c::hullathan_abs64(v, out) }
    }

    pub fn is_finite32(v: f32, out: &mut bool) -> u8 {
        unsafe { c::hullathan_is_finite32(v, out) }
    }

    pub fn total_less32(a: f32, b: f32, out: &mut bool) -> u8 {
        unsafe { c::hullathan_total_less32(a, b, out) }
    }

    pub fn negative32(v: f32, out: &mut bool) -> u8 {
        unsafe { c::hullathan_negative32(v, out) }
    }

    pub fn root32(v: f32, out: &mut f32) -> u8 {
        unsafe { c::hullathan_root32(v, out) }
    }

    pub fn root64(v: f64, out: &mut f64) -> u8 {
        unsafe { c::hullathan_root64(v, out) }
    }

    pub fn below_root(x: f32, v: f32, out: &mut bool) -> u8 {
        unsafe { c::hullathan_below_root(x, v, out) }
    }
}

/// A sender's statistics, as C has them.
pub mod sender {
    /// One class: its average and variance in dits, which mean nothing while n is 0.
    #[repr(C)]
    #[derive(Debug, Clone, Copy, Default)]
    pub struct ClassStats {
        pub mean: f32,
        pub var: f32,
        pub n: u32,
    }

    /// The five classes, by their numbers.
    #[repr(C)]
    #[derive(Debug, Clone, Copy, Default)]
    pub struct SenderTiming {
        pub stats: [ClassStats; 5],
    }

    #[repr(C)]
    #[derive(Debug, Clone, Copy)]
    pub struct Observed {
        pub code: u8,
        pub timing: SenderTiming,
    }

    #[repr(C)]
    #[derive(Debug, Clone, Copy)]
    pub struct Number {
        pub code: u8,
        pub has: bool,
        pub value: f32,
    }

    #[repr(C)]
    #[derive(Debug, Clone, Copy)]
    pub struct Flag {
        pub code: u8,
        pub yes: bool,
    }

    #[repr(C)]
    #[derive(Debug, Clone, Copy)]
    pub struct Report {
        pub code: u8,
        pub dit_ms: f32,
        pub classes: SenderTiming,
    }

    mod c {
        use super::*;

        extern "C" {
            pub fn hullathan_sender_new() -> SenderTiming;
            pub fn hullathan_sender_observe_by_value(
                t: SenderTiming,
                class: u8,
                dur_ms: f32,
                dit_ms: f32,
            ) -> Observed;
            pub fn hullathan_sender_mean_dits(t: SenderTiming, class: u8) -> Number;
            pub fn hullathan_sender_dash_dot_ratio(t: SenderTiming) -> Number;
            pub fn hullathan_sender_word_dits(t: SenderTiming) -> Number;
            pub fn hullathan_sender_is_pause_by_value(t: SenderTiming, dits: f32) -> Flag;
            pub fn hullathan_sender_estimates(t: SenderTiming, dit_ms: f32) -> Report;
        }
    }

    // Safety of each: the library is proved to take every number, and nothing is lent to it.

    pub fn new() -> SenderTiming {
        unsafe { c::hullathan_sender_new() }
    }

    pub fn observe(t: SenderTiming, class: u8, dur_ms: f32, dit_ms: f32) -> Observed {
        unsafe { c::hullathan_sender_observe_by_value(t, class, dur_ms, dit_ms) }
    }

    pub fn mean_dits(t: SenderTiming, class: u8) -> Number {
        unsafe { c::hullathan_sender_mean_dits(t, class) }
    }

    pub fn dash_dot_ratio(t: SenderTiming) -> Number {
        unsafe { c::hullathan_sender_dash_dot_ratio(t) }
    }

    pub fn word_dits(t: SenderTiming) -> Number {
        unsafe { c::hullathan_sender_word_dits(t) }
    }

    pub fn is_pause(t: SenderTiming, dits: f32) -> Flag {
        unsafe { c::hullathan_sender_is_pause_by_value(t, dits) }
    }

    pub fn estimates(t: SenderTiming, dit_ms: f32) -> Report {
        unsafe { c::hullathan_sender_estimates(t, dit_ms) }
    }

    #[cfg(test)]
    mod tests {
        use super::*;
        use std::mem::{offset_of, size_of};

        /// The structs lie as C lays them: the library reads and writes them so.
        #[test]
        fn layout() {
            assert_eq!(size_of::<ClassStats>(), 12);
            assert_eq!(
                (offset_of!(ClassStats, var), offset_of!(ClassStats, n)),
                (4, 8)
            );
            assert_eq!(size_of::<SenderTiming>(), 60);
            assert_eq!(
                (size_of::<Observed>(), offset_of!(Observed, timing)),
                (64, 4)
            );
            assert_eq!((size_of::<Number>(), offset_of!(Number, value)), (8, 4));
            assert_eq!((size_of::<Flag>(), offset_of!(Flag, yes)), (2, 1));
            assert_eq!((size_of::<Report>(), offset_of!(Report, classes)), (68, 8));
        }

        /// Each number comes back from the place where it was put.
        #[test]
        fn every_part_arrives() {
            let mut t = new();
            for (i, c) in t.stats.iter_mut().enumerate() {
                let k = i as u32;
                *c = ClassStats {
                    mean: 1.0 + k as f32,
                    var: 10.0 + k as f32,
                    n: 100 + k,
                };
            }
            let r = estimates(t, 55.0);
            assert_eq!((r.code, r.dit_ms), (0, 55.0));
            for (k, (a, b)) in t.stats.iter().zip(&r.classes.stats).enumerate() {
                assert_eq!((a.mean, a.var, a.n), (b.mean, b.var, b.n));
                let m = mean_dits(t, k as u8);
                assert_eq!((m.code, m.has, m.value), (0, true, a.mean));
            }
            assert_eq!(mean_dits(t, 5).code, 255);
            let r = observe(t, 9, 60.0, 60.0);
            assert_eq!((r.code, r.timing.stats[4].n), (255, 104));
        }
    }
}

/// The speed tracker, as C has it. What stands in a pad is no part of a tracker; one by value has nothing there.
pub mod tracker {
    use super::Bit;

    /// One mark of the ring.
    #[repr(C)]
    #[derive(Debug, Clone, Copy, Default)]
    pub struct RingEntry {
        pub dur_ms: f32,
        pub assigned_dit: Bit,
        pub pad_assigned_dit: [u8; 3],
        pub pre_lo: f32,
        pub pre_hi: f32,
    }

    #[repr(C)]
    #[derive(Debug, Clone, Copy, Default)]
    pub struct ClusterPair {
        pub lo: f32,
        pub hi: f32,
        pub init: [f32; 12],
        pub init_len: usize,
        pub ready: Bit,
        pub confirmed: Bit,
        pub placeholder_is_lo: Bit,
        pub pad_placeholder_is_lo: [u8; 5],
        pub lo_n: usize,
    }

    #[repr(C)]
    #[derive(Debug, Clone, Copy, Default)]
    pub struct SpeedTracker {
        pub pair: ClusterPair,
        pub ring: [RingEntry; 12],
        pub ring_len: usize,
        pub has_wpm: Bit,
        pub pad_has_wpm: [u8; 3],
        pub wpm_ema: f32,
        pub recent: [f32; 5],
        pub pad_recent: [u8; 4],
        pub recent_len: usize,
        pub has_egap: Bit,
        pub pad_has_egap: [u8; 3],
        pub mu_egap_ms: f32,
        pub has_hint: Bit,
        pub pad_has_hint: [u8; 3],
        pub ratio_hint: f32,
        pub regime: u32,
        pub badlock_recovered: Bit,
        pub lo_uncorroborated: Bit,
        pub pad_lo_uncorroborated: [u8; 2],
    }

    #[repr(C)]
    #[derive(Debug, Clone, Copy)]
    pub struct Told {
        pub code: u8,
        pub tracker: SpeedTracker,
    }

    #[repr(C)]
    #[derive(Debug, Clone, Copy)]
    pub struct Flagged {
        pub code: u8,
        pub yes: bool,
        pub tracker: SpeedTracker,
    }

    #[repr(C)]
    #[derive(Debug, Clone, Copy)]
    pub struct Number {
        pub code: u8,
        pub has: bool,
        pub value: f32,
    }

    #[repr(C)]
    #[derive(Debug, Clone, Copy)]
    pub struct Flag {
        pub code: u8,
        pub yes: bool,
    }

    #[repr(C)]
    #[derive(Debug, Clone, Copy)]
    pub struct Count {
        pub code: u8,
        pub value: u32,
    }

    mod c {
        use super::*;

        extern "C" {
            pub fn hullathan_tracker_new() -> SpeedTracker;
            pub fn hullathan_tracker_ready(t: SpeedTracker) -> Flag;
            pub fn hullathan_tracker_mu_dit_ms(t: SpeedTracker) -> Number;
            pub fn hullathan_tracker_mu_dah_ms(t: SpeedTracker) -> Number;
            pub fn hullathan_tracker_boundary_ms(t: SpeedTracker) -> Number;
            pub fn hullathan_tracker_wpm(t: SpeedTracker) -> Number;
            pub fn hullathan_tracker_regime(t: SpeedTracker) -> Count;
            pub fn hullathan_tracker_mu_egap_ms(t: SpeedTracker) -> Number;
            pub fn hullathan_tracker_dit_estimate_ms(t: SpeedTracker) -> Number;
            pub fn hullathan_tracker_set_ratio_hint(t: SpeedTracker, hint: f32) -> Told;
            pub fn hullathan_tracker_on_element_gap(t: SpeedTracker, dur_ms: f32) -> Told;
            pub fn hullathan_tracker_take_badlock_recovered(t: SpeedTracker) -> Flagged;
            pub fn hullathan_tracker_bootstrap(t: SpeedTracker) -> Flagged;
            pub fn hullathan_tracker_seed_wpm(t: SpeedTracker, wpm: f32) -> Told;
            pub fn hullathan_tracker_on_mark(t: SpeedTracker, dur_ms: f32) -> Told;
            pub fn hullathan_tracker_reseed_wpm_after_warmup(t: SpeedTracker) -> Told;
            pub fn hullathan_tracker_resolve_unimodal_bootstrap(
                t: SpeedTracker,
                gaps_ms: *const f32,
                count: usize,
            ) -> Flagged;
            pub fn hullathan_inner_tracker_on_mark(t: SpeedTracker, dur_ms: f32) -> SpeedTracker;
            pub fn hullathan_inner_tracker_same(t: SpeedTracker, dur_ms: f32) -> SpeedTracker;
        }
    }

    // Safety of each: the library is proved to take every number, and reads of what is lent to it only the list's entries.

    pub fn new() -> SpeedTracker {
        unsafe { c::hullathan_tracker_new() }
    }

    pub fn ready(t: SpeedTracker) -> Flag {
        unsafe { c::hullathan_tracker_ready(t) }
    }

    pub fn mu_dit_ms(t: SpeedTracker) -> Number {
        unsafe { c::hullathan_tracker_mu_dit_ms(t) }
    }

    pub fn mu_dah_ms(t: SpeedTracker) -> Number {
        unsafe { c::hullathan_tracker_mu_dah_ms(t) }
    }

    pub fn boundary_ms(t: SpeedTracker) -> Number {
        unsafe { c::hullathan_tracker_boundary_ms(t) }
    }

    pub fn wpm(t: SpeedTracker) -> Number {
        unsafe { c::hullathan_tracker_wpm(t) }
    }

    pub fn regime(t: SpeedTracker) -> Count {
        unsafe { c::hullathan_tracker_regime(t) }
    }

    pub fn mu_egap_ms(t: SpeedTracker) -> Number {
        unsafe { c::hullathan_tracker_mu_egap_ms(t) }
    }

    pub fn dit_estimate_ms(t: SpeedTracker) -> Number {
        unsafe { c::hullathan_tracker_dit_estimate_ms(t) }
    }

    pub fn set_ratio_hint(t: SpeedTracker, hint: f32) -> Told {
        unsafe { c::hullathan_tracker_set_ratio_hint(t, hint) }
    }

    pub fn on_element_gap(t: SpeedTracker, dur_ms: f32) -> Told {
        unsafe { c::hullathan_tracker_on_element_gap(t, dur_ms) }
    }

    pub fn take_badlock_recovered(t: SpeedTracker) -> Flagged {
        unsafe { c::hullathan_tracker_take_badlock_recovered(t) }
    }

    pub fn bootstrap(t: SpeedTracker) -> Flagged {
        unsafe { c::hullathan_tracker_bootstrap(t) }
    }

    pub fn seed_wpm(t: SpeedTracker, wpm: f32) -> Told {
        unsafe { c::hullathan_tracker_seed_wpm(t, wpm) }
    }

    pub fn on_mark(t: SpeedTracker, dur_ms: f32) -> Told {
        unsafe { c::hullathan_tracker_on_mark(t, dur_ms) }
    }

    pub fn reseed_wpm_after_warmup(t: SpeedTracker) -> Told {
        unsafe { c::hullathan_tracker_reseed_wpm_after_warmup(t) }
    }

    pub fn resolve_unimodal_bootstrap(t: SpeedTracker, gaps_ms: &[f32]) -> Flagged {
        unsafe {
            c::hullathan_tracker_resolve_unimodal_bootstrap(t, gaps_ms.as_ptr(), gaps_ms.len())
        }
    }

    /// The tracker as it was handed in.
    pub fn same(t: SpeedTracker, dur_ms: f32) -> SpeedTracker {
        unsafe { c::hullathan_inner_tracker_same(t, dur_ms) }
    }

    /// One mark, with no test of the tracker or the mark.
    ///
    /// # Safety
    ///
    /// The tracker is one that the library handed back, and the mark lies from 1/64 to 262,144.
    pub unsafe fn inner_on_mark(t: SpeedTracker, dur_ms: f32) -> SpeedTracker {
        c::hullathan_inner_tracker_on_mark(t, dur_ms)
    }

    #[cfg(test)]
    mod tests {
        use super::*;
        use std::mem::{offset_of, size_of};

        /// The structs lie as C lays them: the library reads and writes them so.
        #[test]
        fn layout() {
            assert_eq!(
                (size_of::<RingEntry>(), offset_of!(RingEntry, pre_hi)),
                (16, 12)
            );
            assert_eq!(
                (size_of::<ClusterPair>(), offset_of!(ClusterPair, lo_n)),
                (80, 72)
            );
            assert_eq!(offset_of!(ClusterPair, init_len), 56);
            assert_eq!(
                (
                    size_of::<SpeedTracker>(),
                    offset_of!(SpeedTracker, ring_len)
                ),
                (344, 272)
            );
            assert_eq!(offset_of!(SpeedTracker, wpm_ema), 284);
            assert_eq!(offset_of!(SpeedTracker, recent_len), 312);
            assert_eq!(offset_of!(SpeedTracker, ratio_hint), 332);
            assert_eq!(offset_of!(SpeedTracker, lo_uncorroborated), 341);
            assert_eq!((size_of::<Told>(), offset_of!(Told, tracker)), (352, 8));
            assert_eq!(
                (size_of::<Flagged>(), offset_of!(Flagged, tracker)),
                (352, 8)
            );
        }

        /// Document 01's settled examples, through the library.
        #[test]
        fn settled_examples() {
            let after = |marks: &[f32]| {
                let t = marks.iter().fold(new(), |t, &m| {
                    let r = on_mark(t, m);
                    assert_eq!(r.code, 0);
                    r.tracker
                });
                (mu_dit_ms(t).value, mu_dah_ms(t).value)
            };
            assert_eq!(after(&[60.0; 5]), (60.0, 180.0));
            assert_eq!(after(&[50.0, 50.0, 150.0, 150.0, 50.0]), (50.0, 150.0));
            assert_eq!(after(&[50.0, 100.0, 100.0, 100.0, 100.0]), (50.0, 150.0));
            assert_eq!(after(&[1000.0; 5]), (150.0, 450.0));
            assert_eq!(
                after(&[300.0, 300.0, 300.0, 300.0, 300.0, 50.0]),
                (50.0, 300.0)
            );
            assert_eq!(
                after(&[50.0, 50.0, 200.0, 200.0, 200.0, 100.0]),
                (50.0, 185.0)
            );
        }
    }
}
