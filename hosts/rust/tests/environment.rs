//! The floating-point environment: what happens where it is not the default one, and that under a guard all is as in
//! that one.

use hullathan::environment::{is_default, Guard};
use hullathan::{Event, Station};
use std::arch::asm;
use std::os::unix::process::ExitStatusExt;
use std::process::Command;

// MXCSR: the three other roundings, both treatments of subnormals, and masks of exceptions that are taken away.
const DEFAULT: u32 = 0x1F80;
const DOWN: u32 = 0x3F80;
const UP: u32 = 0x5F80;
const TO_ZERO: u32 = 0x7F80;
const FLUSHED: u32 = 0x9F80;
const NO_SUBNORMALS: u32 = 0x1FC0;
const NO_INEXACT: u32 = 0x0F80;
const NONE_MASKED: u32 = 0x0000;
const ALL: [u32; 9] = [
    DEFAULT,
    DOWN,
    UP,
    TO_ZERO,
    FLUSHED,
    NO_SUBNORMALS,
    0xFFC0,
    NO_INEXACT,
    NONE_MASKED,
];

const SIGFPE: i32 = 8;

/// A station hears a watch with the register as given: it is set, the watch called and the register restored in one
/// step, so that no float of Rust's own is reckoned in between. What the register was after the watch is said.
fn within(mxcsr: u32, watch: extern "C" fn(&mut Station), station: &mut Station) -> u32 {
    let (set, default, mut after) = (mxcsr, DEFAULT, 0_u32);
    unsafe {
        asm!(
            "ldmxcsr [r12]",
            "call r13",
            "stmxcsr [r14]",
            "ldmxcsr [r15]",
            in("r12") &raw const set,
            in("r13") watch,
            in("r14") &raw mut after,
            in("r15") &raw const default,
            in("rdi") station,
            clobber_abi("C"),
        );
    }
    after
}

fn fresh() -> Station {
    Station::start(8, true).expect("a width of 8 is not refused")
}

/// Marks of 50 and 150 ms, then 53: the dit moves by 0.15 times 3, which no float is.
extern "C" fn keyed(station: &mut Station) {
    for ms in [50.0, 150.0, 50.0, 50.0, 151.0, 53.0, 160.0] {
        let _ = station.call(Event::Mark { ms, live: true });
    }
}

/// One gap that does not fit and many that do: the score goes towards 0 until it is subnormal.
extern "C" fn fitting(station: &mut Station) {
    let _ = station.call(Event::Seed { wpm: 24.0 });
    let _ = station.call(Event::Gap { ms: 60.0 });
    for _ in 0..1200 {
        let _ = station.call(Event::Gap { ms: 50.0 });
    }
}

/// A mark that is NaN.
extern "C" fn nan_mark(station: &mut Station) {
    let _ = station.call(Event::Mark {
        ms: f32::NAN,
        live: true,
    });
}

extern "C" fn keyed_guarded(station: &mut Station) {
    let _default = Guard::set();
    keyed(station);
}

extern "C" fn fitting_guarded(station: &mut Station) {
    let _default = Guard::set();
    fitting(station);
}

extern "C" fn nan_mark_guarded(station: &mut Station) {
    let _default = Guard::set();
    nan_mark(station);
}

/// The bytes of a fresh station after a watch.
fn bytes(mxcsr: u32, watch: extern "C" fn(&mut Station)) -> Vec<u8> {
    let mut station = fresh();
    within(mxcsr, watch, &mut station);
    station.as_bytes().to_vec()
}

fn dit(mxcsr: u32) -> u32 {
    let mut station = fresh();
    within(mxcsr, keyed, &mut station);
    station.read().dit_ms.to_bits()
}

/// 50.45 with other last bits.
#[test]
fn another_rounding() {
    assert_eq!(dit(DEFAULT), 0x4249_CCCD);
    assert_eq!(dit(DOWN), 0x4249_CCCC);
    assert_eq!(dit(TO_ZERO), 0x4249_CCCC);
    assert_ne!(bytes(UP, keyed), bytes(DEFAULT, keyed));
}

#[test]
fn subnormals_as_zeros() {
    let score = |mxcsr| {
        let mut station = fresh();
        within(mxcsr, fitting, &mut station);
        station.read().score
    };
    assert!(score(DEFAULT).is_subnormal());
    assert_eq!((score(FLUSHED), score(NO_SUBNORMALS)), (0.0, 0.0));
}

#[test]
fn under_a_guard() {
    for mxcsr in ALL {
        assert_eq!(
            bytes(mxcsr, keyed_guarded),
            bytes(DEFAULT, keyed),
            "{mxcsr:x}"
        );
        assert_eq!(
            bytes(mxcsr, fitting_guarded),
            bytes(DEFAULT, fitting),
            "{mxcsr:x}"
        );
        assert_eq!(
            bytes(mxcsr, nan_mark_guarded),
            bytes(DEFAULT, nan_mark),
            "{mxcsr:x}"
        );
        // restored, what was raised before among it, and nothing else
        let raised = mxcsr | 0x04;
        assert_eq!(within(raised, keyed_guarded, &mut fresh()), raised);
    }
}

/// Clears only where the environment is the default one.
extern "C" fn clear_if_default(station: &mut Station) {
    if is_default() {
        let _ = station.call(Event::Clear);
    }
}

/// The control bits are looked at, and not what was raised.
#[test]
fn the_default_one() {
    assert!(is_default());
    for bit in 0..16 {
        let mut station = fresh();
        within(DEFAULT ^ 1 << bit, clear_if_default, &mut station);
        assert_eq!(station.read().accepted == 1, bit < 6, "bit {bit}");
    }
    assert!(is_default());
}

/// Run by `unmasked`, in a process of its own.
#[test]
#[ignore = "it may end by a signal"]
fn in_a_child() {
    let named = |name| std::env::var(name).unwrap_or_default();
    let mxcsr = named("HULLATHAN_MXCSR")
        .parse()
        .expect("`unmasked` sets it");
    let watch = match named("HULLATHAN_WATCH").as_str() {
        "keyed" => keyed,
        "keyed guarded" => keyed_guarded,
        "nan" => nan_mark,
        _ => nan_mark_guarded,
    };
    within(mxcsr, watch, &mut fresh());
}

/// The signal that ends a watch with the register as given.
fn signal(mxcsr: u32, watch: &str) -> Option<i32> {
    let status = Command::new(std::env::current_exe().expect("a test has a file"))
        .args([
            "--exact",
            "in_a_child",
            "--ignored",
            "--test-threads=1",
            "--quiet",
        ])
        .env("HULLATHAN_MXCSR", mxcsr.to_string())
        .env("HULLATHAN_WATCH", watch)
        .output()
        .expect("a test can be run again")
        .status;
    assert!(status.success() || status.signal().is_some(), "{status}");
    status.signal()
}

/// Exceptions that are not masked: a signal in an ordinary watch and at a NaN, and none under a guard.
#[test]
fn unmasked() {
    assert_eq!(signal(DEFAULT, "keyed"), None);
    assert_eq!(signal(NO_INEXACT, "keyed"), Some(SIGFPE));
    assert_eq!(signal(NONE_MASKED, "nan"), Some(SIGFPE));
    for mxcsr in [NO_INEXACT, NONE_MASKED] {
        assert_eq!(signal(mxcsr, "keyed guarded"), None);
        assert_eq!(signal(mxcsr, "nan guarded"), None);
    }
}
