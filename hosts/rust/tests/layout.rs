//! The structs lie as the library has them. Asked for its layout, the library fills each number with its place in its
//! struct, from 1, a struct or an array taking one place too; in the last element of an array each number has 100
//! more, so the element before it and it tell the stride, which is the element's size. A pad is an array of bytes.

#[allow(dead_code)]
#[path = "../src/sys.rs"]
mod sys;

// the library is linked with the crate
use hullathan as _;
use std::array::from_fn;
use sys::*;

/// The float with these bits.
fn f(bits: u32) -> f32 {
    f32::from_bits(bits)
}

/// An array of structs, the last with 100 more.
fn array<T, const N: usize>(element: fn(u8) -> T) -> [T; N] {
    from_fn(|i| element(if i + 1 == N { 100 } else { 0 }))
}

/// An array of floats at this place, the last with 100 more.
fn floats<const N: usize>(place: u32) -> [f32; N] {
    from_fn(|i| f(if i + 1 == N { place + 100 } else { place }))
}

/// A pad at this place, the last byte with 100 more.
fn pad<const N: usize>(place: u8) -> [u8; N] {
    from_fn(|i| if i + 1 == N { place + 100 } else { place })
}

fn pair() -> Pair {
    Pair {
        lo: f(1),
        hi: f(2),
        init: floats(3),
        init_len: 4,
        ready: 5,
        confirmed: 6,
        placeholder_is_lo: 7,
        pad_placeholder_is_lo: pad(8),
        lo_n: 9,
    }
}

fn ring_entry(more: u8) -> RingEntry {
    let n = u32::from(more);
    RingEntry {
        dur_ms: f(1 + n),
        assigned_dit: 2 + more,
        pad_assigned_dit: pad(3 + more),
        pre_lo: f(4 + n),
        pre_hi: f(5 + n),
    }
}

fn tracker() -> Tracker {
    Tracker {
        pair: pair(),
        ring: array(ring_entry),
        ring_len: 3,
        has_wpm: 4,
        pad_has_wpm: pad(5),
        wpm_ema: f(6),
        recent: floats(7),
        pad_recent: pad(8),
        recent_len: 9,
        has_egap: 10,
        pad_has_egap: pad(11),
        mu_egap_ms: f(12),
        has_hint: 13,
        pad_has_hint: pad(14),
        ratio_hint: f(15),
        regime: 16,
        badlock_recovered: 17,
        lo_uncorroborated: 18,
        pad_lo_uncorroborated: pad(19),
    }
}

fn switch_record(more: u8) -> SwitchRecord {
    let n = u32::from(more);
    SwitchRecord {
        mark_index: u64::from(1 + n),
        from_dit_ms: f(2 + n),
        to_dit_ms: f(3 + n),
        applied: 4 + more,
        pad_applied: pad(5 + more),
    }
}

fn hypothesis(more: u8) -> Hypothesis {
    let n = u32::from(more);
    Hypothesis {
        tracker: tracker(),
        score: f(2 + n),
        gap_score: f(3 + n),
        lead_marks: 4 + n,
        age_marks: 5 + n,
        origin: 6 + more,
        pad_origin: pad(7 + more),
        retain_marks: 8 + n,
        reported: 9 + more,
        pad_reported: pad(10 + more),
        ln_lo: f(11 + n),
        ln_hi: f(12 + n),
        pad_ln_hi: pad(13 + more),
        serial: u64::from(14 + n),
    }
}

fn bank() -> Bank {
    Bank {
        width: 1,
        switching: 2,
        pad_switching: pad(3),
        primary_score: f(4),
        primary_gap_score: f(5),
        pad_primary_gap_score: pad(6),
        challengers: array(hypothesis),
        challengers_len: 8,
        streak: floats(9),
        streak_len: 10,
        streak_gaps: floats(11),
        streak_gaps_len: 12,
        has_side: 13,
        streak_side: 14,
        has_last_gap: 15,
        pad_has_last_gap: pad(16),
        last_gap: f(17),
        marks_seen: 18,
        gaps_seen: 19,
        has_pending: 20,
        pad_has_pending: pad(21),
        pending: 22,
        log: array(switch_record),
        log_len: 24,
        started: 25,
    }
}

fn station() -> Station {
    Station {
        primary: tracker(),
        serial: 2,
        bank: bank(),
        twins: 4,
        outscored: 5,
        aged: 6,
        replaced: 7,
        cleared: 8,
        accepted: 9,
    }
}

fn departure(more: u8) -> Departure {
    Departure {
        serial: u64::from(1 + more),
        cause: 2 + more,
        pad_cause: pad(3 + more),
    }
}

fn answer(more: u8) -> Answer {
    let n = u32::from(more);
    Answer {
        code: 1 + more,
        pad_code: pad(2 + more),
        dit_ms: f(3 + n),
        dah_ms: f(4 + n),
        pad_dah_ms: pad(5 + more),
        serial: u64::from(6 + n),
        challengers: usize::from(7 + more),
        left: array(departure),
        left_len: usize::from(9 + more),
    }
}

fn event(more: u8) -> Event {
    Event {
        kind: 1 + more,
        live: 2 + more,
        pad_live: pad(3 + more),
        value: f(4 + u32::from(more)),
    }
}

fn rival(more: u8) -> Rival {
    let n = u32::from(more);
    Rival {
        serial: u64::from(1 + n),
        dit_ms: f(2 + n),
        dah_ms: f(3 + n),
        score: f(4 + n),
        gap_score: f(5 + n),
    }
}

fn reading() -> Reading {
    Reading {
        code: 1,
        ready: 2,
        has_wpm: 3,
        switching: 4,
        pad_switching: pad(5),
        width: 6,
        dit_ms: f(7),
        dah_ms: f(8),
        dit_estimate_ms: f(9),
        wpm: f(10),
        score: f(11),
        gap_score: f(12),
        serial: 13,
        accepted: 14,
        marks: 15,
        gaps: 16,
        started: 17,
        twins: 18,
        outscored: 19,
        aged: 20,
        replaced: 21,
        cleared: 22,
        challengers: 23,
        rivals: array(rival),
        log_len: 25,
        log: array(switch_record),
    }
}

fn class_stats() -> ClassStats {
    ClassStats {
        mean: f(1),
        var: f(2),
        n: 3,
    }
}

#[test]
fn of_a_station() {
    assert_eq!(layout::hullathan_layout_station(), station());
}

#[test]
fn of_an_answer() {
    assert_eq!(layout::hullathan_layout_answer(), answer(0));
}

#[test]
fn of_a_batch() {
    let expected = Batch {
        len: 1,
        events: array(event),
        answers: array(answer),
    };
    assert_eq!(layout::hullathan_layout_batch(), expected);
}

#[test]
fn of_a_reading() {
    assert_eq!(layout::hullathan_layout_reading(), reading());
}

#[test]
fn of_a_sender() {
    let expected = Sender {
        dot: class_stats(),
        dash: class_stats(),
        element_gap: class_stats(),
        char_gap: class_stats(),
        word_gap: class_stats(),
    };
    assert_eq!(layout::hullathan_layout_sender(), expected);
}

#[test]
fn of_a_senders_reading() {
    let expected = SenderReading {
        code: 1,
        has_ratio: 2,
        has_word: 3,
        pad_has_word: pad(4),
        dit_ms: f(5),
        ratio: f(6),
        word_dits: f(7),
        dot: class_stats(),
        dash: class_stats(),
        element_gap: class_stats(),
        char_gap: class_stats(),
        word_gap: class_stats(),
    };
    assert_eq!(layout::hullathan_layout_sender_reading(), expected);
}
