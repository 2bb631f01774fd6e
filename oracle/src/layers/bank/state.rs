//! A bank in the library's form and in manta's: from the one to the other.

use crate::hullathan::bank::{Bank, Hypothesis, Record};
use crate::hullathan::Bit;
use crate::layers::tracker;
use crate::manta::timing::bank::{Origin, SwitchRecord, TimingHypothesis};
use crate::manta::timing::{SpeedBankConfig, TimingBank};

fn origin(h: &Hypothesis) -> Origin {
    match h.origin {
        0 => Origin::Bootstrap,
        1 => Origin::Streak,
        _ => Origin::FormerPrimary {
            retain_marks: h.retain_marks,
        },
    }
}

fn hypothesis((place, h): (usize, &Hypothesis)) -> TimingHypothesis {
    TimingHypothesis {
        tracker: tracker::manta(&h.tracker),
        score: h.score,
        gap_score: h.gap_score,
        lead_marks: h.lead_marks,
        age_marks: h.age_marks,
        origin: origin(h),
        reported: h.reported.is(),
        ln_lo: h.ln_lo,
        ln_hi: h.ln_hi,
        name: Some(place),
    }
}

fn record(r: &Record) -> SwitchRecord {
    SwitchRecord {
        mark_index: r.mark_index,
        from_dit_ms: r.from_dit_ms,
        to_dit_ms: r.to_dit_ms,
        applied: r.applied.is(),
    }
}

/// The same bank in manta's struct, each challenger named by its place; it is a sound one.
pub fn manta(b: &Bank) -> TimingBank {
    let mut m = TimingBank::new(SpeedBankConfig {
        width: b.width,
        switching: b.switching.is(),
    });
    m.primary_score = b.primary_score;
    m.primary_gap_score = b.primary_gap_score;
    let challengers = &b.challengers[..b.challengers_len];
    m.challengers = challengers.iter().enumerate().map(hypothesis).collect();
    m.streak = b.streak[..b.streak_len].to_vec();
    m.streak_gaps = b.streak_gaps[..b.streak_gaps_len].to_vec();
    m.streak_side = b.has_side.is().then_some(b.streak_side.is());
    m.last_gap = b.has_last_gap.is().then_some(b.last_gap);
    m.marks_seen = b.marks_seen;
    m.gaps_seen = b.gaps_seen;
    m.pending = b.has_pending.is().then_some(b.pending);
    m.log = b.log[..b.log_len].iter().map(record).collect();
    m
}

fn plain_hypothesis(m: &TimingHypothesis, serial: u64) -> Hypothesis {
    let (origin, retain_marks) = match m.origin {
        Origin::Bootstrap => (0, 0),
        Origin::Streak => (1, 0),
        Origin::FormerPrimary { retain_marks } => (2, retain_marks),
    };
    Hypothesis {
        tracker: tracker::plain(&m.tracker),
        score: m.score,
        gap_score: m.gap_score,
        lead_marks: m.lead_marks,
        age_marks: m.age_marks,
        origin,
        retain_marks,
        reported: Bit::from(m.reported),
        ln_lo: m.ln_lo,
        ln_hi: m.ln_hi,
        serial,
        ..Hypothesis::default()
    }
}

fn plain_record(r: &SwitchRecord) -> Record {
    Record {
        mark_index: r.mark_index,
        from_dit_ms: r.from_dit_ms,
        to_dit_ms: r.to_dit_ms,
        applied: Bit::from(r.applied),
        ..Record::default()
    }
}

/// manta's bank in the library's form, with the serials and how many were started: zeros beyond a count and in place of
/// what is absent.
pub fn plain(m: &TimingBank, serials: &[u64], started: u64) -> Bank {
    assert_eq!(serials.len(), m.challengers.len());
    let mut b = Bank {
        width: m.cfg.width,
        switching: Bit::from(m.cfg.switching),
        primary_score: m.primary_score,
        primary_gap_score: m.primary_gap_score,
        challengers_len: m.challengers.len(),
        streak_len: m.streak.len(),
        streak_gaps_len: m.streak_gaps.len(),
        has_side: Bit::from(m.streak_side.is_some()),
        streak_side: Bit::from(m.streak_side == Some(true)),
        has_last_gap: Bit::from(m.last_gap.is_some()),
        last_gap: m.last_gap.unwrap_or(0.0),
        marks_seen: m.marks_seen,
        gaps_seen: m.gaps_seen,
        has_pending: Bit::from(m.pending.is_some()),
        pending: m.pending.unwrap_or(0),
        log_len: m.log.len(),
        started,
        ..Bank::default()
    };
    for (i, (h, &serial)) in m.challengers.iter().zip(serials).enumerate() {
        b.challengers[i] = plain_hypothesis(h, serial);
    }
    b.streak[..m.streak.len()].copy_from_slice(&m.streak);
    b.streak_gaps[..m.streak_gaps.len()].copy_from_slice(&m.streak_gaps);
    for (i, r) in m.log.iter().enumerate() {
        b.log[i] = plain_record(r);
    }
    b
}

/// The serials of a bank's challengers.
pub fn serials(b: &Bank) -> Vec<u64> {
    let held = b.challengers.iter().take(b.challengers_len);
    held.map(|h| h.serial).collect()
}

#[cfg(test)]
mod tests {
    use super::*;
    use crate::forms;
    use crate::layers::bank::cases::sound_bank;
    use crate::random::Random;

    /// From one form to the other and back nothing is lost: of manta's as it shows itself, of the library's byte for
    /// byte.
    #[test]
    fn there_and_back() {
        for seed in 1..300 {
            let b = sound_bank(&mut Random::new(seed));
            let m = manta(&b);
            let cut = plain(&m, &serials(&b), b.started);
            assert_eq!(format!("{:?}", manta(&cut)), format!("{m:?}"));
            let again = plain(&manta(&cut), &serials(&cut), cut.started);
            assert!(forms::identical(&again, &cut), "seed {seed}");
        }
    }
}
