//! manta's timing.rs and bank.rs, as build.rs wrote them: changed as `substitutions.rs` says, and in nothing else.

include!(concat!(env!("OUT_DIR"), "/manta.rs"));

#[cfg(test)]
mod tests {
    use super::timing::bank::Origin;
    use super::timing::{SenderTiming, SpeedBankConfig, SpeedTracker, TimingBank, TimingClass};
    use crate::log01::ln;

    fn after(marks: &[f32]) -> (f32, f32) {
        let mut t = SpeedTracker::new();
        for &m in marks {
            t.on_mark(m);
        }
        assert!(t.pair.ready);
        (t.pair.lo, t.pair.hi)
    }

    /// Document 01's settled examples of the tracker: the Rust that is built here gives them.
    #[test]
    fn settled_examples() {
        assert_eq!(after(&[60.0; 5]), (60.0, 180.0));
        assert_eq!(after(&[50.0, 50.0, 150.0, 150.0, 50.0]), (50.0, 150.0));
        assert_eq!(after(&[50.0, 100.0, 100.0, 100.0, 100.0]), (50.0, 150.0));
        assert_eq!(after(&[150.0; 5]), (150.0, 450.0));
        assert_eq!(after(&[300.0; 5]), (100.0, 300.0));
        assert_eq!(after(&[1000.0; 5]), (150.0, 450.0));
        assert_eq!(after(&[60.0, 60.0, 60.0, 60.0, 60.0, 120.0]), (60.0, 180.0));
        assert_eq!(after(&[60.0, 60.0, 60.0, 60.0, 60.0, 150.0]), (60.0, 150.0));
        assert_eq!(
            after(&[300.0, 300.0, 300.0, 300.0, 300.0, 50.0]),
            (50.0, 300.0)
        );
        assert_eq!(
            after(&[50.0, 50.0, 200.0, 200.0, 200.0, 100.0]),
            (50.0, 185.0)
        );
    }

    /// Every part of a state can be read, and each call that a comparison makes can be made.
    #[test]
    fn all_is_open() {
        let mut t = SpeedTracker::new();
        t.on_mark(60.0);
        assert_eq!((t.pair.init.len(), t.recent.len(), t.ring.len()), (1, 1, 0));
        assert_eq!(
            (t.pair.lo_n, t.pair.confirmed, t.pair.placeholder_is_lo),
            (0, false, false)
        );
        assert_eq!((t.pair.unimodal_ceiling, t.wpm_ema), (Some(150.0), None));
        assert_eq!((t.mu_egap_ms, t.ratio_hint, t.regime), (None, None, 0));
        assert_eq!((t.badlock_recovered, t.lo_uncorroborated), (false, false));
        t.reseed_wpm_after_warmup();
        assert!(!t.resolve_unimodal_bootstrap(&[20.0]));
        let rival = SpeedTracker::from_marks(&[60.0, 60.0], &[]);
        assert_eq!(
            rival.three_to_one_alternative().map(|a| a.pair.lo),
            Some(20.0)
        );

        let mut b = TimingBank::new(SpeedBankConfig {
            width: 2,
            switching: true,
        });
        b.on_ready(&rival, &[60.0, 60.0]);
        let c = &b.challengers[0];
        assert_eq!((c.origin, c.tracker.pair.hi), (Origin::Bootstrap, 60.0));
        assert_eq!(
            (c.score, c.gap_score, c.lead_marks, c.age_marks, c.reported),
            (0.0, 0.0, 0, 0, false)
        );
        assert_eq!((Ok(c.ln_lo), Ok(c.ln_hi)), (ln(20.0), ln(60.0)));
        assert_eq!(
            (b.cfg.width, b.primary_score, b.primary_gap_score),
            (2, 0.0, 0.0)
        );
        assert_eq!(
            (
                b.streak.len(),
                b.streak_gaps.len(),
                b.streak_side,
                b.last_gap
            ),
            (0, 0, None, None)
        );
        assert_eq!(
            (b.marks_seen, b.gaps_seen, b.pending, b.log.len()),
            (0, 0, None, 0)
        );

        let mut s = SenderTiming::new();
        s.observe(TimingClass::Dot, 60.0, 60.0);
        assert_eq!(
            (s.stats[0].mean, s.stats[0].var, s.stats[0].n),
            (1.0, 0.0, 1)
        );
    }
}
