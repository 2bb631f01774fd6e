//! A state as a list of named numbers, so that two states can be compared and the first part that differs has a name.
//! Lists are cut at their count, and an absent number is one mark of its own: nothing else is part of a state.

use crate::compare::Difference;
use crate::hullathan::bank::{Bank, Hypothesis};
use crate::hullathan::sender::SenderTiming;
use crate::hullathan::station::Station;
use crate::hullathan::tracker::SpeedTracker;
use crate::hullathan::Bit;

/// Stands for a number that is absent: no f32 and no count has it.
const ABSENT: u64 = u64::MAX;

/// What a part of a state is shown as.
#[derive(Debug, Clone, Copy, PartialEq)]
enum Kind {
    Float,
    Count,
}

#[derive(Debug, Clone, PartialEq)]
struct Part {
    name: String,
    kind: Kind,
    bits: u64,
}

impl Part {
    fn show(&self) -> String {
        let value = match (self.bits, self.kind) {
            (ABSENT, _) => "absent".to_string(),
            (b, Kind::Float) => format!("{b:08X} ({:e})", f32::from_bits(b as u32)),
            (b, Kind::Count) => b.to_string(),
        };
        format!("{} {value}", self.name)
    }
}

/// The parts of a state in the library's form, in the order of its fields.
#[derive(Debug, Clone, Default, PartialEq)]
pub struct State(Vec<Part>);

impl State {
    fn part(&mut self, name: &str, kind: Kind, bits: u64) {
        self.0.push(Part {
            name: name.to_string(),
            kind,
            bits,
        });
    }

    pub fn float(&mut self, name: &str, v: f32) {
        self.part(name, Kind::Float, u64::from(v.to_bits()));
    }

    pub fn count(&mut self, name: &str, n: u64) {
        self.part(name, Kind::Count, n);
    }

    pub fn float_or_absent(&mut self, name: &str, v: Option<f32>) {
        let bits = v.map_or(ABSENT, |v| u64::from(v.to_bits()));
        self.part(name, Kind::Float, bits);
    }

    pub fn count_or_absent(&mut self, name: &str, n: Option<u64>) {
        self.part(name, Kind::Count, n.unwrap_or(ABSENT));
    }

    /// A flag's byte as it is.
    fn bit(&mut self, name: &str, b: Bit) {
        self.count(name, u64::from(b.0));
    }

    /// A number that is held where its flag says so.
    fn held(&mut self, name: &str, has: Bit, v: f32) {
        self.bit(&format!("{name}, whether there is one"), has);
        self.float_or_absent(name, (has != Bit::NO).then_some(v));
    }

    /// A list's count as it is, and the entries that have a place.
    pub fn floats(&mut self, name: &str, n: usize, list: &[f32]) {
        self.count(&format!("{name}, how many"), n as u64);
        for (i, &v) in list.iter().take(n).enumerate() {
            self.float(&format!("{name}[{i}]"), v);
        }
    }

    /// The parts of a state within this one, under a name.
    pub fn within(&mut self, name: &str, inner: State) {
        for mut p in inner.0 {
            p.name = format!("{name}.{}", p.name);
            self.0.push(p);
        }
    }
}

/// What is said of two states that are not the same: the first part in which they differ; where none of them does, a
/// byte that is no part of a state is not as it must be.
pub fn unlike(call: &str, hullathan: &State, rust: &State) -> Difference {
    let show = |s: &State, i: usize| s.0.get(i).map_or("no more parts".into(), Part::show);
    match (0..hullathan.0.len().max(rust.0.len())).find(|&i| hullathan.0.get(i) != rust.0.get(i)) {
        None => Difference {
            call: call.to_string(),
            hullathan: "a byte beyond a count, or of a number that is absent".into(),
            rust: "zero, or as it was".into(),
        },
        Some(i) => Difference {
            call: call.to_string(),
            hullathan: show(hullathan, i),
            rust: show(rust, i),
        },
    }
}

impl From<&SpeedTracker> for State {
    fn from(t: &SpeedTracker) -> State {
        let (mut s, p) = (State::default(), &t.pair);
        s.float("pair.lo", p.lo);
        s.float("pair.hi", p.hi);
        s.floats("pair.init", p.init_len, &p.init);
        s.bit("pair.ready", p.ready);
        s.bit("pair.confirmed", p.confirmed);
        s.bit("pair.placeholder_is_lo", p.placeholder_is_lo);
        s.count("pair.lo_n", p.lo_n as u64);
        s.count("ring, how many", t.ring_len as u64);
        for (i, e) in t.ring.iter().take(t.ring_len).enumerate() {
            s.float(&format!("ring[{i}].dur_ms"), e.dur_ms);
            s.bit(&format!("ring[{i}].assigned_dit"), e.assigned_dit);
            s.float(&format!("ring[{i}].pre_lo"), e.pre_lo);
            s.float(&format!("ring[{i}].pre_hi"), e.pre_hi);
        }
        s.held("wpm_ema", t.has_wpm, t.wpm_ema);
        s.floats("recent", t.recent_len, &t.recent);
        s.held("mu_egap_ms", t.has_egap, t.mu_egap_ms);
        s.held("ratio_hint", t.has_hint, t.ratio_hint);
        s.count("regime", u64::from(t.regime));
        s.bit("badlock_recovered", t.badlock_recovered);
        s.bit("lo_uncorroborated", t.lo_uncorroborated);
        s
    }
}

impl From<&Hypothesis> for State {
    fn from(h: &Hypothesis) -> State {
        let mut s = State::default();
        s.within("tracker", State::from(&h.tracker));
        s.float("score", h.score);
        s.float("gap_score", h.gap_score);
        s.count("lead_marks", u64::from(h.lead_marks));
        s.count("age_marks", u64::from(h.age_marks));
        s.count("origin", u64::from(h.origin));
        s.count_or_absent(
            "retain_marks",
            (h.origin == 2).then_some(h.retain_marks.into()),
        );
        s.bit("reported", h.reported);
        s.float("ln_lo", h.ln_lo);
        s.float("ln_hi", h.ln_hi);
        s.count("serial", h.serial);
        s
    }
}

impl From<&Bank> for State {
    fn from(b: &Bank) -> State {
        let mut s = State::default();
        s.count("width", b.width as u64);
        s.bit("switching", b.switching);
        s.float("primary_score", b.primary_score);
        s.float("primary_gap_score", b.primary_gap_score);
        s.count("challengers, how many", b.challengers_len as u64);
        for (i, h) in b.challengers.iter().take(b.challengers_len).enumerate() {
            s.within(&format!("challengers[{i}]"), State::from(h));
        }
        s.floats("streak", b.streak_len, &b.streak);
        s.floats("streak_gaps", b.streak_gaps_len, &b.streak_gaps);
        s.bit("streak_side, whether there is one", b.has_side);
        let side = (b.has_side != Bit::NO).then_some(b.streak_side.0.into());
        s.count_or_absent("streak_side", side);
        s.held("last_gap", b.has_last_gap, b.last_gap);
        s.count("marks_seen", b.marks_seen);
        s.count("gaps_seen", b.gaps_seen);
        s.bit("pending, whether there is one", b.has_pending);
        let pending = (b.has_pending != Bit::NO).then_some(b.pending as u64);
        s.count_or_absent("pending", pending);
        s.count("log, how many", b.log_len as u64);
        for (i, r) in b.log.iter().take(b.log_len).enumerate() {
            s.count(&format!("log[{i}].mark_index"), r.mark_index);
            s.float(&format!("log[{i}].from_dit_ms"), r.from_dit_ms);
            s.float(&format!("log[{i}].to_dit_ms"), r.to_dit_ms);
            s.bit(&format!("log[{i}].applied"), r.applied);
        }
        s.count("started", b.started);
        s
    }
}

impl From<&Station> for State {
    fn from(t: &Station) -> State {
        let mut s = State::default();
        s.within("primary", State::from(&t.primary));
        s.count("serial", t.serial);
        s.within("bank", State::from(&t.bank));
        for (i, &n) in t.counts.iter().enumerate() {
            s.count(&format!("left by cause {i}"), n);
        }
        s.count("accepted", t.accepted);
        s
    }
}

impl From<&SenderTiming> for State {
    fn from(t: &SenderTiming) -> State {
        let mut s = State::default();
        for (i, c) in t.stats.iter().enumerate() {
            s.count(&format!("stats[{i}].n"), u64::from(c.n));
            s.float(&format!("stats[{i}].mean"), c.mean);
            s.float(&format!("stats[{i}].var"), c.var);
        }
        s
    }
}

#[cfg(test)]
mod tests {
    use super::*;

    fn state(lo: f32, gap: Option<f32>, marks: &[f32]) -> State {
        let mut s = State::default();
        s.float("lo", lo);
        s.floats("marks", marks.len(), marks);
        s.float_or_absent("gap", gap);
        s
    }

    #[test]
    fn the_first_part_that_differs_is_named() {
        let a = state(20.0, None, &[1.0, 2.0]);
        let differs = |b: State| unlike("on_mark", &a, &b).rust;
        assert_eq!(
            differs(state(-0.0, None, &[1.0, 2.0])),
            "lo 80000000 (-0e0)"
        );
        assert_eq!(
            differs(state(20.0, Some(0.0), &[1.0, 2.0])),
            "gap 00000000 (0e0)"
        );
        assert_eq!(differs(state(20.0, None, &[1.0])), "marks, how many 1");
        assert_eq!(
            differs(state(20.0, None, &[1.0, 3.0])),
            "marks[1] 40400000 (3e0)"
        );
        assert_eq!(differs(a.clone()), "zero, or as it was");
    }

    /// A count above its capacity, a flag that is none, and a part of the bank.
    #[test]
    fn damaged_forms() {
        let mut s = Station::default();
        s.primary.pair.init_len = 13;
        let fresh = State::from(&Station::default());
        let said = |s: &Station| unlike("", &State::from(s), &fresh).hullathan;
        assert_eq!(said(&s), "primary.pair.init, how many 13");
        s = Station::default();
        s.bank.has_pending = Bit(2);
        assert_eq!(said(&s), "bank.pending, whether there is one 2");
        s = Station::default();
        s.bank.started = 1;
        assert_eq!(said(&s), "bank.started 1");
    }
}
