//! The parts of a bank that a call may set, each with its place in a list, and a bank that is handed in spelled part for part.

use super::Call;
use crate::hullathan::bank::{Bank, Hypothesis};
use crate::hullathan::Bit;
use crate::layers::tracker;

/// A part; those that begin with `Of` are a challenger's.
#[derive(Debug, Clone, Copy, PartialEq)]
#[repr(u8)]
pub enum Part {
    Width,
    Switching,
    Score,
    GapScore,
    Challengers,
    Streak,
    StreakLen,
    Gap,
    GapsLen,
    HasSide,
    Side,
    HasLastGap,
    LastGap,
    Marks,
    Gaps,
    HasPending,
    Pending,
    LogMark,
    LogFrom,
    LogTo,
    LogApplied,
    LogLen,
    Started,
    /// The upper 32 bits of what was started.
    StartedHigh,
    OfScore,
    OfGapScore,
    OfLead,
    OfAge,
    OfOrigin,
    OfRetain,
    OfReported,
    OfLnLo,
    OfLnHi,
    OfSerial,
}

/// Each part at its number.
pub const PARTS: [Part; 34] = [
    Part::Width,
    Part::Switching,
    Part::Score,
    Part::GapScore,
    Part::Challengers,
    Part::Streak,
    Part::StreakLen,
    Part::Gap,
    Part::GapsLen,
    Part::HasSide,
    Part::Side,
    Part::HasLastGap,
    Part::LastGap,
    Part::Marks,
    Part::Gaps,
    Part::HasPending,
    Part::Pending,
    Part::LogMark,
    Part::LogFrom,
    Part::LogTo,
    Part::LogApplied,
    Part::LogLen,
    Part::Started,
    Part::StartedHigh,
    Part::OfScore,
    Part::OfGapScore,
    Part::OfLead,
    Part::OfAge,
    Part::OfOrigin,
    Part::OfRetain,
    Part::OfReported,
    Part::OfLnLo,
    Part::OfLnHi,
    Part::OfSerial,
];

fn set_hypothesis(h: &mut Hypothesis, part: Part, v: u32) {
    let x = f32::from_bits(v);
    match part {
        Part::OfScore => h.score = x,
        Part::OfGapScore => h.gap_score = x,
        Part::OfLead => h.lead_marks = v,
        Part::OfAge => h.age_marks = v,
        Part::OfOrigin => h.origin = (v % 256) as u8,
        Part::OfRetain => h.retain_marks = v,
        Part::OfReported => h.reported = Bit::from(v != 0),
        Part::OfLnLo => h.ln_lo = x,
        Part::OfLnHi => h.ln_hi = x,
        _ => h.serial = u64::from(v),
    }
}

/// A part set.
pub fn set(b: &mut Bank, part: Part, i: u8, v: u32) {
    let (x, on) = (f32::from_bits(v), Bit::from(v != 0));
    let (n, i) = (v as usize, usize::from(i));
    match part {
        Part::Width => b.width = n,
        Part::Switching => b.switching = on,
        Part::Score => b.primary_score = x,
        Part::GapScore => b.primary_gap_score = x,
        Part::Challengers => b.challengers_len = n,
        Part::Streak => b.streak[i % 4] = x,
        Part::StreakLen => b.streak_len = n,
        Part::Gap => b.streak_gaps[i % 4] = x,
        Part::GapsLen => b.streak_gaps_len = n,
        Part::HasSide => b.has_side = on,
        Part::Side => b.streak_side = on,
        Part::HasLastGap => b.has_last_gap = on,
        Part::LastGap => b.last_gap = x,
        Part::Marks => b.marks_seen = u64::from(v),
        Part::Gaps => b.gaps_seen = u64::from(v),
        Part::HasPending => b.has_pending = on,
        Part::Pending => b.pending = n,
        Part::LogMark => b.log[i % 16].mark_index = u64::from(v),
        Part::LogFrom => b.log[i % 16].from_dit_ms = x,
        Part::LogTo => b.log[i % 16].to_dit_ms = x,
        Part::LogApplied => b.log[i % 16].applied = on,
        Part::LogLen => b.log_len = n,
        Part::Started => b.started = b.started >> 32 << 32 | u64::from(v),
        Part::StartedHigh => b.started = (b.started % (1 << 32)) | (u64::from(v) << 32),
        _ => set_hypothesis(&mut b.challengers[i % 8], part, v),
    }
}

/// Every flag of a bank, those beyond its counts too.
pub fn flags(b: &mut Bank) -> Vec<&mut Bit> {
    let of_rivals = b.challengers.iter_mut().flat_map(|h| {
        let mut all = tracker::flags(&mut h.tracker);
        all.push(&mut h.reported);
        all
    });
    [
        &mut b.switching,
        &mut b.has_side,
        &mut b.streak_side,
        &mut b.has_last_gap,
        &mut b.has_pending,
    ]
    .into_iter()
    .chain(of_rivals)
    .chain(b.log.iter_mut().map(|r| &mut r.applied))
    .collect()
}

fn bits(v: f32) -> u32 {
    if v.is_nan() {
        0x7FC0_0000
    } else {
        v.to_bits()
    }
}

fn bank_parts(b: &Bank) -> Vec<Call> {
    let low = |n: u64| n as u32;
    let mut all = vec![Call::New(1, false)];
    let mut put = |part, i: usize, v: u32| all.push(Call::Set(part, i as u8, v));
    put(Part::Width, 0, b.width as u32);
    put(Part::Switching, 0, u32::from(b.switching.0));
    put(Part::Score, 0, bits(b.primary_score));
    put(Part::GapScore, 0, bits(b.primary_gap_score));
    put(Part::Challengers, 0, b.challengers_len as u32);
    put(Part::StreakLen, 0, b.streak_len as u32);
    put(Part::GapsLen, 0, b.streak_gaps_len as u32);
    for i in 0..4 {
        put(Part::Streak, i, bits(b.streak[i]));
        put(Part::Gap, i, bits(b.streak_gaps[i]));
    }
    put(Part::HasSide, 0, u32::from(b.has_side.0));
    put(Part::Side, 0, u32::from(b.streak_side.0));
    put(Part::HasLastGap, 0, u32::from(b.has_last_gap.0));
    put(Part::LastGap, 0, bits(b.last_gap));
    put(Part::Marks, 0, low(b.marks_seen));
    put(Part::Gaps, 0, low(b.gaps_seen));
    put(Part::HasPending, 0, u32::from(b.has_pending.0));
    put(Part::Pending, 0, b.pending as u32);
    put(Part::LogLen, 0, b.log_len as u32);
    for (i, r) in b.log.iter().enumerate() {
        put(Part::LogMark, i, low(r.mark_index));
        put(Part::LogFrom, i, bits(r.from_dit_ms));
        put(Part::LogTo, i, bits(r.to_dit_ms));
        put(Part::LogApplied, i, u32::from(r.applied.0));
    }
    put(Part::Started, 0, low(b.started));
    put(Part::StartedHigh, 0, low(b.started >> 32));
    all
}

fn hypothesis_parts(i: usize, h: &Hypothesis) -> Vec<Call> {
    let mut all = Vec::new();
    let mut put = |part, v: u32| all.push(Call::Set(part, i as u8, v));
    put(Part::OfScore, bits(h.score));
    put(Part::OfGapScore, bits(h.gap_score));
    put(Part::OfLead, h.lead_marks);
    put(Part::OfAge, h.age_marks);
    put(Part::OfOrigin, u32::from(h.origin));
    put(Part::OfRetain, h.retain_marks);
    put(Part::OfReported, u32::from(h.reported.0));
    put(Part::OfLnLo, bits(h.ln_lo));
    put(Part::OfLnHi, bits(h.ln_hi));
    put(Part::OfSerial, h.serial as u32);
    let of_tracker = tracker::parts(&h.tracker)
        .into_iter()
        .filter_map(|c| match c {
            tracker::Call::Set(part, j, v) => Some(Call::SetTracker(i as u8, part, j, v)),
            _ => None,
        });
    all.extend(of_tracker);
    all
}

/// A list without banks or primaries handed in whole: each is spelled part for part, onto fresh ones.
pub fn spelled(case: Vec<Call>) -> Vec<Call> {
    let spell = |c| match c {
        Call::Hand(b) => {
            let used = b.challengers.iter().take(b.challengers_len).enumerate();
            let each = used.flat_map(|(i, h)| hypothesis_parts(i, h));
            // of what lies beyond the count, a number that no origin has
            let beyond = b.challengers.iter().enumerate().skip(b.challengers_len);
            let junk = beyond
                .filter(|(_, h)| h.origin > 2)
                .map(|(i, h)| Call::Set(Part::OfOrigin, i as u8, u32::from(h.origin)));
            bank_parts(&b).into_iter().chain(each).chain(junk).collect()
        }
        Call::Primary(tracker::Call::Hand(t)) => {
            let parts = tracker::parts(&t.0).into_iter();
            parts.map(Call::Primary).collect()
        }
        c => vec![c],
    };
    let fresh = [
        Call::New(1, false),
        Call::Serial(0),
        Call::Primary(tracker::Call::Fresh),
    ];
    fresh
        .into_iter()
        .chain(case.into_iter().flat_map(spell))
        .collect()
}

#[cfg(test)]
mod tests {
    use super::*;
    use crate::forms::identical;
    use crate::hullathan::bank::Bank;
    use crate::layers::bank::cases;
    use crate::layers::bank::state;
    use crate::random::Random;

    /// Each part stands at its number, and sets what no other does.
    #[test]
    fn every_part_is_its_own() {
        let fresh = Bank::default();
        let mut shown = Vec::new();
        for (n, &part) in PARTS.iter().enumerate() {
            assert_eq!(part as usize, n);
            let mut b = fresh;
            set(&mut b, part, 1, 1);
            let s = format!("{b:?}");
            assert!(!shown.contains(&s) && !identical(&b, &fresh), "{part:?}");
            shown.push(s);
        }
    }

    /// A bank that is spelled is the bank.
    #[test]
    fn spelled_whole() {
        for seed in 1..200 {
            let b = cases::sound_bank(&mut Random::new(seed));
            let mut c = Bank::default();
            for call in spelled(vec![Call::Hand(Box::new(b))]) {
                match call {
                    Call::Set(part, i, v) => set(&mut c, part, i, v),
                    Call::SetTracker(k, part, i, v) => {
                        tracker::set(&mut c.challengers[usize::from(k)].tracker, part, i, v)
                    }
                    _ => {}
                }
            }
            let cut = |b: &Bank| state::plain(&state::manta(b), &state::serials(b), b.started);
            assert!(identical(&cut(&c), &cut(&b)));
        }
    }
}
