//! The list of calls that the program `tracker_replay` runs: worked examples, keyed text, and lists made as short as they can be
//! that reach every branch (`oracle replay tracker` looks for them among the random ones).
//!
//! A line of the script is a letter, a digit and three fields of 8 hexadecimal digits, with blanks between. The letters: M on_mark,
//! G on_element_gap, W seed_wpm, H set_ratio_hint, each with its number in the first field; F bootstrap, T take_badlock_recovered,
//! R reseed_wpm_after_warmup; L puts a gap on the list, and U calls resolve_unimodal_bootstrap with the list and empties it; V reads; S
//! sets a part (its number, its place, its value); N starts anew. An answer is the letter, the code and whether it said yes, or for V
//! each reading with its code; then the tracker, lists with their counts before them, absent numbers left out.

use super::{count, flag, held, line, number, Files};
use crate::hullathan::tracker::SpeedTracker as Plain;
use crate::layers::tracker::{parts, random_case, Call, Part, Rust, Told, Tracker, PARTS};
use crate::random::Random;

const STDIN: &str = include_str!("../../../crates/tracker_replay/stdin");

fn lines(call: &Call) -> String {
    let line = |letter, a, b, c| line(letter, 0, a, b, c);
    match call {
        Call::Mark(d) => line('M', *d, 0, 0),
        Call::Gap(d) => line('G', *d, 0, 0),
        Call::Seed(w) => line('W', *w, 0, 0),
        Call::Hint(h) => line('H', *h, 0, 0),
        Call::Finish => line('F', 0, 0, 0),
        Call::Take => line('T', 0, 0, 0),
        Call::Reseed => line('R', 0, 0, 0),
        Call::Resolve(gaps) => {
            let gaps: String = gaps.iter().map(|&g| line('L', g, 0, 0)).collect();
            gaps + &line('U', 0, 0, 0)
        }
        Call::Read => line('V', 0, 0, 0),
        Call::Set(part, i, v) => line('S', *part as u32, u32::from(*i), *v),
        Call::Hand(_) => unreachable!("a script sets parts"),
        Call::Fresh => line('N', 0, 0, 0),
    }
}

/// The calls of a script.
fn parse(script: &str) -> Vec<Call> {
    let mut gaps = Vec::new();
    let mut calls = Vec::new();
    for l in script.lines() {
        let field = |at: usize| u32::from_str_radix(&l[at..at + 8], 16).expect("8 digits");
        let (a, b, c) = (field(4), field(13), field(22));
        calls.push(match l.as_bytes()[0] {
            b'M' => Call::Mark(a),
            b'G' => Call::Gap(a),
            b'W' => Call::Seed(a),
            b'H' => Call::Hint(a),
            b'F' => Call::Finish,
            b'T' => Call::Take,
            b'R' => Call::Reseed,
            b'L' => {
                gaps.push(a);
                continue;
            }
            b'U' => Call::Resolve(std::mem::take(&mut gaps)),
            b'V' => Call::Read,
            b'S' => Call::Set(PARTS[a as usize], b as u8, c),
            _ => Call::Fresh,
        });
    }
    calls
}

/// A tracker: its parts in order. Of a count above its capacity all places are shown.
pub fn tracker(t: &Plain) -> String {
    let p = &t.pair;
    let mut s = number(p.lo) + &number(p.hi) + &count(p.init_len);
    s.extend(p.init.iter().take(p.init_len).map(|&v| number(v)));
    s += &[
        flag(p.ready.is()),
        flag(p.confirmed.is()),
        flag(p.placeholder_is_lo.is()),
        count(p.lo_n),
    ]
    .concat();
    s += &count(t.ring_len);
    for e in t.ring.iter().take(t.ring_len) {
        s += &[
            number(e.dur_ms),
            flag(e.assigned_dit.is()),
            number(e.pre_lo),
            number(e.pre_hi),
        ]
        .concat();
    }
    s += &(held(t.has_wpm.is(), t.wpm_ema) + &count(t.recent_len));
    s.extend(t.recent.iter().take(t.recent_len).map(|&v| number(v)));
    s += &(held(t.has_egap.is(), t.mu_egap_ms) + &held(t.has_hint.is(), t.ratio_hint));
    s + &count(t.regime as usize)
        + &flag(t.badlock_recovered.is())
        + &flag(t.lo_uncorroborated.is())
}

/// The lines that answer a call, as the Rust has it; a gap that is put on the list has none.
fn answer(rust: &mut Rust, call: &Call) -> String {
    let a = rust.step(call);
    let letter = lines(call).lines().last().expect("a line")[..1].to_string();
    let told = match a.told {
        Told::Nothing => format!(" {:02X} 0", a.code),
        Told::Flag(yes) => format!(" {:02X} {}", a.code, u8::from(yes)),
        Told::Readings(r) => {
            let mut s = format!(" {:02X} {}", r.codes[0], u8::from(r.ready));
            s += &format!(" {:02X} {:08X}", r.codes[1], r.regime);
            for (code, (has, bits)) in r.codes[2..].iter().zip(r.numbers) {
                s += &format!(" {code:02X}{}{}", flag(has), number(f32::from_bits(bits)));
            }
            s
        }
    };
    format!("{letter}{told}{}\n", tracker(rust.form()))
}

/// What a script must print.
fn answers(calls: &[Call]) -> String {
    let mut rust = Rust::new();
    calls.iter().map(|c| answer(&mut rust, c)).collect()
}

/// The list as it stands in the repository.
pub fn script() -> Vec<Call> {
    parse(STDIN)
}

pub fn files() -> Files {
    let calls = choose();
    Files {
        stdin: calls.iter().map(lines).collect::<String>().into(),
        stdout: answers(&calls),
    }
}

/// Without trackers handed in whole.
fn spelled(case: Vec<Call>) -> Vec<Call> {
    let spell = |c| match c {
        Call::Hand(t) => parts(&t.0),
        c => vec![c],
    };
    let fresh = std::iter::once(Call::Fresh);
    fresh.chain(case.into_iter().flat_map(spell)).collect()
}

/// Every part of a tracker set, in every place and each to another number: a sound tracker about a dit.
pub(super) fn every_part(dit: f32) -> Vec<(Part, u8, u32)> {
    let mut all = Vec::new();
    let mut unit = 0;
    for part in PARTS {
        let places = match part {
            Part::Init | Part::RingDur | Part::RingDit | Part::RingLo | Part::RingHi => 12,
            Part::Recent => 5,
            _ => 1,
        };
        for i in 0..places {
            unit += 1;
            let near = |x: f32| (x + unit as f32 / 16.0).to_bits();
            let value = match part {
                Part::Lo | Part::RingLo => near(dit),
                Part::Hi | Part::RingHi => near(3.0 * dit),
                Part::Hint => (2.5 + dit / 128.0).to_bits(),
                Part::Init | Part::RingDur | Part::Recent | Part::Wpm | Part::Egap => near(30.0),
                Part::InitLen | Part::RingLen => 12,
                Part::RecentLen => 5,
                Part::LoN | Part::Regime => unit,
                Part::RingDit => u32::from(i % 3 == 0),
                Part::Confirmed | Part::Uncorroborated => 0,
                _ => 1,
            };
            all.push((part, i, value));
        }
    }
    all
}

/// Document 01's settled examples, every part of a tracker, and some keyed text.
fn by_hand() -> Vec<Call> {
    let examples: [&[f32]; 10] = [
        &[60.0; 5],
        &[50.0, 50.0, 150.0, 150.0, 50.0],
        &[50.0, 100.0, 100.0, 100.0, 100.0],
        &[150.0; 5],
        &[300.0; 5],
        &[1000.0; 5],
        &[60.0, 60.0, 60.0, 60.0, 60.0, 120.0],
        &[60.0, 60.0, 60.0, 60.0, 60.0, 150.0],
        &[300.0, 300.0, 300.0, 300.0, 300.0, 50.0],
        &[50.0, 50.0, 200.0, 200.0, 200.0, 100.0],
    ];
    let mut s = Vec::new();
    for marks in examples {
        s.push(Call::Fresh);
        s.extend(marks.iter().map(|m| Call::Mark(m.to_bits())));
        s.push(Call::Read);
    }
    s.push(Call::Fresh);
    let set = |(part, i, v)| Call::Set(part, i, v);
    s.extend(every_part(60.0).into_iter().map(set));
    s.extend([Call::Read, Call::Mark(60f32.to_bits()), Call::Read]);
    s.push(Call::Fresh);
    let mut random = Random::new(3);
    for i in 0..48 {
        let dit = if i < 24 { 57.0 } else { 96.0 };
        let units = if random.below(2) == 0 { 1.0 } else { 3.1 };
        let jitter = 0.9 + 0.2 * random.fraction() as f32;
        s.push(Call::Mark((dit * units * jitter).to_bits()));
        s.push(Call::Gap((dit * jitter).to_bits()));
    }
    s.push(Call::Read);
    s
}

/// A list that reaches every branch.
fn choose() -> Vec<Call> {
    let random = |random: &mut Random| spelled(random_case(random));
    super::choose::<Tracker, Call>(by_hand(), random, &[Call::Fresh], 1 << 32)
}

pub(super) fn unreached() -> Vec<&'static str> {
    super::missing::<Tracker>(&super::reaches::<Tracker>(&script()))
}

#[cfg(test)]
mod tests {
    use super::*;

    /// What stands in the repository is what the Rust answers to the list there.
    #[test]
    fn answers_are_as_written() {
        let calls = script();
        assert!(answers(&calls) == include_str!("../../../crates/tracker_replay/stdout"));
        assert!(calls.iter().map(lines).collect::<String>() == STDIN);
    }

    /// The tracker of which every part is set is a sound one, and has something in every place.
    #[test]
    fn every_part_is_sound() {
        let mut rust = Rust::new();
        for (part, i, v) in every_part(60.0) {
            rust.step(&Call::Set(part, i, v));
        }
        assert_eq!(crate::refusals::tracker(rust.form()), Ok(()));
        assert_eq!(every_part(60.0).len(), 18 + 5 * 12 + 5);
    }
}
