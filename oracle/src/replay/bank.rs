//! The list of calls that the program `bank_replay` runs: a watch with changes of speed, and lists made as short as they can be that
//! reach every branch (`oracle replay bank` looks for them among the random ones).
//!
//! A line of the script is a letter, a digit and three fields of 8 hexadecimal digits, with blanks between. The letters: N new (the
//! digit: switching; the width), M on_mark (the digit: live), G on_gap, L puts a mark on the list, R calls on_ready with the list, C
//! clear, X take_switch, V reads (a place), A shows bank and primary whole; m, g, w, f, n call the primary, and I gives its serial;
//! S, T, s set a part of the bank, of a challenger's tracker, of the primary.

use super::tracker as primary;
use super::tracker::tracker;
use super::{count, flag, held, line, number, Files};
use crate::hullathan::bank::{Bank, Departure, Hypothesis, Record};
use crate::layers::bank::{random_case, spelled, Banks, Call, Part, Rust, Told, PARTS};
use crate::layers::tracker as trackers;
use crate::log01::Ln01;
use crate::random::Random;

const STDIN: &str = include_str!("../../../crates/bank_replay/stdin");

fn primary_line(call: &trackers::Call) -> String {
    match call {
        trackers::Call::Mark(d) => line('m', 0, *d, 0, 0),
        trackers::Call::Gap(d) => line('g', 0, *d, 0, 0),
        trackers::Call::Seed(w) => line('w', 0, *w, 0, 0),
        trackers::Call::Finish => line('f', 0, 0, 0, 0),
        trackers::Call::Set(part, i, v) => line('s', 0, *part as u32, u32::from(*i), *v),
        trackers::Call::Fresh => line('n', 0, 0, 0, 0),
        _ => unreachable!("no list has this call of the primary"),
    }
}

fn lines(call: &Call) -> String {
    match call {
        Call::New(width, switching) => line('N', u8::from(*switching), *width as u32, 0, 0),
        Call::Mark(d, live) => line('M', u8::from(*live), *d, 0, 0),
        Call::Gap(d) => line('G', 0, *d, 0, 0),
        Call::Ready(marks) => {
            let marks: String = marks.iter().map(|&m| line('L', 0, m, 0, 0)).collect();
            marks + &line('R', 0, 0, 0, 0)
        }
        Call::Clear => line('C', 0, 0, 0, 0),
        Call::Switch => line('X', 0, 0, 0, 0),
        Call::Read(i) => line('V', 0, *i as u32, 0, 0),
        Call::Show => line('A', 0, 0, 0, 0),
        Call::Primary(c) => primary_line(c),
        Call::Serial(n) => line('I', 0, (n >> 32) as u32, *n as u32, 0),
        Call::Set(part, i, v) => line('S', 0, *part as u32, u32::from(*i), *v),
        Call::SetTracker(k, part, i, v) => line('T', *k, *part as u32, u32::from(*i), *v),
        Call::Hand(_) => unreachable!("a script sets parts"),
    }
}

/// The calls of a script.
fn parse(script: &str) -> Vec<Call> {
    let mut marks = Vec::new();
    let mut calls = Vec::new();
    for l in script.lines() {
        let field = |at: usize| u32::from_str_radix(&l[at..at + 8], 16).expect("8 digits");
        let (a, b, c, digit) = (field(4), field(13), field(22), l.as_bytes()[2] - b'0');
        let part = |a: u32| trackers::PARTS[a as usize];
        calls.push(match l.as_bytes()[0] {
            b'N' => Call::New(a as usize, digit == 1),
            b'M' => Call::Mark(a, digit == 1),
            b'G' => Call::Gap(a),
            b'L' => {
                marks.push(a);
                continue;
            }
            b'R' => Call::Ready(std::mem::take(&mut marks)),
            b'C' => Call::Clear,
            b'X' => Call::Switch,
            b'V' => Call::Read(a as usize),
            b'A' => Call::Show,
            b'm' => Call::Primary(trackers::Call::Mark(a)),
            b'g' => Call::Primary(trackers::Call::Gap(a)),
            b'w' => Call::Primary(trackers::Call::Seed(a)),
            b'f' => Call::Primary(trackers::Call::Finish),
            b's' => Call::Primary(trackers::Call::Set(part(a), b as u8, c)),
            b'n' => Call::Primary(trackers::Call::Fresh),
            b'I' => Call::Serial(u64::from(a) << 32 | u64::from(b)),
            b'S' => Call::Set(PARTS[a as usize], b as u8, c),
            _ => Call::SetTracker(digit, part(a), b as u8, c),
        });
    }
    calls
}

pub(super) fn long(n: u64) -> String {
    format!(" {:08X} {:08X}", n >> 32, n as u32)
}

pub(super) fn code(n: u8) -> String {
    format!(" {n:02X}")
}

fn hypothesis(h: &Hypothesis) -> String {
    let mut s = long(h.serial) + &number(h.score) + &number(h.gap_score);
    s += &(count(h.lead_marks as usize) + &count(h.age_marks as usize) + &code(h.origin));
    if h.origin == 2 {
        s += &count(h.retain_marks as usize);
    }
    s + &flag(h.reported.is()) + &number(h.ln_lo) + &number(h.ln_hi) + &tracker(&h.tracker)
}

fn record(r: &Record) -> String {
    long(r.mark_index) + &number(r.from_dit_ms) + &number(r.to_dit_ms) + &flag(r.applied.is())
}

/// What changes most.
fn short(b: &Bank) -> String {
    let mut s = count(b.challengers_len) + &number(b.primary_score) + &number(b.primary_gap_score);
    s += &(long(b.marks_seen) + &long(b.gaps_seen) + &flag(b.has_pending.is()));
    if b.has_pending.is() {
        s += &count(b.pending);
    }
    s + &long(b.started)
}

/// A bank: its parts in order. Of a count above its capacity all places are shown.
fn whole(b: &Bank) -> String {
    let mut s = count(b.width) + &flag(b.switching.is()) + &short(b) + &count(b.challengers_len);
    s.extend(b.challengers.iter().take(b.challengers_len).map(hypothesis));
    s += &count(b.streak_len);
    s.extend(b.streak.iter().take(b.streak_len).map(|&m| number(m)));
    s += &count(b.streak_gaps_len);
    s.extend(
        b.streak_gaps
            .iter()
            .take(b.streak_gaps_len)
            .map(|&g| number(g)),
    );
    s += &flag(b.has_side.is());
    if b.has_side.is() {
        s += &flag(b.streak_side.is());
    }
    s += &(held(b.has_last_gap.is(), b.last_gap) + &count(b.log_len));
    s.extend(b.log.iter().take(b.log_len).map(record));
    s
}

pub(super) fn left(gone: &[Departure]) -> String {
    let each = gone.iter().map(|d| long(d.serial) + &code(d.cause));
    count(gone.len()) + &each.collect::<String>()
}

/// The line that answers a call, as the Rust has it; what is set has none.
fn answer(rust: &mut Rust, call: &Call) -> String {
    let a = rust.step(call);
    let letter = &lines(call)[..1];
    let end = short(rust.form());
    match (call, a.told) {
        (Call::Show, _) => {
            let all = whole(rust.form()) + &long(rust.serial) + &tracker(rust.primary.form());
            format!("{letter}{all}\n")
        }
        (Call::Mark(..) | Call::Clear, _) => {
            format!("{letter}{}{}{end}\n", code(a.code), left(&a.left))
        }
        (Call::Ready(_), _) => format!("R{}{}{end}\n", code(a.code), left(&a.left)),
        (Call::New(..) | Call::Gap(_), _) => format!("{letter}{}{end}\n", code(a.code)),
        (Call::Switch, Told::Flag(yes)) => {
            let said = code(a.code) + &flag(yes) + &long(rust.serial);
            format!("X{said}{end}\n")
        }
        (Call::Read(_), Told::Readings(r)) => {
            let counts = r.counts.map(|(c, n)| code(c) + &long(n)).concat();
            let (h, e) = (&r.challenger, &r.record);
            let there = if h.1 { hypothesis(&h.2) } else { String::new() };
            let entry = if e.1 { record(&e.2) } else { String::new() };
            let places = code(h.0) + &flag(h.1) + &there + &code(e.0) + &flag(e.1) + &entry;
            format!("V{counts}{places}\n")
        }
        (Call::Primary(trackers::Call::Set(..) | trackers::Call::Fresh), _) => String::new(),
        (Call::Primary(_), Told::Primary(p)) => match p.told {
            trackers::Told::Flag(yes) => format!("{letter}{}{}\n", code(p.code), flag(yes)),
            _ => format!("{letter}{}\n", code(p.code)),
        },
        _ => String::new(),
    }
}

/// What a script must print.
fn answers(calls: &[Call]) -> String {
    let mut rust = Rust::new();
    calls.iter().map(|c| answer(&mut rust, c)).collect()
}

/// The list as it stands in the repository.
pub fn script() -> Vec<Call> {
    parse(STDIN)
}

pub fn files() -> Files {
    let calls = choose();
    Files {
        stdin: calls.iter().map(lines).collect::<String>().into(),
        stdout: answers(&calls),
    }
}

/// The calls that show all and begin anew.
fn anew() -> [Call; 4] {
    [
        Call::Show,
        Call::New(1, false),
        Call::Serial(0),
        Call::Primary(trackers::Call::Fresh),
    ]
}

/// A list that reaches every branch, and shows all where a part of it ends.
fn choose() -> Vec<Call> {
    let random = |random: &mut Random| spelled(random_case(random));
    let mut calls = super::choose::<Banks, Call>(by_hand(), random, &anew(), 420);
    calls.push(Call::Show);
    calls
}

pub(super) fn unreached() -> Vec<&'static str> {
    super::missing::<Banks>(&super::reaches::<Banks>(&script()))
}

/// How many places a part of a bank has.
fn places(part: Part) -> u8 {
    match part {
        Part::Streak | Part::Gap => 3,
        Part::LogMark | Part::LogFrom | Part::LogTo | Part::LogApplied => 16,
        _ if part as u8 >= Part::OfScore as u8 => 7,
        _ => 1,
    }
}

/// Every part of a bank set, in every place and each to another number, and of the trackers of its challengers and of the primary: a sound
/// bank.
fn every_part() -> Vec<Call> {
    let dit = |i: u8| 22.0 + 16.0 * f32::from(i);
    let mut all = Vec::new();
    for i in 0..7 {
        let set = |(part, place, v)| Call::SetTracker(i, part, place, v);
        all.extend(primary::every_part(dit(i)).into_iter().map(set));
    }
    let of_primary = primary::every_part(100.0).into_iter();
    let set = |(part, place, v)| Call::Primary(trackers::Call::Set(part, place, v));
    all.extend(of_primary.map(set));
    // what a challenger's tracker has there
    let centroid = |wanted: trackers::Part, i| {
        let has = |c: &Call| match *c {
            Call::SetTracker(k, part, _, v) if k == i && part == wanted => Some(v),
            _ => None,
        };
        f32::from_bits(all.iter().find_map(has).expect("it is set"))
    };
    let mut unit = 0;
    let mut rest = Vec::new();
    for part in PARTS {
        for i in 0..places(part) {
            unit += 1;
            let near = |x: f32| (x + unit as f32 / 64.0).to_bits();
            let value = match part {
                Part::Width => 8,
                Part::Challengers => 7,
                Part::StreakLen | Part::GapsLen | Part::Pending => 3,
                Part::LogLen => 16,
                Part::Score | Part::GapScore | Part::OfScore | Part::OfGapScore => near(-9.0),
                Part::OfOrigin => u32::from(i % 3),
                Part::OfRetain => u32::from(i % 3 / 2) * (9 + unit),
                Part::LogApplied | Part::OfReported | Part::Side => u32::from(i % 2),
                Part::OfLnLo => centroid(trackers::Part::Lo, i).ln01().to_bits(),
                Part::OfLnHi => centroid(trackers::Part::Hi, i).ln01().to_bits(),
                Part::Switching | Part::HasSide | Part::HasLastGap | Part::HasPending => 1,
                Part::Streak | Part::Gap | Part::LastGap | Part::LogFrom | Part::LogTo => {
                    near(50.0)
                }
                _ => unit,
            };
            rest.push(Call::Set(part, i, value));
        }
    }
    all.extend(rest);
    all
}

/// A watch: text at one speed, three times as slow, and as before; and every part of a bank, before and after a mark and a switch.
fn by_hand() -> Vec<Call> {
    let mut s = vec![Call::New(8, true), Call::Read(0)];
    let mut random = Random::new(3);
    for i in 0..60 {
        let dit = if (20..40).contains(&i) { 144.0 } else { 48.0 };
        let units = if random.below(2) == 0 { 1.0 } else { 3.1 };
        let jitter = 0.9 + 0.2 * random.fraction() as f32;
        let mark = (dit * units * jitter).to_bits();
        s.push(Call::Primary(trackers::Call::Mark(mark)));
        if i > 4 {
            s.push(Call::Mark(mark, true));
            s.push(Call::Switch);
        } else if i == 4 {
            let first = s.iter().filter_map(|c| match c {
                Call::Primary(trackers::Call::Mark(d)) => Some(*d),
                _ => None,
            });
            let first = first.collect();
            s.push(Call::Ready(first));
        }
        s.push(Call::Gap((dit * jitter).to_bits()));
    }
    s.extend([Call::Read(0), Call::Show, Call::Clear]);
    s.extend(anew());
    s.extend(every_part());
    s.extend([Call::Serial(5 << 32 | 600), Call::Show, Call::Read(2)]);
    s.extend([Call::Mark(300f32.to_bits(), true), Call::Show]);
    s.extend([Call::Switch, Call::Show, Call::Read(15), Call::Clear]);
    s
}

#[cfg(test)]
mod tests {
    use super::*;

    /// What stands in the repository is what the Rust answers to the list there.
    #[test]
    fn answers_are_as_written() {
        let calls = script();
        assert!(answers(&calls) == include_str!("../../../crates/bank_replay/stdout"));
        assert!(calls.iter().map(lines).collect::<String>() == STDIN);
    }

    /// The bank of which every part is set is a sound one, and so is the primary.
    #[test]
    fn every_part_is_sound() {
        let mut rust = Rust::new();
        for call in every_part() {
            rust.step(&call);
        }
        assert_eq!(crate::refusals::bank(rust.form()), Ok(()));
        assert_eq!(crate::refusals::tracker(rust.primary.form()), Ok(()));
        let each = |part| {
            every_part()
                .iter()
                .any(|c| matches!(c, Call::Set(p, ..) if *p == part))
        };
        assert!(PARTS.iter().all(|&p| each(p)));
    }
}
