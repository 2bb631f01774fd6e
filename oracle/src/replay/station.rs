//! The list of calls that the program `station_replay` runs: a watch with changes of speed, and watches made as short as they can be
//! that reach every branch which a watch from a fresh station reaches in few calls.
//!
//! A line of the script is a letter, a digit and three fields of 8 hexadecimal digits, with blanks between. The letters: W fresh (the
//! digit: switching; the width), E an event (the digit: live; its kind, its number), A shows the primary and the rivals whole.

use super::bank::{code, left, long};
use super::tracker::tracker;
use super::{count, flag, line, number, Files};
use crate::compare::{Difference, Follow, Layer};
use crate::hullathan::bank::Bank;
use crate::hullathan::station::Station;
use crate::layers::station::{watched_case, Call, Event, Rust, Stations, GAP, MARK, SWITCH};
use crate::random::Random;
use crate::reached::Branch;
use std::sync::OnceLock;

const STDIN: &str = include_str!("../../../crates/station_replay/stdin");

/// The station's layer with the branches of short watches only.
struct Watches;

/// Whether only a station that is handed in reaches the branch, or a watch of many calls.
fn far(b: &Branch) -> bool {
    let handed = [
        "refused by 1:",
        "refused by 1 ",
        "refused by 2",
        "refused by 12",
        "batch",
        "accepted",
        "sound",
    ];
    handed.iter().any(|w| b.name.starts_with(w))
        || b.name.contains("where 1 would")
        || b.name.contains("1,000th")
        || b.name.contains("16 switch records")
        || b.name.contains("seven challengers")
}

impl Layer for Watches {
    type Case = Vec<Call>;

    const NAME: &'static str = "station";

    fn fixed() -> Vec<Vec<Call>> {
        Vec::new()
    }

    fn random(random: &mut Random) -> Vec<Call> {
        watched_case(random)
    }

    fn run(case: &Vec<Call>) -> Result<u64, Difference> {
        Stations::run(case)
    }

    fn smaller(case: &Vec<Call>) -> Vec<Vec<Call>> {
        Stations::smaller(case)
    }

    fn reached() -> &'static [&'static Branch] {
        static NEAR: OnceLock<Vec<&'static Branch>> = OnceLock::new();
        NEAR.get_or_init(|| {
            let all = Stations::reached().iter().copied();
            all.filter(|b| !far(b)).collect()
        })
    }
}

impl Follow for Watches {
    fn follow(case: &Vec<Call>) {
        Stations::follow(case);
    }
}

fn call_line(call: &Call) -> String {
    match call {
        Call::Fresh(width, switching) => line('W', u8::from(*switching), *width as u32, 0, 0),
        Call::Event(e) => line('E', u8::from(e.live), u32::from(e.kind), e.value, 0),
        Call::Hand(_) => unreachable!("a watch hands nothing in"),
    }
}

/// Whether all is shown after the call at a place: before each fresh station, and at the end.
fn shows(calls: &[Call], i: usize) -> bool {
    matches!(calls.get(i + 1), None | Some(Call::Fresh(..)))
}

fn text(calls: &[Call]) -> String {
    let show = |i| match shows(calls, i) {
        true => line('A', 0, 0, 0, 0),
        false => String::new(),
    };
    let each = calls.iter().enumerate();
    each.map(|(i, c)| call_line(c) + &show(i)).collect()
}

/// The calls of a script.
fn parse(script: &str) -> Vec<Call> {
    let call = |l: &str| {
        let field = |at: usize| u32::from_str_radix(&l[at..at + 8], 16).expect("8 digits");
        let on = l.as_bytes()[2] == b'1';
        match l.as_bytes()[0] {
            b'W' => Some(Call::Fresh(field(4) as usize, on)),
            b'E' => Some(Call::Event(Event {
                kind: field(4) as u8,
                value: field(13),
                live: on,
            })),
            _ => None,
        }
    };
    script.lines().filter_map(call).collect()
}

/// What of a bank changes most.
fn bank(b: &Bank) -> String {
    let scores = number(b.primary_score) + &number(b.primary_gap_score);
    let seen = long(b.marks_seen) + &long(b.gaps_seen);
    let choice = code(b.has_pending.0) + &count(b.pending);
    let lists = count(b.streak_len) + &count(b.streak_gaps_len) + &count(b.log_len);
    scores + &seen + &choice + &lists
}

/// What an answer shows of the station: the primary's centroids and serial, and how many challengers there are.
fn shown(s: &Station) -> String {
    let p = &s.primary.pair;
    number(p.lo) + &number(p.hi) + &long(s.serial) + &count(s.bank.challengers_len)
}

/// The books, the primary's centroids and the bank's counts.
fn books(s: &Station) -> String {
    let p = &s.primary.pair;
    let mut all = number(p.lo) + &number(p.hi) + &long(s.serial);
    all += &(count(s.bank.challengers_len) + &long(s.bank.started));
    all += &s.counts.map(long).concat();
    all + &long(s.accepted) + &bank(&s.bank) + "\n"
}

/// The primary and the rivals.
fn whole(s: &Station) -> String {
    let mut all = format!("A{}", tracker(&s.primary));
    for h in s.bank.challengers.iter().take(s.bank.challengers_len) {
        all += &(long(h.serial) + &number(h.score) + &number(h.gap_score));
        all += &(count(h.lead_marks as usize) + &count(h.age_marks as usize) + &code(h.origin));
        all += &(count(h.retain_marks as usize) + &code(h.reported.0));
        all += &(number(h.ln_lo) + &number(h.ln_hi) + &tracker(&h.tracker));
    }
    all + "\n"
}

/// What a script must print, as the Rust has it.
fn answers(calls: &[Call]) -> String {
    let mut rust = Rust::new();
    let mut all = String::new();
    for (i, call) in calls.iter().enumerate() {
        let a = rust.step(call);
        all += &match call {
            Call::Fresh(..) => format!("W{}", code(a.code)),
            _ => {
                let said = flag(a.refused) + &code(a.code) + &shown(rust.form());
                format!("E{said}{}", left(&a.left))
            }
        };
        all += &books(rust.form());
        if shows(calls, i) {
            all += &whole(rust.form());
        }
    }
    all
}

/// The list as it stands in the repository.
pub fn script() -> Vec<Call> {
    parse(STDIN)
}

pub fn files() -> Files {
    let anew = [Call::Fresh(1, false)];
    let calls = super::choose::<Watches, Call>(by_hand(), watched_case, &anew, 260);
    Files {
        stdin: text(&calls).into(),
        stdout: answers(&calls),
    }
}

pub(super) fn unreached() -> Vec<&'static str> {
    super::missing::<Watches>(&super::reaches::<Watches>(&script()))
}

/// A watch: text at one speed, three times as slow, and as before.
fn by_hand() -> Vec<Call> {
    let mut random = Random::new(3);
    let event = |kind, value: f32| {
        Call::Event(Event {
            kind,
            value: value.to_bits(),
            live: true,
        })
    };
    let mut s = vec![Call::Fresh(8, true)];
    for i in 0..60 {
        let dit = if (20..40).contains(&i) { 144.0 } else { 48.0 };
        let units = if random.below(2) == 0 { 1.0 } else { 3.1 };
        let jitter = 0.9 + 0.2 * random.fraction() as f32;
        s.push(event(MARK, dit * units * jitter));
        s.push(event(GAP, dit * jitter));
        s.push(event(SWITCH, 0.0));
    }
    s
}

#[cfg(test)]
mod tests {
    use super::*;

    /// What stands in the repository is what the Rust answers to the list there.
    #[test]
    fn answers_are_as_written() {
        let calls = script();
        assert!(answers(&calls) == include_str!("../../../crates/station_replay/stdout"));
        assert!(text(&calls) == STDIN);
    }
}
