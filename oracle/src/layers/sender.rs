//! A sender's statistics, beside manta's `SenderTiming` with the refusals of document 01 before it.

use crate::compare::{Difference, Follow, Layer};
use crate::forms;
use crate::hullathan::sender as ours;
use crate::hullathan::sender::{ClassStats, SenderTiming as Plain};
use crate::layers::tracker::cases::about;
use crate::layers::tracker::show;
use crate::manta::timing::{ClassEstimate, SenderTiming, TimingClass};
use crate::random::Random;
use crate::refusals;
use crate::shrink::{simpler_count, simpler_f32, smaller_list};
use crate::states::{self, State};
use std::fmt;

/// The branches of a call, and each refusal from each of its causes.
pub mod reached {
    crate::branches! {
        MEAN_BELOW: "refused by 1: a mean just below 0.0001",
        MEAN_ABOVE: "refused by 1: a mean just above 13,108",
        MEAN_NAN: "refused by 1: a mean that is NaN",
        VAR_NEGATIVE: "refused by 1: the variance next below zero",
        VAR_INFINITE: "refused by 1: an infinite variance",
        VAR_NAN: "refused by 1: a variance that is NaN",
        MEAN_LEAST: "sound: a mean of 0.0001",
        MEAN_MOST: "sound: a mean of 13,108",
        VAR_MINUS_ZERO: "sound: a variance of -0",
        VAR_MOST: "sound: a variance of the largest f32",
        ABSENT_JUNK: "sound: a class without observations holds numbers that no sound one has",
        READER_REFUSED: "a reader refused by 1",
        FIVE_NAN: "refused by 5: NaN",
        FIVE_INFINITE: "refused by 5: infinite",
        SIX: "refused by 6: just below 1/64",
        SIX_NEGATIVE: "refused by 6: zero or less",
        SEVEN: "refused by 7: just above 262,144",
        NINE_BELOW: "refused by 9: just below 20",
        NINE_ABOVE: "refused by 9: just above 150",
        NINE_NAN: "refused by 9: NaN",
        ONE_FIRST: "refused by 1 where the duration or the dit is bad too",
        DURATION_FIRST: "refused by 5 to 7 where the dit is bad too",
        NO_CLASS: "a number that no class has",
        SHORTEST: "observed: 1/64",
        LONGEST: "observed: 262,144",
        DIT_LEAST: "observed: against a dit of 20",
        DIT_MOST: "observed: against a dit of 150",
        FIRST: "observed: the first of its class",
        LATER: "observed: a later one",
        SATURATED: "observed: the count stays at its largest",
        LAST_COUNTED: "observed: the count becomes its largest",
        LARGE_VARIANCE: "observed: onto a variance above a quarter of the largest f32",
        MEAN_IS: "mean_dits: one",
        MEAN_ABSENT: "mean_dits: none",
        RATIO_DOTS: "dash_dot_ratio: none, two dots or fewer",
        RATIO_DASHES: "dash_dot_ratio: none, two dashes or fewer",
        RATIO_THREE: "dash_dot_ratio: one, of three each",
        RATIO_IS: "dash_dot_ratio: one",
        WORD_ABSENT: "sender_word_dits: none",
        WORD_NOMINAL: "sender_word_dits: by the nominal ratio",
        WORD_MEAN: "sender_word_dits: the geometric mean",
        WORD_LOW: "sender_word_dits: clamped to 3",
        WORD_HIGH: "sender_word_dits: clamped to 12",
        WORD_INSIDE: "sender_word_dits: not clamped",
        PAUSE_NAN: "is_pause: NaN is no",
        PAUSE_YES: "is_pause: yes",
        PAUSE_NO: "is_pause: no",
        PAUSE_EQUAL: "is_pause: yes, at the limit",
        PAUSE_GAP: "is_pause: the limit is four char gaps",
        REPORT_NONE: "estimates: no class",
        REPORT_ALL: "estimates: all five",
        REPORT_SOME: "estimates: some",
        REPORT_DIT: "estimates: a dit that no sender has",
    }
}

/// A call, its numbers by their bits; or a class of the statistics set, on both sides, before the next call.
#[derive(Clone, Copy, PartialEq)]
pub enum Call {
    Observe {
        class: u8,
        dur: u32,
        dit: u32,
    },
    Mean {
        class: u8,
    },
    Ratio,
    Word,
    Pause {
        dits: u32,
    },
    Estimates {
        dit: u32,
    },
    Set {
        class: u8,
        mean: u32,
        var: u32,
        n: u32,
    },
    Fresh,
}

impl fmt::Debug for Call {
    fn fmt(&self, f: &mut fmt::Formatter<'_>) -> fmt::Result {
        match *self {
            Call::Observe { class, dur, dit } => {
                write!(
                    f,
                    "observe class {class}, {} against {}",
                    show(dur),
                    show(dit)
                )
            }
            Call::Mean { class } => write!(f, "mean_dits of class {class}"),
            Call::Ratio => write!(f, "dash_dot_ratio"),
            Call::Word => write!(f, "sender_word_dits"),
            Call::Pause { dits } => write!(f, "is_pause of {}", show(dits)),
            Call::Estimates { dit } => write!(f, "estimates with {}", show(dit)),
            Call::Set {
                class,
                mean,
                var,
                n,
            } => {
                write!(f, "class {class} set to {} {} {n}", show(mean), show(var))
            }
            Call::Fresh => write!(f, "new"),
        }
    }
}

/// What a call answers: the code, and what it tells.
#[derive(Clone, Copy)]
pub struct Answer {
    pub code: u8,
    pub told: Told,
}

#[derive(Clone, Copy)]
pub enum Told {
    Nothing,
    /// Whether there is one, and the number, 0 where there is none.
    Number(bool, f32),
    Flag(bool),
    Report(f32, Plain),
}

/// A number by its bits.
fn same_float(a: f32, b: f32) -> bool {
    a.to_bits() == b.to_bits()
}

impl Answer {
    fn same(&self, other: &Answer) -> bool {
        self.code == other.code
            && match (self.told, other.told) {
                (Told::Nothing, Told::Nothing) => true,
                (Told::Number(a, x), Told::Number(b, y)) => a == b && same_float(x, y),
                (Told::Flag(a), Told::Flag(b)) => a == b,
                (Told::Report(a, s), Told::Report(b, t)) => {
                    same_float(a, b) && forms::identical(&s, &t)
                }
                _ => false,
            }
    }

    fn show(&self) -> String {
        let told = match self.told {
            Told::Nothing => String::new(),
            Told::Number(has, x) => format!(", {has} {}", show(x.to_bits())),
            Told::Flag(b) => format!(", {b}"),
            Told::Report(dit, t) => format!(", dit {}, {t:?}", show(dit.to_bits())),
        };
        format!("code {}{told}", self.code)
    }
}

/// manta's statistics in the library's form.
pub fn plain(t: &SenderTiming) -> Plain {
    Plain {
        stats: t.stats.map(|s| ClassStats {
            mean: s.mean,
            var: s.var,
            n: s.n,
        }),
    }
}

fn class_of(number: u8) -> Option<TimingClass> {
    use TimingClass::*;
    [Dot, Dash, ElementGap, CharGap, WordGap]
        .get(usize::from(number))
        .copied()
}

/// Refusal 1.
fn unsound(t: &SenderTiming) -> Result<(), u8> {
    for c in t.stats.iter().filter(|c| c.n > 0) {
        refusals::class(c.mean, c.var)?;
    }
    Ok(())
}

fn number(x: Option<f32>) -> Told {
    Told::Number(x.is_some(), x.unwrap_or(0.0))
}

/// manta's Rust, with document 01's refusals before it: what the library is compared with.
#[derive(Clone)]
pub struct Rust(pub SenderTiming);

impl Rust {
    pub fn call(&mut self, call: Call) -> Answer {
        match self.told(call) {
            Ok(told) => Answer { code: 0, told },
            Err(code) => Answer {
                code,
                told: match call {
                    Call::Mean { .. } | Call::Ratio | Call::Word => number(None),
                    Call::Pause { .. } => Told::Flag(false),
                    Call::Estimates { .. } => Told::Report(0.0, Plain::default()),
                    _ => Told::Nothing,
                },
            },
        }
    }

    fn told(&mut self, call: Call) -> Result<Told, u8> {
        let t = &mut self.0;
        let float = f32::from_bits;
        Ok(match call {
            Call::Observe { class, dur, dit } => {
                let class = class_of(class).ok_or(255)?;
                unsound(t)?;
                refusals::duration(float(dur))?;
                refusals::dit(float(dit))?;
                t.observe(class, float(dur), float(dit));
                Told::Nothing
            }
            Call::Mean { class } => {
                let class = class_of(class).ok_or(255)?;
                unsound(t)?;
                number(t.mean_dits(class))
            }
            Call::Ratio => {
                unsound(t)?;
                number(t.dash_dot_ratio())
            }
            Call::Word => {
                unsound(t)?;
                number(t.sender_word_dits())
            }
            Call::Pause { dits } => {
                unsound(t)?;
                Told::Flag(t.is_pause(float(dits)))
            }
            Call::Estimates { dit } => {
                unsound(t)?;
                let e = t.estimates(float(dit));
                let class = |c: Option<ClassEstimate>| {
                    c.map_or(ClassStats::default(), |c| ClassStats {
                        mean: c.mean_dits,
                        var: c.var_dits2,
                        n: c.n,
                    })
                };
                let stats = [e.dot, e.dash, e.element_gap, e.char_gap, e.word_gap].map(class);
                Told::Report(e.dit_ms, Plain { stats })
            }
            Call::Set {
                class,
                mean,
                var,
                n,
            } => {
                let s = &mut t.stats[usize::from(class) % 5];
                (s.mean, s.var, s.n) = (float(mean), float(var), n);
                Told::Nothing
            }
            Call::Fresh => {
                *t = SenderTiming::new();
                Told::Nothing
            }
        })
    }
}

/// The library's answer, and the statistics that it hands back.
fn library(t: Plain, call: Call) -> (Answer, Plain) {
    let float = f32::from_bits;
    // no field of an answer is left out
    let number = |ours::Number { code, has, value }| (code, Told::Number(has, value));
    let (mut next, mut code, mut told) = (t, 0, Told::Nothing);
    match call {
        Call::Observe { class, dur, dit } => {
            ours::Observed { code, timing: next } = ours::observe(t, class, float(dur), float(dit));
        }
        Call::Mean { class } => (code, told) = number(ours::mean_dits(t, class)),
        Call::Ratio => (code, told) = number(ours::dash_dot_ratio(t)),
        Call::Word => (code, told) = number(ours::word_dits(t)),
        Call::Pause { dits } => {
            let yes;
            ours::Flag { code, yes } = ours::is_pause(t, float(dits));
            told = Told::Flag(yes);
        }
        Call::Estimates { dit } => {
            let (dit_ms, classes);
            ours::Report {
                code,
                dit_ms,
                classes,
            } = ours::estimates(t, float(dit));
            told = Told::Report(dit_ms, classes);
        }
        Call::Set {
            class,
            mean,
            var,
            n,
        } => {
            next.stats[usize::from(class) % 5] = ClassStats {
                mean: float(mean),
                var: float(var),
                n,
            };
        }
        Call::Fresh => next = ours::new(),
    }
    (Answer { code, told }, next)
}

/// One call to both sides: the answers, and the whole statistics afterwards, which after a refusal are what was handed
/// in.
fn step(t: &mut Plain, rust: &mut Rust, call: Call) -> Result<(), Difference> {
    let back = library(*t, call);
    *t = hold(rust, call, back)?;
    Ok(())
}

/// What the library answers to a call and hands back, held to the Rust's: every number, also those of a class that was
/// never observed.
fn hold(rust: &mut Rust, call: Call, (ours, next): (Answer, Plain)) -> Result<Plain, Difference> {
    let theirs = rust.call(call);
    if !ours.same(&theirs) {
        return Err(Difference {
            call: format!("{call:?}"),
            hullathan: ours.show(),
            rust: theirs.show(),
        });
    }
    let expected = plain(&rust.0);
    if !forms::identical(&next, &expected) {
        let (ours, theirs) = (State::from(&next), State::from(&expected));
        return Err(states::unlike(&format!("{call:?}"), &ours, &theirs));
    }
    Ok(next)
}

/// Counts what the call will reach, from the statistics before it.
fn count(t: &SenderTiming, call: Call) {
    use reached::*;
    let float = f32::from_bits;
    let next = |x: f32| f32::from_bits(x.to_bits() + 1);
    let last = |x: f32| f32::from_bits(x.to_bits() - 1);
    let sound = unsound(t).is_ok();
    let is_call = !matches!(call, Call::Set { .. } | Call::Fresh);
    if is_call && !sound {
        for c in t.stats.iter().filter(|c| c.n > 0) {
            MEAN_BELOW.when(c.mean == last(0.0001));
            MEAN_ABOVE.when(c.mean == next(13_108.0));
            MEAN_NAN.when(c.mean.is_nan());
            VAR_NEGATIVE.when(c.var.to_bits() == 0x8000_0001);
            VAR_INFINITE.when(c.var == f32::INFINITY);
            VAR_NAN.when(c.var.is_nan());
        }
        READER_REFUSED.when(!matches!(call, Call::Observe { .. }));
    }
    if is_call && sound {
        for c in &t.stats {
            MEAN_LEAST.when(c.n > 0 && c.mean == 0.0001);
            MEAN_MOST.when(c.n > 0 && c.mean == 13_108.0);
            VAR_MINUS_ZERO.when(c.n > 0 && c.var.to_bits() == 1 << 31);
            VAR_MOST.when(c.n > 0 && c.var == f32::MAX);
            ABSENT_JUNK.when(c.n == 0 && refusals::class(c.mean, c.var).is_err() && c.var.is_nan());
        }
    }
    match call {
        Call::Observe { class, dur, dit } => {
            let (dur, dit) = (float(dur), float(dit));
            let bad = (
                refusals::duration(dur).is_err(),
                refusals::dit(dit).is_err(),
            );
            NO_CLASS.when(class > 4);
            if class > 4 {
                return;
            }
            ONE_FIRST.when(!sound && (bad.0 || bad.1));
            if !sound {
                return;
            }
            DURATION_FIRST.when(bad.0 && bad.1);
            FIVE_NAN.when(dur.is_nan());
            FIVE_INFINITE.when(dur.is_infinite());
            SIX.when(dur == last(1.0 / 64.0));
            SIX_NEGATIVE.when(dur <= 0.0 && dur.is_finite());
            SEVEN.when(dur == next(262_144.0));
            if bad.0 {
                return;
            }
            NINE_BELOW.when(dit == last(20.0));
            NINE_ABOVE.when(dit == next(150.0));
            NINE_NAN.when(dit.is_nan());
            if bad.1 {
                return;
            }
            let c = &t.stats[usize::from(class)];
            SHORTEST.when(dur == 1.0 / 64.0);
            LONGEST.when(dur == 262_144.0);
            DIT_LEAST.when(dit == 20.0);
            DIT_MOST.when(dit == 150.0);
            FIRST.when(c.n == 0);
            LATER.when(c.n > 0);
            SATURATED.when(c.n == u32::MAX);
            LAST_COUNTED.when(c.n == u32::MAX - 1);
            LARGE_VARIANCE.when(c.n > 0 && c.var > f32::MAX / 4.0);
        }
        Call::Mean { class } => {
            NO_CLASS.when(class > 4);
            if let (true, Some(c)) = (sound, t.stats.get(usize::from(class))) {
                MEAN_IS.when(c.n > 0);
                MEAN_ABSENT.when(c.n == 0);
            }
        }
        Call::Ratio if sound => {
            let (dot, dash) = (t.stats[0].n, t.stats[1].n);
            RATIO_DOTS.when(dot == 2 && dash > 2);
            RATIO_DASHES.when(dash == 2 && dot > 2);
            RATIO_THREE.when(dot == 3 && dash == 3);
            RATIO_IS.when(dot > 3 && dash > 3);
        }
        Call::Word if sound => {
            let (char_gap, word_gap) = (t.stats[3], t.stats[4]);
            WORD_ABSENT.when(char_gap.n == 0);
            if let Some(w) = t.sender_word_dits() {
                WORD_NOMINAL.when(word_gap.n == 0);
                WORD_MEAN.when(word_gap.n > 0);
                WORD_LOW.when(w == 3.0);
                WORD_HIGH.when(w == 12.0);
                WORD_INSIDE.when(w > 3.0 && w < 12.0);
            }
        }
        Call::Pause { dits } if sound => {
            let dits = float(dits);
            let yes = t.is_pause(dits);
            let gap = if t.stats[3].n > 0 {
                t.stats[3].mean
            } else {
                0.0
            };
            let limit = f32::max(15.0, 4.0 * gap);
            PAUSE_NAN.when(dits.is_nan());
            PAUSE_YES.when(yes && dits > limit);
            PAUSE_NO.when(!yes && !dits.is_nan());
            PAUSE_EQUAL.when(yes && dits == limit);
            PAUSE_GAP.when(limit > 15.0);
        }
        Call::Estimates { dit } if sound => {
            let held = t.stats.iter().filter(|c| c.n > 0).count();
            REPORT_NONE.when(held == 0);
            REPORT_ALL.when(held == 5);
            REPORT_SOME.when((1..5).contains(&held));
            REPORT_DIT.when(refusals::dit(float(dit)).is_err());
        }
        _ => {}
    }
}

const NAN: u32 = 0x7FC0_0000;
const INFINITY: u32 = 0x7F80_0000;
const MINUS: u32 = 1 << 31;

fn odd(random: &mut Random) -> u32 {
    random.pick(&[
        NAN,
        INFINITY,
        INFINITY | MINUS,
        0,
        MINUS,
        1,
        MINUS | 1,
        0x7F7F_FFFF,
        0xBF80_0000,
    ])
}

/// A duration: mostly that of its class against the dit, or near a limit, or odd.
fn duration(random: &mut Random, class: u8, dit: f32) -> u32 {
    match random.below(16) {
        0 => about(random, &[1.0 / 64.0, 262_144.0]),
        1 => odd(random),
        2 => (random.scale(1.0 / 64.0, 262_144.0) as f32).to_bits(),
        _ => {
            let units = [1.0, 3.0, 1.0, 3.0, 7.0][usize::from(class) % 5];
            let jitter = 0.5 + random.fraction() as f32;
            (dit * units * jitter).to_bits()
        }
    }
}

fn observe(random: &mut Random, speed: f32) -> Call {
    let class = random.pick(&[0, 0, 1, 1, 2, 2, 3, 3, 4]);
    let dit = match random.below(16) {
        0 => about(random, &[20.0, 150.0]),
        1 => odd(random),
        2 => (random.scale(20.0, 150.0) as f32).to_bits(),
        _ => speed.to_bits(),
    };
    let scale = Some(f32::from_bits(dit))
        .filter(|d| d.is_finite())
        .unwrap_or(60.0);
    let dur = duration(random, class, scale);
    let class = if random.below(64) == 0 {
        5 + random.below(251) as u8
    } else {
        class
    };
    Call::Observe { class, dur, dit }
}

/// A class set: sound, at one of the limits, next to it, or with numbers that mean nothing.
fn set(random: &mut Random) -> Call {
    let any = random.bits32();
    let n = random.pick(&[0, 1, 2, 3, 4, u32::MAX, u32::MAX - 1, u32::MAX - 2, any]);
    let mean = match random.below(8) {
        0 | 1 => about(random, &[0.0001, 13_108.0]),
        2 if random.below(2) == 0 => odd(random),
        3 => (random.scale(0.0001, 13_108.0) as f32).to_bits(),
        _ => (random.scale(0.5, 12.0) as f32).to_bits(),
    };
    let var = match random.below(8) {
        0 => about(random, &[f32::MAX, f32::MAX / 2.0, 0.0, f32::MIN_POSITIVE]),
        1 if random.below(2) == 0 => odd(random),
        2 => MINUS,
        _ => (random.scale(1e-6, 100.0) as f32).to_bits(),
    };
    Call::Set {
        class: random.below(5) as u8,
        mean,
        var,
        n,
    }
}

/// A gap in dits: at the limit of a pause, or odd, or any.
fn pause(random: &mut Random, gap: f32) -> u32 {
    match random.below(4) {
        0 => about(random, &[15.0, 4.0 * gap]),
        1 => odd(random),
        _ => (random.scale(1.0, 100.0) as f32).to_bits(),
    }
}

pub struct Sender;

impl Layer for Sender {
    type Case = Vec<Call>;

    const NAME: &'static str = "sender";

    fn fixed() -> Vec<Vec<Call>> {
        vec![crate::replay::sender::script()]
    }

    /// Statistics that are learned from a sender, with readings between; here and there a class is set.
    fn random(random: &mut Random) -> Vec<Call> {
        let speed = random.scale(20.0, 150.0) as f32;
        let sets = random.pick(&[0, 0, 4, 12]);
        let mut rust = Rust(SenderTiming::new());
        let mut calls = Vec::new();
        for _ in 0..8 + random.below(56) {
            let gap = rust.0.mean_dits(TimingClass::CharGap).unwrap_or(3.0);
            let call = match random.below(32) {
                0 => Call::Ratio,
                1 => Call::Word,
                2 | 3 => Call::Pause {
                    dits: pause(random, gap),
                },
                4 => Call::Estimates {
                    dit: random.pick(&[speed.to_bits(), NAN, 0]),
                },
                5 | 6 => Call::Mean {
                    class: random.below(6) as u8,
                },
                7 if random.below(8) == 0 => Call::Fresh,
                k if k >= 32 - sets => set(random),
                _ => observe(random, speed),
            };
            rust.call(call);
            calls.push(call);
            // what is unsound stays so: one call is made of it, and the class is set anew
            if let (Call::Set { class, .. }, true) = (call, unsound(&rust.0).is_err()) {
                let seen = random.pick(&[
                    Call::Ratio,
                    Call::Word,
                    Call::Mean { class: 1 },
                    Call::Pause { dits: 0 },
                    Call::Estimates { dit: 0 },
                ]);
                let seen = if random.below(3) == 0 {
                    seen
                } else {
                    observe(random, speed)
                };
                let mend = Call::Set {
                    class,
                    mean: 1f32.to_bits(),
                    var: 0,
                    n: random.pick(&[0, 1, 2, 3, 9]),
                };
                for c in [seen, mend] {
                    rust.call(c);
                    calls.push(c);
                }
            }
        }
        calls
    }

    fn run(case: &Vec<Call>) -> Result<u64, Difference> {
        let mut t = ours::new();
        let mut rust = Rust(SenderTiming::new());
        for &call in case {
            count(&rust.0, call);
            step(&mut t, &mut rust, call)?;
        }
        Ok(case.len() as u64)
    }

    fn smaller(case: &Vec<Call>) -> Vec<Vec<Call>> {
        smaller_list(case, simpler)
    }

    fn reached() -> &'static [&'static crate::reached::Branch] {
        reached::ALL
    }
}

impl Follow for Sender {
    fn follow(case: &Vec<Call>) {
        let mut rust = Rust(SenderTiming::new());
        for &call in case {
            count(&rust.0, call);
            rust.call(call);
        }
    }
}

/// The call with one of its numbers made simpler.
fn simpler(call: &Call) -> Vec<Call> {
    match *call {
        Call::Observe { class, dur, dit } => {
            let durs = simpler_f32(dur)
                .into_iter()
                .map(|dur| Call::Observe { class, dur, dit });
            let dits = simpler_f32(dit)
                .into_iter()
                .map(|dit| Call::Observe { class, dur, dit });
            durs.chain(dits).collect()
        }
        Call::Pause { dits } => simpler_f32(dits)
            .into_iter()
            .map(|dits| Call::Pause { dits })
            .collect(),
        Call::Estimates { dit } => simpler_f32(dit)
            .into_iter()
            .map(|dit| Call::Estimates { dit })
            .collect(),
        Call::Set {
            class,
            mean,
            var,
            n,
        } => {
            let means = simpler_f32(mean).into_iter().map(|mean| Call::Set {
                class,
                mean,
                var,
                n,
            });
            let vars = simpler_f32(var).into_iter().map(|var| Call::Set {
                class,
                mean,
                var,
                n,
            });
            let ns = simpler_count(u64::from(n)).into_iter().map(|n| Call::Set {
                class,
                mean,
                var,
                n: n as u32,
            });
            means.chain(vars).chain(ns).collect()
        }
        _ => Vec::new(),
    }
}

#[cfg(test)]
mod tests {
    use super::*;
    use crate::forms::{places, turned};

    fn full() -> Plain {
        let mut t = Plain::default();
        for (i, c) in (1..).zip(t.stats.iter_mut()) {
            (c.mean, c.var, c.n) = (i as f32, 0.5, 3 + i);
        }
        t
    }

    fn rust(t: &Plain) -> Rust {
        let mut m = SenderTiming::new();
        for (s, c) in m.stats.iter_mut().zip(&t.stats) {
            (s.mean, s.var, s.n) = (c.mean, c.var, c.n);
        }
        Rust(m)
    }

    /// What the comparison sees: each byte of the statistics on either side, and each number of an answer.
    #[test]
    fn every_byte() {
        let (t, d) = (full(), 60f32.to_bits());
        let calls = [
            Call::Observe {
                class: 1,
                dur: d,
                dit: d,
            },
            Call::Observe {
                class: 5,
                dur: d,
                dit: d,
            },
            Call::Mean { class: 2 },
            Call::Ratio,
            Call::Word,
            Call::Pause { dits: d },
            Call::Estimates { dit: d },
        ];
        for call in calls {
            let back = library(t, call);
            let held = |back| hold(&mut rust(&t), call, back).is_ok();
            assert!(held(back), "{call:?}");
            for at in places::<Plain>() {
                assert!(!held((back.0, turned(&back.1, at))), "{call:?}, byte {at}");
                let other = hold(&mut rust(&turned(&t, at)), call, back);
                assert!(other.is_err(), "{call:?}, byte {at} of the Rust's");
            }
            let code = back.0.code ^ 1;
            assert!(!held((Answer { code, ..back.0 }, back.1)));
            for told in damaged(back.0.told) {
                assert!(!held((Answer { told, ..back.0 }, back.1)), "{call:?}");
            }
        }
    }

    /// Each number of an answer changed.
    fn damaged(told: Told) -> Vec<Told> {
        let next = |x: f32| f32::from_bits(x.to_bits() ^ 1);
        match told {
            Told::Nothing => vec![Told::Flag(false)],
            Told::Number(has, x) => vec![Told::Number(!has, x), Told::Number(has, next(x))],
            Told::Flag(yes) => vec![Told::Flag(!yes)],
            Told::Report(dit, t) => {
                let each = places::<Plain>().into_iter();
                let other = each.map(|at| Told::Report(dit, turned(&t, at)));
                other.chain([Told::Report(next(dit), t)]).collect()
            }
        }
    }

    /// A number that is absent is 0, and one of a class that was never observed stays as it was.
    #[test]
    fn absent_numbers() {
        let t = Plain::default();
        let (answer, next) = library(t, Call::Ratio);
        let held = |back| hold(&mut rust(&t), Call::Ratio, back).is_ok();
        assert!(held((answer, next)));
        let told = Told::Number(false, 1.0);
        assert!(!held((Answer { told, ..answer }, next)));
        let mut other = next;
        other.stats[3].mean = 1.0;
        assert!(!held((answer, other)));
    }
}
