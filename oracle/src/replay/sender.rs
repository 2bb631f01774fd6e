//! The list of calls that the program `sender_replay` runs.
//!
//! A line of the script is a letter, the number of a class and three fields of 8 hexadecimal digits, with blanks between. The letters:
//! O observe (duration, dit), M mean_dits, R dash_dot_ratio, W sender_word_dits, P is_pause (dits), E estimates (dit),
//! S sets a class (mean, variance, count), N starts anew. An answer is the letter, the code, whether there is a number (or yes), the
//! number, and the five classes: of a report, for E, and then of the statistics as they are afterwards.

use super::{float, Files};
use crate::hullathan::sender::{ClassStats, SenderTiming as Plain};
use crate::layers::sender::{plain, Call, Rust, Sender, Told};
use crate::manta::timing::SenderTiming;

fn line(call: Call) -> String {
    let (letter, class, a, b, c) = match call {
        Call::Observe { class, dur, dit } => ('O', class, dur, dit, 0),
        Call::Mean { class } => ('M', class, 0, 0, 0),
        Call::Ratio => ('R', 0, 0, 0, 0),
        Call::Word => ('W', 0, 0, 0, 0),
        Call::Pause { dits } => ('P', 0, dits, 0, 0),
        Call::Estimates { dit } => ('E', 0, dit, 0, 0),
        Call::Set {
            class,
            mean,
            var,
            n,
        } => ('S', class, mean, var, n),
        Call::Fresh => ('N', 0, 0, 0, 0),
    };
    format!("{letter} {class} {a:08X} {b:08X} {c:08X}\n")
}

/// Five classes: mean, variance, count.
fn classes(t: &Plain) -> String {
    let class = |c: &ClassStats| format!(" {} {} {:08X}", float(c.mean), float(c.var), c.n);
    t.stats.iter().map(class).collect()
}

fn answer(rust: &mut Rust, call: Call) -> String {
    let letter = line(call)[..1].to_string();
    let a = rust.call(call);
    let (has, value, report) = match a.told {
        Told::Nothing => (0, 0.0, String::new()),
        Told::Number(has, x) => (u8::from(has), x, String::new()),
        Told::Flag(b) => (u8::from(b), 0.0, String::new()),
        Told::Report(dit, t) => (0, dit, classes(&t)),
    };
    let state = classes(&plain(&rust.0));
    format!(
        "{letter} {:02X} {has} {}{report}{state}\n",
        a.code,
        float(value)
    )
}

pub fn files() -> Files {
    let mut rust = Rust(SenderTiming::new());
    let calls = script();
    Files {
        stdin: calls.iter().map(|&c| line(c)).collect::<String>().into(),
        stdout: calls.iter().map(|&c| answer(&mut rust, c)).collect(),
    }
}

const NAN: f32 = f32::NAN;
const INFINITE: f32 = f32::INFINITY;

fn next(x: f32) -> f32 {
    f32::from_bits(x.to_bits() + 1)
}

fn last(x: f32) -> f32 {
    f32::from_bits(x.to_bits() - 1)
}

fn observe(class: u8, dur: f32, dit: f32) -> Call {
    Call::Observe {
        class,
        dur: bits(dur),
        dit: bits(dit),
    }
}

fn set(class: u8, mean: f32, var: f32, n: u32) -> Call {
    Call::Set {
        class,
        mean: bits(mean),
        var: bits(var),
        n,
    }
}

fn bits(x: f32) -> u32 {
    if x.is_nan() {
        0x7FC0_0000
    } else {
        x.to_bits()
    }
}

fn pause(dits: f32) -> Call {
    Call::Pause { dits: bits(dits) }
}

fn estimates(dit: f32) -> Call {
    Call::Estimates { dit: bits(dit) }
}

/// All readings.
fn readings() -> Vec<Call> {
    let means = (0..5).map(|class| Call::Mean { class });
    means
        .chain([Call::Ratio, Call::Word, pause(15.0), estimates(60.0)])
        .collect()
}

/// Every call and every refusal, from both sides of each limit.
pub fn script() -> Vec<Call> {
    let mut s = readings();
    // a sender is learned: dot, dash, the gaps
    for i in 0..4u8 {
        let drift = 1.0 + 0.07 * f32::from(i);
        for (class, units) in [(0, 0.95), (2, 1.1), (1, 3.2), (3, 3.3), (4, 7.5)] {
            s.push(observe(class, 57.0 * units * drift, 60.0));
            s.extend([Call::Ratio, Call::Word]);
        }
    }
    s.extend(readings());
    s.extend([
        pause(NAN),
        pause(last(15.0)),
        pause(1000.0),
        pause(-1.0),
        estimates(NAN),
        estimates(-0.0),
    ]);
    // refusals of what is observed, and the order among them
    for dur in [
        NAN,
        INFINITE,
        -INFINITE,
        0.0,
        -0.0,
        -60.0,
        last(1.0 / 64.0),
        1.0 / 64.0,
        262_144.0,
        next(262_144.0),
        f32::MAX,
    ] {
        s.extend([observe(2, dur, 60.0), observe(2, dur, 19.0)]);
    }
    for dit in [
        NAN,
        INFINITE,
        -20.0,
        0.0,
        last(20.0),
        20.0,
        150.0,
        next(150.0),
    ] {
        s.push(observe(3, 180.0, dit));
    }
    for class in [5, 9] {
        s.extend([
            observe(class, 60.0, 60.0),
            observe(class, NAN, NAN),
            Call::Mean { class },
        ]);
    }
    // unsound statistics, and what is just sound
    for (mean, var) in [
        (last(0.0001), 0.0),
        (0.0001, 0.0),
        (13_108.0, 1.0),
        (next(13_108.0), 1.0),
        (NAN, 1.0),
        (-1.0, 1.0),
        (3.0, -f32::from_bits(1)),
        (3.0, -0.0),
        (3.0, INFINITE),
        (3.0, NAN),
        (3.0, f32::MAX),
    ] {
        for class in 0..5 {
            s.extend([Call::Fresh, set(class, mean, var, 5)]);
            s.push(match class {
                0 => observe(0, NAN, NAN),
                1 => observe(1, 180.0, 60.0),
                2 => Call::Ratio,
                3 => Call::Word,
                _ => estimates(60.0),
            });
        }
        s.extend([pause(30.0), Call::Mean { class: 0 }]);
    }
    // numbers of a class that was never observed are no part of it
    s.extend([Call::Fresh, set(3, NAN, NAN, 0), set(4, 0.0, INFINITE, 0)]);
    s.extend([
        Call::Word,
        pause(15.0),
        estimates(1.0),
        observe(4, 60.0, 60.0),
        observe(3, 60.0, 60.0),
        Call::Word,
    ]);
    // counts at their largest, and the ratio from three on
    s.push(Call::Fresh);
    s.extend([
        set(0, 1.0, 0.5, 2),
        set(1, 3.0, 0.5, 3),
        Call::Ratio,
        observe(0, 61.0, 60.0),
        Call::Ratio,
    ]);
    s.extend([set(1, 3.0, 0.5, 2), Call::Ratio]);
    s.extend([
        set(0, 1.0, 0.5, u32::MAX - 1),
        observe(0, 61.0, 60.0),
        observe(0, 62.0, 60.0),
        Call::Ratio,
    ]);
    // the boundary below, within and above its limits, and a pause by the char gap
    for (gap, word) in [(0.5, 0.9), (2.5, 7.0), (40.0, 90.0)] {
        s.extend([
            Call::Fresh,
            set(3, gap, 0.1, 1),
            Call::Word,
            set(4, word, 0.1, 1),
            Call::Word,
        ]);
        s.extend([
            pause(last(4.0 * gap)),
            pause(4.0 * gap),
            pause(next(4.0 * gap)),
        ]);
    }
    s
}

pub(super) fn unreached() -> Vec<&'static str> {
    super::missing::<Sender>(&super::reaches::<Sender>(&script()))
}
