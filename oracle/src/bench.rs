//! How long a call takes, beside Rust's own, on the same inputs.

#[cfg(manta)]
pub mod hosts;
#[cfg(manta)]
pub mod journal;
#[cfg(manta)]
mod turns;

use crate::hullathan::numbers as ours;
use crate::log01;
use crate::random::Random;
use std::hint::black_box;
use std::time::Instant;

/// How many inputs a function is given, how often in one run, and how many runs there are.
const INPUTS: usize = 4096;
const ROUNDS: usize = 24;
const RUNS: usize = 25;

/// A function called on all its inputs.
type Loop<'a> = Box<dyn FnMut() + 'a>;

/// Nanoseconds for one call in each loop: the median of the runs. The loops run by turns, so that a busy machine slows all alike.
fn medians(loops: Vec<Loop>) -> Vec<f64> {
    medians_of(loops, ROUNDS)
}

fn medians_of(mut loops: Vec<Loop>, rounds: usize) -> Vec<f64> {
    let mut times = vec![Vec::new(); loops.len()];
    for _ in 0..RUNS {
        for (run, t) in loops.iter_mut().zip(&mut times) {
            let start = Instant::now();
            for _ in 0..rounds {
                run();
            }
            t.push(start.elapsed().as_nanos() as f64 / (rounds * INPUTS) as f64);
        }
    }
    for t in &mut times {
        t.sort_by(f64::total_cmp);
    }
    times.into_iter().map(|t| t[RUNS / 2]).collect()
}

/// An input that can be made to wait for the last result.
trait Input: Copy {
    /// The input itself where `mask` is 0, which the compiler cannot know.
    fn after(self, last: u64, mask: u64) -> Self;
}

impl Input for f32 {
    fn after(self, last: u64, mask: u64) -> f32 {
        f32::from_bits(self.to_bits() ^ (last & mask) as u32)
    }
}

impl Input for f64 {
    fn after(self, last: u64, mask: u64) -> f64 {
        f64::from_bits(self.to_bits() ^ last & mask)
    }
}

impl Input for (f32, f32) {
    fn after(self, last: u64, mask: u64) -> (f32, f32) {
        (self.0, self.1.after(last, mask))
    }
}

/// A result that the next input can wait for.
trait Output {
    fn bits(self) -> u64;
}

impl Output for f32 {
    fn bits(self) -> u64 {
        u64::from(self.to_bits())
    }
}

impl Output for f64 {
    fn bits(self) -> u64 {
        self.to_bits()
    }
}

impl Output for bool {
    fn bits(self) -> u64 {
        u64::from(self)
    }
}

/// How the calls of a table follow each other.
#[derive(Clone, Copy)]
enum Form {
    /// No call waits for another.
    Apart,
    /// Each call waits for the one before it.
    InTurn,
}

impl Form {
    fn calls<'a, A: Input, B: Output>(self, inputs: &'a [A], f: impl Fn(A) -> B + 'a) -> Loop<'a> {
        match self {
            Form::Apart => Box::new(move || {
                for &v in inputs {
                    black_box(f(black_box(v)));
                }
            }),
            Form::InTurn => {
                let mask = black_box(0);
                Box::new(move || {
                    let mut last = 0;
                    for &v in inputs {
                        last = f(v.after(last, mask)).bits();
                    }
                    black_box(last);
                })
            }
        }
    }
}

/// A line for each function that ours stands beside.
fn print(name: &str, ours: Loop, beside: Vec<(&str, Loop)>) {
    let (names, others): (Vec<_>, Vec<_>) = beside.into_iter().unzip();
    let times = medians(std::iter::once(ours).chain(others).collect());
    for (other, t) in names.iter().zip(&times[1..]) {
        let ratio = times[0] / t;
        println!(
            "| {name} | {:.1} | {other} | {t:.1} | {ratio:.1} |",
            times[0]
        );
    }
}

/// Calls one of the library's functions: what it leaves behind the reference.
fn answer<T: Default>(f: impl FnOnce(&mut T) -> u8) -> T {
    let mut out = T::default();
    f(&mut out);
    out
}

fn inputs<A>(seed: u64, low: f64, high: f64, of: fn(f64) -> A) -> Vec<A> {
    let mut random = Random::new(seed);
    (0..INPUTS).map(|_| of(random.scale(low, high))).collect()
}

fn table(title: &str, form: Form) {
    println!("{title}\n\n| function | ns | beside | ns | ratio |\n|---|---|---|---|---|");
    // the product of two centroids, of which the boundary is the root
    let products = inputs(1, 20.0 * 16.0, 150.0 * 2500.0, |x| x as f32);
    print(
        "root of an f32",
        form.calls(&products, |v| answer(|out| ours::sqrt32(v, out))),
        vec![("`f32::sqrt`", form.calls(&products, f32::sqrt))],
    );
    // a mark, and such a product; a branch on the result is foretold, so no call waits for it
    if let Form::Apart = form {
        let marks = inputs(5, 20.0, 900.0, |x| x as f32);
        let tests: Vec<_> = marks
            .iter()
            .copied()
            .zip(products.iter().copied())
            .collect();
        print(
            "x below the root of v",
            form.calls(&tests, |(x, v)| answer(|out| ours::below_root(x, v, out))),
            vec![("`x < v.sqrt()`", form.calls(&tests, |(x, v)| x < v.sqrt()))],
        );
    }
    // a variance of marks
    let variances = inputs(2, 1.0 / 4096.0, 262_144.0 * 262_144.0, |x| x);
    print(
        "root of an f64",
        form.calls(&variances, |v| answer(|out| ours::sqrt64(v, out))),
        vec![("`f64::sqrt`", form.calls(&variances, f64::sqrt))],
    );
    // a mean of marks
    let means = inputs(3, 1.0 / 64.0, 262_144.0, |x| x);
    print(
        "f64 to f32",
        form.calls(&means, |v| answer(|out| ours::narrow(v, out))),
        vec![("`as f32`", form.calls(&means, |v| v as f32))],
    );
    // a mark or a gap
    let durations = inputs(4, 1.0 / 64.0, 262_144.0, |x| x as f32);
    print(
        "logarithm",
        form.calls(&durations, |v| answer(|out| ours::ln(v, out))),
        vec![
            ("`f32::ln`", form.calls(&durations, f32::ln)),
            (
                "document 01's, in Rust",
                form.calls(&durations, |v| log01::ln(v).unwrap_or(0.0)),
            ),
        ],
    );
    println!();
}

/// Two tables in markdown.
pub fn numbers() {
    table("Calls that do not wait for each other:", Form::Apart);
    table("Each call waits for the one before it:", Form::InTurn);
}

/// Keyed text at 20 words a minute: letters of one to four marks, a tenth of jitter.
#[cfg(manta)]
fn text() -> Vec<f32> {
    let mut random = Random::new(6);
    let mark = |random: &mut Random| {
        let units = if random.below(2) == 0 { 1.0 } else { 3.0 };
        let jitter = 0.9 + 0.2 * random.fraction() as f32;
        60.0 * units * jitter
    };
    (0..INPUTS).map(|_| mark(&mut random)).collect()
}

/// A table in markdown: one mark to a tracker, in the Rust, by the inner function and by the public one with its tests.
#[cfg(manta)]
pub fn tracker() {
    use crate::hullathan::tracker as ours;
    use crate::manta::timing::SpeedTracker;
    let marks = text();
    let rust = || {
        let mut t = SpeedTracker::new();
        for &m in &marks {
            t.on_mark(black_box(m));
        }
        black_box(&t);
    };
    let inner = || {
        let mut t = ours::new();
        for &m in &marks {
            // Safety: the tracker is what the library handed back, and each mark lies from 54 to 198
            t = unsafe { ours::inner_on_mark(t, black_box(m)) };
        }
        black_box(&t);
    };
    let public = || {
        let mut t = ours::new();
        for &m in &marks {
            t = ours::on_mark(t, black_box(m)).tracker;
        }
        black_box(&t);
    };
    let passed = || {
        let mut t = ours::new();
        for &m in &marks {
            t = ours::same(t, black_box(m));
        }
        black_box(&t);
    };
    let times = medians(vec![
        Box::new(rust),
        Box::new(inner),
        Box::new(public),
        Box::new(passed),
    ]);
    println!("| one mark | ns | over the Rust |\n|---|---|---|");
    let names = [
        "manta's `on_mark`",
        "the inner `on_mark`",
        "the public `on_mark`",
        "a tracker passed to C and back",
    ];
    for (name, t) in names.iter().zip(&times) {
        println!("| {name} | {t:.1} | {:.2} |", t / times[0]);
    }
}

/// What the bank is measured on: marks and gaps, and the primary after each mark, on both sides. The bank only notes its switches, so
/// that the primaries stay as they are.
#[cfg(manta)]
struct Heard {
    marks: Vec<f32>,
    gaps: Vec<f32>,
    ours: Vec<crate::hullathan::tracker::SpeedTracker>,
    rust: Vec<crate::manta::timing::SpeedTracker>,
}

/// Keyed text whose speed changes now and then: few rivals come.
#[cfg(manta)]
fn one_sender() -> Vec<f32> {
    let speeds = [1.0, 0.4, 1.0, 2.2];
    let at = |(i, m): (usize, f32)| m * speeds[i / 97 % 4];
    text().into_iter().enumerate().map(at).collect()
}

/// Runs of marks of one length by many senders: rivals come all the time.
#[cfg(manta)]
fn many_senders() -> Vec<f32> {
    let mut random = Random::new(8);
    let mut unit = 60.0;
    let mark = |i: usize| {
        if i.is_multiple_of(5) {
            unit = random.scale(22.0, 450.0) as f32;
        }
        unit * (0.97 + 0.06 * random.fraction() as f32)
    };
    (0..INPUTS).map(mark).collect()
}

#[cfg(manta)]
fn heard(marks: Vec<f32>) -> Heard {
    use crate::hullathan::tracker as ours;
    let mut random = Random::new(7);
    let (mut t, mut m) = (ours::new(), crate::manta::timing::SpeedTracker::new());
    let mut h = Heard {
        gaps: marks
            .iter()
            .map(|m| m * random.pick(&[1.0, 1.0, 1.0, 0.3, 3.0]))
            .collect(),
        marks,
        ours: Vec::new(),
        rust: Vec::new(),
    };
    for &mark in &h.marks {
        t = ours::on_mark(t, mark).tracker;
        m.on_mark(mark);
        h.ours.push(t);
        h.rust.push(m.clone());
    }
    h
}

/// One sequence of calls on a bank of a width, in the Rust.
#[cfg(manta)]
fn rust_loop(h: &Heard, width: usize, gaps: bool) -> Loop<'_> {
    use crate::manta::timing::{SpeedBankConfig, TimingBank};
    let switching = false;
    Box::new(move || {
        let mut b = TimingBank::new(SpeedBankConfig { width, switching });
        // a call may exchange the primary; here none does
        let mut lent = h.rust[0].clone();
        for (i, p) in h.rust.iter().enumerate() {
            b.on_mark(p, black_box(h.marks[i]), true);
            if gaps {
                b.on_gap(p, black_box(h.gaps[i]));
                b.take_switch(&mut lent);
            }
        }
        black_box(&b);
    })
}

/// The same by the inner functions.
#[cfg(manta)]
fn inner_loop(h: &Heard, width: usize, gaps: bool) -> Loop<'_> {
    use crate::hullathan::bank as ours;
    Box::new(move || {
        let mut b = ours::new(width, false).bank;
        for (i, &p) in h.ours.iter().enumerate() {
            // Safety: bank and primary are what the library handed back, and the durations lie from 5 to 2,000
            unsafe {
                b = ours::inner_on_mark(b, p, black_box(h.marks[i]), true).bank;
                if gaps {
                    b = ours::inner_on_gap(b, p, black_box(h.gaps[i]));
                    b = ours::inner_take_switch(b, p, 0).bank;
                }
            }
        }
        black_box(&b);
    })
}

/// The same by the public calls.
#[cfg(manta)]
fn public_loop(h: &Heard, width: usize, gaps: bool) -> Loop<'_> {
    use crate::hullathan::bank as ours;
    Box::new(move || {
        let mut b = ours::new(width, false).bank;
        for (i, &p) in h.ours.iter().enumerate() {
            b = ours::on_mark(b, p, black_box(h.marks[i]), true).bank;
            if gaps {
                b = ours::on_gap(b, p, black_box(h.gaps[i])).bank;
                b = ours::take_switch(b, p, 0).bank;
            }
        }
        black_box(&b);
    })
}

/// A bank passed as often.
#[cfg(manta)]
fn passing_loop(width: usize, times: usize) -> Loop<'static> {
    use crate::hullathan::bank as ours;
    Box::new(move || {
        let mut b = ours::new(width, false).bank;
        for _ in 0..times * INPUTS {
            b = ours::same(b);
        }
        black_box(&b);
    })
}

/// How many challengers a bank of a width has on average.
#[cfg(manta)]
fn company(h: &Heard, width: usize) -> f64 {
    use crate::hullathan::bank as ours;
    let mut b = ours::new(width, false).bank;
    let mut sum = 0;
    for (i, &p) in h.ours.iter().enumerate() {
        b = ours::on_mark(b, p, h.marks[i], true).bank;
        b = ours::on_gap(b, p, h.gaps[i]).bank;
        sum += b.challengers_len;
    }
    sum as f64 / h.ours.len() as f64
}

/// A table in markdown: the calls of a bank of width 2 and of one of width 8.
#[cfg(manta)]
fn bank_table(what: &str, h: &Heard, gaps: bool) {
    let names = [
        "manta's",
        "the inner functions, over C",
        "the public calls, over C",
        "a bank passed to C and back",
    ];
    println!("| {what} | width | challengers | ns | over the Rust |\n|---|---|---|---|---|");
    for width in [2, 8] {
        let loops = vec![
            rust_loop(h, width, gaps),
            inner_loop(h, width, gaps),
            public_loop(h, width, gaps),
            passing_loop(width, if gaps { 3 } else { 1 }),
        ];
        let times = medians_of(loops, 3);
        let there = company(h, width);
        for (name, t) in names.iter().zip(&times) {
            println!(
                "| {name} | {width} | {there:.1} | {t:.0} | {:.2} |",
                t / times[0]
            );
        }
    }
    println!();
}

/// A full bank whose challengers no mark sends away: former primaries, apart from each other and protected.
#[cfg(manta)]
fn full(width: usize) -> crate::hullathan::bank::Bank {
    use crate::hullathan::bank as ours;
    use crate::hullathan::Bit;
    use crate::log01::Ln01;
    let mut b = ours::new(width, false).bank;
    b.challengers_len = width - 1;
    for (i, h) in b.challengers[..width - 1].iter_mut().enumerate() {
        let p = &mut h.tracker.pair;
        let lo = 20.0 * 1.31f32.powi(i as i32);
        (p.ready, p.confirmed, p.lo, p.hi) = (Bit::YES, Bit::YES, lo, 4.4 * lo);
        (h.ln_lo, h.ln_hi) = (p.lo.ln01(), p.hi.ln01());
        (h.origin, h.retain_marks, h.serial) = (2, u32::MAX, i as u64 + 1);
    }
    b
}

/// One call for each input.
#[cfg(manta)]
fn each<'a>(f: impl Fn(usize) + 'a) -> Loop<'a> {
    Box::new(move || (0..INPUTS).for_each(&f))
}

/// A mark on such a bank, handed in anew each time; in the Rust on a copy.
#[cfg(manta)]
fn full_marks(h: &Heard, b: crate::hullathan::bank::Bank) -> [Loop<'_>; 3] {
    use crate::hullathan::bank as ours;
    let m = crate::layers::bank::state::manta(&b);
    let rust = move |i: usize| {
        let mut b = m.clone();
        b.on_mark(&h.rust[i], h.marks[i], true);
        black_box(&b);
    };
    // Safety: bank and primary are sound, and the marks lie from 20 to 500
    let inner = move |i: usize| {
        black_box(unsafe { ours::inner_on_mark(b, h.ours[i], h.marks[i], true) });
    };
    let public = move |i: usize| {
        black_box(ours::on_mark(b, h.ours[i], h.marks[i], true));
    };
    [each(rust), each(inner), each(public)]
}

/// A gap, in the same way.
#[cfg(manta)]
fn full_gaps(h: &Heard, b: crate::hullathan::bank::Bank) -> [Loop<'_>; 3] {
    use crate::hullathan::bank as ours;
    let m = crate::layers::bank::state::manta(&b);
    let rust = move |i: usize| {
        let mut b = m.clone();
        b.on_gap(&h.rust[i], h.gaps[i]);
        black_box(&b);
    };
    // Safety: bank and primary are sound, and the gaps lie from 5 to 1,500
    let inner = move |i: usize| {
        black_box(unsafe { ours::inner_on_gap(b, h.ours[i], h.gaps[i]) });
    };
    let public = move |i: usize| {
        black_box(ours::on_gap(b, h.ours[i], h.gaps[i]));
    };
    [each(rust), each(inner), each(public)]
}

#[cfg(manta)]
fn full_table(what: &str, h: &Heard, mark: bool) {
    use crate::hullathan::bank as ours;
    println!("| {what} | challengers | ns |\n|---|---|---|");
    let names = [
        "manta's, and a copy of its bank",
        "the inner function, over C",
        "the public call, over C",
        "a copy of manta's bank",
        "a bank passed to C and back",
    ];
    for width in [2, 8] {
        let b = full(width);
        let m = crate::layers::bank::state::manta(&b);
        let calls = if mark {
            full_marks(h, b)
        } else {
            full_gaps(h, b)
        };
        let copy = move |_| drop(black_box(m.clone()));
        let passed = move |_| {
            black_box(ours::same(b));
        };
        let all = calls.into_iter().chain([each(copy), each(passed)]);
        for (name, t) in names.iter().zip(medians_of(all.collect(), 3)) {
            println!("| {name} | {} | {t:.0} |", width - 1);
        }
    }
    println!();
}

/// Tables of a watch of one sender, of one of many, and of single calls on a full bank.
#[cfg(manta)]
pub fn bank() {
    for (who, marks) in [
        ("one sender", one_sender()),
        ("many senders", many_senders()),
    ] {
        let h = heard(marks);
        bank_table(&format!("{who}, one mark"), &h, false);
        bank_table(
            &format!("{who}, one mark, one gap, one switch call"),
            &h,
            true,
        );
    }
    let h = heard(one_sender());
    full_table("a full bank, one mark", &h, true);
    full_table("a full bank, one gap", &h, false);
}

/// The events of a watch: each mark, a gap and a switch call.
#[cfg(manta)]
fn events(marks: &[f32], gaps: &[f32]) -> Vec<crate::hullathan::station::Event> {
    use crate::hullathan::station::Event;
    use crate::layers::station::{GAP, MARK, SWITCH};
    let event = |kind, value| Event {
        kind,
        live: 1,
        value,
        ..Event::default()
    };
    let three = |(&m, &g)| [event(MARK, m), event(GAP, g), event(SWITCH, 0.0)];
    marks.iter().zip(gaps).flat_map(three).collect()
}

/// A watch of a station by document 01's rules over the Rust.
#[cfg(manta)]
fn rust_watch(list: &[crate::hullathan::station::Event], width: usize) -> Loop<'_> {
    use crate::layers::station::{drive::Driven, Event};
    Box::new(move || {
        let mut s = Driven::fresh(width, true);
        for e in list {
            s.event(&Event {
                kind: e.kind,
                value: black_box(e.value).to_bits(),
                live: e.live != 0,
            });
        }
        black_box(&s.bank);
    })
}

/// The same by the public calls, event by event.
#[cfg(manta)]
fn station_watch(list: &[crate::hullathan::station::Event], width: usize) -> Loop<'_> {
    use crate::hullathan::station as ours;
    Box::new(move || {
        let mut s = ours::fresh(width, true);
        for e in list {
            black_box(ours::call(&mut s, e.kind, e.live, black_box(e.value)));
        }
        black_box(&s);
    })
}

/// The same by batches of 64.
#[cfg(manta)]
fn batch_watch(list: &[crate::hullathan::station::Event], width: usize) -> Loop<'_> {
    use crate::hullathan::station as ours;
    Box::new(move || {
        let mut s = ours::fresh(width, true);
        let mut b = ours::Batch::new();
        for part in list.chunks(ours::MOST) {
            b.len = part.len();
            b.events[..part.len()].copy_from_slice(part);
            ours::run(&mut s, black_box(&mut b));
        }
        black_box(&s);
    })
}

/// A station read, tested and refused as often: a kind that no event has.
#[cfg(manta)]
fn station_refused(times: usize, width: usize) -> Loop<'static> {
    use crate::hullathan::station as ours;
    Box::new(move || {
        let mut s = ours::fresh(width, true);
        for _ in 0..times {
            black_box(ours::call(&mut s, 255, 1, black_box(0.0)));
        }
        black_box(&s);
    })
}

/// A table in markdown: a mark, a gap and a switch call of a station of width 2 and of one of width 8.
#[cfg(manta)]
pub fn station() {
    let names = [
        "manta's tracker and bank",
        "the calls, event by event",
        "the same in batches of 64",
        "calls that are refused, of a kind that no event has",
    ];
    for (who, marks) in [
        ("one sender", one_sender()),
        ("many senders", many_senders()),
    ] {
        let list = events(&marks, &heard(marks.clone()).gaps);
        println!("| {who}, one mark, one gap, one switch call | width | ns | over the Rust |\n|---|---|---|---|");
        for width in [2, 8] {
            let loops = vec![
                rust_watch(&list, width),
                station_watch(&list, width),
                batch_watch(&list, width),
                station_refused(list.len(), width),
            ];
            let times = medians_of(loops, 3);
            for (name, t) in names.iter().zip(&times) {
                println!("| {name} | {width} | {t:.0} | {:.2} |", t / times[0]);
            }
        }
        println!();
    }
}
