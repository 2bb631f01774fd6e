//! A sender's statistics, against the rules written once more in Rust: manta's `SenderTiming`, and document 01.

#[allow(dead_code)]
mod random;
#[allow(dead_code)]
#[path = "../src/sys.rs"]
mod sys;

use hullathan::{Class, Dits, Millis, Refusal, Sender};
use random::Random;
use sys::Memory;

/// "Exponentially weighted mean and variance of one class, in dits."
#[derive(Clone, Copy, Default)]
struct Stats {
    mean: f32,
    var: f32,
    n: u32,
}

impl Stats {
    fn observe(&mut self, x: f32) {
        if self.n == 0 {
            (self.mean, self.var) = (x, 0.0);
        } else {
            let d = x - self.mean;
            self.mean += 0.15 * d;
            self.var = (1.0 - 0.15) * (self.var + 0.15 * d * d);
        }
        self.n = self.n.saturating_add(1);
    }
}

#[derive(Clone, Copy, Default)]
struct Rules([Stats; 5]);

impl Rules {
    fn mean(&self, class: Class) -> Option<f32> {
        let stats = self.0[class as usize];
        (stats.n > 0).then_some(stats.mean)
    }

    fn ratio(&self) -> Option<f32> {
        let [dot, dash, ..] = self.0;
        (dot.n >= 3 && dash.n >= 3).then(|| dash.mean / dot.mean)
    }

    fn word(&self) -> Option<f32> {
        let letters = self.mean(Class::CharacterGap)?;
        let boundary = match self.mean(Class::WordGap) {
            Some(words) => (letters * words).sqrt(),
            None => letters * (7.0_f32 / 3.0).sqrt(),
        };
        Some(boundary.clamp(3.0, 12.0))
    }

    fn is_pause(&self, dits: f32) -> bool {
        dits >= f32::max(15.0, 4.0 * self.mean(Class::CharacterGap).unwrap_or(0.0))
    }

    /// The refusal of an observation, in document 01's order.
    fn refusal(length: f32, dit: f32) -> Option<Refusal> {
        if !length.is_finite() {
            Some(Refusal::DurationNotFinite)
        } else if length < 1.0 / 64.0 {
            Some(Refusal::DurationTooShort)
        } else if length > 262_144.0 {
            Some(Refusal::DurationTooLong)
        } else if !(20.0..=150.0).contains(&dit) {
            Some(Refusal::DitOutOfRange)
        } else {
            None
        }
    }
}

const LENGTHS: [f32; 9] = [
    f32::NAN,
    f32::INFINITY,
    f32::NEG_INFINITY,
    0.0,
    -50.0,
    0.015_624_999,
    1.0 / 64.0,
    262_144.0,
    262_144.03,
];
const DITS: [f32; 7] = [
    f32::NAN,
    f32::INFINITY,
    0.0,
    19.999_998,
    20.0,
    150.0,
    150.000_02,
];

/// What the sender says is what the rules say, bit for bit.
fn compare(sender: &Sender, rules: &Rules, random: &mut Random) {
    let reading = sender.read(Millis(60.0));
    assert_eq!(reading.dit, Millis(60.0));
    assert_eq!(
        reading.ratio.map(f32::to_bits),
        rules.ratio().map(f32::to_bits)
    );
    assert_eq!(
        reading.word.map(|w| w.0.to_bits()),
        rules.word().map(f32::to_bits)
    );
    for class in Class::ALL {
        let is = reading
            .class(class)
            .map(|c| (c.mean.0.to_bits(), c.variance.to_bits(), c.observed));
        let stats = rules.0[class as usize];
        let said = (stats.mean.to_bits(), stats.var.to_bits(), stats.n);
        assert_eq!(is, (stats.n > 0).then_some(said), "{class:?}");
    }
    let gap = random.below(4_000) as f32 / 64.0;
    for gap in [gap, 15.0, 14.999_999, f32::NAN, f32::INFINITY] {
        assert_eq!(sender.is_pause(Dits(gap)), rules.is_pause(gap), "{gap}");
    }
}

#[test]
fn as_the_rules_say() {
    let (mut refused, mut ratios, mut words) = (0, 0, 0);
    for seed in 1..=200 {
        let mut random = Random::new(seed);
        let (mut sender, mut rules) = (Sender::start(), Rules::default());
        let classes = 3 + random.below(3);
        for _ in 0..200 {
            let class = Class::ALL[random.below(classes)];
            let mut length = random.below(60_000) as f32 / 64.0 + 0.25;
            let mut dit = 20.0 + random.below(8_320) as f32 / 64.0;
            if random.below(20) == 0 {
                length = random.pick(&LENGTHS);
            }
            if random.below(20) == 0 {
                dit = random.pick(&DITS);
            }
            let before = sender.clone();
            let said = sender.observe(class, Millis(length), Millis(dit));
            assert_eq!(said.err(), Rules::refusal(length, dit), "{length} by {dit}");
            if said.is_ok() {
                rules.0[class as usize].observe(length / dit);
            } else {
                assert!(sender.as_bytes() == before.as_bytes());
                refused += 1;
            }
            compare(&sender, &rules, &mut random);
        }
        ratios += usize::from(rules.ratio().is_some());
        words += usize::from(rules.word().is_some_and(|w| w > 3.0 && w < 12.0));
    }
    // so that the comparison is about something
    assert!(
        refused > 500 && ratios > 50 && words > 5,
        "{refused} {ratios} {words}"
    );
}

/// Each refusal stands before those of a higher number.
#[test]
fn in_order() {
    let mut sender = Sender::start();
    let nan = Millis(f32::NAN);
    let mut refused = |length, dit| sender.observe(Class::Dot, Millis(length), dit).unwrap_err();
    assert_eq!(refused(f32::NAN, nan), Refusal::DurationNotFinite);
    assert_eq!(refused(0.0, nan), Refusal::DurationTooShort);
    assert_eq!(refused(262_145.0, nan), Refusal::DurationTooLong);
    assert_eq!(refused(50.0, nan), Refusal::DitOutOfRange);
    // 1 before all, and 12 after all: numbers that the crate's types do not let through
    let mut memory = Memory(*sender.as_bytes());
    assert_eq!(
        sys::sender_observe(&mut memory, 5, f32::NAN, f32::NAN),
        128 + 5
    );
    assert_eq!(sys::sender_observe(&mut memory, 5, 50.0, 19.0), 128 + 9);
    for class in 5..=255 {
        assert_eq!(
            sys::sender_observe(&mut memory, class, 50.0, 50.0),
            128 + 12
        );
    }
    assert!(memory.0 == [0; 60]);
    let mut unsound = Memory([0xFF; 60]);
    assert_eq!(
        sys::sender_observe(&mut unsound, 5, f32::NAN, f32::NAN),
        128 + 1
    );
    assert_eq!(sys::sender_is_pause(&unsound, 20.0), 128 + 1);
    assert!(unsound.0 == [0xFF; 60]);
}

/// Whether document 01's refusal 1 passes these bytes.
fn is_sound(bytes: &[u8; 60]) -> bool {
    let number =
        |place: usize| u32::from_le_bytes(bytes[place..place + 4].try_into().expect("four"));
    (0..5).all(|class| {
        let (mean, var) = (number(12 * class), number(12 * class + 4));
        let (mean, var) = (f32::from_bits(mean), f32::from_bits(var));
        let held = (0.0001..=13_108.0).contains(&mean) && var >= 0.0 && var.is_finite();
        number(12 * class + 8) == 0 || held
    })
}

#[test]
fn damaged_bytes() {
    let mut random = Random::new(31);
    let mut counts = [0; 2];
    for _ in 0..20_000 {
        let mut sender = Sender::start();
        for class in Class::ALL {
            sender
                .observe(class, Millis(75.0), Millis(50.0))
                .expect("it is good");
        }
        let mut bytes = *sender.as_bytes();
        for _ in 0..1 + random.below(4) {
            bytes[random.below(60)] = random.bits() as u8;
        }
        let sound = is_sound(&bytes);
        counts[usize::from(sound)] += 1;
        assert_eq!(
            Sender::from_bytes(&bytes).err(),
            (!sound).then_some(Refusal::UnsoundState)
        );
        let mut memory = Memory(bytes);
        let code = sys::sender_observe(&mut memory, 0, 50.0, 50.0);
        assert_eq!(code, if sound { 0 } else { 129 });
        assert!(sound == (memory.0 != bytes));
        let reading = sys::sender_read(&memory, 50.0);
        let mut zeros = sys::sender_read(&Memory([0; 60]), 0.0);
        zeros.code = 129;
        assert!(sound || reading == zeros);
    }
    assert!(counts.iter().all(|&n| n > 1_000), "{counts:?}");
    assert_eq!(
        Sender::from_bytes(&[0; 59]).unwrap_err(),
        Refusal::UnsoundState
    );
    assert!(Sender::start().as_bytes() == &[0; 60]);
}
