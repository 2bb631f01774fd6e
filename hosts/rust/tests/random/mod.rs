//! Numbers that look random and are the same for the same seed (splitmix64), and what a receiver may hear made of them.

use hullathan::Event;

/// Lengths that are refused, or nearly.
const ODD: [f32; 9] = [
    0.0,
    -1.0,
    f32::NAN,
    f32::INFINITY,
    f32::MIN_POSITIVE,
    1.0 / 64.0,
    262_144.0,
    262_144.03,
    -0.0,
];

pub struct Random(u64);

impl Random {
    pub fn new(seed: u64) -> Random {
        Random(seed)
    }

    pub fn bits(&mut self) -> u64 {
        self.0 = self.0.wrapping_add(0x9E37_79B9_7F4A_7C15);
        let z = (self.0 ^ self.0 >> 30).wrapping_mul(0xBF58_476D_1CE4_E5B9);
        let z = (z ^ z >> 27).wrapping_mul(0x94D0_49BB_1331_11EB);
        z ^ z >> 31
    }

    /// A number below n.
    pub fn below(&mut self, n: usize) -> usize {
        ((u128::from(self.bits()) * n as u128) >> 64) as usize
    }

    pub fn pick<T: Copy>(&mut self, list: &[T]) -> T {
        list[self.below(list.len())]
    }

    fn event(&mut self, dit: f32) -> Event {
        let off = 0.85 + 0.3 * self.below(1000) as f32 / 1000.0;
        let ms = dit * off * self.pick(&[1.0, 1.0, 3.0]);
        match self.below(1000) {
            0..480 => Event::Mark {
                ms,
                live: self.below(30) > 0,
            },
            480..900 => Event::Gap { ms },
            900..970 => Event::Switch,
            970..975 => Event::Finish,
            975..979 => Event::Clear,
            979..982 => Event::Seed {
                wpm: self.pick(&[12.0, 20.0, 33.0, 0.0, f32::NAN]),
            },
            982..986 => Event::Hint {
                ratio: self.pick(&[3.0, 2.5, 7.0, f32::NAN]),
            },
            986..993 => Event::Gap {
                ms: self.pick(&ODD),
            },
            _ => Event::Mark {
                ms: self.pick(&ODD),
                live: true,
            },
        }
    }

    /// Senders of several speeds by turns, with all that a station can be asked.
    pub fn watch(&mut self, len: usize) -> Vec<Event> {
        let mut dit = 60.0;
        let mut next = |_| {
            if self.below(25) == 0 {
                dit = self.pick(&[17.0, 25.0, 40.0, 60.0, 90.0, 140.0, 300.0]);
            }
            self.event(dit)
        };
        (0..len).map(&mut next).collect()
    }
}
