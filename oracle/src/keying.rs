//! A sender that keys Morse: marks and gaps with jitter, and changes of speed, of weight and of what is keyed.

use crate::random::Random;

/// What a sender keys.
#[derive(Clone, Copy)]
pub enum Style {
    Text,
    Dits,
    Dahs,
}

#[derive(Clone, Copy)]
pub struct Sender {
    pub dit: f32,
    pub ratio: f32,
    pub jitter: f32,
    pub style: Style,
    /// A gap in dits; none where it is 0.
    pub gap: f32,
    /// Marks of whole milliseconds.
    pub whole: bool,
}

impl Sender {
    pub fn new(random: &mut Random) -> Sender {
        Sender {
            dit: random.scale(14.0, 210.0) as f32,
            ratio: random.pick(&[3.0, 3.0, 2.0, 2.5, 4.0, 5.9, 7.0]),
            jitter: random.pick(&[0.0, 0.02, 0.1, 0.25, 0.5]),
            style: random.pick(&[Style::Text, Style::Text, Style::Dits, Style::Dahs]),
            gap: random.pick(&[0.0, 0.0, 0.5, 1.0, 1.0, 2.0]),
            whole: random.below(3) == 0,
        }
    }

    /// A factor about 1.
    fn off(&self, random: &mut Random) -> f32 {
        1.0 + self.jitter * (2.0 * random.fraction() as f32 - 1.0)
    }

    pub fn mark(&self, random: &mut Random) -> u32 {
        let dah = match self.style {
            Style::Text => random.below(2) == 0,
            Style::Dits => false,
            Style::Dahs => true,
        };
        let units = if dah { self.ratio } else { 1.0 };
        let d = self.dit * units * self.off(random);
        let d = if self.whole { d.round() } else { d };
        d.clamp(1.0 / 64.0, 262_144.0).to_bits()
    }

    /// A gap of so many dits.
    pub fn gap_of(&self, dits: f32, random: &mut Random) -> u32 {
        let g = (self.dit * dits * self.off(random)).clamp(1.0 / 64.0, 262_144.0);
        g.to_bits()
    }

    pub fn change(&mut self, random: &mut Random) {
        match random.below(6) {
            0 => self.style = random.pick(&[Style::Text, Style::Dits, Style::Dahs]),
            1 => self.ratio = random.scale(1.8, 7.5) as f32,
            2 => self.gap = random.pick(&[0.0, 0.3, 1.0, 1.0, 2.5]),
            3 => self.jitter = random.pick(&[0.0, 0.05, 0.2, 0.6]),
            _ => self.dit = (self.dit * random.scale(0.3, 3.0) as f32).clamp(4.0, 700.0),
        }
    }
}
