//! A journal as long as it is wanted: senders by turns, a switch call after each letter, now and then another event, and noise.

use super::odd;
use crate::keying::{Sender, Style};
use crate::random::Random;

/// What a stream is mixed of: one letter of so many changes the sender, and after a gap of so many stands an odd line, and after one
/// an event that is not keyed. 0: none does.
#[derive(Clone, Copy)]
pub struct Mix {
    pub turns: u64,
    pub odd: u64,
    pub events: u64,
}

pub struct Stream {
    random: Random,
    mix: Mix,
    sender: Sender,
    other: Sender,
}

/// A sender within the speeds that a tracker can follow.
fn sender(random: &mut Random) -> Sender {
    Sender {
        dit: random.scale(18.0, 160.0) as f32,
        ratio: random.pick(&[3.0, 3.0, 3.0, 2.5, 4.0]),
        jitter: random.pick(&[0.0, 0.05, 0.1, 0.2]),
        style: Style::Text,
        gap: 1.0,
        whole: random.below(4) == 0,
    }
}

/// A length in ticks.
fn ticks(ms: u32) -> u64 {
    (f32::from_bits(ms) * 64.0).round() as u64
}

impl Stream {
    pub fn new(seed: u64, mix: Mix) -> Stream {
        let mut random = Random::new(seed);
        let (first, other) = (sender(&mut random), sender(&mut random));
        Stream {
            random,
            mix,
            sender: first,
            other,
        }
    }

    /// Appends the next lines, some hundred bytes.
    pub fn letter(&mut self, out: &mut Vec<u8>) {
        self.turn();
        let marks = 1 + self.random.below(5);
        for i in 1..=marks {
            let mark = ticks(self.sender.mark(&mut self.random));
            put(out, b'M', mark);
            out.extend_from_slice(b"\t1\n");
            let dits = match (i == marks, self.random.below(5)) {
                (false, _) => 1.0,
                (true, 0) => 7.0,
                (true, _) => 3.0,
            };
            let gap = ticks(self.sender.gap_of(dits, &mut self.random));
            put(out, b'G', gap);
            out.push(b'\n');
            self.between(out);
        }
        out.extend_from_slice(b"X\n");
    }

    /// Whether it is the turn of one of so many.
    fn one_of(&mut self, n: u64) -> bool {
        n > 0 && self.random.below(n) == 0
    }

    /// Who keys the next letter, and how.
    fn turn(&mut self) {
        if !self.one_of(self.mix.turns) {
            return;
        }
        match self.random.below(8) {
            0..=4 => std::mem::swap(&mut self.sender, &mut self.other),
            5 => self.other = sender(&mut self.random),
            6 => self.sender.change(&mut self.random),
            _ => self.sender = sender(&mut self.random),
        }
    }

    /// Perhaps a line that is not keyed.
    fn between(&mut self, out: &mut Vec<u8>) {
        if self.one_of(self.mix.odd) {
            out.extend(odd::odd(&mut self.random));
            out.push(b'\n');
        }
        if self.one_of(self.mix.events) {
            self.event(out);
        }
    }

    fn event(&mut self, out: &mut Vec<u8>) {
        match self.random.below(8) {
            0 => put(out, b'S', 5 + self.random.below(60)),
            1 => put(out, b'H', 100 + self.random.below(350)),
            2 => out.push(b'F'),
            3 => out.push(b'C'),
            _ => {
                let mark = ticks(self.sender.mark(&mut self.random));
                put(out, b'M', mark);
                out.extend_from_slice(b"\t0");
            }
        }
        out.push(b'\n');
    }
}

/// A letter, a tab and a number.
fn put(out: &mut Vec<u8>, letter: u8, n: u64) {
    out.extend_from_slice(&[letter, b'\t']);
    let mut digits = [0; 20];
    let mut at = digits.len();
    let mut rest = n;
    while at == digits.len() || rest > 0 {
        at -= 1;
        digits[at] = b'0' + (rest % 10) as u8;
        rest /= 10;
    }
    out.extend_from_slice(&digits[at..]);
}
