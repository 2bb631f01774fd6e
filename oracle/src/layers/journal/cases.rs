//! Journals: some lines before the station's, watches of every kind, noise among them, and an end with or without a newline.

use super::odd;
use super::stream::{Mix, Stream};
use super::Case;
use crate::examples::{EXAMPLES, MORE};
use crate::layers::station::{watched_case, Call, Event};
use crate::layers::station::{CLEAR, FINISH, GAP, HINT, MARK, SEED, SWITCH};
use crate::random::Random;

struct Writer<'a> {
    random: &'a mut Random,
    bytes: Vec<u8>,
    /// One line of so many is followed by an odd one; 0: none.
    odd: u64,
}

impl Writer<'_> {
    fn line(&mut self, line: &[u8]) {
        self.bytes.extend_from_slice(line);
        self.bytes.push(b'\n');
    }

    fn odd(&mut self) {
        let line = odd::odd(self.random);
        self.line(&line);
    }

    /// What stands before the station, and the station's line.
    fn head(&mut self) {
        for _ in 0..self.random.pick(&[0, 0, 0, 1, 2, 12]) {
            match self.random.below(3) {
                0 => self.odd(),
                1 => {
                    let line = odd::good(self.random);
                    self.line(&line);
                }
                _ => self.line(b"W\t9\t1"),
            }
        }
        // a width that is refused leaves the rest without a station
        let line = odd::fresh(self.random);
        self.line(&line);
    }

    /// An event of a watch as a line: its number in ticks, 64ths or words a minute, as near as a whole number comes.
    fn event(&mut self, e: &Event) {
        let whole = |x: f32| (f64::from(x).round() as u64).min(99_999_999);
        let n = whole(e.number() * 64.0);
        let live = u8::from(e.live);
        let line = match e.kind {
            MARK => format!("M\t{n}\t{live}"),
            GAP => format!("G\t{n}"),
            FINISH => "F".into(),
            SEED => format!("S\t{}", whole(e.number())),
            HINT => format!("H\t{n}"),
            CLEAR => "C".into(),
            SWITCH => "X".into(),
            _ => return,
        };
        self.line(line.as_bytes());
        if self.odd > 0 && self.random.below(self.odd) == 0 {
            self.odd();
        }
    }

    fn watch(&mut self) {
        for call in watched_case(self.random) {
            match call {
                Call::Event(e) => self.event(&e),
                // the next watch goes on with the station that stands
                _ if self.random.below(4) == 0 => self.line(b"C"),
                _ => {}
            }
        }
    }

    /// The end: half of them as it should be.
    fn end(mut self) -> Case {
        match self.random.below(8) {
            0 => drop(self.bytes.pop()),
            1 => {
                let line = odd::odd(self.random);
                self.bytes.extend(line);
            }
            2 => {
                let line = odd::good(self.random);
                self.bytes.extend(line);
            }
            3 => self.odd(),
            _ => {}
        }
        Case(self.bytes)
    }
}

/// Some ten lines, most of them odd.
fn short(w: &mut Writer) {
    for _ in 0..w.random.below(24) {
        match w.random.below(3) {
            0 => {
                let line = odd::good(w.random);
                w.line(&line);
            }
            1 => w.line(b"M\t3200\t1"),
            _ => w.odd(),
        }
    }
}

/// Senders by turns, thousands of lines.
fn long(w: &mut Writer) {
    let mix = Mix {
        turns: w.random.pick(&[3, 10, 40]),
        odd: w.random.pick(&[0, 3, 40]),
        events: w.random.pick(&[0, 9, 60]),
    };
    let mut stream = Stream::new(w.random.bits(), mix);
    for _ in 0..600 {
        stream.letter(&mut w.bytes);
    }
}

pub fn random(random: &mut Random) -> Case {
    let odd = random.pick(&[0, 2, 10, 60]);
    let kind = random.below(16);
    let mut w = Writer {
        random,
        bytes: Vec::new(),
        odd,
    };
    w.head();
    match kind {
        0..=2 => short(&mut w),
        3..=5 => long(&mut w),
        _ => {
            let watches = w.random.pick(&[1, 2, 6, 12]);
            (0..watches).for_each(|_| w.watch());
        }
    }
    w.end()
}

/// The examples of the repository, document 01's among them, and the program's own list.
pub fn fixed() -> Vec<Case> {
    let examples = MORE.iter().chain(&EXAMPLES).map(|e| e.journal());
    let list = crate::replay::journal::files().stdin;
    examples.chain([list]).map(Case).collect()
}
