//! The journal that the program `journal` is run on by the prover's check: every letter, code and refusal that one journal
//! can reach, every way to break a line's form, and more than the program reads at once. One journal has one lock and one
//! last line; `examples/more` has the others.

use super::Files;
use crate::journal::answers;
use crate::layers::journal::odd::{BAD, NUMBERS, WIDTHS};
use crate::layers::journal::stream::{Mix, Stream};

/// How many bytes the program reads at once.
const PIECE: usize = 65_536;

/// A journal that grows by lines with blanks for tabs.
struct Script(Vec<u8>);

impl Script {
    fn line(&mut self, line: &str) {
        self.bytes(line.replace(' ', "\t").as_bytes());
    }

    fn bytes(&mut self, line: &[u8]) {
        self.0.extend_from_slice(line);
        self.0.push(b'\n');
    }

    fn all(&mut self, lines: &[&str]) {
        lines.iter().for_each(|l| self.line(l));
    }

    /// Every bad form.
    fn bad(&mut self) {
        BAD.iter().for_each(|l| self.bytes(l));
    }

    /// Lines of about 80 bytes and of many more; two with a good line at the head, two with one behind what 80 bytes hold.
    fn long(&mut self) {
        for length in [78, 79, 80, 81, 160, 200, 5_000] {
            self.bytes(&vec![b'X'; length]);
        }
        for filler in [79, 80] {
            self.bytes(&[b"G\t3200".to_vec(), vec![b'0'; filler]].concat());
            self.bytes(&[vec![b'0'; filler], b"G\t3200".to_vec()].concat());
        }
    }

    /// Bad lines, up to so many bytes in all.
    fn fill(&mut self, to: usize) {
        while self.0.len() < to {
            let room = to - self.0.len() - 1;
            self.bytes(&vec![b'X'; room.min(30_000)]);
        }
    }

    /// A line with one end of a piece in it, so many bytes after its start, and events on both sides.
    fn across(&mut self, end: usize, after: usize, line: &str) {
        let before = ["M 3200 1", "G 3200"];
        let bytes: usize = before.iter().map(|l| l.len() + 1).sum();
        self.fill(end * PIECE - after - bytes);
        self.all(&before);
        self.all(&[line, "M 9600 1", "G 3200", "M 3200 1", "F", "X"]);
    }

    /// Every number about a border, in every line that has one.
    fn numbers(&mut self) {
        for n in NUMBERS {
            self.all(&[&format!("M {n} 1"), &format!("G {n}"), &format!("M {n} 0")]);
            self.all(&[&format!("S {n}"), &format!("H {n}"), "X"]);
        }
    }

    /// Letters of senders by turns.
    fn keyed(&mut self, seed: u64, letters: usize) {
        let mix = Mix {
            turns: 3,
            odd: 0,
            events: 25,
        };
        let mut stream = Stream::new(seed, mix);
        (0..letters).for_each(|_| stream.letter(&mut self.0));
    }
}

/// The journal with keyed letters by a seed.
fn script(seed: u64) -> Vec<u8> {
    let mut s = Script(Vec::new());
    // before the station
    s.all(&["M 3200 1", "G 3200", "S 20", "H 192", "F", "C", "X"]);
    s.bad();
    s.long();
    let refused = WIDTHS
        .iter()
        .filter(|w| w.parse::<u32>().is_ok_and(|n| n > 8));
    refused.for_each(|w| s.line(&format!("W {w} 1")));
    s.line("W 00000008 1");
    s.all(&["W 8 1", "W 2 0", "W 9 1"]);
    // no lock yet: a gap of 0 is refused, a mark that is not live does nothing
    s.all(&["X", "F", "C", "G 3200", "G 0", "M 3200 0", "M 0 1", "H 160"]);
    s.all(&[
        "M 3200 1",
        "F",
        "M 9600 1",
        "G 3200",
        "M 3200 1",
        "M 16777217 1",
    ]);
    s.bad();
    s.long();
    // the fifth mark, among lines that are refused
    s.all(&[
        "M 9600 1", "S 0", "M 3200 1", "F", "X", "M 3200 0", "M 9600 0",
    ]);
    s.numbers();
    s.all(&["S 20", "H 224", "C", "S 20"]);
    s.keyed(seed, 60);
    s.bad();
    s.long();
    // an end of a piece within a mark, between two lines, and within a line that is too long
    s.across(1, 4, "M 9600 1");
    s.keyed(seed + 1, 20);
    s.across(2, 0, "M 9600 1");
    s.keyed(seed + 2, 20);
    s.across(3, 90, &"X".repeat(200));
    s.all(&["S 24", "M 3200 1", "X"]);
    // without a newline
    s.0.extend_from_slice(b"M\t3200\t1");
    s.0
}

/// The seed of the keyed letters: one with switches, five rivals at once, and a serial of two digits.
const SEED: u64 = 803;

pub fn files() -> Files {
    let stdin = script(SEED);
    let stdout = String::from_utf8(answers(&stdin)).expect("answers are plain text");
    Files { stdin, stdout }
}

#[cfg(test)]
mod tests {
    use super::*;
    use crate::examples::{EXAMPLES, MORE};
    use crate::layers::journal::count::{reached::ALL, Counter};

    /// What stands in the repository is the list, and what the Rust answers to it.
    #[test]
    fn answers_are_as_written() {
        let f = files();
        assert!(f.stdin == include_bytes!("../../../crates/journal/stdin"));
        assert!(f.stdout == include_str!("../../../crates/journal/stdout"));
    }

    /// Each end of a piece is one that must be crossed: the station is a good one before and after, and a program that began
    /// anew there would answer something else.
    #[test]
    fn pieces_hang_together() {
        let stdin = files().stdin;
        let pieces: Vec<&[u8]> = stdin.chunks(PIECE).collect();
        assert_eq!(pieces.len(), 4);
        for end in 1..pieces.len() {
            let (before, after) = stdin.split_at(end * PIECE);
            let whole = answers(&stdin);
            let apart = [answers(before), answers(after)].concat();
            assert!(whole != apart, "end of piece {end}");
            // the first line that ends after it, and the last before it
            let lines = before.iter().filter(|&&b| b == b'\n').count();
            let shown: Vec<&[u8]> = whole.split(|&b| b == b'\n').collect();
            assert!(shown[lines - 1].starts_with(b"G\t0\t"));
            assert!(shown[lines + 1].starts_with(b"M\t0\t"));
        }
    }

    /// The branches that no journal among these reaches.
    fn missing(journals: &[Vec<u8>]) -> Vec<&'static str> {
        let before: Vec<u64> = ALL.iter().map(|b| b.count()).collect();
        for journal in journals {
            Counter::default().count(journal, &answers(journal));
        }
        let all = ALL.iter().zip(before);
        let missing = all.filter(|(b, before)| b.count() == *before);
        missing.map(|(b, _)| b.name).collect()
    }

    /// With the examples it reaches every branch but a line of 65,536 bytes.
    #[test]
    fn every_branch() {
        let mut journals = vec![files().stdin];
        journals.extend(EXAMPLES.iter().chain(&MORE).map(|e| e.journal()));
        assert_eq!(missing(&journals), ["bad: 65,536 bytes or more"]);
    }
}
