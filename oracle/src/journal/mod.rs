//! Document 01's "Journal program" over manta's tracker and bank: what the proved program's output is held to.

pub(crate) mod line;

use crate::layers::station::drive::Driven;
use crate::layers::station::{Event, CLEAR, FINISH, GAP, HINT, MARK, SEED, SWITCH};
use crate::refusals;
use line::{answer, asked, Asked, Code, Shown};
use std::io::{self, Read, Write};

/// "at most 4,294,967,295 lines are read"
const LINES: u64 = 4_294_967_295;

/// "newline last, at most 80 bytes with it"
const LONGEST: usize = 80;

/// How many bytes are read at once, and how many are held before they are written.
const READ: usize = 1 << 15;
const WRITE: usize = 1 << 16;

/// Document 01's station over the Rust, with the serials that a line shows: a challenger's name is its serial.
struct Station {
    driven: Driven,
    serial: usize,
    started: usize,
}

impl Station {
    fn fresh(width: usize, switching: bool) -> Station {
        Station {
            driven: Driven::fresh(width, switching),
            serial: 0,
            started: 0,
        }
    }

    /// A call that is not refused: its code.
    fn call(&mut self, kind: u8, number: f32, live: bool) -> u8 {
        let pending = self.driven.bank.pending;
        let value = number.to_bits();
        let (code, _) = self.driven.event(&Event { kind, value, live });
        let challengers = &mut self.driven.bank.challengers;
        if code == 2 {
            // "A serial travels with its tracker"
            let name = &mut challengers[pending.expect("a choice was pending")].name;
            self.serial = name.replace(self.serial).expect("each has its serial");
        }
        // "each hypothesis that `spawn` puts in gets the next"
        for h in challengers.iter_mut().filter(|h| h.name.is_none()) {
            self.started += 1;
            h.name = Some(self.started);
        }
        code
    }

    fn shown(&self) -> Shown {
        Shown {
            dit: self.driven.primary.mu_dit_ms().to_bits(),
            dah: self.driven.primary.mu_dah_ms().to_bits(),
            serial: self.serial as u64,
            challengers: self.driven.bank.challengers.len() as u64,
        }
    }
}

/// A journal as far as it was read.
pub struct Journal {
    station: Option<Station>,
    /// How many lines may still be read.
    left: u64,
    /// The line that has begun and not ended, as far as it may be a good one.
    begun: Vec<u8>,
}

impl Default for Journal {
    fn default() -> Journal {
        Journal::new()
    }
}

impl Journal {
    pub fn new() -> Journal {
        Journal {
            station: None,
            left: LINES,
            begun: Vec::with_capacity(LONGEST),
        }
    }

    /// Reads the next bytes, wherever they were cut, and appends the answers to the lines that end in them.
    pub fn read(&mut self, mut bytes: &[u8], out: &mut Vec<u8>) {
        while let Some(end) = bytes.iter().position(|&b| b == b'\n') {
            if self.left == 0 {
                return;
            }
            if self.begun.is_empty() {
                self.line(&bytes[..end], out);
            } else {
                self.begin(&bytes[..end]);
                let begun = std::mem::take(&mut self.begun);
                self.line(&begun, out);
                self.begun = begun;
                self.begun.clear();
            }
            bytes = &bytes[end + 1..];
        }
        self.begin(bytes);
    }

    /// Keeps what the line begins with; of one that is too long, enough to tell.
    fn begin(&mut self, bytes: &[u8]) {
        let room = LONGEST - self.begun.len();
        self.begun
            .extend_from_slice(&bytes[..bytes.len().min(room)]);
    }

    /// Nothing follows: a line that has begun has no newline, and is bad.
    pub fn end(&mut self, out: &mut Vec<u8>) {
        if !self.begun.is_empty() && self.left > 0 {
            self.left -= 1;
            self.bad(out);
        }
        self.begun.clear();
    }

    fn shown(&self) -> Shown {
        self.station
            .as_ref()
            .map_or(Shown::default(), Station::shown)
    }

    fn bad(&self, out: &mut Vec<u8>) {
        answer(b'?', Code::Refused(12), &self.shown(), out);
    }

    /// Answers one line, which had a newline after it.
    fn line(&mut self, line: &[u8], out: &mut Vec<u8>) {
        self.left -= 1;
        let fits = line.len() < LONGEST;
        let code = match (asked(line).filter(|_| fits), &mut self.station) {
            (Some(Asked::Fresh(width, switching)), None) => self.fresh(width, switching),
            (Some(Asked::Fresh(..)), Some(_)) | (Some(_), None) | (None, _) => {
                return self.bad(out)
            }
            (Some(asked), Some(station)) => call(station, asked),
        };
        answer(line[0], code, &self.shown(), out);
    }

    /// "A `W` refused by 3 keeps its letter and is not a good one."
    fn fresh(&mut self, width: usize, switching: bool) -> Code {
        match refusals::width(width) {
            Ok(()) => {
                self.station = Some(Station::fresh(width, switching));
                Code::Done(0)
            }
            Err(n) => Code::Refused(n),
        }
    }
}

/// One event: its refusals, then the call.
fn call(station: &mut Station, asked: Asked) -> Code {
    let (kind, number, live, refused) = match asked {
        Asked::Mark(d, live) => (MARK, d, live, refusals::duration(d)),
        Asked::Gap(d) => (GAP, d, false, refusals::duration(d)),
        Asked::Seed(wpm) => (SEED, wpm, false, refusals::speed(wpm)),
        Asked::Hint(ratio) => (HINT, ratio, false, Ok(())),
        Asked::Finish => (FINISH, 0.0, false, Ok(())),
        Asked::Clear => (CLEAR, 0.0, false, Ok(())),
        Asked::Switch => (SWITCH, 0.0, false, Ok(())),
        Asked::Fresh(..) => unreachable!("a station is there"),
    };
    match refused {
        Ok(()) => Code::Done(station.call(kind, number, live)),
        Err(n) => Code::Refused(n),
    }
}

/// The program: reads a journal to its end, or to its last line, and writes the answers.
pub fn run(mut input: impl Read, mut output: impl Write) -> io::Result<()> {
    let mut journal = Journal::new();
    let mut bytes = vec![0; READ];
    let mut out = Vec::with_capacity(4 * WRITE);
    while journal.left > 0 {
        let n = match input.read(&mut bytes) {
            Ok(n) => n,
            Err(e) if e.kind() == io::ErrorKind::Interrupted => continue,
            Err(e) => return Err(e),
        };
        if n == 0 {
            journal.end(&mut out);
            break;
        }
        journal.read(&bytes[..n], &mut out);
        if out.len() >= WRITE {
            output.write_all(&out)?;
            out.clear();
        }
    }
    output.write_all(&out)?;
    output.flush()
}

/// The answers to a journal that is at hand.
pub fn answers(journal: &[u8]) -> Vec<u8> {
    let mut out = Vec::new();
    run(journal, &mut out).expect("nothing is read or written outside");
    out
}

#[cfg(test)]
mod tests {
    use super::*;
    use crate::layers::station::{watched_case, Both, Call};
    use crate::random::Random;

    fn answered(journal: &[u8]) -> String {
        String::from_utf8(answers(journal)).expect("answers are plain text")
    }

    /// Document 01's worked example, and its output.
    const WORKED: &[u8] = b"W\t2\t1\nM\t3200\t1\nM\t9600\t1\nF\nX\n";
    const WORKED_OUT: &str = "\
W\t0\t00000000\t00000000\t0\t0
M\t0\t00000000\t00000000\t0\t0
M\t0\t00000000\t00000000\t0\t0
F\t1\t42480000\t43160000\t0\t0
X\t3\t42480000\t43160000\t0\t0
";

    #[test]
    fn the_worked_example() {
        assert_eq!(answered(WORKED), WORKED_OUT);
    }

    /// The letters and codes of the answers, without the station.
    fn codes(journal: &[u8]) -> Vec<String> {
        let code = |l: &str| l.split('\t').take(2).collect::<Vec<_>>().join(" ");
        answered(journal).lines().map(code).collect()
    }

    #[test]
    fn what_is_a_line() {
        // nothing after the last newline is no line, and nothing at all is none
        assert_eq!(answered(b""), "");
        assert_eq!(codes(b"W\t1\t0\n"), ["W 0"]);
        // an empty line is a bad one
        assert_eq!(codes(b"\nW\t1\t0\n\n"), ["? R12", "W 0", "? R12"]);
        // a last line without a newline is bad, whatever it has
        assert_eq!(codes(b"W\t1\t0"), ["? R12"]);
        assert_eq!(codes(b"W\t1\t0\nF\nF"), ["W 0", "F 3", "? R12"]);
        assert_eq!(codes(b"W\t1\t0\n\t"), ["W 0", "? R12"]);
        // a line runs to its newline, however long it is, and is answered once
        for long in [78, 79, 80, 81, 160, 200, 5_000, 200_000] {
            let mut journal = b"W\t1\t0\n".to_vec();
            journal.extend(vec![b'X'; long]);
            journal.extend(b"\nX\n");
            assert_eq!(codes(&journal), ["W 0", "? R12", "X 3"], "{long}");
            // not so at the end
            journal.truncate(journal.len() - 3);
            assert_eq!(codes(&journal), ["W 0", "? R12"], "{long}");
        }
    }

    #[test]
    fn the_first_line() {
        let first = b"M\t3200\t1\nF\nW\t2\t2\nW\t9\t2\nW\t9\t1\nX\nW\t99999999\t0\nW\t08\t1\nW\t8\t1\nW\t9\t1\nX\n";
        let expected = [
            "? R12", "? R12", "? R12", "? R12", "W R3", "? R12", "W R3", "W 0", "? R12", "? R12",
            "X 3",
        ];
        assert_eq!(codes(first), expected);
        // zeros stand for the station until there is one
        let first = answered(b"W\t9\t1\nC\n");
        assert_eq!(
            first,
            "W\tR3\t00000000\t00000000\t0\t0\n?\tR12\t00000000\t00000000\t0\t0\n"
        );
    }

    #[test]
    fn refused_lines() {
        let journal = b"W\t2\t1\nG\t0\nM\t0\t0\nM\t16777217\t1\nG\t99999999\nS\t0\nS\t00\nH\t0\n\
G\t1\nM\t16777216\t0\nS\t99999999\nG\t0\nS\t1\n";
        let expected = [
            "W 0", "G R6", "M R6", "M R7", "G R7", "S R8", "S R8", "H 0", "G 0", "M 0", "S 1",
            "G R6", "S 0",
        ];
        assert_eq!(codes(journal), expected);
        // the station as it stands: a dit of 20 and a dah of 60
        let last = "S\t1\t41A00000\t42700000\t0\t0\nG\tR6\t41A00000\t42700000\t0\t0\n";
        assert!(answered(journal).contains(last));
    }

    /// Wherever the bytes are cut, the answers are the same.
    #[test]
    fn cut_anywhere() {
        let mut bytes = WORKED.to_vec();
        bytes.extend([b'M'; 100]);
        bytes.extend(b"\n\nM\t3200\t1\nF");
        let whole = answers(&bytes);
        for size in 1..bytes.len() {
            let mut journal = Journal::new();
            let mut out = Vec::new();
            for piece in bytes.chunks(size) {
                journal.read(piece, &mut out);
            }
            journal.end(&mut out);
            assert_eq!(out, whole, "pieces of {size}");
        }
    }

    /// No line is read after the last that may be.
    #[test]
    fn the_last_line() {
        for end in ["X\n", "X"] {
            let mut journal = Journal {
                left: 3,
                ..Journal::new()
            };
            let mut out = Vec::new();
            journal.read(b"W\t1\t0\n\nF\nX\n", &mut out);
            journal.read(end.as_bytes(), &mut out);
            journal.end(&mut out);
            assert_eq!(out.iter().filter(|&&b| b == b'\n').count(), 3);
        }
        assert_eq!(Journal::new().left, 4_294_967_295);
    }

    /// What a line shows is what the station shows that the library is compared with.
    #[test]
    fn as_the_station() {
        for seed in 1..200 {
            let (mut both, mut station) = (Both::new(), Station::fresh(1, false));
            for call in watched_case(&mut Random::new(seed)) {
                let answer = both.step(&call).expect("the library and the Rust agree");
                match call {
                    Call::Fresh(width, switching) if !answer.refused => {
                        station = Station::fresh(width, switching);
                    }
                    Call::Event(e) if !answer.refused => {
                        assert_eq!(station.call(e.kind, e.number(), e.live), answer.code);
                    }
                    _ => {}
                }
                let s = &both.ours;
                let shown = Shown {
                    dit: s.primary.pair.lo.to_bits(),
                    dah: s.primary.pair.hi.to_bits(),
                    serial: s.serial,
                    challengers: s.bank.challengers_len as u64,
                };
                assert_eq!(station.shown(), shown);
            }
        }
    }
}
