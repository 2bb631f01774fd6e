//! The station log: document 01's "Journal program" through this crate. It reads a journal from standard input and answers each line on standard output, event by
//! event; with `--batch`, by batches of 64.

use hullathan::{Answer, Event, Refusal, Station};
use std::io::{self, BufRead, BufWriter, Read, Write};
use std::process::ExitCode;

/// "at most 4,294,967,295 lines are read"
const LINES: u32 = 4_294_967_295;
/// "newline last, at most 80 bytes with it"
const LONGEST: u64 = 80;
/// "An `S` or `H` number above 16,777,216 counts as 16,777,216"
const MOST: u32 = 16_777_216;
/// "an `M` or `G` number above it counts as 16,777,218, which 7 refuses"
const TOO_LONG: u32 = 16_777_218;

/// What a line of good form asks.
enum Asked {
    /// A station: its width, and whether switching is on.
    Fresh(usize, bool),
    Event(Event),
}

/// "Whole numbers have 1 to 8 digits." Leading zeros are good.
fn number(field: &[u8]) -> Option<u32> {
    let good = (1..=8).contains(&field.len()) && field.iter().all(u8::is_ascii_digit);
    let digits = field.iter().map(|b| u32::from(b - b'0'));
    good.then(|| digits.fold(0, |n, digit| 10 * n + digit))
}

/// "A tick is 1/64 ms."
fn ticks(field: &[u8]) -> Option<f32> {
    let n = number(field)?;
    let n = if n > MOST { TOO_LONG } else { n };
    Some(n as f32 / 64.0)
}

/// A number of an `S` or an `H` line.
fn capped(field: &[u8]) -> Option<f32> {
    Some(number(field)?.min(MOST) as f32)
}

/// "one digit, 0 or 1"
fn flag(field: &[u8]) -> Option<bool> {
    match field {
        b"0" => Some(false),
        b"1" => Some(true),
        _ => None,
    }
}

/// What a line asks; nothing where it breaks its form.
fn asked(line: &[u8]) -> Option<Asked> {
    let mut fields = line.strip_suffix(b"\n")?.split(|&b| b == b'\t');
    let mut field = || fields.next();
    let event = match (field()?, field(), field(), field()) {
        (b"W", Some(n), Some(on), None) => {
            return Some(Asked::Fresh(number(n)? as usize, flag(on)?))
        }
        (b"M", Some(n), Some(live), None) => Event::Mark {
            ms: ticks(n)?,
            live: flag(live)?,
        },
        (b"G", Some(n), None, None) => Event::Gap { ms: ticks(n)? },
        (b"S", Some(n), None, None) => Event::Seed { wpm: capped(n)? },
        (b"H", Some(n), None, None) => Event::Hint {
            ratio: capped(n)? / 64.0,
        },
        (b"F", None, None, None) => Event::Finish,
        (b"C", None, None, None) => Event::Clear,
        (b"X", None, None, None) => Event::Switch,
        _ => return None,
    };
    Some(Asked::Event(event))
}

/// Reads the next line, of one that is too long only as much as tells so. Whether there was one.
fn next(input: &mut impl BufRead, line: &mut Vec<u8>) -> io::Result<bool> {
    line.clear();
    input.by_ref().take(LONGEST).read_until(b'\n', line)?;
    if line.len() as u64 == LONGEST && !line.ends_with(b"\n") {
        input.skip_until(b'\n')?;
    }
    Ok(!line.is_empty())
}

/// What a line shows of the station; "zeros stand for the station until there is one".
#[derive(Default)]
struct Shown {
    dit: u32,
    dah: u32,
    serial: u64,
    challengers: usize,
}

/// A log as far as it was written.
struct Log<W> {
    output: W,
    batch: bool,
    station: Option<Station>,
    shown: Shown,
    /// Lines that wait for their answer: a letter, and an event unless the line is bad.
    waiting: Vec<(u8, Option<Event>)>,
}

impl<W: Write> Log<W> {
    fn hear_all(&mut self, mut input: impl BufRead) -> io::Result<()> {
        let mut line = Vec::new();
        for _ in 0..LINES {
            if !next(&mut input, &mut line)? {
                return Ok(());
            }
            self.hear(&line)?;
        }
        // no more lines are read, and the rest is taken
        io::copy(&mut input, &mut io::sink()).map(drop)
    }

    /// One line: "before a good `W` only `W` is good, later `W` lines are bad".
    fn hear(&mut self, line: &[u8]) -> io::Result<()> {
        let waits = match (asked(line), &self.station) {
            (Some(Asked::Fresh(width, switching)), None) => return self.fresh(width, switching),
            (Some(Asked::Event(event)), Some(_)) => (line[0], Some(event)),
            _ => (b'?', None),
        };
        self.waiting.push(waits);
        if self.waiting.len() < if self.batch { 64 } else { 1 } {
            return Ok(());
        }
        self.settle()
    }

    /// "A `W` refused by 3 keeps its letter and is not a good one."
    fn fresh(&mut self, width: usize, switching: bool) -> io::Result<()> {
        self.settle()?;
        let code = match Station::start(width, switching) {
            Ok(station) => {
                self.station = Some(station);
                "0".to_string()
            }
            Err(refusal) => format!("R{}", refusal.number()),
        };
        self.write(b'W', &code)
    }

    /// Answers the lines that wait.
    fn settle(&mut self) -> io::Result<()> {
        let waiting = std::mem::take(&mut self.waiting);
        let events = waiting.iter().filter_map(|(_, event)| *event);
        let answers: Vec<_> = match &mut self.station {
            Some(station) if self.batch => station.batches(events).collect(),
            Some(station) => station.calls(events).collect(),
            None => Vec::new(),
        };
        let mut answers = answers.into_iter();
        for (letter, event) in waiting {
            let answer = event.and_then(|_| answers.next());
            self.answer(letter, answer.unwrap_or(Err(Refusal::BrokenForm)))?;
        }
        Ok(())
    }

    /// One answer. A refused call left the station as the line before shows it.
    fn answer(&mut self, letter: u8, answer: Result<Answer, Refusal>) -> io::Result<()> {
        let code = match answer {
            Ok(a) => {
                self.shown = Shown {
                    dit: a.dit_ms.to_bits(),
                    dah: a.dah_ms.to_bits(),
                    serial: a.serial,
                    challengers: a.challengers,
                };
                a.code.number().to_string()
            }
            Err(refusal) => format!("R{}", refusal.number()),
        };
        self.write(letter, &code)
    }

    /// "the letter (`?` if bad), code, dit and dah centroid as 8 hexadecimal digits of f32 bits, primary serial, challenger count"
    fn write(&mut self, letter: u8, code: &str) -> io::Result<()> {
        let (letter, shown) = (char::from(letter), &self.shown);
        let (dit, dah) = (shown.dit, shown.dah);
        let (serial, challengers) = (shown.serial, shown.challengers);
        writeln!(
            self.output,
            "{letter}\t{code}\t{dit:08X}\t{dah:08X}\t{serial}\t{challengers}"
        )
    }
}

/// Reads a journal to its end and writes its log. Where reading fails, what was read before is answered.
pub fn log(input: impl BufRead, output: impl Write, batch: bool) -> io::Result<()> {
    let mut log = Log {
        output,
        batch,
        station: None,
        shown: Shown::default(),
        waiting: Vec::new(),
    };
    let heard = log.hear_all(input);
    log.settle()?;
    log.output.flush()?;
    heard
}

fn main() -> ExitCode {
    let arguments: Vec<String> = std::env::args().skip(1).collect();
    let batch = match arguments.iter().map(String::as_str).collect::<Vec<_>>()[..] {
        [] => false,
        ["--batch"] => true,
        _ => {
            eprintln!("station_log [--batch] < a.journal");
            return ExitCode::from(2);
        }
    };
    let output = BufWriter::new(io::stdout().lock());
    match log(io::stdin().lock(), output, batch) {
        Ok(()) => ExitCode::SUCCESS,
        Err(e) => {
            eprintln!("station_log: {e}");
            ExitCode::FAILURE
        }
    }
}
