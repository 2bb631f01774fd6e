//! The proved journal program as a process of its own: fed a journal in pieces, while what it writes is held to the Rust's answers.

use super::count::Counter;
use crate::journal::Journal;
use crate::random::Random;
use std::env;
use std::io::{self, Read, Write};
use std::path::{Path, PathBuf};
use std::process::{Child, ChildStdin, ChildStdout, Command, Stdio};
use std::sync::mpsc::{channel, Receiver, Sender};
use std::thread;

/// A program that answers journals, and its arguments.
#[derive(Debug, Clone)]
pub struct Program {
    pub path: PathBuf,
    pub words: Vec<String>,
}

/// Where two outputs part: after so many lines that are the same.
#[derive(Debug, PartialEq)]
pub struct Parted {
    pub lines: u64,
    /// What became of the program, where it did not end as it should.
    pub ended: Option<String>,
}

impl Program {
    /// The proved one: where `./journal` and the gate put it, or where HULLATHAN_JOURNAL says.
    pub fn ours() -> Result<Program, String> {
        let built = Path::new(env!("CARGO_MANIFEST_DIR")).with_file_name("target/bin/journal");
        let path = env::var_os("HULLATHAN_JOURNAL").map_or(built, PathBuf::from);
        if !path.is_file() {
            return Err(format!(
                "{} is not there. `./journal </dev/null`, in the repository's root, makes it",
                path.display()
            ));
        }
        let words = Vec::new();
        Ok(Program { path, words })
    }

    /// The Rust's, which is this one.
    pub fn rust() -> io::Result<Program> {
        Ok(Program {
            path: env::current_exe()?,
            words: vec!["journal".into()],
        })
    }

    pub fn command(&self) -> Command {
        let mut command = Command::new(&self.path);
        command.args(&self.words);
        command
    }

    fn start(&self) -> Child {
        let mut command = self.command();
        command.stdin(Stdio::piped()).stdout(Stdio::piped());
        let child = command.spawn();
        child.unwrap_or_else(|e| panic!("{} cannot be started: {e}", self.path.display()))
    }

    /// What the program writes of a journal.
    pub fn answers(&self, journal: &[u8]) -> Vec<u8> {
        let mut child = self.start();
        let (stdin, stdout) = (child.stdin.take(), child.stdout.take());
        let (mut stdin, mut stdout) = (stdin.expect("piped"), stdout.expect("piped"));
        let mut out = Vec::new();
        thread::scope(|s| {
            // a program that ends early leaves some of it unread
            s.spawn(move || stdin.write_all(journal).ok());
            stdout.read_to_end(&mut out).expect("a pipe can be read");
        });
        child.wait().expect("a child can be waited for");
        out
    }

    /// Gives a journal, part by part, to the program and to the Rust: how many lines were answered, or where the answers part.
    /// Each part but the last ends with a newline.
    pub fn compare(&self, parts: impl Iterator<Item = Vec<u8>> + Send) -> Result<u64, Parted> {
        let mut child = self.start();
        let (stdin, stdout) = (child.stdin.take(), child.stdout.take());
        let (stdin, stdout) = (stdin.expect("piped"), stdout.expect("piped"));
        let (sender, receiver) = channel();
        let (same, lines) = thread::scope(|s| {
            s.spawn(move || feed(parts, stdin, sender));
            let seen = hold(stdout, receiver);
            if !seen.0 {
                // the feeding ends with the program
                child.kill().ok();
            }
            seen
        });
        let status = child.wait().expect("a child can be waited for");
        if same && status.success() {
            return Ok(lines);
        }
        let ended = same.then(|| format!("it ended with {status}"));
        Err(Parted { lines, ended })
    }
}

/// Feeds the program, and sends the Rust's answers to where the program's are read. A pipe holds few bytes, so neither runs far ahead.
fn feed(parts: impl Iterator<Item = Vec<u8>>, stdin: ChildStdin, answers: Sender<Vec<u8>>) {
    let mut journal = Journal::new();
    let mut counter = Counter::default();
    let mut pieces = Pieces::new(stdin);
    for part in parts {
        let mut out = Vec::new();
        journal.read(&part, &mut out);
        if !part.ends_with(b"\n") {
            journal.end(&mut out);
        }
        counter.count(&part, &out);
        if answers.send(out).is_err() || pieces.write(&part).is_err() {
            return;
        }
    }
}

/// Writes in pieces of odd sizes, so that lines are cut anywhere.
struct Pieces {
    stdin: ChildStdin,
    random: Random,
}

impl Pieces {
    fn new(stdin: ChildStdin) -> Pieces {
        let random = Random::new(1);
        Pieces { stdin, random }
    }

    fn write(&mut self, part: &[u8]) -> io::Result<()> {
        // tiny pieces of short parts only: each is a call of the system
        let most = match part.len() {
            0..400 => self.random.pick(&[1, 2, 5, 13, 100, 1000]),
            400..20_000 => self.random.pick(&[64, 81, 333, 4_097]),
            _ => self.random.pick(&[4_095, 8_193, 65_537, 200_000]),
        };
        let mut rest = part;
        while !rest.is_empty() {
            let n = 1 + self.random.below(most) as usize;
            let (piece, after) = rest.split_at(n.min(rest.len()));
            self.stdin.write_all(piece)?;
            rest = after;
        }
        Ok(())
    }
}

/// Reads what the program writes, and holds it to the Rust's answers: whether all is the same, and how many lines were.
fn hold(mut stdout: ChildStdout, answers: Receiver<Vec<u8>>) -> (bool, u64) {
    let mut expected = Expected {
        answers,
        held: Vec::new(),
        at: 0,
    };
    let mut lines = 0;
    let mut bytes = vec![0; 1 << 16];
    loop {
        let n = stdout.read(&mut bytes).expect("a pipe can be read");
        if n == 0 {
            return (expected.next(1).is_empty(), lines);
        }
        let mut got = &bytes[..n];
        while !got.is_empty() {
            let wanted = expected.next(got.len());
            let same = same(got, wanted);
            lines += got[..same].iter().filter(|&&b| b == b'\n').count() as u64;
            if same < wanted.len() || wanted.is_empty() {
                return (false, lines);
            }
            expected.take(same);
            got = &got[same..];
        }
    }
}

/// How many bytes two begin with alike.
fn same(a: &[u8], b: &[u8]) -> usize {
    let n = a.len().min(b.len());
    if a[..n] == b[..n] {
        return n;
    }
    a.iter().zip(b).take_while(|(x, y)| x == y).count()
}

/// The Rust's answers, in the order of their lines.
struct Expected {
    answers: Receiver<Vec<u8>>,
    held: Vec<u8>,
    /// How many of the held bytes were taken.
    at: usize,
}

impl Expected {
    /// The next bytes, at most so many; none at the end.
    fn next(&mut self, most: usize) -> &[u8] {
        while self.at == self.held.len() {
            match self.answers.recv() {
                Ok(out) => (self.held, self.at) = (out, 0),
                Err(_) => return &[],
            }
        }
        let end = self.held.len().min(self.at + most);
        &self.held[self.at..end]
    }

    fn take(&mut self, n: usize) {
        self.at += n;
    }
}
