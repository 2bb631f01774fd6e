//! How fast the journal program is, beside document 01's journal over manta's Rust: the same file to both by turns, for
//! each width and with one sender and many. How soon it starts, how much memory it takes, and how many instructions a
//! line costs.

use super::turns::{by_turns, Spread, TURNS};
use crate::keyed::Key;
use crate::layers::journal::program::Program;
use std::fs::{self, File};
use std::io::{self, Write};
use std::path::{Path, PathBuf};
use std::process::{Command, Stdio};
use std::thread;
use std::time::{Duration, Instant};

/// How many lines a journal has, at least; and how many where each instruction is counted.
const LINES: usize = 1_000_000;
const COUNTED: usize = 100_000;

/// How often nothing is run.
const STARTS: usize = 101;

const WIDTHS: [u64; 3] = [1, 2, 8];

/// The speeds of those who send by turns, 40 words each.
const ONE: &[f64] = &[20.0];
const MANY: &[f64] = &[20.0, 25.0, 13.0, 33.0, 18.0];

/// Keyed text for a station of a width: words of five letters, 8 per cent off.
fn journal(width: u64, speeds: &[f64], least: usize) -> Vec<u8> {
    let mut key = Key::new(9, width, true);
    key.jitter = 0.08;
    let mut words = 0;
    while lines(&key.journal) < least {
        // counted now and then
        for _ in 0..1_000 {
            key.wpm = speeds[words / 40 % speeds.len()];
            key.word(5);
            words += 1;
        }
    }
    key.journal
}

fn lines(bytes: &[u8]) -> usize {
    bytes.iter().filter(|&&b| b == b'\n').count()
}

/// A journal in a file that goes with it.
struct Journal {
    name: String,
    path: PathBuf,
    bytes: Vec<u8>,
}

impl Journal {
    fn new(name: String, bytes: Vec<u8>) -> io::Result<Journal> {
        let file = format!("keyed-{}.journal", std::process::id());
        let path = std::env::temp_dir().join(file);
        fs::write(&path, &bytes)?;
        Ok(Journal { name, path, bytes })
    }

    fn open(&self) -> io::Result<Stdio> {
        Ok(File::open(&self.path)?.into())
    }
}

impl Drop for Journal {
    fn drop(&mut self) {
        fs::remove_file(&self.path).ok();
    }
}

/// Each width with one sender and with many.
fn journals(least: usize) -> impl Iterator<Item = io::Result<Journal>> {
    let senders = [("one sender", ONE), ("five senders", MANY)];
    let all = WIDTHS
        .into_iter()
        .flat_map(move |w| senders.map(|s| (w, s)));
    all.map(move |(width, (who, speeds))| {
        let name = format!("width {width}, {who}");
        Journal::new(name, journal(width, speeds, least))
    })
}

/// Seconds that a program takes, from its start to its end. It runs in the process group of this one.
fn seconds(program: &Program, input: Stdio) -> io::Result<f64> {
    let start = Instant::now();
    let status = program
        .command()
        .stdin(input)
        .stdout(Stdio::null())
        .status()?;
    ended(status.success(), program)?;
    Ok(start.elapsed().as_secs_f64())
}

fn ended(well: bool, program: &Program) -> io::Result<()> {
    let name = program.path.display();
    match well {
        true => Ok(()),
        false => Err(io::Error::other(format!("{name} did not end well"))),
    }
}

/// The program's answers to a journal are the Rust's.
fn same(ours: &Program, journal: &Journal) -> io::Result<()> {
    let whole = std::iter::once(journal.bytes.clone());
    ours.compare(whole).map(|_| ()).map_err(|parted| {
        let at = parted.lines + 1;
        io::Error::other(format!("the answers are not the Rust's from line {at} on"))
    })
}

/// Lines a second of both programs, and the program's time over the Rust's in the same turn.
fn speed(ours: &Program, rust: &Program) -> io::Result<()> {
    println!("| journal | lines | proved program, million lines a second | the Rust's | time over the Rust's |");
    println!("|---|---|---|---|---|");
    for journal in journals(LINES) {
        let journal = journal?;
        same(ours, &journal)?;
        let run = |p: &&Program| seconds(p, journal.open()?);
        let taken = by_turns(&[ours, rust], TURNS, run)?;
        let (n, name) = (lines(&journal.bytes), &journal.name);
        let rate = |t: &Vec<f64>| Spread::of(t.iter().map(|s| n as f64 / s / 1e6).collect());
        let ratio = Spread::of_both(&taken[0], &taken[1], |a, b| a / b);
        let (first, second) = (rate(&taken[0]), rate(&taken[1]));
        println!("| {name} | {n} | {first} | {second} | {ratio} |");
    }
    Ok(())
}

/// The most memory that a program held, in KB: it is read while the program has answered all and waits for more.
fn memory(program: &Program, journal: &[u8]) -> io::Result<String> {
    let mut command = program.command();
    let mut child = command
        .stdin(Stdio::piped())
        .stdout(Stdio::null())
        .spawn()?;
    let mut stdin = child.stdin.take().expect("piped");
    stdin.write_all(journal)?;
    thread::sleep(Duration::from_millis(300));
    let status = fs::read_to_string(format!("/proc/{}/status", child.id()))?;
    drop(stdin);
    child.wait()?;
    let peak = status.lines().find_map(|l| l.strip_prefix("VmHWM:"));
    Ok(peak.map_or("unknown".into(), |p| {
        p.trim().trim_end_matches(" kB").to_string()
    }))
}

/// How soon each program starts and ends, and how much memory it takes.
fn start(ours: &Program, rust: &Program) -> io::Result<()> {
    let nothing = Program {
        path: "/bin/true".into(),
        words: Vec::new(),
    };
    let run = |p: &&Program| seconds(p, Stdio::null()).map(|s| 1e3 * s);
    let taken = by_turns(&[ours, rust, &nothing], STARTS, run)?;
    let [first, second, third] = [0, 1, 2].map(|i| Spread::of(taken[i].clone()));
    let keyed = journal(8, MANY, COUNTED);
    let (kb, rusts) = (memory(ours, &keyed)?, memory(rust, &keyed)?);
    println!("\n| | start and end, ms | memory, KB |\n|---|---|---|");
    println!("| proved program | {first} | {kb} |");
    println!("| the Rust's | {second} | {rusts} |");
    println!("| `/bin/true` | {third} | |");
    Ok(())
}

/// How many instructions a program takes for a journal, as callgrind counts them.
fn counted(program: &Program, path: &Path) -> io::Result<u64> {
    let done = Command::new("valgrind")
        .args(["--tool=callgrind", "--callgrind-out-file=/dev/null"])
        .arg(&program.path)
        .args(&program.words)
        .stdin(File::open(path)?)
        .stdout(Stdio::null())
        .output()
        .map_err(|e| io::Error::other(format!("valgrind: {e}")))?;
    ended(done.status.success(), program)?;
    let said = String::from_utf8_lossy(&done.stderr);
    let of = |l: &str| l.split_once("Collected : ")?.1.trim().parse().ok();
    let count = said.lines().find_map(of);
    count.ok_or_else(|| io::Error::other(format!("valgrind says {said}")))
}

/// Instructions for a line: of a journal, less those of its first lines, so that the start is not among them.
fn per_line(program: &Program, journal: &Journal) -> io::Result<f64> {
    let head = journal.bytes.split_inclusive(|&b| b == b'\n');
    let head: Vec<u8> = head.take(COUNTED / 10).flatten().copied().collect();
    let path = journal.path.with_extension("head");
    fs::write(&path, &head)?;
    let first = counted(program, &path);
    fs::remove_file(&path).ok();
    let more = counted(program, &journal.path)?.saturating_sub(first?);
    Ok(more as f64 / (lines(&journal.bytes) - lines(&head)) as f64)
}

/// A line of the table for each journal.
fn costs(ours: &Program, rust: &Program) -> io::Result<()> {
    println!("| journal | proved program, instructions a line | the Rust's | over the Rust's |");
    println!("|---|---|---|---|");
    for journal in journals(COUNTED) {
        let journal = journal?;
        same(ours, &journal)?;
        let (a, b) = (per_line(ours, &journal)?, per_line(rust, &journal)?);
        println!("| {} | {a:.0} | {b:.0} | {:.2} |", journal.name, a / b);
    }
    Ok(())
}

/// Tables in markdown, where the program is at hand: of times, or of instructions, which do not depend on the machine.
pub fn report(instructions: bool) -> Result<bool, String> {
    let ours = match Program::ours() {
        Ok(ours) => ours,
        Err(e) => {
            println!("journal: {e}");
            return Ok(false);
        }
    };
    let measured = Program::rust().and_then(|rust| match instructions {
        true => costs(&ours, &rust),
        false => speed(&ours, &rust).and_then(|()| start(&ours, &rust)),
    });
    if let Err(e) = &measured {
        println!("journal: {e}");
    }
    Ok(measured.is_ok())
}
