//! Nanoseconds for one event of a station of width 8 that switches: manta's Rust, the library's calls one by one and in batches, and the two
//! hosts' own programs on the same events, where they are built.

use super::turns::{Spread, TURNS};
use super::{batch_watch, events, heard, one_sender, rust_watch, station_watch, Loop};
use crate::hullathan::station::Event;
use std::fmt::Write;
use std::path::{Path, PathBuf};
use std::process::Command;
use std::time::Instant;

/// The hosts' programs, below the folder of what is built.
const PROGRAMS: [&str; 2] = ["hosts-c/bench", "hosts-rust/release/examples/bench"];

/// Keyed text whose speed changes now and then: each mark, a gap and a switch call.
fn keyed() -> Vec<Event> {
    let marks = one_sender();
    let gaps = heard(marks.clone()).gaps;
    events(&marks, &gaps)
}

/// So many of these events, the first again after the last: a line has the kind, whether it is live and the number's bits.
pub fn list(count: usize) -> String {
    let keyed = keyed();
    let mut text = String::new();
    for e in keyed.iter().cycle().take(count) {
        let bits = e.value.to_bits();
        writeln!(text, "{} {} {bits:08x}", e.kind, e.live).expect("a string takes all");
    }
    text
}

/// A way to hear the list: its name, and nanoseconds for one event.
enum Way<'a> {
    Own(&'static str, Loop<'a>),
    /// A host's program: a line for each of its own ways, `c event 1234.5`.
    Program(PathBuf),
}

/// How often a loop of this program runs in one turn.
const ROUNDS: usize = 12;

impl Way<'_> {
    /// What one turn takes, by name.
    fn turn(&mut self, file: &Path, events: usize) -> Result<Vec<(String, f64)>, String> {
        match self {
            Way::Own(name, run) => {
                let start = Instant::now();
                for _ in 0..ROUNDS {
                    run();
                }
                let ns = start.elapsed().as_nanos() as f64 / (ROUNDS * events) as f64;
                Ok(vec![(name.to_string(), ns)])
            }
            Way::Program(program) => said(program, file),
        }
    }
}

/// What a host's program says of the list.
fn said(program: &Path, list: &Path) -> Result<Vec<(String, f64)>, String> {
    let name = program.display();
    let done = Command::new(program).arg(list).output();
    let done = done.map_err(|e| format!("{name}: {e}"))?;
    if !done.status.success() {
        return Err(format!("{name} ended with {}", done.status));
    }
    let line = |l: &str| {
        let (way, ns) = l.rsplit_once(' ')?;
        Some((way.to_string(), ns.parse().ok()?))
    };
    let text = String::from_utf8_lossy(&done.stdout);
    let lines: Option<Vec<_>> = text.lines().map(line).collect();
    lines.ok_or_else(|| format!("{name} says {text:?}"))
}

/// The turns of every way, each with its name; manta's Rust first.
fn measured(keyed: &[Event], file: &Path) -> Result<Vec<(String, Vec<f64>)>, String> {
    let mut ways = vec![
        Way::Own("manta's Rust", rust_watch(keyed, 8)),
        Way::Own("oracle event", station_watch(keyed, 8)),
        Way::Own("oracle batch", batch_watch(keyed, 8)),
    ];
    let built = Path::new(env!("CARGO_MANIFEST_DIR")).join("../target");
    for name in PROGRAMS {
        let program = built.join(name);
        match program.is_file() {
            true => ways.push(Way::Program(program)),
            false => eprintln!("target/{name} is not built"),
        }
    }
    let mut all: Vec<(String, Vec<f64>)> = Vec::new();
    for _ in 0..TURNS {
        for way in &mut ways {
            for (name, ns) in way.turn(file, keyed.len())? {
                match all.iter_mut().find(|a| a.0 == name) {
                    Some(a) => a.1.push(ns),
                    None => all.push((name, vec![ns])),
                }
            }
        }
    }
    Ok(all)
}

/// A table in markdown.
pub fn report() -> Result<bool, String> {
    let keyed = keyed();
    let file = std::env::temp_dir().join(format!("oracle-events-{}", std::process::id()));
    std::fs::write(&file, list(keyed.len())).map_err(|e| format!("{}: {e}", file.display()))?;
    let all = measured(&keyed, &file);
    let _ = std::fs::remove_file(&file);
    let all = all?;
    println!("| one event, width 8 | ns | over the Rust |\n|---|---|---|");
    for (name, taken) in &all {
        let (ns, ratio) = (
            Spread::of(taken.clone()),
            Spread::of_both(taken, &all[0].1, |a, b| a / b),
        );
        println!("| {name} | {ns:.0} | {ratio} |");
    }
    Ok(true)
}

#[cfg(test)]
mod tests {
    use super::*;

    /// A mark, a gap and a switch call by turns; the list begins again after its last.
    #[test]
    fn lines() {
        let all = keyed().len();
        let text = list(all + 1);
        let lines: Vec<&str> = text.lines().collect();
        assert_eq!(lines.len(), all + 1);
        assert_eq!(lines[all], lines[0]);
        assert!(lines[0].starts_with("0 1 4") && lines[1].starts_with("1 1 4"));
        assert_eq!(lines[2], "6 1 00000000");
    }
}
