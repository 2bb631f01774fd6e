//! Runs the proved library beside the Rust: see README.md.

use oracle::compare::Limit;
use oracle::layers::{Entry, LAYERS};
use oracle::{bench, exhaustive};
use std::io::Write;
use std::process::ExitCode;
use std::time::Duration;

const USAGE: &str = "\
oracle layers                      the layers that can be compared, and how many seconds the gate gives each
oracle compare LAYER [--seed S] [--seconds T | --count N]
                                   the same cases to both sides, up to the first difference (10 seconds from seed 1)
oracle soak journal [--seed S] [--lines N]
                                   long journals through the journal program and the Rust's (200,000,000 lines from seed 1)
oracle exhaustive [--threads N]    the f32 root and the logarithm over all 2^32 patterns (2 threads; minutes)
oracle bench numbers               nanoseconds for each call, beside Rust's own
oracle bench tracker               nanoseconds for one mark, beside manta's
oracle bench bank                  the same of a bank
oracle bench station               nanoseconds for one mark, one gap and one switch call of a station
oracle bench hosts                 nanoseconds for one event of a station, in the hosts' programs too where they are built
oracle bench journal [--instructions]
                                   lines a second, start and memory of the journal program, beside the Rust's by turns;
                                   or instructions a line, counted by valgrind's callgrind
oracle replay LAYER DIR            the fixed list of a layer's program: DIR/stdin, and DIR/stdout, what it must print
oracle keyed [--width W] [--switching 0|1] [--seed S] {[--wpm N] [--ratio R] [--jitter PERCENT] TEXT | --line LINE}..
                                   the journal of keyed text, each option from its place on; a line has blanks for tabs
oracle events [--count N]          the events of `bench hosts`, one a line: kind, live, the number's bits (12,288; after the last the first again)
oracle examples DIR                the example journals and the Rust's answers: DIR/NAME.journal and DIR/NAME.out
oracle journal                     document 01's journal program over manta's Rust: standard input to standard output
";

/// What a command that needs manta's Rust says without it.
const NO_MANTA: &str = "manta sources not found: no comparison with the Rust was run";

/// The value after a word of the command line.
fn option(words: &[String], name: &str) -> Result<Option<u64>, String> {
    let Some(at) = words.iter().position(|w| w == name) else {
        return Ok(None);
    };
    words
        .get(at + 1)
        .and_then(|w| w.parse().ok())
        .map(Some)
        .ok_or_else(|| format!("{name} wants a whole number"))
}

/// Nothing stands on the command line but these options, each with a number.
fn only(words: &[String], names: &[&str]) -> Result<(), String> {
    for pair in words.chunks(2) {
        if !names.contains(&pair[0].as_str()) {
            return Err(format!("{} is not known here", pair[0]));
        }
    }
    Ok(())
}

fn layer(name: &str) -> Result<&'static Entry, String> {
    LAYERS
        .iter()
        .find(|l| l.name == name)
        .ok_or_else(|| format!("there is no layer {name}"))
}

fn compare(name: &str, words: &[String]) -> Result<bool, String> {
    only(words, &["--seed", "--seconds", "--count"])?;
    let entry = layer(name)?;
    if entry.needs_manta && !cfg!(manta) {
        println!("{name}: {NO_MANTA}");
        return Ok(false);
    }
    let seed = option(words, "--seed")?.unwrap_or(1);
    let limit = match (option(words, "--seconds")?, option(words, "--count")?) {
        (Some(_), Some(_)) => return Err("--seconds or --count, not both".into()),
        (_, Some(n)) => Limit::Count(n),
        (t, None) => Limit::Time(Duration::from_secs(t.unwrap_or(10))),
    };
    Ok((entry.report)(seed, limit))
}

/// The commands that need manta's Rust.
#[cfg(manta)]
mod beside_manta {
    use super::{only, option};
    use oracle::{bench, examples, journal, layers, replay};
    use std::io::{stdin, stdout, Write};

    fn write(folder: &str, file: &str, bytes: &[u8]) -> Result<(), String> {
        let path = std::path::Path::new(folder).join(file);
        std::fs::write(&path, bytes).map_err(|e| format!("{}: {e}", path.display()))
    }

    /// Writes the files of a replaying program.
    fn replay(name: &str, folder: &str) -> Result<bool, String> {
        let files = replay::files(name).ok_or_else(|| format!("nothing replays {name}"))?;
        write(folder, "stdin", &files.stdin)?;
        write(folder, "stdout", files.stdout.as_bytes())?;
        Ok(true)
    }

    /// Writes the example journals and their answers.
    fn examples(folder: &str) -> Result<bool, String> {
        for (file, bytes) in examples::files() {
            write(folder, &file, &bytes)?;
        }
        Ok(true)
    }

    /// Long journals through the program and the Rust's.
    fn soak(words: &[String]) -> Result<bool, String> {
        only(words, &["--seed", "--lines"])?;
        let seed = option(words, "--seed")?.unwrap_or(1);
        let lines = option(words, "--lines")?.unwrap_or(200_000_000);
        Ok(layers::journal::soak::report(seed, lines))
    }

    /// Document 01's journal program.
    fn journal() -> bool {
        let done = journal::run(stdin().lock(), stdout().lock());
        if let Err(e) = &done {
            eprintln!("oracle: {e}");
        }
        done.is_ok()
    }

    /// The events that the hosts' programs are measured on.
    fn events(words: &[String]) -> Result<bool, String> {
        only(words, &["--count"])?;
        let count = option(words, "--count")?.unwrap_or(12_288);
        let list = bench::hosts::list(count as usize);
        Ok(stdout().write_all(list.as_bytes()).is_ok())
    }

    fn bench(name: &str, options: &[String]) -> Result<bool, String> {
        let instructions = options == ["--instructions"];
        match name {
            "journal" if instructions => return bench::journal::report(true),
            _ if !options.is_empty() => return Err(format!("{} is not known here", options[0])),
            "tracker" => bench::tracker(),
            "bank" => bench::bank(),
            "station" => bench::station(),
            "journal" => return bench::journal::report(false),
            "hosts" => return bench::hosts::report(),
            _ => return Err(format!("{name} is not measured")),
        }
        Ok(true)
    }

    pub fn command(first: &str, rest: &[String]) -> Result<bool, String> {
        match (first, rest.split_first()) {
            ("replay", Some((name, [folder]))) => replay(name, folder),
            ("examples", Some((folder, []))) => examples(folder),
            ("soak", Some((name, options))) if name == "journal" => soak(options),
            ("journal", None) => Ok(journal()),
            ("events", _) => events(rest),
            ("bench", Some((name, options))) => bench(name, options),
            _ => Err("the command is not known".into()),
        }
    }
}

#[cfg(not(manta))]
mod beside_manta {
    pub fn command(_: &str, _: &[String]) -> Result<bool, String> {
        eprintln!("{}", super::NO_MANTA);
        Ok(false)
    }
}

/// Whether the command found nothing wrong.
fn command(words: &[String]) -> Result<bool, String> {
    let (first, rest) = words.split_first().ok_or("a command is wanted")?;
    match (first.as_str(), rest.split_first()) {
        ("layers", None) => {
            for l in LAYERS {
                println!("{} {}", l.name, l.gate);
            }
            Ok(true)
        }
        ("compare", Some((name, options))) => compare(name, options),
        ("exhaustive", _) => {
            only(rest, &["--threads"])?;
            Ok(exhaustive::report(
                option(rest, "--threads")?.unwrap_or(2).max(1),
            ))
        }
        ("bench", Some((name, []))) if name == "numbers" => {
            bench::numbers();
            Ok(true)
        }
        ("keyed", Some(_)) => {
            let journal = oracle::keyed::command(rest)?;
            Ok(std::io::stdout().write_all(&journal).is_ok())
        }
        ("replay" | "examples" | "soak" | "journal" | "events" | "bench", _) => {
            beside_manta::command(first, rest)
        }
        _ => Err("the command is not known".into()),
    }
}

fn main() -> ExitCode {
    let words: Vec<String> = std::env::args().skip(1).collect();
    match command(&words) {
        Ok(true) => ExitCode::SUCCESS,
        Ok(false) => ExitCode::from(1),
        Err(message) => {
            eprintln!("oracle: {message}\n\n{USAGE}");
            ExitCode::from(2)
        }
    }
}
