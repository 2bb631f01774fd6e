//! The journal program, as a process of its own, beside document 01's journal over manta's Rust: the same bytes in, and every byte out
//! compared.

mod cases;
pub mod count;
pub mod odd;
pub mod program;
pub mod soak;
pub mod stream;

use crate::compare::{self, Difference, Layer, Limit};
use crate::journal;
use crate::random::Random;
use crate::shrink::{shrink, simpler_count};
use program::{Parted, Program};
use std::fmt;
use std::sync::OnceLock;
use std::time::{Duration, Instant};

/// A journal, by its bytes.
#[derive(Clone, PartialEq)]
pub struct Case(pub Vec<u8>);

/// The lines of a journal or an output, with their newlines.
fn lines(bytes: &[u8]) -> Vec<&[u8]> {
    bytes.split_inclusive(|&b| b == b'\n').collect()
}

/// How long a journal that differs is made smaller.
const PATIENCE: Duration = Duration::from_secs(60);

/// No more lines than these are shown.
const SHOWN: usize = 60;

/// A journal or an output as it is shown: a line each, with signs for what is no letter.
fn show(bytes: &[u8]) -> String {
    let all = lines(bytes);
    if all.len() > SHOWN {
        return format!("{} lines", all.len());
    }
    let line = |l: &&[u8]| {
        let cut = &l[..l.len().min(100)];
        let more = match l.len() - cut.len() {
            0 => String::new(),
            n => format!(".. and {n} bytes"),
        };
        format!("\n        {}{more}", cut.escape_ascii())
    };
    all.iter().map(line).collect()
}

impl fmt::Debug for Case {
    fn fmt(&self, f: &mut fmt::Formatter<'_>) -> fmt::Result {
        f.write_str(&show(&self.0))
    }
}

/// The program that is compared.
fn ours() -> &'static Program {
    static OURS: OnceLock<Program> = OnceLock::new();
    OURS.get_or_init(|| Program::ours().unwrap_or_else(|e| panic!("{e}")))
}

/// The line of an output at a place, and all of it where that is short.
fn output(bytes: &[u8], at: usize) -> String {
    let all = lines(bytes);
    let line = all
        .get(at)
        .map_or("nothing".into(), |l| l.escape_ascii().to_string());
    match all.len() {
        0..=SHOWN => format!("{line}; in all{}", show(bytes)),
        _ => line,
    }
}

/// What differs: the line of the journal, and both answers.
fn difference(program: &Program, journal: &[u8], parted: &Parted) -> Difference {
    let at = parted.lines as usize;
    let line = lines(journal).get(at).map_or(String::new(), |l| show(l));
    let ended = parted
        .ended
        .as_ref()
        .map_or(String::new(), |e| format!(" ({e})"));
    Difference {
        call: format!("line {}{ended}{line}", at + 1),
        hullathan: output(&program.answers(journal), at),
        rust: output(&journal::answers(journal), at),
    }
}

/// Compares the program's answers to a journal with the Rust's.
fn run(program: &Program, journal: &[u8]) -> Result<u64, Difference> {
    let part = std::iter::once(journal.to_vec());
    let compared = program.compare(part);
    compared.map_err(|parted| difference(program, journal, &parted))
}

/// The line that stands first, and the last ones.
fn tail(journal: &[u8], n: usize) -> Vec<u8> {
    let all = lines(journal);
    let fresh = all.iter().position(|l| l.starts_with(b"W\t"));
    let from = all.len().saturating_sub(n);
    match fresh {
        Some(i) if i < from => [&[all[i]], &all[from..]].concat().concat(),
        _ => journal.to_vec(),
    }
}

/// A journal that differs, cut to the lines that matter: the first that is answered otherwise is the last, few before it are tried
/// first, and then ever shorter runs of lines are left out.
fn shorten(journal: Vec<u8>, fails: impl Fn(&[u8]) -> bool) -> Vec<u8> {
    let few = [10, 100, 1_000, 10_000, 100_000].into_iter();
    let mut best = few
        .map(|n| tail(&journal, n))
        .find(|j| fails(j))
        .unwrap_or(journal);
    let mut run = lines(&best).len().div_ceil(2);
    loop {
        let mut at = 0;
        let mut cut = false;
        while at < lines(&best).len() {
            let all = lines(&best);
            let end = all.len().min(at + run);
            let rest = [&all[..at], &all[end..]].concat().concat();
            if fails(&rest) {
                best = rest;
                cut = true;
            } else {
                at = end;
            }
        }
        if run > 1 {
            run /= 2;
        } else if !cut {
            return best;
        }
    }
}

/// Simpler lines in place of one: a smaller number, or fewer bytes.
fn simpler(line: &[u8]) -> Vec<Vec<u8>> {
    let text = line.strip_suffix(b"\n").unwrap_or(line);
    let end = &line[text.len()..];
    if text.len() > 14 {
        return [text.len() / 2, text.len() - 1]
            .map(|n| [&text[..n], end].concat())
            .into();
    }
    let mut fields: Vec<Vec<u8>> = text.split(|&b| b == b'\t').map(<[u8]>::to_vec).collect();
    let number = fields
        .get(1)
        .and_then(|f| std::str::from_utf8(f).ok()?.parse::<u64>().ok());
    let Some(n) = number.filter(|n| n.to_string().as_bytes() == fields[1]) else {
        return Vec::new();
    };
    let with = |m: u64| {
        fields[1] = m.to_string().into_bytes();
        [&fields.join(&b'\t')[..], end].concat()
    };
    simpler_count(n).into_iter().map(with).collect()
}

pub struct Journals;

impl Layer for Journals {
    type Case = Case;

    const NAME: &'static str = "journal";

    fn fixed() -> Vec<Case> {
        cases::fixed()
    }

    fn random(random: &mut Random) -> Case {
        cases::random(random)
    }

    fn run(case: &Case) -> Result<u64, Difference> {
        run(ours(), &case.0)
    }

    /// One line made simpler; `least` leaves lines out.
    fn smaller(case: &Case) -> Vec<Case> {
        let all = lines(&case.0);
        let each = all.iter().enumerate().flat_map(|(i, line)| {
            let with = |s: Vec<u8>| Case([&all[..i], &[&s], &all[i + 1..]].concat().concat());
            simpler(line).into_iter().map(with).collect::<Vec<_>>()
        });
        each.collect()
    }

    fn least(case: Case) -> Case {
        let start = Instant::now();
        let parted = |j: &[u8]| ours().compare(std::iter::once(j.to_vec())).err();
        let fails = |j: &[u8]| start.elapsed() < PATIENCE && parted(j).is_some();
        // what follows the first line that is answered otherwise is not looked at
        let before = parted(&case.0).map_or(0, |p| p.lines as usize);
        let first = lines(&case.0).into_iter().take(before + 1).flatten();
        let first: Vec<u8> = first.copied().collect();
        let cut = if fails(&first) { first } else { case.0 };
        let short = Case(shorten(cut, fails));
        let simple = shrink(short, Self::smaller, |c| fails(&c.0));
        Case(shorten(simple.0, fails))
    }

    fn reached() -> &'static [&'static crate::reached::Branch] {
        count::reached::ALL
    }
}

/// Compares, where the program is at hand.
pub fn report(seed: u64, limit: Limit) -> bool {
    if let Err(e) = Program::ours() {
        println!("journal: {e}");
        return false;
    }
    compare::report::<Journals>(seed, limit)
}

#[cfg(test)]
mod tests {
    use super::*;
    use crate::journal::answers;

    /// Document 01's worked example.
    const WORKED: &[u8] = b"W\t2\t1\nM\t3200\t1\nM\t9600\t1\nF\nX\n";

    /// A program of the shell that reads all and then does something.
    fn shell(then: &str) -> Program {
        Program {
            path: "/bin/sh".into(),
            words: vec!["-c".into(), format!("cat >/dev/null; {then}")],
        }
    }

    fn compare(program: &Program, journal: &[u8]) -> Result<u64, Parted> {
        program.compare(std::iter::once(journal.to_vec()))
    }

    /// Prints an output.
    fn prints(out: &[u8]) -> String {
        format!(
            "printf '{}'",
            String::from_utf8(out.to_vec()).expect("plain text")
        )
    }

    #[test]
    fn the_same_and_otherwise() {
        let out = answers(WORKED);
        let with = |out: &[u8]| compare(&shell(&prints(out)), WORKED);
        let parted = |lines| Err(Parted { lines, ended: None });
        assert_eq!(with(&out), Ok(5));
        // a byte that differs, one that is missing, a line too many, nothing at all
        let at = out.len() - 3;
        assert_eq!(with(&[&out[..at], b"1\t0\n"].concat()), parted(4));
        assert_eq!(with(&out[..out.len() - 1]), parted(4));
        assert_eq!(with(&out[..out.len() - 26]), parted(4));
        assert_eq!(with(&[&out[..], b"\n"].concat()), parted(5));
        assert_eq!(with(b""), parted(0));
        let failed = compare(&shell(&format!("{}; exit 3", prints(&out))), WORKED);
        assert!(failed.is_err_and(|p| p.lines == 5 && p.ended.is_some()));
        assert_eq!(compare(&shell("true"), b""), Ok(0));
    }

    /// Each byte of the answers counts, and is placed in its line.
    #[test]
    fn every_byte() {
        let out = answers(WORKED);
        for at in 0..out.len() {
            let mut other = out.clone();
            other[at] ^= 1;
            let lines = out[..at].iter().filter(|&&b| b == b'\n').count() as u64;
            let parted = compare(&shell(&prints(&other)), WORKED);
            assert_eq!(parted, Err(Parted { lines, ended: None }), "byte {at}");
        }
    }

    /// A journal of parts is answered as a whole.
    #[test]
    fn in_parts() {
        let out = answers(WORKED);
        let parts = lines(WORKED).into_iter().map(<[u8]>::to_vec);
        assert_eq!(shell(&prints(&out)).compare(parts), Ok(5));
    }

    /// Two lines that matter, far apart in a long journal, are what is left.
    #[test]
    fn cut_to_what_matters() {
        let mut journal = b"W\t2\t1\n".to_vec();
        for i in 0..3000 {
            journal.extend(format!("G\t{i}\n").into_bytes());
        }
        let has = |j: &[u8], line: &[u8]| lines(j).contains(&line);
        let fails = |j: &[u8]| has(j, b"G\t77\n") && has(j, b"G\t2500\n");
        assert_eq!(shorten(journal, fails), b"G\t77\nG\t2500\n");
    }

    #[test]
    fn a_line_is_made_simpler() {
        let simple: Vec<Vec<u8>> = vec![
            b"M\t0\t1\n".into(),
            b"M\t4\t1\n".into(),
            b"M\t7\t1\n".into(),
        ];
        assert_eq!(simpler(b"M\t8\t1\n"), simple);
        assert_eq!(simpler(b"M\t08\t1\n"), Vec::<Vec<u8>>::new());
        assert_eq!(simpler(&[b'X'; 20]), [vec![b'X'; 10], vec![b'X'; 19]]);
    }
}
