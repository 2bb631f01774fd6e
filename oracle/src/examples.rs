//! The example journals of the repository: the keyed text that each is made from, and the Rust's answers to it.

use crate::journal;
use crate::keyed;

/// How a journal is made.
enum Source {
    /// The words of `oracle keyed`, with bars between them.
    Keyed(&'static str),
    /// Its bytes, with blanks for tabs and bars for newlines.
    Plain(&'static str),
}

use Source::{Keyed, Plain};

pub struct Example {
    pub name: &'static str,
    source: Source,
}

const fn example(name: &'static str, source: Source) -> Example {
    Example { name, source }
}

/// The examples that README.md explains.
pub const EXAMPLES: [Example; 3] = [
    // a caller at 24 words a minute is answered by a slower sender, at 12
    example(
        "switch-to-slower-sender",
        Keyed("--width|2|--wpm|24|CQ|--wpm|12|DE OH"),
    ),
    // two equal marks and the end of a signal: a lock that may be wrong, and its other reading beside it
    example(
        "finish-locks-early",
        Keyed("--width|4|--wpm|24|M|--line|F|--line|F|OK TU"),
    ),
    // what an operator sets, and lines that are refused
    example(
        "hint-seed-and-refusals",
        Keyed(
            "--line|M 3200 1|--line|W 9 1|--width|3||--line|W 3 1|--line|H 256|--wpm|24|--ratio|2|A|--line|F|\
             --line|S 0|--line|S 12|--ratio|3|--jitter|4|HI|--line|G 0|--line|M 16777217 1|--line|M 3200|\
             --line|m 3200 1|--line|C|--line|S 24|--line||K",
        ),
    ),
];

/// Short journals for what one journal has once: the lock, the station's line and the end.
pub const MORE: [Example; 10] = [
    // document 01's
    example("worked-example", Plain("W 2 1|M 3200 1|M 9600 1|F|X|")),
    example(
        "seed-locks",
        Plain("W 8 1|S 0|X|S 20|S 20|F|M 3840 1|G 3840|M 11520 1|X|C|"),
    ),
    example(
        "finish-needs-two-marks",
        Plain("W 3 1|F|M 3200 1|G 3200|F|M 3200 1|F|F|M 9600 1|"),
    ),
    example("width-0-is-width-1", Keyed("--width|0|--wpm|24|CQ|--wpm|12|DE OH")),
    example("width-1", Keyed("--width|1|--wpm|24|CQ|--wpm|12|DE OH")),
    example(
        "switching-off",
        Keyed("--width|2|--switching|0|--wpm|24|CQ|--wpm|12|DE OH"),
    ),
    example("no-station", Plain("M 3200 1|W 9 1|W 2 2|X|S 20||W 2 1")),
    example("last-line-without-newline", Plain("W 2 1|S 20|X|X")),
    example(
        "last-line-long",
        Plain("W 2 1|S 20|XXXXXXXXXXXXXXXXXXXXXXXXXXXXXXXXXXXXXXXXXXXXXXXXXXXXXXXXXXXXXXXXXXXXXXXXXXXXXXXXXXXX"),
    ),
    example("nothing", Plain("")),
];

impl Example {
    pub fn journal(&self) -> Vec<u8> {
        match self.source {
            Keyed(words) => {
                let words: Vec<String> = words.split('|').map(String::from).collect();
                keyed::command(&words).expect("an example is keyed text")
            }
            Plain(text) => text.replace(' ', "\t").replace('|', "\n").into(),
        }
    }
}

/// The two files of each example: their names below the folder, and what they have.
pub fn files() -> Vec<(String, Vec<u8>)> {
    let named = |e: &Example, folder: &str| {
        let journal = e.journal();
        let out = journal::answers(&journal);
        [
            (format!("{folder}{}.journal", e.name), journal),
            (format!("{folder}{}.out", e.name), out),
        ]
    };
    let first = EXAMPLES.iter().flat_map(|e| named(e, ""));
    first
        .chain(MORE.iter().flat_map(|e| named(e, "more/")))
        .collect()
}

#[cfg(test)]
mod tests {
    use super::*;
    use std::fs;
    use std::path::Path;

    /// What stands in the repository is what is keyed, and what the Rust answers.
    #[test]
    fn as_written() {
        let folder = Path::new(env!("CARGO_MANIFEST_DIR")).join("../examples");
        for (name, bytes) in files() {
            let written =
                fs::read(folder.join(&name)).expect("an example stands in the repository");
            assert!(written == bytes, "{name}");
        }
    }

    /// Each shows what its name says.
    #[test]
    fn as_named() {
        let has = |e: &Example, code: &str| {
            let out = String::from_utf8(journal::answers(&e.journal())).expect("plain text");
            out.lines().any(|l| l.starts_with(code))
        };
        let [switch, finish, refusals] = &EXAMPLES;
        assert!(has(switch, "X\t2\t"));
        assert!(has(finish, "F\t1\t"));
        for code in [
            "H\t0", "S\t0", "C\t0", "W\tR3", "S\tR8", "G\tR6", "M\tR7", "?\tR12",
        ] {
            assert!(has(refusals, code), "{code}");
        }
    }
}
