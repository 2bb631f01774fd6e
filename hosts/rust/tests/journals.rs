//! The example journals of the repository through the station log, event by event and by batches, held to what they
//! must print.

#[allow(dead_code)]
#[path = "../examples/station_log.rs"]
mod station_log;

use std::fs;
use std::path::{Path, PathBuf};

fn logged(journal: &[u8], batch: bool) -> Vec<u8> {
    let mut output = Vec::new();
    station_log::log(journal, &mut output, batch).expect("nothing is read or written outside");
    output
}

/// The journals in a folder of the repository.
fn journals(folder: &str) -> Vec<PathBuf> {
    let folder = Path::new(env!("CARGO_MANIFEST_DIR"))
        .join("../..")
        .join(folder);
    let entries = fs::read_dir(&folder).expect("the repository has its examples");
    let paths = entries.map(|entry| entry.expect("the folder can be read").path());
    paths
        .filter(|path| path.extension().is_some_and(|e| e == "journal"))
        .collect()
}

#[test]
fn as_the_examples_say() {
    let folders = ["examples", "examples/more"];
    let all: Vec<PathBuf> = folders.into_iter().flat_map(journals).collect();
    assert!(all.len() >= 13, "{} journals", all.len());
    for path in all {
        let journal = fs::read(&path).expect("a journal can be read");
        let out = fs::read(path.with_extension("out")).expect("each has its answers");
        for batch in [false, true] {
            let ours = logged(&journal, batch);
            assert!(ours == out, "{}, batch {batch}", path.display());
        }
    }
}

/// The letters and codes of a log, without the station; the same both ways.
fn codes(journal: &[u8]) -> Vec<String> {
    let one = logged(journal, false);
    assert_eq!(one, logged(journal, true));
    let text = String::from_utf8(one).expect("a log is plain text");
    let code = |line: &str| line.split('\t').take(2).collect::<Vec<_>>().join(" ");
    text.lines().map(code).collect()
}

#[test]
fn what_is_a_line() {
    assert!(codes(b"").is_empty());
    assert_eq!(codes(b"\nW\t1\t0\n\n"), ["? R12", "W 0", "? R12"]);
    assert_eq!(codes(b"W\t1\t0"), ["? R12"]);
    assert_eq!(codes(b"W\t1\t0\nF\nF"), ["W 0", "F 3", "? R12"]);
    for long in [78, 79, 80, 81, 160, 5_000, 200_000] {
        let mut journal = b"W\t1\t0\n".to_vec();
        journal.extend(vec![b'X'; long]);
        assert_eq!(codes(&journal), ["W 0", "? R12"], "{long}");
        journal.extend(b"\nX\n");
        assert_eq!(codes(&journal), ["W 0", "? R12", "X 3"], "{long}");
    }
}

#[test]
fn lines_that_break_their_form() {
    let bad: [&[u8]; 26] = [
        b"",
        b" X",
        b"X ",
        b"X\r",
        b"X\t",
        b"x",
        b"XX",
        b"\tX",
        b"X\0",
        b"M",
        b"M\t3200",
        b"M\t3200\t",
        b"M\t3200\t2",
        b"M\t3200\t01",
        b"M\t3200\t1\t",
        b"M\t\t1",
        b"M\t000003200\t1",
        b"M\t+3200\t1",
        b"M\t-1\t1",
        b"M\t3.5\t1",
        b"M 3200 1",
        b"G\t",
        b"G\t1\t1",
        b"S\t123456789",
        b"W\t2\t1",
        b"F\t0",
    ];
    for line in bad {
        let journal = [b"W\t2\t1\n", line, b"\nC\n"].concat();
        let shown = line.escape_ascii();
        assert_eq!(codes(&journal), ["W 0", "? R12", "C 0"], "{shown}");
    }
}

#[test]
fn the_first_line() {
    let journal = b"M\t3200\t1\nF\nW\t2\t2\nW\t9\t2\nW\t9\t1\nX\nW\t99999999\t0\nW\t08\t1\nX\n";
    let expected = [
        "? R12", "? R12", "? R12", "? R12", "W R3", "? R12", "W R3", "W 0", "X 3",
    ];
    assert_eq!(codes(journal), expected);
}

#[test]
fn refused_lines() {
    let journal = b"W\t2\t1\nG\t0\nM\t0\t0\nM\t16777217\t1\nG\t99999999\nS\t0\nS\t00\nH\t0\n\
        G\t1\nM\t16777216\t0\nS\t99999999\nG\t0\nS\t1\n";
    let expected = [
        "W 0", "G R6", "M R6", "M R7", "G R7", "S R8", "S R8", "H 0", "G 0", "M 0", "S 1", "G R6",
        "S 0",
    ];
    assert_eq!(codes(journal), expected);
    // what a refused line shows is the station as it is: a dit of 20 and a dah of 60
    let out = String::from_utf8(logged(journal, true)).expect("a log is plain text");
    assert!(out.contains("G\tR6\t41A00000\t42700000\t0\t0\n"), "{out}");
}
