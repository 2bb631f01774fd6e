//! Finds the library's archive, and builds manta's two files into the oracle where they are at hand.

use std::env;
use std::fs;
use std::path::{Path, PathBuf};
use std::process::exit;

include!("substitutions.rs");

/// The names that one of manta's files can have below the folder that MANTA_SRC names.
fn names(file: File) -> [&'static str; 2] {
    match file {
        Timing => [
            "src--crates--manta-decode--src--timing.rs.txt",
            "crates/manta-decode/src/timing.rs",
        ],
        Bank => [
            "src--crates--manta-decode--src--timing--bank.rs.txt",
            "crates/manta-decode/src/timing/bank.rs",
        ],
    }
}

fn stop(message: &str) -> ! {
    eprintln!("oracle: {message}");
    exit(1)
}

/// The file below the folder, under the first of its names that is there.
fn find(folder: &Path, file: File) -> Option<PathBuf> {
    names(file)
        .iter()
        .map(|name| folder.join(name))
        .find(|path| path.is_file())
}

/// Every line that begins with the text, after its indent, made readable from outside; and how many there were.
fn open(source: &str, begins: &str) -> (String, usize) {
    let mut times = 0;
    let mut opened = String::new();
    for line in source.split_inclusive('\n') {
        let rest = line.trim_start_matches(' ');
        if rest.starts_with(begins) {
            times += 1;
            opened.push_str(&line[..line.len() - rest.len()]);
            opened.push_str("pub(crate) ");
            opened.push_str(rest);
        } else {
            opened.push_str(line);
        }
    }
    (opened, times)
}

/// The source with every substitution of the file applied as often as the table says.
fn substituted(file: File, path: &Path) -> String {
    let mut source = fs::read_to_string(path)
        .unwrap_or_else(|e| stop(&format!("{} cannot be read: {e}", path.display())));
    for s in SUBSTITUTIONS.iter().filter(|s| s.file == file) {
        let (what, (next, found)) = match s.change {
            Replace(from, to) => (
                format!("replace {from:?} by {to:?}"),
                (source.replace(from, to), source.matches(from).count()),
            ),
            Open(begins) => (format!("open {begins:?}"), open(&source, begins)),
        };
        if found != s.times {
            stop(&format!(
                "a substitution does not match. {what}: it must be found {} times in {}, and was found {found} times. \
                 The table is oracle/substitutions.rs",
                s.times,
                path.display()
            ));
        }
        source = next;
    }
    source
}

/// Writes the two files, changed, and the line that brings them into the oracle. Whether they were there.
fn manta(root: &Path, out: &Path) -> bool {
    println!("cargo::rerun-if-env-changed=MANTA_SRC");
    let named = env::var_os("MANTA_SRC").map(PathBuf::from);
    let folder = named
        .clone()
        .unwrap_or_else(|| root.join("../shared/docs/src"));
    let (Some(timing), Some(bank)) = (find(&folder, Timing), find(&folder, Bank)) else {
        if named.is_some() {
            stop(&format!(
                "MANTA_SRC is {}, and manta's timing.rs and bank.rs are not there",
                folder.display()
            ));
        }
        println!("cargo::rerun-if-changed={}", folder.display());
        return false;
    };
    for (file, path, name) in [(Timing, &timing, "timing.rs"), (Bank, &bank, "bank.rs")] {
        println!("cargo::rerun-if-changed={}", path.display());
        write(&out.join(name), &substituted(file, path));
    }
    // `mod bank;` of a module with a path is looked for beside it
    let module = format!("#[path = {:?}]\npub mod timing;\n", out.join("timing.rs"));
    write(&out.join("manta.rs"), &module);
    true
}

fn write(path: &Path, text: &str) {
    fs::write(path, text)
        .unwrap_or_else(|e| stop(&format!("{} cannot be written: {e}", path.display())));
}

/// Links the two archives of the proved library: target/staticlib of the repository, or the folder that HULLATHAN_LIB names.
fn library(root: &Path) {
    println!("cargo::rerun-if-env-changed=HULLATHAN_LIB");
    let folder = env::var_os("HULLATHAN_LIB")
        .map(PathBuf::from)
        .unwrap_or_else(|| root.join("target/staticlib"));
    println!("cargo::rustc-link-search=native={}", folder.display());
    for name in ["exports", "hullathan"] {
        let archive = folder.join(format!("lib{name}.a"));
        println!("cargo::rerun-if-changed={}", archive.display());
        if !archive.is_file() {
            stop(&format!(
                "{} is not there. `tools/archive {name}`, in the repository's root, makes it",
                archive.display()
            ));
        }
        println!("cargo::rustc-link-lib=static={name}");
    }
}

fn main() {
    let here = PathBuf::from(env::var_os("CARGO_MANIFEST_DIR").expect("cargo sets it"));
    let out = PathBuf::from(env::var_os("OUT_DIR").expect("cargo sets it"));
    let root = here.parent().expect("the repository's root").to_path_buf();
    println!("cargo::rerun-if-changed=build.rs");
    println!("cargo::rerun-if-changed=substitutions.rs");
    println!("cargo::rustc-check-cfg=cfg(manta)");
    library(&root);
    if manta(&root, &out) {
        println!("cargo::rustc-cfg=manta");
    } else {
        println!("cargo::warning=manta sources not found: what needs them is left out");
    }
}
