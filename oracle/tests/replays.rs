//! The replays' files, in a process of its own: branches are counted in one place, so nothing else may run beside this.
#![cfg(manta)]

use oracle::replay::{files, unreached};
use std::fs;
use std::path::Path;

/// What stands in the repository is, to the byte, what the Rust's side alone writes; and each list reaches every branch
/// by itself.
#[test]
fn as_written_by_the_rust() {
    let root = Path::new(env!("CARGO_MANIFEST_DIR")).join("../crates");
    for layer in ["sender", "tracker", "bank", "station"] {
        assert_eq!(unreached(layer), Some(Vec::new()), "{layer}");
        let written = files(layer).expect("a layer that is replayed");
        let folder = root.join(format!("{layer}_replay"));
        let read = |name| fs::read(folder.join(name)).expect("a file of the repository");
        assert!(read("stdin") == written.stdin, "{layer}: stdin");
        assert!(
            read("stdout") == written.stdout.as_bytes(),
            "{layer}: stdout"
        );
    }
}
