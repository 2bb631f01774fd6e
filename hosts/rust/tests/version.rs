//! An archive that is not the one that the crate is written for is noticed before the first call. `check` links one
//! besides, and sees the program refuse to go on.

#[allow(dead_code)]
#[path = "../src/sys.rs"]
mod sys;

use hullathan::version;
use sys::{compare, Interface, DECLARED};

#[test]
fn the_one_that_is_linked() {
    assert_eq!(version::check(), Ok(()));
    assert_eq!(version::VERSION, 2);
    assert_eq!(
        DECLARED.sizes,
        [4056, 152, 8, 10_248, 712, 3656, 344, 60, 76]
    );
    assert_eq!(compare(DECLARED, DECLARED), Ok(()));
}

/// A newer archive, and an older one: both versions are named.
#[test]
fn of_another_version() {
    for (archive, said) in [(3, "version 3"), (1, "version 1"), (0, "version 0")] {
        let linked = Interface {
            version: archive,
            ..DECLARED
        };
        let mismatch = compare(DECLARED, linked).expect_err("another version");
        assert_eq!((mismatch.declared(), mismatch.linked()), (2, archive));
        let text = mismatch.to_string();
        assert!(
            text.contains("version 2 ") && text.ends_with(said),
            "{text}"
        );
    }
}

/// Any one struct of another size, also where the version is the same.
#[test]
fn of_other_sizes() {
    for place in 0..DECLARED.sizes.len() {
        for size in [0, DECLARED.sizes[place] - 4, DECLARED.sizes[place] + 8] {
            let mut linked = DECLARED;
            linked.sizes[place] = size;
            let text = compare(DECLARED, linked)
                .expect_err("another size")
                .to_string();
            let said = format!(" has {size} bytes and not {}", DECLARED.sizes[place]);
            assert!(
                text.contains("version 2, where a ") && text.ends_with(&said),
                "{text}"
            );
        }
    }
}
