//! How often each branch was reached: a layer names its branches, counts them as it runs, and a long run fails where one stays at zero.

use std::sync::atomic::{AtomicU64, Ordering};

/// One branch: its words in the table, and its count. One thread counts.
pub struct Branch {
    pub name: &'static str,
    count: AtomicU64,
}

impl Branch {
    pub const fn new(name: &'static str) -> Branch {
        Branch {
            name,
            count: AtomicU64::new(0),
        }
    }

    pub fn count(&self) -> u64 {
        self.count.load(Ordering::Relaxed)
    }

    pub fn reached(&self) {
        self.count.store(self.count() + 1, Ordering::Relaxed);
    }

    /// Counts where the test holds.
    pub fn when(&self, test: bool) {
        if test {
            self.reached();
        }
    }
}

/// The branches of a layer, each a static of its own, and the list of all of them.
#[macro_export]
macro_rules! branches {
    ($($id:ident: $name:literal,)*) => {
        $(pub static $id: $crate::reached::Branch = $crate::reached::Branch::new($name);)*
        pub static ALL: &[&$crate::reached::Branch] = &[$(&$id),*];
    };
}

/// Prints the table. Whether every branch was reached.
pub fn print(branches: &[&Branch]) -> bool {
    for b in branches {
        println!("  {:>12}  {}", b.count(), b.name);
    }
    branches.iter().all(|b| b.count() > 0)
}

#[cfg(test)]
mod tests {
    mod some {
        crate::branches! {
            FIRST: "the first",
            SECOND: "the second",
        }
    }

    #[test]
    fn a_branch_left_out_is_noticed() {
        some::FIRST.when(true);
        some::SECOND.when(false);
        assert!(!super::print(some::ALL));
        some::SECOND.reached();
        assert!(super::print(some::ALL));
        assert_eq!(some::FIRST.count(), 1);
    }
}
