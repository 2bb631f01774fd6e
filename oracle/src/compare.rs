//! The differential driver: the same cases to both sides, every result compared.

use crate::random::Random;
use crate::reached::{self, Branch};
use crate::shrink::shrink;
use std::fmt::Debug;
use std::time::{Duration, Instant};

/// What the two sides answered where they differ.
#[derive(Debug, Clone, PartialEq)]
pub struct Difference {
    /// The call, with its input.
    pub call: String,
    pub hullathan: String,
    pub rust: String,
}

/// Both sides say the same of one thing, at a call.
pub fn agree<A: PartialEq<B> + Debug, B: Debug>(
    call: &dyn Debug,
    what: &str,
    a: A,
    b: B,
) -> Result<(), Difference> {
    if a == b {
        return Ok(());
    }
    Err(Difference {
        call: format!("{call:?}: {what}"),
        hullathan: format!("{a:?}"),
        rust: format!("{b:?}"),
    })
}

/// How one layer of the library is compared with the Rust.
pub trait Layer {
    /// An input to both sides: a number, or a list of calls.
    type Case: Clone + Debug;

    /// The layer's name on the command line.
    const NAME: &'static str;

    /// Cases that every run starts with.
    fn fixed() -> Vec<Self::Case>;

    /// A case made from random numbers.
    fn random(random: &mut Random) -> Self::Case;

    /// Runs both sides: how many results were compared, or the first that differs.
    fn run(case: &Self::Case) -> Result<u64, Difference>;

    /// Smaller cases to try in place of one that shows a difference (`shrink` has what makes them).
    fn smaller(case: &Self::Case) -> Vec<Self::Case>;

    /// The smallest case that still shows a difference, from one that does.
    fn least(case: Self::Case) -> Self::Case {
        shrink(case, Self::smaller, |c| Self::run(c).is_err())
    }

    /// The branches that its runs count: a long run has to reach each.
    fn reached() -> &'static [&'static Branch] {
        &[]
    }
}

/// A layer whose other side can run by itself.
pub trait Follow: Layer {
    /// Runs the Rust's side alone, and counts the branches that it reaches: the library is not called.
    fn follow(case: &Self::Case);
}

/// A run of this length must have reached every branch.
const LONG: Duration = Duration::from_secs(5);

/// When a run ends.
#[derive(Debug, Clone, Copy, PartialEq)]
pub enum Limit {
    Time(Duration),
    /// This many random cases.
    Count(u64),
}

/// What a run saw.
#[derive(Debug)]
pub struct Outcome<C> {
    /// The first seed, and how many followed: each seed makes one random case.
    pub seed: u64,
    pub seeds: u64,
    /// The fixed cases and the random ones.
    pub cases: u64,
    pub results: u64,
    pub found: Option<Found<C>>,
}

/// The first difference: where it was seen, and the smallest case that still shows one.
#[derive(Debug)]
pub struct Found<C> {
    /// The seed of the case; a fixed case has its place instead.
    pub origin: Origin,
    pub case: C,
    pub difference: Difference,
    pub least: C,
    pub least_difference: Difference,
}

#[derive(Debug, PartialEq)]
pub enum Origin {
    Fixed(usize),
    Seed(u64),
}

/// What is said of a case that differs.
pub fn found<L: Layer>(origin: Origin, case: L::Case, difference: Difference) -> Found<L::Case> {
    let least = L::least(case.clone());
    let least_difference = L::run(&least).expect_err("a case that fails stays one that fails");
    Found {
        origin,
        case,
        difference,
        least,
        least_difference,
    }
}

/// Runs the layer's cases up to the limit, or to the first difference.
pub fn run<L: Layer>(seed: u64, limit: Limit) -> Outcome<L::Case> {
    let start = Instant::now();
    let mut o = Outcome {
        seed,
        seeds: 0,
        cases: 0,
        results: 0,
        found: None,
    };
    for (i, case) in L::fixed().into_iter().enumerate() {
        o.cases += 1;
        match L::run(&case) {
            Ok(n) => o.results += n,
            Err(d) => {
                o.found = Some(found::<L>(Origin::Fixed(i), case, d));
                return o;
            }
        }
    }
    while match limit {
        Limit::Count(n) => o.seeds < n,
        // the clock is read once in a while
        Limit::Time(t) => o.seeds % 16 != 0 || start.elapsed() < t,
    } {
        let this = seed.wrapping_add(o.seeds);
        let case = L::random(&mut Random::new(this));
        o.seeds += 1;
        o.cases += 1;
        match L::run(&case) {
            Ok(n) => o.results += n,
            Err(d) => {
                o.found = Some(found::<L>(Origin::Seed(this), case, d));
                return o;
            }
        }
    }
    o
}

fn print_difference<C: Debug>(title: &str, case: &C, d: &Difference) {
    println!("  {title}: {case:?}");
    println!("    call       {}", d.call);
    println!("    hullathan  {}", d.hullathan);
    println!("    rust       {}", d.rust);
}

/// Prints a case that differs, and the smallest one that does.
pub fn print_found<C: Debug>(f: &Found<C>) {
    print_difference("case", &f.case, &f.difference);
    print_difference("smallest", &f.least, &f.least_difference);
}

/// Runs a layer and prints what was seen. Whether nothing differed.
pub fn report<L: Layer>(seed: u64, limit: Limit) -> bool {
    let start = Instant::now();
    let o = run::<L>(seed, limit);
    if let Some(f) = &o.found {
        match f.origin {
            Origin::Seed(s) => println!(
                "{}: the case of seed {s} differs; again: oracle compare {} --seed {s} --count 1",
                L::NAME,
                L::NAME
            ),
            Origin::Fixed(i) => println!(
                "{}: fixed case {i} differs; again: oracle compare {} --count 0",
                L::NAME,
                L::NAME
            ),
        }
        print_found(f);
    }
    let seeds = match o.seeds {
        0 => "no seed".to_string(),
        n => format!("seeds {} to {}", o.seed, o.seed.wrapping_add(n - 1)),
    };
    println!(
        "{}: {seeds}, {} cases, {} results compared, {} differences, {:.1} s",
        L::NAME,
        o.cases,
        o.results,
        usize::from(o.found.is_some()),
        start.elapsed().as_secs_f64()
    );
    let long = start.elapsed() >= LONG;
    let all = reached::print(L::reached());
    if !all && long {
        println!("{}: a branch was not reached", L::NAME);
    }
    if o.results == 0 {
        println!("{}: nothing was compared", L::NAME);
    }
    o.found.is_none() && o.results > 0 && (all || !long)
}

#[cfg(test)]
mod tests {
    use super::*;
    use crate::shrink::{simpler_count, smaller_list};

    /// A layer with a wrong answer: the library's sum forgets what lies above 1,000.
    struct Forgetful;

    impl Layer for Forgetful {
        type Case = Vec<u64>;
        const NAME: &'static str = "forgetful";

        fn fixed() -> Vec<Self::Case> {
            vec![vec![], vec![1, 2]]
        }

        fn random(random: &mut Random) -> Self::Case {
            (0..random.below(9)).map(|_| random.below(300)).collect()
        }

        fn run(case: &Self::Case) -> Result<u64, Difference> {
            let rust: u64 = case.iter().sum();
            let ours = rust.min(1_000);
            if ours == rust {
                return Ok(1);
            }
            Err(Difference {
                call: "sum".into(),
                hullathan: ours.to_string(),
                rust: rust.to_string(),
            })
        }

        fn smaller(case: &Self::Case) -> Vec<Self::Case> {
            smaller_list(case, |&n| simpler_count(n))
        }
    }

    #[test]
    fn a_wrong_answer_is_found_and_made_small() {
        let o = run::<Forgetful>(1, Limit::Count(10_000));
        let f = o.found.expect("the sum is wrong");
        assert!(f.case.iter().sum::<u64>() > 1_000);
        assert_eq!(f.least.iter().sum::<u64>(), 1_001);
        assert_eq!(f.least_difference.rust, "1001");
        let Origin::Seed(seed) = f.origin else {
            panic!("the fixed cases are right")
        };
        // the seed alone makes the same case
        let again = run::<Forgetful>(seed, Limit::Count(1));
        assert_eq!(again.found.expect("again").case, f.case);
    }

    /// A layer that compares nothing.
    struct Empty;

    impl Layer for Empty {
        type Case = u64;
        const NAME: &'static str = "empty";

        fn fixed() -> Vec<u64> {
            vec![1]
        }

        fn random(random: &mut Random) -> u64 {
            random.bits()
        }

        fn run(_: &u64) -> Result<u64, Difference> {
            Ok(0)
        }

        fn smaller(_: &u64) -> Vec<u64> {
            Vec::new()
        }
    }

    /// A run that compared nothing does not pass, nor one with a difference.
    #[test]
    fn nothing_compared_is_no_success() {
        assert!(!report::<Empty>(1, Limit::Count(100)));
        assert!(!report::<Forgetful>(1, Limit::Count(10_000)));
        assert!(report::<Forgetful>(1, Limit::Count(0)));
    }

    #[test]
    fn nothing_is_counted_twice() {
        let o = run::<Forgetful>(1, Limit::Count(0));
        assert_eq!((o.seeds, o.cases, o.results), (0, 2, 2));
        assert!(o.found.is_none());
    }
}
