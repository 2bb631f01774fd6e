//! A soak: journals of millions of lines, made as they are read, through the program and through the Rust.

use super::program::{Parted, Program};
use super::stream::{Mix, Stream};
use super::{count, Case, Journals};
use crate::compare::{self, print_found, Found, Origin};
use crate::random::Random;
use crate::reached;
use std::time::Instant;

/// About how many lines a journal has.
const JOURNAL: u64 = 4_000_000;

/// About how many bytes are made at once.
const PART: usize = 1 << 19;

/// A journal of so many lines or a few more, part by part.
struct Long {
    stream: Stream,
    head: Vec<u8>,
    left: u64,
}

impl Long {
    fn new(seed: u64, lines: u64) -> Long {
        let mut random = Random::new(seed);
        let width = random.pick(&[8, 2, 3, 5, 8]);
        let switching = u8::from(random.below(4) > 0);
        let mix = Mix {
            turns: random.pick(&[3, 10, 40, 150]),
            odd: random.pick(&[0, 50, 8]),
            events: random.pick(&[0, 900, 100]),
        };
        Long {
            stream: Stream::new(random.bits(), mix),
            head: format!("W\t{width}\t{switching}\n").into_bytes(),
            left: lines,
        }
    }
}

impl Iterator for Long {
    type Item = Vec<u8>;

    fn next(&mut self) -> Option<Vec<u8>> {
        if self.left == 0 {
            return None;
        }
        let mut part = std::mem::take(&mut self.head);
        while part.len() < PART {
            self.stream.letter(&mut part);
        }
        let lines = part.iter().filter(|&&b| b == b'\n').count() as u64;
        self.left = self.left.saturating_sub(lines);
        Some(part)
    }
}

/// The first lines of a journal, up to one that is answered otherwise.
fn cut(seed: u64, lines: u64) -> Vec<u8> {
    let whole: Vec<u8> = Long::new(seed, lines).flatten().collect();
    let all = whole.split_inclusive(|&b| b == b'\n');
    all.take(lines as usize).flatten().copied().collect()
}

fn found(program: &Program, seed: u64, parted: &Parted) -> Found<Case> {
    let case = Case(cut(seed, parted.lines + 1));
    let difference = super::difference(program, &case.0, parted);
    compare::found::<Journals>(Origin::Seed(seed), case, difference)
}

/// So many lines and a few more, from a seed on: whether nothing differed.
pub fn report(seed: u64, lines: u64) -> bool {
    let program = match Program::ours() {
        Ok(program) => program,
        Err(e) => {
            println!("journal: {e}");
            return false;
        }
    };
    let start = Instant::now();
    let (mut done, mut seeds) = (0, 0);
    while done < lines {
        let this = seed.wrapping_add(seeds);
        seeds += 1;
        match program.compare(Long::new(this, JOURNAL.min(lines - done))) {
            Ok(n) => done += n,
            Err(parted) => {
                println!(
                    "journal: the long journal of seed {this} differs at line {}",
                    parted.lines + 1
                );
                print_found(&found(&program, this, &parted));
                return false;
            }
        }
        let seconds = start.elapsed().as_secs_f64();
        println!("journal: {seeds} journals, {done} lines compared, 0 differences, {seconds:.1} s, {:.0} lines a second", done as f64 / seconds);
    }
    let all = count::reached::ALL.iter().copied();
    reached::print(&all.filter(|b| b.count() > 0).collect::<Vec<_>>());
    if done == 0 {
        println!("journal: nothing was compared");
    }
    done > 0
}
