//! Every pattern of an f32, to the functions that take one.

use crate::compare::Difference;
use crate::layers::numbers::{check_ln, check_sqrt32};
use std::sync::atomic::{AtomicU64, Ordering};
use std::thread;
use std::time::{Duration, Instant};

/// How many patterns a thread takes at a time.
const BLOCK: u64 = 1 << 20;
const BLOCKS: u64 = (1 << 32) / BLOCK;

/// Both functions over a block of patterns: how many results differ, and the first.
fn block(n: u64) -> (u64, Option<Difference>) {
    let mut differences = 0;
    let mut first = None;
    for bits in n * BLOCK..(n + 1) * BLOCK {
        let bits = bits as u32;
        for result in [check_ln(bits), check_sqrt32(bits)] {
            if let Err(d) = result {
                differences += 1;
                first.get_or_insert(d);
            }
        }
    }
    (differences, first)
}

/// The blocks that this thread can take, until none is left.
fn work(next: &AtomicU64, done: &AtomicU64) -> (u64, Option<Difference>) {
    let mut all = (0, None);
    loop {
        let n = next.fetch_add(1, Ordering::Relaxed);
        if n >= BLOCKS {
            return all;
        }
        let (differences, first) = block(n);
        all.0 += differences;
        all.1 = all.1.or(first);
        done.fetch_add(1, Ordering::Relaxed);
    }
}

fn progress(done: &AtomicU64, start: Instant) {
    let mut said = Instant::now();
    while done.load(Ordering::Relaxed) < BLOCKS {
        thread::sleep(Duration::from_millis(100));
        if said.elapsed() >= Duration::from_secs(10) {
            said = Instant::now();
            let part = 100 * done.load(Ordering::Relaxed) / BLOCKS;
            eprintln!(
                "exhaustive: {part} % after {:.0} s",
                start.elapsed().as_secs_f64()
            );
        }
    }
}

/// Runs all, and prints what was seen. Whether nothing differed.
pub fn report(threads: u64) -> bool {
    let start = Instant::now();
    let (next, done) = (AtomicU64::new(0), AtomicU64::new(0));
    let results: Vec<_> = thread::scope(|s| {
        let workers: Vec<_> = (0..threads)
            .map(|_| s.spawn(|| work(&next, &done)))
            .collect();
        progress(&done, start);
        workers
            .into_iter()
            .map(|w| w.join().expect("a thread runs to its end"))
            .collect()
    });
    let differences: u64 = results.iter().map(|r| r.0).sum();
    if let Some(d) = results.into_iter().find_map(|r| r.1) {
        println!("{}: hullathan {}, rust {}", d.call, d.hullathan, d.rust);
    }
    println!(
        "exhaustive: root and logarithm of all {} patterns of f32, {differences} differences, {:.1} s",
        BLOCKS * BLOCK,
        start.elapsed().as_secs_f64()
    );
    differences == 0
}
