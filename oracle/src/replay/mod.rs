//! Fixed lists of calls for the programs that replay them, and what they must print: by manta's Rust and the refusals of document 01.

pub mod bank;
pub mod journal;
pub mod sender;
pub mod station;
pub mod tracker;

use crate::compare::Follow;
use crate::random::Random;
use crate::shrink::{shrink, smaller_list};
use std::collections::BTreeSet;

/// What a program reads, and what it must print.
pub struct Files {
    pub stdin: Vec<u8>,
    pub stdout: String,
}

/// The branches that the list in the repository does not reach by itself.
pub fn unreached(layer: &str) -> Option<Vec<&'static str>> {
    match layer {
        "sender" => Some(sender::unreached()),
        "tracker" => Some(tracker::unreached()),
        "bank" => Some(bank::unreached()),
        "station" => Some(station::unreached()),
        _ => None,
    }
}

/// The files of the program that replays a layer.
pub fn files(layer: &str) -> Option<Files> {
    match layer {
        "sender" => Some(sender::files()),
        "tracker" => Some(tracker::files()),
        "bank" => Some(bank::files()),
        "station" => Some(station::files()),
        "journal" => Some(journal::files()),
        _ => None,
    }
}

/// A float's eight digits; a NaN has one form only.
fn float(v: f32) -> String {
    if v.is_nan() {
        "7FC00000".into()
    } else {
        format!("{:08X}", v.to_bits())
    }
}

/// A line of a script: a letter, a digit and three fields.
fn line(letter: char, digit: u8, a: u32, b: u32, c: u32) -> String {
    format!("{letter} {digit} {a:08X} {b:08X} {c:08X}\n")
}

fn number(v: f32) -> String {
    format!(" {}", float(v))
}

fn count(n: usize) -> String {
    format!(" {n:08X}")
}

fn flag(b: bool) -> String {
    format!(" {}", u8::from(b))
}

fn held(has: bool, v: f32) -> String {
    if has {
        flag(true) + &number(v)
    } else {
        flag(false)
    }
}

/// The branches that a list reaches, by the Rust's side alone.
fn reaches<L: Follow>(case: &L::Case) -> BTreeSet<usize> {
    let counts = || L::reached().iter().map(|b| b.count());
    let before: Vec<u64> = counts().collect();
    L::follow(case);
    let after = counts().zip(before).map(|(b, a)| b > a);
    after.enumerate().filter(|x| x.1).map(|x| x.0).collect()
}

/// The branches that are not among these.
fn missing<L: Follow>(done: &BTreeSet<usize>) -> Vec<&'static str> {
    let all = L::reached().iter().enumerate();
    all.filter(|(i, _)| !done.contains(i))
        .map(|(_, b)| b.name)
        .collect()
}

/// A list that reaches every branch: the first calls, and then for each branch that is left a random list of no more than so many
/// calls, made as short as it can be, after the calls that begin anew.
fn choose<L: Follow<Case = Vec<C>>, C: Clone>(
    first: Vec<C>,
    random: impl Fn(&mut Random) -> Vec<C>,
    anew: &[C],
    longest: u64,
) -> Vec<C> {
    let mut calls = first;
    let mut done = reaches::<L>(&calls);
    let mut seed = 0;
    while done.len() < L::reached().len() {
        seed += 1;
        assert!(seed < 400_000, "not reached: {:?}", missing::<L>(&done));
        let case = random(&mut Random::new(seed));
        // short lists first
        if case.len() as u64 > longest * (1 + seed / 10_000) {
            continue;
        }
        let new: BTreeSet<usize> = reaches::<L>(&case).difference(&done).copied().collect();
        if new.is_empty() {
            continue;
        }
        let least = shrink(
            case,
            |c| smaller_list(c, |_| Vec::new()),
            |c| reaches::<L>(c).is_superset(&new),
        );
        done.extend(reaches::<L>(&least));
        calls.extend_from_slice(anew);
        calls.extend(least);
    }
    calls
}
