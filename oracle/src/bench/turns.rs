//! Ways of doing the same, measured by turns: a busy machine slows all of them alike. A median stands with its
//! quartiles.

use std::fmt;

/// How often each way has its turn.
pub const TURNS: usize = 9;

/// A median, and the quartiles on both sides of it.
#[derive(Debug, Clone, Copy, PartialEq)]
pub struct Spread {
    low: f64,
    pub median: f64,
    high: f64,
}

impl Spread {
    /// Of at least one number.
    pub fn of(mut all: Vec<f64>) -> Spread {
        all.sort_by(f64::total_cmp);
        let last = all.len() - 1;
        let at = |quarters: usize| all[(last * quarters + 2) / 4];
        Spread {
            low: at(1),
            median: at(2),
            high: at(3),
        }
    }

    /// Of one number for each turn of two ways.
    pub fn of_both(a: &[f64], b: &[f64], f: impl Fn(f64, f64) -> f64) -> Spread {
        Spread::of(a.iter().zip(b).map(|(&a, &b)| f(a, b)).collect())
    }
}

impl fmt::Display for Spread {
    fn fmt(&self, f: &mut fmt::Formatter<'_>) -> fmt::Result {
        let digits = f.precision().unwrap_or(2);
        let show = |x: f64| format!("{x:.digits$}");
        let (low, median, high) = (show(self.low), show(self.median), show(self.high));
        write!(f, "{median} ({low} to {high})")
    }
}

/// What each way took, turn for turn: the ways one after the other, then all of them again.
pub fn by_turns<W, E>(
    ways: &[W],
    turns: usize,
    mut run: impl FnMut(&W) -> Result<f64, E>,
) -> Result<Vec<Vec<f64>>, E> {
    let mut taken = vec![Vec::new(); ways.len()];
    for _ in 0..turns {
        for (way, t) in ways.iter().zip(&mut taken) {
            t.push(run(way)?);
        }
    }
    Ok(taken)
}

#[cfg(test)]
mod tests {
    use super::*;

    #[test]
    fn quartiles() {
        let nine = (1..10).rev().map(f64::from).collect();
        assert_eq!(Spread::of(nine).to_string(), "5.00 (3.00 to 7.00)");
        assert_eq!(format!("{:.0}", Spread::of(vec![4.0])), "4 (4 to 4)");
        let ratio = Spread::of_both(&[2.0, 9.0, 4.0], &[1.0, 3.0, 4.0], |a, b| a / b);
        assert_eq!(ratio.median, 2.0);
    }

    #[test]
    fn each_in_its_turn() {
        let mut seen = Vec::new();
        let run = |w: &u8| {
            seen.push(*w);
            Ok::<f64, ()>(f64::from(*w))
        };
        let taken = by_turns(&[1, 2], 3, run).expect("no way fails");
        assert_eq!(taken, [[1.0; 3], [2.0; 3]]);
        assert_eq!(seen, [1, 2, 1, 2, 1, 2]);
        assert_eq!(by_turns(&[1], 3, |_| Err(7)), Err(7));
    }
}
