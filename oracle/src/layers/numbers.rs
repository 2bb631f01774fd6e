//! Roots, rounding, the order of floats and the logarithm, beside Rust's own and document 01's logarithm.

use crate::compare::{Difference, Layer};
use crate::hullathan::numbers as ours;
use crate::log01;
use crate::patterns::{double, fixed32, fixed64, near32, single, SIGN32};
use crate::random::Random;
use crate::shrink::{simpler_f32, simpler_f64};
use std::fmt;

/// The refusal of a root.
const ROOT_REFUSED: u8 = 11;

/// Floats by their bits: each function of the layer is given those that it takes.
#[derive(Clone, PartialEq)]
pub struct Input {
    pub single: u32,
    /// What else a function of several f32 is given.
    pub more: [u32; 2],
    pub double: u64,
}

impl fmt::Debug for Input {
    fn fmt(&self, f: &mut fmt::Formatter<'_>) -> fmt::Result {
        let show = |bits: u32| f32::from_bits(bits).show();
        let [a, b] = self.more.map(show);
        let w = f64::from_bits(self.double).show();
        write!(f, "f32 {}, {a}, {b} and f64 {w}", show(self.single))
    }
}

/// What a function answers.
trait Value: Copy {
    fn bits(self) -> u64;
    fn is_nan(self) -> bool;
    fn show(self) -> String;
}

impl Value for f32 {
    fn bits(self) -> u64 {
        u64::from(self.to_bits())
    }
    fn is_nan(self) -> bool {
        self.is_nan()
    }
    fn show(self) -> String {
        format!("{:08X} ({self:e})", self.to_bits())
    }
}

impl Value for f64 {
    fn bits(self) -> u64 {
        self.to_bits()
    }
    fn is_nan(self) -> bool {
        self.is_nan()
    }
    fn show(self) -> String {
        format!("{:016X} ({self:e})", self.to_bits())
    }
}

impl Value for bool {
    fn bits(self) -> u64 {
        u64::from(self)
    }
    fn is_nan(self) -> bool {
        false
    }
    fn show(self) -> String {
        self.to_string()
    }
}

/// Calls the library with `before` behind the reference, and compares with Rust's answer: the same bits, a NaN as a NaN only;
/// or the same refusal, with what stood behind the reference untouched.
fn compare<O: Value>(
    before: O,
    rust: Result<O, u8>,
    call: impl FnOnce(&mut O) -> u8,
    what: impl FnOnce() -> String,
) -> Result<(), Difference> {
    let mut out = before;
    let code = call(&mut out);
    let untouched = out.bits() == before.bits();
    let same = match rust {
        Ok(x) => code == 0 && (out.bits() == x.bits() || out.is_nan() && x.is_nan()),
        Err(k) => code == k && untouched,
    };
    if same {
        return Ok(());
    }
    Err(Difference {
        call: what(),
        hullathan: match code {
            0 => out.show(),
            k if untouched => format!("refused by {k}"),
            k => format!("refused by {k}, with {} written", out.show()),
        },
        rust: match rust {
            Ok(x) => x.show(),
            Err(k) => format!("refused by {k}"),
        },
    })
}

/// The f32 root, as Rust has it.
pub fn check_sqrt32(bits: u32) -> Result<(), Difference> {
    let v = f32::from_bits(bits);
    let rust = if v.is_finite() && v >= 0.0 {
        Ok(v.sqrt())
    } else {
        Err(ROOT_REFUSED)
    };
    let before = f32::from_bits(!bits);
    compare(
        before,
        rust,
        |out| ours::sqrt32(v, out),
        || format!("sqrt32 of {}", v.show()),
    )
}

/// The logarithm, as document 01 has it.
pub fn check_ln(bits: u32) -> Result<(), Difference> {
    let v = f32::from_bits(bits);
    let before = f32::from_bits(!bits);
    compare(
        before,
        log01::ln(v),
        |out| ours::ln(v, out),
        || format!("ln of {}", v.show()),
    )
}

/// The f64 root, as Rust has it.
pub fn check_sqrt64(bits: u64) -> Result<(), Difference> {
    let v = f64::from_bits(bits);
    let rust = if v.is_finite() && v >= 0.0 {
        Ok(v.sqrt())
    } else {
        Err(ROOT_REFUSED)
    };
    let before = f64::from_bits(!bits);
    compare(
        before,
        rust,
        |out| ours::sqrt64(v, out),
        || format!("sqrt64 of {}", v.show()),
    )
}

/// f64 to f32, as Rust has it.
pub fn check_narrow(bits: u64) -> Result<(), Difference> {
    let v = f64::from_bits(bits);
    let before = f32::from_bits(!(bits as u32));
    compare(
        before,
        Ok(v as f32),
        |out| ours::narrow(v, out),
        || format!("narrow of {}", v.show()),
    )
}

/// The roots that take every float, as the layers above call them.
pub fn check_root32(bits: u32) -> Result<(), Difference> {
    let v = f32::from_bits(bits);
    compare(
        f32::from_bits(!bits),
        Ok(v.sqrt()),
        |out| ours::root32(v, out),
        || format!("root32 of {}", v.show()),
    )
}

fn check_root64(bits: u64) -> Result<(), Difference> {
    let v = f64::from_bits(bits);
    compare(
        f64::from_bits(!bits),
        Ok(v.sqrt()),
        |out| ours::root64(v, out),
        || format!("root64 of {}", v.show()),
    )
}

/// `x < v.sqrt()`, which the library mostly decides without a root.
fn check_below_root(x: f32, v: f32) -> Result<(), Difference> {
    let rust = x < v.sqrt();
    compare(
        !rust,
        Ok(rust),
        |out| ours::below_root(x, v, out),
        || format!("{} below the root of {}", x.show(), v.show()),
    )
}

/// `abs`.
fn check_abs(single: u32, double: u64) -> Result<(), Difference> {
    let (v, w) = (f32::from_bits(single), f64::from_bits(double));
    compare(
        f32::from_bits(!single),
        Ok(v.abs()),
        |out| ours::abs32(v, out),
        || format!("abs32 of {}", v.show()),
    )?;
    compare(
        f64::from_bits(!double),
        Ok(w.abs()),
        |out| ours::abs64(w, out),
        || format!("abs64 of {}", w.show()),
    )
}

/// `is_finite`, and the sign, which a NaN does not have in the library.
fn check_kind(v: f32) -> Result<(), Difference> {
    compare(
        !v.is_finite(),
        Ok(v.is_finite()),
        |out| ours::is_finite32(v, out),
        || format!("is_finite32 of {}", v.show()),
    )?;
    let minus = v.is_sign_negative() && !v.is_nan();
    compare(
        !minus,
        Ok(minus),
        |out| ours::negative32(v, out),
        || format!("negative32 of {}", v.show()),
    )
}

/// `clamp`, which Rust has only where the limits are in order. How many results were compared.
fn check_clamp(v: f32, a: f32, b: f32) -> Result<u64, Difference> {
    let (lo, hi) = if a <= b { (a, b) } else { (b, a) };
    if lo.is_nan() || hi.is_nan() {
        return Ok(0);
    }
    compare(
        f32::from_bits(!v.to_bits()),
        Ok(v.clamp(lo, hi)),
        |out| ours::clamp32(v, lo, hi, out),
        || format!("clamp32 of {} to {}, {}", v.show(), lo.show(), hi.show()),
    )?;
    Ok(1)
}

/// `max`. Which of two zeros it gives is not said in Rust; the library gives the first.
fn check_max(a: f32, b: f32) -> Result<(), Difference> {
    let rust = if a == 0.0 && b == 0.0 { a } else { a.max(b) };
    compare(
        f32::from_bits(!a.to_bits()),
        Ok(rust),
        |out| ours::max32(a, b, out),
        || format!("max32 of {} and {}", a.show(), b.show()),
    )
}

/// `total_cmp`. A NaN has no sign and no digits in the library and is above all: compared where Rust puts it there too.
/// How many results were compared.
fn check_total_less(a: f32, b: f32) -> Result<u64, Difference> {
    let below = |v: f32| v.is_nan() && v.is_sign_negative();
    if below(a) || below(b) || a.is_nan() && b.is_nan() {
        return Ok(0);
    }
    let rust = a.total_cmp(&b).is_lt();
    compare(
        !rust,
        Ok(rust),
        |out| ours::total_less32(a, b, out),
        || format!("total_less32 of {} and {}", a.show(), b.show()),
    )?;
    Ok(1)
}

/// Two more floats beside one: it again, its negative, what lies next to it or to its root, or others.
fn more(random: &mut Random, first: u32) -> [u32; 2] {
    [0; 2].map(|_| match random.below(8) {
        0 => first,
        1 => first ^ SIGN32,
        2 => near32(first, random),
        3 | 4 => near32(f32::from_bits(first).sqrt().to_bits(), random),
        _ => single(random),
    })
}

pub struct Numbers;

impl Layer for Numbers {
    type Case = Input;

    const NAME: &'static str = "numbers";

    fn fixed() -> Vec<Input> {
        let (singles, doubles) = (fixed32(), fixed64());
        let count = singles.len().max(doubles.len());
        (0..count)
            .map(|i| Input {
                single: singles[i % singles.len()],
                more: [7, 1].map(|k| singles[(i + k) % singles.len()]),
                double: doubles[i % doubles.len()],
            })
            .collect()
    }

    fn random(random: &mut Random) -> Input {
        let first = single(random);
        Input {
            single: first,
            more: more(random, first),
            double: double(random),
        }
    }

    fn run(case: &Input) -> Result<u64, Difference> {
        let [v, a, b] = [case.single, case.more[0], case.more[1]].map(f32::from_bits);
        check_ln(case.single)?;
        check_sqrt32(case.single)?;
        check_sqrt64(case.double)?;
        check_root32(case.single)?;
        check_root64(case.double)?;
        check_below_root(a, v)?;
        check_narrow(case.double)?;
        check_abs(case.single, case.double)?;
        check_kind(v)?;
        check_max(v, a)?;
        let most = check_clamp(v, a, b)? + check_total_less(v, a)?;
        Ok(12 + most)
    }

    fn smaller(case: &Input) -> Vec<Input> {
        let singles = simpler_f32(case.single).into_iter().map(|single| Input {
            single,
            ..case.clone()
        });
        let doubles = simpler_f64(case.double).into_iter().map(|double| Input {
            double,
            ..case.clone()
        });
        let more = (0..2).flat_map(|i| {
            simpler_f32(case.more[i]).into_iter().map(move |b| {
                let mut c = case.clone();
                c.more[i] = b;
                c
            })
        });
        singles.chain(doubles).chain(more).collect()
    }
}

#[cfg(test)]
mod tests {
    use super::*;

    /// Each way in which an answer can be wrong is seen: its bits, its code, a refusal that is none or another, and one
    /// that writes.
    #[test]
    fn wrong_answers() {
        let with = |rust: Result<f32, u8>, code: u8, wrote: Option<f32>| {
            let call = |out: &mut f32| {
                *out = wrote.unwrap_or(*out);
                code
            };
            compare(7.0, rust, call, String::new).is_ok()
        };
        assert!(with(Ok(2.0), 0, Some(2.0)) && with(Err(11), 11, None));
        assert!(with(Ok(f32::NAN), 0, Some(-f32::NAN)));
        for byte in 0..4 {
            let other = f32::from_bits(2f32.to_bits() ^ 1 << (8 * byte));
            assert!(!with(Ok(2.0), 0, Some(other)));
        }
        assert!(!with(Ok(0.0), 0, Some(-0.0)) && !with(Ok(f32::NAN), 0, Some(2.0)));
        assert!(!with(Ok(2.0), 0, None) && !with(Ok(2.0), 11, Some(2.0)));
        assert!(!with(Err(11), 0, None) && !with(Err(11), 10, None));
        assert!(!with(Err(11), 11, Some(2.0)));
    }

    /// What is not compared is not counted.
    #[test]
    fn counted() {
        let nan = f32::NAN;
        assert_eq!(check_clamp(1.0, nan, 2.0), Ok(0));
        assert_eq!(check_clamp(nan, 1.0, 2.0), Ok(1));
        assert_eq!(check_total_less(1.0, -nan), Ok(0));
        assert_eq!(check_total_less(1.0, nan), Ok(1));
    }

    /// The fixed cases have what document 01 names.
    #[test]
    fn settled_examples() {
        let mut out = 7.0;
        assert_eq!((ours::ln(1.0, &mut out), out.to_bits()), (0, 0));
        assert_eq!((ours::ln(0.5, &mut out), out.to_bits()), (0, 0xBF31_7218));
        assert_eq!((ours::ln(0.0, &mut out), out.to_bits()), (10, 0xBF31_7218));
        assert_eq!((ours::sqrt32(-0.0, &mut out), out.to_bits()), (0, SIGN32));
        assert_eq!((ours::sqrt32(-1.0, &mut out), out.to_bits()), (11, SIGN32));
    }
}
