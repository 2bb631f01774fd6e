//! Document 01's logarithm, written from its text alone ("Root, rounding, logarithm").

/// The refusal of an input that is not finite and positive.
pub const REFUSED: u8 = 10;

/// `v = y / 2^31 * 2^e`, the leading one of the significand brought to bit 31.
fn parts(v: f32) -> (u64, i64) {
    let bits = v.to_bits();
    let field = i64::from(bits >> 23 & 0xff);
    let fraction = u64::from(bits & 0x7f_ffff);
    // a significand and the exponent of its last place; a subnormal has no leading one of its own
    let (significand, last) = if field == 0 {
        (fraction, -149)
    } else {
        (fraction + 0x80_0000, field - 150)
    };
    let zeros = significand.leading_zeros() - 32;
    (significand << zeros, last + 31 - i64::from(zeros))
}

/// 24 binary digits of the logarithm of `y / 2^31` to the base 2. No branch: no one foretells these digits.
fn digits(mut y: u64) -> i64 {
    let mut t = 0;
    for _ in 0..24 {
        let s = y * y / (1 << 31);
        // 1 if s is at least 2^32; it is below 2^33
        let bit = s >> 32;
        t = 2 * t + bit;
        y = s >> bit;
    }
    t as i64
}

/// `n / 2^56` as the nearest f32, ties to even: `as` rounds n so, and the quotient is exact, as it lies far above the subnormals.
fn nearest(negative: bool, n: u64) -> f32 {
    let positive = n as f32 / (1u64 << 56) as f32;
    if negative {
        -positive
    } else {
        positive
    }
}

/// The logarithm, or the refusal's number.
pub fn ln(v: f32) -> Result<f32, u8> {
    if !v.is_finite() || v <= 0.0 {
        return Err(REFUSED);
    }
    let (y, e) = parts(v);
    let l = e * (1 << 24) + digits(y);
    Ok(nearest(l < 0, l.unsigned_abs() * 2977044472))
}

/// What stands for `ln` in manta's files, where it is taken of finite positive numbers only.
pub trait Ln01 {
    fn ln01(self) -> f32;
}

impl Ln01 for f32 {
    fn ln01(self) -> f32 {
        ln(self).expect("manta takes the logarithm of a finite positive number")
    }
}

#[cfg(test)]
mod tests {
    use super::*;

    #[test]
    fn settled_examples() {
        assert_eq!(ln(1.0).unwrap().to_bits(), 0);
        assert_eq!(ln(0.5).unwrap().to_bits(), 0xBF31_7218);
        assert_eq!(ln(2.0).unwrap().to_bits(), 0x3F31_7218);
    }

    #[test]
    fn refusals() {
        for v in [0.0, -0.0, -1.0, f32::NAN, f32::INFINITY, f32::NEG_INFINITY] {
            assert_eq!(ln(v), Err(REFUSED));
        }
    }

    /// The smallest f32 is 2^-149: L is -149 * 2^24 with no digits after it.
    #[test]
    fn subnormals() {
        let least = f32::from_bits(1);
        let exact = -149.0 * (2977044472.0f64 / 4294967296.0);
        assert_eq!(ln(least).unwrap(), exact as f32);
        // 3 * 2^-149 has the digits of 1.5
        let (y, e) = parts(f32::from_bits(3));
        assert_eq!((y, e), (0xC000_0000, -148));
        assert_eq!(parts(1.5), (0xC000_0000, 0));
    }

    /// 24 digits of a logarithm to the base 2, each rounded down, beside the library's own.
    #[test]
    fn close_to_the_library() {
        for bits in (1..f32::INFINITY.to_bits()).step_by(9973) {
            let v = f32::from_bits(bits);
            let ours = f64::from(ln(v).unwrap());
            let exact = f64::from(v).ln();
            assert!(
                (ours - exact).abs() <= 2.0e-7 + 1.0e-7 * exact.abs(),
                "{v:e}: {ours} and {exact}"
            );
        }
    }
}
