//! Bits of floats that are worth trying: the borders of the formats, ties, squares, and plain random ones.

use crate::random::Random;

pub const SIGN32: u32 = 1 << 31;
pub const SIGN64: u64 = 1 << 63;

/// Numbers at the edge of a format: zeros, the least and the largest of each kind, infinities, NaNs, 1.
const EDGES32: [u32; 12] = [
    0,
    1,
    2,
    0x007F_FFFE,
    0x007F_FFFF,
    0x0080_0000,
    0x3F80_0000,
    0x7F7F_FFFF,
    0x7F80_0000,
    0x7F80_0001,
    0x7FC0_0000,
    0x7FFF_FFFF,
];

/// The same of f64; and what becomes the largest f32, the border to infinity, the least normal and least f32, and the border to 0.
const EDGES64: [u64; 17] = [
    0,
    1,
    0x000F_FFFF_FFFF_FFFF,
    0x0010_0000_0000_0000,
    0x3FF0_0000_0000_0000,
    0x7FEF_FFFF_FFFF_FFFF,
    0x7FF0_0000_0000_0000,
    0x7FF0_0000_0000_0001,
    0x7FF8_0000_0000_0000,
    0x7FFF_FFFF_FFFF_FFFF,
    0x47EF_FFFF_E000_0000,
    0x47EF_FFFF_F000_0000,
    0x47F0_0000_0000_0000,
    0x3810_0000_0000_0000,
    0x380F_FFFF_E000_0000,
    0x36A0_0000_0000_0000,
    0x3690_0000_0000_0000,
];

/// The pattern of a power of two: of every one that the format has, for n from 0.
fn power32(n: u32) -> u32 {
    if n < 23 {
        1 << n
    } else {
        (n - 22) << 23
    }
}

fn power64(n: u64) -> u64 {
    if n < 52 {
        1 << n
    } else {
        (n - 51) << 52
    }
}

/// How many powers of two each format has.
const POWERS32: u32 = 277;
const POWERS64: u64 = 2098;

/// The middle between the f32 with this pattern and the next, as an f64: exact. Above the largest f32 stands 2^128.
fn middle(bits: u32) -> u64 {
    let value = |b: u32| {
        if b == 0x7F80_0000 {
            2f64.powi(128)
        } else {
            f64::from(f32::from_bits(b))
        }
    };
    let low = bits % 0x7F80_0000;
    ((value(low) + value(low + 1)) / 2.0).to_bits()
}

/// k * k with its last places cut off to make an f64 of it, times a power of four.
fn square(k: u64, fours: i32) -> f64 {
    let s = u128::from(k) * u128::from(k);
    let size = 128 - s.leading_zeros();
    let cut = size.saturating_sub(53);
    (s >> cut) as u64 as f64 * 2f64.powi(cut as i32 + 2 * fours)
}

/// A pattern, or one of the four before it or after it.
pub fn near32(bits: u32, random: &mut Random) -> u32 {
    bits.wrapping_add(random.below(9) as u32).wrapping_sub(4)
}

fn near64(bits: u64, random: &mut Random) -> u64 {
    bits.wrapping_add(random.below(9)).wrapping_sub(4)
}

/// An f32 of one of these kinds.
pub fn single(random: &mut Random) -> u32 {
    match random.below(8) {
        0 | 1 => random.bits32(),
        // subnormals of every length, few of them negative
        2 => {
            let length = random.below(24) as u32;
            let sign = u32::from(random.below(8) == 0) << 31;
            (random.bits32() & 0x7F_FFFF) >> length | sign
        }
        3 => {
            let power = power32(random.below(u64::from(POWERS32)) as u32);
            near32(power, random)
        }
        // whole squares
        4 => {
            let n = 1 + random.below(4095);
            let root = square(n, random.below(100) as i32 - 60) as f32;
            near32(root.to_bits(), random)
        }
        // the middle between two roots, squared: k is odd and has one place more than a root
        5 => {
            let k = (1 << 24 | random.below(1 << 24)) | 1;
            let v = square(k, random.below(100) as i32 - 75) as f32;
            near32(v.to_bits(), random)
        }
        6 => {
            let edge = random.pick(&EDGES32) ^ random.pick(&[0, 0, 0, SIGN32]);
            near32(edge, random)
        }
        _ => (random.scale(1.0 / 64.0, 262_144.0) as f32).to_bits(),
    }
}

/// An f64 of one of these kinds.
pub fn double(random: &mut Random) -> u64 {
    match random.below(10) {
        0 => random.bits(),
        1 => {
            let length = random.below(53) as u32;
            let sign = u64::from(random.below(8) == 0) << 63;
            (random.bits() >> 12) >> length | sign
        }
        2 => {
            let power = power64(random.below(POWERS64));
            near64(power, random)
        }
        // what lies at or next to the middle between two f32, subnormal ones too
        3 | 4 => {
            let low = if random.below(4) == 0 {
                random.bits32() >> 9 >> random.below(23)
            } else {
                random.bits32()
            };
            let sign = random.bits() & SIGN64;
            near64(middle(low), random) ^ sign
        }
        // an f32, and its neighbours
        5 => near64(f64::from(f32::from_bits(random.bits32())).to_bits(), random),
        6 => {
            let n = 1 + random.below((1 << 26) - 1);
            near64(square(n, random.below(1000) as i32 - 500).to_bits(), random)
        }
        7 => {
            let k = (1 << 53 | random.below(1 << 53)) | 1;
            near64(square(k, random.below(960) as i32 - 560).to_bits(), random)
        }
        8 => {
            let edge = random.pick(&EDGES64) ^ random.pick(&[0, 0, 0, SIGN64]);
            near64(edge, random)
        }
        _ => random.scale(1.0 / 64.0, 262_144.0 * 262_144.0).to_bits(),
    }
}

/// Every power of two, every edge and every border between two exponents of f32, each with its neighbours and both signs.
pub fn fixed32() -> Vec<u32> {
    let middles = (0..POWERS32).map(power32).chain(EDGES32);
    spread(middles, |b, d| b.wrapping_add(d as u32), SIGN32)
}

/// The same of f64, and the middles at those borders of f32.
pub fn fixed64() -> Vec<u64> {
    let borders =
        (0..POWERS32).flat_map(|n| [middle(power32(n)), middle(power32(n).wrapping_sub(1))]);
    let middles = (0..POWERS64).map(power64).chain(EDGES64).chain(borders);
    spread(middles, |b, d| b.wrapping_add(d as u64), SIGN64)
}

/// Each pattern, the three before it and the three after it, with both signs.
fn spread<B: Copy + std::ops::BitXor<Output = B>>(
    middles: impl Iterator<Item = B>,
    moved: fn(B, i64) -> B,
    sign: B,
) -> Vec<B> {
    middles
        .flat_map(|b| (-3..=3).map(move |d| moved(b, d)))
        .flat_map(|b| [b, b ^ sign])
        .collect()
}

#[cfg(test)]
mod tests {
    use super::*;

    #[test]
    fn powers_are_all_of_them() {
        assert_eq!(power32(0), 1);
        assert_eq!(power32(149), 1f32.to_bits());
        assert_eq!(power32(POWERS32 - 1), 2f32.powi(127).to_bits());
        assert_eq!(power64(1074), 1f64.to_bits());
        assert_eq!(power64(POWERS64 - 1), 2f64.powi(1023).to_bits());
    }

    /// A middle is exact: it is as far from the one f32 as from the other, and `as f32` takes the even one.
    #[test]
    fn middles_are_ties() {
        for low in [0u32, 1, 2, 0x7F_FFFF, 0x3F80_0000, 0x3F80_0001, 0x7F7F_FFFE] {
            let m = f64::from_bits(middle(low));
            let (a, b) = (
                f64::from(f32::from_bits(low)),
                f64::from(f32::from_bits(low + 1)),
            );
            assert_eq!(m - a, b - m);
            assert_eq!((m as f32).to_bits() % 2, 0);
        }
        assert_eq!(f64::from_bits(middle(0x7F7F_FFFF)) as f32, f32::INFINITY);
    }

    #[test]
    fn squares() {
        assert_eq!(square(3, 0), 9.0);
        assert_eq!(square(3, -1), 2.25);
        assert_eq!(square((1 << 26) - 1, 0).sqrt(), f64::from((1 << 26) - 1));
    }
}
