//! Makes a case that shows a difference as small as it can, and still shows it.

/// The most cases that are tried for one difference.
const TRIES: usize = 200_000;

/// Goes from the case to a smaller one that still fails, as long as there is one.
/// What `smaller` proposes has to be smaller by some measure, so that this ends.
pub fn shrink<C: Clone>(case: C, smaller: impl Fn(&C) -> Vec<C>, fails: impl Fn(&C) -> bool) -> C {
    let mut best = case;
    let mut tries = 0;
    loop {
        let mut next = None;
        for c in smaller(&best) {
            tries += 1;
            if tries > TRIES {
                return best;
            }
            if fails(&c) {
                next = Some(c);
                break;
            }
        }
        match next {
            Some(c) => best = c,
            None => return best,
        }
    }
}

/// Smaller lists: with a half, a quarter, .. one entry left out, and with one entry made simpler.
pub fn smaller_list<T: Clone>(list: &[T], simpler: impl Fn(&T) -> Vec<T>) -> Vec<Vec<T>> {
    let mut lists = Vec::new();
    let mut chunk = list.len().div_ceil(2);
    while chunk > 0 {
        for start in (0..list.len()).step_by(chunk) {
            let end = (start + chunk).min(list.len());
            lists.push([&list[..start], &list[end..]].concat());
        }
        chunk /= 2;
    }
    for (i, entry) in list.iter().enumerate() {
        for s in simpler(entry) {
            let mut l = list.to_vec();
            l[i] = s;
            lists.push(l);
        }
    }
    lists
}

/// Simpler whole numbers: 0, and what halving and taking one away give.
pub fn simpler_count(n: u64) -> Vec<u64> {
    let mut all = vec![0, n / 2, n.saturating_sub(1)];
    all.retain(|&m| m < n);
    all.dedup();
    all
}

/// Where the parts of a float's pattern stand.
struct Layout {
    fraction: u32,
    bias: i64,
    top: u64,
}

const F32: Layout = Layout {
    fraction: 23,
    bias: 127,
    top: 255,
};

const F64: Layout = Layout {
    fraction: 52,
    bias: 1023,
    top: 2047,
};

impl Layout {
    fn parts(&self, bits: u64) -> (u64, u64, u64) {
        let fraction = bits & ((1 << self.fraction) - 1);
        let field = bits >> self.fraction & self.top;
        let sign = bits >> self.fraction >> self.top.count_ones();
        (sign, field, fraction)
    }

    /// How simple a pattern is: first zero, then short fractions, then exponents near that of 1, then no sign.
    fn measure(&self, bits: u64) -> (bool, u32, u64, u64, u64) {
        let (sign, field, fraction) = self.parts(bits);
        let length = if fraction == 0 {
            0
        } else {
            self.fraction - fraction.trailing_zeros()
        };
        let far = (field as i64 - self.bias).unsigned_abs();
        (field != 0 || fraction != 0, length, far, fraction, sign)
    }

    fn simpler(&self, bits: u64) -> Vec<u64> {
        let (sign, field, fraction) = self.parts(bits);
        let whole = |s: u64, e: u64, f: u64| (s << self.top.count_ones() | e) << self.fraction | f;
        let one = self.bias as u64;
        let mut all = vec![0, whole(0, one, 0), whole(0, field, fraction)];
        // the last places cleared, and each one cleared
        for n in (0..=self.fraction).rev() {
            all.push(whole(sign, field, fraction >> n << n));
        }
        for n in 0..self.fraction {
            all.push(whole(sign, field, fraction & !(1 << n)));
        }
        // the exponent of 1, half way to it, and one place nearer
        for e in [one, (field + one) / 2, field + 1, field.saturating_sub(1)] {
            all.push(whole(sign, e & self.top, fraction));
        }
        all.retain(|&b| self.measure(b) < self.measure(bits));
        all
    }
}

/// Simpler patterns of an f32.
pub fn simpler_f32(bits: u32) -> Vec<u32> {
    F32.simpler(u64::from(bits))
        .into_iter()
        .map(|b| b as u32)
        .collect()
}

/// Simpler patterns of an f64.
pub fn simpler_f64(bits: u64) -> Vec<u64> {
    F64.simpler(bits)
}

#[cfg(test)]
mod tests {
    use super::*;

    /// Two marks above 100 in a row, among many: just these are left, and as simple as they can be.
    #[test]
    fn a_list_is_cut_to_what_matters() {
        let marks: Vec<f32> = (0..200)
            .map(|i| if i % 70 > 67 { 133.7 + i as f32 } else { 7.3 })
            .collect();
        let bits: Vec<u32> = marks.iter().map(|m| m.to_bits()).collect();
        let fails = |l: &Vec<u32>| {
            l.windows(2)
                .any(|w| w.iter().all(|&b| f32::from_bits(b) > 100.0))
        };
        assert!(fails(&bits));
        let least = shrink(bits, |l| smaller_list(l, |&b| simpler_f32(b)), fails);
        let floats: Vec<f32> = least.iter().map(|&b| f32::from_bits(b)).collect();
        assert_eq!(floats, [128.0, 128.0]);
    }

    #[test]
    fn a_float_is_made_simple() {
        let least = shrink(
            0xC1A3_7F15,
            |&b| simpler_f32(b),
            |&b| f32::from_bits(b) < -3.0,
        );
        assert_eq!(f32::from_bits(least), -4.0);
        let least = shrink(
            0x7FD1_2345_6789_ABCD,
            |&b| simpler_f64(b),
            |&b| f64::from_bits(b) > 1.0,
        );
        assert_eq!(f64::from_bits(least), 2.0);
    }

    #[test]
    fn counts_fall() {
        let least = shrink(1_000_003, |&n| simpler_count(n), |&n| n >= 77);
        assert_eq!(least, 77);
    }
}
