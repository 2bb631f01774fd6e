//! The lines of document 01's "Journal program": what a line asks, and the line that answers it.

/// "An `S` or `H` number above 16,777,216 counts as 16,777,216"
const MOST: u32 = 16_777_216;
/// "an `M` or `G` number above it counts as 16,777,218, which 7 refuses"
const TOO_LONG: u32 = 16_777_218;

/// What a line of good form asks; its numbers as the station takes them.
#[derive(Debug, Clone, Copy, PartialEq)]
pub enum Asked {
    /// A width, and whether switching is on.
    Fresh(usize, bool),
    /// A length in milliseconds, and whether it is live.
    Mark(f32, bool),
    Gap(f32),
    /// Words a minute.
    Seed(f32),
    Hint(f32),
    Finish,
    Clear,
    Switch,
}

/// "Whole numbers have 1 to 8 digits." Leading zeros are good.
fn number(field: &[u8]) -> Option<u32> {
    if field.is_empty() || field.len() > 8 {
        return None;
    }
    let mut n = 0;
    for &b in field {
        let digit = b.wrapping_sub(b'0');
        if digit > 9 {
            return None;
        }
        n = 10 * n + u32::from(digit);
    }
    Some(n)
}

/// "A tick is 1/64 ms."
fn ticks(field: &[u8]) -> Option<f32> {
    let n = number(field)?;
    let n = if n > MOST { TOO_LONG } else { n };
    Some(n as f32 / 64.0)
}

/// A number of an `S` or an `H` line.
fn capped(field: &[u8]) -> Option<f32> {
    Some(number(field)?.min(MOST) as f32)
}

/// What a line asks, without its newline; nothing where it breaks its form. No good line comes near 80 bytes.
pub fn asked(line: &[u8]) -> Option<Asked> {
    match line {
        [b'M', b'\t', n @ .., b'\t', flag @ (b'0' | b'1')] => {
            Some(Asked::Mark(ticks(n)?, *flag == b'1'))
        }
        [b'G', b'\t', n @ ..] => Some(Asked::Gap(ticks(n)?)),
        [b'X'] => Some(Asked::Switch),
        [b'W', b'\t', n @ .., b'\t', flag @ (b'0' | b'1')] => {
            Some(Asked::Fresh(number(n)? as usize, *flag == b'1'))
        }
        [b'S', b'\t', n @ ..] => Some(Asked::Seed(capped(n)?)),
        [b'H', b'\t', n @ ..] => Some(Asked::Hint(capped(n)? / 64.0)),
        [b'F'] => Some(Asked::Finish),
        [b'C'] => Some(Asked::Clear),
        _ => None,
    }
}

/// The code of an answer.
#[derive(Debug, Clone, Copy, PartialEq)]
pub enum Code {
    /// 0 done, 1 an unready primary became ready, 2 switched, 3 nothing to do.
    Done(u8),
    /// "R and the number if refused"
    Refused(u8),
}

/// What a line shows of the station; "zeros stand for the station until there is one".
#[derive(Debug, Clone, Copy, Default, PartialEq)]
pub struct Shown {
    pub dit: u32,
    pub dah: u32,
    pub serial: u64,
    pub challengers: u64,
}

/// A line that is being written. The longest has 66 bytes.
struct Draft {
    bytes: [u8; 80],
    len: usize,
}

impl Draft {
    fn push(&mut self, b: u8) {
        self.bytes[self.len] = b;
        self.len += 1;
    }

    /// 8 hexadecimal digits, in capitals.
    fn hex(&mut self, n: u32) {
        for place in (0..8).rev() {
            self.push(b"0123456789ABCDEF"[(n >> (4 * place) & 15) as usize]);
        }
    }

    fn decimal(&mut self, n: u64) {
        if n >= 10 {
            self.decimal(n / 10);
        }
        self.push(b'0' + (n % 10) as u8);
    }

    fn code(&mut self, code: Code) {
        match code {
            Code::Done(n) => self.decimal(u64::from(n)),
            Code::Refused(n) => {
                self.push(b'R');
                self.decimal(u64::from(n));
            }
        }
    }
}

/// Appends an answer: "the letter (`?` if bad), code, dit and dah centroid, primary serial, challenger count".
pub fn answer(letter: u8, code: Code, s: &Shown, out: &mut Vec<u8>) {
    let mut d = Draft {
        bytes: [0; 80],
        len: 0,
    };
    d.push(letter);
    d.push(b'\t');
    d.code(code);
    d.push(b'\t');
    d.hex(s.dit);
    d.push(b'\t');
    d.hex(s.dah);
    d.push(b'\t');
    d.decimal(s.serial);
    d.push(b'\t');
    d.decimal(s.challengers);
    d.push(b'\n');
    out.extend_from_slice(&d.bytes[..d.len]);
}

#[cfg(test)]
mod tests {
    use super::*;
    use crate::layers::journal::odd::BAD;

    #[test]
    fn good_lines() {
        use Asked::*;
        let pairs: &[(&str, Asked)] = &[
            ("W\t2\t1", Fresh(2, true)),
            ("W\t00000008\t0", Fresh(8, false)),
            ("W\t99999999\t0", Fresh(99_999_999, false)),
            ("M\t3200\t1", Mark(50.0, true)),
            ("M\t1\t0", Mark(1.0 / 64.0, false)),
            ("M\t00003200\t1", Mark(50.0, true)),
            ("M\t16777216\t1", Mark(262_144.0, true)),
            ("M\t16777217\t1", Mark(16_777_218.0 / 64.0, true)),
            ("M\t99999999\t1", Mark(16_777_218.0 / 64.0, true)),
            ("G\t0", Gap(0.0)),
            ("G\t16777217", Gap(16_777_218.0 / 64.0)),
            ("S\t20", Seed(20.0)),
            ("S\t16777217", Seed(16_777_216.0)),
            ("S\t99999999", Seed(16_777_216.0)),
            ("H\t192", Hint(3.0)),
            ("H\t99999999", Hint(262_144.0)),
            ("F", Finish),
            ("C", Clear),
            ("X", Switch),
        ];
        for (line, meant) in pairs {
            assert_eq!(asked(line.as_bytes()), Some(*meant), "{line:?}");
        }
    }

    #[test]
    fn bad_lines() {
        for line in BAD {
            assert_eq!(asked(line), None, "{}", line.escape_ascii());
        }
    }

    #[test]
    fn answers() {
        let shown = Shown {
            dit: 0x4248_0000,
            dah: 0x00AB_CDEF,
            serial: 10,
            challengers: 7,
        };
        let mut out = Vec::new();
        answer(b'M', Code::Done(0), &shown, &mut out);
        answer(b'?', Code::Refused(12), &Shown::default(), &mut out);
        let expected = "M\t0\t42480000\t00ABCDEF\t10\t7\n?\tR12\t00000000\t00000000\t0\t0\n";
        assert_eq!(String::from_utf8(out).unwrap(), expected);
    }

    /// The longest line has its place.
    #[test]
    fn the_longest() {
        let shown = Shown {
            dit: u32::MAX,
            dah: u32::MAX,
            serial: u64::MAX,
            challengers: u64::MAX,
        };
        let mut out = Vec::new();
        answer(b'M', Code::Refused(12), &shown, &mut out);
        assert_eq!(out.len(), 66);
    }
}
