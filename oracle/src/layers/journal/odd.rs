//! Lines beside the keyed ones: numbers about every border, and every way to break a line's form.

use crate::random::Random;

/// Bytes that may stand where they do not belong.
const STRAY: &[u8] = b"\t\t\r\0 +-.,?0123456789ACFGHMSWXZacfghmswx\x0B\x1A\x7F\x80\xA0\xCD\xFF";

/// Numbers about the borders of what a journal can hold, as they are written.
pub const NUMBERS: &[&str] = &[
    "0", "00000000", "1", "2", "00000001", "01", "63", "64", "65", "0064", "16777215", "16777216",
    "16777217", "16777218", "16777219", "99999999", "99999998", "10000000",
];

/// The widths, about the widest, and how else they may be written.
pub const WIDTHS: &[&str] = &[
    "0", "1", "2", "3", "4", "5", "6", "7", "8", "9", "10", "00000000", "00000001", "00000008",
    "00000009", "08", "16", "24", "99999999",
];

/// Lines of bad form, of every kind but the long ones.
pub const BAD: &[&[u8]] = &[
    b"",
    b"\t",
    b"?",
    b"Q\t1",
    b"\xFF",
    b"w\t2\t1",
    b"m\t3200\t1",
    b"g\t3200",
    b"s\t20",
    b"h\t192",
    b"f",
    b"c",
    b"x",
    // a field is missing
    b"M",
    b"M\t",
    b"M\t3200",
    b"M\t3200\t",
    b"M\t\t1",
    b"M\t1",
    b"W",
    b"W\t2",
    b"W\t2\t",
    b"W\t\t1",
    b"G",
    b"G\t",
    b"S",
    b"S\t",
    b"H",
    b"H\t",
    // one too many; a tab at the end is one
    b"M\t3200\t1\t",
    b"M\t3200\t1\t1",
    b"M\t\t3200\t1",
    b"\tM\t3200\t1",
    b"G\t3200\t",
    b"G\t3200\t1",
    b"G\t\t3200",
    b"W\t2\t1\t",
    b"S\t20\t",
    b"H\t192\t1",
    b"F\t",
    b"C\t",
    b"X\t1",
    b"XX",
    // what belongs to no field
    b"M 3200 1",
    b"M3200\t1",
    b"W 2 1",
    b" X",
    b"X ",
    b"M\t3200 \t1",
    b"M\t+3200\t1",
    b"G\t-1",
    b"G\t1.5",
    b"G\t0x10",
    b"G\t3200\r",
    b"M\t3200\t1\r",
    b"W\t2\t1\r",
    b"G\t32\r00",
    b"F\r",
    b"\r",
    b"F\0",
    b"\0",
    b"G\t32\x0000",
    b"G\t\xB3200",
    b"\xCD\t3200\t1",
    b"G\t\xEF\xBC\x91",
    // a number of 9 digits, also with zeros first
    b"M\t123456789\t1",
    b"G\t000000001",
    b"W\t000000002\t1",
    b"S\t000000020",
    b"H\t100000000",
    b"G\t00000000000000003200",
    // switching and live have one digit, 0 or 1
    b"M\t3200\t2",
    b"M\t3200\t01",
    b"M\t3200\t10",
    b"M\t3200\tx",
    b"W\t2\t01",
    b"W\t2\t2",
    b"W\t9\t2",
];

/// A whole number of 1 to 8 digits: one of the borders, or any.
fn number(random: &mut Random) -> String {
    match random.below(4) {
        0 | 1 => random.pick(NUMBERS).to_string(),
        2 => random.below(100_000_000).to_string(),
        _ => (random.scale(1.0, 40_000.0) as u64).to_string(),
    }
}

/// A `W` line of good form, mostly of a good width.
pub fn fresh(random: &mut Random) -> Vec<u8> {
    let width = match random.below(3) {
        0 => random.pick(WIDTHS).to_string(),
        _ => random.pick(&[2, 3, 4, 8, 8]).to_string(),
    };
    let switching = u8::from(random.below(4) > 0);
    format!("W\t{width}\t{switching}").into_bytes()
}

/// A line of good form.
pub fn good(random: &mut Random) -> Vec<u8> {
    let n = number(random);
    let live = random.below(2);
    let ratio = 100 + random.below(350);
    let wpm = 5 + random.below(60);
    let line = match random.below(12) {
        0 => format!("S\t{n}"),
        1 => format!("S\t{wpm}"),
        2 => format!("H\t{n}"),
        3 => format!("H\t{ratio}"),
        4 => "F".into(),
        5 => "C".into(),
        6 => "X".into(),
        7..=8 => format!("G\t{n}"),
        9..=10 => format!("M\t{n}\t{live}"),
        _ => return fresh(random),
    };
    line.into_bytes()
}

/// A good line with one byte more, one less or another one, or with one that is there twice.
fn stray(random: &mut Random) -> Vec<u8> {
    let mut line = good(random);
    let at = random.below(line.len() as u64) as usize;
    let byte = random.pick(STRAY);
    match random.below(4) {
        0 => line.insert(at, byte),
        1 => line[at] = byte,
        2 => drop(line.remove(at)),
        _ => line.insert(at, line[at]),
    }
    line
}

/// A good line, and a byte more at its end.
fn longer(random: &mut Random) -> Vec<u8> {
    let mut line = good(random);
    let end: &[&[u8]] = &[b"\t", b"\r", b"\0", b" ", b"\t0", b"\t1", b"\x1A", b"\xFF"];
    line.extend_from_slice(random.pick(end));
    line
}

/// A number of 9 digits or more.
fn many_digits(random: &mut Random) -> Vec<u8> {
    let n = 100_000_000 + random.below(900_000_000);
    let zeros = number(random);
    let letter = random.pick(b"GSH") as char;
    let line = match random.below(5) {
        0 => format!("M\t{n}\t1"),
        1 => format!("W\t{n}\t0"),
        2 => format!("{letter}\t{zeros:0>9}"),
        3 => format!("{letter}\t{zeros:0>20}"),
        _ => format!("{letter}\t{n}"),
    };
    line.into_bytes()
}

/// A line of about 80 bytes or of many more; a good one may stand at its head, or after its first 80.
fn long(random: &mut Random) -> Vec<u8> {
    let length = match random.below(40) {
        0 => 65_536 + random.below(70_000),
        1..=3 => 4_090 + random.below(1_000),
        _ => random.pick(&[78, 79, 80, 81, 82, 90, 159, 160, 161, 200, 255, 256, 257]),
    };
    let byte = random.pick(b"0X1M\t \x80\0");
    let mut line = vec![byte; length as usize];
    let part = good(random);
    match random.below(3) {
        0 => line[..part.len()].copy_from_slice(&part),
        // as if a line ended with its 80th byte, or with its 79th and a newline
        1 => {
            line.truncate(random.pick(&[79, 80]));
            line.extend(part);
        }
        _ => {}
    }
    line
}

/// Any bytes, without a newline.
fn noise(random: &mut Random) -> Vec<u8> {
    let length = random.below(14);
    let byte = |random: &mut Random| match random.below(2) {
        0 => random.pick(STRAY),
        _ => random.bits() as u8,
    };
    let mut line: Vec<u8> = (0..length).map(|_| byte(random)).collect();
    line.retain(|&b| b != b'\n');
    line
}

/// A line that mostly is refused or bad.
pub fn odd(random: &mut Random) -> Vec<u8> {
    match random.below(16) {
        0..=3 => good(random),
        4..=6 => stray(random),
        7..=8 => longer(random),
        9..=11 => random.pick(BAD).to_vec(),
        12 => many_digits(random),
        13..=14 => long(random),
        _ => noise(random),
    }
}
