//! How often a run reached each letter with each code, each border of a number, and each way to break a line's form.

use crate::journal::line::{asked, Asked};

pub mod reached {
    crate::branches! {
        NOTHING: "no line at all",
        W_0: "W: a station",
        W_0_AFTER: "W: a station, after one that 3 refused",
        W_WIDTH_0: "W: width 0 counts as 1",
        W_WIDTH_1: "W: width 1",
        W_WIDTH_2: "W: width 2",
        W_WIDTH_8: "W: width 8",
        W_OFF: "W: switching is off",
        W_3: "W: refused by 3",
        W_3_9: "W: refused by 3, width 9",
        W_3_MOST: "W: refused by 3, width 99,999,999",
        M_0: "M: done",
        M_1: "M: the primary becomes ready",
        M_6: "M: refused by 6",
        M_7: "M: refused by 7",
        M_SILENT: "M: not live",
        M_LEAST: "M: 1 tick",
        M_MOST: "M: 16,777,216 ticks",
        M_ABOVE: "M: refused by 7, 16,777,217 ticks",
        M_TOP: "M: refused by 7, 99,999,999 ticks",
        G_0: "G: done",
        G_6: "G: refused by 6",
        G_6_UNREADY: "G: refused by 6, the primary is not ready",
        G_7: "G: refused by 7",
        G_LEAST: "G: 1 tick",
        G_MOST: "G: 16,777,216 ticks",
        G_ABOVE: "G: refused by 7, 16,777,217 ticks",
        G_TOP: "G: refused by 7, 99,999,999 ticks",
        S_0: "S: the primary was ready",
        S_1: "S: the primary becomes ready",
        S_8: "S: refused by 8",
        S_CAP: "S: a number above 16,777,216",
        S_CLEARS: "S: challengers leave",
        H_0: "H: done",
        H_LOW: "H: below 2.2",
        H_HIGH: "H: above 6.0",
        H_CAP: "H: a number above 16,777,216",
        F_1: "F: the primary becomes ready",
        F_3: "F: nothing to do",
        C_0: "C: done",
        C_CLEARS: "C: challengers leave",
        X_2: "X: switched",
        X_3: "X: nothing to do",
        ZEROS: "a good line whose number has zeros before it",
        SERIAL: "a serial above 0",
        SERIAL_10: "a serial of two digits or more",
        RIVAL: "a challenger",
        RIVALS: "five challengers or more",
        BAD: "bad",
        BAD_STATION: "bad: the station is shown as it stands",
        BAD_EMPTY: "bad: an empty line",
        BAD_LETTER: "bad: no such letter",
        BAD_SMALL: "bad: a small letter",
        BAD_TAB_FIRST: "bad: a tab first",
        BAD_NO_TAB: "bad: no tab after the letter",
        BAD_FEW: "bad: a field is missing",
        BAD_MANY: "bad: a field too many",
        BAD_TAB_LAST: "bad: a tab at the end",
        BAD_TABS: "bad: two tabs together",
        BAD_NINE: "bad: a number of 9 digits",
        BAD_NINE_ZEROS: "bad: a number of 9 digits, with zeros before it",
        BAD_MORE: "bad: a number of more than 9 digits",
        BAD_SIGN: "bad: a sign",
        BAD_BLANK: "bad: a blank",
        BAD_POINT: "bad: a point",
        BAD_HEX: "bad: a letter in a number",
        BAD_FLAG: "bad: switching or live is a digit above 1",
        BAD_FLAG_TWO: "bad: switching or live has two digits",
        BAD_FLAG_OTHER: "bad: switching or live is no digit",
        BAD_NINE_TWO: "bad: W with width 9 and switching 2",
        BAD_RETURN: "bad: a carriage return at the end",
        BAD_RETURN_WITHIN: "bad: a carriage return before the end",
        BAD_NUL: "bad: a NUL",
        BAD_HIGH: "bad: a byte above 127",
        BAD_79: "bad: 80 bytes with the newline",
        BAD_80: "bad: 81 bytes with the newline",
        BAD_200: "bad: 200 bytes or more",
        BAD_5000: "bad: 5,000 bytes or more",
        BAD_65536: "bad: 65,536 bytes or more",
        BAD_THEN_GOOD: "bad: after 80 bytes comes what would be a good line",
        BAD_GOOD_FIRST: "bad: what would be a good line, and more than 80 bytes in all",
        BEFORE_M: "bad: M before a good W",
        BEFORE_G: "bad: G before a good W",
        BEFORE_S: "bad: S before a good W",
        BEFORE_H: "bad: H before a good W",
        BEFORE_F: "bad: F before a good W",
        BEFORE_C: "bad: C before a good W",
        BEFORE_X: "bad: X before a good W",
        AFTER_W: "bad: W after a good W",
        AFTER_W_9: "bad: W of width 9 after a good W",
        LAST_GOOD: "bad: the last line has no newline, and would be good with it",
        LAST_BAD: "bad: the last line has no newline, and would be bad with it",
        LAST_LONG: "bad: the last line has no newline, and more than 80 bytes",
    }
}

use reached::*;

/// Counts the lines of one journal, part by part.
#[derive(Default)]
pub struct Counter {
    station: bool,
    /// Whether a `W` was refused by 3.
    refused: bool,
    any: bool,
    /// The digit of the last answer.
    challengers: u8,
}

impl Counter {
    /// Counts a part and its answers; each part but the last of a journal ends with a newline.
    pub fn count(&mut self, part: &[u8], answers: &[u8]) {
        NOTHING.when(!self.any && part.is_empty());
        let lines = part.split_inclusive(|&b| b == b'\n');
        for (line, answer) in lines.zip(answers.split(|&b| b == b'\n')) {
            self.any = true;
            match line.strip_suffix(b"\n") {
                Some(line) => self.line(line, answer),
                None => last(line),
            }
        }
    }

    fn line(&mut self, line: &[u8], answer: &[u8]) {
        let challengers = answer[answer.len() - 1];
        let left = challengers < self.challengers;
        self.challengers = challengers;
        RIVAL.when(challengers > b'0');
        RIVALS.when(challengers >= b'5');
        let serial = answer.rsplit(|&b| b == b'\t').nth(1).unwrap_or(b"0");
        SERIAL.when(serial != b"0");
        SERIAL_10.when(serial.len() > 1);
        let code = answer.split(|&b| b == b'\t').nth(1).unwrap_or(b"");
        match answer[0] {
            b'?' => self.bad(line),
            b'W' => self.fresh(line, code),
            _ => good(line, code, answer, left),
        }
    }

    fn fresh(&mut self, line: &[u8], code: &[u8]) {
        let Some(Asked::Fresh(width, switching)) = asked(line) else {
            return;
        };
        ZEROS.when(line[2] == b'0' && line[3] != b'\t');
        if code == b"R3" {
            self.refused = true;
            W_3.reached();
            W_3_9.when(width == 9);
            W_3_MOST.when(width == 99_999_999);
            return;
        }
        self.station = true;
        W_0.reached();
        W_0_AFTER.when(self.refused);
        W_OFF.when(!switching);
        W_WIDTH_0.when(width == 0);
        W_WIDTH_1.when(width == 1);
        W_WIDTH_2.when(width == 2);
        W_WIDTH_8.when(width == 8);
    }

    fn bad(&self, line: &[u8]) {
        BAD.reached();
        BAD_STATION.when(self.station);
        match asked(line) {
            Some(Asked::Fresh(width, _)) => {
                AFTER_W.reached();
                AFTER_W_9.when(width == 9);
            }
            Some(asked) => before(asked),
            None => broken(line),
        }
    }
}

/// A line before a good `W`.
fn before(asked: Asked) {
    let branch = match asked {
        Asked::Mark(..) => &BEFORE_M,
        Asked::Gap(_) => &BEFORE_G,
        Asked::Seed(_) => &BEFORE_S,
        Asked::Hint(_) => &BEFORE_H,
        Asked::Finish => &BEFORE_F,
        Asked::Clear => &BEFORE_C,
        Asked::Switch => &BEFORE_X,
        Asked::Fresh(..) => return,
    };
    branch.reached();
}

/// The number of a line as it is written, up to 8 digits.
fn number(line: &[u8]) -> u32 {
    let field = line.split(|&b| b == b'\t').nth(1).unwrap_or(b"");
    let digits = field.iter().map(|b| u32::from(b - b'0'));
    digits.fold(0, |n, d| 10 * n + d)
}

/// A line that is not bad, and no `W`.
fn good(line: &[u8], code: &[u8], answer: &[u8], left: bool) {
    let unready = answer.windows(10).any(|w| w == b"\t00000000\t");
    let n = number(line);
    ZEROS.when(line.len() > 3 && line[2] == b'0' && line[3] != b'\t');
    match (line[0], code) {
        (b'M', b"0") => {
            M_0.reached();
            M_SILENT.when(line.ends_with(b"0"));
            M_LEAST.when(n == 1);
            M_MOST.when(n == 16_777_216);
        }
        (b'M', b"1") => M_1.reached(),
        (b'M', b"R6") => M_6.reached(),
        (b'M', b"R7") => {
            M_7.reached();
            M_ABOVE.when(n == 16_777_217);
            M_TOP.when(n == 99_999_999);
        }
        (b'G', b"0") => {
            G_0.reached();
            G_LEAST.when(n == 1);
            G_MOST.when(n == 16_777_216);
        }
        (b'G', b"R6") => {
            G_6.reached();
            G_6_UNREADY.when(unready);
        }
        (b'G', b"R7") => {
            G_7.reached();
            G_ABOVE.when(n == 16_777_217);
            G_TOP.when(n == 99_999_999);
        }
        (b'X', b"3") => X_3.reached(),
        (b'X', b"2") => X_2.reached(),
        (b'S', _) => {
            S_0.when(code == b"0");
            S_1.when(code == b"1");
            S_8.when(code == b"R8");
            S_CAP.when(n > 16_777_216);
            S_CLEARS.when(left);
        }
        (b'H', b"0") => {
            H_0.reached();
            H_LOW.when(n < 141);
            H_HIGH.when(n > 384);
            H_CAP.when(n > 16_777_216);
        }
        (b'F', b"1") => F_1.reached(),
        (b'F', b"3") => F_3.reached(),
        (b'C', b"0") => {
            C_0.reached();
            C_CLEARS.when(left);
        }
        _ => panic!("no such answer: {}", answer.escape_ascii()),
    }
}

/// The last line, without a newline.
fn last(line: &[u8]) {
    BAD.reached();
    LAST_GOOD.when(asked(line).is_some());
    LAST_BAD.when(asked(line).is_none());
    LAST_LONG.when(line.len() >= 80);
}

/// A line that breaks its form: each way in which it does.
fn broken(line: &[u8]) {
    BAD_79.when(line.len() == 79);
    BAD_80.when(line.len() == 80);
    BAD_200.when(line.len() >= 200);
    BAD_5000.when(line.len() >= 5_000);
    BAD_65536.when(line.len() >= 65_536);
    if line.len() >= 80 {
        BAD_THEN_GOOD.when(asked(&line[80..]).is_some() || asked(&line[79..]).is_some());
        let starts = (1..14).any(|n| asked(&line[..n]).is_some());
        BAD_GOOD_FIRST.when(starts);
        return;
    }
    let has = |test: fn(&u8) -> bool| line.iter().any(test);
    BAD_SIGN.when(has(|&b| b == b'+' || b == b'-'));
    BAD_BLANK.when(has(|&b| b == b' '));
    BAD_POINT.when(has(|&b| b == b'.'));
    BAD_NUL.when(has(|&b| b == 0));
    BAD_HIGH.when(has(|&b| b > 127));
    BAD_RETURN.when(line.ends_with(b"\r"));
    let returns = line.iter().position(|&b| b == b'\r');
    BAD_RETURN_WITHIN.when(returns.is_some_and(|at| at + 1 < line.len()));
    let Some((first, rest)) = line.split_first() else {
        return BAD_EMPTY.reached();
    };
    match first {
        b'\t' => BAD_TAB_FIRST.reached(),
        b'W' | b'M' => fields(2, line, rest),
        b'G' | b'S' | b'H' => fields(1, line, rest),
        b'F' | b'C' | b'X' => fields(0, line, rest),
        _ => {
            BAD_LETTER.reached();
            BAD_SMALL.when(b"wmgshfcx".contains(first));
        }
    }
}

/// What follows the letter, which has so many fields.
fn fields(wanted: usize, line: &[u8], rest: &[u8]) {
    BAD_NO_TAB.when(!rest.is_empty() && rest[0] != b'\t');
    let all: Vec<&[u8]> = line.split(|&b| b == b'\t').skip(1).collect();
    BAD_FEW.when(all.len() < wanted);
    BAD_MANY.when(all.len() > wanted);
    BAD_TAB_LAST.when(line.ends_with(b"\t"));
    BAD_TABS.when(line.windows(2).any(|w| w == b"\t\t"));
    if all.len() != wanted || wanted == 0 {
        return;
    }
    let digits = all[0].iter().all(u8::is_ascii_digit);
    BAD_NINE.when(digits && all[0].len() == 9);
    BAD_NINE_ZEROS.when(digits && all[0].len() == 9 && all[0][0] == b'0');
    BAD_MORE.when(digits && all[0].len() > 9);
    BAD_HEX.when(all[0].iter().any(u8::is_ascii_alphabetic));
    if wanted == 2 {
        BAD_FLAG.when(matches!(all[1], [b'2'..=b'9']));
        BAD_FLAG_TWO.when(all[1].len() == 2 && all[1].iter().all(u8::is_ascii_digit));
        BAD_FLAG_OTHER.when(!all[1].is_empty() && !all[1].iter().all(u8::is_ascii_digit));
        BAD_NINE_TWO.when(line == b"W\t9\t2");
    }
}
