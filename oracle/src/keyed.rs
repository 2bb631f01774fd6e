//! Journals of keyed text: what a receiver writes down of a sender, mark by mark and gap by gap, and of what is asked of the station.

use crate::random::Random;

/// Letters, digits and a few signs in Morse.
const SIGNS: &[(char, &str)] = &[
    ('A', ".-"),
    ('B', "-..."),
    ('C', "-.-."),
    ('D', "-.."),
    ('E', "."),
    ('F', "..-."),
    ('G', "--."),
    ('H', "...."),
    ('I', ".."),
    ('J', ".---"),
    ('K', "-.-"),
    ('L', ".-.."),
    ('M', "--"),
    ('N', "-."),
    ('O', "---"),
    ('P', ".--."),
    ('Q', "--.-"),
    ('R', ".-."),
    ('S', "..."),
    ('T', "-"),
    ('U', "..-"),
    ('V', "...-"),
    ('W', ".--"),
    ('X', "-..-"),
    ('Y', "-.--"),
    ('Z', "--.."),
    ('0', "-----"),
    ('1', ".----"),
    ('2', "..---"),
    ('3', "...--"),
    ('4', "....-"),
    ('5', "....."),
    ('6', "-...."),
    ('7', "--..."),
    ('8', "---.."),
    ('9', "----."),
    ('.', ".-.-.-"),
    (',', "--..--"),
    ('?', "..--.."),
    ('/', "-..-."),
    ('=', "-...-"),
];

/// A key, the journal of what was sent with it, and how it goes on.
pub struct Key {
    random: Random,
    /// The station: its line stands before the first text.
    width: u64,
    switching: bool,
    started: bool,
    /// Words a minute: a dit lasts 1,200 ms over it.
    pub wpm: f64,
    /// How many dits a dah lasts.
    pub ratio: f64,
    /// How far a length may be off, as a part of it.
    pub jitter: f64,
    pub journal: Vec<u8>,
}

impl Key {
    /// 20 words a minute, three dits to a dah, nothing off.
    pub fn new(seed: u64, width: u64, switching: bool) -> Key {
        Key {
            random: Random::new(seed),
            width,
            switching,
            started: false,
            wpm: 20.0,
            ratio: 3.0,
            jitter: 0.0,
            journal: Vec::new(),
        }
    }

    /// A line as it is.
    pub fn line(&mut self, line: &str) {
        self.journal.extend_from_slice(line.as_bytes());
        self.journal.push(b'\n');
    }

    /// So many dits, in ticks.
    fn ticks(&mut self, dits: f64) -> u64 {
        let off = 1.0 + self.jitter * (2.0 * self.random.fraction() - 1.0);
        let ticks = 1_200.0 / self.wpm * 64.0 * dits * off;
        (ticks.round() as u64).clamp(1, 99_999_999)
    }

    fn mark(&mut self, dits: f64) {
        let n = self.ticks(dits);
        self.line(&format!("M\t{n}\t1"));
    }

    fn gap(&mut self, dits: f64) {
        let n = self.ticks(dits);
        self.line(&format!("G\t{n}"));
    }

    /// The marks of a sign, and the gaps between them.
    fn sign(&mut self, marks: &str) {
        for (i, m) in marks.chars().enumerate() {
            if i > 0 {
                self.gap(1.0);
            }
            self.mark(if m == '-' { self.ratio } else { 1.0 });
        }
    }

    /// Text: three dits after a letter, seven after a word; after each letter the station is asked for a switch.
    pub fn text(&mut self, text: &str) -> Result<(), String> {
        if !self.started {
            self.line(&format!("W\t{}\t{}", self.width, u8::from(self.switching)));
            self.started = true;
        }
        for word in text.split_whitespace() {
            let letters: Vec<char> = word.to_uppercase().chars().collect();
            for (i, c) in letters.iter().enumerate() {
                let found = SIGNS.iter().find(|(sign, _)| sign == c);
                let (_, marks) =
                    found.ok_or_else(|| format!("no Morse sign is known for {c:?}"))?;
                self.sign(marks);
                self.gap(if i + 1 < letters.len() { 3.0 } else { 7.0 });
                self.line("X");
            }
        }
        Ok(())
    }

    /// A word by chance, of so many letters and digits.
    pub fn word(&mut self, letters: usize) {
        let letter = |random: &mut Random| SIGNS[random.below(36) as usize].0;
        let word: String = (0..letters).map(|_| letter(&mut self.random)).collect();
        self.text(&word).expect("each has its sign");
    }

    /// An option of the command line.
    fn set(&mut self, name: &str, value: &str) -> Result<(), String> {
        let number = value.parse::<f64>().ok();
        let number = number.filter(|x| x.is_finite() && *x >= 0.0);
        let x = number.ok_or_else(|| format!("{name} wants a number, and {value:?} is none"))?;
        match name {
            "--wpm" if x > 0.0 => self.wpm = x,
            "--ratio" if x > 0.0 => self.ratio = x,
            "--jitter" if x < 100.0 => self.jitter = x / 100.0,
            "--seed" => self.random = Random::new(x as u64),
            "--width" if !self.started => self.width = x as u64,
            "--switching" if !self.started => self.switching = x > 0.0,
            _ => return Err(format!("{name} {value} is not for this place")),
        }
        Ok(())
    }
}

/// The journal that a command line asks for: an option holds from its place on, `--line` is a line with blanks for tabs, and every
/// other word is text.
pub fn command(words: &[String]) -> Result<Vec<u8>, String> {
    let mut key = Key::new(1, 8, true);
    let mut words = words.iter();
    while let Some(word) = words.next() {
        if !word.starts_with("--") {
            key.text(word)?;
            continue;
        }
        let value = words
            .next()
            .ok_or_else(|| format!("{word} wants a value"))?;
        match word.as_str() {
            "--line" => key.line(&value.replace(' ', "\t")),
            option => key.set(option, value)?,
        }
    }
    Ok(key.journal)
}

#[cfg(test)]
mod tests {
    use super::*;

    fn journal(words: &[&str]) -> Result<String, String> {
        let words: Vec<String> = words.iter().map(|w| w.to_string()).collect();
        command(&words).map(|j| String::from_utf8(j).expect("plain text"))
    }

    /// 24 words a minute: a dit of 50 ms, 3,200 ticks.
    #[test]
    fn keyed_text() {
        let made = journal(&["--width", "2", "--wpm", "24", "an e"]).unwrap();
        let expected = "W 2 1,M 3200 1,G 3200,M 9600 1,G 9600,X,\
                        M 9600 1,G 3200,M 3200 1,G 22400,X,M 3200 1,G 22400,X,";
        assert_eq!(made, expected.replace(' ', "\t").replace(',', "\n"));
    }

    #[test]
    fn options_hold_from_their_place() {
        let made = journal(&[
            "--line", "W 9 1", "--wpm", "24", "", "--line", "F", "t", "--ratio", "4", "t",
        ]);
        let expected = "W 9 1,W 8 1,F,M 9600 1,G 22400,X,M 12800 1,G 22400,X,";
        assert_eq!(
            made.unwrap(),
            expected.replace(' ', "\t").replace(',', "\n")
        );
        assert!(journal(&["e", "--width", "2"]).is_err());
        assert!(journal(&["--wpm", "0", "e"]).is_err());
        assert!(journal(&["--wpm"]).is_err());
        assert!(journal(&["*"]).is_err());
    }

    #[test]
    fn jitter_is_within_its_limits() {
        let made = journal(&["--jitter", "10", "--wpm", "24", "eeeeeeeeeeeeeeeeeeee"]).unwrap();
        let marks: Vec<u32> = made
            .lines()
            .filter_map(|l| l.strip_prefix("M\t")?.strip_suffix("\t1")?.parse().ok())
            .collect();
        assert_eq!(marks.len(), 20);
        assert!(marks.iter().all(|n| (2880..=3520).contains(n)));
        assert!(marks.iter().any(|&n| n != 3200));
    }
}
