//! Answers as text: words separated by one space. Both sides write the same
//! words for the same answer, so that two answers are compared as two lines,
//! and a line of the fixed list is the same text again.

use std::fmt::Display;

/// A line of words.
#[derive(Default)]
pub struct Words(String);

impl Words {
    pub fn new() -> Words {
        Words::default()
    }

    /// A number, or a word of one's own.
    pub fn put(&mut self, word: impl Display) -> &mut Words {
        use std::fmt::Write;
        self.gap();
        let written = write!(self.0, "{word}");
        debug_assert!(written.is_ok(), "a string takes every word");
        self
    }

    /// Bytes: `x` and two hexadecimal digits each.
    pub fn bytes(&mut self, bytes: &[u8]) -> &mut Words {
        const DIGITS: &[u8; 16] = b"0123456789abcdef";
        self.gap();
        self.0.push('x');
        for &byte in bytes {
            self.0.push(char::from(DIGITS[usize::from(byte >> 4)]));
            self.0.push(char::from(DIGITS[usize::from(byte & 15)]));
        }
        self
    }

    /// A part of the bytes.
    pub fn part(&mut self, present: bool, start: usize, len: usize) -> &mut Words {
        self.put(u8::from(present)).put(start).put(len)
    }

    /// A value, or `~` where there is none.
    pub fn optional(&mut self, value: Option<impl Display>) -> &mut Words {
        match value {
            Some(value) => self.put(value),
            None => self.put('~'),
        }
    }

    /// The end of a list of steps: `.` at its end, `!` and the number where a
    /// step was refused.
    pub fn end(&mut self, refused: Option<impl Display>) -> &mut Words {
        match refused {
            None => self.put('.'),
            Some(number) => self.put('!').put(number),
        }
    }

    pub fn done(self) -> String {
        self.0
    }

    fn gap(&mut self) {
        if !self.0.is_empty() {
            self.0.push(' ');
        }
    }
}

/// The bytes of a word that `bytes` wrote.
pub fn parse_bytes(word: &str) -> Option<Vec<u8>> {
    let digits = word.strip_prefix('x')?.as_bytes();
    if digits.len() % 2 != 0 {
        return None;
    }
    digits
        .chunks(2)
        .map(|pair| Some(digit(pair[0])? * 16 + digit(pair[1])?))
        .collect()
}

fn digit(byte: u8) -> Option<u8> {
    char::from(byte).to_digit(16).map(|value| value as u8)
}
