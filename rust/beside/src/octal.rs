//! The numbers of an RDS: "both octal, at most six digits, in bytes; a dash or nothing means 0 and to the end."

use crate::line::Word;

/// "at most six digits".
const MOST_DIGITS: usize = 6;

/// The part of a text that an RDS asks for; each number is given or not given.
#[derive(Debug, Clone, Copy, Default, PartialEq, Eq)]
pub struct Portion {
    /// The first byte, from 0; else 0.
    pub first: Option<usize>,
    /// How many bytes; else to the end.
    pub count: Option<usize>,
}

impl Portion {
    /// That part of a text; nothing where the first byte is beyond the length. "First equal to it gives no bytes; a count
    /// past the end gives what there is."
    pub fn of(self, text: &[u8]) -> Option<&[u8]> {
        let rest = text.get(self.first.unwrap_or(0)..)?;
        let count = self.count.unwrap_or(rest.len());
        Some(&rest[..count.min(rest.len())])
    }
}

/// One to six digits 0..7; nothing for other bytes.
fn octal(digits: &[u8]) -> Option<usize> {
    let all_octal = digits.iter().all(|digit| matches!(digit, b'0'..=b'7'));
    ((1..=MOST_DIGITS).contains(&digits.len()) && all_octal).then(|| {
        let joined = |number, digit: &u8| number * 8 + usize::from(digit - b'0');
        digits.iter().fold(0, joined)
    })
}

/// What an argument gives, a dash nothing. An error is no number.
pub fn number(word: &Word) -> Result<Option<usize>, NoNumber> {
    match word.whole() {
        Some(b"-") => Ok(None),
        Some(digits) => octal(digits).map(Some).ok_or(NoNumber),
        None => Err(NoNumber),
    }
}

/// 27: "bad number".
#[derive(Debug, Clone, Copy, PartialEq, Eq)]
pub struct NoNumber;
