//! Link names, base names, user numbers and chains.

use crate::line::Word;
use crate::records::LONGEST_NAME;

/// "names joined by colons, at most 16".
const MOST_NAMES: usize = 16;
/// "`.nnnnnn` ... (six digits)".
const USER_DIGITS: usize = 6;

/// "A link name has 1 to 10 characters from 33..95 except `@` and `:`."
pub fn is_link_name(name: &[u8]) -> bool {
    let fits = |byte: &u8| matches!(byte, 33..=95) && *byte != b'@' && *byte != b':';
    (1..=LONGEST_NAME).contains(&name.len()) && name.iter().all(fits)
}

/// "A base name is legal if it is .R, .W, .G or .T, or begins with a point and has at least three characters,
/// all letters and points."
pub fn is_base_name(name: &[u8]) -> bool {
    let letter_or_point = |byte: &u8| matches!(byte, b'A'..=b'Z' | b'.');
    match name {
        b".R" | b".W" | b".G" | b".T" => true,
        _ => name.starts_with(b".") && name.len() >= 3 && name.iter().all(letter_or_point),
    }
}

/// `.nnnnnn`, a point and six digits: the number of that user.
pub fn user_number(name: &[u8]) -> Option<u32> {
    let digits = name.strip_prefix(b".")?;
    let all_digits = digits.iter().all(u8::is_ascii_digit);
    (digits.len() == USER_DIGITS && all_digits).then(|| {
        let joined = |number, digit: &u8| number * 10 + u32::from(digit - b'0');
        digits.iter().fold(0, joined)
    })
}

/// A chain with its `.W`, if that was put before it. Each name is a stretch of the lent line, but for that `.W`.
#[derive(Debug, Clone, PartialEq, Eq)]
pub struct Chain<'a> {
    /// The names before the last.
    pub before: Vec<&'a [u8]>,
    /// The last name.
    pub last: &'a [u8],
}

impl<'a> Chain<'a> {
    /// "A chain whose first name lacks a leading point has `.W` put before it".
    pub fn of(word: &Word<'a>) -> Chain<'a> {
        let mut before = word.before.clone();
        if !word.first().starts_with(b".") {
            before.insert(0, b".W");
        }
        Chain {
            before,
            last: word.last,
        }
    }

    /// All names, the first first.
    pub fn names(&self) -> impl Iterator<Item = &'a [u8]> + '_ {
        self.before.iter().copied().chain([self.last])
    }

    /// The first name, which the base list has to bear.
    pub fn base(&self) -> &'a [u8] {
        self.before.first().copied().unwrap_or(self.last)
    }

    /// The user whose shelf it starts at, if its first name is `.nnnnnn`.
    pub fn user(&self) -> Option<u32> {
        user_number(self.base())
    }

    /// The chain with the user from whose base list it is walked. `.nnnnnn` is one name: it stands for this shelf
    /// of that user. Every other chain is the asking user's own.
    pub fn begun(&self, asking: u32, shelf: &'a [u8]) -> (u32, Chain<'a>) {
        let mut chain = self.clone();
        let Some(user) = self.user() else {
            return (asking, chain);
        };
        match chain.before.first_mut() {
            Some(first) => *first = shelf,
            None => chain.last = shelf,
        }
        (user, chain)
    }

    /// Does this chain name a base file? It does when it is a single name.
    pub fn is_base_file(&self) -> bool {
        self.before.is_empty()
    }

    /// How many names it has, the supplied `.W` counted: the number of its last link.
    pub fn length(&self) -> usize {
        self.before.len() + 1
    }

    /// The link of the first name that is no link name, "counted from 1 with the supplied `.W` as link 1".
    pub fn wrong_link(&self) -> Option<usize> {
        let wrong = self.names().position(|name| !is_link_name(name));
        wrong.map(|at| at + 1)
    }

    /// Not number 7: a chain of at most 16 link names, the supplied `.W` counted.
    pub fn is_well_formed(&self) -> bool {
        self.length() <= MOST_NAMES && self.wrong_link().is_none()
    }
}
