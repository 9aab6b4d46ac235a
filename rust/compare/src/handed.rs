//! How often each reply number was met by a give, by a take, and by a user's number in any other place.

use std::fmt;

use beside::{COUNTS, NUMBERS};

use crate::case::{Asked, Case, Outcome};

const ROWS: [&str; 7] = ["give", "DUP", "CPY", "RDS", "LST", "LST*", "elsewhere"];
const GIVE: usize = 0;
const ELSEWHERE: usize = 6;
/// How often each number of `NEEDED` must be met.
const ENOUGH: u64 = 100;
/// What is to be met by each row. Of CPY and DUP that take, what befalls the new name is not the take's.
const NEEDED: [&[usize]; ROWS.len()] = [
    &[0, 8, 11, 12, 13, 14, 16, 17, 19, 22],
    &[0, 8, 11, 12, 13, 22],
    &[0, 11, 12, 13, 15, 22],
    &[0, 11, 12, 13, 15, 20],
    &[0, 11, 12, 13, 15, 20],
    &[0, 11, 12, 13, 15, 20],
    &[8],
];

/// A count for each row and number.
#[derive(Default)]
pub struct Handed([[u64; COUNTS]; ROWS.len()]);

/// The function of a line's words.
fn function<'a>(words: &[beside::Word<'a>]) -> Option<&'a [u8]> {
    words.first().and_then(|word| word.whole())
}

/// The arguments of a line that begin with `.nnnnnn`: their place, from 1, and row.
fn handed(line: &[u8]) -> Vec<(u64, usize)> {
    let words = beside::words(line);
    let function = function(&words);
    let row = |place: usize| match (function, place) {
        (Some(b"DUP"), 2) => GIVE,
        (Some(b"DUP"), 1) => 1,
        (Some(b"CPY"), 1) => 2,
        (Some(b"RDS"), 1) => 3,
        (Some(b"LST"), 1) => 4,
        (Some(b"LST*"), 1) => 5,
        _ => ELSEWHERE,
    };
    let arguments = words.iter().enumerate().skip(1);
    let named = arguments.filter(|(_, word)| beside::user_number(word.first()).is_some());
    named.map(|(place, _)| (place as u64, row(place))).collect()
}

impl Handed {
    /// One more answer, if it is about an argument that begins with `.nnnnnn`, or about none in particular.
    pub fn count(&mut self, case: &Case, [number, place, ..]: [u64; 7]) {
        let line = case.asked.as_ref().map_or(&[][..], |asked| &asked.line);
        for (at, row) in handed(line) {
            if place == 0 || place == at {
                self.0[row][number as usize] += 1;
            }
        }
    }

    /// What was met too seldom.
    pub fn missed(&self) -> Vec<String> {
        let needed = NEEDED.iter().enumerate();
        let pairs = needed.flat_map(|(row, numbers)| numbers.iter().map(move |n| (row, *n)));
        let seldom = pairs.filter(|(row, number)| self.0[*row][*number] < ENOUGH);
        seldom
            .map(|(row, number)| format!("{} {number}", ROWS[row]))
            .collect()
    }
}

/// "A give never displaces", and 16 is CHN's and a give's: what of it is broken.
pub fn broken(case: &Case, outcome: &Outcome) -> Option<&'static str> {
    let Some(Asked { line, .. }) = &case.asked else {
        return None;
    };
    let [number, place, _, _, displaced, _, stores] = outcome.answer;
    let gives = handed(line).contains(&(2, GIVE));
    let renames = function(&beside::words(line)) == Some(b"CHN");
    match number {
        // the entry, the count of the file and that of `.G`, or one store of both where `.G` itself is given
        0 if gives && (displaced != 0 || ![2, 3].contains(&stores)) => {
            Some("a give that is not one entry and its counts")
        }
        18 if gives && place == 2 => Some("a give with 18"),
        16 if !gives && !renames => Some("16 by neither CHN nor a give"),
        _ => None,
    }
}

impl fmt::Display for Handed {
    fn fmt(&self, f: &mut fmt::Formatter) -> fmt::Result {
        write!(f, "{:>4}", "")?;
        for row in ROWS {
            write!(f, " {row:>9}")?;
        }
        for number in NUMBERS {
            write!(f, "\n{number:>4}")?;
            for row in &self.0 {
                write!(f, " {:>9}", row[number as usize])?;
            }
        }
        Ok(())
    }
}

#[cfg(test)]
mod tests {
    use super::*;

    #[test]
    fn a_users_number_is_told_by_its_place() {
        let told = |line: &str| handed(line.as_bytes());
        assert_eq!(told("DUP .R:A .000777:A .1"), [(2, GIVE)]);
        assert_eq!(told("DUP .000777 : A .000001:A"), [(1, 1), (2, GIVE)]);
        assert_eq!(told("CPY .000777 .000777"), [(1, 2), (2, ELSEWHERE)]);
        assert_eq!(told("RDS .000777:A"), [(1, 3)]);
        assert_eq!(told("LST .000777"), [(1, 4)]);
        assert_eq!(told("LST* .000777 2"), [(1, 5)]);
        assert_eq!(told("DEL .R .000777"), [(2, ELSEWHERE)]);
        assert_eq!(told("LST .00777"), []);
        assert_eq!(told("RDS .R:.000777"), []);
    }

    #[test]
    fn a_give_that_displaces_is_broken() {
        let asked = |line: &[u8]| Asked {
            line: line.to_vec(),
            text: Vec::new(),
            reply: 0,
            user: 1,
        };
        let kept = |line: &[u8], answer| {
            let outcome = Outcome {
                answer,
                table: Vec::new(),
                index: Vec::new(),
                reply: Vec::new(),
            };
            broken(&Case::request(&[], asked(line)), &outcome).is_none()
        };
        let give = b"DUP .R:A .000777:A";
        assert!(kept(give, [0, 0, 0, 1, 0, 0, 3]));
        assert!(kept(give, [0, 0, 0, 1, 0, 0, 2]));
        assert!(!kept(give, [0, 0, 0, 1, 1, 0, 3]));
        assert!(!kept(give, [0, 0, 0, 1, 0, 0, 1]));
        assert!(!kept(give, [0, 0, 0, 1, 0, 0, 4]));
        assert!(!kept(give, [18, 2, 2, 0, 0, 0, 0]));
        assert!(kept(give, [16, 2, 2, 0, 0, 0, 0]));
        assert!(kept(b"DUP .R:A .R:B", [0, 0, 0, 1, 1, 0, 1]));
        assert!(!kept(b"DUP .R:A .R:B", [16, 2, 2, 0, 0, 0, 0]));
        assert!(kept(b" CHN .R:A B", [16, 2, 0, 0, 0, 0, 0]));
    }
}
