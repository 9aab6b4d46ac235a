//! How often each reply number befell a link of a chain, and which; and how often none.

use std::fmt;

use beside::{Chain, COUNTS, NUMBERS};

use crate::case::{Case, Outcome};

/// Links are counted one by one up to this; the last count is of all beyond.
const COLUMNS: usize = 18;
/// How often each must be met.
const ENOUGH: u64 = 100;

/// "a chain of nine names".
const FAR: usize = 9;

/// The numbers that must be met with a link, those that must be met at the ninth or beyond, and those that must be met without
/// one though they have a place.
pub struct Needed {
    with: &'static [usize],
    far: &'static [usize],
    without: &'static [usize],
}

/// 7 befalls none by a lone dash and a chain only too long; 7, 8 and 16 by CHN's link; 9, 21 and 25 are a declaration's,
/// 27 and 28 a number's.
pub const IN_REQUESTS: Needed = Needed {
    with: &[7, 8, 11, 12, 13, 14, 15, 17, 18, 23, 24],
    far: &[7, 11],
    without: &[7, 8, 9, 16, 21, 25, 27, 28],
};

/// 16 is a give's, and CHN's.
pub const IN_GIVES: Needed = Needed {
    with: &[8, 11, 12, 13, 14, 15, 16, 17],
    far: &[],
    without: &[16],
};

/// A count for each number and link, of the answers that have a place.
#[derive(Default)]
pub struct Links([[u64; COLUMNS]; COUNTS]);

impl Links {
    /// One more answer.
    pub fn count(&mut self, [number, argument, link, ..]: [u64; 7]) {
        if argument != 0 {
            let column = (link as usize).min(COLUMNS - 1);
            self.0[number as usize][column] += 1;
        }
    }

    /// What was met too seldom.
    pub fn missed(&self, needed: &Needed) -> Vec<String> {
        let few = |numbers: &[usize], links: std::ops::Range<usize>, what: &str| {
            let times = |number: usize| self.0[number][links.clone()].iter().sum::<u64>();
            let seldom = numbers.iter().filter(|number| times(**number) < ENOUGH);
            seldom
                .map(|number| format!("{number} {what}"))
                .collect::<Vec<_>>()
        };
        [
            few(needed.with, 1..COLUMNS, "with a link"),
            few(needed.far, FAR..COLUMNS, "at the ninth link or beyond"),
            few(needed.without, 0..1, "without a link"),
        ]
        .concat()
    }
}

/// How many links the chain of this argument has.
fn length(case: &Case, argument: u64) -> u64 {
    let line = case.asked.as_ref().map_or(&[][..], |asked| &asked.line);
    let words = beside::words(line);
    let word = words.get(argument as usize);
    word.map_or(0, |word| Chain::of(word).names().count() as u64)
}

/// What every answer's link is, by its number alone and the length of the chain: what of it is broken.
pub fn broken(case: &Case, outcome: &Outcome) -> Option<&'static str> {
    let [number, argument, link, ..] = outcome.answer;
    let right = match number {
        _ if argument == 0 => link == 0,
        9 | 21 | 25 | 27 | 28 => link == 0,
        8 => link <= 1,
        11 | 12 | 13 | 14 | 15 | 17 | 18 | 23 | 24 => link >= 1,
        _ => true,
    };
    match right && link <= length(case, argument) {
        true => None,
        false => Some("a link that this number cannot have, or the chain has not"),
    }
}

impl fmt::Display for Links {
    fn fmt(&self, f: &mut fmt::Formatter) -> fmt::Result {
        write!(f, "link")?;
        for column in 0..COLUMNS - 1 {
            write!(f, " {column:>6}")?;
        }
        write!(f, "   more")?;
        for number in NUMBERS.map(|number| number as usize) {
            let row = &self.0[number];
            if row.iter().any(|times| *times > 0) {
                write!(f, "\n{number:>4}")?;
                for times in row {
                    write!(f, " {times:>6}")?;
                }
            }
        }
        Ok(())
    }
}

#[cfg(test)]
mod tests {
    use super::*;
    use crate::case::Asked;

    #[test]
    fn a_link_that_cannot_be_is_broken() {
        let kept = |line: &[u8], number, argument, link| {
            let asked = Asked {
                line: line.to_vec(),
                text: Vec::new(),
                reply: 0,
                user: 1,
            };
            let outcome = Outcome {
                answer: [number, argument, link, 0, 0, 0, 0],
                table: Vec::new(),
                index: Vec::new(),
                reply: Vec::new(),
            };
            broken(&Case::request(&[], asked), &outcome).is_none()
        };
        // the supplied `.W` is a link; so A:B has three
        assert!(kept(b"RDS A:B", 11, 1, 3));
        assert!(!kept(b"RDS A:B", 11, 1, 4));
        assert!(!kept(b"RDS .A:B", 11, 1, 3));
        assert!(!kept(b"RDS A:B", 11, 1, 0));
        assert!(kept(b"CPY .R A:B", 12, 2, 1));
        assert!(!kept(b"CPY .R A:B", 12, 1, 2));
        assert!(kept(b"DPR .R:A .1", 21, 2, 0));
        assert!(!kept(b"DPR .R:A .1", 21, 2, 1));
        assert!(kept(b"WRS* M .R:A", 24, 2, 2));
        assert!(!kept(b"WRS* M .R:A", 24, 2, 0));
        assert!(!kept(b"RDS .1:A", 8, 1, 2));
        assert!(kept(b"CRD .R", 19, 0, 0));
        assert!(!kept(b"CRD .R", 19, 0, 1));
        assert!(!kept(b"", 0, 0, 1));
    }

    #[test]
    fn what_is_met_too_seldom_is_said() {
        let mut links = Links::default();
        let needed = Needed {
            with: &[11],
            far: &[7],
            without: &[7],
        };
        for _ in 0..100 {
            links.count([11, 1, 20, 0, 0, 0, 0]);
            links.count([7, 1, 8, 0, 0, 0, 0]);
        }
        let far = "7 at the ninth link or beyond";
        assert_eq!(links.missed(&needed), [far, "7 without a link"]);
        for _ in 0..100 {
            links.count([7, 2, 0, 0, 0, 0, 0]);
            links.count([7, 1, 9, 0, 0, 0, 0]);
        }
        assert!(links.missed(&needed).is_empty());
    }
}
