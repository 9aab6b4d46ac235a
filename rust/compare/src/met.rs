//! How often each reply number was met, by function.

use std::fmt;

use beside::{COUNTS, NUMBERS};

use crate::case::Case;

const ROWS: [&str; 15] = [
    "CRD", "WRS", "WRS*", "RDS", "CPY", "DUP", "CHN", "DEL", "DST", "DPR", "LST", "LST*", "none",
    "mend", "sweep",
];
const NONE: usize = 12;
const MEND: usize = 13;
const SWEEP: usize = 14;
/// How often each number must be met.
const ENOUGH: u64 = 100;

/// A count for each function and number; lines of no function, mending, and sweeps have rows of their own.
#[derive(Default)]
pub struct Met([[u64; COUNTS]; ROWS.len()]);

impl Met {
    /// One more answer with this number.
    pub fn count(&mut self, case: &Case, number: u32) {
        let row = match &case.asked {
            None if case.sweep => SWEEP,
            None => MEND,
            Some(asked) => function(&asked.line),
        };
        self.0[row][number as usize] += 1;
    }

    fn total(&self, number: usize) -> u64 {
        self.0.iter().map(|row| row[number]).sum()
    }

    /// The numbers met too seldom, by all calls together or, of mending's own five, by mending.
    pub fn missed(&self) -> Vec<String> {
        let mending =
            |number| matches!(number, 0 | 1 | 2 | 22 | 26) && self.0[MEND][number] < ENOUGH;
        let missed = |number: &usize| self.total(*number) < ENOUGH || mending(*number);
        let numbers = NUMBERS.map(|number| number as usize);
        let missed = numbers.into_iter().filter(missed);
        missed.map(|number| number.to_string()).collect()
    }
}

/// The row of the line's first word.
fn function(line: &[u8]) -> usize {
    let words = beside::words(line);
    let first = words.first().and_then(|word| word.whole());
    let is_first = |name: &&str| first == Some(name.as_bytes());
    ROWS[..NONE].iter().position(is_first).unwrap_or(NONE)
}

impl fmt::Display for Met {
    fn fmt(&self, f: &mut fmt::Formatter) -> fmt::Result {
        write!(f, "{:>4}", "")?;
        for row in ROWS {
            write!(f, " {row:>7}")?;
        }
        writeln!(f, " {:>8}", "all")?;
        for number in NUMBERS.map(|number| number as usize) {
            write!(f, "{number:>4}")?;
            for row in &self.0 {
                write!(f, " {:>7}", row[number])?;
            }
            writeln!(f, " {:>8}", self.total(number))?;
        }
        Ok(())
    }
}
