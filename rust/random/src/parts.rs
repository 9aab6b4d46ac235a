//! The numbers of an RDS: octal, near the lengths of the texts that are filed, and now and then no number.

use crate::Random;

/// Bytes near the ends of blocks and of texts.
const NEAR: [usize; 16] = [0, 1, 2, 4, 5, 8, 10, 23, 24, 25, 29, 30, 31, 48, 49, 24_000];
const ODD: [&str; 10] = [
    "8", "1:2", "0000000", "0000010", "A", ".1", "9", "1:", "-1", "08",
];

fn number(random: &mut Random) -> String {
    match random.below(12) {
        0 => random.pick(&ODD).to_string(),
        1 | 2 => "-".to_string(),
        3 => random.pick(&["0", "00", "000000"]).to_string(),
        4 => format!("{:06o}", random.below(64)),
        5 => format!("{:o}", random.below(0o1_000_000)),
        _ => format!("{:o}", random.pick(&NEAR)),
    }
}

/// What follows the name of an RDS: often nothing, or dashes, else the first byte, mostly with a count.
pub fn part(random: &mut Random) -> String {
    match random.below(14) {
        0..=3 => String::new(),
        4 | 5 => random.pick(&[" -", " - -"]).to_string(),
        6 | 7 => format!(" {}", number(random)),
        _ => format!(" {} {}", number(random), number(random)),
    }
}
