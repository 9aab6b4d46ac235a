//! Lines of LST*: a name as LST's, and a depth.

use crate::chains::{link, long, old, taken};
use crate::Random;

const ODD: [&str; 8] = ["0", "9", "-", "11", "1:2", ".1", "A", "01"];

/// LST*'s digit, 1 to 8, now and then no depth.
pub fn depth(random: &mut Random) -> String {
    match random.below(12) {
        0 => random.pick(&ODD).to_string(),
        _ => (1 + random.below(8)).to_string(),
    }
}

/// The same, and no deeper than three levels, since a loop has more lines with each.
pub fn shallow(random: &mut Random) -> &'static str {
    match random.below(8) {
        0 => random.pick(&ODD),
        _ => random.pick(&["1", "2", "2", "3"]),
    }
}

/// A line of LST*, mostly granted: of a chain, a lone point, another user's shelf; now and then of a name that is not there, or is
/// none, or with an argument too few or too many.
pub fn line(random: &mut Random, table: &[u8], user: u32, other: u32) -> Vec<u8> {
    let depth = depth(random);
    let name = match random.below(24) {
        0..=3 => ".".to_string(),
        4..=6 => taken(random, table, other),
        7 => long(random, table, user),
        8 | 11 => format!("{}:{}", old(random, table, user), link(random)),
        9 => random.pick(&[".1", ".A:B", ".:A", ".00077"]).to_string(),
        10 => random.pick(&["-", "A::B", "@", ".GONE"]).to_string(),
        _ => old(random, table, user),
    };
    let line = match random.below(40) {
        0 => format!("LST* {name}"),
        1 => format!("LST* {name} {depth} 1"),
        _ => format!("LST* {name} {depth}"),
    };
    line.into_bytes()
}
