//! Lines of WRS*, and the mark that one leaves in a heading.

use crate::chains::{link, long, old, sheet};
use crate::Random;

/// Declarations that are refused: those of other functions, and none.
const ODD: [&str; 10] = ["L", "S", "-", ".", "M.U", "M.0", "FM", "M.8", "Q", "L.P1"];

/// WRS*'s declaration: M, now and then with a point, or another one.
pub fn medium(random: &mut Random) -> &'static str {
    match random.below(16) {
        0 => random.pick(&ODD),
        1 | 2 => "M.",
        _ => "M",
    }
}

/// A line of WRS*, mostly of a file that is there; now and then of a name that is not there, or is none, or with an argument too few or
/// too many.
pub fn line(random: &mut Random, table: &[u8], user: u32) -> Vec<u8> {
    let medium = medium(random);
    let name = match random.below(24) {
        0 => long(random, table, user),
        1 => format!("{}:{}", old(random, table, user), link(random)),
        2 => random
            .pick(&[".1", ".A:B", ".000001:A", ".000777", ".:A"])
            .to_string(),
        3 => random.pick(&["-", "A::B", "@", ".GONE"]).to_string(),
        4..=6 => old(random, table, user),
        _ => sheet(random, table, user),
    };
    let line = match random.below(40) {
        0 => format!("WRS* {medium}"),
        1 => format!("WRS* {medium} {name} {name}"),
        2 => format!("WRS * {medium} {name}"),
        _ => format!("WRS* {medium} {name}"),
    };
    line.into_bytes()
}

/// A line about a sheet that may be marked: WRS*, a read of all or of a part, a copy, another entry, another code, another name, an
/// entry less, or another file over it.
pub fn about(random: &mut Random, table: &[u8], user: u32) -> Vec<u8> {
    let (one, other) = (sheet(random, table, user), old(random, table, user));
    let line = match random.below(30) {
        0..=9 => return line(random, table, user),
        10..=12 => format!("RDS {one}"),
        13 | 24..=26 => format!("RDS {one} {}", random.pick(&["0", "1", "1 1", "7 5", "-"])),
        14..=16 => format!("CPY {one} {other} {}", random.pick(&["", "M", ".U"])),
        27..=29 => format!(
            "CPY {one} .R:{} .{}",
            link(random),
            random.pick(&["U", "P"])
        ),
        17 => format!("CPY {one} .R:{}", link(random)),
        18 => format!("DUP {one} .R:{} {}", link(random), random.pick(&["", ".1"])),
        19 => format!("DPR {one} .{}", random.pick(&[0, 4, 4, 5])),
        20 => format!("CHN {one} {}", link(random)),
        21 => format!("DEL {one}"),
        22 => format!("WRS M {one}"),
        _ => format!("WRS {} .R:{}", random.pick(&["M", "L"]), link(random)),
    };
    line.into_bytes()
}

/// Mark a heading, if one is in this record: byte 5, sometimes as no mark is; and sometimes it is empty besides, as a cut rewrite leaves it.
pub fn mark(random: &mut Random, record: &mut [u8]) {
    if record[0] == 1 {
        record[5] = random.pick(&[1, 1, 1, 2, 0]);
        if random.once_in(2) {
            record[10..12].fill(0);
        }
    }
}
