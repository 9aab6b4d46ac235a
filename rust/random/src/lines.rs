//! Random request lines: mostly well-formed, over few names, so that they meet each other in a small table.

use crate::parts::part;
use crate::rewrites::medium;
use crate::trees::shallow;
use crate::Random;

const GOOD: [&str; 11] = [
    ".R", ".W", "A", ".R:A", ".R:B", ".R:A:B", ".R:A:A", "A:B", ".G", ".ABC", ".R:-",
];
const ODD: [&str; 12] = [
    ".1",
    "-",
    ".",
    "AAAAAAAAAAA",
    "A::B",
    ".R : A",
    ".R:LONGNAME10",
    ".T",
    ":A",
    "A:",
    ".R:@",
    ".R:A:B:C:D:E:F:G:H:I:J:K:L:M:N:O:P",
];
const USUAL: [&str; 8] = ["", "", "-", ".1", ".P2", ".0", ".2", ".4"];
const UNUSUAL: [&str; 12] = [
    ".", "M", "L", "M.S3", "D", "S", ".7", "MF", "L.A", "F.0", "M.", "1",
];

fn name(random: &mut Random) -> &'static str {
    if random.once_in(5) {
        random.pick(&ODD)
    } else {
        random.pick(&GOOD)
    }
}

fn declaration(random: &mut Random) -> &'static str {
    if random.once_in(4) {
        random.pick(&UNUSUAL)
    } else {
        random.pick(&USUAL)
    }
}

fn written(random: &mut Random) -> String {
    let lifetime = if random.once_in(5) {
        declaration(random)
    } else {
        random.pick(&["M", "L", "M.1", "L.P2", "M.A4"])
    };
    format!("WRS {lifetime} {}", name(random))
}

/// A line of one of the functions, now and then with one byte changed.
pub fn line(random: &mut Random) -> Vec<u8> {
    let (one, two, declared) = (name(random), name(random), declaration(random));
    let line = match random.below(24) {
        0..=2 => format!("CRD {one} {declared}"),
        3..=5 => written(random),
        6 | 15 | 16 => format!("RDS {one}{}", part(random)),
        7 => format!("CPY {one} {two} {declared}"),
        8 | 9 => format!("DUP {one} {two} {declared}"),
        10 => format!(
            "CHN {one} {}",
            random.pick(&["A", "B", ".ABC", ".R", "-", "A:B", ".W", "X@"])
        ),
        11 => format!("DEL {one}"),
        12 => format!("DEL {one} {two} {}", name(random)),
        13 => format!(
            "DPR {one} {}",
            random.pick(&[".1", ".3", ".7", ".0", "M.1", "-", ""])
        ),
        19..=21 => format!("WRS* {} {one}", medium(random)),
        22 => format!("DST {one}"),
        23 => format!("DST {one} {two}"),
        14 => format!("LST {}", if random.once_in(3) { "." } else { one }),
        _ => {
            let name = if random.once_in(3) { "." } else { one };
            format!("LST* {name} {}", shallow(random))
        }
    };
    let mut line = line.into_bytes();
    if random.once_in(40) {
        let at = random.below(line.len());
        line[at] = random.below(256) as u8;
    }
    line
}
