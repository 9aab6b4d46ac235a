//! Request lines that meet a table: well-formed and often granted, nearly well-formed, and rubbish.

use crate::chains::{self, base, link, new, old};
use crate::lines;
use crate::parts::part;
use crate::rewrites::medium;
use crate::trees::depth;
use crate::Random;

/// A declaration with this lifetime, now and then with a level, and with a digit that seldom inhibits.
pub fn declaration(random: &mut Random, lifetime: &str) -> String {
    let level = random.pick(&["", "U", "P", "A", "S", "S"]);
    let digit = match random.below(24) {
        0 => "1",
        1 => "2",
        2..=5 => "4",
        6..=8 => "0",
        9 => random.pick(&["3", "5", "6", "7"]),
        _ => "",
    };
    format!("{lifetime}.{level}{digit}")
}

/// A well-formed line of one of the functions over chains of the table.
pub fn granted(random: &mut Random, table: &[u8], user: u32) -> String {
    let (one, other) = (old(random, table, user), new(random, table, user));
    match random.below(52) {
        0..=5 => format!("CRD {other} {}", declaration(random, "")),
        6..=10 => {
            let lifetime = random.pick(&["M", "L"]);
            format!("WRS {} {other}", declaration(random, lifetime))
        }
        11..=13 => {
            let lifetime = random.pick(&["", "", "M", "L"]);
            format!("CPY {one} {other} {}", declaration(random, lifetime))
        }
        14..=17 => format!("CPY {one} {other} .{}", random.pick(&["U", "P", "A"])),
        18 => format!("CPY {one} {one}"),
        19..=23 => format!("DUP {one} {other} {}", random.pick(&["-", ".", ".4", ".1"])),
        24 => format!("DUP {one} {one}"),
        25..=27 => format!("CHN {one} {}", renamed(random, &one)),
        28..=30 => format!("DPR {one} .{}", random.pick(&[0, 4, 4, 6, 7, 1, 2, 3])),
        31 => format!("DEL {one}"),
        32 | 33 => {
            let more = (0..random.below(8)).map(|_| old(random, table, user));
            format!("DEL {one} {}", more.collect::<Vec<String>>().join(" "))
        }
        34..=38 => format!("RDS {one}{}", part(random)),
        39 | 40 => format!("LST {one}"),
        41 => "LST .".to_string(),
        46..=49 => format!("WRS* {} {one}", medium(random)),
        50 => format!("DST {one}"),
        51 => format!("DST {one} {}", old(random, table, user)),
        42..=44 => format!("LST* {one} {}", depth(random)),
        _ => format!("LST* . {}", depth(random)),
    }
}

/// A line of one of the functions with a long chain, which may be wrong at any link.
pub fn long(random: &mut Random, table: &[u8], user: u32) -> Vec<u8> {
    let (chain, other) = (chains::long(random, table, user), old(random, table, user));
    let line = match random.below(16) {
        0 => format!("CRD {chain}"),
        1 => format!("WRS M {chain}"),
        2 => format!("RDS {chain}"),
        3 => format!("LST {chain}"),
        4 => format!("CPY {chain} {other}"),
        5 => format!("CPY {other} {chain}"),
        6 => format!("DUP {chain} {other}"),
        7 => format!("DUP {other} {chain} .4"),
        8 => format!("CHN {chain} {}", link(random)),
        9 => format!("DPR {chain} .4"),
        10 => format!("DEL {chain}"),
        12 => format!("WRS* M {chain}"),
        14 => format!("DST {chain}"),
        15 => format!("DST {other} {chain}"),
        11 => format!("LST* {chain} {}", depth(random)),
        _ => format!("DEL {other} {chain}"),
    };
    line.into_bytes()
}

/// A new link for the chain: for a base file mostly a base name, now and then the one that it has.
fn renamed<'a>(random: &mut Random, chain: &'a str) -> &'a str {
    match (random.below(8), chain.rsplit_once(':')) {
        (0, Some((_, last))) => last,
        (0, None) => chain,
        (1..=5, None) => base(random),
        _ => link(random),
    }
}

/// The line with one to three slips: a byte left out, doubled, changed or put in, or a word taken away.
fn slipped(random: &mut Random, line: &mut Vec<u8>) {
    for _ in 0..=random.below(3) {
        let at = random.below(line.len() + 1);
        let byte = random.pick(b" :.-@:  AR017MD_`a*");
        match random.below(6) {
            0 if at < line.len() => drop(line.remove(at)),
            1 if at < line.len() => line.insert(at, line[at]),
            2 if at < line.len() => line[at] = byte,
            3 => {
                let end = line.iter().rposition(|byte| *byte == b' ');
                line.truncate(end.unwrap_or(line.len()));
            }
            _ => line.insert(at, byte),
        }
    }
}

/// Bytes without a meaning, or blanks and colons, or a line that is too long.
fn rubbish(random: &mut Random) -> Vec<u8> {
    let length = random.pick(&[0, 1, 2, 3, 9, 40, 255, 256, 257, 300]);
    match random.below(4) {
        0 => random.bytes(length),
        1 => (0..length).map(|_| random.pick(b" :.A")).collect(),
        2 => (0..length).map(|_| 32 + random.below(64) as u8).collect(),
        _ => {
            let mut line = lines::line(random);
            line.resize(line.len().max(length), b' ');
            line
        }
    }
}

/// A line: mostly one that is often granted, now and then nearly one, over names that are not there, or rubbish.
pub fn line(random: &mut Random, table: &[u8], user: u32) -> Vec<u8> {
    match random.below(16) {
        0 => rubbish(random),
        1 | 2 => lines::line(random),
        3 => {
            let mut line = granted(random, table, user).into_bytes();
            slipped(random, &mut line);
            line
        }
        _ => granted(random, table, user).into_bytes(),
    }
}
