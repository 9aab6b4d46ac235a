//! Requests that make loops of directories and cut them off from all base files, and tables whose debris needs mending in rounds.

use crate::chains::{link, new, old, sheet};
use crate::Random;

const BASE_FILE: u16 = 65_535;

/// A line that makes directories, links them to themselves, to each other and to sheets, inhibited or not, or lets them go: by DEL, or by an
/// entry put in the place of theirs.
pub fn about(random: &mut Random, table: &[u8], user: u32) -> Vec<u8> {
    let (one, over) = (old(random, table, user), old(random, table, user));
    let (other, link) = (new(random, table, user), link(random));
    let line = match random.below(32) {
        0..=3 => format!("CRD {other}"),
        4..=8 => format!("DUP {one} {over}:{link}"),
        9..=11 => format!("DUP {one} {one}:{link}"),
        12 => format!("DUP {one} {other} .{}", random.pick(&[1, 2, 7])),
        13 => format!("DUP {one} .{:06}:{link}", random.pick(&[1, 2])),
        14 => format!("DUP {one} {}", random.pick(&[".AB", ".A.", "...", ".ZZ"])),
        15..=17 => format!("WRS {} {over}:{link}", random.pick(&["M", "L.S", "M.7"])),
        18 => format!("WRS* M {}", sheet(random, table, user)),
        19 => format!("DPR {one} .{}", random.pick(&[1, 2, 7])),
        20 => format!("DUP {one} {over}"),
        21 => format!("WRS M {one}"),
        22 => format!("CRD {one}"),
        23..=27 => format!("DEL {}", base(&one)),
        28 => format!("DEL {one} {over}"),
        _ => format!("DEL {one}"),
    };
    line.into_bytes()
}

/// The base file that a chain begins with; of one that lacks a leading point `.W`.
fn base(chain: &str) -> &str {
    match chain.split(':').next() {
        Some(first) if first.starts_with('.') => first,
        _ => ".W",
    }
}

/// Two bytes of a record as a number.
fn two(record: &[u8], at: usize) -> u16 {
    u16::from_le_bytes([record[at], record[at + 1]])
}

/// The numbers of the records that a test picks out.
fn numbers(table: &[u8], test: impl Fn(&[u8]) -> bool) -> Vec<usize> {
    let numbered = table.chunks_exact(32).enumerate();
    let picked = numbered.filter(|(_, record)| test(record));
    picked.map(|(number, _)| number).collect()
}

/// The table with a tree cut off, as by no request: a base entry cleared, or any entry, or a directory's heading; or with an entry that
/// stands in no heading: in a free record, a text, an entry, or past the end. Nothing where there is no such record.
pub fn unhook(random: &mut Random, table: &mut [u8]) {
    let records = table.len() / 32;
    let is_entry = |record: &[u8]| record[0] == 2;
    let picked = match random.below(8) {
        0..=2 => numbers(table, |r| is_entry(r) && two(r, 2) == BASE_FILE),
        3 => numbers(table, is_entry),
        4 => numbers(table, |record| record[..2] == [1, 0]),
        _ => {
            let kind = random.pick(&[0, 2, 3]);
            let elsewhere = numbers(table, |record| record[0] == kind);
            let holder = match random.below(4) {
                0 => random.pick(&[65_534, 2_048, records as u16]),
                _ if elsewhere.is_empty() => return,
                _ => random.pick(&elsewhere) as u16,
            };
            let inside = numbers(table, |r| is_entry(r) && two(r, 2) != BASE_FILE);
            if !inside.is_empty() {
                let at = random.pick(&inside) * 32 + 2;
                table[at..at + 2].copy_from_slice(&holder.to_le_bytes());
            }
            return;
        }
    };
    if !picked.is_empty() {
        let at = random.pick(&picked) * 32;
        table[at..at + 32].fill(0);
    }
}
