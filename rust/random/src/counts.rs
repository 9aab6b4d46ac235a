//! The counts in headings, bytes 12-15: wrong ones, none at all, and requests that move them.

use crate::chains::{link, new, old, sheet};
use crate::Random;

/// The headings of a table.
fn headings(table: &mut [u8]) -> Vec<&mut [u8]> {
    let records = table.chunks_exact_mut(32);
    records.filter(|record| record[0] == 1).collect()
}

/// One byte of the counts of one heading another: one more, one less, or any; nothing where there is no heading.
pub fn miscount(random: &mut Random, table: &mut [u8]) {
    let mut headings = headings(table);
    if headings.is_empty() {
        return;
    }
    let picked = random.below(headings.len());
    let byte = &mut headings[picked][12 + random.below(4)];
    *byte = match random.below(4) {
        0 => random.below(256) as u8,
        1 => byte.wrapping_sub(1),
        _ => byte.wrapping_add(1),
    };
}

/// The table as document 01 has it: no heading has a count.
pub fn uncount(table: &mut [u8]) {
    let all = headings(table).into_iter();
    all.for_each(|heading| heading[12..16].fill(0));
}

/// A line that moves counts: another entry of a file, in a directory, in the base list, in the directory itself, over an entry of
/// another file or of the same; an entry less; a new file, or one over an entry; now and then one that keeps them.
pub fn about(random: &mut Random, table: &[u8], user: u32) -> Vec<u8> {
    let (one, over) = (old(random, table, user), old(random, table, user));
    let (other, link) = (new(random, table, user), link(random));
    let line = match random.below(24) {
        0..=3 => format!("DUP {one} {other}"),
        4 | 5 => format!("DUP {one} {one}:{link}"),
        6..=8 => format!("DUP {one} {over}"),
        9 => format!("DUP {one} {one} .4"),
        10 => format!("DUP {one} {}", random.pick(&[".AB", ".A.", "...", ".ZZ"])),
        11..=14 => format!("DEL {one}"),
        15 => format!("DEL {one} {over}"),
        16 | 17 => format!("CRD {other}"),
        18 => format!("WRS M {other}"),
        19 => format!("WRS M {over}"),
        20 => format!("CPY {} {over}", sheet(random, table, user)),
        21 => format!("CHN {one} {link}"),
        22 => format!("DPR {one} .{}", random.pick(&[0, 4])),
        _ => format!("WRS* M {}", sheet(random, table, user)),
    };
    line.into_bytes()
}
