//! Lines of DST, requests that lead to files of many entries, and entries that name no heading.

use crate::chains::{link, long, new, old, sheet, twin};
use crate::names::laid;
use crate::Random;

/// A name of a file that is there, mostly of a simple one.
fn there(random: &mut Random, table: &[u8], user: u32) -> String {
    match random.below(5) {
        0 | 1 => old(random, table, user),
        _ => sheet(random, table, user),
    }
}

/// A name that is not there, is long and may be wrong at any link, or is none; a user's number, which may not stand here.
fn odd(random: &mut Random, table: &[u8], user: u32) -> String {
    match random.below(8) {
        0 => long(random, table, user),
        1..=3 => format!("{}:{}", there(random, table, user), link(random)),
        4 => random.pick(&["-", "A::B", "@", ".GONE"]).to_string(),
        5 => random.pick(&[".1", ".A:B", "."]).to_string(),
        _ => random
            .pick(&[".000001:A", ".000777", ".000002:A:B"])
            .to_string(),
    }
}

/// The chain of the directory that holds the end of this one; a base file's own.
fn above(chain: &str) -> &str {
    chain.rsplit_once(':').map_or(chain, |(above, _)| above)
}

/// One to eight names, some of them equal.
fn several(random: &mut Random, table: &[u8], user: u32) -> Vec<String> {
    let mut names = vec![there(random, table, user)];
    for _ in 0..random.pick(&[1, 1, 1, 2, 2, 3, 5, 7]) {
        let name = match random.below(12) {
            0 => names[random.below(names.len())].clone(),
            1 => odd(random, table, user),
            _ => there(random, table, user),
        };
        names.push(name);
    }
    names
}

/// A line of DST, mostly of files that are there: of one, of several, of a file and the directory that holds it, either first, of two
/// names of one file; now and then of one name twice, of a name that is not there or is none, or with no name or nine.
pub fn line(random: &mut Random, table: &[u8], user: u32) -> Vec<u8> {
    let one = there(random, table, user);
    let names = match random.below(32) {
        0 => String::new(),
        1 => [one.as_str(); 9].join(" "),
        2 => format!("{one} {one}"),
        3..=6 => format!("{one} {}", above(&one)),
        7 => format!("{} {one}", above(&one)),
        8..=13 => several(random, table, user).join(" "),
        14..=17 => odd(random, table, user),
        18 => format!("{one} {}", odd(random, table, user)),
        19 | 20 => format!("{one} {}", twin(random, table, user, &one)),
        _ => one,
    };
    format!("DST {names}").into_bytes()
}

/// A line that leads to files of many entries, in directories, in base lists, in a directory itself and in loops that no base file
/// reaches, inhibited or not; or DST.
pub fn about(random: &mut Random, table: &[u8], user: u32) -> Vec<u8> {
    let (one, over) = (there(random, table, user), old(random, table, user));
    let (other, link) = (new(random, table, user), link(random));
    let line = match random.below(32) {
        0..=3 => format!("DUP {one} {other}"),
        4..=7 => format!("DUP {one} {over}:{link}"),
        8 | 9 => format!("DUP {over} {over}:{link}"),
        10 => format!("DUP {one} {}", random.pick(&[".AB", ".A.", "...", ".ZZ"])),
        11 => format!("DUP {one} {other} .1"),
        12 => format!("DUP {one} .{:06}:{link}", random.pick(&[1, 2])),
        13 | 14 => format!("CRD {other}"),
        15 | 16 => format!("WRS {} {other}", random.pick(&["M", "L.S", "M.6"])),
        17 | 18 => format!("DEL {over}"),
        19 => format!("DPR {over} .{}", random.pick(&[1, 4, 5])),
        20 => format!("WRS* M {}", sheet(random, table, user)),
        _ => return line(random, table, user),
    };
    line.into_bytes()
}

/// An entry that names no heading, or may do so: of any record or of none, in any directory or in a base list.
fn lost(random: &mut Random, records: usize) -> [u8; 32] {
    let any = |random: &mut Random| match random.below(4) {
        0 => random.pick(&[65_535, 65_534, 2_048, records as u16]),
        _ => random.below(records + 1) as u16,
    };
    let mut entry = [0; 32];
    entry[..2].copy_from_slice(&[2, random.below(9) as u8]);
    let directory = if random.once_in(2) {
        65_535
    } else {
        any(random)
    };
    entry[2..4].copy_from_slice(&directory.to_le_bytes());
    entry[4..6].copy_from_slice(&any(random).to_le_bytes());
    entry[6] = u8::from(directory == 65_535);
    entry[9..20].copy_from_slice(&laid(random.pick(&[".ZZ", "A"])));
    if random.once_in(8) {
        entry[random.below(26) + 6] = random.below(256) as u8;
    }
    entry
}

/// Is this text of the heading of this number?
fn is_text_of(record: &[u8], heading: usize) -> bool {
    record[0] == 3 && usize::from(u16::from_le_bytes([record[2], record[3]])) == heading
}

/// The table with entries that name no heading: up to three in free records; or a heading cleared, with its text or without, and its
/// entries left.
pub fn lose(random: &mut Random, table: &mut [u8]) {
    let records = table.len() / 32;
    let of_kind = |table: &[u8], kind: u8| -> Vec<usize> {
        let numbered = table.chunks_exact(32).enumerate();
        let kept = numbered.filter(|(_, record)| record[0] == kind);
        kept.map(|(number, _)| number).collect()
    };
    let headings = of_kind(table, 1);
    if !headings.is_empty() && random.once_in(3) {
        let heading = random.pick(&headings);
        let text = random.once_in(2);
        for (number, record) in table.chunks_exact_mut(32).enumerate() {
            if number == heading || text && is_text_of(record, heading) {
                record.fill(0);
            }
        }
        return;
    }
    for _ in 0..=random.below(3) {
        let free = of_kind(table, 0);
        if !free.is_empty() {
            let at = random.pick(&free) * 32;
            table[at..at + 32].copy_from_slice(&lost(random, records));
        }
    }
}
