//! Names of six bits a character as they lie in entries, read, laid and made wrong; and entries as they were before.

use crate::Random;

/// The name of an entry: its bytes 10-17 as a number, ten digits of base 64, the last blanks left out.
pub fn name(entry: &[u8]) -> String {
    let bytes = entry[10..18].iter().rev();
    let number = bytes.fold(0, |number: u64, byte| number << 8 | u64::from(*byte));
    let digits = (0..10).rev().map(|at| (number >> (6 * at) & 63) as u8);
    let name: String = digits.map(|digit| char::from(digit + 32)).collect();
    name.trim_end().to_string()
}

/// Bytes 9-19 of an entry of this name.
pub fn laid(name: &str) -> [u8; 11] {
    let digits = name.bytes().chain([b' '; 10]).take(10);
    let joined = |number: u64, byte: u8| number << 6 | u64::from(byte.wrapping_sub(32) & 63);
    let mut laid = [0; 11];
    laid[1..9].copy_from_slice(&digits.fold(0, joined).to_le_bytes());
    laid
}

/// The entries of a table.
fn entries(table: &mut [u8]) -> Vec<&mut [u8]> {
    let records = table.chunks_exact_mut(32);
    records.filter(|record| record[0] == 2).collect()
}

/// One of the entries of a table, if there is one.
fn entry<'a>(random: &mut Random, table: &'a mut [u8]) -> Option<&'a mut [u8]> {
    let mut entries = entries(table);
    let picked = random.below(entries.len().max(1));
    (picked < entries.len()).then(|| entries.swap_remove(picked))
}

/// A name that no sound entry has: none at all, with a blank inside, with a colon or an at sign, or one that no base file has.
fn wrong(random: &mut Random) -> &'static str {
    let inside = ["A B", " A", "A        B", ".R .", "LONG NAME1"];
    match random.below(6) {
        0 => "",
        1 => random.pick(&inside),
        2 => random.pick(&[":", "A:", "A:B", ":LONGNAME0"]),
        3 => random.pick(&["@", "A@", "@B", "LONGNAME1@"]),
        _ => random.pick(&[".1", "R", ".", ".A-B", ".AB1"]),
    }
}

/// The name of one entry made wrong: byte 9, one of the bytes from 18 on, a bit past the sixtieth, or a name that is none; or its
/// number one more or less, which is another name.
pub fn misname(random: &mut Random, table: &mut [u8]) {
    let Some(entry) = entry(random, table) else {
        return;
    };
    match random.below(12) {
        0 | 1 => entry[9] = random.pick(&[1, 2, 10, 255]),
        2 | 3 => entry[18 + random.below(14)] = random.pick(&[1, 32, 255]),
        4 | 5 => entry[17] |= random.pick(&[16, 16, 32, 128, 240]),
        6 => entry[10] = entry[10].wrapping_add(random.pick(&[1, 255])),
        _ => {
            let wrong = wrong(random);
            entry[9..20].copy_from_slice(&laid(wrong));
        }
    }
}

/// Bytes 9-19 of an entry of this name as they were before: its length, and its characters.
pub fn laid_before(name: &[u8]) -> [u8; 11] {
    let mut laid = [0; 11];
    laid[0] = name.len() as u8;
    laid[1..=name.len()].copy_from_slice(name);
    laid
}

/// The name of one entry of an old table made wrong: a length that is none, a byte past the name or past the field, a character that
/// no name has.
pub fn misname_before(random: &mut Random, table: &mut [u8]) {
    let Some(entry) = entry(random, table) else {
        return;
    };
    match random.below(10) {
        0 => entry[9] = 0,
        1 => entry[9] = random.pick(&[11, 12, 255]),
        2 => entry[9] = (entry[9] + 1) % 11,
        3 => entry[20 + random.below(12)] = random.pick(&[1, 32, 255]),
        4 if entry[9] < 10 => entry[19] = random.pick(&[1, 32, 65]),
        5 => entry[10] = random.pick(b"a`\x00\x1f\x7f\xff"),
        6 => entry[9..20].copy_from_slice(&laid_before(b"A ")),
        _ => {
            let wrong = wrong(random);
            entry[9..20].copy_from_slice(&laid_before(wrong.as_bytes()));
        }
    }
}
