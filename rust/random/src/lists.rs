//! The list of entries that is kept beside a table: lists that are likely not true, and names to look up through one.

use crate::names::name;
use crate::Random;

const PADDING: u16 = 65_535;
const BASE: u32 = 65_535;

/// Another list than this: that of the table before some request, or this one with two places changed about, one place less or more, its
/// padding or one number another, an entry missing or besides; or anything.
pub fn wrong(random: &mut Random, list: &[u16], stale: &[u16]) -> Vec<u16> {
    let mut wrong = list.to_vec();
    let used = list.iter().position(|number| *number == PADDING);
    let used = used.unwrap_or(list.len());
    let number = random.pick(&[0, 1, 2, 9, 2_047, 2_048, 65_534]);
    match random.below(16) {
        0..=2 if used > 1 => wrong.swap(random.below(used), random.below(used)),
        3 => wrong.truncate(random.below(list.len() + 1)),
        4 => wrong.resize(list.len() + 1 + random.below(3), PADDING),
        5 => wrong.push(number),
        6..=8 if used < list.len() => wrong[used + random.below(list.len() - used)] = number,
        9 if used > 0 => wrong[random.below(used)] = number,
        10 if used > 0 => {
            wrong.remove(random.below(used));
            wrong.push(PADDING);
        }
        11 if used < list.len() => wrong.insert(random.below(used + 1), number),
        12 => wrong.fill_with(|| random.below(65_536) as u16),
        _ => wrong = stale.to_vec(),
    }
    if random.once_in(2) {
        // of the table's length, where it has another
        wrong.resize(list.len(), PADDING);
    }
    wrong
}

/// A list without any meaning: numbers of the table's records and past them, repeated, with 65,535 among them.
pub fn junk(random: &mut Random, records: usize) -> Vec<u16> {
    let places = random.below(2 * records + 3);
    let number = |_| match random.below(12) {
        0 => random.pick(&[PADDING, 65_534, 2_048]),
        _ => random.below(records + 2) as u16,
    };
    (0..places).map(number).collect()
}

/// One entry another in the bytes that entries are ordered by, as in no sound table: a user in a directory, more than 60 bits.
pub fn disorder(random: &mut Random, table: &mut [u8]) {
    let records = table.chunks_exact_mut(32);
    let mut entries: Vec<&mut [u8]> = records.filter(|record| record[0] == 2).collect();
    if !entries.is_empty() {
        let picked = random.below(entries.len());
        entries[picked][random.pick(&[2, 6, 6, 7, 8, 10, 17])] = random.pick(&[0, 1, 2, 255]);
    }
}

/// A name to look up, with its directory and its user: mostly that of an entry, or near it.
pub fn sought(random: &mut Random, table: &[u8]) -> (u32, u32, Vec<u8>) {
    let records = table.chunks_exact(32);
    let entries: Vec<&[u8]> = records.filter(|record| record[0] == 2).collect();
    let (mut heading, mut user, mut name) = (BASE, 1, b".R".to_vec());
    if !entries.is_empty() {
        let entry = random.pick(&entries);
        heading = u16::from_le_bytes([entry[2], entry[3]]).into();
        user = u32::from_le_bytes([entry[6], entry[7], entry[8], 0]);
        name = self::name(entry).into_bytes();
    }
    match random.below(16) {
        0 | 1 => name = random.pick(&[&b"A"[..], b"N1", b"_", b"!", b".W"]).to_vec(),
        2 => name.push(random.pick(b"!A_")),
        3 => name = random.pick(&[&b""[..], b"A:", b"@", b"a", b"A B"]).to_vec(),
        4 => name = vec![b'A'; 11],
        5 => heading = random.pick(&[0, 1, 2, BASE, 65_536, u32::MAX]),
        6 => heading ^= random.pick(&[1, 256]),
        7 | 8 => user = random.pick(&[0, 1, 2, 257, 999_999, 16_777_216, u32::MAX]),
        _ => {}
    }
    (heading, user, name)
}
