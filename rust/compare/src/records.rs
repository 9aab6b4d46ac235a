//! A table by its records: what the branches are told by.

use std::collections::BTreeSet;

use beside::Chain;
use random::names::name;

pub const BASE_FILE: u16 = 65_535;
pub const WRITE: u8 = 1;
pub const READ: u8 = 2;

/// Two bytes of a record as a number.
pub fn two(record: &[u8], at: usize) -> u16 {
    u16::from_le_bytes([record[at], record[at + 1]])
}

/// How many text records hold so many bytes.
pub fn blocks(bytes: usize) -> usize {
    bytes.div_ceil(24)
}

/// The heading of this number.
pub fn heading(table: &[u8], number: u16) -> &[u8] {
    &table[usize::from(number) * 32..][..32]
}

/// How many records are as this test says.
pub fn count(table: &[u8], test: impl Fn(&[u8]) -> bool) -> usize {
    table.chunks_exact(32).filter(|record| test(record)).count()
}

/// The texts of a file, by record number: position, and bytes held.
pub fn texts(table: &[u8], file: u16) -> Vec<(u16, &[u8])> {
    let records = table.chunks_exact(32);
    let own = records.filter(|record| record[0] == 3 && two(record, 2) == file);
    own.map(|record| {
        (
            two(record, 4),
            &record[8..8 + usize::from(record[1]).min(24)],
        )
    })
    .collect()
}

/// What a chain comes to in a table, by the records: the directory, the entry and the file.
pub struct Walked<'a> {
    pub directory: u16,
    pub entry: &'a [u8],
    pub file: u16,
    /// The code of the entry by which the directory was entered, and of its heading.
    pub above: u8,
}

pub fn walked<'a>(table: &'a [u8], user: u32, chain: &Chain) -> Option<Walked<'a>> {
    let mut at: Option<Walked> = None;
    for link in chain.names() {
        let (directory, above) = at.map_or((BASE_FILE, 0), |at| {
            (at.file, at.entry[1] | heading(table, at.file)[3])
        });
        let user = if directory == BASE_FILE { user } else { 0 };
        let user = &user.to_le_bytes()[..3];
        let there = |r: &&[u8]| r[0] == 2 && two(r, 2) == directory && &r[6..9] == user;
        let mut entries = table.chunks_exact(32).filter(there);
        let entry = entries.find(|r| name(r).as_bytes() == link)?;
        at = Some(Walked {
            directory,
            entry,
            file: two(entry, 4),
            above,
        });
    }
    at
}

/// The numbers of the records that differ, with both.
pub fn differing<'a>(one: &'a [u8], other: &'a [u8]) -> Vec<(u16, &'a [u8], &'a [u8])> {
    let pairs = one.chunks_exact(32).zip(other.chunks_exact(32));
    (0..)
        .zip(pairs)
        .filter(|(_, (one, other))| one != other)
        .map(|(number, (one, other))| (number, one, other))
        .collect()
}

/// The entries that name a heading, with their numbers.
pub fn naming(table: &[u8], heading: u16) -> Vec<(u16, &[u8])> {
    let entries = (0..).zip(table.chunks_exact(32));
    entries
        .filter(|(_, record)| record[0] == 2 && two(record, 4) == heading)
        .collect()
}

/// How many entries name a heading.
pub fn entries_of(table: &[u8], heading: u16) -> usize {
    naming(table, heading).len()
}

/// Is the record of this number a heading, by its byte 0?
pub fn is_heading(table: &[u8], number: u16) -> bool {
    let record = table.chunks_exact(32).nth(number.into());
    record.is_some_and(|record| record[0] == 1)
}

/// Is this an entry that names no heading of the table?
pub fn is_lost(table: &[u8], record: &[u8]) -> bool {
    record[0] == 2 && !is_heading(table, two(record, 4))
}

/// Is this an entry that names no heading of the table or, base files' apart, stands in none?
pub fn is_adrift(table: &[u8], record: &[u8]) -> bool {
    let holder = || two(record, 2);
    let stands = || holder() == BASE_FILE || is_heading(table, holder());
    record[0] == 2 && !(is_heading(table, two(record, 4)) && stands())
}

/// The headings that a chain of entries from some user's base files reaches, and 65,535.
pub fn reached(table: &[u8]) -> BTreeSet<u16> {
    let mut reached = BTreeSet::from([BASE_FILE]);
    loop {
        let before = reached.len();
        for entry in table.chunks_exact(32).filter(|record| record[0] == 2) {
            if reached.contains(&two(entry, 2)) {
                reached.insert(two(entry, 4));
            }
        }
        if reached.len() == before {
            return reached;
        }
    }
}

/// The table without the records that this test picks out by their numbers; how many these are.
fn clear(table: &mut [u8], test: impl Fn(u16, &[u8]) -> bool) -> usize {
    let numbered = (0..).zip(table.chunks_exact_mut(32));
    let picked = numbered.filter(|(number, record)| test(*number, record));
    picked.map(|(_, record)| record.fill(0)).count()
}

/// The table without its entries that are adrift; how many these are.
fn clear_entries(table: &mut [u8]) -> usize {
    let before = table.to_vec();
    clear(table, |_, record| is_adrift(&before, record))
}

/// The same of the headings that no entry names.
fn clear_headings(table: &mut [u8]) -> usize {
    let entries = table.chunks_exact(32).filter(|record| record[0] == 2);
    let named: BTreeSet<u16> = entries.map(|entry| two(entry, 4)).collect();
    clear(table, |n, record| record[0] == 1 && !named.contains(&n))
}

/// In how many rounds entries and headings are mended away.
pub fn rounds(table: &[u8]) -> usize {
    let mut left = table.to_vec();
    let mut round = || clear_entries(&mut left) + clear_headings(&mut left);
    std::iter::repeat_with(&mut round)
        .take_while(|gone| *gone > 0)
        .count()
}
