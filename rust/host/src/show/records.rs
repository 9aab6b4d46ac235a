//! The records of a sound table, as they are drawn.

use filebox::RECORD_BYTES;

/// The directory of a base file.
pub const BASE: u16 = 65_535;

/// What a record is.
#[derive(Debug, Clone, PartialEq, Eq)]
pub enum Record {
    Free,
    Heading(Heading),
    Entry(Entry),
    Text,
}

/// A file's heading.
#[derive(Debug, Clone, Copy, PartialEq, Eq)]
pub struct Heading {
    pub directory: bool,
    pub level: char,
    pub code: u8,
    pub lifetime: char,
    pub marked: bool,
    pub length: u16,
}

/// A name, where it stands, and the heading that it names.
#[derive(Debug, Clone, PartialEq, Eq)]
pub struct Entry {
    pub code: u8,
    pub directory: u16,
    pub heading: u16,
    pub user: u32,
    pub name: String,
}

/// Two bytes, the low one first.
fn two(record: &[u8], at: usize) -> u16 {
    u16::from_le_bytes([record[at], record[at + 1]])
}

/// One of the letters by number; a question mark where there is none.
fn letter(letters: &str, number: u8) -> char {
    letters.chars().nth(usize::from(number)).unwrap_or('?')
}

impl Record {
    /// The record of these 32 bytes.
    fn of(record: &[u8]) -> Record {
        match record[0] {
            0 => Record::Free,
            1 => Record::Heading(Heading {
                directory: record[1] == 0,
                level: letter("UPAS", record[2]),
                code: record[3],
                lifetime: letter("?ML", record[4]),
                marked: record[5] == 1,
                length: two(record, 10),
            }),
            2 => Record::Entry(Entry {
                code: record[1],
                directory: two(record, 2),
                heading: two(record, 4),
                user: u32::from_le_bytes([record[6], record[7], record[8], 0]),
                name: name(record),
            }),
            _ => Record::Text,
        }
    }
}

/// The name in an entry: ten codes of six bits in one number, bytes 10-17, the first character highest, blanks after the last.
fn name(record: &[u8]) -> String {
    let bytes = record[10..18].iter().rev();
    let number = bytes.fold(0, |number: u64, byte| number << 8 | u64::from(*byte));
    let codes = (0..10)
        .rev()
        .map(|place| (number >> (6 * place) & 63) as u8);
    let name: String = codes.map(|code| char::from(code + 32)).collect();
    name.trim_end().to_string()
}

/// All records of a table.
pub fn records(table: &[u8]) -> Vec<Record> {
    table.chunks_exact(RECORD_BYTES).map(Record::of).collect()
}
