//! "Records": the four kinds of record, read from 32 bytes and written as 32 bytes, an entry's name by the table's layout.

use crate::layout::{Layout, NAME, NAME_BYTES};

/// "The table is records of 32 bytes".
pub const RECORD_BYTES: usize = 32;
/// "0 to 2,048 of them".
pub const MOST_RECORDS: usize = 2_048;
/// "directory's heading, or 65,535 for a base file".
pub const BASE_FILE: u16 = 65_535;
/// "the bytes" of a text record are bytes 8-31.
pub const BLOCK: usize = 24;
/// "1 to 10 characters".
pub const LONGEST_NAME: usize = 10;

/// "1 type (0 directory, 1 simple)".
#[derive(Debug, Clone, Copy, PartialEq, Eq)]
pub enum Type {
    /// A directory, listed as D.
    Directory,
    /// A simple file, listed as F.
    Simple,
}

/// "2 level (0 U, 1 P, 2 A, 3 S)". "With U lowest, then P, A, S".
#[derive(Debug, Clone, Copy, PartialEq, Eq, PartialOrd, Ord)]
pub enum Level {
    /// Level U, 0.
    U,
    /// Level P, 1.
    P,
    /// Level A, 2.
    A,
    /// Level S, 3.
    S,
}

/// "4 lifetime (1 M, 2 L)".
#[derive(Debug, Clone, Copy, PartialEq, Eq)]
pub enum Lifetime {
    /// Medium, 1.
    M,
    /// Long, 2.
    L,
}

/// "1 heading".
#[derive(Debug, Clone, PartialEq, Eq)]
pub struct Heading {
    pub file_type: Type,
    pub level: Level,
    pub code: u8,
    pub lifetime: Lifetime,
    /// "marked (byte 5 is 1)".
    pub marked: bool,
    pub length: u16,
    /// "how many entries name it (bytes 12-13)".
    pub named: u16,
    /// "for a directory, how many it holds (bytes 14-15)"; 0 for a simple file, which has no such field.
    pub holding: u16,
}

/// "2 entry".
#[derive(Debug, Clone, PartialEq, Eq)]
pub struct Entry {
    pub code: u8,
    pub directory: u16,
    pub heading: u16,
    pub user: u32,
    pub name: Vec<u8>,
}

/// "3 text". The bytes held are as many as byte 1 says.
#[derive(Debug, Clone, PartialEq, Eq)]
pub struct Text {
    pub heading: u16,
    pub position: u16,
    pub bytes: Vec<u8>,
}

/// A record of one of the four kinds.
#[derive(Debug, Clone, PartialEq, Eq)]
pub enum Record {
    Free,
    Heading(Heading),
    Entry(Entry),
    Text(Text),
}

/// "Two-byte numbers have the low byte first."
pub fn two_bytes(low: u8, high: u8) -> u16 {
    u16::from_le_bytes([low, high])
}

impl Record {
    /// What 32 bytes say; nothing when they are not as one of the four kinds has it.
    pub fn read(layout: Layout, bytes: &[u8; RECORD_BYTES]) -> Option<Record> {
        let record = match bytes[0] {
            0 => Record::Free,
            1 => Record::Heading(Heading::read(bytes)?),
            2 => Record::Entry(Entry::read(layout, bytes)?),
            3 => Record::Text(Text::read(bytes)?),
            _ => return None,
        };
        // "Bytes not named are zero": a record has one way to be written.
        (record.write(layout) == *bytes).then_some(record)
    }

    /// The 32 bytes of this record.
    pub fn write(&self, layout: Layout) -> [u8; RECORD_BYTES] {
        match self {
            Record::Free => [0; RECORD_BYTES],
            Record::Heading(heading) => heading.write(),
            Record::Entry(entry) => entry.write(layout),
            Record::Text(text) => text.write(),
        }
    }
}

/// "code 0..7".
fn code(byte: u8) -> Option<u8> {
    (byte <= 7).then_some(byte)
}

impl Heading {
    fn read(bytes: &[u8; RECORD_BYTES]) -> Option<Heading> {
        let file_type = match bytes[1] {
            0 => Type::Directory,
            1 => Type::Simple,
            _ => return None,
        };
        Some(Heading {
            file_type,
            level: match bytes[2] {
                0 => Level::U,
                1 => Level::P,
                2 => Level::A,
                3 => Level::S,
                _ => return None,
            },
            code: code(bytes[3])?,
            lifetime: match bytes[4] {
                1 => Lifetime::M,
                2 => Lifetime::L,
                _ => return None,
            },
            marked: match bytes[5] {
                0 => false,
                1 => true,
                _ => return None,
            },
            length: two_bytes(bytes[10], bytes[11]),
            named: two_bytes(bytes[12], bytes[13]),
            holding: match file_type {
                Type::Directory => two_bytes(bytes[14], bytes[15]),
                Type::Simple => 0,
            },
        })
    }

    fn write(&self) -> [u8; RECORD_BYTES] {
        let mut bytes = [0; RECORD_BYTES];
        bytes[0] = 1;
        bytes[1] = match self.file_type {
            Type::Directory => 0,
            Type::Simple => 1,
        };
        bytes[2] = match self.level {
            Level::U => 0,
            Level::P => 1,
            Level::A => 2,
            Level::S => 3,
        };
        bytes[3] = self.code;
        bytes[4] = match self.lifetime {
            Lifetime::M => 1,
            Lifetime::L => 2,
        };
        bytes[5] = self.marked.into();
        bytes[10..12].copy_from_slice(&self.length.to_le_bytes());
        bytes[12..14].copy_from_slice(&self.named.to_le_bytes());
        bytes[14..16].copy_from_slice(&self.holding.to_le_bytes());
        bytes
    }
}

impl Entry {
    fn read(layout: Layout, bytes: &[u8; RECORD_BYTES]) -> Option<Entry> {
        Some(Entry {
            code: code(bytes[1])?,
            directory: two_bytes(bytes[2], bytes[3]),
            heading: two_bytes(bytes[4], bytes[5]),
            user: u32::from_le_bytes([bytes[6], bytes[7], bytes[8], 0]),
            name: layout.name(bytes[NAME..].first_chunk()?)?,
        })
    }

    fn write(&self, layout: Layout) -> [u8; RECORD_BYTES] {
        let mut bytes = [0; RECORD_BYTES];
        bytes[0] = 2;
        bytes[1] = self.code;
        bytes[2..4].copy_from_slice(&self.directory.to_le_bytes());
        bytes[4..6].copy_from_slice(&self.heading.to_le_bytes());
        bytes[6..9].copy_from_slice(&self.user.to_le_bytes()[..3]);
        bytes[NAME..NAME + NAME_BYTES].copy_from_slice(&layout.field(&self.name));
        bytes
    }
}

impl Text {
    fn read(bytes: &[u8; RECORD_BYTES]) -> Option<Text> {
        let held = usize::from(bytes[1]);
        if held == 0 {
            return None;
        }
        Some(Text {
            heading: two_bytes(bytes[2], bytes[3]),
            position: two_bytes(bytes[4], bytes[5]),
            bytes: bytes[8..8 + BLOCK].get(..held)?.to_vec(),
        })
    }

    fn write(&self) -> [u8; RECORD_BYTES] {
        let mut bytes = [0; RECORD_BYTES];
        bytes[0] = 3;
        bytes[1] = self.bytes.len() as u8;
        bytes[2..4].copy_from_slice(&self.heading.to_le_bytes());
        bytes[4..6].copy_from_slice(&self.position.to_le_bytes());
        bytes[8..8 + self.bytes.len()].copy_from_slice(&self.bytes);
        bytes
    }
}
