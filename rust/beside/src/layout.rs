//! "Entries now hold the name as ten six-bit codes": how a name lies in an entry, now and before, and from the one to the other.

use crate::records::{LONGEST_NAME, RECORD_BYTES};
use crate::sound::sound_in;
use crate::table::length_fits;

/// "byte less 32", so that a blank, the padding, is 0.
const BLANK: u8 = 32;
/// "six-bit characters".
const CODE_BITS: usize = 6;
const HIGHEST_CODE: u8 = 63;
/// "in one 60-bit number".
const NUMBER_BITS: usize = CODE_BITS * LONGEST_NAME;

/// Byte 0 of an entry.
const ENTRY: u8 = 2;
/// Where an entry's name lies: the bytes 9 to 19.
pub const NAME: usize = 9;
/// How many bytes that are.
pub const NAME_BYTES: usize = 11;

/// How names lie in entries. A request goes by one layout for the whole table.
#[derive(Debug, Clone, Copy, PartialEq, Eq)]
pub enum Layout {
    /// The table as it was before: "9 name length; 10-19 name".
    Old,
    /// "ten six-bit codes (byte less 32, blank padding 0) in one 60-bit number, first character highest, low byte first in bytes
    /// 10-17; byte 9 and 18-19 become zero."
    Six,
}

impl Layout {
    /// The name that bytes 9-19 hold; nothing where they are not as this layout has them.
    pub fn name(self, field: &[u8; NAME_BYTES]) -> Option<Vec<u8>> {
        let name = match self {
            Layout::Old => field[1..].get(..usize::from(field[0]))?.to_vec(),
            Layout::Six => {
                let [_, low @ .., _, _] = field;
                unpacked(u64::from_le_bytes(*low))?
            }
        };
        // what is past the name, or past the number, is zero: a name has one way to lie
        (self.field(&name) == *field).then_some(name)
    }

    /// Bytes 9-19 of an entry with this name, of ten characters at most; of a longer one they hold the first ten.
    pub fn field(self, name: &[u8]) -> [u8; NAME_BYTES] {
        let name = &name[..name.len().min(LONGEST_NAME)];
        let mut field = [0; NAME_BYTES];
        match self {
            Layout::Old => {
                field[0] = name.len() as u8;
                field[1..=name.len()].copy_from_slice(name);
            }
            Layout::Six => field[1..9].copy_from_slice(&packed(name).to_le_bytes()),
        }
        field
    }

    /// The layout that is not this one.
    fn other(self) -> Layout {
        match self {
            Layout::Old => Layout::Six,
            Layout::Six => Layout::Old,
        }
    }
}

/// A name as a number, its first character highest, blanks after its last.
pub fn packed(name: &[u8]) -> u64 {
    let code = |at: usize| {
        name.get(at)
            .map_or(0, |byte| byte.wrapping_sub(BLANK) & HIGHEST_CODE)
    };
    let joined = |number, at| number << CODE_BITS | u64::from(code(at));
    (0..LONGEST_NAME).fold(0, joined)
}

/// The name of a number, without the blanks after its last character; nothing where the number has more than 60 bits.
fn unpacked(number: u64) -> Option<Vec<u8>> {
    if number >> NUMBER_BITS != 0 {
        return None;
    }
    let code = |at: usize| (number >> (at * CODE_BITS)) as u8 & HIGHEST_CODE;
    let codes = (0..LONGEST_NAME).rev().map(code);
    let mut name: Vec<u8> = codes.map(|code| code + BLANK).collect();
    let last = name.iter().rposition(|byte| *byte != BLANK);
    name.truncate(last.map_or(0, |last| last + 1));
    Some(name)
}

/// The table of this layout in the other one, record by record; nothing where an entry's bytes 9-19 are not as this layout has
/// them, or hold a name that the other one has no room for. All else, an entry's other bytes too, is as it was, sound or not.
pub fn converted(from: Layout, table: &[u8]) -> Option<Vec<u8>> {
    let mut converted = table.to_vec();
    let records = converted.chunks_exact_mut(RECORD_BYTES);
    for entry in records.filter(|record| record[0] == ENTRY) {
        let field = entry[NAME..].first_chunk_mut()?;
        let name = from.name(field)?;
        *field = from.other().field(&name);
        from.other().name(field).filter(|after| *after == name)?;
    }
    Some(converted)
}

/// "Converting a sound old table": 0, and the table is the converted one; "others get 1 or 2 and stay".
#[must_use = "the table may be refused"]
pub fn to_six(table: &mut [u8]) -> u32 {
    convert(Layout::Old, table)
}

/// "and back": the same of a sound table of six-bit names.
#[must_use = "the table may be refused"]
pub fn from_six(table: &mut [u8]) -> u32 {
    convert(Layout::Six, table)
}

fn convert(from: Layout, table: &mut [u8]) -> u32 {
    if !length_fits(table) {
        return 1;
    }
    match converted(from, table).filter(|_| sound_in(from, table)) {
        None => 2,
        Some(converted) => {
            table.copy_from_slice(&converted);
            0
        }
    }
}
