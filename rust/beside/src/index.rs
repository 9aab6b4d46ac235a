//! "A sorted name index": document 02, i. The list that is kept beside the table, and looking a name up through it.

use std::cmp::Ordering;

use crate::layout::{packed, Layout, NAME};
use crate::names::is_link_name;
use crate::records::{two_bytes, BASE_FILE, LONGEST_NAME, RECORD_BYTES};

/// "places after the last entry hold 65,535".
const PADDING: u16 = 65_535;
/// Byte 0 of an entry.
const ENTRY: u8 = 2;

/// "a lent list of entry record numbers, ordered by directory, then user, then name ... one place for each record of the table;
/// places after the last entry hold 65,535." Of a table that is not sound it is some list of that length, and nothing goes by it.
pub fn true_index(table: &[u8]) -> Vec<u16> {
    true_index_in(Layout::Six, table)
}

/// The same of a table whose names lie so.
pub fn true_index_in(layout: Layout, table: &[u8]) -> Vec<u16> {
    let records = table.chunks_exact(RECORD_BYTES);
    let places = records.len();
    let mut entries: Vec<(usize, &[u8])> = records.enumerate().collect();
    entries.retain(|(_, record)| record[0] == ENTRY);
    entries.sort_by_cached_key(|(_, entry)| order(layout, entry));
    let numbers = entries.into_iter().map(|(number, _)| number as u16);
    let mut index: Vec<u16> = numbers.collect();
    index.resize(places, PADDING);
    index
}

/// What an entry is ordered by: its directory, of which that of a base file is the highest; its user; the characters of its name, with
/// blanks after the last.
fn order(layout: Layout, entry: &[u8]) -> (u32, u32, Vec<u8>) {
    let directory = two_bytes(entry[2], entry[3]).into();
    let user = u32::from_le_bytes([entry[6], entry[7], entry[8], 0]);
    let field = entry[NAME..].first_chunk();
    let name = field.and_then(|field| layout.name(field));
    let mut characters = name.unwrap_or_default();
    characters.resize(LONGEST_NAME, b' ');
    (directory, user, characters)
}

/// 26, "exactly when the list's length or content differs from this".
pub fn is_true(layout: Layout, table: &[u8], index: &[u16]) -> bool {
    index == true_index_in(layout, table)
}

/// "mending judges only the length".
pub fn has_a_place_for_each(table: &[u8], index: &[u16]) -> bool {
    index.len() == table.chunks_exact(RECORD_BYTES).len()
}

/// "the mend that follows builds it afresh", and "Every request keeps the index true". The list has the right length by now.
pub fn build(layout: Layout, table: &[u8], index: &mut [u16]) {
    index.copy_from_slice(&true_index_in(layout, table));
}

/// The answer of a look-up.
#[derive(Debug, Clone, Copy, PartialEq, Eq)]
#[must_use]
pub struct Found {
    /// Was the name found?
    pub found: bool,
    /// The number of its entry, or 65,535.
    pub entry: u16,
    /// "the count in the answer": how many entries were looked at.
    pub count: u32,
}

impl Found {
    /// The three numbers: 1 for found and 0 for not, entry, count.
    pub fn numbers(self) -> [u32; 3] {
        [self.found.into(), self.entry.into(), self.count]
    }
}

/// What an entry is told by in a search: directory, user, and the name as a number.
type Key = (u32, u32, u64);

/// "Looking a name up through it": "a halving search that takes the lower middle and stops at equal", over the places before the
/// padding. The directory is that of a heading, or 65,535 for the base list of the user, who is not looked at otherwise. Whatever table and
/// list are lent it answers, and judges neither. A name that no entry can bear is not looked for.
pub fn look_up(table: &[u8], index: &[u16], heading: u32, user: u32, name: &[u8]) -> Found {
    let mut missed = Found {
        found: false,
        entry: PADDING,
        count: 0,
    };
    if !is_link_name(name) {
        return missed;
    }
    let is_base_list = heading == u32::from(BASE_FILE);
    let sought = (heading, if is_base_list { user } else { 0 }, packed(name));
    let mut places = used(index);
    while !places.is_empty() {
        let middle = (places.len() - 1) / 2;
        missed.count += 1;
        places = match key(table, places[middle]).cmp(&sought) {
            Ordering::Less => &places[middle + 1..],
            Ordering::Greater => &places[..middle],
            Ordering::Equal => {
                return Found {
                    found: true,
                    entry: places[middle],
                    ..missed
                }
            }
        };
    }
    missed
}

/// The places before the padding, whose first place is found by halving too: in a true index every place after it is padding.
fn used(index: &[u16]) -> &[u16] {
    let (mut low, mut past) = (0, index.len());
    while low < past {
        let middle = low + (past - low - 1) / 2;
        if index[middle] == PADDING {
            past = middle;
        } else {
            low = middle + 1;
        }
    }
    &index[..low]
}

/// The key of the record of this number, whatever it is. Bytes past the end of the table are zero.
fn key(table: &[u8], number: u16) -> Key {
    let from = table.get(usize::from(number) * RECORD_BYTES..);
    let record = from.unwrap_or_default();
    let byte = |at: usize| record.get(at).copied().unwrap_or(0);
    let joined = |from: usize, bytes: usize| {
        let high_first = (from..from + bytes).rev();
        high_first.fold(0, |number, at| number << 8 | u64::from(byte(at)))
    };
    (joined(2, 2) as u32, joined(6, 3) as u32, joined(10, 8))
}
