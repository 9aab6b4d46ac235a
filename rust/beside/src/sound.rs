//! "A table is sound when": a function for each sentence.

use std::collections::{HashMap, HashSet};

use crate::entries::{MOST_BASE_FILES, MOST_ENTRIES};
use crate::layout::Layout;
use crate::names::{is_base_name, is_link_name};
use crate::records::{Lifetime, Type, BASE_FILE, BLOCK};
use crate::request::LONGEST_TEXT;
use crate::table::{blocks, list_of, List, Table};

/// "a base file's user is at most 999,999".
pub const HIGHEST_USER: u32 = 999_999;

/// Is the table sound? A length that number 1 refuses is not.
pub fn sound(bytes: &[u8]) -> bool {
    sound_in(Layout::Six, bytes)
}

/// The same of a table whose names lie so.
pub fn sound_in(layout: Layout, bytes: &[u8]) -> bool {
    // "every record is as above"
    Table::read(layout, bytes).is_some_and(|table| is_sound(&table))
}

/// All that goes beyond a single record.
pub fn is_sound(table: &Table) -> bool {
    directories_are_directories(table)
        && files_named_are_there(table)
        && users_fit(table)
        && names_are_legal(table)
        && no_name_stands_twice(table)
        && every_heading_is_named(table)
        && no_list_is_too_long(table)
        && directories_are_medium_and_empty(table)
        && marked_files_are_empty(table)
        && every_text_has_its_place(table)
        && every_simple_file_is_whole(table)
        && counts_are_true(table)
}

/// "each entry's directory is a directory heading or 65,535".
fn directories_are_directories(table: &Table) -> bool {
    table.entries().all(|(_, entry)| {
        entry.directory == BASE_FILE || table.is_of_type(entry.directory, Type::Directory)
    })
}

/// "each entry names a heading".
fn files_named_are_there(table: &Table) -> bool {
    table
        .entries()
        .all(|(_, entry)| table.heading(entry.heading).is_some())
}

/// "a base file's user is at most 999,999 and any other entry's user bytes are zero".
fn users_fit(table: &Table) -> bool {
    table
        .entries()
        .all(|(_, entry)| match entry.directory == BASE_FILE {
            true => entry.user <= HIGHEST_USER,
            false => entry.user == 0,
        })
}

/// "names are legal".
fn names_are_legal(table: &Table) -> bool {
    table.entries().all(|(_, entry)| {
        is_link_name(&entry.name) && (entry.directory != BASE_FILE || is_base_name(&entry.name))
    })
}

/// "no directory, and no one user's base list, has a name twice".
fn no_name_stands_twice(table: &Table) -> bool {
    let mut met = HashSet::new();
    table
        .entries()
        .all(|(_, entry)| met.insert((list_of(entry), &entry.name)))
}

/// "every heading is named by an entry".
fn every_heading_is_named(table: &Table) -> bool {
    let named: HashSet<u16> = table.entries().map(|(_, entry)| entry.heading).collect();
    table.headings().all(|(number, _)| named.contains(&number))
}

/// "a directory has at most 112 entries and a user at most 100 base files".
fn no_list_is_too_long(table: &Table) -> bool {
    let mut lengths: HashMap<List, usize> = HashMap::new();
    for (_, entry) in table.entries() {
        *lengths.entry(list_of(entry)).or_default() += 1;
    }
    lengths.into_iter().all(|(list, length)| match list {
        List::Base(_) => length <= MOST_BASE_FILES,
        List::Directory(_) => length <= MOST_ENTRIES,
    })
}

/// "a directory has lifetime M and length 0".
fn directories_are_medium_and_empty(table: &Table) -> bool {
    table.headings().all(|(_, heading)| {
        heading.file_type == Type::Simple
            || (heading.lifetime == Lifetime::M && heading.length == 0)
    })
}

/// "A marked file, simple, M, length 0, is sound": no other heading is marked.
fn marked_files_are_empty(table: &Table) -> bool {
    table.headings().all(|(_, heading)| {
        let empty = heading.file_type == Type::Simple
            && heading.lifetime == Lifetime::M
            && heading.length == 0;
        empty || !heading.marked
    })
}

/// How many bytes the text of a file of this length holds at a position: "24 bytes in each but the last, which
/// holds the rest"; nothing past the last.
fn held_at(length: usize, position: usize) -> Option<usize> {
    match position < blocks(length) {
        true => Some(BLOCK.min(length - position * BLOCK)),
        false => None,
    }
}

/// "there is no other text": each text is of a simple file, in a position that this file has, with as many bytes
/// as that position holds, and no position stands twice.
fn every_text_has_its_place(table: &Table) -> bool {
    let mut met = HashSet::new();
    table.texts().all(|(_, text)| {
        let held = match table.heading(text.heading) {
            Some(heading) if heading.file_type == Type::Simple => {
                held_at(heading.length.into(), text.position.into())
            }
            _ => None,
        };
        held == Some(text.bytes.len()) && met.insert((text.heading, text.position))
    })
}

/// "a simple file of length n (at most 24,000) has each text position from 0 up to n/24 rounded up, less one".
fn every_simple_file_is_whole(table: &Table) -> bool {
    let texts: HashSet<(u16, usize)> = table
        .texts()
        .map(|(_, text)| (text.heading, text.position.into()))
        .collect();
    table.headings().all(|(number, heading)| {
        let length = usize::from(heading.length);
        let has = |position| texts.contains(&(number, position));
        heading.file_type == Type::Directory
            || (length <= LONGEST_TEXT && (0..blocks(length)).all(has))
    })
}

/// "A heading now stores how many entries name it .. and, for a directory, how many it holds .. Soundness says that both
/// are true."
fn counts_are_true(table: &Table) -> bool {
    let (mut named, mut holding) = (HashMap::new(), HashMap::new());
    for (_, entry) in table.entries() {
        *named.entry(entry.heading).or_default() += 1;
        if let List::Directory(directory) = list_of(entry) {
            *holding.entry(directory).or_default() += 1;
        }
    }
    let count = |counts: &HashMap<u16, u16>, number| counts.get(&number).copied().unwrap_or(0);
    table.headings().all(|(number, heading)| {
        heading.named == count(&named, number) && heading.holding == count(&holding, number)
    })
}
