//! What befalls an entry: a new one, one overwritten in place, one cleared; and the file that it named.

use std::collections::BTreeSet;

use crate::records::{Entry, Heading, Record, Type, BASE_FILE};
use crate::request::{refusal, Place, Refusal};
use crate::table::{List, Store, Table};
use crate::walk::Directory;

/// "a directory has at most 112 entries".
pub const MOST_ENTRIES: usize = 112;
/// "a user at most 100 base files".
pub const MOST_BASE_FILES: usize = 100;

/// A new name: the directory that it was walked to, and the entry that already bears it.
#[derive(Debug)]
pub struct NewName<'a> {
    pub directory: Directory,
    pub name: &'a [u8],
    /// The number of the entry that bears the name, and of the heading that this entry names.
    pub displaced: Option<(usize, u16)>,
    /// The place of what befalls its directory or the displaced file: its last link.
    pub place: Place,
}

/// Refuse with this number and place, unless the test holds.
pub fn check(test: bool, number: u32, place: Place) -> Result<(), Refusal> {
    match test {
        true => Ok(()),
        false => Err(refusal(number, place)),
    }
}

/// A record cleared.
pub fn cleared(number: usize) -> Store {
    Store {
        number,
        record: Record::Free,
    }
}

/// Has the list no place for one more entry?
fn is_full(table: &Table, list: List) -> bool {
    let most = match list {
        List::Base(_) => MOST_BASE_FILES,
        List::Directory(_) => MOST_ENTRIES,
    };
    table.entries_in(list).count() >= most
}

/// Number 18: without this entry, is its file a directory with entries that no entry names?
pub fn strands_entries(table: &Table, entry_number: usize, heading: u16) -> bool {
    let named_by_another = table
        .entries()
        .any(|(number, entry)| number != entry_number && entry.heading == heading);
    let has_entries = table.entries_in(List::Directory(heading)).next().is_some();
    !named_by_another && table.is_of_type(heading, Type::Directory) && has_entries
}

/// "Each function corrects every heading whose counts its entry store made untrue (the file named, the file displaced, the
/// holder), one store each, by record number, after that entry store and before any clearing; counts still true get no
/// store." Adds these stores to those up to the last entry's; the lists are those that the entries stand in, and a base list has no
/// count. Of a DST the files named are gone, and "the holders' counts" alone are left.
pub fn recount(table: &Table, stores: &mut Vec<Store>, files: &[u16], lists: &[List]) {
    let mut after = table.clone();
    after.make(stores);
    let mut headings = BTreeSet::from_iter(files.iter().copied());
    headings.extend(lists.iter().filter_map(|list| match list {
        List::Directory(holder) => Some(*holder),
        List::Base(_) => None,
    }));
    for number in headings {
        let untrue = |heading: &Heading| after.heading(number) != Some(heading);
        stores.extend(after.counted(number).filter(untrue).map(|heading| Store {
            number: number.into(),
            record: Record::Heading(heading),
        }));
    }
}

/// "After an entry is displaced or cleared, if its file is now named by no entry: its heading cleared, then its
/// text by position." Adds these stores to those that displaced or cleared the entry.
pub fn settle(table: &Table, stores: &mut Vec<Store>, heading: u16) {
    let mut after = table.clone();
    after.make(stores);
    if after.is_named(heading) {
        return;
    }
    stores.push(cleared(usize::from(heading)));
    for (number, _) in table.texts_of(heading) {
        stores.push(cleared(number));
    }
}

impl NewName<'_> {
    /// The entry of this name, with this code, naming this heading.
    pub fn entry(&self, code: u8, heading: u16) -> Entry {
        let (directory, user) = match self.directory.list {
            List::Base(user) => (BASE_FILE, user),
            List::Directory(directory) => (directory, 0),
        };
        Entry {
            code,
            directory,
            heading,
            user,
            name: self.name.to_vec(),
        }
    }

    /// Numbers 17, 18 and 19 for this name; then the numbers of so many new records and, last, of the entry.
    ///
    /// "New records take the lowest free records of the table before the request, in the order of the stores.
    /// An entry already bearing the new name is overwritten in place (displaced)." If the new entry names an
    /// old file, that file loses nothing.
    pub fn numbers(
        &self,
        table: &Table,
        records: usize,
        old_file: Option<u16>,
    ) -> Result<Vec<usize>, Refusal> {
        let mut numbers = table.free();
        match self.displaced {
            None => {
                check(!is_full(table, self.directory.list), 17, self.place)?;
                check(numbers.len() > records, 19, Place::NONE)?;
                numbers.truncate(records + 1);
            }
            Some((entry_number, heading)) => {
                let lost = old_file != Some(heading);
                let stranded = lost && strands_entries(table, entry_number, heading);
                check(!stranded, 18, self.place)?;
                check(numbers.len() >= records, 19, Place::NONE)?;
                numbers.truncate(records);
                numbers.push(entry_number);
            }
        }
        Ok(numbers)
    }
}
