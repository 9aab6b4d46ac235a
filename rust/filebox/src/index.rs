//! The index of a table: its entries in the order of directory, user and name; and looking a name up by it.

use crate::answer::{Answer, Refused};
use crate::library::{look_up, mend};
use crate::number::Number;
use crate::table::{Table, RECORD_BYTES};

/// What stands in every place of an index after the last entry. A table of free records has it in all places.
pub const PADDING: u16 = 65_535;
/// The directory of base files, which belong to a user.
pub const BASE: u32 = 65_535;

/// Where a name is looked up.
#[derive(Debug, Clone, Copy, PartialEq, Eq, Hash)]
pub enum Holder {
    /// In the base list of this user.
    Base(u32),
    /// In the directory whose heading is in this record. (No table has a record 65,535: that would be user 0's base list.)
    Directory(u16),
}

impl Holder {
    /// The directory's number and the user.
    fn numbers(self) -> (u32, u32) {
        match self {
            Holder::Base(user) => (BASE, user),
            Holder::Directory(heading) => (heading.into(), 0),
        }
    }
}

/// What looking a name up came to.
#[derive(Debug, Clone, Copy, PartialEq, Eq, Hash)]
pub struct Found {
    /// The record number of the entry that bears the name, if one does.
    pub entry: Option<u16>,
    /// The entries looked at, a comparison each: at most 12.
    pub count: u32,
}

impl Found {
    /// The three numbers: found as 0 or 1, the entry or 65,535, the count.
    pub fn numbers(self) -> [u32; 3] {
        let found = u32::from(self.entry.is_some());
        [found, self.entry.unwrap_or(PADDING).into(), self.count]
    }
}

/// What looking a name up came to, as the library hands it over.
#[repr(C)]
#[derive(Clone, Copy)]
pub(crate) struct ThreeNumbers {
    found: u32,
    entry: u32,
    count: u32,
}

impl From<ThreeNumbers> for Found {
    /// The proved library finds an entry that is a number of the list, or none and says 65,535. Another library would panic here.
    fn from(three: ThreeNumbers) -> Found {
        let entry = match (three.found, u16::try_from(three.entry)) {
            (0, Ok(PADDING)) => None,
            (1, Ok(entry)) => Some(entry),
            (found, _) => panic!("found {found} with entry {}", three.entry),
        };
        let count = three.count;
        Found { entry, count }
    }
}

/// The index of a sound table, built by a mend that may store nothing. A table of a length that does not fit gets 1, one that is not sound 2,
/// also where a mend would make it sound.
///
/// ```
/// use filebox::{index_of, Table, PADDING};
///
/// let mut table = Table::free(4);
/// table.ask(1, "CRD .R").unwrap();
/// table.ask(1, "DUP .R .R:LOOP").unwrap();
/// // `LOOP` is in the directory in record 0, `.R` in the base list, which comes last
/// assert_eq!(index_of(table.as_ref()).unwrap(), [2, 1, PADDING, PADDING]);
/// assert_eq!(index_of(&[7; 32]).unwrap_err().to_string(), "2: table not sound");
/// ```
pub fn index_of(table: &[u8]) -> Result<Vec<u16>, Refused> {
    let mut index = vec![PADDING; table.len() / RECORD_BYTES];
    let answer = mend(&mut table.to_vec(), &mut index, 0);
    match answer.number {
        Number::Stopped => Err(Refused::unasked(Number::TableNotSound, 0)),
        _ => answer.granted().map(|_: Answer| index),
    }
}

impl<B: AsMut<[u8]>> Table<B> {
    /// Look a name up by the index: the record number of the entry that bears it, and how many entries were looked at, at most 12 whatever the
    /// table holds. A table that no request takes is refused by the same number, 1 or 2. What is no link name is borne by no entry.
    ///
    /// ```
    /// use filebox::{Holder, Table};
    ///
    /// let mut table = Table::free(16);
    /// table.ask(1, "CRD .R").unwrap();
    /// table.file(1, "M", ".R:LIMITS", b"5.0 V").unwrap();
    /// let directory = table.look_up(Holder::Base(1), ".R").unwrap().entry.expect("it is there");
    /// // an entry has the number of the heading that it names in bytes 4 and 5
    /// let record = &table.as_ref()[usize::from(directory) * 32..][..32];
    /// let heading = u16::from_le_bytes([record[4], record[5]]);
    /// let limits = table.look_up(Holder::Directory(heading), "LIMITS").unwrap();
    /// assert_eq!((limits.entry, limits.count), (Some(4), 1));
    /// assert_eq!(table.look_up(Holder::Directory(heading), "KEYS").unwrap().entry, None);
    /// ```
    pub fn look_up(&mut self, holder: Holder, name: &str) -> Result<Found, Refused> {
        self.build()?;
        let (bytes, index) = self.lent();
        let (heading, user) = holder.numbers();
        Ok(look_up(bytes, index, heading, user, name.as_bytes()))
    }
}

#[cfg(test)]
mod tests {
    use super::*;

    fn handed(found: u32, entry: u32, count: u32) -> [u32; 3] {
        let three = ThreeNumbers {
            found,
            entry,
            count,
        };
        Found::from(three).numbers()
    }

    #[test]
    fn what_the_library_hands_over_is_handed_on() {
        for three in [[1, 0, 1], [1, 2_047, 11], [0, 65_535, 0], [0, 65_535, 12]] {
            let [found, entry, count] = three;
            assert_eq!(handed(found, entry, count), three);
        }
    }

    #[test]
    #[should_panic(expected = "found 0 with entry 7")]
    fn an_entry_that_was_not_found_is_none() {
        handed(0, 7, 1);
    }
}
