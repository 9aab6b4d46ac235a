//! A table on a disk that keeps writes back until it is flushed, and may make them in any order: when to write which record.
//!
//! A host lends a request a copy of the table. If it is granted, the records that differ are written by their phases: every
//! [`Phase::First`], a flush, the one [`Phase::Entry`], a flush, every [`Phase::Last`], a flush. Within a phase any order will do,
//! and whatever part of it is on the disk when the power fails, mending gives the table before or the table after, byte for
//! byte: the table after once the entry is there. A DEL of several names is written name by name. Counts need no flush: a heading in which they
//! alone are others is of the last phase, and may be written at any time.
//!
//! A DST has two phases, which the tables before and after do not tell, since there it is the heading that counts: what differs between the table
//! before and the one at stop number 1 (the heading, cleared), a flush, then all else that differs, in any order, a flush. Of several names it is
//! written name by name.
//!
//! A `WRS*` is written by stop numbers, since old and new text may share a record: what differs between the table before and the one
//! at stop number 1 (the heading, marked), a flush, what differs from there to the table at one store fewer than it takes (all text), a
//! flush, the heading as it is after, a flush. Cut anywhere, it is mended to one of the two tables, or to the table after with that one
//! file marked and empty.
//!
//! A sweep has two phases, which the table before it tells: what differs and was no text, so that entries and headings are cleared, a flush, then what
//! differs and was text, a flush. Cut anywhere, it is mended to a table that, swept again, is the one after.
//!
//! ```
//! use filebox::disk::{phase, Phase};
//! use filebox::Table;
//!
//! let before = Table::free(4);
//! let mut after = before.clone();
//! after.file(1, "M", ".R", b"5.0 V").unwrap();
//! let phases = [0, 1, 2, 3].map(|record| phase(before.as_ref(), after.as_ref(), record));
//! assert_eq!(phases, [Phase::First, Phase::First, Phase::Entry, Phase::Same]);
//!
//! // another entry of the file: the entry, and then its heading, for the count
//! let before = after.clone();
//! after.ask(1, "DUP .R .G").unwrap();
//! let phases = [0, 1, 2, 3].map(|record| phase(before.as_ref(), after.as_ref(), record));
//! assert_eq!(phases, [Phase::Last, Phase::Same, Phase::Same, Phase::Entry]);
//! ```

/// When a record is written.
#[derive(Debug, Clone, Copy, PartialEq, Eq, PartialOrd, Ord, Hash)]
pub enum Phase {
    /// It is the same before and after: never.
    Same,
    /// It is free before and no entry after: a new file's heading, with the count that it has after, and text.
    First,
    /// It is an entry before or after, or, for DPR, the heading: the write that counts. There is at most one.
    Entry,
    /// It is free after: what was displaced or deleted; or a heading in which the counts alone are others.
    Last,
}

/// The phase of a record, by the tables before and after a granted request but `WRS*` and DST (for a DEL: before and after one name).
/// [`Phase::Same`] for two tables of different lengths, and for a record that is not wholly there.
pub fn phase(before: &[u8], after: &[u8], record: usize) -> Phase {
    match crate::library::disk_phase(before, after, record) {
        0 => Phase::Same,
        1 => Phase::First,
        2 => Phase::Entry,
        3 => Phase::Last,
        other => panic!("a phase is 0 to 3, not {other}"),
    }
}
