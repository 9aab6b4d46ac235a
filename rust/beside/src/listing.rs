//! The lines of a listing.

use crate::records::{Entry, Level, Lifetime, Type};
use crate::table::{List, Table};

/// "one line an entry, names in ascending byte order, a name before its longer continuations".
pub fn listing(table: &Table, mut entries: Vec<&Entry>) -> Vec<u8> {
    entries.sort_by(|one, other| one.name.cmp(&other.name));
    let line = |entry| line(table, entry);
    entries.into_iter().flat_map(line).collect()
}

/// "type, lifetime, point, level, the entry's code, four blanks, name, bytes 13 and 10."
fn line(table: &Table, entry: &Entry) -> Vec<u8> {
    let Some(heading) = table.heading(entry.heading) else {
        return Vec::new();
    };
    let mut line = vec![
        match heading.file_type {
            Type::Directory => b'D',
            Type::Simple => b'F',
        },
        match heading.lifetime {
            Lifetime::M => b'M',
            Lifetime::L => b'L',
        },
        b'.',
        match heading.level {
            Level::U => b'U',
            Level::P => b'P',
            Level::A => b'A',
            Level::S => b'S',
        },
        b'0' + entry.code,
    ];
    line.extend_from_slice(b"    ");
    line.extend_from_slice(&entry.name);
    line.extend_from_slice(&[13, 10]);
    line
}

/// "Read-inhibited directories show their own line only": is this entry a directory that its heading and itself let read?
fn is_readable_directory(table: &Table, entry: &Entry) -> bool {
    let heading = table.heading(entry.heading);
    heading.is_some_and(|h| h.file_type == Type::Directory && (h.code | entry.code) & 2 == 0)
}

/// "lists a directory and, under each entry that is a readable directory, its entries, down to the digit's depth": nothing where the
/// lines do not fit into so many bytes. A directory that names itself has more lines than anyone can write, so it ends there.
pub fn tree(table: &Table, entries: Vec<&Entry>, depth: u8, room: usize) -> Option<Vec<u8>> {
    let mut tree = Tree {
        table,
        room,
        lines: Vec::new(),
    };
    tree.directory(entries, 0, depth).then_some(tree.lines)
}

/// The lines so far, and the bytes that they may take.
struct Tree<'a> {
    table: &'a Table,
    room: usize,
    lines: Vec<u8>,
}

impl<'a> Tree<'a> {
    /// The lines of these entries, so many levels below the first and down to so many more; whether they fit.
    fn directory(&mut self, mut entries: Vec<&'a Entry>, below: usize, depth: u8) -> bool {
        entries.sort_by(|one, other| one.name.cmp(&other.name));
        let mut entries = entries.into_iter();
        entries.all(|entry| self.entry(entry, below, depth))
    }

    /// An entry's line, "two blanks more in front for each level", and the lines under it; whether they fit.
    fn entry(&mut self, entry: &Entry, below: usize, depth: u8) -> bool {
        self.lines.extend("  ".repeat(below).bytes());
        self.lines.extend(line(self.table, entry));
        if self.lines.len() > self.room {
            return false;
        }
        if depth == 1 || !is_readable_directory(self.table, entry) {
            return true;
        }
        let under = self.table.entries_in(List::Directory(entry.heading));
        let under = under.map(|(_, entry)| entry).collect();
        self.directory(under, below + 1, depth - 1)
    }
}
