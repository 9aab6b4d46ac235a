//! The tree of each user. A directory is drawn once: where it is named again, that is said, and where it is named inside
//! itself, that it is a loop.

use std::collections::{BTreeMap, BTreeSet};

use super::records::{records, Entry, Heading, Record, BASE};

/// The width of a name and what stands before it, in a tree that is not deep.
const WIDTH: usize = 32;

/// What is drawn, and what has been drawn.
struct Trees {
    headings: BTreeMap<u16, Heading>,
    entries: Vec<Entry>,
    drawn: BTreeSet<u16>,
    picture: String,
}

/// The trees of a sound table.
pub fn trees(table: &[u8]) -> String {
    let mut trees = Trees {
        headings: BTreeMap::new(),
        entries: Vec::new(),
        drawn: BTreeSet::new(),
        picture: String::new(),
    };
    for (number, record) in (0..).zip(records(table)) {
        match record {
            Record::Heading(heading) => drop(trees.headings.insert(number, heading)),
            Record::Entry(entry) => trees.entries.push(entry),
            Record::Free | Record::Text => (),
        }
    }
    trees
        .entries
        .sort_by(|one, other| one.name.cmp(&other.name));
    trees.users();
    trees.lost();
    trees.picture
}

impl Trees {
    /// The base files of every user that has any.
    fn users(&mut self) {
        let base = self.entries.iter().filter(|entry| entry.directory == BASE);
        let users: BTreeSet<u32> = base.map(|entry| entry.user).collect();
        if users.is_empty() {
            self.picture += "no user has a file\n\n";
        }
        for user in users {
            self.picture += &format!("user {user}\n");
            self.list(BASE, user, &mut Vec::new());
            self.picture += "\n";
        }
    }

    /// Directories that no base file reaches: they keep their room.
    fn lost(&mut self) {
        let numbers: Vec<u16> = self.headings.keys().copied().collect();
        for number in numbers {
            if self.headings[&number].directory && self.drawn.insert(number) {
                self.picture += &format!("no base file reaches the directory in record {number}\n");
                self.list(number, 0, &mut vec![number]);
                self.picture += "\n";
            }
        }
    }

    /// The entries of a directory, or of a user's base list, with this way to it.
    fn list(&mut self, directory: u16, user: u32, way: &mut Vec<u16>) {
        let there = |entry: &&Entry| entry.directory == directory && entry.user == user;
        let entries: Vec<Entry> = self.entries.iter().filter(there).cloned().collect();
        for entry in entries {
            self.entry(&entry, way);
        }
    }

    /// One entry's line, and what is in it.
    fn entry(&mut self, entry: &Entry, way: &mut Vec<u16>) {
        let Some(heading) = self.headings.get(&entry.heading).copied() else {
            return;
        };
        let name = format!("{:1$}{2}", "", 2 * (way.len() + 1), entry.name);
        let again = self.again(entry.heading, way).filter(|_| heading.directory);
        self.picture += &format!(
            "{name:WIDTH$} {}{}\n",
            said(entry, heading),
            again.unwrap_or("")
        );
        if heading.directory && self.drawn.insert(entry.heading) {
            way.push(entry.heading);
            self.list(entry.heading, 0, way);
            way.pop();
        }
    }

    /// What is said of a directory that is drawn already.
    fn again(&self, heading: u16, way: &[u16]) -> Option<&'static str> {
        match (way.contains(&heading), self.drawn.contains(&heading)) {
            (true, _) => Some(", a loop: it is above, on the way here"),
            (false, true) => Some(", drawn above"),
            (false, false) => None,
        }
    }
}

/// What an entry is: type, lifetime, level and code as LST shows them; the heading's own code; the length, or that the file is marked.
fn said(entry: &Entry, heading: Heading) -> String {
    let Heading {
        directory,
        level,
        code,
        lifetime,
        marked,
        length,
    } = heading;
    let kind = if directory { 'D' } else { 'F' };
    let own = match code {
        0 => String::new(),
        code => format!(", code of the file {code}"),
    };
    let long = match (directory, marked) {
        (true, _) => "directory".to_string(),
        (false, true) => "marked: a rewrite was cut".to_string(),
        (false, false) => format!("bytes {length}"),
    };
    format!("{kind}{lifetime}.{level}{} {long}{own}", entry.code)
}
