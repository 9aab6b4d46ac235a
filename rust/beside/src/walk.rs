//! "Codes and walks": from a chain to a directory, or to a file.

use crate::names::Chain;
use crate::records::{Entry, Heading, Type};
use crate::table::{List, Table};

/// "A code is the sum of what is inhibited: execute 4, read 2, write 1." Execute inhibits nothing here.
const READ: u8 = 2;
const WRITE: u8 = 1;

/// Where a walk was refused: the number, 11, 12 or 13, and the link.
#[derive(Debug, Clone, Copy)]
pub struct Strayed {
    pub number: u32,
    pub link: usize,
}

/// A directory that was walked to, or the base list, with the code that applies to it.
#[derive(Debug, Clone, Copy)]
pub struct Directory {
    pub list: List,
    code: u8,
}

/// A file that was walked to: the directory that holds its entry, the entry, the heading, the code that applies.
#[derive(Debug)]
pub struct File {
    pub directory: Directory,
    pub entry_number: usize,
    pub entry: Entry,
    pub heading: Heading,
    code: u8,
}

impl Directory {
    /// "The base list is never inhibited."
    fn base(user: u32) -> Directory {
        Directory {
            list: List::Base(user),
            code: 0,
        }
    }

    /// Not number 14, for the directory that holds an entry.
    pub fn may_be_written(&self) -> bool {
        self.code & WRITE == 0
    }
}

impl File {
    /// Not number 13.
    pub fn may_be_read(&self) -> bool {
        self.code & READ == 0
    }

    /// Not number 14, for the file itself.
    pub fn may_be_written(&self) -> bool {
        self.code & WRITE == 0
    }
}

/// Follow one name, nothing where it is not there. "What applies to a file is the union of its heading's code and the code of the one entry
/// last followed; codes of earlier entries do not add up." In a sound table an entry names a heading.
fn follow(table: &Table, directory: Directory, name: &[u8]) -> Option<File> {
    let (entry_number, entry) = table.find(directory.list, name)?;
    let heading = table.heading(entry.heading)?;
    Some(File {
        directory,
        entry_number,
        entry: entry.clone(),
        heading: heading.clone(),
        code: heading.code | entry.code,
    })
}

/// The directory that holds, or would hold, the last name of a chain. "A name before the last must be a
/// directory not read-inhibited." What is refused is refused at the link of that name.
pub fn to_directory(table: &Table, user: u32, chain: &Chain) -> Result<Directory, Strayed> {
    let mut directory = Directory::base(user);
    for (link, name) in (1..).zip(&chain.before) {
        let strayed = |number| Strayed { number, link };
        let file = follow(table, directory, name).ok_or(strayed(11))?;
        if file.heading.file_type != Type::Directory {
            return Err(strayed(12));
        }
        if !file.may_be_read() {
            return Err(strayed(13));
        }
        directory = Directory {
            list: List::Directory(file.entry.heading),
            code: file.code,
        };
    }
    Ok(directory)
}

/// The file at the end of a chain.
pub fn to_file(table: &Table, user: u32, chain: &Chain) -> Result<File, Strayed> {
    let directory = to_directory(table, user, chain)?;
    follow(table, directory, chain.last).ok_or(Strayed {
        number: 11,
        link: chain.length(),
    })
}
