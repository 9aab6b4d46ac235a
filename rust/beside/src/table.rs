//! The whole table, and the questions that are asked of it.

use crate::layout::Layout;
use crate::records::{
    Entry, Heading, Record, Text, Type, BASE_FILE, BLOCK, MOST_RECORDS, RECORD_BYTES,
};

/// "A record's number is its place, from 0."
#[derive(Debug, Clone)]
pub struct Table {
    records: Vec<Record>,
}

/// One store: the number of a record and what it becomes.
#[derive(Debug, Clone)]
pub struct Store {
    pub number: usize,
    pub record: Record,
}

/// Where entries stand: in the base list of a user, or in the directory of a heading.
#[derive(Debug, Clone, Copy, PartialEq, Eq, Hash)]
pub enum List {
    Base(u32),
    Directory(u16),
}

/// Not number 1: "table length no multiple of 32, or above 65,536".
pub fn length_fits(bytes: &[u8]) -> bool {
    let left_over = bytes.chunks_exact(RECORD_BYTES).remainder();
    left_over.is_empty() && bytes.len() <= MOST_RECORDS * RECORD_BYTES
}

/// How many text records hold so many bytes: "n/24 rounded up".
pub fn blocks(bytes: usize) -> usize {
    bytes.div_ceil(BLOCK)
}

/// The list that an entry stands in.
pub fn list_of(entry: &Entry) -> List {
    match entry.directory {
        BASE_FILE => List::Base(entry.user),
        heading => List::Directory(heading),
    }
}

impl Table {
    /// The records of the lent bytes; nothing when the length does not fit or a record is of no kind.
    pub fn read(layout: Layout, bytes: &[u8]) -> Option<Table> {
        if !length_fits(bytes) {
            return None;
        }
        let record = |part: &[u8]| Record::read(layout, part.try_into().ok()?);
        let records = bytes.chunks(RECORD_BYTES).map(record);
        Some(Table {
            records: records.collect::<Option<Vec<Record>>>()?,
        })
    }

    /// Make these stores.
    pub fn make(&mut self, stores: &[Store]) {
        for store in stores {
            if let Some(record) = self.records.get_mut(store.number) {
                *record = store.record.clone();
            }
        }
    }

    /// All records with their numbers.
    fn numbered(&self) -> impl Iterator<Item = (usize, &Record)> {
        self.records.iter().enumerate()
    }

    /// The numbers of the free records, the lowest first.
    pub fn free(&self) -> Vec<usize> {
        let free = |(number, record): (usize, &Record)| match record {
            Record::Free => Some(number),
            _ => None,
        };
        self.numbered().filter_map(free).collect()
    }

    /// All headings with their numbers.
    pub fn headings(&self) -> impl Iterator<Item = (u16, &Heading)> {
        self.numbered().filter_map(|(number, record)| match record {
            Record::Heading(heading) => Some((number as u16, heading)),
            _ => None,
        })
    }

    /// All entries with their numbers.
    pub fn entries(&self) -> impl Iterator<Item = (usize, &Entry)> {
        self.numbered().filter_map(|(number, record)| match record {
            Record::Entry(entry) => Some((number, entry)),
            _ => None,
        })
    }

    /// All text records with their numbers.
    pub fn texts(&self) -> impl Iterator<Item = (usize, &Text)> {
        self.numbered().filter_map(|(number, record)| match record {
            Record::Text(text) => Some((number, text)),
            _ => None,
        })
    }

    /// The heading of this number, if that record is one.
    pub fn heading(&self, number: u16) -> Option<&Heading> {
        match self.records.get(usize::from(number)) {
            Some(Record::Heading(heading)) => Some(heading),
            _ => None,
        }
    }

    /// Is the record of this number a heading of this type?
    pub fn is_of_type(&self, number: u16, file_type: Type) -> bool {
        self.heading(number)
            .is_some_and(|heading| heading.file_type == file_type)
    }

    /// The entries that stand in a list.
    pub fn entries_in(&self, list: List) -> impl Iterator<Item = (usize, &Entry)> {
        self.entries()
            .filter(move |(_, entry)| list_of(entry) == list)
    }

    /// The entry of this name in a list.
    pub fn find(&self, list: List, name: &[u8]) -> Option<(usize, &Entry)> {
        self.entries_in(list)
            .find(|(_, entry)| entry.name.as_slice() == name)
    }

    /// The numbers of the entries that name a heading, in order, and the lists that they stand in.
    pub fn entries_of(&self, heading: u16) -> (Vec<usize>, Vec<List>) {
        self.entries()
            .filter(|(_, entry)| entry.heading == heading)
            .map(|(number, entry)| (number, list_of(entry)))
            .unzip()
    }

    /// Is a heading named by some entry?
    pub fn is_named(&self, heading: u16) -> bool {
        self.entries().any(|(_, entry)| entry.heading == heading)
    }

    /// The heading of this number with true counts: "how many entries name it and, for a directory, how many it holds".
    pub fn counted(&self, number: u16) -> Option<Heading> {
        let heading = self.heading(number)?.clone();
        let names = |(_, entry): &(usize, &Entry)| entry.heading == number;
        let named = self.entries().filter(names).count() as u16;
        let holding = match heading.file_type {
            Type::Directory => self.entries_in(List::Directory(number)).count() as u16,
            Type::Simple => 0,
        };
        Some(Heading {
            named,
            holding,
            ..heading
        })
    }

    /// The text records of a file, by position.
    pub fn texts_of(&self, heading: u16) -> Vec<(usize, &Text)> {
        let mut texts: Vec<(usize, &Text)> = self
            .texts()
            .filter(|(_, text)| text.heading == heading)
            .collect();
        texts.sort_by_key(|(_, text)| text.position);
        texts
    }

    /// The content of a file.
    pub fn content(&self, heading: u16) -> Vec<u8> {
        let texts = self.texts_of(heading);
        texts
            .into_iter()
            .flat_map(|(_, text)| text.bytes.clone())
            .collect()
    }
}
