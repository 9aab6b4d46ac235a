//! What the host asks of a disk, and the file that is one.

use std::fs::File;
use std::io::{self, Read, Seek, SeekFrom};
use std::os::unix::fs::FileExt;

use filebox::{MOST_RECORDS, RECORD_BYTES};

/// The bytes of the longest table.
pub const MOST_BYTES: usize = MOST_RECORDS * RECORD_BYTES;

/// A disk that holds a table. It may keep writes back and let them land in any order until it is flushed; a record of 32
/// bytes lands whole or not at all.
pub trait Disk {
    /// All that it holds, writes that it keeps back included; of more than a table has, one byte more at least.
    fn read(&mut self) -> io::Result<Vec<u8>>;
    /// Write a record at its place.
    fn write(&mut self, record: usize, bytes: &[u8]) -> io::Result<()>;
    /// Return when every write before has landed.
    fn flush(&mut self) -> io::Result<()>;
}

/// A table's file.
pub struct TableFile(File);

impl TableFile {
    /// The file, open for reading and writing. Whoever opened it has the lock.
    pub fn of(file: File) -> TableFile {
        TableFile(file)
    }
}

impl Disk for TableFile {
    fn read(&mut self) -> io::Result<Vec<u8>> {
        read(&self.0)
    }

    fn write(&mut self, record: usize, bytes: &[u8]) -> io::Result<()> {
        self.0.write_all_at(bytes, (record * RECORD_BYTES) as u64)
    }

    fn flush(&mut self) -> io::Result<()> {
        self.0.sync_data()
    }
}

/// What a file holds, from its start; of a file that is too long for a table, one byte more than a table has.
pub fn read(mut file: &File) -> io::Result<Vec<u8>> {
    let mut bytes = Vec::new();
    file.seek(SeekFrom::Start(0))?;
    file.take(MOST_BYTES as u64 + 1).read_to_end(&mut bytes)?;
    Ok(bytes)
}
