//! A table kept in a file, store by store, and its index in memory.

use std::fs::File;
use std::io;
use std::os::unix::fs::FileExt;
use std::path::Path;

use filebox::{Answer, Number, PADDING, RECORD_BYTES};

/// The file, and the table as the file has it. The index is one that mending has yet to build, at first.
pub struct Kept {
    file: File,
    table: Vec<u8>,
    index: Vec<u16>,
}

impl Kept {
    pub fn open(path: &Path) -> io::Result<Kept> {
        let table = std::fs::read(path)?;
        let file = File::options().write(true).open(path)?;
        let index = vec![PADDING; table.len() / RECORD_BYTES];
        Ok(Kept { file, table, index })
    }

    /// Make a call store by store: cut after one store, after two, and so on, each time from the table before with its index, which a
    /// cut leaves as it was, until it is no longer cut. What each store changed is written to the file before the next is made.
    pub fn call(
        &mut self,
        call: impl Fn(&mut [u8], &mut [u16], u32) -> Answer,
    ) -> io::Result<Answer> {
        let before = self.table.clone();
        let mut stop = 0;
        loop {
            stop += 1;
            let mut after = before.clone();
            let answer = call(&mut after, &mut self.index, stop);
            self.store(after)?;
            if answer.number != Number::Stopped {
                return Ok(answer);
            }
        }
    }

    /// One store: the one record that changed, by one write. A store that changes no byte writes none.
    fn store(&mut self, after: Vec<u8>) -> io::Result<()> {
        let pairs = self
            .table
            .chunks(RECORD_BYTES)
            .zip(after.chunks(RECORD_BYTES));
        let mut changed = pairs.enumerate().filter(|(_, (old, new))| old != new);
        if let Some((number, (_, record))) = changed.next() {
            let written = self.file.write_at(record, (number * RECORD_BYTES) as u64)?;
            assert_eq!(written, RECORD_BYTES, "a record is written whole");
        }
        assert!(changed.next().is_none(), "a store changes one record");
        self.table = after;
        Ok(())
    }
}
