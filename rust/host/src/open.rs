//! A table's file: made or opened, and locked, so that one host has it at a time.

use std::fs::{metadata, File, Metadata, OpenOptions, TryLockError};
use std::io::{self, ErrorKind};
use std::os::unix::fs::{FileExt, MetadataExt};
use std::path::Path;

use filebox::{Answer, RECORD_BYTES};

use crate::disk::{read, TableFile};
use crate::kept::{Kept, Wrong};

/// The records of a table that is made, where nothing else is said: as many as document 01's program has.
const RECORDS: usize = 1_024;

/// Open the table in this file, with the lock, and mend it.
pub fn open(path: &Path) -> Result<(Kept<TableFile>, Answer), String> {
    let options = File::options().read(true).write(true).clone();
    kept(path, locked(path, &options)?)
}

/// The same, but a file that is not there, or is empty, is made: so many records, all free. Says whether it was made.
pub fn make_or_open(
    path: &Path,
    records: Option<usize>,
) -> Result<(Kept<TableFile>, Answer, bool), String> {
    let mut options = File::options();
    options.read(true).write(true).create(true).truncate(false);
    let file = locked(path, &options)?;
    let bytes = length(path, &file)?;
    let made = bytes == 0;
    if made {
        let free = vec![0; records.unwrap_or(RECORDS) * RECORD_BYTES];
        make(path, &file, &free).map_err(|error| cannot(path, "be made", &error))?;
    } else if let Some(records) = records.filter(|records| (records * RECORD_BYTES) as u64 != bytes)
    {
        let path = path.display();
        return Err(format!(
            "{path}: has {bytes} bytes, and not {records} records of 32. --records is for a new table: leave it out here"
        ));
    }
    let (kept, answer) = kept(path, file)?;
    Ok((kept, answer, made))
}

/// What the file holds, only read.
pub fn look(path: &Path) -> Result<Vec<u8>, String> {
    let file = opened(path, File::options().read(true))?;
    lock(path, file.try_lock_shared())?;
    is_still_there(path, &file)?;
    read(&file).map_err(|error| cannot(path, "be read", &error))
}

/// What is wrong with this file, and what to do.
pub fn wrong(path: &Path, wrong: &Wrong) -> String {
    let advice = match wrong {
        Wrong::OldNames => {
            let path = path.display();
            return format!(
                "{path}: {wrong}. It is as it was; `filebox-host convert {path}` brings it to six-bit names"
            );
        }
        Wrong::Length(_) => "Is it the right file? It is as it was",
        Wrong::NotSound => "Is it the right file? It is as it was; take the last good copy",
        Wrong::Disk(_) => "Look to the disk, then start again: the table is mended then",
    };
    format!("{}: {wrong}. {advice}", path.display())
}

fn kept(path: &Path, file: File) -> Result<(Kept<TableFile>, Answer), String> {
    Kept::open(TableFile::of(file)).map_err(|cause| wrong(path, &cause))
}

/// Open the file and take the lock on it.
pub fn locked(path: &Path, options: &OpenOptions) -> Result<File, String> {
    let file = opened(path, options)?;
    lock(path, file.try_lock())?;
    is_still_there(path, &file)?;
    Ok(file)
}

/// Does the name still lead to this file? A conversion may have put another in its place before the lock was taken.
fn is_still_there(path: &Path, file: &File) -> Result<(), String> {
    let place = |metadata: io::Result<Metadata>| metadata.map(|data| (data.dev(), data.ino())).ok();
    match place(metadata(path)) == place(file.metadata()) {
        true => Ok(()),
        false => Err(format!(
            "{}: another file was put in its place just now. Try again",
            path.display()
        )),
    }
}

fn opened(path: &Path, options: &OpenOptions) -> Result<File, String> {
    options.open(path).map_err(|error| match error.kind() {
        ErrorKind::NotFound => format!(
            "{0}: there is no such file. `filebox-host serve {0}` makes it, in a folder that is there",
            path.display()
        ),
        _ => cannot(path, "be opened", &error),
    })
}

pub fn lock(path: &Path, tried: Result<(), TryLockError>) -> Result<(), String> {
    tried.map_err(|error| match error {
        TryLockError::WouldBlock => format!(
            "{}: another host has this table. Ask that one, or end it first",
            path.display()
        ),
        TryLockError::Error(error) => cannot(path, "be locked", &error),
    })
}

fn length(path: &Path, file: &File) -> Result<u64, String> {
    let metadata = file
        .metadata()
        .map_err(|error| cannot(path, "be looked at", &error))?;
    Ok(metadata.len())
}

/// Make the table: its length first, so that a cut leaves an empty file or a whole table; then its room is taken, so that the
/// disk is not full later; then the file and its name are flushed. A file that cannot be made is left empty.
fn make(path: &Path, file: &File, free: &[u8]) -> io::Result<()> {
    file.set_len(free.len() as u64)?;
    let made = file.write_all_at(free, 0).and_then(|()| file.sync_all());
    made.and_then(|()| flush_name(path)).inspect_err(|_| {
        let _ = file.set_len(0);
    })
}

/// Flush the folder in which the file has its name.
pub fn flush_name(path: &Path) -> io::Result<()> {
    let path = path.canonicalize()?;
    path.parent()
        .map_or(Ok(()), |folder| File::open(folder)?.sync_all())
}

pub fn cannot(path: &Path, what: &str, error: &io::Error) -> String {
    let advice = match error.kind() {
        ErrorKind::PermissionDenied => ". May this user read and write it?",
        ErrorKind::StorageFull | ErrorKind::FileTooLarge | ErrorKind::QuotaExceeded => {
            ". The disk is full: make room first"
        }
        _ => ". A table is an ordinary file that can be read and written",
    };
    format!("{}: cannot {what}: {error}{advice}", path.display())
}
