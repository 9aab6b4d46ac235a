//! The command `convert`: a table of the old layout, a byte for each character of a name, becomes one of six-bit names.
//!
//! Nothing is promised of a conversion that is cut. So a copy is converted, written beside the table's file and flushed, and takes the
//! file's name when it is whole: after a power cut the file is the old table or the new one.

use std::fs::{self, File};
use std::io;
use std::os::unix::fs::FileExt;
use std::path::{Path, PathBuf};

use filebox::{to_six, Number, Table, RECORD_BYTES};

use crate::disk::read;
use crate::kept::Wrong;
use crate::open::{cannot, flush_name, lock, locked, wrong};
use crate::tools::print;

/// Byte 0 of an entry.
const ENTRY: u8 = 2;

/// Convert the table in this file, and say what that did. One of six-bit names is left as it is.
pub fn convert(path: &Path) -> Result<u8, String> {
    let mut options = File::options();
    let file = locked(path, options.read(true).write(true))?;
    let old = read(&file).map_err(|error| cannot(path, "be read", &error))?;
    let mut six = old.clone();
    let said = match to_six(&mut six) {
        Number::Done if six != old => {
            // held to the end, so that nobody opens the new table before its name is flushed
            let _new = replace(path, &file, &six)?;
            converted(&old)
        }
        Number::Done => "no entries, so nothing to convert".to_string(),
        Number::TableLength => return Err(wrong(path, &Wrong::Length(old.len()))),
        _ if is_six(&old) => "names are six-bit already".to_string(),
        _ => return Err(neither(path)),
    };
    let records = old.len() / RECORD_BYTES;
    print(format!("{}: {records} records, {said}\n", path.display()).as_bytes())?;
    Ok(0)
}

/// Does mending make it a sound table of six-bit names?
fn is_six(table: &[u8]) -> bool {
    Table::of(table.to_vec()).mend().is_ok()
}

fn converted(table: &[u8]) -> String {
    let entries = table.chunks(RECORD_BYTES).filter(|r| r[0] == ENTRY);
    format!("converted to six-bit names, entries: {}", entries.count())
}

fn neither(path: &Path) -> String {
    format!(
        "{}: is no table: it is sound neither as an old one nor with six-bit names. It is as it was. Is it the right file? An old table that a power \
         cut left is first mended by the host that wrote it",
        path.display()
    )
}

/// Put these bytes in the file's place, under its name: the file that is there now, locked.
fn replace(path: &Path, old: &File, bytes: &[u8]) -> Result<File, String> {
    let whole = path
        .canonicalize()
        .map_err(|error| cannot(path, "be found", &error))?;
    let beside = beside(&whole);
    // what a conversion that was cut left there
    let _ = fs::remove_file(&beside);
    let new = File::options().write(true).create_new(true).open(&beside);
    let new = new.map_err(|error| cannot(&beside, "be made", &error))?;
    lock(&beside, new.try_lock())?;
    let replaced = fill(&new, old, bytes).and_then(|()| fs::rename(&beside, &whole));
    replaced.map_err(|error| {
        let _ = fs::remove_file(&beside);
        cannot(path, "be replaced by the new table", &error)
    })?;
    flush_name(&whole).map_err(|error| cannot(path, "be flushed", &error))?;
    Ok(new)
}

/// The name under which the new table is written: the file's own with an end to it.
fn beside(path: &Path) -> PathBuf {
    let mut name = path.file_name().unwrap_or_default().to_os_string();
    name.push(".converting");
    path.with_file_name(name)
}

/// These bytes, with the permissions of the old file, flushed.
fn fill(new: &File, old: &File, bytes: &[u8]) -> io::Result<()> {
    new.set_permissions(old.metadata()?.permissions())?;
    new.write_all_at(bytes, 0)?;
    new.sync_all()
}
