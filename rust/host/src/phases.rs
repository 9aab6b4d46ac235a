//! One step of a request on the disk: what may land together, and where a flush stands between.

use std::io;

use filebox::disk::{phase, Phase};
use filebox::RECORD_BYTES;

use crate::disk::Disk;
use crate::steps::Step;

/// Byte 0 of a text record.
const TEXT: u8 = 3;

/// Write one step on the table before it, phase after phase, a flush after each; a phase without a record has no flush. Cut anywhere,
/// with any part of what was not flushed on the disk, mending gives the table before or after; of a rewrite, from its first
/// phase to its last, the table after with that one file marked and empty; of a sweep a table that, swept again, is the one after.
pub fn write(disk: &mut impl Disk, before: &[u8], step: &Step) -> io::Result<()> {
    match step {
        Step::Whole(after) => write_whole(disk, before, after.as_ref()),
        Step::Rewrite([marked, filled, after]) => {
            write_differing(disk, before, marked.as_ref())?;
            write_differing(disk, marked.as_ref(), filled.as_ref())?;
            write_differing(disk, filled.as_ref(), after.as_ref())
        }
        Step::Destroy([headless, after]) => {
            write_differing(disk, before, headless.as_ref())?;
            write_differing(disk, headless.as_ref(), after.as_ref())
        }
        Step::Sweep(after) => write_swept(disk, before, after.as_ref()),
    }
}

/// First the records that were free, then the entry, then the records that are freed and the headings whose counts alone are others.
fn write_whole(disk: &mut impl Disk, before: &[u8], after: &[u8]) -> io::Result<()> {
    let records = after.chunks(RECORD_BYTES).enumerate();
    let differing: Vec<(Phase, usize, &[u8])> = records
        .map(|(number, record)| (phase(before, after, number), number, record))
        .filter(|(phase, ..)| *phase != Phase::Same)
        .collect();
    for now in [Phase::First, Phase::Entry, Phase::Last] {
        let of_now = differing.iter().filter(|(phase, ..)| *phase == now);
        write_all(disk, of_now.map(|(_, number, record)| (*number, *record)))?;
    }
    Ok(())
}

/// Of a sweep: first the entries and headings, cleared or counted anew, then the text. Text that went before its heading would leave a file
/// that mending does not make sound.
fn write_swept(disk: &mut impl Disk, before: &[u8], after: &[u8]) -> io::Result<()> {
    for now in [false, true] {
        let was_text = |number: usize| before[number * RECORD_BYTES] == TEXT;
        let of_now = differing(before, after).filter(|(number, _)| was_text(*number) == now);
        write_all(disk, of_now)?;
    }
    Ok(())
}

/// Write what differs, which may land in any order: one flush. What mending cleared or counted anew, or one phase of a rewrite or of a DST.
pub fn write_differing(disk: &mut impl Disk, before: &[u8], after: &[u8]) -> io::Result<()> {
    write_all(disk, differing(before, after))
}

/// The records that differ, by number, as they are after.
fn differing<'a>(before: &'a [u8], after: &'a [u8]) -> impl Iterator<Item = (usize, &'a [u8])> {
    let old = before.chunks(RECORD_BYTES);
    let new = after.chunks(RECORD_BYTES);
    let pairs = new.enumerate().zip(old);
    pairs
        .filter(|((_, new), old)| new != old)
        .map(|(new, _)| new)
}

/// Write these records, and flush if there is one.
pub fn write_all<'a>(
    disk: &mut impl Disk,
    records: impl Iterator<Item = (usize, &'a [u8])>,
) -> io::Result<()> {
    let mut written = false;
    for (number, record) in records {
        disk.write(number, record)?;
        written = true;
    }
    match written {
        true => disk.flush(),
        false => Ok(()),
    }
}
