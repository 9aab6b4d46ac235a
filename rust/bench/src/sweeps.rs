//! Sweeps beside the judge of the same table and index: where nothing is lost, and of a chain of directories as long as a table holds, each with its way
//! on and its way back to the first, reached from a base file or lost.

use filebox::{request, sweep, Number, Table, NO_STOP, RECORD_BYTES};
use turns::nanoseconds;

use crate::looks::{full, packed};
use crate::tables::{hundred, index, USER};

const RECORDS: usize = 2_048;
/// Directories of three records each.
const DEEP: usize = 680;
/// How many times what the judge takes a sweep may take: where nothing is lost, and of the chain.
const BAR: f64 = 3.0;
const DEEP_BAR: f64 = 60.0;

/// The heading of a directory, its counts yet to be made true.
const DIRECTORY: [u8; 5] = [1, 0, 0, 0, 1];

/// An entry of this name, for a base file's of the user.
fn entry(holder: u16, heading: u16, name: &str) -> [u8; RECORD_BYTES] {
    let mut record = [0; RECORD_BYTES];
    record[0] = 2;
    record[2..4].copy_from_slice(&holder.to_le_bytes());
    record[4..6].copy_from_slice(&heading.to_le_bytes());
    if holder == u16::MAX {
        record[6] = USER as u8;
    }
    record[10..18].copy_from_slice(&packed(name).to_le_bytes());
    record
}

/// A chain of directories, each in the one before, from the last records to the first, so that a look at all entries by record number meets the next
/// directory last; the last one holds the first. A base file names the first, or none does.
fn deep(is_lost: bool) -> Vec<u8> {
    let mut records = [[0; RECORD_BYTES]; RECORDS];
    let heading = |number: usize| (3 * (DEEP - 1 - number % DEEP)) as u16;
    for number in 0..DEEP {
        let own = heading(number);
        let at = usize::from(own);
        records[at][..DIRECTORY.len()].copy_from_slice(&DIRECTORY);
        records[at + 1] = entry(own, heading(number + 1), "ON");
        records[at + 2] = entry(own, heading(0), "UP");
    }
    if !is_lost {
        records[3 * DEEP] = entry(u16::MAX, heading(0), ".R");
    }
    let mut table = Table::of(records.concat());
    let mended = table.mend().expect("the counts are made true");
    assert_eq!(mended.stores, DEEP as u32);
    table.into_bytes()
}

/// The least microseconds of a sweep of a table, which makes so many stores, and of its judge, in turns: of a line that is refused before its name
/// is looked up.
fn times(before: &[u8], stores: u32, turns: usize) -> [f64; 2] {
    let index_before = index(before);
    let (mut table, mut list) = (before.to_vec(), index_before.clone());
    let mut least = [f64::MAX; 2];
    for _ in 0..turns {
        table.copy_from_slice(before);
        list.copy_from_slice(&index_before);
        least[1] = least[1].min(nanoseconds(|| {
            let refused = request(&mut table, &mut list, b"RDS", &[], &mut [], USER, NO_STOP);
            assert_eq!(refused.number, Number::WrongCount);
        }));
        least[0] = least[0].min(nanoseconds(|| {
            let swept = sweep(&mut table, &mut list, NO_STOP);
            assert_eq!((swept.number, swept.stores), (Number::Done, stores));
        }));
    }
    least.map(|nanoseconds| nanoseconds / 1000.0)
}

/// The times of both, and their ratio; is it within its bar?
pub fn bench(turns: usize) -> bool {
    println!("\nA sweep of {RECORDS} records, beside the judge of the same table and index:");
    let all = 3 * DEEP as u32;
    let mut within = true;
    for (said, table, stores, bar) in [
        ("a hundred files, nothing lost", hundred(RECORDS), 0, BAR),
        ("2,047 entries, nothing lost", full(), 0, BAR),
        ("680 directories deep, reached", deep(false), 0, DEEP_BAR),
        ("680 directories deep, lost", deep(true), all, DEEP_BAR),
    ] {
        let [sweep, judge] = times(&table, stores, turns);
        let ratio = sweep / judge;
        println!("{said}: {sweep:.1} µs; the judge: {judge:.1} µs; {ratio:.2} times, and the bar is {bar}.");
        within &= ratio <= bar;
    }
    within
}

#[cfg(test)]
mod tests {
    use super::*;

    #[test]
    fn the_chain_stays_or_goes_whole() {
        let mut reached = Table::of(deep(false));
        assert_eq!(reached.sweep(NO_STOP).map(|answer| answer.stores), Ok(0));
        assert_eq!(reached.as_ref(), deep(false));
        let mut lost = Table::of(deep(true));
        assert_eq!(lost.sweep(NO_STOP).map(|answer| answer.stores), Ok(2_040));
        assert_eq!(lost, Table::free(RECORDS));
    }
}
