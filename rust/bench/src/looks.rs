//! Looking a name up by the index beside the plain scan of a walk, in a table of 2,047 entries: the 112 names of a directory, and as many that are not
//! there. The scan goes over every record that it must; looking up goes over the list to where its entries end, and then halves it.

use std::hint::black_box;

use filebox::{look_up, Table, RECORD_BYTES};
use turns::nanoseconds;

use crate::tables::{index, USER};

const RECORDS: usize = 2_048;
const IN_DIRECTORY: usize = 112;
/// Every so many records there is an entry of the directory.
const APART: usize = 18;
/// The record of the directory's heading.
const DIRECTORY: u16 = 0;
const ENTRY: u8 = 2;
/// How many times what the scan takes looking up may take: of names that are there, half the table on average, and of names that are not.
const BARS: [f64; 2] = [0.5, 0.5];

/// The names of the directory.
fn names() -> Vec<String> {
    (0..IN_DIRECTORY)
        .map(|n| format!("N{:03}", n * 37 % IN_DIRECTORY))
        .collect()
}

/// One directory, `.T` of the user, which every entry names: 112 that stand in it, spread over the table, and base files of others, four each.
pub fn full() -> Vec<u8> {
    let mut table = Table::free(RECORDS);
    let mut ask = |user, line: String| {
        let answer = table.request(user, &line, &[], &mut []);
        assert!(answer.granted().is_ok(), "{line}: {}", answer.number);
    };
    ask(USER, "CRD .T".to_string());
    let (mut names, mut based) = (names().into_iter(), 0);
    for at in 0..RECORDS - 2 {
        let name = if at % APART == 0 { names.next() } else { None };
        if let Some(name) = name {
            ask(USER, format!("DUP .T .T:{name}"));
            continue;
        }
        let base = [".R", ".W", ".G", ".T"][based % 4];
        // a take: what stands in the user's own `.T`
        ask(
            USER + 1 + based as u32 / 4,
            format!("DUP .{USER:06}:N000 {base}"),
        );
        based += 1;
    }
    table.into_bytes()
}

/// The number of a name: ten codes of six bits, the first character highest.
pub fn packed(name: &str) -> u64 {
    let characters = name.bytes().chain([b' '; 10]).take(10);
    characters.fold(0, |number, byte| number << 6 | u64::from(byte - 32))
}

/// The scan as the box makes it: the first record that is an entry with this directory, this user and this name's number.
fn scan(table: &[u8], directory: u16, user: u32, name: u64) -> Option<u16> {
    let number = |record: &[u8]| {
        record[10..18]
            .iter()
            .rev()
            .fold(0, |n, byte| n << 8 | u64::from(*byte))
    };
    let bears = |record: &[u8]| {
        record[0] == ENTRY
            && u16::from_le_bytes([record[2], record[3]]) == directory
            && u32::from_le_bytes([record[6], record[7], record[8], 0]) == user
            && number(record) == name
    };
    let found = table.chunks_exact(RECORD_BYTES).position(bears);
    found.map(|record| record as u16)
}

/// The least nanoseconds that a name takes by the index and by the scan, in turns.
fn times(names: &[String], there: bool, turns: usize) -> [f64; 2] {
    let table = full();
    let index = index(&table);
    let by_index = || {
        for name in names {
            let (table, name) = (black_box(&table), black_box(name.as_bytes()));
            let found = look_up(table, &index, DIRECTORY.into(), 0, name);
            assert_eq!(found.entry.is_some(), there);
        }
    };
    let by_scan = || {
        for name in names {
            let (table, name) = (black_box(&table), packed(black_box(name)));
            assert_eq!(scan(table, DIRECTORY, 0, name).is_some(), there);
        }
    };
    let mut least = [f64::MAX; 2];
    for _ in 0..turns {
        least[0] = least[0].min(nanoseconds(by_index));
        least[1] = least[1].min(nanoseconds(by_scan));
    }
    least.map(|time| time / names.len() as f64)
}

/// The times of both, and their ratio; is it within its bar?
pub fn bench(turns: usize) -> bool {
    let others: Vec<String> = names().iter().map(|name| format!("{name}X")).collect();
    let kinds = [("there", names(), true), ("not there", others, false)];
    println!("\nLooking up a name in a directory of {IN_DIRECTORY} among 2,047 entries:");
    let mut within = true;
    for ((said, names, there), bar) in kinds.into_iter().zip(BARS) {
        let [look_up, scan] = times(&names, there, turns);
        let ratio = look_up / scan;
        println!("{said}: {look_up:.0} ns; the plain scan: {scan:.0} ns; {ratio:.2} times, and the bar is {bar}.");
        within &= ratio <= bar;
    }
    within
}

#[cfg(test)]
mod tests {
    use super::*;

    #[test]
    fn both_find_every_name_and_no_other() {
        let table = full();
        let index = index(&table);
        let entries = table
            .chunks(RECORD_BYTES)
            .filter(|record| record[0] == ENTRY);
        assert_eq!(entries.count(), 2_047);
        for number in 0..IN_DIRECTORY + 20 {
            let name = format!("N{number:03}");
            let found = look_up(&table, &index, DIRECTORY.into(), 0, name.as_bytes());
            assert_eq!(found.entry, scan(&table, DIRECTORY, 0, packed(&name)));
            assert_eq!(found.entry.is_some(), number < IN_DIRECTORY);
            assert!(found.count <= 11, "{name}: {found:?}");
        }
    }
}
