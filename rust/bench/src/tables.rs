//! The tables of the bench: four directories, files of 24 bytes in them, and perhaps one long file.

use filebox::{index_of, Table, PADDING, RECORD_BYTES};

/// The base names of the four directories.
const DIRECTORIES: [&str; 4] = [".R", ".W", ".G", ".T"];
const IN_DIRECTORY: usize = 25;
/// Records left free for what a request stores, besides a long text.
const SPARE: usize = 16;
pub const USER: u32 = 1;

/// The blocks of the long file: two such files, three more records and the directories nearly fill the table. 1,000 of
/// 2,048 records.
fn long_blocks(records: usize) -> usize {
    (records - 48) / 2
}

/// The text of the long file: 24,000 bytes in 2,048 records.
pub fn long_text(records: usize) -> Vec<u8> {
    vec![b'L'; long_blocks(records) * 24]
}

/// The table after these lines, each with its text.
pub fn grown(records: usize, lines: impl Iterator<Item = (String, Vec<u8>)>) -> Table {
    let mut table = Table::free(records);
    for (line, text) in lines {
        let answer = table.request(USER, &line, &text, &mut []);
        assert!(answer.granted().is_ok(), "{line}: {}", answer.number);
    }
    table
}

/// Four directories, perhaps a long file, and so many files of 24 bytes, a hundred at most, the first directory's first.
fn filled(records: usize, long: bool, files: usize) -> Vec<u8> {
    let directories = DIRECTORIES.map(|name| (format!("CRD {name}"), Vec::new()));
    let long = long.then(|| ("WRS M .R:LONG".to_string(), long_text(records)));
    let name = |n: usize| format!("{}:F{:02}", DIRECTORIES[n / IN_DIRECTORY], n % IN_DIRECTORY);
    let files = files.min(DIRECTORIES.len() * IN_DIRECTORY);
    let small = (0..files).map(|n| (format!("WRS M {}", name(n)), vec![b'S'; 24]));
    grown(records, directories.into_iter().chain(long).chain(small)).into_bytes()
}

/// The files of three records each that leave so many records free beside the directories.
fn fitting(records: usize, taken: usize) -> usize {
    (records - 2 * DIRECTORIES.len() - taken) / 3
}

/// A hundred files, or as many as there is room for.
pub fn hundred(records: usize) -> Vec<u8> {
    filled(records, false, fitting(records, SPARE))
}

/// A long file among as many.
pub fn with_long_file(records: usize) -> Vec<u8> {
    let long = long_blocks(records) + 2;
    filled(records, true, fitting(records, long + SPARE))
}

/// A long file, room for its successor, and as many files as that leaves room for.
pub fn with_room_for_another(records: usize) -> Vec<u8> {
    let two = 2 * long_blocks(records) + 3;
    filled(records, true, fitting(records, two))
}

/// A directory in which a file has 111 names: room for one more entry.
pub fn crowded(records: usize) -> Vec<u8> {
    let first = ["CRD .R", "WRS M .R:F00"].map(|line| (line.to_string(), vec![b'S'; 24]));
    let links = (1..111).map(|n| (format!("DUP .R:F00 .R:F{n:02}"), Vec::new()));
    grown(records, first.into_iter().chain(links)).into_bytes()
}

/// A hundred files, and a WRS that was cut in its text.
pub fn cut(records: usize) -> Vec<u8> {
    let mut table = Table::of(hundred(records));
    let answer = table.stopped(USER, "WRS M .R:CUT", &[b'C'; 240], &mut [], 8);
    assert_eq!(answer.number, filebox::Number::Stopped);
    table.into_bytes()
}

/// The index of a table; of one that is cut, a list that mending has yet to build.
pub fn index(table: &[u8]) -> Vec<u16> {
    index_of(table).unwrap_or_else(|_| vec![PADDING; table.len() / RECORD_BYTES])
}
