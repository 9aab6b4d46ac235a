//! Trees: one of 126 lines, a loop that fills the buffer, and a directory that is full of entries that name it, whose tree of eight
//! levels has more than 10 to the sixteenth lines: it is refused by 20 as soon as the buffer is passed.

use filebox::{request, Number, LONGEST_TEXT, NO_STOP};
use turns::nanoseconds;

use crate::tables::{grown, index, USER};

const RECORDS: usize = 2_048;
const IN_DIRECTORY: usize = 112;
/// The milliseconds that the refusal may take.
const BAR: f64 = 5.0;

/// The table after these lines, with no text.
fn linked(records: usize, lines: impl Iterator<Item = String>) -> Vec<u8> {
    grown(records, lines.map(|line| (line, Vec::new()))).into_bytes()
}

/// `.TOP` holds one directory, this one 25, and each of these four sheets without text.
pub fn tree(records: usize) -> Vec<u8> {
    let first = [".TOP", ".TOP:TREE"].map(|name| format!("CRD {name}"));
    let directories = (10..35).map(|number| format!(".TOP:TREE:D{number}"));
    let filled = directories.flat_map(|name| {
        let sheets = (0..4).map(|number| format!("WRS M {name}:S{number}"));
        let lines: Vec<String> = [format!("CRD {name}")].into_iter().chain(sheets).collect();
        lines
    });
    linked(records, first.into_iter().chain(filled))
}

/// `.R` holds 27 sheets with names of four characters and, three times, with three characters, itself: on four levels 40 times 30
/// lines, which are 24,000 bytes.
pub fn full_of_loops(records: usize) -> Vec<u8> {
    let first = ["CRD .R", "WRS M .R:S100"].map(String::from);
    let sheets = (101..127).map(|number| format!("DUP .R:S100 .R:S{number}"));
    let loops = (10..13).map(|number| format!("DUP .R .R:L{number}"));
    linked(records, first.into_iter().chain(sheets).chain(loops))
}

/// `.R` holds itself as often as it can.
fn knotted(records: usize) -> Vec<u8> {
    let loops = (0..IN_DIRECTORY).map(|number| format!("DUP .R .R:N{number}"));
    linked(records, ["CRD .R".to_string()].into_iter().chain(loops))
}

/// The least time of the refusal; is it within the bar?
pub fn bench(turns: usize) -> bool {
    let (mut table, mut reply) = (knotted(RECORDS), vec![0; LONGEST_TEXT]);
    let mut index = index(&table);
    let mut refused = || {
        let (table, index) = (&mut table, &mut index);
        let answer = request(table, index, b"LST* .R 8", &[], &mut reply, USER, NO_STOP);
        assert_eq!(answer.number, Number::ReplyTooShort);
    };
    let times = (0..turns).map(|_| nanoseconds(&mut refused));
    let least = times.fold(f64::MAX, f64::min) / 1_000_000.0;
    println!("\nLST* of {IN_DIRECTORY} entries that name their own directory, to depth 8, refused by 20 at {RECORDS} records: {least:.3} ms; the bar is {BAR} ms.");
    least <= BAR
}

#[cfg(test)]
mod tests {
    use super::*;
    use filebox::Table;

    #[test]
    fn trees_are_as_long_as_said() {
        let mut reply = vec![0; LONGEST_TEXT];
        for records in [256, 512, 1024, 2048] {
            let mut table = Table::of(tree(records));
            let lines = table.tree(USER, ".TOP", 3, &mut reply).expect("it fits");
            assert_eq!(lines.iter().filter(|byte| **byte == 10).count(), 126);
            let mut table = Table::of(full_of_loops(records));
            let lines = table.tree(USER, ".R", 4, &mut reply).expect("it fits");
            assert_eq!(lines.len(), 24_000);
            assert_eq!(lines.iter().filter(|byte| **byte == 10).count(), 1_200);
        }
        assert!(bench(1));
    }
}
