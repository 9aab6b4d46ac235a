//! Names of different lengths: a walk of nine links in a full directory whose names begin like the one that is sought and are
//! longer, beside the same walk where they have its length. A name is one number, so that both compare as many numbers; and the bytes that
//! were compared while names stood byte by byte.

use filebox::{from_six, Number};

use crate::operations::times;
use crate::tables::grown;

/// The entries of the directory, as many as it may have.
const ENTRIES: usize = 112;
/// How many times what the walk among names of one length takes the other may take: the work is the same, and times vary.
const BAR: f64 = 1.1;
/// The requests: eight links that name the directory itself, and one that names a file of 24 bytes.
pub const OTHER_LENGTHS: &str =
    "RDS .R:LIMITS0:LIMITS0:LIMITS0:LIMITS0:LIMITS0:LIMITS0:LIMITS0:LIMITS0:LIMITS";
pub const ONE_LENGTH: &str =
    "RDS .R:LIMIT00:LIMIT00:LIMIT00:LIMIT00:LIMIT00:LIMIT00:LIMIT00:LIMIT00:LIMIT01";

/// A full directory: these names, then the two of a request, each looked for past all before it.
fn full(records: usize, request: &str, name: fn(usize) -> String) -> Vec<u8> {
    let sought = links(request);
    let loops = (0..ENTRIES - 2).map(name).chain([sought[0].to_string()]);
    let loops = loops.map(|name| (format!("DUP .R .R:{name}"), Vec::new()));
    let directory = ("CRD .R".to_string(), Vec::new());
    let file = (format!("WRS M .R:{}", sought[8]), vec![b'S'; 24]);
    let lines = [directory].into_iter().chain(loops).chain([file]);
    grown(records, lines).into_bytes()
}

/// Names of 8 to 10 characters, and sought are one of 7 and one of 6.
pub fn of_other_lengths(records: usize) -> Vec<u8> {
    full(records, OTHER_LENGTHS, |n| format!("LIMITS0{}", n + 1))
}

/// Names of 7 characters.
pub fn of_one_length(records: usize) -> Vec<u8> {
    full(records, ONE_LENGTH, |n| format!("LIMIT{:02X}", n + 2))
}

/// The links of a request past its base name.
fn links(request: &str) -> Vec<&str> {
    request.split(':').skip(1).collect()
}

/// Whether two names are the same, and how many of their bytes were compared.
type Compare = fn(&[u8], &[u8]) -> (bool, usize);

/// Byte by byte, up to where they differ or one ends; the lengths only then.
fn bytes_first(a: &[u8], b: &[u8]) -> (bool, usize) {
    let shorter = a.len().min(b.len());
    for at in 0..shorter {
        if a[at] != b[at] {
            return (false, at + 1);
        }
    }
    (a.len() == b.len(), shorter)
}

/// As the library did before names were numbers: of names of different lengths no byte.
fn lengths_first(a: &[u8], b: &[u8]) -> (bool, usize) {
    if a.len() != b.len() {
        return (false, 0);
    }
    bytes_first(a, b)
}

/// The names of the entries of record 0, by record number, read in the old layout.
fn entries(table: &[u8]) -> Vec<Vec<u8>> {
    let mut old = table.to_vec();
    assert_eq!(from_six(&mut old), Number::Done);
    let inside = |record: &&[u8]| record[0] == 2 && record[2..4] == [0, 0];
    let name = |record: &[u8]| record[10..10 + usize::from(record[9])].to_vec();
    old.chunks(32).filter(inside).map(name).collect()
}

/// The bytes that a walk compares: at each link, entry by entry up to the one that bears its name.
fn compared(table: &[u8], request: &str, compare: Compare) -> usize {
    let entries = entries(table);
    let looked = |link: &str| {
        let mut bytes = 0;
        for entry in &entries {
            let (same, more) = compare(link.as_bytes(), entry);
            bytes += more;
            if same {
                break;
            }
        }
        bytes
    };
    links(request).into_iter().map(looked).sum()
}

/// The bytes compared, and the times and their ratio; is it within the bar?
pub fn bench(turns: usize) -> bool {
    let (other, one) = (of_other_lengths(128), of_one_length(128));
    println!("\nNine links in a directory of {ENTRIES} names, each a number. Bytes compared in the old layout, lengths first, and bytes first: of names of other lengths");
    println!(
        "{}, {}; of names of one length {}, {}.",
        compared(&other, OTHER_LENGTHS, lengths_first),
        compared(&other, OTHER_LENGTHS, bytes_first),
        compared(&one, ONE_LENGTH, lengths_first),
        compared(&one, ONE_LENGTH, bytes_first)
    );
    let mut within = true;
    for records in [128, 2048] {
        let [other, one] = times(["walk", "walk-alike"], records, turns);
        let ratio = other / one;
        println!("At {records} records: other lengths {other:.1} µs, one length {one:.1} µs; {ratio:.2} times, and the bar is {BAR}.");
        within &= ratio <= BAR;
    }
    within
}

#[cfg(test)]
mod tests {
    use super::*;
    use crate::tables::USER;
    use filebox::Table;

    /// Every name of up to four letters out of two.
    fn short_names() -> Vec<Vec<u8>> {
        let of = |letters: u32| (0..1u32 << letters).map(move |n| (letters, n));
        let name =
            |(letters, n): (u32, u32)| (0..letters).map(move |at| b'A' + (n >> at & 1) as u8);
        let names = (0..=4).flat_map(of);
        names.map(|one| name(one).collect()).collect()
    }

    #[test]
    fn both_comparisons_are_equality() {
        for a in short_names() {
            for b in short_names() {
                assert_eq!(bytes_first(&a, &b).0, a == b);
                assert_eq!(lengths_first(&a, &b).0, a == b);
                assert!(lengths_first(&a, &b).1 <= bytes_first(&a, &b).1);
            }
        }
    }

    #[test]
    fn each_walk_goes_past_a_full_directory() {
        for (table, request) in [
            (of_other_lengths(128), OTHER_LENGTHS),
            (of_one_length(128), ONE_LENGTH),
        ] {
            assert_eq!(entries(&table).len(), ENTRIES);
            assert_eq!(links(request).len(), 9);
            let mut table = Table::of(table);
            let one_more = table.request(USER, "DUP .R .R:MORE", &[], &mut []);
            assert_eq!(one_more.number, Number::ListFull);
            let mut reply = [0; 24];
            let answer = table.request(USER, request, &[], &mut reply);
            assert_eq!((answer.number, reply), (Number::Done, [b'S'; 24]));
        }
    }

    #[test]
    fn of_names_of_other_lengths_no_byte_is_compared() {
        let table = of_other_lengths(128);
        let sought = 8 * 7 + 6;
        assert_eq!(compared(&table, OTHER_LENGTHS, lengths_first), sought);
        // the last link goes past the other sought name too
        let others = (8 * 7 + 6) * (ENTRIES - 2) + 6;
        let all = compared(&table, OTHER_LENGTHS, bytes_first);
        assert_eq!(all, others + sought);
        let table = of_one_length(128);
        let first = compared(&table, ONE_LENGTH, lengths_first);
        assert_eq!(first, compared(&table, ONE_LENGTH, bytes_first));
    }
}
