//! A part of a sheet beside a sheet of its length: 24 bytes near the end of the long file, out of two blocks, beside a file of 24
//! bytes in the same table, for which judging table and index takes the same time.

use filebox::{request, Number, NO_STOP};
use turns::nanoseconds;

use crate::operations::times;
use crate::tables::{index, long_text, with_long_file, USER};

const RECORDS: usize = 2_048;
const BYTES: usize = 24;
/// Bytes of the text after the part.
const AFTER: usize = 6;
/// How many times what the sheet takes beside the judge its part may take.
const BAR: f64 = 1.2;

/// The line that reads the part.
pub fn part_of_long(records: usize) -> String {
    let first = long_text(records).len() - BYTES - AFTER;
    format!("RDS .R:LONG {first:o} {BYTES:o}")
}

/// The least microseconds of a line that is refused before its name is looked up: the judge's, of table and index.
fn judged(turns: usize) -> f64 {
    let mut table = with_long_file(RECORDS);
    let mut index = index(&table);
    let mut refused = || {
        let (table, index) = (&mut table, &mut index);
        let answer = request(table, index, b"RDS", &[], &mut [], USER, NO_STOP);
        assert_eq!(answer.number, Number::WrongCount);
    };
    let times = (0..turns).map(|_| nanoseconds(&mut refused));
    times.fold(f64::MAX, f64::min) / 1000.0
}

/// The least times of both, in turns, and their ratio, with the judge and beside it; is the latter within the bar?
pub fn bench(turns: usize) -> bool {
    let [part, sheet] = times(["rds-part", "rds-beside"], RECORDS, turns);
    let judge = judged(turns);
    let (ratio, beside) = (part / sheet, (part - judge) / (sheet - judge));
    println!("\nRDS of {BYTES} bytes out of 24,000 at {RECORDS} records: {part:.1} µs; of a sheet of {BYTES} bytes: {sheet:.1} µs; {ratio:.2} times, and");
    println!("beside the judge, {judge:.1} µs of both, {beside:.2} times; the bar of the latter is {BAR}.");
    beside <= BAR
}

#[cfg(test)]
mod tests {
    use super::*;
    use filebox::Table;

    #[test]
    fn the_part_is_as_long_as_the_sheet() {
        for records in [256, 512, 1024, 2048] {
            let mut table = Table::of(with_long_file(records));
            for (line, byte) in [(&part_of_long(records)[..], b'L'), ("RDS .R:F12", b'S')] {
                let mut reply = [0; BYTES];
                let answer = table.request(USER, line, &[], &mut reply);
                assert_eq!((answer.number, reply), (Number::Done, [byte; BYTES]));
            }
        }
    }
}
