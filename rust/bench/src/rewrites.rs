//! A rewrite beside a WRS over the same file: both leave a text of the same length in the place of another, by 2,002 stores and by 2,005.

use crate::operations::times;

const RECORDS: usize = 2_048;
/// How many times what a WRS over the file takes its rewrite may take.
const BAR: f64 = 1.5;

/// The least times of both, in turns, and their ratio; is it within the bar?
pub fn bench(turns: usize) -> bool {
    let [rewrite, over] = times(["rewrite", "wrs-over"], RECORDS, turns);
    let ratio = rewrite / over;
    println!("\nWRS* of 24,000 bytes onto 24,000 at {RECORDS} records: {rewrite:.1} µs; WRS over the same file: {over:.1} µs; {ratio:.2} times, and the bar is {BAR}.");
    ratio <= BAR
}

#[cfg(test)]
mod tests {
    use crate::tables::{long_text, with_room_for_another, USER};
    use filebox::Table;

    #[test]
    fn both_file_the_same_text() {
        for records in [256, 512, 1024, 2048] {
            let text = vec![b'N'; long_text(records).len()];
            let blocks = text.len() as u32 / 24;
            for (line, stores) in [("WRS* M .R:LONG", 2), ("WRS M .R:LONG", 5)] {
                let mut table = Table::of(with_room_for_another(records));
                let answer = table.request(USER, line, &text, &mut []);
                assert_eq!(
                    answer.granted().map(|answer| answer.stores),
                    Ok(stores + 2 * blocks)
                );
                assert_eq!(table.sheet(USER, ".R:LONG").as_ref(), Ok(&text));
            }
        }
    }
}
