//! Sweeps: by the second program, on the old table too, and by the proved library; what they must store, told by passes over the bytes; and every cut of one, mended
//! and swept again.

use beside::sweep_in;

use super::told::{after, Store, UNCUT};
use super::*;

/// A sweep with the true index, which it keeps true: see `is_kept`.
pub fn sweep(table: &mut [u8], stop: u32) -> Answer {
    let lent = true_index(table);
    let mut index = lent.clone();
    let answer = sweep_with(table, &mut index, stop);
    is_kept(answer, &lent, &index, table);
    answer
}

/// A sweep with this index, made by both: answer, table and index must agree, and be as on the old table.
pub fn sweep_with(table: &mut [u8], index: &mut [u16], stop: u32) -> Answer {
    let (mut proved, mut old) = (Lent::of(table, index), Lent::of(table, index));
    let told = filebox::sweep(&mut proved.table, &mut proved.index, stop).numbers();
    let answer = beside::sweep(table, index, stop);
    assert_eq!(told, answer.numbers(), "the library: a sweep");
    proved.must_be(table, index, "a sweep");
    let as_old = |t: &mut [u8], x: &mut [u16]| sweep_in(Layout::Old, t, x, stop);
    if let Some(told) = old.on_the_old_table(as_old) {
        assert_eq!(told, answer, "the old table: a sweep");
        old.must_be(table, index, "a sweep on the old table");
    }
    answer
}

/// A sweep's answer: number and stores, zeros elsewhere.
pub fn swept(number: u32, stores: usize) -> Answer {
    answer([number, 0, 0, 0, 0, 0, stores as u32])
}

/// Two bytes of a record as a number.
fn two(record: &[u8], at: usize) -> u16 {
    u16::from_le_bytes([record[at], record[at + 1]])
}

/// Which headings are reached, by passes over all entries until one finds no more.
fn reached(records: &[[u8; 32]]) -> Vec<bool> {
    let mut reached = vec![false; records.len()];
    loop {
        let mut more = false;
        for entry in records.iter().filter(|record| record[0] == 2) {
            let (holder, named) = (two(entry, 2), usize::from(two(entry, 4)));
            let from = holder == 65_535 || reached[usize::from(holder)];
            more |= from && !reached[named];
            reached[named] |= from;
        }
        if !more {
            return reached;
        }
    }
}

/// The stores that a sweep of a sound table makes, by the words of document 02: entries, headings, text, counts.
pub fn due(records: &[[u8; 32]]) -> Vec<Store> {
    let reached = reached(records);
    let is_lost = |number: u16| number != 65_535 && !reached[usize::from(number)];
    let mut stores: Vec<Store> = Vec::new();
    for kind in [2, 1, 3] {
        let goes = |number: usize, record: &[u8; 32]| match kind {
            1 => is_lost(number as u16),
            _ => is_lost(two(record, 2)),
        };
        let of_kind = records.iter().enumerate().filter(|(_, r)| r[0] == kind);
        let gone = of_kind.filter(|(number, record)| goes(*number, record));
        stores.extend(gone.map(|(number, _)| (number, FREE)));
    }
    let cleared = after(records, &stores);
    let counted = counted(&cleared);
    let pairs = counted.into_iter().zip(&cleared).enumerate();
    let untrue = pairs.filter(|(_, (true_one, record))| true_one != *record);
    stores.extend(untrue.map(|(number, (true_one, _))| (number, true_one)));
    stores
}

/// A sweep of these records, which are sound, makes these stores, in this order, and exactly so many as its stop number allows. Each of its
/// cuts, mended and swept again, ends as it does uncut; swept once more, nothing changes.
pub fn sweeps_by(records: &[[u8; 32]], stores: &[Store]) {
    assert!(sound(&records.concat()), "not sound to begin with");
    assert_eq!(due(records), stores, "not what the document says");
    let uncut = after(records, stores).concat();
    for made in 0..stores.len() {
        let mut table = records.concat();
        assert_eq!(sweep(&mut table, made as u32), swept(22, made));
        assert_eq!(table, after(records, &stores[..made]).concat(), "{made}");
        ends_as(&table, &uncut);
    }
    for stop in [stores.len() as u32, stores.len() as u32 + 1, u32::MAX] {
        let mut table = records.concat();
        assert_eq!(sweep(&mut table, stop), swept(0, stores.len()));
        assert_eq!(table, uncut, "{stop}");
        assert!(sound(&table), "not sound after");
        assert_eq!(sweep(&mut table, stop.min(1)), swept(0, 0));
        assert_eq!(table, uncut, "swept once more");
    }
}

/// A cut sweep, mended and swept again: the table as of one uncut, wherever the mend is cut and run again, and wherever the second sweep is.
pub fn ends_as(cut: &[u8], uncut: &[u8]) {
    let mut mended = cut.to_vec();
    let needed = mend(&mut mended, UNCUT);
    assert_eq!(needed.number, 0, "a cut sweep is not mended");
    for stop in [0, needed.stores / 2, needed.stores.saturating_sub(1)] {
        let mut again = cut.to_vec();
        assert!([0, 22].contains(&mend(&mut again, stop).number));
        assert_eq!(mend(&mut again, UNCUT).number, 0);
        assert_eq!(again, mended, "a mend cut and run again");
    }
    let mut again = mended.clone();
    let left = sweep(&mut again, UNCUT);
    assert_eq!(left.number, 0);
    assert_eq!(again, uncut, "mended and swept again");
    if left.stores > 0 {
        let mut twice = mended.clone();
        assert_eq!(sweep(&mut twice, left.stores - 1).number, 22);
        assert_eq!(mend(&mut twice, UNCUT).number, 0);
        assert_eq!(sweep(&mut twice, UNCUT).number, 0);
        assert_eq!(twice, uncut, "cut twice");
    }
}
