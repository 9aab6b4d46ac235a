//! A request told store by store: what each of its cuts leaves, and what that is mended to.

use super::*;

pub const UNCUT: u32 = 65_535;

/// The heading of a directory that so many entries name and that holds so many.
pub fn dir(named: u16, holding: u16) -> [u8; 32] {
    counts(directory(), named, holding)
}

/// The heading of a simple file of so many bytes that so many entries name.
pub fn file(length: u16, entries: u16) -> [u8; 32] {
    named(simple(length), entries)
}

/// A table of these records, which is sound.
pub fn bench(records: &[[u8; 32]]) -> Bench {
    assert!(sound(&records.concat()), "not sound to begin with");
    Bench::of(records.concat())
}

/// A store: a record's number and what it becomes.
pub type Store = (usize, [u8; 32]);

/// The table after these stores.
pub fn after(records: &[[u8; 32]], stores: &[Store]) -> Vec<[u8; 32]> {
    let mut after = records.to_vec();
    for (number, record) in stores {
        after[*number] = *record;
    }
    after
}

/// How many records differ.
pub fn differing(one: &[[u8; 32]], other: &[[u8; 32]]) -> u32 {
    let pairs = one.iter().zip(other);
    pairs.filter(|(one, other)| one != other).count() as u32
}

/// Mended, these records become those, by as many stores as differ; cut anywhere and run again too.
pub fn mends(records: &[[u8; 32]], mended: &[[u8; 32]]) {
    let needed = differing(records, mended);
    for stop in 0..=needed {
        let mut table = records.concat();
        let number = if stop < needed { 22 } else { 0 };
        let expected = answer([number, 0, 0, 0, 0, 0, stop]);
        assert_eq!(mend(&mut table, stop), expected);
        let left = answer([0, 0, 0, 0, 0, 0, needed - stop]);
        assert_eq!(mend(&mut table, UNCUT), left);
        assert_eq!(table, mended.concat());
    }
}

/// Mending makes these stores, in this order.
pub fn mends_by(records: &[[u8; 32]], stores: &[Store]) {
    for made in 0..=stores.len() {
        let mut table = records.concat();
        let number = if made < stores.len() { 22 } else { 0 };
        let expected = answer([number, 0, 0, 0, 0, 0, made as u32]);
        assert_eq!(mend(&mut table, made as u32), expected);
        assert_eq!(table, after(records, &stores[..made]).concat(), "{made}");
    }
    mends(records, &after(records, stores));
}

/// Mending answers 2, whatever the stop number, and leaves the table as found.
pub fn is_beyond_mending(records: &[[u8; 32]]) {
    for stop in [0, 1, UNCUT] {
        let mut table = records.concat();
        assert_eq!(mend(&mut table, stop), answer([2, 0, 0, 0, 0, 0, 0]));
        assert_eq!(table, records.concat());
    }
}

/// The names of a request, each with its stores, the last of which finds it done: each cut leaves the stores made and counts
/// the names done, and is mended to the table after the names whose store that counts was made, which is the `entry`-th of each
/// name's: the entry's, or of a DST the heading's.
pub fn told(
    records: &[[u8; 32]],
    line: &str,
    content: &[u8],
    displaced: u32,
    names: &[&[Store]],
    entry: usize,
) {
    let bench = bench(records);
    let all: Vec<Store> = names.concat();
    let mut stations = vec![records.to_vec()];
    for done in 1..=names.len() {
        stations.push(after(records, &names[..done].concat()));
    }
    let (mut done, mut of_name, mut station) = (0, 0, 0);
    for made in 0..all.len() {
        let seen = bench.stop(made as u32).ask(line, content);
        let cut = answer([22, 0, 0, done, 0, 0, made as u32]);
        assert_eq!(seen.answer, cut, "{line}, {made}");
        let left = after(records, &all[..made]);
        assert_eq!(seen.table, left.concat(), "{line}, {made}");
        mends(&left, &stations[station]);
        of_name += 1;
        station += usize::from(of_name == entry);
        if of_name == names[done as usize].len() {
            (done, of_name) = (done + 1, 0);
        }
    }
    let stores = all.len() as u32;
    for stop in [stores, stores + 1, u32::MAX] {
        let seen = bench.stop(stop).ask(line, content);
        let whole = answer([0, 0, 0, done, displaced, 0, stores]);
        assert_eq!(seen.answer, whole, "{line}");
        assert_eq!(seen.table, after(records, &all).concat(), "{line}");
        assert!(sound(&seen.table), "{line}: not sound after");
    }
}
