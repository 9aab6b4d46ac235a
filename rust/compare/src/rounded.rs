//! How often each branch of mending in rounds was met: entries that stand in no heading, and trees that go round by round.

use std::collections::BTreeSet;

use crate::branches::Branches;
use crate::case::{Case, Outcome};
use crate::records::{count, differing, is_adrift, is_lost, rounds, two, BASE_FILE};

const KINDS: [&str; 11] = [
    "of an entry in a free record",
    "of an entry in a cleared heading",
    "of an entry in an entry",
    "of an entry in a text",
    "of an entry past the end",
    "in a second round",
    "in a third round or more",
    "of text in a later round",
    "of entries in rounds, and of counts",
    "cut in rounds",
    "not mended beside an entry in no heading",
];
const SECOND: usize = 5;
const THIRD: usize = 6;
const LATE_TEXT: usize = 7;
const AND_COUNTS: usize = 8;
const CUT: usize = 9;
const NOT_MENDED: usize = 10;

/// A count for each kind.
pub struct Rounded(Branches);

impl Default for Rounded {
    fn default() -> Rounded {
        Rounded(Branches::new("mended in rounds", KINDS))
    }
}

/// Which of the first kinds an entry is that went, though it names a heading: by what stood where its directory is to be.
fn stood_in(before: &[u8], entry: &[u8]) -> usize {
    let record = before.chunks_exact(32).nth(two(entry, 2).into());
    record.map_or(4, |record| usize::from(record[0]).min(3))
}

/// Which kinds a mend is that was done.
fn mended(before: &[u8], after: &[u8]) -> Vec<usize> {
    let differ = differing(before, after);
    let entries = differ.iter().filter(|(_, old, _)| old[0] == 2);
    let held = entries.filter(|(_, old, _)| two(old, 2) != BASE_FILE && !is_lost(before, old));
    let mut kinds: BTreeSet<usize> = held.map(|(_, old, _)| stood_in(before, old)).collect();
    let rounds = rounds(before);
    let counted = differ.iter().any(|(_, _, new)| new[0] == 1);
    let was_heading = |number: u16| before.get(usize::from(number) * 32) == Some(&1);
    let text = |(_, old, _): &(u16, &[u8], &[u8])| old[0] == 3 && was_heading(two(old, 2));
    let more = [
        (rounds == 2, SECOND),
        (rounds > 2, THIRD),
        (rounds > 1 && differ.iter().any(text), LATE_TEXT),
        (rounds > 1 && counted, AND_COUNTS),
    ];
    kinds.extend(more.iter().filter(|(is, _)| *is).map(|(_, kind)| kind));
    kinds.into_iter().collect()
}

/// Which kinds of `KINDS` a call met.
fn kinds(case: &Case, outcome: &Outcome) -> Vec<usize> {
    let before = &case.table[..];
    let stands = |record: &[u8]| is_adrift(before, record) && !is_lost(before, record);
    match outcome.number() {
        _ if case.asked.is_some() => Vec::new(),
        0 if outcome.stores() > 0 => mended(before, &outcome.table),
        22 if rounds(before) > 1 => vec![CUT],
        2 if count(before, stands) > 0 => vec![NOT_MENDED],
        _ => Vec::new(),
    }
}

/// What of a mend is broken: it stores once to a record, so the counts come once and last.
pub fn broken(case: &Case, outcome: &Outcome) -> Option<&'static str> {
    let stores = outcome.stores() as usize;
    let once = case.asked.is_some() || differing(&case.table, &outcome.table).len() == stores;
    (!once).then_some("a mend that stores twice to a record")
}

impl Rounded {
    /// One more answer.
    pub fn count(&mut self, case: &Case, outcome: &Outcome) {
        let kinds = kinds(case, outcome).into_iter();
        kinds.for_each(|kind| self.0.count(kind));
    }

    /// How often each was met.
    pub fn branches(&self) -> &Branches {
        &self.0
    }
}

#[cfg(test)]
mod tests {
    use super::*;
    use crate::tables::withdrawn;

    /// The kinds of a mend, as the second program does it.
    fn told(table: &[u8], stop: u32) -> Vec<&'static str> {
        let case = Case::mend(table, stop);
        let outcome = case.beside();
        assert_eq!(broken(&case, &outcome), None);
        let kinds = kinds(&case, &outcome).into_iter();
        kinds.map(|kind| KINDS[kind]).collect()
    }

    /// The first record of a kind in the table of withdrawn sheets.
    fn first(kind: u8) -> u16 {
        let mut records = withdrawn().chunks(32).map(|r| r[0]).collect::<Vec<_>>();
        records.push(kind);
        let place = records.iter().position(|other| *other == kind);
        place.map_or(0, |place| place as u16)
    }

    #[test]
    fn an_entry_is_told_by_what_its_directory_is() {
        let mut table = withdrawn();
        let at = usize::from(first(0)) * 32;
        let records = (table.len() / 32) as u16;
        table[at..at + 6].copy_from_slice(&[2, 0, 0, 0, 0, 0]);
        table[at + 17] = 4;
        for (holder, expected) in [
            (first(2), "of an entry in an entry"),
            (first(3), "of an entry in a text"),
            (records, "of an entry past the end"),
        ] {
            table[at + 2..at + 4].copy_from_slice(&holder.to_le_bytes());
            assert_eq!(told(&table, 99), [expected]);
        }
        table[2] = 9;
        assert_eq!(told(&table, 99), [KINDS[NOT_MENDED]]);
    }

    #[test]
    fn a_mend_that_stores_twice_is_broken() {
        let case = Case::mend(&withdrawn(), 99);
        let mut outcome = case.beside();
        assert_eq!(broken(&case, &outcome), None);
        outcome.answer[6] = 1;
        assert!(broken(&case, &outcome).is_some());
    }

    #[test]
    fn a_tree_goes_round_by_round() {
        let mut table = vec![0; 12 * 32];
        for line in ["CRD .R", "CRD .R:D", "WRS M .R:D:A"] {
            let number = crate::tables::ask(&mut table, line.as_bytes(), b"5.0 V", 1, 99);
            assert_eq!(number, 0, "{line}");
        }
        assert_eq!(told(&table, 99), [""; 0]);
        // the base entry
        table[32..64].fill(0);
        let (cleared, third) = (KINDS[1], KINDS[THIRD]);
        assert_eq!(told(&table, 99), [cleared, third, KINDS[LATE_TEXT]]);
        assert_eq!(told(&table, 1), [KINDS[CUT]]);
        assert_eq!(rounds(&table), 3);
    }
}
