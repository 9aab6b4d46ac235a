//! How often each branch of six-bit names was met: what is asked of the old table too, which wrong name makes a table unsound, and what the
//! conversions make of sound and of damaged tables of both layouts; and what a conversion and a listing must be, by their bytes.

use beside::{is_base_name, is_link_name, sound_in, Layout, Request};
use random::names::laid;

use crate::branches::Branches;
use crate::case::{Asked, Case, Outcome};
use crate::records::{two, BASE_FILE};

const KINDS: [&str; 37] = [
    "granted as on the old table",
    "refused as on the old table",
    "stopped as on the old table",
    "replied as on the old table",
    "mended as on the old table",
    "a mend stopped as on the old table",
    "not mended as on the old table",
    "listed by two names or more",
    "2 by byte 9",
    "2 by a byte from 18 on",
    "2 by more than 60 bits",
    "2 by a blank inside",
    "2 by a colon or an at sign",
    "2 by no name",
    "2 by a base name",
    "2 by an old table",
    "from six 0",
    "from six 0 without entries",
    "from six 1",
    "from six 2 by byte 9",
    "from six 2 by a byte from 18 on",
    "from six 2 by more than 60 bits",
    "from six 2 by a blank inside",
    "from six 2 by a colon or an at sign",
    "from six 2 by no name",
    "from six 2 by a base name",
    "from six 2 by an old table",
    "from six 2 by what is no name",
    "to six 0",
    "to six 0 without entries",
    "to six 1",
    "to six 2 by a length",
    "to six 2 by a byte past the name",
    "to six 2 by a character",
    "to six 2 by a base name",
    "to six 2 by six-bit names",
    "to six 2 by what is no name",
];
const ASKED: usize = 0;
const MENDED: usize = 4;
const LISTED: usize = 7;
const WRONG: usize = 8;
const FROM_SIX: usize = 16;
const FROM_SIX_WRONG: usize = 19;
const TO_SIX: usize = 28;
const TO_SIX_WRONG: usize = 31;
/// After the wrong names of a layout: sound in the other one; and wrong otherwise.
const OF_THE_OTHER: [usize; 2] = [4, 7];

/// A count for each kind.
pub struct Sixed(Branches);

impl Default for Sixed {
    fn default() -> Sixed {
        Sixed(Branches::new("six-bit names", KINDS))
    }
}

/// The entries of a table.
fn entries(table: &[u8]) -> impl Iterator<Item = &[u8]> {
    table.chunks_exact(32).filter(|record| record[0] == 2)
}

/// What is wrong with the name of an entry of six-bit names, if it is: from 0, in the order of `KINDS`.
fn wrong_six(entry: &[u8]) -> Option<usize> {
    let name = random::names::name(entry);
    let base = two(entry, 2) == BASE_FILE && !is_base_name(name.as_bytes());
    let wrong = [
        entry[9] != 0,
        entry[18..].iter().any(|byte| *byte != 0),
        entry[17] >= 16,
        name.contains(' '),
        name.contains([':', '@']),
        name.is_empty(),
        base,
    ];
    wrong.iter().position(|wrong| *wrong)
}

/// The same of an entry as it was before.
fn wrong_old(entry: &[u8]) -> Option<usize> {
    let length = usize::from(entry[9]);
    let name = &entry[10..10 + length.min(10)];
    let wrong = [
        !(1..=10).contains(&length),
        entry[10 + name.len()..].iter().any(|byte| *byte != 0),
        !is_link_name(name),
        two(entry, 2) == BASE_FILE && !is_base_name(name),
    ];
    wrong.iter().position(|wrong| *wrong)
}

/// The one entry of a table whose name is wrong, and which wrong it is; nothing where the table is not sound with another name in its
/// place.
fn wrong_name(layout: Layout, table: &[u8]) -> Option<usize> {
    let wrong = match layout {
        Layout::Six => wrong_six,
        Layout::Old => wrong_old,
    };
    let mut righted = table.to_vec();
    let mut found = None;
    for entry in righted.chunks_exact_mut(32).filter(|record| record[0] == 2) {
        let Some(kind) = wrong(entry) else { continue };
        if found.replace(kind).is_some() {
            return None;
        }
        let name = if two(entry, 2) == BASE_FILE {
            ".ZZRIGHTED"
        } else {
            "ZZRIGHTED9"
        };
        entry[9..].fill(0);
        match layout {
            Layout::Six => entry[9..20].copy_from_slice(&laid(name)),
            Layout::Old => {
                entry[9] = 10;
                entry[10..20].copy_from_slice(name.as_bytes());
            }
        }
    }
    found.filter(|_| sound_in(layout, &righted))
}

/// Which of a conversion's kinds of 2 this table is, from 0.
fn refused(from: Layout, table: &[u8]) -> usize {
    let (other, at) = match from {
        Layout::Six => (Layout::Old, OF_THE_OTHER[1]),
        Layout::Old => (Layout::Six, OF_THE_OTHER[0]),
    };
    match wrong_name(from, table) {
        Some(kind) => kind,
        None if sound_in(other, table) => at,
        None => at + 1,
    }
}

/// Which kind a conversion is.
fn conversion(from: Layout, case: &Case, number: u32) -> usize {
    let (first, wrong) = match from {
        Layout::Six => (FROM_SIX, FROM_SIX_WRONG),
        Layout::Old => (TO_SIX, TO_SIX_WRONG),
    };
    match number {
        0 => first + usize::from(entries(&case.table).next().is_none()),
        1 => first + 2,
        _ => wrong + refused(from, &case.table),
    }
}

/// The names of a granted LST as numbers, in the order of its lines.
fn listed(case: &Case, outcome: &Outcome) -> Option<Vec<u64>> {
    let Asked { line, .. } = case.asked.as_ref()?;
    let lst = matches!(beside::read(line, 0), Ok(Request::Lst { .. }));
    if outcome.number() != 0 || !lst {
        return None;
    }
    let reply = String::from_utf8_lossy(&outcome.reply[..outcome.bytes()]).into_owned();
    let number = |line: &str| {
        let [_, low @ .., _, _] = laid(&line[9..]);
        u64::from_le_bytes(low)
    };
    Some(reply.lines().map(number).collect())
}

/// What both agree on and must not be: lines that do not go by their numbers; a conversion that is not undone by the other one, or changes
/// anything but names.
pub fn broken(case: &Case, outcome: &Outcome) -> Option<&'static str> {
    let ascend = |numbers: Vec<u64>| numbers.is_sorted_by(|one, other| one < other);
    if !listed(case, outcome).is_none_or(ascend) {
        return Some("listed, and not in the order of the numbers");
    }
    let from = case.from.filter(|_| outcome.number() == 0)?;
    let back = match from {
        Layout::Six => beside::to_six,
        Layout::Old => beside::from_six,
    };
    let mut table = outcome.table.clone();
    if back(&mut table) != 0 || table != case.table {
        return Some("converted, and not the same when it is converted back");
    }
    let kept = |record: &[u8]| match record[0] {
        2 => [&record[..9], &record[20..]].concat(),
        _ => record.to_vec(),
    };
    let mut pairs = case.table.chunks(32).zip(outcome.table.chunks(32));
    match pairs.all(|(one, other)| kept(one) == kept(other)) {
        true => None,
        false => Some("converted, and more than names is other"),
    }
}

impl Sixed {
    /// One more call; was it made on the old table too?
    pub fn count(&mut self, case: &Case, outcome: &Outcome, old: bool) {
        for kind in self.kinds(case, outcome, old) {
            self.0.count(kind);
        }
    }

    fn kinds(&self, case: &Case, outcome: &Outcome, old: bool) -> Vec<usize> {
        let (number, stores) = (outcome.number(), outcome.stores() > 0);
        if let Some(from) = case.from {
            return vec![conversion(from, case, number)];
        }
        let asked = case.asked.is_some();
        let mut kinds = Vec::new();
        let mut met = |is: bool, kind: usize| {
            if is {
                kinds.push(kind);
            }
        };
        met(old && asked && number == 0 && stores, ASKED);
        met(old && asked && ![0, 22].contains(&number), ASKED + 1);
        met(old && asked && number == 22, ASKED + 2);
        met(old && asked && outcome.bytes() > 0, ASKED + 3);
        met(old && !asked && number == 0 && stores, MENDED);
        met(old && !asked && number == 22, MENDED + 1);
        met(old && !asked && number == 2, MENDED + 2);
        met(
            listed(case, outcome).is_some_and(|names| names.len() > 1),
            LISTED,
        );
        if asked && number == 2 {
            let wrong = refused(Layout::Six, &case.table);
            met(wrong <= OF_THE_OTHER[1], WRONG + wrong);
        }
        kinds
    }

    /// How often each was met.
    pub fn branches(&self) -> &Branches {
        &self.0
    }
}

#[cfg(test)]
mod tests {
    use super::*;
    use crate::tables::knot;

    /// What a call is told to be.
    fn told(case: &Case) -> Vec<&'static str> {
        let outcome = case.beside();
        let old = case.on_the_old_table().is_some();
        let kinds = Sixed::default().kinds(case, &outcome, old);
        kinds.into_iter().map(|kind| KINDS[kind]).collect()
    }

    fn asked(table: &[u8], line: &str) -> Case {
        let asked = Asked {
            line: line.as_bytes().to_vec(),
            text: b"5.0 V".to_vec(),
            reply: 24_000,
            user: 1,
        };
        Case::request(table, asked)
    }

    /// The table with these bytes, from byte 9 on, in the entry of this name.
    fn with(table: &[u8], name: &str, at: usize, bytes: &[u8]) -> Vec<u8> {
        let mut table = table.to_vec();
        let mut records = table.chunks_mut(32);
        let entry = records.find(|r| r[0] == 2 && random::names::name(r) == name);
        entry.expect("it is there")[at..at + bytes.len()].copy_from_slice(bytes);
        table
    }

    #[test]
    fn calls_on_both_tables_are_told() {
        let table = knot();
        assert_eq!(
            told(&asked(&table, "CRD .R:N")),
            ["granted as on the old table"]
        );
        assert_eq!(
            told(&asked(&table, "RDS .R:N")),
            ["refused as on the old table"]
        );
        let cut = asked(&table, "CRD .R:N").stopped(1);
        assert_eq!(told(&cut), ["stopped as on the old table"]);
        let listed = ["replied as on the old table", "listed by two names or more"];
        assert_eq!(told(&asked(&table, "LST .R")), listed);
        let cut = cut.beside().table;
        assert_eq!(told(&Case::mend(&cut, 99)), ["mended as on the old table"]);
        assert_eq!(
            told(&Case::mend(&cut, 0)),
            ["a mend stopped as on the old table"]
        );
        let mut broken = table.clone();
        broken[1] = 1;
        assert_eq!(
            told(&Case::mend(&broken, 9)),
            ["not mended as on the old table"]
        );
    }

    #[test]
    fn a_wrong_name_is_told_by_its_bytes() {
        let table = knot();
        for (wrong, kind) in [
            (with(&table, "BACK", 9, &[1]), "byte 9"),
            (with(&table, "BACK", 18, &[1]), "a byte from 18 on"),
            (with(&table, "BACK", 31, &[1]), "a byte from 18 on"),
            (with(&table, "BACK", 17, &[24]), "more than 60 bits"),
            (with(&table, "BACK", 9, &laid("B CK")), "a blank inside"),
            (
                with(&table, "BACK", 9, &laid("B:CK")),
                "a colon or an at sign",
            ),
            (with(&table, "BACK", 9, &laid("@")), "a colon or an at sign"),
            (with(&table, "BACK", 9, &laid("")), "no name"),
            (with(&table, ".R", 9, &laid(".1")), "a base name"),
            (
                beside::converted(Layout::Six, &table).unwrap(),
                "an old table",
            ),
        ] {
            let refused = told(&asked(&wrong, "LST ."));
            assert_eq!(refused.last().unwrap()[5..], *kind);
            let kind = format!("from six 2 by {kind}");
            assert_eq!(told(&Case::convert(&wrong, Layout::Six)), [kind]);
        }
        let mut broken = table.clone();
        broken[1] = 1;
        let kind = ["from six 2 by what is no name"];
        assert_eq!(told(&Case::convert(&broken, Layout::Six)), kind);
        assert_eq!(told(&Case::convert(&table, Layout::Six)), ["from six 0"]);
        assert_eq!(
            told(&Case::convert(&table[1..], Layout::Six)),
            ["from six 1"]
        );
        let none = ["from six 0 without entries"];
        assert_eq!(told(&Case::convert(&[0; 64], Layout::Six)), none);
    }

    #[test]
    fn a_wrong_name_of_an_old_table_is_told_by_its_bytes() {
        let table = beside::converted(Layout::Six, &knot()).unwrap();
        let entry = |name: &[u8]| {
            let bears = |r: &[u8]| r[0] == 2 && r[10..10 + usize::from(r[9])] == *name;
            table.chunks(32).position(bears).unwrap() * 32
        };
        for (name, at, byte, kind) in [
            (&b"BACK"[..], 9, 0, "a length"),
            (b"BACK", 9, 11, "a length"),
            (b"BACK", 9, 3, "a byte past the name"),
            (b"BACK", 31, 3, "a byte past the name"),
            (b"BACK", 10, b'a', "a character"),
            (b"BACK", 11, b' ', "a character"),
            (b".R", 11, b'1', "a base name"),
        ] {
            let mut wrong = table.clone();
            wrong[entry(name) + at] = byte;
            let kind = format!("to six 2 by {kind}");
            assert_eq!(told(&Case::convert(&wrong, Layout::Old)), [kind]);
        }
        let mut broken = table.clone();
        broken[1] = 1;
        let kind = ["to six 2 by what is no name"];
        assert_eq!(told(&Case::convert(&broken, Layout::Old)), kind);
        assert_eq!(told(&Case::convert(&table, Layout::Old)), ["to six 0"]);
        let kind = ["to six 2 by six-bit names"];
        assert_eq!(told(&Case::convert(&knot(), Layout::Old)), kind);
    }

    #[test]
    fn conversions_and_listings_that_do_not_fit_are_broken() {
        let case = Case::convert(&knot(), Layout::Six);
        let converted = case.beside();
        assert_eq!(broken(&case, &converted), None);
        let mut other = converted.clone();
        other.table[3] ^= 4;
        assert!(broken(&case, &other).is_some());
        let case = asked(&knot(), "LST .R");
        let mut listed = case.beside();
        assert_eq!(broken(&case, &listed), None);
        listed.reply[9] = b'_';
        assert!(broken(&case, &listed).is_some());
    }
}
