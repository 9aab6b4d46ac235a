//! How often each branch of the index was met: which list gets 26, what a call leaves of a list, and what is looked up through one; and what
//! each must be, by the records: a list is true that has an entry in each place, ascending, and 65,535 in the places after the last.

use std::cmp::Ordering;
use std::collections::BTreeSet;

use beside::{is_link_name, sound, true_index, Request};
use random::names::laid;

use crate::branches::Branches;
use crate::case::{Case, Outcome, Sought};
use crate::records::BASE_FILE;

pub const PADDING: u16 = 65_535;
const HIGHEST_USER: u32 = 999_999;
/// "take at most 12 name comparisons".
const MOST: u64 = 12;
const KINDS: [&str; 33] = [
    "26 by a list too short",
    "26 by a list too long",
    "26 by another order",
    "26 by other padding",
    "26 by an entry missing",
    "26 by an entry too many",
    "26 by other numbers",
    "26 before 3",
    "26 after a cut between two names",
    "1 before 26",
    "2 before 26",
    "another list after a request",
    "the same list after a request",
    "another list after a DEL refused midway",
    "another list after a DST refused midway",
    "refused with the true list",
    "stopped where another list is due",
    "mend 26 of a sound table",
    "mend 26 with something to mend",
    "mend 1 before 26",
    "mend 2 before 26",
    "mended with another list after it",
    "nothing mended but the list",
    "a mend stopped where another list is due",
    "found in a directory",
    "found in a base list",
    "found whatever the user",
    "not found in a directory",
    "not found in a base list",
    "no link name",
    "a number that no entry has",
    "found through another list",
    "not found through another list",
];
const BEFORE_3: usize = 7;
const BETWEEN: usize = 8;
const UNSIZED: usize = 9;
const AFTER: usize = 11;
const MIDWAY: usize = 13;
const REFUSED: usize = 15;
const STOPPED: usize = 16;
const MEND_26: usize = 17;
const MEND_UNSIZED: usize = 19;
const MENDED: usize = 21;
const MEND_STOPPED: usize = 23;
const FOUND: usize = 24;
const ANY_USER: usize = 26;
const MISSED: usize = 27;
const NO_NAME: usize = 29;
const NO_ENTRY: usize = 30;
const OTHER_LIST: usize = 31;

/// A count for each kind.
pub struct Indexed(Branches);

impl Default for Indexed {
    fn default() -> Indexed {
        Indexed(Branches::new("index", KINDS))
    }
}

/// What an entry is ordered by, as one number: bytes 2-3, then 6-8, then 10-17, each with its high byte first.
fn key(entry: &[u8]) -> u128 {
    let fields = [2..4, 6..9, 10..18];
    let bytes = fields
        .into_iter()
        .flat_map(|field| entry[field].iter().rev());
    bytes.fold(0, |key, byte| key << 8 | u128::from(*byte))
}

/// Is the list true of this table?
pub fn is_true(table: &[u8], list: &[u16]) -> bool {
    let records: Vec<&[u8]> = table.chunks_exact(32).collect();
    let entry = |number: &u16| records.get(usize::from(*number)).filter(|r| r[0] == 2);
    let entries = records.iter().filter(|record| record[0] == 2).count();
    let Some((listed, after)) = list.split_at_checked(entries) else {
        return false;
    };
    let keys: Option<Vec<u128>> = listed.iter().map(|n| entry(n).map(|e| key(e))).collect();
    list.len() == records.len()
        && after.iter().all(|number| *number == PADDING)
        && keys.is_some_and(|keys| keys.is_sorted_by(|one, other| one < other))
}

/// The entry that bears what is sought, by a scan; nothing where no entry can.
fn scanned(table: &[u8], sought: &Sought) -> Option<u16> {
    let directory = u16::try_from(sought.heading).ok()?;
    let user = if directory == BASE_FILE {
        sought.user
    } else {
        0
    };
    let name = std::str::from_utf8(&sought.name).ok()?;
    let mut entry = [0; 32];
    entry[2..4].copy_from_slice(&directory.to_le_bytes());
    entry[6..9].copy_from_slice(&user.to_le_bytes()[..3]);
    entry[9..20].copy_from_slice(&laid(name));
    let bears = |record: &[u8]| record[0] == 2 && key(record) == key(&entry);
    let place = table.chunks_exact(32).position(bears);
    let is_name = is_link_name(&sought.name) && user <= 0xff_ffff;
    place.filter(|_| is_name).map(|place| place as u16)
}

/// What of a look-up is broken, where the list is true: it is the scan's answer, by few comparisons.
fn broken_look_up(case: &Case, sought: &Sought, outcome: &Outcome) -> Option<&'static str> {
    let [found, entry, count, ..] = outcome.answer;
    if !is_true(&case.table, &case.index) {
        return None;
    }
    let expected = match scanned(&case.table, sought) {
        Some(entry) => [1, entry.into()],
        None => [0, PADDING.into()],
    };
    if [found, entry] != expected {
        return Some("looked up, and not what a scan finds");
    }
    let entries = case.index.iter().filter(|number| **number != PADDING);
    let halvings = usize::BITS - entries.count().leading_zeros();
    match count > MOST || count > halvings.into() {
        true => Some("looked up by too many comparisons"),
        false => None,
    }
}

/// What both agree on and must not be: another list than the true one after a call that is not stopped; another than was lent after any
/// other; 26 for another reason than its own, or not; an answer of a look-up that a scan does not give.
pub fn broken(case: &Case, outcome: &Outcome) -> Option<&'static str> {
    if let Some(sought) = &case.sought {
        return broken_look_up(case, sought, outcome);
    }
    let number = outcome.number();
    let lent = [1, 2, 22, 26].contains(&number);
    if lent && outcome.index != case.index {
        return Some("the list is not as lent");
    }
    if !lent && !is_true(&outcome.table, &outcome.index) {
        return Some("the list is not true after it");
    }
    let fits = match case.asked.is_some() || case.sweep {
        true => is_true(&case.table, &case.index),
        false => case.index.len() == case.table.len() / 32,
    };
    let judged = number > 2 || number == 0;
    match judged && fits == (number == 26) {
        true => Some("26, and the list fits; or it does not, and not 26"),
        false => None,
    }
}

/// Which of the first kinds a list is that is not true, by what is wrong with it.
fn wrong(table: &[u8], list: &[u16]) -> usize {
    let right = true_index(table);
    let sorted = |list: &[u16]| {
        let mut sorted = list.to_vec();
        sorted.sort();
        sorted
    };
    let entries =
        |list: &[u16]| BTreeSet::from_iter(list.iter().copied().filter(|n| *n != PADDING));
    let (named, there) = (entries(list), entries(&right));
    let used = there.len();
    match list.len().cmp(&right.len()) {
        Ordering::Less => 0,
        Ordering::Greater => 1,
        _ if sorted(list) == sorted(&right) => 2,
        _ if list[..used] == right[..used] => 3,
        _ if named.is_subset(&there) => 4,
        _ if named.is_superset(&there) => 5,
        _ => 6,
    }
}

/// The kinds that a request is.
fn requested(case: &Case, outcome: &Outcome, user: u32, line: &[u8]) -> Vec<usize> {
    let (number, stores) = (outcome.number(), outcome.stores() > 0);
    let same = usize::from(outcome.index == case.index);
    match number {
        1 | 2 if !is_true(&case.table, &case.index) => vec![UNSIZED + number as usize - 1],
        1 | 2 => vec![],
        26 if user > HIGHEST_USER => vec![wrong(&case.table, &case.index), BEFORE_3],
        26 => vec![wrong(&case.table, &case.index)],
        22 if is_true(&outcome.table, &case.index) => vec![],
        22 => vec![STOPPED],
        0 if stores => vec![AFTER + same],
        0 => vec![],
        _ if !stores => vec![REFUSED],
        _ if same == 1 => vec![],
        _ => {
            let dst = matches!(beside::read(line, 0), Ok(Request::Dst { .. }));
            vec![MIDWAY + usize::from(dst)]
        }
    }
}

/// The kinds that a mend is.
fn mended(case: &Case, outcome: &Outcome) -> Vec<usize> {
    let fits = case.index.len() == case.table.len() / 32;
    let kept = outcome.index == case.index;
    match outcome.number() {
        number @ (1 | 2) if !fits => vec![MEND_UNSIZED + number as usize - 1],
        26 => vec![MEND_26 + usize::from(!sound(&case.table))],
        22 if !is_true(&outcome.table, &case.index) => vec![MEND_STOPPED],
        0 if !kept => vec![MENDED + usize::from(outcome.stores() == 0)],
        _ => vec![],
    }
}

/// The kinds that a look-up is.
fn looked_up(case: &Case, sought: &Sought, outcome: &Outcome) -> Vec<usize> {
    let found = outcome.answer[0] == 1;
    let base = sought.heading == u32::from(BASE_FILE);
    if !is_link_name(&sought.name) {
        return vec![NO_NAME];
    }
    if !is_true(&case.table, &case.index) {
        return vec![OTHER_LIST + usize::from(!found)];
    }
    let first = if found { FOUND } else { MISSED };
    let mut kinds = vec![first + usize::from(base)];
    if found && !base && sought.user != 0 {
        kinds.push(ANY_USER);
    }
    if sought.heading > 65_535 || base && sought.user > 0xff_ffff {
        kinds.push(NO_ENTRY);
    }
    kinds
}

impl Indexed {
    /// One more call.
    pub fn count(&mut self, case: &Case, outcome: &Outcome) {
        let kinds = match (&case.asked, &case.sought) {
            (_, Some(sought)) => looked_up(case, sought, outcome),
            (Some(asked), _) => requested(case, outcome, asked.user, &asked.line),
            (None, None) => mended(case, outcome),
        };
        kinds.into_iter().for_each(|kind| self.0.count(kind));
    }

    /// One more request that was refused because a cut before it fell between two names.
    pub fn count_between(&mut self) {
        self.0.count(BETWEEN);
    }

    /// How often each was met.
    pub fn branches(&self) -> &Branches {
        &self.0
    }
}

#[cfg(test)]
mod tests {
    use super::*;
    use crate::case::Asked;
    use crate::tables::{knot, withdrawn};

    fn asked(table: &[u8], line: &str) -> Case {
        let asked = Asked {
            line: line.as_bytes().to_vec(),
            text: b"5.0 V".to_vec(),
            reply: 24_000,
            user: 1,
        };
        Case::request(table, asked)
    }

    /// What a call is told to be.
    fn told(case: &Case) -> Vec<&'static str> {
        let outcome = case.beside();
        assert_eq!(broken(case, &outcome), None);
        let mut indexed = Indexed::default();
        indexed.count(case, &outcome);
        let met = indexed.branches().met();
        let is_met = |kind: &&str| met.contains(kind);
        KINDS.into_iter().filter(is_met).collect()
    }

    #[test]
    fn a_list_is_true_that_ascends_and_has_every_entry() {
        for table in [knot(), withdrawn(), Vec::new(), vec![0; 64]] {
            let list = true_index(&table);
            assert!(is_true(&table, &list));
            for place in 0..list.len() {
                let mut other = list.clone();
                other[place] ^= 1;
                assert!(!is_true(&table, &other), "{place}");
                assert!(!is_true(&table, &list[..place]), "{place}");
            }
            assert!(!is_true(&table, &[&list[..], &[PADDING]].concat()));
        }
    }

    #[test]
    fn a_list_that_gets_26_is_told_by_what_is_wrong() {
        let case = asked(&knot(), "CRD .R:N");
        let list = case.index.clone();
        let used = list.iter().position(|number| *number == PADDING).unwrap();
        let with = |change: &dyn Fn(&mut Vec<u16>)| {
            let mut list = list.clone();
            change(&mut list);
            told(&case.with(&list))
        };
        assert_eq!(told(&case), ["another list after a request"]);
        let drop = |list: &mut Vec<u16>| list.truncate(3);
        assert_eq!(with(&drop), ["26 by a list too short"]);
        let add = |list: &mut Vec<u16>| list.push(PADDING);
        assert_eq!(with(&add), ["26 by a list too long"]);
        let swap = |list: &mut Vec<u16>| list.swap(0, 3);
        assert_eq!(with(&swap), ["26 by another order"]);
        let pad = |list: &mut Vec<u16>| list[used + 1] = 0;
        assert_eq!(with(&pad), ["26 by other padding"]);
        let less = |list: &mut Vec<u16>| list[used - 1] = PADDING;
        assert_eq!(with(&less), ["26 by an entry missing"]);
        let more = |list: &mut Vec<u16>| {
            list.insert(0, 0);
            list.pop();
        };
        assert_eq!(with(&more), ["26 by an entry too many"]);
        let other = |list: &mut Vec<u16>| list[0] = 0;
        assert_eq!(with(&other), ["26 by other numbers"]);
    }

    #[test]
    fn what_a_request_leaves_is_told() {
        let same = ["the same list after a request"];
        assert_eq!(told(&asked(&knot(), "WRS M .G:A")), same);
        let refused = ["refused with the true list"];
        assert_eq!(told(&asked(&knot(), "LST .R:N")), refused);
        let midway = ["another list after a DEL refused midway"];
        assert_eq!(told(&asked(&knot(), "DEL .G:A .G:B")), midway);
        let midway = ["another list after a DST refused midway"];
        assert_eq!(told(&asked(&knot(), "DST .R:C:A .R")), midway);
        let cut = asked(&knot(), "DEL .G:A");
        let due = ["stopped where another list is due"];
        assert_eq!(told(&cut.stopped(1)), due);
        assert_eq!(told(&cut.stopped(0)), [""; 0]);
        let mut high = asked(&knot(), "LST .").with(&[]);
        high.asked.as_mut().unwrap().user = 1_000_000;
        assert_eq!(told(&high), ["26 by a list too short", "26 before 3"]);
        high.table[1] = 7;
        assert_eq!(told(&high), ["2 before 26"]);
        high.table.pop();
        assert_eq!(told(&high), ["1 before 26"]);
    }

    #[test]
    fn what_a_mend_leaves_is_told() {
        let table = knot();
        let mend = Case::mend(&table, 99);
        assert_eq!(told(&mend), ["nothing mended but the list"]);
        assert_eq!(told(&mend.with(&[])), ["mend 26 of a sound table"]);
        let cut = asked(&table, "DEL .G:A").stopped(1).beside();
        let mend = Case::mend_after(&cut, 99);
        assert_eq!(told(&mend), ["mended with another list after it"]);
        let due = ["a mend stopped where another list is due"];
        assert_eq!(told(&mend.stopped(0)), due);
        assert_eq!(told(&mend.with(&[])), ["mend 26 with something to mend"]);
        let mut broken = mend.with(&[]);
        broken.table[1] = 7;
        assert_eq!(told(&broken), ["mend 2 before 26"]);
        broken.table.pop();
        assert_eq!(told(&broken), ["mend 1 before 26"]);
    }

    #[test]
    fn a_look_up_is_told_by_where_and_through_what() {
        let table = knot();
        let list = true_index(&table);
        let base = u32::from(BASE_FILE);
        let look_up = |list: &[u16], heading, user, name: &str| {
            let name = name.as_bytes().to_vec();
            let sought = Sought {
                heading,
                user,
                name,
            };
            told(&Case::look_up(&table, list, sought))
        };
        assert_eq!(look_up(&list, 0, 0, "D"), ["found in a directory"]);
        let any = ["found in a directory", "found whatever the user"];
        assert_eq!(look_up(&list, 0, 7, "D"), any);
        assert_eq!(look_up(&list, base, 1, ".R"), ["found in a base list"]);
        assert_eq!(look_up(&list, 0, 0, "N"), ["not found in a directory"]);
        let missed = ["not found in a base list"];
        assert_eq!(look_up(&list, base, 2, ".R"), missed);
        let none = ["not found in a base list", "a number that no entry has"];
        assert_eq!(look_up(&list, base, u32::MAX, ".R"), none);
        assert_eq!(look_up(&list, 0, 0, "D:"), ["no link name"]);
        assert_eq!(look_up(&[], 0, 0, "D"), ["not found through another list"]);
        let through = ["found through another list"];
        assert_eq!(look_up(&list[..1], 0, 0, "C"), through);
    }

    #[test]
    fn what_must_not_be_is_broken() {
        let case = asked(&knot(), "DEL .G:A");
        let mut wrong = case.beside();
        assert_eq!(broken(&case, &wrong), None);
        wrong.index.clone_from(&case.index);
        assert!(broken(&case, &wrong).is_some()); // not true after it
        let mut cut = case.stopped(1).beside();
        cut.index = true_index(&cut.table);
        assert!(broken(&case, &cut).is_some()); // not as lent
        let mut refused = case.beside();
        refused.answer = [26, 0, 0, 0, 0, 0, 0];
        refused.index.clone_from(&case.index);
        assert!(broken(&case, &refused).is_some()); // the list fits
        let sought = Sought {
            heading: 0,
            user: 0,
            name: b"D".to_vec(),
        };
        let case = Case::look_up(&knot(), &case.index, sought);
        let mut found = case.beside();
        assert_eq!(broken(&case, &found), None);
        found.answer[2] = 13;
        assert!(broken(&case, &found).is_some()); // too many comparisons
        found.answer = [0, 65_535, 1, 0, 0, 0, 0];
        assert!(broken(&case, &found).is_some()); // a scan finds it
    }
}
