//! How often each branch of DST was met, and of mending's first step; and what both must leave, by the records.

use beside::{Chain, Request};
use std::collections::BTreeSet;

use crate::branches::Branches;
use crate::case::{Asked, Case, Outcome};
use crate::records::{
    count, differing, entries_of, heading, is_adrift, is_heading, is_lost, naming, reached, texts,
    two, walked, Walked, BASE_FILE, READ, WRITE,
};

/// The numbers of DST, in their order.
const NUMBERS: [u64; 10] = [6, 7, 8, 11, 12, 13, 14, 18, 22, 0];
const KINDS: [&str; 42] = [
    "of one entry",
    "of several entries",
    "another user's base file",
    "an entry in a lost loop",
    "an entry before the heading",
    "a holder of several of its entries",
    "several holders",
    "base files alone",
    "a directory",
    "no text",
    "several blocks",
    "text not in order",
    "marked",
    "read-inhibited",
    "in an inhibited directory",
    "a holder's heading inhibited",
    "several names",
    "a directory that it emptied",
    "an equal name",
    "another entry of a file that is gone",
    "refused midway otherwise",
    "14 by the heading",
    "14 by the entry alone",
    "14 before 18",
    "18 by its own entry alone",
    "18 where another entry names it",
    "18 midway",
    "8 by a user's number",
    "cut before its text",
    "cut before its entries",
    "cut among its entries",
    "cut before its counts",
    "cut in a later name",
    "cut between two names",
    "cut before a name that is refused",
    "mended of an entry of a free record",
    "mended of an entry of an entry",
    "mended of an entry of a text",
    "mended of an entry past the end",
    "mended of entries and more",
    "mend cut among entries",
    "not mended beside such an entry",
];
const SEVERAL_NAMES: usize = 16;
const EMPTIED: usize = 17;
const EQUAL: usize = 18;
const SAME_FILE: usize = 19;
const MIDWAY: usize = 20;
const CAPPED: usize = 21;
const CAPPED_FIRST: usize = 23;
const OWN_ENTRY: usize = 24;
const OTHERS_NAME_IT: usize = 25;
const PEOPLED_MIDWAY: usize = 26;
const USERS_NUMBER: usize = 27;
const CUT: usize = 28;
const CUT_LATER: usize = 32;
const CUT_BETWEEN: usize = 33;
const CUT_REFUSED: usize = 34;
const MENDED: usize = 35;
const MENDED_MORE: usize = 39;
const MEND_CUT: usize = 40;
const NOT_MENDED: usize = 41;

/// A count for each number and each kind.
pub struct Destroyed(Branches);

impl Default for Destroyed {
    fn default() -> Destroyed {
        Destroyed(Branches::numbered("destroyed", &NUMBERS, &KINDS))
    }
}

/// What is asked, and the names, where it is a DST that its line does not refuse.
fn destroys(case: &Case) -> Option<(&Asked, Vec<Chain<'_>>)> {
    let asked = case.asked.as_ref()?;
    match beside::read(&asked.line, 0) {
        Ok(Request::Dst { names }) => Some((asked, names)),
        _ => None,
    }
}

/// Is DST the first word?
pub fn is_dst(line: &[u8]) -> bool {
    let words = beside::words(line);
    words.first().and_then(|word| word.whole()) == Some(b"DST")
}

/// The directories that hold entries of a file, base lists apart.
fn holders(table: &[u8], file: u16) -> BTreeSet<u16> {
    let entries = naming(table, file).into_iter();
    let all = entries.map(|(_, entry)| two(entry, 2));
    all.filter(|holder| *holder != BASE_FILE).collect()
}

/// The headings that are cleared between two tables.
fn cleared(before: &[u8], after: &[u8]) -> Vec<u16> {
    let differ = differing(before, after).into_iter();
    let gone = differ.filter(|(_, old, new)| (old[0], new[0]) == (1, 0));
    gone.map(|(number, _, _)| number).collect()
}

/// How many entries a directory holds.
fn holding(table: &[u8], directory: u16) -> usize {
    count(table, |record| {
        record[0] == 2 && two(record, 2) == directory
    })
}

/// Which of the first kinds a DST of one name is that was granted.
fn granted(case: &Case, user: u32, at: &Walked) -> Vec<usize> {
    let table = &case.table[..];
    let (file, entries, holders) = (at.file, naming(table, at.file), holders(table, at.file));
    let (texts, own) = (texts(table, file), heading(table, file));
    let of_base = entries.iter().filter(|(_, e)| two(e, 2) == BASE_FILE);
    let user = &user.to_le_bytes()[..3];
    let reached = reached(table);
    let kinds = [
        entries.len() == 1,
        entries.len() > 1,
        of_base.clone().any(|(_, entry)| &entry[6..9] != user),
        holders.iter().any(|holder| !reached.contains(holder)),
        entries.iter().any(|(number, _)| *number < file),
        entries.len() - of_base.count() > holders.len(),
        holders.len() > 1,
        holders.is_empty(),
        own[1] == 0,
        own[1] == 1 && texts.is_empty(),
        texts.len() > 1,
        !texts.is_sorted_by_key(|(position, _)| *position),
        own[5] == 1,
        (own[3] | at.entry[1]) & READ != 0,
        at.directory != BASE_FILE && at.above & WRITE != 0,
        holders.iter().any(|at| heading(table, *at)[3] & WRITE != 0),
    ];
    let kinds = (0..).zip(kinds).filter(|(_, is)| *is);
    kinds.map(|(kind, _)| kind).collect()
}

/// Which kinds a DST of several names is that was granted.
fn granted_all(case: &Case, outcome: &Outcome) -> Vec<usize> {
    let gone = cleared(&case.table, &outcome.table);
    let mut kinds = vec![SEVERAL_NAMES];
    if gone.iter().any(|file| holding(&case.table, *file) > 0) {
        kinds.push(EMPTIED);
    }
    kinds
}

/// Which kinds a name is that gets 14 or 18, on the table that the names before it left.
fn forbidden(table: &[u8], number: u32, at: &Walked) -> Vec<usize> {
    let inside = holding(table, at.file);
    if number == 14 {
        let by_entry = heading(table, at.file)[3] & WRITE == 0;
        let first = (inside > 0).then_some(CAPPED_FIRST);
        return [Some(CAPPED + usize::from(by_entry)), first]
            .into_iter()
            .flatten()
            .collect();
    }
    let own = |record: &[u8]| [2, 4].map(|at| two(record, at)) == [at.file; 2];
    let own = count(table, |record| record[0] == 2 && own(record));
    let alone = (own == inside).then_some(OWN_ENTRY);
    let others = (entries_of(table, at.file) > 1).then_some(OTHERS_NAME_IT);
    [alone, others].into_iter().flatten().collect()
}

/// Which kinds a refusal is, at this name, after the names before it.
fn refused(case: &Case, asked: &Asked, names: &[Chain], outcome: &Outcome) -> Vec<usize> {
    let (done, number) = (outcome.names() as usize, outcome.number());
    let Some(name) = names.get(done) else {
        return Vec::new();
    };
    let mut kinds = Vec::new();
    if let (14 | 18, Some(at)) = (number, walked(&outcome.table, asked.user, name)) {
        kinds = forbidden(&outcome.table, number, &at);
    }
    let was = walked(&case.table, asked.user, name).map(|at| at.file);
    let gone = was.is_some_and(|file| !is_heading(&outcome.table, file));
    kinds.extend(match number {
        _ if done == 0 => None,
        11 if names[..done].contains(name) => Some(EQUAL),
        11 if gone => Some(SAME_FILE),
        18 => Some(PEOPLED_MIDWAY),
        _ => Some(MIDWAY),
    });
    kinds
}

/// Which kinds a cut is, by what is loose in the table that it leaves.
fn cut(case: &Case, outcome: &Outcome) -> Vec<usize> {
    let table = &outcome.table[..];
    let text = |record: &[u8]| record[0] == 3 && !is_heading(table, two(record, 2));
    let loose = count(table, |record| is_lost(table, record));
    let stage = match () {
        () if count(table, text) > 0 => Some(CUT),
        () if all_there(case, table) => Some(CUT + 1),
        () if loose > 0 => Some(CUT + 2),
        () if !beside::sound(table) => Some(CUT + 3),
        () => None,
    };
    let done = outcome.names() > 0;
    let later = (done && stage.is_some()).then_some(CUT_LATER);
    let between = (done && stage.is_none()).then_some(CUT_BETWEEN);
    let uncut = case.stopped(filebox::NO_STOP).beside();
    let refused = (uncut.number() != 0).then_some(CUT_REFUSED);
    let kinds = [stage, later, between, refused].into_iter();
    kinds.flatten().collect()
}

/// Is every entry of the file whose heading was cleared last still there?
fn all_there(case: &Case, table: &[u8]) -> bool {
    let loose = table.chunks_exact(32).find(|record| is_lost(table, record));
    loose.is_some_and(|entry| {
        let file = two(entry, 4);
        entries_of(table, file) == entries_of(&case.table, file)
    })
}

/// Which kinds a mend is.
fn mended(case: &Case, outcome: &Outcome) -> Vec<usize> {
    let (before, after) = (&case.table[..], &outcome.table[..]);
    let differ = differing(before, after);
    let gone = differ.iter().filter(|(_, old, _)| old[0] == 2);
    let gone: Vec<u16> = gone.map(|(_, old, _)| two(old, 4)).collect();
    let left = count(after, |record| is_lost(after, record));
    match outcome.number() {
        0 if !gone.is_empty() => {
            let kind = |number: &u16| match before.chunks_exact(32).nth((*number).into()) {
                None => Some(MENDED + 3),
                Some(record) => [Some(MENDED), None, Some(MENDED + 1), Some(MENDED + 2)]
                    .get(usize::from(record[0]))
                    .copied()
                    .flatten(),
            };
            let kinds: BTreeSet<usize> = gone.iter().filter_map(kind).collect();
            let more = (differ.len() > gone.len()).then_some(MENDED_MORE);
            kinds.into_iter().chain(more).collect()
        }
        22 if !gone.is_empty() && left > 0 => vec![MEND_CUT],
        2 if left > 0 => vec![NOT_MENDED],
        _ => Vec::new(),
    }
}

/// Does a name of the line begin with a user's number?
fn has_users_number(line: &[u8]) -> bool {
    let words = beside::words(line);
    let mut names = words.iter().skip(1);
    names.any(|word| beside::user_number(word.first()).is_some())
}

/// Which kinds of `KINDS` a call met.
fn kinds(case: &Case, outcome: &Outcome) -> Vec<usize> {
    let Some(asked) = &case.asked else {
        return mended(case, outcome);
    };
    let number = outcome.number();
    if number == 8 && is_dst(&asked.line) && has_users_number(&asked.line) {
        return vec![USERS_NUMBER];
    }
    match (number, destroys(case)) {
        (1..=3, _) | (_, None) => Vec::new(),
        (0, Some((asked, names))) => match names.len() {
            1 => walked(&case.table, asked.user, &names[0])
                .map(|at| granted(case, asked.user, &at))
                .unwrap_or_default(),
            _ => granted_all(case, outcome),
        },
        (22, Some(_)) => cut(case, outcome),
        (_, Some((asked, names))) => refused(case, asked, &names, outcome),
    }
}

/// What of a DST that was not stopped is broken: as many headings are cleared as names are done, with them their text and every entry that
/// names them, and nothing else but the counts of their holders; each record takes one store a name.
fn broken_dst(case: &Case, outcome: &Outcome) -> Option<&'static str> {
    let (before, after) = (&case.table[..], &outcome.table[..]);
    let gone = cleared(before, after);
    if gone.len() != outcome.names() as usize || outcome.answer[4..6] != [0, 0] {
        return Some("other headings cleared than names are done");
    }
    let mut should_be = before.to_vec();
    let goes = |number: u16, record: &[u8]| match record[0] {
        1 => gone.contains(&number),
        2 => gone.contains(&two(record, 4)),
        3 => gone.contains(&two(record, 2)),
        _ => false,
    };
    for (number, record) in (0..).zip(should_be.chunks_exact_mut(32)) {
        if goes(number, record) {
            record.fill(0);
        }
    }
    for holder in gone.iter().flat_map(|file| holders(before, *file)) {
        let holds = (holding(&should_be, holder) as u16).to_le_bytes();
        let record = &mut should_be[usize::from(holder) * 32..][..32];
        if record[0] == 1 {
            record[14..16].copy_from_slice(&holds);
        }
    }
    if should_be != after {
        return Some("another record than the file's, its entries and the holders' counts");
    }
    let stores = |file: &u16| {
        1 + texts(before, *file).len() + entries_of(before, *file) + holders(before, *file).len()
    };
    let needed: usize = gone.iter().map(stores).sum();
    (outcome.stores() as usize != needed).then_some("other stores than a DST needs")
}

/// What of a DST that was not stopped, or of a mend, is broken: a mend clears the entries that name no heading or stand in none once it is
/// done, and no others.
pub fn broken(case: &Case, outcome: &Outcome) -> Option<&'static str> {
    if case.asked.is_none() {
        let after = &outcome.table;
        let differ = differing(&case.table, after);
        let kept = differ
            .iter()
            .any(|(_, old, _)| old[0] == 2 && !is_adrift(after, old));
        let left = count(after, |record| is_adrift(after, record));
        let wrong = kept || outcome.number() == 0 && left > 0;
        return wrong.then_some("other entries cleared than those adrift");
    }
    destroys(case)
        .filter(|_| !matches!(outcome.number(), 1..=3 | 22))
        .and_then(|_| broken_dst(case, outcome))
}

impl Destroyed {
    /// One more answer.
    pub fn count(&mut self, case: &Case, outcome: &Outcome) {
        for kind in kinds(case, outcome) {
            self.0.count(NUMBERS.len() + kind);
        }
        let line = case.asked.as_ref().map_or(&[][..], |asked| &asked.line);
        let number = NUMBERS.iter().position(|n| *n == outcome.answer[0]);
        if let Some(at) = number.filter(|_| is_dst(line)) {
            self.0.count(at);
        }
    }

    /// How often each was met.
    pub fn branches(&self) -> &Branches {
        &self.0
    }
}

#[cfg(test)]
mod tests {
    use super::*;
    use crate::tables::withdrawn;

    /// A call on a table, for user 1.
    fn asked(table: &[u8], line: &str) -> Case {
        let asked = Asked {
            line: line.as_bytes().to_vec(),
            text: Vec::new(),
            reply: 0,
            user: 1,
        };
        Case::request(table, asked)
    }

    /// The kinds of a call, as the second program does it.
    fn told(case: &Case) -> Vec<&'static str> {
        let outcome = case.beside();
        assert_eq!(broken(case, &outcome), None);
        let kinds = kinds(case, &outcome).into_iter();
        kinds.map(|kind| KINDS[kind]).collect()
    }

    /// The kinds of a DST on the table of withdrawn sheets.
    fn met(line: &str) -> Vec<&'static str> {
        told(&asked(&withdrawn(), line))
    }

    #[test]
    fn what_is_destroyed_is_told_by_its_records() {
        assert_eq!(met("DST .R:LONE"), ["of one entry"]);
        let keys = met("DST .R:KEYS");
        for kind in [
            "of several entries",
            "another user's base file",
            "an entry in a lost loop",
            "a holder of several of its entries",
            "several holders",
            "several blocks",
            "a holder's heading inhibited",
        ] {
            assert!(keys.contains(&kind), "{kind}: {keys:?}");
        }
        assert_eq!(
            met("DST .AB"),
            ["of one entry", "base files alone", "no text"]
        );
        assert!(met("DST .R:E").contains(&"a directory"));
        assert!(met("DST .R:CUT").contains(&"marked"));
        assert!(met("DST .R:SHUT").contains(&"read-inhibited"));
        assert!(met("DST .R:Q:A").contains(&"in an inhibited directory"));
    }

    #[test]
    fn names_are_told() {
        assert_eq!(met("DST .R:LONE .AB"), ["several names"]);
        let emptied = ["several names", "a directory that it emptied"];
        assert_eq!(met("DST .R:D:F .R:D"), emptied);
        assert_eq!(met("DST .R:LONE .R:LONE"), ["an equal name"]);
        let same = ["another entry of a file that is gone"];
        assert_eq!(met("DST .R:KEYS .R:AGAIN"), same);
        assert_eq!(met("DST .R:LONE .R:X"), ["refused midway otherwise"]);
        assert_eq!(met("DST .R:LONE .R:D"), ["18 midway"]);
        assert_eq!(met("DST .R:X"), [""; 0]);
        assert_eq!(met("DST .R:LONE .000002:A"), ["8 by a user's number"]);
    }

    #[test]
    fn refusals_are_told() {
        assert_eq!(met("DST .R:CAP"), ["14 by the heading"]);
        assert_eq!(met("DST .R:PEN"), ["14 by the entry alone"]);
        assert_eq!(met("DST .R:Q"), ["14 by the heading", "14 before 18"]);
        assert_eq!(met("DST .R:D"), [""; 0]);
        assert_eq!(
            met("DST .R:ME"),
            [
                "18 by its own entry alone",
                "18 where another entry names it"
            ]
        );
        assert_eq!(met("DST .R"), [""; 0]);
    }

    #[test]
    fn cuts_are_told_by_what_is_loose() {
        let case = asked(&withdrawn(), "DST .R:KEYS");
        let stores = case.beside().stores();
        let seen: Vec<Vec<&str>> = (0..stores).map(|stop| told(&case.stopped(stop))).collect();
        assert_eq!(seen[0], [""; 0]);
        assert_eq!(seen[1], ["cut before its text"]);
        assert_eq!(seen[3], ["cut before its text"]);
        assert_eq!(seen[4], ["cut before its entries"]);
        assert_eq!(seen[5], ["cut among its entries"]);
        assert_eq!(seen[stores as usize - 1], ["cut before its counts"]);
        let case = asked(&withdrawn(), "DST .AB .R:LONE .R:X");
        let refused = "cut before a name that is refused";
        assert_eq!(told(&case.stopped(2)), ["cut between two names", refused]);
        let later = ["cut before its entries", "cut in a later name", refused];
        assert_eq!(told(&case.stopped(4)), later);
    }

    #[test]
    fn mending_is_told_by_what_the_entries_name() {
        let mut table = withdrawn();
        let free = table.chunks(32).rposition(|record| record[0] == 0);
        let at = free.expect("there is one") * 32;
        let records = table.len() / 32;
        table[at..at + 12].copy_from_slice(&[2, 0, 255, 255, 0, 0, 1, 0, 0, 2, b'.', b'T']);
        let kind_of = |kind: u8| {
            let first = withdrawn().chunks(32).position(|record| record[0] == kind);
            first.expect("there is one") as u16
        };
        for (number, expected) in [
            (kind_of(0), "mended of an entry of a free record"),
            (kind_of(2), "mended of an entry of an entry"),
            (kind_of(3), "mended of an entry of a text"),
            (records as u16, "mended of an entry past the end"),
        ] {
            table[at + 4..at + 6].copy_from_slice(&number.to_le_bytes());
            assert_eq!(told(&Case::mend(&table, 99)), [expected]);
        }
        table[12] += 1;
        let more = [
            "mended of an entry past the end",
            "mended of entries and more",
        ];
        assert_eq!(told(&Case::mend(&table, 99)), more);
        table[2] = 9;
        let not = ["not mended beside such an entry"];
        assert_eq!(told(&Case::mend(&table, 99)), not);
    }

    #[test]
    fn a_dst_that_leaves_something_else_is_broken() {
        let case = asked(&withdrawn(), "DST .R:KEYS .AB");
        let with = |change: &dyn Fn(&mut Outcome)| {
            let mut outcome = case.beside();
            assert_eq!(outcome.number(), 0);
            change(&mut outcome);
            broken(&case, &outcome).is_some()
        };
        assert!(!with(&|_| ()));
        let whole = case.beside();
        let first = |kind: u8| {
            let gone = differing(&case.table, &whole.table).into_iter();
            let mut gone = gone.filter(|(_, old, new)| (old[0], new[0]) == (kind, 0));
            usize::from(gone.next().expect("there is one").0) * 32
        };
        for kind in [1, 2, 3] {
            let at = first(kind);
            let kept = case.table[at..at + 32].to_vec();
            assert!(with(
                &|outcome| outcome.table[at..at + 32].copy_from_slice(&kept)
            ));
        }
        assert!(with(&|outcome| outcome.answer[6] -= 1));
        assert!(with(&|outcome| outcome.answer[3] -= 1));
        assert!(with(&|outcome| outcome.table[14] += 1));
        assert!(with(&|outcome| outcome.table[12] += 1));
    }
}
