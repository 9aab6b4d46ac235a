//! How often each branch of WRS* was met, and of what may befall a marked file; and what a rewrite must leave, by the records.

use beside::Request;

use crate::branches::Branches;
use crate::case::{Asked, Case, Outcome};
use crate::records::{blocks, count, heading, texts, two, walked, Walked, BASE_FILE, READ, WRITE};

/// The numbers of WRS*, in their order.
const NUMBERS: [u64; 14] = [6, 7, 8, 9, 10, 11, 12, 13, 14, 15, 19, 22, 24, 0];
const KINDS: [&str; 22] = [
    "fewer blocks",
    "as many blocks",
    "more blocks",
    "onto no text",
    "with no text",
    "of a marked file",
    "without a free record",
    "in records of the old text",
    "text not in order",
    "read-inhibited",
    "in an inhibited directory",
    "19 though records are free",
    "RDS 23",
    "RDS 23 before 28",
    "CPY 23",
    "CPY 23 before 25",
    "DPR of a marked file",
    "DUP of a marked file",
    "a marked file cleared",
    "2 by a mark alone",
    "mended with text of a marked file",
    "not mended by a mark alone",
];
const NO_ROOM: usize = 11;
const RDS_MARKED: usize = 12;
const CPY_MARKED: usize = 14;
const DPR_MARKED: usize = 16;
const DUP_MARKED: usize = 17;
const CLEARED: usize = 18;
const UNSOUND: usize = 19;
const MENDED: usize = 20;
const NOT_MENDED: usize = 21;

/// A count for each number and each kind.
pub struct Rewritten(Branches);

impl Default for Rewritten {
    fn default() -> Rewritten {
        Rewritten(Branches::numbered("rewrites", &NUMBERS, &KINDS))
    }
}

fn is_marked(record: &[u8]) -> bool {
    record[0] == 1 && record[5] == 1
}

/// What a WRS* is about, if the line is one and its name is there, in a table that was not refused.
fn rewrites<'a>(case: &'a Case, outcome: &Outcome) -> Option<(&'a Asked, Walked<'a>)> {
    let asked = case
        .asked
        .as_ref()
        .filter(|_| !matches!(outcome.number(), 1 | 2))?;
    match beside::read(&asked.line, 0) {
        Ok(Request::Rewrite { name }) => Some((asked, walked(&case.table, asked.user, &name)?)),
        _ => None,
    }
}

/// The table with this file marked and empty.
fn emptied(table: &[u8], file: u16) -> Vec<u8> {
    let mut emptied = table.to_vec();
    for (number, record) in (0..).zip(emptied.chunks_exact_mut(32)) {
        if number == file {
            record[5] = 1;
            record[10..12].fill(0);
        } else if record[0] == 3 && two(record, 2) == file {
            record.fill(0);
        }
    }
    emptied
}

/// "before, after, or after with that one file marked and empty": the third, where a WRS* is granted.
pub fn marked_and_empty(case: &Case, uncut: &Outcome) -> Option<Vec<u8>> {
    let (_, Walked { file, .. }) = rewrites(case, uncut)?;
    (uncut.number() == 0).then(|| emptied(&case.table, file))
}

/// What of a granted WRS* is broken: it makes two stores and one for each block of the old and of the new text; the heading has the new length
/// and is unmarked, its text is the one lent, and every other record but the old text's and some that were free is as before.
pub fn broken(case: &Case, outcome: &Outcome) -> Option<&'static str> {
    let (asked, Walked { file, .. }) = rewrites(case, outcome)?;
    let [number, _, _, names, displaced, bytes, stores] = outcome.answer;
    if number != 0 {
        return (number == 23).then_some("a rewrite with 23");
    }
    let old = blocks(two(heading(&case.table, file), 10).into());
    let needed = 2 + old + blocks(asked.text.len());
    if [names, displaced, bytes, stores] != [1, 0, 0, needed as u64] {
        return Some("other counts than a rewrite has");
    }
    if emptied(&case.table, file) != emptied(&outcome.table, file) {
        return Some("another record than the heading and the text is changed");
    }
    let after = heading(&outcome.table, file);
    if after[5] != 0 || usize::from(two(after, 10)) != asked.text.len() {
        return Some("another mark or length than a rewrite leaves");
    }
    let mut texts = texts(&outcome.table, file);
    texts.sort_by_key(|(position, _)| *position);
    let content: Vec<u8> = texts.iter().flat_map(|(_, held)| held.to_vec()).collect();
    (content != asked.text).then_some("another text than was lent")
}

/// Which kinds a granted WRS* is.
fn granted(case: &Case, asked: &Asked, walked: &Walked, outcome: &Outcome) -> Vec<usize> {
    let before = heading(&case.table, walked.file);
    let (old, new) = (blocks(two(before, 10).into()), blocks(asked.text.len()));
    let free = count(&case.table, |record| record[0] == 0);
    let own = |table: &[u8]| -> Vec<usize> {
        let records = table.chunks_exact(32).enumerate();
        let own = records.filter(|(_, r)| r[0] == 3 && two(r, 2) == walked.file);
        own.map(|(number, _)| number).collect()
    };
    let (were, are) = (own(&case.table), own(&outcome.table));
    let texts = texts(&case.table, walked.file);
    let kinds = [
        new < old,
        new == old,
        new > old,
        old == 0,
        new == 0,
        is_marked(before),
        free == 0,
        are.iter().any(|number| were.contains(number)),
        !texts.is_sorted_by_key(|(position, _)| *position),
        (before[3] | walked.entry[1]) & READ != 0,
        walked.directory != BASE_FILE && walked.above & WRITE != 0,
    ];
    (0..)
        .zip(kinds)
        .filter(|(_, is)| *is)
        .map(|(kind, _)| kind)
        .collect()
}

/// What a request other than WRS* met of marked files.
fn befell(case: &Case, asked: &Asked, outcome: &Outcome) -> Option<usize> {
    let number = outcome.number();
    if number == 23 {
        return match beside::read(&asked.line, 0).ok()? {
            Request::Rds { portion, .. } => {
                Some(RDS_MARKED + usize::from(portion.first.unwrap_or(0) > 0))
            }
            Request::Cpy { old, guard, .. } => {
                let (user, old) = old.begun(asked.user, b".T");
                let file = walked(&case.table, user, &old)?.file;
                let level = heading(&case.table, file)[2];
                let lower = guard.level.is_some_and(|declared| (declared as u8) < level);
                Some(CPY_MARKED + usize::from(lower))
            }
            _ => None,
        };
    }
    if number != 0 || count(&case.table, is_marked) == 0 {
        return None;
    }
    if count(&outcome.table, is_marked) < count(&case.table, is_marked) {
        return Some(CLEARED);
    }
    let (name, kind) = match beside::read(&asked.line, 0).ok()? {
        Request::Dpr { name, .. } => (name, DPR_MARKED),
        Request::Dup { old, .. } => (old, DUP_MARKED),
        _ => return None,
    };
    let (user, name) = name.begun(asked.user, b".T");
    let file = walked(&case.table, user, &name)?.file;
    is_marked(heading(&case.table, file)).then_some(kind)
}

/// Is it the marks alone that are wrong in a table: without them it is sound?
fn wrong_by_marks(table: &[u8]) -> bool {
    let mut unmarked = table.to_vec();
    let headings = unmarked.chunks_exact_mut(32).filter(|r| r[0] == 1);
    headings.for_each(|heading| heading[5] = 0);
    unmarked != table && beside::sound(&unmarked)
}

/// What a mend met of marked files.
fn mended(case: &Case, outcome: &Outcome) -> Option<usize> {
    match outcome.number() {
        0 if outcome.stores() > 0 => {
            let marked: Vec<u16> = (0..)
                .zip(case.table.chunks_exact(32))
                .filter(|(_, record)| is_marked(record))
                .map(|(number, _)| number)
                .collect();
            let text = |r: &[u8]| r[0] == 3 && marked.contains(&two(r, 2));
            (count(&case.table, text) > count(&outcome.table, text)).then_some(MENDED)
        }
        2 => wrong_by_marks(&case.table).then_some(NOT_MENDED),
        _ => None,
    }
}

/// Is WRS* the first word?
fn is_rewrite(line: &[u8]) -> bool {
    let words = beside::words(line);
    words.first().and_then(|word| word.whole()) == Some(b"WRS*")
}

/// Which kinds of `KINDS` a call met.
fn kinds(case: &Case, outcome: &Outcome) -> Vec<usize> {
    let Some(asked) = &case.asked else {
        return mended(case, outcome).into_iter().collect();
    };
    match (outcome.number(), rewrites(case, outcome)) {
        (2, _) if wrong_by_marks(&case.table) => vec![UNSOUND],
        (0, Some((asked, walked))) => granted(case, asked, &walked, outcome),
        (19, Some(_)) if count(&case.table, |record| record[0] == 0) > 0 => vec![NO_ROOM],
        (_, Some(_)) => Vec::new(),
        (_, None) => befell(case, asked, outcome).into_iter().collect(),
    }
}

impl Rewritten {
    /// One more answer.
    pub fn count(&mut self, case: &Case, outcome: &Outcome) {
        for kind in kinds(case, outcome) {
            self.0.count(NUMBERS.len() + kind);
        }
        let line = case.asked.as_ref().map_or(&[][..], |asked| &asked.line);
        let number = NUMBERS.iter().position(|n| *n == outcome.answer[0]);
        if let Some(at) = number.filter(|_| is_rewrite(line)) {
            self.0.count(at);
        }
    }

    /// How often each was met.
    pub fn branches(&self) -> &Branches {
        &self.0
    }
}

#[cfg(test)]
mod tests {
    use super::*;
    use crate::tables::sheets;

    /// A call on a table, as the second program does it.
    fn done(table: &[u8], line: &str, text: &[u8]) -> (Case, Outcome) {
        let asked = Asked {
            line: line.as_bytes().to_vec(),
            text: text.to_vec(),
            reply: 24_000,
            user: 1,
        };
        let case = Case::request(table, asked);
        let outcome = case.beside();
        (case, outcome)
    }

    /// The kinds of a request on the sheets.
    fn met(line: &str, text: &[u8]) -> Vec<&'static str> {
        let (case, outcome) = done(&sheets(4), line, text);
        assert_eq!(broken(&case, &outcome), None, "{line}");
        kinds(&case, &outcome)
            .into_iter()
            .map(|kind| KINDS[kind])
            .collect()
    }

    #[test]
    fn a_rewrite_is_told_by_its_records() {
        let again = "in records of the old text";
        assert_eq!(met("WRS* M .R:A", b"1"), ["fewer blocks", again]);
        assert_eq!(met("WRS* M .R:A", &[b'x'; 30]), ["as many blocks", again]);
        assert_eq!(met("WRS* M .R:A", &[b'x'; 60]), ["more blocks", again]);
        assert_eq!(met("WRS* M .R:A", b""), ["fewer blocks", "with no text"]);
        assert_eq!(
            met("WRS* M .R:A", &[b'x'; 240]),
            ["19 though records are free"]
        );
        let repaired = ["more blocks", "onto no text", "of a marked file"];
        assert_eq!(met("WRS* M .R:CUT", b"1"), repaired);
        assert!(met("WRS* M .R:SHUT", b"1").contains(&"read-inhibited"));
        assert!(met("WRS* M .R:D:B", b"1").contains(&"in an inhibited directory"));
        assert!(met("WRS* M .R:L", b"1").is_empty());
        assert!(met("WRS* M .R:X", b"1").is_empty());
    }

    #[test]
    fn what_befalls_a_marked_file_is_told() {
        assert_eq!(met("RDS .R:CUT", b""), ["RDS 23"]);
        assert_eq!(met("RDS .R:CUT 1", b""), ["RDS 23 before 28"]);
        assert_eq!(met("CPY .R:CUT .R:N", b""), ["CPY 23"]);
        assert_eq!(met("CPY .R:CUTS .R:N .U", b""), ["CPY 23 before 25"]);
        assert_eq!(met("DPR .R:CUT .4", b""), ["DPR of a marked file"]);
        assert_eq!(met("DUP .R:CUT .R:N", b""), ["DUP of a marked file"]);
        assert_eq!(met("DEL .R:CUT", b""), ["a marked file cleared"]);
        assert_eq!(met("DEL .R:A", b""), [""; 0]);
    }

    #[test]
    fn marks_and_text_under_them_are_told() {
        let mut table = sheets(4);
        let (case, outcome) = done(&table, "WRS* M .R:A", b"1");
        let file = rewrites(&case, &outcome).expect("it is there").1.file;
        let at = usize::from(file) * 32;
        table[at + 5] = 1;
        // the length is still there: not sound, and not to be mended
        let (case, outcome) = done(&table, "LST .", b"");
        assert_eq!(kinds(&case, &outcome), [UNSOUND]);
        let mend = Case::mend(&table, 99);
        assert_eq!(kinds(&mend, &mend.beside()), [NOT_MENDED]);
        table[at + 10] = 0;
        let mend = Case::mend(&table, 99);
        assert_eq!(kinds(&mend, &mend.beside()), [MENDED]);
    }

    #[test]
    fn a_rewrite_that_leaves_something_else_is_broken() {
        let (case, whole) = done(&sheets(4), "WRS* M .R:A", b"NEW");
        let file = usize::from(rewrites(&case, &whole).expect("it is there").1.file) * 32;
        let with = |change: &dyn Fn(&mut Outcome)| {
            let mut outcome = whole.clone();
            change(&mut outcome);
            broken(&case, &outcome).is_some()
        };
        assert!(!with(&|_| ()));
        assert!(with(&|outcome| outcome.table[file + 5] = 1));
        assert!(with(&|outcome| outcome.table[file + 10] = 4));
        assert!(with(&|outcome| outcome.table[file + 3] = 4));
        assert!(with(&|outcome| outcome.answer[6] -= 1));
        assert!(with(&|outcome| outcome.table[1] = 1));
        assert!(with(&|outcome| outcome.answer[0] = 23));
        let text = whole.table.windows(3).position(|bytes| bytes == b"NEW");
        assert!(with(
            &|outcome| outcome.table[text.expect("it is there")] = b'O'
        ));
    }
}
