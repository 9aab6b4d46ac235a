//! How often each branch of the counts was met: which headings a request counts anew, what a cut leaves uncounted, and what mending makes of
//! wrong counts; and what the counts and the stores of a granted request must be, by the records.

use beside::Request;

use crate::branches::Branches;
use crate::case::{Asked, Case, Outcome};
use crate::records::{differing, entries_of, two, BASE_FILE};

const KINDS: [&str; 38] = [
    "a new file in a base list",
    "a new file in a directory",
    "a new file before its directory",
    "a new file over a last entry",
    "a new file over one of several",
    "DUP in a base list",
    "DUP in a directory",
    "DUP of a file before the directory",
    "DUP into itself",
    "DUP over the same file",
    "DUP over a last entry",
    "DUP over one of several",
    "over an entry of the directory itself",
    "of the directory itself over another file",
    "DEL of a last entry",
    "DEL of one of several",
    "DEL in a base list",
    "DEL of a directory's own entry",
    "a high byte moved",
    "CHN",
    "DPR of a shared file",
    "WRS* of a shared file",
    "cut with one count left",
    "cut with more counts left",
    "DEL cut with a name done and a count left",
    "2 by byte 12",
    "2 by byte 13",
    "2 by byte 14",
    "2 by byte 15",
    "2 by a table of document 01",
    "mended in byte 12",
    "mended in byte 13",
    "mended in byte 14",
    "mended in byte 15",
    "mended in several headings",
    "mended after clearing",
    "mended from document 01",
    "not mended by a simple file's bytes 14-15",
];
const NEW_FILE: usize = 0;
const BEFORE_ITS_DIRECTORY: usize = 2;
const NEW_OVER: usize = 3;
const DUP: usize = 5;
const DUP_BEFORE: usize = 7;
const INTO_ITSELF: usize = 8;
const OVER_THE_SAME: usize = 9;
const DUP_OVER: usize = 10;
const OVER_ITSELF: usize = 12;
const ITSELF_OVER: usize = 13;
const DEL: usize = 14;
const DEL_BASE: usize = 16;
const DEL_ITSELF: usize = 17;
const HIGH_BYTE: usize = 18;
const KEPT: usize = 19;
const CUT: usize = 22;
const CUT_DEL: usize = 24;
const UNSOUND: usize = 25;
const UNSOUND_OLD: usize = 29;
const MENDED: usize = 30;
const SEVERAL: usize = 34;
const AFTER_CLEARING: usize = 35;
const MENDED_OLD: usize = 36;
const NOT_MENDED: usize = 37;

/// A count for each kind.
pub struct Counted(Branches);

impl Default for Counted {
    fn default() -> Counted {
        Counted(Branches::new("counts", KINDS))
    }
}

/// The table with true counts: how many entries name each heading and, of a directory, how many it holds. Nothing else is other.
fn recounted(table: &[u8]) -> Vec<u8> {
    let mut counts = vec![[0u16; 2]; table.len() / 32];
    for entry in table.chunks_exact(32).filter(|record| record[0] == 2) {
        for (which, at) in [(0, 4), (1, 2)] {
            if let Some(count) = counts.get_mut(usize::from(two(entry, at))) {
                count[which] += 1;
            }
        }
    }
    let mut recounted = table.to_vec();
    for (heading, [named, holding]) in recounted.chunks_exact_mut(32).zip(counts) {
        if heading[0] == 1 {
            heading[12..14].copy_from_slice(&named.to_le_bytes());
        }
        if heading[..2] == [1, 0] {
            heading[14..16].copy_from_slice(&holding.to_le_bytes());
        }
    }
    recounted
}

/// The table with every simple file's bytes 14-15 zero.
fn cleaned(table: &[u8]) -> Vec<u8> {
    let mut cleaned = table.to_vec();
    let simple = cleaned.chunks_exact_mut(32).filter(|r| r[..2] == [1, 1]);
    simple.for_each(|heading| heading[14..16].fill(0));
    cleaned
}

/// How many headings of a table have untrue counts.
fn untrue(table: &[u8]) -> usize {
    differing(table, &recounted(table)).len()
}

/// Does no heading of the table have a count, though one should?
fn is_of_document_01(table: &[u8]) -> bool {
    let mut headings = table.chunks_exact(32).filter(|record| record[0] == 1);
    headings.all(|heading| heading[12..16] == [0; 4]) && untrue(table) > 0
}

/// The one byte of 12 to 15, from 0, in which a table differs from another; nothing where they differ in more.
fn one_byte(one: &[u8], other: &[u8]) -> Option<usize> {
    let mut bytes = (0..one.len()).filter(|at| one[*at] != other[*at]);
    let at = bytes.next().filter(|_| bytes.next().is_none())?;
    (at % 32).checked_sub(12).filter(|byte| *byte < 4)
}

/// What a granted request was, by its entry before and after, if it is one that stores an entry.
struct Entered<'a> {
    before: Option<&'a [u8]>,
    after: Option<&'a [u8]>,
}

impl Entered<'_> {
    /// The heading of the directory that holds it, if that is not a base list.
    fn holder(&self) -> Option<u16> {
        let entry = self.before.or(self.after)?;
        Some(two(entry, 2)).filter(|directory| *directory != BASE_FILE)
    }
}

/// The one entry in which the tables differ.
fn entered<'a>(before: &'a [u8], after: &'a [u8]) -> Option<Entered<'a>> {
    let is_entry = |record: &&'a [u8]| record[0] == 2;
    let differ = differing(before, after).into_iter();
    let mut entries = differ.map(|(_, old, new)| Entered {
        before: Some(old).filter(is_entry),
        after: Some(new).filter(is_entry),
    });
    entries.find(|entry| entry.before.is_some() || entry.after.is_some())
}

/// What is asked, where it was granted with one name done.
fn granted<'a>(case: &'a Case, outcome: &Outcome) -> Option<(Request<'a>, &'a Asked)> {
    let asked = case.asked.as_ref()?;
    let one = (outcome.number(), outcome.names()) == (0, 1);
    let request = beside::read(&asked.line, 0).ok().filter(|_| one)?;
    Some((request, asked))
}

/// Which kinds a granted request is that lays an entry: of a new file, or of one that was there.
fn laid(case: &Case, entry: &Entered, dup: bool) -> Vec<usize> {
    let Some(after) = entry.after else {
        return Vec::new();
    };
    let (file, holder) = (two(after, 4), entry.holder());
    let before_it = holder.is_some_and(|holder| file < holder);
    let mut kinds = Vec::new();
    match entry.before.map(|before| two(before, 4)) {
        None if holder == Some(file) => kinds.push(INTO_ITSELF),
        None => {
            let into = usize::from(holder.is_some());
            kinds.push(into + if dup { DUP } else { NEW_FILE });
            if before_it {
                kinds.push(if dup {
                    DUP_BEFORE
                } else {
                    BEFORE_ITS_DIRECTORY
                });
            }
        }
        Some(displaced) if displaced != file => {
            let several = usize::from(entries_of(&case.table, displaced) > 1);
            kinds.push(several + if dup { DUP_OVER } else { NEW_OVER });
            if holder == Some(displaced) {
                kinds.push(OVER_ITSELF);
            }
            if holder == Some(file) {
                kinds.push(ITSELF_OVER);
            }
        }
        Some(_) => {}
    }
    kinds
}

/// Which kinds a DEL of one name is.
fn deleted(case: &Case, entry: &Entered) -> Vec<usize> {
    let Some(before) = entry.before else {
        return Vec::new();
    };
    let file = two(before, 4);
    let several = usize::from(entries_of(&case.table, file) > 1);
    let mut kinds = vec![DEL + several];
    match entry.holder() {
        None => kinds.push(DEL_BASE),
        Some(holder) if holder == file => kinds.push(DEL_ITSELF),
        Some(_) => {}
    }
    kinds
}

/// Did a count's high byte change, in a heading that stays one?
fn high_byte(before: &[u8], after: &[u8]) -> bool {
    let headings = differing(before, after).into_iter();
    let mut both = headings.filter(|(_, old, new)| (old[0], new[0]) == (1, 1));
    both.any(|(_, old, new)| old[13] != new[13])
}

/// Is the heading that changed named by more than one entry?
fn is_shared(before: &[u8], after: &[u8]) -> bool {
    let differ = differing(before, after).into_iter();
    let mut headings = differ.filter(|(_, old, new)| (old[0], new[0]) == (1, 1));
    headings.any(|(_, old, _)| two(old, 12) > 1)
}

/// Which kinds a granted request is.
fn done(case: &Case, outcome: &Outcome) -> Vec<usize> {
    let Some((request, _)) = granted(case, outcome) else {
        return Vec::new();
    };
    let (before, after) = (&case.table[..], &outcome.table[..]);
    let entry = entered(before, after);
    let mut kinds = match (&request, &entry) {
        (Request::Crd { .. } | Request::Wrs { .. } | Request::Cpy { .. }, Some(entry)) => {
            laid(case, entry, false)
        }
        (Request::Dup { .. }, _) if outcome.answer[4] == 1 && outcome.stores() == 1 => {
            vec![OVER_THE_SAME]
        }
        (Request::Dup { .. }, Some(entry)) => laid(case, entry, true),
        (Request::Del { .. }, Some(entry)) => deleted(case, entry),
        (Request::Chn { .. }, _) => vec![KEPT],
        (Request::Dpr { .. }, _) if is_shared(before, after) => vec![KEPT + 1],
        (Request::Rewrite { .. }, _) if is_shared(before, after) => vec![KEPT + 2],
        _ => Vec::new(),
    };
    if entry.is_some() && high_byte(before, after) {
        kinds.push(HIGH_BYTE);
    }
    kinds
}

/// Which kinds a cut is: with true counts it would be sound.
fn cut(asked: &Asked, outcome: &Outcome) -> Vec<usize> {
    let left = untrue(&outcome.table);
    if left == 0 || !beside::sound(&recounted(&outcome.table)) {
        return Vec::new();
    }
    let mut kinds = vec![CUT + usize::from(left > 1)];
    let del = matches!(beside::read(&asked.line, 0), Ok(Request::Del { .. }));
    if del && outcome.names() > 0 {
        kinds.push(CUT_DEL);
    }
    kinds
}

/// Which kinds a refusal by 2 is: with true counts the table would be sound.
fn unsound(table: &[u8]) -> Vec<usize> {
    let right = recounted(&cleaned(table));
    if !beside::sound(&right) {
        return Vec::new();
    }
    let byte = one_byte(table, &right).map(|byte| UNSOUND + byte);
    let old = is_of_document_01(table).then_some(UNSOUND_OLD);
    byte.into_iter().chain(old).collect()
}

/// Which kinds a mend is.
fn mended(case: &Case, outcome: &Outcome) -> Vec<usize> {
    let (before, after) = (&case.table[..], &outcome.table[..]);
    match outcome.number() {
        0 if outcome.stores() > 0 => {
            let differ = differing(before, after);
            let counted = differ.iter().filter(|(_, _, new)| new[0] == 1).count();
            let byte = one_byte(before, after).map(|byte| MENDED + byte);
            let several = (counted > 1).then_some(SEVERAL);
            let cleared = (counted > 0 && counted < differ.len()).then_some(AFTER_CLEARING);
            let old = (is_of_document_01(before) && counted == differ.len()).then_some(MENDED_OLD);
            [byte, several, cleared, old]
                .into_iter()
                .flatten()
                .collect()
        }
        2 => {
            let clean = cleaned(before);
            let wrong = clean != before && beside::sound(&recounted(&clean));
            Vec::from_iter(wrong.then_some(NOT_MENDED))
        }
        _ => Vec::new(),
    }
}

/// Which kinds of `KINDS` a call met.
fn kinds(case: &Case, outcome: &Outcome) -> Vec<usize> {
    match (&case.asked, outcome.number()) {
        (None, _) => mended(case, outcome),
        (_, 0) => done(case, outcome),
        (_, 2) => unsound(&case.table),
        (Some(asked), 22) => cut(asked, outcome),
        _ => Vec::new(),
    }
}

/// What of a granted request is broken: a count that is not true after it; counts that CHN, DPR or a rewrite moved; other stores of one name
/// than a record each for the new file, the entry, each heading whose counts are others (a new one's were 0) or that is cleared, and what is
/// cleared.
pub fn broken(case: &Case, outcome: &Outcome) -> Option<&'static str> {
    let (request, _) = granted(case, outcome)?;
    let (before, after) = (&case.table[..], &outcome.table[..]);
    let differ = differing(before, after);
    if untrue(after) > 0 {
        return Some("counts that are not true after a request");
    }
    let counts = |(_, old, new): &&(u16, &[u8], &[u8])| match (old[0], new[0]) {
        (1, 1) => old[12..16] != new[12..16],
        (1, 0) | (0, 1) => true,
        _ => false,
    };
    let counted = differ.iter().filter(counts).count();
    match request {
        Request::Chn { .. } | Request::Dpr { .. } | Request::Rewrite { .. } => {
            (counted > 0).then_some("counts moved by a request that moves none")
        }
        Request::Crd { .. }
        | Request::Wrs { .. }
        | Request::Cpy { .. }
        | Request::Dup { .. }
        | Request::Del { .. } => {
            let moved = |(_, old, new): &&(u16, &[u8], &[u8])| {
                [old[0], new[0]].contains(&0) && ![old[0], new[0]].contains(&2)
            };
            let files = differ.iter().filter(moved).count();
            (outcome.stores() as usize != files + 1 + counted)
                .then_some("other stores than the entry, the file and the counts need")
        }
        _ => None,
    }
}

impl Counted {
    /// One more answer.
    pub fn count(&mut self, case: &Case, outcome: &Outcome) {
        for kind in kinds(case, outcome) {
            self.0.count(kind);
        }
    }

    /// How often each was met.
    pub fn branches(&self) -> &Branches {
        &self.0
    }
}

#[cfg(test)]
mod tests {
    use super::*;
    use crate::tables::{knot, shared};
    use random::counts::uncount;

    /// A call on a table, as the second program does it.
    fn asked(table: &[u8], line: &str) -> Case {
        let asked = Asked {
            line: line.as_bytes().to_vec(),
            text: b"NEW".to_vec(),
            reply: 24_000,
            user: 1,
        };
        Case::request(table, asked)
    }

    /// The kinds of a call.
    fn told(case: &Case) -> Vec<&'static str> {
        let outcome = case.beside();
        assert_eq!(broken(case, &outcome), None);
        let kinds = kinds(case, &outcome).into_iter();
        kinds.map(|kind| KINDS[kind]).collect()
    }

    /// The kinds of a request on the knot.
    fn met(line: &str) -> Vec<&'static str> {
        told(&asked(&knot(), line))
    }

    #[test]
    fn a_new_entry_is_told_by_its_records() {
        assert_eq!(met("CRD .AB"), ["a new file in a base list"]);
        assert_eq!(met("WRS M .R:N"), ["a new file in a directory"]);
        assert_eq!(met("WRS M .R:C:A"), [""; 0]);
        assert_eq!(met("CPY .G:A .G:A"), ["a new file over a last entry"]);
        assert_eq!(met("WRS M .T:U"), ["a new file over one of several"]);
        assert_eq!(met("DUP .G:A .AB"), ["DUP in a base list"]);
        assert_eq!(met("DUP .T:S .G:N"), ["DUP in a directory"]);
        let before = ["DUP in a directory", "DUP of a file before the directory"];
        assert_eq!(met("DUP .R .G:N"), before);
        assert_eq!(met("DUP .R .R:N"), ["DUP into itself"]);
        assert_eq!(met("DUP .T:S .T:U"), ["DUP over the same file"]);
        assert_eq!(met("DUP .T:S .G:A"), ["DUP over a last entry"]);
        assert_eq!(met("DUP .G:A .T:U"), ["DUP over one of several"]);
        let over = [
            "DUP over one of several",
            "over an entry of the directory itself",
        ];
        assert_eq!(met("DUP .G:A .R:D:D"), over);
        let itself = [
            "DUP over a last entry",
            "of the directory itself over another file",
        ];
        assert_eq!(met("DUP .G .G:A"), itself);
    }

    #[test]
    fn an_entry_less_is_told_by_its_records() {
        assert_eq!(met("DEL .G:A"), ["DEL of a last entry"]);
        assert_eq!(met("DEL .T:U"), ["DEL of one of several"]);
        let base = ["DEL of one of several", "DEL in a base list"];
        assert_eq!(met("DEL .W"), base);
        let own = ["DEL of one of several", "DEL of a directory's own entry"];
        assert_eq!(met("DEL .R:D:D"), own);
        assert_eq!(met("DEL .T:U .T:S"), [""; 0]);
    }

    #[test]
    fn what_keeps_the_counts_is_told() {
        assert_eq!(met("CHN .T:U V"), ["CHN"]);
        assert_eq!(met("DPR .T:S .4"), ["DPR of a shared file"]);
        assert_eq!(met("DPR .G:A .4"), [""; 0]);
        let table = shared(255);
        assert_eq!(
            told(&asked(&table, "WRS* M .R:A")),
            ["WRS* of a shared file"]
        );
        let up = ["DUP in a base list", "a high byte moved"];
        assert_eq!(told(&asked(&table, "DUP .R:A .AB")), up);
    }

    #[test]
    fn a_cut_before_its_counts_is_told() {
        let case = asked(&knot(), "DUP .T:S .G:N");
        assert_eq!(told(&case.stopped(0)), [""; 0]);
        assert_eq!(told(&case.stopped(1)), ["cut with more counts left"]);
        assert_eq!(told(&case.stopped(2)), ["cut with one count left"]);
        let case = asked(&knot(), "DEL .T:U .G:C");
        let done = [
            "cut with one count left",
            "DEL cut with a name done and a count left",
        ];
        assert_eq!(told(&case.stopped(5)), done);
    }

    #[test]
    fn wrong_counts_are_told_by_their_byte() {
        let table = knot();
        for (at, refused, mended) in [
            (12, "2 by byte 12", "mended in byte 12"),
            (13, "2 by byte 13", "mended in byte 13"),
            (14, "2 by byte 14", "mended in byte 14"),
            (15, "2 by byte 15", "mended in byte 15"),
        ] {
            let mut wrong = table.clone();
            wrong[at] += 1;
            assert_eq!(told(&asked(&wrong, "LST .")), [refused]);
            assert_eq!(told(&Case::mend(&wrong, 99)), [mended]);
        }
        let mut old = table.clone();
        uncount(&mut old);
        let refused = asked(&old, "LST .");
        assert_eq!(told(&refused), ["2 by a table of document 01"]);
        let both = ["mended in several headings", "mended from document 01"];
        assert_eq!(told(&Case::mend(&old, 99)), both);
        let simple = table.chunks(32).position(|record| record[..2] == [1, 1]);
        let mut wrong = table.clone();
        wrong[simple.expect("there is one") * 32 + 14] = 1;
        assert_eq!(told(&asked(&wrong, "LST .")), ["2 by byte 14"]);
        let not = ["not mended by a simple file's bytes 14-15"];
        assert_eq!(told(&Case::mend(&wrong, 99)), not);
        let mut littered = old;
        let free = littered.chunks(32).position(|record| record[0] == 0);
        littered[free.expect("there is one") * 32] = 1;
        let after = ["mended in several headings", "mended after clearing"];
        assert_eq!(told(&Case::mend(&littered, 99)), after);
    }

    #[test]
    fn counts_and_stores_that_do_not_fit_are_broken() {
        let with = |line: &str, change: &dyn Fn(&mut Outcome)| {
            let case = asked(&knot(), line);
            let mut outcome = case.beside();
            assert_eq!(outcome.number(), 0, "{line}");
            change(&mut outcome);
            broken(&case, &outcome).is_some()
        };
        for line in ["CRD .R:N", "DUP .R .R:N", "DEL .G:A", "DPR .T:S .4"] {
            assert!(!with(line, &|_| ()), "{line}");
            assert!(with(line, &|outcome| outcome.table[12] += 1), "{line}");
            assert!(with(line, &|outcome| outcome.table[14] += 1), "{line}");
        }
        for line in ["CRD .R:N", "DUP .R .R:N", "DEL .G:A"] {
            assert!(with(line, &|outcome| outcome.answer[6] -= 1), "{line}");
        }
    }
}
