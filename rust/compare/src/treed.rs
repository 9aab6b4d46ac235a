//! How often each branch of LST* was met: each number, each depth, and what stands in the tree.

use beside::{Listed, Request};
use random::names::name;
use std::collections::BTreeSet;

use crate::branches::Branches;
use crate::case::{Asked, Case, Outcome};
use crate::records::{two, BASE_FILE};

const DEEPEST: usize = 8;
/// The numbers of LST*, in their order.
const NUMBERS: [u64; 9] = [6, 7, 8, 9, 11, 12, 13, 15, 20];
const KINDS: [&str; 8] = [
    "a base list",
    "a take",
    "a loop",
    "a shared directory",
    "closed by its heading",
    "closed by its entry",
    "a buffer just long enough",
    "no lines",
];

/// A count for each number, each depth that was granted, and each kind of tree, of more than one level.
pub struct Treed(Branches);

impl Default for Treed {
    fn default() -> Treed {
        let numbers = NUMBERS.iter().map(u64::to_string);
        let depths = (1..=DEEPEST).map(|depth| format!("depth {depth}"));
        let kinds = KINDS.iter().map(ToString::to_string);
        Treed(Branches::new("trees", numbers.chain(depths).chain(kinds)))
    }
}

/// A tree walked by its records: how many lines it has, and which kinds of `KINDS` it is.
struct Walked<'a> {
    table: &'a [u8],
    opened: BTreeSet<u16>,
    lines: usize,
    kinds: [bool; KINDS.len()],
}

impl<'a> Walked<'a> {
    fn entries(&self, directory: u16, user: u32) -> Vec<&'a [u8]> {
        let user = &user.to_le_bytes()[..3];
        let there = |r: &&[u8]| r[0] == 2 && two(r, 2) == directory && &r[6..9] == user;
        self.table.chunks_exact(32).filter(there).collect()
    }

    fn heading(&self, number: u16) -> &'a [u8] {
        &self.table[usize::from(number) * 32..][..32]
    }

    /// The directory at the end of these names.
    fn end<'n>(&self, user: u32, names: impl Iterator<Item = &'n [u8]>) -> Option<u16> {
        let (mut directory, mut user) = (BASE_FILE, user);
        for link in names {
            let entries = self.entries(directory, user);
            let bears = |entry: &&&[u8]| name(entry).as_bytes() == link;
            directory = two(entries.iter().find(bears)?, 4);
            user = 0;
        }
        Some(directory)
    }

    /// The lines of a directory, by this way, down to so many levels.
    fn directory(&mut self, directory: u16, user: u32, way: &mut Vec<u16>, depth: u8) {
        for entry in self.entries(directory, user) {
            let at_the_top = directory == BASE_FILE && name(entry) == ".W";
            if !at_the_top {
                self.lines += 1;
                self.under(entry, way, depth);
            }
        }
    }

    /// What stands under an entry.
    fn under(&mut self, entry: &[u8], way: &mut Vec<u16>, depth: u8) {
        let number = two(entry, 4);
        let heading = self.heading(number);
        if depth == 1 || heading[1] != 0 {
            return;
        }
        let closed = [heading[3] & 2 != 0, entry[1] & 2 != 0];
        self.kinds[4] |= closed[0];
        self.kinds[5] |= closed[1];
        if closed.contains(&true) {
            return;
        }
        let above = way.contains(&number);
        self.kinds[2] |= above;
        self.kinds[3] |= !self.opened.insert(number) && !above;
        way.push(number);
        self.directory(number, 0, way, depth - 1);
        way.pop();
    }
}

/// The tree of a line that was granted.
fn walked<'a>(table: &'a [u8], user: u32, listed: &Listed, depth: u8) -> Option<Walked<'a>> {
    let mut walked = Walked {
        table,
        opened: BTreeSet::new(),
        lines: 0,
        kinds: [false; KINDS.len()],
    };
    let first = match listed {
        Listed::BaseList => BASE_FILE,
        Listed::Directory(chain) => {
            walked.kinds[1] = chain.user().is_some();
            let (user, chain) = chain.begun(user, b".T");
            walked.end(user, chain.names())?
        }
    };
    walked.kinds[0] = first == BASE_FILE;
    walked.opened.insert(first);
    let user = if first == BASE_FILE { user } else { 0 };
    walked.directory(first, user, &mut vec![first], depth);
    Some(walked)
}

/// The request of an LST* that was granted, and its tree.
fn granted<'a>(case: &'a Case, outcome: &Outcome) -> Option<(u8, Walked<'a>)> {
    let Asked { line, user, .. } = case.asked.as_ref()?;
    match (outcome.number(), beside::read(line, 0)) {
        (0, Ok(Request::Tree { listed, depth })) => {
            Some((depth, walked(&case.table, *user, &listed, depth)?))
        }
        _ => None,
    }
}

/// Is LST* the first word?
fn is_tree(line: &[u8]) -> bool {
    let words = beside::words(line);
    words.first().and_then(|word| word.whole()) == Some(b"LST*")
}

/// As many lines as the records say: what of it is broken.
pub fn broken(case: &Case, outcome: &Outcome) -> Option<&'static str> {
    let (_, walked) = granted(case, outcome)?;
    let written = &outcome.reply[..outcome.bytes()];
    let lines = written.iter().filter(|byte| **byte == 10).count();
    (lines != walked.lines).then_some("another count of lines than the tree has")
}

impl Treed {
    /// One more answer.
    pub fn count(&mut self, case: &Case, outcome: &Outcome) {
        let Some(Asked { line, reply, .. }) = &case.asked else {
            return;
        };
        let number = NUMBERS.iter().position(|n| *n == outcome.answer[0]);
        if let Some(at) = number.filter(|_| is_tree(line)) {
            self.0.count(at);
        }
        let Some((depth, mut walked)) = granted(case, outcome) else {
            return;
        };
        if walked.lines > 0 {
            self.0.count(NUMBERS.len() + usize::from(depth) - 1);
        }
        walked.kinds[6] = walked.lines > 0 && outcome.bytes() == *reply;
        walked.kinds[7] = walked.lines == 0;
        let kinds = walked.kinds.iter().enumerate();
        for (kind, _) in kinds.filter(|(_, met)| depth > 1 && **met) {
            self.0.count(NUMBERS.len() + DEEPEST + kind);
        }
    }

    /// How often each was met.
    pub fn branches(&self) -> &Branches {
        &self.0
    }
}

#[cfg(test)]
mod tests {
    use super::*;
    use crate::tables::knot;

    /// The kinds of the tree that a line gives on a knot, as the second program does it, in a buffer that is longer.
    fn kinds(line: &str) -> Vec<&'static str> {
        let asked = Asked {
            line: line.as_bytes().to_vec(),
            text: Vec::new(),
            reply: 24_000,
            user: 1,
        };
        let case = Case::request(&knot(), asked);
        let outcome = case.beside();
        let mut treed = Treed::default();
        treed.count(&case, &outcome);
        assert_eq!(broken(&case, &outcome), None);
        let met = treed.branches().met();
        let is_met = |kind: &&str| met.contains(kind);
        KINDS.into_iter().filter(is_met).collect()
    }

    #[test]
    fn a_tree_is_told_by_its_records() {
        assert_eq!(kinds("LST* .R:D 2"), ["a loop"]);
        assert_eq!(kinds("LST* .R:E 2"), ["closed by its heading"]);
        assert_eq!(kinds("LST* .G 2"), ["closed by its entry"]);
        assert_eq!(kinds("LST* .T:S 2"), ["no lines"]);
        assert_eq!(kinds("LST* .T 2"), ["a shared directory"]);
        assert_eq!(kinds("LST* .000001:S 2"), ["a take", "no lines"]);
        assert_eq!(kinds("LST* . 2")[0], "a base list");
        // one level has no kind
        assert!(kinds("LST* .R:D 1").is_empty());
        assert!(kinds("LST .R:D").is_empty());
    }

    #[test]
    fn another_count_of_lines_is_broken() {
        let asked = Asked {
            line: b"LST* .R:D 2".to_vec(),
            text: Vec::new(),
            reply: 24_000,
            user: 1,
        };
        let case = Case::request(&knot(), asked);
        let mut outcome = case.beside();
        let end = outcome.bytes() - 1;
        outcome.reply[end] = b' ';
        assert!(broken(&case, &outcome).is_some());
    }
}
