//! How often each branch of a sweep was met: what is lost, what stays beside it, and where it is cut; and what a sweep must store, by the
//! records.

use beside::sound;

use crate::branches::Branches;
use crate::case::{Case, Outcome};
use crate::indexed::is_true;
use crate::records::{count, differing, heading, reached, two, BASE_FILE, READ};

/// The numbers of a sweep, in their order.
const NUMBERS: [u64; 5] = [1, 2, 26, 22, 0];
const KINDS: [&str; 27] = [
    "nothing lost",
    "a directory that holds itself",
    "directories that link each other",
    "several directories lost",
    "a sheet lost",
    "text lost",
    "a marked file lost",
    "an inhibited directory lost",
    "a live file counted",
    "a live directory counted",
    "several counted",
    "a base file of each of several users",
    "live by an inhibited directory alone",
    "more than three levels live",
    "another list after it",
    "the same list after it",
    "cut before its first store",
    "cut among entries",
    "cut among headings",
    "cut among text",
    "cut among counts",
    "2 beside something lost",
    "26 beside something lost",
    "1 before 26",
    "2 before 26",
    "cut, and mended to its end",
    "cut, mended and swept again",
];
const LISTED: usize = 14;
const CUT: usize = 16;
const NOT_SOUND: usize = 21;
const NOT_TRUE: usize = 22;
const BEFORE_26: usize = 23;
const AGAIN: usize = 25;

/// A count for each number and each kind.
pub struct Swept(Branches);

impl Default for Swept {
    fn default() -> Swept {
        Swept(Branches::numbered("swept", &NUMBERS, &KINDS))
    }
}

/// The numbers of the records that a sweep stores to, in its order: entries, headings and text that are not reached, each by record number;
/// then the headings that stay and that a cleared entry names.
pub struct Due {
    steps: [Vec<u16>; 4],
}

impl Due {
    pub fn of(table: &[u8]) -> Due {
        let reached = reached(table);
        let is_lost = |number: u16| !reached.contains(&number);
        let numbered = || (0..).zip(table.chunks_exact(32));
        let of_kind = |kind: u8| {
            let records = numbered().filter(move |(_, record)| record[0] == kind);
            let lost = records.filter(|(number, record)| match kind {
                1 => is_lost(*number),
                _ => is_lost(two(record, 2)),
            });
            lost.map(|(number, _)| number).collect::<Vec<u16>>()
        };
        let entries = of_kind(2);
        let named = entries.iter().map(|entry| two(heading(table, *entry), 4));
        let mut counts: Vec<u16> = named.filter(|number| !is_lost(*number)).collect();
        counts.sort();
        counts.dedup();
        Due {
            steps: [entries, of_kind(1), of_kind(3), counts],
        }
    }

    /// How many stores that are.
    pub fn stores(&self) -> usize {
        self.steps.iter().map(Vec::len).sum()
    }

    /// Is a heading or an entry among them?
    fn is_lost(&self) -> bool {
        self.stores() > 0
    }

    /// The records of the first so many stores, by their numbers.
    fn first(&self, stores: usize) -> Vec<u16> {
        let mut first = self.steps.concat();
        first.truncate(stores);
        first.sort();
        first
    }

    /// In which step a sweep is that made so many stores: before its first, or the last of which something is stored.
    fn step(&self, stores: usize) -> usize {
        let mut left = stores;
        let within = |step: &Vec<u16>| {
            let here = left > 0;
            left = left.saturating_sub(step.len());
            here
        };
        self.steps.iter().map(within).filter(|here| *here).count()
    }
}

/// What of a sweep is broken, by the records: it stores to the records that are due, first to last; what is cleared is free, and of what is
/// counted only the first count is another; done, the table is sound and nothing is lost.
pub fn broken(case: &Case, outcome: &Outcome) -> Option<&'static str> {
    let (before, after) = (&case.table[..], &outcome.table[..]);
    let differ = differing(before, after);
    if ![0, 22].contains(&outcome.number()) {
        let kept = outcome.stores() == 0 && differ.is_empty() && before.len() == after.len();
        return (!kept).then_some("a sweep refused that stores");
    }
    if outcome.answer[1..6] != [0; 5] {
        return Some("a sweep that answers more than stores");
    }
    let due = Due::of(before);
    let touched: Vec<u16> = differ.iter().map(|(number, _, _)| *number).collect();
    if touched != due.first(outcome.stores() as usize) {
        return Some("a sweep that stores to other records, or in another order");
    }
    let fits = |(number, old, new): &(u16, &[u8], &[u8])| match due.steps[3].contains(number) {
        true => old[..12] == new[..12] && old[14..] == new[14..],
        false => new.iter().all(|byte| *byte == 0),
    };
    if !differ.iter().all(fits) {
        return Some("a sweep that stores something else");
    }
    let is_done = due.stores() == outcome.stores() as usize;
    if is_done != (outcome.number() == 0) {
        return Some("a sweep that ends early, or is stopped at its end");
    }
    let left = is_done && (!sound(after) || Due::of(after).is_lost());
    left.then_some("a sweep that leaves something lost, or a table that is not sound")
}

/// Which of the first kinds a sweep is that was done, by what goes.
fn cleared(table: &[u8], due: &Due) -> Vec<bool> {
    let [entries, headings, texts, counts] = &due.steps;
    let record = |number: &u16| heading(table, *number);
    let directories = headings.iter().filter(|number| record(number)[1] == 0);
    let own = |entry: &&u16| two(record(entry), 2) == two(record(entry), 4);
    let sheets = headings.iter().filter(|number| record(number)[1] == 1);
    let holds_itself = entries.iter().filter(own).count();
    vec![
        !due.is_lost(),
        holds_itself > 0,
        due.is_lost() && holds_itself == 0,
        directories.clone().count() > 1,
        sheets.clone().count() > 0,
        !texts.is_empty(),
        sheets.clone().any(|number| record(number)[5] == 1),
        directories.clone().any(|number| record(number)[3] != 0),
        counts.iter().any(|number| record(number)[1] == 1),
        counts.iter().any(|number| record(number)[1] == 0),
        counts.len() > 1,
    ]
}

/// The table without the entries of this test.
fn without(table: &[u8], test: impl Fn(&[u8]) -> bool) -> Vec<u8> {
    let mut without = table.to_vec();
    let records = without.chunks_exact_mut(32);
    let picked = records.filter(|record| record[0] == 2 && test(record));
    picked.for_each(|record| record.fill(0));
    without
}

/// And by what stays beside it.
fn kept(table: &[u8], due: &Due) -> Vec<bool> {
    let base = |record: &[u8]| record[0] == 2 && two(record, 2) == BASE_FILE;
    let first = table.chunks_exact(32).find(|record| base(record));
    let other = |record: &[u8]| base(record) && first.is_some_and(|one| one[6..9] != record[6..9]);
    let inhibited = |entry: &[u8]| {
        let holder = two(entry, 2);
        holder != BASE_FILE && heading(table, holder)[3] & READ != 0
    };
    let open = without(table, inhibited);
    let live = reached(table).len();
    vec![
        due.is_lost() && count(table, other) > 0,
        due.is_lost() && reached(&open).len() < live,
        due.is_lost() && levels(table) > 3,
    ]
}

/// How many passes over the entries it takes to reach all that is reached, if each goes a level down.
fn levels(table: &[u8]) -> usize {
    let mut reached = vec![BASE_FILE];
    for level in 0.. {
        let entries = table.chunks_exact(32).filter(|record| record[0] == 2);
        let held = entries.filter(|entry| reached.contains(&two(entry, 2)));
        let named: Vec<u16> = held.map(|entry| two(entry, 4)).collect();
        let before = reached.len();
        reached.extend(named);
        reached.sort();
        reached.dedup();
        if reached.len() == before {
            return level;
        }
    }
    0
}

/// Which kinds of `KINDS` a sweep met.
fn kinds(case: &Case, outcome: &Outcome) -> Vec<usize> {
    let table = &case.table[..];
    let wrong_list = !is_true(table, &case.index);
    match outcome.number() {
        1 | 2 if wrong_list => vec![BEFORE_26 + outcome.number() as usize - 1],
        1 => vec![],
        2 => {
            let without = count(table, |record| record[0] == 1) >= reached(table).len();
            without.then_some(NOT_SOUND).into_iter().collect()
        }
        26 => {
            let lost = Due::of(table).is_lost();
            lost.then_some(NOT_TRUE).into_iter().collect()
        }
        22 => vec![CUT + Due::of(table).step(outcome.stores() as usize)],
        _ => {
            let due = Due::of(table);
            let met = [cleared(table, &due), kept(table, &due)].concat();
            let kinds = met.iter().enumerate().filter(|(_, is)| **is);
            let same = usize::from(outcome.index == case.index);
            kinds.map(|(kind, _)| kind).chain([LISTED + same]).collect()
        }
    }
}

impl Swept {
    /// One more sweep.
    pub fn count(&mut self, case: &Case, outcome: &Outcome) {
        let number = NUMBERS.iter().position(|n| *n == outcome.answer[0]);
        number.into_iter().for_each(|at| self.0.count(at));
        for kind in kinds(case, outcome) {
            self.0.count(NUMBERS.len() + kind);
        }
    }

    /// One more that was cut and mended, and swept again by so many stores.
    pub fn count_again(&mut self, stores: u32) {
        self.0
            .count(NUMBERS.len() + AGAIN + usize::from(stores > 0));
    }

    /// How often each was met.
    pub fn branches(&self) -> &Branches {
        &self.0
    }
}

#[cfg(test)]
mod tests {
    use super::*;
    use crate::tables::{attic, knot};

    /// The kinds of a sweep, as the second program does it.
    fn told(case: &Case) -> Vec<&'static str> {
        let outcome = case.beside();
        assert_eq!(broken(case, &outcome), None);
        let kinds = kinds(case, &outcome).into_iter();
        kinds.map(|kind| KINDS[kind]).collect()
    }

    #[test]
    fn what_is_lost_is_told_by_its_records() {
        let seen = told(&Case::sweep(&attic()));
        for kind in [
            "a directory that holds itself",
            "several directories lost",
            "a sheet lost",
            "text lost",
            "a marked file lost",
            "an inhibited directory lost",
            "a live file counted",
            "a live directory counted",
            "several counted",
            "a base file of each of several users",
            "another list after it",
        ] {
            assert!(seen.contains(&kind), "{kind}: {seen:?}");
        }
        let nothing = told(&Case::sweep(&knot()));
        assert_eq!(nothing, ["nothing lost", "the same list after it"]);
    }

    #[test]
    fn cuts_are_told_by_their_steps() {
        let case = Case::sweep(&attic());
        let due = Due::of(&attic());
        assert_eq!(case.beside().stores() as usize, due.stores());
        let mut stores = 0;
        for (step, kind) in due.steps.iter().zip(&KINDS[CUT + 1..]) {
            let before = if stores == 0 { KINDS[CUT] } else { "" };
            let at = told(&case.stopped(stores));
            assert!(stores > 0 || at == [before], "{at:?}");
            assert_eq!(told(&case.stopped(stores + 1)), [*kind]);
            stores += step.len() as u32;
        }
    }

    #[test]
    fn refusals_are_told() {
        let case = Case::sweep(&attic());
        assert_eq!(told(&case.with(&[])), ["26 beside something lost"]);
        assert_eq!(told(&Case::sweep(&knot()).with(&[])), [""; 0]);
        let mut damaged = case.clone();
        damaged.table[12] += 1;
        assert_eq!(told(&damaged), ["2 beside something lost"]);
        damaged.index.clear();
        assert_eq!(told(&damaged), ["2 before 26"]);
        damaged.table.pop();
        assert_eq!(told(&damaged), ["1 before 26"]);
    }

    #[test]
    fn a_sweep_that_leaves_something_else_is_broken() {
        let case = Case::sweep(&attic());
        let with = |change: &dyn Fn(&mut Outcome)| {
            let mut outcome = case.beside();
            change(&mut outcome);
            broken(&case, &outcome).is_some()
        };
        assert!(!with(&|_| ()));
        let whole = case.beside();
        for (number, old, _) in differing(&case.table, &whole.table) {
            let at = usize::from(number) * 32;
            assert!(with(
                &|outcome| outcome.table[at..at + 32].copy_from_slice(old)
            ));
        }
        for (at, byte) in whole.table.iter().enumerate() {
            let other = byte ^ 1;
            assert!(with(&|outcome| outcome.table[at] = other), "{at}");
        }
        assert!(with(&|outcome| outcome.answer[6] -= 1));
        assert!(with(&|outcome| outcome.answer[3] = 1));
        assert!(with(&|outcome| outcome.answer[0] = 22));
        assert!(with(&|outcome| outcome.answer[0] = 2));
    }
}
