//! The tables between a call's start and its end: after each name of a DEL or a DST, after each sheet of a job, and between the phases of a
//! rewrite and of a DST; and the table after a sweep.

use filebox::{Answer, NotGreen, Number, Phase, Sheet, Table, NO_STOP, RECORD_BYTES};

/// What is written as one: cut anywhere, mending gives the table before it or after it; of a rewrite perhaps after it with that one file marked
/// and empty, of a sweep perhaps one that is swept to the table after it.
#[derive(Debug, Clone, PartialEq, Eq)]
pub enum Step {
    /// The table after a request, one name of a DEL, or one sheet of a job. Which record is written when is told by the tables before and after.
    Whole(Table),
    /// A rewrite: the tables with its heading marked, with all its text besides, and after it. Old and new text may share a record, so
    /// that the tables before and after do not tell.
    Rewrite([Table; 3]),
    /// One name of a DST: the tables with its heading cleared, and after it. It is the heading that counts, and entries may be many, so that the
    /// tables before and after do not tell.
    Destroy([Table; 2]),
    /// The table after a sweep. What a record was before says when it is written.
    Sweep(Table),
}

impl Step {
    /// The table after it, with its index.
    pub fn after(self) -> Table {
        match self {
            Step::Whole(after) | Step::Sweep(after) => after,
            Step::Rewrite([_, _, after]) | Step::Destroy([_, after]) => after,
        }
    }
}

/// Byte 0 of a free record, of a heading, and of an entry.
const FREE: u8 = 0;
const HEADING: u8 = 1;
const ENTRY: u8 = 2;

/// A request of a user: its line and its text.
#[derive(Debug, Clone, Copy)]
pub struct Request<'a> {
    /// The user for whom it is done.
    pub user: u32,
    /// The request line.
    pub line: &'a [u8],
    /// The text, for a WRS or WRS*.
    pub text: &'a [u8],
}

impl Request<'_> {
    /// The answer with a stop number, and the table then.
    fn stopped(&self, table: &Table, reply: &mut [u8], stop: u32) -> (Answer, Table) {
        let mut table = table.clone();
        let Request { user, line, text } = *self;
        let answer = table.stopped(user, line, text, reply, stop);
        (answer, table)
    }

    /// The answer on this table, and a step for each name that was done; after the last is the table after the request.
    pub fn steps(&self, table: &Table, reply: &mut [u8]) -> (Answer, Vec<Step>) {
        let (answer, after) = self.stopped(table, reply, NO_STOP);
        if is_rewrite(answer, table, &after) {
            let at = |stop| self.stopped(table, &mut [], stop).1;
            let tables = [at(1), at(answer.stores - 1), after];
            return (answer, vec![Step::Rewrite(tables)]);
        }
        let mut steps = Vec::new();
        let mut done = (0, table.clone());
        for names in 1..answer.names {
            let next = self.least_stop(table, names, done.0..answer.stores);
            steps.push(self.step(table, done, next.1.clone()));
            done = next;
        }
        steps.push(self.step(table, done, after));
        (answer, steps)
    }

    /// The step from the table at a stop number to the one after the next name. A DST clears a heading by the first store of a name, and no
    /// other request does.
    fn step(&self, table: &Table, (stop, before): (u32, Table), after: Table) -> Step {
        if !clears_heading(&before, &after) {
            return Step::Whole(after);
        }
        let (_, first) = self.stopped(table, &mut [], stop + 1);
        match clears_heading(&before, &first) {
            true => Step::Destroy([first, after]),
            false => Step::Whole(after),
        }
    }

    /// The least stop number at which so many names are done, and the table then. It is in this range or at its end.
    fn least_stop(&self, table: &Table, names: u32, range: std::ops::Range<u32>) -> (u32, Table) {
        let (mut low, mut high) = (range.start, range.end);
        while low < high {
            let middle = low + (high - low) / 2;
            let (answer, _) = self.stopped(table, &mut [], middle);
            match answer.names < names {
                true => low = middle + 1,
                false => high = middle,
            }
        }
        (low, self.stopped(table, &mut [], low).1)
    }
}

/// Each record of two tables.
fn pairs<'a>(one: &'a Table, other: &'a Table) -> impl Iterator<Item = (&'a [u8], &'a [u8])> {
    let records = |table: &'a Table| table.as_ref().chunks(RECORD_BYTES);
    records(one).zip(records(other))
}

/// Is a heading cleared?
fn clears_heading(before: &Table, after: &Table) -> bool {
    pairs(before, after).any(|(old, new)| (old[0], new[0]) == (HEADING, FREE))
}

/// Is this what a rewrite leaves? It was granted with more than one store and changed something, and no entry: every other request of more than
/// one store stores an entry that is new, names another file, or is cleared.
fn is_rewrite(answer: Answer, before: &Table, after: &Table) -> bool {
    let changed = pairs(before, after).filter(|(old, new)| old != new);
    let mut changed = changed.peekable();
    let several = answer.number == Number::Done && answer.stores > 1;
    several
        && changed.peek().is_some()
        && changed.all(|(old, new)| ![old[0], new[0]].contains(&ENTRY))
}

/// A job of a user: the sheets that are filed in the directory of a chain.
#[derive(Debug, Clone, Copy)]
pub struct Job<'a> {
    /// The user for whom it is done.
    pub user: u32,
    /// The chain of the directory.
    pub chain: &'a str,
    /// The sheets.
    pub sheets: &'a [Sheet<'a>],
}

/// The light of a job: green, or why it is not.
pub type Lit = Result<filebox::Light, NotGreen>;

impl Job<'_> {
    /// The light on this table, and a step for each sheet that was filed; after the last is the table after the job.
    pub fn steps(&self, table: &Table) -> (Lit, Vec<Step>) {
        let mut after = table.clone();
        let lit = after.light(self.user, self.chain, self.sheets);
        let mut between = table.clone();
        let mut steps = Vec::new();
        for sheet in self.sheets.iter().take(filed(&lit, self.sheets.len())) {
            // its light is part of the job's; what it leaves is the table with this sheet filed
            let _ = between.light(self.user, self.chain, &[*sheet]);
            steps.push(Step::Whole(between.clone()));
        }
        steps.push(Step::Whole(after));
        (lit, steps)
    }
}

/// How many sheets stand filed after a job of so many.
fn filed(lit: &Lit, sheets: usize) -> usize {
    match lit {
        Ok(_) => sheets,
        Err(NotGreen::Red(red)) if red.phase == Phase::Reading => sheets,
        Err(NotGreen::Red(red)) => red.sheet as usize - 1,
        Err(_) => 0,
    }
}
