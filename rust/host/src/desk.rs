//! Where requests are taken one after the other: the table, and the journal of what was taken.

use std::fs::File;
use std::io::{stderr, Write};
use std::sync::{Mutex, MutexGuard, PoisonError};

use filebox::Answer;

use crate::disk::Disk;
use crate::kept::Kept;
use crate::steps::Request;

/// The table that everybody asks, and the order in which they were taken.
pub struct Desk<D> {
    name: String,
    kept: Kept<D>,
    journal: Option<File>,
}

/// Where a line comes from, which says for whom it is done.
#[derive(Debug, Clone, Copy, PartialEq, Eq)]
pub struct Place {
    /// Which fixture, from 1; standard input is 0.
    pub fixture: usize,
    /// Its user number.
    pub user: u32,
}

impl<D: Disk> Desk<D> {
    /// A desk over this table. The name is said in messages; each request is written to the journal, if there is one.
    pub fn new(name: String, kept: Kept<D>, journal: Option<File>) -> Desk<D> {
        Desk {
            name,
            kept,
            journal,
        }
    }

    /// Take a request and answer it, or say why it has no answer.
    pub fn ask(
        &mut self,
        from: Place,
        line: &[u8],
        text: &[u8],
        reply: &mut [u8],
    ) -> Result<Answer, String> {
        let name = &self.name;
        if let Some(journal) = &mut self.journal {
            let entry = entry(from, line, text);
            let written = journal.write_all(&entry);
            written.map_err(|error| format!("{name}: the journal cannot be written: {error}"))?;
        }
        let user = from.user;
        let answer = self.kept.request(Request { user, line, text }, reply);
        answer.map_err(|wrong| format!("{name}: {wrong}"))
    }
}

/// Say something on standard error. Where nobody hears it, nothing is lost but the words.
pub fn say(words: &str) {
    let _ = writeln!(stderr(), "{words}");
}

/// The desk, when it is one's turn. Whoever failed before left no half step in memory: the table is doubted until it is read
/// again.
pub fn turn<D>(desk: &Mutex<Desk<D>>) -> MutexGuard<'_, Desk<D>> {
    desk.lock().unwrap_or_else(PoisonError::into_inner)
}

/// A request in the journal: four numbers on a line, fixture, user, bytes of the line and of the text; then both, and a
/// byte 10.
fn entry(from: Place, line: &[u8], text: &[u8]) -> Vec<u8> {
    let Place { fixture, user } = from;
    let mut entry = format!("{fixture} {user} {} {}\n", line.len(), text.len()).into_bytes();
    entry.extend_from_slice(line);
    entry.extend_from_slice(text);
    entry.push(b'\n');
    entry
}
