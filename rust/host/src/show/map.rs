//! A map of the records, a character each.

use filebox::RECORD_BYTES;

use super::records::{records, Record};

/// Records on a line.
const ACROSS: usize = 64;
/// What mending would clear.
const CLEARED: char = 'x';

/// The map of a table, and what the characters are; what is free in the mended table alone would be cleared. A heading that mending would only
/// count anew is drawn as it is.
pub fn map(table: &[u8], mended: &[u8]) -> String {
    let goes = table
        .chunks_exact(RECORD_BYTES)
        .zip(mended.chunks_exact(RECORD_BYTES));
    let goes = goes.map(|(is, would_be)| is != would_be && *would_be == [0; RECORD_BYTES]);
    let drawn: Vec<char> = records(table)
        .iter()
        .zip(goes)
        .map(|(record, goes)| if goes { CLEARED } else { character(record) })
        .collect();
    let mut map = String::new();
    for (line, first) in drawn.chunks(ACROSS).zip((0..).step_by(ACROSS)) {
        map += &format!("{first:4} {}\n", line.iter().collect::<String>());
    }
    map + &legend(&drawn)
}

fn character(record: &Record) -> char {
    match record {
        Record::Free => '.',
        Record::Heading(heading) if heading.directory => 'D',
        Record::Heading(_) => 'F',
        Record::Entry(_) => 'e',
        Record::Text => 't',
    }
}

/// How many records are what.
fn legend(drawn: &[char]) -> String {
    let count = |character| drawn.iter().filter(|drawn| **drawn == character).count();
    let kinds = [
        ('.', "free"),
        ('D', "directories"),
        ('F', "files"),
        ('e', "entries"),
        ('t', "text"),
        (CLEARED, "mending would clear"),
    ];
    let said = kinds.map(|(character, kind)| format!("{character} {kind} {}", count(character)));
    format!("\n{}\n", said.join(", "))
}
