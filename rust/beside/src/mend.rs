//! Mending, "with kind and type read from bytes 0 and 1 alone", and of document 02 an entry's directory from its bytes 2-3 and what it
//! names from its bytes 4-5, the mark from byte 5 and the counts from bytes 12-15.

use std::collections::HashMap;

use crate::records::{two_bytes, BASE_FILE, RECORD_BYTES};

const HEADING: u8 = 1;
const ENTRY: u8 = 2;
const TEXT: u8 = 3;
const DIRECTORY: u8 = 0;
const SIMPLE: u8 = 1;
const MARKED: u8 = 1;
/// Where an entry says which directory holds it, and which heading it names.
const HOLDER_OF_ENTRY: usize = 2;
const NAMED_BY_ENTRY: usize = 4;

/// One store of mending: the number of a record and its bytes after.
pub type Mended = (usize, [u8; RECORD_BYTES]);

/// A step of mending: the stores that it makes on a table.
type Step = fn(&[u8]) -> Vec<Mended>;

/// "Mending now first clears entries that name no heading", and "entries, base files' apart, whose directory is no heading"; "clear every
/// heading that no entry names; then every text record whose heading is not a simple-file heading; each by record number." "Mending a
/// marked file clears its text", with the other text.
const ROUND: &[Step] = &[lost_entries, unnamed_headings, stray_texts];

/// The stores that mending makes, in order: "mending repeats until nothing changes, counts last." "At its end mending corrects untrue
/// counts, one store a heading, by record number."
pub fn stores(table: &[u8]) -> Vec<Mended> {
    let mut after = table.to_vec();
    let mut stores = Vec::new();
    loop {
        let round = made(&mut after, ROUND);
        if round.is_empty() {
            break;
        }
        stores.extend(round);
    }
    stores.extend(made(&mut after, &[untrue_counts]));
    stores
}

/// The stores of these steps, each of which sees the table after the one before; they are made on it.
fn made(table: &mut [u8], steps: &[Step]) -> Vec<Mended> {
    let mut stores = Vec::new();
    for step in steps {
        let of_step = step(table);
        make(table, &of_step);
        stores.extend(of_step);
    }
    stores
}

/// Make these stores.
pub fn make(table: &mut [u8], stores: &[Mended]) {
    for (number, record) in stores {
        let at = number * RECORD_BYTES;
        table[at..at + RECORD_BYTES].copy_from_slice(record);
    }
}

/// For each number that the two bytes from this one on say in an entry, how many entries say it.
fn said_by_entries(table: &[u8], at: usize) -> HashMap<usize, u16> {
    let mut said = HashMap::new();
    for record in table.chunks_exact(RECORD_BYTES) {
        if record[0] == ENTRY {
            let number = two_bytes(record[at], record[at + 1]);
            *said.entry(number.into()).or_default() += 1;
        }
    }
    said
}

/// "entries that name no heading": by bytes 4-5, where no record has this number, or one of another kind; or "whose directory is no
/// heading": by bytes 2-3, the same, whatever type the heading is of. A base file's entry, whose directory is 65,535, is no such.
fn lost_entries(table: &[u8]) -> Vec<Mended> {
    let is_heading = |number: u16| {
        let record = table.chunks_exact(RECORD_BYTES).nth(number.into());
        record.is_some_and(|record| record[0] == HEADING)
    };
    let is_lost = |(_, record): &(usize, &[u8])| {
        let says = |at: usize| two_bytes(record[at], record[at + 1]);
        let (holder, named) = (says(HOLDER_OF_ENTRY), says(NAMED_BY_ENTRY));
        record[0] == ENTRY && !(is_heading(named) && (holder == BASE_FILE || is_heading(holder)))
    };
    cleared(table, is_lost)
}

/// "every heading that no entry names"
fn unnamed_headings(table: &[u8]) -> Vec<Mended> {
    let named = said_by_entries(table, NAMED_BY_ENTRY);
    let is_unnamed =
        |(number, record): &(usize, &[u8])| record[0] == HEADING && !named.contains_key(number);
    cleared(table, is_unnamed)
}

/// "every text record whose heading is not a simple-file heading", or is marked. A number past the end is no heading.
fn stray_texts(table: &[u8]) -> Vec<Mended> {
    let keeps_text = |number: usize| {
        let record = table.chunks_exact(RECORD_BYTES).nth(number);
        record.is_some_and(|record| {
            record[0] == HEADING && record[1] == SIMPLE && record[5] != MARKED
        })
    };
    let is_stray = |(_, record): &(usize, &[u8])| {
        record[0] == TEXT && !keeps_text(two_bytes(record[2], record[3]).into())
    };
    cleared(table, is_stray)
}

/// "untrue counts, one store a heading": how many entries name it, and for a directory how many it holds. The bytes 14-15 of
/// any other heading are left.
fn untrue_counts(table: &[u8]) -> Vec<Mended> {
    let named = said_by_entries(table, NAMED_BY_ENTRY);
    let holding = said_by_entries(table, HOLDER_OF_ENTRY);
    let count = |counts: &HashMap<usize, u16>, number| {
        let count: u16 = counts.get(&number).copied().unwrap_or(0);
        count.to_le_bytes()
    };
    let corrected = |(number, record): (usize, &[u8])| {
        let mut after: [u8; RECORD_BYTES] = record.try_into().ok()?;
        if after[0] == HEADING {
            after[12..14].copy_from_slice(&count(&named, number));
        }
        if after[..2] == [HEADING, DIRECTORY] {
            after[14..16].copy_from_slice(&count(&holding, number));
        }
        (after != record).then_some((number, after))
    };
    let records = table.chunks_exact(RECORD_BYTES).enumerate();
    records.filter_map(corrected).collect()
}

/// The records that a test picks out, cleared, by record number.
fn cleared(table: &[u8], test: impl Fn(&(usize, &[u8])) -> bool) -> Vec<Mended> {
    let records = table.chunks_exact(RECORD_BYTES).enumerate();
    let picked = records.filter(test);
    picked
        .map(|(number, _)| (number, [0; RECORD_BYTES]))
        .collect()
}
