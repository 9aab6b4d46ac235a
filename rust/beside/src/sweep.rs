//! "Sweep lost loops": document 02, l. What no chain of entries from any user's base files reaches, and the stores that clear it.

use std::collections::{BTreeSet, HashMap};

use crate::entries::{cleared, recount};
use crate::records::BASE_FILE;
use crate::table::{Store, Table};

/// The stores of a sweep of a sound table, in order: "A sweep clears exactly what no chain of entries from any user's base files reaches,
/// whatever the codes on it: entries, then headings, then text, each by record number, then corrects counts."
///
/// The entries are those of directories that are not reached; a base file's entry never goes. The text is that of the headings cleared.
pub fn clearings(table: &Table) -> Vec<Store> {
    let reached = reached(table);
    let is_lost = |heading: &u16| !reached.contains(heading);
    let entries = table
        .entries()
        .filter(|(_, entry)| entry.directory != BASE_FILE && is_lost(&entry.directory));
    let headings = table.headings().filter(|(number, _)| is_lost(number));
    let texts = table.texts().filter(|(_, text)| is_lost(&text.heading));
    let numbers = entries
        .map(|(number, _)| number)
        .chain(headings.map(|(number, _)| number.into()))
        .chain(texts.map(|(number, _)| number));
    let mut stores: Vec<Store> = numbers.map(cleared).collect();
    let kept: Vec<u16> = reached.into_iter().collect();
    recount(table, &mut stores, &kept, &[]);
    stores
}

/// The headings that a chain of any length comes to, from the base files of any user on, whatever codes, levels and marks there are: those
/// that base entries name; then, of each heading on the list of those to be gone through, those that the entries of its directory name.
fn reached(table: &Table) -> BTreeSet<u16> {
    let mut named_in: HashMap<u16, Vec<u16>> = HashMap::new();
    for (_, entry) in table.entries() {
        named_in
            .entry(entry.directory)
            .or_default()
            .push(entry.heading);
    }
    let mut reached = BTreeSet::new();
    let mut to_go_through = named_in.remove(&BASE_FILE).unwrap_or_default();
    while let Some(heading) = to_go_through.pop() {
        if reached.insert(heading) {
            to_go_through.extend(named_in.remove(&heading).unwrap_or_default());
        }
    }
    reached
}
