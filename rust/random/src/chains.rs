//! Chains of names that stand in a table, and chains that could be new there.

use crate::names::name;
use crate::Random;

const BASE_FILE: usize = 65_535;

/// Two bytes of a record as a number.
fn two(record: &[u8], at: usize) -> usize {
    usize::from(u16::from_le_bytes([record[at], record[at + 1]]))
}

/// The entries of a directory, or of a user's base list.
fn entries(table: &[u8], directory: usize, user: u32) -> Vec<&[u8]> {
    let user = if directory == BASE_FILE { user } else { 0 };
    let user = &user.to_le_bytes()[..3];
    let stands_there = |r: &&[u8]| r[0] == 2 && two(r, 2) == directory && &r[6..9] == user;
    table.chunks_exact(32).filter(stands_there).collect()
}

/// Up to so many names down from a directory, or from the user's base list, by entries that are there.
fn down(
    random: &mut Random,
    table: &[u8],
    mut directory: usize,
    user: u32,
    most: usize,
) -> Vec<String> {
    let mut names = Vec::new();
    for _ in 0..most {
        let there = entries(table, directory, user);
        if there.is_empty() || random.once_in(40) {
            break;
        }
        let entry = random.pick(&there);
        names.push(name(entry));
        directory = two(entry, 4);
    }
    names
}

/// A chain down from the user's base list, some way, by entries that are there; a base name where there is none.
pub fn old(random: &mut Random, table: &[u8], user: u32) -> String {
    let most = random.below(5) + 1;
    let names = down(random, table, BASE_FILE, user, most);
    match names.is_empty() {
        true => base(random).to_string(),
        false => names.join(":"),
    }
}

/// The heading that the chain comes to.
fn end(table: &[u8], user: u32, chain: &str) -> Option<usize> {
    let mut heading = BASE_FILE;
    for link in chain.split(':') {
        let mut there = entries(table, heading, user).into_iter();
        heading = two(there.find(|entry| name(entry) == link)?, 4);
    }
    Some(heading)
}

/// Does the chain come to a simple file?
fn is_sheet(table: &[u8], user: u32, chain: &str) -> bool {
    let heading = end(table, user, chain).and_then(|heading| table.get(heading * 32..));
    heading.is_some_and(|at| at[..2] == [1, 1])
}

/// Another chain to the end of this one, where some tries come to one; else any.
pub fn twin(random: &mut Random, table: &[u8], user: u32, chain: &str) -> String {
    let file = end(table, user, chain);
    let mut other = old(random, table, user);
    for _ in 0..20 {
        if other != chain && end(table, user, &other) == file {
            break;
        }
        other = old(random, table, user);
    }
    other
}

/// The same, of a simple file, where some tries come to one.
pub fn sheet(random: &mut Random, table: &[u8], user: u32) -> String {
    let mut chain = old(random, table, user);
    for _ in 0..6 {
        if is_sheet(table, user, &chain) {
            break;
        }
        chain = old(random, table, user);
    }
    chain
}

/// A long chain, of up to twenty names, by entries that are there; mostly with one name in it, anywhere, that may not be there,
/// or that no entry may have.
pub fn long(random: &mut Random, table: &[u8], user: u32) -> String {
    let most = 2 + random.below(18);
    let mut names = down(random, table, BASE_FILE, user, most);
    names.push(link(random).to_string());
    for _ in 0..random.below(3) {
        let at = random.below(names.len());
        names[at] = match random.below(3) {
            0 => random.pick(&["@", "", "ELEVENCHARS", "A@"]).to_string(),
            _ => link(random).to_string(),
        };
    }
    names.join(":")
}

/// A chain that could be new: a name after a chain that is there, or instead of its last name, or that chain itself.
pub fn new(random: &mut Random, table: &[u8], user: u32) -> String {
    let old = old(random, table, user);
    let link = link(random);
    match (random.below(8), old.rsplit_once(':')) {
        (0, _) => base(random).to_string(),
        (1..=3, Some((before, _))) => format!("{before}:{link}"),
        (4, _) => old,
        _ => format!("{old}:{link}"),
    }
}

/// A take: `.nnnnnn` and, mostly, names down from that user's `.T` by entries that are there, or one that may not be.
pub fn taken(random: &mut Random, table: &[u8], user: u32) -> String {
    let mut names = vec![format!(".{user:06}")];
    let base = entries(table, BASE_FILE, user);
    if let Some(shelf) = base.into_iter().find(|entry| name(entry) == ".T") {
        let most = random.below(4);
        names.extend(down(random, table, two(shelf, 4), user, most));
    }
    if random.once_in(8) || names.len() == 1 && !random.once_in(4) {
        names.push(link(random).to_string());
    }
    names.join(":")
}

/// A link name, of few, so that they meet each other.
pub fn link(random: &mut Random) -> &'static str {
    random.pick(&["A", "B", "C", "AB", "B.", "-", "LONGNAME10", "_"])
}

/// A base name, of few; `A` is `.W:A`.
pub fn base(random: &mut Random) -> &'static str {
    random.pick(&[".R", ".W", ".W", ".G", ".T", ".AB", ".A.", "A"])
}
