//! Request lines of users who give, take, list and read each other's shelves, and change their own.

use crate::chains::{link, new, old, taken};
use crate::parts::part;
use crate::requests::{declaration, granted};
use crate::trees::shallow;
use crate::Random;

/// A give to this user: mostly a link of few, so that some are taken.
fn given(random: &mut Random, user: u32) -> String {
    let link = match random.below(2) {
        0 => format!("N{}", random.below(400)),
        _ => link(random).to_string(),
    };
    format!(".{user:06}:{link}")
}

/// The user's number where it may not stand, or with other digits.
fn misplaced(random: &mut Random, table: &[u8], user: u32, other: u32) -> String {
    let (own, link) = (old(random, table, user), link(random));
    let name = match random.below(3) {
        0 => format!(".{other:06}"),
        _ => format!(".{other:06}:{link}"),
    };
    match random.below(16) {
        0 => format!("CRD {name}"),
        1 => format!("WRS M {name}"),
        2 => format!("CPY {own} {name}"),
        3 => format!("CHN {name} {link}"),
        4 => format!("CHN {own} .{other:06}"),
        5 => format!("DEL {own} {name}"),
        6 => format!("DPR {name} .4"),
        7 | 8 => format!("DUP .{other:06} {}", new(random, table, user)),
        9 => format!("DUP {own} .{other:06}"),
        10 => format!("DUP {own} {name}:{link}"),
        11 => format!("DUP {own} .{other:05}:{link}"),
        13 => format!("WRS* M {name}"),
        14 => format!("DST {own} {name}"),
        12 => format!("RDS .{other:07}:{link}"),
        _ => format!("LST .{other:05}{}", random.pick(&["A", ".", "_"])),
    }
}

/// Something that changes what the user's own shelves are.
fn moved(random: &mut Random, table: &[u8], user: u32) -> String {
    let shelf = random.pick(&[".G", ".T"]);
    let code = random.pick(&["", "", "", ".1", ".2", ".4"]);
    match random.below(11) {
        0..=2 => format!("CRD {shelf} {code}"),
        3 => format!("WRS M{code} {shelf}"),
        4 => format!("DUP {} {shelf} {code}", old(random, table, user)),
        5 => format!("DUP {shelf} {}", new(random, table, user)),
        6 => format!("CHN {shelf} {}", random.pick(&[".AB", ".T", ".G"])),
        7 => format!("CHN .AB {shelf}"),
        8 => format!("DPR {shelf} .{}", random.pick(&[1, 2, 4])),
        9 => format!("DST {}", old(random, table, user)),
        _ => format!("DEL {shelf}"),
    }
}

/// A line of this user about another one's shelves, or one's own.
fn shelved(random: &mut Random, table: &[u8], user: u32, other: u32) -> String {
    let digit = random.pick(&["", "", "-", ".1", ".4", ".2"]);
    let take = taken(random, table, other);
    match random.below(17) {
        0..=4 => {
            let (own, give) = (old(random, table, user), given(random, other));
            format!("DUP {own} {give} {digit}")
        }
        5 => format!("DUP {take} {} {digit}", given(random, user)),
        6 | 7 => format!("DUP {take} {} {digit}", new(random, table, user)),
        8 | 9 => {
            let lifetime = random.pick(&["", "", "M", "L"]);
            let declared = declaration(random, lifetime);
            format!("CPY {take} {} {declared}", new(random, table, user))
        }
        10 | 11 => format!("RDS {take}{}", part(random)),
        12 => format!("LST .{other:06}"),
        13 | 14 => format!("LST {take}"),
        15 => format!("LST* .{other:06} {}", shallow(random)),
        _ => format!("LST* {take} {}", shallow(random)),
    }
}

/// A line of one of these users: mostly about a shelf.
pub fn line(random: &mut Random, table: &[u8], users: &[u32], user: u32) -> Vec<u8> {
    let other = random.pick(users);
    let line = match random.below(24) {
        0..=15 => shelved(random, table, user, other),
        16 => misplaced(random, table, user, other),
        17..=19 => moved(random, table, user),
        _ => granted(random, table, user),
    };
    line.into_bytes()
}
