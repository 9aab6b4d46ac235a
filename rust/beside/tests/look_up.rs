//! Document 02, i, "Looking a name up through it": by the second program and by the proved library, which must agree, against lists and
//! counts written by hand and against the plain scan.

mod common;
use common::*;

use beside::true_index;

const BASE: u32 = 65_535;
const HOLDER: u16 = 65_535;
const NOWHERE: u32 = 65_535;

/// The three numbers: found, entry, count.
fn look_up(table: &[u8], index: &[u16], heading: u32, user: u32, name: &[u8]) -> [u32; 3] {
    let found = beside::look_up(table, index, heading, user, name).numbers();
    let proved = filebox::look_up(table, index, heading, user, name).numbers();
    assert_eq!(proved, found, "the library: {}", name.escape_ascii());
    found
}

/// What a scan of the records finds.
fn scanned(table: &[u8], heading: u32, user: u32, name: &str) -> Option<u32> {
    let (holder, user) = match heading {
        BASE => (HOLDER, user),
        _ => (heading as u16, 0),
    };
    let bears = |record: &[u8]| {
        let sought = entry(record[1], holder, 0, user, name);
        record[0] == 2 && record[2..4] == sought[2..4] && record[6..20] == sought[6..20]
    };
    let place = table.chunks(32).position(bears);
    place.map(|place| place as u32)
}

/// The entries of two directories, 0 and 300, and base files of two users. The records between are free; nothing looks at headings.
fn shelf() -> Vec<u8> {
    let mut records = vec![FREE; 12];
    let entries = [
        (0, 0, "A"),
        (0, 0, "AB"),
        (0, 0, "B"),
        (300, 0, "A"),
        (HOLDER, 0, ".ZZZ"),
        (HOLDER, 1, ".R"),
        (HOLDER, 1, ".W"),
        (HOLDER, 65_536, ".A."),
    ];
    for (at, (holder, user, name)) in entries.into_iter().enumerate() {
        records[10 - at] = entry(0, holder, 7, user, name);
    }
    records.concat()
}

#[test]
fn the_lower_middle_is_looked_at_first_and_an_equal_one_ends_it() {
    let table = shelf();
    let index = true_index(&table);
    assert_eq!(index[..9], [10, 9, 8, 7, 6, 5, 4, 3, PADDING]);
    // of the places 0 to 7 it is place 3; then 1 or 5; then 0, 2, 4 or 6; then 7
    for (heading, user, name, entry, count) in [
        (0, 0, "A", 10, 3),
        (0, 0, "AB", 9, 2),
        (0, 0, "B", 8, 3),
        (300, 0, "A", 7, 1),
        (BASE, 0, ".ZZZ", 6, 3),
        (BASE, 1, ".R", 5, 2),
        (BASE, 1, ".W", 4, 3),
        (BASE, 65_536, ".A.", 3, 4),
    ] {
        let found = look_up(&table, &index, heading, user, name.as_bytes());
        assert_eq!(found, [1, entry, count], "{name}");
        assert_eq!(scanned(&table, heading, user, name), Some(entry));
    }
}

#[test]
fn a_name_that_is_not_there_is_looked_for_to_the_end() {
    let table = shelf();
    let index = true_index(&table);
    for (heading, user, name, count) in [
        (0, 0, "!", 3),
        (0, 0, "AA", 3),
        (0, 0, "C", 3),
        (1, 0, "A", 3),
        (300, 0, "B", 3),
        (BASE, 1, ".A.", 3),
        (BASE, 2, ".R", 4),
        (BASE, 999_999, "_", 4),
    ] {
        let found = look_up(&table, &index, heading, user, name.as_bytes());
        assert_eq!(found, [0, NOWHERE, count], "{name}");
        assert_eq!(scanned(&table, heading, user, name), None);
    }
}

#[test]
fn with_a_directory_the_user_is_not_looked_at() {
    let table = shelf();
    let index = true_index(&table);
    for user in [0, 1, 65_536, 1_000_000, u32::MAX] {
        let found = look_up(&table, &index, 0, user, b"AB");
        assert_eq!(found, [1, 9, 2], "{user}");
        let found = look_up(&table, &index, BASE, user, b".W");
        assert_eq!(found[0] == 1, user == 1, "{user}");
    }
}

#[test]
fn numbers_that_no_entry_has_are_past_all() {
    let table = shelf();
    let index = true_index(&table);
    for heading in [65_536, 65_536 + 300, 1 << 24, u32::MAX] {
        let found = look_up(&table, &index, heading, 1, b"A");
        assert_eq!(found, [0, NOWHERE, 4], "{heading}");
    }
    for user in [16_777_216, 16_777_216 + 1, u32::MAX] {
        let found = look_up(&table, &index, BASE, user, b".R");
        assert_eq!(found, [0, NOWHERE, 4], "{user}");
    }
}

/// A table of so many entries: base files of one heading, a hundred for each user. The records ascend.
fn base_files(entries: u32) -> Vec<u8> {
    let mut records = vec![named(directory(), entries as u16)];
    records.extend((0..entries).map(|at| {
        let (user, name) = base_file(at);
        entry(0, HOLDER, 0, user, &name)
    }));
    records.concat()
}

/// The user and the name of one of them.
fn base_file(at: u32) -> (u32, String) {
    let letters = [at % 100 / 10, at % 10].map(|n| char::from(b'A' + n as u8));
    (at / 100, format!(".{}{}", letters[0], letters[1]))
}

/// How often a number may be halved until nothing is left.
fn halvings(entries: u32) -> u32 {
    u32::BITS - entries.leading_zeros()
}

/// The most comparisons of all names that are there, and of some that are not, around these places.
fn most(table: &[u8], places: impl Iterator<Item = u32>) -> u32 {
    let index = true_index(table);
    let mut most = 0;
    for at in places {
        let (user, name) = base_file(at);
        let [found, entry, count] = look_up(table, &index, BASE, user, name.as_bytes());
        assert_eq!((found, entry), (1, at + 1));
        let next = format!("{name}A");
        let missed = look_up(table, &index, BASE, user, next.as_bytes());
        assert_eq!(missed[..2], [0, NOWHERE]);
        most = most.max(count).max(missed[2]);
    }
    most
}

// "take at most 12 name comparisons"

#[test]
fn tables_of_none_to_2047_entries() {
    for entries in 0..=2_047 {
        let table = base_files(entries);
        let few = entries <= 40 || entries % 256 >= 254 || entries % 256 == 0;
        let most = match few {
            true => most(&table, 0..entries),
            false => most(&table, [0, entries / 2, entries - 1].into_iter()),
        };
        assert!(most <= halvings(entries), "{entries}: {most}");
        assert!(!few || most == halvings(entries), "{entries}: {most}");
        // before all of them: of an even number the lower middle leaves one fewer on that side
        let before = look_up(&table, &true_index(&table), 0, 0, b"A");
        assert_eq!(before, [0, NOWHERE, halvings(entries + 1) - 1]);
    }
}

#[test]
fn the_most_entries_take_11_and_never_12() {
    let table = base_files(2_047);
    assert!(sound(&table));
    assert_eq!(most(&table, 0..2_047), 11);
}

// "must give the plain scan's answer on every sound table with a true index"

#[test]
fn random_tables_as_a_scan_has_it() {
    let mut dice = Dice(1971);
    let names = ["A", "B", "AB", "A!", "_", "LONGNAME10", ".R", ".W", "-"];
    let mut bench = Bench::new(60);
    let mut met = [0; 2];
    for _ in 0..600 {
        let name = *dice.pick(&[&".R", &".W", &".R:D", &".W:A"]);
        let link = names[dice.below(names.len())];
        let line = match dice.below(6) {
            0 => format!("CRD {name}"),
            1 => format!("CRD {name}:{link}"),
            2 => format!("DUP .R {name}:{link}"),
            3 => format!("CHN {name}:{link} {}", names[dice.below(names.len())]),
            4 => format!("DEL {name}:{link}"),
            _ => format!("WRS M {name}:{link}"),
        };
        bench.user = dice.below(2) as u32;
        bench.table = bench.ask(&line, b"").table;
        let index = true_index(&bench.table);
        for name in names {
            let heading = *dice.pick(&[&BASE, &0, &2, &4, &9]);
            let user = dice.below(3) as u32;
            let [found, entry, count] =
                look_up(&bench.table, &index, heading, user, name.as_bytes());
            let expected = scanned(&bench.table, heading, user, name);
            assert_eq!((found == 1).then_some(entry), expected, "{heading} {name}");
            assert!(found == 1 || entry == NOWHERE);
            assert!(count <= 6);
            met[found as usize] += 1;
        }
    }
    assert!(met.iter().all(|times| *times > 200), "{met:?}");
}

// "look_up judges neither table nor list"

#[test]
fn the_places_before_the_padding_which_is_found_by_halving() {
    let table = shelf();
    for (list, found) in [
        (&[][..], [0, NOWHERE, 0]),
        (&[PADDING], [0, NOWHERE, 0]),
        (&[PADDING, 9], [0, NOWHERE, 0]),
        (&[9], [1, 9, 1]),
        (&[9, PADDING, 8], [1, 9, 1]),
        (&[10, 9, 8, PADDING, 9], [1, 9, 1]),
        (&[10, 8, PADDING, 9], [0, NOWHERE, 2]),
        (&[PADDING, 9, 8], [1, 9, 1]),
        (&[PADDING, 9, 8, PADDING], [1, 9, 1]),
    ] {
        assert_eq!(look_up(&table, list, 0, 0, b"AB"), found, "{list:?}");
    }
    // as long as the table or longer, without padding
    let mut index = true_index(&table);
    index.truncate(8);
    assert_eq!(look_up(&table, &index, BASE, 65_536, b".A."), [1, 3, 4]);
    let long = vec![9; 100_000];
    assert_eq!(look_up(&table, &long, 0, 0, b"AB"), [1, 9, 1]);
    assert_eq!(look_up(&table, &long, 0, 0, b"B"), [0, NOWHERE, 17]);
    assert_eq!(look_up(&table, &long, 0, 0, b"A"), [0, NOWHERE, 16]);
}

#[test]
fn a_list_that_is_not_in_order_is_halved_all_the_same() {
    let table = shelf();
    // B, AB, A: it goes the wrong way from the middle
    let list = [8, 9, 10];
    assert_eq!(look_up(&table, &list, 0, 0, b"AB"), [1, 9, 1]);
    assert_eq!(look_up(&table, &list, 0, 0, b"A"), [0, NOWHERE, 2]);
    assert_eq!(look_up(&table, &list, 0, 0, b"B"), [0, NOWHERE, 2]);
    // the same number in every place, and found in the middle one
    assert_eq!(look_up(&table, &[8; 7], 0, 0, b"B"), [1, 8, 1]);
    assert_eq!(look_up(&table, &[8; 7], 0, 0, b"C"), [0, NOWHERE, 3]);
}

#[test]
fn a_number_past_the_table_is_a_record_without_bytes() {
    let table = shelf();
    // before every entry that is sought
    for past in [12, 13, 2_048, 65_534] {
        let list = [past, 10, 9];
        assert_eq!(look_up(&table, &list, 0, 0, b"AB"), [1, 9, 2]);
        let list = [10, past, 9];
        assert_eq!(look_up(&table, &list, 0, 0, b"AB"), [1, 9, 2]);
        assert_eq!(look_up(&table, &list, 0, 0, b"A"), [0, NOWHERE, 2]);
        assert_eq!(look_up(&[], &[past], 0, 0, b"A"), [0, NOWHERE, 1]);
    }
    // a free record is the same
    assert_eq!(look_up(&table, &[10, 0, 9], 0, 0, b"AB"), [1, 9, 2]);
}

#[test]
fn a_record_that_is_no_entry_is_told_by_the_same_bytes() {
    let mut records = [entry(0, 3, 0, 0, "A"), entry(0, 3, 0, 5, "A")];
    for kind in [0, 1, 3, 255] {
        records[0][0] = kind;
        let table = records.concat();
        assert_eq!(look_up(&table, &[0], 3, 0, b"A"), [1, 0, 1], "{kind}");
        assert_eq!(look_up(&table, &[0], 3, 0, b"B"), [0, NOWHERE, 1]);
        // an entry of a directory with a user is another
        assert_eq!(look_up(&table, &[1], 3, 0, b"A"), [0, NOWHERE, 1]);
    }
    // bytes 10-17 have more than 60 bits: past every name
    records[0][17] |= 16;
    let table = records.concat();
    assert_eq!(look_up(&table, &[0], 3, 0, b"A"), [0, NOWHERE, 1]);
    assert_eq!(look_up(&table, &[0, 1], 3, 0, b"_"), [0, NOWHERE, 1]);
}

#[test]
fn a_table_that_ends_in_a_record() {
    // `!` is code 1, which stands in byte 16
    let mut record = entry(0, 3, 0, 0, "!");
    assert_eq!(record[10..18], [0, 0, 0, 0, 0, 0, 64, 0]);
    for length in 17..32 {
        let table = &record[..length];
        assert_eq!(look_up(table, &[0], 3, 0, b"!"), [1, 0, 1], "{length}");
    }
    for length in 0..17 {
        let table = &record[..length];
        assert_eq!(look_up(table, &[0], 3, 0, b"!"), [0, NOWHERE, 1]);
    }
    record[0] = 9;
    let table = [&record[..], &record[..20]].concat();
    assert_eq!(look_up(&table, &[1], 3, 0, b"!"), [1, 1, 1]);
}

#[test]
fn what_is_no_link_name_is_borne_by_no_entry() {
    let table = shelf();
    let index = true_index(&table);
    let names: [&[u8]; 12] = [
        b"",
        b"A:",
        b"@",
        b"A B",
        b" A",
        b"A ",
        b"a",
        b"A\x60",
        b"A\0",
        b"\xff",
        b"ABCDEFGHIJK",
        &[b'A'; 300],
    ];
    for name in names {
        let found = look_up(&table, &index, 0, 0, name);
        assert_eq!(found, [0, NOWHERE, 0], "{}", name.escape_ascii());
    }
    // ten characters are a name
    assert_eq!(
        look_up(&table, &index, 0, 0, b"ABCDEFGHIJ"),
        [0, NOWHERE, 3]
    );
}
