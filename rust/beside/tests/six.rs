//! Document 02, j, "Six-bit names": its sentences in their order. Records are written by hand, and each conversion is made by the
//! second program and by the proved library. That every request answers as on the old table is asked of each call of every test here
//! (`common`); of some it is told store by store.

mod common;
use common::told::*;
use common::*;

use beside::Layout;

const BASE: u16 = 65_535;

/// A conversion, made by both: number and table must agree, and a table that is refused stays.
fn convert(
    table: &mut [u8],
    beside: fn(&mut [u8]) -> u32,
    proved: fn(&mut [u8]) -> filebox::Number,
) -> u32 {
    let (lent, mut proved_table) = (table.to_vec(), table.to_vec());
    let proved = proved(&mut proved_table);
    let number = beside(table);
    assert_eq!(proved.code(), number, "the library: a conversion");
    assert!(proved_table == table, "the library's table: a conversion");
    assert!(number == 0 || table == lent, "refused, and not as lent");
    number
}

fn to_six(table: &mut [u8]) -> u32 {
    convert(table, beside::to_six, filebox::to_six)
}

fn from_six(table: &mut [u8]) -> u32 {
    convert(table, beside::from_six, filebox::from_six)
}

/// Is the table sound in the old layout, as the conversion and the second program's test say?
fn old_sound(table: &[u8]) -> bool {
    let sound = beside::sound_in(Layout::Old, table);
    let number = to_six(&mut table.to_vec());
    assert_eq!(number == 0, sound, "the conversion of an old table");
    sound
}

/// A directory `.R` with a sheet A of 30 bytes and a directory LONGNAME10, in which A stands again, as `_`; another user's base entry
/// of it; a loop; four free records; its entries made so.
fn shelf(entry: fn(u8, u16, u16, u32, &str) -> [u8; 32]) -> Vec<[u8; 32]> {
    vec![
        dir(2, 2),
        entry(0, BASE, 0, 1, ".R"),
        file(30, 3),
        text(2, 0, &TEXT[..24]),
        text(2, 1, &TEXT[24..]),
        entry(5, 0, 2, 0, "A"),
        dir(1, 2),
        entry(0, 0, 6, 0, "LONGNAME10"),
        entry(1, 6, 2, 0, "_"),
        entry(4, BASE, 2, 999_999, ".ABC"),
        entry(7, 6, 0, 0, ".-!"),
        FREE,
        FREE,
        FREE,
        FREE,
    ]
}

fn six_shelf() -> Vec<[u8; 32]> {
    shelf(entry)
}

fn old_shelf() -> Vec<[u8; 32]> {
    shelf(old_entry)
}

/// The old shelf with this entry in place of the sheet's.
fn old_with(record: [u8; 32]) -> Vec<u8> {
    after(&old_shelf(), &[(5, record)]).concat()
}

/// The shelf with this entry in place of the sheet's.
fn six_with(record: [u8; 32]) -> Vec<u8> {
    after(&six_shelf(), &[(5, record)]).concat()
}

/// The entry of the sheet, with this number in bytes 10-17.
fn numbered(number: u64) -> [u8; 32] {
    let mut record = entry(5, 0, 2, 0, "A");
    record[10..18].copy_from_slice(&number.to_le_bytes());
    record
}

/// Not sound as a table of six-bit names, and refused by every call; nothing changes.
fn refused(table: &[u8], why: &str) {
    assert!(!sound(table), "{why}");
    let bench = Bench::of(table.to_vec());
    for line in ["LST .", "RDS .R:A", "CRD .G", "DEL .R:A", "DST .R:A"] {
        bench.refuse(line, b"", 2, 0);
    }
    let mut lent = table.to_vec();
    assert_eq!(mend(&mut lent, UNCUT), answer([2, 0, 0, 0, 0, 0, 0]));
    assert_eq!(from_six(&mut lent), 2, "{why}");
    assert_eq!(lent, table, "{why}");
}

// "Entries now hold the name as ten six-bit codes (byte less 32, blank padding 0) in one 60-bit number, first character highest, low
// byte first in bytes 10-17"

#[test]
fn names_written_by_hand() {
    let names: [(&str, [u8; 8]); 12] = [
        ("!", [0, 0, 0, 0, 0, 0, 64, 0]),
        ("-A", [0, 0, 0, 0, 0, 0, 97, 3]),
        ("0", [0, 0, 0, 0, 0, 0, 0, 4]),
        ("A", [0, 0, 0, 0, 0, 0, 64, 8]),
        ("A!", [0, 0, 0, 0, 0, 0, 65, 8]),
        ("AB", [0, 0, 0, 0, 0, 0, 98, 8]),
        ("_", [0, 0, 0, 0, 0, 0, 192, 15]),
        (".ABC", [0, 0, 0, 0, 48, 138, 161, 3]),
        ("LIMITS", [0, 0, 0, 51, 157, 182, 41, 11]),
        ("ABCDEFGHIJ", [106, 138, 158, 102, 73, 142, 98, 8]),
        ("LONGNAME10", [80, 84, 182, 161, 123, 186, 47, 11]),
        ("__________", [255, 255, 255, 255, 255, 255, 255, 15]),
    ];
    for (name, bytes) in names {
        let mut bench = Bench::grown(8, &["CRD .R"]);
        bench.grant(&format!("CRD .R:{name}"), b"");
        let mut expected = [0; 32];
        expected[..6].copy_from_slice(&[2, 0, 0, 0, 2, 0]);
        expected[10..18].copy_from_slice(&bytes);
        assert_eq!(record(&bench.table, 3), expected, "{name}");
        // and what the tests make of the name is the same
        assert_eq!(entry(0, 0, 2, 0, name), expected, "{name}");
        assert_eq!(name_of(&expected), name);
        // by each function that stores an entry
        for line in ["WRS M .R:", "CPY .FF .R:", "DUP .FF .R:", "CHN .R:F "] {
            let mut bench = Bench::grown(16, &["CRD .R", "WRS M .FF", "DUP .FF .R:F"]);
            bench.grant(&format!("{line}{name}"), b"");
            let bears = |r: &&[u8]| r[0] == 2 && r[10..18] == bytes && r[2..4] == [0, 0];
            assert_eq!(bench.table.chunks(32).filter(bears).count(), 1, "{line}");
        }
    }
}

#[test]
fn each_character_in_each_place() {
    let characters = (33..=95u8).filter(|byte| ![b'@', b':'].contains(byte));
    for byte in characters {
        for at in 0..10 {
            let mut name = [b'M'; 10];
            name[at] = byte;
            let name = String::from_utf8_lossy(&name).into_owned();
            let mut bench = Bench::of([dir(1, 0), base(0, ".R"), FREE, FREE].concat());
            bench.grant(&format!("DUP .R .R:{name}"), b"");
            let bytes = &record(&bench.table, 2)[10..18];
            let number = bytes.iter().rev().fold(0u64, |n, b| n << 8 | u64::from(*b));
            // the code of this place, counted from the highest
            let code = number >> (6 * (9 - at)) & 63;
            assert_eq!(code, u64::from(byte) - 32, "{name}");
            assert!(bench
                .reply("LST .R")
                .ends_with(format!("{name}\r\n").as_bytes()));
        }
    }
}

#[test]
fn a_name_is_padded_with_blanks_which_are_0() {
    for length in 1..=10 {
        let name = "J".repeat(length);
        let mut bench = Bench::of([dir(1, 0), base(0, ".R"), FREE, FREE].concat());
        bench.grant(&format!("DUP .R .R:{name}"), b"");
        let padding = 6 * (10 - length);
        let bytes: [u8; 8] = record(&bench.table, 2)[10..18].try_into().unwrap();
        let number = u64::from_le_bytes(bytes);
        assert_eq!(number.trailing_zeros() as usize, padding + 1, "{name}");
        assert_eq!(number >> padding & 63, 42, "{name}");
    }
}

#[test]
fn a_name_is_found_by_all_its_characters() {
    // names that share all but the last character, all but the first, and one that is the other's beginning
    let names = ["ABCDEFGHIJ", "ABCDEFGHIK", "BBCDEFGHIJ", "ABCDEFGHI", "A"];
    let mut bench = Bench::grown(40, &["CRD .R"]);
    for (at, name) in names.iter().enumerate() {
        bench.grant(&format!("WRS M .R:{name}"), format!("{at}").as_bytes());
    }
    for (at, name) in names.iter().enumerate() {
        let text = bench.reply(&format!("RDS .R:{name}"));
        assert_eq!(text, format!("{at}").as_bytes());
    }
    for name in ["ABCDEFGHIL", "CBCDEFGHIJ", "ABCDEFGH", "AA", "B", "J"] {
        bench.refuse_at(&format!("RDS .R:{name}"), 11, 1, 2);
    }
}

// "byte 9 and 18-19 become zero"

#[test]
fn what_is_beside_the_number_is_zero() {
    let lines = ["CRD .R", "WRS M .R:LONGNAME10", "DUP .R:LONGNAME10 .R:B .5"];
    let mut bench = Bench::grown(16, &lines);
    bench.grant("CHN .R:B TENLETTERS", b"");
    bench.grant("WRS M .R:TENLETTERS", b"");
    for entry in bench.table.chunks(32).filter(|record| record[0] == 2) {
        assert_eq!((entry[9], &entry[18..]), (0, &[0; 14][..]));
    }
}

#[test]
fn a_byte_beside_the_number_gets_2() {
    assert!(sound(&six_shelf().concat()));
    for number in [1, 5, 7, 9] {
        for at in [9].into_iter().chain(18..32) {
            for byte in [1, 2, 32, 255] {
                let mut records = six_shelf();
                records[number][at] = byte;
                refused(&records.concat(), &format!("{number}, {at}, {byte}"));
            }
        }
    }
}

#[test]
fn a_number_of_more_than_60_bits_gets_2() {
    let highest = (1 << 60) - 1;
    assert!(sound(&six_with(numbered(highest))));
    for number in [
        1 << 60,
        highest + 2,
        number("A") | 1 << 60,
        number("A") | 1 << 61,
        number("A") | 1 << 62,
        number("A") | 1 << 63,
        u64::MAX,
    ] {
        refused(&six_with(numbered(number)), &format!("{number}"));
    }
}

#[test]
fn a_name_that_is_no_link_name_gets_2() {
    for name in [
        "",
        "A B",
        " A",
        "A        B",
        "        B",
        ":",
        "A:",
        "A:B",
        "@",
        "A@",
        "@A",
        "A A@",
    ] {
        refused(&six_with(entry(5, 0, 2, 0, name)), name);
    }
    for name in ["!", "-", ".", ".1", ".000001", "..........", "B", "?"] {
        assert!(sound(&six_with(entry(5, 0, 2, 0, name))), "{name}");
    }
}

#[test]
fn a_base_name_that_is_not_legal_gets_2() {
    for name in [
        "", "R", ".", "..", ".A", ".1", ".AB1", "ABC", ".A-B", ".A B", ".@:",
    ] {
        let records = after(&six_shelf(), &[(1, base(0, name))]);
        refused(&records.concat(), name);
    }
    for name in [".W", ".G", ".T", "...", ".AB", ".ABCDEFGHI"] {
        let records = after(&six_shelf(), &[(1, base(0, name))]);
        assert!(sound(&records.concat()), "{name}");
    }
}

#[test]
fn twins_are_told_by_their_numbers() {
    refused(
        &after(
            &six_shelf(),
            &[
                (11, entry(0, 0, 2, 0, "A")),
                (0, dir(2, 3)),
                (2, file(30, 4)),
            ],
        )
        .concat(),
        "twins",
    );
    // one code other, anywhere
    for name in ["A!", "B", "A        !", "!A"] {
        let other = [
            (11, entry(0, 0, 2, 0, &name.replace(' ', "_"))),
            (0, dir(2, 3)),
            (2, file(30, 4)),
        ];
        assert!(sound(&after(&six_shelf(), &other).concat()), "{name}");
    }
}

#[test]
fn a_table_of_the_old_layout_gets_2() {
    let old = old_shelf().concat();
    refused(&old, "old");
    // and one entry of it
    for number in [1, 5, 7, 8, 9, 10] {
        let records = after(&six_shelf(), &[(number, old_shelf()[number])]);
        refused(&records.concat(), "one old entry");
    }
}

// "Number order is then listing order."

/// The names of a listing, in its order.
fn listed(listing: &[u8]) -> Vec<String> {
    let text = String::from_utf8_lossy(listing);
    text.lines().map(|line| line[9..].to_string()).collect()
}

#[test]
fn number_order_is_listing_order() {
    // a name before its longer continuations, characters by their bytes
    let names = [
        "!",
        "!!",
        "\"",
        "-",
        "-A",
        ".",
        ".1",
        "0",
        "00",
        "9",
        ";",
        "?",
        "A",
        "A!",
        "A-",
        "A.",
        "A0",
        "AA",
        "AB",
        "AB.",
        "B",
        "Z",
        "ZZZZZZZZZZ",
        "[",
        "_",
        "_!",
        "__________",
    ];
    let numbers: Vec<u64> = names.iter().map(|name| number(name)).collect();
    assert!(numbers.is_sorted_by(|one, other| one < other));
    let mut bench = Bench::of(vec![0; 80 * 32]);
    bench.grant("CRD .R", b"");
    // entered in another order
    for at in 0..names.len() {
        let name = names[(at * 10) % names.len()];
        bench.grant(&format!("DUP .R .R:{name}"), b"");
    }
    assert_eq!(listed(&bench.reply("LST .R")), names);
}

#[test]
fn number_order_is_listing_order_of_any_names() {
    let mut dice = Dice(1971);
    for _ in 0..200 {
        let mut bench = Bench::grown(48, &["CRD .R"]);
        let mut numbers = Vec::new();
        for _ in 0..30 {
            let length = 1 + dice.below(10);
            let name: String = (0..length)
                .map(|_| char::from(*dice.pick(&[&b'!', &b'A', &b'-', &b'_'])))
                .collect();
            if bench.ask(format!("DUP .R .R:{name}"), b"").answer.displaced == 0 {
                numbers.push(number(&name));
                bench.grant(&format!("DUP .R .R:{name}"), b"");
            }
        }
        numbers.sort();
        let listed = listed(&bench.reply("LST .R"));
        assert_eq!(
            listed.iter().map(|name| number(name)).collect::<Vec<u64>>(),
            numbers
        );
    }
}

// "Document 01's record 1 is worked out again."

#[test]
fn record_1_of_crd_r() {
    let table = Bench::grown(2, &["CRD .R"]).table;
    let mut expected = vec![2, 0, 255, 255, 0, 0, 1];
    expected.extend([0; 9]);
    expected.extend([178, 3]);
    expected.extend([0; 14]);
    assert_eq!(record(&table, 1), expected);
    // and what it is in the old layout
    let mut old = table.clone();
    assert_eq!(from_six(&mut old), 0);
    let mut expected = [0; 32];
    expected[..12].copy_from_slice(&[2, 0, 255, 255, 0, 0, 1, 0, 0, 2, 46, 82]);
    assert_eq!(record(&old, 1), expected);
    assert_eq!(record(&old, 0), record(&table, 0));
}

// "Converting a sound old table and back loses nothing (others get 1 or 2 and stay)"

#[test]
fn there_and_back() {
    let (six, old) = (six_shelf().concat(), old_shelf().concat());
    let mut table = old.clone();
    assert_eq!(to_six(&mut table), 0);
    assert_eq!(table, six);
    assert_eq!(from_six(&mut table), 0);
    assert_eq!(table, old);
}

#[test]
fn there_and_back_of_every_length_and_character() {
    for name in [
        "!",
        "-A",
        "_",
        ".1",
        "A.B",
        "ABCDEFGHI",
        "ABCDEFGHIJ",
        "__________",
    ] {
        let mut table = old_with(old_entry(5, 0, 2, 0, name));
        assert_eq!(to_six(&mut table), 0, "{name}");
        assert_eq!(table, six_with(entry(5, 0, 2, 0, name)), "{name}");
        assert_eq!(from_six(&mut table), 0, "{name}");
        assert_eq!(table, old_with(old_entry(5, 0, 2, 0, name)), "{name}");
    }
}

#[test]
fn a_table_as_full_as_it_may_be_there_and_back() {
    // 2,047 entries of one sheet, a hundred for each user
    let letter = |at: usize| char::from(b'A' + at as u8);
    let records = |entry: fn(u8, u16, u16, u32, &str) -> [u8; 32]| {
        let mut records = vec![file(0, 2_047)];
        for at in 0..2_047 {
            let name = format!(".{}{}", letter(at % 100 / 10), letter(at % 10));
            records.push(entry(0, BASE, 0, (at / 100) as u32, &name));
        }
        records.concat()
    };
    let mut table = records(old_entry);
    assert_eq!(to_six(&mut table), 0);
    assert_eq!(table, records(entry));
    assert!(sound(&table));
    assert_eq!(from_six(&mut table), 0);
    assert_eq!(table, records(old_entry));
}

#[test]
fn converted_twice_gets_2() {
    let mut table = old_shelf().concat();
    assert_eq!(to_six(&mut table), 0);
    assert_eq!(to_six(&mut table), 2);
    assert_eq!(table, six_shelf().concat());
    assert_eq!(from_six(&mut table), 0);
    assert_eq!(from_six(&mut table), 2);
    assert_eq!(table, old_shelf().concat());
}

#[test]
fn a_table_without_entries_is_sound_both_ways_and_converted_to_itself() {
    for records in [0, 1, 2, 1_024, 2_048] {
        let mut table = vec![0; records * 32];
        for _ in 0..2 {
            assert_eq!(to_six(&mut table), 0);
            assert_eq!(from_six(&mut table), 0);
            assert!(sound(&table) && old_sound(&table));
        }
        assert_eq!(table, vec![0; records * 32]);
    }
}

#[test]
fn a_table_that_is_not_sized_gets_1() {
    for bytes in [1, 31, 33, 63, 65_535, 65_537, 65_567, 65_568, 70_000] {
        for filled in [0, 2, 255] {
            let mut table = vec![filled; bytes];
            assert_eq!(to_six(&mut table), 1);
            assert_eq!(from_six(&mut table), 1);
        }
    }
    // 1 comes before 2
    let mut table = [six_shelf().concat(), vec![9]].concat();
    assert_eq!(to_six(&mut table), 1);
    assert_eq!(from_six(&mut table), 1);
}

#[test]
fn an_old_table_that_is_not_sound_gets_2_and_stays() {
    assert!(old_sound(&old_shelf().concat()));
    // names that the old layout can have and no sound table has
    for name in [
        "", " ", "A B", "A ", " A", ":", "A:B", "@", "A@", "a", "`", "\u{7f}", "\0", "A\0", "\0A",
    ] {
        assert!(!old_sound(&old_with(old_entry(5, 0, 2, 0, name))), "{name}");
    }
    // a length that is none, a byte past it, and the bytes after the name
    for (at, byte) in [
        (9, 0),
        (9, 2),
        (9, 11),
        (9, 255),
        (11, b'B'),
        (19, 1),
        (20, 1),
        (31, 1),
    ] {
        let mut record = old_entry(5, 0, 2, 0, "A");
        record[at] = byte;
        assert!(!old_sound(&old_with(record)), "{at}, {byte}");
    }
    // what has nothing to do with names: code, directory, heading, user, a count, a text, a twin
    for record in [
        old_entry(8, 0, 2, 0, "A"),
        old_entry(5, 1, 2, 0, "A"),
        old_entry(5, 0, 3, 0, "A"),
        old_entry(5, 0, 2, 1, "A"),
        old_entry(5, 0, 2, 0, "LONGNAME10"),
        FREE,
    ] {
        assert!(!old_sound(&old_with(record)), "{record:?}");
    }
    for store in [
        (0, dir(2, 3)),
        (2, file(30, 2)),
        (3, FREE),
        (11, file(0, 0)),
        (1, old_entry(0, BASE, 0, 1, ".1")),
    ] {
        assert!(
            !old_sound(&after(&old_shelf(), &[store]).concat()),
            "{store:?}"
        );
    }
}

#[test]
fn a_table_of_six_bit_names_that_is_not_sound_gets_2_and_stays() {
    for store in [
        (5, entry(8, 0, 2, 0, "A")),
        (5, entry(5, 0, 3, 0, "A")),
        (5, entry(5, 0, 2, 0, "LONGNAME10")),
        (5, FREE),
        (0, dir(2, 3)),
        (3, FREE),
        (11, file(0, 0)),
    ] {
        let mut table = after(&six_shelf(), &[store]).concat();
        assert_eq!(from_six(&mut table), 2, "{store:?}");
    }
    // the layouts mixed are sound in neither
    for number in [1, 5, 7, 8, 9, 10] {
        let mut mixed = after(&six_shelf(), &[(number, old_shelf()[number])]).concat();
        assert_eq!((to_six(&mut mixed), from_six(&mut mixed)), (2, 2));
    }
}

#[test]
fn a_table_without_counts_gets_2() {
    // "old" is the table as it is before j: a table of document 01 has no counts and is sound in neither layout
    let mut table = old_shelf();
    let headings = table.iter_mut().filter(|record| record[0] == 1);
    headings.for_each(|heading| heading[12..16].fill(0));
    assert_eq!(to_six(&mut table.concat()), 2);
}

#[test]
fn nothing_but_names_is_converted() {
    let mut table = old_shelf().concat();
    assert_eq!(to_six(&mut table), 0);
    for (before, after) in old_shelf().iter().zip(table.chunks(32)) {
        match before[0] {
            2 => assert_eq!((&before[..9], &before[20..]), (&after[..9], &after[20..])),
            _ => assert_eq!(before[..], *after),
        }
    }
}

// "and every request answers as on the old table, with the converted table after it, stores included"

/// A request on the old shelf, by the second program: the answer, the table and the reply's bytes.
fn asked_of_the_old(line: &str, stop: u32) -> (beside::Answer, Vec<u8>, Vec<u8>) {
    let (mut table, mut reply) = (old_shelf().concat(), vec![UNTOUCHED; 24_000]);
    let mut index = beside::true_index_in(Layout::Old, &table);
    let answer = beside::request_in(
        Layout::Old,
        &mut table,
        &mut index,
        line.as_bytes(),
        TEXT,
        &mut reply,
        1,
        stop,
    );
    (answer, table, reply)
}

#[test]
fn every_function_on_both_tables_at_every_stop_number() {
    let bench = bench(&six_shelf());
    for line in [
        "CRD .G",
        "CRD .R:N",
        "WRS M .AB",
        "WRS M .R:LONGNAME10:_",
        "WRS* M .R:A",
        "RDS .R:A",
        "RDS .R:LONGNAME10:_ 5 7",
        "CPY .R:LONGNAME10:_ .G",
        "DUP .R .R:LONGNAME10:B",
        "DUP .R:A .R:LONGNAME10:_ .4",
        "DUP .R:A .R:A",
        "CHN .R:A TENLETTERS",
        "CHN .R .W",
        "CHN .R:A LONGNAME10",
        "DPR .R:LONGNAME10 .4",
        "DEL .R:A",
        "DEL .R:LONGNAME10:_ .R:LONGNAME10:.-! .R:LONGNAME10",
        "DEL .R:A .R:B",
        "DST .R:LONGNAME10:.-!",
        "DST .R:A",
        "LST .R",
        "LST .",
        "LST* . 8",
        "RDS .R:LONGNAME11",
        "LST .R:A",
        "CRD .R:A B:C",
    ] {
        for stop in (0..14).chain([UNCUT]) {
            let (expected, old, reply) = asked_of_the_old(line, stop);
            let seen = bench.stop(stop).ask(line, TEXT);
            assert_eq!(seen.answer, expected, "{line}, {stop}");
            assert_eq!(seen.reply, reply, "{line}, {stop}");
            // record by record: the entries are those of the old table, and all else is the same
            let six = old.chunks(32).zip(seen.table.chunks(32));
            for (old, six) in six {
                match old[0] {
                    2 => assert_eq!(old_entry_of(six), *old, "{line}, {stop}"),
                    _ => assert_eq!(six, old, "{line}, {stop}"),
                }
            }
        }
    }
}

/// The entry as it was before, made by hand.
fn old_entry_of(six: &[u8]) -> [u8; 32] {
    let mut old: [u8; 32] = six.try_into().unwrap();
    let name = name_of(six);
    old[9..20].fill(0);
    old[9] = name.len() as u8;
    old[10..10 + name.len()].copy_from_slice(name.as_bytes());
    old
}

#[test]
fn a_listing_has_the_same_bytes() {
    let (answer, _, reply) = asked_of_the_old("LST .R:LONGNAME10", UNCUT);
    let expected = b"DM.U7    .-!\r\nFM.U1    _\r\n";
    assert_eq!((answer.bytes, &reply[..answer.bytes]), (26, &expected[..]));
    assert_eq!(bench(&six_shelf()).reply("LST .R:LONGNAME10"), expected);
}

#[test]
fn the_stores_are_as_many_and_as_they_were() {
    let stores = [
        (11, directory()),
        (12, entry(0, 6, 11, 0, "BOARD7")),
        (6, dir(1, 3)),
        (11, dir(1, 0)),
    ];
    told(
        &six_shelf(),
        "CRD .R:LONGNAME10:BOARD7",
        b"",
        0,
        &[&stores],
        2,
    );
    let stores = [(7, entry(0, 0, 6, 0, "LONGNAME11"))];
    told(
        &six_shelf(),
        "CHN .R:LONGNAME10 LONGNAME11",
        b"",
        0,
        &[&stores],
        1,
    );
}

#[test]
fn a_cut_table_is_converted_record_by_record_and_mended_alike() {
    let bench = bench(&six_shelf());
    for line in [
        "WRS M .R:N",
        "WRS* M .R:LONGNAME10:_",
        "DST .R:A",
        "DEL .R:A",
        "CPY .R:A .G",
    ] {
        for stop in 0..8 {
            let (_, mut old, _) = asked_of_the_old(line, stop);
            let mut six = bench.stop(stop).ask(line, TEXT).table;
            let mut index = vec![PADDING; old_shelf().len()];
            let expected = beside::mend_in(Layout::Old, &mut old, &mut index, UNCUT);
            assert_eq!(mend(&mut six, UNCUT), expected, "{line}, {stop}");
            assert_eq!(to_six(&mut old), 0, "{line}, {stop}");
            assert_eq!(old, six, "{line}, {stop}");
        }
    }
    // a cut table is no sound one, and no conversion takes it
    let (cut, mut old, _) = asked_of_the_old("CRD .G", 1);
    assert_eq!((cut.number, to_six(&mut old)), (22, 2));
}

#[test]
fn an_old_table_is_not_mended_by_losing_its_names() {
    let mut table = old_shelf().concat();
    assert_eq!(mend(&mut table, UNCUT), answer([2, 0, 0, 0, 0, 0, 0]));
    assert_eq!(table, old_shelf().concat());
}

#[test]
fn damaged_tables_of_both_layouts() {
    let mut dice = Dice(60);
    let (mut sound, mut refused) = (0, 0);
    for _ in 0..20_000 {
        let records = if dice.once_in(2) {
            old_shelf()
        } else {
            six_shelf()
        };
        let mut table = records.concat();
        let entry = *dice.pick(&[&1, &5, &7, &8, &9, &10]) * 32;
        for _ in 0..dice.below(3) {
            table[entry + 9 + dice.below(12)] =
                *dice.pick(&[&0, &1, &2, &8, &16, &33, &64, &128, &255]);
        }
        for convert in [to_six, from_six] {
            let mut converted = table.clone();
            match convert(&mut converted) {
                0 => sound += 1,
                _ => refused += 1,
            }
        }
        // a table with entries is sound in one layout at most
        assert!(!(beside::sound(&table) && beside::sound_in(Layout::Old, &table)));
    }
    assert!(sound > 5_000 && refused > 5_000, "{sound}, {refused}");
}
