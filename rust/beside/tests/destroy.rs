//! Document 02, f, "Destroy a file everywhere": its sentences in their order, then each refusal with its link. Tables, stores and
//! answers are written by hand; each request is told store by store, and cut at each of its stores and mended.

mod common;
use common::told::*;
use common::*;

use beside::{read, Chain, Request};

const BASE: u16 = 65_535;
const NIGHT: u32 = 777;

/// The record with another code: byte 3 of a heading, byte 1 of an entry.
fn coded(mut record: [u8; 32], code: u8) -> [u8; 32] {
    record[if record[0] == 1 { 3 } else { 1 }] = code;
    record
}

/// A key sheet of thirty bytes in record 3, its text in 13 and 7, and five entries of it: SHEET and, with write inhibited, B in
/// user 1's `.R`, a base file of user 2, an entry S in user 777's `.G`, and K in a directory that only its own entry ME names.
fn keys() -> Vec<[u8; 32]> {
    vec![
        entry(0, 4, 3, 0, "K"),
        dir(1, 2),
        base(1, ".R"),
        file(30, 5),
        dir(1, 2),
        entry(0, BASE, 3, 2, ".KEYS"),
        entry(0, 4, 4, 0, "ME"),
        text(3, 1, &TEXT[24..]),
        entry(0, 1, 3, 0, "SHEET"),
        entry(1, 1, 3, 0, "B"),
        dir(1, 1),
        entry(0, BASE, 10, NIGHT, ".G"),
        entry(0, 10, 3, 0, "S"),
        text(3, 0, &TEXT[..24]),
        FREE,
    ]
}

/// What destroys the key sheet.
fn withdrawn() -> Vec<Store> {
    let cleared = [3, 13, 7, 0, 5, 8, 9, 12].map(|number| (number, FREE));
    let counts = [(1, dir(1, 0)), (4, dir(1, 1)), (10, dir(1, 0))];
    [&cleared[..], &counts].concat()
}

/// A directory `.R` with an empty sheet A, which is `.ABC` too, a directory D with an empty sheet F in it, and an empty directory
/// E. Two records are free.
fn shelf() -> Vec<[u8; 32]> {
    vec![
        dir(1, 3),
        base(0, ".R"),
        file(0, 2),
        entry(0, 0, 2, 0, "A"),
        base(2, ".ABC"),
        dir(1, 1),
        entry(0, 0, 5, 0, "D"),
        file(0, 1),
        entry(0, 5, 7, 0, "F"),
        dir(1, 0),
        entry(0, 0, 9, 0, "E"),
        FREE,
        FREE,
    ]
}

/// A directory `.R` with an entry LOOP that names `.R` itself.
fn looped() -> Vec<[u8; 32]> {
    vec![dir(2, 1), base(0, ".R"), entry(0, 0, 0, 0, "LOOP"), FREE]
}

/// A DST of one name makes these stores.
fn destroys(records: &[[u8; 32]], line: &str, expected: &[Store]) {
    told(records, line, b"", 0, &[expected], 1);
}

// "When a key sheet is withdrawn, every path must go."

#[test]
fn every_path_goes() {
    destroys(&keys(), "DST .R:SHEET", &withdrawn());
    let mut bench = bench(&keys());
    bench.grant("DST .R:SHEET", b"");
    for (user, name) in [(1, ".R:SHEET"), (1, ".R:B"), (2, ".KEYS"), (NIGHT, ".G:S")] {
        bench.user = user;
        bench.refuse(format!("RDS {name}"), b"", 11, 1);
    }
    // nothing of it is left: neither its text nor an entry in a loop that no base file reaches
    assert_eq!(count(&bench.table, 3), 0);
    let names_it = |record: &&[u8]| record[0] == 2 && record[4..6] == [3, 0];
    assert_eq!(bench.table.chunks(32).find(names_it), None);
}

#[test]
fn any_path_that_may_be_written_will_do() {
    for (user, line) in [(2, "DST .KEYS"), (NIGHT, "DST .G:S")] {
        let mut bench = bench(&keys());
        bench.user = user;
        let seen = bench.grant(line, b"");
        assert_eq!(seen.answer, answer([0, 0, 0, 1, 0, 0, 11]), "{line}");
        assert_eq!(seen.table, after(&keys(), &withdrawn()).concat(), "{line}");
    }
    bench(&keys()).refuse_at("DST .R:B", 14, 1, 2);
}

#[test]
fn a_del_takes_one_path_and_a_dst_all() {
    let mut bench = bench(&keys());
    bench.grant("DEL .R:SHEET", b"");
    assert_eq!(record(&bench.table, 3), file(30, 4));
    bench.user = 2;
    bench.grant("DST .KEYS", b"");
    assert_eq!(record(&bench.table, 3), FREE);
}

// "`DST` takes 1 to 8 names"

#[test]
fn the_line_is_read() {
    let names = |line: &'static str| match read(line.as_bytes(), 0) {
        Ok(Request::Dst { names }) => names,
        other => panic!("{line}: {other:?}"),
    };
    let chain = |line: &'static str| Chain::of(&beside::words(line.as_bytes())[0]);
    assert_eq!(names("DST .R:A"), [chain(".R:A")]);
    assert_eq!(names("  DST .R : A   B "), [chain(".R:A"), chain("B")]);
    assert_eq!(names("DST A A"), [chain("A"), chain("A")]);
    assert_eq!(names("DST A B C D E F G H").len(), 8);
}

#[test]
fn numbers_5_and_6() {
    let bench = bench(&shelf());
    for line in [
        "DST:",
        "DST:A",
        "DSTX .R:A",
        "DST* .R:A",
        "DS T .R:A",
        "*DST",
    ] {
        bench.refuse(line, b"", 5, 0);
    }
    for line in ["DST", " DST  ", "DST A B C D E F G H I"] {
        bench.refuse(line, b"", 6, 0);
    }
    bench.refuse("dst .R:A", b"", 4, 0);
    // a name without a leading point is `.W`'s, which is not there
    bench.refuse_at("DST A", 11, 1, 1);
}

#[test]
fn eight_names() {
    let links = ["A", "B", "C", "D", "E", "F", "G", "H"];
    let mut bench = Bench::grown(32, &["CRD .W"]);
    for link in links {
        bench.grant(&format!("WRS M {link}"), b"");
    }
    // a heading, an entry and the count of `.W` each
    let seen = bench.grant(&format!("DST {}", links.join(" ")), b"");
    assert_eq!(seen.answer, answer([0, 0, 0, 8, 0, 0, 24]));
    assert_eq!(seen.table[..64], [dir(1, 0), base(0, ".W")].concat());
    assert!(seen.table[64..].iter().all(|byte| *byte == 0));
}

#[test]
fn it_takes_no_text_and_writes_no_reply() {
    let mut bench = bench(&shelf());
    bench.room = 0;
    let seen = bench.ask("DST .R:A", &[b'x'; 24_001]);
    assert_eq!(seen.answer, answer([0, 0, 0, 1, 0, 0, 4]));
    bench.room = 100;
    assert!(bench.ask("DST .R:A", b"").untouched());
}

// "needs write on each file"

#[test]
fn number_14_by_the_joined_code_of_the_file() {
    for heading in 0..8 {
        for own in 0..8 {
            let records = vec![
                dir(1, 1),
                base(0, ".R"),
                coded(file(0, 1), heading),
                coded(entry(0, 0, 2, 0, "A"), own),
            ];
            let bench = bench(&records);
            match (heading | own) & 1 {
                0 => drop(bench.clone().grant("DST .R:A", b"")),
                _ => bench.refuse_at("DST .R:A", 14, 1, 2),
            }
        }
    }
}

#[test]
fn a_capped_file_gets_14_by_every_path() {
    let records = after(&keys(), &[(3, coded(file(30, 5), 1))]);
    let mut bench = bench(&records);
    bench.refuse_at("DST .R:SHEET", 14, 1, 2);
    bench.refuse_at("DST .R:B", 14, 1, 2);
    bench.user = 2;
    bench.refuse_at("DST .KEYS", 14, 1, 1);
    bench.user = NIGHT;
    bench.refuse_at("DST .G:S", 14, 1, 2);
}

#[test]
fn a_directory_is_a_file_as_any() {
    let capped = after(&shelf(), &[(9, coded(dir(1, 0), 1))]);
    bench(&capped).refuse_at("DST .R:E", 14, 1, 2);
    let stores = [(9, FREE), (10, FREE), (0, dir(1, 2))];
    destroys(&shelf(), "DST .R:E", &stores);
}

#[test]
fn read_and_execute_need_not_be_allowed() {
    let records = after(&shelf(), &[(2, coded(file(0, 2), 6))]);
    bench(&records).grant("DST .R:A", b"");
}

#[test]
fn codes_of_earlier_entries_do_not_add_up() {
    let records = after(
        &shelf(),
        &[
            (1, coded(base(0, ".R"), 1)),
            (5, coded(dir(1, 1), 5)),
            (6, coded(entry(0, 0, 5, 0, "D"), 1)),
        ],
    );
    bench(&records).grant("DST .R:D:F", b"");
}

// "and asks nothing of the directories"

#[test]
fn the_directory_may_be_write_inhibited() {
    for capped in [
        [(0, coded(dir(1, 3), 1)), (1, base(0, ".R"))],
        [(0, dir(1, 3)), (1, coded(base(0, ".R"), 1))],
    ] {
        let records = after(&shelf(), &capped);
        let code = records[0][3];
        bench(&records).refuse_at("DEL .R:A", 14, 1, 2);
        let stores = [(2, FREE), (3, FREE), (4, FREE), (0, coded(dir(1, 2), code))];
        destroys(&records, "DST .R:A", &stores);
    }
}

#[test]
fn other_holders_may_be_inhibited_too() {
    // the night shift's shelf, and the lost one, take no writing; their counts are corrected all the same
    let capped = [(4, coded(dir(1, 2), 7)), (10, coded(dir(1, 1), 3))];
    let records = after(&keys(), &capped);
    let mut stores = withdrawn();
    let length = stores.len();
    stores[length - 2..].copy_from_slice(&[(4, coded(dir(1, 1), 7)), (10, coded(dir(1, 0), 3))]);
    destroys(&records, "DST .R:SHEET", &stores);
}

#[test]
fn the_walk_asks_reading_as_ever() {
    let shut = after(&shelf(), &[(5, coded(dir(1, 1), 2))]);
    bench(&shut).refuse_at("DST .R:D:F", 13, 1, 2);
    // not of the directory that is destroyed itself
    let shut = after(&shelf(), &[(9, coded(dir(1, 0), 6))]);
    bench(&shut).grant("DST .R:E", b"");
}

// "Stores for each name: heading cleared, text by position, then every entry naming it, by record number, then the holders'
// counts."

#[test]
fn a_base_file_of_one_entry_takes_two_stores() {
    let records = [dir(1, 0), base(0, ".R"), FREE];
    destroys(&records, "DST .R", &[(0, FREE), (1, FREE)]);
    // where DEL takes three
    let seen = bench(&records).ask("DEL .R", b"");
    assert_eq!(seen.answer.stores, 3);
}

#[test]
fn a_holder_of_several_entries_is_counted_once() {
    let records = [
        file(0, 3),
        dir(1, 3),
        base(1, ".R"),
        entry(0, 1, 0, 0, "A"),
        entry(4, 1, 0, 0, "B"),
        entry(0, 1, 0, 0, "C"),
    ];
    let stores = [(0, FREE), (3, FREE), (4, FREE), (5, FREE), (1, dir(1, 0))];
    destroys(&records, "DST .R:B", &stores);
}

#[test]
fn base_lists_have_no_count() {
    let records = [
        entry(0, BASE, 2, 999_999, ".ABC"),
        base(2, ".R"),
        file(5, 3),
        text(2, 0, b"5.0 V"),
        entry(0, BASE, 2, 0, ".T"),
    ];
    let stores = [2, 3, 0, 1, 4].map(|number| (number, FREE));
    destroys(&records, "DST .R", &stores);
}

#[test]
fn holders_before_and_after_the_file_by_record_number() {
    let records = [
        dir(1, 1),
        entry(0, 0, 3, 0, "A"),
        base(6, ".T"),
        file(0, 3),
        entry(0, 6, 3, 0, "A"),
        base(0, ".R"),
        dir(1, 2),
        entry(0, 6, 8, 0, "D"),
        dir(1, 1),
        entry(0, 8, 3, 0, "A"),
    ];
    let cleared = [3, 1, 4, 9].map(|number| (number, FREE));
    let counts = [(0, dir(1, 0)), (6, dir(1, 1)), (8, dir(1, 0))];
    destroys(&records, "DST .T:D:A", &[&cleared[..], &counts].concat());
}

#[test]
fn text_goes_by_position_not_by_record_number() {
    let records = [
        text(2, 2, b"C"),
        base(2, ".R"),
        file(49, 1),
        text(2, 0, &[b'A'; 24]),
        text(2, 1, &[b'B'; 24]),
    ];
    let stores = [2, 3, 4, 0, 1].map(|number| (number, FREE));
    destroys(&records, "DST .R", &stores);
}

#[test]
fn another_file_with_its_text_stays() {
    let records = [
        file(1, 1),
        text(0, 0, b"1"),
        base(0, ".AB"),
        file(1, 1),
        text(3, 0, b"2"),
        base(3, ".CD"),
    ];
    destroys(&records, "DST .CD", &[(3, FREE), (4, FREE), (5, FREE)]);
    destroys(&records, "DST .AB", &[(0, FREE), (1, FREE), (2, FREE)]);
}

#[test]
fn a_long_a_classified_and_a_marked_file_go_as_any() {
    let mut marked = file(0, 2);
    marked[5] = 1;
    let stores = [(2, FREE), (3, FREE), (4, FREE), (0, dir(1, 2))];
    for heading in [marked, named(heading(1, 3, 4, 2, 0), 2)] {
        let records = after(&shelf(), &[(2, heading)]);
        destroys(&records, "DST .ABC", &stores);
    }
}

#[test]
fn it_needs_no_room() {
    // no free record, and a directory that is full
    let mut records = vec![dir(1, 112), base(0, ".R"), file(0, 112)];
    records.extend((0..112).map(|at| entry(0, 0, 2, 0, &format!("N{at}"))));
    let mut bench = bench(&records);
    let seen = bench.grant("DST .R:N7", b"");
    assert_eq!(seen.answer, answer([0, 0, 0, 1, 0, 0, 1 + 112 + 1]));
    assert_eq!(seen.table[..64], [dir(1, 0), base(0, ".R")].concat());
}

#[test]
fn the_longest_file() {
    let mut bench = Bench::new(1_010);
    bench.grant("CRD .R", b"");
    bench.grant("WRS L .R:A", &[b'x'; 24_000]);
    for stop in [0, 1, 2, 500, 1_001, 1_002] {
        let cut = bench.stop(stop).ask("DST .R:A", b"");
        assert_eq!(cut.answer, answer([22, 0, 0, 0, 0, 0, stop]));
        let mut mended = cut.table;
        // the heading counts: from its clearing on, all goes, and the count of `.R` is corrected
        let left = if stop == 0 { 0 } else { 1_003 - stop };
        assert_eq!(mend(&mut mended, UNCUT), answer([0, 0, 0, 0, 0, 0, left]));
        let expected = match stop {
            0 => bench.table.clone(),
            _ => Bench::grown(1_010, &["CRD .R"]).table,
        };
        assert_eq!(mended, expected, "{stop}");
    }
    let seen = bench.grant("DST .R:A", b"");
    assert_eq!(seen.answer, answer([0, 0, 0, 1, 0, 0, 1_003]));
}

#[test]
fn as_many_entries_as_a_table_has() {
    let letter = |at: usize| char::from(b'A' + at as u8);
    let mut records = vec![file(0, 2_047)];
    for at in 0..2_047 {
        let name = format!(".{}{}", letter(at % 100 / 10), letter(at % 10));
        records.push(entry(0, BASE, 0, (at / 100) as u32, &name));
    }
    let mut bench = bench(&records);
    for stop in [1, 2, 1_000, 2_047] {
        let mut cut = bench.stop(stop).ask("DST .AA", b"").table;
        assert_eq!(mend(&mut cut, UNCUT).stores, 2_048 - stop);
        assert!(cut.iter().all(|byte| *byte == 0));
    }
    let seen = bench.grant("DST .AA", b"");
    assert_eq!(seen.answer, answer([0, 0, 0, 1, 0, 0, 2_048]));
    assert!(bench.table.iter().all(|byte| *byte == 0));
}

/// Eight empty sheets, each in the same 204 directories: the most stores that a request can need.
#[test]
fn the_most_stores_of_a_request() {
    let mut records = vec![FREE; 8];
    for at in 0..204 {
        let heading = records.len() as u16;
        records.push(directory());
        let (user, letter) = (at / 26, char::from(b'A' + (at % 26) as u8));
        records.push(entry(0, BASE, heading, user, &format!(".{letter}{letter}")));
        records.extend((0..8).map(|sheet| entry(0, heading, sheet, 0, &format!("N{sheet}"))));
    }
    records[..8].fill(simple(0));
    let mut bench = bench(&counted(&records));
    bench.user = 0;
    let names: Vec<String> = (0..8).map(|sheet| format!(".AA:N{sheet}")).collect();
    let line = format!("DST {}", names.join(" "));
    let seen = bench.grant(&line, b"");
    assert_eq!(seen.answer, answer([0, 0, 0, 8, 0, 0, 8 * (1 + 204 + 204)]));
    assert_eq!(count(&bench.table, 2), 204);
}

#[test]
fn the_destroyed_heading_gets_no_count_store() {
    // an empty directory that two entries name, and its own did until it is deleted
    let mut bench = bench(&looped());
    bench.grant("DEL .R:LOOP", b"");
    bench.grant("DUP .R .G", b"");
    let seen = bench.grant("DST .G", b"");
    assert_eq!(seen.answer, answer([0, 0, 0, 1, 0, 0, 3]));
    assert!(bench.table.iter().all(|byte| *byte == 0));
}

#[test]
fn a_name_is_done_when_its_counts_are_stored() {
    let bench = bench(&keys());
    for stop in 0..11 {
        let cut = bench.stop(stop).ask("DST .R:SHEET", b"");
        assert_eq!(cut.answer.names, 0, "{stop}");
    }
    let done = bench.stop(11).ask("DST .R:SHEET", b"");
    assert_eq!((done.answer.number, done.answer.names), (0, 1));
}

// "Mending now first clears entries that name no heading."

#[test]
fn an_entry_of_a_free_record_a_text_an_entry_itself_or_nothing_is_cleared() {
    let file = [file(1, 1), text(0, 0, b"T"), base(0, ".R")];
    for heading in [1, 2, 3, 4, 5, 2_047, 2_048, 65_534, 65_535] {
        let records = [&file[..], &[base(heading, ".T"), FREE]].concat();
        mends_by(&records, &[(3, FREE)]);
        let records = [&file[..], &[entry(5, 700, heading, 9, ""), FREE]].concat();
        mends_by(&records, &[(3, FREE)]);
    }
}

#[test]
fn such_entries_go_first_by_record_number() {
    let records = [
        text(9, 0, b"T"),
        directory(),
        base(8, ".B"),
        dir(0, 7),
        base(3, ".R"),
        entry(0, 3, 6, 0, "A"),
        entry(0, 1, 2, 0, "B"),
    ];
    // entries, then headings, then text, then counts
    let stores = [
        (2, FREE),
        (5, FREE),
        (6, FREE),
        (1, FREE),
        (0, FREE),
        (3, dir(1, 0)),
    ];
    mends_by(&records, &stores);
}

#[test]
fn the_kind_is_read_from_byte_0_and_the_heading_from_bytes_4_and_5_alone() {
    // of any other bytes, an entry that names no heading goes
    let mut odd = [0xFF; 32];
    odd[0] = 2;
    mends_by(&[odd, FREE], &[(0, FREE)]);
    odd[4..6].copy_from_slice(&[1, 0]);
    mends_by(&[odd, FREE], &[(0, FREE)]);
    // what it names is a heading by its byte 0 alone: it stays, and the result is not sound
    let mut heading = [0xFF; 32];
    heading[0] = 1;
    is_beyond_mending(&[base(1, ".R"), heading]);
    // the high byte counts: 257 is not 1
    mends_by(&[base(257, ".R"), directory()], &[(0, FREE), (1, FREE)]);
}

#[test]
fn a_heading_and_an_entry_of_it_are_a_file_and_stay() {
    mends_by(&[directory(), base(0, ".R")], &[(0, dir(1, 0))]);
    // a loop, reached or not
    let records = [
        dir(0, 0),
        entry(0, 0, 0, 0, "A"),
        entry(0, 0, 3, 0, "B"),
        FREE,
    ];
    mends_by(&records, &[(2, FREE), (0, dir(1, 1))]);
}

#[test]
fn the_holder_is_counted_after_it() {
    let records = [
        dir(1, 3),
        base(0, ".R"),
        entry(0, 0, 3, 0, "A"),
        FREE,
        entry(0, 0, 9, 0, "B"),
        entry(0, 0, 0, 0, "C"),
    ];
    mends_by(&records, &[(2, FREE), (4, FREE), (0, dir(2, 1))]);
}

#[test]
fn what_was_beyond_mending_by_such_an_entry_alone_is_mended() {
    // two of one name, a name that is none, a user too high: each names no heading, and goes
    for odd in [
        base(7, ".R"),
        base(7, "R"),
        entry(0, BASE, 7, 1_000_000, ".R"),
        entry(0, 7, 7, 0, "A"),
        entry(0, 2, 7, 0, "A"),
    ] {
        mends_by(&[dir(1, 0), base(0, ".R"), odd], &[(2, FREE)]);
    }
    // and by more than that is not
    is_beyond_mending(&[
        base(5, ".T"),
        file(30, 1),
        base(1, ".R"),
        text(1, 0, &[1; 24]),
    ]);
    is_beyond_mending(&[base(5, ".T"), dir(1, 0), base(1, "R")]);
}

#[test]
fn an_entry_in_a_simple_file_is_beyond_mending_as_before() {
    is_beyond_mending(&[entry(0, 1, 1, 0, "A"), file(0, 1), FREE]);
    is_beyond_mending(&[
        file(0, 1),
        file(0, 1),
        base(0, ".R"),
        entry(0, 0, 1, 0, "A"),
    ]);
}

#[test]
fn a_table_with_such_an_entry_is_not_sound() {
    let records = after(&shelf(), &[(11, base(12, ".T"))]);
    assert!(!sound(&records.concat()));
    let bench = Bench::of(records.concat());
    for line in ["DST .R:A", "DST .T", "LST .", "DEL .T"] {
        bench.refuse(line, b"", 2, 0);
    }
}

// "Demand 3 has "some first part of its names" here as with DEL"

/// The stores of the names of `DST .R:D:F .R:D .R:A` on the shelf.
fn three_names() -> [Vec<Store>; 3] {
    [
        vec![(7, FREE), (8, FREE), (5, dir(1, 0))],
        vec![(5, FREE), (6, FREE), (0, dir(1, 2))],
        vec![(2, FREE), (3, FREE), (4, FREE), (0, dir(1, 1))],
    ]
}

#[test]
fn several_names_are_cut_anywhere() {
    let names = three_names();
    let names: Vec<&[Store]> = names.iter().map(Vec::as_slice).collect();
    told(&shelf(), "DST .R:D:F .R:D .R:A", b"", 0, &names, 1);
}

#[test]
fn two_sheets_with_text_in_two_directories() {
    let records = [
        entry(0, 4, 1, 0, "A"),
        file(2, 2),
        text(1, 0, b"11"),
        base(4, ".R"),
        dir(2, 2),
        entry(0, 6, 1, 0, "A"),
        dir(1, 2),
        base(6, ".T"),
        file(25, 1),
        text(8, 1, b"2"),
        text(8, 0, &[b'2'; 24]),
        entry(0, 6, 8, 0, "B"),
        entry(0, 4, 4, 0, "ME"),
    ];
    let one = [1, 2, 0, 5].map(|number| (number, FREE));
    let one = [&one[..], &[(4, dir(2, 1)), (6, dir(1, 1))]].concat();
    let other = [8, 10, 9, 11].map(|number| (number, FREE));
    let other = [&other[..], &[(6, dir(1, 0))]].concat();
    told(&records, "DST .R:A .T:B", b"", 0, &[&one, &other], 1);
}

// ".. and whatever demand 1 and document 01 except or say for a DEL of several names holds for DST too"

#[test]
fn it_stops_at_the_first_refusal_with_the_names_before_it_done() {
    let [first, second, third] = three_names();
    let done = |names: &[&[Store]]| after(&shelf(), &names.concat()).concat();
    let bench = bench(&shelf());
    for (line, numbers, left) in [
        ("DST .R:A .R:A", [11, 2, 2, 1, 0, 0, 4], {
            let alone = [(2, FREE), (3, FREE), (4, FREE), (0, dir(1, 2))];
            done(&[&alone])
        }),
        (
            "DST .R:D:F .R:D:F .R:A",
            [11, 2, 3, 1, 0, 0, 3],
            done(&[&first]),
        ),
        (
            "DST .R:D:F .R:D .R:D:F",
            [11, 3, 2, 2, 0, 0, 6],
            done(&[&first, &second]),
        ),
        (
            "DST .R:D:F .R:D .R:A .R",
            [18, 4, 1, 3, 0, 0, 10],
            done(&[&first, &second, &third]),
        ),
        ("DST .R:D:F .R:A:X", [12, 2, 2, 1, 0, 0, 3], done(&[&first])),
    ] {
        let seen = bench.ask(line, b"");
        assert_eq!(seen.answer, answer(numbers), "{line}");
        assert_eq!(seen.table, left, "{line}");
        assert!(sound(&seen.table), "{line}");
    }
}

#[test]
fn another_entry_of_a_file_that_is_gone_gets_11() {
    // A and .ABC are one file: the first name takes both
    let seen = bench(&shelf()).ask("DST .R:A .ABC", b"");
    assert_eq!(seen.answer, answer([11, 2, 1, 1, 0, 0, 4]));
    let seen = bench(&shelf()).ask("DST .ABC .R:A", b"");
    assert_eq!(seen.answer, answer([11, 2, 2, 1, 0, 0, 4]));
    // where DEL takes one after the other
    bench(&shelf()).grant("DEL .R:A .ABC", b"");
}

#[test]
fn each_name_meets_the_table_after_those_before_it() {
    let mut bench = bench(&shelf());
    bench.refuse_at("DST .R:D .R:D:F", 18, 1, 2);
    bench.grant("DST .R:D:F .R:D", b"");
    bench.grant("DST .R:E .R:A .R", b"");
    assert!(bench.table.iter().all(|byte| *byte == 0));
}

#[test]
fn number_22_where_a_later_name_would_be_refused() {
    let bench = bench(&shelf());
    for stop in 0..4 {
        let cut = bench.stop(stop).ask("DST .R:A .R:X", b"");
        assert_eq!(cut.answer, answer([22, 0, 0, 0, 0, 0, stop]));
    }
    for stop in [4, 5, UNCUT] {
        let seen = bench.stop(stop).ask("DST .R:A .R:X", b"");
        assert_eq!(seen.answer, answer([11, 2, 2, 1, 0, 0, 4]));
    }
    // and at the end of a name that another follows
    for (stop, names) in [(4, 1), (5, 1), (6, 1), (7, 2)] {
        let cut = bench.stop(stop).ask("DST .R:A .R:E .R:X", b"");
        let number = if stop < 7 { 22 } else { 11 };
        assert_eq!((cut.answer.number, cut.answer.names), (number, names));
    }
}

// "Refusals: 18 for a directory with entries, its own self-entry included"

#[test]
fn number_18_for_a_directory_with_entries() {
    let bench = bench(&shelf());
    bench.refuse_at("DST .R:D", 18, 1, 2);
    bench.refuse_at("DST .R", 18, 1, 1);
}

#[test]
fn number_18_also_where_other_entries_name_it() {
    let mut bench = bench(&shelf());
    bench.grant("DUP .R:D .T", b"");
    bench.refuse_at("DST .T", 18, 1, 1);
    bench.refuse_at("DST .R:D", 18, 1, 2);
    // where DEL is granted
    assert_eq!(bench.ask("DEL .R:D", b"").answer.number, 0);
}

#[test]
fn its_own_entry_is_one() {
    let mut bench = bench(&looped());
    bench.refuse_at("DST .R", 18, 1, 1);
    bench.refuse_at("DST .R:LOOP", 18, 1, 2);
    bench.refuse_at("DST .R:LOOP:LOOP:LOOP", 18, 1, 4);
    bench.grant("DEL .R:LOOP", b"");
    bench.grant("DST .R", b"");
    assert!(bench.table.iter().all(|byte| *byte == 0));
}

#[test]
fn a_loop_of_two_is_not_destroyed_at_either() {
    let mut bench = bench(&shelf());
    bench.grant("DUP .R .R:E:UP", b"");
    bench.refuse_at("DST .R:E", 18, 1, 2);
    bench.refuse_at("DST .R:E:UP", 18, 1, 3);
}

#[test]
fn number_14_before_18() {
    let records = after(&shelf(), &[(5, coded(dir(1, 1), 1))]);
    bench(&records).refuse_at("DST .R:D", 14, 1, 2);
    let records = after(&looped(), &[(2, entry(1, 0, 0, 0, "LOOP"))]);
    bench(&records).refuse_at("DST .R:LOOP", 14, 1, 2);
    bench(&records).refuse_at("DST .R", 18, 1, 1);
}

// "otherwise as DEL"

#[test]
fn numbers_1_to_4() {
    let mut bench = bench(&shelf());
    bench.user = 1_000_000;
    bench.refuse("DST .R:A", b"", 3, 0);
    bench.user = 999_999;
    bench.refuse_at("DST .R:A", 11, 1, 1);
    bench.user = 1;
    bench.refuse(format!("DST .R:A{}", " ".repeat(249)), b"", 4, 0);
    bench.table[31] = 1;
    bench.refuse("DST .R:A", b"", 2, 0);
    bench.table.push(0);
    bench.refuse("DST .R:A", b"", 1, 0);
}

#[test]
fn numbers_7_and_8_with_their_links_over_all_names() {
    let bench = bench(&shelf());
    for (line, number, argument, link) in [
        ("DST .R::A", 7, 1, 2),
        ("DST .R:A @", 7, 2, 2),
        ("DST .R:A .R:ELEVENCHARS", 7, 2, 2),
        ("DST -", 7, 1, 0),
        ("DST .R:A -", 7, 2, 0),
        ("DST A:A:A:A:A:A:A:A:A:A:A:A:A:A:A:A", 7, 1, 0),
        ("DST .1 .R:@", 7, 2, 2),
        ("DST .", 8, 1, 1),
        ("DST .R:A .1", 8, 2, 1),
        ("DST .R:A .R:B .X:A", 8, 3, 1),
        ("DST .000777", 8, 1, 1),
        ("DST .000777:KEYS", 8, 1, 1),
        ("DST .R:A .000001:A", 8, 2, 1),
    ] {
        bench.refuse_at(line, number, argument, link);
    }
}

#[test]
fn numbers_11_12_and_13_with_their_links() {
    let bench = bench(&after(&shelf(), &[(9, coded(dir(1, 0), 2))]));
    for (line, number, argument, link) in [
        ("DST .R:X", 11, 1, 2),
        ("DST .T", 11, 1, 1),
        ("DST .T:A", 11, 1, 1),
        ("DST .R:D:X", 11, 1, 3),
        ("DST A", 11, 1, 1),
        ("DST .R:A:X", 12, 1, 2),
        ("DST .ABC:X:Y", 12, 1, 1),
        ("DST .R:E:X", 13, 1, 2),
    ] {
        bench.refuse_at(line, number, argument, link);
    }
}

#[test]
fn a_refusal_of_the_first_name_changes_nothing() {
    let bench = bench(&keys());
    for stop in [0, 1, UNCUT] {
        bench.stop(stop).refuse_at("DST .R:B .R:SHEET", 14, 1, 2);
        bench.stop(stop).refuse_at("DST .R .R:SHEET", 18, 1, 1);
    }
}
