//! Document 02, a, "Rewrite a medium file": its sentences in their order, then each refusal with its link. Tables, stores and
//! answers are written by hand.

mod common;
use common::*;

use beside::{read, Chain, Refusal, Request};

const UNCUT: u32 = 65_535;
const NIGHT: u32 = 777;
static LONG: [u8; 24_001] = [b'L'; 24_001];

/// The heading with its mark: byte 5 is 1.
fn marked(mut heading: [u8; 32]) -> [u8; 32] {
    heading[5] = 1;
    heading
}

/// A table of these records.
fn of(records: &[[u8; 32]]) -> Bench {
    Bench::of(records.concat())
}

/// The heading of a sheet of so many bytes that two entries name.
fn sheet(length: u16) -> [u8; 32] {
    named(simple(length), 2)
}

/// A directory `.R` with a sheet A of thirty bytes, its text from record 3 on; B is another entry of it. Two records are free.
fn filed() -> Vec<[u8; 32]> {
    vec![
        counts(directory(), 1, 2),
        base(0, ".R"),
        sheet(30),
        text(2, 0, &TEXT[..24]),
        text(2, 1, &TEXT[24..]),
        entry(0, 0, 2, 0, "A"),
        entry(0, 0, 2, 0, "B"),
        FREE,
        FREE,
    ]
}

/// The same with the sheet marked and empty.
fn emptied() -> Vec<[u8; 32]> {
    let mut records = filed();
    records[2] = marked(sheet(0));
    records[3..5].fill(FREE);
    records
}

/// The same table, all its free records cut off, so that nothing is free but what stands among the others.
fn full(records: &[[u8; 32]]) -> Bench {
    let taken = records.iter().rposition(|record| *record != FREE);
    of(&records[..taken.map_or(0, |last| last + 1)])
}

/// The rewrite must make these stores, each a record's number and what it becomes: none at stop number 0, one at 1, and so on.
/// Cut, it answers 22 with no name done; whole, 0 with one.
fn stores(records: &[[u8; 32]], line: &str, text: &[u8], expected: &[(usize, [u8; 32])]) {
    let bench = of(records);
    let mut after = records.to_vec();
    let whole = expected.len() as u32;
    for stop in 0..=whole + 1 {
        let seen = bench.stop(stop).ask(line, text);
        let numbers = match stop < whole {
            true => [22, 0, 0, 0, 0, 0, stop],
            false => [0, 0, 0, 1, 0, 0, whole],
        };
        assert_eq!(seen.answer, answer(numbers), "{line}, {stop}");
        assert!(seen.table == after.concat(), "{line}, {stop}: table");
        assert!(seen.untouched(), "{line}, {stop}: reply");
        if let Some((number, record)) = expected.get(stop as usize) {
            after[*number] = *record;
        }
    }
    assert!(sound(&after.concat()), "{line}: not sound after");
}

/// Mended, a table is these records, with so many stores; cut anywhere and run again too.
fn mends(table: &[u8], after: &[[u8; 32]], made: u32) {
    for stop in 0..=made {
        let mut cut = table.to_vec();
        let number = if stop < made { 22 } else { 0 };
        let expected = answer([number, 0, 0, 0, 0, 0, stop]);
        assert_eq!(mend(&mut cut, stop), expected);
        let left = answer([0, 0, 0, 0, 0, 0, made - stop]);
        assert_eq!(mend(&mut cut, UNCUT), left);
        assert_eq!(cut, after.concat());
    }
}

/// Mending answers 2 and leaves the table as found.
fn is_beyond_mending(records: &[[u8; 32]]) {
    let mut table = records.concat();
    assert_eq!(mend(&mut table, UNCUT), answer([2, 0, 0, 0, 0, 0, 0]));
    assert_eq!(table, records.concat());
}

/// So many bytes, each its own.
fn bytes(length: usize) -> Vec<u8> {
    (0..length).map(|at| (at % 251) as u8).collect()
}

// "Test limits change weekly and every link to them should see the new text."

#[test]
fn every_link_sees_the_new_text() {
    let mut bench = Bench::grown(32, &["CRD .R", "WRS M .R:LIMITS"]);
    bench.grant("CRD .R:LINE2", b"");
    bench.grant("DUP .R:LIMITS .R:LINE2:LIMITS .4", b"");
    bench.user = NIGHT;
    bench.grant("CRD .G", b"");
    bench.user = 1;
    bench.grant("DUP .R:LIMITS .000777:LIMITS .1", b"");
    bench.grant("CPY .R:LIMITS .R:OLD", b"");
    bench.grant("WRS* M .R:LINE2:LIMITS", b"5.0 V");
    assert_eq!(bench.reply("RDS .R:LIMITS"), b"5.0 V");
    assert_eq!(bench.reply("RDS .R:LINE2:LIMITS"), b"5.0 V");
    assert_eq!(bench.reply("RDS .R:LIMITS 4 1"), b"V");
    // a copy is another file
    assert_eq!(bench.reply("RDS .R:OLD"), TEXT);
    bench.user = NIGHT;
    assert_eq!(bench.reply("RDS .G:LIMITS"), b"5.0 V");
    // who was given it without the pen reads it alone
    bench.refuse_at("WRS* M .G:LIMITS", 14, 2, 2);
}

#[test]
fn who_was_given_the_pen_rewrites_for_everyone() {
    let mut bench = Bench::grown(16, &["CRD .R", "WRS M .R:A"]);
    bench.user = NIGHT;
    bench.grant("CRD .G", b"");
    bench.user = 1;
    bench.grant("DUP .R:A .000777:A", b"");
    bench.user = NIGHT;
    bench.grant("WRS* M .G:A", b"BY NIGHT");
    bench.user = 1;
    assert_eq!(bench.reply("RDS .R:A"), b"BY NIGHT");
}

// "`WRS*` decl name, with a text, rewrites an existing simple file of lifetime M: same heading, same level and codes, so the
// declaration may be only M."

#[test]
fn the_line_is_read() {
    let name = |before: &[&'static [u8]], last: &'static [u8]| Chain {
        before: before.to_vec(),
        last,
    };
    for (line, name) in [
        ("WRS* M .R:A", name(&[b".R"], b"A")),
        ("WRS* M. A", name(&[b".W"], b"A")),
        ("  WRS*  M  .R : A ", name(&[b".R"], b"A")),
        ("WRS* M .R", name(&[], b".R")),
    ] {
        let asked = Ok(Request::Rewrite { name });
        assert_eq!(read(line.as_bytes(), 24_000), asked, "{line}");
    }
}

#[test]
fn the_heading_keeps_its_level_and_codes() {
    for level in 0..4 {
        for code in [0, 2, 4, 6] {
            let mut records = filed();
            records[2] = named(heading(1, level, code, 1, 30), 2);
            records[5] = entry(4, 0, 2, 0, "A");
            let mut bench = of(&records);
            bench.grant("WRS* M .R:A", b"NEW");
            records[2] = named(heading(1, level, code, 1, 3), 2);
            records[3] = text(2, 0, b"NEW");
            records[4] = FREE;
            assert_eq!(bench.table, records.concat());
        }
    }
}

#[test]
fn number_9_for_another_declaration() {
    let mut bench = of(&filed());
    for declared in [
        "L", "S", "-", ".", "M.U", "M.0", "FM", "DM", "F", "D", "M.U0", "M.P4", ".0", "L.", "MM",
        "ML", "M-", "M:A", "Q", "1", "M.8", "FM.", "M..",
    ] {
        bench.refuse_at(&format!("WRS* {declared} .R:A"), 9, 1, 0);
    }
    for medium in ["M", "M."] {
        let seen = bench.grant(&format!("WRS* {medium} .R:A"), TEXT);
        assert_eq!(seen.answer, answer([0, 0, 0, 1, 0, 0, 6]));
    }
}

#[test]
fn it_is_one_word_with_two_arguments() {
    let bench = of(&filed());
    for line in ["WRS*", "WRS* M", "WRS* .R:A", "WRS* M .R:A .R:B"] {
        bench.refuse_at(line, 6, 0, 0);
    }
    for line in [
        "WRS** M .R:A",
        "WRS*M .R:A",
        "WRS* :M .R:A",
        "WRS:* M .R:A",
        "*WRS M .R:A",
        "WRS. M .R:A",
        "RDS* .R:A",
    ] {
        bench.refuse_at(line, 5, 0, 0);
    }
    // a WRS whose declaration is an asterisk
    bench.refuse_at("WRS * .R:A", 9, 1, 0);
    bench.refuse("wrs* M .R:A", b"", 4, 0);
}

#[test]
fn it_makes_no_file() {
    let bench = of(&filed());
    bench.refuse_at("WRS* M .R:C", 11, 2, 2);
    bench.refuse_at("WRS* M .T", 11, 2, 1);
    bench.refuse_at("WRS* M A", 11, 2, 1);
}

// "It needs write on the file."

#[test]
fn number_14_by_the_joined_code_of_the_file() {
    let mut bench = of(&filed());
    bench.grant("DUP .R:A .R:C .1", b"");
    bench.refuse_at("WRS* M .R:C", 14, 2, 2);
    bench.grant("WRS* M .R:A", b"NEW");
    assert_eq!(bench.reply("RDS .R:C"), b"NEW");
    bench.grant("DPR .R:A .1", b"");
    for name in ["A", "B", "C"] {
        bench.refuse_at(&format!("WRS* M .R:{name}"), 14, 2, 2);
    }
}

#[test]
fn nothing_is_asked_of_the_directory_nor_read_of_the_file() {
    let lines = ["CRD .R", "CRD .R:D", "WRS M .R:D:F", "WRS M.6 .R:D:KEYS"];
    let mut bench = Bench::grown(24, &lines);
    bench.grant("DPR .R:D .1", b"");
    bench.refuse_at("WRS M .R:D:F", 14, 2, 3);
    bench.grant("WRS* M .R:D:F", b"NEW");
    assert_eq!(bench.reply("RDS .R:D:F"), b"NEW");
    // read and execute inhibited, by heading and entry
    bench.refuse_at("RDS .R:D:KEYS", 13, 1, 3);
    let seen = bench.grant("WRS* M .R:D:KEYS", b"OTHER KEYS");
    assert_eq!(seen.answer, answer([0, 0, 0, 1, 0, 0, 5]));
    bench.refuse_at("RDS .R:D:KEYS", 13, 1, 3);
}

// "The length may change. Stores: the heading marked (byte 5 is 1) with length 0, old text cleared by position, new text into
// the lowest records then free, heading unmarked with the new length."

#[test]
fn a_shorter_text_store_by_store() {
    let expected = [
        (2, marked(sheet(0))),
        (3, FREE),
        (4, FREE),
        (3, text(2, 0, b"5.0 V")),
        (2, sheet(5)),
    ];
    stores(&filed(), "WRS* M .R:A", b"5.0 V", &expected);
    // by another entry of the same file
    stores(&filed(), "WRS* M .R:B", b"5.0 V", &expected);
}

#[test]
fn a_longer_text_store_by_store() {
    let long = bytes(73);
    let expected = [
        (2, marked(sheet(0))),
        (3, FREE),
        (4, FREE),
        (3, text(2, 0, &long[..24])),
        (4, text(2, 1, &long[24..48])),
        (7, text(2, 2, &long[48..72])),
        (8, text(2, 3, &long[72..])),
        (2, sheet(73)),
    ];
    stores(&filed(), "WRS* M .R:A", &long, &expected);
}

#[test]
fn old_text_is_cleared_by_position_and_new_text_goes_to_the_lowest_records() {
    // the second block stands before the first one, and a free record before both
    let records = [
        counts(directory(), 1, 1),
        base(0, ".R"),
        FREE,
        text(5, 1, &TEXT[24..]),
        text(5, 0, &TEXT[..24]),
        named(simple(30), 1),
        entry(0, 0, 5, 0, "A"),
    ];
    let new = bytes(49);
    let expected = [
        (5, marked(named(simple(0), 1))),
        (4, FREE),
        (3, FREE),
        (2, text(5, 0, &new[..24])),
        (3, text(5, 1, &new[24..48])),
        (4, text(5, 2, &new[48..])),
        (5, named(simple(49), 1)),
    ];
    stores(&records, "WRS* M .R:A", &new, &expected);
    // a text of one block leaves the higher records free
    let expected = [
        (5, marked(named(simple(0), 1))),
        (4, FREE),
        (3, FREE),
        (2, text(5, 0, b"NEW")),
        (5, named(simple(3), 1)),
    ];
    stores(&records, "WRS* M .R:A", b"NEW", &expected);
}

#[test]
fn the_same_text_takes_all_stores() {
    let expected = [
        (2, marked(sheet(0))),
        (3, FREE),
        (4, FREE),
        (3, text(2, 0, &TEXT[..24])),
        (4, text(2, 1, &TEXT[24..])),
        (2, sheet(30)),
    ];
    stores(&filed(), "WRS* M .R:A", TEXT, &expected);
}

#[test]
fn no_bytes_onto_none_is_two_stores() {
    let mut records = filed();
    records[2] = sheet(0);
    records[3..5].fill(FREE);
    let both = [(2, marked(sheet(0))), (2, sheet(0))];
    stores(&records, "WRS* M .R:A", b"", &both);
    // and a text of one byte onto none, and none onto one of thirty
    let expected = [(2, marked(sheet(0))), (3, text(2, 0, b"X")), (2, sheet(1))];
    stores(&records, "WRS* M .R:A", b"X", &expected);
    let expected = [(2, marked(sheet(0))), (3, FREE), (4, FREE), (2, sheet(0))];
    stores(&filed(), "WRS* M .R:A", b"", &expected);
}

#[test]
fn a_base_file_is_rewritten() {
    let records = [named(simple(3), 1), base(0, ".ABC"), text(0, 0, b"OLD")];
    let expected = [
        (0, marked(named(simple(0), 1))),
        (2, FREE),
        (2, text(0, 0, b"NEWER")),
        (0, named(simple(5), 1)),
    ];
    stores(&records, "WRS* M .ABC", b"NEWER", &expected);
}

#[test]
fn the_longest_text_onto_the_longest_is_2002_stores() {
    // two records for `.R`, then heading, text and entry: nothing is free
    let mut bench = Bench::new(2 + 1_002);
    bench.grant("CRD .R", b"");
    bench.grant("WRS M .R:A", &LONG[..24_000]);
    assert_eq!(count(&bench.table, 0), 0);
    let before = bench.table.clone();
    let new = bytes(24_000);
    let seen = bench.grant("WRS* M .R:A", &new);
    assert_eq!(seen.answer, answer([0, 0, 0, 1, 0, 0, 2_002]));
    assert_eq!(bench.reply("RDS .R:A"), new);
    // each block where the old one of its position was
    for at in 0..1_000 {
        let block = text(2, at as u16, &new[at * 24..at * 24 + 24]);
        assert_eq!(record(&bench.table, 3 + at), block, "{at}");
    }
    assert_eq!(record(&bench.table, 2), record(&before, 2));
    let stopped = bench.stop(2_001).ask("WRS* M .R:A", &new);
    assert_eq!(stopped.answer, answer([22, 0, 0, 0, 0, 0, 2_001]));
}

#[test]
fn number_10_above_24000_bytes() {
    let bench = of(&filed());
    bench.refuse("WRS* M .R:A", &LONG, 10, 0);
    assert_eq!(bench.ask("WRS* M .R:A", &LONG).answer.link, 0);
    // before the walk and every end check; after 9
    bench.refuse("WRS* M .R:X", &LONG, 10, 0);
    bench.refuse("WRS* M .R", &LONG, 10, 0);
    bench.refuse("WRS* L .R:A", &LONG, 9, 1);
    bench.refuse("WRS* M .R:A", &LONG[..24_000], 19, 0);
}

// "Mending a marked file clears its text and leaves the mark; demand 3 then reads: before, after, or after with that one file
// marked and empty."

/// Cut everywhere and mended: before at no store, these records at every cut between, after at all. The stores of each mending
/// are the text records that the cut left: of `old` blocks fewer with each store, then of the new ones more.
fn cut_everywhere(records: &[[u8; 32]], line: &str, text: &[u8], empty: &[[u8; 32]], old: u32) {
    let bench = of(records);
    let whole = bench.ask(line, text);
    let needed = whole.answer.stores;
    assert_eq!(needed, 2 + old + text.len().div_ceil(24) as u32, "{line}");
    mends(&bench.stop(0).ask(line, text).table, records, 0);
    for stop in 1..needed {
        let cut = bench.stop(stop).ask(line, text).table;
        let left = (stop - 1).abs_diff(old);
        mends(&cut, empty, left);
        // sound before it is mended exactly where the old text is gone and no new text is there
        assert_eq!(sound(&cut), left == 0, "{line}, {stop}");
    }
    assert!(sound(&whole.table));
}

#[test]
fn every_cut_between_mends_to_the_file_marked_and_empty() {
    for length in [0, 1, 24, 25, 60, 96] {
        cut_everywhere(&filed(), "WRS* M .R:A", &bytes(length), &emptied(), 2);
        // a file that is marked already: the table before is the one marked and empty
        cut_everywhere(&emptied(), "WRS* M .R:B", &bytes(length), &emptied(), 0);
    }
    let mut none = filed();
    none[2] = sheet(0);
    none[3..5].fill(FREE);
    cut_everywhere(&none, "WRS* M .R:A", &bytes(50), &emptied(), 0);
}

#[test]
fn another_file_is_left_by_a_cut() {
    let mut records = filed();
    records[0] = counts(directory(), 1, 3);
    records[7] = named(simple(0), 1);
    records[8] = entry(0, 0, 7, 0, "C");
    let mut empty = records.clone();
    empty[2] = marked(sheet(0));
    empty[3..5].fill(FREE);
    cut_everywhere(&records, "WRS* M .R:A", b"NEW", &empty, 2);
    // one that is marked too
    records[7] = marked(named(simple(0), 1));
    empty[7] = records[7];
    cut_everywhere(&records, "WRS* M .R:A", b"NEW", &empty, 2);
}

#[test]
fn a_cut_rewrite_is_not_read_before_it_is_mended() {
    // sound after three stores, and refused; not sound after two or four
    let bench = of(&filed());
    for (stop, number, argument, link) in [(2, 2, 0, 0), (3, 23, 1, 2), (4, 2, 0, 0)] {
        let cut = bench.stop(stop).ask("WRS* M .R:A", TEXT).table;
        Bench::of(cut).refuse_at("RDS .R:A", number, argument, link);
    }
}

#[test]
fn the_text_of_a_marked_file_goes_by_record_number() {
    let mut records = emptied();
    records[3] = text(2, 1, b"B");
    records[4] = text(2, 0, b"A");
    records[8] = text(2, 7, b"C");
    let mut after = records.clone();
    for (made, number) in [3, 4, 8].into_iter().enumerate() {
        let mut cut = records.concat();
        let stop = made as u32;
        assert_eq!(mend(&mut cut, stop), answer([22, 0, 0, 0, 0, 0, stop]));
        assert_eq!(cut, after.concat());
        after[number] = FREE;
    }
    mends(&records.concat(), &emptied(), 3);
}

#[test]
fn an_unnamed_heading_goes_marked_or_not() {
    let records = [marked(simple(0)), text(0, 0, b"T"), marked(simple(5))];
    mends(&records.concat(), &[FREE; 3], 3);
}

#[test]
fn the_mark_is_byte_5_alone() {
    // another number there is no mark: the text stays, and so the table is not to be mended
    for byte in [2, 3, 128, 255] {
        let mut records = filed();
        records[2][5] = byte;
        is_beyond_mending(&records);
    }
    // what is marked and is no simple file, is long or has a length loses its text, and the result is not sound
    for heading in [
        directory(),
        heading(1, 0, 0, 2, 0),
        heading(1, 0, 0, 1, 30),
        heading(2, 0, 0, 1, 0),
    ] {
        let mut records = filed();
        records[2] = marked(named(heading, 2));
        is_beyond_mending(&records);
    }
}

// "A marked file, simple, M, length 0, is sound; RDS and CPY refuse it, and a second rewrite repairs it."

#[test]
fn a_marked_file_is_sound_if_it_is_simple_medium_and_empty() {
    let with = |heading| {
        let mut records = emptied();
        records[2] = named(heading, 2);
        records
    };
    for level in 0..4 {
        for code in 0..8 {
            let heading = heading(1, level, code, 1, 0);
            assert!(sound(&with(marked(heading)).concat()));
            assert!(sound(&with(heading).concat()));
        }
    }
    let unsound = [
        marked(directory()),
        marked(heading(1, 0, 0, 2, 0)),
        marked(simple(1)),
        marked(simple(24_000)),
        marked(simple(256)),
    ];
    for heading in unsound {
        of(&with(heading)).refuse_at("LST .", 2, 0, 0);
    }
    for byte in 2..=255 {
        for mut heading in [simple(0), directory()] {
            heading[5] = byte;
            of(&with(heading)).refuse_at("LST .", 2, 0, 0);
        }
    }
    // with its text there, and with the length of that too
    let mut records = filed();
    records[2] = marked(sheet(30));
    of(&records).refuse_at("LST .", 2, 0, 0);
    records[2] = marked(sheet(0));
    of(&records).refuse_at("LST .", 2, 0, 0);
    // a mark on `.R` itself
    let mut records = filed();
    records[0] = marked(records[0]);
    of(&records).refuse_at("LST .", 2, 0, 0);
}

#[test]
fn number_23_by_rds_and_cpy() {
    let mut bench = of(&emptied());
    for line in [
        "RDS .R:A",
        "RDS .R:B",
        "RDS .R:A - -",
        "RDS .R:A 0 1",
        "RDS .R:A - 5",
    ] {
        bench.refuse_at(line, 23, 1, 2);
    }
    for line in ["CPY .R:A .R:C", "CPY .R:A .R:C M", "CPY .R:A .R:A"] {
        bench.refuse_at(line, 23, 1, 2);
    }
    // at the last link, wherever that is
    bench.grant("DUP .R:A .ABC", b"");
    bench.refuse_at("RDS .ABC", 23, 1, 1);
    bench.refuse_at("CPY .ABC .R:C", 23, 1, 1);
    let mut bench = of(&emptied());
    bench.user = NIGHT;
    bench.table.resize(16 * 32, 0);
    bench.grant("CRD .G", b"");
    bench.user = 1;
    bench.grant("DUP .R:A .000777:A", b"");
    bench.user = NIGHT;
    bench.grant("CHN .G .T", b"");
    bench.user = 1;
    bench.refuse_at("RDS .000777:A", 23, 1, 2);
    bench.refuse_at("CPY .000777:A .R:C", 23, 1, 2);
}

#[test]
fn number_23_in_its_place_among_the_others() {
    let mut bench = of(&emptied());
    bench.table.resize(200 * 32, 0);
    // RDS: 27 is the line's; 13 before 23 before 28; a reply of no bytes is never too short
    bench.refuse_at("RDS .R:A 8", 27, 2, 0);
    bench.refuse_at("RDS .R:A - 0", 27, 3, 0);
    bench.refuse_at("RDS .R:A 1", 23, 1, 2);
    bench.refuse_at("RDS .R:A 777777 1", 23, 1, 2);
    bench.grant("DUP .R:A .R:SHUT .2", b"");
    bench.refuse_at("RDS .R:SHUT", 13, 1, 2);
    let mut short = bench.clone();
    short.room = 0;
    short.refuse_at("RDS .R:A", 23, 1, 2);
    // CPY: 11, 12, 13, 14, 18, 17 and 19 before it, 25 after it
    bench.refuse_at("CPY .R:A .R:X:Y", 11, 2, 2);
    bench.refuse_at("CPY .R:A .R:B:Y", 12, 2, 2);
    bench.refuse_at("CPY .R:SHUT .R:C", 13, 1, 2);
    bench.grant("CRD .R:D", b"");
    bench.grant("CRD .R:D:E", b"");
    bench.grant("DUP .R:D .R:CAPPED .1", b"");
    bench.refuse_at("CPY .R:A .R:CAPPED:X", 14, 2, 3);
    bench.grant("DEL .R:CAPPED", b"");
    bench.refuse_at("CPY .R:A .R:D", 18, 2, 2);
    let mut crowded = bench.clone();
    for at in 0..108 {
        crowded.grant(&format!("DUP .R:A .R:N{at}"), b"");
    }
    crowded.refuse_at("CPY .R:A .R:NEW", 17, 2, 2);
    crowded.refuse_at("CPY .R:A .R:N1", 23, 1, 2);
    let mut emptied = emptied();
    emptied[0] = counts(directory(), 1, 3);
    emptied[3] = named(simple(0), 1);
    emptied[4] = entry(0, 0, 3, 0, "C");
    full(&emptied).refuse_at("CPY .R:A .R:D", 19, 0, 0);
    full(&emptied).refuse_at("CPY .R:A .R:C", 19, 0, 0);
    full(&emptied).refuse_at("RDS .R:A", 23, 1, 2);
    let mut secret = self::emptied();
    secret[2] = marked(named(heading(1, 3, 0, 1, 0), 2));
    of(&secret).refuse_at("CPY .R:A .R:C .U", 23, 1, 2);
    secret[2] = named(heading(1, 3, 0, 1, 0), 2);
    of(&secret).refuse_at("CPY .R:A .R:C .U", 25, 3, 0);
}

#[test]
fn a_second_rewrite_repairs_it() {
    let expected = [
        (2, marked(sheet(0))),
        (3, text(2, 0, &TEXT[..24])),
        (4, text(2, 1, &TEXT[24..])),
        (2, sheet(30)),
    ];
    stores(&emptied(), "WRS* M .R:A", TEXT, &expected);
    let both = [(2, marked(sheet(0))), (2, sheet(0))];
    stores(&emptied(), "WRS* M .R:A", b"", &both);
    let mut bench = of(&emptied());
    bench.grant("WRS* M .R:B", TEXT);
    assert_eq!(bench.reply("RDS .R:A"), TEXT);
    bench.table.resize(16 * 32, 0);
    let seen = bench.grant("CPY .R:A .ABC", b"");
    // heading, two texts and entry; then the copy's count alone, since a base list has none
    assert_eq!(seen.answer, answer([0, 0, 0, 1, 0, 0, 5]));
}

#[test]
fn dpr_keeps_the_mark() {
    let mut bench = of(&emptied());
    let seen = bench.grant("DPR .R:A .6", b"");
    assert_eq!(seen.answer, answer([0, 0, 0, 1, 0, 0, 1]));
    let mut after = emptied();
    after[2] = marked(named(heading(1, 0, 6, 1, 0), 2));
    assert_eq!(bench.table, after.concat());
    bench.refuse_at("DPR .R:A .4", 21, 2, 0);
    // and rewriting it keeps the code
    bench.grant("WRS* M .R:A", b"NEW");
    assert_eq!(record(&bench.table, 2), named(heading(1, 0, 6, 1, 3), 2));
    bench.grant("DPR .R:A .7", b"");
    assert_eq!(record(&bench.table, 2), named(heading(1, 0, 7, 1, 3), 2));
}

#[test]
fn otherwise_it_is_a_file_as_any() {
    let mut bench = of(&emptied());
    let listed = b"FM.U0    A\r\nFM.U0    B\r\n";
    assert_eq!(bench.reply("LST .R"), listed);
    assert_eq!(bench.reply("LST* .R 2"), listed);
    bench.refuse_at("LST .R:A", 15, 1, 2);
    bench.refuse_at("RDS .R:A:X", 12, 1, 2);
    // DUP, CHN
    let seen = bench.grant("DUP .R:A .R:C .4", b"");
    assert_eq!(seen.answer, answer([0, 0, 0, 1, 0, 0, 3]));
    let mut after = emptied();
    after[0] = counts(directory(), 1, 3);
    after[2] = marked(named(simple(0), 3));
    after[3] = entry(4, 0, 2, 0, "C");
    assert_eq!(bench.table, after.concat());
    let seen = bench.grant("CHN .R:C D", b"");
    assert_eq!(seen.answer, answer([0, 0, 0, 1, 0, 0, 1]));
    after[3] = entry(4, 0, 2, 0, "D");
    assert_eq!(bench.table, after.concat());
    // DEL: its heading goes with its last entry
    // each name: the entry and the counts of `.R` and of the file; the last one: the heading
    let seen = bench.grant("DEL .R:D .R:B .R:A", b"");
    assert_eq!(seen.answer, answer([0, 0, 0, 3, 0, 0, 3 + 3 + 4]));
    let left = [named(directory(), 1), base(0, ".R")];
    assert_eq!(bench.table, with_free(&left, 9));
}

/// These records, and free ones, so many in all.
fn with_free(records: &[[u8; 32]], all: usize) -> Vec<u8> {
    let mut table = records.concat();
    table.resize(all * 32, 0);
    table
}

#[test]
fn a_marked_file_is_displaced_as_any() {
    let mut bench = of(&emptied());
    bench.grant("DEL .R:B", b"");
    let seen = bench.grant("WRS M .R:A", b"NEW");
    // heading, text, entry; the counts of the marked file and of the new one; then the marked heading cleared
    assert_eq!(seen.answer, answer([0, 0, 0, 1, 1, 0, 6]));
    let expected = [
        counts(directory(), 1, 1),
        base(0, ".R"),
        FREE,
        named(simple(3), 1),
        text(3, 0, b"NEW"),
        entry(0, 0, 3, 0, "A"),
    ];
    assert_eq!(bench.table, with_free(&expected, 9));
    // by a DUP and a CPY too
    let mut records = emptied();
    records[2] = marked(named(simple(0), 1));
    records[6] = named(simple(0), 1);
    records[7] = entry(0, 0, 6, 0, "C");
    for (line, stores) in [("DUP .R:C .R:A", 4), ("CPY .R:C .R:A", 5), ("CRD .R:A", 5)] {
        let seen = of(&records).ask(line, b"");
        assert_eq!(seen.answer, answer([0, 0, 0, 1, 1, 0, stores]), "{line}");
        assert_eq!(record(&seen.table, 2), FREE, "{line}");
    }
}

// "Room is free records plus the old text's."

#[test]
fn number_19_by_free_records_and_the_old_texts() {
    // nothing free: as many blocks as the old text has, and one more
    let bench = full(&filed());
    assert_eq!(count(&bench.table, 0), 0);
    for length in [0, 24, 30, 48] {
        let seen = bench.ask("WRS* M .R:A", &bytes(length));
        assert_eq!(seen.answer.number, 0, "{length}");
        assert!(sound(&seen.table));
    }
    bench.refuse("WRS* M .R:A", &bytes(49), 19, 0);
    assert_eq!(bench.ask("WRS* M .R:A", &bytes(49)).answer.link, 0);
    // WRS over it finds no room at all
    bench.refuse("WRS M .R:A", b"", 19, 0);
    // two free
    let bench = of(&filed());
    assert_eq!(bench.ask("WRS* M .R:A", &bytes(96)).answer.stores, 8);
    bench.refuse("WRS* M .R:A", &bytes(97), 19, 0);
    // an empty file, marked or not, has no records of its own
    for mark in [simple(0), marked(simple(0))] {
        let records = [
            counts(directory(), 1, 1),
            base(0, ".R"),
            named(mark, 1),
            entry(0, 0, 2, 0, "A"),
        ];
        full(&records).refuse("WRS* M .R:A", b"X", 19, 0);
        assert_eq!(full(&records).ask("WRS* M .R:A", b"").answer.stores, 2);
    }
}

// "Refusals: 11 for a name not there, 15 for a directory, 19 by the room above; 23 marked, 24 lifetime L, after 21 in that
// order."

/// A directory `.R` with a directory D and a long sheet L of thirty bytes, and a directory SHUT that is read-inhibited.
fn others() -> Bench {
    let lines = [
        "CRD .R",
        "CRD .R:D",
        "WRS L .R:L",
        "CRD .R:SHUT",
        "WRS M .R:SHUT:A",
    ];
    let mut bench = Bench::grown(24, &lines);
    bench.grant("DPR .R:SHUT .2", b"");
    bench
}

#[test]
fn numbers_7_and_8_with_their_links() {
    let bench = others();
    for (name, link) in [
        ("-", 0),
        ("@", 2),
        ("A::B", 3),
        (".R:ELEVENCHARS", 2),
        (".R:", 2),
    ] {
        bench.refuse_at(&format!("WRS* M {name}"), 7, 2, link);
        // before 9 at the first argument
        bench.refuse_at(&format!("WRS* L {name}"), 7, 2, link);
    }
    for name in [".1", ".A:B", ".", ".000777", ".000777:A", ".000001:A"] {
        bench.refuse_at(&format!("WRS* M {name}"), 8, 2, 1);
        bench.refuse_at(&format!("WRS* L {name}"), 8, 2, 1);
    }
    // 9 before the walk
    bench.refuse_at("WRS* L .R:X", 9, 1, 0);
}

#[test]
fn numbers_11_12_13_with_their_links() {
    let bench = others();
    bench.refuse_at("WRS* M .G:A", 11, 2, 1);
    bench.refuse_at("WRS* M .R:X", 11, 2, 2);
    bench.refuse_at("WRS* M .R:X:Y", 11, 2, 2);
    bench.refuse_at("WRS* M .R:D:X", 11, 2, 3);
    bench.refuse_at("WRS* M .R:L:X", 12, 2, 2);
    bench.refuse_at("WRS* M .R:SHUT:A", 13, 2, 2);
    bench.refuse_at("WRS* M .R:SHUT:X", 13, 2, 2);
}

#[test]
fn number_15_for_a_directory() {
    let mut bench = others();
    bench.refuse_at("WRS* M .R", 15, 2, 1);
    bench.refuse_at("WRS* M .R:D", 15, 2, 2);
    // read-inhibited, and with no room: 15 all the same
    bench.refuse_at("WRS* M .R:SHUT", 15, 2, 2);
    bench.refuse("WRS* M .R:D", &LONG[..24_000], 15, 2);
    // 14 before it
    bench.grant("DPR .R:D .1", b"");
    bench.refuse_at("WRS* M .R:D", 14, 2, 2);
}

#[test]
fn number_24_for_a_long_file() {
    let mut bench = others();
    bench.refuse_at("WRS* M .R:L", 24, 2, 2);
    bench.refuse("WRS* M .R:L", b"", 24, 2);
    bench.grant("DUP .R:L .ABC", b"");
    bench.refuse_at("WRS* M .ABC", 24, 2, 1);
    // 19 before it
    bench.refuse("WRS* M .R:L", &LONG[..24_000], 19, 0);
    let free = count(&bench.table, 0);
    bench.refuse("WRS* M .R:L", &bytes((free + 2) * 24), 24, 2);
    bench.refuse("WRS* M .R:L", &bytes((free + 2) * 24 + 1), 19, 0);
    // 14 before both
    bench.grant("DUP .R:L .R:CAPPED .1", b"");
    bench.refuse_at("WRS* M .R:CAPPED", 14, 2, 2);
    bench.refuse("WRS* M .R:CAPPED", &LONG[..24_000], 14, 2);
}

#[test]
fn number_14_before_19() {
    let mut records = filed();
    records[6] = entry(1, 0, 2, 0, "B");
    let bench = full(&records);
    bench.refuse("WRS* M .R:B", &bytes(49), 14, 2);
    bench.refuse("WRS* M .R:A", &bytes(49), 19, 0);
}

#[test]
fn never_number_23_and_every_refusal_before_22() {
    let bench = of(&emptied()).stop(0);
    bench.refuse("WRS* M .R:A", &LONG[..24_000], 19, 0);
    bench.refuse("WRS* M .R:A", b"NEW", 22, 0);
    others().stop(0).refuse_at("WRS* M .R:L", 24, 2, 2);
}

#[test]
fn a_refusal_is_told_by_the_line_alone_up_to_10() {
    let refused = |line: &str, length| match read(line.as_bytes(), length) {
        Err(Refusal { number, place }) => (number, place.argument, place.link),
        Ok(request) => panic!("{line}: {request:?}"),
    };
    assert_eq!(refused("WRS* M .R:A", 24_001), (10, 0, 0));
    assert_eq!(refused("WRS* M.U .R:A", 24_001), (9, 1, 0));
    assert_eq!(refused("WRS* M.U .1:A", 24_001), (8, 2, 1));
    assert_eq!(refused("WRS* M.U A:@", 24_001), (7, 2, 3));
    assert_eq!(refused("WRS* M.U", 24_001), (6, 0, 0));
}

#[test]
fn wrs_makes_a_new_file_as_before() {
    let mut bench = of(&filed());
    bench.grant("DEL .R:B", b"");
    bench.table.resize(16 * 32, 0);
    let seen = bench.grant("WRS M .R:A", b"NEW");
    assert_eq!(seen.answer, answer([0, 0, 0, 1, 1, 0, 8]));
    assert_eq!(record(&bench.table, 2), FREE);
}
