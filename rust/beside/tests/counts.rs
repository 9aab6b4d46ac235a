//! Document 02, c, "Keep the counts in the heading": its sentences in their order. Tables and stores are written by hand; each
//! request is told store by store, and cut at each of its stores and mended.

mod common;
use common::told::*;
use common::*;

const BASE: u16 = 65_535;

/// A directory `.R` with a sheet A and a directory D, in which an empty sheet F is; `.ABC` is another entry of F. Five records
/// are free, from 10 on.
fn shelf() -> Vec<[u8; 32]> {
    vec![
        dir(1, 2),
        base(0, ".R"),
        file(5, 1),
        text(2, 0, b"5.0 V"),
        entry(0, 0, 2, 0, "A"),
        dir(1, 1),
        entry(0, 0, 5, 0, "D"),
        file(0, 2),
        entry(0, 5, 7, 0, "F"),
        base(7, ".ABC"),
        FREE,
        FREE,
        FREE,
        FREE,
        FREE,
    ]
}

/// A directory `.R` with an entry A that names `.R` itself, and an empty sheet `.ABC`. Two records are free.
fn looped() -> Vec<[u8; 32]> {
    vec![
        dir(2, 1),
        base(0, ".R"),
        entry(0, 0, 0, 0, "A"),
        file(0, 1),
        base(3, ".ABC"),
        FREE,
        FREE,
    ]
}

/// A directory `.R` in record 3 with an empty sheet A before it and another, B, after it. Records 0 and 1 are free.
fn late() -> Vec<[u8; 32]> {
    vec![
        FREE,
        FREE,
        file(0, 1),
        dir(1, 2),
        base(3, ".R"),
        entry(0, 3, 2, 0, "A"),
        file(0, 1),
        entry(0, 3, 6, 0, "B"),
    ]
}

/// A request that displaces nothing makes these stores, the `entry`-th of them the entry's.
fn stores(records: &[[u8; 32]], line: &str, entry: usize, expected: &[Store]) {
    told(records, line, b"NEW", 0, &[expected], entry);
}

/// The same of one that displaces an entry.
fn displaces(records: &[[u8; 32]], line: &str, entry: usize, expected: &[Store]) {
    told(records, line, b"NEW", 1, &[expected], entry);
}

// "A heading now stores how many entries name it (bytes 12-13) and, for a directory, how many it holds (bytes 14-15)."

#[test]
fn the_counts_of_a_small_table() {
    let lines = [
        "CRD .R",
        "WRS M .R:A",
        "CRD .R:D",
        "DUP .R:A .R:D:A",
        "DUP .R:A .ABC",
        "DUP .R .R:D:UP",
    ];
    let table = Bench::grown(16, &lines).table;
    // `.R` is named by its base entry and by UP, and holds A and D
    assert_eq!(record(&table, 0)[12..16], [2, 0, 2, 0]);
    // A is named three times, and holds nothing
    assert_eq!(record(&table, 2)[12..16], [3, 0, 0, 0]);
    // D is named once, and holds A and UP
    assert_eq!(record(&table, 6)[12..16], [1, 0, 2, 0]);
}

/// An empty sheet in record 0 that so many entries name, in directories of a hundred each at most, and two free records. The
/// entries are called N0, N1, ..
fn shared(entries: usize) -> Vec<[u8; 32]> {
    let mut records = vec![simple(0)];
    for at in 0..entries.div_ceil(100) {
        let heading = records.len() as u16;
        let letter = char::from(b'A' + at as u8);
        records.push(directory());
        records.push(base(heading, &format!(".{letter}{letter}")));
        for entry_of in at * 100..entries.min(at * 100 + 100) {
            records.push(entry(0, heading, 0, 0, &format!("N{entry_of}")));
        }
    }
    records.extend([FREE, FREE]);
    counted(&records)
}

#[test]
fn counts_have_two_bytes_low_byte_first() {
    // 300 is 44 and 256
    let records = shared(300);
    assert_eq!(records[0][12..16], [44, 1, 0, 0]);
    assert_eq!(records[1][12..16], [1, 0, 100, 0]);
    let mut table = bench(&records);
    table.grant("DUP .AA:N0 .AA:NEW", b"");
    assert_eq!(record(&table.table, 0)[12..14], [45, 1]);
    // over the edge, up and down
    let mut table = bench(&shared(255));
    assert_eq!(record(&table.table, 0)[12..14], [255, 0]);
    table.grant("DUP .AA:N0 .AA:NEW", b"");
    assert_eq!(record(&table.table, 0)[12..14], [0, 1]);
    table.grant("DEL .BB:N100", b"");
    assert_eq!(record(&table.table, 0)[12..14], [255, 0]);
}

#[test]
fn the_highest_count_there_is() {
    // one sheet, and 2,047 base entries that name it, a hundred for each user
    let letter = |at: usize| char::from(b'A' + at as u8);
    let mut records = vec![file(0, 2_047)];
    for at in 0..2_047 {
        let name = format!(".{}{}", letter(at % 100 / 10), letter(at % 10));
        records.push(entry(0, BASE, 0, (at / 100) as u32, &name));
    }
    assert_eq!(records[0][12..14], [255, 7]);
    let mut table = bench(&records);
    let seen = table.grant("DEL .AA", b"");
    assert_eq!(seen.answer, answer([0, 0, 0, 1, 0, 0, 2]));
    assert_eq!(record(&table.table, 0), file(0, 2_046));
    let mut full = dir(1, 112);
    full[12] = 2;
    let mut records = vec![full, base(0, ".R"), base(0, ".G")];
    records.extend((0..112).map(|at| entry(0, 0, 115, 0, &format!("N{at}"))));
    records.push(file(0, 112));
    bench(&records).refuse("DUP .R:N1 .R:NEW", b"", 17, 2);
}

// "Soundness says that both are true."

/// Each heading of the shelf and each byte of its counts.
fn places() -> Vec<(usize, usize)> {
    let headings = [0, 2, 5, 7].into_iter();
    headings
        .flat_map(|number| (12..16).map(move |at| (number, at)))
        .collect()
}

#[test]
fn one_wrong_byte_of_a_count_gets_2() {
    for (number, at) in places() {
        for byte in [0, 1, 2, 3, 255] {
            let mut records = shelf();
            if records[number][at] == byte {
                continue;
            }
            records[number][at] = byte;
            let table = Bench::of(records.concat());
            assert!(!sound(&table.table), "{number}, {at}, {byte}");
            for line in [
                "LST .",
                "RDS .R:A",
                "CRD .G",
                "DEL .R:A",
                "DPR .R:A .4",
                "WRS* M .R:A",
            ] {
                table.refuse(line, b"", 2, 0);
            }
        }
    }
}

#[test]
fn one_more_or_one_fewer_entry_than_the_count_gets_2() {
    assert!(sound(&shelf().concat()));
    for named in [0, 2, 3] {
        for (number, heading) in [
            (0, dir(named, 2)),
            (2, file(5, named)),
            (5, dir(named, 1)),
            (7, file(0, if named == 2 { 1 } else { named })),
        ] {
            let records = after(&shelf(), &[(number, heading)]);
            assert!(!sound(&records.concat()), "{number}, {named}");
        }
    }
    for holding in [0, 1, 3, 112] {
        let records = after(&shelf(), &[(0, dir(1, holding))]);
        assert!(!sound(&records.concat()), "{holding}");
    }
    // an entry more, and its counts as they were; then with the counts of one, and of the other
    let more = after(&shelf(), &[(10, entry(0, 5, 2, 0, "B"))]);
    assert!(!sound(&more.concat()));
    assert!(!sound(&after(&more, &[(2, file(5, 2))]).concat()));
    assert!(!sound(&after(&more, &[(5, dir(1, 2))]).concat()));
    let both = [(2, file(5, 2)), (5, dir(1, 2))];
    assert!(sound(&after(&more, &both).concat()));
}

#[test]
fn a_base_list_has_no_count() {
    // base files of two users more, and no holder's count moves
    let records = after(
        &shelf(),
        &[
            (10, entry(0, BASE, 7, 2, ".ABC")),
            (11, entry(0, BASE, 7, 0, ".R")),
            (7, file(0, 4)),
        ],
    );
    assert!(sound(&records.concat()));
}

#[test]
fn a_directory_that_holds_itself_counts_itself() {
    assert!(sound(&looped().concat()));
    for wrong in [dir(1, 1), dir(2, 0), dir(1, 0), dir(2, 2)] {
        assert!(!sound(&after(&looped(), &[(0, wrong)]).concat()));
    }
}

#[test]
fn a_table_of_document_01_is_refused_and_brought_up_to_date_by_one_mend() {
    let mut old = shelf();
    old.iter_mut()
        .filter(|record| record[0] == 1)
        .for_each(|heading| heading[12..16].fill(0));
    let table = Bench::of(old.concat());
    for line in ["LST .", "RDS .R:A", "DEL .R:A", "CRD .G"] {
        table.refuse(line, b"", 2, 0);
    }
    let stores = [
        (0, dir(1, 2)),
        (2, file(5, 1)),
        (5, dir(1, 1)),
        (7, file(0, 2)),
    ];
    mends_by(&old, &stores);
    assert_eq!(after(&old, &stores), shelf());
    // one that has no entry needs none
    mends(&[FREE; 4], &[FREE; 4]);
}

// "Each function corrects every heading whose counts its entry store made untrue (the file named, the file displaced, the
// holder), one store each, by record number, after that entry store and before any clearing; counts still true get no store."

#[test]
fn crd_a_base_file() {
    let expected = [(10, directory()), (11, base(10, ".G")), (10, dir(1, 0))];
    stores(&shelf(), "CRD .G", 2, &expected);
}

#[test]
fn crd_in_a_directory() {
    let expected = [
        (10, directory()),
        (11, entry(0, 0, 10, 0, "N")),
        (0, dir(1, 3)),
        (10, dir(1, 0)),
    ];
    stores(&shelf(), "CRD .R:N", 2, &expected);
    let expected = [
        (10, heading(0, 3, 6, 1, 0)),
        (11, entry(6, 5, 10, 0, "N")),
        (5, dir(1, 2)),
        (10, named(heading(0, 3, 6, 1, 0), 1)),
    ];
    stores(&shelf(), "CRD .R:D:N .S6", 2, &expected);
}

#[test]
fn by_record_number_whichever_of_them_that_is() {
    // the new file stands before its holder
    let expected = [
        (0, directory()),
        (1, entry(0, 3, 0, 0, "N")),
        (0, dir(1, 0)),
        (3, dir(1, 3)),
    ];
    stores(&late(), "CRD .R:N", 2, &expected);
    // the file named stands before the holder, and after it
    let expected = [(0, entry(0, 3, 2, 0, "N")), (2, file(0, 2)), (3, dir(1, 3))];
    stores(&late(), "DUP .R:A .R:N", 1, &expected);
    let expected = [(0, entry(0, 3, 6, 0, "N")), (3, dir(1, 3)), (6, file(0, 2))];
    stores(&late(), "DUP .R:B .R:N", 1, &expected);
    // the file displaced stands before the file named, and after it
    let expected = [
        (5, entry(0, 3, 6, 0, "A")),
        (2, file(0, 0)),
        (6, file(0, 2)),
        (2, FREE),
    ];
    displaces(&late(), "DUP .R:B .R:A", 1, &expected);
    let expected = [
        (7, entry(0, 3, 2, 0, "B")),
        (2, file(0, 2)),
        (6, file(0, 0)),
        (6, FREE),
    ];
    displaces(&late(), "DUP .R:A .R:B", 1, &expected);
    // and what is deleted
    let expected = [(5, FREE), (2, file(0, 0)), (3, dir(1, 1)), (2, FREE)];
    stores(&late(), "DEL .R:A", 1, &expected);
    let expected = [(7, FREE), (3, dir(1, 1)), (6, file(0, 0)), (6, FREE)];
    stores(&late(), "DEL .R:B", 1, &expected);
}

#[test]
fn crd_over_the_last_entry_of_a_file() {
    // the file displaced is about to be cleared, and gets its count all the same
    let expected = [
        (10, directory()),
        (4, entry(0, 0, 10, 0, "A")),
        (2, file(5, 0)),
        (10, dir(1, 0)),
        (2, FREE),
        (3, FREE),
    ];
    displaces(&shelf(), "CRD .R:A", 2, &expected);
}

#[test]
fn crd_over_one_of_two_entries() {
    let expected = [
        (10, directory()),
        (9, base(10, ".ABC")),
        (7, file(0, 1)),
        (10, dir(1, 0)),
    ];
    displaces(&shelf(), "CRD .ABC", 2, &expected);
}

#[test]
fn wrs_of_a_new_name() {
    let expected = [
        (10, simple(3)),
        (11, text(10, 0, b"NEW")),
        (12, entry(0, 0, 10, 0, "N")),
        (0, dir(1, 3)),
        (10, file(3, 1)),
    ];
    stores(&shelf(), "WRS M .R:N", 3, &expected);
    let expected = [
        (10, simple(3)),
        (11, text(10, 0, b"NEW")),
        (12, base(10, ".G")),
        (10, file(3, 1)),
    ];
    stores(&shelf(), "WRS M .G", 3, &expected);
}

#[test]
fn wrs_over_the_last_entry_of_a_file() {
    let expected = [
        (10, simple(3)),
        (11, text(10, 0, b"NEW")),
        (4, entry(0, 0, 10, 0, "A")),
        (2, file(5, 0)),
        (10, file(3, 1)),
        (2, FREE),
        (3, FREE),
    ];
    displaces(&shelf(), "WRS M .R:A", 3, &expected);
}

#[test]
fn wrs_over_one_of_two_entries() {
    let new = heading(1, 1, 4, 2, 3);
    let expected = [
        (10, new),
        (11, text(10, 0, b"NEW")),
        (8, entry(4, 5, 10, 0, "F")),
        (7, file(0, 1)),
        (10, named(new, 1)),
    ];
    displaces(&shelf(), "WRS L.P4 .R:D:F", 3, &expected);
}

#[test]
fn wrs_over_an_entry_that_names_the_holder() {
    // `.R` is holder and displaced: it holds as many as before, and one entry fewer names it
    let expected = [
        (5, simple(3)),
        (6, text(5, 0, b"NEW")),
        (2, entry(0, 0, 5, 0, "A")),
        (0, dir(1, 1)),
        (5, file(3, 1)),
    ];
    displaces(&looped(), "WRS M .R:A", 3, &expected);
    displaces(&looped(), "WRS M .R:A:A:A", 3, &expected);
}

#[test]
fn cpy_of_a_file() {
    let expected = [
        (10, simple(5)),
        (11, text(10, 0, b"5.0 V")),
        (12, entry(0, 5, 10, 0, "N")),
        (5, dir(1, 2)),
        (10, file(5, 1)),
    ];
    stores(&shelf(), "CPY .R:A .R:D:N", 3, &expected);
    // its counts are its own: two entries name the source
    let expected = [
        (10, simple(0)),
        (11, entry(0, 0, 10, 0, "N")),
        (0, dir(1, 3)),
        (10, file(0, 1)),
    ];
    stores(&shelf(), "CPY .ABC .R:N", 2, &expected);
}

#[test]
fn cpy_over_its_own_source() {
    let expected = [
        (10, simple(5)),
        (11, text(10, 0, b"5.0 V")),
        (4, entry(0, 0, 10, 0, "A")),
        (2, file(5, 0)),
        (10, file(5, 1)),
        (2, FREE),
        (3, FREE),
    ];
    displaces(&shelf(), "CPY .R:A .R:A", 3, &expected);
    let expected = [
        (10, simple(0)),
        (9, base(10, ".ABC")),
        (7, file(0, 1)),
        (10, file(0, 1)),
    ];
    displaces(&shelf(), "CPY .ABC .ABC", 2, &expected);
}

#[test]
fn dup_of_a_new_name() {
    let expected = [
        (10, entry(4, 5, 2, 0, "N")),
        (2, file(5, 2)),
        (5, dir(1, 2)),
    ];
    stores(&shelf(), "DUP .R:A .R:D:N .4", 1, &expected);
    let expected = [(10, base(2, ".G")), (2, file(5, 2))];
    stores(&shelf(), "DUP .R:A .G", 1, &expected);
    // a directory
    let expected = [(10, base(5, ".G")), (5, dir(2, 1))];
    stores(&shelf(), "DUP .R:D .G", 1, &expected);
}

#[test]
fn dup_over_the_last_entry_of_another_file() {
    let expected = [
        (4, entry(0, 0, 7, 0, "A")),
        (2, file(5, 0)),
        (7, file(0, 3)),
        (2, FREE),
        (3, FREE),
    ];
    displaces(&shelf(), "DUP .ABC .R:A", 1, &expected);
}

#[test]
fn dup_over_one_of_two_entries_of_another_file() {
    let expected = [
        (8, entry(0, 5, 2, 0, "F")),
        (2, file(5, 2)),
        (7, file(0, 1)),
    ];
    displaces(&shelf(), "DUP .R:A .R:D:F", 1, &expected);
}

#[test]
fn dup_over_an_entry_of_the_same_file_is_one_store() {
    let expected = [(9, entry(4, BASE, 7, 1, ".ABC"))];
    displaces(&shelf(), "DUP .R:D:F .ABC .4", 1, &expected);
    let expected = [(4, entry(0, 0, 2, 0, "A"))];
    displaces(&shelf(), "DUP .R:A .R:A", 1, &expected);
    let expected = [(2, entry(1, 0, 0, 0, "A"))];
    displaces(&looped(), "DUP .R .R:A .1", 1, &expected);
}

#[test]
fn dup_of_a_directory_into_itself_is_one_store_with_both_counts() {
    let expected = [(10, entry(0, 0, 0, 0, "N")), (0, dir(2, 3))];
    stores(&shelf(), "DUP .R .R:N", 1, &expected);
    let expected = [(10, entry(0, 5, 5, 0, "UP")), (5, dir(2, 2))];
    stores(&shelf(), "DUP .R:D .R:D:UP", 1, &expected);
    // a second loop
    let expected = [(5, entry(0, 0, 0, 0, "B")), (0, dir(3, 2))];
    stores(&looped(), "DUP .R:A:A .R:A:B", 1, &expected);
}

#[test]
fn dup_of_the_holder_over_another_file() {
    // `.R` holds as many as before, and one entry more names it
    let expected = [
        (4, entry(0, 0, 0, 0, "A")),
        (0, dir(2, 2)),
        (2, file(5, 0)),
        (2, FREE),
        (3, FREE),
    ];
    displaces(&shelf(), "DUP .R .R:A", 1, &expected);
}

#[test]
fn dup_over_an_entry_that_names_the_holder() {
    let expected = [(2, entry(0, 0, 3, 0, "A")), (0, dir(1, 1)), (3, file(0, 2))];
    displaces(&looped(), "DUP .ABC .R:A", 1, &expected);
}

#[test]
fn a_give_counts_in_the_other_users_directory() {
    // user 7's `.G`
    let records = after(
        &shelf(),
        &[(10, dir(1, 0)), (11, entry(0, BASE, 10, 7, ".G"))],
    );
    let expected = [
        (12, entry(1, 10, 2, 0, "N")),
        (2, file(5, 2)),
        (10, dir(1, 1)),
    ];
    stores(&records, "DUP .R:A .000007:N .1", 1, &expected);
}

#[test]
fn del_of_the_last_entry() {
    let expected = [
        (4, FREE),
        (0, dir(1, 1)),
        (2, file(5, 0)),
        (2, FREE),
        (3, FREE),
    ];
    stores(&shelf(), "DEL .R:A", 1, &expected);
}

#[test]
fn del_of_one_of_two_entries() {
    let expected = [(9, FREE), (7, file(0, 1))];
    stores(&shelf(), "DEL .ABC", 1, &expected);
    let expected = [(8, FREE), (5, dir(1, 0)), (7, file(0, 1))];
    stores(&shelf(), "DEL .R:D:F", 1, &expected);
}

#[test]
fn del_of_an_empty_directory() {
    let empty = after(&shelf(), &[(8, FREE), (5, dir(1, 0)), (7, file(0, 1))]);
    let expected = [(6, FREE), (0, dir(1, 1)), (5, dir(0, 0)), (5, FREE)];
    stores(&empty, "DEL .R:D", 1, &expected);
}

#[test]
fn del_in_a_loop() {
    // the entry that names its own directory: both counts in one store
    stores(&looped(), "DEL .R:A", 1, &[(2, FREE), (0, dir(1, 0))]);
    // the way to it: it is cut off, and keeps the entry that names it
    stores(&looped(), "DEL .R", 1, &[(1, FREE), (0, dir(1, 1))]);
}

#[test]
fn del_of_several_names_cut_between_and_within() {
    let a: &[Store] = &[
        (4, FREE),
        (0, dir(1, 1)),
        (2, file(5, 0)),
        (2, FREE),
        (3, FREE),
    ];
    let f: &[Store] = &[(8, FREE), (5, dir(1, 0)), (7, file(0, 1))];
    let abc: &[Store] = &[(9, FREE), (7, file(0, 0)), (7, FREE)];
    let d: &[Store] = &[(6, FREE), (0, dir(1, 0)), (5, dir(0, 0)), (5, FREE)];
    let r: &[Store] = &[(1, FREE), (0, dir(0, 0)), (0, FREE)];
    let line = "DEL .R:A .R:D:F .ABC .R:D .R";
    told(&shelf(), line, b"", 0, &[a, f, abc, d, r], 1);
    // the other way round: two entries of one file, the base entry first
    let abc: &[Store] = &[(9, FREE), (7, file(0, 1))];
    let f: &[Store] = &[(8, FREE), (5, dir(1, 0)), (7, file(0, 0)), (7, FREE)];
    told(&shelf(), "DEL .ABC .R:D:F", b"", 0, &[abc, f], 1);
}

#[test]
fn a_del_that_is_refused_midway_has_counted_the_names_before() {
    let expected = after(&shelf(), &[(8, FREE), (5, dir(1, 0)), (7, file(0, 1))]);
    let seen = bench(&shelf()).ask("DEL .R:D:F .R:X", b"");
    assert_eq!(seen.answer, answer([11, 2, 2, 1, 0, 0, 3]));
    assert_eq!(seen.table, expected.concat());
    // a name is done when its counts are: before that it is 22, even where a later name would be refused
    for stop in 0..3 {
        let seen = bench(&shelf()).stop(stop).ask("DEL .R:D:F .R:X", b"");
        assert_eq!(seen.answer, answer([22, 0, 0, 0, 0, 0, stop]));
    }
}

#[test]
fn chn_dpr_and_a_rewrite_store_no_count_and_keep_those_there_are() {
    let renamed = [(4, entry(0, 0, 2, 0, "N"))];
    stores(&shelf(), "CHN .R:A N", 1, &renamed);
    stores(&shelf(), "CHN .R .G", 1, &[(1, base(0, ".G"))]);
    let coded = [(5, counts(heading(0, 0, 4, 1, 0), 1, 1))];
    stores(&shelf(), "DPR .R:D .4", 1, &coded);
    let coded = [(7, named(heading(1, 0, 6, 1, 0), 2))];
    stores(&shelf(), "DPR .ABC .6", 1, &coded);
    let mut table = bench(&shelf());
    let seen = table.grant("WRS* M .ABC", b"X");
    assert_eq!(seen.answer, answer([0, 0, 0, 1, 0, 0, 3]));
    let expected = [(7, file(1, 2)), (10, text(7, 0, b"X"))];
    assert_eq!(table.table, after(&shelf(), &expected).concat());
    // and while it is under way, marked
    let cut = bench(&shelf()).stop(1).ask("WRS* M .ABC", b"X").table;
    let mut marked = file(0, 2);
    marked[5] = 1;
    assert_eq!(cut, after(&shelf(), &[(7, marked)]).concat());
}

#[test]
fn what_is_only_read_or_refused_stores_no_count() {
    let bench = bench(&shelf());
    for line in ["RDS .R:A", "LST .R", "LST .", "LST* .R 3"] {
        bench.reply(line);
    }
    bench.refuse("DEL .R", b"", 18, 1);
    bench.refuse("CHN .R:A D", b"", 16, 2);
    bench.refuse("DUP .R:A .R:D", b"", 18, 2);
}

#[test]
fn counts_need_no_record() {
    // one record is free, and the entry takes it
    let mut records = shelf();
    records.truncate(11);
    let expected = [
        (10, entry(0, 5, 2, 0, "N")),
        (2, file(5, 2)),
        (5, dir(1, 2)),
    ];
    stores(&records, "DUP .R:A .R:D:N", 1, &expected);
    records.truncate(10);
    bench(&records).refuse("DUP .R:A .R:D:N", b"", 19, 0);
    stores(&records, "DEL .ABC", 1, &[(9, FREE), (7, file(0, 1))]);
}

// "A new heading starts with both at 0."

#[test]
fn a_new_heading_starts_with_both_at_0() {
    for (line, heading) in [
        ("CRD .R:N", directory()),
        ("WRS M .R:N", simple(3)),
        ("CPY .R:A .R:N", simple(5)),
        ("CPY .ABC .R:A", simple(0)),
        ("CRD .R:A", directory()),
    ] {
        let seen = bench(&shelf()).stop(1).ask(line, b"NEW");
        assert_eq!(seen.answer, answer([22, 0, 0, 0, 0, 0, 1]), "{line}");
        assert_eq!(record(&seen.table, 10)[12..16], [0; 4], "{line}");
        assert_eq!(record(&seen.table, 10), heading, "{line}");
    }
}

// "Document 01's cases change with it: after `CRD .R` record 0 has 1 in byte 12, and `DEL .R` takes 3 stores."

#[test]
fn crd_r_and_del_r() {
    let expected = [(0, directory()), (1, base(0, ".R")), (0, dir(1, 0))];
    stores(&[FREE; 2], "CRD .R", 2, &expected);
    assert_eq!(expected[2].1[12], 1);
    let made = after(&[FREE; 2], &expected);
    let expected = [(1, FREE), (0, dir(0, 0)), (0, FREE)];
    stores(&made, "DEL .R", 1, &expected);
    // a cut after the entry store mends to the table after, by the count
    let cut = Bench::new(2).stop(2).ask("CRD .R", b"").table;
    assert_eq!(cut, [directory(), base(0, ".R")].concat());
    mends_by(&[directory(), base(0, ".R")], &[(0, dir(1, 0))]);
}

// "At its end mending corrects untrue counts, one store a heading, by record number."

#[test]
fn one_wrong_byte_is_one_store() {
    for (number, at) in places() {
        let is_simple = matches!(number, 2 | 7);
        for byte in [0, 1, 2, 3, 255] {
            let mut records = shelf();
            if records[number][at] == byte {
                continue;
            }
            records[number][at] = byte;
            match is_simple && at > 13 {
                // a simple file's bytes 14-15 are left: then the result is not sound
                true => is_beyond_mending(&records),
                false => mends_by(&records, &[(number, shelf()[number])]),
            }
        }
    }
}

#[test]
fn both_counts_of_a_heading_are_one_store() {
    for wrong in [dir(9, 9), dir(0, 0), dir(2, 1), dir(65_535, 65_535)] {
        let records = after(&shelf(), &[(0, wrong)]);
        mends_by(&records, &[(0, dir(1, 2))]);
    }
}

#[test]
fn a_simple_files_bytes_14_and_15_are_left() {
    // with 12-13 wrong besides, and another heading wrong too
    let mut records = shelf();
    records[7] = counts(simple(0), 5, 1);
    is_beyond_mending(&records);
    records[0] = dir(0, 0);
    is_beyond_mending(&records);
    records[7] = file(0, 5);
    mends_by(&records, &[(0, dir(1, 2)), (7, file(0, 2))]);
    // what is no simple file and no directory is not sound, whatever is counted
    let mut records = shelf();
    records[7][1] = 2;
    is_beyond_mending(&records);
    records[7][12] = 0;
    is_beyond_mending(&records);
}

#[test]
fn counts_come_last_after_headings_and_text() {
    let mut records = shelf();
    records[0] = dir(7, 7);
    records[5] = dir(1, 0);
    records[7] = file(0, 1);
    // debris: a text of nothing, a directory and a simple file that no entry names, with its text
    records[10] = text(900, 0, b"T");
    records[11] = dir(3, 3);
    records[12] = file(1, 1);
    records[13] = text(12, 0, b"T");
    let expected = [
        (11, FREE),
        (12, FREE),
        (10, FREE),
        (13, FREE),
        (0, dir(1, 2)),
        (5, dir(1, 1)),
        (7, file(0, 2)),
    ];
    mends_by(&records, &expected);
}

#[test]
fn a_heading_that_goes_gets_no_count() {
    // as the last stores of `DEL .R:A` leave it: the count is 0 and true, or 1 and not
    for entries in [0, 1, 9] {
        let cut = [(4, FREE), (0, dir(1, 1)), (2, file(5, entries))];
        let records = after(&shelf(), &cut);
        mends_by(&records, &[(2, FREE), (3, FREE)]);
    }
}

#[test]
fn counts_of_what_is_not_sound_otherwise_are_left() {
    let wrong = after(&shelf(), &[(0, dir(0, 0))]);
    for (number, record) in [
        // an entry in a simple file
        (10, entry(0, 7, 2, 0, "B")),
        // a name twice, a text twice
        (10, entry(0, 0, 2, 0, "A")),
        (10, text(2, 0, b"5.0 V")),
        // an entry with a byte too many
        (8, {
            let mut odd = entry(0, 5, 7, 0, "F");
            odd[31] = 1;
            odd
        }),
    ] {
        is_beyond_mending(&after(&wrong, &[(number, record)]));
    }
}

#[test]
fn every_entry_counts_of_whatever_form() {
    // a malformed entry names its heading all the same: the heading stays, and the result is not sound
    let mut odd = base(0, ".R");
    odd[1] = 8;
    is_beyond_mending(&[dir(0, 0), odd]);
    is_beyond_mending(&[dir(1, 0), odd]);
}

#[test]
fn two_judges_the_uncut_result() {
    // sound once all is corrected: 22 or 0, never 2, at every stop number
    let records = after(
        &shelf(),
        &[(0, dir(0, 0)), (2, file(5, 3)), (7, file(0, 9))],
    );
    let expected = [(0, dir(1, 2)), (2, file(5, 1)), (7, file(0, 2))];
    mends_by(&records, &expected);
    // and a marked file is counted as any
    let mut marked = file(0, 2);
    marked[5] = 1;
    let right = after(&shelf(), &[(7, marked)]);
    marked[12] = 0;
    let wrong = after(&right, &[(7, marked)]);
    mends_by(&wrong, &[(7, right[7])]);
}

#[test]
fn a_sound_table_is_mended_by_no_store() {
    for records in [shelf(), looped(), late(), shared(255), shared(300)] {
        mends(&records, &records);
    }
}

// "Demand 3 reads as before over the new records."

/// The table with the counts that its entries make true.
fn recounted(table: &[u8]) -> Vec<u8> {
    let records: Vec<[u8; 32]> = table
        .chunks(32)
        .map(|record| record.try_into().expect("32 bytes"))
        .collect();
    counted(&records).concat()
}

/// Any requests: once all is done the counts are true, told entry by entry; and at each cut, whatever counts the headings have,
/// the mend leaves the same table.
#[test]
fn whatever_the_counts_are_the_mend_leaves_the_same() {
    let seed = 1_215;
    println!("seed {seed}");
    let mut dice = Dice(seed);
    let chains = [
        ".R", ".W", ".R:A", ".R:B", ".R:D", ".R:D:A", ".R:D:D", "A", "D:A",
    ];
    let (mut granted, mut spoiled) = (0, 0);
    for _ in 0..60 {
        let mut bench = Bench::new(10 + dice.below(12));
        for _ in 0..60 {
            let (one, other) = (dice.pick(&chains), dice.pick(&chains));
            let line = match dice.below(9) {
                0 | 1 => format!("CRD {one}"),
                2 => format!("WRS M {one}"),
                3 => format!("CPY {one} {other}"),
                4..=6 => format!("DUP {one} {other}"),
                7 => format!("WRS* M {one}"),
                _ => format!("DEL {one} {other}"),
            };
            let length = dice.below(40);
            let content = dice.bytes(length);
            let seen = bench.ask(&line, &content);
            assert_eq!(recounted(&seen.table), seen.table, "{line}");
            for stop in 0..seen.answer.stores {
                let cut = bench.stop(stop).ask(&line, &content).table;
                let mut mended = cut.clone();
                assert_eq!(mend(&mut mended, UNCUT).number, 0, "{line}, {stop}");
                assert_eq!(recounted(&mended), mended, "{line}, {stop}");
                spoiled += usize::from(spoil(&mut dice, &cut, &mended));
            }
            granted += usize::from(seen.answer.stores > 0);
            bench.table = seen.table;
        }
    }
    println!("granted {granted}, spoiled {spoiled}");
    assert!(granted > 500 && spoiled > 2_000);
}

/// The table with other counts in some of its headings, which must be mended to the same.
fn spoil(dice: &mut Dice, cut: &[u8], mended: &[u8]) -> bool {
    let mut spoiled = cut.to_vec();
    for record in spoiled.chunks_mut(32).filter(|record| record[0] == 1) {
        let counts = if record[1] == 0 { 4 } else { 2 };
        if dice.once_in(2) {
            record[12 + dice.below(counts)] = dice.below(256) as u8;
        }
    }
    let other = spoiled != cut;
    assert_eq!(mend(&mut spoiled, UNCUT).number, 0);
    assert_eq!(spoiled, mended);
    other
}
