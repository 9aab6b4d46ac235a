//! Document 02, l, "Sweep lost loops": its sentences in their order, and what they are read as. Records and stores are written by hand; every
//! sweep is cut at each of its stores, mended and swept again (`common::swept`). What mending has of it is in `rounds`; tables made up at
//! random are in `sweeps`.

mod common;
use common::swept::*;
use common::told::*;
use common::*;

use beside::Answer;

const BASE: u16 = 65_535;

/// A record that is cleared.
fn gone(number: usize) -> Store {
    (number, FREE)
}

/// The records of a table.
fn records(table: &[u8]) -> Vec<[u8; 32]> {
    let records = table.chunks(32).map(|record| record.try_into());
    records.collect::<Result<_, _>>().expect("whole records")
}

/// A heading of level S with code 7.
fn shut(mut heading: [u8; 32]) -> [u8; 32] {
    heading[2..4].copy_from_slice(&[3, 7]);
    heading
}

/// The heading of a marked file.
fn marked() -> [u8; 32] {
    let mut heading = file(0, 1);
    heading[5] = 1;
    heading
}

/// A directory that only its own entry names, with a sheet, a marked file, and links to `.R` and to a sheet in it.
fn attic() -> Vec<[u8; 32]> {
    vec![
        dir(2, 1),
        base(0, ".R"),
        text(4, 0, &TEXT[..24]),
        entry(0, 5, 5, 0, "ME"),
        file(30, 1),
        dir(1, 5),
        entry(7, 5, 4, 0, "SHEET"),
        file(5, 2),
        entry(0, 5, 0, 0, "UP"),
        text(7, 0, b"5.0 V"),
        text(4, 1, &TEXT[24..]),
        entry(0, 0, 7, 0, "A"),
        entry(0, 5, 7, 0, "KEEP"),
        marked(),
        entry(0, 5, 13, 0, "CUT"),
        FREE,
    ]
}

/// Its entries, its headings, its text, and the counts of what stays.
fn attic_cleared() -> Vec<Store> {
    let mut stores = [3, 6, 8, 12, 14, 4, 5, 13, 2, 10].map(gone).to_vec();
    stores.extend([(0, dir(1, 1)), (7, file(5, 1))]);
    stores
}

// "Directories that link each other and are cut off from all base files eat our records."

#[test]
fn a_directory_that_holds_itself_and_loses_its_base_entry() {
    let lines = ["CRD .AB", "DUP .AB .AB:ME", "DEL .AB"];
    let bench = Bench::grown(3, &lines);
    // the base entry was record 1
    assert_eq!(record(&bench.table, 1), FREE);
    sweeps_by(&records(&bench.table), &[gone(2), gone(0)]);
}

#[test]
fn two_directories_that_link_each_other() {
    let lines = ["CRD .AB", "CRD .AB:X", "DUP .AB .AB:X:UP", "DEL .AB"];
    let bench = Bench::grown(6, &lines);
    sweeps_by(&records(&bench.table), &[3, 4, 0, 2].map(gone));
    // with the one reached again, both are
    let again = ["CRD .AB", "DUP .AB .W", "CRD .AB:X", "DUP .AB .AB:X:UP"];
    let mut bench = Bench::grown(8, &again);
    bench.grant("DEL .AB", b"");
    sweeps_by(&records(&bench.table), &[]);
}

#[test]
fn they_eat_records_until_they_are_swept() {
    let mut bench = Bench::grown(3, &["CRD .AB", "DUP .AB .AB:ME", "DEL .AB"]);
    bench.refuse("CRD .R", b"", 19, 0);
    assert_eq!(sweep(&mut bench.table, UNCUT), swept(0, 2));
    bench.grant("CRD .R", b"");
}

#[test]
fn a_loop_with_a_sheet_lost_by_each_function_that_can() {
    // .R is 0 and 1, A 2 to 5, L 6 and 7, ME 8, S 9 to 12
    let lines = [
        "CRD .R",
        "WRS M .R:A",
        "CRD .R:L",
        "DUP .R:L .R:L:ME",
        "WRS M .R:L:S",
    ];
    for line in [
        "DEL .R:L",
        "DEL .R:A .R:L",
        "DUP .R:A .R:L",
        "CRD .R:L",
        "WRS M .R:L",
        "CPY .R:A .R:L",
    ] {
        let mut bench = Bench::grown(20, &lines);
        bench.grant(line, TEXT);
        let lost = [8, 12, 6, 9, 10, 11].map(gone);
        sweeps_by(&records(&bench.table), &lost);
    }
    // a DST gets 18, and so loses none
    Bench::grown(20, &lines).refuse("DST .R:L", b"", 18, 1);
}

#[test]
fn a_loop_lost_by_a_cut_request_that_is_mended() {
    let lines = ["CRD .R", "CRD .R:L", "DUP .R:L .R:L:ME"];
    let cut = Bench::grown(6, &lines).stop(1).ask("DEL .R:L", b"");
    assert_eq!(cut.answer.number, 22);
    let mut table = cut.table;
    assert_eq!(mend(&mut table, UNCUT).number, 0);
    sweeps_by(&records(&table), &[gone(4), gone(2)]);
}

#[test]
fn a_loop_lost_by_a_job_of_the_lamp() {
    let mut table = Bench::grown(8, &["CRD .R", "CRD .R:L", "DUP .R:L .R:L:ME"]).table;
    let mut index = beside::true_index(&table);
    let mut sheet = [0; 32];
    sheet[0] = b'L';
    let light = beside::light(
        &mut table,
        &mut index,
        &sheet,
        b"",
        &mut [],
        b".R",
        1,
        UNCUT,
    );
    assert_eq!(light.light, 0);
    sweeps_by(&records(&table), &[gone(4), gone(2)]);
}

#[test]
fn a_loop_that_another_user_reaches_stays_until_he_lets_go() {
    let mut bench = Bench::new(12);
    bench.user = 2;
    bench.grant("CRD .G", b"");
    bench.user = 1;
    for line in ["CRD .R", "DUP .R .R:ME", "DUP .R .000002:R", "DEL .R"] {
        bench.grant(line, b"");
    }
    sweeps_by(&records(&bench.table), &[]);
    bench.user = 2;
    bench.grant("DEL .G:R", b"");
    // .G is 0 and 1, .R was 2 and 3
    sweeps_by(&records(&bench.table), &[gone(4), gone(2)]);
}

#[test]
fn loops_of_several_users() {
    let mut bench = Bench::new(20);
    for user in [1, 2, 999_999] {
        bench.user = user;
        for line in ["CRD .AB", "DUP .AB .AB:ME", "CRD .R"] {
            bench.grant(line, b"");
        }
    }
    for user in [1, 999_999] {
        bench.user = user;
        bench.grant("DEL .AB", b"");
    }
    // each has .AB, its own entry and .R: user 2's stay
    sweeps_by(&records(&bench.table), &[2, 12, 0, 10].map(gone));
}

// "A sweep clears exactly what no chain of entries from any user's base files reaches"

#[test]
fn nothing_lost_is_0_and_no_store() {
    for records in [0, 1, 5, 2_048] {
        let mut table = vec![0; records * 32];
        for stop in [0, 1, UNCUT] {
            assert_eq!(sweep(&mut table, stop), swept(0, 0));
        }
        assert_eq!(table, vec![0; records * 32]);
    }
    let lines = ["CRD .R", "WRS M .R:A", "DUP .R .R:ME", "CRD .R:D"];
    sweeps_by(&records(&Bench::grown(20, &lines).table), &[]);
}

#[test]
fn a_table_of_nothing_else_is_all_cleared() {
    let records = [dir(1, 1), entry(0, 0, 0, 0, "ME")];
    sweeps_by(&records, &[gone(1), gone(0)]);
}

#[test]
fn a_sheet_that_a_base_file_names_stays_with_its_text() {
    let records = [
        dir(1, 2),
        entry(0, 0, 0, 0, "ME"),
        file(1, 2),
        entry(0, 0, 2, 0, "A"),
        base(2, ".A."),
        text(2, 0, b"T"),
    ];
    sweeps_by(&records, &[gone(1), gone(3), gone(0), (2, file(1, 1))]);
}

#[test]
fn a_loop_hanging_on_a_lost_loop() {
    // the first holds itself and the second, which holds itself and a sheet; from there a third, in which the way ends
    let records = [
        entry(0, 6, 6, 0, "ME"),
        entry(0, 6, 3, 0, "ON"),
        entry(0, 3, 3, 0, "ME"),
        dir(2, 3),
        file(0, 1),
        entry(0, 3, 4, 0, "A"),
        dir(1, 2),
        entry(0, 3, 8, 0, "ON"),
        dir(1, 0),
    ];
    sweeps_by(&records, &[0, 1, 2, 5, 7, 3, 4, 6, 8].map(gone));
}

#[test]
fn a_lost_directory_that_links_to_a_live_one() {
    // the live one stays with all in it, and its count is corrected
    let records = [
        dir(1, 2),
        entry(0, 0, 0, 0, "ME"),
        entry(0, 0, 3, 0, "IN"),
        dir(2, 1),
        base(3, ".R"),
        dir(1, 0),
        entry(0, 3, 5, 0, "D"),
    ];
    sweeps_by(&records, &[gone(1), gone(2), gone(0), (3, dir(1, 1))]);
}

#[test]
fn a_live_directory_that_links_to_a_loop_keeps_it() {
    let records = [
        dir(2, 1),
        entry(0, 0, 0, 0, "ME"),
        dir(1, 1),
        base(2, ".R"),
        entry(0, 2, 0, 0, "IN"),
    ];
    sweeps_by(&records, &[]);
}

#[test]
fn a_base_entry_never_goes() {
    // also of a directory that links to itself, of a sheet that the lost loop holds too, and of every user
    let records = [
        dir(3, 1),
        entry(0, 0, 0, 0, "ME"),
        entry(0, BASE, 0, 0, ".AB"),
        entry(0, BASE, 0, 999_999, ".T"),
    ];
    sweeps_by(&records, &[]);
}

#[test]
fn record_0_is_reached_as_any() {
    // the lost loop has record 0, and the live one names the highest
    let records = [dir(1, 1), entry(0, 0, 0, 0, "ME"), base(3, ".R"), dir(1, 0)];
    sweeps_by(&records, &[gone(1), gone(0)]);
    let other = [dir(1, 0), base(0, ".R"), dir(1, 1), entry(0, 2, 2, 0, "ME")];
    sweeps_by(&other, &[gone(3), gone(2)]);
}

// "of entries": a chain of any length

/// So many directories, each in the one before: the heading, the entry that names the next (the last names the first), and a link back to
/// the first. The records are in order, or the other way round.
fn deep(directories: usize, falling: bool) -> Vec<[u8; 32]> {
    let at = |number: usize| match falling {
        true => 3 * directories - 1 - number,
        false => number,
    };
    let mut records = vec![FREE; 3 * directories];
    for number in 0..directories {
        let (own, first) = (at(3 * number) as u16, at(0) as u16);
        let next = at(3 * ((number + 1) % directories)) as u16;
        let is_first = number == 0;
        let named = if is_first { directories as u16 + 1 } else { 1 };
        records[usize::from(own)] = dir(named, 2);
        records[at(3 * number + 1)] = entry(0, own, next, 0, "ON");
        records[at(3 * number + 2)] = entry(0, own, first, 0, "UP");
    }
    records
}

/// 680 directories and a base entry of the first.
fn reached_deep(falling: bool) -> Vec<[u8; 32]> {
    let mut records = deep(680, falling);
    let first = if falling { 2_039 } else { 0 };
    records[first] = dir(682, 2);
    records.push(base(first as u16, ".R"));
    records
}

#[test]
fn directories_680_deep_stay() {
    for falling in [false, true] {
        let records = reached_deep(falling);
        assert!(sound(&records.concat()));
        let mut table = records.concat();
        assert_eq!(sweep(&mut table, UNCUT), swept(0, 0));
        assert_eq!(table, records.concat());
    }
}

#[test]
fn directories_680_deep_go() {
    for falling in [false, true] {
        let records = deep(680, falling);
        assert!(sound(&records.concat()));
        let stores = due(&records);
        assert_eq!(stores.len(), 2_040);
        let whole = after(&records, &stores).concat();
        assert_eq!(whole, vec![0; 2_040 * 32]);
        for stop in [1, 679, 1_359, 1_360, 1_361, 2_039, 2_040] {
            let mut table = records.concat();
            let number = if stop < 2_040 { 22 } else { 0 };
            assert_eq!(sweep(&mut table, stop as u32), swept(number, stop));
            assert_eq!(table, after(&records, &stores[..stop]).concat());
            ends_as(&table, &whole);
        }
    }
}

#[test]
fn a_directory_at_the_end_of_680_keeps_what_it_holds() {
    // the records fall, so the last directory is record 2, its entries 1 and 0; only it names the sheet; the lost loop beside it goes
    let mut table = reached_deep(true);
    table[0] = entry(0, 2, 2_041, 0, "SHEET");
    table[2_039] = dir(681, 2);
    table.extend([file(0, 1), dir(1, 1), entry(0, 2_042, 2_042, 0, "ME")]);
    sweeps_by(&table, &[gone(2_043), gone(2_042)]);
}

#[test]
fn deeper_than_a_line_can_say() {
    // forty directories, one in the other, each made through a base link to the one before
    let mut bench = Bench::grown(90, &["CRD .R", "DUP .R .CUR"]);
    for _ in 0..40 {
        bench.grant("CRD .CUR:D", b"");
        bench.grant("DUP .CUR:D .CUR", b"");
    }
    bench.grant("DUP .R .CUR:UP", b"");
    bench.grant("DEL .CUR", b"");
    sweeps_by(&records(&bench.table), &[]);
    bench.grant("DEL .R", b"");
    assert_eq!(sweep(&mut bench.table, UNCUT), swept(0, 82));
    assert_eq!(bench.table, vec![0; 90 * 32]);
}

// "whatever the codes on it": and whatever level, mark and user

#[test]
fn codes_and_levels_do_not_matter() {
    // reached through what is inhibited in every way: it stays
    let live = [
        shut(dir(1, 1)),
        entry(7, BASE, 0, 1, ".R"),
        shut(dir(1, 1)),
        entry(7, 0, 2, 0, "D"),
        shut(file(1, 1)),
        entry(7, 2, 4, 0, "A"),
        text(4, 0, b"T"),
    ];
    sweeps_by(&live, &[]);
    // lost and inhibited in every way: it goes
    let mut lost = live.to_vec();
    lost[1] = entry(7, 2, 0, 0, "UP");
    lost[2] = shut(dir(1, 2));
    sweeps_by(&lost, &[1, 3, 5, 0, 2, 4, 6].map(gone));
    let bench = bench(&live);
    bench.refuse("LST .R", b"", 13, 1);
}

#[test]
fn marks_and_lifetimes_do_not_matter() {
    let mut long = file(1, 1);
    long[4] = 2;
    let live = [
        dir(1, 2),
        base(0, ".R"),
        marked(),
        entry(0, 0, 2, 0, "CUT"),
        long,
        entry(0, 0, 4, 0, "L"),
        text(4, 0, b"T"),
    ];
    sweeps_by(&live, &[]);
    let mut lost = live.to_vec();
    lost[0] = dir(1, 3);
    lost[1] = entry(0, 0, 0, 0, "ME");
    sweeps_by(&lost, &[1, 3, 5, 0, 2, 4, 6].map(gone));
}

// "entries, then headings, then text, each by record number, then corrects counts"

#[test]
fn the_stores_in_their_order() {
    sweeps_by(&attic(), &attic_cleared());
}

#[test]
fn the_same_with_the_records_the_other_way_round() {
    let turned = |number: u16| if number == BASE { BASE } else { 15 - number };
    let mut records: Vec<[u8; 32]> = attic().into_iter().rev().collect();
    for record in &mut records {
        let fields: &[usize] = [&[][..], &[], &[2, 4], &[2]][usize::from(record[0])];
        for at in fields {
            let said = u16::from_le_bytes([record[*at], record[at + 1]]);
            record[*at..at + 2].copy_from_slice(&turned(said).to_le_bytes());
        }
    }
    let mut stores = [1, 3, 7, 9, 12, 2, 10, 11, 5, 13].map(gone).to_vec();
    stores.extend([(8, file(5, 1)), (15, dir(1, 1))]);
    sweeps_by(&records, &stores);
}

#[test]
fn text_goes_by_record_number_and_not_by_position_or_file() {
    let records = [
        text(3, 1, b"T"),
        text(5, 0, b"T"),
        text(3, 0, &[b'T'; 24]),
        file(25, 1),
        dir(1, 3),
        file(1, 1),
        entry(0, 4, 4, 0, "ME"),
        entry(0, 4, 3, 0, "A"),
        entry(0, 4, 5, 0, "B"),
        base(10, ".R"),
        file(1, 1),
        text(10, 0, b"T"),
    ];
    sweeps_by(&records, &[6, 7, 8, 3, 4, 5, 0, 1, 2].map(gone));
}

#[test]
fn counts_are_corrected_one_store_a_heading_and_only_where_untrue() {
    // three live files, two of which the lost loop names, the one twice
    let records = [
        dir(1, 2),
        base(0, ".R"),
        file(0, 3),
        entry(0, 0, 2, 0, "A"),
        dir(1, 4),
        entry(0, 4, 4, 0, "ME"),
        entry(0, 4, 2, 0, "A"),
        entry(0, 4, 2, 0, "B"),
        dir(2, 0),
        entry(0, 0, 8, 0, "D"),
        entry(0, 4, 8, 0, "D"),
    ];
    let mut stores = [5, 6, 7, 10, 4].map(gone).to_vec();
    stores.extend([(2, file(0, 1)), (8, dir(1, 0))]);
    sweeps_by(&records, &stores);
}

#[test]
fn how_many_a_directory_holds_never_changes() {
    // a live directory's entries stay, so of its counts only bytes 12-13 are corrected
    for (number, record) in due(&attic()).into_iter().skip(10) {
        assert_eq!(record[..12], attic()[number][..12]);
        assert_eq!(record[14..], attic()[number][14..]);
    }
}

// "It is a call like mending, with a stop number and the same answer."

#[test]
fn the_answer_is_a_number_and_stores_and_zeros() {
    for (stop, numbers) in [
        (0, [22, 0, 0, 0, 0, 0, 0]),
        (1, [22, 0, 0, 0, 0, 0, 1]),
        (11, [22, 0, 0, 0, 0, 0, 11]),
        (12, [0, 0, 0, 0, 0, 0, 12]),
        (u32::MAX, [0, 0, 0, 0, 0, 0, 12]),
    ] {
        let answer = sweep(&mut attic().concat(), stop);
        assert_eq!(answer.numbers(), numbers);
    }
}

// "A sweep cut anywhere, mended and swept again ends in the same table as one uncut"

#[test]
fn a_cut_among_the_entries_leaves_a_loop_or_none() {
    let (records, stores) = (attic(), attic_cleared());
    let whole = after(&records, &stores).concat();
    // before its own entry goes it is a lost loop still, which mending leaves
    let mut table = records.concat();
    assert_eq!(mend(&mut table, UNCUT), swept(0, 0));
    assert_eq!(sweep(&mut table, UNCUT), swept(0, 12));
    assert_eq!(table, whole);
    // after it no entry names it, and mending does the rest
    let mut table = records.concat();
    assert_eq!(sweep(&mut table, 1), swept(22, 1));
    assert_eq!(mend(&mut table, UNCUT), swept(0, 11));
    assert_eq!(table, whole);
    assert_eq!(sweep(&mut table, 0), swept(0, 0));
}

#[test]
fn a_cut_that_mending_leaves_lost_is_swept_again() {
    // of a loop of two with a sheet in each, the entry of the first sheet is cleared, and its file is mended away
    let records = [
        entry(0, 4, 1, 0, "A"),
        file(0, 1),
        entry(0, 4, 5, 0, "ON"),
        entry(0, 5, 4, 0, "BACK"),
        dir(1, 2),
        dir(1, 2),
        file(0, 1),
        entry(0, 5, 6, 0, "A"),
    ];
    sweeps_by(&records, &[0, 2, 3, 7, 1, 4, 5, 6].map(gone));
    let mut table = records.concat();
    assert_eq!(sweep(&mut table, 1), swept(22, 1));
    // the sheet's heading, and the count of the directory that held it
    assert_eq!(mend(&mut table, UNCUT), swept(0, 2));
    assert_eq!(sweep(&mut table, UNCUT), swept(0, 6));
    assert_eq!(table, vec![0; 8 * 32]);
}

#[test]
fn a_cut_sweep_is_refused_until_it_is_mended() {
    for made in 1..12 {
        let mut table = attic().concat();
        assert_eq!(sweep(&mut table, made), swept(22, made as usize));
        let refused = swept(if sound(&table) { 0 } else { 2 }, 0);
        let left = table.clone();
        assert_eq!(sweep(&mut table, 0), refused, "{made}");
        assert_eq!(table, left);
        assert!(!sound(&table), "{made}: each cut of this one is not sound");
    }
}

#[test]
fn a_swept_table_swept_again_changes_nothing() {
    let mut table = attic().concat();
    assert_eq!(sweep(&mut table, UNCUT), swept(0, 12));
    let whole = table.clone();
    for stop in [0, 1, UNCUT] {
        assert_eq!(sweep(&mut table, stop), swept(0, 0));
        assert_eq!(mend(&mut table, stop), swept(0, 0));
        assert_eq!(table, whole);
    }
}

// "Granted, it leaves the index true."

/// The attic with its list, and a call on it.
fn with_list(list: &[u16], stop: u32) -> (Answer, Vec<u8>, Vec<u16>) {
    let (mut table, mut index) = (attic().concat(), list.to_vec());
    let answer = sweep_with(&mut table, &mut index, stop);
    (answer, table, index)
}

/// The entries of the attic: `.R`'s A; CUT, KEEP, ME, SHEET and UP in record 5; the base file.
fn list() -> Vec<u16> {
    let mut list = vec![11, 14, 12, 3, 6, 8, 1];
    list.resize(16, PADDING);
    list
}

#[test]
fn the_list_after_it() {
    let (answer, table, index) = with_list(&list(), UNCUT);
    assert_eq!(answer, swept(0, 12));
    let mut due = vec![11, 1];
    due.resize(16, PADDING);
    assert_eq!(index, due);
    let mut bench = Bench::of(table);
    bench.grant("LST .R", b"");
}

#[test]
fn stopped_it_leaves_the_list_as_lent() {
    for stop in 0..12 {
        let (answer, mut table, mut index) = with_list(&list(), stop);
        assert_eq!(answer, swept(22, stop as usize));
        assert_eq!(index, list());
        // the mend that follows builds it, whatever it held, and then a sweep may go on
        assert_eq!(mend_with(&mut table, &mut index, UNCUT).number, 0);
        assert_eq!(index, beside::true_index(&table));
        assert_eq!(sweep_with(&mut table, &mut index, UNCUT).number, 0);
        assert_eq!(table, after(&attic(), &attic_cleared()).concat());
        assert_eq!(index[..3], [11, 1, PADDING]);
    }
}

#[test]
fn nothing_to_do_leaves_the_list_as_it_is() {
    let (_, mut table, mut index) = with_list(&list(), UNCUT);
    let kept = index.clone();
    assert_eq!(sweep_with(&mut table, &mut index, 0), swept(0, 0));
    assert_eq!(index, kept);
}

// "Refusals: 1, 2 and 26 as for a request, and 22."

/// The call must be refused with this number, whatever the stop number, and change nothing.
fn is_refused(table: &[u8], list: &[u16], number: u32) {
    for stop in [0, 1, UNCUT, u32::MAX] {
        let (mut after, mut index) = (table.to_vec(), list.to_vec());
        assert_eq!(sweep_with(&mut after, &mut index, stop), swept(number, 0));
        assert!(after == table && index == list, "{number}: changed");
    }
}

#[test]
fn number_1_by_the_length_of_the_table() {
    let table = attic().concat();
    for length in [1, 31, 33, 511, 512 - 32 + 1] {
        is_refused(&table[..length], &list(), 1);
    }
    is_refused(&[0; 65_568], &[PADDING; 2_049], 1);
    is_refused(&[0; 65_537], &[], 1);
}

#[test]
fn number_2_where_the_table_as_lent_is_not_sound() {
    // what mending would clear, too: a heading, an entry, a text, a count
    for (number, record) in [
        (15, directory()),
        (15, base(9, ".T")),
        (15, entry(0, 15, 0, 0, "A")),
        (15, text(15, 0, b"T")),
        (0, dir(3, 1)),
        (0, dir(2, 2)),
        (5, dir(2, 5)),
        (3, FREE),
        (9, FREE),
        (1, base(0, "R")),
    ] {
        let table = after(&attic(), &[(number, record)]).concat();
        assert!(!sound(&table));
        is_refused(&table, &beside::true_index(&table), 2);
        is_refused(&table, &[], 2);
    }
}

#[test]
fn number_26_with_a_list_that_is_not_true() {
    let table = attic().concat();
    let with = |change: &dyn Fn(&mut Vec<u16>)| {
        let mut list = list();
        change(&mut list);
        is_refused(&table, &list, 26);
    };
    with(&|list| list.clear());
    with(&|list| list.truncate(15));
    with(&|list| list.push(PADDING));
    with(&|list| list.swap(0, 1));
    with(&|list| list[7] = 0);
    with(&|list| list[15] = 0);
    with(&|list| list[6] = PADDING);
    with(&|list| list.fill(PADDING));
    // that of the table after it is not that of the table before
    with(&|list| list.splice(1..6, [1]).for_each(drop));
    // nothing to sweep, and yet
    is_refused(&[0; 64], &[PADDING, 0], 26);
}

#[test]
fn numbers_1_2_and_26_in_this_order_and_before_22() {
    let mut odd = attic().concat();
    odd[1] = 7;
    odd.pop();
    is_refused(&odd, &[7; 3], 1);
    let mut damaged = attic().concat();
    damaged[1] = 7;
    is_refused(&damaged, &[7; 3], 2);
    is_refused(&attic().concat(), &[7; 3], 26);
}
