//! Mending: the rule, record by record, and tables damaged at random.

mod common;
use common::*;

const UNCUT: u32 = 65_535;

/// Mending answers with this number and these stores, and leaves these records.
fn mends(records: &[[u8; 32]], stop: u32, number: u32, stores: u32, after: &[[u8; 32]]) {
    let mut table = records.concat();
    let expected = answer([number, 0, 0, 0, 0, 0, stores]);
    assert_eq!(mend(&mut table, stop), expected);
    assert_eq!(table, after.concat());
}

#[test]
fn a_sound_table_is_left_as_it_is() {
    mends(&[], UNCUT, 0, 0, &[]);
    mends(&[FREE; 5], 0, 0, 0, &[FREE; 5]);
    let looped = [counts(directory(), 1, 1), entry(0, 0, 0, 0, "A")];
    mends(&looped, 0, 0, 0, &looped);
    let lines = ["CRD .R", "WRS M .R:A", "DUP .R .R:B", "CPY .R:A .G"];
    let mut table = Bench::grown(20, &lines).table;
    let before = table.clone();
    assert_eq!(mend(&mut table, UNCUT), answer([0; 7]));
    assert_eq!(table, before);
}

#[test]
fn a_heading_that_no_entry_names_is_cleared_and_its_text_after_it() {
    let debris = [
        text(2, 1, b"MORE"),
        FREE,
        simple(28),
        text(2, 0, &TEXT[..24]),
    ];
    mends(&debris, UNCUT, 0, 3, &[FREE; 4]);
    // The heading goes first, then the texts, by record number.
    mends(&debris, 0, 22, 0, &debris);
    let mut after = debris;
    for (made, number) in [2, 0, 3].into_iter().enumerate() {
        after[number] = FREE;
        let stores = made as u32 + 1;
        mends(
            &debris,
            stores,
            if stores == 3 { 0 } else { 22 },
            stores,
            &after,
        );
    }
}

#[test]
fn all_headings_go_before_all_texts_each_by_record_number() {
    let debris = [text(9, 0, b"T"), simple(0), text(3, 0, b"T"), directory()];
    let order = [1, 3, 0, 2];
    let mut after = debris;
    for (made, number) in order.into_iter().enumerate() {
        let stores = made as u32;
        mends(&debris, stores, 22, stores, &after);
        after[number] = FREE;
    }
    mends(&debris, 4, 0, 4, &[FREE; 4]);
}

#[test]
fn text_of_a_directory_of_an_entry_or_of_nothing_is_cleared() {
    let file = [named(directory(), 1), base(0, ".R")];
    for heading in [0, 1, 2, 3, 2_048, 65_535] {
        let records = [file[0], file[1], text(heading, 0, b"T")];
        mends(&records, UNCUT, 0, 1, &[file[0], file[1], FREE]);
    }
}

#[test]
fn kind_type_and_mark_are_read_from_bytes_0_1_and_5_alone() {
    // An unnamed heading is cleared whatever its other bytes are, and so is text without a simple file.
    let mut heading = [0xFF; 32];
    heading[0] = 1;
    let mut text = [0xFF; 32];
    text[0] = 3;
    mends(&[heading, text], UNCUT, 0, 2, &[FREE; 2]);
    // Text of an unsound simple file that is named is kept: the result is not sound.
    let mut odd = named(simple(4), 1);
    odd[31] = 1;
    let records = [odd, base(0, ".R"), common::text(0, 0, b"TEXT"), directory()];
    mends(&records, UNCUT, 2, 0, &records);
    // A heading of type 2 is not a simple file's.
    let records = [super_type(), base(0, ".R"), common::text(0, 0, b"TEXT")];
    mends(&records, UNCUT, 2, 0, &records);
    // An unsound entry names all the same.
    let mut odd = base(0, ".R");
    odd[31] = 1;
    let records = [named(directory(), 1), odd];
    mends(&records, UNCUT, 2, 0, &records);
}

fn super_type() -> [u8; 32] {
    let mut heading = named(simple(4), 1);
    heading[1] = 2;
    heading
}

#[test]
fn what_cannot_be_mended_gets_2_before_22_and_is_left_as_found() {
    let cases = [
        // An entry in a simple file, beside debris that could be cleared; of one in no heading `rounds` has more.
        vec![
            entry(0, 1, 1, 0, "A"),
            simple(0),
            base(7, ".R"),
            directory(),
        ],
        // A simple file that lacks a text.
        vec![
            simple(30),
            base(0, ".R"),
            text(0, 0, &TEXT[..24]),
            directory(),
        ],
        // A text twice.
        vec![simple(1), base(0, ".R"), text(0, 0, b"T"), text(0, 0, b"T")],
        // A name twice.
        vec![directory(), base(0, ".R"), base(0, ".R"), simple(0)],
        // A free record that is not zero.
        vec![{
            let mut free = FREE;
            free[31] = 1;
            free
        }],
    ];
    for records in cases {
        // with true counts, and with those that are to be corrected too
        let counted = counted(&records);
        for stop in [0, 1, 2, UNCUT, u32::MAX] {
            mends(&counted, stop, 2, 0, &counted);
            mends(&records, stop, 2, 0, &records);
        }
    }
}

#[test]
fn an_entry_of_no_heading_goes_first() {
    let debris = [base(5, ".R"), directory(), text(1, 0, b"T")];
    for (stores, left) in [(1, 1), (2, 2), (3, 3)] {
        let mut after = debris;
        after[..left].fill(FREE);
        let number = if stores == 3 { 0 } else { 22 };
        mends(&debris, stores, number, stores, &after);
    }
    // after document 02, f, this is debris; `destroy` has more of it
    let records = [named(simple(0), 1), base(0, ".R"), base(3, ".T"), FREE];
    mends(&records, UNCUT, 0, 1, &[records[0], records[1], FREE, FREE]);
}

#[test]
fn each_step_sees_the_table_after_the_last() {
    // The text's heading is a simple file's before its step and is gone after it.
    mends(&[simple(1), text(0, 0, b"T")], UNCUT, 0, 2, &[FREE; 2]);
}

#[test]
fn an_entry_in_a_loop_keeps_its_heading() {
    let looped = counts(directory(), 1, 1);
    let records = [looped, entry(0, 0, 0, 0, "A"), directory()];
    mends(&records, UNCUT, 0, 1, &[records[0], records[1], FREE]);
}

/// A sound table with a bit of everything.
fn grown(dice: &mut Dice) -> Vec<u8> {
    let lines = [
        "CRD .R",
        "CRD .W",
        "WRS M .R:A",
        "CPY .R:A B",
        "DUP .R .R:LOOP",
        "CRD D",
        "WRS L.P1 D:C",
        "DUP .W .R:W",
    ];
    let mut bench = Bench::new(28);
    for line in lines {
        if !dice.once_in(6) {
            let asked = bench.ask(line, TEXT);
            bench.table = asked.table;
        }
    }
    bench.table
}

/// Some damage: debris of headings, texts and entries, records cleared, headings marked or with other counts, bytes changed.
fn damage(dice: &mut Dice, table: &mut [u8]) {
    for _ in 0..=dice.below(4) {
        let at = dice.below(table.len() / 32) * 32;
        let number = dice.below(30) as u16;
        let record = &mut table[at..at + 32];
        match dice.below(9) {
            0 if record[0] == 0 => record.copy_from_slice(&simple(number)),
            1 if record[0] == 0 => record.copy_from_slice(&directory()),
            2 if record[0] == 0 && number < 12 => record.copy_from_slice(&base(number, ".Z")),
            0..=2 if record[0] == 0 => record.copy_from_slice(&text(number, number % 3, b"T")),
            3 => record.fill(0),
            4 | 5 if record[0] == 1 => mark(record),
            6 | 7 if record[0] == 1 => record[12 + dice.below(4)] = dice.below(4) as u8,
            4..=7 => {}
            _ => record[dice.below(32)] = dice.below(256) as u8,
        }
    }
}

/// A heading as a cut rewrite leaves it: marked, with length 0.
fn mark(heading: &mut [u8]) {
    heading[5] = 1;
    heading[10..12].fill(0);
}

/// Does this entry name a heading of the table, and stand in one or in a base list?
fn stands(table: &[u8], entry: &[u8]) -> bool {
    let two = |at: usize| usize::from(u16::from_le_bytes([entry[at], entry[at + 1]]));
    let is_heading = |number: usize| table.get(number * 32) == Some(&1);
    is_heading(two(4)) && (two(2) == 65_535 || is_heading(two(2)))
}

/// Each record is as before, or was an entry that names no heading or stands in none, a heading or a text and is cleared, or is a heading
/// with other counts: how many of the second kind there are, of the third, and, of the entries among the second, of those lost to begin
/// with and of the others.
fn only_mended(before: &[u8], after: &[u8]) -> [usize; 4] {
    let mut mended = [0; 4];
    for (old, new) in before.chunks(32).zip(after.chunks(32)) {
        if old == new {
            continue;
        }
        if new == FREE {
            assert!([1, 3].contains(&old[0]) || old[0] == 2 && !stands(after, old));
            mended[0] += 1;
            let lost = !stands(before, old);
            mended[2] += usize::from(old[0] == 2 && lost);
            mended[3] += usize::from(old[0] == 2 && !lost);
        } else {
            let counts = if old[1] == 0 { 12..16 } else { 12..14 };
            assert_eq!((old[0], new[0]), (1, 1));
            assert_eq!(old[..counts.start], new[..counts.start]);
            assert_eq!(old[counts.end..], new[counts.end..]);
            mended[1] += 1;
        }
    }
    mended
}

#[test]
fn tables_damaged_at_random() {
    let seed = 20_240_601;
    println!("seed {seed}");
    let mut dice = Dice(seed);
    let (mut mended, mut untouched, mut lost, mut marked) = (0, 0, 0, 0);
    let (mut recounted, mut both, mut lost_entries, mut rounds) = (0, 0, 0, 0);
    for _ in 0..20_000 {
        let mut table = grown(&mut dice);
        damage(&mut dice, &mut table);
        let before = table.clone();
        let seen = mend(&mut table, UNCUT);
        match seen.numbers() {
            [2, 0, 0, 0, 0, 0, 0] => {
                assert_eq!(table, before);
                lost += 1;
            }
            [0, 0, 0, 0, 0, 0, stores] => {
                assert!(sound(&table));
                let [cleared, counts, entries, later] = only_mended(&before, &table);
                assert_eq!(cleared + counts, stores as usize);
                lost_entries += usize::from(entries > 0);
                rounds += usize::from(later > 0);
                recounted += usize::from(counts > 0);
                both += usize::from(cleared > 0 && counts > 0);
                assert_eq!(stores == 0, sound(&before));
                let is_marked = |record: &[u8]| record[0] == 1 && record[5] == 1;
                marked += usize::from(stores > 0 && table.chunks(32).any(is_marked));
                cut_everywhere(&before, &table, seen.stores);
                mended += usize::from(stores > 0);
                untouched += usize::from(stores == 0);
            }
            _ => panic!("{seen:?}"),
        }
    }
    println!("mended {mended}, with a marked file {marked}, sound as it was {untouched}, not to be mended {lost}");
    println!("counts corrected {recounted}, after clearing {both}; entries of no heading cleared {lost_entries}, in a later round {rounds}");
    assert!(mended > 2_000 && marked > 100 && untouched > 500 && lost > 5_000);
    assert!(recounted > 1_000 && both > 300 && lost_entries > 300 && rounds > 100);
}

/// "a mend cut anywhere and run again ends as an uncut one."
fn cut_everywhere(before: &[u8], after: &[u8], stores: u32) {
    for stop in 0..stores {
        let mut table = before.to_vec();
        assert_eq!(mend(&mut table, stop), answer([22, 0, 0, 0, 0, 0, stop]));
        // first the entries that are lost to begin with, then what else is cleared, then what is counted
        let [cleared, counts, entries, _] = only_mended(before, &table);
        assert_eq!(cleared + counts, stop as usize);
        let [all, _, all_entries, _] = only_mended(before, after);
        assert!(counts == 0 || cleared == all);
        assert!(cleared == entries || entries == all_entries);
        let left = stores - stop;
        assert_eq!(mend(&mut table, left), answer([0, 0, 0, 0, 0, 0, left]));
        assert_eq!(table, after);
    }
}
