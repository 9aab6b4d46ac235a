//! Soundness: a hand-made table for each clause, broken in that clause alone.

mod common;
use common::*;

type Records = Vec<[u8; 32]>;

/// A table that is sound with its counts: the directory .R with the simple file A of 30 bytes, and a free record.
fn good() -> Records {
    vec![
        directory(),
        base(0, ".R"),
        simple(30),
        text(2, 0, &TEXT[..24]),
        text(2, 1, &TEXT[24..]),
        entry(0, 0, 2, 0, "A"),
        FREE,
    ]
}

/// Sound with the counts that its entries make true: these have tests of their own, in `counts`.
fn is_sound(records: &[[u8; 32]]) -> bool {
    sound(&counted(records).concat())
}

/// Not sound though its counts are true, and every request gets 2 and changes nothing.
fn is_broken(records: &[[u8; 32]], why: &str) {
    assert!(!is_sound(records), "{why}");
    let bench = Bench::of(counted(records).concat());
    bench.refuse("LST .", b"", 2, 0);
    bench.refuse("DEL .R:A", b"", 2, 0);
}

/// Broken when this byte of this record is so.
fn broken_byte(number: usize, at: usize, byte: u8) {
    let mut records = good();
    assert_ne!(records[number][at], byte);
    records[number][at] = byte;
    is_broken(&records, &format!("record {number}, byte {at} is {byte}"));
}

/// Broken when this record is so.
fn broken_record(number: usize, record: [u8; 32]) {
    let mut records = good();
    records[number] = record;
    is_broken(&records, &format!("record {number} is {record:?}"));
}

/// Sound when this record is so.
fn sound_record(number: usize, record: [u8; 32]) {
    let mut records = good();
    records[number] = record;
    assert!(is_sound(&records), "record {number} is {record:?}");
}

#[test]
fn the_good_table_is_sound() {
    assert!(is_sound(&good()));
    assert!(is_sound(&[]));
    assert!(is_sound(&[FREE; 2_048]));
    assert!(!is_sound(&[FREE; 2_049]));
    assert!(!sound(&counted(&good()).concat()[1..]));
}

#[test]
fn every_free_record_is_zero() {
    for at in 1..32 {
        broken_byte(6, at, 1);
    }
}

#[test]
fn every_record_has_one_of_four_kinds() {
    for kind in [1, 2, 3, 4, 5, 128, 255] {
        broken_byte(6, 0, kind);
    }
    for number in 0..6 {
        broken_byte(number, 0, 0);
        broken_byte(number, 0, 4);
    }
}

#[test]
fn a_headings_fields_are_in_range() {
    for (at, bytes) in [(1, [2, 255]), (2, [4, 255]), (3, [8, 255]), (4, [0, 3])] {
        for byte in bytes {
            broken_byte(0, at, byte);
            broken_byte(2, at, byte);
        }
    }
    for level in 0..4 {
        for code in 0..8 {
            sound_record(0, heading(0, level, code, 1, 0));
            sound_record(2, heading(1, level, code, 1, 30));
            sound_record(2, heading(1, level, code, 2, 30));
        }
    }
}

#[test]
fn bytes_not_named_are_zero() {
    for at in (6..10).chain(16..32) {
        broken_byte(0, at, 1);
        broken_byte(2, at, 255);
    }
    // A simple file holds nothing, and has no count of it.
    for at in 14..16 {
        broken_byte(2, at, 1);
        broken_byte(2, at, 255);
    }
    for at in 20..32 {
        broken_byte(1, at, 1);
        broken_byte(5, at, 255);
    }
    for at in 6..8 {
        broken_byte(3, at, 1);
        broken_byte(4, at, 255);
    }
}

/// Document 02: "A marked file, simple, M, length 0, is sound".
#[test]
fn no_heading_is_marked_but_of_an_empty_medium_file() {
    for byte in [1, 2, 255] {
        broken_byte(0, 5, byte);
        broken_byte(2, 5, byte);
    }
    let with = |mut heading: [u8; 32], byte| {
        heading[5] = byte;
        let mut records = good();
        records[2] = heading;
        records[3..5].fill(FREE);
        records
    };
    assert!(is_sound(&with(simple(0), 0)));
    assert!(is_sound(&with(simple(0), 1)));
    is_broken(&with(simple(0), 2), "byte 5 is 2");
    is_broken(&with(heading(1, 0, 0, 2, 0), 1), "marked and long");
    is_broken(&with(directory(), 1), "a marked directory");
}

#[test]
fn an_entrys_code_is_at_most_7() {
    sound_record(5, entry(7, 0, 2, 0, "A"));
    broken_record(5, entry(8, 0, 2, 0, "A"));
    broken_record(1, entry(255, 65_535, 0, 1, ".R"));
}

#[test]
fn text_holds_1_to_24_bytes_and_zeros_after() {
    broken_byte(4, 1, 0);
    broken_byte(3, 1, 25);
    broken_byte(3, 1, 255);
    for at in 14..32 {
        broken_byte(4, at, 1);
    }
}

#[test]
fn each_entrys_directory_is_a_directory_heading_or_65535() {
    for directory in [1, 2, 3, 5, 6, 7, 8, 2_048, 65_534] {
        broken_record(5, entry(0, directory, 2, 0, "A"));
    }
}

#[test]
fn each_entry_names_a_heading() {
    for heading in [1, 3, 5, 6, 7, 2_048, 65_535] {
        broken_record(6, entry(0, 0, heading, 0, "B"));
    }
    sound_record(6, entry(0, 0, 2, 0, "B"));
    sound_record(6, entry(0, 0, 0, 0, "B"));
}

#[test]
fn users_fit() {
    sound_record(1, entry(0, 65_535, 0, 0, ".R"));
    sound_record(1, entry(0, 65_535, 0, 999_999, ".R"));
    broken_record(1, entry(0, 65_535, 0, 1_000_000, ".R"));
    broken_record(1, entry(0, 65_535, 0, 16_777_215, ".R"));
    for at in 6..9 {
        broken_byte(5, at, 1);
    }
}

#[test]
fn what_stands_beside_the_names_number_is_zero() {
    for at in [9].into_iter().chain(18..32) {
        broken_byte(5, at, 1);
        broken_byte(1, at, 1);
    }
    // from 2^60 on
    for byte in [16, 32, 64, 128] {
        broken_byte(5, 17, byte | entry(0, 0, 2, 0, "A")[17]);
    }
}

#[test]
fn names_are_legal() {
    for name in ["", "@", "A@", ":", "A:B", " ", "A B", " A"] {
        broken_record(5, entry(0, 0, 2, 0, name));
    }
    for name in ["!", "_", "-", ".", ".1", "ABCDEFGHIJ", "..........", "0"] {
        sound_record(5, entry(0, 0, 2, 0, name));
    }
}

#[test]
fn base_names_are_legal() {
    for name in [
        "", "R", ".", "..", ".A", ".C", ".1", ".AB1", "ABC", ".A-B", ".A@",
    ] {
        broken_record(1, base(0, name));
    }
    for name in [".R", ".W", ".G", ".T", "...", ".AB", ".ABCDEFGHI"] {
        sound_record(1, base(0, name));
    }
}

#[test]
fn no_directory_has_a_name_twice() {
    broken_record(6, entry(4, 0, 0, 0, "A"));
    sound_record(6, entry(4, 0, 0, 0, "AA"));
    // The same name in another directory.
    let mut records = good();
    records[6] = directory();
    records.push(entry(0, 0, 6, 0, "B"));
    records.push(entry(0, 6, 2, 0, "A"));
    assert!(is_sound(&records));
    // A name of the base list in a directory.
    sound_record(6, entry(0, 0, 0, 0, ".R"));
}

#[test]
fn no_base_list_has_a_name_twice() {
    broken_record(6, base(2, ".R"));
    sound_record(6, base(2, ".G"));
    sound_record(6, entry(0, 65_535, 2, 2, ".R"));
}

#[test]
fn every_heading_is_named() {
    broken_record(6, directory());
    broken_record(6, simple(0));
    // The only entry of a file gone, its text left.
    broken_record(5, FREE);
    broken_record(1, FREE);
}

#[test]
fn a_directory_has_at_most_112_entries() {
    let mut records = good();
    for at in 1..112 {
        records.push(entry(0, 0, 2, 0, &format!("N{at}")));
    }
    assert!(is_sound(&records));
    records[6] = entry(0, 0, 2, 0, "MORE");
    is_broken(&records, "113 entries");
}

#[test]
fn a_user_has_at_most_100_base_files() {
    let mut records = good();
    let letter = |at: u8| char::from(b'A' + at);
    for at in 1..100 {
        records.push(base(2, &format!(".{}{}", letter(at / 26), letter(at % 26))));
    }
    assert!(is_sound(&records));
    records[6] = entry(0, 65_535, 2, 2, ".MORE");
    assert!(is_sound(&records));
    records[6] = base(2, ".MORE");
    is_broken(&records, "101 base files");
}

#[test]
fn a_directory_has_lifetime_m_and_length_0() {
    broken_record(0, heading(0, 0, 0, 2, 0));
    broken_record(0, heading(0, 0, 0, 1, 1));
    broken_record(0, heading(0, 0, 0, 1, 256));
}

#[test]
fn a_simple_file_has_each_text_position_exactly_once() {
    broken_record(3, FREE);
    broken_record(4, FREE);
    broken_record(6, text(2, 0, &TEXT[..24]));
    broken_record(6, text(2, 1, &TEXT[24..]));
    broken_record(3, text(2, 1, &TEXT[24..]));
    broken_record(4, text(2, 0, &TEXT[..24]));
    broken_record(2, simple(24));
    broken_record(2, simple(48));
    broken_record(2, simple(49));
    broken_record(2, simple(0));
    // The order of the records is free.
    let mut records = good();
    records.swap(3, 4);
    assert!(is_sound(&records));
}

#[test]
fn text_holds_24_bytes_but_for_the_last_which_holds_the_rest() {
    broken_record(3, text(2, 0, &TEXT[..23]));
    broken_record(4, text(2, 1, &TEXT[..5]));
    broken_record(4, text(2, 1, &TEXT[..7]));
    broken_record(2, simple(29));
    broken_record(2, simple(31));
    let mut records = good();
    records[2] = simple(48);
    records[4] = text(2, 1, &TEXT[..24]);
    assert!(is_sound(&records));
}

#[test]
fn there_is_no_other_text() {
    broken_record(6, text(2, 2, b"MORE"));
    broken_record(6, text(2, 65_535, b"MORE"));
    broken_record(6, text(0, 0, b"OF A DIRECTORY"));
    for heading in [1, 3, 5, 6, 7, 2_048, 65_535] {
        broken_record(6, text(heading, 0, b"OF NO HEADING"));
    }
}

#[test]
fn a_simple_file_has_at_most_24000_bytes() {
    let file = |length: u16| {
        let mut records = vec![simple(length), base(0, ".R")];
        let mut left = usize::from(length);
        for position in 0.. {
            if left == 0 {
                break;
            }
            let held = left.min(24);
            records.push(text(0, position, &TEXT[..held]));
            left -= held;
        }
        records
    };
    assert!(is_sound(&file(23_999)));
    assert!(is_sound(&file(24_000)));
    is_broken(&file(24_001), "24,001 bytes");
    is_broken(&file(24_024), "24,024 bytes");
}

#[test]
fn directories_may_form_loops_and_no_base_file_need_reach_them() {
    assert!(is_sound(&[directory(), entry(0, 0, 0, 0, "A")]));
    let two = [
        directory(),
        directory(),
        entry(0, 0, 1, 0, "A"),
        entry(0, 1, 0, 0, "B"),
        FREE,
    ];
    assert!(is_sound(&two));
    let bench = Bench::of(counted(&two).concat());
    assert_eq!(bench.reply("LST ."), b"");
}
