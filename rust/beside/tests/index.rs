//! Document 02, i, "A sorted name index": its sentences in their order. Records and lists are written by hand, and each call is made by
//! the second program and by the proved library. That a request keeps a true index true is asked of each call of every test here
//! (`common`); of some it is told number by number. Looking up is in `look_up`.

mod common;
use common::told::*;
use common::*;

use beside::{true_index, true_index_in, Layout};

const BASE: u16 = 65_535;
const NO_RECORD: u16 = 65_534;

/// Three sheets in `.R`, one of them again in `.W`; a base file each of users 0 and 65,536; two free records.
fn floor() -> Vec<[u8; 32]> {
    vec![
        dir(1, 3),
        entry(0, BASE, 0, 1, ".R"),
        file(0, 2),
        entry(0, 0, 2, 0, "B"),
        dir(1, 1),
        entry(0, BASE, 4, 1, ".W"),
        entry(0, 4, 2, 0, "A"),
        entry(0, 0, 8, 0, "AB"),
        file(0, 1),
        entry(0, BASE, 10, 0, ".ZZZ"),
        dir(1, 0),
        entry(0, 0, 12, 0, "A"),
        file(0, 1),
        entry(0, BASE, 14, 65_536, ".A."),
        dir(1, 0),
        FREE,
        FREE,
    ]
}

/// `.R` is record 0 and `.W` record 4; then the base files, of user 0, of user 1, of user 65,536.
const OF_THE_FLOOR: [u16; 8] = [11, 7, 3, 6, 9, 1, 5, 13];

/// These numbers and so many places after them.
fn padded(numbers: &[u16], places: usize) -> Vec<u16> {
    let mut list = numbers.to_vec();
    list.resize(places, PADDING);
    list
}

/// A table and the list that is lent with it.
#[derive(Clone, Debug, PartialEq)]
struct Desk {
    table: Vec<u8>,
    index: Vec<u16>,
}

impl Desk {
    /// The floor with its list as it is written above.
    fn of_the_floor() -> Desk {
        Desk {
            table: floor().concat(),
            index: padded(&OF_THE_FLOOR, 17),
        }
    }

    fn with(&self, index: Vec<u16>) -> Desk {
        Desk {
            index,
            ..self.clone()
        }
    }

    /// A request of this user with an empty text, by both; the seven numbers.
    fn ask_for(&mut self, user: u32, line: &str, stop: u32) -> [u64; 7] {
        let Desk { table, index } = self;
        let mut reply = vec![UNTOUCHED; 24_000];
        let line = line.as_bytes();
        let answer = request_with(table, index, line, b"", &mut reply, user, stop);
        answer.numbers()
    }

    fn ask(&mut self, line: &str, stop: u32) -> [u64; 7] {
        self.ask_for(1, line, stop)
    }

    /// The request must be granted, and leave these numbers in the list.
    fn grant(&mut self, line: &str, numbers: &[u16]) {
        assert_eq!(self.ask(line, UNCUT)[0], 0, "{line}");
        assert_eq!(self.index, padded(numbers, self.table.len() / 32), "{line}");
    }

    fn mend(&mut self, stop: u32) -> [u64; 7] {
        mend_with(&mut self.table, &mut self.index, stop).numbers()
    }

    /// Every line gets 26 at place 0 and changes nothing, whatever the stop number.
    fn is_refused(&self, why: &str) {
        for line in EVERY_FUNCTION.into_iter().chain(["", "crd", "DEL .G"]) {
            for stop in [0, UNCUT] {
                let mut after = self.clone();
                let refused = [26, 0, 0, 0, 0, 0, 0];
                assert_eq!(after.ask(line, stop), refused, "{why}: {line}");
                assert!(after == *self, "{why}: {line} changed something");
            }
        }
    }
}

/// Lines that are granted on the floor.
const EVERY_FUNCTION: [&str; 15] = [
    "CRD .G",
    "CRD .R:N",
    "WRS M .AB",
    "WRS M .R:AB",
    "WRS* M .R:A",
    "RDS .R:A",
    "CPY .R:AB .R:B",
    "DUP .R:A .W:B",
    "DUP .R .R:A",
    "CHN .R:A Z",
    "DEL .R:A .R:B .W:A",
    "DST .R:B",
    "DPR .R .4",
    "LST .R",
    "LST* . 2",
];

// "Keep beside the table a lent list of entry record numbers, ordered by directory, then user, then name."

#[test]
fn the_list_of_the_floor_by_hand() {
    assert!(sound(&floor().concat()));
    assert_eq!(true_index(&floor().concat()), padded(&OF_THE_FLOOR, 17));
    let answer = Desk::of_the_floor().ask("LST .", UNCUT);
    assert_eq!(answer, [0, 0, 0, 1, 0, 13, 0]);
}

#[test]
fn directories_go_by_their_numbers_and_base_files_come_last() {
    // headings 1, 255, 256 and 257, the low byte of which does not ascend
    let mut records = vec![FREE; 300];
    for (heading, name) in [(257, ".D"), (1, ".C"), (256, ".B"), (255, ".A")] {
        records[heading] = dir(1, 1);
        records[heading + 10] = entry(0, BASE, heading as u16, 1, &format!("{name}.."));
        records[heading + 20] = entry(0, heading as u16, 290, 0, "SAME");
    }
    records[290] = file(0, 4);
    bench(&records);
    let expected = [21, 275, 276, 277, 265, 266, 11, 267];
    assert_eq!(true_index(&records.concat()), padded(&expected, 300));
}

#[test]
fn users_go_by_their_numbers() {
    let users = [999_999, 65_536, 0, 256, 1, 65_535, 255, 512];
    let mut records = vec![dir(8, 0)];
    records.extend(users.map(|user| entry(0, BASE, 0, user, ".R")));
    bench(&records);
    assert_eq!(
        true_index(&records.concat()),
        [3, 5, 7, 4, 8, 6, 2, 1, PADDING]
    );
}

#[test]
fn names_go_as_in_a_listing() {
    let mut dice = Dice(71);
    let mut bench = Bench::grown(260, &["CRD .R"]);
    let legal: Vec<u8> = (33..=95).filter(|b| !b":@".contains(b)).collect();
    for _ in 0..100 {
        let length = 1 + dice.below(10);
        let name: Vec<u8> = (0..length).map(|_| legal[dice.below(61)]).collect();
        let line = [b"DUP .R .R:", &name[..]].concat();
        let seen = bench.ask(&line, b"");
        assert_eq!(seen.answer.number, 0);
        bench.table = seen.table;
    }
    let listing = String::from_utf8(bench.reply("LST .R")).expect("characters");
    let listed: Vec<&str> = listing.lines().map(|line| &line[9..]).collect();
    let index = true_index(&bench.table);
    let names = index[..listed.len()].iter();
    let names: Vec<String> = names
        .map(|number| name_of(record(&bench.table, (*number).into())))
        .collect();
    assert_eq!(names, listed);
    assert!(listed.len() > 90);
}

#[test]
fn a_conversion_leaves_the_list_true() {
    let six = floor().concat();
    let mut old = six.clone();
    assert_eq!(beside::from_six(&mut old), 0);
    assert_eq!(true_index_in(Layout::Old, &old), true_index(&six));
}

// "The list has one place for each record of the table; places after the last entry hold 65,535."

#[test]
fn tables_without_entries_have_padding_alone() {
    for records in [0, 1, 2, 2_048] {
        let mut desk = Desk {
            table: vec![0; records * 32],
            index: vec![PADDING; records],
        };
        assert_eq!(desk.ask("LST .", UNCUT), [0, 0, 0, 1, 0, 0, 0]);
        assert_eq!(desk.mend(UNCUT), [0; 7]);
        assert_eq!(desk.index, vec![PADDING; records]);
    }
}

#[test]
fn a_table_of_entries_but_for_one_record() {
    // 2,047 base files of 21 users, all of one directory, the last record first in the list
    let mut records = vec![dir(2_047, 0)];
    for at in 0..2_047_u32 {
        let letters = [at % 100 / 10, at % 10].map(|n| char::from(b'Z' - n as u8));
        let name = format!(".{}{}", letters[0], letters[1]);
        records.push(entry(0, BASE, 0, 20 - at / 100, &name));
    }
    bench(&records);
    let mut expected: Vec<u16> = (1..2_048).rev().collect();
    expected.push(PADDING);
    assert!(true_index(&records.concat()) == expected);
}

// "Every request keeps the index true"

#[test]
fn each_function_leaves_the_list_that_is_true_after_it() {
    let mut desk = Desk::of_the_floor();
    desk.grant("CHN .R:A Z", &[7, 3, 11, 6, 9, 1, 5, 13]);
    desk.grant("CHN .W .G", &[7, 3, 11, 6, 9, 5, 1, 13]);
    desk.grant("DUP .R:B .R:A", &[15, 7, 3, 11, 6, 9, 5, 1, 13]);
    // the entry that is displaced keeps its record, and so its place
    desk.grant("CPY .R:AB .R:B", &[15, 7, 3, 11, 6, 9, 5, 1, 13]);
    desk.grant("WRS* M .R:Z", &[15, 7, 3, 11, 6, 9, 5, 1, 13]);
    desk.grant("DEL .R:AB .G:A", &[15, 3, 11, 9, 5, 1, 13]);
    desk.grant("CRD .W", &[15, 3, 11, 9, 5, 1, 7, 13]);
    desk.grant("DUP .R:A .W:Y", &[15, 3, 11, 8, 9, 5, 1, 7, 13]);
    desk.grant("DST .R:A", &[3, 11, 9, 5, 1, 7, 13]);
    desk.grant("DPR .W .1", &[3, 11, 9, 5, 1, 7, 13]);
    desk.grant("LST* . 2", &[3, 11, 9, 5, 1, 7, 13]);
}

#[test]
fn a_new_entry_goes_first_last_and_between() {
    let mut desk = Desk {
        table: vec![0; 12 * 32],
        index: vec![PADDING; 12],
    };
    desk.grant("CRD .R", &[1]);
    desk.grant("DUP .R .R:M", &[2, 1]);
    desk.grant("DUP .R .R:A", &[3, 2, 1]);
    desk.grant("DUP .R .R:Z", &[3, 2, 4, 1]);
    desk.grant("DUP .R .R:MM", &[3, 2, 5, 4, 1]);
    desk.grant("DUP .R .ZZZ", &[3, 2, 5, 4, 1, 6]);
    desk.grant("DUP .R .AAA", &[3, 2, 5, 4, 7, 1, 6]);
    assert_eq!(desk.ask_for(0, "CRD .ZZZ", UNCUT)[0], 0);
    assert_eq!(
        desk.index,
        padded(&[3, 2, 5, 4, 9, 7, 1, 6], desk.index.len())
    );
}

#[test]
fn a_request_that_is_refused_keeps_it() {
    for (line, number) in [
        ("crd", 4),
        ("CRE .R", 5),
        ("LST", 6),
        ("LST .R::A", 7),
        ("CRD .1", 8),
        ("WRS QQ .R:C", 9),
        ("LST .G", 11),
        ("LST .R:A:B", 12),
        ("RDS .R", 15),
        ("CHN .R:A B", 16),
        ("DEL .R", 18),
        ("CRD .R:C:D", 11),
        ("WRS* L .R:C", 9),
        ("RDS .R:A 9", 27),
    ] {
        let mut desk = Desk::of_the_floor();
        assert_eq!(desk.ask(line, UNCUT)[0], number, "{line}");
        assert_eq!(desk, Desk::of_the_floor(), "{line}");
    }
}

// "a delete refused midway included"

#[test]
fn a_delete_refused_midway_keeps_it_true_for_the_table_it_leaves() {
    let mut desk = Desk::of_the_floor();
    let answer = desk.ask("DEL .R:A .W:A .R:C", UNCUT);
    // entry, two counts and the heading; entry and two counts
    assert_eq!(answer, [11, 3, 2, 2, 0, 0, 4 + 3]);
    assert_eq!(desk.index, padded(&[7, 3, 9, 1, 5, 13], 17));
    assert_eq!(desk.ask("LST .R", UNCUT)[0], 0);
}

#[test]
fn a_dst_refused_midway_keeps_it_true_for_the_table_it_leaves() {
    let mut desk = Desk::of_the_floor();
    let answer = desk.ask("DST .R:B .R:A .R", UNCUT);
    // heading, two entries and two counts; heading, entry and count
    assert_eq!(answer, [18, 3, 1, 2, 0, 0, 5 + 3]);
    assert_eq!(desk.index, padded(&[7, 9, 1, 5, 13], 17));
    assert_eq!(desk.ask("LST .R", UNCUT)[0], 0);
}

// "A run that answers 22 leaves the index as it was lent, and the mend that follows builds it afresh."

#[test]
fn every_function_at_every_stop_number() {
    for line in EVERY_FUNCTION {
        let mut uncut = Desk::of_the_floor();
        let answer = uncut.ask(line, UNCUT);
        assert_eq!(answer[0], 0, "{line}");
        for stop in 0..answer[6] {
            let mut cut = Desk::of_the_floor();
            let stopped = cut.ask(line, stop as u32);
            assert_eq!((stopped[0], stopped[6]), (22, stop), "{line}, {stop}");
            assert_eq!(cut.index, Desk::of_the_floor().index, "{line}, {stop}");
            assert_eq!(cut.mend(UNCUT)[0], 0, "{line}, {stop}");
            assert_eq!(cut.index, true_index(&cut.table), "{line}, {stop}");
            assert_eq!(cut.ask("LST .", UNCUT)[0], 0, "{line}, {stop}");
        }
    }
}

#[test]
fn a_delete_stopped_between_two_names_gets_26_until_a_mend() {
    let mut desk = Desk::of_the_floor();
    assert_eq!(desk.ask("DEL .R:A .R:B", 4), [22, 0, 0, 1, 0, 0, 4]);
    assert!(sound(&desk.table));
    assert_eq!(desk.index, padded(&OF_THE_FLOOR, 17));
    desk.is_refused("as lent to a delete that was stopped");
    // nothing to mend but the list
    assert_eq!(desk.mend(UNCUT), [0; 7]);
    assert_eq!(desk.index, padded(&[7, 3, 6, 9, 1, 5, 13], 17));
    assert_eq!(desk.ask("DEL .R:B", UNCUT)[0], 0);
}

#[test]
fn a_stop_before_any_entry_leaves_a_true_list() {
    // the heading of a new file alone: not sound, mended to the table before, whose list was lent
    let mut desk = Desk::of_the_floor();
    assert_eq!(desk.ask("CRD .G", 1)[0], 22);
    assert_eq!(desk.ask("LST .", UNCUT)[0], 2);
    assert_eq!(desk.mend(UNCUT), [0, 0, 0, 0, 0, 0, 1]);
    assert_eq!(desk, Desk::of_the_floor());
}

#[test]
fn a_mend_that_is_stopped_leaves_it_too() {
    let mut cut = Desk::of_the_floor();
    assert_eq!(cut.ask("DST .R:B", 1)[0], 22);
    let junk = vec![7; 17];
    for stop in 0..4 {
        let mut mended = cut.with(junk.clone());
        let stopped = [22, 0, 0, 0, 0, 0, stop.into()];
        assert_eq!(mended.mend(stop), stopped);
        assert_eq!(mended.index, junk);
        assert_eq!(mended.mend(UNCUT)[6], 4 - u64::from(stop));
        assert_eq!(mended.index, padded(&[11, 7, 9, 1, 5, 13], 17));
    }
}

#[test]
fn a_stop_number_that_is_enough_is_no_stop() {
    let mut desk = Desk::of_the_floor();
    assert_eq!(desk.ask("DEL .R:A", 4), [0, 0, 0, 1, 0, 0, 4]);
    assert_eq!(desk.index, padded(&[7, 3, 6, 9, 1, 5, 13], 17));
}

// "A request with an index that isn't true is refused and changes nothing. Refusals: 26, exactly when the list's length or content differs
// from this, straight after 2, place 0"

#[test]
fn a_list_of_another_length() {
    let desk = Desk::of_the_floor();
    let (list, last) = (desk.index.clone(), 16);
    desk.with(Vec::new()).is_refused("no list");
    desk.with(list[..last].to_vec()).is_refused("a place less");
    desk.with(OF_THE_FLOOR.to_vec()).is_refused("no padding");
    desk.with(padded(&list, 18)).is_refused("a place more");
    desk.with(padded(&list, 2_048))
        .is_refused("many places more");
    desk.with([&list[..], &[11]].concat())
        .is_refused("an entry after it");
}

#[test]
fn a_list_of_other_numbers() {
    let desk = Desk::of_the_floor();
    for place in 0..17 {
        for number in [0, 1, 2, 7, 15, 16, 17, 2_048, NO_RECORD, PADDING] {
            let mut list = desk.index.clone();
            list[place] = number;
            if list != desk.index {
                desk.with(list).is_refused("another number");
            }
        }
    }
    desk.with(vec![0; 17]).is_refused("zeros");
    desk.with((0..17).collect()).is_refused("every record");
}

#[test]
fn a_list_in_another_order() {
    let desk = Desk::of_the_floor();
    for one in 0..9 {
        for other in one + 1..9 {
            let mut list = desk.index.clone();
            list.swap(one, other);
            desk.with(list).is_refused("shuffled");
        }
    }
    desk.with(padded(&[9, 11, 7, 3, 6, 1, 5, 13], 17))
        .is_refused("user before directory");
    desk.with(padded(&[9, 1, 5, 13, 11, 7, 3, 6], 17))
        .is_refused("base files first");
    desk.with(padded(&[1, 3, 5, 6, 7, 9, 11, 13], 17))
        .is_refused("by record number");
}

#[test]
fn a_list_padded_otherwise() {
    let desk = Desk::of_the_floor();
    for place in 8..17 {
        for number in [0, 13, 15, NO_RECORD] {
            let mut list = desk.index.clone();
            list[place] = number;
            desk.with(list).is_refused("padded wrong");
        }
    }
    let mut zeros = OF_THE_FLOOR.to_vec();
    zeros.resize(17, 0);
    desk.with(zeros).is_refused("padded with zeros");
}

#[test]
fn a_stale_list_and_one_of_another_table() {
    let mut desk = Desk::of_the_floor();
    let stale = desk.index.clone();
    assert_eq!(desk.ask("DEL .W:A", UNCUT)[0], 0);
    desk.with(stale).is_refused("of the table before");
    desk.with(vec![PADDING; 17]).is_refused("of an empty table");
    // renamed: the same entries in another order
    let stale = desk.index.clone();
    assert_eq!(desk.ask("CHN .R:A C", UNCUT)[0], 0);
    desk.with(stale).is_refused("of the table before");
    // a list that an entry's other bytes have no part in stays
    let kept = desk.index.clone();
    assert_eq!(desk.ask("DUP .R:AB .R:B", UNCUT)[0], 0);
    assert_eq!(desk.index, kept);
}

#[test]
fn after_1_and_2_and_before_3_and_4() {
    let wrong = Desk::of_the_floor().with(vec![7; 3]);
    let mut odd = wrong.clone();
    odd.table.pop();
    assert_eq!(odd.ask_for(1_000_000, "crd", 0), [1, 0, 0, 0, 0, 0, 0]);
    let mut damaged = wrong.clone();
    damaged.table[1] = 7;
    assert_eq!(damaged.ask_for(1_000_000, "crd", 0), [2, 0, 0, 0, 0, 0, 0]);
    assert_eq!(damaged.index, [7; 3]);
    let refused = [26, 0, 0, 0, 0, 0, 0];
    assert_eq!(wrong.clone().ask_for(1_000_000, "crd", 0), refused);
    assert_eq!(wrong.clone().ask_for(1, "crd", 0), refused);
    let mut right = Desk::of_the_floor();
    assert_eq!(right.ask_for(1_000_000, "crd", 0), [3, 0, 0, 0, 0, 0, 0]);
    assert_eq!(right.ask_for(1, "crd", 0), [4, 0, 0, 0, 0, 0, 0]);
}

// "mending judges only the length"

#[test]
fn mending_builds_it_whatever_it_held() {
    let desk = Desk::of_the_floor();
    for list in [
        vec![0; 17],
        vec![PADDING; 17],
        vec![NO_RECORD; 17],
        (0..17).collect(),
        desk.index.clone(),
    ] {
        let mut mended = desk.with(list);
        assert_eq!(mended.mend(UNCUT), [0; 7]);
        assert_eq!(mended, desk);
        assert_eq!(mended.mend(0), [0; 7]);
        assert_eq!(mended, desk);
    }
}

#[test]
fn mending_refuses_another_length() {
    let sound = Desk::of_the_floor();
    let mut cut = sound.clone();
    assert_eq!(cut.ask("DST .R:B", 1)[0], 22);
    for desk in [sound, cut] {
        for places in [0, 1, 16, 18, 2_048] {
            let list = padded(&desk.index, places);
            let list = list[..places].to_vec();
            for stop in [0, 1, UNCUT] {
                let mut refused = desk.with(list.clone());
                assert_eq!(refused.mend(stop), [26, 0, 0, 0, 0, 0, 0], "{places}");
                assert_eq!(refused, desk.with(list.clone()));
            }
        }
    }
}

#[test]
fn mending_says_1_and_2_before_that() {
    for list in [vec![7; 3], vec![7; 17]] {
        let mut odd = Desk::of_the_floor().with(list.clone());
        odd.table.push(0);
        assert_eq!(odd.mend(UNCUT), [1, 0, 0, 0, 0, 0, 0]);
        assert_eq!(odd.index, list);
        let mut damaged = Desk::of_the_floor().with(list.clone());
        damaged.table[1] = 7;
        assert_eq!(damaged.mend(UNCUT), [2, 0, 0, 0, 0, 0, 0]);
        assert_eq!(damaged.index, list);
    }
}

// the lamp: "each filing and each reading is the request with the index"

/// A job of these sheets, of no text, in `.R`; the five numbers.
fn light(desk: &mut Desk, names: &[&str], stop: u32) -> [u32; 5] {
    let record = |name: &&str| {
        let mut record = [0; 32];
        record[..name.len()].copy_from_slice(name.as_bytes());
        record
    };
    let sheets: Vec<u8> = names.iter().flat_map(record).collect();
    let mut proved = desk.clone();
    let (t, x) = (&mut proved.table, &mut proved.index);
    let told = filebox::light(t, x, &sheets, b"", &mut [], b".R", 1, stop);
    let Desk { table, index } = desk;
    let light = beside::light(table, index, &sheets, b"", &mut [], b".R", 1, stop);
    assert_eq!(told.numbers(), light.numbers(), "the library's light");
    assert_eq!(proved, *desk, "the library's table or index");
    light.numbers()
}

#[test]
fn a_job_with_a_list_that_is_not_true_is_red_at_sheet_1() {
    let wrong = Desk::of_the_floor().with(vec![PADDING; 17]);
    let mut desk = wrong.clone();
    assert_eq!(light(&mut desk, &["A", "C"], UNCUT), [1, 1, 1, 26, 0]);
    assert_eq!(light(&mut desk, &["A", "C"], 0), [1, 1, 1, 26, 0]);
    // its own refusals are before that, and a job without sheets asks nothing
    assert_eq!(light(&mut desk, &["A", "A"], UNCUT), [2, 2, 0, 2, 0]);
    assert_eq!(light(&mut desk, &[], UNCUT), [0; 5]);
    assert_eq!(desk, wrong);
}

#[test]
fn a_job_that_is_green_leaves_it_true() {
    let mut desk = Desk::of_the_floor();
    // of A heading, entry, two counts and the old heading; of 0 heading, entry and two counts
    assert_eq!(light(&mut desk, &["A", "0"], UNCUT), [0, 0, 0, 0, 5 + 4]);
    assert_eq!(desk.index, padded(&[16, 11, 7, 3, 6, 9, 1, 5, 13], 17));
}

#[test]
fn a_job_cut_at_a_sheet_leaves_it_as_after_the_sheet_before() {
    let mut after = vec![Desk::of_the_floor()];
    for name in ["A", "0"] {
        let mut desk = after[after.len() - 1].clone();
        assert_eq!(light(&mut desk, &[name], UNCUT)[0], 0);
        after.push(desk);
    }
    for stop in 0..9 {
        let mut cut = Desk::of_the_floor();
        let [light, sheet, phase, number, stores] = light(&mut cut, &["A", "0"], stop);
        assert_eq!([light, phase, number, stores], [1, 1, 22, stop]);
        assert_eq!(sheet, if stop < 5 { 1 } else { 2 });
        assert_eq!(cut.index, after[sheet as usize - 1].index, "{stop}");
        assert_eq!(cut.mend(UNCUT)[0], 0);
        assert_eq!(cut.index, true_index(&cut.table), "{stop}");
    }
}
