//! Document 02, l, of mending: "Mending's first step now also clears entries, base files' apart, whose directory is no heading; mending
//! repeats until nothing changes, counts last." Records are written by hand; where the library's mending is the one before, `common::before`
//! says so.

mod common;
use common::told::*;
use common::*;

const BASE: u16 = 65_535;

/// A record that is cleared.
fn gone(number: usize) -> Store {
    (number, FREE)
}

// "Mending's first step now also clears entries, base files' apart, whose directory is no heading"

#[test]
fn an_entry_in_a_free_record_a_text_an_entry_itself_or_nothing_is_cleared() {
    let sheet = [
        file(1, 1),
        base(0, ".R"),
        text(0, 0, b"T"),
        entry(0, BASE, 5, 2, ".R"),
        FREE,
        dir(1, 0),
    ];
    // a free record, a text, a base entry, this entry, one past the table, the highest numbers but for a base file's
    for holder in [4, 2, 1, 6, 7, 8, 2_047, 2_048, 65_534] {
        let lost = [&sheet[..], &[entry(0, holder, 0, 0, "A")]].concat();
        let counted = after(&lost, &[(0, file(1, 2))]);
        mends_by(&lost, &[gone(6)]);
        mends_by(&counted, &[gone(6), (0, file(1, 1))]);
    }
}

#[test]
fn whatever_the_entry_names() {
    // a directory, a simple file, a free record, nothing
    let live = [dir(1, 0), base(0, ".R"), file(0, 1), base(2, ".T"), FREE];
    for named in [0, 2, 4, 9] {
        let lost = [&live[..], &[entry(0, 4, named, 0, "A")]].concat();
        mends_by(&lost, &[gone(5)]);
    }
}

#[test]
fn such_entries_go_with_those_that_name_no_heading_by_record_number() {
    let records = [
        entry(0, 9, 2, 0, "A"),
        base(9, ".T"),
        dir(1, 0),
        entry(0, 9, 9, 0, "B"),
        base(2, ".R"),
        entry(0, 2, 9, 0, "C"),
        entry(0, 1, 2, 0, "D"),
        file(0, 0),
        text(7, 0, b"T"),
    ];
    let stores = [0, 1, 3, 5, 6, 7, 8].map(gone);
    mends_by(&records, &stores);
}

#[test]
fn base_entries_are_apart() {
    // 65,535 is no heading, and holds base files
    let records = [dir(3, 0), base(0, ".R"), base(0, ".W"), FREE];
    let other = [&records[..3], &[entry(0, BASE, 0, 999_999, ".R")]].concat();
    mends_by(&other, &[]);
    // a base entry that names no heading goes as before
    let lost = [dir(2, 0), base(0, ".R"), base(0, ".W"), base(3, ".G")];
    mends_by(&lost, &[gone(3)]);
}

#[test]
fn a_heading_is_one_by_byte_0_whatever_its_type() {
    // in a simple file, or in a file of no type: kept, and so not to be mended
    for file_type in [1, 2, 7, 255] {
        let mut odd = counts(directory(), 1, 1);
        odd[1] = file_type;
        let records = [odd, base(0, ".R"), dir(1, 0), entry(0, 0, 2, 0, "A"), FREE];
        is_beyond_mending(&records);
        is_beyond_mending(&after(&records, &[(4, simple(0))]));
    }
    // a heading of which nothing else is as it should be holds an entry too
    let mut odd = [0xFF; 32];
    odd[0] = 1;
    is_beyond_mending(&[odd, base(0, ".R"), dir(1, 0), entry(0, 0, 2, 0, "A")]);
}

#[test]
fn the_directory_is_read_from_bytes_2_and_3_alone() {
    // an entry of which nothing else is as it should be
    let mut odd = [0xFF; 32];
    odd[..6].copy_from_slice(&[2, 0xFF, 9, 0, 0, 0]);
    mends_by(&[dir(1, 0), base(0, ".R"), odd], &[gone(2)]);
    // by the high byte too
    odd[2..4].copy_from_slice(&[0, 1]);
    mends_by(&[dir(1, 0), base(0, ".R"), odd], &[gone(2)]);
    // in a directory that is there it stays, and is not to be mended
    odd[2..4].copy_from_slice(&[0, 0]);
    is_beyond_mending(&[dir(2, 1), base(0, ".R"), odd]);
}

#[test]
fn a_table_with_such_an_entry_is_not_sound() {
    let records = [file(0, 2), base(0, ".R"), entry(0, 5, 0, 0, "A")];
    assert!(!sound(&records.concat()));
    mends_by(&records, &[gone(2), (0, file(0, 1))]);
}

// "mending repeats until nothing changes"

/// A directory that no entry names, with one in it, and in that a sheet.
fn cut_off() -> Vec<[u8; 32]> {
    vec![
        text(4, 0, &TEXT[..24]),
        entry(0, 3, 4, 0, "SHEET"),
        dir(0, 1),
        dir(1, 1),
        file(30, 1),
        entry(0, 2, 3, 0, "D"),
        text(4, 1, &TEXT[24..]),
    ]
}

#[test]
fn a_directory_that_goes_takes_its_tree_round_by_round() {
    // the directory; the entry in it and what that names; the entry in this and the sheet
    mends_by(&cut_off(), &[2, 5, 3, 1, 4, 0, 6].map(gone));
}

#[test]
fn a_lost_base_entry_loses_its_tree() {
    let table = Bench::grown(20, &["CRD .R", "CRD .R:D", "WRS M .R:D:A", "CRD .W"]).table;
    let mut records: Vec<[u8; 32]> = table.chunks(32).map(|r| r.try_into().unwrap()).collect();
    // .R is 0 and 1, D 2 and 3, A 4 to 7, .W 8 and 9
    records[1] = FREE;
    mends_by(&records, &[0, 3, 2, 7, 4, 5, 6].map(gone));
}

#[test]
fn each_step_of_a_round_is_by_record_number() {
    // two trees side by side, the one with its numbers falling
    let records = [
        entry(0, 5, 3, 0, "A"),
        dir(0, 1),
        file(0, 1),
        dir(1, 1),
        entry(0, 3, 7, 0, "A"),
        dir(0, 1),
        entry(0, 1, 2, 0, "A"),
        file(1, 1),
        text(7, 0, b"T"),
        text(9, 0, b"T"),
    ];
    mends_by(&records, &[1, 5, 9, 0, 6, 2, 3, 4, 7, 8].map(gone));
}

#[test]
fn a_directory_that_another_entry_names_stays_with_its_tree() {
    let live = [&cut_off()[..], &[base(3, ".R"), FREE]].concat();
    let counted = after(&live, &[(3, dir(2, 1))]);
    mends_by(&counted, &[gone(2), gone(5), (3, dir(1, 1))]);
}

#[test]
fn a_lost_loop_stays() {
    // named by its own entry, or each by the other's: mending does not go by chains
    mends_by(&[dir(1, 1), entry(0, 0, 0, 0, "ME")], &[]);
    let two = [
        dir(1, 1),
        entry(0, 0, 2, 0, "ON"),
        dir(1, 1),
        entry(0, 2, 0, 0, "BACK"),
    ];
    mends_by(&two, &[]);
    // what hung on one that is cut goes, what hangs on the loop stays
    let hung = [
        dir(2, 1),
        entry(0, 0, 0, 0, "ME"),
        dir(0, 1),
        entry(0, 2, 0, 0, "IN"),
    ];
    mends_by(&hung, &[gone(2), gone(3), (0, dir(1, 1))]);
}

/// So many directories, each in the one before, the first in none: the heading of each, and after it the entry that names the next.
fn chain(directories: u16) -> Vec<[u8; 32]> {
    let mut records = Vec::new();
    for at in 0..directories {
        let last = at + 1 == directories;
        records.push(dir(u16::from(at > 0), u16::from(!last)));
        records.push(match last {
            true => FREE,
            false => entry(0, 2 * at, 2 * at + 2, 0, "A"),
        });
    }
    records
}

#[test]
fn a_chain_goes_in_as_many_rounds_as_it_is_long() {
    let due: Vec<Store> = (0..19).map(gone).collect();
    mends_by(&chain(10), &due);
}

#[test]
fn the_longest_chain() {
    let records = chain(1_024);
    let mut table = records.concat();
    let needed = answer([0, 0, 0, 0, 0, 0, 2_047]);
    assert_eq!(mend(&mut table, 2_047), needed);
    assert_eq!(table, vec![0; 65_536]);
    // the first heading and the entry after it, and so on: cut anywhere, it ends alike
    for stop in [1, 2, 1_000, 2_046] {
        let mut table = records.concat();
        assert_eq!(mend(&mut table, stop).numbers()[0], 22);
        let left = &table[stop as usize * 32..];
        assert_eq!(left, &records.concat()[stop as usize * 32..]);
        assert!(table[..stop as usize * 32].iter().all(|byte| *byte == 0));
        assert_eq!(mend(&mut table, UNCUT).stores, 2_047 - stop);
        assert_eq!(table, vec![0; 65_536]);
    }
}

// "counts last"

#[test]
fn counts_are_corrected_once_and_after_the_last_round() {
    // a tree in three rounds, of which each round takes an entry of the live sheet, and one that is held
    let records = [
        counts(directory(), 1, 9),
        base(0, ".R"),
        file(0, 4),
        entry(0, 0, 2, 0, "A"),
        dir(0, 2),
        entry(0, 4, 2, 0, "A"),
        entry(0, 4, 7, 0, "D"),
        dir(1, 2),
        entry(0, 7, 2, 0, "A"),
        entry(0, 7, 0, 0, "UP"),
        entry(0, 9, 2, 0, "A"),
    ];
    let cleared = [10, 4, 5, 6, 7, 8, 9].map(gone);
    let counted = [(0, dir(1, 1)), (2, file(0, 1))];
    mends_by(&records, &[&cleared[..], &counted].concat());
}

#[test]
fn counts_of_what_goes_are_not_corrected() {
    let mut records = cut_off();
    for number in [2, 3, 4] {
        records[number][12..14].copy_from_slice(&[7, 7]);
    }
    mends_by(&records, &[2, 5, 3, 1, 4, 0, 6].map(gone));
}

// "If the result wouldn't be sound, answer 2 and leave the table as found"

#[test]
fn what_is_left_after_the_last_round_is_judged() {
    // beside a tree that goes: a name twice, a text missing
    let twice = [base(7, ".R"), base(7, ".R"), FREE];
    let beside = |rest: &[[u8; 32]]| [&cut_off()[..], &[dir(1, 0)], rest].concat();
    is_beyond_mending(&beside(&twice));
    is_beyond_mending(&beside(&[base(9, ".R"), file(24, 1)]));
    // a name twice of which one goes in the second round
    let held = [dir(0, 1), entry(0, 0, 3, 0, "D"), base(3, ".R"), dir(2, 1)];
    let in_d = [entry(0, 3, 3, 0, "A"), entry(0, 5, 3, 0, "A")];
    let records = [&held[..], &in_d].concat();
    mends_by(&records, &[5, 0, 1].map(gone));
}

#[test]
fn another_length_of_the_list_gets_26_after_that() {
    let mut table = cut_off().concat();
    for places in [0, 6, 8] {
        let mut index = vec![7; places];
        let refused = answer([26, 0, 0, 0, 0, 0, 0]);
        assert_eq!(mend_with(&mut table, &mut index, UNCUT), refused);
        assert_eq!(
            (table.clone(), index),
            (cut_off().concat(), vec![7; places])
        );
    }
}

// "On the debris of one request one round is enough": `cut` and `told` cut every function everywhere, by both; and of a mend that is cut in
// any of its rounds

#[test]
fn a_mend_cut_in_any_round_and_run_again_ends_alike_in_other_orders_too() {
    let mut dice = Dice(1971);
    for _ in 0..200 {
        let mut records = cut_off();
        records.extend([dir(1, 0), base(7, ".R"), FREE]);
        // the same records in another order
        let mut places: Vec<usize> = (0..10).collect();
        (1..10).for_each(|at| places.swap(at, dice.below(at + 1)));
        let moved = |number: u16| {
            places
                .get(usize::from(number))
                .map_or(number, |at| *at as u16)
        };
        let mut shuffled = vec![FREE; 10];
        for (number, record) in records.iter().enumerate() {
            let fields: &[usize] = [&[][..], &[], &[2, 4], &[2]][usize::from(record[0])];
            let mut record = *record;
            for at in fields {
                let said = u16::from_le_bytes([record[*at], record[at + 1]]);
                record[*at..at + 2].copy_from_slice(&moved(said).to_le_bytes());
            }
            shuffled[places[number]] = record;
        }
        let mut mended = vec![FREE; 10];
        for number in [7, 8] {
            mended[places[number]] = shuffled[places[number]];
        }
        mends(&shuffled, &mended);
    }
}
