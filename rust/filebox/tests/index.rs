//! What a fixture's programmer relies on in the index: what each call leaves in it, what 26 is, and that a `Table` never gets it.

use filebox::{
    index_of, light, look_up, mend, request, Found, Holder, Number, Refused, Sheet, Table, BASE,
    MOST_RECORDS, NO_STOP, PADDING, RECORD_BYTES,
};

/// A table and its index, as a caller of the calls keeps them.
#[derive(Clone, PartialEq, Debug)]
struct Kept {
    table: Vec<u8>,
    index: Vec<u16>,
}

impl Kept {
    fn free(records: usize) -> Kept {
        Kept {
            table: vec![0; records * RECORD_BYTES],
            index: vec![PADDING; records],
        }
    }

    fn ask(&mut self, line: &str, stop: u32) -> Number {
        let line = line.as_bytes();
        request(
            &mut self.table,
            &mut self.index,
            line,
            b"5.0 V",
            &mut [],
            1,
            stop,
        )
        .number
    }

    fn mend(&mut self, stop: u32) -> Number {
        mend(&mut self.table, &mut self.index, stop).number
    }

    fn is_true(&self) -> bool {
        index_of(&self.table).as_ref() == Ok(&self.index)
    }
}

/// Five sheets in two directories, in the order of neither record nor name.
fn filed() -> Kept {
    let mut kept = Kept::free(32);
    for line in [
        "CRD .W",
        "WRS M .W:M",
        "CRD .R",
        "WRS M .R:Z",
        "WRS M .W:B",
        "WRS M .R:A",
        "WRS M .W:ZZ",
    ] {
        assert_eq!(kept.ask(line, NO_STOP), Number::Done, "{line}");
        assert!(kept.is_true(), "{line}");
    }
    kept
}

/// What the plain scan finds: the record that is an entry with this directory, user and name.
fn scanned(table: &[u8], holder: Holder, name: &str) -> Option<u16> {
    let (heading, user) = match holder {
        Holder::Base(user) => (PADDING, user),
        Holder::Directory(heading) => (heading, 0),
    };
    let codes = name.bytes().chain([b' '; 10]).take(10);
    let number = codes.fold(0u64, |number, byte| number << 6 | u64::from(byte - 32));
    let bears = |record: &[u8]| {
        record[0] == 2
            && record[2..4] == heading.to_le_bytes()
            && record[6..9] == user.to_le_bytes()[..3]
            && record[10..18] == number.to_le_bytes()
    };
    let mut records = table.chunks(RECORD_BYTES);
    records.position(bears).map(|at| at as u16)
}

#[test]
fn entries_stand_by_directory_then_user_then_name() {
    // .W is in records 0 and 1, .R in 5 and 6; each sheet's entry is its third record
    let kept = filed();
    let expected = [12, 4, 18, 15, 9, 6, 1];
    assert_eq!(kept.index[..7], expected);
    assert_eq!(kept.index[7..], [PADDING; 25]);
    let mut table = Table::of(kept.table);
    table.ask(0, "CRD .T").unwrap();
    // user 0 before user 1, among the base files
    let index = index_of(table.as_ref()).unwrap();
    assert_eq!(index[5..9], [20, 6, 1, PADDING]);
}

#[test]
fn a_list_that_is_not_the_true_one_is_refused_straight_after_2_and_nothing_changes() {
    let kept = filed();
    let last = kept.index.len() - 1;
    let mut lists = vec![
        kept.index[..last].to_vec(),
        [&kept.index[..], &[PADDING]].concat(),
        Vec::new(),
    ];
    for place in 0..=last {
        let mut other = kept.index.clone();
        other[place] ^= 1;
        lists.push(other);
    }
    let mut swapped = kept.index.clone();
    swapped.swap(0, 1);
    lists.push(swapped);
    for index in lists {
        let table = kept.table.clone();
        let before = Kept { table, index };
        let mut after = before.clone();
        // before 3 and 4, whatever the stop number
        assert_eq!(after.ask("no request", NO_STOP), Number::Index);
        assert_eq!(after.ask("DEL .R:A", 0), Number::Index);
        let (table, index) = (&mut after.table, &mut after.index);
        let asked = request(table, index, b"LST .", b"", &mut [], u32::MAX, 0);
        assert_eq!(asked.numbers(), [26, 0, 0, 0, 0, 0, 0]);
        let mut sheet = [0; 32];
        sheet[0] = b'A';
        let red = light(table, index, &sheet, &[], &mut [], b".R", 1, NO_STOP);
        assert_eq!(red.numbers(), [1, 1, 1, 26, 0]);
        let none = light(table, index, &[], &[], &mut [], b".R", 1, NO_STOP);
        assert_eq!(none.numbers(), [0; 5]);
        assert!(after == before);
    }
    let mut unsound = kept.clone();
    unsound.table[0] = 9;
    unsound.index.clear();
    assert_eq!(unsound.ask("LST .", NO_STOP), Number::TableNotSound);
}

#[test]
fn mending_judges_the_length_alone_and_builds_the_index_afresh() {
    let kept = filed();
    let records = kept.index.len();
    for held in [0, 1, 7, PADDING] {
        let table = kept.table.clone();
        let index = vec![held; records];
        let mut other = Kept { table, index };
        // nothing is to be stored, so stop number 0 is enough
        assert_eq!(other.mend(0), Number::Done);
        assert!(other == kept, "{held}");
    }
    for length in [0, records - 1, records + 1] {
        let table = kept.table.clone();
        let index = vec![PADDING; length];
        let before = Kept { table, index };
        let mut other = before.clone();
        assert_eq!(other.mend(NO_STOP), Number::Index);
        assert!(other == before, "{length}");
        // 2 and 1 come first
        other.table.fill(9);
        assert_eq!(other.mend(NO_STOP), Number::TableNotSound);
        other.table.pop();
        assert_eq!(other.mend(NO_STOP), Number::TableLength);
    }
}

#[test]
fn every_request_keeps_it_and_a_stop_leaves_it_for_the_mend() {
    let before = filed();
    for line in [
        "CRD .R:D",
        "WRS M .R:A",
        "WRS* M .R:A",
        "CPY .R:A .W:A",
        "DUP .R:A .000002:A",
        "DUP .R:A .W:B",
        "CHN .R:A ZZZ",
        "DPR .R:A .2",
        "DEL .R:A .W:M .R:Z",
        "DEL .R:A .W:NONE .R:Z",
        "DST .W:M .R:A .W:B",
        "DST .W:M .R:A .R",
        "RDS .R:NONE",
        "RDS",
    ] {
        for stop in 0.. {
            let mut after = before.clone();
            let number = after.ask(line, stop);
            if number != Number::Stopped {
                assert!(after.is_true(), "{line}");
                break;
            }
            assert_eq!(after.index, before.index, "{line}, {stop}");
            let cut = after.clone();
            while after.mend(0) == Number::Stopped {
                assert!(after == cut, "{line}, {stop}");
                assert_eq!(after.mend(NO_STOP), Number::Done);
            }
            assert!(after.is_true(), "{line}, {stop}");
        }
    }
}

#[test]
fn a_del_stopped_between_two_names_is_sound_and_gets_26_until_it_is_mended() {
    let mut kept = filed();
    // the first name takes its entry, the counts of `.R` and of the sheet, its heading and its text
    assert_eq!(kept.ask("DEL .R:A .W:M", 5), Number::Stopped);
    let index = index_of(&kept.table).expect("it is sound");
    assert_ne!(kept.index, index);
    assert_eq!(kept.ask("LST .", NO_STOP), Number::Index);
    assert_eq!(kept.mend(NO_STOP), Number::Done);
    assert_eq!(kept.index, index);
    assert_eq!(kept.ask("DEL .W:M", NO_STOP), Number::Done);
}

/// A full directory among the base files of so many users that every other record is an entry.
fn crowded() -> Table {
    let mut table = Table::free(MOST_RECORDS);
    table.ask(1, "CRD .T").unwrap();
    for number in 0..112 {
        let name = (number * 37 % 112) + 100;
        table.ask(1, &format!("DUP .T .T:N{name}")).unwrap();
    }
    let names = [".R", ".W", ".G", ".ABC"];
    for (at, entry) in (114..MOST_RECORDS).enumerate() {
        let (user, name) = (2 + at as u32 / 4, names[at % 4]);
        let filed = table.ask(user, &format!("DUP .000001:N100 {name}"));
        assert!(filed.is_ok(), "record {entry}");
    }
    table
}

#[test]
fn looking_up_finds_what_the_plain_scan_finds_in_at_most_11_comparisons_of_2047() {
    let mut table = crowded();
    let bytes = table.as_ref().to_vec();
    let entries = bytes.chunks(RECORD_BYTES).filter(|record| record[0] == 2);
    assert_eq!(entries.count(), 2_047);
    let inner = (90..220).map(|number| (Holder::Directory(0), format!("N{number}")));
    let users = (0..600).flat_map(|user| {
        let names = [".R", ".W", ".G", ".T", ".ABC", ".ZZZ"];
        names.map(|name| (Holder::Base(user), name.to_string()))
    });
    let elsewhere = [
        (Holder::Directory(1), "N100".to_string()),
        (Holder::Directory(2_047), "N100".to_string()),
    ];
    let (mut found, mut most) = (0, 0);
    for (holder, name) in inner.chain(users).chain(elsewhere) {
        let seen = table.look_up(holder, &name).unwrap();
        assert_eq!(seen.entry, scanned(&bytes, holder, &name), "{name}");
        found += usize::from(seen.entry.is_some());
        most = most.max(seen.count);
    }
    assert_eq!((found, most), (2_047, 11));
}

/// "that of a halving search that takes the lower middle and stops at equal".
#[test]
fn the_count_is_that_of_the_lower_middle() {
    let kept = filed();
    // of seven the middle one is A of `.R`, of the three on either side M and `.R`
    let order = [
        (0, "B"),
        (0, "M"),
        (0, "ZZ"),
        (5, "A"),
        (5, "Z"),
        (BASE, ".R"),
        (BASE, ".W"),
    ];
    let at = |heading, name: &str| look_up(&kept.table, &kept.index, heading, 1, name.as_bytes());
    let counts = order.map(|(heading, name)| at(heading, name).count);
    assert_eq!(counts, [3, 2, 3, 1, 3, 2, 3]);
    // of six the lower middle is the third, which is A again with ZZ gone; of the two before it that is B
    let mut six = kept.clone();
    assert_eq!(six.ask("DEL .W:ZZ", NO_STOP), Number::Done);
    let counts = order
        .map(|(heading, name)| look_up(&six.table, &six.index, heading, 1, name.as_bytes()).count);
    assert_eq!(counts, [2, 3, 3, 1, 3, 2, 3]);
    assert_eq!(at(BASE, ".R").entry, Some(6));
}

#[test]
fn with_a_directory_the_user_is_not_looked_at() {
    let kept = filed();
    for user in [0, 1, 999_999, u32::MAX] {
        let found = look_up(&kept.table, &kept.index, 0, user, b"M");
        assert_eq!(found.entry, Some(4));
        let base = look_up(&kept.table, &kept.index, BASE, user, b".R");
        assert_eq!(base.entry, (user == 1).then_some(6));
    }
}

#[test]
fn what_is_no_link_name_is_borne_by_no_entry() {
    let mut table = Table::of(filed().table);
    for name in ["", " ", "M ", "A:B", "@", "m", "LONGNAME101", "Ä"] {
        let found = table.look_up(Holder::Directory(0), name).unwrap();
        assert_eq!(found.numbers(), [0, 65_535, 0], "{name}");
    }
    let far = look_up(table.as_ref(), &[PADDING; 32], u32::MAX, u32::MAX, b"M");
    assert_eq!(far.numbers(), [0, 65_535, 0]);
}

/// Numbers past the table, twice the same, nothing but such: it returns, and looks at no more than the list has halves.
#[test]
fn looking_up_answers_for_any_list_and_any_table() {
    let kept = filed();
    for list in [&[40_000; 32][..], &[4; 32], &[0, 1, 2], &[65_534; 3_000]] {
        let found = look_up(&kept.table, list, 0, 0, b"M");
        let halves = usize::BITS - list.len().leading_zeros();
        assert!(found.count <= halves && found.count > 0, "{found:?}");
    }
    let found = look_up(&kept.table, &[4; 32], 0, 0, b"M");
    let expected = Found {
        entry: Some(4),
        count: 1,
    };
    assert_eq!(found, expected);
    // of a record that is cut short the bytes that are not there count as zeros: the last of the name is byte 17
    for (bytes, numbers) in [(18, [1, 4, 1]), (17, [0, 65_535, 1]), (0, [0, 65_535, 1])] {
        let short = &kept.table[..4 * RECORD_BYTES + bytes];
        assert_eq!(look_up(short, &[4], 0, 0, b"M").numbers(), numbers);
    }
}

#[test]
fn a_table_of_bytes_never_gets_26() -> Result<(), Refused> {
    let bytes = filed().table;
    let mut loaded = Table::of(bytes.clone());
    loaded.ask(1, "DEL .R:A")?;
    let mut lent = bytes.clone();
    Table::of(&mut lent[..]).ask(1, "DEL .R:A")?;
    assert_eq!(loaded.as_ref(), lent);
    // other bytes in its place, and a job first of all
    loaded.as_mut().copy_from_slice(&bytes);
    let sheet = Sheet {
        name: "A",
        text: b"4.9 V",
    };
    assert!(loaded.light(1, ".R", &[sheet]).is_ok());
    assert_eq!(loaded.look_up(Holder::Directory(5), "A")?.entry, Some(15));
    // stopped between two names, it is sound, and asked at once
    let stopped = loaded.stopped(1, "DEL .R:A .W:M", b"", &mut [], 5);
    assert_eq!(stopped.number, Number::Stopped);
    assert_eq!(loaded.look_up(Holder::Directory(5), "A")?.entry, None);
    loaded.ask(1, "DEL .W:M")?;
    // there and back
    loaded.from_six()?;
    assert_eq!(
        loaded.look_up(Holder::Base(1), ".R").unwrap_err(),
        loaded.ask(1, "LST .").unwrap_err()
    );
    loaded.to_six()?;
    assert!(loaded.look_up(Holder::Base(1), ".R")?.entry.is_some());
    loaded.ask(1, "DEL .W:B")?;
    Ok(())
}

#[test]
fn a_table_that_no_request_takes_has_nothing_to_look_up() {
    let mut cut = Table::free(8);
    let stopped = cut.stopped(1, "CRD .R", b"", &mut [], 2);
    assert_eq!(stopped.number, Number::Stopped);
    let base = Holder::Base(1);
    let refused = cut.look_up(base, ".R").unwrap_err();
    assert_eq!(refused.to_string(), "2: table not sound");
    assert_eq!(cut.mend().unwrap().stores, 1);
    assert_eq!(cut.look_up(base, ".R").unwrap().entry, Some(1));
    for (mut table, number) in [
        (Table::of(vec![0; 33]), Number::TableLength),
        (Table::free(MOST_RECORDS + 1), Number::TableLength),
        (Table::of(vec![9; 32]), Number::TableNotSound),
    ] {
        for refused in [
            table.ask(1, "LST .").unwrap_err(),
            table.mend().unwrap_err(),
        ] {
            assert_eq!(refused.answer().number, number);
        }
    }
}

#[test]
fn the_c_header_has_the_same_three_numbers() {
    let header = include_str!("../../../include/filebox.h");
    let (_, rest) = header.split_once("struct filebox_found {").expect("it");
    let (fields, _) = rest.split_once("};").expect("its end");
    let names: Vec<&str> = fields
        .lines()
        .filter_map(|line| line.trim().strip_prefix("uint32_t "))
        .filter_map(|line| line.split(';').next())
        .collect();
    assert_eq!(names, ["found", "entry", "count"]);
}
