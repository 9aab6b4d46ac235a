//! What a fixture's programmer relies on in the lamp: what the crate puts into a job sheet, and what it says.

use filebox::{
    index_of, light, mend, request, Light, NoRecord, NotGreen, Number, Phase, Red, Sheet, Table,
    Unfit, LONGEST_TEXT, MOST_RECORDS, NO_STOP, PADDING,
};

/// A table of so many records with the directory `.R` of user 1.
fn table(records: usize) -> Table {
    let mut table = Table::free(records);
    table.ask(1, "CRD .R").expect("there is room");
    table
}

fn sheet<'a>(name: &'a str, text: &'a [u8]) -> Sheet<'a> {
    Sheet { name, text }
}

/// The index of 16 records that has these entries.
fn padded(entries: &[u16]) -> Vec<u16> {
    let mut index = entries.to_vec();
    index.resize(16, PADDING);
    index
}

#[test]
fn green_says_that_every_sheet_is_filed() -> Result<(), NotGreen> {
    let mut table = table(64);
    let job = [
        sheet("LIMITS", b"5.0 V"),
        sheet("EMPTY", b""),
        sheet("LONGNAME10", &[7; 49]),
        sheet("-", b"DASH"),
        sheet(".1", b"POINT"),
    ];
    let green = table.light(1, ".R", &job)?;
    assert_eq!(green.numbers(), [0, 0, 0, 0, 5 + 4 + 7 + 5 + 5]);
    for Sheet { name, text } in job {
        assert_eq!(table.sheet(1, &format!(".R:{name}")).unwrap(), text);
    }
    Ok(())
}

#[test]
fn a_job_without_sheets_is_green_on_any_table() {
    for mut table in [table(2), Table::of(vec![9; 33]), Table::free(0)] {
        let before = table.clone();
        let green = table.light(1_000_000, "NO CHAIN", &[]).unwrap();
        assert_eq!(green.numbers(), [0; 5]);
        assert_eq!(table, before);
    }
}

/// A text that is longer than the box files fits a record, so the box is asked, and refuses it.
#[test]
fn the_longest_sheet_is_green_and_one_byte_more_is_red() {
    let text: Vec<u8> = (0..=LONGEST_TEXT).map(|at| (at % 251) as u8).collect();
    let mut table = table(MOST_RECORDS);
    let green = table.light(1, ".R", &[sheet("A", &text[..LONGEST_TEXT])]);
    assert_eq!(green.unwrap().stores, 1_004);
    for long in [&text[..], &[0; 65_535]] {
        let red = table.light(1, ".R", &[sheet("A", long)]).unwrap_err();
        let said = "red: sheet 1 was not filed: 10 WRS text above 24,000 bytes";
        assert_eq!(red.to_string(), said);
    }
    assert_eq!(table.sheet(1, ".R:A").unwrap(), &text[..LONGEST_TEXT]);
}

/// The lamp would file `LONGNAME10`, and an empty text, and `A`: nothing is cut to fit.
#[test]
fn what_no_record_holds_is_said_before_the_lamp_is_asked() {
    let mut table = table(64);
    let before = table.clone();
    let long = vec![b'X'; 65_536];
    let cases = [
        (sheet("LONGNAME101", b""), NoRecord::LongName(11)),
        (sheet("ÄÖÜÄÖÜ", b""), NoRecord::LongName(12)),
        (sheet("A", &long), NoRecord::LongText(65_536)),
        (sheet("A\0", b""), NoRecord::ZeroInName),
        (sheet("A\0B", b""), NoRecord::ZeroInName),
        (sheet("\0", b""), NoRecord::ZeroInName),
    ];
    for (unfit, why) in cases {
        let unasked = table.light(1, ".R", &[sheet("FIRST", b"1"), unfit]);
        assert_eq!(unasked, Err(NotGreen::Unasked { sheet: 2, why }));
        assert_eq!(table, before, "{why}");
    }
    let shown = |name, text| {
        let unasked = table.clone().light(1, ".R", &[sheet(name, text)]);
        unasked.unwrap_err().to_string()
    };
    assert_eq!(
        shown("LONGNAME101", b""),
        "not asked: sheet 1: a name of 11 bytes, above 10"
    );
    assert_eq!(
        shown("A", &long),
        "not asked: sheet 1: a text of 65536 bytes, above 65,535"
    );
    assert_eq!(
        shown("A\0", b""),
        "not asked: sheet 1: a zero byte in the name"
    );
}

#[test]
fn what_the_lamp_refuses_is_said() {
    let mut table = table(64);
    let before = table.clone();
    for name in ["", "A B", "A:B", "@", "low", "Ä"] {
        let job = [sheet("A", b"1"), sheet("A", b"2"), sheet(name, b"")];
        let why = Unfit::Malformed;
        let refused = table.light(1, ".R", &job);
        assert_eq!(refused, Err(NotGreen::Refused { sheet: 3, why }), "{name}");
        assert_eq!(
            refused.unwrap_err().to_string(),
            "refused: sheet 3: sheet malformed (cut short, no legal link name, rest not zero)"
        );
    }
    let twins = [sheet("A", b"1"), sheet("B", b"2"), sheet("A", b"3")];
    let refused = table.light(1, ".R", &twins).unwrap_err();
    assert_eq!(refused.to_string(), "refused: sheet 3: name twice");
    assert_eq!(table, before);
}

/// The two refusals that [`Table::light`] cannot get, by the call as it is.
#[test]
fn short_texts_and_a_short_buffer_are_said() {
    let mut table = table(64).into_bytes();
    let mut index = index_of(&table).unwrap();
    let mut record = [0; 32];
    record[0] = b'A';
    record[10] = 5;
    let mut asked = |texts: &[u8], back: &mut [u8]| {
        let (table, index) = (&mut table, &mut index);
        let answer = light(table, index, &record, texts, back, b".R", 1, NO_STOP);
        answer.green().map_err(|not| not.to_string())
    };
    assert_eq!(
        asked(b"FOUR", &mut [0; 5]).unwrap_err(),
        "refused: sheet 1: texts shorter than the lengths' sum"
    );
    assert_eq!(
        asked(b"FIVES", &mut [0; 4]).unwrap_err(),
        "refused: sheet 1: read-back buffer shorter than the longest text"
    );
    let mut back = [7; 6];
    assert_eq!(asked(b"FIVES", &mut back).unwrap().stores, 5);
    assert_eq!(&back, b"FIVES\x07");
}

#[test]
fn what_failed_is_said_and_what_was_filed_stays() {
    // room for one sheet of three records, not for two
    let mut table = table(6);
    let job = [sheet("A", b"1"), sheet("B", b"2")];
    let red = table.light(1, ".R", &job).unwrap_err();
    let expected = Red {
        sheet: 2,
        phase: Phase::Filing,
        number: Number::FewerFreeRecords,
        stores: 5,
    };
    assert_eq!(red, NotGreen::Red(expected));
    let said = "red: sheet 2 was not filed: 19 fewer free records than the request needs";
    assert_eq!(red.to_string(), said);
    assert_eq!(table.sheet(1, ".R:A").unwrap(), b"1");
}

/// The chain runs through the entry that the sheet displaces.
#[test]
fn a_sheet_that_cannot_be_read_back_is_said() {
    let mut table = table(16);
    table.ask(1, "DUP .R .R:A").unwrap();
    let red = table.light(1, ".R:A", &[sheet("A", b"1")]).unwrap_err();
    let said = "red: sheet 1 was not read back: 12 name before the last is no directory";
    assert_eq!(red.to_string(), said);
    assert_eq!(table.sheet(1, ".R:A").unwrap(), b"1");
}

#[test]
fn a_text_that_came_back_as_another_would_be_said() {
    let light = Light {
        light: 1,
        sheet: 7,
        phase: 2,
        number: 0,
        stores: 9,
    };
    let said = "red: sheet 7 was read back as another text";
    assert_eq!(light.green().unwrap_err().to_string(), said);
}

#[test]
fn a_job_that_was_cut_is_mended_to_the_first_sheets() {
    let table = table(16).into_bytes();
    let index = index_of(&table).unwrap();
    let record = |name: u8| {
        let mut record = [0; 32];
        (record[0], record[10]) = (name, 2);
        record
    };
    let records = [record(b'A'), record(b'B')].concat();
    // each sheet: heading, text, entry, and the counts of `.R` and of the sheet
    for stop in 0..10 {
        let (mut cut, mut held) = (table.clone(), index.clone());
        let back = &mut [0; 2];
        let red = light(&mut cut, &mut held, &records, b"AABB", back, b".R", 1, stop);
        assert_eq!(red.numbers(), [1, 1 + stop / 5, 1, 22, stop]);
        // as after the sheet before: `.R` is in record 1, and the first sheet's entry in 4
        let left: &[u16] = if stop < 5 { &[1] } else { &[4, 1] };
        assert_eq!(held, padded(left), "{stop}");
        assert_eq!(mend(&mut cut, &mut held, NO_STOP).number, Number::Done);
        assert_eq!(held, index_of(&cut).unwrap(), "{stop}");
        let listed = Table::of(cut).list(1, ".R").unwrap();
        let filed: &[u8] = match stop {
            0..=2 => b"",
            3..=7 => b"FM.U0    A\r\n",
            _ => b"FM.U0    A\r\nFM.U0    B\r\n",
        };
        assert_eq!(listed, filed, "{stop}");
    }
}

#[test]
fn empty_slices_are_fine() {
    let green = light(&mut [], &mut [], &[], &[], &mut [], &[], u32::MAX, 0);
    assert_eq!(green.numbers(), [0; 5]);
    let mut record = [0; 32];
    record[0] = b'A';
    let red = light(&mut [], &mut [], &record, &[], &mut [], &[], 1, 0);
    assert_eq!(red.numbers(), [1, 1, 1, 6, 0]);
    let asked = request(&mut [], &mut [], b"WRS M :A", b"", &mut [], 1, 0);
    assert_eq!(asked.number.code(), 6);
}

#[test]
fn the_c_header_says_the_same() {
    let header = include_str!("../../../include/filebox.h");
    let says = |name: &str, value: u32| {
        let mut lines = header.lines().map(str::trim_start);
        let line = format!("{name} = {value}");
        let there = lines.any(|said| {
            said.strip_prefix(&line)
                .is_some_and(|rest| !rest.starts_with(char::is_numeric))
        });
        assert!(there, "{line}");
    };
    for (light, name) in (0..).zip(["GREEN", "RED", "REFUSED"]) {
        says(&format!("FILEBOX_{name}"), light);
    }
    says("FILEBOX_FILING", 1);
    says("FILEBOX_READING", 2);
    says("FILEBOX_SHEET_MALFORMED", Unfit::Malformed as u32);
    says("FILEBOX_SHEET_TWICE", Unfit::NameTwice as u32);
    says("FILEBOX_TEXTS_SHORT", Unfit::TextsShort as u32);
    says("FILEBOX_BACK_SHORT", Unfit::BufferShort as u32);
}
