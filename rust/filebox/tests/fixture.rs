//! What a fixture's programmer relies on: the edges of the crate, not of document 01.

use filebox::{
    from_six, look_up, mend, request, to_six, Number, Refused, Table, BASE, LONGEST_TEXT,
    MOST_RECORDS, NO_STOP, PADDING, RECORD_BYTES,
};

#[test]
fn empty_slices_are_fine() {
    let answer = request(&mut [], &mut [], b"", b"", &mut [], 1, NO_STOP);
    assert_eq!(answer.number, Number::NoSuchFunction);
    let answer = request(&mut [], &mut [], b"LST .", b"", &mut [], 1, NO_STOP);
    assert_eq!(
        (answer.number, answer.names, answer.bytes),
        (Number::Done, 1, 0)
    );
    assert_eq!(mend(&mut [], &mut [], 0).number, Number::Done);
    assert_eq!(look_up(&[], &[], BASE, 1, b"").numbers(), [0, 65_535, 0]);
    assert_eq!(look_up(&[], &[], BASE, 1, b".R").numbers(), [0, 65_535, 0]);
}

#[test]
fn a_table_too_long_is_refused_and_kept() {
    let mut table = Table::free(MOST_RECORDS + 1);
    let before = table.clone();
    let refused = table.ask(1, "CRD .R").unwrap_err();
    assert_eq!(refused.answer().number, Number::TableLength);
    assert_eq!(
        table.mend().unwrap_err().answer().number,
        Number::TableLength
    );
    assert_eq!(table, before);
}

#[test]
fn a_lent_table_is_converted_there_and_back() -> Result<(), Refused> {
    let mut memory = [0; 16 * RECORD_BYTES];
    let mut table = Table::of(&mut memory[..]);
    table.ask(1, "CRD .R")?;
    table.file(1, "M", ".R:LONGNAME10", b"5.0 V")?;
    let six = table.as_ref().to_vec();
    table.from_six()?;
    let refused = table.ask(1, "LST .").unwrap_err();
    assert_eq!(refused.answer().number, Number::TableNotSound);
    assert_eq!(table.mend().unwrap_err().to_string(), "2: table not sound");
    let twice = table.from_six().unwrap_err();
    assert_eq!(twice.answer().number, Number::TableNotSound);
    table.to_six()?;
    assert_eq!(table.as_ref(), six);
    assert_eq!(table.sheet(1, ".R:LONGNAME10")?, b"5.0 V");
    Ok(())
}

#[test]
fn no_table_is_converted_and_it_stays() {
    for bytes in [1, 31, 33, 65_537, 65_568] {
        let mut table = vec![7; bytes];
        assert_eq!(to_six(&mut table), Number::TableLength);
        assert_eq!(from_six(&mut table), Number::TableLength);
        assert_eq!(table, vec![7; bytes]);
    }
    let mut table = vec![7; 64];
    assert_eq!(to_six(&mut table), Number::TableNotSound);
    assert_eq!(from_six(&mut table), Number::TableNotSound);
    assert_eq!(table, vec![7; 64]);
    assert_eq!(to_six(&mut []), Number::Done);
    assert_eq!(from_six(&mut []), Number::Done);
}

#[test]
fn the_longest_sheet_comes_back() -> Result<(), Refused> {
    let text: Vec<u8> = (0..LONGEST_TEXT).map(|at| (at % 251) as u8).collect();
    let mut table = Table::free(MOST_RECORDS);
    table.ask(999_999, "CRD .W")?;
    let filed = table.file(999_999, "L", "KEYS", &text)?;
    assert_eq!(filed.stores, 1_004);
    assert_eq!(table.sheet(999_999, "KEYS")?, text);
    let refused = table.sheet(1, "KEYS").unwrap_err();
    assert_eq!(refused.answer().number, Number::NameNotThere);
    Ok(())
}

#[test]
fn the_longest_listing_comes_back() -> Result<(), Refused> {
    let mut table = Table::free(200);
    table.ask(1, "CRD .R")?;
    for number in 0..112 {
        table.ask(1, &format!("DUP .R .R:LONGNAM{number:03}"))?;
    }
    let listing = table.list(1, ".R")?;
    assert_eq!(listing.len(), 112 * 21);
    assert!(listing.ends_with(b"DM.U0    LONGNAM111\r\n"));
    let refused = table.ask(1, "DUP .R .R:ONE").unwrap_err();
    assert_eq!(refused.answer().number, Number::ListFull);
    Ok(())
}

#[test]
fn a_refusal_says_which_link() -> Result<(), Refused> {
    let mut table = Table::free(32);
    let names = ["LINE1", "BOARD7", "TEST", "1971", "APRIL", "WEEK3", "DAY5"];
    table.ask(1, "CRD .W")?;
    for length in 1..=names.len() {
        table.ask(1, &format!("CRD {}", names[..length].join(":")))?;
    }
    // nine names, the supplied .W and LIMITS among them
    let chain = format!("{}:LIMITS", names.join(":"));
    table.file(1, "M", &chain, b"5.0 V")?;
    for (wrong, name) in (2..).zip(names) {
        let chain = chain.replace(name, "NONE");
        let refused = table.sheet(1, &chain).unwrap_err();
        assert_eq!((refused.answer().place, refused.answer().link), (1, wrong));
        let said = format!("11: name not there (argument 1, link {wrong})");
        assert_eq!(refused.to_string(), said);
    }
    for (line, said) in [
        ("CPY LINE1 .R:@", "7: malformed name or chain (argument 2, link 2)"),
        ("CRD -", "7: malformed name or chain (argument 1)"),
        ("CRD .1:A", "8: illegal base name (also CHN's link for a base file, a user's number out of place) (argument 1, link 1)"),
        ("DPR LINE1 M", "9: declaration malformed or unfit (argument 2)"),
        ("DEL LINE1:BOARD7", "18: file losing its last entry is a directory with entries (argument 1, link 3)"),
        ("RDS", "6: wrong count of arguments"),
    ] {
        assert_eq!(table.ask(1, line).unwrap_err().to_string(), said);
    }
    Ok(())
}

#[test]
fn what_was_displaced_is_said() -> Result<(), Refused> {
    let mut table = Table::free(16);
    table.ask(1, "CRD .W")?;
    assert!(!table.file(1, "M", "A", b"OLD")?.displaced);
    assert!(table.file(1, "M", "A", b"NEW")?.displaced);
    assert_eq!(table.sheet(1, "A")?, b"NEW");
    Ok(())
}

#[test]
fn a_rewrite_is_seen_by_every_link_and_makes_no_file() -> Result<(), Refused> {
    let mut table = Table::free(MOST_RECORDS);
    let new: Vec<u8> = (0..LONGEST_TEXT).map(|at| (at % 251) as u8).collect();
    table.ask(1, "CRD .W")?;
    table.file(1, "M.P4", "LIMITS", &[b'L'; LONGEST_TEXT])?;
    table.ask(1, "DUP LIMITS BOARD7")?;
    table.ask(1, "CPY LIMITS OLD")?;
    let rewritten = table.rewrite(1, "BOARD7", &new)?;
    assert_eq!(rewritten.numbers(), [0, 0, 0, 1, 0, 0, 2_002]);
    assert_eq!(table.sheet(1, "LIMITS")?, new);
    assert_eq!(table.sheet(1, "OLD")?, [b'L'; LONGEST_TEXT]);
    let listed = b"FM.P4    BOARD7\r\nFM.P4    LIMITS\r\nFM.P0    OLD\r\n";
    assert_eq!(table.list(1, ".W")?, listed);
    table.rewrite(1, "LIMITS", b"")?;
    assert_eq!(table.sheet(1, "BOARD7")?, b"");
    table.file(1, "L", "AUDIT", b"5.0 V")?;
    let before = table.clone();
    let wrong = [
        ("KEYS", "11: name not there (argument 2, link 2)"),
        ("AUDIT", "24: WRS*: lifetime L (argument 2, link 2)"),
        (
            ".W",
            "15: RDS, CPY, WRS*: not simple; LST: no directory (argument 2, link 1)",
        ),
        ("A B", "7: malformed name or chain (argument 2)"),
        (".000002:A", "8: illegal base name (also CHN's link for a base file, a user's number out of place) (argument 2, link 1)"),
    ];
    for (name, said) in wrong {
        let refused = table.rewrite(1, name, b"NEW").unwrap_err();
        assert_eq!(refused.to_string(), said);
    }
    let refused = table.rewrite(1, "LIMITS", &[0; LONGEST_TEXT + 1]);
    assert_eq!(refused.unwrap_err().answer().number, Number::TextAbove);
    assert_eq!(table, before);
    Ok(())
}

#[test]
fn a_reply_buffer_too_short_is_left_alone() -> Result<(), Refused> {
    let mut table = Table::free(16);
    table.ask(1, "CRD .W")?;
    table.file(1, "M", "A", b"SHEET")?;
    let mut reply = [7; 4];
    let answer = table.request(1, "RDS A", b"", &mut reply);
    assert_eq!(
        (answer.number, answer.bytes, reply),
        (Number::ReplyTooShort, 0, [7; 4])
    );
    Ok(())
}

#[test]
fn an_argument_with_a_blank_is_refused_before_it_is_two_words() -> Result<(), Refused> {
    let mut table = Table::free(16);
    table.ask(1, "CRD .W")?;
    table.file(1, "M", "A", b"SHEET")?;
    let before = table.clone();
    let seven = |refused: Refused| refused.answer().numbers();
    // the first would be granted as a line, its name declaration and name; so would the declaration below
    let filed = [("", "M A"), ("M", "A B"), ("M", " "), ("M", "A : B")];
    for (declaration, name) in filed {
        let refused = table.file(1, declaration, name, b"OTHER").unwrap_err();
        assert_eq!(
            seven(refused),
            [7, 2, 0, 0, 0, 0, 0],
            "{declaration}, {name}"
        );
    }
    let refused = table.file(1, "M A", "", b"OTHER").unwrap_err();
    assert_eq!(seven(refused), [9, 1, 0, 0, 0, 0, 0]);
    // "RDS A " and "LST . " are granted as lines
    for name in ["A ", " A", ". ", "A B", " "] {
        let sheet = table.sheet(1, name).unwrap_err();
        let list = table.list(1, name).unwrap_err();
        let tree = table.tree(1, name, 2, &mut [0; 100]).unwrap_err();
        assert_eq!(seven(tree), [7, 1, 0, 0, 0, 0, 0], "{name:?}");
        assert_eq!(seven(sheet), [7, 1, 0, 0, 0, 0, 0], "{name:?}");
        assert_eq!(seven(list), [7, 1, 0, 0, 0, 0, 0], "{name:?}");
    }
    assert_eq!(table, before);
    Ok(())
}

const HEADER: &str = include_str!("../../../include/filebox.h");

/// What the C header says of a reply number: `NAME = 11, /* name not there */`.
fn said(code: u32) -> &'static str {
    let mut lines = HEADER.lines().filter_map(|line| line.split_once(" = "));
    let is_it =
        |value: &str| value.split(|c: char| !c.is_ascii_digit()).next() == Some(&code.to_string());
    let (_, value) = lines.find(|(_, value)| is_it(value)).expect("a line");
    let (_, comment) = value.split_once("/* ").expect("a comment");
    comment.strip_suffix(" */").expect("its end")
}

/// What the C header defines a name as.
fn defined(name: &str) -> u32 {
    let mut words = HEADER
        .lines()
        .map(|line| line.split_whitespace().collect::<Vec<_>>());
    let line = words.find(|words| words.len() > 2 && words[..2] == ["#define", name]);
    let value = line.expect("a definition")[2];
    let digits = value.strip_suffix('u').expect("an unsigned number");
    digits.parse().expect("a number")
}

#[test]
fn the_c_header_says_the_same_numbers() {
    assert_eq!(defined("FILEBOX_NO_STOP"), NO_STOP);
    assert_eq!(defined("FILEBOX_PADDING"), u32::from(PADDING));
    assert_eq!(defined("FILEBOX_BASE"), BASE);
    let sizes = [
        ("FILEBOX_RECORD", RECORD_BYTES),
        ("FILEBOX_MOST_RECORDS", MOST_RECORDS),
        ("FILEBOX_MOST_TEXT", LONGEST_TEXT),
    ];
    for (name, size) in sizes {
        assert_eq!(defined(name) as usize, size, "{name}");
    }
    for number in Number::ALL {
        assert_eq!(said(number.code()), number.to_string());
    }
}
