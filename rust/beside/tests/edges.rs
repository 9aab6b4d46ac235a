//! "At the edges": every case, a test each. Those with `p_` are of the proved set.

mod common;
use common::*;

use beside::{read, words, Declared, DeclaredLifetime, Level, Place, Refusal, Type};

fn zeros(table: &[u8]) -> bool {
    table.iter().all(|byte| *byte == 0)
}

/// The code of the entry of this name.
fn code_of(table: &[u8], name: &str) -> u8 {
    let bears = |r: &&[u8]| r[0] == 2 && name_of(r) == name;
    let found: Vec<&[u8]> = table.chunks(32).filter(bears).collect();
    assert_eq!(found.len(), 1, "{name}");
    found[0][1]
}

#[test]
fn p_code_1_joined_with_4_is_5() {
    let mut bench = Bench::grown(16, &["CRD .R", "WRS M.1 .R:A"]);
    bench.grant("DUP .R:A .R:B .4", b"");
    assert_eq!(code_of(&bench.table, "A"), 1);
    assert_eq!(code_of(&bench.table, "B"), 5);
}

#[test]
fn p_code_2_joined_with_6_is_6() {
    let mut bench = Bench::grown(16, &["CRD .R", "WRS M.2 .R:A"]);
    bench.grant("DUP .R:A .R:B .6", b"");
    assert_eq!(code_of(&bench.table, "B"), 6);
}

#[test]
fn p_text_of_0_24_and_25_bytes_takes_0_1_and_2_records() {
    for (length, records) in [(0, 0), (1, 1), (23, 1), (24, 1), (25, 2), (48, 2), (49, 3)] {
        let mut bench = Bench::grown(16, &["CRD .R"]);
        let text = vec![b'T'; length];
        let seen = bench.grant("WRS M .R:A", &text);
        // Heading, text and entry; then the counts of `.R` and of the new file.
        let stores = records as u32 + 4;
        assert_eq!(seen.answer, answer([0, 0, 0, 1, 0, 0, stores]));
        assert_eq!(count(&bench.table, 3), records, "{length} bytes");
        assert_eq!(bench.reply("RDS .R:A"), text);
    }
}

#[test]
fn p_text_of_24000_bytes_takes_1000_records_and_24001_gets_10() {
    let mut bench = Bench::grown(1_024, &["CRD .R"]);
    let text: Vec<u8> = (0..24_001u32).map(|at| (at % 251) as u8).collect();
    bench.refuse("WRS M .R:A", &text, 10, 0);
    let seen = bench.grant("WRS M .R:A", &text[..24_000]);
    assert_eq!(seen.answer, answer([0, 0, 0, 1, 0, 0, 1_004]));
    assert_eq!(count(&bench.table, 3), 1_000);
    let headed = named(heading(1, 0, 0, 1, 24_000), 1);
    assert_eq!(record(&bench.table, 2), headed);
    assert_eq!(bench.reply("RDS .R:A"), &text[..24_000]);
}

#[test]
fn p_an_empty_name_in_a_chain_gets_7() {
    let bench = Bench::grown(16, &["CRD .R"]);
    for line in ["CRD .R::A", "CRD .R:", "CRD :A", "CRD :", "CRD .R: :A"] {
        let expected = if line.starts_with("CRD :") {
            (5, 0)
        } else {
            (7, 1)
        };
        bench.refuse(line, b"", expected.0, expected.1);
    }
    bench.refuse("RDS .R::A", b"", 7, 1);
}

#[test]
fn p_a_name_of_11_characters_gets_7_and_10_is_legal() {
    let mut bench = Bench::grown(16, &["CRD .R"]);
    bench.refuse("CRD .R:ABCDEFGHIJK", b"", 7, 1);
    bench.refuse("CRD .ABCDEFGHIJ", b"", 7, 1);
    bench.grant("CRD .R:ABCDEFGHIJ", b"");
    bench.grant("CRD .ABCDEFGHI", b"");
}

#[test]
fn p_the_base_name_point_1_gets_8() {
    let bench = Bench::new(16);
    bench.refuse("CRD .1", b"", 8, 1);
    bench.refuse("RDS .1:A", b"", 8, 1);
}

#[test]
fn p_three_words_are_declarations_and_two_are_not() {
    let read = |word: &str| Declared::read(&words(word.as_bytes())[0]);
    let f0 = Declared {
        file_type: Some(Type::Simple),
        digit: Some(0),
        ..Declared::default()
    };
    let dmp1 = Declared {
        file_type: Some(Type::Directory),
        lifetime: Some(DeclaredLifetime::M),
        level: Some(Level::P),
        digit: Some(1),
    };
    assert_eq!(read("F.0"), Some(f0));
    assert_eq!(read("DM.P1"), Some(dmp1));
    assert_eq!(read("."), Some(Declared::default()));
    assert_eq!(read("MF"), None);
    assert_eq!(read("1"), None);
}

#[test]
fn p_crd_r_stores_these_two_records() {
    let mut bench = Bench::new(2);
    let seen = bench.grant("CRD .R", b"");
    // Heading, entry, and the heading again: "after `CRD .R` record 0 has 1 in byte 12".
    assert_eq!(seen.answer, answer([0, 0, 0, 1, 0, 0, 3]));
    let mut expected = [0; 64];
    expected[..5].copy_from_slice(&[1, 0, 0, 0, 1]);
    expected[12] = 1;
    // "Document 01's record 1 is worked out again."
    expected[32..39].copy_from_slice(&[2, 0, 255, 255, 0, 0, 1]);
    expected[48..50].copy_from_slice(&[178, 3]);
    assert_eq!(bench.table, expected);
}

#[test]
fn p_crd_r_cut_after_one_store_and_mended_gives_zeros() {
    let seen = Bench::new(2).stop(1).ask("CRD .R", b"");
    assert_eq!(seen.answer, answer([22, 0, 0, 0, 0, 0, 1]));
    let mut table = seen.table;
    assert_eq!(record(&table, 0), directory());
    assert_eq!(record(&table, 1), FREE);
    assert_eq!(mend(&mut table, 65_535), answer([0, 0, 0, 0, 0, 0, 1]));
    assert!(zeros(&table));
}

#[test]
fn p_crd_r_in_one_record_gets_19() {
    Bench::new(1).refuse("CRD .R", b"", 19, 0);
}

#[test]
fn p_then_crd_r_a_gets_19() {
    Bench::grown(2, &["CRD .R"]).refuse("CRD .R:A", b"", 19, 0);
}

#[test]
fn p_then_del_r_gives_zeros() {
    let mut bench = Bench::grown(2, &["CRD .R"]);
    let seen = bench.grant("DEL .R", b"");
    // "`DEL .R` takes 3 stores": the entry, the count, the heading.
    assert_eq!(seen.answer, answer([0, 0, 0, 1, 0, 0, 3]));
    assert!(zeros(&bench.table));
}

#[test]
fn del_of_the_same_name_twice_does_one() {
    let bench = Bench::grown(16, &["CRD .R", "WRS M .R:A"]);
    let seen = bench.ask("DEL .R:A .R:A", b"");
    // The entry, the counts of `.R` and of the file, the heading and two text records.
    assert_eq!(seen.answer, answer([11, 2, 2, 1, 0, 0, 6]));
    assert_eq!(seen.table, Bench::grown(16, &["CRD .R"]).table);
    assert!(seen.untouched());
}

#[test]
fn a_copy_displaces_its_own_source() {
    let mut bench = Bench::grown(16, &["CRD .R", "WRS L.P4 .R:A"]);
    let seen = bench.grant("CPY .R:A .R:A", b"");
    // Heading, two texts and the entry; the counts of the old file and of the new one; then the old heading and its two
    // texts.
    assert_eq!(seen.answer, answer([0, 0, 0, 1, 1, 0, 9]));
    let mut expected = vec![0; 16 * 32];
    let records = [
        (0, counts(directory(), 1, 1)),
        (1, base(0, ".R")),
        (5, entry(0, 0, 6, 0, "A")),
        (6, named(heading(1, 1, 0, 2, 30), 1)),
        (7, text(6, 0, &TEXT[..24])),
        (8, text(6, 1, &TEXT[24..])),
    ];
    for (number, record) in records {
        expected[number * 32..number * 32 + 32].copy_from_slice(&record);
    }
    assert_eq!(bench.table, expected);
}

#[test]
fn a_dup_onto_itself_is_one_store() {
    let mut bench = Bench::grown(16, &["CRD .R", "WRS M.1 .R:A"]);
    let before = bench.table.clone();
    let seen = bench.grant("DUP .R:A .R:A", b"");
    assert_eq!(seen.answer, answer([0, 0, 0, 1, 1, 0, 1]));
    assert_eq!(bench.table, before);
    let seen = bench.grant("DUP .R:A .R:A .4", b"");
    assert_eq!(seen.answer, answer([0, 0, 0, 1, 1, 0, 1]));
    assert_eq!(record(&bench.table, 5), entry(5, 0, 2, 0, "A"));
}

#[test]
fn in_an_empty_table_every_legal_name_gets_11() {
    let bench = Bench::new(0);
    let first = [
        "RDS .R",
        "RDS A",
        "RDS .R:A:B",
        "LST .R",
        "LST A",
        "CPY .R .G",
        "CPY A .G",
        "DUP .R .G",
        "DUP A B",
        "CHN .R .G",
        "CHN A B",
        "DEL .R",
        "DEL A B",
        "DPR .R .1",
        "DPR A .7",
        "CRD A",
        "CRD .R:A",
        "CRD .R:.",
    ];
    for line in first {
        bench.refuse(line, b"", 11, 1);
    }
    bench.refuse("WRS M A", b"", 11, 2);
    bench.refuse("WRS M .R:A", b"", 11, 2);
}

#[test]
fn in_an_empty_table_a_lone_new_base_name_gets_19() {
    let bench = Bench::new(0);
    bench.refuse("CRD .R", b"", 19, 0);
    bench.refuse("CRD .ABC", b"", 19, 0);
    bench.refuse("WRS M .R", b"TEXT", 19, 0);
}

#[test]
fn in_an_empty_table_lst_of_a_lone_point_gets_0() {
    let bench = Bench {
        room: 0,
        ..Bench::new(0)
    };
    assert_eq!(
        bench.ask("LST .", b"").answer,
        answer([0, 0, 0, 1, 0, 0, 0])
    );
}

#[test]
fn a_directory_listed_whole() {
    let mut bench = Bench::grown(16, &["CRD .R", "WRS M .R:BOARD7", "WRS L.P .R:A"]);
    bench.grant("DUP .R:A .R:AUDIT .1", b"");
    bench.grant("DEL .R:A", b"");
    let lines = b"FL.P1    AUDIT\r\nFM.U0    BOARD7\r\n";
    assert_eq!(lines.len(), 33);
    assert_eq!(bench.reply("LST .R"), lines);
    // A buffer of 33 bytes is enough, one of 32 is not.
    bench.room = 33;
    assert_eq!(bench.reply("LST .R"), lines);
    bench.room = 32;
    bench.refuse("LST .R", b"", 20, 0);
}

#[test]
fn an_empty_directory_lists_as_0_bytes() {
    let bench = Bench::grown(2, &["CRD .R"]);
    assert_eq!(bench.reply("LST .R"), b"");
}

#[test]
fn the_reader_says_the_same_of_these_lines() {
    let number = |line: &str| read(line.as_bytes(), 0).map(|_| ());
    let refused = |number, link| {
        let place = Place { argument: 1, link };
        Err(Refusal { number, place })
    };
    assert_eq!(number("CRD .R::A"), refused(7, 2));
    assert_eq!(number("CRD .R:ABCDEFGHIJK"), refused(7, 2));
    assert_eq!(number("CRD .R:ABCDEFGHIJ"), Ok(()));
    assert_eq!(number("CRD .1"), refused(8, 1));
}
