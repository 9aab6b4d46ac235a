//! Each reply number, 0 to 22 and 25: the complete answer, the table and the reply.

mod common;
use common::*;

/// A directory `.R` with a simple file A, a directory D and a file D:F.
fn filled() -> Bench {
    Bench::grown(64, &["CRD .R", "WRS M .R:A", "CRD .R:D", "WRS M .R:D:F"])
}

/// A name of two letters for each number below 676.
fn letters(number: usize) -> String {
    let letter = |at: usize| char::from(b'A' + at as u8);
    format!("{}{}", letter(number / 26), letter(number % 26))
}

#[test]
fn number_00_done_crd() {
    let mut bench = filled();
    let seen = bench.grant("CRD .R:E .S6", b"");
    // Heading and entry; then the counts of `.R`, which holds A, D and E, and of E.
    assert_eq!(seen.answer, answer([0, 0, 0, 1, 0, 0, 4]));
    assert_eq!(record(&bench.table, 12), named(heading(0, 3, 6, 1, 0), 1));
    assert_eq!(record(&bench.table, 13), entry(6, 0, 12, 0, "E"));
    assert_eq!(record(&bench.table, 0), counts(directory(), 1, 3));
}

#[test]
fn number_00_done_wrs() {
    let mut bench = Bench::grown(16, &["CRD .W"]);
    let seen = bench.grant("WRS L.A3 NOTE", TEXT);
    assert_eq!(seen.answer, answer([0, 0, 0, 1, 0, 0, 6]));
    assert_eq!(record(&bench.table, 0), counts(directory(), 1, 1));
    assert_eq!(record(&bench.table, 2), named(heading(1, 2, 3, 2, 30), 1));
    assert_eq!(record(&bench.table, 3), text(2, 0, &TEXT[..24]));
    assert_eq!(record(&bench.table, 4), text(2, 1, &TEXT[24..]));
    assert_eq!(record(&bench.table, 5), entry(3, 0, 2, 0, "NOTE"));
}

#[test]
fn number_00_done_wrs_displaced() {
    let mut bench = filled();
    // A is heading 2, texts 3 and 4, entry 5; the free records begin at 12.
    let seen = bench.grant("WRS M .R:A", b"NEW");
    // Three stores of the new file, the counts of the old file and of the new one, and three clearings.
    assert_eq!(seen.answer, answer([0, 0, 0, 1, 1, 0, 8]));
    assert_eq!(record(&bench.table, 12), named(simple(3), 1));
    assert_eq!(record(&bench.table, 13), text(12, 0, b"NEW"));
    assert_eq!(record(&bench.table, 5), entry(0, 0, 12, 0, "A"));
    for freed in 2..5 {
        assert_eq!(record(&bench.table, freed), FREE);
    }
}

#[test]
fn number_00_done_rds() {
    let bench = filled();
    let seen = bench.ask("RDS .R:A", b"");
    assert_eq!(seen.answer, answer([0, 0, 0, 1, 0, 30, 0]));
    assert_eq!(seen.table, bench.table);
    assert_eq!(&seen.reply[..30], TEXT);
    assert!(seen.reply[30..].iter().all(|byte| *byte == UNTOUCHED));
}

#[test]
fn number_00_done_cpy() {
    let mut bench = Bench::grown(16, &["CRD .R", "WRS L.P5 .R:A"]);
    // "CPY may have M or L, else takes the source's. Level: given, else ... the source's. Code: given, else 0."
    let seen = bench.grant("CPY .R:A .R:B", b"");
    assert_eq!(seen.answer, answer([0, 0, 0, 1, 0, 0, 6]));
    assert_eq!(record(&bench.table, 6), named(heading(1, 1, 0, 2, 30), 1));
    assert_eq!(record(&bench.table, 9), entry(0, 0, 6, 0, "B"));
    bench.grant("CPY .R:A .R:C M.S1", b"");
    assert_eq!(record(&bench.table, 10), named(heading(1, 3, 1, 1, 30), 1));
    assert_eq!(record(&bench.table, 13), entry(1, 0, 10, 0, "C"));
}

#[test]
fn number_00_done_dup() {
    let mut bench = Bench::grown(16, &["CRD .R", "WRS M.2 .R:A"]);
    bench.grant("DPR .R:A .6", b"");
    // The code is the old entry's (2) joined with the declared one (1); the heading's (6) is not in it.
    let seen = bench.grant("DUP .R:A .R:B .1", b"");
    // The entry, and the counts of `.R` and of the file, which two entries name now.
    assert_eq!(seen.answer, answer([0, 0, 0, 1, 0, 0, 3]));
    assert_eq!(record(&bench.table, 6), entry(3, 0, 2, 0, "B"));
    assert_eq!(record(&bench.table, 0), counts(directory(), 1, 2));
    assert_eq!(record(&bench.table, 2), named(heading(1, 0, 6, 1, 30), 2));
}

#[test]
fn number_00_done_chn() {
    let mut bench = filled();
    let seen = bench.grant("CHN .R:A .LONGER.", b"");
    assert_eq!(seen.answer, answer([0, 0, 0, 1, 0, 0, 1]));
    assert_eq!(record(&bench.table, 5), entry(0, 0, 2, 0, ".LONGER."));
    let seen = bench.grant("CHN .R .G", b"");
    assert_eq!(seen.answer, answer([0, 0, 0, 1, 0, 0, 1]));
    assert_eq!(record(&bench.table, 1), base(0, ".G"));
}

#[test]
fn number_00_done_del() {
    let mut bench = filled();
    let seen = bench.grant("DEL .R:D:F .R:D .R:A .R", b"");
    // F: entry, counts of D and F, heading, two texts; D: entry, counts of `.R` and D, heading; A as F; `.R`: entry, its
    // count, heading.
    assert_eq!(seen.answer, answer([0, 0, 0, 4, 0, 0, 6 + 4 + 6 + 3]));
    assert!(bench.table.iter().all(|byte| *byte == 0));
}

#[test]
fn number_00_done_dpr() {
    let mut bench = filled();
    let seen = bench.grant("DPR .R:A .4", b"");
    assert_eq!(seen.answer, answer([0, 0, 0, 1, 0, 0, 1]));
    assert_eq!(record(&bench.table, 2), named(heading(1, 0, 4, 1, 30), 1));
    assert_eq!(record(&bench.table, 5), entry(0, 0, 2, 0, "A"));
}

#[test]
fn number_00_done_lst() {
    let bench = filled();
    assert_eq!(bench.reply("LST .R"), b"FM.U0    A\r\nDM.U0    D\r\n");
    assert_eq!(bench.reply("LST ."), b"DM.U0    .R\r\n");
}

#[test]
fn number_01_table_length() {
    for length in [1, 31, 33, 65, 65_537, 65_568, 65_600] {
        let bench = Bench::of(vec![0; length]);
        bench.refuse("CRD .R", b"", 1, 0);
        let mut table = vec![0; length];
        assert_eq!(mend(&mut table, 9), answer([1, 0, 0, 0, 0, 0, 0]));
        assert!(!sound(&table));
    }
    for records in [0, 1, 2_048] {
        assert!(sound(&vec![0; records * 32]));
    }
}

#[test]
fn number_02_table_not_sound() {
    let mut table = vec![0; 64];
    table[0] = 4;
    Bench::of(table.clone()).refuse("CRD .R", b"", 2, 0);
    assert_eq!(mend(&mut table, 9), answer([2, 0, 0, 0, 0, 0, 0]));
    assert_eq!(table[0], 4);
}

#[test]
fn number_03_user_above_999999() {
    let mut bench = Bench::new(2);
    for user in [1_000_000, 16_777_217, u32::MAX] {
        bench.user = user;
        bench.refuse("CRD .R", b"", 3, 0);
    }
    bench.user = 999_999;
    bench.grant("CRD .R", b"");
    assert_eq!(record(&bench.table, 1), entry(0, 65_535, 0, 999_999, ".R"));
    bench.user = 0;
    bench.refuse("DEL .R", b"", 11, 1);
}

#[test]
fn number_04_line_too_long_or_a_byte_outside() {
    let mut bench = Bench::new(2);
    for byte in [0, 9, 10, 13, 31, 96, b'a', 127, 128, 255] {
        bench.refuse([b"CRD .R".as_slice(), &[byte]].concat(), b"", 4, 0);
    }
    bench.refuse(format!("{:257}", "CRD .R"), b"", 4, 0);
    bench.grant(&format!("{:256}", "CRD .R"), b"");
}

#[test]
fn number_05_no_such_function() {
    let bench = Bench::new(4);
    let lines = [
        "", " ", "      ", ":", "CRE .R", "CR", "CRDD .R", "C RD .R", "RDC .R", ".", "-", "CRD:",
        "CRD :A", "CRD: A", ":CRD .R", ": CRD .R",
    ];
    for line in lines {
        bench.refuse(line, b"", 5, 0);
    }
}

#[test]
fn number_06_wrong_count_of_arguments() {
    let bench = filled();
    let lines = [
        "CRD",
        "CRD .G . .",
        "WRS",
        "WRS M",
        "WRS M .G .H",
        "RDS",
        "RDS .R:A 1 1 1",
        "LST",
        "LST . .",
        "CPY .R:A",
        "CPY .R:A .R:B M M",
        "DUP .R:A",
        "DUP .R:A .R:B . .",
        "CHN .R",
        "CHN .R .G .H",
        "DPR .R",
        "DPR .R .1 .1",
        "DEL",
        "DEL A B C D E F G H I",
    ];
    for line in lines {
        bench.refuse(line, b"", 6, 0);
    }
}

#[test]
fn number_07_malformed_name_or_chain() {
    let bench = filled();
    for name in [
        "A@",
        "@",
        ".R:@",
        "-",
        "A::B",
        "A:",
        ".R::",
        "ABCDEFGHIJK",
        ".R:ABCDEFGHIJK",
    ] {
        bench.refuse(format!("RDS {name}"), b"", 7, 1);
        bench.refuse(format!("WRS M {name}"), b"", 7, 2);
        bench.refuse(format!("CPY .R:A {name}"), b"", 7, 2);
        bench.refuse(format!("DEL .R:A .R:D {name}"), b"", 7, 3);
        bench.refuse(format!("CHN .R:A {name}"), b"", 7, 2);
    }
    // CHN's link is no chain.
    bench.refuse("CHN .R:A .R:B", b"", 7, 2);
    bench.refuse("CHN .R:A B:C", b"", 7, 2);
    // Sixteen names are a chain, and a supplied `.W` is counted.
    let chain = |first: &str, more: usize| format!("LST {first}{}", ":A".repeat(more));
    bench.refuse(chain(".R", 15), b"", 12, 1);
    bench.refuse(chain(".R", 16), b"", 7, 1);
    bench.refuse(chain("A", 14), b"", 11, 1);
    bench.refuse(chain("A", 15), b"", 7, 1);
}

#[test]
fn number_08_illegal_base_name() {
    let bench = filled();
    for name in [
        ".1", ".", "..", ".C", ".A", ".-", ".R1", ".AB1", ".A-B", ".:A", ".R.1:A",
    ] {
        bench.refuse(format!("CRD {name}"), b"", 8, 1);
        bench.refuse(format!("DUP .R:A {name}"), b"", 8, 2);
    }
    bench.refuse("LST .:A", b"", 8, 1);
    bench.refuse("LST ..", b"", 8, 1);
    bench.refuse("RDS .", b"", 8, 1);
    bench.refuse("DEL .", b"", 8, 1);
    // CHN's link for a base file; whether it is one is judged on the line.
    for link in ["A", "ABC", ".1", ".A", "..", ".", ".AB1"] {
        bench.refuse(format!("CHN .R {link}"), b"", 8, 2);
        bench.refuse(format!("CHN .G {link}"), b"", 8, 2);
    }
    for link in ["ABC", ".1", ".A", "..", ".", ".AB1"] {
        let seen = bench.ask(format!("CHN .R:D {link}"), b"");
        assert_eq!(seen.answer, answer([0, 0, 0, 1, 0, 0, 1]), "{link}");
    }
    for name in ["...", ".RR", ".R.", ".ABCDEFGHI", ".G", ".T", ".W"] {
        let seen = bench.ask(format!("CRD {name}"), b"");
        assert_eq!(seen.answer, answer([0, 0, 0, 1, 0, 0, 3]), "{name}");
    }
}

#[test]
fn number_09_declaration_malformed() {
    let bench = filled();
    let words = [
        "MF", "1", "U", "P1", "M1", "..", ".8", ".1U", ".U11", ".X", "FD", "MM", ".:1", "M:.1",
        "--", "M.U1.", "@", "M.1-",
    ];
    for word in words {
        bench.refuse(format!("CRD .G {word}"), b"", 9, 2);
        bench.refuse(format!("WRS {word} .R:B"), b"", 9, 1);
        bench.refuse(format!("CPY .R:A .R:B {word}"), b"", 9, 3);
        bench.refuse(format!("DUP .R:A .R:B {word}"), b"", 9, 3);
        bench.refuse(format!("DPR .R:A {word}"), b"", 9, 2);
    }
}

/// With each of these words for the question mark, the line gets 9 at this place.
fn unfit(line: &str, place: u32, words: &[&str]) {
    for word in words {
        filled().refuse(line.replace('?', word), b"", 9, place);
    }
}

/// With each of these words for the question mark, the line is granted.
fn fit(line: &str, words: &[&str]) {
    for word in words {
        filled().grant(&line.replace('?', word), b"");
    }
}

#[test]
fn number_09_declaration_unfit_for_a_new_file() {
    let line = "CRD .G ?";
    unfit(
        line,
        2,
        &["D", "F", "M", "L", "S", "D.1", "M.", "DM.P1", "F.0"],
    );
    fit(line, &[".", "-", ".U", ".S", ".7", ".A3"]);
    let line = "WRS ? .R:B";
    unfit(
        line,
        1,
        &["-", ".", ".1", "S", "S.U1", "F", "FM", "FL.U1", "DM.P1"],
    );
    fit(line, &["M", "L", "M.", "L.", "M.A", "L.4", "M.S7"]);
    let line = "CPY .R:A .R:B ?";
    unfit(line, 3, &["S", "S.1", "F", "FM", "D", "DM.P1", "F.0"]);
    fit(line, &["-", ".", "M", "L", ".P", ".3", "L.P3"]);
}

#[test]
fn number_09_declaration_unfit_for_dup_and_dpr() {
    let line = "DUP .R:A .R:B ?";
    unfit(
        line,
        3,
        &["D", "F", "S", "M", "L", ".U", ".P1", "M.1", "F.0"],
    );
    fit(line, &["-", ".", ".0", ".7"]);
    let line = "DPR .R:A ?";
    unfit(
        line,
        2,
        &["-", ".", ".U", ".P1", "M.1", "F.1", "S", "DM.P1"],
    );
    fit(line, &[".0", ".7"]);
}

#[test]
fn number_10_wrs_text_above_24000() {
    let bench = Bench::grown(1_100, &["CRD .R"]);
    let text = vec![b'T'; 24_001];
    bench.refuse("WRS M .R:A", &text, 10, 0);
    // The text is WRS's alone, and whatever it is at other functions.
    let seen = bench.ask("CRD .R:A", &text);
    assert_eq!(seen.answer, answer([0, 0, 0, 1, 0, 0, 4]));
    let seen = bench.ask("WRS M .R:A", &text[..24_000]);
    assert_eq!(seen.answer, answer([0, 0, 0, 1, 0, 0, 1_004]));
}

#[test]
fn number_11_name_not_there() {
    let mut bench = filled();
    for line in [
        "RDS .R:B",
        "RDS .G:A",
        "RDS .R:D:A",
        "LST A",
        "CRD .R:B:C",
        "CHN .R:AA B",
    ] {
        bench.refuse(line, b"", 11, 1);
    }
    bench.refuse("CPY .R:A .R:B:C", b"", 11, 2);
    bench.refuse("WRS M .G:A", b"", 11, 2);
    // Another user's base files are not there.
    bench.user = 2;
    bench.refuse("RDS .R:A", b"", 11, 1);
}

#[test]
fn number_12_name_before_the_last_is_no_directory() {
    let bench = filled();
    for line in ["RDS .R:A:B", "CRD .R:A:B", "DEL .R:A:B", "LST .R:A:B:C"] {
        bench.refuse(line, b"", 12, 1);
    }
    bench.refuse("CPY .R:A .R:A:B", b"", 12, 2);
    bench.refuse("WRS M .R:A:B", b"", 12, 2);
}

#[test]
fn number_13_read_inhibited_on_the_way() {
    // By the heading.
    let mut bench = filled();
    bench.grant("DPR .R:D .2", b"");
    for line in [
        "RDS .R:D:F",
        "LST .R:D:F",
        "CRD .R:D:G",
        "DEL .R:D:F",
        "DPR .R:D:F .1",
    ] {
        bench.refuse(line, b"", 13, 1);
    }
    bench.refuse("WRS M .R:D:G", b"", 13, 2);
    bench.refuse("DUP .R:A .R:D:G", b"", 13, 2);
    // By the entry, and only by way of this entry.
    let mut bench = filled();
    bench.grant("DUP .R:D .R:E .6", b"");
    bench.refuse("RDS .R:E:F", b"", 13, 1);
    assert_eq!(bench.reply("RDS .R:D:F"), TEXT);
}

#[test]
fn number_13_read_inhibited_at_the_end() {
    let mut bench = filled();
    bench.grant("DUP .R:A .R:B .2", b"");
    bench.grant("DUP .R:D .R:E .2", b"");
    bench.refuse("RDS .R:B", b"", 13, 1);
    bench.refuse("CPY .R:B .R:C", b"", 13, 1);
    bench.refuse("LST .R:E", b"", 13, 1);
    bench.grant("DPR .R:A .2", b"");
    bench.refuse("RDS .R:A", b"", 13, 1);
    // No other function asks for read at the end.
    bench.grant("DUP .R:B .R:C", b"");
    bench.grant("CHN .R:C G", b"");
    bench.grant("DPR .R:G .6", b"");
    bench.grant("DEL .R:G", b"");
}

#[test]
fn number_14_write_inhibited_directory() {
    let mut bench = filled();
    bench.grant("DUP .R:D .R:E .1", b"");
    bench.refuse("CRD .R:E:G", b"", 14, 1);
    bench.refuse("WRS M .R:E:G", b"", 14, 2);
    bench.refuse("CPY .R:A .R:E:G", b"", 14, 2);
    bench.refuse("DUP .R:A .R:E:G", b"", 14, 2);
    bench.refuse("CHN .R:E:F G", b"", 14, 1);
    bench.refuse("DEL .R:E:F", b"", 14, 1);
    let seen = bench.ask("DEL .R:A .R:E:F", b"");
    assert_eq!(seen.answer, answer([14, 2, 3, 1, 0, 0, 6]));
    // By the heading.
    let mut bench = filled();
    bench.grant("DPR .R:D .1", b"");
    bench.refuse("CRD .R:D:G", b"", 14, 1);
    bench.refuse("DEL .R:D:F", b"", 14, 1);
    // The base list is never inhibited.
    bench.grant("DPR .R .1", b"");
    bench.grant("CHN .R .G", b"");
}

#[test]
fn number_14_write_inhibited_file() {
    let mut bench = filled();
    bench.grant("DUP .R:A .R:B .1", b"");
    bench.refuse("DPR .R:B .7", b"", 14, 1);
    bench.grant("DPR .R:A .1", b"");
    bench.refuse("DPR .R:A .1", b"", 14, 1);
    bench.refuse("DPR .R:A .7", b"", 14, 1);
}

#[test]
fn number_15_not_simple_or_no_directory() {
    let bench = filled();
    bench.refuse("RDS .R:D", b"", 15, 1);
    bench.refuse("CPY .R:D .R:E", b"", 15, 1);
    bench.refuse("CPY .R .G", b"", 15, 1);
    bench.refuse("LST .R:A", b"", 15, 1);
}

#[test]
fn number_16_new_name_borne_there() {
    let bench = filled();
    bench.refuse("CHN .R:A D", b"", 16, 2);
    bench.refuse("CHN .R:A A", b"", 16, 2);
    bench.refuse("CHN .R .R", b"", 16, 2);
    // Borne elsewhere does not count.
    let seen = bench.ask("CHN .R:A F", b"");
    assert_eq!(seen.answer, answer([0, 0, 0, 1, 0, 0, 1]));
}

#[test]
fn number_17_directory_full() {
    let mut bench = Bench::grown(160, &["CRD .R", "WRS M .G"]);
    for at in 0..112 {
        bench.grant(&format!("DUP .G .R:{}", letters(at)), b"");
    }
    bench.refuse("CRD .R:NEW", b"", 17, 1);
    bench.refuse("WRS M .R:NEW", b"", 17, 2);
    bench.refuse("CPY .G .R:NEW", b"", 17, 2);
    bench.refuse("DUP .G .R:NEW", b"", 17, 2);
    // Displacing, renaming and deleting go on.
    // Heading and entry; the counts of the file that AB named and of the new one, while `.R` holds as many as before.
    let seen = bench.ask("CRD .R:AB", b"");
    assert_eq!(seen.answer, answer([0, 0, 0, 1, 1, 0, 4]));
    bench.grant("CHN .R:AA NEW", b"");
    bench.grant("DEL .R:NEW", b"");
    bench.grant("CRD .R:NEW", b"");
    bench.refuse("CRD .R:NEWER", b"", 17, 1);
}

#[test]
fn number_17_base_list_full() {
    let mut bench = Bench::grown(160, &["WRS M .W"]);
    for at in 0..99 {
        bench.grant(&format!("DUP .W .{}", letters(at)), b"");
    }
    // `.W` is one of the 100.
    bench.refuse("CRD .R", b"", 17, 1);
    bench.refuse("WRS M .R", b"", 17, 2);
    bench.refuse("CPY .W .R", b"", 17, 2);
    bench.refuse("DUP .W .R", b"", 17, 2);
    let seen = bench.ask("DUP .W .AB .1", b"");
    assert_eq!(seen.answer, answer([0, 0, 0, 1, 1, 0, 1]));
    // Another user's list is another.
    bench.user = 2;
    bench.grant("CRD .R", b"");
}

#[test]
fn number_18_directory_with_entries_would_lose_its_last() {
    let mut bench = filled();
    bench.refuse("DEL .R:D", b"", 18, 1);
    bench.refuse("DEL .R", b"", 18, 1);
    bench.refuse("CRD .R:D", b"", 18, 1);
    bench.refuse("WRS M .R:D", b"", 18, 2);
    bench.refuse("CPY .R:A .R:D", b"", 18, 2);
    bench.refuse("DUP .R:A .R:D", b"", 18, 2);
    bench.refuse("DUP .R .R:D", b"", 18, 2);
    let seen = bench.ask("DEL .R:A .R:D", b"");
    assert_eq!(seen.answer, answer([18, 2, 2, 1, 0, 0, 6]));
    // The same file loses nothing.
    let seen = bench.ask("DUP .R:D .R:D .4", b"");
    assert_eq!(seen.answer, answer([0, 0, 0, 1, 1, 0, 1]));
    // With another entry it is not the last: the counts of `.R` and D, and of A and D.
    bench.grant("DUP .R:D .G", b"");
    let seen = bench.ask("DEL .R:D", b"");
    assert_eq!(seen.answer, answer([0, 0, 0, 1, 0, 0, 3]));
    let seen = bench.ask("DUP .R:A .R:D", b"");
    assert_eq!(seen.answer, answer([0, 0, 0, 1, 1, 0, 3]));
    // Without entries a directory goes.
    bench.grant("DEL .R:D:F .G", b"");
    let seen = bench.ask("CRD .R:D", b"");
    assert_eq!(seen.answer, answer([0, 0, 0, 1, 1, 0, 5]));
}

#[test]
fn number_19_fewer_free_records_than_needed() {
    let full = |records| Bench::grown(records, &["CRD .R", "WRS M .R:A"]);
    // Six records are taken; a text of 30 bytes needs four more, or three if it displaces.
    full(9).refuse("WRS M .R:B", TEXT, 19, 0);
    full(9).refuse("CPY .R:A .R:B", b"", 19, 0);
    full(8).refuse("WRS M .R:A", TEXT, 19, 0);
    full(8).refuse("CPY .R:A .R:A", b"", 19, 0);
    full(7).refuse("CRD .R:B", b"", 19, 0);
    full(6).refuse("CRD .R:A", b"", 19, 0);
    full(6).refuse("DUP .R:A .R:B", b"", 19, 0);
    let granted = |records, line: &str, stores| {
        let seen = full(records).ask(line, TEXT);
        let displaced = line.ends_with("R:A").into();
        assert_eq!(
            seen.answer,
            answer([0, 0, 0, 1, displaced, 0, stores]),
            "{line}"
        );
        assert!(sound(&seen.table));
    };
    // Counts need no record: two stores more wherever a name is another file's than before.
    granted(10, "WRS M .R:B", 6);
    granted(10, "CPY .R:A .R:B", 6);
    granted(9, "WRS M .R:A", 9);
    granted(9, "CPY .R:A .R:A", 9);
    granted(8, "CRD .R:B", 4);
    granted(7, "CRD .R:A", 7);
    granted(7, "DUP .R:A .R:B", 3);
    granted(6, "DUP .R:A .R:A", 1);
}

#[test]
fn number_20_reply_buffer_too_short() {
    let mut bench = filled();
    let listing = bench.reply("LST .R");
    for room in [0, 1, 23] {
        bench.room = room;
        bench.refuse("RDS .R:A", b"", 20, 0);
        bench.refuse("LST .R", b"", 20, 0);
    }
    bench.room = 24;
    bench.refuse("RDS .R:A", b"", 20, 0);
    assert_eq!(bench.reply("LST .R"), listing);
    bench.room = 30;
    assert_eq!(bench.reply("RDS .R:A"), TEXT);
    bench.room = 12;
    bench.refuse("LST .", b"", 20, 0);
    bench.room = 13;
    assert_eq!(bench.reply("LST ."), b"DM.U0    .R\r\n");
    // No other function needs the buffer.
    bench.room = 0;
    bench.grant("DEL .R:A", b"");
}

#[test]
fn number_21_new_code_lacks_a_bit() {
    let mut bench = filled();
    bench.grant("DPR .R:A .6", b"");
    for code in [0, 1, 2, 3, 4, 5] {
        bench.refuse(format!("DPR .R:A .{code}"), b"", 21, 2);
    }
    let before = bench.table.clone();
    let seen = bench.grant("DPR .R:A .6", b"");
    assert_eq!(seen.answer, answer([0, 0, 0, 1, 0, 0, 1]));
    assert_eq!(bench.table, before);
    bench.grant("DPR .R:A .7", b"");
    // The entry's code does not count: its execute bit need not be in the heading's new code.
    bench.grant("DUP .R:D .R:E .4", b"");
    bench.grant("DPR .R:E .2", b"");
}

#[test]
fn number_22_stop_number_reached() {
    let bench = filled();
    // The displaced file is heading 2 with texts 3 and 4; the free records begin at 12.
    let stores: [(usize, [u8; 32]); 8] = [
        (12, simple(3)),
        (13, text(12, 0, b"NEW")),
        (5, entry(0, 0, 12, 0, "A")),
        (2, simple(30)),
        (12, named(simple(3), 1)),
        (2, FREE),
        (3, FREE),
        (4, FREE),
    ];
    let mut expected = bench.table.clone();
    for (made, (number, record)) in stores.iter().enumerate() {
        let seen = bench.stop(made as u32).ask("WRS M .R:A", b"NEW");
        assert_eq!(seen.answer, answer([22, 0, 0, 0, 0, 0, made as u32]));
        assert_eq!(seen.table, expected);
        assert!(seen.untouched());
        expected[number * 32..number * 32 + 32].copy_from_slice(record);
    }
    let seen = bench.stop(8).ask("WRS M .R:A", b"NEW");
    assert_eq!(seen.answer, answer([0, 0, 0, 1, 1, 0, 8]));
    assert_eq!(seen.table, expected);
}

#[test]
fn number_22_in_a_del() {
    let bench = filled();
    // A's six stores, then D:F's six, then D's four.
    for stop in 0..16 {
        let seen = bench.stop(stop).ask("DEL .R:A .R:D:F .R:D", b"");
        assert_eq!(seen.answer, answer([22, 0, 0, stop / 6, 0, 0, stop]));
    }
    let seen = bench.stop(16).ask("DEL .R:A .R:D:F .R:D", b"");
    assert_eq!(seen.answer, answer([0, 0, 0, 3, 0, 0, 16]));
}

#[test]
fn number_22_in_a_mend() {
    let mut table = [simple(3), text(0, 0, b"TEX"), text(7, 0, b"T")].concat();
    assert_eq!(mend(&mut table, 0), answer([22, 0, 0, 0, 0, 0, 0]));
    assert_eq!(mend(&mut table, 1), answer([22, 0, 0, 0, 0, 0, 1]));
    assert_eq!(table, [FREE, text(0, 0, b"TEX"), text(7, 0, b"T")].concat());
    assert_eq!(mend(&mut table, 1), answer([22, 0, 0, 0, 0, 0, 1]));
    assert_eq!(table, [FREE, FREE, text(7, 0, b"T")].concat());
    assert_eq!(mend(&mut table, 1), answer([0, 0, 0, 0, 0, 0, 1]));
    assert_eq!(table, [FREE; 3].concat());
}

#[test]
fn a_request_without_stores_never_gets_22() {
    let bench = filled().stop(0);
    assert_eq!(bench.reply("RDS .R:A"), TEXT);
    assert_eq!(bench.reply("LST .R:D"), b"FM.U0    F\r\n");
}

#[test]
fn number_25_a_copy_below_its_source() {
    let levels = ["U", "P", "A", "S"];
    for (source, declared) in levels.iter().enumerate() {
        let mut bench = Bench::grown(32, &["CRD .R"]);
        bench.grant(&format!("WRS M.{declared} .R:A"), TEXT);
        for (copy, level) in levels.iter().enumerate() {
            let line = format!("CPY .R:A .R:B .{level}");
            if copy < source {
                bench.refuse(line, b"", 25, 3);
            } else {
                let seen = bench.ask(line, b"");
                assert_eq!(seen.answer.number, 0);
                assert_eq!(record(&seen.table, 6)[2], copy as u8);
            }
        }
        // A level that is not declared is the source's.
        for decl in ["", " -", " .", " L", " .1"] {
            let seen = bench.ask(format!("CPY .R:A .R:B{decl}"), b"");
            assert_eq!(seen.answer.number, 0);
            assert_eq!(record(&seen.table, 6)[2], source as u8);
        }
    }
}

#[test]
fn number_25_asks_nothing_of_the_directory_or_the_displaced_file() {
    // The directory and the file displaced have level S; a copy of level U goes there.
    let mut bench = Bench::grown(32, &["CRD .R .S", "WRS M .R:A"]);
    bench.grant("WRS M.S .R:B", TEXT);
    let seen = bench.grant("CPY .R:A .R:B .U", b"");
    assert_eq!(seen.answer.number, 0);
    // A copy of a file over itself is a copy.
    bench.grant("WRS M.P .R:C", TEXT);
    bench.refuse("CPY .R:C .R:C .U", b"", 25, 3);
    bench.grant("CPY .R:C .R:C .P", b"");
}
