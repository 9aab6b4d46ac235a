//! What surprises and is right, and the slips that document 01 has seen on paper.

mod common;
use common::*;

#[test]
fn a_chain_may_run_through_the_entry_that_it_displaces() {
    let mut bench = Bench::grown(16, &["CRD .R", "DUP .R .R:A"]);
    // A is an entry of .R that names .R; A:A is that entry again.
    let seen = bench.grant("WRS M .R:A:A", b"WRITTEN");
    // Heading, text and entry; the counts of `.R`, which A named, and of the new file.
    assert_eq!(seen.answer, answer([0, 0, 0, 1, 1, 0, 5]));
    // The same chain does not read it: A is no directory any more.
    bench.refuse("RDS .R:A:A", b"", 12, 1);
    assert_eq!(bench.reply("RDS .R:A"), b"WRITTEN");
}

#[test]
fn a_directory_with_entries_can_be_cut_off_and_keeps_its_room() {
    let mut bench = Bench::grown(3, &["CRD .R", "DUP .R .R:A"]);
    let seen = bench.grant("DEL .R", b"");
    assert_eq!(seen.answer, answer([0, 0, 0, 1, 0, 0, 2]));
    // The heading and the entry A, which names it, are still there, and no base file reaches them.
    let expected = [counts(directory(), 1, 1), FREE, entry(0, 0, 0, 0, "A")].concat();
    assert_eq!(bench.table, expected);
    assert_eq!(bench.reply("LST ."), b"");
    bench.refuse("RDS .R:A", b"", 11, 1);
    bench.refuse("CRD .R", b"", 19, 0);
    let mut mended = bench.table.clone();
    assert_eq!(mend(&mut mended, 65_535), answer([0, 0, 0, 0, 0, 0, 0]));
    assert_eq!(mended, expected);
}

#[test]
fn a_directory_with_entries_can_be_displaced_when_a_loop_names_it() {
    let mut bench = Bench::grown(16, &["CRD .R", "CRD .R:D", "DUP .R:D .R:D:UP"]);
    let seen = bench.grant("WRS M .R:D", b"");
    assert_eq!(seen.answer, answer([0, 0, 0, 1, 1, 0, 4]));
    assert_eq!(bench.reply("RDS .R:D"), b"");
    // .R, the file D and their entries; the lost directory and its entry UP.
    assert_eq!(count(&bench.table, 1), 3);
    assert_eq!(count(&bench.table, 2), 3);
}

#[test]
fn a_loop_of_two_directories() {
    let lines = ["CRD .R", "CRD .R:D", "DUP .R .R:D:BACK"];
    let mut bench = Bench::grown(16, &lines);
    assert_eq!(
        bench.reply("LST .R:D:BACK:D:BACK"),
        bench.reply("LST .R"),
        "round the loop"
    );
    // .R's other entry is reached by way of .R alone: D goes only when it is empty.
    bench.refuse("DEL .R:D", b"", 18, 1);
    bench.refuse("DEL .R:D:BACK:D", b"", 18, 1);
    bench.grant("DEL .R:D:BACK:D:BACK", b"");
    bench.grant("DEL .R:D", b"");
    bench.grant("DEL .R", b"");
    assert!(bench.table.iter().all(|byte| *byte == 0));
}

#[test]
fn a_dup_of_a_directory_onto_its_own_entry_within_a_loop() {
    let mut bench = Bench::grown(16, &["CRD .R", "CRD .R:D", "DUP .R .R:D:BACK"]);
    // D would lose its last entry to the directory .R, and D has entries.
    bench.refuse("DUP .R .R:D", b"", 18, 2);
    // By another way to the same entry, D displaces itself and loses nothing.
    let seen = bench.grant("DUP .R:D .R:D:BACK:D .4", b"");
    assert_eq!(seen.answer, answer([0, 0, 0, 1, 1, 0, 1]));
}

#[test]
fn blanks_beside_a_colon_do_not_count() {
    let mut bench = Bench::grown(16, &["CRD .R", "CRD .R:A"]);
    bench.grant("  CRD   .R  :  A :B  .U1 ", b"");
    assert_eq!(bench.reply("LST .R: A"), b"DM.U1    B\r\n");
    // A colon joins the function with its argument.
    bench.refuse("CRD :R", b"", 5, 0);
    bench.refuse("CRD .R :", b"", 7, 1);
}

#[test]
fn a_dash_is_malformed_only_as_a_whole_argument() {
    let mut bench = Bench::grown(16, &["CRD .R", "CRD .W"]);
    bench.refuse("CRD -", b"", 7, 1);
    bench.refuse("CHN .R -", b"", 7, 2);
    bench.grant("CRD .R:-", b"");
    bench.grant("CRD -A -", b"");
    bench.grant("CRD -A:- .", b"");
    assert_eq!(bench.reply("LST -A"), b"DM.U0    -\r\n");
    bench.refuse("CHN .R:- -", b"", 7, 2);
    bench.refuse("DEL -:A", b"", 11, 1);
}

#[test]
fn a_later_name_may_be_a_point() {
    let mut bench = Bench::grown(16, &["CRD .R"]);
    bench.grant("CRD .R:.", b"");
    bench.grant("CRD .R:.:.W", b"");
    assert_eq!(bench.reply("LST .R"), b"DM.U0    .\r\n");
    assert_eq!(bench.reply("LST .R:."), b"DM.U0    .W\r\n");
    assert_eq!(bench.reply("LST ."), b"DM.U0    .R\r\n");
}

#[test]
fn the_working_directory_is_supplied_and_not_listed() {
    let mut bench = Bench::grown(16, &["CRD .W", "CRD .R"]);
    bench.grant("WRS M NOTE", b"TEXT");
    assert_eq!(bench.reply("RDS .W:NOTE"), b"TEXT");
    assert_eq!(bench.reply("RDS NOTE"), b"TEXT");
    assert_eq!(bench.reply("LST ."), b"DM.U0    .R\r\n");
    assert_eq!(bench.reply("LST .W"), b"FM.U0    NOTE\r\n");
    // An entry called .W elsewhere is listed.
    bench.grant("CRD .R:.W", b"");
    assert_eq!(bench.reply("LST .R"), b"DM.U0    .W\r\n");
}

#[test]
fn a_listing_is_in_byte_order_a_name_before_its_continuations() {
    let lines = [
        "CRD .R",
        "CRD .R:AB",
        "CRD .R:A",
        "CRD .R:B",
        "CRD .R:A1",
        "CRD .R:A.",
        "CRD .R:!",
        "CRD .R:_",
    ];
    let bench = Bench::grown(32, &lines);
    let line = |name| format!("DM.U0    {name}\r\n");
    let expected: String = ["!", "A", "A.", "A1", "AB", "B", "_"].map(line).concat();
    assert_eq!(bench.reply("LST .R"), expected.as_bytes());
}

#[test]
fn users_have_base_lists_of_their_own_and_share_nothing() {
    let mut bench = Bench::grown(16, &["CRD .R"]);
    bench.user = 258;
    bench.grant("CRD .R", b"");
    bench.grant("CRD .R:X", b"");
    assert_eq!(record(&bench.table, 3), entry(0, 65_535, 2, 258, ".R"));
    assert_eq!(bench.reply("LST .R"), b"DM.U0    X\r\n");
    bench.user = 1;
    assert_eq!(bench.reply("LST .R"), b"");
}

#[test]
fn long_files_are_inhibited_only_by_their_codes_and_execute_inhibits_nothing() {
    let mut bench = Bench::grown(16, &["CRD .R .4", "WRS L.4 .R:A"]);
    assert_eq!(bench.reply("RDS .R:A"), TEXT);
    bench.grant("DPR .R:A .4", b"");
    bench.grant("WRS L .R:A", b"");
    bench.grant("DEL .R:A .R", b"");
}

/// A sound table whose text records do not stand in the order of their positions.
fn backwards() -> Bench {
    let records = [
        text(3, 2, b"5678"),
        entry(0, 65_535, 3, 1, ".R"),
        text(3, 1, b"<TWENTY-FOUR MORE BYTES>"),
        named(heading(1, 2, 4, 2, 52), 1),
        FREE,
        text(3, 0, b"[TWENTY-FOUR BYTES HERE]"),
    ];
    Bench::of(records.concat())
}

#[test]
fn text_is_read_by_position_wherever_it_stands() {
    let content = b"[TWENTY-FOUR BYTES HERE]<TWENTY-FOUR MORE BYTES>5678";
    let mut bench = backwards();
    assert_eq!(bench.reply("RDS .R"), content);
    bench.table.resize(12 * 32, 0);
    bench.grant("CPY .R .G", b"");
    assert_eq!(bench.reply("RDS .G"), content);
    assert_eq!(record(&bench.table, 4), named(heading(1, 2, 0, 2, 52), 1));
    for (number, position) in [(6, 0), (7, 1), (8, 2)] {
        let block = content.chunks(24).nth(position).unwrap();
        assert_eq!(
            record(&bench.table, number),
            text(4, position as u16, block)
        );
    }
    assert_eq!(record(&bench.table, 9), entry(0, 65_535, 4, 1, ".G"));
}

#[test]
fn text_is_cleared_by_position_wherever_it_stands() {
    let bench = backwards();
    let mut expected = bench.table.clone();
    let stores = [
        (1, FREE),
        (3, heading(1, 2, 4, 2, 52)),
        (3, FREE),
        (5, FREE),
        (2, FREE),
        (0, FREE),
    ];
    for (made, (number, record)) in stores.into_iter().enumerate() {
        let seen = bench.stop(made as u32).ask("DEL .R", b"");
        assert_eq!(seen.answer, answer([22, 0, 0, 0, 0, 0, made as u32]));
        assert_eq!(seen.table, expected);
        expected[number * 32..number * 32 + 32].copy_from_slice(&record);
    }
    let seen = bench.stop(6).ask("DEL .R", b"");
    assert_eq!(seen.answer, answer([0, 0, 0, 1, 0, 0, 6]));
    assert_eq!(seen.table, [FREE; 6].concat());
}

#[test]
fn slip_joining_the_codes_of_the_whole_chain() {
    // The base entry inhibits execute and write; the directories on the way do not hand that on.
    let mut bench = Bench::grown(32, &["CRD .R", "CRD .R:D", "WRS M .R:D:F", "CRD .R:D:E"]);
    bench.grant("DPR .R .5", b"");
    bench.refuse("CRD .R:X", b"", 14, 1);
    bench.grant("CRD .R:D:X", b"");
    bench.grant("DPR .R:D:F .7", b"");
    bench.grant("DUP .R:D .G .1", b"");
    bench.refuse("CRD .G:Y", b"", 14, 1);
    bench.grant("CRD .G:E:Y", b"");
}

#[test]
fn slip_storing_the_entry_before_heading_and_text() {
    let bench = Bench::grown(16, &["CRD .R"]);
    let kinds = [1, 3, 3, 2];
    for stop in 0..=4 {
        let seen = bench.stop(stop as u32).ask("WRS M .R:A", TEXT);
        let made: Vec<u8> = (2..2 + stop).map(|n| record(&seen.table, n)[0]).collect();
        assert_eq!(made, kinds[..stop]);
        assert!(seen.table[(2 + stop) * 32..].iter().all(|byte| *byte == 0));
    }
}

#[test]
fn slip_freeing_the_displaced_file_first() {
    let mut bench = Bench::grown(6, &["CRD .R", "WRS M .R:A"]);
    bench.refuse("WRS M .R:A", b"", 19, 0);
    // One free record is enough for an empty file; it is the free one that is taken, not a freed one.
    bench.table.resize(7 * 32, 0);
    bench.grant("WRS M .R:A", b"");
    assert_eq!(record(&bench.table, 6), named(simple(0), 1));
    assert_eq!(count(&bench.table, 0), 3);
}

#[test]
fn slip_showing_the_headings_code_in_a_listing() {
    let mut bench = Bench::grown(16, &["CRD .R", "WRS M.1 .R:A"]);
    bench.grant("DUP .R:A .R:B .4", b"");
    bench.grant("WRS M .R:C", b"");
    bench.grant("DPR .R:C .7", b"");
    let expected = b"FM.U1    A\r\nFM.U5    B\r\nFM.U0    C\r\n";
    assert_eq!(bench.reply("LST .R"), expected);
}

#[test]
fn slip_refusing_del_because_the_file_is_write_inhibited() {
    let mut bench = Bench::grown(16, &["CRD .R", "WRS M.7 .R:A", "CRD .R:D .7"]);
    let seen = bench.grant("DEL .R:A .R:D", b"");
    assert_eq!(seen.answer, answer([0, 0, 0, 2, 0, 0, 6 + 4]));
}
