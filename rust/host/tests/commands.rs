//! `ask`, `job`, `mend`, `sweep`, `convert`, `show` and `--help`.

mod common;

use std::fs;
use std::os::unix::fs::{symlink, MetadataExt, PermissionsExt};

use common::{held, run, stopped, table, Folder, Serving};

#[test]
fn ask_does_one_request() {
    let folder = Folder::new();
    let path = folder.file("line.table", &table(16, &[]));
    let sheet = folder.file("limits", b"5.0 V\n");
    let ran = run(&["ask", &path, "1", "CRD .R"]);
    assert_eq!(
        (ran.status, ran.out().as_str(), ran.err.as_str()),
        (0, "0 0 0 1 0 0 3\n", "")
    );
    assert_eq!(
        run(&["ask", &path, "1", "WRS M .R:A", &sheet]).out(),
        "0 0 0 1 0 0 5\n"
    );
    assert_eq!(
        run(&["ask", &path, "1", "RDS .R:A"]).out(),
        "0 0 0 1 0 6 0\n5.0 V\n"
    );
    assert_eq!(
        run(&["ask", &path, "1", "WRS M .R:B"]).out(),
        "0 0 0 1 0 0 4\n"
    );
    let refused = run(&["ask", &path, "2", "RDS .R:A"]);
    assert_eq!(
        (refused.status, refused.out().as_str()),
        (1, "11 1 1 0 0 0 0\n")
    );
    assert_eq!(refused.err, "11: name not there (argument 1, link 1)\n");
}

#[test]
fn ask_rewrites_a_sheet() {
    let folder = Folder::new();
    let requests: [(&str, &[u8]); 3] = [
        ("CRD .R", b""),
        ("WRS M .R:A", b"5.0 V"),
        ("DUP .R:A .R:B", b""),
    ];
    let path = folder.file("line.table", &table(16, &requests));
    let sheet = folder.file("limits", b"4.9 V");
    let ran = run(&["ask", &path, "1", "WRS* M .R:A", &sheet]);
    assert_eq!((ran.status, ran.out().as_str()), (0, "0 0 0 1 0 0 4\n"));
    assert_eq!(
        run(&["ask", &path, "1", "RDS .R:B"]).out(),
        "0 0 0 1 0 5 0\n4.9 V"
    );
    let refused = run(&["ask", &path, "1", "WRS* M .R", &sheet]);
    assert_eq!(
        (refused.status, refused.out().as_str()),
        (1, "15 2 1 0 0 0 0\n")
    );
    assert_eq!(
        refused.err,
        "15: RDS, CPY, WRS*: not simple; LST: no directory (argument 2, link 1)\n"
    );
}

#[test]
fn a_rewrite_that_was_cut_is_mended_and_shown_as_marked() {
    let folder = Folder::new();
    let requests: [(&str, &[u8]); 3] = [
        ("CRD .R", b""),
        ("WRS M.P .R:A", &[b'x'; 30]),
        ("WRS M .R:B", b"4.9 V"),
    ];
    let mut cut = table(12, &requests);
    let answer = stopped(&mut cut, "WRS* M .R:A", b"y", 2);
    assert_eq!(answer.stores, 2);
    let path = folder.file("cut", &cut);
    let picture = "\
user 1
  .R                             DM.U0 directory
    A                            FM.P0 marked: a rewrite was cut
    B                            FM.U0 bytes 5

   0 DeF.xeFte...

. free 4, D directories 1, F files 2, e entries 3, t text 1, x mending would clear 1
";
    assert_eq!(
        run(&["show", &path]).out(),
        format!("{path}: 12 records\n\n{picture}")
    );
    let ran = run(&["ask", &path, "1", "RDS .R:A"]);
    assert!(ran.err.contains("mended: 1 record"), "{ran:?}");
    assert_eq!((ran.status, ran.out().as_str()), (1, "23 1 2 0 0 0 0\n"));
    let sheet = folder.file("limits", b"5.0 V");
    let repaired = run(&["ask", &path, "1", "WRS* M .R:A", &sheet]);
    assert_eq!(repaired.out(), "0 0 0 1 0 0 3\n");
    assert!(run(&["show", &path]).out().contains("FM.P0 bytes 5\n"));
}

#[test]
fn ask_takes_a_text_that_is_too_long_to_the_box() {
    let folder = Folder::new();
    let path = folder.file("line.table", &table(16, &[]));
    for long in [
        folder.file("long", &[b'x'; 24_001]),
        "/dev/zero".to_string(),
    ] {
        assert_eq!(
            run(&["ask", &path, "1", "WRS M .R", &long]).out(),
            "10 0 0 0 0 0 0\n"
        );
    }
}

#[test]
fn the_lamp_is_green() {
    let folder = Folder::new();
    let path = folder.file("line.table", &table(16, &[("CRD .R", b"")]));
    let sheets = [
        folder.file("limits", b"5.0 V"),
        folder.file("BOARD7", b"4.9 V"),
    ];
    let ran = run(&["job", &path, "1", ".R", &sheets[0], &sheets[1]]);
    assert_eq!(
        (ran.status, ran.out().as_str()),
        (0, "green: sheets filed and read back: 2, stores: 10\n")
    );
    let expected = [
        ("CRD .R", &b""[..]),
        ("WRS M .R:LIMITS", b"5.0 V"),
        ("WRS M .R:BOARD7", b"4.9 V"),
    ];
    assert_eq!(held(&path), table(16, &expected));
    assert_eq!(
        run(&["job", &path, "1", ".R"]).out(),
        "green: sheets filed and read back: 0, stores: 0\n"
    );
}

#[test]
fn the_lamp_is_red() {
    let folder = Folder::new();
    let requests: [(&str, &[u8]); 3] = [("CRD .R", b""), ("CRD .R:B", b""), ("CRD .R:B:C", b"")];
    let path = folder.file("line.table", &table(16, &requests));
    let sheets = [folder.file("a", b"1"), folder.file("b", b"2")];
    let ran = run(&["job", &path, "1", ".R", &sheets[0], &sheets[1]]);
    let red = "red: sheet 2 was not filed: 18 file losing its last entry is a directory with entries (B)\n";
    assert_eq!((ran.status, ran.out().as_str()), (1, red));
    assert_eq!(
        run(&["ask", &path, "1", "RDS .R:A"]).out(),
        "0 0 0 1 0 1 0\n1"
    );
}

#[test]
fn the_lamp_refuses() {
    let folder = Folder::new();
    let before = table(16, &[("CRD .R", b"")]);
    let path = folder.file("line.table", &before);
    let (one, long) = (
        folder.file("limits", b"5.0 V"),
        folder.file("eleven.char", b"4.9 V"),
    );
    let twice = run(&["job", &path, "1", ".R", &one, &one]);
    assert_eq!(
        (twice.status, twice.out().as_str()),
        (2, "refused: sheet 2: name twice (LIMITS)\n")
    );
    let long = run(&["job", &path, "1", ".R", &one, &long]);
    assert_eq!(
        long.out(),
        "refused: sheet 2: a name of 11 bytes, above 10 (ELEVEN.CHAR)\n"
    );
    assert_eq!(long.status, 2);
    assert_eq!(held(&path), before);
    run(&["job", &path, "1", ".R", &folder.at("missing")])
        .fails(&["missing", "the sheet cannot be read"]);
}

#[test]
fn mend_mends_and_says_what() {
    let folder = Folder::new();
    let before = table(16, &[("CRD .R", b"")]);
    let mut cut = before.clone();
    let answer = stopped(&mut cut, "WRS M .R:A", b"x", 1);
    assert_eq!(answer.stores, 1);
    let path = folder.file("cut", &cut);
    let ran = run(&["mend", &path]);
    assert_eq!(
        ran.out(),
        format!("{path}: 16 records, mended: 1 record, cleared or counted anew\n")
    );
    assert_eq!(held(&path), before);
    assert_eq!(
        run(&["mend", &path]).out(),
        format!("{path}: 16 records, nothing to mend\n")
    );
}

/// A directory that holds itself, with a sheet of 30 bytes in it, which its base file no longer leads to; and `.T`.
const LOST: [(&str, &[u8]); 5] = [
    ("CRD .R", b""),
    ("WRS M .R:A", &[b'x'; 30]),
    ("DUP .R .R:LOOP", b""),
    ("DEL .R", b""),
    ("CRD .T", b""),
];

#[test]
fn sweep_says_how_many_records_came_back() {
    let folder = Folder::new();
    let path = folder.file("line.table", &table(16, &LOST));
    let ran = run(&["sweep", &path]);
    // two headings, two entries, two texts
    let said = format!("{path}: 16 records, swept: 6 records came back\n");
    assert_eq!((ran.status, ran.out(), &ran.err[..]), (0, said, ""));
    assert_eq!(
        run(&["ask", &path, "1", "LST ."]).out(),
        "0 0 0 1 0 13 0\nDM.U0    .T\r\n"
    );
    let drawn = run(&["show", &path]).out();
    assert!(drawn.contains(". free 14, D directories 1, F files 0, e entries 1, t text 0"));
    let before = held(&path);
    let ran = run(&["sweep", &path]);
    let said = format!("{path}: 16 records, nothing to sweep\n");
    assert_eq!((ran.status, ran.out()), (0, said));
    assert_eq!(held(&path), before);
}

#[test]
fn sweep_mends_first_and_a_cut_one_is_swept_again() {
    let folder = Folder::new();
    let lost = table(16, &LOST);
    let mut uncut = filebox::Table::of(lost.clone());
    uncut.sweep(filebox::NO_STOP).unwrap();
    for stop in 1..6 {
        let mut cut = filebox::Table::of(lost.clone());
        let answer = cut.sweep(stop).unwrap_err().answer();
        assert_eq!(answer.stores, stop);
        let path = folder.file("cut", cut.as_ref());
        let ran = run(&["sweep", &path]);
        assert!(ran.err.contains("mended: "), "{ran:?}");
        assert_eq!(ran.status, 0);
        assert_eq!(held(&path), uncut.as_ref(), "cut at {stop}");
    }
}

#[test]
fn ask_and_job_mend_first_and_say_so() {
    let folder = Folder::new();
    let mut cut = table(16, &[("CRD .R", b"")]);
    let answer = stopped(&mut cut, "WRS M .R:A", b"x", 2);
    assert_eq!(answer.stores, 2);
    for words in [["ask", "1", "LST .R"], ["job", "1", ".R"]] {
        let path = folder.file("cut", &cut);
        let ran = run(&[words[0], &path, words[1], words[2]]);
        assert_eq!(ran.status, 0);
        assert!(ran.err.contains("mended: 2 records"), "{ran:?}");
    }
}

#[test]
fn a_request_cut_before_its_counts_is_done_and_counted_anew() {
    let folder = Folder::new();
    let mut cut = table(16, &[("CRD .R", b"")]);
    let answer = stopped(&mut cut, "WRS M .R:A", b"x", 3);
    assert_eq!(answer.stores, 3);
    let path = folder.file("cut", &cut);
    // nothing would be cleared
    let drawn = run(&["show", &path]).out();
    assert!(drawn.contains("\n   0 DeFte...........\n"), "{drawn}");
    assert!(drawn.contains("mending would clear 0"), "{drawn}");
    let ran = run(&["mend", &path]);
    assert_eq!(
        ran.out(),
        format!("{path}: 16 records, mended: 2 records, cleared or counted anew\n")
    );
    let expected = [("CRD .R", &b""[..]), ("WRS M .R:A", b"x")];
    assert_eq!(held(&path), table(16, &expected));
}

#[test]
fn a_sheet_is_withdrawn_from_every_shift() {
    let folder = Folder::new();
    let requests: [(&str, &[u8]); 2] = [("CRD .R", b""), ("WRS M .R:KEYS", b"9 9 9")];
    let mut bytes = table(16, &requests);
    let mut of_two = filebox::Table::of(&mut bytes[..]);
    of_two.ask(777, "CRD .G").unwrap();
    of_two.ask(1, "DUP .R:KEYS .000777:KEYS").unwrap();
    let path = folder.file("line.table", &bytes);
    let ran = run(&["ask", &path, "777", "RDS .G:KEYS"]);
    assert_eq!(ran.out(), "0 0 0 1 0 5 0\n9 9 9");
    let ran = run(&["ask", &path, "1", "DST .R:KEYS"]);
    assert_eq!(ran.out(), "0 0 0 1 0 0 6\n");
    let ran = run(&["ask", &path, "777", "RDS .G:KEYS"]);
    assert_eq!((ran.status, &ran.out()[..]), (1, "11 1 2 0 0 0 0\n"));
}

#[test]
fn show_marks_the_entries_of_a_cut_dst() {
    let folder = Folder::new();
    let requests: [(&str, &[u8]); 3] = [
        ("CRD .R", b""),
        ("WRS M .R:A", b"x"),
        ("DUP .R:A .ABC", b""),
    ];
    let mut bytes = table(8, &requests);
    let cut = stopped(&mut bytes, "DST .ABC", b"", 2);
    assert_eq!(cut.stores, 2);
    let path = folder.file("cut", &bytes);
    let drawn = run(&["show", &path]).out();
    assert!(drawn.contains("   0 De..xx..\n"), "{drawn}");
    assert!(drawn.contains("mending would clear 2"), "{drawn}");
    assert!(!drawn.contains("ABC"), "{drawn}");
}

#[test]
fn a_table_without_counts_is_brought_up_to_date() {
    let folder = Folder::new();
    let requests: [(&str, &[u8]); 3] = [
        ("CRD .R", b""),
        ("WRS M .R:A", b"5.0 V"),
        ("DUP .R .R:UP", b""),
    ];
    let counted = table(16, &requests);
    let mut old = counted.clone();
    for heading in old.chunks_mut(32).filter(|record| record[0] == 1) {
        heading[12..16].fill(0);
    }
    let path = folder.file("old", &old);
    let ran = run(&["ask", &path, "1", "RDS .R:A"]);
    assert_eq!(ran.out(), "0 0 0 1 0 5 0\n5.0 V");
    assert!(ran.err.contains("mended: 2 records"), "{ran:?}");
    assert_eq!(held(&path), counted);
}

/// A table of six-bit names, and as it was before.
fn six_and_old() -> (Vec<u8>, Vec<u8>) {
    let requests: [(&str, &[u8]); 3] = [
        ("CRD .R", b""),
        ("WRS M .R:LONGNAME10", b"5.0 V"),
        ("DUP .R .R:UP", b""),
    ];
    let six = table(16, &requests);
    let mut old = six.clone();
    assert_eq!(filebox::from_six(&mut old), filebox::Number::Done);
    assert_ne!(old, six);
    (six, old)
}

#[test]
fn convert_brings_an_old_table_to_six_bit_names() {
    let folder = Folder::new();
    let (six, old) = six_and_old();
    let path = folder.file("old", &old);
    fs::set_permissions(&path, PermissionsExt::from_mode(0o640)).unwrap();
    let before = fs::metadata(&path).unwrap();
    let ran = run(&["convert", &path]);
    let said = format!("{path}: 16 records, converted to six-bit names, entries: 3\n");
    assert_eq!((ran.status, ran.out(), ran.err.as_str()), (0, said, ""));
    assert_eq!(held(&path), six);
    // another file, with the same permissions, and nothing beside it
    let after = fs::metadata(&path).unwrap();
    assert_ne!(after.ino(), before.ino());
    assert_eq!(after.mode(), before.mode());
    assert_eq!(fs::read_dir(folder.at("")).unwrap().count(), 1);
    assert_eq!(
        run(&["ask", &path, "1", "RDS .R:LONGNAME10"]).out(),
        "0 0 0 1 0 5 0\n5.0 V"
    );
}

#[test]
fn convert_leaves_six_bit_names_as_they_are() {
    let folder = Folder::new();
    let (six, old) = six_and_old();
    let path = folder.file("old", &old);
    run(&["convert", &path]);
    let before = fs::metadata(&path).unwrap();
    let ran = run(&["convert", &path]);
    let said = format!("{path}: 16 records, names are six-bit already\n");
    assert_eq!((ran.status, ran.out()), (0, said));
    assert_eq!(held(&path), six);
    assert_eq!(fs::metadata(&path).unwrap().ino(), before.ino());
    // cut, and not mended yet
    let mut cut = six.clone();
    let answer = stopped(&mut cut, "WRS M .R:A", b"x", 1);
    assert_eq!(answer.stores, 1);
    let path = folder.file("cut", &cut);
    assert!(run(&["convert", &path]).out().contains("six-bit already"));
    assert_eq!(held(&path), cut);
    // without entries there is nothing to convert
    for bytes in [0, 64] {
        let path = folder.file("free", &vec![0; bytes]);
        assert!(run(&["convert", &path]).out().contains("no entries"));
        assert_eq!(held(&path), vec![0; bytes]);
    }
}

#[test]
fn convert_goes_by_a_link_and_over_what_a_cut_left() {
    let folder = Folder::new();
    let (six, old) = six_and_old();
    let path = folder.file("old", &old);
    folder.file("old.converting", &old[..40]);
    let link = folder.at("link");
    symlink(&path, &link).unwrap();
    assert_eq!(run(&["convert", &link]).status, 0);
    assert_eq!((held(&path), held(&link)), (six.clone(), six));
    assert!(fs::symlink_metadata(&link).unwrap().is_symlink());
    assert_eq!(fs::read_dir(folder.at("")).unwrap().count(), 2);
}

#[test]
fn convert_waits_for_no_other_host() {
    let folder = Folder::new();
    let path = folder.file("line.table", &six_and_old().0);
    let _serving = Serving::start(&["serve", &path], 1);
    run(&["convert", &path]).fails(&[&path, "another host has this table"]);
}

#[test]
fn show_draws_trees_loops_and_a_map() {
    let folder = Folder::new();
    let requests: [(&str, &[u8]); 6] = [
        ("CRD .R .P4", b""),
        ("WRS L.A1 .R:AUDIT", &[b'x'; 30]),
        ("DUP .R:AUDIT .R:SAME .2", b""),
        ("DUP .R .R:UP", b""),
        ("DUP .R .G", b""),
        ("CRD .R:LAST", b""),
    ];
    let mut bytes = table(20, &requests);
    let mut of_two = filebox::Table::of(&mut bytes[..]);
    of_two.ask(2, "CRD .T").unwrap();
    let cut = stopped(&mut bytes, "WRS M .R:CUT", b"x", 2);
    assert_eq!(cut.stores, 2);
    let path = folder.file("line.table", &bytes);
    let picture = "\
user 1
  .G                             DM.P4 directory, code of the file 4
    AUDIT                        FL.A1 bytes 30, code of the file 1
    LAST                         DM.U0 directory
    SAME                         FL.A3 bytes 30, code of the file 1
    UP                           DM.P4 directory, code of the file 4, a loop: it is above, on the way here
  .R                             DM.P4 directory, code of the file 4, drawn above

user 2
  .T                             DM.U0 directory

   0 DeFtteeeeDeDexx.....

. free 5, D directories 3, F files 1, e entries 7, t text 2, x mending would clear 2
";
    let ran = run(&["show", &path]);
    assert_eq!(ran.out(), format!("{path}: 20 records\n\n{picture}"));
    assert_eq!(held(&path), bytes);
}

#[test]
fn show_draws_a_loop_that_no_base_file_reaches_and_an_empty_table() {
    let folder = Folder::new();
    let requests: [(&str, &[u8]); 4] = [
        ("CRD .R", b""),
        ("DUP .R .R:A", b""),
        ("CRD .R:B", b""),
        ("DEL .R", b""),
    ];
    let path = folder.file("lost", &table(70, &requests));
    let drawn = run(&["show", &path]).out();
    assert!(drawn.contains("no user has a file\n"), "{drawn}");
    let lost = "no base file reaches the directory in record 0\n    A                            DM.U0 directory, a loop";
    assert!(drawn.contains(lost), "{drawn}");
    assert!(
        drawn.contains("    B                            DM.U0 directory\n"),
        "{drawn}"
    );
    assert!(drawn.contains("\n  64 ......\n"), "{drawn}");
    let empty = folder.file("empty", b"");
    assert!(run(&["show", &empty]).out().contains("0 records"));
}

#[test]
fn help_says_every_command_and_its_examples_work() {
    let help = run(&["--help"]);
    assert_eq!((help.status, help.err.as_str()), (0, ""));
    assert_eq!(run(&["serve", "--help"]).out(), help.out());
    for word in [
        "serve",
        "ask",
        "job",
        "mend",
        "sweep",
        "convert",
        "show",
        "--records",
        "--user",
        "--journal",
        "--fixture",
        "DPR",
        "LST* name digit",
        "WRS* M name",
        "Status",
    ] {
        assert!(help.out().contains(word), "{word}");
    }
    assert!(help.out().lines().all(|line| line.len() <= 160));
    let folder = Folder::new();
    let path = folder.at("line1.table");
    assert_eq!(run(&["serve", &path]).status, 0);
    let limits = folder.file("limits", b"5.0 V\n");
    assert_eq!(run(&["ask", &path, "1", "CRD .R"]).out(), "0 0 0 1 0 0 3\n");
    assert_eq!(run(&["job", &path, "1", ".R", &limits]).status, 0);
    assert_eq!(
        run(&["ask", &path, "1", "RDS .R:LIMITS"]).out(),
        "0 0 0 1 0 6 0\n5.0 V\n"
    );
    assert_eq!(
        run(&["ask", &path, "1", "LST* . 2"]).out(),
        "0 0 0 1 0 32 0\nDM.U0    .R\r\n  FM.U0    LIMITS\r\n"
    );
    assert!(run(&["show", &path]).out().contains("LIMITS"));
}
