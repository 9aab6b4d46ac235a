//! Bad input: a clear error, status 3, and the file as it was.

mod common;

use std::process::Command;

use common::{ended, held, run, table, Folder};

/// Every command that opens a table, with this one.
fn commands<'a>(path: &'a str, sheet: &'a str) -> [Vec<&'a str>; 7] {
    [
        vec!["serve", path],
        vec!["ask", path, "1", "CRD .R"],
        vec!["job", path, "1", ".R", sheet],
        vec!["mend", path],
        vec!["sweep", path],
        vec!["convert", path],
        vec!["show", path],
    ]
}

#[test]
fn a_length_that_no_table_has() {
    let folder = Folder::new();
    let sheet = folder.file("sheet", b"5.0 V");
    for bytes in [1, 31, 33, 65_535, 65_537, 65_568, 200_000] {
        let path = folder.file("no-table", &vec![0; bytes]);
        for words in commands(&path, &sheet) {
            run(&words).fails(&[
                &path,
                "is no table: a table has 0 to 2,048 records of 32 bytes",
                "It is as it was",
            ]);
            assert_eq!(held(&path), vec![0; bytes]);
        }
    }
}

#[test]
fn a_table_that_is_not_to_be_mended() {
    let folder = Folder::new();
    let sheet = folder.file("sheet", b"5.0 V");
    // an entry of a sheet in that very sheet, a heading and no directory
    let mut astray = [0; 64];
    astray[..5].copy_from_slice(&[2, 0, 1, 0, 1]);
    astray[16..18].copy_from_slice(&[64, 8]);
    astray[32..37].copy_from_slice(&[1, 1, 0, 0, 1]);
    let text = vec![b'#'; 1_024];
    let mut half = table(8, &[("WRS M .R", &[b'x'; 48])]);
    half[64..96].fill(0);
    for bytes in [&astray[..], &text, &half] {
        let path = folder.file("not-sound", bytes);
        for words in commands(&path, &sheet) {
            let why = match words[0] {
                "convert" => "sound neither as an old one nor with six-bit names",
                _ => "mending does not make it sound",
            };
            run(&words).fails(&[&path, why, "It is as it was"]);
            assert_eq!(held(&path), bytes);
        }
    }
}

#[test]
fn an_old_table_is_refused_and_the_advice_is_right() {
    let folder = Folder::new();
    let sheet = folder.file("sheet", b"5.0 V");
    let six = table(16, &[("CRD .R", b""), ("WRS M .R:A", b"5.0 V")]);
    let mut old = six.clone();
    assert_eq!(filebox::from_six(&mut old), filebox::Number::Done);
    let path = folder.file("old", &old);
    for words in commands(&path, &sheet) {
        if words[0] != "convert" {
            let advice = format!("`filebox-host convert {path}` brings it to six-bit names");
            run(&words).fails(&[&path, "is an old table", "It is as it was", &advice]);
            assert_eq!(held(&path), old);
        }
    }
    assert_eq!(run(&["convert", &path]).status, 0);
    assert_eq!(held(&path), six);
    assert_eq!(run(&["ask", &path, "1", "RDS .R:A"]).status, 0);
}

#[test]
fn an_old_table_that_was_cut_is_not_converted() {
    let folder = Folder::new();
    let mut old = table(16, &[("CRD .R", b"")]);
    assert_eq!(filebox::from_six(&mut old), filebox::Number::Done);
    // the heading of a directory whose entry was not stored
    old[64..69].copy_from_slice(&[1, 0, 0, 0, 1]);
    let path = folder.file("old", &old);
    run(&["convert", &path]).fails(&[&path, "mended by the host that wrote it"]);
    assert_eq!(held(&path), old);
}

#[test]
fn no_room_for_the_converted_table() {
    let folder = Folder::new();
    let mut old = table(2_048, &[("CRD .R", b"")]);
    assert_eq!(filebox::from_six(&mut old), filebox::Number::Done);
    let path = folder.file("old", &old);
    let limited = "trap '' XFSZ; ulimit -f 8; exec \"$0\" convert \"$1\"";
    let host = env!("CARGO_BIN_EXE_filebox-host");
    let ran = ended(Command::new("bash").args(["-c", limited, host, &path]), b"");
    ran.fails(&[&path, "cannot be replaced", "The disk is full"]);
    assert_eq!(held(&path), old);
    assert!(!std::path::Path::new(&format!("{path}.converting")).exists());
}

#[test]
fn no_file_is_made_but_by_serve() {
    let folder = Folder::new();
    let path = folder.at("missing");
    let sheet = folder.file("sheet", b"5.0 V");
    for words in &commands(&path, &sheet)[1..] {
        run(words).fails(&[&path, "there is no such file", "filebox-host serve"]);
        assert!(!std::path::Path::new(&path).exists());
    }
    let path = folder.at("no-folder/line.table");
    run(&["serve", &path]).fails(&[&path, "there is no such file"]);
}

#[test]
fn a_file_that_cannot_be_written() {
    let folder = Folder::new();
    let sheet = folder.file("sheet", b"5.0 V");
    let directory = folder.at("");
    for words in &commands(&directory, &sheet)[..5] {
        run(words).fails(&[&directory, "cannot be opened", "ordinary file"]);
    }
    // a program that runs is written by nobody, whoever asks
    let running = env!("CARGO_BIN_EXE_filebox-host");
    for words in &commands(running, &sheet)[..5] {
        run(words).fails(&[running, "cannot be opened"]);
    }
}

#[test]
fn a_device_is_no_table() {
    let folder = Folder::new();
    let sheet = folder.file("sheet", b"5.0 V");
    run(&["serve", "/dev/full"]).fails(&["/dev/full", "cannot be made"]);
    for words in &commands("/dev/zero", &sheet)[1..] {
        run(words).fails(&["/dev/zero", "is no table"]);
    }
}

#[test]
fn a_full_disk() {
    let folder = Folder::new();
    let path = folder.at("line.table");
    // no file of this shell and what it starts may have more than 8 KiB; the signal that would end it is ignored
    let limited = "trap '' XFSZ; ulimit -f 8; exec \"$0\" serve \"$1\" --records \"$2\"";
    let host = env!("CARGO_BIN_EXE_filebox-host");
    let with = |records: &str| {
        ended(
            Command::new("bash").args(["-c", limited, host, &path, records]),
            b"",
        )
    };
    with("2048").fails(&[&path, "cannot be made", "The disk is full"]);
    assert_eq!(held(&path), b"");
    assert_eq!(with("256").status, 0);
    assert_eq!(held(&path).len(), 8_192);
}

#[test]
fn a_command_line_that_is_none() {
    let folder = Folder::new();
    let path = folder.at("line.table");
    let bad: [&[&str]; 18] = [
        &[],
        &["serve"],
        &["dance", &path],
        &["mend", &path, "now"],
        &["sweep"],
        &["sweep", &path, "1"],
        &["convert"],
        &["convert", &path, "back"],
        &["ask", &path, "1"],
        &["ask", &path, "1000000", "LST ."],
        &["ask", &path, "me", "LST ."],
        &["serve", &path, "--records"],
        &["serve", &path, "--records", "2049"],
        &["serve", &path, "--records", "-1"],
        &["serve", &path, "--fixture", "127.0.0.1:0"],
        &["serve", &path, "--fixture", "127.0.0.1:0=1000000"],
        &["serve", &path, "--user", "1", "--fixture", "127.0.0.1:0=1"],
        &["serve", &path, "--wire", "1"],
    ];
    for words in bad {
        run(words).fails(&["--help"]);
    }
    assert!(!std::path::Path::new(&path).exists());
    run(&["serve", &path, "--journal", &folder.at("no/journal")])
        .fails(&["the journal cannot be opened"]);
}
