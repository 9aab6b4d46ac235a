//! `serve` on standard input: document 01's program, with its table in a file.

mod common;

use common::{ended, held, program, run, run_with, stopped, table, Folder, Serving};
use random::Random;

const SCRIPT: &[u8] = b"CRD .R\nWRS M .R:LIMITS\n5.0 V\nRDS .R:LIMITS\nLST .R\nRDS .R:KEYS\n";
const ANSWERS: &str =
    "0 0 0 1 0 0 3\n0 0 0 1 0 0 5\n0 0 0 1 0 5 0\n5.0 V0 0 0 1 0 17 0\nFM.U0    LIMITS\r\n11 1 2 0 0 0 0\n";

#[test]
fn it_makes_the_file_and_answers_as_the_program_does() {
    let folder = Folder::new();
    let path = folder.at("line.table");
    let ran = run_with(&["serve", &path], SCRIPT);
    assert_eq!((ran.status, ran.out().as_str()), (0, ANSWERS), "{ran:?}");
    assert!(
        ran.err.contains("a new table") && ran.err.contains("1024 records"),
        "{ran:?}"
    );
    let expected = table(1_024, &[("CRD .R", b""), ("WRS M .R:LIMITS", b"5.0 V")]);
    assert!(held(&path) == expected);
}

#[test]
fn a_rewrite_takes_the_next_line_as_its_text() {
    let folder = Folder::new();
    let path = folder.at("line.table");
    let script = b"CRD .R\nWRS M .R:LIMITS\n5.0 V\nDUP .R:LIMITS .R:BOARD7\nWRS* M .R:LIMITS\n4.9 V\nRDS .R:BOARD7\nWRS* L .R:LIMITS\nLST .\n";
    let answers = "0 0 0 1 0 0 3\n0 0 0 1 0 0 5\n0 0 0 1 0 0 3\n0 0 0 1 0 0 4\n0 0 0 1 0 5 0\n4.9 V9 1 0 0 0 0 0\n";
    let ran = run_with(&["serve", &path], script);
    assert_eq!((ran.status, ran.out().as_str()), (0, answers), "{ran:?}");
}

#[test]
fn it_keeps_the_table_and_says_that_nothing_is_to_be_mended() {
    let folder = Folder::new();
    let path = folder.at("line.table");
    run_with(&["serve", &path], SCRIPT);
    let ran = run_with(&["serve", &path], b"RDS .R:LIMITS\n");
    assert_eq!(
        (ran.status, ran.out().as_str()),
        (0, "0 0 0 1 0 5 0\n5.0 V")
    );
    assert_eq!(ran.err, format!("{path}: 1024 records, nothing to mend\n"));
}

#[test]
fn it_has_as_many_records_as_are_asked_for() {
    let folder = Folder::new();
    for (records, bytes) in [("0", 0), ("1", 32), ("2048", 65_536)] {
        let path = folder.at(records);
        assert_eq!(run(&["serve", &path, "--records", records]).status, 0);
        assert_eq!(held(&path).len(), bytes);
    }
    let path = folder.file("full", &table(2, &[("CRD .R", b"")]));
    let ran = run_with(&["serve", &path, "--records", "2"], b"CRD .R:A\n");
    assert_eq!(ran.out(), "19 0 0 0 0 0 0\n");
    let empty = folder.file("empty", b"");
    assert_eq!(
        run_with(&["serve", &empty, "--records", "2"], b"CRD .R\n").out(),
        "0 0 0 1 0 0 3\n"
    );
}

#[test]
fn another_count_of_records_than_the_file_has_is_refused() {
    let folder = Folder::new();
    let before = table(4, &[("CRD .R", b"")]);
    let path = folder.file("four", &before);
    run(&["serve", &path, "--records", "5"]).fails(&[&path, "leave it out"]);
    assert_eq!(held(&path), before);
}

#[test]
fn it_acts_for_user_1_or_for_the_user_that_is_said() {
    let folder = Folder::new();
    let path = folder.at("line.table");
    assert_eq!(
        run_with(&["serve", &path], b"CRD .R\n").out(),
        "0 0 0 1 0 0 3\n"
    );
    assert_eq!(
        run_with(&["serve", &path, "--user", "7"], b"LST .R\nCRD .G\n").out(),
        "11 1 1 0 0 0 0\n0 0 0 1 0 0 3\n"
    );
    assert_eq!(
        run_with(&["serve", &path, "--user", "1"], b"LST .\n").out(),
        "0 0 0 1 0 13 0\nDM.U0    .R\r\n"
    );
}

#[test]
fn on_noise_and_on_requests_it_prints_what_the_second_program_prints() {
    let folder = Folder::new();
    let mut random = Random::new(1971);
    let mut requests = Vec::new();
    for _ in 0..500 {
        requests.extend(random::lines::line(&mut random));
        requests.push(10);
    }
    let unended = [&requests[..], b"WRS M .R:A"].concat();
    let inputs = [
        b"".to_vec(),
        b"\n".to_vec(),
        b"LST .".to_vec(),
        random.bytes(50_000),
        requests,
        unended,
    ];
    for (number, input) in inputs.iter().enumerate() {
        let mut expected = Vec::new();
        beside::run(&input[..], &mut expected).unwrap();
        let ran = run_with(&["serve", &folder.at(&format!("table{number}"))], input);
        assert_eq!(ran.status, 0);
        assert!(ran.out == expected, "input {number}");
    }
}

#[test]
fn what_a_cut_left_is_mended_and_that_is_said() {
    let folder = Folder::new();
    let before = table(16, &[("CRD .R", b"")]);
    let mut cut = before.clone();
    let answer = stopped(&mut cut, "WRS M .R:A", &[b'x'; 100], 4);
    assert_eq!(answer.number, filebox::Number::Stopped);
    let path = folder.file("cut", &cut);
    let ran = run_with(&["serve", &path], b"LST .R\n");
    assert_eq!(ran.out(), "0 0 0 1 0 0 0\n");
    assert!(
        ran.err
            .contains("mended: 4 records, cleared or counted anew"),
        "{ran:?}"
    );
    assert_eq!(held(&path), before);
}

#[test]
fn a_second_host_is_refused() {
    let folder = Folder::new();
    let path = folder.at("line.table");
    let sheet = folder.file("sheet", b"5.0 V");
    let _serving = Serving::start(&["serve", &path], 2);
    let before = held(&path);
    let seconds: [&[&str]; 6] = [
        &["serve", &path],
        &["ask", &path, "1", "CRD .R"],
        &["job", &path, "1", ".R", &sheet],
        &["mend", &path],
        &["sweep", &path],
        &["show", &path],
    ];
    for words in seconds {
        run(words).fails(&[&path, "another host has this table"]);
    }
    assert_eq!(held(&path), before);
}

#[test]
fn a_host_that_was_killed_leaves_no_lock() {
    let folder = Folder::new();
    let path = folder.at("line.table");
    drop(Serving::start(&["serve", &path], 2));
    assert_eq!(
        run_with(&["serve", &path], b"CRD .R\n").out(),
        "0 0 0 1 0 0 3\n"
    );
}

#[test]
fn every_request_is_in_the_journal() {
    let folder = Folder::new();
    let (path, journal) = (folder.at("line.table"), folder.at("journal"));
    let input = b"WRS M .R\n5.0 V\nRDS .R\n";
    run_with(
        &["serve", &path, "--journal", &journal, "--user", "3"],
        input,
    );
    assert_eq!(held(&journal), b"0 3 8 5\nWRS M .R5.0 V\n0 3 6 0\nRDS .R\n");
    run_with(&["serve", &path, "--journal", &journal], b"\n");
    assert!(held(&journal).ends_with(b"\n0 1 0 0\n\n"));
}

#[test]
fn answers_that_cannot_be_written_end_it() {
    let folder = Folder::new();
    let path = folder.at("line.table");
    let full = std::fs::File::options()
        .write(true)
        .open("/dev/full")
        .unwrap();
    let mut command = program();
    let mut child = command
        .args(["serve", &path])
        .stdout(full)
        .stderr(std::process::Stdio::null());
    child = child.stdin(std::process::Stdio::piped());
    let mut child = child.spawn().unwrap();
    use std::io::Write;
    let _ = child.stdin.take().unwrap().write_all(b"CRD .R\n");
    assert_eq!(child.wait().unwrap().code(), Some(3));
    assert_eq!(
        ended(program().args(["ask", &path, "1", "LST ."]), b"").status,
        0
    );
}
