//! The writing over a disk that notes what is asked of it, and fails when it is told to.

mod common;

use std::cell::RefCell;
use std::io::{self, BufRead, BufReader};
use std::net::TcpListener;
use std::rc::Rc;
use std::sync::atomic::{AtomicBool, Ordering};
use std::sync::{Arc, Mutex};
use std::thread;

use common::{stopped, table, Connection};
use filebox::{Number, Sheet};
use host::desk::{Desk, Place};
use host::fixtures::{serve_all, Fixture};
use host::line::Unended;
use host::serve::{serve, Stopped};
use host::{Disk, Job, Kept, Request, Wrong};

/// A disk in memory, and a word for each call: the record written, or a bar for a flush.
#[derive(Clone, Default)]
struct Noted {
    bytes: Rc<RefCell<Vec<u8>>>,
    calls: Rc<RefCell<Vec<String>>>,
    /// The call that fails, counted from now, if one does.
    fails: Rc<RefCell<Option<usize>>>,
}

impl Noted {
    fn call(&self, word: String) -> io::Result<()> {
        let mut fails = self.fails.borrow_mut();
        if *fails == Some(0) {
            *fails = None;
            return Err(io::Error::other("out of order"));
        }
        *fails = fails.map(|calls| calls - 1);
        self.calls.borrow_mut().push(word);
        Ok(())
    }
}

impl Disk for Noted {
    fn read(&mut self) -> io::Result<Vec<u8>> {
        Ok(self.bytes.borrow().clone())
    }

    fn write(&mut self, record: usize, bytes: &[u8]) -> io::Result<()> {
        self.call(record.to_string())?;
        self.bytes.borrow_mut()[record * 32..][..32].copy_from_slice(bytes);
        Ok(())
    }

    fn flush(&mut self) -> io::Result<()> {
        self.call("|".to_string())
    }
}

/// A host over a noted disk with this table.
fn kept(table: &[u8]) -> (Kept<Noted>, Noted) {
    let disk = Noted::default();
    *disk.bytes.borrow_mut() = table.to_vec();
    let (kept, _) = Kept::open(disk.clone()).unwrap();
    disk.calls.borrow_mut().clear();
    (kept, disk)
}

fn ask(kept: &mut Kept<Noted>, line: &str, text: &[u8]) -> Result<filebox::Answer, Wrong> {
    let request = Request {
        user: 1,
        line: line.as_bytes(),
        text,
    };
    kept.request(request, &mut [0; 24_000])
}

/// The calls of a request on a table of 12 records in which `.R` is in 0 and 1 and `.R:A`, of 30 bytes, in 2 to 5.
fn calls(line: &str, text: &[u8]) -> (Number, String) {
    let (mut kept, disk) = kept(&table(12, &[("CRD .R", b""), ("WRS M .R:A", &[b'x'; 30])]));
    let answer = ask(&mut kept, line, text).unwrap();
    assert_eq!(&disk.bytes.borrow()[..], kept.table());
    let calls = disk.calls.borrow().join(" ");
    (answer.number, calls)
}

#[test]
fn three_phases_a_flush_after_each_and_none_for_an_empty_one() {
    let done = |calls: &str| (Number::Done, calls.to_string());
    assert_eq!(calls("CRD .R:B", b""), done("6 | 7 | 0 |"));
    assert_eq!(calls("WRS M .R:B", &[b'y'; 25]), done("6 7 8 | 9 | 0 |"));
    assert_eq!(
        calls("WRS M .R:A", &[b'y'; 25]),
        done("6 7 8 | 5 | 2 3 4 |")
    );
    assert_eq!(calls("CPY .R:A .R:A", b""), done("6 7 8 | 5 | 2 3 4 |"));
    assert_eq!(calls("DUP .R:A .R:B", b""), done("6 | 0 2 |"));
    assert_eq!(calls("CHN .R:A B", b""), done("5 |"));
    assert_eq!(calls("DPR .R:A .4", b""), done("2 |"));
    assert_eq!(calls("DEL .R:A", b""), done("5 | 0 2 3 4 |"));
    assert_eq!(calls("RDS .R:A", b""), done(""));
    assert_eq!(calls("LST .R", b""), done(""));
    assert_eq!(calls("DUP .R:A .R:A", b""), done(""));
    assert_eq!(
        calls("CRD .T:B", b""),
        (Number::NameNotThere, String::new())
    );
}

#[test]
fn a_rewrite_marks_its_heading_then_writes_all_text_then_takes_the_mark_off() {
    let done = |calls: &str| (Number::Done, calls.to_string());
    let three = done("2 | 3 4 | 2 |");
    // two blocks, one, none: what the old text leaves is cleared with the new text
    assert_eq!(calls("WRS* M .R:A", &[b'y'; 25]), three);
    assert_eq!(calls("WRS* M .R:A", b"y"), three);
    assert_eq!(calls("WRS* M .R:A", b""), three);
    assert_eq!(calls("WRS* M .R:A", &[b'y'; 60]), done("2 | 3 4 6 | 2 |"));
    // a block that is in its place already is not written, and the same text not at all
    let other = [&[b'x'; 24][..], b"y"].concat();
    assert_eq!(calls("WRS* M .R:A", &other), done("2 | 4 | 2 |"));
    assert_eq!(calls("WRS* M .R:A", &[b'x'; 30]), done(""));
    for (line, number) in [
        ("WRS* M .R", Number::WrongType),
        ("WRS* L .R:A", Number::DeclarationUnfit),
        ("WRS* M .R:B", Number::NameNotThere),
    ] {
        assert_eq!(calls(line, b"y"), (number, String::new()), "{line}");
    }
}

/// A table of 12 records in which `.R:A`, of 30 bytes in 2 to 4, was left marked and empty by a cut; `.R:B` is another entry of it.
fn marked() -> Vec<u8> {
    let requests: [(&str, &[u8]); 3] = [
        ("CRD .R", b""),
        ("WRS M .R:A", &[b'x'; 30]),
        ("DUP .R:A .R:B", b""),
    ];
    let mut table = table(12, &requests);
    let cut = stopped(&mut table, "WRS* M .R:A", b"y", 3);
    assert_eq!((cut.number, cut.stores), (Number::Stopped, 3));
    table
}

#[test]
fn a_marked_file_is_repaired_in_two_phases_and_is_otherwise_a_file_as_any() {
    let asked = |line: &str, text: &[u8]| {
        let (mut kept, disk) = kept(&marked());
        let answer = ask(&mut kept, line, text).unwrap();
        assert_eq!(&disk.bytes.borrow()[..], kept.table());
        let calls = disk.calls.borrow().join(" ");
        (answer.number, calls)
    };
    let done = |calls: &str| (Number::Done, calls.to_string());
    assert_eq!(asked("WRS* M .R:B", &[b'y'; 30]), done("3 4 | 2 |"));
    assert_eq!(asked("WRS* M .R:A", b""), done("2 |"));
    // a marked file somewhere makes no other request a rewrite
    assert_eq!(asked("WRS M .R:C", b"y"), done("3 4 | 7 | 0 |"));
    assert_eq!(asked("DPR .R:A .4", b""), done("2 |"));
    assert_eq!(asked("DUP .R:A .R:C", b""), done("3 | 0 2 |"));
    assert_eq!(asked("DEL .R:A .R:B", b""), done("5 | 0 2 | 6 | 0 2 |"));
    assert_eq!(asked("RDS .R:A", b""), (Number::Marked, String::new()));
}

#[test]
fn after_a_disk_error_in_a_rewrite_it_is_as_before_or_marked_or_rewritten() {
    let before = table(12, &[("CRD .R", b""), ("WRS M .R:A", &[b'x'; 30])]);
    // the mark, a flush, two records of text, a flush, the heading, a flush; what a call before wrote is in the machine's memory
    for fails in 0..7 {
        let (mut kept, disk) = kept(&before);
        *disk.fails.borrow_mut() = Some(fails);
        let Err(Wrong::Disk(_)) = ask(&mut kept, "WRS* M .R:A", &[b'y'; 25]) else {
            panic!("answered, though call {fails} failed");
        };
        let answer = ask(&mut kept, "RDS .R:A", b"").unwrap();
        let expected = match fails {
            0 => (Number::Done, 30),
            1..=5 => (Number::Marked, 0),
            _ => (Number::Done, 25),
        };
        assert_eq!((answer.number, answer.bytes), expected, "call {fails}");
        // and the next rewrite is whole
        let again = ask(&mut kept, "WRS* M .R:A", &[b'z'; 30]).unwrap();
        assert_eq!(again.number, Number::Done);
        assert_eq!(ask(&mut kept, "RDS .R:A", b"").unwrap().bytes, 30);
        assert_eq!(&disk.bytes.borrow()[..], kept.table());
    }
}

#[test]
fn a_del_goes_name_by_name() {
    let requests: [(&str, &[u8]); 4] = [
        ("CRD .R", b""),
        ("WRS M .R:A", b"1"),
        ("DUP .R:A .R:B", b""),
        ("CRD .R:C", b""),
    ];
    let before = table(12, &requests);
    let deleted = |line| {
        let (mut kept, disk) = kept(&before);
        let answer = ask(&mut kept, line, b"").unwrap();
        let calls = disk.calls.borrow().join(" ");
        (answer.numbers(), calls)
    };
    assert_eq!(
        deleted("DEL .R:A .R:B .R:C"),
        (
            [0, 0, 0, 3, 0, 0, 3 + 5 + 4],
            "4 | 0 2 | 5 | 0 2 3 | 7 | 0 6 |".to_string()
        )
    );
    assert_eq!(
        deleted("DEL .R:C .R:B .R : A .R"),
        (
            [0, 0, 0, 4, 0, 0, 4 + 3 + 5 + 3],
            "7 | 0 6 | 5 | 0 2 | 4 | 0 2 3 | 1 | 0 |".to_string()
        )
    );
    assert_eq!(
        deleted("DEL .R:A .R:B .R:B .R:C"),
        (
            [11, 3, 2, 2, 0, 0, 3 + 5],
            "4 | 0 2 | 5 | 0 2 3 |".to_string()
        )
    );
}

#[test]
fn a_dst_clears_its_heading_then_all_else_name_by_name() {
    let requests: [(&str, &[u8]); 5] = [
        ("CRD .R", b""),
        ("WRS M .R:A", &[b'x'; 30]),
        ("DUP .R:A .ABC", b""),
        ("CRD .R:D", b""),
        ("DUP .R:A .R:D:A", b""),
    ];
    let before = table(14, &requests);
    let destroyed = |line| {
        let (mut kept, disk) = kept(&before);
        let answer = ask(&mut kept, line, b"").unwrap();
        assert_eq!(&disk.bytes.borrow()[..], kept.table());
        let calls = disk.calls.borrow().join(" ");
        (answer.numbers(), calls)
    };
    // heading, two texts, three entries, the counts of `.R` and D
    let sheet = "2 | 0 3 4 5 6 7 9 |";
    let done = ([0, 0, 0, 1, 0, 0, 8], sheet.to_string());
    assert_eq!(destroyed("DST .R:A"), done);
    assert_eq!(destroyed("DST .R:D:A"), done);
    assert_eq!(
        destroyed("DST .R:A .R:D .R"),
        (
            [0, 0, 0, 3, 0, 0, 8 + 3 + 2],
            format!("{sheet} 7 | 0 8 | 0 | 1 |")
        )
    );
    assert_eq!(
        destroyed("DST .ABC .R:D .R:A .R"),
        ([11, 3, 2, 2, 0, 0, 8 + 3], format!("{sheet} 7 | 0 8 |"))
    );
    assert_eq!(
        destroyed("DST .R:D"),
        ([18, 1, 2, 0, 0, 0, 0], String::new())
    );
}

#[test]
fn after_a_disk_error_in_a_dst_the_file_is_there_or_gone_everywhere() {
    let requests: [(&str, &[u8]); 3] = [
        ("CRD .R", b""),
        ("WRS M .R:A", b"5.0 V"),
        ("DUP .R:A .ABC", b""),
    ];
    let before = table(10, &requests);
    // the heading, a flush, the count of `.R`, the text and two entries, a flush
    for fails in 0..7 {
        let (mut kept, disk) = kept(&before);
        *disk.fails.borrow_mut() = Some(fails);
        let Err(Wrong::Disk(_)) = ask(&mut kept, "DST .ABC", b"") else {
            panic!("answered, though call {fails} failed");
        };
        let expected = match fails {
            0 => Number::Done,
            _ => Number::NameNotThere,
        };
        for name in ["RDS .R:A", "RDS .ABC"] {
            let answer = ask(&mut kept, name, b"").unwrap();
            assert_eq!(answer.number, expected, "{name}, call {fails}");
        }
        assert_eq!(&disk.bytes.borrow()[..], kept.table());
    }
}

#[test]
fn opening_clears_the_entries_that_a_cut_dst_left() {
    let requests: [(&str, &[u8]); 3] = [
        ("CRD .R", b""),
        ("WRS M .R:A", b"x"),
        ("DUP .R:A .ABC", b""),
    ];
    let mut cut = table(8, &requests);
    let answer = stopped(&mut cut, "DST .R:A", b"", 1);
    assert_eq!((answer.number, answer.stores), (Number::Stopped, 1));
    let disk = Noted::default();
    *disk.bytes.borrow_mut() = cut;
    let (kept, answer) = Kept::open(disk.clone()).unwrap();
    // two entries, the text, the count
    assert_eq!(answer.stores, 4);
    assert_eq!(kept.table(), table(8, &[("CRD .R", b"")]));
    let calls = disk.calls.borrow().join(" ");
    assert_eq!(calls, "0 1 2 3 4 5 6 7 | 0 3 4 5 |");
}

/// A table of 16 records: `.T` with the sheet B in it, and, led to by no base file, a directory that holds itself, the sheet A of 30 bytes, and B.
fn lost() -> Vec<u8> {
    let requests: [(&str, &[u8]); 7] = [
        ("CRD .R", b""),
        ("WRS M .R:A", &[b'x'; 30]),
        ("DUP .R .R:LOOP", b""),
        ("CRD .T", b""),
        ("WRS M .T:B", b"y"),
        ("DUP .T:B .R:B", b""),
        ("DEL .R", b""),
    ];
    table(16, &requests)
}

/// What a sweep leaves of it.
fn swept() -> Vec<u8> {
    let mut table = filebox::Table::of(lost());
    assert_eq!(table.sweep(filebox::NO_STOP).unwrap().stores, 8);
    table.into_bytes()
}

#[test]
fn a_sweep_clears_entries_and_headings_then_text() {
    let (mut kept, disk) = kept(&lost());
    assert_eq!(kept.sweep().unwrap().numbers(), [0, 0, 0, 0, 0, 0, 8]);
    // the loop's heading and A's, the entries A and LOOP, B counted anew, its entry in the loop; then A's text
    assert_eq!(disk.calls.borrow().join(" "), "0 2 5 6 9 12 | 3 4 |");
    assert_eq!(kept.table(), swept());
    assert_eq!(&disk.bytes.borrow()[..], kept.table());
    disk.calls.borrow_mut().clear();
    assert_eq!(kept.sweep().unwrap().stores, 0);
    assert_eq!(disk.calls.borrow().join(" "), "");
    // the index is that of the table after
    let answer = ask(&mut kept, "RDS .T:B", b"").unwrap();
    assert_eq!((answer.number, answer.bytes), (Number::Done, 1));
}

#[test]
fn after_a_disk_error_in_a_sweep_another_one_ends_as_it_would_have() {
    // six records, a flush, two of text, a flush
    for fails in 0..10 {
        let (mut kept, disk) = kept(&lost());
        *disk.fails.borrow_mut() = Some(fails);
        let Err(Wrong::Disk(_)) = kept.sweep() else {
            panic!("answered, though call {fails} failed");
        };
        // it is a table as any
        let answer = ask(&mut kept, "RDS .T:B", b"").unwrap();
        assert_eq!((answer.number, answer.bytes), (Number::Done, 1));
        assert_eq!(kept.sweep().unwrap().number, Number::Done);
        assert_eq!(kept.table(), swept(), "call {fails}");
        assert_eq!(&disk.bytes.borrow()[..], kept.table());
    }
}

#[test]
fn a_job_goes_sheet_by_sheet() {
    let (mut kept, disk) = kept(&table(12, &[("CRD .R", b"")]));
    let sheets = [
        Sheet {
            name: "A",
            text: b"1",
        },
        Sheet {
            name: "B",
            text: b"2",
        },
    ];
    let job = Job {
        user: 1,
        chain: ".R",
        sheets: &sheets,
    };
    assert_eq!(kept.job(job).unwrap().unwrap().stores, 10);
    let calls = disk.calls.borrow().join(" ");
    assert_eq!(calls, "2 3 | 4 | 0 | 5 6 | 7 | 0 |");
    let expected: [(&str, &[u8]); 3] =
        [("CRD .R", b""), ("WRS M .R:A", b"1"), ("WRS M .R:B", b"2")];
    assert_eq!(kept.table(), table(12, &expected));
}

#[test]
fn opening_flushes_what_it_found_before_it_clears() {
    let mut cut = table(6, &[("CRD .R", b"")]);
    let answer = stopped(&mut cut, "WRS M .R:A", b"x", 2);
    assert_eq!(answer.stores, 2);
    let disk = Noted::default();
    *disk.bytes.borrow_mut() = cut;
    let (kept, answer) = Kept::open(disk.clone()).unwrap();
    assert_eq!(answer.stores, 2);
    assert_eq!(kept.table(), table(6, &[("CRD .R", b"")]));
    assert_eq!(disk.calls.borrow().join(" "), "0 1 2 3 4 5 | 2 3 |");
}

#[test]
fn opening_counts_what_a_cut_left_uncounted() {
    let mut cut = table(6, &[("CRD .R", b"")]);
    let answer = stopped(&mut cut, "WRS M .R:A", b"x", 3);
    assert_eq!(answer.stores, 3);
    let disk = Noted::default();
    *disk.bytes.borrow_mut() = cut;
    let (kept, answer) = Kept::open(disk.clone()).unwrap();
    assert_eq!(answer.stores, 2);
    let expected = [("CRD .R", &b""[..]), ("WRS M .R:A", b"x")];
    assert_eq!(kept.table(), table(6, &expected));
    assert_eq!(disk.calls.borrow().join(" "), "0 1 2 3 4 5 | 0 2 |");
}

#[test]
fn after_a_disk_error_the_table_is_read_again_and_mended() {
    let before = table(12, &[("CRD .R", b""), ("WRS M .R:A", &[b'x'; 30])]);
    for fails in 0..9 {
        let (mut kept, disk) = kept(&before);
        *disk.fails.borrow_mut() = Some(fails);
        let Err(Wrong::Disk(error)) = ask(&mut kept, "WRS M .R:A", &[b'y'; 25]) else {
            panic!("answered, though call {fails} failed");
        };
        assert_eq!(error.to_string(), "out of order");
        disk.calls.borrow_mut().clear();
        let answer = ask(&mut kept, "RDS .R:A", b"").unwrap();
        // the entry is the fifth write
        assert_eq!(
            answer.bytes,
            if fails <= 4 { 30 } else { 25 },
            "call {fails}"
        );
        assert!(disk
            .calls
            .borrow()
            .join(" ")
            .starts_with("0 1 2 3 4 5 6 7 8 9 10 11 |"));
        assert_eq!(&disk.bytes.borrow()[..], kept.table());
    }
}

/// The index follows the table: what is done of a DEL that is refused midway, and what the disk held after an error.
#[test]
fn no_request_gets_26_whatever_came_before_it() {
    let requests: [(&str, &[u8]); 3] = [
        ("CRD .R", b""),
        ("WRS M .R:A", b"x"),
        ("DUP .R:A .R:B", b""),
    ];
    let before = table(16, &requests);
    for line in [
        "DEL .R:A .R:NONE .R:B",
        "DST .R:A .R:NONE",
        "CHN .R:A ZZ",
        "DUP .R .R:B",
        "WRS M .R:0",
    ] {
        for fails in 0..12 {
            let (mut kept, disk) = kept(&before);
            *disk.fails.borrow_mut() = Some(fails);
            let done = ask(&mut kept, line, b"y");
            let failed = matches!(done, Err(Wrong::Disk(_)));
            disk.fails.borrow_mut().take();
            for next in ["CRD .R:AA", "DUP .R:AA .T", "DEL .R:AA .T"] {
                let answer = ask(&mut kept, next, b"").unwrap();
                assert_eq!(answer.number, Number::Done, "{next} after {line}, {failed}");
            }
            assert_eq!(&disk.bytes.borrow()[..], kept.table());
        }
    }
}

#[test]
fn a_disk_that_goes_on_failing_gives_no_answer() {
    let (mut kept, disk) = kept(&table(4, &[]));
    for _ in 0..3 {
        *disk.fails.borrow_mut() = Some(0);
        assert!(ask(&mut kept, "CRD .R", b"").is_err());
    }
    assert_eq!(ask(&mut kept, "CRD .R", b"").unwrap().stores, 3);
}

#[test]
fn on_standard_input_a_disk_error_ends_without_an_answer() {
    let (kept, disk) = kept(&table(8, &[]));
    let desk = Mutex::new(Desk::new("line.table".to_string(), kept, None));
    *disk.fails.borrow_mut() = Some(4);
    let mut output = Vec::new();
    let place = Place {
        fixture: 0,
        user: 1,
    };
    let served = serve(
        &desk,
        place,
        Unended::Line,
        &mut &b"CRD .R\nCRD .R:A\nLST .\n"[..],
        &mut output,
    );
    let Err(stopped @ Stopped::NoAnswer(_)) = served else {
        panic!("{served:?}");
    };
    let said = "line.table: the disk failed: out of order. This request has no answer, and may be done or not";
    assert_eq!(stopped.to_string(), said);
    assert_eq!(output, b"0 0 0 1 0 0 3\n");
}

/// A disk in memory of which every call fails while it is told to.
struct Failing(Vec<u8>, Arc<AtomicBool>);

impl Failing {
    fn call(&self) -> io::Result<()> {
        match self.1.load(Ordering::SeqCst) {
            true => Err(io::Error::other("out of order")),
            false => Ok(()),
        }
    }
}

impl Disk for Failing {
    fn read(&mut self) -> io::Result<Vec<u8>> {
        Ok(self.0.clone())
    }

    fn write(&mut self, record: usize, bytes: &[u8]) -> io::Result<()> {
        self.call()?;
        self.0[record * 32..][..32].copy_from_slice(bytes);
        Ok(())
    }

    fn flush(&mut self) -> io::Result<()> {
        self.call()
    }
}

#[test]
fn a_fixture_is_told_of_a_disk_error_and_the_host_goes_on() {
    let fails = Arc::new(AtomicBool::new(false));
    let disk = Failing(table(8, &[]), Arc::clone(&fails));
    let kept = Kept::open(disk)
        .map_err(|wrong| wrong.to_string())
        .unwrap()
        .0;
    let desk = Arc::new(Mutex::new(Desk::new("line.table".to_string(), kept, None)));
    let listener = TcpListener::bind("127.0.0.1:0").unwrap();
    let address = listener.local_addr().unwrap();
    let place = Place {
        fixture: 1,
        user: 1,
    };
    thread::spawn(move || serve_all(&desk, vec![Fixture { listener, place }]));
    let (mut one, mut other) = (Connection::to(address), Connection::to(address));
    assert_eq!(other.ask("CRD .R"), "0 0 0 1 0 0 3\n");
    fails.store(true, Ordering::SeqCst);
    one.send(b"CRD .R:A\n");
    let mut said = String::new();
    BufReader::new(&one.stream).read_line(&mut said).unwrap();
    assert!(
        said.starts_with("no answer: line.table: the disk failed: out of order"),
        "{said}"
    );
    fails.store(false, Ordering::SeqCst);
    assert_eq!(other.ask("LST .R"), "0 0 0 1 0 0 0\n");
    assert_eq!(other.ask("CRD .R:A"), "0 0 0 1 0 0 4\n");
}
