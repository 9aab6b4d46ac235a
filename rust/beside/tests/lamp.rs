//! Document 02, m: each sentence of it and of its readings, in its order, and each bad input. Every job is done by the
//! proved library too, and the two must agree.

mod common;
use common::*;

const GREEN: u32 = 0;
const RED: u32 = 1;
const REFUSED: u32 = 2;
const FILING: u32 = 1;
const READING: u32 = 2;

/// One sheet: link name, padded with zeros, and text length.
fn sheet(name: &[u8], length: usize) -> [u8; 32] {
    let mut record = [0; 32];
    record[..name.len()].copy_from_slice(name);
    record[10..12].copy_from_slice(&(length as u16).to_le_bytes());
    record
}

/// A job, and what it is lent; every part may be changed.
#[derive(Clone)]
struct Job {
    table: Vec<u8>,
    sheets: Vec<u8>,
    texts: Vec<u8>,
    room: usize,
    chain: Vec<u8>,
    user: u32,
    stop: u32,
}

/// What a job left behind.
struct Lit {
    numbers: [u32; 5],
    table: Vec<u8>,
    back: Vec<u8>,
}

impl Job {
    /// These sheets into `.R` of a table with that directory and so many records.
    fn new(records: usize, sheets: &[(&str, &[u8])]) -> Job {
        Job::on(&Bench::grown(records, &["CRD .R"]), sheets)
    }

    /// These sheets into `.R` of this table, the buffer as long as the longest text.
    fn on(bench: &Bench, sheets: &[(&str, &[u8])]) -> Job {
        let record = |(name, text): &(&str, &[u8])| sheet(name.as_bytes(), text.len());
        let texts: Vec<&[u8]> = sheets.iter().map(|(_, text)| *text).collect();
        Job {
            table: bench.table.clone(),
            sheets: sheets.iter().flat_map(record).collect(),
            texts: texts.concat(),
            room: texts.iter().map(|text| text.len()).max().unwrap_or(0),
            chain: b".R".to_vec(),
            user: 1,
            stop: 65_535,
        }
    }

    fn chain(mut self, chain: impl AsRef<[u8]>) -> Job {
        self.chain = chain.as_ref().to_vec();
        self
    }

    fn stop(&self, stop: u32) -> Job {
        Job {
            stop,
            ..self.clone()
        }
    }

    /// The same job with the first sheets alone.
    fn first(&self, sheets: usize) -> Job {
        let mut job = self.clone();
        job.sheets.truncate(sheets * 32);
        job
    }

    /// The job done with the true index by the second program and by the proved library: answer, table, index and buffer must agree.
    fn light(&self) -> Lit {
        let (mut table, mut back) = (self.table.clone(), vec![UNTOUCHED; self.room]);
        let mut index = beside::true_index(&table);
        let (mut proved_table, mut proved_index) = (table.clone(), index.clone());
        let mut proved_back = back.clone();
        let Job {
            sheets,
            texts,
            chain,
            user,
            stop,
            ..
        } = self;
        let (t, x) = (&mut table, &mut index);
        let light = beside::light(t, x, sheets, texts, &mut back, chain, *user, *stop);
        let (t, x, b) = (&mut proved_table, &mut proved_index, &mut proved_back);
        let proved = filebox::light(t, x, sheets, texts, b, chain, *user, *stop);
        assert_eq!(proved.numbers(), light.numbers(), "the library's light");
        assert!(proved_table == table, "the library's table");
        assert!(proved_index == index, "the library's index");
        assert!(proved_back == back, "the library's buffer");
        if light.number != 22 && beside::sound(&table) {
            assert!(index == beside::true_index(&table), "the index is not true");
        }
        Lit {
            numbers: light.numbers(),
            table,
            back,
        }
    }

    /// The lamp must be green, with so many stores.
    fn green(&self, stores: u32) -> Lit {
        let lit = self.light();
        assert_eq!(lit.numbers, [GREEN, 0, 0, 0, stores]);
        lit
    }

    /// The lamp must be red in filing; the buffer is as lent.
    fn unfiled(&self, sheet: u32, number: u32, stores: u32) -> Lit {
        let lit = self.light();
        assert_eq!(lit.numbers, [RED, sheet, FILING, number, stores]);
        assert!(lit.back.iter().all(|byte| *byte == UNTOUCHED), "buffer");
        lit
    }

    /// The job must be refused, and change no byte.
    fn refused(&self, sheet: u32, number: u32) {
        let lit = self.light();
        assert_eq!(lit.numbers, [REFUSED, sheet, 0, number, 0]);
        assert!(lit.table == self.table, "table changed");
        assert!(lit.back.iter().all(|byte| *byte == UNTOUCHED), "buffer");
    }
}

/// Mended, by both.
fn mended(table: &[u8]) -> Vec<u8> {
    let mut mended = table.to_vec();
    let answer = mend(&mut mended, 65_535);
    assert_eq!(answer.number, 0, "not to be mended");
    mended
}

/// The names in `.R`, in order.
fn listed(table: &[u8]) -> Vec<String> {
    let listing = Bench::of(table.to_vec()).reply("LST .R");
    let text = String::from_utf8(listing).expect("a listing");
    text.lines().map(|line| line[9..].to_string()).collect()
}

// "A job sheet is records of 32 bytes: link name (padded with zeros), text length (two bytes, at 10), the rest zero;"

#[test]
fn a_job_of_two_sheets_stores_what_two_requests_store() {
    let job = Job::new(16, &[("A", b"ONE"), ("BOARD7", &[b'T'; 25])]);
    // heading, text and entry of each; then its count and that of `.R`
    let lit = job.green(5 + 6);
    let mut bench = Bench::of(job.table.clone());
    bench.grant("WRS M .R:A", b"ONE");
    bench.grant("WRS M .R:BOARD7", &[b'T'; 25]);
    assert!(lit.table == bench.table);
    assert_eq!(lit.back, [b'T'; 25]);
}

#[test]
fn a_sheet_cut_short_is_malformed() {
    let whole = Job::new(16, &[("A", b""), ("B", b"")]);
    for bytes in [1, 31, 33, 63] {
        let mut job = whole.clone();
        job.sheets.truncate(bytes);
        job.refused(1 + bytes as u32 / 32, 1);
    }
    // even where what is missing would be zero
    let mut job = whole.clone();
    job.sheets.push(b'C');
    job.refused(3, 1);
    job.sheets[64] = 0;
    job.refused(3, 1);
}

#[test]
fn every_byte_of_the_rest_must_be_zero() {
    for at in 12..32 {
        let mut job = Job::new(16, &[("A", b""), ("B", b"")]);
        job.sheets[32 + at] = 1;
        job.refused(2, 1);
    }
}

#[test]
fn a_name_is_the_bytes_before_the_zeros() {
    let job = |name: &[u8]| Job {
        sheets: sheet(name, 0).to_vec(),
        ..Job::new(16, &[])
    };
    // ten characters without a zero, a dash, a leading point
    for name in ["ABCDEFGHIJ", "-", ".", ".1", ".A", "!", "_", "[]", "A-B"] {
        let lit = job(name.as_bytes()).green(4);
        assert_eq!(listed(&lit.table), [name]);
    }
    // no byte, a zero inside, a zero first, bytes that no link name has
    let malformed: [&[u8]; 12] = [
        b"",
        b"A\0B",
        b"\0A",
        b"ABCDEFGH\0J",
        b" ",
        b"A ",
        b"A:B",
        b":",
        b"@",
        b"a",
        b"\x60",
        b"\xff",
    ];
    for name in malformed {
        job(name).refused(1, 1);
    }
}

#[test]
fn the_length_is_two_bytes_low_byte_first() {
    let text = vec![b'L'; 258];
    let job = Job::new(32, &[("A", &text)]);
    assert_eq!(job.sheets[10..12], [2, 1]);
    let lit = job.green(4 + 11);
    assert_eq!(lit.back, text);
}

// "the texts follow in a second lent buffer, in order."

#[test]
fn each_sheet_has_its_own_part_of_the_texts() {
    let mut job = Job::new(32, &[("A", b"12"), ("B", b""), ("C", b"345")]);
    job.texts = b"12345 AND MORE".to_vec(); // longer than the sum is fine
    let lit = job.green(5 + 4 + 5);
    let bench = Bench::of(lit.table);
    assert_eq!(bench.reply("RDS .R:A"), b"12");
    assert_eq!(bench.reply("RDS .R:B"), b"");
    assert_eq!(bench.reply("RDS .R:C"), b"345");
}

// "The fixture files every sheet in order, as `WRS M chain:link`, into one directory named by a chain,"

#[test]
fn the_chain_stands_in_the_line_as_it_is() {
    let bench = Bench::grown(32, &["CRD .R", "CRD .W", "CRD .R:D", "CRD .W:D"]);
    let chains = [
        (".R:D", ".R:D:A"),
        ("D", ".W:D:A"),
        (".W", "A"),
        // blanks beside a colon, and before a word, do not count
        (".R : D", ".R:D:A"),
        ("   .R:D   ", ".R:D:A"),
        (".R", ".R:A"),
    ];
    for (chain, name) in chains {
        let lit = Job::on(&bench, &[("A", b"1")]).chain(chain).green(5);
        assert_eq!(Bench::of(lit.table).reply(&format!("RDS {name}")), b"1");
    }
}

#[test]
fn a_bad_chain_is_red_at_sheet_1() {
    let job = Job::new(16, &[("A", b"1"), ("B", b"2")]);
    let bad: [(&[u8], u32); 18] = [
        (b"", 6),  // WRS M:A
        (b" ", 6), // blanks beside a colon do not count
        (&[b' '; 40], 6),
        (b":", 6),
        (b":R", 6), // WRS M:R:A
        (b".R B", 6),
        (b"- .R", 6),
        (b".R:", 7),
        (b".R::D", 7),
        (b".R:ELEVENCHARS", 7),
        (b".1", 8),
        (b".", 8),
        (b":R X", 9),  // WRS M:R X:A, and M:R is no declaration
        (b":R .R", 9), // of a name that would be granted
        (b".R\n", 4),
        (b"low", 4),
        (b".NONE", 11),
        (b"-", 11), // a dash is a link name, after the supplied .W
    ];
    for (chain, number) in bad {
        job.clone().chain(chain).unfiled(1, number, 0);
    }
    for length in [248, 249, 250, 251, 300, 10_000] {
        // WRS M, a blank, the chain, a colon, one character: 256 bytes at 248
        let blanks = job.clone().chain(vec![b' '; length]);
        let fits = 8 + length <= 256;
        blanks.unfiled(1, if fits { 6 } else { 4 }, 0);
        let padded = [&b".R"[..], &vec![b' '; length - 2]].concat();
        match fits {
            true => drop(job.clone().chain(padded).green(5 + 5)),
            false => drop(job.clone().chain(padded).unfiled(1, 4, 0)),
        }
        job.clone()
            .chain(vec![b'A'; length])
            .unfiled(1, if fits { 7 } else { 4 }, 0);
    }
}

#[test]
fn a_longer_link_makes_a_longer_line() {
    // the first sheet's line has 256 bytes, the second's 257: red at 2, with the first filed
    let chain = [&b".R"[..], &[b' '; 245]].concat();
    let job = Job::new(16, &[("AB", b"1"), ("ABC", b"2")]).chain(chain);
    let lit = job.unfiled(2, 4, 5);
    assert_eq!(listed(&lit.table), ["AB"]);
}

#[test]
fn sixteen_names_fit_a_chain_and_the_link_is_one_of_them() {
    let mut bench = Bench::grown(16, &["CRD .R"]);
    bench.grant("DUP .R .R:D", b"");
    let deep = |links: usize| format!(".R{}", ":D".repeat(links));
    Job::on(&bench, &[("A", b"")]).chain(deep(14)).green(4);
    Job::on(&bench, &[("A", b"")])
        .chain(deep(15))
        .unfiled(1, 7, 0);
}

#[test]
fn what_is_refused_of_table_user_and_directory_is_red_at_sheet_1() {
    let job = Job::new(16, &[("A", b"1")]);
    let odd = Job {
        table: vec![0; 33],
        ..job.clone()
    };
    odd.unfiled(1, 1, 0);
    let long = Job {
        table: vec![0; 65_568],
        ..job.clone()
    };
    long.unfiled(1, 1, 0);
    let mut unsound = job.clone();
    unsound.table[31] = 1;
    unsound.unfiled(1, 2, 0);
    let high = Job {
        user: 1_000_000,
        ..job.clone()
    };
    high.unfiled(1, 3, 0);
    let other = Job {
        user: 2,
        ..job.clone()
    };
    other.unfiled(1, 11, 0);
    let mut bench = Bench::grown(32, &["CRD .R", "CRD .R:W .1", "CRD .R:X .2", "WRS M .R:F"]);
    let job = |bench: &Bench, chain: &str| Job::on(bench, &[("A", b"1")]).chain(chain);
    job(&bench, ".R:F").unfiled(1, 12, 0);
    job(&bench, ".R:X").unfiled(1, 13, 0);
    job(&bench, ".R:W").unfiled(1, 14, 0);
    bench.grant("CRD .R:A", b"");
    bench.grant("CRD .R:A:B", b"");
    job(&bench, ".R").unfiled(1, 18, 0);
}

#[test]
fn a_text_of_24001_bytes_and_of_65535_is_not_malformed_and_gets_10() {
    let job = Job::new(2_048, &[("A", b"1"), ("B", &[b'B'; 24_000])]);
    let lit = job.green(5 + 1_004);
    assert_eq!(lit.back, [b'B'; 24_000]);
    for length in [24_001, 65_535] {
        let text = vec![b'B'; length];
        let job = Job::new(2_048, &[("A", b"1"), ("B", &text)]);
        let lit = job.unfiled(2, 10, 5);
        assert_eq!(listed(&lit.table), ["A"]);
    }
}

#[test]
fn a_sheet_displaces_a_file_of_its_name() {
    let bench = Bench::grown(32, &["CRD .R", "WRS L.P4 .R:A"]);
    let job = Job::on(&bench, &[("A", b"NEW"), ("B", b"")]);
    // heading, text, entry; the counts of the old file and of the new one; then the old heading and its two texts cleared
    let lit = job.green(3 + 2 + 3 + 4);
    let listing = Bench::of(lit.table).reply("LST .R");
    assert_eq!(listing, b"FM.U0    A\r\nFM.U0    B\r\n");
}

#[test]
fn a_full_directory_is_red_at_the_sheet_that_has_no_room() {
    let mut bench = Bench::grown(140, &["CRD .R"]);
    for number in 0..111 {
        bench.grant(&format!("DUP .R .R:N{number}"), b"");
    }
    let job = Job::on(&bench, &[("N7X", b""), ("ONEMORE", b"")]);
    job.unfiled(2, 17, 4);
    let fewer = Job::on(&Bench::grown(5, &["CRD .R"]), &[("A", b"1"), ("B", b"2")]);
    fewer.unfiled(2, 19, 5);
}

// "one stop number for the job,"

#[test]
fn each_filing_gets_what_the_ones_before_left() {
    let job = Job::new(32, &[("A", b"1"), ("B", &[b'2'; 25]), ("C", b"")]);
    let whole = job.green(5 + 6 + 4);
    for stop in 0..15 {
        let sheet = match stop {
            0..=4 => 1,
            5..=10 => 2,
            _ => 3,
        };
        job.stop(stop).unfiled(sheet, 22, stop);
    }
    for stop in [15, 16, u32::MAX] {
        let lit = job.stop(stop).green(15); // exactly enough is no 22
        assert!(lit.table == whole.table && lit.back == whole.back);
    }
}

#[test]
fn a_refusal_other_than_22_stays_what_it_is_when_nothing_is_left() {
    let text = vec![b'B'; 24_001];
    let job = Job::new(16, &[("A", b"1"), ("B", &text)]);
    job.stop(5).unfiled(2, 10, 5);
    job.stop(4).unfiled(1, 22, 4);
    Job::new(5, &[("A", b"1"), ("B", b"2")])
        .stop(5)
        .unfiled(2, 19, 5);
    Job::new(16, &[("A", b"1")])
        .chain(".NONE")
        .stop(0)
        .unfiled(1, 11, 0);
}

// "stops at the first that isn't answered 0,"

#[test]
fn the_sheets_after_the_one_that_failed_are_not_filed() {
    let bench = Bench::grown(64, &["CRD .R", "CRD .R:B", "CRD .R:B:D"]);
    let job = Job::on(&bench, &[("A", b"1"), ("B", b"2"), ("C", b"3")]);
    let lit = job.unfiled(2, 18, 5);
    assert_eq!(listed(&lit.table), ["A", "B"]);
    assert!(lit.table == job.first(1).green(5).table);
}

// "and if none, reads each back whole into a third lent buffer,"

#[test]
fn each_text_stands_over_the_front_of_what_the_last_one_left() {
    let mut job = Job::new(32, &[("A", b"ABCDEF"), ("B", b"xyz"), ("C", b"1")]);
    job.room = 8;
    let lit = job.green(15);
    assert_eq!(lit.back, *b"1yzDEF\xEE\xEE");
}

#[test]
fn a_buffer_that_is_just_long_enough_and_one_byte_shorter() {
    let mut job = Job::new(32, &[("A", b"12"), ("B", b"12345"), ("C", b"1234567")]);
    assert_eq!(job.room, 7);
    job.green(15);
    for (room, sheet) in [(6, 3), (5, 3), (4, 2), (2, 2), (1, 1), (0, 1)] {
        job.room = room;
        job.refused(sheet, 4);
    }
}

// "up to the first that fails."

#[test]
fn a_link_of_the_chain_that_a_sheet_displaces_is_red_in_reading() {
    let mut bench = Bench::grown(32, &["CRD .R"]);
    bench.grant("DUP .R .R:A", b"");
    let job = Job::on(&bench, &[("A", b"1")]).chain(".R:A");
    let lit = job.light();
    assert_eq!(lit.numbers, [RED, 1, READING, 12, 5]);
    assert_eq!(lit.back, [UNTOUCHED]);
    assert_eq!(Bench::of(lit.table).reply("RDS .R:A"), b"1");
    // the one that displaces is the last; the first fails all the same
    let job = Job::on(&bench, &[("B", b"2"), ("A", b"1")]).chain(".R:A");
    assert_eq!(job.light().numbers, [RED, 1, READING, 12, 10]);
    // and if it is not the last, the next is not filed
    let job = Job::on(&bench, &[("A", b"1"), ("B", b"2")]).chain(".R:A");
    job.unfiled(2, 12, 5);
}

// "A job without sheets is green and stores nothing."

#[test]
fn a_job_without_sheets_is_green_on_any_table() {
    let none = Job::new(16, &[]);
    let lit = none.green(0);
    assert!(lit.table == none.table);
    for table in [vec![], vec![7; 33], vec![9; 64], vec![0; 70_000]] {
        let job = Job {
            table: table.clone(),
            texts: b"TEXTS".to_vec(),
            room: 4,
            chain: vec![0; 10_000],
            user: u32::MAX,
            stop: 0,
            ..none.clone()
        };
        let lit = job.green(0);
        assert!(lit.table == table && lit.back == [UNTOUCHED; 4]);
    }
}

#[test]
fn no_texts_and_no_buffer_are_fine_for_empty_sheets() {
    let job = Job::new(16, &[("A", b""), ("B", b"")]);
    assert_eq!((job.texts.len(), job.room), (0, 0));
    job.green(8);
}

// "Green exactly when every sheet was filed and read back with reply 0 and each text read back equals the text sent;
// otherwise red with the number, from 1, of the first sheet that failed and its filing or reading reply."

#[test]
fn every_text_comes_back_byte_for_byte() {
    let every: Vec<u8> = (0..=255).collect();
    let job = Job::new(64, &[("A", &every), ("B", &[0; 24]), ("C", &[0; 25])]);
    let lit = job.green(4 + 11 + 5 + 6);
    let bench = Bench::of(lit.table);
    assert_eq!(bench.reply("RDS .R:A"), every);
    assert_eq!(bench.reply("RDS .R:C"), [0; 25]);
}

// "Two sheets with one name in a job are refused before any store."

#[test]
fn of_two_sheets_with_one_name_the_later_is_refused() {
    let refused = |names: &[&str], sheet| {
        let sheets: Vec<(&str, &[u8])> = names.iter().map(|name| (*name, &b"1"[..])).collect();
        Job::new(32, &sheets).refused(sheet, 2);
    };
    refused(&["A", "A"], 2);
    refused(&["A", "B", "C", "B", "A"], 4);
    refused(&["A", "B", "B", "A"], 3);
    refused(&["ABCDEFGHIJ", "ABCDEFGHIJ"], 2);
    // names that only begin alike are two names
    Job::new(32, &[("A", b""), ("AB", b""), ("ABC", b"")]).green(12);
    Job::new(32, &[("ABCDEFGHI", b""), ("ABCDEFGHIJ", b"")]).green(8);
    // texts of other lengths do not make another name
    Job::new(32, &[("A", b"1"), ("A", b"12")]).refused(2, 2);
}

// "A cut, once mended, leaves the first sheets filed and no half of any."

#[test]
fn every_cut_is_mended_to_the_first_sheets() {
    let bench = Bench::grown(64, &["CRD .R", "WRS M .R:B", "WRS M .R:C", "DUP .R:C .R:D"]);
    let job = Job::on(
        &bench,
        &[("A", b"1"), ("B", &[b'2'; 30]), ("C", b""), ("E", b"3")],
    );
    let stores = job.light().numbers[4];
    let stations: Vec<Vec<u8>> = (0..=4).map(|n| job.first(n).light().table).collect();
    let mut seen = [false; 5];
    for stop in 0..stores {
        let lit = job.stop(stop).light();
        let [light, sheet, phase, number, made] = lit.numbers;
        assert_eq!((light, phase, number, made), (RED, FILING, 22, stop));
        let mended = mended(&lit.table);
        let filed = stations.iter().position(|station| *station == mended);
        let filed = filed.expect("the table after the first sheets");
        assert!(filed == sheet as usize - 1 || filed == sheet as usize);
        seen[filed] = true;
    }
    // after all four, too: the last is filed once its entry is, and its counts are mended
    assert_eq!(seen, [true; 5]);
}

#[test]
fn red_with_22_at_sheet_n_may_be_mended_to_n_sheets() {
    let bench = Bench::grown(32, &["CRD .R", "WRS M .R:B"]);
    let job = Job::on(&bench, &[("A", b"1"), ("B", b"2"), ("C", b"3")]);
    // sheet 1: heading, text, entry, two counts; sheet 2: the same, and the displaced file's heading and two texts
    for (stop, filed) in [
        (2, 0),
        (3, 1),
        (4, 1),
        (5, 1),
        (7, 1),
        (8, 2),
        (9, 2),
        (10, 2),
        (11, 2),
        (12, 2),
        (13, 2),
    ] {
        let sheet = match stop {
            0..=4 => 1,
            5..=12 => 2,
            _ => 3,
        };
        let lit = job.stop(stop).unfiled(sheet, 22, stop);
        assert!(
            mended(&lit.table) == job.first(filed).light().table,
            "{stop}"
        );
    }
}

// "Refusals of its own, in this order and before any store: 1 sheet malformed (cut short, no legal link name, rest not
// zero), 2 name twice, 3 texts shorter than the lengths' sum, 4 read-back buffer shorter than the longest text."

#[test]
fn the_lamps_refusals_come_in_their_order_each_over_all_sheets() {
    let mut job = Job::new(
        32,
        &[
            ("A", b"1"),
            ("A", b"2"),
            ("C", b"3"),
            ("D", b"4"),
            ("E", b"5"),
        ],
    );
    job.texts.clear();
    job.room = 0;
    job.sheets[4 * 32] = b' ';
    job.refused(5, 1); // twins in 1 and 2, and a malformed sheet 5
    job.sheets[4 * 32] = b'E';
    job.refused(2, 2);
    job.sheets[32] = b'B';
    job.refused(1, 3);
    job.texts = b"1234".to_vec();
    job.refused(5, 3);
    job.texts = b"12345".to_vec();
    job.refused(1, 4);
    job.room = 1;
    job.green(25);
}

#[test]
fn the_first_text_that_is_not_wholly_there_is_refused() {
    let mut job = Job::new(32, &[("A", b"123"), ("B", b""), ("C", b"45"), ("D", b"")]);
    for (length, sheet) in [(0, 1), (2, 1), (3, 3), (4, 3)] {
        job.texts.truncate(4);
        job.texts.resize(length, b'X');
        job.refused(sheet, 3);
    }
    job.texts = b"12345".to_vec();
    job.green(5 + 4 + 5 + 4);
    // the longest length there is, and no bytes
    job.sheets[10..12].copy_from_slice(&[255, 255]);
    job.refused(1, 3);
}

#[test]
fn the_lamps_refusals_come_before_anything_is_asked_of_the_rest() {
    let bad = Job {
        table: vec![9; 33],
        chain: vec![0; 10_000],
        user: u32::MAX,
        stop: 0,
        ..Job::new(2, &[("A", b"1"), ("B", b"22")])
    };
    bad.unfiled(1, 1, 0);
    let with = |edit: fn(&mut Job)| {
        let mut job = bad.clone();
        edit(&mut job);
        job
    };
    with(|job| job.sheets[0] = 0).refused(1, 1);
    with(|job| job.sheets[32] = b'A').refused(2, 2);
    with(|job| job.texts.truncate(2)).refused(2, 3);
    with(|job| job.room = 1).refused(2, 4);
}
