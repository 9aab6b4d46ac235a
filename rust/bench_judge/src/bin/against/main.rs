//! Two libraries in one program and in turns: the judge, the requests and mending of one as ratios to the other's, at 2,048 records.
//!
//! `against BEFORE NOW [TURNS]` takes two shared libraries, each made of a folder's static ones by
//! `cc -shared -o now.so -Wl,-Bsymbolic,--whole-archive FOLDER/libjudge_c.a FOLDER/libfilebox_c.a -Wl,--no-whole-archive`.
//! The one before may be from before there was an index beside the table, six-bit names in it, or counts.
//! `against count LIBRARY ROW` does what one row times once, for
//! `valgrind --tool=callgrind --toggle-collect='*counted*' target/release/against count now.so 'RDS of 24 bytes'`.
mod library;

use std::hint::black_box;

use bench_judge::tables;
use library::{Call, Lent, Library};
use turns::nanoseconds;

const RECORDS: usize = 2048;
const LONG: usize = 24_000;

fn ask(line: &str) -> Call {
    file(line, 0)
}

fn file(line: &str, bytes: usize) -> Call {
    Call::Ask(line.to_string(), vec![b'N'; bytes])
}

/// What is timed together, on which table, in how many turns at most.
struct Row {
    title: &'static str,
    table: fn(&Library) -> Vec<u8>,
    calls: Vec<Call>,
    turns: usize,
}

fn row(title: &'static str, table: fn(&Library) -> Vec<u8>, calls: Vec<Call>) -> Row {
    let turns = usize::MAX;
    Row {
        title,
        table,
        calls,
        turns,
    }
}

fn judged(title: &'static str, table: fn(&Library) -> Vec<u8>) -> Row {
    row(title, table, vec![Call::Judge])
}

/// The table after these lines, each with a text of so many bytes.
fn grown(library: &Library, lines: impl Iterator<Item = (String, usize)>) -> Vec<u8> {
    let mut lent = Lent::of(vec![0; RECORDS * 32]);
    for (line, bytes) in lines {
        let number = library.number(&file(&line, bytes), &mut lent, &mut []);
        assert_eq!(number, 0, "{line}");
    }
    lent.table
}

/// Four directories, perhaps a long file, and so many files of 24 bytes, 25 to a directory.
fn filled(library: &Library, long: bool, files: usize) -> Vec<u8> {
    let names = [".R", ".W", ".G", ".T"];
    let directories = names.map(|name| (format!("CRD {name}"), 0));
    let long = long.then(|| ("WRS M .R:LONG".to_string(), LONG));
    let small = (0..files).map(|n| (format!("WRS M {}:F{:02}", names[n / 25], n % 25), 24));
    grown(library, directories.into_iter().chain(long).chain(small))
}

/// A directory of 111 files.
fn many(library: &Library) -> Vec<u8> {
    let small = (0..111).map(|n| (format!("WRS M .R:G{:03}", n * 7 % 111), 24));
    grown(
        library,
        [("CRD .R".to_string(), 0)].into_iter().chain(small),
    )
}

/// Files of 24 bytes in nine directories, and eight free records or up to ten.
fn full(library: &Library) -> Vec<u8> {
    let bases = ["CRD .R", "CRD .W"].map(|line| (line.to_string(), 0));
    let first = (0..25).map(|n| (format!("WRS M .R:F{n:02}"), 24));
    let inner = (0..8).map(|n| (format!("CRD .W:D{n}"), 0));
    let taken = 2 * bases.len() + 3 * 25 + 2 * 8;
    let files = (RECORDS - taken - 8) / 3;
    let small = (0..files).map(|n| (format!("WRS M .W:D{}:N{:03}", n / 100, n % 100), 24));
    grown(
        library,
        bases.into_iter().chain(first).chain(inner).chain(small),
    )
}

fn hundred(library: &Library) -> Vec<u8> {
    filled(library, false, 100)
}

fn long_and_hundred(library: &Library) -> Vec<u8> {
    filled(library, true, 100)
}

fn long_and_room(library: &Library) -> Vec<u8> {
    filled(library, true, 12)
}

/// The judge on tables of each shape.
fn judge_rows() -> Vec<Row> {
    let mut rows = vec![
        judged("files as long as they may be", |_| {
            tables::long_files(RECORDS)
        }),
        judged("files of one block", |_| tables::small_files(RECORDS)),
        judged("files of one block, shuffled", |_| {
            tables::shuffled(&tables::small_files(RECORDS))
        }),
        judged("directories", |_| tables::directories(RECORDS)),
        judged("names of mixed length", |_| tables::mixed_names(RECORDS)),
        judged("free", |_| vec![0; RECORDS * 32]),
        judged("a hundred files", hundred),
        judged("full", full),
        judged("base files of 512 users", |_| {
            tables::base_files(RECORDS, |_| true)
        }),
        judged("base files in one bucket", |_| {
            tables::base_files(RECORDS, tables::is_in_one_bucket)
        }),
        judged("names that collide", |_| tables::collided(RECORDS)),
        judged("names that collided before", |_| {
            tables::collided_before(RECORDS)
        }),
    ];
    rows.iter_mut().skip(9).for_each(|slow| slow.turns = 200);
    rows
}

/// The requests and mending.
fn request_rows() -> Vec<Row> {
    let new = || vec![file("WRS M .R:NEW", 24), ask("DEL .R:NEW")];
    vec![
        row("RDS of 24 bytes", hundred, vec![ask("RDS .R:F12")]),
        row(
            "RDS of 24,000 bytes",
            long_and_hundred,
            vec![ask("RDS .R:LONG")],
        ),
        row("WRS of 24 bytes, then DEL", hundred, new()),
        row(
            "WRS over 24,000 bytes",
            long_and_room,
            vec![file("WRS M .R:LONG", LONG)],
        ),
        row("LST of 25 names", hundred, vec![ask("LST .R")]),
        row("LST of 111 names", many, vec![ask("LST .R")]),
        row("DUP", hundred, vec![ask("DUP .R:F12 .W:NEW")]),
        row(
            "CPY of 24,000 bytes",
            long_and_room,
            vec![ask("CPY .R:LONG .W:NEW")],
        ),
        row("mending a sound table", hundred, vec![Call::Mend]),
        row("RDS of 24 bytes, full", full, vec![ask("RDS .R:F12")]),
        row("WRS of 24, then DEL, full", full, new()),
        row("LST of 25 names, full", full, vec![ask("LST .R")]),
    ]
}

/// What is timed, and what callgrind collects: each call is granted.
#[inline(never)]
fn counted(library: &Library, row: &Row, lent: &mut Lent, reply: &mut [u8]) {
    for call in &row.calls {
        let number = library.number(call, black_box(lent), reply);
        assert_eq!(number, 0, "{}", row.title);
    }
}

/// The table as a library takes it, with its index, which a mend builds: one from before the six-bit names takes it with the names of
/// before, and one from before the headings had counts without them too.
fn fitted(library: &Library, table: &[u8]) -> Lent {
    let old = tables::with_old_names(table);
    let bare = tables::without_counts(&old);
    let mut ways = [table.to_vec(), old, bare].into_iter().map(Lent::of);
    let mut fitted = ways
        .find_map(|mut way| (library.number(&Call::Judge, &mut way, &mut []) == 0).then_some(way))
        .expect("a table that both libraries take");
    let mended = library.number(&Call::Mend, &mut fitted, &mut []);
    assert_eq!(mended, 0, "it is sound");
    fitted
}

/// The least nanoseconds of the row in each library, in turns.
fn least(libraries: &[Library; 2], row: &Row, turns: usize) -> [f64; 2] {
    let made = (row.table)(&libraries[1]);
    let tables = libraries.each_ref().map(|library| fitted(library, &made));
    let (mut lent, mut reply) = (Lent::of(made), vec![0; LONG]);
    let mut times = [f64::MAX; 2];
    for _ in 0..turns.min(row.turns) {
        for (time, (library, before)) in times.iter_mut().zip(libraries.iter().zip(&tables)) {
            lent.copy_from(before);
            *time = time.min(nanoseconds(|| counted(library, row, &mut lent, &mut reply)));
        }
    }
    times
}

fn rows() -> impl Iterator<Item = Row> {
    judge_rows().into_iter().chain(request_rows())
}

fn main() {
    let words: Vec<String> = std::env::args().skip(1).collect();
    let words: Vec<&str> = words.iter().map(String::as_str).collect();
    let (before, now, turns) = match words[..] {
        ["count", library, title] => {
            let library = Library::at(library);
            let row = rows().find(|row| row.title == title).expect("a row");
            let mut lent = fitted(&library, &(row.table)(&library));
            return counted(&library, &row, &mut lent, &mut vec![0; LONG]);
        }
        [before, now] => (before, now, 2000),
        [before, now, turns] => (before, now, turns.parse().expect("how many turns")),
        _ => panic!("against BEFORE NOW [TURNS], or against count LIBRARY ROW"),
    };
    let libraries = [before, now].map(Library::at);
    println!("| At 2,048 records | before | now | ratio |\n|---|---|---|---|");
    for row in rows() {
        let [before, now] = least(&libraries, &row, turns).map(|time| time / 1000.0);
        println!(
            "| {} | {before:.1} µs | {now:.1} µs | {:.2} |",
            row.title,
            now / before
        );
    }
}
