//! The proved library's calls as ratios to one byte-by-byte pass over the same table in the same run, over tables of 256 to
//! 2,048 records. The table is warm: it was just copied or read.
//!
//! `bench [TURNS]` prints a Markdown table, the time of the lamp beside its requests made one by one, that of a walk among
//! names of other lengths beside one among names of one length, that of a part of a sheet beside a sheet of its length, that of
//! refusing a tree of more lines than anyone can write, that of a rewrite beside a WRS over the same file, that of looking a name up beside the plain
//! scan, and that of sweeps beside the judge; it ends with status 1 if a ratio at 2,048 records, or one of these seven, is above its bar. `bench count OPERATION RECORDS
//! TIMES` runs one operation so many times (`pass`: the pass), to count its instructions with
//! `valgrind --tool=callgrind --toggle-collect='*counted*' target/release/bench count rds 2048 10`: what is collected is
//! the calls alone, without setting the table right.
//!
//! `bench host [FOLDER [TURNS]]` measures the host of `rust/host` on a file in memory and on the disk of that folder.

mod host;
mod lamp;
mod looks;
mod names;
mod operations;
mod parts;
mod rewrites;
mod sweeps;
mod tables;
mod trees;

use std::hint::black_box;
use std::path::PathBuf;
use std::process::ExitCode;

use operations::{named, Operation, Ready, OPERATIONS};
use turns::{least, nanoseconds, pass};

const RECORDS: [usize; 4] = [256, 512, 1024, 2048];

/// The nanoseconds of an operation, and how many passes that is.
fn measured(operation: &Operation, records: usize, turns: usize) -> (f64, f64) {
    let mut ready = operation.ready(records);
    let table = ready.before.clone();
    let (call, pass) = least(turns, &table, || {
        ready.set_right();
        nanoseconds(|| ready.timed())
    });
    (call, call / pass)
}

/// One line of the table; is the operation within its bar?
fn line(operation: &Operation, turns: usize) -> bool {
    let times = RECORDS.map(|records| measured(operation, records, turns));
    let ratios: Vec<String> = times
        .iter()
        .map(|(_, ratio)| format!("{ratio:.1}"))
        .collect();
    let (first, last) = (times[0], times[RECORDS.len() - 1]);
    let bar = operation
        .bar
        .map_or("-".to_string(), |bar| format!("{bar:.0}"));
    println!(
        "| {} | {} | {bar} | {:.0} µs | {:.1} |",
        operation.title,
        ratios.join(" | "),
        last.0 / 1000.0,
        last.1 / first.1
    );
    operation.bar.is_none_or(|bar| last.1 <= bar)
}

/// The whole table, and which operations miss their bar.
fn bench(turns: usize) -> ExitCode {
    println!("| Passes over the table, of records | 256 | 512 | 1,024 | 2,048 | bar | at 2,048 | growth |");
    println!("|---|---|---|---|---|---|---|---|");
    let mut missing: Vec<&str> = OPERATIONS
        .iter()
        .filter(|operation| !line(operation, turns))
        .map(|operation| operation.title)
        .collect();
    println!("\nGrowth: the ratio at 2,048 records over that at 256; 1.0 is in step with the table. At n records the long");
    println!("text has 12(n - 48) bytes.");
    if !lamp::bench(turns) {
        missing.push("the lamp");
    }
    if !names::bench(turns) {
        missing.push("names of other lengths");
    }
    if !parts::bench(turns) {
        missing.push("a part of a sheet");
    }
    if !trees::bench(turns) {
        missing.push("a tree that is too long");
    }
    if !rewrites::bench(turns) {
        missing.push("a rewrite");
    }
    if !looks::bench(turns) {
        missing.push("looking a name up");
    }
    if !sweeps::bench(turns) {
        missing.push("a sweep");
    }
    if missing.is_empty() {
        println!("Each is within its bar.");
        return ExitCode::SUCCESS;
    }
    println!("Above the bar: {}.", missing.join("; "));
    ExitCode::FAILURE
}

/// What callgrind collects.
#[inline(never)]
fn counted(ready: &mut Ready) {
    ready.timed();
}

/// The pass, for callgrind.
#[inline(never)]
fn counted_pass(table: &[u8]) {
    black_box(pass(black_box(table)));
}

/// Run one operation, or the pass, so many times.
fn count(name: &str, records: usize, times: usize) -> Option<()> {
    if name == "pass" {
        let table = tables::hundred(records);
        (0..times).for_each(|_| counted_pass(&table));
        return Some(());
    }
    let mut ready = named(name)?.ready(records);
    for _ in 0..times {
        ready.set_right();
        counted(&mut ready);
    }
    Some(())
}

/// The host, in this folder, so many turns.
fn hosted(words: &[&str]) -> Option<ExitCode> {
    let folder = words.first().map_or_else(std::env::temp_dir, PathBuf::from);
    let turns = words.get(1).map_or(Some(9), |word| word.parse().ok())?;
    match host::bench(&folder, turns) {
        Ok(()) => Some(ExitCode::SUCCESS),
        Err(error) => {
            eprintln!("{}: {error}", folder.display());
            Some(ExitCode::FAILURE)
        }
    }
}

fn main() -> ExitCode {
    let words: Vec<String> = std::env::args().skip(1).collect();
    let words: Vec<&str> = words.iter().map(String::as_str).collect();
    let number = |word: &str| word.parse::<usize>().ok();
    let ended = match words[..] {
        [] => Some(bench(1000)),
        ["host", ref rest @ ..] => hosted(rest),
        [turns] => number(turns).map(bench),
        ["count", name, records, times] => number(records)
            .zip(number(times))
            .and_then(|(records, times)| count(name, records, times))
            .map(|()| ExitCode::SUCCESS),
        _ => None,
    };
    ended.unwrap_or_else(|| {
        let names: Vec<&str> = OPERATIONS.iter().map(|operation| operation.name).collect();
        eprintln!(
            "bench [TURNS], bench host [FOLDER [TURNS]], or bench count OPERATION RECORDS TIMES; operations: pass {}",
            names.join(" ")
        );
        ExitCode::FAILURE
    })
}
