//! The proved library against the second program, on random cases: `compare [COUNT [SEED]]`, COUNT requests on tables that
//! grow by them. Answer, whole table, index and whole reply buffer are compared byte for byte, every storing request on a sound
//! table is cut at its stop numbers and mended, every sheet read whole is read in pieces, every tree a level less, and every table is
//! mended. At the first difference it prints a case to paste into a test and ends with status 1; also when a reply number was met
//! fewer than a hundred times, with a link of a chain or without, where it has the one or the other, or a branch of RDS's parts, of
//! LST*, of WRS*, of the counts in headings, of DST, of entries that name no heading, of six-bit names or of their conversion, of the
//! index or of looking a name up by it. Every request and every mend is also made by the second program on the old table, and must answer alike.
//!
//! `compare jobs [COUNT [SEED]]`: the same with the lamp, COUNT jobs, each cut at its stop numbers and mended; ends with
//! status 1 also when a light was met fewer than a hundred times.
//!
//! `compare gives [COUNT [SEED]]`: COUNT requests of three users who give, take, list and read each other's shelves, cut and
//! mended as the first; ends with status 1 also when a number was met fewer than a hundred times by gives, or by takes, or with a
//! link.
//!
//! `compare sweeps [COUNT [SEED]]`: COUNT sweeps of tables with loops that no base file reaches, each cut at its stop numbers, mended and
//! swept again; ends with status 1 also when a branch of a sweep, or of mending in rounds, was met fewer than a hundred times.

mod branches;
mod case;
mod counted;
mod cut;
mod destroyed;
mod handed;
mod indexed;
mod job;
mod jobs;
mod levels;
mod lights;
mod links;
mod met;
mod parted;
mod pieces;
mod records;
mod rewritten;
mod rounded;
mod sheets;
mod shown;
mod sixed;
mod story;
mod sweeps;
mod swept;
mod tables;
mod treed;

use std::fmt::{Debug, Display};
use std::process::ExitCode;
use std::time::Instant;

use case::{Comparison, Difference};
use lights::Lights;
use random::Random;
use story::Story;
use tables::Starts;

/// Users who give and take: near each other in one of the three bytes, and the lowest and highest.
const USERS: [[u32; 3]; 3] = [[1, 2, 777], [1, 257, 65_537], [0, 999_999, 999_743]];

/// Stories, each a table that grows, until so many requests are made.
fn run(comparison: &mut Comparison, count: u64, seed: u64) -> Result<(), Box<Difference>> {
    let mut random = Random::new(seed);
    let starts = Starts::new();
    let mut left = count;
    while left > 0 {
        let start = starts.start(&mut random);
        let requests = start.requests.min(left);
        Story::new(comparison, &mut random, start).tell(requests)?;
        left -= requests;
    }
    Ok(())
}

/// The same with three users who give and take.
fn run_gives(comparison: &mut Comparison, count: u64, seed: u64) -> Result<(), Box<Difference>> {
    let mut random = Random::new(seed);
    let mut left = count;
    while left > 0 {
        let users = random.pick(&USERS);
        let start = tables::shelves(&mut random, users);
        let requests = start.requests.min(left);
        let story = Story::new(comparison, &mut random, start);
        story.among(users).tell(requests)?;
        left -= requests;
    }
    Ok(())
}

/// How it ended: with a difference, or with what was met, of which nothing may be missed.
fn verdict(ended: Result<(), impl Display>, met: impl Display, missed: &[impl Debug]) -> ExitCode {
    if let Err(difference) = ended {
        println!("{difference}");
        return ExitCode::FAILURE;
    }
    println!("{met}");
    if missed.is_empty() {
        println!("no difference");
        return ExitCode::SUCCESS;
    }
    println!("no difference, but met fewer than a hundred times: {missed:?}");
    ExitCode::FAILURE
}

fn requests(count: u64, seed: u64) -> ExitCode {
    let start = Instant::now();
    let mut comparison = Comparison::default();
    let ended = run(&mut comparison, count, seed);
    show(&comparison, seed, start);
    let (met, links) = (&comparison.met, &comparison.links);
    let branches = comparison.branches();
    let too_few = branches.iter().flat_map(|branches| branches.missed());
    let linked = links.missed(&links::IN_REQUESTS);
    let missed = [met.missed(), linked, too_few.collect()].concat();
    let branches = branches.map(ToString::to_string).join("\n");
    let shown = format!("{met}{links}\n{branches}");
    verdict(ended, shown, &missed)
}

fn gives(count: u64, seed: u64) -> ExitCode {
    let start = Instant::now();
    let mut comparison = Comparison::default();
    let ended = run_gives(&mut comparison, count, seed);
    show(&comparison, seed, start);
    let (handed, links) = (&comparison.handed, &comparison.links);
    let missed = [handed.missed(), links.missed(&links::IN_GIVES)].concat();
    verdict(ended, format!("{handed}\n{links}"), &missed)
}

fn sweeps(count: u64, seed: u64) -> ExitCode {
    let start = Instant::now();
    let mut comparison = Comparison::default();
    let ended = sweeps::run(&mut comparison, count, seed);
    show(&comparison, seed, start);
    let (swept, rounded) = (comparison.swept.branches(), comparison.rounded.branches());
    let missed = [swept.missed(), rounded.missed()].concat();
    verdict(ended, format!("{swept}\n{rounded}"), &missed)
}

fn show(comparison: &Comparison, seed: u64, start: Instant) {
    let seconds = start.elapsed().as_secs_f64();
    println!(
        "seed {seed}: {} requests or sweeps, {} calls compared, {} cut and mended, {seconds:.1} s",
        comparison.requests, comparison.calls, comparison.cuts
    );
}

fn jobs(count: u64, seed: u64) -> ExitCode {
    let start = Instant::now();
    let mut lights = Lights::default();
    let ended = jobs::run(&mut lights, count, seed);
    let seconds = start.elapsed().as_secs_f64();
    println!(
        "seed {seed}: {} jobs, {} lights compared, {} cut and mended, {seconds:.1} s",
        lights.jobs, lights.calls, lights.cuts
    );
    verdict(ended, &lights, &lights.missed())
}

fn main() -> ExitCode {
    let words: Vec<String> = std::env::args().skip(1).collect();
    let (what, numbers) = match words.split_first() {
        Some((first, rest)) if ["jobs", "gives", "sweeps"].contains(&&first[..]) => {
            (&first[..], rest)
        }
        _ => ("requests", &words[..]),
    };
    let number = |at: usize, otherwise: u64| {
        let word = numbers.get(at);
        word.map_or(otherwise, |word| {
            word.parse()
                .expect("compare [jobs | gives | sweeps] [COUNT [SEED]]")
        })
    };
    match what {
        "jobs" => jobs(number(0, 12_000), number(1, 1971)),
        "gives" => gives(number(0, 40_000), number(1, 1971)),
        "sweeps" => sweeps(number(0, 12_000), number(1, 1971)),
        _ => requests(number(0, 120_000), number(1, 1971)),
    }
}
