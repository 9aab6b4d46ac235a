//! `plug [KILLS [SEED]]`: start a host, kill it in the middle of its stores, look at its file, and so on. `plug host FILE`
//! is that host.
//!
//! `plug reorder [REQUESTS [SEED]]`: the writing of `rust/host` over a disk that lets any of its writes land. `plug rewrites [REQUESTS
//! [SEED]]`, `plug destroys [REQUESTS [SEED]]`: the same, mostly WRS*, mostly DST. `plug sweeps [SWEEPS [SEED]]`: sweeps over such a disk.
//! `plug crowd [REQUESTS [SEED]]`: `filebox-host` under fourteen clients with so many requests each. `plug killed [KILLS
//! [SEED]]`: the same, killed. `plug serve ..` is `filebox-host serve ..`.

use std::path::Path;
use std::process::ExitCode;

use plug::reorder::reorder;
use plug::sweeps::sweeps;
use plug::About;

fn usage() -> String {
    "plug [KILLS [SEED]], plug reorder|rewrites|destroys|sweeps|crowd|killed [COUNT [SEED]], or plug host FILE"
        .to_string()
}

/// A count and a seed, if they are given.
fn numbers(words: &[&str], otherwise: u64) -> Result<(u64, u64), String> {
    let number = |at: usize, otherwise: u64| match words.get(at) {
        None => Ok(otherwise),
        Some(word) => word.parse().map_err(|_| usage()),
    };
    Ok((number(0, otherwise)?, number(1, 1971)?))
}

/// Kill hosts, and say what was seen; a run that met no half-stored table has shown nothing.
fn pull(program: &Path, words: &[&str]) -> Result<(), String> {
    let (kills, seed) = numbers(words, 2_000)?;
    let counts = plug::pull(program, kills, seed)?;
    println!("seed {seed}: {counts:?}");
    match counts.half_stored {
        0 => Err("no kill fell in the middle of a request".to_string()),
        _ => Ok(()),
    }
}

/// The host of `rust/host`, tried in one of six ways.
fn hosted(program: &Path, way: &str, words: &[&str]) -> Result<(), String> {
    let (count, seed) = numbers(words, 1_000)?;
    let seen = match way {
        "reorder" => format!("{:?}", reorder(About::Anything, count, seed, None)?),
        "rewrites" => format!("{:?}", reorder(About::Rewrites, count, seed, None)?),
        "destroys" => format!("{:?}", reorder(About::Destroys, count, seed, None)?),
        "sweeps" => format!("{:?}", sweeps(count, seed, None)?),
        "crowd" => format!("{:?}", plug::crowd::whole(program, count as usize, seed)?),
        _ => format!("{:?}", plug::crowd::killed(program, count, seed)?),
    };
    println!("{way}, {count}, seed {seed}: {seen}");
    Ok(())
}

fn tried(words: &[&str]) -> Result<(), String> {
    let program = std::env::current_exe().map_err(|error| error.to_string())?;
    match *words {
        ["host", file] => plug::host::serve(Path::new(file)).map_err(|error| error.to_string()),
        [way @ ("reorder" | "rewrites" | "destroys" | "sweeps" | "crowd" | "killed"), ref rest @ ..] => {
            hosted(&program, way, rest)
        }
        _ => pull(&program, words),
    }
}

fn main() -> ExitCode {
    let words: Vec<String> = std::env::args().skip(1).collect();
    let words: Vec<&str> = words.iter().map(String::as_str).collect();
    if words.first() == Some(&"serve") {
        return host::run(std::env::args_os().skip(1));
    }
    match tried(&words) {
        Ok(()) => ExitCode::SUCCESS,
        Err(wrong) => {
            eprintln!("{wrong}");
            ExitCode::FAILURE
        }
    }
}
