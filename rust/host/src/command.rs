//! The command line: what is asked of the program, and the status with which it ends.

use std::ffi::OsString;
use std::path::PathBuf;
use std::process::ExitCode;

use filebox::MOST_RECORDS;

use crate::convert::convert;
use crate::desk::say;
use crate::serving::{serve, Served};
use crate::show::show;
use crate::tools::{ask, job, mend, print, sweep};

/// What `--help` says.
pub const HELP: &str = include_str!("help.txt");

/// The status of everything that went wrong outside the box: the file, the disk, a port, the command line.
const FAILED: u8 = 3;
const MOST_USER: u32 = 999_999;

/// Why a command line is none.
fn usage(wrong: &str) -> String {
    format!("{wrong}. `filebox-host --help` says what there is")
}

/// Do what the words of a command line say. What is wrong is said on standard error.
pub fn run(words: impl Iterator<Item = OsString>) -> ExitCode {
    let words: Vec<OsString> = words.collect();
    match done(&words) {
        Ok(status) => ExitCode::from(status),
        Err(wrong) => {
            say(&format!("filebox-host: {wrong}"));
            ExitCode::from(FAILED)
        }
    }
}

/// The command that the words are, done; its status.
fn done(words: &[OsString]) -> Result<u8, String> {
    let shown: Vec<String> = words
        .iter()
        .map(|word| word.to_string_lossy().into_owned())
        .collect();
    let texts: Vec<&str> = shown.iter().map(String::as_str).collect();
    let path = |at: usize| PathBuf::from(&words[at]);
    if texts.iter().any(|word| ["--help", "-h"].contains(word)) {
        return print(HELP.as_bytes()).map(|()| 0);
    }
    match texts[..] {
        ["serve", _, ref options @ ..] => serve(&path(1), &served(options)?),
        ["ask", _, who, line] => ask(&path(1), user(who)?, line, None),
        ["ask", _, who, line, _] => ask(&path(1), user(who)?, line, Some(&path(4))),
        ["job", _, who, chain, ..] => {
            let files: Vec<PathBuf> = words[4..].iter().map(PathBuf::from).collect();
            job(&path(1), user(who)?, chain, &files)
        }
        ["mend", _] => mend(&path(1)),
        ["sweep", _] => sweep(&path(1)),
        ["convert", _] => convert(&path(1)),
        ["show", _] => show(&path(1)),
        [] => Err(usage("no command")),
        [first, ..] => Err(usage(&format!("{first}: no such command, or not so"))),
    }
}

/// A user number.
fn user(word: &str) -> Result<u32, String> {
    let number = word.parse().ok().filter(|user| *user <= MOST_USER);
    number.ok_or_else(|| usage(&format!("{word}: a user is a number from 0 to {MOST_USER}")))
}

/// The options of `serve`.
fn served(mut words: &[&str]) -> Result<Served, String> {
    let mut served = Served::default();
    while let [option, rest @ ..] = words {
        let [value, rest @ ..] = rest else {
            return Err(usage(&format!("{option}: no option, or nothing after it")));
        };
        match *option {
            "--records" => served.records = Some(records(value)?),
            "--user" => served.user = Some(user(value)?),
            "--journal" => served.journal = Some(PathBuf::from(value)),
            "--fixture" => served.fixtures.push(fixture(value)?),
            _ => return Err(usage(&format!("{option}: no such option"))),
        }
        words = rest;
    }
    match served.user.is_some() && !served.fixtures.is_empty() {
        true => Err(usage(
            "--user is for standard input, and each --fixture has its own",
        )),
        false => Ok(served),
    }
}

fn records(word: &str) -> Result<usize, String> {
    let number = word.parse().ok().filter(|records| *records <= MOST_RECORDS);
    number.ok_or_else(|| usage(&format!("{word}: a table has 0 to {MOST_RECORDS} records")))
}

/// An address, and the user for whom what comes in there is done.
fn fixture(word: &str) -> Result<(String, u32), String> {
    let (address, number) = word.rsplit_once('=').ok_or_else(|| {
        usage(&format!(
            "{word}: a fixture is ADDRESS=USER, as 127.0.0.1:7001=1"
        ))
    })?;
    Ok((address.to_string(), user(number)?))
}
