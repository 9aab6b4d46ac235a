//! A difference, shown as a case to paste into a test.

use std::fmt;

use beside::Layout;

use crate::case::{Case, Difference, Outcome, UNTOUCHED};

fn hex(bytes: &[u8]) -> String {
    bytes.iter().map(|byte| format!("\\x{byte:02x}")).collect()
}

/// The bytes as records in hex, a line each; runs of free records on one line.
pub fn records(f: &mut fmt::Formatter, bytes: &[u8]) -> fmt::Result {
    let mut rest = bytes;
    let mut number = 0;
    while !rest.is_empty() {
        let run = rest.chunks_exact(32).take_while(|r| r == &[0; 32]).count();
        let taken = if run > 0 {
            run * 32
        } else {
            rest.len().min(32)
        };
        let (first, after) = rest.split_at(taken);
        match run {
            0 => writeln!(f, "        &b\"{}\"[..], // {number}", hex(first))?,
            _ => writeln!(f, "        &[0; {run} * 32][..], // {number}")?,
        }
        number += run.max(1);
        rest = after;
    }
    Ok(())
}

/// Rust's literals of all that is lent and given.
fn case(f: &mut fmt::Formatter, case: &Case) -> fmt::Result {
    writeln!(f, "    let mut table: Vec<u8> = [")?;
    records(f, &case.table)?;
    writeln!(f, "    ].concat();")?;
    writeln!(f, "    let mut index = {:?};", case.index)?;
    if let Some(sought) = &case.sought {
        writeln!(f, "    let name = b\"{}\";", sought.name.escape_ascii())?;
        let numbers = (sought.heading, sought.user);
        writeln!(f, "    let (heading, user) = {numbers:?};")?;
    }
    if let Some(asked) = &case.asked {
        writeln!(f, "    let line = b\"{}\";", asked.line.escape_ascii())?;
        writeln!(f, "    let text = b\"{}\";", asked.text.escape_ascii())?;
        writeln!(f, "    let mut reply = [{UNTOUCHED:#x}; {}];", asked.reply)?;
        writeln!(f, "    let user = {};", asked.user)?;
    }
    writeln!(f, "    let stop = {};", case.stop)
}

/// The call and its answer.
fn outcome(f: &mut fmt::Formatter, program: &str, case: &Case, outcome: &Outcome) -> fmt::Result {
    let call = match (&case.asked, case.from) {
        _ if case.sought.is_some() => "look_up(&table, &index, heading, user, name)",
        (None, None) if case.sweep => "sweep(&mut table, &mut index, stop)",
        (None, None) => "mend(&mut table, &mut index, stop)",
        (None, Some(Layout::Old)) => "to_six(&mut table)",
        (None, Some(Layout::Six)) => "from_six(&mut table)",
        (Some(_), _) => "request(&mut table, &mut index, line, text, &mut reply, user, stop)",
    };
    writeln!(f, "    // {program}::{call}: {:?}", outcome.answer)
}

/// Where two slices first differ, and what stands there, 32 at a time, as records are.
pub fn first_unlike<T: PartialEq + fmt::Debug>(
    f: &mut fmt::Formatter,
    what: &str,
    one: &[T],
    other: &[T],
) -> fmt::Result {
    let mut pairs = one.chunks(32).zip(other.chunks(32)).enumerate();
    match pairs.find(|(_, (one, other))| one != other) {
        None => Ok(()),
        Some((number, (one, other))) => {
            writeln!(f, "    // {what} {number}, filebox: {one:?}")?;
            writeln!(f, "    // {what} {number}, beside:  {other:?}")
        }
    }
}

impl fmt::Display for Difference {
    fn fmt(&self, f: &mut fmt::Formatter) -> fmt::Result {
        let Difference {
            case: call,
            wrong,
            proved,
            beside,
        } = self;
        writeln!(f, "DIFFERENCE: {wrong}")?;
        case(f, call)?;
        outcome(f, "filebox", call, proved)?;
        outcome(f, "beside", call, beside)?;
        first_unlike(f, "record", &proved.table, &beside.table)?;
        first_unlike(f, "32 reply bytes", &proved.reply, &beside.reply)?;
        first_unlike(f, "32 places", &proved.index, &beside.index)
    }
}
