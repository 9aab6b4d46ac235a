//! One input served: a line, its request, its answer, and the next.

use std::fmt;
use std::io::{self, BufRead, Write};
use std::sync::Mutex;

use filebox::{Answer, LONGEST_TEXT};

use crate::desk::{turn, Desk, Place};
use crate::disk::Disk;
use crate::line::{Held, Unended};

/// Why an input is served no longer, before it ends.
#[derive(Debug)]
pub enum Stopped {
    /// It cannot be read, or its answers cannot be written.
    Away(io::Error),
    /// A request has no answer, and this is why. It may be done or not.
    NoAnswer(String),
}

impl From<io::Error> for Stopped {
    fn from(error: io::Error) -> Stopped {
        Stopped::Away(error)
    }
}

impl fmt::Display for Stopped {
    fn fmt(&self, f: &mut fmt::Formatter) -> fmt::Result {
        match self {
            Stopped::Away(error) => write!(f, "the input or the output failed: {error}"),
            Stopped::NoAnswer(why) => {
                write!(
                    f,
                    "{why}. This request has no answer, and may be done or not"
                )
            }
        }
    }
}

/// Serve every request of an input, as document 01's program does, until it ends.
pub fn serve<D: Disk>(
    desk: &Mutex<Desk<D>>,
    from: Place,
    unended: Unended,
    input: &mut impl BufRead,
    output: &mut impl Write,
) -> Result<(), Stopped> {
    let mut held = Held::default();
    let mut reply = vec![0; LONGEST_TEXT];
    while held.next(input, unended)? {
        let answer = turn(desk).ask(from, &held.line, &held.text, &mut reply);
        let answer = answer.map_err(Stopped::NoAnswer)?;
        output.write_all(&printed(answer, &reply))?;
        output.flush()?;
    }
    Ok(())
}

/// "each answer's ... numbers in decimal on a line, a blank between, displaced as 0 or 1, then the reply bytes": seven, since "the
/// place becomes argument and link"
pub fn printed(answer: Answer, reply: &[u8]) -> Vec<u8> {
    let numbers = answer.numbers().map(|number| number.to_string());
    let mut printed = numbers.join(" ").into_bytes();
    printed.push(b'\n');
    printed.extend_from_slice(&reply[..answer.bytes]);
    printed
}
