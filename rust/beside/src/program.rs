//! The program over the library.

use std::io::{self, BufRead, Write};

use crate::answer::{request, Answer};
use crate::index::true_index;
use crate::line::words;
use crate::records::RECORD_BYTES;

const RECORDS: usize = 1_024;
const USER: u32 = 1;
const STOP: u32 = 65_535;
const REPLY: usize = 24_000;

/// Does this line take the next one as its text? It does when its first word is WRS or `WRS*`, "refused or not".
pub fn takes_text(line: &[u8]) -> bool {
    let words = words(line);
    words
        .first()
        .is_some_and(|word| matches!(word.whole(), Some(b"WRS" | b"WRS*")))
}

/// The next line without its byte 10; nothing at the end of the input.
fn next_line(input: &mut impl BufRead) -> io::Result<Option<Vec<u8>>> {
    let mut line = Vec::new();
    if input.read_until(10, &mut line)? == 0 {
        return Ok(None);
    }
    if line.last() == Some(&10) {
        line.pop();
    }
    Ok(Some(line))
}

/// "It prints each answer's ... numbers in decimal on a line, a blank between, displaced as 0 or 1": seven of them, since
/// the place is argument and link.
fn print(output: &mut impl Write, answer: Answer) -> io::Result<()> {
    let shown = answer.numbers().map(|number| number.to_string());
    writeln!(output, "{}", shown.join(" "))
}

/// "takes request lines from standard input, keeps a table of at most 1,024 records, all free at the start, acts
/// for user 1 with k 65,535 and a reply buffer of 24,000 bytes, and takes the line after a WRS, refused or not,
/// as its text." It keeps an index beside the table.
pub fn run(mut input: impl BufRead, mut output: impl Write) -> io::Result<()> {
    let mut table = vec![0; RECORDS * RECORD_BYTES];
    let mut index = true_index(&table);
    let mut reply = vec![0; REPLY];
    while let Some(line) = next_line(&mut input)? {
        let text = match takes_text(&line) {
            true => next_line(&mut input)?.unwrap_or_default(),
            false => Vec::new(),
        };
        let reply = &mut reply[..];
        let answer = request(&mut table, &mut index, &line, &text, reply, USER, STOP);
        print(&mut output, answer)?;
        output.write_all(&reply[..answer.bytes])?;
        output.flush()?;
    }
    Ok(())
}
