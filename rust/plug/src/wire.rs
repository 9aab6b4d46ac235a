//! What goes over the two pipes: requests to the host, answers back. Numbers have the low byte first.

use std::io::{self, Read, Write};

use filebox::Answer;

/// A request as it is sent: for a user, a line and a text.
#[derive(Debug, Clone)]
pub struct Asked {
    pub user: u32,
    pub line: Vec<u8>,
    pub text: Vec<u8>,
}

/// The bytes of an answer on the pipe.
pub const ANSWER_BYTES: usize = 7 * size_of::<u64>();

impl Asked {
    /// The bytes of a request on the pipe: user, both lengths, line, text.
    pub fn sent(&self) -> Vec<u8> {
        let lengths = [self.line.len(), self.text.len()].map(|length| length as u32);
        let numbers = [self.user, lengths[0], lengths[1]].map(u32::to_le_bytes);
        [&numbers.concat()[..], &self.line, &self.text].concat()
    }

    /// The next request; nothing when the pipe is at its end.
    pub fn receive(pipe: &mut impl Read) -> io::Result<Option<Asked>> {
        let user = match number(pipe) {
            Err(end) if end.kind() == io::ErrorKind::UnexpectedEof => return Ok(None),
            read => read?,
        };
        let (line_length, text_length) = (number(pipe)?, number(pipe)?);
        Ok(Some(Asked {
            user,
            line: bytes(pipe, line_length)?,
            text: bytes(pipe, text_length)?,
        }))
    }
}

fn number(pipe: &mut impl Read) -> io::Result<u32> {
    let mut bytes = [0; 4];
    pipe.read_exact(&mut bytes)?;
    Ok(u32::from_le_bytes(bytes))
}

fn bytes(pipe: &mut impl Read, length: u32) -> io::Result<Vec<u8>> {
    let mut bytes = vec![0; length as usize];
    pipe.read_exact(&mut bytes)?;
    Ok(bytes)
}

/// Send an answer, by one write: a kill sends all of it or nothing.
pub fn send(pipe: &mut impl Write, answer: Answer) -> io::Result<()> {
    pipe.write_all(&answer.numbers().map(u64::to_le_bytes).concat())
}

/// The seven numbers that were sent in so many bytes.
pub fn received(bytes: &[u8]) -> [u64; 7] {
    let number = |at: usize| {
        let bytes = [0, 1, 2, 3, 4, 5, 6, 7].map(|byte| bytes[at * 8 + byte]);
        u64::from_le_bytes(bytes)
    };
    [0, 1, 2, 3, 4, 5, 6].map(number)
}
