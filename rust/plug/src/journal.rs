//! The order in which the host took its requests, told again by the second program.

use std::collections::VecDeque;

use crate::second;
use crate::seen::{equal, Checked};

/// The bytes that the host holds of a line, and of a text.
const HELD_LINE: usize = 257;
const HELD_TEXT: usize = 24_001;

/// A request that a fixture sent, and the answer, if it came: the seven numbers, and the reply's bytes.
#[derive(Debug, Clone)]
pub struct Told {
    pub line: Vec<u8>,
    pub text: Vec<u8>,
    pub answer: Option<([u64; 7], Vec<u8>)>,
}

/// A request as the journal has it.
#[derive(Debug, PartialEq, Eq)]
struct Taken {
    fixture: usize,
    user: u32,
    line: Vec<u8>,
    text: Vec<u8>,
}

/// The requests of a journal; one that a kill cut short was not yet taken.
fn taken(mut journal: &[u8]) -> Vec<Taken> {
    let mut all = Vec::new();
    while let Some((taken, rest)) = first(journal) {
        all.push(taken);
        journal = rest;
    }
    all
}

/// The first request of a journal, and the rest.
fn first(journal: &[u8]) -> Option<(Taken, &[u8])> {
    let end = journal.iter().position(|byte| *byte == b'\n')?;
    let numbers = std::str::from_utf8(&journal[..end]).ok()?;
    let numbers: Vec<usize> = numbers
        .split(' ')
        .map(|word| word.parse().ok())
        .collect::<Option<_>>()?;
    let [fixture, user, line, text] = numbers[..] else {
        return None;
    };
    let rest = &journal[end + 1..];
    let both = rest.get(..line + text)?;
    let rest = rest.get(line + text + 1..)?;
    let (line, text) = both.split_at(line);
    let (line, text) = (line.to_vec(), text.to_vec());
    Some((
        Taken {
            fixture,
            user: user as u32,
            line,
            text,
        },
        rest,
    ))
}

/// What the host's journal comes to, begun on a table.
pub struct Replayed {
    /// The tables that it may hold at the end: the one before the last request, after each of its names, and after it. One alone
    /// if that request was answered.
    pub stations: Vec<Vec<u8>>,
    pub taken: u64,
    pub answered: u64,
    /// How often each number was answered.
    pub numbers: [u64; beside::COUNTS],
}

/// Do the requests of a journal in their order by the second program. Every answer that a fixture got must be that, each
/// fixture's in the order in which it asked, and none beside; only the last request may be half done.
pub fn replay(journal: &[u8], table: &[u8], told: &[Vec<Told>]) -> Result<Replayed, String> {
    let mut told: Vec<VecDeque<&Told>> = told.iter().map(|told| told.iter().collect()).collect();
    let mut replayed = Replayed {
        stations: vec![table.to_vec()],
        taken: 0,
        answered: 0,
        numbers: [0; beside::COUNTS],
    };
    for taken in taken(journal) {
        let before = replayed.stations.pop().unwrap_or_default();
        let from = told
            .get_mut(taken.fixture.wrapping_sub(1))
            .and_then(VecDeque::pop_front);
        let asked = from.ok_or("the journal has a request that no fixture sent")?;
        let line = String::from_utf8_lossy(&taken.line).into_owned();
        replayed
            .request(&taken, asked, before)
            .map_err(|wrong| format!("fixture {}, {line}: {wrong}", taken.fixture))?;
    }
    match told.iter().flatten().any(|told| told.answer.is_some()) {
        true => Err("an answer to a request that the journal does not have".to_string()),
        false => Ok(replayed),
    }
}

impl Replayed {
    /// One request on the table before it.
    fn request(&mut self, taken: &Taken, asked: &Told, before: Vec<u8>) -> Checked {
        let Taken {
            user, line, text, ..
        } = taken;
        equal(
            "the line",
            &line[..],
            &asked.line[..asked.line.len().min(HELD_LINE)],
        )?;
        equal(
            "the text",
            &text[..],
            &asked.text[..asked.text.len().min(HELD_TEXT)],
        )?;
        let mut after = before.clone();
        let mut reply = vec![0; filebox::LONGEST_TEXT];
        let answer = second::request(&mut after, line, text, &mut reply, *user, filebox::NO_STOP);
        self.taken += 1;
        self.numbers[answer.number as usize] += 1;
        self.stations = match &asked.answer {
            Some((numbers, bytes)) => {
                self.answered += 1;
                equal("the answer", numbers, &answer.numbers())?;
                equal("the reply", &bytes[..], &reply[..answer.bytes])?;
                vec![after]
            }
            None => crate::seen::tables(|stop| {
                let mut table = before.clone();
                let answer =
                    second::request(&mut table, line, text, &mut reply.clone(), *user, stop);
                (answer, table)
            }),
        };
        Ok(())
    }
}
