//! Requests that are sent to the host, and what the second program says that each must come to.

use random::{destroys, requests, rewrites, Random};

use crate::second;
use crate::wire::Asked;

/// What is asked.
#[derive(Debug, Clone, Copy, PartialEq, Eq)]
pub enum About {
    /// Anything, mostly granted.
    Anything,
    /// Mostly a rewrite, or something about a sheet that one may have left marked.
    Rewrites,
    /// Mostly a DST, or something that gives a file more entries.
    Destroys,
}

impl About {
    /// The table to begin with, of so many records: free, or with a few sheets.
    pub fn begun(self, records: usize) -> Vec<u8> {
        let mut table = vec![0; records * filebox::RECORD_BYTES];
        let lines: &[&str] = match self {
            About::Anything => &[],
            About::Rewrites => &[
                "CRD .R",
                "WRS M .R:A",
                "WRS M .R:B",
                "WRS M .AB",
                "WRS L .R:C",
            ],
            About::Destroys => &[
                "CRD .R",
                "WRS M .R:A",
                "DUP .R:A .R:B",
                "DUP .R:A .AB",
                "CRD .R:D",
                "DUP .R:A .R:D:A",
                "WRS M .R:D:C",
            ],
        };
        for line in lines {
            let (line, text) = (line.as_bytes(), [b's'; 60]);
            let answer = second::request(&mut table, line, &text, &mut [], 1, filebox::NO_STOP);
            assert_eq!(answer.number, 0);
        }
        table
    }

    fn line(self, random: &mut Random, table: &[u8], user: u32) -> Vec<u8> {
        match self {
            About::Rewrites if !random.once_in(4) => rewrites::about(random, table, user),
            About::Destroys if !random.once_in(4) => destroys::about(random, table, user),
            _ => requests::granted(random, table, user).into_bytes(),
        }
    }
}

/// A request that was sent, and what it must come to.
pub struct Sent {
    pub asked: Asked,
    pub answer: [u64; 7],
    before: Vec<u8>,
    pub after: Vec<u8>,
}

impl Sent {
    /// A request for this table, and its outcome.
    fn new(asked: Asked, before: Vec<u8>) -> Sent {
        let sent = Sent {
            asked,
            answer: [0; 7],
            before,
            after: Vec::new(),
        };
        let (answer, after) = sent.stopped(filebox::NO_STOP);
        Sent {
            answer: answer.numbers(),
            after,
            ..sent
        }
    }

    /// The request with a stop number.
    pub fn stopped(&self, stop: u32) -> (beside::Answer, Vec<u8>) {
        let mut table = self.before.clone();
        let Asked { user, line, text } = &self.asked;
        let mut reply = vec![0; filebox::LONGEST_TEXT];
        let answer = second::request(&mut table, line, text, &mut reply, *user, stop);
        (answer, table)
    }
}

/// So many requests of two users, rewrites and DSTs of one, each for the table after those before, with texts of fewer bytes than this.
pub fn requests(
    random: &mut Random,
    table: &[u8],
    about: About,
    count: usize,
    longest: usize,
) -> Vec<Sent> {
    let mut table = table.to_vec();
    let mut sent = Vec::new();
    for _ in 0..count {
        let user = match about {
            About::Anything => random.pick(&[1, 1, 2]),
            About::Rewrites | About::Destroys => 1,
        };
        let length = random.below(longest);
        let asked = Asked {
            user,
            line: about.line(random, &table, user),
            text: random.bytes(length),
        };
        let request = Sent::new(asked, table);
        table = request.after.clone();
        sent.push(request);
    }
    sent
}
