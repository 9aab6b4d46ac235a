//! One client: its requests, rubbish among them, and what it was told.

use std::fs;
use std::io::{self, BufRead, BufReader, Write};
use std::net::{SocketAddr, TcpStream};
use std::path::PathBuf;
use std::sync::atomic::{AtomicBool, Ordering};

use random::{chains, requests, Random};

use crate::journal::Told;

/// The longest text, in bytes; now and then one is longer than any may be.
const LONGEST_TEXT: usize = 200;
const TOO_LONG: usize = 30_000;

/// One fixture's client.
pub struct Client {
    pub random: Random,
    pub user: u32,
    pub address: SocketAddr,
    pub table: PathBuf,
    pub told: Vec<Told>,
}

impl Client {
    /// Ask so many requests one after the other, or until the host is gone.
    pub fn ask_all(mut self, count: usize, gone: &AtomicBool) -> Vec<Told> {
        let ended = self.asking(count);
        if ended.is_err() {
            gone.store(true, Ordering::Relaxed);
        }
        self.told
    }

    fn asking(&mut self, count: usize) -> io::Result<()> {
        let mut stream = TcpStream::connect(self.address)?;
        stream.set_nodelay(true)?;
        let mut answers = BufReader::new(stream.try_clone()?);
        let mut guess = Vec::new();
        for number in 0..count {
            if number % 4 == 0 {
                guess = fs::read(&self.table)?;
            }
            if self.random.once_in(100) {
                self.disturb()?;
            }
            let (line, text, sent) = self.request(&guess);
            self.told.push(Told {
                line,
                text,
                answer: None,
            });
            stream.write_all(&sent)?;
            let answer = answer(&mut answers)?;
            self.told[number].answer = Some(answer);
        }
        Ok(())
    }

    /// A request for a table, perhaps an old one: its line, its text, and what is sent.
    fn request(&mut self, guess: &[u8]) -> (Vec<u8>, Vec<u8>, Vec<u8>) {
        let no_end = |byte: u8| if byte == 10 { 11 } else { byte };
        let line = self.line(guess);
        let line: Vec<u8> = line.into_iter().map(no_end).collect();
        let mut text = Vec::new();
        let mut sent = line.clone();
        sent.push(10);
        if beside::takes_text(&line) {
            let length = match self.random.once_in(200) {
                true => TOO_LONG,
                false => self.random.below(LONGEST_TEXT),
            };
            text = self.random.bytes(length).into_iter().map(no_end).collect();
            sent.extend_from_slice(&text);
            sent.push(10);
        }
        (line, text, sent)
    }

    /// A line of any kind, rubbish too. Some more are a DEL and few inhibit anything, so that the table neither fills up nor
    /// closes.
    fn line(&mut self, guess: &[u8]) -> Vec<u8> {
        if self.random.once_in(12) {
            let old = chains::old(&mut self.random, guess, self.user);
            return format!("DEL {old}").into_bytes();
        }
        let mut line = requests::line(&mut self.random, guess, self.user);
        while inhibits(&line) && !self.random.once_in(50) {
            line = requests::line(&mut self.random, guess, self.user);
        }
        line
    }

    /// A second connection that goes away in the middle of a line, or sends nothing.
    fn disturb(&mut self) -> io::Result<()> {
        let mut stream = TcpStream::connect(self.address)?;
        let half: &[u8] =
            self.random
                .pick(&[b"", b"DEL .R", b"WRS M .R:A\nhalf a te", b"\xff\x00"]);
        stream.write_all(half)
    }
}

/// Does the line have a code that inhibits reading or writing?
fn inhibits(line: &[u8]) -> bool {
    line.windows(2)
        .any(|pair| b"UPAS.".contains(&pair[0]) && b"123567".contains(&pair[1]))
}

/// An answer: its seven numbers, and as many bytes of reply as the sixth says.
fn answer(answers: &mut impl BufRead) -> io::Result<([u64; 7], Vec<u8>)> {
    let mut line = String::new();
    answers.read_line(&mut line)?;
    let numbers: Option<Vec<u64>> = line
        .split_whitespace()
        .map(|word| word.parse().ok())
        .collect();
    let numbers = numbers.and_then(|numbers| <[u64; 7]>::try_from(numbers).ok());
    let numbers = numbers.ok_or_else(|| io::Error::other(format!("no answer: {line}")))?;
    let mut reply = vec![0; numbers[5] as usize];
    answers.read_exact(&mut reply)?;
    Ok((numbers, reply))
}
