//! What the tests of the program share: a folder, the program run to its end, and the program running.
#![allow(dead_code)]

use std::fs;
use std::io::{BufRead, BufReader, Read, Write};
use std::net::{SocketAddr, TcpStream};
use std::path::{Path, PathBuf};
use std::process::{Child, ChildStderr, Command, Stdio};
use std::sync::atomic::{AtomicU64, Ordering};
use std::thread;
use std::time::Duration;

/// How long an answer may take, on a machine that is busy.
const PATIENCE: Duration = Duration::from_secs(60);

/// A folder of its own, which is removed at the end.
pub struct Folder(PathBuf);

impl Folder {
    pub fn new() -> Folder {
        static NEXT: AtomicU64 = AtomicU64::new(0);
        let number = NEXT.fetch_add(1, Ordering::Relaxed);
        let name = format!("filebox-host-{}-{number}", std::process::id());
        let folder = std::env::temp_dir().join(name);
        fs::create_dir_all(&folder).unwrap();
        Folder(folder)
    }

    /// A name in it.
    pub fn at(&self, name: &str) -> String {
        self.0.join(name).display().to_string()
    }

    /// A file in it.
    pub fn file(&self, name: &str, bytes: &[u8]) -> String {
        fs::write(self.0.join(name), bytes).unwrap();
        self.at(name)
    }
}

impl Drop for Folder {
    fn drop(&mut self) {
        let _ = fs::remove_dir_all(&self.0);
    }
}

/// What the program did.
#[derive(Debug)]
pub struct Ran {
    pub status: i32,
    pub out: Vec<u8>,
    pub err: String,
}

impl Ran {
    pub fn out(&self) -> String {
        String::from_utf8_lossy(&self.out).into_owned()
    }

    /// It failed, and says each of these.
    pub fn fails(&self, says: &[&str]) {
        assert_eq!(self.status, 3, "{self:?}");
        assert!(self.out.is_empty(), "{self:?}");
        for say in says {
            assert!(self.err.contains(say), "{say}: {self:?}");
        }
    }
}

pub fn program() -> Command {
    Command::new(env!("CARGO_BIN_EXE_filebox-host"))
}

/// The program with these words, and this on its standard input.
pub fn run_with(words: &[&str], input: &[u8]) -> Ran {
    ended(program().args(words), input)
}

pub fn run(words: &[&str]) -> Ran {
    run_with(words, b"")
}

/// A command run to its end.
pub fn ended(command: &mut Command, input: &[u8]) -> Ran {
    let pipes = command
        .stdin(Stdio::piped())
        .stdout(Stdio::piped())
        .stderr(Stdio::piped());
    let mut child = pipes.spawn().unwrap();
    let mut stdin = child.stdin.take().unwrap();
    let input = input.to_vec();
    // it may end before it has read everything
    let writer = thread::spawn(move || drop(stdin.write_all(&input)));
    let output = child.wait_with_output().unwrap();
    writer.join().unwrap();
    Ran {
        status: output.status.code().unwrap_or(-1),
        out: output.stdout,
        err: String::from_utf8_lossy(&output.stderr).into_owned(),
    }
}

/// The program serving; it is killed at the end.
pub struct Serving {
    child: Child,
    err: BufReader<ChildStderr>,
    pub said: Vec<String>,
}

impl Serving {
    /// Started with these words; it has said so many lines.
    pub fn start(words: &[&str], lines: usize) -> Serving {
        let command = program()
            .args(words)
            .stdin(Stdio::piped())
            .stdout(Stdio::piped())
            .stderr(Stdio::piped())
            .spawn();
        let mut child = command.unwrap();
        let err = BufReader::new(child.stderr.take().unwrap());
        let mut serving = Serving {
            child,
            err,
            said: Vec::new(),
        };
        for _ in 0..lines {
            serving.hear();
        }
        serving
    }

    /// One line more on its standard error.
    pub fn hear(&mut self) -> String {
        let mut line = String::new();
        assert!(
            self.err.read_line(&mut line).unwrap() > 0,
            "{:?}",
            self.said
        );
        self.said.push(line.clone());
        line
    }

    /// The addresses at which it listens.
    pub fn addresses(&self) -> Vec<SocketAddr> {
        let words = |line: &String| line.split([' ', ',']).find_map(|word| word.parse().ok());
        self.said.iter().filter_map(words).collect()
    }
}

impl Drop for Serving {
    fn drop(&mut self) {
        let _ = self.child.kill();
        let _ = self.child.wait();
    }
}

/// A fixture's connection.
pub struct Connection {
    pub stream: TcpStream,
    answers: BufReader<TcpStream>,
}

impl Connection {
    pub fn to(address: SocketAddr) -> Connection {
        let stream = TcpStream::connect(address).unwrap();
        stream.set_read_timeout(Some(PATIENCE)).unwrap();
        let answers = BufReader::new(stream.try_clone().unwrap());
        Connection { stream, answers }
    }

    pub fn send(&mut self, bytes: &[u8]) {
        self.stream.write_all(bytes).unwrap();
    }

    /// The next answer: its line, and its reply.
    pub fn answer(&mut self) -> String {
        let mut line = String::new();
        self.answers.read_line(&mut line).unwrap();
        let bytes: usize = line
            .split(' ')
            .nth(5)
            .and_then(|word| word.parse().ok())
            .unwrap_or(0);
        let mut reply = vec![0; bytes];
        self.answers.read_exact(&mut reply).unwrap();
        line + &String::from_utf8_lossy(&reply)
    }

    pub fn ask(&mut self, line: &str) -> String {
        self.send(format!("{line}\n").as_bytes());
        self.answer()
    }

    /// Has the host ended it?
    pub fn is_ended(&mut self) -> bool {
        !matches!(self.answers.fill_buf(), Ok([_, ..]))
    }
}

/// A table of so many records after these requests of user 1, each with its text.
pub fn table(records: usize, requests: &[(&str, &[u8])]) -> Vec<u8> {
    let mut table = filebox::Table::free(records);
    for (line, text) in requests {
        let answer = table.request(1, line, text, &mut []);
        answer.granted().unwrap();
    }
    table.into_bytes()
}

/// A request of user 1 on this table, cut at a stop number.
pub fn stopped(table: &mut [u8], line: &str, text: &[u8], stop: u32) -> filebox::Answer {
    filebox::Table::of(table).stopped(1, line, text, &mut [], stop)
}

/// What a file holds.
pub fn held(path: &str) -> Vec<u8> {
    fs::read(Path::new(path)).unwrap()
}
