//! The fixture: it asks the host, kills it at a random moment, and looks at what the file holds.

use std::fs;
use std::io::{self, Read, Write};
use std::os::unix::process::ExitStatusExt;
use std::path::{Path, PathBuf};
use std::process::{Command, Stdio};
use std::thread::sleep;
use std::time::Duration;

use filebox::Table;
use random::Random;

use crate::second;
use crate::seen::{emptied, equal, headless, stations, Checked};
use crate::sent::{requests, About, Sent};
use crate::wire::{received, ANSWER_BYTES};

const RECORDS: usize = 256;
/// Requests sent before a kill; fewer bytes than a pipe holds, so that sending never waits.
const SENT: usize = 12;
/// The longest text that is sent, in bytes.
const LONGEST_TEXT: usize = 1_600;
/// Kills on one table, before a new one is begun.
const KILLS: u64 = 40;
/// Microseconds from the last answer that is waited for to the kill: some long requests take as long.
const LONGEST_PAUSE: usize = 700;
/// Microseconds from the start to the kill where no answer is waited for: about what starting and mending take.
const LONGEST_START: usize = 2_000;
const SIGKILL: i32 = 9;

/// What was seen.
#[derive(Debug, Default)]
pub struct Counts {
    pub kills: u64,
    /// Requests answered before a kill.
    pub answered: u64,
    /// Kills after which the file held some but not all stores of a request.
    pub half_stored: u64,
    /// Of these, in a rewrite, mended to the file marked and empty.
    pub half_rewritten: u64,
    /// Of these, in a DST.
    pub half_destroyed: u64,
    /// Kills after which the file held some but not all stores of the host's mending.
    pub half_mended: u64,
}

/// The file that holds the table; it is removed at the end.
struct TableFile(PathBuf);

impl Drop for TableFile {
    fn drop(&mut self) {
        // nothing is lost if it stays
        let _ = fs::remove_file(&self.0);
    }
}

struct Fixture<'a> {
    host: &'a Path,
    file: TableFile,
    random: Random,
    /// The table after all that was done, mended.
    table: Vec<u8>,
    counts: Counts,
}

/// Kill the host so many times, restarted by `PROGRAM host FILE` on what the last kill left.
pub fn pull(program: &Path, kills: u64, seed: u64) -> Result<Counts, String> {
    let name = format!("filebox-{}-{seed}.table", std::process::id());
    let mut fixture = Fixture {
        host: program,
        file: TableFile(std::env::temp_dir().join(name)),
        random: Random::new(seed),
        table: vec![0; RECORDS * 32],
        counts: Counts::default(),
    };
    for kill in 0..kills {
        if kill % KILLS == 0 {
            fixture.table = About::Rewrites.begun(RECORDS);
            let begun = fs::write(&fixture.file.0, &fixture.table);
            begun.map_err(|error| format!("the file: {error}"))?;
        }
        fixture
            .kill_once()
            .map_err(|wrong| format!("kill {kill}: {wrong}"))?;
    }
    Ok(fixture.counts)
}

impl Fixture<'_> {
    /// One host: started, asked, killed; then the file.
    fn kill_once(&mut self) -> Checked {
        let left = self.left()?;
        let about = match self.random.below(4) {
            0 => About::Rewrites,
            1 => About::Destroys,
            _ => About::Anything,
        };
        let sent = requests(&mut self.random, &self.table, about, SENT, LONGEST_TEXT);
        let answers = self
            .run(&sent)
            .map_err(|error| format!("the host: {error}"))?;
        self.counts.kills += 1;
        let file = self.left()?;
        let (_, mended) = mend(&file)?;
        match answers.split_first() {
            None => self.killed_in_mending(&left, &file, &mended)?,
            Some((first, answers)) => {
                let (expected, _) = mend(&left)?;
                equal("the answer of mending", first, &expected)?;
                self.killed_in_a_request(&sent, answers, &file, &mended)?;
            }
        }
        self.table = mended;
        Ok(())
    }

    /// What the file holds.
    fn left(&self) -> Result<Vec<u8>, String> {
        fs::read(&self.file.0).map_err(|error| format!("the file: {error}"))
    }

    /// Start the host, send it the requests and kill it a little after some of the answers, or at once; all answers that came.
    fn run(&mut self, sent: &[Sent]) -> io::Result<Vec<[u64; 7]>> {
        let mut host = Command::new(self.host)
            .arg("host")
            .arg(&self.file.0)
            .stdin(Stdio::piped())
            .stdout(Stdio::piped())
            .spawn()?;
        let (mut requests, mut answers) = (taken(host.stdin.take())?, taken(host.stdout.take())?);
        for request in sent {
            requests.write_all(&request.asked.sent())?;
        }
        let mut came = Vec::new();
        let mut longest = LONGEST_START;
        if !self.random.once_in(5) {
            came.resize((1 + self.random.below(SENT)) * ANSWER_BYTES, 0);
            answers.read_exact(&mut came)?;
            longest = LONGEST_PAUSE;
        }
        sleep(Duration::from_micros(self.random.below(longest) as u64));
        host.kill()?;
        let status = host.wait()?;
        if status.signal() != Some(SIGKILL) {
            return Err(io::Error::other(format!("it ended by itself, {status}")));
        }
        answers.read_to_end(&mut came)?;
        Ok(came.chunks_exact(ANSWER_BYTES).map(received).collect())
    }

    /// The kill fell before mending was answered: the file holds the first stores of it.
    fn killed_in_mending(&mut self, left: &[u8], file: &[u8], mended: &[u8]) -> Checked {
        equal("the table mended again", mended, &self.table)?;
        let stopped = |stop| {
            let mut table = left.to_vec();
            (second::mend(&mut table, stop), table)
        };
        stations(stopped, file)?;
        self.counts.half_mended += u64::from(file != left && file != mended);
        Ok(())
    }

    /// The kill fell after so many answers: the file holds all that they say, and the first stores of the next request.
    fn killed_in_a_request(
        &mut self,
        sent: &[Sent],
        answers: &[[u64; 7]],
        file: &[u8],
        mended: &[u8],
    ) -> Checked {
        for (request, answer) in sent.iter().zip(answers) {
            equal("an answer", answer, &request.answer)?;
        }
        self.counts.answered += answers.len() as u64;
        let Some(request) = sent.get(answers.len()) else {
            let last = sent.last().map_or(&self.table, |request| &request.after);
            return equal("the table after all requests", file, last);
        };
        let line = String::from_utf8_lossy(&request.asked.line);
        let stations = stations(|stop| request.stopped(stop), file)
            .map_err(|wrong| format!("{line}: {wrong}"))?;
        if !stations.iter().any(|station| station == mended) {
            return Err(format!(
                "{line}: mended to neither the table before nor after"
            ));
        }
        let half = stations.iter().all(|station| station != file);
        self.counts.half_stored += u64::from(half);
        let empty = emptied(|stop| request.stopped(stop));
        let marked = empty.is_some_and(|(_, empty)| empty == mended);
        self.counts.half_rewritten += u64::from(marked);
        let destroyed = headless(|stop| request.stopped(stop)).is_some();
        self.counts.half_destroyed += u64::from(half && destroyed);
        Ok(())
    }
}

/// What mending answers to this table, and what it makes of it.
fn mend(table: &[u8]) -> Result<([u64; 7], Vec<u8>), String> {
    let mut table = Table::of(table.to_vec());
    let answer = table
        .mend()
        .map_err(|refused| format!("mending: {refused}"))?;
    Ok((answer.numbers(), table.into_bytes()))
}

/// A pipe to or from the host.
fn taken<T>(pipe: Option<T>) -> io::Result<T> {
    pipe.ok_or_else(|| io::Error::other("no pipe"))
}
