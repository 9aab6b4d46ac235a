//! Fourteen fixtures at once, each a client of the host's own program, with rubbish among their requests: whole, or with
//! the host killed in the middle.

mod client;
mod served;

use std::fs;
use std::path::{Path, PathBuf};
use std::sync::atomic::AtomicBool;
use std::thread::{self, sleep};
use std::time::{Duration, Instant};

use random::Random;

use crate::journal::{replay, Replayed, Told};
use client::Client;
use served::{Folder, Host};

const FIXTURES: usize = 14;
/// Fixtures of one user share its files: there are half as many users.
const USERS: usize = 7;
const RECORDS: usize = 256;
/// Milliseconds from the start of the clients to the kill.
const LONGEST: usize = 40;
/// Requests of each client on one table, before a new one is begun: loops that no base file reaches take its room.
const ROUND: usize = 500;
/// Kills on one table, before a new one is begun.
const KILLS: u64 = 25;

/// The user of a fixture.
fn user(fixture: usize) -> u32 {
    (fixture % USERS) as u32 + 1
}

/// What was seen.
#[derive(Debug, Default)]
pub struct Counts {
    pub kills: u64,
    pub taken: u64,
    pub answered: u64,
    /// How often each number was answered, from 0.
    pub numbers: [u64; beside::COUNTS],
    /// Kills after which the file was no table that a request begins or ends with.
    pub half_stored: u64,
    /// Milliseconds of the clients' work, the checking not counted.
    pub milliseconds: u128,
}

impl Counts {
    fn add(&mut self, replayed: &Replayed) {
        self.taken += replayed.taken;
        self.answered += replayed.answered;
        let numbers = self.numbers.iter_mut().zip(replayed.numbers);
        numbers.for_each(|(sum, more)| *sum += more);
    }
}

/// A line of kills or of whole work.
struct Crowd<'a> {
    program: &'a Path,
    folder: Folder,
    random: Random,
    counts: Counts,
}

impl Crowd<'_> {
    fn new(program: &Path, seed: u64, on_disk: bool) -> Result<Crowd<'_>, String> {
        let folder = Folder::new(seed, on_disk).map_err(|error| format!("the folder: {error}"))?;
        Ok(Crowd {
            program,
            folder,
            random: Random::new(seed),
            counts: Counts::default(),
        })
    }

    fn start(&self) -> Result<Host, String> {
        Host::start(self.program, &self.folder).map_err(|error| format!("the host: {error}"))
    }

    fn read(&self, file: PathBuf) -> Result<Vec<u8>, String> {
        fs::read(file).map_err(|error| format!("the file: {error}"))
    }

    /// Fourteen clients of so many requests each; the host is killed after so long, if at all. What each was told.
    fn clients(
        &mut self,
        host: &mut Host,
        count: usize,
        kill: Option<Duration>,
    ) -> Result<Vec<Vec<Told>>, String> {
        let gone = AtomicBool::new(false);
        let begun = Instant::now();
        let clients: Vec<Client> = (0..FIXTURES)
            .map(|number| self.client(host, number))
            .collect();
        let told = thread::scope(|scope| {
            let ask = |client: Client| scope.spawn(|| client.ask_all(count, &gone));
            let asking: Vec<_> = clients.into_iter().map(ask).collect();
            if let Some(pause) = kill {
                sleep(pause);
                host.kill().map_err(|error| error.to_string())?;
            }
            let told = asking.into_iter().map(|asking| asking.join());
            told.map(|told| told.map_err(|_| "a client panicked".to_string()))
                .collect()
        });
        self.counts.milliseconds += begun.elapsed().as_millis();
        match kill.is_none() && gone.into_inner() {
            true => Err("a client lost the host".to_string()),
            false => told,
        }
    }

    fn client(&mut self, host: &Host, number: usize) -> Client {
        Client {
            random: Random::new(self.random.below(1 << 30) as u64),
            user: user(number),
            address: host.addresses[number],
            table: self.folder.table(),
            told: Vec::new(),
        }
    }

    /// A new table, and so many requests of each client.
    fn round(&mut self, count: usize) -> Result<(), String> {
        let _ = fs::remove_file(self.folder.table());
        let mut host = self.start()?;
        let told = self.clients(&mut host, count, None)?;
        let journal = self.read(self.folder.journal())?;
        let replayed = replay(&journal, &[0; RECORDS * 32], &told)?;
        self.counts.add(&replayed);
        let table = [self.read(self.folder.table())?];
        crate::seen::equal("the table", &table[..], &replayed.stations[..])
    }

    /// One kill: the table is afterwards what the answers say.
    fn kill_once(&mut self) -> Result<(), String> {
        let mut host = self.start()?;
        let before = self.read(self.folder.table())?;
        let pause = Duration::from_micros(self.random.below(LONGEST * 1_000) as u64);
        let told = self.clients(&mut host, usize::MAX, Some(pause))?;
        let journal = fs::read(self.folder.journal()).unwrap_or_default();
        let replayed = replay(&journal, &before, &told)?;
        let left = self.read(self.folder.table())?;
        self.counts.add(&replayed);
        self.counts.kills += 1;
        self.counts.half_stored += u64::from(!replayed.stations.contains(&left));
        drop(self.start()?);
        match replayed.stations.contains(&self.read(self.folder.table())?) {
            true => Ok(()),
            false => Err("started again, neither the table before nor after".to_string()),
        }
    }
}

/// Fourteen clients, so many requests each, some on each table: every answer is the second program's, on the order in which
/// the host took them.
pub fn whole(program: &Path, count: usize, seed: u64) -> Result<Counts, String> {
    let mut crowd = Crowd::new(program, seed, false)?;
    for begun in (0..count).step_by(ROUND) {
        let round = crowd.round(ROUND.min(count - begun));
        round.map_err(|wrong| format!("from request {begun} on: {wrong}"))?;
    }
    Ok(crowd.counts)
}

/// So many kills under fourteen clients.
pub fn killed(program: &Path, kills: u64, seed: u64) -> Result<Counts, String> {
    let mut crowd = Crowd::new(program, seed, true)?;
    for kill in 0..kills {
        if kill % KILLS == 0 {
            let _ = fs::remove_file(crowd.folder.table());
        }
        crowd
            .kill_once()
            .map_err(|wrong| format!("kill {kill}: {wrong}"))?;
    }
    Ok(crowd.counts)
}
