//! Sweeps by the host over a disk that keeps writes back: pulled anywhere, with any part of what was kept back on the disk, it is mended, and swept
//! again it ends as one uncut.

use host::Kept;
use random::{loops, Random};

use crate::machine::{Fault, Machine};
use crate::second;
use crate::seen::{equal, Checked};

const RECORDS: usize = 40;
/// Sweeps on one table, before a new one is begun.
const STORY: u64 = 20;
/// Writes kept back of which every subset is tried; of more, so many at random.
const FEW: usize = 8;
const SOME: usize = 64;
/// Requests that make a table: those that make loops and lose them, most often from this one.
const BEGUN: [&str; 6] = [
    "CRD .R",
    "CRD .R:A",
    "DUP .R:A .R:A:A",
    "WRS M .R:A:S",
    "CRD .AB",
    "DEL .R:A",
];
const MOST_REQUESTS: usize = 12;
const LONGEST_TEXT: usize = 120;

/// What was tried.
#[derive(Debug, Default, PartialEq, Eq)]
pub struct Swept {
    pub sweeps: u64,
    /// Of these, such that cleared something, and text among it.
    pub losing: u64,
    pub texts: u64,
    /// Pulls, each at one call of the disk with one subset.
    pub pulls: u64,
    /// Of these, what was mended was neither the table before nor the one after.
    pub halves: u64,
    /// Flushes, of sweeps that cleared something.
    pub flushes: u64,
}

/// So many sweeps of tables that requests made, each pulled at every call of the disk. A plant leaves out a flush of each, from 0.
pub fn sweeps(count: u64, seed: u64, planted: Option<u64>) -> Result<Swept, String> {
    let mut random = Random::new(seed);
    let mut swept = Swept::default();
    let mut table = Vec::new();
    for at in 0..count {
        if at % STORY == 0 {
            table = begun();
        }
        grow(&mut random, &mut table);
        let tried = swept.sweep(&mut random, &table, planted);
        tried.map_err(|wrong| format!("sweep {at}: {wrong}"))?;
    }
    Ok(swept)
}

fn begun() -> Vec<u8> {
    let mut table = vec![0; RECORDS * filebox::RECORD_BYTES];
    for line in BEGUN {
        ask(&mut table, line.as_bytes(), &[b's'; 60], 1);
    }
    table
}

/// A request by the second program, granted or not.
fn ask(table: &mut [u8], line: &[u8], text: &[u8], user: u32) {
    second::request(table, line, text, &mut [], user, filebox::NO_STOP);
}

/// A few requests that make loops and lose them.
fn grow(random: &mut Random, table: &mut [u8]) {
    for _ in 0..=random.below(MOST_REQUESTS) {
        let user = random.pick(&[1, 1, 2]);
        let line = loops::about(random, table, user);
        let length = random.below(LONGEST_TEXT);
        let text = random.bytes(length);
        ask(table, &line, &text, user);
    }
}

/// The table after a sweep, by the second program.
fn uncut(table: &[u8]) -> Vec<u8> {
    let mut after = table.to_vec();
    let mut index = beside::true_index(table);
    let answer = beside::sweep(&mut after, &mut index, filebox::NO_STOP);
    assert_eq!(answer.number, 0, "requests leave a sound table");
    after
}

fn opened(machine: &Machine) -> Result<Kept<Machine>, String> {
    let opened = Kept::open(machine.clone());
    opened
        .map(|(host, _)| host)
        .map_err(|wrong| wrong.to_string())
}

/// Which writes land: every subset of a few; of more none, all, and some at random.
fn subsets(random: &mut Random, writes: usize) -> Vec<u64> {
    if writes <= FEW {
        return (0..1 << writes).collect();
    }
    let mut bits = || (0..64).fold(0, |bits, _| bits << 1 | random.below(2) as u64);
    let mut subsets = vec![0, u64::MAX];
    subsets.extend((0..SOME).map(|_| bits()));
    subsets
}

impl Swept {
    /// One table swept on a disk, and pulled everywhere.
    fn sweep(&mut self, random: &mut Random, table: &[u8], planted: Option<u64>) -> Checked {
        let after = uncut(table);
        let machine = Machine::of(table);
        let mut host = opened(&machine)?;
        let (calls, flushes) = (machine.calls(), machine.flushes());
        host.sweep().map_err(|wrong| wrong.to_string())?;
        equal("the table on the disk", &machine.landed(), &after)?;
        self.sweeps += 1;
        self.losing += u64::from(table != after);
        self.texts += u64::from(texts(table) > texts(&after));
        self.flushes += machine.flushes() - flushes;
        for call in 0..machine.calls() - calls {
            let machine = pulled_at(table, call, planted)?;
            for lands in subsets(random, machine.kept_back()) {
                self.again(&machine.pulled(lands), table, &after)?;
            }
        }
        Ok(())
    }

    /// What a pull left is mended, and swept again.
    fn again(&mut self, left: &[u8], before: &[u8], after: &[u8]) -> Checked {
        let machine = Machine::of(left);
        let mut host = opened(&machine)?;
        self.pulls += 1;
        self.halves += u64::from(![before, after].contains(&host.table()));
        host.sweep().map_err(|wrong| wrong.to_string())?;
        equal("mended and swept again", host.table(), after)?;
        equal("the table on the disk", &machine.landed()[..], after)
    }
}

/// A machine on which a sweep of this table was pulled at this call.
fn pulled_at(table: &[u8], call: u64, planted: Option<u64>) -> Result<Machine, String> {
    let machine = Machine::of(table);
    let mut host = opened(&machine)?;
    if let Some(flush) = planted {
        machine.skip_flush(flush);
    }
    machine.fail_after(call, Fault::Gone, 0);
    match host.sweep() {
        Ok(_) => Err("answered without the disk".to_string()),
        Err(_) => Ok(machine),
    }
}

/// How many text records a table has.
fn texts(table: &[u8]) -> usize {
    table.chunks(32).filter(|record| record[0] == 3).count()
}
