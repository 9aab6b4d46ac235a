//! The host's own writing over a disk that keeps writes back: pulled anywhere, with any part of what was kept back on the
//! disk, it is mended to the table before a request or after it, or, of a rewrite, after it with that one file marked and empty; the
//! fixture's answer says which, if it came.

use host::{Kept, Request};
use random::Random;

use crate::machine::{Fault, Machine};
use crate::seen::{emptied, equal, headless, is_marked, tables, Checked};
use crate::sent::{requests, About, Sent};

const RECORDS: usize = 40;
/// Requests on one table, before a new one is begun.
const STORY: usize = 60;
/// Writes kept back of which every subset is tried.
const FEW: usize = 10;
/// The longest text that is sent.
const LONGEST_TEXT: usize = 200;

/// What was tried.
#[derive(Debug, Default, PartialEq, Eq)]
pub struct Tried {
    pub requests: u64,
    /// Pulls, each at one call of the disk with one subset.
    pub pulls: u64,
    /// Of these, what was on the disk was neither the table before nor the one after.
    pub halves: u64,
    /// Pulls in the mending that came after a pull or a kill.
    pub mends: u64,
    /// Pulls that were mended to a rewrite's file marked and empty.
    pub marked: u64,
    /// Pulls after which a heading was counted anew.
    pub counted: u64,
    /// Pulls after which entries that named no heading were cleared.
    pub destroyed: u64,
    /// Disk errors that the host went on after.
    pub errors: u64,
    /// Flushes, of requests that changed something.
    pub flushes: u64,
    pub changing: u64,
}

/// A host on a machine, and what its table must be.
struct Story {
    random: Random,
    table: Vec<u8>,
    tried: Tried,
    /// Of the request that is under way, if it is a rewrite: its file, and the table with that marked and empty.
    empty: Option<(usize, Vec<u8>)>,
    /// The same, if it is a DST: the heading that its first store clears.
    headless: Option<usize>,
    /// The flush of each request, or of each rewrite or DST, that is left out, from 0: a plant, which must be found.
    planted: Option<u64>,
    about: About,
}

/// So many requests, each pulled at every call of the disk, and a story of pulls, kills and disk errors beside. A plant leaves
/// out a flush of each request, from 0; where rewrites or DSTs are asked, of these alone.
pub fn reorder(about: About, count: u64, seed: u64, planted: Option<u64>) -> Result<Tried, String> {
    let mut story = Story {
        random: Random::new(seed),
        table: Vec::new(),
        tried: Tried::default(),
        empty: None,
        headless: None,
        planted,
        about,
    };
    for at in 0..count {
        if at % STORY as u64 == 0 {
            story.table = about.begun(RECORDS);
        }
        let sent = requests(&mut story.random, &story.table, about, 1, LONGEST_TEXT).remove(0);
        let line = String::from_utf8_lossy(&sent.asked.line).into_owned();
        story
            .request(&sent)
            .map_err(|wrong| format!("request {at}, {line}: {wrong}"))?;
    }
    Ok(story.tried)
}

/// A host on a machine, which it has opened.
fn opened(machine: &Machine) -> Result<Kept<Machine>, String> {
    Ok(Kept::open(machine.clone())
        .map_err(|wrong| wrong.to_string())?
        .0)
}

/// The request, asked of a host.
fn asked(host: &mut Kept<Machine>, sent: &Sent) -> Result<[u64; 7], host::Wrong> {
    let mut reply = vec![0; filebox::LONGEST_TEXT];
    let (user, line, text) = (sent.asked.user, &sent.asked.line, &sent.asked.text);
    let answer = host.request(Request { user, line, text }, &mut reply)?;
    Ok(answer.numbers())
}

impl Story {
    /// One request, pulled everywhere; then done in some way, which gives the next table.
    fn request(&mut self, sent: &Sent) -> Checked {
        let stations = tables(|stop| sent.stopped(stop));
        self.empty = emptied(|stop| sent.stopped(stop));
        self.headless = headless(|stop| sent.stopped(stop));
        let machine = Machine::of(&self.table);
        let mut host = opened(&machine)?;
        let (calls, flushes) = (machine.calls(), machine.flushes());
        let answer = asked(&mut host, sent).map_err(|wrong| wrong.to_string())?;
        equal("the answer", &answer, &sent.answer)?;
        equal("the table on the disk", &machine.landed(), &sent.after)?;
        self.tried.requests += 1;
        self.tried.flushes += machine.flushes() - flushes;
        self.tried.changing += u64::from(sent.after != self.table);
        for call in 0..machine.calls() - calls {
            self.pull(sent, &stations, call)?;
        }
        self.table = match self.random.below(3) {
            0 => self.killed(sent, &stations)?,
            1 => self.failed(sent, &stations)?,
            _ => sent.after.clone(),
        };
        Ok(())
    }

    /// Pull the plug at this call of the request, with every subset of what is kept back then, or some.
    fn pull(&mut self, sent: &Sent, stations: &[Vec<u8>], call: u64) -> Checked {
        let machine = Machine::of(&self.table);
        let mut host = opened(&machine)?;
        let spared = match self.about {
            About::Anything => false,
            About::Rewrites => self.empty.is_none(),
            About::Destroys => self.headless.is_none(),
        };
        if let Some(flush) = self.planted.filter(|_| !spared) {
            machine.skip_flush(flush);
        }
        machine.fail_after(call, Fault::Gone, 0);
        if asked(&mut host, sent).is_ok() {
            return Err("answered without the disk".to_string());
        }
        for lands in self.subsets(machine.kept_back()) {
            let left = machine.pulled(lands);
            self.mended(&left, stations)?;
        }
        Ok(())
    }

    /// Every subset of so many writes; of many writes none, all, each alone, all but each, and some at random.
    fn subsets(&mut self, writes: usize) -> Vec<u64> {
        if writes <= FEW {
            return (0..1 << writes).collect();
        }
        let each = (0..writes.min(64)).flat_map(|write| [1 << write, !(1 << write)]);
        let mut subsets: Vec<u64> = each.chain([0, u64::MAX]).collect();
        subsets.extend((0..16).map(|_| self.bits()));
        subsets
    }

    /// A number of which each bit is 0 or 1.
    fn bits(&mut self) -> u64 {
        (0..64).fold(0, |bits, _| bits << 1 | self.random.below(2) as u64)
    }

    /// What a pull left is mended to one of these tables, also where its mending is pulled in turn. Once the one entry is there, or
    /// of a DST the heading is cleared, that is the table after. Of a rewrite it is the third exactly where the heading is marked; else nothing is mended.
    fn mended(&mut self, left: &[u8], stations: &[Vec<u8>]) -> Result<Vec<u8>, String> {
        self.tried.pulls += 1;
        self.tried.halves += u64::from(stations.iter().all(|station| station != left));
        let machine = Machine::of(left);
        let host = opened(&machine)?;
        let table = host.table().to_vec();
        equal("the mended table on the disk", &machine.landed(), &table)?;
        if !stations.contains(&table) {
            return Err("mended to neither the table before nor after".to_string());
        }
        let whole = match (&self.empty, stations) {
            (Some((file, empty)), _) if is_marked(left, *file) => &empty[..],
            (Some(_), _) => left,
            (None, [before, after]) if self.counts(before, after, left) => after,
            (None, [before, _]) => before,
            (None, _) => &table[..],
        };
        equal("the mended table", &table[..], whole)?;
        let marked = self
            .empty
            .as_ref()
            .is_some_and(|(_, empty)| *empty == table);
        self.tried.marked += u64::from(marked);
        self.tried.counted += u64::from(counted_anew(left, &table));
        self.tried.destroyed += u64::from(entries(left) > entries(&table));
        let call = self.random.below(machine.calls().max(1) as usize) as u64;
        self.mended_in_turn(left, call, &table)
    }

    /// Has the write that counts landed?
    fn counts(&self, before: &[u8], after: &[u8], left: &[u8]) -> bool {
        match self.headless {
            Some(file) => left[file * 32] == 0,
            None => entry_there(before, after, left),
        }
    }

    /// Mending, pulled at this call, is mended to the same.
    fn mended_in_turn(&mut self, left: &[u8], call: u64, table: &[u8]) -> Result<Vec<u8>, String> {
        let machine = Machine::of(left);
        machine.fail_after(call, Fault::Gone, 0);
        if Kept::open(machine.clone()).is_err() {
            self.tried.mends += 1;
            let again = Machine::of(&machine.pulled(self.bits()));
            equal("the table mended twice", opened(&again)?.table(), table)?;
        }
        Ok(table.to_vec())
    }

    /// The host is killed in the request; another one begins on the same machine, and there the plug is pulled.
    fn killed(&mut self, sent: &Sent, stations: &[Vec<u8>]) -> Result<Vec<u8>, String> {
        let machine = Machine::of(&self.table);
        let mut host = opened(&machine)?;
        machine.fail_after(self.random.below(12) as u64, Fault::Gone, 0);
        let answered = asked(&mut host, sent).is_ok();
        machine.go_on();
        machine.fail_after(self.random.below(RECORDS + 8) as u64, Fault::Gone, 0);
        // pulled here, or when it is done
        let _ = Kept::open(machine.clone());
        let left = machine.pulled(self.bits());
        let table = self.mended(
            &left,
            if answered {
                &stations[stations.len() - 1..]
            } else {
                stations
            },
        )?;
        Ok(table)
    }

    /// The disk fails once; the host goes on, and what it then says is on the disk.
    fn failed(&mut self, sent: &Sent, stations: &[Vec<u8>]) -> Result<Vec<u8>, String> {
        let machine = Machine::of(&self.table);
        let mut host = opened(&machine)?;
        machine.fail_after(self.random.below(12) as u64, Fault::Once, self.bits());
        let answered = asked(&mut host, sent).is_ok();
        self.tried.errors += u64::from(!answered);
        let left = machine.pulled(self.bits());
        let allowed = if answered {
            &stations[stations.len() - 1..]
        } else {
            stations
        };
        self.mended(&left, allowed)?;
        let mut reply = [0; 4_096];
        let asks = Request {
            user: 1,
            line: b"LST .",
            text: b"",
        };
        // the fault may still be to come
        while host.request(asks, &mut reply).is_err() {}
        equal("the table on the disk", &machine.landed()[..], host.table())?;
        match allowed.iter().any(|station| station == host.table()) {
            true => Ok(host.table().to_vec()),
            false => Err("after a disk error, neither the table before nor after".to_string()),
        }
    }
}

/// How many entries a table has.
fn entries(table: &[u8]) -> usize {
    table.chunks(32).filter(|record| record[0] == 2).count()
}

/// Has a heading other counts once what was left is mended?
fn counted_anew(left: &[u8], mended: &[u8]) -> bool {
    let mut pairs = left.chunks(32).zip(mended.chunks(32));
    pairs.any(|(left, mended)| left != mended && mended[0] == 1)
}

/// Is the one record that counts as it is afterwards?
fn entry_there(before: &[u8], after: &[u8], left: &[u8]) -> bool {
    let records = 0..before.len() / 32;
    let mut entries = records.filter(|record| {
        filebox::disk::phase(before, after, *record) == filebox::disk::Phase::Entry
    });
    entries.all(|record| left[record * 32..][..32] == after[record * 32..][..32])
}
