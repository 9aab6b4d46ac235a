//! A machine whose disk keeps writes back until it is flushed, and, when the plug is pulled, lets any of them land.

use std::cell::RefCell;
use std::io;
use std::rc::Rc;

use host::Disk;

const RECORD: usize = 32;

/// What becomes of one call of the disk, a write or a flush.
#[derive(Debug, Clone, Copy, PartialEq, Eq)]
pub enum Fault {
    /// This call and every later one fails: the host is gone.
    Gone,
    /// This call alone fails. Of a flush that fails, the writes that have not landed are forgotten, but for the machine's memory.
    Once,
}

#[derive(Default)]
struct State {
    /// What is on the disk for good.
    landed: Vec<u8>,
    /// What a read sees: the machine's memory.
    seen: Vec<u8>,
    /// The writes since the last flush, in order.
    kept_back: Vec<(usize, Vec<u8>)>,
    calls: u64,
    flushes: u64,
    fault: Option<(u64, Fault)>,
    /// A flush that the host asks for and does not get, as if its writing had none there.
    skipped: Option<u64>,
    /// Which of the writes land when a flush fails; the bits of a number, over and over.
    lands: u64,
}

/// The machine. A host that runs on it holds a clone.
#[derive(Clone, Default)]
pub struct Machine(Rc<RefCell<State>>);

impl Machine {
    /// A machine with this on its disk.
    pub fn of(landed: &[u8]) -> Machine {
        let machine = Machine::default();
        machine.0.borrow_mut().landed = landed.to_vec();
        machine.0.borrow_mut().seen = landed.to_vec();
        machine
    }

    /// The writes and flushes so far.
    pub fn calls(&self) -> u64 {
        self.0.borrow().calls
    }

    /// The flushes so far.
    pub fn flushes(&self) -> u64 {
        self.0.borrow().flushes
    }

    /// Let the call after so many more fail; of a flush that fails, let these writes land.
    pub fn fail_after(&self, more: u64, fault: Fault, lands: u64) {
        let mut state = self.0.borrow_mut();
        state.fault = Some((state.calls + more, fault));
        state.lands = lands;
    }

    /// Leave out the flush after so many more, as a host would that has one phase fewer.
    pub fn skip_flush(&self, more: u64) {
        let mut state = self.0.borrow_mut();
        state.skipped = Some(state.flushes + more);
    }

    /// No call fails any more. The host may be another one; what was kept back is still kept back.
    pub fn go_on(&self) {
        self.0.borrow_mut().fault = None;
    }

    /// How many writes are kept back.
    pub fn kept_back(&self) -> usize {
        self.0.borrow().kept_back.len()
    }

    /// What is on the disk for good.
    pub fn landed(&self) -> Vec<u8> {
        self.0.borrow().landed.clone()
    }

    /// What the disk holds if the plug is pulled now and just these of the writes that were kept back land: bit i, write i; from
    /// the 64th on the bits come again.
    pub fn pulled(&self, lands: u64) -> Vec<u8> {
        let state = self.0.borrow();
        let mut landed = state.landed.clone();
        for (at, (record, bytes)) in state.kept_back.iter().enumerate() {
            if lands >> (at % 64) & 1 == 1 {
                landed[record * RECORD..(record + 1) * RECORD].copy_from_slice(bytes);
            }
        }
        landed
    }

    /// Count a call; does it fail, and how?
    fn call(&self) -> Option<Fault> {
        let mut state = self.0.borrow_mut();
        let now = state.calls;
        state.calls += 1;
        let (at, fault) = state.fault?;
        let fails = now == at || (now > at && fault == Fault::Gone);
        fails.then_some(fault)
    }
}

impl Machine {
    /// Is this flush left out?
    fn skips(&self) -> bool {
        let mut state = self.0.borrow_mut();
        let skips = state.skipped == Some(state.flushes);
        if skips {
            state.skipped = None;
        }
        skips
    }
}

fn failed() -> io::Error {
    io::Error::other("the disk failed")
}

impl Disk for Machine {
    fn read(&mut self) -> io::Result<Vec<u8>> {
        Ok(self.0.borrow().seen.clone())
    }

    fn write(&mut self, record: usize, bytes: &[u8]) -> io::Result<()> {
        if self.call().is_some() {
            return Err(failed());
        }
        let mut state = self.0.borrow_mut();
        state.seen[record * RECORD..(record + 1) * RECORD].copy_from_slice(bytes);
        state.kept_back.push((record, bytes.to_vec()));
        Ok(())
    }

    fn flush(&mut self) -> io::Result<()> {
        let fault = self.call();
        if fault == Some(Fault::Gone) {
            return Err(failed());
        }
        if self.skips() {
            return Ok(());
        }
        let lands = fault.map_or(u64::MAX, |_| self.0.borrow().lands);
        let landed = self.pulled(lands);
        let mut state = self.0.borrow_mut();
        state.landed = landed;
        state.kept_back.clear();
        state.flushes += 1;
        fault.map_or(Ok(()), |_| Err(failed()))
    }
}
