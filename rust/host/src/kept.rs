//! A table kept on a disk: every call is answered when what it changed is flushed.

use std::fmt;
use std::io;

use filebox::{to_six, Answer, Number, Refused, Table, NO_STOP, RECORD_BYTES};

use crate::disk::Disk;
use crate::phases;
use crate::steps::{Job, Lit, Request, Step};

/// Why a table cannot be kept, or a call has no answer.
#[derive(Debug)]
pub enum Wrong {
    /// No table has so many bytes.
    Length(usize),
    /// It is a table from before names had six bits a character.
    OldNames,
    /// Mending does not make it sound.
    NotSound,
    /// The disk does not do what is asked of it.
    Disk(io::Error),
}

impl Wrong {
    /// Why mending refused this table, with this number.
    pub fn refused(number: Number, table: &[u8]) -> Wrong {
        match number {
            Number::TableLength => Wrong::Length(table.len()),
            _ if to_six(&mut table.to_vec()) == Number::Done => Wrong::OldNames,
            _ => Wrong::NotSound,
        }
    }
}

impl From<io::Error> for Wrong {
    fn from(error: io::Error) -> Wrong {
        Wrong::Disk(error)
    }
}

impl fmt::Display for Wrong {
    fn fmt(&self, f: &mut fmt::Formatter) -> fmt::Result {
        match self {
            Wrong::Length(bytes) => write!(
                f,
                "is no table: a table has 0 to 2,048 records of 32 bytes, and this has {}{bytes} bytes",
                if *bytes > crate::disk::MOST_BYTES { "at least " } else { "" }
            ),
            Wrong::OldNames => f.write_str("is an old table, with a byte for each character of a name"),
            Wrong::NotSound => f.write_str("is no table: mending does not make it sound"),
            Wrong::Disk(error) => write!(f, "the disk failed: {error}"),
        }
    }
}

/// A disk, and the table that is on it. Its index is in memory alone: the mend with which a table is opened builds it.
pub struct Kept<D> {
    disk: D,
    table: Table,
    /// Set while a step is being written: after a disk error the disk is asked what it holds.
    doubtful: bool,
}

impl<D: Disk> Kept<D> {
    /// The table of this disk, mended, and what mending answered. A disk that holds no table, or one that mending does not make
    /// sound, is left as it is.
    pub fn open(mut disk: D) -> Result<(Kept<D>, Answer), Wrong> {
        let (table, answer) = settled(&mut disk)?;
        let kept = Kept {
            disk,
            table,
            doubtful: false,
        };
        Ok((kept, answer))
    }

    /// The table as it was last flushed.
    pub fn table(&self) -> &[u8] {
        self.table.as_ref()
    }

    /// The disk, handed back.
    pub fn into_disk(self) -> D {
        self.disk
    }

    /// Do a request; the reply's bytes are at the front of the buffer. It is answered when it is on the disk. After a disk
    /// error it has no answer, and may be done or not; the next call first reads and mends what the disk holds.
    pub fn request(&mut self, request: Request, reply: &mut [u8]) -> Result<Answer, Wrong> {
        self.settle()?;
        let (answer, steps) = request.steps(&self.table, reply);
        self.store(steps)?;
        Ok(answer)
    }

    /// Light the lamp of a job, each sheet a step.
    pub fn job(&mut self, job: Job) -> Result<Lit, Wrong> {
        self.settle()?;
        let (lit, steps) = job.steps(&self.table);
        self.store(steps)?;
        Ok(lit)
    }

    /// Sweep what no base file reaches. It is answered when it is on the disk. After a disk error it has no answer: what the disk holds is mended
    /// before the next call, and another sweep ends as this one would have.
    pub fn sweep(&mut self) -> Result<Answer, Wrong> {
        self.settle()?;
        let mut after = self.table.clone();
        let refused = |refused: Refused| Wrong::refused(refused.answer().number, self.table());
        let answer = after.sweep(NO_STOP).map_err(refused)?;
        self.store(vec![Step::Sweep(after)])?;
        Ok(answer)
    }

    /// After a disk error: what the disk holds, mended.
    fn settle(&mut self) -> Result<(), Wrong> {
        if self.doubtful {
            self.table = settled(&mut self.disk)?.0;
            self.doubtful = false;
        }
        Ok(())
    }

    /// Write step after step.
    fn store(&mut self, steps: Vec<Step>) -> Result<(), Wrong> {
        for step in steps {
            self.doubtful = true;
            phases::write(&mut self.disk, self.table.as_ref(), &step)?;
            self.table = step.after();
            self.doubtful = false;
        }
        Ok(())
    }
}

/// What the disk holds, mended there and its index built, and what mending answered.
///
/// What is read may stand in the machine's memory alone, where a host was killed or a flush failed. So it is written as it
/// was read and flushed before anything is cleared: else the clearing could land and the entry before it be lost.
fn settled(disk: &mut impl Disk) -> Result<(Table, Answer), Wrong> {
    let found = disk.read()?;
    let mut mended = Table::of(found.clone());
    let refused = |refused: Refused| Wrong::refused(refused.answer().number, &found);
    let answer = mended.mend().map_err(refused)?;
    phases::write_all(disk, found.chunks(RECORD_BYTES).enumerate())?;
    phases::write_differing(disk, &found, mended.as_ref())?;
    Ok((mended, answer))
}
