//! A job: one call of the lamp, made by the proved library and by the second program, and compared byte for byte.

use std::fmt;

use crate::case::UNTOUCHED;
use crate::lights::Lights;
use crate::shown::{first_unlike, records};

/// What is lent and given in a job.
#[derive(Debug, Clone)]
pub struct Job {
    pub table: Vec<u8>,
    /// The list that is lent beside the table.
    pub index: Vec<u16>,
    pub sheets: Vec<u8>,
    pub texts: Vec<u8>,
    /// The length of the read-back buffer.
    pub room: usize,
    pub chain: Vec<u8>,
    pub user: u32,
    pub stop: u32,
}

/// What a job answered and left: light, sheet, phase, number, stores; each byte of the table and of the read-back buffer, and each place of
/// the index.
#[derive(Debug, Clone, PartialEq, Eq)]
pub struct Lit {
    pub answer: [u32; 5],
    pub table: Vec<u8>,
    pub index: Vec<u16>,
    pub back: Vec<u8>,
}

impl Lit {
    pub fn stores(&self) -> u32 {
        self.answer[4]
    }

    /// Is the read-back buffer as it was lent?
    pub fn is_back_as_lent(&self) -> bool {
        self.back.iter().all(|byte| *byte == UNTOUCHED)
    }
}

impl Job {
    /// The same with another stop number.
    pub fn stopped(&self, stop: u32) -> Job {
        Job {
            stop,
            ..self.clone()
        }
    }

    /// The lines and texts by which the sheets of a job that is not refused are filed, one by one.
    pub fn filings(&self) -> Vec<(Vec<u8>, &[u8])> {
        let mut rest = &self.texts[..];
        let filing = |record: &[u8]| {
            let name = record[..10].split(|byte| *byte == 0).next();
            let link = name.unwrap_or_default();
            let line = [b"WRS M ", &self.chain[..], b":", link].concat();
            let length = u16::from_le_bytes([record[10], record[11]]);
            let (text, after) = rest.split_at(length.into());
            rest = after;
            (line, text)
        };
        self.sheets.chunks_exact(32).map(filing).collect()
    }

    /// What a call leaves of a copy of the table and the list, and a fresh buffer.
    fn lit(&self, call: impl Fn(&mut [u8], &mut [u16], &mut [u8]) -> [u32; 5]) -> Lit {
        let (mut table, mut index) = (self.table.clone(), self.index.clone());
        let mut back = vec![UNTOUCHED; self.room];
        let answer = call(&mut table, &mut index, &mut back);
        Lit {
            answer,
            table,
            index,
            back,
        }
    }

    /// By the proved library, and by the second program.
    fn by_both(&self) -> (Lit, Lit) {
        let Job {
            sheets,
            texts,
            chain,
            user,
            stop,
            ..
        } = self;
        let proved = self.lit(|table, index, back| {
            filebox::light(table, index, sheets, texts, back, chain, *user, *stop).numbers()
        });
        let beside = self.lit(|table, index, back| {
            beside::light(table, index, sheets, texts, back, chain, *user, *stop).numbers()
        });
        (proved, beside)
    }

    /// Done by both; what they agree on.
    pub fn compared(&self, lights: &mut Lights) -> Result<Lit, Box<Unlike>> {
        let (proved, beside) = self.by_both();
        lights.calls += 1;
        let wrong = if proved.answer != beside.answer {
            "the lights differ"
        } else if proved.table != beside.table {
            "the tables differ"
        } else if proved.back != beside.back {
            "the read-back buffers differ"
        } else if proved.index != beside.index {
            "the indexes differ"
        } else {
            lights.count(proved.answer);
            return Ok(proved);
        };
        Err(self.unlike(wrong, proved, beside))
    }

    /// Both agree on this, and yet it must not be.
    pub fn must_not_be(&self, wrong: &'static str, lit: &Lit) -> Box<Unlike> {
        self.unlike(wrong, lit.clone(), lit.clone())
    }

    fn unlike(&self, wrong: &'static str, proved: Lit, beside: Lit) -> Box<Unlike> {
        Box::new(Unlike {
            job: self.clone(),
            wrong,
            proved,
            beside,
        })
    }
}

/// A job that is not as it should be: what is wrong, and what both made of it.
#[derive(Debug)]
pub struct Unlike {
    job: Job,
    wrong: &'static str,
    proved: Lit,
    beside: Lit,
}

/// As Rust's literals, to paste into a test.
impl fmt::Display for Unlike {
    fn fmt(&self, f: &mut fmt::Formatter) -> fmt::Result {
        let Unlike {
            job,
            wrong,
            proved,
            beside,
        } = self;
        writeln!(f, "DIFFERENCE: {wrong}")?;
        for (what, bytes) in [("mut table", &job.table), ("sheets", &job.sheets)] {
            writeln!(f, "    let {what}: Vec<u8> = [")?;
            records(f, bytes)?;
            writeln!(f, "    ].concat();")?;
        }
        writeln!(f, "    let mut index = {:?};", job.index)?;
        writeln!(f, "    let texts = b\"{}\";", job.texts.escape_ascii())?;
        writeln!(f, "    let mut back = [{UNTOUCHED:#x}; {}];", job.room)?;
        writeln!(f, "    let chain = b\"{}\";", job.chain.escape_ascii())?;
        writeln!(f, "    let (user, stop) = ({}, {});", job.user, job.stop)?;
        for (program, lit) in [("filebox", proved), ("beside", beside)] {
            let call =
                "light(&mut table, &mut index, &sheets, texts, &mut back, chain, user, stop)";
            writeln!(f, "    // {program}::{call}: {:?}", lit.answer)?;
        }
        first_unlike(f, "record", &proved.table, &beside.table)?;
        first_unlike(f, "32 bytes read back", &proved.back, &beside.back)?;
        first_unlike(f, "32 places", &proved.index, &beside.index)
    }
}
