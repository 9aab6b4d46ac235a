//! The lamp beside its requests made one by one: a job of 25 sheets of 960 bytes on 2,048 records, filed and read back.

use filebox::{light, request, Number, NO_STOP};
use turns::nanoseconds;

use crate::tables::{hundred, index, USER};

const RECORDS: usize = 2_048;
const SHEETS: usize = 25;
const BYTES: usize = 960;
const CHAIN: &str = ".R";
/// How many times what its requests take the job may take.
const BAR: f64 = 1.2;

/// The job, as the lamp takes it and as lines, on a table that is set right before each turn.
struct Job {
    before: Vec<u8>,
    index_before: Vec<u16>,
    table: Vec<u8>,
    index: Vec<u16>,
    sheets: Vec<u8>,
    texts: Vec<u8>,
    back: Vec<u8>,
    filings: Vec<String>,
    readings: Vec<String>,
}

impl Job {
    fn new() -> Job {
        let names: Vec<String> = (0..SHEETS).map(|n| format!("JOB{n:02}")).collect();
        let record = |name: &String| {
            let mut record = [0; 32];
            record[..name.len()].copy_from_slice(name.as_bytes());
            record[10..12].copy_from_slice(&(BYTES as u16).to_le_bytes());
            record
        };
        let lines = |before: &str| {
            let line = |name: &String| format!("{before} {CHAIN}:{name}");
            names.iter().map(line).collect()
        };
        let before = hundred(RECORDS);
        let index_before = index(&before);
        Job {
            table: before.clone(),
            before,
            index: index_before.clone(),
            index_before,
            sheets: names.iter().flat_map(record).collect(),
            texts: (0..SHEETS * BYTES).map(|at| (at % 251) as u8).collect(),
            back: vec![0; BYTES],
            filings: lines("WRS M"),
            readings: lines("RDS"),
        }
    }

    fn set_right(&mut self) {
        self.table.copy_from_slice(&self.before);
        self.index.copy_from_slice(&self.index_before);
    }

    /// The lamp, which must be green.
    fn light(&mut self) {
        let (table, index, back) = (&mut self.table, &mut self.index, &mut self.back);
        let (sheets, texts, chain) = (&self.sheets, &self.texts, CHAIN.as_bytes());
        let lamp = light(table, index, sheets, texts, back, chain, USER, NO_STOP);
        assert_eq!(
            lamp.numbers(),
            [0, 0, 0, 0, (SHEETS * (BYTES / 24 + 4)) as u32]
        );
    }

    /// The same sheets filed and read back by requests, each of which must be granted.
    fn requests(&mut self) {
        let filings = self.filings.iter().zip(self.texts.chunks(BYTES));
        let readings = self.readings.iter().map(|line| (line, &[][..]));
        for (line, text) in filings.chain(readings) {
            let (table, index, reply) = (&mut self.table, &mut self.index, &mut self.back);
            let answer = request(table, index, line.as_bytes(), text, reply, USER, NO_STOP);
            assert_eq!(answer.number, Number::Done);
        }
    }
}

/// The least times of both, in turns, and their ratio; is it within the bar?
pub fn bench(turns: usize) -> bool {
    let mut job = Job::new();
    let mut least = [f64::MAX; 2];
    for _ in 0..turns {
        for (least, call) in least.iter_mut().zip([Job::light, Job::requests]) {
            job.set_right();
            *least = least.min(nanoseconds(|| call(&mut job)));
        }
    }
    let [lamp, requests] = least.map(|nanoseconds| nanoseconds / 1000.0);
    let ratio = lamp / requests;
    println!("\nThe lamp, a job of {SHEETS} sheets of {BYTES} bytes at {RECORDS} records: {lamp:.0} µs; its {} requests one by", 2 * SHEETS);
    println!("one: {requests:.0} µs; {ratio:.2} times, and the bar is {BAR}.");
    ratio <= BAR
}

#[cfg(test)]
mod tests {
    use super::*;

    #[test]
    fn the_job_and_its_requests_leave_the_same() {
        let mut job = Job::new();
        job.light();
        let (table, index, back) = (job.table.clone(), job.index.clone(), job.back.clone());
        job.set_right();
        job.back.fill(0);
        job.requests();
        assert!(job.table == table && job.table != job.before);
        assert!(job.index == index && job.index != job.index_before);
        assert_eq!(job.back, back);
        assert_eq!(back, job.texts[(SHEETS - 1) * BYTES..]);
    }
}
