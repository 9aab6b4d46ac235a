//! Jobs made up: sheets that meet a table, nearly good ones, and bad ones.

use random::{chains, lists, requests, Random};

use crate::job::Job;
use crate::tables::{self, spoiled};

const LINKS: [&str; 10] = [
    "A",
    "B",
    "C",
    "AB",
    "B.",
    "-",
    ".1",
    "LONGNAME10",
    "_",
    "N7",
];
const TOO_HIGH: [u32; 3] = [1_000_000, 16_777_217, u32::MAX];
/// Chains that the line's rules refuse, or nearly.
const ODD_CHAINS: [&str; 19] = [
    "",
    " ",
    ":",
    ":R",
    ":R .R", // the declaration is M:R
    ":R X",
    ":A .W",
    ".R:",
    ".R::A",
    ".1",
    ".1:A",
    ".",
    ".R1",
    "-",
    "low",
    ".R A",
    "ELEVENCHARS",
    "A:@",
    ".R : A",
];

/// One sheet's record.
fn record(name: &[u8], length: usize) -> [u8; 32] {
    let mut record = [0; 32];
    record[..name.len()].copy_from_slice(name);
    record[10..12].copy_from_slice(&(length as u16).to_le_bytes());
    record
}

/// Make a request of user 1 that may well be refused; its number.
fn ask(table: &mut [u8], line: &str, text: &[u8]) -> u32 {
    tables::ask(table, line.as_bytes(), text, 1, u32::MAX)
}

/// Two directories where there is none, and a few requests more, so that there are files, links and loops to meet.
pub fn grow(random: &mut Random, table: &mut [u8], count: usize) {
    if table.iter().all(|byte| *byte == 0) {
        ask(table, "CRD .R", b"");
        ask(table, "CRD .W", b"");
    }
    for _ in 0..count {
        let line = requests::granted(random, table, 1);
        let length = random.below(60);
        let text = random.bytes(length);
        ask(table, &line, &text);
    }
}

/// A chain that mostly names a directory.
fn chain(random: &mut Random, table: &mut [u8]) -> String {
    for _ in 0..6 {
        let chain = chains::old(random, table, 1);
        if matches!(ask(table, &format!("LST {chain}"), b""), 0 | 20) {
            return chain;
        }
    }
    chains::old(random, table, 1)
}

/// The length of a text: mostly short; now and then the longest, or longer than a file may be.
fn length(random: &mut Random) -> usize {
    match random.below(160) {
        0 => random.pick(&[24_000, 24_001, 24_001, 65_535]),
        1..=80 => random.pick(&[0, 1, 23, 24, 25, 48, 49]),
        _ => random.below(100),
    }
}

/// A job on the table, most likely to be done: sheets of unlike names, their texts, and a buffer for the longest.
fn good(random: &mut Random, mut table: Vec<u8>) -> Job {
    let chain = chain(random, &mut table).into_bytes();
    let (first, count) = (random.below(LINKS.len()), random.below(6));
    let names = (0..count).map(|n| LINKS[(first + n) % LINKS.len()]);
    let lengths: Vec<usize> = (0..count).map(|_| length(random)).collect();
    let records = names.zip(&lengths);
    Job {
        sheets: records
            .flat_map(|(name, length)| record(name.as_bytes(), *length))
            .collect(),
        texts: random.bytes(lengths.iter().sum()),
        room: lengths.into_iter().max().unwrap_or(0),
        index: Vec::new(),
        table,
        chain,
        user: 1,
        stop: filebox::NO_STOP,
    }
}

/// One sheet that is no sheet, or not wholly there.
fn malform(random: &mut Random, job: &mut Job) {
    let sheets = job.sheets.len() / 32;
    if sheets == 0 || random.once_in(3) {
        job.sheets.resize(sheets * 32 + 1 + random.below(31), b'Z');
        return;
    }
    let sheet = &mut job.sheets[random.below(sheets) * 32..][..32];
    match random.below(4) {
        0 => sheet[12 + random.below(20)] = 1 + random.below(255) as u8,
        1 => sheet[..10].fill(0),
        2 => sheet[..3].copy_from_slice(b"A\0B"),
        _ => sheet[random.below(10)] = random.pick(b" :@`a\x1f\xff\0"),
    }
}

/// One sheet gets the name of another.
fn twin(random: &mut Random, job: &mut Job) {
    let sheets = job.sheets.len() / 32;
    if sheets > 1 {
        let (one, other) = (random.below(sheets), random.below(sheets));
        job.sheets.copy_within(one * 32..one * 32 + 10, other * 32);
    }
}

/// The chain runs through the entry that a sheet displaces, mostly the last one, if there is room for such a loop.
fn through_a_loop(random: &mut Random, job: &mut Job) {
    let chain = String::from_utf8_lossy(&job.chain).into_owned();
    let link = random.pick(&["LOOP", "A", "-"]);
    let line = format!("DUP {chain} {chain}:{link}");
    let sheets = job.sheets.len() / 32;
    if sheets == 0 || ask(&mut job.table, &line, b"") != 0 {
        return;
    }
    job.chain = format!("{chain}:{link}").into_bytes();
    let displacing = if random.once_in(4) { 0 } else { sheets - 1 };
    let name = record(link.as_bytes(), 0);
    job.sheets[displacing * 32..][..10].copy_from_slice(&name[..10]);
}

/// Another chain: of a directory that is inhibited, missing or no directory, or one that the line's rules refuse.
fn astray(random: &mut Random, job: &mut Job) {
    let chain = String::from_utf8_lossy(&job.chain).into_owned();
    match random.below(12) {
        0 | 1 => {
            let code = random.pick(&[1, 2]);
            ask(&mut job.table, &format!("DPR {chain} .{code}"), b"");
        }
        2 => job.chain.extend(b":NONE"),
        3 => job.chain = chains::new(random, &job.table, 1).into_bytes(),
        4 => job
            .chain
            .resize(random.pick(&[236, 247, 248, 249, 300, 10_000]), b' '),
        5 => {
            // a directory with entries stands where a sheet is to be filed
            ask(&mut job.table, &format!("CRD {chain}:A"), b"");
            ask(&mut job.table, &format!("CRD {chain}:A:A"), b"");
        }
        6 | 7 => {
            let length = random.below(9);
            job.chain = (0..length).map(|_| random.pick(b" :.RWAM-1@")).collect();
        }
        _ => job.chain = random.pick(&ODD_CHAINS).into(),
    }
}

/// The first text becomes longer than a file may be.
fn lengthen(random: &mut Random, job: &mut Job) {
    if job.sheets.len() >= 32 {
        let length: u16 = random.pick(&[24_001, 65_535]);
        job.sheets[10..12].copy_from_slice(&length.to_le_bytes());
        job.texts.resize(66_560, b'X');
        job.room = length.into();
    }
}

/// Bytes without a meaning.
fn rubbish(random: &mut Random, job: &mut Job) {
    let length = random.pick(&[1, 31, 32, 64, 100]);
    let bytes = random.bytes(length);
    match random.below(3) {
        0 => job.sheets = bytes,
        1 => job.chain = bytes,
        _ => job.table = bytes,
    }
}

/// One thing about the job becomes another.
fn bent(random: &mut Random, job: &mut Job) {
    match random.below(40) {
        0..=2 => malform(random, job),
        3..=5 => twin(random, job),
        6..=8 => job.texts.truncate(random.below(job.texts.len() + 1)),
        9 | 10 => job.texts.extend([7; 5]),
        11 | 12 => job.room = job.room.saturating_sub(1),
        13 => job.room = random.below(job.room + 1),
        14 | 15 => job.room += random.below(40),
        16..=19 => through_a_loop(random, job),
        20..=26 => astray(random, job),
        27 => job.user = random.pick(&TOO_HIGH),
        28 => job.user = 2,
        29 | 30 => job.table = spoiled(random, &job.table, 1),
        31 => lengthen(random, job),
        32 => rubbish(random, job),
        _ => {}
    }
}

/// A job on a copy of the table with its index: mostly a good one; now and then one thing about it is bent, or two, or the list is another.
pub fn job(random: &mut Random, table: &[u8]) -> Job {
    let mut job = good(random, table.to_vec());
    for _ in 0..random.pick(&[0, 1, 1, 1, 2]) {
        bent(random, &mut job);
    }
    job.index = beside::true_index(&job.table);
    if random.once_in(16) {
        let stale = beside::true_index(table);
        job.index = lists::wrong(random, &job.index, &stale);
    }
    job
}
