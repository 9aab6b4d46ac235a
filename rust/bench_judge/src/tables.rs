//! Sound tables without a free record, in several shapes.

use random::names::{laid, laid_before, name};

const RECORD: usize = 32;
const IN_DIRECTORY: usize = 112;
const LONGEST: usize = 1000;

/// A table being filled, record by record.
pub struct Table {
    bytes: Vec<u8>,
    room: usize,
    serial: usize,
}

impl Table {
    fn new(records: usize) -> Table {
        Table {
            bytes: Vec::with_capacity(records * RECORD),
            room: records,
            serial: 0,
        }
    }

    fn left(&self) -> usize {
        self.room - self.bytes.len() / RECORD
    }

    fn push(&mut self, start: &[u8]) -> usize {
        let number = self.bytes.len() / RECORD;
        let mut record = [0u8; RECORD];
        record[..start.len()].copy_from_slice(start);
        self.bytes.extend_from_slice(&record);
        number
    }

    fn heading(&mut self, simple: bool, length: usize) -> usize {
        let n = length as u16;
        self.push(&[
            1,
            simple as u8,
            0,
            0,
            1,
            0,
            0,
            0,
            0,
            0,
            n as u8,
            (n >> 8) as u8,
        ])
    }

    fn entry(&mut self, holder: usize, named: usize, user: u32, name: &str) -> usize {
        let (d, h) = (holder as u16, named as u16);
        let mut r = vec![2, 0, d as u8, (d >> 8) as u8, h as u8, (h >> 8) as u8];
        r.extend_from_slice(&user.to_le_bytes()[..3]);
        r.extend_from_slice(&laid(name));
        self.push(&r)
    }

    fn text(&mut self, heading: usize, position: usize, held: usize) {
        let (h, p) = (heading as u16, position as u16);
        let mut r = vec![
            3,
            held as u8,
            h as u8,
            (h >> 8) as u8,
            p as u8,
            (p >> 8) as u8,
            0,
            0,
        ];
        r.resize(8 + held, b'x');
        self.push(&r);
    }

    fn fresh_name(&mut self) -> String {
        self.serial += 1;
        format!("N{:08}", self.serial)
    }

    /// A base directory of the user, with its entry.
    fn base(&mut self, user: u32) -> usize {
        let directory = self.heading(false, 0);
        self.entry(65535, directory, user, ".R");
        directory
    }

    /// A simple file of so many full blocks in the directory.
    fn file(&mut self, directory: usize, blocks: usize) -> usize {
        let heading = self.heading(true, blocks * 24);
        let name = self.fresh_name();
        self.entry(directory, heading, 0, &name);
        for p in 0..blocks {
            self.text(heading, p, 24);
        }
        heading
    }

    /// The full table, with true counts in its headings.
    fn finish(mut self) -> Vec<u8> {
        assert_eq!(self.room * RECORD, self.bytes.len());
        let mut counts = vec![[0u16; 2]; self.room];
        for entry in self.bytes.chunks(RECORD).filter(|r| r[0] == 2) {
            for (which, at) in [(0, 4), (1, 2)] {
                let number = u16::from_le_bytes([entry[at], entry[at + 1]]);
                if let Some(count) = counts.get_mut(usize::from(number)) {
                    count[which] += 1;
                }
            }
        }
        let records = self.bytes.chunks_mut(RECORD).zip(counts);
        for (heading, [named, holding]) in records.filter(|(r, _)| r[0] == 1) {
            heading[12..14].copy_from_slice(&named.to_le_bytes());
            heading[14..16].copy_from_slice(&holding.to_le_bytes());
        }
        self.bytes
    }
}

/// Files as long as they may be: one, and a second where it does not fill the table.
pub fn long_files(records: usize) -> Vec<u8> {
    let mut t = Table::new(records);
    let directory = t.base(1);
    while t.left() > 1 {
        let blocks = (t.left() - 2).min(LONGEST);
        t.file(directory, blocks);
    }
    pad(t, directory)
}

/// Files of one block, a hundred to a directory.
pub fn small_files(records: usize) -> Vec<u8> {
    files_of(1, records)
}

/// Files without text, a hundred to a directory, every other one marked, as a cut rewrite leaves it.
pub fn marked_files(records: usize) -> Vec<u8> {
    let mut bytes = files_of(0, records);
    let simple = bytes.chunks_mut(RECORD).filter(|r| r[..2] == [1, 1]);
    simple.step_by(2).for_each(|heading| heading[5] = 1);
    bytes
}

/// Files of so many blocks, a hundred to a directory.
fn files_of(blocks: usize, records: usize) -> Vec<u8> {
    let mut t = Table::new(records);
    let mut user = 1;
    let mut directory = t.base(user);
    let mut inside = 0;
    while t.left() >= 2 + blocks {
        if inside == 100 && t.left() >= 5 {
            user += 1;
            directory = t.base(user);
            inside = 0;
        }
        t.file(directory, blocks);
        inside += 1;
    }
    pad(t, directory)
}

/// Directories of 112 entries, each a link to one of the directories.
pub fn directories(records: usize) -> Vec<u8> {
    linked(records, |t, _| t.fresh_name())
}

/// The same with names of one to ten characters.
pub fn mixed_names(records: usize) -> Vec<u8> {
    linked(records, |t, _| {
        let length = 1 + t.serial % 10;
        let name = t.fresh_name();
        match length {
            1 => char::from(b'A' + (t.serial / 10 % 12) as u8).to_string(),
            2 => format!("B{}", char::from(b'A' + (t.serial / 10 % 12) as u8)),
            3 => format!("C{:02}", t.serial / 10 % 100),
            10 => format!("X{name}"),
            _ => format!("D{}", &name[10 - length..]),
        }
    })
}

/// The same with names chosen to fall into one bucket of the judge's chains: the worst there is.
pub fn collided(records: usize) -> Vec<u8> {
    in_bucket_0(records, bucket)
}

/// The same for the judge as it was before: its hash was another.
pub fn collided_before(records: usize) -> Vec<u8> {
    in_bucket_0(records, bucket_before)
}

fn in_bucket_0(records: usize, bucket: fn(usize, &str) -> u64) -> Vec<u8> {
    linked(records, |t, directory| loop {
        let name = t.fresh_name();
        if bucket(directory, &name) == 0 {
            return name;
        }
    })
}

/// The bucket of an entry without a user, as the judge computes it: from its directory and from the halves of its name's number.
fn bucket(directory: usize, name: &str) -> u64 {
    let bytes = laid(name);
    let half = |j: usize| {
        let four = [bytes[j], bytes[j + 1], bytes[j + 2], bytes[j + 3]];
        u64::from(u32::from_le_bytes(four))
    };
    let sum = directory as u64 * 926071635 + half(5) * 374761393 + half(1) * 1013904223;
    sum / 16777216 % 2048
}

fn bucket_before(directory: usize, name: &str) -> u64 {
    let bytes = laid_before(name.as_bytes());
    let two = |j: usize| u64::from(u16::from_le_bytes([bytes[j], bytes[j + 1]]));
    let sum = directory as u64 * 237074338683
        + u64::from(bytes[0]) * 225825020121
        + two(1) * 158087937263
        + two(3) * 167501999773
        + two(5) * 273637391247
        + two(7) * 266225641653
        + two(9) * 260119046801;
    sum / 16777216 % 2048
}

/// Four base files for each user, all of one directory; `fit` says which users.
pub fn base_files(records: usize, fit: fn(u32) -> bool) -> Vec<u8> {
    let mut t = Table::new(records);
    let directory = t.base(0);
    for user in (1..1_000_000).filter(|user| fit(*user)) {
        for name in [".R", ".W", ".G", ".T"] {
            if t.left() > 0 {
                t.entry(65535, directory, user, name);
            }
        }
    }
    t.bytes.resize(records * RECORD, 0);
    t.finish()
}

/// Whether the base files of the user fall into one bucket of the crowds' chains.
pub fn is_in_one_bucket(user: u32) -> bool {
    (65535 * 237074338683 + u64::from(user) * 159217510859) / 16777216 % 2048 == 5
}

/// The same table with its names as they lay before they were numbers.
pub fn with_old_names(table: &[u8]) -> Vec<u8> {
    let mut old = table.to_vec();
    for entry in old.chunks_mut(RECORD).filter(|record| record[0] == 2) {
        let laid = laid_before(name(entry).as_bytes());
        entry[9..20].copy_from_slice(&laid);
    }
    old
}

/// .. and with no counts in its headings.
pub fn without_counts(table: &[u8]) -> Vec<u8> {
    let mut bare = table.to_vec();
    let headings = bare.chunks_mut(RECORD).filter(|record| record[0] == 1);
    headings.for_each(|heading| heading[12..16].fill(0));
    bare
}

/// The same table with its records in another order.
pub fn shuffled(table: &[u8]) -> Vec<u8> {
    let records = table.len() / RECORD;
    let mut to: Vec<usize> = (0..records).collect();
    let mut random = random::Random::new(1971);
    for last in (1..records).rev() {
        to.swap(last, random.below(last + 1));
    }
    let mut other = vec![0; table.len()];
    for (record, &place) in table.chunks(RECORD).zip(&to) {
        let mut moved = record.to_vec();
        let fields: &[usize] = match record[0] {
            2 => &[2, 4],
            3 => &[2],
            _ => &[],
        };
        for &field in fields {
            let named = usize::from(u16::from_le_bytes([record[field], record[field + 1]]));
            let named = to.get(named).copied().unwrap_or(named) as u16;
            moved[field..field + 2].copy_from_slice(&named.to_le_bytes());
        }
        other[place * RECORD..][..RECORD].copy_from_slice(&moved);
    }
    other
}

fn linked(records: usize, new_name: impl Fn(&mut Table, usize) -> String) -> Vec<u8> {
    let mut t = Table::new(records);
    let mut user = 0;
    let mut first = 0;
    while t.left() > 2 {
        user += 1;
        let directory = t.base(user);
        if user == 1 {
            first = directory;
        }
        for _ in 0..IN_DIRECTORY.min(t.left()) {
            let name = new_name(&mut t, directory);
            t.entry(directory, first, 0, &name);
        }
    }
    pad(t, first)
}

/// What is left is filled with links of a user without other entries.
fn pad(mut t: Table, directory: usize) -> Vec<u8> {
    for name in [".AAA", ".BBB"] {
        if t.left() > 0 {
            t.entry(65535, directory, 999_999, name);
        }
    }
    t.finish()
}
