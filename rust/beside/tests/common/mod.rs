//! What the tests share: calls made by the second program, on the old table too, and by the proved library at once, hand-made
//! records, a bench to ask requests at, and a generator of numbers.
#![allow(dead_code)]

pub mod swept;
pub mod told;

use beside::{converted, true_index, Answer, Layout};

/// The byte that fills a reply buffer before each request.
pub const UNTOUCHED: u8 = 0xEE;

/// "places after the last entry hold 65,535".
pub const PADDING: u16 = 65_535;

/// An answer from its seven numbers: number, argument, link, names, displaced, bytes, stores.
pub fn answer(numbers: [u32; 7]) -> Answer {
    let [number, argument, link, names, displaced, bytes, stores] = numbers;
    let bytes = bytes as usize;
    Answer {
        number,
        argument,
        link,
        names,
        displaced,
        bytes,
        stores,
    }
}

/// A request with the true index, which it keeps true: see `is_kept`.
pub fn request(
    table: &mut [u8],
    line: &[u8],
    text: &[u8],
    reply: &mut [u8],
    user: u32,
    stop: u32,
) -> Answer {
    let lent = true_index(table);
    let mut index = lent.clone();
    let answer = request_with(table, &mut index, line, text, reply, user, stop);
    is_kept(answer, &lent, &index, table);
    answer
}

/// A request with this index, made by the second program and by the proved library: answer, table, index and reply must agree.
/// "every request answers as on the old table, with the converted table after it".
pub fn request_with(
    table: &mut [u8],
    index: &mut [u16],
    line: &[u8],
    text: &[u8],
    reply: &mut [u8],
    user: u32,
    stop: u32,
) -> Answer {
    let (mut proved, mut old) = (Lent::of(table, index), Lent::of(table, index));
    let (mut proved_reply, mut old_reply) = (reply.to_vec(), reply.to_vec());
    let Lent { table: t, index: x } = &mut proved;
    let told = filebox::request(t, x, line, text, &mut proved_reply, user, stop).numbers();
    let answer = beside::request(table, index, line, text, reply, user, stop);
    let shown = String::from_utf8_lossy(line);
    assert_eq!(told, answer.numbers(), "the library: {shown}");
    proved.must_be(table, index, &shown);
    assert!(proved_reply == reply, "the library's reply: {shown}");
    let as_old = |t: &mut [u8], x: &mut [u16]| {
        beside::request_in(Layout::Old, t, x, line, text, &mut old_reply, user, stop)
    };
    if let Some(told) = old.on_the_old_table(as_old) {
        assert_eq!(told, answer, "the old table: {shown}");
        old.must_be(table, index, &shown);
        assert!(old_reply == reply, "the old table's reply: {shown}");
    }
    answer
}

/// Mending with an index of the right length that holds nothing: see `is_kept`.
pub fn mend(table: &mut [u8], stop: u32) -> Answer {
    let lent = vec![PADDING; table.len() / 32];
    let mut index = lent.clone();
    let answer = mend_with(table, &mut index, stop);
    is_kept(answer, &lent, &index, table);
    answer
}

/// Mending with this index, made by both: answer, table and index must agree, and be as on the old table.
pub fn mend_with(table: &mut [u8], index: &mut [u16], stop: u32) -> Answer {
    let (mut proved, mut old) = (Lent::of(table, index), Lent::of(table, index));
    let told = filebox::mend(&mut proved.table, &mut proved.index, stop).numbers();
    let answer = beside::mend(table, index, stop);
    assert_eq!(told, answer.numbers(), "the library: mending");
    proved.must_be(table, index, "mending");
    let as_old = |t: &mut [u8], x: &mut [u16]| beside::mend_in(Layout::Old, t, x, stop);
    if let Some(told) = old.on_the_old_table(as_old) {
        assert_eq!(told, answer, "the old table: mending");
        old.must_be(table, index, "mending on the old table");
    }
    answer
}

/// "Every request keeps the index true ... A run that answers 22 leaves the index as it was lent", and so does one that is refused by 1, 2
/// or 26.
pub fn is_kept(answer: Answer, lent: &[u16], index: &[u16], table: &[u8]) {
    let expected = match answer.number {
        1 | 2 | 22 | 26 => lent.to_vec(),
        _ => true_index(table),
    };
    assert!(index == expected, "the index after {answer:?}");
}

/// A copy of the table and the index, for another one to make the call on.
struct Lent {
    table: Vec<u8>,
    index: Vec<u16>,
}

impl Lent {
    fn of(table: &[u8], index: &[u16]) -> Lent {
        Lent {
            table: table.to_vec(),
            index: index.to_vec(),
        }
    }

    /// The other one left the same.
    fn must_be(&self, table: &[u8], index: &[u16], shown: &str) {
        assert!(self.table == table, "another table: {shown}");
        assert!(self.index == index, "another index: {shown}");
    }

    /// The call on the old table, if there is one, with the table converted after it.
    fn on_the_old_table(
        &mut self,
        call: impl FnOnce(&mut [u8], &mut [u16]) -> Answer,
    ) -> Option<Answer> {
        let mut old = converted(Layout::Six, &self.table)?;
        let answer = call(&mut old, &mut self.index);
        self.table = converted(Layout::Old, &old).expect("a table of old names");
        Some(answer)
    }
}

/// Is the table sound? The second program's test, and the library's, which an empty line shows: 1, 2, or past both 5.
pub fn sound(table: &[u8]) -> bool {
    let sound = beside::sound(table);
    let expected = match table.len() {
        length if length > 65_536 || !length.is_multiple_of(32) => 1,
        _ if sound => 5,
        _ => 2,
    };
    let (mut lent, mut index) = (table.to_vec(), true_index(table));
    let proved = filebox::request(&mut lent, &mut index, b"", b"", &mut [], 1, 0);
    assert_eq!(proved.number.code(), expected, "the library: soundness");
    sound
}

/// A free record.
pub const FREE: [u8; 32] = [0; 32];

/// A heading record: type, level, code, lifetime, text length; both its counts are 0.
pub fn heading(file_type: u8, level: u8, code: u8, lifetime: u8, length: u16) -> [u8; 32] {
    let mut record = [0; 32];
    record[..5].copy_from_slice(&[1, file_type, level, code, lifetime]);
    record[10..12].copy_from_slice(&length.to_le_bytes());
    record
}

/// The heading of a directory U with code 0.
pub fn directory() -> [u8; 32] {
    heading(0, 0, 0, 1, 0)
}

/// The heading of a simple file, medium, U, code 0.
pub fn simple(length: u16) -> [u8; 32] {
    heading(1, 0, 0, 1, length)
}

/// The heading with these counts: how many entries name it (bytes 12-13), and how many it holds (bytes 14-15).
pub fn counts(mut heading: [u8; 32], named: u16, holding: u16) -> [u8; 32] {
    heading[12..14].copy_from_slice(&named.to_le_bytes());
    heading[14..16].copy_from_slice(&holding.to_le_bytes());
    heading
}

/// The heading with the count of the entries that name it, and holding none.
pub fn named(heading: [u8; 32], entries: u16) -> [u8; 32] {
    counts(heading, entries, 0)
}

/// The records with true counts, told entry by entry, for tables whose counts are not the matter. A simple file's bytes 14-15
/// are left.
pub fn counted(records: &[[u8; 32]]) -> Vec<[u8; 32]> {
    let mut counted = records.to_vec();
    for (number, heading) in counted.iter_mut().enumerate() {
        let say = |at: usize| {
            let entries = records.iter().filter(|record| record[0] == 2);
            let said = entries.map(|record| u16::from_le_bytes([record[at], record[at + 1]]));
            let count = said.filter(|said| usize::from(*said) == number).count();
            (count as u16).to_le_bytes()
        };
        if heading[0] == 1 {
            heading[12..14].copy_from_slice(&say(4));
        }
        if heading[..2] == [1, 0] {
            heading[14..16].copy_from_slice(&say(2));
        }
    }
    counted
}

/// A name as a number: its characters less 32 as the digits of base 64, ten of them.
pub fn number(name: &str) -> u64 {
    let digit = |byte: u8| u64::from(byte.checked_sub(32).expect("a character from 32 on"));
    let padded = format!("{name:<10}");
    padded.bytes().fold(0, |number, byte| {
        assert!(digit(byte) < 64, "a character up to 95");
        number * 64 + digit(byte)
    })
}

/// The name that an entry bears.
pub fn name_of(entry: &[u8]) -> String {
    let bytes = entry[10..18].iter().rev();
    let mut number = bytes.fold(0, |number, byte| number * 256 + u64::from(*byte));
    let mut name = Vec::new();
    for _ in 0..10 {
        name.insert(0, (number % 64) as u8 + 32);
        number /= 64;
    }
    String::from_utf8_lossy(&name).trim_end().to_string()
}

/// An entry record: code, directory, heading, user, name.
pub fn entry(code: u8, directory: u16, heading: u16, user: u32, name: &str) -> [u8; 32] {
    let mut record = nameless(code, directory, heading, user);
    record[10..18].copy_from_slice(&number(name).to_le_bytes());
    record
}

/// An entry record as it was before: the length of the name, and the name.
pub fn old_entry(code: u8, directory: u16, heading: u16, user: u32, name: &str) -> [u8; 32] {
    let mut record = nameless(code, directory, heading, user);
    record[9] = name.len() as u8;
    record[10..10 + name.len()].copy_from_slice(name.as_bytes());
    record
}

/// An entry record without its name: code, directory, heading, user.
fn nameless(code: u8, directory: u16, heading: u16, user: u32) -> [u8; 32] {
    let mut record = [0; 32];
    record[..2].copy_from_slice(&[2, code]);
    record[2..4].copy_from_slice(&directory.to_le_bytes());
    record[4..6].copy_from_slice(&heading.to_le_bytes());
    record[6..9].copy_from_slice(&user.to_le_bytes()[..3]);
    record
}

/// A base entry of user 1, code 0.
pub fn base(heading: u16, name: &str) -> [u8; 32] {
    entry(0, 65_535, heading, 1, name)
}

/// A text record: heading, position, bytes.
pub fn text(heading: u16, position: u16, bytes: &[u8]) -> [u8; 32] {
    let mut record = [0; 32];
    record[..2].copy_from_slice(&[3, bytes.len() as u8]);
    record[2..4].copy_from_slice(&heading.to_le_bytes());
    record[4..6].copy_from_slice(&position.to_le_bytes());
    record[8..8 + bytes.len()].copy_from_slice(bytes);
    record
}

/// Record number so and so of a table.
pub fn record(table: &[u8], number: usize) -> &[u8] {
    &table[number * 32..number * 32 + 32]
}

/// How many records of a kind there are.
pub fn count(table: &[u8], kind: u8) -> usize {
    table.chunks(32).filter(|record| record[0] == kind).count()
}

/// A table, and what a request is lent besides the line and the text.
#[derive(Clone)]
pub struct Bench {
    pub table: Vec<u8>,
    pub user: u32,
    pub stop: u32,
    pub room: usize,
}

/// What a request left behind.
pub struct Seen {
    pub answer: Answer,
    pub table: Vec<u8>,
    pub reply: Vec<u8>,
}

impl Bench {
    /// A table of so many free records, for user 1.
    pub fn new(records: usize) -> Bench {
        Bench::of(vec![0; records * 32])
    }

    /// A table as given, for user 1.
    pub fn of(table: Vec<u8>) -> Bench {
        Bench {
            table,
            user: 1,
            stop: 65_535,
            room: 24_000,
        }
    }

    /// A table grown by these granted requests; each WRS writes `TEXT`.
    pub fn grown(records: usize, lines: &[&str]) -> Bench {
        let mut bench = Bench::new(records);
        for line in lines {
            bench.grant(line, TEXT);
        }
        bench
    }

    /// The same with another stop number.
    pub fn stop(&self, stop: u32) -> Bench {
        Bench {
            stop,
            ..self.clone()
        }
    }

    /// Ask a request of a copy of the table, of both.
    pub fn ask(&self, line: impl AsRef<[u8]>, text: &[u8]) -> Seen {
        let mut table = self.table.clone();
        let mut reply = vec![UNTOUCHED; self.room];
        let line = line.as_ref();
        let answer = request(&mut table, line, text, &mut reply, self.user, self.stop);
        Seen {
            answer,
            table,
            reply,
        }
    }

    /// The request must be granted and leave a sound table; the table is kept.
    pub fn grant(&mut self, line: &str, text: &[u8]) -> Seen {
        let seen = self.ask(line, text);
        assert_eq!(seen.answer.number, 0, "{line}: {:?}", seen.answer);
        assert_eq!((seen.answer.argument, seen.answer.link), (0, 0), "{line}");
        assert!(sound(&seen.table), "{line}: not sound after");
        let bytes = seen.answer.bytes;
        let rest = &seen.reply[bytes..];
        assert!(rest.iter().all(|byte| *byte == UNTOUCHED), "{line}: reply");
        self.table.clone_from(&seen.table);
        seen
    }

    /// The request must be refused with this number and argument, and change no byte; its link is told in `links`.
    pub fn refuse(&self, line: impl AsRef<[u8]>, text: &[u8], number: u32, argument: u32) {
        self.refused(line.as_ref(), text, number, argument);
    }

    /// The request, with `TEXT`, must be refused with this number at this link of this argument, and change no byte.
    pub fn refuse_at(&self, line: &str, number: u32, argument: u32, link: u32) {
        let told = self.refused(line.as_bytes(), TEXT, number, argument);
        assert_eq!(told, link, "{line}: the link");
    }

    /// The link of a request that must be refused with this number and argument, and change no byte.
    fn refused(&self, line: &[u8], text: &[u8], number: u32, argument: u32) -> u32 {
        let shown = String::from_utf8_lossy(line).into_owned();
        let seen = self.ask(line, text);
        seen.refused(number, argument, &shown);
        assert!(seen.table == self.table, "{shown}: table changed");
        assert!(seen.untouched(), "{shown}: reply changed");
        seen.answer.link
    }

    /// The reply bytes of a request that must be granted and store nothing.
    pub fn reply(&self, line: &str) -> Vec<u8> {
        let seen = self.ask(line, b"");
        let bytes = seen.answer.bytes;
        let granted = answer([0, 0, 0, 1, 0, bytes as u32, 0]);
        assert_eq!(seen.answer, granted, "{line}");
        assert!(seen.table == self.table, "{line}: table changed");
        let (front, rest) = seen.reply.split_at(bytes);
        assert!(rest.iter().all(|byte| *byte == UNTOUCHED), "{line}: reply");
        front.to_vec()
    }
}

/// The text of every WRS that a bench is grown with.
pub const TEXT: &[u8] = b"THIS TEXT HAS THIRTY BYTES: 30";

impl Seen {
    /// It was refused with this number and argument, at some link, with nothing done.
    pub fn refused(&self, number: u32, argument: u32, line: &str) {
        let link = self.answer.link;
        let expected = answer([number, argument, link, 0, 0, 0, 0]);
        assert_eq!(self.answer, expected, "{line}");
    }

    /// Is the reply buffer as it was lent?
    pub fn untouched(&self) -> bool {
        self.reply.iter().all(|byte| *byte == UNTOUCHED)
    }
}

/// Numbers that look random and are the same on every run.
pub struct Dice(pub u64);

impl Dice {
    /// Any number.
    pub fn throw(&mut self) -> u64 {
        self.0 = self.0.wrapping_add(0x9E37_79B9_7F4A_7C15);
        let mut mixed = self.0;
        mixed = (mixed ^ (mixed >> 30)).wrapping_mul(0xBF58_476D_1CE4_E5B9);
        mixed = (mixed ^ (mixed >> 27)).wrapping_mul(0x94D0_49BB_1331_11EB);
        mixed ^ (mixed >> 31)
    }

    /// A number below a bound.
    pub fn below(&mut self, bound: usize) -> usize {
        (self.throw() % bound as u64) as usize
    }

    /// One of these.
    pub fn pick<'a, T: ?Sized>(&mut self, from: &[&'a T]) -> &'a T {
        from[self.below(from.len())]
    }

    /// True once in so many throws.
    pub fn once_in(&mut self, throws: usize) -> bool {
        self.below(throws) == 0
    }

    /// So many bytes, each any.
    pub fn bytes(&mut self, length: usize) -> Vec<u8> {
        (0..length).map(|_| self.throw() as u8).collect()
    }
}
