//! Writes random cases, worked out by the second program, as an antt module over the definitions of `crates/paper`:
//! `cases SEED TABLES CASES [wrong | gives]`. The checker accepts it only where the definitions give every answer, every byte
//! of the table and of the reply alike. With `wrong`, one number of one expected answer is off by one: it must be refused.
//! With `gives`, two users give and take.

use beside::{COUNTS, NUMBERS};
use random::{counts, destroys, lines, lists, loops, rewrites, shelves, Random};
use std::fmt::{Display, Write};

const HEAD: &str = "-- Random cases: the second program's outcomes, held against the definitions.
use mathlib.Core.Bool.{true, false}
use mathlib.Core.List.{List, [], ◌∷◌}
use mathlib.Core.Path.{◌≡◌, refl}
use Rattle.paper.specs.Case.{Case, asks, mends, orders, looks, keeps, mends_kept, sweeps, answer, hold_all}
use Rattle.paper.proofs.Cases.{hold}
";

/// The most cases of the list on one table.
const LISTED: usize = 8;
/// The sweeps told with one table, each mended and swept again where it was cut.
const SWEPT: usize = 2;

/// The most places of a list without any meaning: the checker works a place out of the one before it each time it is asked for, so that its steps grow
/// with every halving.
const PLACES: usize = 12;

/// The most cases that are told at one time: the checker takes so many steps for each time, and no more.
const TOLD: usize = 4;

/// The users who give and take.
const SHIFTS: [u32; 2] = [1, 777];

fn list<T: Display>(numbers: &[T]) -> String {
    let mut shown = String::from("(");
    for number in numbers {
        write!(shown, "{number} ∷ ").expect("a string takes all");
    }
    shown + "[])"
}

/// A request by the second program, with the true index.
fn ask(
    table: &mut [u8],
    line: &[u8],
    text: &[u8],
    reply: &mut [u8],
    user: u32,
    stop: u32,
) -> beside::Answer {
    let mut index = beside::true_index(table);
    beside::request(table, &mut index, line, text, reply, user, stop)
}

/// Mending by the second program, with a list of the right length.
fn mend(table: &mut [u8], stop: u32) -> beside::Answer {
    let mut index = beside::true_index(table);
    beside::mend(table, &mut index, stop)
}

/// The seven numbers, the last one off by so much.
fn seven(answer: beside::Answer, off: u32) -> String {
    let stores = answer.stores + off;
    let numbers = beside::Answer { stores, ..answer }.numbers();
    let shown = numbers.map(|number| number.to_string());
    format!("(answer {})", shown.join(" "))
}

/// The cases of one table: it grows by the requests, is damaged and mended on the way, and is cut by small stop numbers.
struct Story {
    gives: bool,
    table: Vec<u8>,
    cases: Vec<String>,
    /// The cases of the list beside the table, told apart from the others: a declaration may take so many steps and no more.
    listed: Vec<String>,
    /// .. and of sweeps, of tables of their own.
    swept: Vec<String>,
    met: [u32; COUNTS],
    off: u32,
}

impl Story {
    /// Not of those who give and take, whose tables are larger: the checker's steps grow with the fourth power of the records, since mending goes in rounds.
    fn mend(&mut self, table: &[u8], stop: u32) {
        if self.gives {
            return;
        }
        let mut after = table.to_vec();
        let answer = mend(&mut after, stop);
        self.cases.push(format!(
            "mends {} {stop} {} {}",
            list(table),
            seven(answer, 0),
            list(&after)
        ));
    }

    /// A line for who gives and takes, or for anyone.
    fn line(&self, random: &mut Random, shift: Option<u32>) -> Vec<u8> {
        match shift {
            Some(user) => shelves::line(random, &self.table, &SHIFTS, user),
            None if random.once_in(3) => rewrites::about(random, &self.table, 1),
            None if random.once_in(4) => counts::about(random, &self.table, 1),
            None if random.once_in(4) => destroys::about(random, &self.table, 1),
            None => lines::line(random),
        }
    }

    /// One request on the table, now and then damaged first; what it left is mended.
    fn request(&mut self, random: &mut Random) {
        let shift = self.gives.then(|| random.pick(&SHIFTS));
        let line = self.line(random, shift);
        let length = random.pick(&[0, 1, 5, 24, 25, 30, 48]);
        let text = random.bytes(length);
        let reply = vec![7; random.pick(&[0, 10, 40, 60, 80])];
        let anyone = || random.pick(&[1, 1, 1, 1, 1, 1, 1, 2, 0, 1_000_000]);
        let user = shift.unwrap_or_else(anyone);
        let stop = if random.once_in(3) {
            random.below(8) as u32
        } else {
            65_535
        };
        let mut before = self.table.clone();
        let damaged = random.once_in(8) && !before.is_empty();
        if damaged {
            spoil(random, &mut before);
        }
        if self.listed.len() < LISTED && random.once_in(3) {
            self.with_a_list(random, &before, &line, user, stop);
            self.looks(random, &before);
        }
        let (mut after, mut replied) = (before.clone(), reply.clone());
        let answer = ask(&mut after, &line, &text, &mut replied, user, stop);
        let frequent = matches!(answer.number, 2 | 3 | 7 | 8 | 9 | 11);
        if !frequent || random.once_in(6) {
            let lent = [before, line, text, reply].map(|bytes| list(&bytes));
            let left = [&after, &replied].map(|bytes| list(bytes));
            self.asks(lent.join(" "), user, stop, answer, left.join(" "));
        }
        if damaged || answer.number == 22 {
            self.mend(&after, random.pick(&[0, 1, 2, 3, 99, 99]));
        }
        if !damaged {
            let mended = mend(&mut after, 65_535);
            assert_eq!(mended.number, 0, "a request leaves what can be mended");
            self.table = after;
        }
    }

    /// The same request without text and reply, and mending, each with a list: the true one, or another.
    fn with_a_list(
        &mut self,
        random: &mut Random,
        table: &[u8],
        line: &[u8],
        user: u32,
        stop: u32,
    ) {
        let index = beside::true_index(table);
        let stale = beside::true_index(&self.table);
        let list_lent = match random.once_in(2) {
            true => lists::wrong(random, &index, &stale),
            false => index.clone(),
        };
        let lent = format!("{} {}", list(table), list(&list_lent));
        let (mut after, mut kept) = (table.to_vec(), list_lent.clone());
        let asked = beside::request(&mut after, &mut kept, line, b"", &mut [], user, stop);
        let left = format!("{} {} {}", asked.number, list(&after), list(&kept));
        self.listed
            .push(format!("keeps {lent} {} {user} {stop} {left}", list(line)));
        self.met[asked.number as usize] += 1;
        if self.gives {
            return;
        }
        let (mut after, mut kept) = (table.to_vec(), list_lent);
        let mended = beside::mend(&mut after, &mut kept, stop);
        let left = format!("{} {} {}", mended.number, list(&after), list(&kept));
        self.listed.push(format!("mends_kept {lent} {stop} {left}"));
    }

    /// The list of a sound table; and a name looked up through it, or through one without any meaning.
    fn looks(&mut self, random: &mut Random, table: &[u8]) {
        let mut index = beside::true_index(&self.table);
        let orders = format!("orders {} {}", list(&self.table), list(&index));
        self.listed.push(orders);
        if random.once_in(3) {
            index = near(lists::junk(random, table.len() / 32), table.len() / 32);
        }
        let (heading, user, name) = lists::sought(random, table);
        let found = beside::look_up(table, &index, heading, user, &name);
        let beside::Found {
            found,
            entry,
            count,
        } = found;
        let holder = format!("(record {{ heading = {heading}; user = {user} }})");
        let lent = format!("{} {} {holder} {}", list(table), list(&index), list(&name));
        self.listed
            .push(format!("looks {lent} {found} {entry} {count}"));
    }

    /// A sweep of a table with something lost, most often with its true index; cut, it is mended and swept again.
    fn sweep(&mut self, random: &mut Random) {
        let table = losing(random);
        let index = beside::true_index(&table);
        let lent = match random.once_in(6) {
            true => lists::wrong(random, &index, &index),
            false => index,
        };
        let stop = random.pick(&[0, 1, 2, 3, 4, 6, 99, 99]);
        let (answer, cut, kept) = self.sweeps(&table, &lent, stop);
        if answer.number == 22 {
            let (mut mended, mut index) = (cut.clone(), kept.clone());
            let told = beside::mend(&mut mended, &mut index, 99);
            let left = format!("{} {} {}", told.number, list(&mended), list(&index));
            let lent = format!("{} {}", list(&cut), list(&kept));
            self.swept.push(format!("mends_kept {lent} 99 {left}"));
            self.sweeps(&mended, &index, 99);
        }
    }

    /// One more case of a sweep: its answer, and the table and the list after it.
    fn sweeps(
        &mut self,
        table: &[u8],
        index: &[u16],
        stop: u32,
    ) -> (beside::Answer, Vec<u8>, Vec<u16>) {
        let (mut after, mut kept) = (table.to_vec(), index.to_vec());
        let answer = beside::sweep(&mut after, &mut kept, stop);
        let lent = format!("{} {}", list(table), list(index));
        let left = format!("{} {}", list(&after), list(&kept));
        let seven = seven(answer, 0);
        self.swept
            .push(format!("sweeps {lent} {stop} {seven} {left}"));
        self.met[answer.number as usize] += 1;
        (answer, after, kept)
    }

    /// One more case: what is lent, the answer, and what is left.
    fn asks(&mut self, lent: String, user: u32, stop: u32, answer: beside::Answer, left: String) {
        self.met[answer.number as usize] += 1;
        let seven = seven(answer, self.off);
        self.cases
            .push(format!("asks {lent} {user} {stop} {seven} {left}"));
        self.off = 0;
    }
}

/// Change a byte, or the marks of the headings, or one byte of a heading's counts, or take all counts away, or leave entries that name no heading.
fn spoil(random: &mut Random, table: &mut [u8]) {
    match random.below(8) {
        0 | 1 => {
            let records = table.chunks_exact_mut(32);
            records.for_each(|record| rewrites::mark(random, record));
        }
        2 => counts::miscount(random, table),
        3 => counts::uncount(table),
        4 | 5 => destroys::lose(random, table),
        _ => {
            let at = random.below(table.len());
            table[at] = random.pick(&[0, 1, 2, 3, 255, 46, 65]);
        }
    }
}

/// A table of few records, begun with up to six of the same requests; now and then a sheet in it is marked, as a rewrite that is cut leaves it.
fn few(random: &mut Random) -> Vec<u8> {
    let rooms = if random.once_in(8) {
        random.below(3)
    } else {
        4 + random.below(9)
    };
    let mut table = vec![0; rooms * 32];
    let first = [
        "CRD .R",
        "CRD .W",
        "WRS M .R:A",
        "DUP .R .R:B",
        "WRS L .R:C",
        "DUP .R:A .W:A",
    ];
    for line in first.iter().take(random.below(7)) {
        // as far as there is room
        ask(&mut table, line.as_bytes(), b"sheet", &mut [], 1, 65_535);
    }
    if random.once_in(2) {
        // where the sheet is there
        ask(&mut table, b"WRS* M .R:A", b"", &mut [], 1, 2);
    }
    table
}

/// A table with a directory that holds itself and a sheet, which an entry leads to no longer, in most; and what a few more requests make of it.
fn losing(random: &mut Random) -> Vec<u8> {
    let mut table = vec![0; (10 + random.below(4)) * 32];
    let first = [
        "CRD .R",
        "CRD .R:A",
        "DUP .R:A .R:A:A",
        "WRS M .R:A:S",
        "DEL .R:A",
    ];
    for line in first.iter().take(2 + random.below(4)) {
        ask(&mut table, line.as_bytes(), b"sheet", &mut [], 1, 65_535);
    }
    for _ in 0..random.below(6) {
        let user = random.pick(&[1, 1, 2]);
        let line = loops::about(random, &table, user);
        // granted or not, as it comes
        ask(&mut table, &line, b"sheet", &mut [], user, 65_535);
    }
    table
}

/// A table of a sheet and two users with their shelves, some of them missing, simple or inhibited.
fn shelved(random: &mut Random) -> Vec<u8> {
    let mut table = vec![0; (13 + random.below(6)) * 32];
    let made = ["CRD", "CRD", "CRD", "CRD", "WRS M", "RDS"];
    for line in ["CRD .R", "WRS M .R:A", "DUP .R:A .T:A"] {
        for shelf in [".G", ".T"] {
            let user = random.pick(&SHIFTS);
            let shelf = match random.below(6) {
                0 => format!("CRD {shelf} .{}", random.pick(&[1, 2])),
                _ => format!("{} {shelf}", random.pick(&made)),
            };
            // granted or not, as it comes
            ask(&mut table, shelf.as_bytes(), b"", &mut [], user, 65_535);
        }
        ask(&mut table, line.as_bytes(), b"sheet", &mut [], 1, 65_535);
    }
    table
}

/// A story on such a table.
fn story(random: &mut Random, met: [u32; COUNTS], gives: bool, off: u32) -> Story {
    let table = match gives {
        true => shelved(random),
        false => few(random),
    };
    Story {
        gives,
        table,
        cases: Vec::new(),
        listed: Vec::new(),
        swept: Vec::new(),
        met,
        off,
    }
}

/// A short list, in which the numbers far past the table are just past it: to come to a record the checker counts all bytes before it.
fn near(list: Vec<u16>, records: usize) -> Vec<u16> {
    let past = records as u16 + 2;
    list.into_iter()
        .take(PLACES)
        .map(|number| number.min(past))
        .collect()
}

/// Lists of cases, and that each of them holds.
fn tell(what: &str, table: u64, cases: &[String]) {
    for (part, cases) in cases.chunks(TOLD).enumerate() {
        let name = format!("{what}{table}_part{part}");
        let cases: String = cases.iter().map(|case| format!("{case}\n    ∷ ")).collect();
        println!("{name} : List Case\n{name} =\n    {cases}[]\n");
        println!(
            "told_{name} : hold_all {name} ≡ true\nunfolding hold {name}\ntold_{name} = refl\n"
        );
    }
}

fn main() {
    let words: Vec<String> = std::env::args().skip(1).collect();
    let number = |k: usize| {
        words
            .get(k)
            .and_then(|w| w.parse::<u64>().ok())
            .expect("cases SEED TABLES CASES [wrong | gives]")
    };
    let said = |word: &str| words.get(3).is_some_and(|said| said == word);
    let mut random = Random::new(number(0));
    let mut met = [0; COUNTS];
    println!("{HEAD}");
    for table in 0..number(1) {
        let off = u32::from(table == 0 && said("wrong"));
        let mut story = story(&mut random, met, said("gives"), off);
        while story.cases.len() < number(2) as usize {
            story.request(&mut random);
        }
        if !story.gives {
            (0..SWEPT).for_each(|_| story.sweep(&mut random));
        }
        met = story.met;
        tell("story", table, &story.cases);
        tell("listed", table, &story.listed);
        tell("swept", table, &story.swept);
    }
    let shown = NUMBERS.map(|number| format!("{number}:{}", met[number as usize]));
    eprintln!("seed {}: reply numbers met: {}", number(0), shown.join(" "));
}
