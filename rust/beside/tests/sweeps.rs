//! Sweeps of tables that random requests made: directories that link each other, are linked and let go by two users. What each must store is
//! told by passes over the bytes (`common::swept`), and each is cut at its stores, mended and swept again.

mod common;
use common::swept::*;
use common::told::*;
use common::*;

/// Of so many stores at most, each stop number is tried; of more, some.
const ALL_BELOW: usize = 40;

/// A request of the second program; whatever it answers.
fn ask(table: &mut [u8], user: u32, line: &str) {
    let mut index = beside::true_index(table);
    let answer = beside::request(
        table,
        &mut index,
        line.as_bytes(),
        TEXT,
        &mut [],
        user,
        UNCUT,
    );
    assert!(answer.number != 2 && answer.number != 26, "{line}");
}

/// A chain of a few names.
fn chain(dice: &mut Dice) -> String {
    let mut chain = dice.pick(&[".R", ".R", ".W", ".G", ".AB"]).to_string();
    for _ in 0..dice.below(4) {
        chain.push(':');
        chain.push_str(dice.pick(&["A", "B", "C"]));
    }
    chain
}

/// A line that makes directories, links them, lets them go, or puts a sheet in one.
fn line(dice: &mut Dice) -> String {
    let (one, other) = (chain(dice), chain(dice));
    match dice.below(16) {
        0..=3 => format!("CRD {one}"),
        4..=8 => format!("DUP {one} {other}"),
        9 => format!("DUP {one} {one}:C"),
        10..=12 => format!("DEL {one}"),
        13 => format!("WRS* M {one}"),
        14 => format!("DUP {one} {other} .7"),
        _ => format!("WRS M {one}"),
    }
}

/// What each user's table begins with: a loop of two in `.R`, and in `.AB` a loop with sheets, directories and links to `.R`.
const BEGINNING: [&str; 14] = [
    "CRD .R",
    "CRD .R:A",
    "DUP .R .R:A:B",
    "WRS M .R:C",
    "CRD .AB",
    "DUP .AB .AB:A",
    "WRS M .AB:B",
    "DUP .R .AB:C",
    "DUP .R:C .AB:D",
    "CRD .AB:E",
    "WRS M .AB:E:A",
    "WRS L .AB:E:B",
    "DUP .AB:E .AB:E:C",
    "DUP .AB:E:A .R:E",
];

/// A table of two users that so many requests were made on, now and then with `.AB` let go at last.
fn grown(dice: &mut Dice) -> Vec<[u8; 32]> {
    let mut table = vec![0; (12 + dice.below(90)) * 32];
    for user in [1, 2] {
        for line in BEGINNING {
            if !dice.once_in(8) {
                ask(&mut table, user, line);
            }
        }
    }
    for _ in 0..dice.below(50) {
        let user = 1 + dice.below(2) as u32;
        let line = line(dice);
        ask(&mut table, user, &line);
    }
    for user in [1, 2] {
        if dice.once_in(2) {
            ask(&mut table, user, "DEL .AB");
        }
    }
    let records = table.chunks(32).map(|record| record.try_into());
    records.collect::<Result<_, _>>().expect("whole records")
}

/// What was met.
#[derive(Debug, Default)]
struct Met {
    nothing_lost: usize,
    lost: usize,
    sheets: usize,
    recounted: usize,
    several: usize,
    long: usize,
    cuts: usize,
}

impl Met {
    /// One more table, by its stores.
    fn count(&mut self, records: &[[u8; 32]], stores: &[Store]) {
        let of_kind = |kind: u8| {
            let cleared = stores.iter().filter(|(_, after)| *after == FREE);
            cleared.filter(|(at, _)| records[*at][0] == kind).count()
        };
        self.nothing_lost += usize::from(stores.is_empty());
        self.lost += usize::from(!stores.is_empty());
        self.sheets += usize::from(of_kind(3) > 0);
        self.several += usize::from(of_kind(1) > 2);
        self.recounted += usize::from(stores.iter().any(|(_, after)| *after != FREE));
        self.long += usize::from(stores.len() > ALL_BELOW / 2);
    }
}

/// The stop numbers to try.
fn stops(dice: &mut Dice, needed: usize) -> Vec<usize> {
    let mut stops: Vec<usize> = (0..needed.min(ALL_BELOW)).collect();
    if needed > ALL_BELOW {
        stops.extend((0..8).map(|_| ALL_BELOW + dice.below(needed - ALL_BELOW)));
    }
    stops
}

/// One table: its sweep uncut, and at its stop numbers.
fn told(dice: &mut Dice, met: &mut Met, records: &[[u8; 32]]) {
    let stores = due(records);
    met.count(records, &stores);
    let whole = after(records, &stores).concat();
    let mut table = records.concat();
    assert_eq!(sweep(&mut table, UNCUT), swept(0, stores.len()));
    assert_eq!(table, whole);
    assert!(beside::sound(&table));
    assert_eq!(sweep(&mut table, 0), swept(0, 0));
    for stop in stops(dice, stores.len()) {
        let mut table = records.concat();
        assert_eq!(sweep(&mut table, stop as u32), swept(22, stop));
        assert_eq!(table, after(records, &stores[..stop]).concat());
        ends_as(&table, &whole);
        met.cuts += 1;
    }
}

#[test]
fn tables_that_random_requests_made() {
    let seed = 1971;
    println!("seed {seed}");
    let (mut dice, mut met) = (Dice(seed), Met::default());
    for _ in 0..1_000 {
        let records = grown(&mut dice);
        told(&mut dice, &mut met, &records);
    }
    println!("{met:?}");
    assert!(met.nothing_lost > 100 && met.lost > 500 && met.cuts > 5_000);
    assert!(met.sheets > 100 && met.recounted > 100 && met.several > 100 && met.long > 30);
}
