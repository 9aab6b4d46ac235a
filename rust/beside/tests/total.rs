//! Any table, line, text, reply buffer, user and stop number: one answer, and it fits document 01.

mod common;
use common::*;

use beside::{words, Answer, Chain, COUNTS, NUMBERS};

const FUNCTIONS: [&str; 11] = [
    "CRD ", "WRS ", "WRS* ", "RDS ", "CPY ", "DUP ", "CHN ", "DEL ", "DST ", "DPR ", "LST ",
];

const NAMES: [&str; 21] = [
    ".R:CUT",
    ".R",
    ".W",
    ".G",
    ".R:A",
    ".R:B",
    ".R:D",
    ".R:D:F",
    "A",
    "A:B",
    ".ABC",
    ".R:LOOP:A",
    "X",
    ".",
    ".FULL:NEW",
    ".FULL:7",
    ".R:A:B",
    ".R:B:A",
    "X:Y",
    ".1:A",
    "A::B",
];

const DECLARATIONS: [&str; 12] = [
    "M", "L", "-", ".", ".1", ".4", ".7", ".U", "M.P", "L.3", "S", "QQ",
];

const PARTS: [&str; 8] = ["0", "7", "36", "37", "777777", "-", "8", "1:2"];

/// A line: any bytes; or one byte again and again; or words anyhow; or a function with what it could have.
fn line(dice: &mut Dice) -> Vec<u8> {
    let words = match dice.below(16) {
        0 => {
            let length = dice.below(300);
            return dice.bytes(length);
        }
        1 => return vec![32 + dice.below(64) as u8; 250 + dice.below(10)],
        2..=3 => {
            let marks = [":", " : ", "@", "  "];
            let all = [&FUNCTIONS[..], &NAMES, &DECLARATIONS, &marks].concat();
            let pieces = (0..=dice.below(5)).map(|_| dice.pick(&all));
            return pieces.collect::<Vec<_>>().join(" ").into_bytes();
        }
        4..=5 => vec!["DPR ", dice.pick(&NAMES), dice.pick(&DECLARATIONS)],
        6..=7 => vec!["WRS ", dice.pick(&DECLARATIONS), dice.pick(&NAMES)],
        8..=9 => vec![dice.pick(&FUNCTIONS), dice.pick(&NAMES)],
        10 => vec!["RDS ", dice.pick(&NAMES), dice.pick(&PARTS)],
        11 => vec!["CPY ", dice.pick(&NAMES), "B", dice.pick(&DECLARATIONS)],
        12..=13 => vec![
            "WRS* ",
            dice.pick(&["M", "M", "M", "M.", "L"]),
            dice.pick(&NAMES),
        ],
        _ => vec![dice.pick(&FUNCTIONS), dice.pick(&NAMES), dice.pick(&NAMES)],
    };
    words.join(" ").into_bytes()
}

/// A sound table with a bit of everything, a full directory among it; sometimes damaged, or of any bytes.
fn table(dice: &mut Dice, sound: &[u8]) -> Vec<u8> {
    let mut table = sound.to_vec();
    match dice.below(30) {
        0 => {
            let length = dice.below(200);
            return dice.bytes(length);
        }
        1 => {
            let length = dice.below(8) * 32;
            return dice.bytes(length);
        }
        2 => {
            let at = dice.below(table.len());
            table[at] = dice.throw() as u8;
        }
        3 => table.truncate(dice.below(sound.len())),
        4..=7 => table.truncate(sound.len() - 32 * dice.below(12)),
        8 => {
            let at = table.len() - 32 * (1 + dice.below(4));
            let debris = if dice.once_in(2) {
                simple(30)
            } else {
                text(900, 0, b"T")
            };
            table[at..at + 32].copy_from_slice(&debris);
        }
        _ => {}
    }
    table
}

/// The sound table to begin with.
fn filled() -> Vec<u8> {
    let lines = [
        "CRD .R",
        "CRD .W",
        "CRD .FULL",
        "WRS M.P .R:A",
        "CRD .R:D",
        "WRS L .R:D:F",
        "DUP .R .R:LOOP",
        "DUP .R:A .R:B .6",
        "CRD A .1",
        "WRS M.2 X",
        "WRS M .R:CUT",
    ];
    let mut bench = Bench::grown(160, &lines);
    for at in 0..112 {
        bench.grant(&format!("DUP .R:A .FULL:{at}"), b"");
    }
    bench.grant("DPR .R:D .4", b"");
    // a sheet that a cut rewrite left marked
    bench.table = bench.stop(1).ask("WRS* M .R:CUT", b"").table;
    assert_eq!(mend(&mut bench.table, 65_535).number, 0);
    bench.table
}

/// The index of a table: mostly the true one; now and then another, of another length, or anything.
fn index(dice: &mut Dice, table: &[u8]) -> Vec<u16> {
    let mut index = beside::true_index(table);
    let places = index.len();
    match dice.below(8) {
        0 if places > 0 => index.swap(dice.below(places), dice.below(places)),
        1 => index.resize(dice.below(2 * places + 2), PADDING),
        2 => index.fill_with(|| dice.throw() as u16),
        _ => {}
    }
    index
}

/// How many links the chain of this argument has, the supplied `.W` counted.
fn links(line: &[u8], argument: u32) -> u32 {
    let words = words(line);
    let word = words.get(argument as usize);
    word.map_or(0, |word| Chain::of(word).names().count() as u32)
}

/// What holds of every answer.
fn fits(answer: Answer, stop: u32, line: &[u8], before: &[u8], after: &[u8]) {
    let shown = String::from_utf8_lossy(line).into_owned();
    let number = answer.number;
    assert!(NUMBERS.contains(&number), "{shown}");
    let placeless = matches!(number, 0..=6 | 10 | 19 | 20 | 22 | 26);
    assert_eq!(answer.argument == 0, placeless, "{shown}: {answer:?}");
    assert!(answer.argument <= 8 && answer.names <= 8 && answer.displaced <= 1);
    let linkless = placeless || matches!(number, 9 | 21 | 25 | 27 | 28);
    let linked = matches!(number, 23 | 24);
    assert!(answer.link == 0 || !linkless, "{shown}: {answer:?}");
    assert!(answer.link > 0 || !linked, "{shown}: {answer:?}");
    assert!(answer.link <= links(line, answer.argument), "{shown}");
    assert!(answer.stores <= stop);
    if number != 0 {
        assert_eq!((answer.displaced, answer.bytes), (0, 0), "{shown}");
    }
    if number == 22 {
        assert_eq!(answer.stores, stop, "{shown}");
    }
    let of_several = ["DEL", "DST"].map(|word| shown.trim_start().starts_with(word));
    let changes = number == 0 || number == 22 || of_several.contains(&true);
    if !changes {
        assert_eq!((answer.names, answer.stores), (0, 0), "{shown}");
    }
    if answer.stores == 0 {
        assert!(before == after, "{shown}: table changed");
    }
}

#[test]
fn any_input_has_one_answer() {
    let seed = 7;
    println!("seed {seed}");
    let mut dice = Dice(seed);
    let sound = filled();
    let mut met = [0; COUNTS];
    for _ in 0..40_000 {
        let before = table(&mut dice, &sound);
        let line = line(&mut dice);
        let length = *dice.pick(&[&0, &1, &24, &50, &24_000, &24_001]);
        let text = vec![b'T'; length];
        let stop = *dice.pick(&[&0, &1, &3, &65_535, &u32::MAX, &65_535]);
        let user = *dice.pick(&[&1, &1, &1, &1, &1, &1, &2, &999_999, &1_000_000, &u32::MAX]);
        let room = *dice.pick(&[&0, &10, &24_000]);
        let mut reply = vec![UNTOUCHED; room];
        let mut after = before.clone();
        let lent = index(&mut dice, &before);
        let mut kept = lent.clone();
        let answer = request_with(&mut after, &mut kept, &line, &text, &mut reply, user, stop);
        fits(answer, stop, &line, &before, &after);
        is_kept(answer, &lent, &kept, &after);
        let rest = &reply[answer.bytes..];
        assert!(rest.iter().all(|byte| *byte == UNTOUCHED));
        met[answer.number as usize] += 1;
    }
    println!("answers by number: {met:?}");
    assert!(NUMBERS.iter().all(|n| met[*n as usize] > 0), "{met:?}");
}

#[test]
fn any_table_is_mended_or_not() {
    let seed = 8;
    println!("seed {seed}");
    let mut dice = Dice(seed);
    let sound = filled();
    let mut met = [0; COUNTS];
    for _ in 0..5_000 {
        let before = table(&mut dice, &sound);
        let stop = *dice.pick(&[&0, &1, &2, &u32::MAX]);
        let mut after = before.clone();
        let lent = index(&mut dice, &before);
        let mut kept = lent.clone();
        let answer = mend_with(&mut after, &mut kept, stop);
        fits(answer, stop, b"", &before, &after[..]);
        is_kept(answer, &lent, &kept, &after);
        assert_eq!((answer.argument, answer.link, answer.names), (0, 0, 0));
        met[answer.number as usize] += 1;
    }
    println!("answers by number: {met:?}");
    for (number, answers) in met.iter().enumerate() {
        assert_eq!(
            *answers > 0,
            matches!(number, 0 | 1 | 2 | 22 | 26),
            "{met:?}"
        );
    }
}
