//! "Cut after any number of stores, then mended: the table before, or the table after (for DEL and DST, after some first
//! part of its names), byte for byte", for WRS* "before, after, or after with that one file marked and empty". On tables grown by random requests, every request at every stop number,
//! every mend at every stop number again.

mod common;
use common::*;

use std::collections::HashSet;

/// What a run met.
#[derive(Debug, Default)]
struct Met {
    granted: usize,
    refused: HashSet<u32>,
    cuts: usize,
    cut_to_before: usize,
    cut_to_after: usize,
    mends_with_stores: usize,
    mends_cut: usize,
    mends_of_counts: usize,
    mends_of_counts_alone: usize,
    displaced: usize,
    displaced_and_cleared: usize,
    displaced_own_source: usize,
    cleared: usize,
    long_texts: usize,
    dels_of_several: usize,
    dels_refused_midway: usize,
    loops: usize,
    unreached_loops: usize,
    rewritten_alike: usize,
    full_tables: usize,
    read_back: usize,
    rewrites: usize,
    rewrites_of_marked: usize,
    cut_to_marked: usize,
    marked_displaced: usize,
    marked_deleted: usize,
    destroyed: usize,
    destroyed_everywhere: usize,
    dsts_of_several: usize,
    dsts_refused_midway: usize,
    mends_of_entries: usize,
}

/// Two bytes of a record as a number.
fn two(record: &[u8], at: usize) -> usize {
    usize::from(u16::from_le_bytes([record[at], record[at + 1]]))
}

/// The entries of a directory, or of user 1's or 2's base list.
fn entries(table: &[u8], directory: usize, user: u32) -> Vec<&[u8]> {
    let user = if directory == 65_535 { user as u8 } else { 0 };
    let stands_there = |r: &&[u8]| r[0] == 2 && two(r, 2) == directory && r[6] == user;
    table.chunks(32).filter(stands_there).collect()
}

/// A chain that is there, if it is not a rare one that is not: down from the base list, some way.
fn old(dice: &mut Dice, bench: &Bench) -> String {
    let mut directory = 65_535;
    let mut names: Vec<String> = Vec::new();
    for _ in 0..=dice.below(5) {
        let there = entries(&bench.table, directory, bench.user);
        if there.is_empty() || dice.once_in(40) {
            break;
        }
        let entry = there[dice.below(there.len())];
        names.push(name_of(entry));
        directory = two(entry, 4);
        if record(&bench.table, directory)[1] == 1 {
            break;
        }
    }
    match names.is_empty() {
        true => dice.pick(&[".R", ".W", ".G", ".AB"]).to_string(),
        false => names.join(":"),
    }
}

/// A chain that could be new: a name after a chain that is there, or instead of its last name.
fn new(dice: &mut Dice, bench: &Bench) -> String {
    let old = old(dice, bench);
    let link = dice.pick(&["A", "B", "C", "D"]);
    match (dice.below(8), old.rsplit_once(':')) {
        (0, _) => dice.pick(&[".R", ".W", ".G", ".AB", "A"]).to_string(),
        (1..=3, Some((before, _))) => format!("{before}:{link}"),
        (4, _) => old,
        _ => format!("{old}:{link}"),
    }
}

/// A declaration with this lifetime, seldom with a level, more seldom with a digit that inhibits.
fn declaration(dice: &mut Dice, lifetime: &str) -> String {
    let level = dice.pick(&["", "", "U", "P", "S"]);
    let digit = match dice.below(30) {
        0 => "1",
        1 => "2",
        2..=6 => "4",
        7..=9 => "0",
        _ => "",
    };
    format!("{lifetime}.{level}{digit}")
}

/// A request that is often granted.
fn line(dice: &mut Dice, bench: &Bench) -> String {
    let (one, other) = (old(dice, bench), new(dice, bench));
    match dice.below(42) {
        40 => format!("DST {one}"),
        41 => {
            let more: Vec<String> = (0..dice.below(5)).map(|_| old(dice, bench)).collect();
            format!("DST {one} {}", more.join(" "))
        }
        28..=38 => format!("WRS* M {one}"),
        39 => format!("RDS {one}"),
        0..=5 => format!("CRD {other} {}", declaration(dice, "")),
        6..=9 => {
            let lifetime = dice.pick(&["M", "L"]);
            format!("WRS {} {other}", declaration(dice, lifetime))
        }
        10..=12 => {
            let lifetime = dice.pick(&["", "", "M", "L"]);
            format!("CPY {one} {other} {}", declaration(dice, lifetime))
        }
        13 => format!("CPY {one} {one}"),
        14..=19 => format!("DUP {one} {other} {}", dice.pick(&["-", ".", ".4"])),
        20 => format!("DUP {one} {one}"),
        21 => format!("CHN {one} {}", dice.pick(&["A", "B", "C", ".R", ".G"])),
        22 => format!("DPR {one} .{}", dice.pick(&["0", "4", "0", "4", "5", "6"])),
        23 => format!("DEL {one}"),
        _ => {
            let more: Vec<String> = (0..dice.below(7)).map(|_| old(dice, bench)).collect();
            format!("DEL {one} {}", more.join(" "))
        }
    }
}

/// The directories that an entry in each directory names, and those that the base lists name.
fn edges(table: &[u8]) -> (Vec<(usize, usize)>, Vec<usize>) {
    let (mut edges, mut bases) = (Vec::new(), Vec::new());
    for entry in table.chunks(32).filter(|record| record[0] == 2) {
        let named = two(entry, 4);
        if record(table, named)[1] == 0 {
            match two(entry, 2) {
                65_535 => bases.push(named),
                directory => edges.push((directory, named)),
            }
        }
    }
    (edges, bases)
}

/// Is there a loop, and is there a directory that no base file reaches?
fn loops(table: &[u8]) -> (bool, bool) {
    let (edges, bases) = edges(table);
    let mut left = edges.clone();
    loop {
        let named: HashSet<usize> = left.iter().map(|edge| edge.1).collect();
        let before = left.len();
        left.retain(|edge| named.contains(&edge.0));
        if left.len() == before {
            break;
        }
    }
    let mut reached: HashSet<usize> = bases.into_iter().collect();
    loop {
        let more = edges.iter().filter(|edge| reached.contains(&edge.0));
        let more: Vec<usize> = more.map(|edge| edge.1).collect();
        let before = reached.len();
        reached.extend(more);
        if reached.len() == before {
            break;
        }
    }
    let is_directory = |record: &[u8]| record[0] == 1 && record[1] == 0;
    let directories = table
        .chunks(32)
        .filter(|record| is_directory(record))
        .count();
    (!left.is_empty(), reached.len() < directories)
}

/// How many records differ.
fn differing(one: &[u8], other: &[u8]) -> usize {
    let pairs = one.chunks(32).zip(other.chunks(32));
    pairs.filter(|(one, other)| one != other).count()
}

/// The tables that a cut may be mended to, each with the stores that lead there: the table before and the table
/// after; for a DEL or a DST, after each first part of its names.
fn stations(bench: &Bench, line: &str, text: &[u8], names: u32) -> Vec<(u32, Vec<u8>)> {
    let mut stations = vec![(0, bench.table.clone())];
    let words: Vec<&str> = line.split_whitespace().collect();
    for done in 1..=names {
        let seen = match words[0] {
            "DEL" | "DST" => bench.ask(words[..=done as usize].join(" "), text),
            _ => bench.ask(line, text),
        };
        assert_eq!((seen.answer.number, seen.answer.names), (0, done), "{line}");
        stations.push((seen.answer.stores, seen.table));
    }
    stations
}

/// The file at the end of a chain that is there: the number of its heading.
fn file_of(bench: &Bench, chain: &str) -> usize {
    let supplied = if chain.starts_with('.') { "" } else { ".W:" };
    let mut heading = 65_535;
    for name in format!("{supplied}{chain}").split(':') {
        let there = entries(&bench.table, heading, bench.user);
        let bears = |entry: &&&[u8]| name_of(entry) == name;
        heading = two(there.iter().find(bears).expect("it is there"), 4);
    }
    heading
}

/// The table with this file marked and empty, made record by record.
fn emptied(table: &[u8], file: usize) -> Vec<u8> {
    let mut emptied = table.to_vec();
    for (number, record) in emptied.chunks_mut(32).enumerate() {
        if number == file {
            record[5] = 1;
            record[10..12].fill(0);
        } else if record[0] == 3 && two(record, 2) == file {
            record.fill(0);
        }
    }
    emptied
}

/// Cut a rewrite at every stop number and mend it: before at none, after at all of its stores, and at every other the table
/// with that one file marked and empty, which is the same made from before and from after. Hands that back.
fn rewrite_everywhere(bench: &Bench, line: &str, text: &[u8], met: &mut Met) -> Vec<u8> {
    let uncut = bench.ask(line, text);
    let file = file_of(bench, line.rsplit(' ').next().unwrap_or_default());
    let old = two(record(&bench.table, file), 10).div_ceil(24);
    let needed = (2 + old + text.len().div_ceil(24)) as u32;
    assert_eq!(uncut.answer, answer([0, 0, 0, 1, 0, 0, needed]), "{line}");
    let empty = emptied(&bench.table, file);
    assert_eq!(empty, emptied(&uncut.table, file), "{line}");
    let mut before = bench.table.clone();
    for stop in 0..needed {
        let cut = bench.stop(stop).ask(line, text);
        assert_eq!(cut.answer, answer([22, 0, 0, 0, 0, 0, stop]), "{line}");
        assert!(differing(&before, &cut.table) <= 1, "{line}, {stop}");
        let mended = mend_everywhere(&cut.table, met);
        let expected = if stop == 0 { &bench.table } else { &empty };
        assert_eq!(mended, *expected, "{line}, {stop}");
        met.cuts += 1;
        met.cut_to_marked += usize::from(stop > 0);
        before = cut.table;
    }
    assert!(differing(&before, &uncut.table) <= 1, "{line}");
    met.rewrites += 1;
    met.rewrites_of_marked += usize::from(empty == bench.table);
    empty
}

/// Cut a request at every stop number and mend it. One store changes one record, and once a cut is mended to a
/// later table it is never mended to an earlier one again.
fn cut_everywhere(bench: &Bench, line: &str, text: &[u8], met: &mut Met) {
    let uncut = bench.ask(line, text);
    let needed = uncut.answer.stores;
    let stations = stations(bench, line, text, uncut.answer.names);
    let last = (needed, uncut.table.clone());
    assert_eq!(stations.last(), Some(&last), "{line}");
    let (mut before, mut reached) = (bench.table.clone(), 0);
    for stop in 0..needed {
        let (cut, station) = cut_once(&bench.stop(stop), line, text, &stations, met);
        assert!(differing(&before, &cut) <= 1, "{line}, {stop}");
        assert!(station >= reached, "{line}, {stop}");
        (before, reached) = (cut, station);
    }
    assert!(differing(&before, &uncut.table) <= 1, "{line}");
    for stop in [needed, needed + 1, u32::MAX] {
        let seen = bench.stop(stop).ask(line, text);
        assert_eq!(seen.answer, uncut.answer, "{line}, {stop}");
        assert_eq!(seen.table, uncut.table, "{line}, {stop}");
    }
}

/// A request that is cut: mended, it is the table after the names done, or after one name more. Hands back the cut
/// table, and which of the two.
fn cut_once(
    bench: &Bench,
    line: &str,
    text: &[u8],
    stations: &[(u32, Vec<u8>)],
    met: &mut Met,
) -> (Vec<u8>, usize) {
    let stop = bench.stop;
    let seen = bench.ask(line, text);
    let later = &stations[1..];
    let done = later.iter().filter(|station| station.0 <= stop).count();
    let expected = answer([22, 0, 0, done as u32, 0, 0, stop]);
    assert_eq!(seen.answer, expected, "{line}");
    assert!(seen.untouched());
    let mended = mend_everywhere(&seen.table, met);
    let before = mended == stations[done].1;
    let after = mended == stations[done + 1].1;
    assert!(before || after, "{line}, cut after {stop}: neither");
    met.cuts += 1;
    met.cut_to_before += usize::from(before);
    met.cut_to_after += usize::from(after);
    (seen.table, done + usize::from(after))
}

/// How many headings of a table have other counts once it is mended, and nothing else is other in them.
fn recounted(table: &[u8], mended: &[u8]) -> usize {
    let pairs = table.chunks(32).zip(mended.chunks(32));
    let other = pairs.filter(|(one, other)| one != other && other[0] == 1);
    let counts = other.inspect(|(one, other)| {
        assert_eq!(one[..12], other[..12]);
        assert_eq!(one[16..], other[16..]);
    });
    counts.count()
}

/// Mend a table, uncut and cut at every stop number and run again; the mended table.
fn mend_everywhere(table: &[u8], met: &mut Met) -> Vec<u8> {
    let mut mended = table.to_vec();
    let seen = mend(&mut mended, u32::MAX);
    assert_eq!(seen, answer([0, 0, 0, 0, 0, 0, seen.stores]));
    assert!(sound(&mended));
    met.mends_with_stores += usize::from(seen.stores > 0);
    met.mends_of_entries += usize::from(count(table, 2) > count(&mended, 2));
    let counts = recounted(table, &mended);
    met.mends_of_counts += usize::from(counts > 0);
    met.mends_of_counts_alone += usize::from(counts > 0 && counts == seen.stores as usize);
    for stop in 0..=seen.stores {
        let mut cut = table.to_vec();
        let number = if stop < seen.stores { 22 } else { 0 };
        assert_eq!(mend(&mut cut, stop), answer([number, 0, 0, 0, 0, 0, stop]));
        let left = seen.stores - stop;
        assert_eq!(mend(&mut cut, u32::MAX), answer([0, 0, 0, 0, 0, 0, left]));
        assert_eq!(cut, mended);
        met.mends_cut += usize::from(stop < seen.stores);
    }
    mended
}

/// Count what a granted request, or a DEL or a DST refused midway, was.
fn count_up(bench: &Bench, line: &str, text: &[u8], seen: &Seen, met: &mut Met) {
    let words: Vec<&str> = line.split_whitespace().collect();
    let displaced = seen.answer.displaced == 1;
    let more_free = count(&seen.table, 0) > count(&bench.table, 0);
    let lost = (0..bench.table.len() / 32)
        .any(|n| record(&bench.table, n)[0] == 1 && record(&seen.table, n)[0] == 0);
    met.granted += usize::from(seen.answer.number == 0);
    met.displaced += usize::from(displaced);
    met.displaced_and_cleared += usize::from(displaced && lost);
    met.displaced_own_source += usize::from(displaced && words[0] == "CPY" && words[1] == words[2]);
    met.cleared += usize::from(more_free && lost);
    met.long_texts += usize::from(words[0] == "WRS" && text.len() > 24);
    let refused = usize::from(seen.answer.number != 0);
    if words[0] == "DST" {
        let entries = count(&bench.table, 2) - count(&seen.table, 2);
        met.destroyed += 1;
        met.destroyed_everywhere += usize::from(entries > seen.answer.names as usize);
        met.dsts_of_several += usize::from(seen.answer.names > 1);
        met.dsts_refused_midway += refused;
    } else {
        met.dels_of_several += usize::from(words[0] == "DEL" && seen.answer.names > 1);
        met.dels_refused_midway += refused;
    }
    met.rewritten_alike += usize::from(seen.table == bench.table);
    met.full_tables += usize::from(count(&seen.table, 0) == 0);
    let (looped, unreached) = loops(&seen.table);
    met.loops += usize::from(looped);
    met.unreached_loops += usize::from(unreached);
}

/// What a WRS wrote that displaced nothing is read back by the same chain.
fn read_back(bench: &Bench, line: &str, text: &[u8], met: &mut Met) {
    let words: Vec<&str> = line.split_whitespace().collect();
    let seen = bench.ask(format!("RDS {}", words[2]), b"");
    if words[1].contains(['2', '3', '6', '7']) {
        let supplied = u32::from(!words[2].starts_with('.'));
        let links = supplied + words[2].split(':').count() as u32;
        assert_eq!(seen.answer, answer([13, 1, links, 0, 0, 0, 0]), "{line}");
        return;
    }
    let bytes = text.len() as u32;
    assert_eq!(seen.answer, answer([0, 0, 0, 1, 0, bytes, 0]), "{line}");
    assert_eq!(&seen.reply[..text.len()], text, "{line}");
    met.read_back += 1;
}

/// The same table with its records in another order: sound too, and with texts that do not stand by position.
fn shuffled(dice: &mut Dice, table: &[u8]) -> Vec<u8> {
    let records = table.len() / 32;
    let mut moved: Vec<usize> = (0..records).collect();
    for at in (1..records).rev() {
        moved.swap(at, dice.below(at + 1));
    }
    let mut shuffled = vec![0; table.len()];
    for (number, record) in table.chunks(32).enumerate() {
        let after = &mut shuffled[moved[number] * 32..][..32];
        after.copy_from_slice(record);
        let fields: &[usize] = [&[][..], &[], &[2, 4], &[2]][usize::from(record[0])];
        for field in fields.iter().filter(|field| two(record, **field) != 65_535) {
            let number = moved[two(record, *field)] as u16;
            after[*field..*field + 2].copy_from_slice(&number.to_le_bytes());
        }
    }
    assert!(sound(&shuffled));
    shuffled
}

/// How many marked files there are.
fn marks(table: &[u8]) -> usize {
    let is_marked = |record: &&[u8]| record[0] == 1 && record[5] == 1;
    table.chunks(32).filter(is_marked).count()
}

/// A rewrite: cut everywhere, then done, and read back; or left cut, now and then.
fn rewritten(bench: &mut Bench, dice: &mut Dice, line: &str, text: &[u8], met: &mut Met) {
    let empty = rewrite_everywhere(bench, line, text, met);
    let done = bench.ask(line, text).table;
    assert!(sound(&empty) && sound(&done), "{line}");
    bench.table = if dice.once_in(2) { empty } else { done };
    let read = bench.ask(line.replace("WRS* M", "RDS"), b"").answer.number;
    let fit: &[u32] = if marks(&bench.table) > 0 {
        &[0, 13, 23]
    } else {
        &[0, 13]
    };
    assert!(fit.contains(&read), "{line}: {read}");
}

/// One request: cut everywhere, then done.
fn step(bench: &mut Bench, dice: &mut Dice, met: &mut Met) {
    bench.user = 1 + dice.below(2) as u32;
    if dice.once_in(8) {
        bench.table = shuffled(dice, &bench.table);
    }
    let line = line(dice, bench);
    let length = dice.below(80);
    let text = dice.bytes(length);
    let seen = bench.ask(&line, &text);
    if seen.answer.number != 0 {
        met.refused.insert(seen.answer.number);
    }
    if line.starts_with("RDS") {
        return;
    }
    if seen.answer.stores == 0 {
        assert_ne!(seen.answer.number, 0, "{line}");
        bench.refuse(&line, &text, seen.answer.number, seen.answer.argument);
        return;
    }
    if line.starts_with("WRS*") {
        return rewritten(bench, dice, &line, &text, met);
    }
    let names = line.starts_with("DEL") || line.starts_with("DST");
    assert!(seen.answer.number == 0 || names, "{line}");
    assert!(sound(&seen.table), "{line}");
    let fewer = usize::from(marks(&seen.table) < marks(&bench.table));
    met.marked_displaced += fewer * seen.answer.displaced as usize;
    met.marked_deleted += fewer * usize::from(line.starts_with("DEL"));
    cut_everywhere(bench, &line, &text, met);
    count_up(bench, &line, &text, &seen, met);
    let new = seen.answer.displaced == 0;
    bench.table = seen.table;
    if new && line.starts_with("WRS") {
        read_back(bench, &line, &text, met);
    }
}

/// Tables grown with this seed.
fn run(seed: u64) {
    println!("seed {seed}");
    let mut dice = Dice(seed);
    let mut met = Met::default();
    for _ in 0..100 {
        let mut bench = Bench::new(8 + dice.below(40));
        bench.room = 100;
        for _ in 0..120 {
            step(&mut bench, &mut dice, &mut met);
        }
    }
    println!("{met:#?}");
    let refusals = [11, 12, 13, 14, 15, 16, 18, 19, 21, 23, 24];
    assert!(refusals.iter().all(|number| met.refused.contains(number)));
    assert!(met.granted > 1_000 && met.cuts > 3_000);
    assert!(met.cut_to_before > 1_000 && met.cut_to_after > 500);
    assert!(met.mends_with_stores > 1_000 && met.mends_cut > 2_000);
    assert!(met.mends_of_counts > 1_000 && met.mends_of_counts_alone > 500);
    assert!(met.displaced > 200 && met.displaced_and_cleared > 100);
    assert!(met.displaced_own_source > 5 && met.cleared > 100);
    assert!(met.long_texts > 50 && met.read_back > 20);
    assert!(met.dels_of_several > 10 && met.dels_refused_midway > 30);
    assert!(met.loops > 200 && met.unreached_loops > 50);
    assert!(met.rewritten_alike > 5 && met.full_tables > 10);
    assert!(met.rewrites > 100 && met.rewrites_of_marked > 30 && met.cut_to_marked > 400);
    assert!(met.marked_displaced > 5 && met.marked_deleted > 10);
    assert!(met.destroyed > 60 && met.destroyed_everywhere > 3 && met.mends_of_entries > 100);
    assert!(met.dsts_of_several > 1 && met.dsts_refused_midway > 15);
}

#[test]
fn cut_and_mended_seed_1() {
    run(1);
}

#[test]
fn cut_and_mended_seed_2() {
    run(2);
}

#[test]
fn cut_and_mended_seed_1971() {
    run(1971);
}

#[test]
fn cut_and_mended_seed_65535() {
    run(65_535);
}

/// Every request over these chains, with a text of one byte.
fn all_lines(chains: &[&str]) -> Vec<String> {
    let mut lines = Vec::new();
    for one in chains {
        lines.push(format!("CRD {one}"));
        lines.push(format!("WRS M {one}"));
        lines.push(format!("WRS* M {one}"));
        lines.push(format!("DEL {one}"));
        lines.push(format!("DST {one}"));
        lines.push(format!("CHN {one} B"));
        for other in chains {
            lines.push(format!("CPY {one} {other}"));
            lines.push(format!("DUP {one} {other}"));
            lines.push(format!("DEL {one} {other}"));
            lines.push(format!("DST {one} {other}"));
        }
    }
    lines
}

/// From five free records, by these requests again and again, until no new table comes: all of them.
#[test]
fn every_table_of_five_records_that_these_requests_reach() {
    let lines = all_lines(&[".R", ".G", ".R:A", ".R:A:A"]);
    let mut met = Met::default();
    let start = vec![0; 5 * 32];
    let mut reached = HashSet::from([start.clone()]);
    let mut left = vec![start];
    while let Some(table) = left.pop() {
        let bench = Bench::of(table);
        for line in &lines {
            let seen = bench.ask(line, b"T");
            if seen.answer.stores == 0 {
                assert_eq!(seen.table, bench.table, "{line}");
                continue;
            }
            assert!(sound(&seen.table), "{line}");
            if line.starts_with("WRS*") {
                let empty = rewrite_everywhere(&bench, line, b"T", &mut met);
                if reached.insert(empty.clone()) {
                    left.push(empty);
                }
            } else {
                cut_everywhere(&bench, line, b"T", &mut met);
                count_up(&bench, line, b"T", &seen, &mut met);
            }
            if reached.insert(seen.table.clone()) {
                left.push(seen.table);
            }
        }
    }
    println!("{} tables, {met:#?}", reached.len());
    assert!(reached.len() > 5_000 && met.cuts > 50_000);
    assert!(met.loops > 1_000 && met.unreached_loops > 1_000);
    assert!(met.displaced_and_cleared > 1_000 && met.dels_refused_midway > 1_000);
    assert!(met.rewrites > 1_000 && met.rewrites_of_marked > 500);
    assert!(met.mends_of_counts > 10_000 && met.mends_of_counts_alone > 5_000);
    assert!(met.destroyed > 5_000 && met.destroyed_everywhere > 1_000);
    assert!(met.dsts_refused_midway > 1_000 && met.mends_of_entries > 5_000);
}
