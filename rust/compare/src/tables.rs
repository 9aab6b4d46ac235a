//! Tables to begin with, and what befalls a table.

use filebox::NO_STOP;
use random::counts::{miscount, uncount};
use random::damage::{damage, litter};
use random::destroys::lose;
use random::{destroys, requests, rewrites, Random};

/// Make a request of a user by the second program, with the true index; its number.
pub fn ask(table: &mut [u8], line: &[u8], text: &[u8], user: u32, stop: u32) -> u32 {
    let mut index = beside::true_index(table);
    beside::request(table, &mut index, line, text, &mut [], user, stop).number
}

/// Make these requests of a user on a table, each with this text; each must be granted.
fn grow_for(user: u32, table: &mut [u8], lines: impl IntoIterator<Item = String>, text: &[u8]) {
    for line in lines {
        let number = ask(table, line.as_bytes(), text, user, NO_STOP);
        assert_eq!(number, 0, "{line}");
    }
}

/// Make these requests of user 1.
fn grow(table: &mut [u8], lines: impl IntoIterator<Item = String>, text: &[u8]) {
    grow_for(1, table, lines, text);
}

/// A directory with so many entries, most of them loops.
fn crowded_directory(entries: usize) -> Vec<u8> {
    let mut table = vec![0; 140 * 32];
    let links = (1..entries).map(|n| format!("DUP .R .R:N{n}"));
    grow(
        &mut table,
        ["CRD .R", "CRD .W", "WRS M .R:A"].map(String::from),
        b"",
    );
    grow(&mut table, links, b"");
    table
}

/// A base list with so many files.
fn crowded_base_list(files: usize) -> Vec<u8> {
    let mut table = vec![0; 120 * 32];
    let letter = |n: usize| char::from(b'A' + n as u8);
    let links = (1..files).map(|n| format!("DUP .R .Z{}{}", letter(n / 10), letter(n % 10)));
    grow(
        &mut table,
        ["CRD .R", "WRS M .R:A"].map(String::from),
        b"LIMITS",
    );
    grow(&mut table, links, b"");
    table
}

/// A file as long as it may be, of this lifetime, and two short ones, in so many records.
pub fn long_file(records: usize, lifetime: &str) -> Vec<u8> {
    let mut table = vec![0; records * 32];
    let text: Vec<u8> = (0..24_000).map(|at| (at % 249) as u8).collect();
    grow(
        &mut table,
        ["CRD .R", "CRD .W", &format!("WRS {lifetime} .R:A")].map(String::from),
        &text,
    );
    grow(
        &mut table,
        ["WRS M .R:B", "WRS M A"].map(String::from),
        b"5.0 V",
    );
    table
}

/// Directories one in the other, as deep as a chain goes, with a sheet at the end; from each a link leads back to the first.
fn nest() -> Vec<u8> {
    let mut table = vec![0; 64 * 32];
    let chain = |names: usize| format!(".R{}", ":A".repeat(names - 1));
    let directories = (1..16).map(|names| format!("CRD {}", chain(names)));
    let back = (1..16).map(|names| format!("DUP .R {}:B", chain(names)));
    grow(&mut table, directories, b"");
    grow(&mut table, back, b"");
    grow(&mut table, [format!("WRS M {}", chain(16))], b"5.0 V");
    table
}

/// Directories that are knotted: loops of one and of two, an empty one that is shared, and inhibited ones, by their own code and by
/// an entry's.
pub fn knot() -> Vec<u8> {
    let mut table = vec![0; 64 * 32];
    let lines = [
        "CRD .R",
        "CRD .R:D",
        "DUP .R:D .R:D:D",
        "CRD .R:E",
        "CRD .R:E:H",
        "WRS M .R:E:H:A",
        "DPR .R:E:H .2",
        "CRD .R:C",
        "WRS L.P4 .R:C:A",
        "DPR .R:C .5",
        "CRD .W",
        "DUP .R .W:BACK .1",
        "DUP .W .R:W",
        "CRD .G",
        "DUP .R:D .G:C .2",
        "WRS M.1 .G:A",
        "CRD .T",
        "CRD .T:S",
        "DUP .T:S .T:U .4",
    ];
    grow(&mut table, lines.map(String::from), b"5.0 V");
    table
}

/// Sheets that are rewritten: medium ones, one of them read-inhibited, one with the pen capped, one in a capped directory and one in a directory that
/// is shut, a long one, and three that a cut left marked, two of them of level S. So many records are free.
pub fn sheets(free: usize) -> Vec<u8> {
    let mut table = vec![0; 64 * 32];
    let lines = [
        "CRD .R",
        "WRS M .R:A",
        "DUP .R:A .R:B .1",
        "WRS L.P .R:L",
        "WRS M.6 .R:SHUT",
        "CRD .R:D",
        "WRS M .R:D:B",
        "DUP .R:A .R:D:A",
        "DPR .R:D .1",
        "CRD .R:Q",
        "DUP .R:A .R:Q:A",
        "DPR .R:Q .2",
        "WRS M.P .R:CUT",
        "WRS M.S .R:CUTS",
        "WRS M.S .CUT",
        "WRS M .ABC",
    ];
    grow(&mut table, lines.map(String::from), &[b's'; 30]);
    for line in ["WRS* M .R:CUT", "WRS* M .R:CUTS", "WRS* M .CUT"] {
        let number = ask(&mut table, line.as_bytes(), b"", 1, 3);
        assert_eq!(number, 22, "{line}");
    }
    // the room that the marked ones left is taken, as far as it is not to be free
    let taken = table.chunks(32).rposition(|record| record[0] != 0);
    table.truncate(taken.map_or(0, |last| last + 1) * 32);
    let left = table.chunks(32).filter(|record| record[0] == 0).count();
    let more = (free..left).map(|number| format!("DUP .R:A .R:N{number}"));
    grow(&mut table, more, b"");
    table.resize(table.len() + free.saturating_sub(left) * 32, 0);
    table
}

/// A sheet that so many entries name, a hundred at most in each of three directories. Few records are free.
pub fn shared(entries: usize) -> Vec<u8> {
    let mut table = vec![0; (entries + 16) * 32];
    let lines = ["CRD .R", "CRD .G", "CRD .W", "WRS M .R:A"].map(String::from);
    grow(&mut table, lines, b"5.0 V");
    let shelf = |number: usize| [".R", ".G", ".W"][number / 100];
    let more = (1..entries).map(|number| format!("DUP .R:A {}:N{number}", shelf(number)));
    grow(&mut table, more, b"");
    table
}

/// Sheets that are withdrawn. KEYS, of three blocks, is entered three times in `.R`, in a capped directory Q, in user 2's `.G` and base list, and in
/// a directory that only its own entry names. Besides, a sheet of one entry, an empty base file, one marked, one read-inhibited, one capped,
/// one whose entry is capped; directories with an entry, capped ones, one that is shut, with their own entry alone, and an empty one.
pub fn withdrawn() -> Vec<u8> {
    let mut table = vec![0; 84 * 32];
    let lines = [
        "CRD .R",
        "WRS M .R:KEYS",
        "DUP .R:KEYS .R:AGAIN",
        "CRD .R:LOST",
        "DUP .R:LOST .R:LOST:ME",
        "DUP .R:KEYS .R:LOST:KEYS",
        "DUP .R:KEYS .R:LOST",
        "CRD .R:Q",
        "DUP .R:KEYS .R:Q:KEYS",
        "WRS M .R:Q:A",
        "DPR .R:Q .1",
        "WRS M .R:LONE",
        "WRS M .R:CUT",
        "WRS M.6 .R:SHUT",
        "WRS L.1 .R:CAP",
        "WRS M .R:PEN",
        "DUP .R:PEN .R:PEN .1",
        "CRD .R:V",
        "WRS M .R:V:A",
        "DPR .R:V .2",
        "CRD .R:D",
        "WRS M .R:D:F",
        "CRD .R:ME",
        "DUP .R:ME .R:ME:ME",
        "CRD .R:E",
        "CRD .T",
        "WRS M .T:A",
        "CRD .LOOP",
        "DUP .LOOP .LOOP:ME",
        "CRD .W",
        "WRS M A",
        "DPR .W .1",
    ];
    grow_for(2, &mut table, [String::from("CRD .G")], b"");
    let (long, short) = lines.split_at(11);
    grow(
        &mut table,
        long.iter().map(ToString::to_string),
        &[b'k'; 60],
    );
    grow(&mut table, short.iter().map(ToString::to_string), b"5.0 V");
    grow(
        &mut table,
        ["WRS M .AB", "DUP .R:KEYS .000002:KEYS"].map(String::from),
        b"",
    );
    grow_for(2, &mut table, [String::from("DUP .G:KEYS .KEYS")], b"");
    assert_eq!(ask(&mut table, b"WRS* M .R:CUT", b"", 1, 2), 22);
    table
}

/// Directories that no base file reaches. In ATTIC, which only its own entry names, are a sheet with text, one marked, a shut directory that
/// links back, and links to `.R` and to a sheet in it; OLD and NEW name each other. User 2 has a loop that he reaches and one that he lost.
pub fn attic() -> Vec<u8> {
    let mut table = vec![0; 72 * 32];
    let lines = [
        "CRD .R",
        "WRS M .R:A",
        "CRD .R:D",
        "WRS M .R:D:A",
        "CRD .R:ATTIC",
        "DUP .R:ATTIC .R:ATTIC:ME",
        "WRS M .R:ATTIC:A",
        "WRS M .R:ATTIC:CUT",
        "CRD .R:ATTIC:SHUT",
        "DUP .R:ATTIC .R:ATTIC:SHUT:UP",
        "DUP .R:A .R:ATTIC:KEEP",
        "DUP .R .R:ATTIC:R",
        "DUP .R:D .R:ATTIC:D",
        "DPR .R:ATTIC:SHUT .7",
        "CRD .OLD",
        "CRD .OLD:NEW",
        "DUP .OLD .OLD:NEW:OLD",
    ];
    grow(&mut table, lines.map(String::from), &[b's'; 30]);
    assert_eq!(ask(&mut table, b"WRS* M .R:ATTIC:CUT", b"", 1, 3), 22);
    let lost = ["DEL .R:ATTIC", "DEL .OLD"].map(String::from);
    grow(&mut table, lost, b"");
    let lines = [
        "CRD .R",
        "DUP .R .R:ME",
        "CRD .AB",
        "DUP .AB .AB:ME",
        "DEL .AB",
    ];
    grow_for(2, &mut table, lines.map(String::from), b"");
    table
}

/// A table to begin with.
pub struct Start {
    pub table: Vec<u8>,
    /// How many requests are to be made on it: a large table takes as long as many small ones.
    pub requests: u64,
    /// What these are mostly.
    pub about: About,
}

/// What the requests on a table are mostly.
#[derive(Debug, Clone, Copy, PartialEq, Eq)]
pub enum About {
    /// Of all functions.
    Anything,
    /// The same, with texts as long as they may be.
    LongTexts,
    /// With long chains.
    LongChains,
    /// LST*.
    Trees,
    /// WRS*, and about what these leave.
    Rewrites,
    /// Such as move the counts in headings.
    Counts,
    /// DST, and such as lead to files of many entries.
    Destroys,
}

/// The tables that take long to grow.
pub struct Starts {
    crowded: [Vec<u8>; 4],
    long: [Vec<u8>; 3],
    nest: Vec<u8>,
    knot: Vec<u8>,
    sheets: [Vec<u8>; 5],
    shared: [Vec<u8>; 3],
    withdrawn: Vec<u8>,
}

impl Starts {
    pub fn new() -> Starts {
        Starts {
            crowded: [
                crowded_directory(112),
                crowded_directory(111),
                crowded_base_list(100),
                crowded_base_list(99),
            ],
            long: [(1_020, "M"), (2_030, "L"), (2_048, "M")].map(|(n, life)| long_file(n, life)),
            nest: nest(),
            knot: knot(),
            sheets: [0, 1, 2, 5, 12].map(sheets),
            shared: [254, 255, 256].map(shared),
            withdrawn: withdrawn(),
        }
    }

    /// One of these, or records that are all free.
    pub fn start(&self, random: &mut Random) -> Start {
        let free = |records: usize| vec![0; records * 32];
        let (table, requests, about) = match random.below(150) {
            0 => (self.long[random.below(3)].clone(), 6, About::LongTexts),
            1..=32 => (self.crowded[random.below(4)].clone(), 12, About::Anything),
            33..=46 => (free(random.below(13)), 40, About::Anything),
            47 => (free(200 + random.below(1_849)), 20, About::Anything),
            48..=63 => (free(13 + random.below(50)), 160, About::Anything),
            64..=71 => (self.nest.clone(), 60, About::LongChains),
            72..=83 => (self.knot.clone(), 40, About::Trees),
            84..=101 => (self.sheets[random.below(5)].clone(), 40, About::Rewrites),
            102..=109 => (self.shared[random.below(3)].clone(), 12, About::Counts),
            110..=112 => (self.knot.clone(), 60, About::Counts),
            113 | 114 => (free(6 + random.below(24)), 80, About::Counts),
            115..=118 => (self.sheets[random.below(5)].clone(), 40, About::Rewrites),
            119..=148 => (self.withdrawn.clone(), 24, About::Destroys),
            _ => (self.knot.clone(), 40, About::Destroys),
        };
        Start {
            table,
            requests,
            about,
        }
    }
}

/// A user's shelf to begin with: mostly a directory, now and then inhibited, a simple file, or none.
fn shelf(random: &mut Random, name: &str) -> Option<String> {
    match random.below(16) {
        0 => None,
        1 | 2 => Some(format!("WRS M {name}")),
        3 => Some(format!("CRD {name} .2")),
        4 | 5 => Some(format!("CRD {name} .1")),
        6 => Some(format!("CRD {name} .4")),
        _ => Some(format!("CRD {name}")),
    }
}

/// A table of three users with a sheet each and their shelves; sometimes the first one's `.G` is full, or nearly.
pub fn shelves(random: &mut Random, users: [u32; 3]) -> Start {
    let crowd = random.pick(&[0, 0, 110, 111, 112]);
    let mut table = vec![0; (36 + crowd + random.below(40)) * 32];
    for user in users {
        let sheet = ["CRD .R", "WRS M .R:A"].map(String::from);
        grow_for(user, &mut table, sheet, b"5.0 V");
        let give = match (user == users[0], crowd) {
            (true, 1..) => Some(String::from("CRD .G")),
            _ => shelf(random, ".G"),
        };
        grow_for(user, &mut table, give, b"");
        grow_for(user, &mut table, shelf(random, ".T"), b"");
        let line = random.pick(&["DUP .R:A .T:A", "WRS M .T:B", "CRD .T:C", "DUP .R .T:AB"]);
        // granted where there is such a shelf
        ask(&mut table, line.as_bytes(), b"4.9 V", user, NO_STOP);
    }
    let links = (0..crowd).map(|number| format!("DUP .R:A .G:N{number}"));
    grow_for(users[0], &mut table, links, b"");
    Start {
        table,
        requests: if crowd > 0 { 16 } else { 64 },
        about: About::Anything,
    }
}

/// The same table with its records in another order: sound too, and with texts that do not stand by position.
pub fn shuffled(random: &mut Random, table: &[u8]) -> Vec<u8> {
    let mut moved: Vec<usize> = (0..table.len() / 32).collect();
    for at in (1..moved.len()).rev() {
        moved.swap(at, random.below(at + 1));
    }
    let mut shuffled = vec![0; table.len()];
    for (number, record) in table.chunks(32).enumerate() {
        let after = &mut shuffled[moved[number] * 32..][..32];
        after.copy_from_slice(record);
        // where the record has a record's number
        let fields: &[usize] = [&[][..], &[], &[2, 4], &[2]][usize::from(record[0])];
        for field in fields {
            let named = u16::from_le_bytes([record[*field], record[*field + 1]]);
            if let Some(number) = moved.get(usize::from(named)) {
                after[*field..*field + 2].copy_from_slice(&(*number as u16).to_le_bytes());
            }
        }
    }
    shuffled
}

/// The table left by a request that is stopped early.
fn cut(random: &mut Random, table: &[u8], user: u32) -> Vec<u8> {
    let mut cut = table.to_vec();
    let line = match random.below(4) {
        0 => rewrites::line(random, table, user),
        1 => destroys::line(random, table, user),
        _ => requests::granted(random, table, user).into_bytes(),
    };
    let (text, stop) = (random.bytes(60), 1 + random.below(6) as u32);
    // cut or not, and perhaps refused
    ask(&mut cut, &line, &text, user, stop);
    cut
}

/// The table with the marks of some of its headings changed.
fn marked(random: &mut Random, table: &mut [u8]) {
    for record in table.chunks_exact_mut(32) {
        if random.once_in(4) {
            rewrites::mark(random, record);
        }
    }
}

/// A table that is likely not sound: damaged, marked, counted wrongly or not at all, with entries that name no heading, littered, cut, of
/// an odd length, too long, or rubbish.
pub fn spoiled(random: &mut Random, table: &[u8], user: u32) -> Vec<u8> {
    let mut spoiled = table.to_vec();
    match random.below(25) {
        0 => spoiled.truncate(random.below(table.len() + 1)),
        1 => spoiled.resize(table.len() + 1 + random.below(40), 0),
        2 => spoiled.resize(random.pick(&[65_537, 65_567, 65_568, 70_000]), 0),
        3 => spoiled = random.bytes(table.len()),
        4 => spoiled
            .iter_mut()
            .for_each(|byte| *byte = random.pick(&[0, 1, 2, 3])),
        5..=7 => spoiled = cut(random, table, user),
        8..=10 => litter(random, &mut spoiled),
        16 | 17 => marked(random, &mut spoiled),
        18..=20 => (0..=random.below(2)).for_each(|_| miscount(random, &mut spoiled)),
        22..=24 => {
            lose(random, &mut spoiled);
            if random.once_in(3) {
                litter(random, &mut spoiled);
            }
        }
        21 => {
            uncount(&mut spoiled);
            if random.once_in(3) {
                litter(random, &mut spoiled);
            }
        }
        _ => (0..=random.below(3)).for_each(|_| damage(random, &mut spoiled)),
    }
    spoiled
}

#[cfg(test)]
mod tests {
    use super::*;

    #[test]
    fn every_start_is_sound_in_any_order() {
        let mut random = Random::new(1);
        let starts = Starts::new();
        let all = [
            &starts.crowded[..],
            &starts.long,
            &starts.sheets,
            &starts.shared,
            &[starts.nest, starts.knot, starts.withdrawn, attic()],
        ];
        for table in all.concat().iter() {
            assert!(beside::sound(table));
            let other = shuffled(&mut random, table);
            assert!(beside::sound(&other) && other != *table);
        }
    }

    #[test]
    fn full_lists_are_full() {
        let refused =
            |mut table: Vec<u8>, line: &[u8]| ask(&mut table, line, b"", 1, NO_STOP) == 17;
        assert!(refused(crowded_directory(112), b"CRD .R:NEW"));
        assert!(!refused(crowded_directory(111), b"CRD .R:NEW"));
        assert!(refused(crowded_base_list(100), b"CRD .NEW"));
        assert!(!refused(crowded_base_list(99), b"CRD .NEW"));
    }
}
