//! Document 02, g, "Give and take": its sentences in their order, then each bad input and what follows. Answers and bytes
//! are written by hand.

mod common;
use common::*;

const BASE: u16 = 65_535;
const DAY: u32 = 1;
const NIGHT: u32 = 777;
/// The first free record of `floor`.
const NEXT: usize = 12;

/// A table that several users share.
#[derive(Clone)]
struct Floor {
    table: Vec<u8>,
}

/// The day shift has a sheet in `.R`; the night shift has an empty `.G`, and KEYS in its `.T`. Eight records are free.
fn floor() -> Floor {
    Floor::of(&[
        directory(),
        entry(0, BASE, 0, DAY, ".R"),
        simple(5),
        text(2, 0, b"5.0 V"),
        entry(0, 0, 2, 0, "SHEET"),
        directory(),
        entry(0, BASE, 5, NIGHT, ".G"),
        directory(),
        entry(0, BASE, 7, NIGHT, ".T"),
        simple(5),
        text(9, 0, b"KEYS!"),
        entry(0, 7, 9, 0, "KEYS"),
    ])
}

/// The heading of a sheet of five bytes that so many entries name: SHEET in record 2, KEYS in record 9.
fn sheet(entries: u16) -> [u8; 32] {
    named(simple(5), entries)
}

/// The heading of a directory that one entry names and that holds so many.
fn holds(entries: u16) -> [u8; 32] {
    counts(directory(), 1, entries)
}

/// The table with true counts.
fn recounted(table: &[u8]) -> Vec<u8> {
    let (records, _) = table.as_chunks::<32>();
    counted(records).concat()
}

/// A name of two letters for each number below 676.
fn letters(number: usize) -> String {
    let letter = |at: usize| char::from(b'A' + at as u8);
    format!("{}{}", letter(number / 26), letter(number % 26))
}

impl Floor {
    /// These records with true counts, and eight that are free.
    fn of(records: &[[u8; 32]]) -> Floor {
        let mut table = counted(records).concat();
        table.resize(table.len() + 8 * 32, 0);
        let floor = Floor { table };
        assert!(sound(&floor.table));
        floor
    }

    /// The same with some records others and the counts that are true then; it stays sound.
    fn with(&self, records: &[(usize, [u8; 32])]) -> Floor {
        let mut floor = self.clone();
        for (number, record) in records {
            floor.table[number * 32..][..32].copy_from_slice(record);
        }
        floor.table = recounted(&floor.table);
        assert!(sound(&floor.table));
        floor
    }

    /// Ask a request of a copy of the table, with a stop number; a WRS writes `TEXT`.
    fn ask(&self, user: u32, line: &str, stop: u32) -> Seen {
        let (mut table, mut reply) = (self.table.clone(), vec![UNTOUCHED; 24_000]);
        let answer = request(&mut table, line.as_bytes(), TEXT, &mut reply, user, stop);
        Seen {
            answer,
            table,
            reply,
        }
    }

    /// The request must be granted, displace nothing, and store exactly these records, in this order; the table is kept.
    fn store(&mut self, user: u32, line: &str, records: &[(usize, [u8; 32])]) {
        let mut after = self.table.clone();
        for (stop, (number, record)) in (0..).zip(records) {
            let cut = self.ask(user, line, stop);
            assert_eq!(cut.answer, answer([22, 0, 0, 0, 0, 0, stop]), "{line}");
            assert!(cut.table == after, "{line}, {stop}: another table");
            after[number * 32..][..32].copy_from_slice(record);
        }
        let seen = self.ask(user, line, 65_535);
        let stores = records.len() as u32;
        assert_eq!(seen.answer, answer([0, 0, 0, 1, 0, 0, stores]), "{line}");
        assert!(seen.untouched(), "{line}: reply changed");
        assert!(seen.table == after, "{line}: another table");
        assert!(sound(&after), "{line}: not sound after");
        self.table = after;
    }

    /// The request must be granted; the table is kept.
    fn grant(&mut self, user: u32, line: &str) -> Seen {
        let seen = self.ask(user, line, 65_535);
        assert_eq!(seen.answer.number, 0, "{line}: {:?}", seen.answer);
        assert!(sound(&seen.table), "{line}: not sound after");
        self.table.clone_from(&seen.table);
        seen
    }

    /// The request must be refused with this number and argument, and change no byte; its link is told in `links`.
    fn refuse(&self, user: u32, line: &str, number: u32, argument: u32) {
        let seen = self.ask(user, line, 65_535);
        seen.refused(number, argument, line);
        assert!(seen.table == self.table, "{line}: table changed");
        assert!(seen.untouched(), "{line}: reply changed");
    }

    /// The request must be granted, store nothing, and reply these bytes.
    fn reply(&self, user: u32, line: &str, expected: &[u8]) {
        let seen = self.ask(user, line, 65_535);
        let bytes = expected.len() as u32;
        assert_eq!(seen.answer, answer([0, 0, 0, 1, 0, bytes, 0]), "{line}");
        assert!(seen.table == self.table, "{line}: table changed");
        let (front, rest) = seen.reply.split_at(expected.len());
        assert_eq!(front, expected, "{line}");
        assert!(rest.iter().all(|byte| *byte == UNTOUCHED), "{line}: reply");
    }
}

// "Night shift has its own user number. A new name `.nnnnnn:link` in DUP (six digits) enters the file in that user's `.G`."

#[test]
fn a_sheet_is_handed_to_the_night_shift() {
    let mut floor = floor();
    let given = entry(1, 5, 2, 0, "SHEET");
    // the entry; then the counts of the sheet, which two entries name, and of `.G`, which holds it
    let stores = [(NEXT, given), (2, sheet(2)), (5, holds(1))];
    floor.store(DAY, "DUP .R:SHEET .000777:SHEET .1", &stores);
    floor.reply(NIGHT, "LST .G", b"FM.U1    SHEET\r\n");
    floor.reply(NIGHT, "RDS .G:SHEET", b"5.0 V");
    // without the pen: the code cannot be raised, and no entry of his has less
    floor.refuse(NIGHT, "DPR .G:SHEET .7", 14, 1);
    floor.store(
        NIGHT,
        "DUP .G:SHEET .T:SHEET",
        &[
            (13, entry(1, 7, 2, 0, "SHEET")),
            (2, sheet(3)),
            (7, holds(2)),
        ],
    );
    floor.refuse(NIGHT, "DPR .T:SHEET .7", 14, 1);
}

#[test]
fn a_give_may_have_another_link_name() {
    let mut floor = floor();
    let given = entry(0, 5, 2, 0, "LONGNAME10");
    let stores = [(NEXT, given), (2, sheet(2)), (5, holds(1))];
    floor.store(DAY, "DUP .R:SHEET .000777:LONGNAME10", &stores);
    let dash = entry(0, 5, 2, 0, "-");
    let stores = [(13, dash), (2, sheet(3)), (5, holds(2))];
    floor.store(DAY, "DUP .R:SHEET .000777:-", &stores);
    let point = entry(0, 5, 2, 0, ".000778");
    let stores = [(14, point), (2, sheet(4)), (5, holds(3))];
    floor.store(DAY, "DUP .R:SHEET .000777:.000778", &stores);
}

#[test]
fn a_give_takes_one_record_and_the_lowest_free_one() {
    let mut floor = floor();
    floor.grant(DAY, "WRS M .R:A");
    floor.grant(DAY, "WRS M .R:B");
    floor.grant(DAY, "DEL .R:A");
    // A was 12 to 15, B is 16 to 19: all other records are taken
    let given = entry(0, 5, 16, 0, "B");
    let stores = [(12, given), (5, holds(1)), (16, named(simple(30), 2))];
    floor.store(DAY, "DUP .R:B .000777:B", &stores);
}

#[test]
fn blanks_beside_the_colon_do_not_count() {
    let mut floor = floor();
    let given = entry(4, 5, 2, 0, "S");
    let stores = [(NEXT, given), (2, sheet(2)), (5, holds(1))];
    floor.store(DAY, "DUP .R : SHEET .000777 : S  .4", &stores);
    floor.reply(DAY, "RDS .000777 :  KEYS", b"KEYS!");
}

#[test]
fn other_counts_of_digits_and_letters_among_them_are_no_user() {
    let floor = floor();
    for odd in [
        ".00777",
        ".0000777",
        ".777",
        ".7",
        ".000000777",
        ".00A777",
        ".A00777",
        ".00077O",
        ".000_77",
        ".-00777",
        ".+00777",
        ".000.77",
        ".0007.7",
        "..000777",
        ".00077.",
        ".00077A",
    ] {
        floor.refuse(DAY, &format!("DUP .R:SHEET {odd}:SHEET"), 8, 2);
        floor.refuse(DAY, &format!("DUP {odd}:KEYS .R:KEYS"), 8, 1);
        floor.refuse(DAY, &format!("CPY {odd}:KEYS .R:KEYS"), 8, 1);
        for bare in ["", ":KEYS"] {
            floor.refuse(DAY, &format!("RDS {odd}{bare}"), 8, 1);
            floor.refuse(DAY, &format!("LST {odd}{bare}"), 8, 1);
        }
    }
    // eleven characters, and a name that lacks the point and so stands after `.W`
    floor.refuse(DAY, "DUP .R:SHEET .0000000777:SHEET", 7, 2);
    floor.refuse(DAY, "DUP .R:SHEET 000777:SHEET", 11, 2);
    floor.refuse(DAY, "RDS 000777", 11, 1);
}

#[test]
fn every_six_digits_are_a_user() {
    let users: [(u32, &str); 6] = [
        (0, "000000"),
        (1, "000001"),
        (257, "000257"),
        (65_537, "065537"),
        (999_743, "999743"),
        (999_999, "999999"),
    ];
    let mut records = vec![directory(), entry(0, BASE, 0, 5, ".R"), simple(0)];
    records.push(entry(0, 0, 2, 0, "A"));
    for (at, (user, _)) in users.iter().enumerate() {
        let heading = 4 + 4 * at as u16;
        records.push(directory());
        records.push(entry(0, BASE, heading, *user, ".G"));
        records.push(directory());
        records.push(entry(0, BASE, heading + 2, *user, ".T"));
    }
    let mut floor = Floor::of(&records);
    for (at, (user, digits)) in users.iter().enumerate() {
        let (give, next) = (4 + 4 * at as u16, 28 + at);
        let line = format!("DUP .R:A .{digits}:{}", letters(at));
        // A and the gives before this one name the sheet too
        let stores = [
            (next, entry(0, give, 2, 0, &letters(at))),
            (2, named(simple(0), 2 + at as u16)),
            (give.into(), holds(1)),
        ];
        floor.store(5, &line, &stores);
        let listed = format!("FM.U0    {}\r\n", letters(at));
        floor.reply(*user, "LST .G", listed.as_bytes());
        floor.reply(5, &format!("LST .{digits}"), b"");
    }
    floor.refuse(1_000_000, "DUP .R:A .000001:B", 3, 0);
}

// "As an old name in DUP or CPY, or in RDS and LST, `.nnnnnn` starts at that user's `.T`."

#[test]
fn dup_takes_a_file() {
    let mut floor = floor();
    let taken = entry(0, 0, 9, 0, "K");
    let stores = [(NEXT, taken), (0, holds(2)), (9, sheet(2))];
    floor.store(DAY, "DUP .000777:KEYS .R:K", &stores);
    floor.reply(DAY, "RDS .R:K", b"KEYS!");
    // a base list has no count
    let base = entry(4, BASE, 9, DAY, ".KEYS");
    let stores = [(13, base), (9, sheet(3))];
    floor.store(DAY, "DUP .000777:KEYS .KEYS .4", &stores);
}

#[test]
fn a_take_displaces_at_the_takers_own_name_as_ever() {
    let mut floor = floor();
    let seen = floor.grant(DAY, "DUP .000777:KEYS .R:SHEET");
    // the entry; the counts of the sheet displaced and of the one taken; then heading and text
    assert_eq!(seen.answer, answer([0, 0, 0, 1, 1, 0, 5]));
    assert_eq!(record(&floor.table, 4), entry(0, 0, 9, 0, "SHEET"));
    assert_eq!(record(&floor.table, 9), sheet(2));
    assert_eq!(record(&floor.table, 2), FREE);
    assert_eq!(record(&floor.table, 3), FREE);
}

#[test]
fn cpy_takes_a_copy() {
    let mut floor = floor();
    let records = [
        (12, heading(1, 1, 4, 2, 5)),
        (13, text(12, 0, b"KEYS!")),
        (14, entry(4, 0, 12, 0, "K")),
        (0, holds(2)),
        (12, named(heading(1, 1, 4, 2, 5), 1)),
    ];
    floor.store(DAY, "CPY .000777:KEYS .R:K L.P4", &records);
    // lifetime, level and length are the source's
    let floor = floor.with(&[(9, heading(1, 2, 0, 2, 5))]);
    let seen = floor.ask(DAY, "CPY .000777:KEYS .R:L", 65_535);
    assert_eq!(record(&seen.table, 15), named(heading(1, 2, 0, 2, 5), 1));
}

#[test]
fn rds_and_lst_take_a_look() {
    let floor = floor();
    floor.reply(DAY, "RDS .000777:KEYS", b"KEYS!");
    floor.reply(DAY, "LST .000777", b"FM.U0    KEYS\r\n");
    // also one's own, and for a user without a single file
    floor.reply(NIGHT, "RDS .000777:KEYS", b"KEYS!");
    floor.reply(NIGHT, "LST .000777", b"FM.U0    KEYS\r\n");
    floor.reply(999_999, "LST .000777", b"FM.U0    KEYS\r\n");
    floor.refuse(DAY, "LST .000777:KEYS", 15, 1);
    floor.refuse(DAY, "RDS .000777", 15, 1);
    floor.refuse(DAY, "CPY .000777 .R:K", 15, 1);
}

#[test]
fn a_take_goes_down_as_any_chain() {
    let mut floor = floor();
    floor.grant(NIGHT, "CRD .T:D");
    floor.grant(NIGHT, "WRS M .T:D:E");
    floor.reply(DAY, "LST .000777:D", b"FM.U0    E\r\n");
    floor.reply(DAY, "RDS .000777:D:E", TEXT);
    floor.refuse(DAY, "RDS .000777:D", 15, 1);
    floor.refuse(DAY, "RDS .000777:D:F", 11, 1);
    floor.refuse(DAY, "RDS .000777:KEYS:E", 12, 1);
    let taken = entry(0, 0, 12, 0, "D");
    let stores = [(18, taken), (0, holds(2)), (12, counts(directory(), 2, 1))];
    floor.store(DAY, "DUP .000777:D .R:D", &stores);
    floor.reply(DAY, "RDS .R:D:E", TEXT);
}

#[test]
fn a_take_shelf_that_is_a_simple_file_is_read_bare() {
    let shelf = entry(0, BASE, 9, NIGHT, ".T");
    let mut floor = floor().with(&[(7, FREE), (8, shelf), (11, FREE)]);
    floor.reply(DAY, "RDS .000777", b"KEYS!");
    floor.refuse(DAY, "LST .000777", 15, 1);
    floor.refuse(DAY, "RDS .000777:KEYS", 12, 1);
    floor.refuse(DAY, "DUP .000777:KEYS .R:K", 12, 1);
    floor.refuse(DAY, "CPY .000777:KEYS .R:K", 12, 1);
    floor.grant(DAY, "CPY .000777 .R:K");
    floor.reply(DAY, "RDS .R:K", b"KEYS!");
}

// "In every other place it still gets 8"

#[test]
fn in_every_other_place_it_gets_8() {
    let floor = floor();
    for (line, place) in [
        ("CRD .000777", 1),
        ("CRD .000777:A", 1),
        ("WRS M .000777", 2),
        ("WRS M .000777:A", 2),
        ("CPY .R:SHEET .000777", 2),
        ("CPY .R:SHEET .000777:A", 2),
        ("CPY .000777:KEYS .000777:A", 2),
        ("CHN .000777 .ABC", 1),
        ("CHN .000777:KEYS A", 1),
        ("CHN .R .000777", 2),
        ("DEL .000777", 1),
        ("DEL .000777:KEYS", 1),
        ("DEL .R:SHEET .000777:KEYS", 2),
        ("DST .000777", 1),
        ("DST .000777:KEYS", 1),
        ("DST .R:SHEET .000777:KEYS", 2),
        ("DPR .000777 .1", 1),
        ("DPR .000777:KEYS .1", 1),
    ] {
        // of another user, and of oneself
        floor.refuse(DAY, line, 8, place);
        floor.refuse(NIGHT, line, 8, place);
    }
}

#[test]
fn after_a_colon_it_is_a_link_as_any() {
    let mut floor = floor();
    let link = entry(0, 0, 2, 0, ".000777");
    floor.store(DAY, "CHN .R:SHEET .000777", &[(4, link)]);
    floor.reply(DAY, "RDS .R:.000777", b"5.0 V");
    floor.reply(DAY, "LST .R", b"FM.U0    .000777\r\n");
    let renamed = entry(0, 0, 2, 0, "SHEET");
    floor.store(DAY, "CHN .R:.000777 SHEET", &[(4, renamed)]);
    let again = entry(0, 0, 2, 0, ".000777");
    let stores = [(NEXT, again), (0, holds(2)), (2, sheet(2))];
    floor.store(DAY, "DUP .R:SHEET .R:.000777", &stores);
}

#[test]
fn the_lamp_files_in_nobody_elses_directory() {
    let mut floor = floor();
    let mut sheet = [0; 32];
    sheet[0] = b'A';
    for chain in [&b".000777"[..], b".000777:D"] {
        // red, sheet 1, filing, 8, no stores
        let before = floor.table.clone();
        let (table, mut index) = (&mut floor.table, beside::true_index(&before));
        let back = &mut [][..];
        let light = beside::light(table, &mut index, &sheet, b"", back, chain, DAY, 65_535);
        assert_eq!(light.numbers(), [1, 1, 1, 8, 0]);
        let light = filebox::light(table, &mut index, &sheet, b"", back, chain, DAY, 65_535);
        assert_eq!(light.numbers(), [1, 1, 1, 8, 0]);
        assert_eq!(
            (&floor.table, index),
            (&before, beside::true_index(&before))
        );
    }
}

// "so does a bare `.nnnnnn` as DUP's old name, which would hand over the take directory itself, and a give with no link or
// more than one"

#[test]
fn a_take_directory_is_not_handed_over() {
    let floor = floor();
    floor.refuse(DAY, "DUP .000777 .R:T", 8, 1);
    floor.refuse(DAY, "DUP .000777 .TAKEN", 8, 1);
    floor.refuse(DAY, "DUP .000777 .000777:T", 8, 1);
    floor.refuse(DAY, "DUP .000777 .000777", 8, 1);
    // one's own neither; by its name it may be
    floor.refuse(NIGHT, "DUP .000777 .T:T", 8, 1);
    let mut floor = floor;
    let looped = entry(0, 7, 7, 0, "T");
    let stores = [(NEXT, looped), (7, counts(directory(), 2, 2))];
    floor.store(NIGHT, "DUP .T .T:T", &stores);
    // and then it is a directory in the take directory, as any other
    let taken = entry(0, 0, 7, 0, "T");
    let stores = [(13, taken), (0, holds(2)), (7, counts(directory(), 3, 2))];
    floor.store(DAY, "DUP .000777:T .R:T", &stores);
}

#[test]
fn a_give_has_exactly_one_link() {
    let floor = floor();
    floor.refuse(DAY, "DUP .R:SHEET .000777", 8, 2);
    floor.refuse(DAY, "DUP .R:SHEET .000777:A:B", 8, 2);
    floor.refuse(
        DAY,
        "DUP .R:SHEET .000777:A:B:C:D:E:F:G:H:I:J:K:L:M:N:O",
        8,
        2,
    );
    floor.refuse(NIGHT, "DUP .T:KEYS .000777", 8, 2);
    // also where a directory stands under that link
    let mut floor = floor;
    floor.grant(NIGHT, "CRD .G:A");
    floor.refuse(DAY, "DUP .R:SHEET .000777:A:B", 8, 2);
}

#[test]
fn it_is_judged_on_the_line_with_the_other_8s() {
    let floor = floor();
    // 6 and 7 come first, over the whole line
    floor.refuse(DAY, "LST .000777 A", 6, 0);
    floor.refuse(DAY, "DUP .000777", 6, 0);
    floor.refuse(DAY, "DUP .000777 @", 7, 2);
    floor.refuse(DAY, "DUP .000777 -", 7, 2);
    floor.refuse(DAY, "DUP .R:SHEET .000777:", 7, 2);
    floor.refuse(DAY, "DUP .R:SHEET .000777:ELEVENCHARS", 7, 2);
    floor.refuse(DAY, "RDS .000777:@", 7, 1);
    // the leftmost 8
    floor.refuse(DAY, "DUP .1 .000777", 8, 1);
    floor.refuse(DAY, "DUP .000777:KEYS .1", 8, 2);
    floor.refuse(DAY, "DUP .000777:KEYS .000777", 8, 2);
    // 9 and what is walked come after
    floor.refuse(DAY, "DUP .R:SHEET .000777 .P", 8, 2);
    floor.refuse(DAY, "DUP .000777 .R:T MF", 8, 1);
    floor.refuse(DAY, "DUP .R:NONE .000777:A:B", 8, 2);
    floor.refuse(DAY, "DUP .R:NONE .000777:A .P", 9, 3);
    floor.refuse(DAY, "DUP .R:SHEET .000778:A M", 9, 3);
    floor.refuse(DAY, "CPY .000778:KEYS .R:K FM", 9, 3);
}

#[test]
fn it_counts_as_one_of_sixteen_names() {
    let mut floor = floor();
    floor.grant(NIGHT, "DUP .T .T:L");
    let chain = |links: usize| format!(".000777{}", ":L".repeat(links));
    let listed = b"FM.U0    KEYS\r\nDM.U0    L\r\n";
    floor.reply(DAY, &format!("LST {}", chain(15)), listed);
    floor.refuse(DAY, &format!("LST {}", chain(16)), 7, 1);
    floor.reply(DAY, &format!("RDS {}:KEYS", chain(14)), b"KEYS!");
    floor.refuse(DAY, &format!("RDS {}:KEYS", chain(15)), 7, 1);
    let taken = entry(0, 0, 9, 0, "K");
    let line = format!("DUP {}:KEYS .R:K", chain(14));
    let stores = [(13, taken), (0, holds(2)), (9, sheet(2))];
    floor.store(DAY, &line, &stores);
    floor.refuse(DAY, &format!("DUP {}:KEYS .R:K", chain(15)), 7, 1);
    floor.refuse(DAY, &format!("CPY {}:KEYS .R:K", chain(15)), 7, 1);
    // a chain of one's own has its supplied `.W` counted
    let own = format!("RDS L{}", ":L".repeat(15));
    floor.refuse(DAY, &own, 7, 1);
    // too long a give: 7 before 8
    floor.refuse(DAY, &format!("DUP .R:SHEET {}", chain(16)), 7, 2);
    floor.refuse(DAY, &format!("DUP .R:SHEET {}", chain(15)), 8, 2);
}

// "A give never displaces."

#[test]
fn a_link_that_is_taken_stays() {
    let mut floor = floor();
    let given = entry(0, 5, 2, 0, "SHEET");
    let stores = [(NEXT, given), (2, sheet(2)), (5, holds(1))];
    floor.store(DAY, "DUP .R:SHEET .000777:SHEET", &stores);
    // by an entry of the same file, with the same code or another
    floor.refuse(DAY, "DUP .R:SHEET .000777:SHEET", 16, 2);
    floor.refuse(DAY, "DUP .R:SHEET .000777:SHEET .7", 16, 2);
    // by another's, also where the giver is the receiver or a third
    floor.refuse(DAY, "DUP .000777:KEYS .000777:SHEET", 16, 2);
    floor.refuse(NIGHT, "DUP .T:KEYS .000777:SHEET", 16, 2);
    floor.refuse(3, "DUP .000777:KEYS .000777:SHEET", 16, 2);
    // in one's own `.G` by its own name DUP displaces, as ever
    let seen = floor.grant(NIGHT, "DUP .T:KEYS .G:SHEET");
    assert_eq!(seen.answer, answer([0, 0, 0, 1, 1, 0, 3]));
    assert_eq!(record(&floor.table, NEXT), entry(0, 5, 9, 0, "SHEET"));
}

#[test]
fn a_directory_with_entries_gets_16_and_not_18() {
    let mut floor = floor();
    floor.grant(NIGHT, "CRD .G:D");
    floor.grant(NIGHT, "WRS M .G:D:E");
    floor.refuse(DAY, "DUP .R:SHEET .000777:D", 16, 2);
    floor.refuse(NIGHT, "DUP .T:KEYS .G:D", 18, 2);
}

// "Codes join as always, so nobody receives more than the giver's entry has."

#[test]
fn the_code_is_the_old_entrys_joined_with_the_declared_one() {
    let day = floor();
    for own in 0..8u8 {
        for declared in 0..8u8 {
            // the heading's code does not slip in
            let mut floor = day.with(&[
                (2, heading(1, 0, 6, 1, 5)),
                (4, entry(own, 0, 2, 0, "SHEET")),
                (11, entry(own, 7, 9, 0, "KEYS")),
            ]);
            let given = entry(own | declared, 5, 2, 0, "S");
            let line = format!("DUP .R:SHEET .000777:S .{declared}");
            let sheet_given = named(heading(1, 0, 6, 1, 5), 2);
            let stores = [(12, given), (2, sheet_given), (5, holds(1))];
            floor.store(DAY, &line, &stores);
            let taken = entry(own | declared, 0, 9, 0, "K");
            let line = format!("DUP .000777:KEYS .R:K .{declared}");
            let stores = [(13, taken), (0, holds(2)), (9, sheet(2))];
            floor.store(DAY, &line, &stores);
        }
    }
}

#[test]
fn without_a_digit_the_code_is_the_old_entrys() {
    for declaration in ["", " -", " .", " .0"] {
        let mut floor = floor().with(&[(4, entry(5, 0, 2, 0, "SHEET"))]);
        let line = format!("DUP .R:SHEET .000777:S{declaration}");
        let given = entry(5, 5, 2, 0, "S");
        let stores = [(12, given), (2, sheet(2)), (5, holds(1))];
        floor.store(DAY, &line, &stores);
    }
}

#[test]
fn codes_of_earlier_entries_do_not_add_up() {
    // `.R` and the shelf `.T` inhibit execute and write, their entries write
    let mut floor = floor().with(&[
        (0, heading(0, 0, 5, 1, 0)),
        (1, entry(1, BASE, 0, DAY, ".R")),
        (7, heading(0, 0, 5, 1, 0)),
        (8, entry(1, BASE, 7, NIGHT, ".T")),
    ]);
    let given = entry(0, 5, 2, 0, "S");
    let stores = [(12, given), (2, sheet(2)), (5, holds(1))];
    floor.store(DAY, "DUP .R:SHEET .000777:S", &stores);
    let taken = entry(0, BASE, 9, DAY, ".KEYS");
    let stores = [(13, taken), (9, sheet(2))];
    floor.store(DAY, "DUP .000777:KEYS .KEYS", &stores);
    floor.reply(DAY, "RDS .000777:KEYS", b"KEYS!");
}

#[test]
fn what_the_giver_may_not_read_or_write_may_be_given() {
    let mut floor = floor().with(&[(4, entry(3, 0, 2, 0, "SHEET"))]);
    floor.refuse(DAY, "RDS .R:SHEET", 13, 1);
    let given = entry(3, 5, 2, 0, "S");
    let stores = [(12, given), (2, sheet(2)), (5, holds(1))];
    floor.store(DAY, "DUP .R:SHEET .000777:S", &stores);
    floor.refuse(NIGHT, "RDS .G:S", 13, 1);
    floor.refuse(NIGHT, "DPR .G:S .7", 14, 1);
}

#[test]
fn a_take_is_read_by_the_joined_code_of_the_entry_last_followed() {
    let floor = floor();
    for inhibited in [
        floor.with(&[(9, heading(1, 0, 2, 1, 5))]),
        floor.with(&[(11, entry(2, 7, 9, 0, "KEYS"))]),
        floor.with(&[(9, heading(1, 0, 6, 1, 5)), (11, entry(3, 7, 9, 0, "KEYS"))]),
    ] {
        inhibited.refuse(DAY, "RDS .000777:KEYS", 13, 1);
        inhibited.refuse(DAY, "CPY .000777:KEYS .R:K", 13, 1);
        // DUP asks nothing of the file named
        let seen = inhibited.ask(DAY, "DUP .000777:KEYS .R:K", 65_535);
        assert_eq!(seen.answer, answer([0, 0, 0, 1, 0, 0, 3]));
    }
}

// "Refusals: 11 where `.G` or `.T` is missing"

#[test]
fn number_11_where_the_shelf_is_missing() {
    let floor = floor();
    // the day shift has neither `.G` nor `.T`, user 778 has nothing at all
    for user in ["000001", "000778", "000000", "999999"] {
        floor.refuse(DAY, &format!("DUP .R:SHEET .{user}:S"), 11, 2);
        floor.refuse(NIGHT, &format!("DUP .T:KEYS .{user}:S"), 11, 2);
        floor.refuse(DAY, &format!("DUP .{user}:KEYS .R:K"), 11, 1);
        floor.refuse(DAY, &format!("CPY .{user}:KEYS .R:K"), 11, 1);
        floor.refuse(DAY, &format!("CPY .{user} .R:K"), 11, 1);
        floor.refuse(DAY, &format!("RDS .{user}:KEYS"), 11, 1);
        floor.refuse(DAY, &format!("RDS .{user}"), 11, 1);
        floor.refuse(DAY, &format!("LST .{user}:KEYS"), 11, 1);
        floor.refuse(DAY, &format!("LST .{user}"), 11, 1);
    }
    // what is in the shelf is asked for there, and nowhere else
    floor.refuse(NIGHT, "RDS .000777:SHEET", 11, 1);
    floor.refuse(DAY, "DUP .000777:SHEET .R:S", 11, 1);
}

#[test]
fn the_one_shelf_does_not_stand_in_for_the_other() {
    let give_alone = floor().with(&[(7, FREE), (8, FREE), (9, FREE), (10, FREE), (11, FREE)]);
    give_alone.refuse(DAY, "LST .000777", 11, 1);
    give_alone.refuse(DAY, "RDS .000777:KEYS", 11, 1);
    let take_alone = floor().with(&[(5, FREE), (6, FREE)]);
    take_alone.refuse(DAY, "DUP .R:SHEET .000777:SHEET", 11, 2);
    take_alone.reply(DAY, "RDS .000777:KEYS", b"KEYS!");
}

#[test]
fn on_an_empty_table_a_give_and_a_take_get_11() {
    let empty = Floor { table: Vec::new() };
    empty.refuse(DAY, "LST .000777", 11, 1);
    empty.refuse(DAY, "RDS .000001:A", 11, 1);
    empty.refuse(DAY, "DUP .000001:A .000001:A", 11, 1);
}

// "12, 13, 14, 17 by the usual rules"

#[test]
fn number_12_where_the_shelf_is_a_simple_file() {
    let give = entry(0, BASE, 9, NIGHT, ".G");
    let take = entry(0, BASE, 9, NIGHT, ".T");
    // both shelves are the sheet KEYS
    let floor = floor().with(&[(5, FREE), (6, give), (7, FREE), (8, take), (11, FREE)]);
    floor.refuse(DAY, "DUP .R:SHEET .000777:S", 12, 2);
    floor.refuse(DAY, "DUP .000777:KEYS .R:K", 12, 1);
    floor.refuse(DAY, "CPY .000777:KEYS .R:K", 12, 1);
    floor.refuse(DAY, "RDS .000777:KEYS", 12, 1);
    floor.refuse(DAY, "LST .000777:KEYS", 12, 1);
    // 12 before 13: it is read-inhibited besides
    let floor = floor.with(&[(9, heading(1, 0, 2, 1, 5))]);
    floor.refuse(DAY, "DUP .R:SHEET .000777:S", 12, 2);
    floor.refuse(DAY, "RDS .000777:KEYS", 12, 1);
    floor.refuse(DAY, "RDS .000777", 13, 1);
}

#[test]
fn number_13_where_the_shelf_is_read_inhibited() {
    let floor = floor();
    // by the heading, by that user's base entry, by both
    for (heading_code, entry_code) in [(2, 0), (0, 2), (6, 3), (7, 7)] {
        let take = floor.with(&[
            (7, heading(0, 0, heading_code, 1, 0)),
            (8, entry(entry_code, BASE, 7, NIGHT, ".T")),
        ]);
        take.refuse(DAY, "RDS .000777:KEYS", 13, 1);
        take.refuse(DAY, "RDS .000777:NONE", 13, 1);
        take.refuse(DAY, "LST .000777", 13, 1);
        take.refuse(DAY, "CPY .000777:KEYS .R:K", 13, 1);
        take.refuse(DAY, "DUP .000777:KEYS .R:K", 13, 1);
        take.refuse(NIGHT, "RDS .000777:KEYS", 13, 1);
        let give = floor.with(&[
            (5, heading(0, 0, heading_code, 1, 0)),
            (6, entry(entry_code, BASE, 5, NIGHT, ".G")),
        ]);
        give.refuse(DAY, "DUP .R:SHEET .000777:S", 13, 2);
        // 13 on the way, before 14 at the end
        give.reply(DAY, "RDS .000777:KEYS", b"KEYS!");
    }
    // a bare take is judged at the end: 13 before 15
    let take = floor.with(&[(7, heading(0, 0, 2, 1, 0))]);
    take.refuse(DAY, "RDS .000777", 13, 1);
    take.refuse(DAY, "CPY .000777 .R:K", 13, 1);
}

#[test]
fn the_code_of_a_shelf_is_that_users_entrys() {
    // user 2 has the same directory as its `.T` and its `.G`, by entries of its own
    let floor = floor().with(&[
        (8, entry(2, BASE, 7, NIGHT, ".T")),
        (6, entry(1, BASE, 5, NIGHT, ".G")),
        (12, entry(0, BASE, 7, 2, ".T")),
        (13, entry(0, BASE, 5, 2, ".G")),
    ]);
    floor.refuse(DAY, "RDS .000777:KEYS", 13, 1);
    floor.reply(DAY, "RDS .000002:KEYS", b"KEYS!");
    floor.refuse(DAY, "DUP .R:SHEET .000777:S", 14, 2);
    let mut floor = floor;
    let given = entry(0, 5, 2, 0, "S");
    let stores = [(14, given), (2, sheet(2)), (5, counts(directory(), 2, 1))];
    floor.store(DAY, "DUP .R:SHEET .000002:S", &stores);
    floor.reply(NIGHT, "RDS .G:S", b"5.0 V");
}

#[test]
fn number_14_where_the_give_directory_is_write_inhibited() {
    let floor = floor();
    for (heading_code, entry_code) in [(1, 0), (0, 1), (5, 1), (4, 5)] {
        let give = floor.with(&[
            (5, heading(0, 0, heading_code, 1, 0)),
            (6, entry(entry_code, BASE, 5, NIGHT, ".G")),
        ]);
        give.refuse(DAY, "DUP .R:SHEET .000777:S", 14, 2);
        give.refuse(NIGHT, "DUP .T:KEYS .000777:S", 14, 2);
        // 14 before 16
        let taken = give.with(&[(12, entry(0, 5, 2, 0, "S"))]);
        taken.refuse(DAY, "DUP .R:SHEET .000777:S", 14, 2);
    }
    // nothing is asked of the file, nor of the directory it comes from
    let mut floor = floor.with(&[
        (0, heading(0, 0, 1, 1, 0)),
        (2, heading(1, 0, 1, 1, 5)),
        (7, heading(0, 0, 1, 1, 0)),
    ]);
    let given = entry(0, 5, 2, 0, "S");
    let capped = named(heading(1, 0, 1, 1, 5), 2);
    let stores = [(12, given), (2, capped), (5, holds(1))];
    floor.store(DAY, "DUP .R:SHEET .000777:S", &stores);
    let keys = entry(0, 5, 9, 0, "K");
    let stores = [(13, keys), (5, holds(2)), (9, sheet(2))];
    floor.store(DAY, "DUP .000777:KEYS .000777:K", &stores);
}

/// The night shift's `.G` with so many entries, then this many free records.
fn crowded(entries: usize, free: usize) -> Floor {
    let mut table = floor().table;
    table.truncate(NEXT * 32);
    for number in 0..entries {
        table.extend(entry(0, 5, 9, 0, &letters(number)));
    }
    table.resize(table.len() + free * 32, 0);
    let table = recounted(&table);
    assert!(sound(&table));
    Floor { table }
}

#[test]
fn number_17_where_the_give_directory_is_full() {
    crowded(112, 1).refuse(DAY, "DUP .R:SHEET .000777:SHEET", 17, 2);
    let mut floor = crowded(111, 2);
    let given = entry(0, 5, 2, 0, "SHEET");
    let stores = [(NEXT + 111, given), (2, sheet(2)), (5, holds(112))];
    floor.store(DAY, "DUP .R:SHEET .000777:SHEET", &stores);
    floor.refuse(DAY, "DUP .R:SHEET .000777:MORE", 17, 2);
    // full and taken: 16; full and no room: 17; write-inhibited and full: 14
    floor.refuse(DAY, "DUP .R:SHEET .000777:SHEET", 16, 2);
    floor.refuse(DAY, "DUP .R:SHEET .000777:AA", 16, 2);
    crowded(112, 0).refuse(DAY, "DUP .R:SHEET .000777:SHEET", 17, 2);
    let inhibited = crowded(112, 0).with(&[(5, heading(0, 0, 1, 1, 0))]);
    inhibited.refuse(DAY, "DUP .R:SHEET .000777:SHEET", 14, 2);
    // what is full is that directory: the giver's own base list or directory is not asked
    crowded(112, 1).grant(DAY, "DUP .000777:KEYS .R:K");
}

#[test]
fn number_17_where_the_takers_own_directory_is_full() {
    let mut table = floor().table;
    table.truncate(NEXT * 32);
    for number in 0..111 {
        table.extend(entry(0, 0, 2, 0, &letters(number)));
    }
    table.resize(table.len() + 32, 0);
    let table = recounted(&table);
    let mut floor = Floor { table };
    floor.refuse(DAY, "DUP .000777:KEYS .R:K", 17, 2);
    // SHEET, 111 entries beside it and the one given name the sheet
    let given = entry(0, 5, 2, 0, "S");
    let stores = [(NEXT + 111, given), (2, sheet(113)), (5, holds(1))];
    floor.store(DAY, "DUP .R:SHEET .000777:S", &stores);
}

#[test]
fn number_19_where_no_record_is_free() {
    let floor = crowded(1, 0);
    floor.refuse(DAY, "DUP .R:SHEET .000777:S", 19, 0);
    floor.refuse(DAY, "DUP .000777:KEYS .R:K", 19, 0);
    // taken and no room: 16
    floor.refuse(DAY, "DUP .R:SHEET .000777:AA", 16, 2);
    crowded(1, 2).refuse(DAY, "CPY .000777:KEYS .R:K", 19, 0);
    crowded(1, 3).grant(DAY, "CPY .000777:KEYS .R:K");
}

// the order of what is walked and checked

#[test]
fn the_old_name_is_walked_first_and_whole() {
    let floor = floor();
    // user 778 has no `.G`: 11, place 2, only where the old name was walked to its end
    floor.refuse(DAY, "DUP .R:NONE .000778:S", 11, 1);
    floor.refuse(DAY, "DUP .R:SHEET:X .000778:S", 12, 1);
    floor.refuse(DAY, "DUP .000778:A .000778:S", 11, 1);
    floor.refuse(DAY, "DUP .000777:NONE .000778:S", 11, 1);
    floor.refuse(DAY, "DUP .000777:KEYS .000778:S", 11, 2);
    let inhibited = floor.with(&[(0, heading(0, 0, 2, 1, 0))]);
    inhibited.refuse(DAY, "DUP .R:SHEET .000778:S", 13, 1);
    // a copy's new name is walked before its old one is judged
    floor.refuse(DAY, "CPY .000777 .NONE:K", 11, 2);
    floor.refuse(DAY, "CPY .000777:KEYS .NONE:K", 11, 2);
}

#[test]
fn a_give_that_is_stopped_is_mended_to_before_or_after() {
    let floor = floor();
    let line = "DUP .R:SHEET .000777:S .1";
    let made = floor.ask(DAY, line, 3);
    assert_eq!(made.answer, answer([0, 0, 0, 1, 0, 0, 3]));
    assert_eq!(record(&made.table, NEXT), entry(1, 5, 2, 0, "S"));
    // the entry is given once it is there; the two counts are then mended, or the second alone
    for (stop, after, mended) in [
        (0, &floor.table, 0),
        (1, &made.table, 2),
        (2, &made.table, 1),
    ] {
        let mut stopped = floor.ask(DAY, line, stop);
        assert_eq!(stopped.answer, answer([22, 0, 0, 0, 0, 0, stop]));
        let expected = answer([0, 0, 0, 0, 0, 0, mended]);
        assert_eq!(mend(&mut stopped.table, 65_535), expected);
        assert!(stopped.table == *after, "stopped at {stop}");
    }
    // a refusal stays what it is
    let taken = floor.with(&[(12, entry(0, 5, 2, 0, "S"))]);
    let refused = taken.ask(DAY, line, 0);
    assert_eq!(refused.answer, answer([16, 2, 2, 0, 0, 0, 0]));
}

#[test]
fn a_cut_copy_of_a_take_is_mended_to_before_or_after() {
    let floor = floor();
    let line = "CPY .000777:KEYS .R:SHEET";
    let after = floor.ask(DAY, line, 65_535);
    // heading, text, entry; the counts of both files; then what was displaced: heading, text
    assert_eq!(after.answer, answer([0, 0, 0, 1, 1, 0, 7]));
    for stop in 0..7 {
        let mut cut = floor.ask(DAY, line, stop);
        assert_eq!(cut.answer.number, 22);
        assert_eq!(mend(&mut cut.table, 65_535).number, 0);
        let mended_to = if stop < 3 { &floor.table } else { &after.table };
        assert!(cut.table == *mended_to, "cut at {stop}");
    }
}

#[test]
fn a_reply_buffer_that_is_too_short() {
    let mut table = floor().table;
    for (line, needed) in [("RDS .000777:KEYS", 5), ("LST .000777", 15)] {
        let mut short = vec![UNTOUCHED; needed - 1];
        let refused = request(&mut table, line.as_bytes(), b"", &mut short, DAY, 65_535);
        assert_eq!(refused, answer([20, 0, 0, 0, 0, 0, 0]));
        let mut enough = vec![UNTOUCHED; needed];
        let granted = request(&mut table, line.as_bytes(), b"", &mut enough, DAY, 65_535);
        assert_eq!(granted, answer([0, 0, 0, 1, 0, needed as u32, 0]));
    }
}

// what may be given, and to whom

#[test]
fn ones_own_number_is_allowed_both_ways() {
    let mut floor = floor();
    let given = entry(0, 5, 9, 0, "K");
    let stores = [(12, given), (5, holds(1)), (9, sheet(2))];
    floor.store(NIGHT, "DUP .T:KEYS .000777:K", &stores);
    floor.refuse(NIGHT, "DUP .T:KEYS .000777:K", 16, 2);
    let taken = entry(1, 5, 9, 0, "L");
    let stores = [(13, taken), (5, holds(2)), (9, sheet(3))];
    floor.store(NIGHT, "DUP .000777:KEYS .000777:L .1", &stores);
    floor.reply(NIGHT, "LST .G", b"FM.U0    K\r\nFM.U1    L\r\n");
}

#[test]
fn a_directory_may_be_given_and_is_shared() {
    let mut floor = floor();
    let given = entry(0, 5, 0, 0, "R");
    let stores = [(12, given), (0, counts(directory(), 2, 1)), (5, holds(1))];
    floor.store(DAY, "DUP .R .000777:R", &stores);
    floor.reply(NIGHT, "RDS .G:R:SHEET", b"5.0 V");
    // he may write and delete in it
    floor.grant(NIGHT, "WRS M .G:R:NEW");
    floor.reply(DAY, "RDS .R:NEW", TEXT);
    floor.grant(NIGHT, "DEL .G:R:SHEET");
    floor.refuse(DAY, "RDS .R:SHEET", 11, 1);
    // but not where it was given with the write bit
    let mut inhibited = floor.clone();
    inhibited.grant(DAY, "DUP .R .000777:S .1");
    inhibited.refuse(NIGHT, "WRS M .G:S:NEW", 14, 2);
    inhibited.refuse(NIGHT, "DEL .G:S:NEW", 14, 1);
    inhibited.reply(NIGHT, "RDS .G:S:NEW", TEXT);
}

#[test]
fn the_write_bit_on_a_directorys_entry_is_not_on_what_is_in_it() {
    let mut floor = floor();
    floor.grant(DAY, "CRD .R:D");
    floor.grant(DAY, "DUP .R .000777:R .1");
    // "codes of earlier entries do not add up": the sheet's own entry and heading have no code
    let inhibited = named(heading(1, 0, 2, 1, 5), 1);
    floor.store(NIGHT, "DPR .G:R:SHEET .2", &[(2, inhibited)]);
    floor.refuse(DAY, "RDS .R:SHEET", 13, 1);
    floor.grant(NIGHT, "WRS M .G:R:D:NEW");
}

#[test]
fn what_is_given_outlives_the_givers_entry() {
    let mut floor = floor();
    floor.grant(DAY, "DUP .R .000777:R");
    // the directory still has an entry, so no 18; its records stay
    floor.store(DAY, "DEL .R", &[(1, FREE), (0, holds(1))]);
    floor.reply(NIGHT, "RDS .G:R:SHEET", b"5.0 V");
    floor.refuse(NIGHT, "DEL .G:R", 18, 1);
    floor.grant(NIGHT, "DEL .G:R:SHEET .G:R");
    assert_eq!(count(&floor.table, 1), 3);
}

#[test]
fn the_give_directory_itself_may_be_given() {
    let mut floor = floor();
    let looped = entry(0, 5, 5, 0, "G");
    let stores = [(12, looped), (5, counts(directory(), 2, 1))];
    floor.store(NIGHT, "DUP .G .000777:G", &stores);
    floor.reply(NIGHT, "LST .G:G:G", b"DM.U0    G\r\n");
    // a give reaches its directory through `.G` alone, whatever is in it
    let given = entry(0, 5, 2, 0, "SHEET");
    let stores = [(13, given), (2, sheet(2)), (5, counts(directory(), 2, 2))];
    floor.store(DAY, "DUP .R:SHEET .000777:SHEET", &stores);
    floor.refuse(DAY, "DUP .R:SHEET .000777:G:S", 8, 2);
    floor.refuse(DAY, "DUP .R:SHEET .000777:G", 16, 2);
    // and one's own `.G` to somebody else
    floor.grant(DAY, "CRD .G");
    let other = entry(4, 5, 14, 0, "DAYS");
    let stores = [
        (16, other),
        (5, counts(directory(), 2, 3)),
        (14, named(directory(), 2)),
    ];
    floor.store(DAY, "DUP .G .000777:DAYS .4", &stores);
}

#[test]
fn what_is_taken_from_one_may_be_given_to_another() {
    let mut floor = Floor::of(&[
        directory(),
        entry(0, BASE, 0, 2, ".T"),
        simple(1),
        text(2, 0, b"A"),
        entry(4, 0, 2, 0, "A"),
        directory(),
        entry(0, BASE, 5, 3, ".G"),
    ]);
    let given = entry(5, 5, 2, 0, "B");
    let stores = [(7, given), (2, named(simple(1), 2)), (5, holds(1))];
    floor.store(DAY, "DUP .000002:A .000003:B .1", &stores);
    floor.reply(3, "LST .G", b"FM.U5    B\r\n");
    floor.reply(3, "RDS .G:B", b"A");
    // nobody has given user 2 anything, and there is nothing to take from user 3
    floor.refuse(DAY, "DUP .000002:A .000002:B", 11, 2);
    floor.refuse(DAY, "DUP .000003:B .000003:C", 11, 1);
}

#[test]
fn who_takes_has_an_entry_of_his_own() {
    let mut floor = floor();
    let taken = entry(0, 0, 9, 0, "K");
    let stores = [(12, taken), (0, holds(2)), (9, sheet(2))];
    floor.store(DAY, "DUP .000777:KEYS .R:K", &stores);
    // it outlives the one it was taken by
    let stores = [(11, FREE), (7, holds(0)), (9, sheet(1))];
    floor.store(NIGHT, "DEL .T:KEYS", &stores);
    floor.reply(DAY, "RDS .R:K", b"KEYS!");
    floor.refuse(DAY, "RDS .000777:KEYS", 11, 1);
    // and the code of the file itself may be raised by it, for everyone
    floor.store(
        NIGHT,
        "CRD .T:D",
        &[
            (11, directory()),
            (13, entry(0, 7, 11, 0, "D")),
            (7, holds(1)),
            (11, holds(0)),
        ],
    );
    let taken = entry(0, 0, 11, 0, "D");
    let stores = [(14, taken), (0, holds(3)), (11, named(directory(), 2))];
    floor.store(DAY, "DUP .000777:D .R:D", &stores);
    let inhibited = named(heading(0, 0, 2, 1, 0), 2);
    floor.store(DAY, "DPR .R:D .2", &[(11, inhibited)]);
    floor.refuse(NIGHT, "LST .T:D", 13, 1);
}

#[test]
fn the_write_bit_in_the_heading_keeps_the_pen_too() {
    let mut floor = floor();
    floor.grant(DAY, "DPR .R:SHEET .1");
    let given = entry(0, 5, 2, 0, "SHEET");
    let capped = named(heading(1, 0, 1, 1, 5), 2);
    let stores = [(12, given), (2, capped), (5, holds(1))];
    floor.store(DAY, "DUP .R:SHEET .000777:SHEET", &stores);
    floor.refuse(NIGHT, "DPR .G:SHEET .7", 14, 1);
    // a copy is a file of the receiver's own, without the bit
    floor.grant(NIGHT, "CPY .G:SHEET .G:MINE");
    floor.grant(NIGHT, "DPR .G:MINE .7");
    floor.reply(DAY, "RDS .R:SHEET", b"5.0 V");
}

#[test]
fn a_table_that_is_not_sound_is_refused_before_all_this() {
    let mut table = floor().table;
    table[31] = 1;
    let lines = [
        "DUP .R:SHEET .000777:S",
        "RDS .000777:KEYS",
        "DUP .000777 .R:T",
    ];
    for line in lines {
        let answered = request(&mut table, line.as_bytes(), b"", &mut [], DAY, 65_535);
        assert_eq!(answered, answer([2, 0, 0, 0, 0, 0, 0]), "{line}");
    }
    let answered = request(&mut [0; 33], b"LST .000777", b"", &mut [], DAY, 65_535);
    assert_eq!(answered, answer([1, 0, 0, 0, 0, 0, 0]));
}
