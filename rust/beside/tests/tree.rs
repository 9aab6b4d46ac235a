//! Document 02, n, "List the tree": its sentences in their order, then each refusal. Lines and answers are written by hand, but
//! where a tree is put together from document 01's LST of every directory in it.

mod common;
use common::*;

use beside::{read, Chain, Listed, Refusal, Request};

const NIGHT: u32 = 777;

/// Lines as LST and LST* write them.
fn shown(lines: &[&str]) -> Vec<u8> {
    let ended = lines.iter().map(|line| format!("{line}\r\n"));
    ended.collect::<String>().into_bytes()
}

/// A directory `.R` with two sheets and a directory BOARDS, which has a sheet and a directory OLD with a sheet.
fn filed() -> Bench {
    let lines = [
        "CRD .R",
        "WRS M .R:ZERO",
        "CRD .R:BOARDS",
        "WRS M .R:BOARDS:LIMITS",
        "CRD .R:BOARDS:OLD .4",
        "WRS L.P1 .R:AUDIT",
        "WRS M.S .R:BOARDS:OLD:KEYS",
    ];
    Bench::grown(64, &lines)
}

/// Directories one in the other, so many of them, each with the one name D; the first is `.R`.
fn nest(directories: usize) -> Bench {
    let mut bench = Bench::new(64);
    for deep in 0..directories {
        bench.grant(&format!("CRD .R{}", ":D".repeat(deep)), b"");
    }
    bench
}

/// A directory `.R` with so many entries that name it: N10, N11 and on.
fn loops(entries: usize) -> Bench {
    let mut bench = Bench::grown(entries + 8, &["CRD .R"]);
    for entry in 0..entries {
        bench.grant(&format!("DUP .R .R:N{}", 10 + entry), b"");
    }
    bench
}

/// The tree of a chain, put together from LST of it and of every directory under it. A directory that LST refuses, by 13, has
/// its own line only.
fn by_listings(bench: &Bench, chain: &str, depth: u32) -> String {
    let listing = String::from_utf8(bench.reply(&format!("LST {chain}"))).expect("ASCII");
    let mut lines = String::new();
    for line in listing.split_inclusive("\r\n") {
        lines += line;
        let name = line[9..].trim_end();
        let under = match chain {
            "." => name.to_string(),
            _ => format!("{chain}:{name}"),
        };
        let number = bench.ask(format!("LST {under}"), b"").answer.number;
        let fit: &[u32] = match line.starts_with('D') {
            true => &[0, 13],
            false => &[13, 15],
        };
        assert!(fit.contains(&number), "{under}: {number}");
        if depth > 1 && number == 0 {
            for line in by_listings(bench, &under, depth - 1).split_inclusive("\r\n") {
                lines += &format!("  {line}");
            }
        }
    }
    lines
}

/// A tree as it is written.
fn tree(bench: &Bench, chain: &str, depth: u32) -> String {
    String::from_utf8(bench.reply(&format!("LST* {chain} {depth}"))).expect("ASCII")
}

// "`LST*` name digit lists a directory and, under each entry that is a readable directory, its entries, down to the digit's
// depth, 1 to 8."

#[test]
fn a_directory_and_what_stands_under_it() {
    let bench = filed();
    let one = shown(&["FL.P1    AUDIT", "DM.U0    BOARDS", "FM.U0    ZERO"]);
    let two = shown(&[
        "FL.P1    AUDIT",
        "DM.U0    BOARDS",
        "  FM.U0    LIMITS",
        "  DM.U4    OLD",
        "FM.U0    ZERO",
    ]);
    let three = shown(&[
        "FL.P1    AUDIT",
        "DM.U0    BOARDS",
        "  FM.U0    LIMITS",
        "  DM.U4    OLD",
        "    FM.S0    KEYS",
        "FM.U0    ZERO",
    ]);
    assert_eq!(bench.reply("LST* .R 1"), one);
    assert_eq!(bench.reply("LST* .R 2"), two);
    for depth in 3..=8 {
        assert_eq!(bench.reply(&format!("LST* .R {depth}")), three);
    }
    let boards = shown(&["FM.U0    LIMITS", "DM.U4    OLD", "  FM.S0    KEYS"]);
    assert_eq!(bench.reply("LST* .R:BOARDS 2"), boards);
    assert_eq!(bench.reply(" LST*  .R : BOARDS   2 "), boards);
}

#[test]
fn down_to_the_digits_depth() {
    let bench = nest(11);
    for depth in 1..=8u32 {
        let lines: Vec<String> = (0..depth)
            .map(|below| format!("{}DM.U0    D", "  ".repeat(below as usize)))
            .collect();
        let lines: Vec<&str> = lines.iter().map(String::as_str).collect();
        assert_eq!(tree(&bench, ".R", depth).into_bytes(), shown(&lines));
        // from further down, as many levels as there are
        let chain = format!(".R{}", ":D".repeat(5));
        let left = depth.min(5) as usize;
        assert_eq!(
            tree(&bench, &chain, depth).into_bytes(),
            shown(&lines[..left])
        );
    }
}

#[test]
fn each_directory_is_in_order_by_itself() {
    let lines = [
        "CRD .R",
        "CRD .R:B",
        "WRS M .R:B:A",
        "WRS M .R:A",
        "CRD .R:AB",
        "WRS M .R:AB:Z",
        "WRS M .R:B:.W",
    ];
    let bench = Bench::grown(64, &lines);
    let expected = shown(&[
        "FM.U0    A",
        "DM.U0    AB",
        "  FM.U0    Z",
        "DM.U0    B",
        "  FM.U0    .W",
        "  FM.U0    A",
    ]);
    assert_eq!(bench.reply("LST* .R 2"), expected);
}

#[test]
fn an_empty_directory_has_no_lines() {
    let mut bench = Bench::grown(16, &["CRD .R"]);
    for depth in 1..=8 {
        assert_eq!(bench.reply(&format!("LST* .R {depth}")), b"");
    }
    bench.grant("CRD .R:D .5", b"");
    for depth in 1..=8 {
        let line = format!("LST* .R {depth}");
        assert_eq!(bench.reply(&line), shown(&["DM.U5    D"]));
        assert_eq!(bench.reply(&format!("LST* .R:D {depth}")), b"");
    }
    // no bytes need no buffer
    bench.room = 0;
    assert_eq!(bench.reply("LST* .R:D 8"), b"");
}

// "A sub-line has two blanks more in front for each level."

#[test]
fn two_blanks_more_for_each_level() {
    let bench = nest(9);
    let seen = tree(&bench, ".R", 8);
    for (level, line) in seen.lines().enumerate() {
        assert_eq!(line.len(), 2 * level + 10);
        assert_eq!(line.trim_start(), "DM.U0    D");
    }
    assert_eq!(seen.lines().count(), 8);
}

// "An entry's line and a directory's lines call on each other, the depth falling, so loops end."

#[test]
fn a_directory_that_names_itself() {
    let bench = loops(1);
    let three = ["DM.U0    N10", "  DM.U0    N10", "    DM.U0    N10"];
    assert_eq!(bench.reply("LST* .R 3"), shown(&three));
    // by a longer way to it
    assert_eq!(bench.reply("LST* .R:N10:N10 3"), shown(&three));
    // two entries: 2, 6, 14 lines and on
    let bench = loops(2);
    for depth in 1..=8u32 {
        let lines = tree(&bench, ".R", depth).lines().count();
        assert_eq!(lines, (1 << (depth + 1)) - 2);
    }
}

#[test]
fn a_loop_of_two_directories() {
    let bench = Bench::grown(
        64,
        &[
            "CRD .R",
            "CRD .W",
            "DUP .W .R:TOW",
            "DUP .R .W:TOR",
            "WRS M .W:A",
        ],
    );
    let from_r = [
        "DM.U0    TOW",
        "  FM.U0    A",
        "  DM.U0    TOR",
        "    DM.U0    TOW",
        "      FM.U0    A",
        "      DM.U0    TOR",
    ];
    assert_eq!(bench.reply("LST* .R 4"), shown(&from_r));
    let from_w = [
        "FM.U0    A",
        "DM.U0    TOR",
        "  DM.U0    TOW",
        "    FM.U0    A",
        "    DM.U0    TOR",
    ];
    assert_eq!(bench.reply("LST* .W 3"), shown(&from_w));
}

#[test]
fn a_shared_directory_stands_under_each_of_its_entries() {
    let mut bench = filed();
    bench.grant("DUP .R:BOARDS:OLD .R:SHARED .1", b"");
    let expected = shown(&[
        "FL.P1    AUDIT",
        "DM.U0    BOARDS",
        "  FM.U0    LIMITS",
        "  DM.U4    OLD",
        "    FM.S0    KEYS",
        "DM.U5    SHARED",
        "  FM.S0    KEYS",
        "FM.U0    ZERO",
    ]);
    assert_eq!(bench.reply("LST* .R 3"), expected);
}

// "Read-inhibited directories show their own line only."

#[test]
fn read_inhibited_by_the_heading() {
    for code in 0..8 {
        let mut bench = filed();
        bench.grant(&format!("DPR .R:BOARDS .{code}"), b"");
        let lines = tree(&bench, ".R", 2);
        // the entry's own code stays 0
        let open = "DM.U0    BOARDS\r\n  FM.U0    LIMITS\r\n";
        let closed = "DM.U0    BOARDS\r\nFM.U0    ZERO\r\n";
        let inhibited = code & 2 != 0;
        assert_eq!(
            (lines.contains(open), lines.contains(closed)),
            (!inhibited, inhibited)
        );
    }
}

#[test]
fn read_inhibited_by_the_entry() {
    for code in 0..8 {
        let mut bench = filed();
        bench.grant(&format!("DUP .R:BOARDS .R:C .{code}"), b"");
        let lines = tree(&bench, ".R", 2);
        let open = format!("DM.U{code}    C\r\n  FM.U0    LIMITS\r\n");
        let closed = format!("DM.U{code}    C\r\nFM.U0    ZERO\r\n");
        let inhibited = code & 2 != 0;
        assert_eq!(
            (lines.contains(&open), lines.contains(&closed)),
            (!inhibited, inhibited)
        );
        // by its other entry it is open in the same listing
        assert!(lines.contains("DM.U0    BOARDS\r\n  FM.U0    LIMITS\r\n"));
    }
}

#[test]
fn codes_further_up_do_not_matter() {
    // .R is write- and execute-inhibited, BOARDS execute-inhibited: OLD is opened
    let mut bench = filed();
    bench.grant("DPR .R:BOARDS .4", b"");
    bench.grant("DPR .R .5", b"");
    assert!(tree(&bench, ".R", 3).contains("    FM.S0    KEYS\r\n"));
    // a read-inhibited directory hides what stands under it there, and not where another entry names that
    let mut bench = filed();
    bench.grant("DUP .R:BOARDS:OLD .R:SHARED", b"");
    bench.grant("DPR .R:BOARDS .2", b"");
    let expected = shown(&[
        "FL.P1    AUDIT",
        "DM.U0    BOARDS",
        "DM.U4    SHARED",
        "  FM.S0    KEYS",
        "FM.U0    ZERO",
    ]);
    assert_eq!(bench.reply("LST* .R 8"), expected);
    // a read-inhibited sheet shows its line as any
    bench.grant("DPR .R:ZERO .7", b"");
    assert_eq!(bench.reply("LST* .R 8"), expected);
}

#[test]
fn a_loop_through_a_read_inhibited_entry_ends_there() {
    let bench = Bench::grown(16, &["CRD .R", "DUP .R .R:A .2", "DUP .R .R:B .5"]);
    let expected = shown(&[
        "DM.U2    A",
        "DM.U5    B",
        "  DM.U2    A",
        "  DM.U5    B",
        "    DM.U2    A",
        "    DM.U5    B",
    ]);
    assert_eq!(bench.reply("LST* .R 3"), expected);
    bench.refuse_at("LST* .R:A 3", 13, 1, 2);
}

// "Depth 1 equals LST, a lone point and request g's `.nnnnnn` included, and the deeper ones take the same names."

/// Two users with their shelves, loops and shared directories among them.
fn shelves() -> Bench {
    let mut bench = filed();
    for line in [
        "CRD .W",
        "WRS M .W:A",
        "DUP .R .W:BACK",
        "DUP .W .R:W",
        "DUP .W .R:.W",
        "DUP .R:ZERO .TOP .2",
    ] {
        bench.grant(line, TEXT);
    }
    bench.user = NIGHT;
    for line in [
        "CRD .T",
        "WRS M .T:KEYS",
        "CRD .T:SUB",
        "DUP .T .T:SUB:LOOP",
        "DUP .T:SUB .T:HID .2",
    ] {
        bench.grant(line, TEXT);
    }
    bench.user = 1;
    bench
}

/// Names of every kind, many of them refused.
const NAMES: [&str; 28] = [
    ".",
    ".R",
    ".W",
    "A",
    "BACK",
    "BACK:BOARDS",
    ".R:BOARDS",
    ".R:BOARDS:OLD",
    ".R:W",
    ".R:.W:BACK",
    ".TOP",
    ".R:ZERO",
    ".R:ZERO:A",
    ".R:X",
    ".R:X:Y",
    ".G",
    ".GONE:A",
    ".000777",
    ".000777:SUB",
    ".000777:SUB:LOOP",
    ".000777:HID",
    ".000777:HID:A",
    ".000777:KEYS",
    ".000001",
    ".00077",
    "-",
    ".R::A",
    ".1",
];

#[test]
fn depth_1_equals_lst() {
    let mut bench = shelves();
    for user in [1, NIGHT, 2, 1_000_000] {
        bench.user = user;
        for name in NAMES {
            bench.room = 24_000;
            let most = bench.ask(format!("LST {name}"), b"").answer.bytes;
            for room in [24_000, most, most.saturating_sub(1), 0] {
                bench.room = room;
                let lst = bench.ask(format!("LST {name}"), b"");
                let one = bench.ask(format!("LST* {name} 1"), b"");
                assert_eq!(one.answer, lst.answer, "{name}");
                assert_eq!(one.reply, lst.reply, "{name}");
                assert!(one.table == bench.table && lst.table == bench.table);
            }
        }
    }
}

#[test]
fn the_deeper_ones_take_the_same_names() {
    let mut bench = shelves();
    for user in [1, NIGHT, 2] {
        bench.user = user;
        for name in NAMES {
            let lst = bench.ask(format!("LST {name}"), b"").answer;
            for depth in 1..=8 {
                let line = format!("LST* {name} {depth}");
                if lst.number == 0 {
                    let expected = by_listings(&bench, name, depth);
                    assert_eq!(tree(&bench, name, depth), expected, "{line}");
                } else {
                    bench.refuse_at(&line, lst.number, lst.argument, lst.link);
                }
            }
        }
    }
}

#[test]
fn of_a_lone_point_the_base_file_w_is_left_out_at_the_top_only() {
    let bench = shelves();
    let expected = shown(&[
        "DM.U0    .R",
        "  DM.U0    .W",
        "  FL.P1    AUDIT",
        "  DM.U0    BOARDS",
        "  DM.U0    W",
        "  FM.U0    ZERO",
        "FM.U2    .TOP",
    ]);
    assert_eq!(bench.reply("LST* . 2"), expected);
    let three = tree(&bench, ".", 3);
    assert!(three
        .contains("  DM.U0    .W\r\n    FM.U0    A\r\n    DM.U0    BACK\r\n  FL.P1    AUDIT\r\n"));
    // a user without files
    let mut bench = bench;
    bench.user = 2;
    assert_eq!(bench.reply("LST* . 8"), b"");
}

#[test]
fn of_a_user_number_the_shelf_is_listed() {
    let bench = shelves();
    let expected = shown(&[
        "DM.U2    HID",
        "FM.U0    KEYS",
        "DM.U0    SUB",
        "  DM.U0    LOOP",
        "    DM.U2    HID",
        "    FM.U0    KEYS",
        "    DM.U0    SUB",
    ]);
    assert_eq!(bench.reply("LST* .000777 3"), expected);
    let sub = shown(&[
        "DM.U0    LOOP",
        "  DM.U2    HID",
        "  FM.U0    KEYS",
        "  DM.U0    SUB",
    ]);
    assert_eq!(bench.reply("LST* .000777:SUB 2"), sub);
    bench.refuse_at("LST* .000777:HID 2", 13, 1, 2);
    bench.refuse_at("LST* .000777:KEYS 2", 15, 1, 2);
    bench.refuse_at("LST* .000777:KEYS:A 2", 12, 1, 2);
    bench.refuse_at("LST* .000777:X 2", 11, 1, 2);
    bench.refuse_at("LST* .000778 2", 11, 1, 1);
    bench.refuse_at("LST* .00777 2", 8, 1, 1);
    bench.refuse_at("LST* .0007777 2", 8, 1, 1);
}

/// Random loops, shared directories and codes: every tree, put together from LST.
#[test]
fn trees_of_random_tables() {
    let mut dice = Dice(1971);
    let names = ["A", "B", "AB", "B.", ".W", "LONGNAME10"];
    let chains = [".R", ".W", ".R:A", ".W:B", ".R:A:B", ".W:AB"];
    for _ in 0..30 {
        let mut bench = Bench::grown(40, &["CRD .R", "CRD .W"]);
        for _ in 0..24 {
            let (old, place, name) = (dice.pick(&chains), dice.pick(&chains), dice.pick(&names));
            let code = dice.pick(&["", "", ".1", ".2", ".4"]);
            let line = match dice.below(4) {
                0 => format!("CRD {place}:{name} {code}"),
                1 => format!("WRS M{code} {place}:{name}"),
                _ => format!("DUP {old} {place}:{name} {code}"),
            };
            // granted or not, as it comes
            bench.table = bench.ask(line, TEXT).table;
        }
        for chain in [".", ".R", ".W"] {
            for depth in 1..=4 {
                bench.room = 60_000;
                let expected = by_listings(&bench, chain, depth);
                let line = format!("LST* {chain} {depth}");
                bench.room = expected.len();
                assert_eq!(tree(&bench, chain, depth), expected, "{line}");
                // of a deeper listing the lines of fewer levels are the listing of fewer
                let shallow = |line: &&str| !line.starts_with(&"  ".repeat(depth as usize - 1));
                let fewer: String = expected.split_inclusive("\r\n").filter(shallow).collect();
                if depth > 1 {
                    assert_eq!(tree(&bench, chain, depth - 1), fewer, "{line}");
                }
                if bench.room > 0 {
                    bench.room -= 1;
                    bench.refuse_at(&line, 20, 0, 0);
                }
            }
        }
    }
}

// "The needed length is judged before anything is written."

#[test]
fn a_buffer_exactly_long_enough_and_one_byte_less() {
    let mut bench = filed();
    for (line, needed) in [
        ("LST* .R 1", 16 + 17 + 15),
        ("LST* .R 2", 16 + 17 + 19 + 16 + 15),
        ("LST* .R 3", 16 + 17 + 19 + 16 + 19 + 15),
        ("LST* .R 8", 16 + 17 + 19 + 16 + 19 + 15),
        ("LST* . 1", 13),
        ("LST* .R:BOARDS:OLD 1", 15),
    ] {
        bench.room = needed;
        assert_eq!(bench.reply(line).len(), needed, "{line}");
        bench.room = needed + 1;
        assert_eq!(bench.reply(line).len(), needed, "{line}");
        for room in 0..needed {
            bench.room = room;
            bench.refuse_at(line, 20, 0, 0);
        }
    }
}

#[test]
fn a_full_directory_of_loops_is_judged_at_once() {
    // 112 + 112 * 112 + .. lines: more than 10 to the sixteenth at depth 8
    let mut bench = loops(112);
    for depth in 2..=8 {
        bench.refuse_at(&format!("LST* .R {depth}"), 20, 0, 0);
    }
    // N10 to N121: 14 bytes each, 22 of them with one more
    bench.room = 112 * 14 + 22;
    assert_eq!(bench.reply("LST* .R 1").len(), bench.room);
    assert_eq!(tree(&bench, ".R", 1).lines().last(), Some("DM.U0    N99"));
    // the second level: 16 and 17 bytes, under each of the first
    bench.room = (112 * 14 + 22) + 112 * (112 * 16 + 22);
    let two = tree(&bench, ".R", 2);
    assert_eq!((two.len(), two.lines().count()), (bench.room, 112 * 113));
    bench.room -= 1;
    bench.refuse_at("LST* .R 2", 20, 0, 0);
}

// "Refusals: 9 for another digit, 20 for a short buffer."

/// What a line reads as: the depth, or number, argument and link.
fn depth(line: &str) -> Result<u8, (u32, u32, u32)> {
    match read(line.as_bytes(), 0) {
        Ok(Request::Tree { depth, .. }) => Ok(depth),
        Ok(request) => panic!("{line}: {request:?}"),
        Err(Refusal { number, place }) => Err((number, place.argument, place.link)),
    }
}

#[test]
fn number_9_for_another_digit() {
    let bench = filed();
    for digit in 1..=8 {
        assert_eq!(depth(&format!("LST* .R {digit}")), Ok(digit));
        assert_eq!(depth(&format!("LST* . {digit}")), Ok(digit));
    }
    for word in [
        "0", "9", "10", "11", "01", "88", "-", "-1", ".1", ".", "1.", "A", "M", "@", "1:2", "1:",
        "*", "_",
    ] {
        for name in [".R", ".", "A", ".R:X", ".000777", ".G"] {
            bench.refuse_at(&format!("LST* {name} {word}"), 9, 2, 0);
        }
    }
    // a colon joins it to what stands beside it
    bench.refuse_at("LST* .R 1 :2", 9, 2, 0);
    bench.refuse_at("LST* .R 1 : 2", 9, 2, 0);
    bench.refuse_at("LST* .R :1", 6, 0, 0);
}

#[test]
fn number_6_for_another_count() {
    let bench = filed();
    for line in [
        "LST*",
        "LST* .R",
        "LST* 1",
        "LST* .",
        "LST* .R 1 1",
        "LST* .R 1 -",
        "LST* .R .R 1",
        "LST* . 9 9",
        "LST* @ @ @",
    ] {
        bench.refuse_at(line, 6, 0, 0);
    }
    // LST has no digit
    bench.refuse_at("LST .R 1", 6, 0, 0);
    bench.refuse_at("LST * .R 1", 6, 0, 0);
}

#[test]
fn it_is_one_word() {
    let bench = filed();
    for line in [
        "LST*.R 1",
        "LST** .R 1",
        "*LST .R 1",
        "LS* .R 1",
        "LST*:A .R 1",
        "LST* : .R 1",
        "RDS* .R 1",
        "LST*1 .R",
    ] {
        bench.refuse_at(line, 5, 0, 0);
    }
    bench.refuse_at("lst* .R 1", 4, 0, 0);
    let name = Chain {
        before: vec![b".W"],
        last: b"A",
    };
    let listed = Listed::Directory(name);
    assert_eq!(read(b"LST* A 8", 0), Ok(Request::Tree { listed, depth: 8 }));
    let listed = Listed::BaseList;
    assert_eq!(read(b"LST* . 1", 0), Ok(Request::Tree { listed, depth: 1 }));
}

#[test]
fn number_7_before_8_before_9_before_the_walk() {
    let bench = filed();
    bench.refuse_at("LST* .R::A 9", 7, 1, 2);
    bench.refuse_at("LST* .1:@ 9", 7, 1, 2);
    bench.refuse_at("LST* A:@ 9", 7, 1, 3);
    bench.refuse_at("LST* - 9", 7, 1, 0);
    bench.refuse_at(&format!("LST* .R{} 9", ":A".repeat(16)), 7, 1, 0);
    bench.refuse_at("LST* .1 9", 8, 1, 1);
    bench.refuse_at("LST* .:A 9", 8, 1, 1);
    bench.refuse_at("LST* .R:X 9", 9, 2, 0);
    // 4, 5, 6 before 7
    bench.refuse_at("LST* .R::A", 6, 0, 0);
}

#[test]
fn numbers_11_12_13_15_with_their_links() {
    let mut bench = filed();
    bench.refuse_at("LST* .G 2", 11, 1, 1);
    bench.refuse_at("LST* A 2", 11, 1, 1);
    bench.refuse_at("LST* .R:X 2", 11, 1, 2);
    bench.refuse_at("LST* .R:BOARDS:X:Y 2", 11, 1, 3);
    bench.refuse_at("LST* .R:ZERO:A 2", 12, 1, 2);
    bench.refuse_at("LST* .R:BOARDS:LIMITS:A:B 2", 12, 1, 3);
    bench.refuse_at("LST* .R:ZERO 2", 15, 1, 2);
    bench.refuse_at("LST* .R:BOARDS:OLD:KEYS 8", 15, 1, 4);
    bench.grant("DPR .R:BOARDS:OLD .6", b"");
    // at the end, and on the way
    bench.refuse_at("LST* .R:BOARDS:OLD 2", 13, 1, 3);
    bench.refuse_at("LST* .R:BOARDS:OLD:KEYS 2", 13, 1, 3);
    bench.grant("DUP .R:BOARDS .R:HID .2", b"");
    bench.refuse_at("LST* .R:HID 1", 13, 1, 2);
    bench.refuse_at("LST* .R:HID:OLD 1", 13, 1, 2);
    // 13 before 15: a read-inhibited sheet
    bench.grant("DPR .R:ZERO .2", b"");
    bench.refuse_at("LST* .R:ZERO 2", 13, 1, 2);
    // all of them before 20
    bench.room = 0;
    bench.refuse_at("LST* .R:X 2", 11, 1, 2);
    bench.refuse_at("LST* .R:AUDIT:A 2", 12, 1, 2);
    bench.refuse_at("LST* .R:HID 2", 13, 1, 2);
    bench.refuse_at("LST* .R:AUDIT 2", 15, 1, 2);
    bench.refuse_at("LST* .R 2", 20, 0, 0);
}

#[test]
fn it_stores_nothing_whatever_the_stop_number() {
    let bench = filed();
    let lines = bench.reply("LST* .R 3");
    for stop in [0, 1, u32::MAX] {
        assert_eq!(bench.stop(stop).reply("LST* .R 3"), lines);
    }
    // the text is not looked at
    let long = vec![b'X'; 24_001];
    assert_eq!(bench.ask("LST* .R 3", &long).answer.number, 0);
}
