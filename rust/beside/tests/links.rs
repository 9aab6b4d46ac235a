//! Document 02, b, "Say which link is wrong": its sentences in their order, and each reading of them. Argument and link are
//! written by hand; `refuse_at` is line, number, argument, link.

mod common;
use common::*;

use beside::{words, Chain};

/// A directory `.R` with a simple file A, a directory D and a file D:F; a directory `.W` with a directory E and a file B.
fn filled() -> Bench {
    let lines = [
        "CRD .R",
        "WRS M .R:A",
        "CRD .R:D",
        "WRS M .R:D:F",
        "CRD .W",
        "CRD E",
        "WRS M B",
    ];
    Bench::grown(64, &lines)
}

/// So many names A joined by colons, after a first one.
fn chain(first: &str, more: usize) -> String {
    format!("{first}{}", ":A".repeat(more))
}

// ""11, place 1" is no help with a chain of nine names."

#[test]
fn of_nine_names_the_one_that_is_wrong() {
    let names = [".R", "A", "B", "C", "D", "E", "F", "G", "H"];
    let mut bench = Bench::new(64);
    for length in 1..=names.len() {
        bench.grant(&format!("CRD {}", names[..length].join(":")), b"");
    }
    for wrong in 0..names.len() {
        let mut names = names;
        names[wrong] = if wrong == 0 { ".XX" } else { "X" };
        let line = format!("LST {}", names.join(":"));
        bench.refuse_at(&line, 11, 1, wrong as u32 + 1);
    }
}

// "The place becomes argument and link, the link counted from 1 with the supplied `.W` as link 1."

#[test]
fn the_supplied_w_is_link_1() {
    // There is no `.W`: it is what is not there.
    let bench = Bench::grown(64, &["CRD .R"]);
    bench.refuse_at("RDS A", 11, 1, 1);
    bench.refuse_at("RDS A:B:C", 11, 1, 1);
    bench.refuse_at("WRS M A", 11, 2, 1);
    bench.refuse_at("DUP .R A", 11, 2, 1);
    // With `.W` the first name as it is written is link 2, and as it would be with `.W` written out.
    let bench = filled();
    bench.refuse_at("RDS A", 11, 1, 2);
    bench.refuse_at("RDS .W:A", 11, 1, 2);
    bench.refuse_at("RDS E:X", 11, 1, 3);
    bench.refuse_at("RDS E:X:Y", 11, 1, 3);
    bench.refuse_at("RDS B:X", 12, 1, 2);
    bench.refuse_at("WRS M X:Y", 11, 2, 2);
    // A first name with a point has none before it.
    bench.refuse_at("RDS .R:X", 11, 1, 2);
}

// "For 7 and 8 it is the first wrong name"

/// Malformed arguments, each with the link of its first wrong name.
const WRONG: [(&str, u32); 13] = [
    ("@", 2),
    ("A:@", 3),
    ("ELEVENCHARS", 2),
    ("A::B", 3),
    ("A:B:C:@:D:@", 5),
    ("-:@", 3),
    (".@", 1),
    (".ELEVENCHAR", 1),
    (".R::A", 2),
    (".R:@:@:@", 2),
    (".R:A:ELEVENCHARS", 3),
    (".R:-:@", 3),
    (".1:@", 2),
];

#[test]
fn number_7_is_at_the_first_wrong_name() {
    let bench = filled();
    for (wrong, link) in WRONG {
        for (before, after, argument) in [
            ("CRD", "", 1),
            ("CRD", "M.P", 1),
            ("WRS M", "", 2),
            ("WRS QQ", "", 2),
            ("RDS", "", 1),
            ("LST", "", 1),
            ("CPY", ".R:B", 1),
            ("CPY .R:A", "", 2),
            ("CPY .R:A", "L", 2),
            ("DUP", ".R:B", 1),
            ("DUP .R:A", "", 2),
            ("DUP .1", ".4", 2),
            ("CHN", "B", 1),
            ("DPR", ".1", 1),
            ("DEL", "", 1),
            ("DEL .R:A .R:B .1", "@", 4),
            ("DEL A B C D E F G", "", 8),
        ] {
            let line = format!("{before} {wrong} {after}");
            bench.refuse_at(&line, 7, argument, link);
        }
    }
}

#[test]
fn a_name_of_no_characters_is_a_wrong_name() {
    let bench = filled();
    bench.refuse_at("RDS A:", 7, 1, 3);
    bench.refuse_at("RDS .R:", 7, 1, 2);
    bench.refuse_at("RDS .R:A::", 7, 1, 3);
    bench.refuse_at("CPY .R:A B:", 7, 2, 3);
    bench.refuse_at("DEL A B .R:D:", 7, 3, 3);
    // As a first name too, though no line has such an argument: the colon belongs to what stands before it.
    for (word, link) in [(":A", 2), (":", 2), ("::", 2), (":.R", 2)] {
        let words = words(word.as_bytes());
        assert_eq!(Chain::of(&words[0]).wrong_link(), Some(link), "{word}");
        bench.refuse_at(&format!("RDS {word}"), 5, 0, 0);
    }
    bench.refuse_at("CPY .R:X :A .R:B", 11, 1, 2);
}

#[test]
fn blanks_beside_a_colon_count_no_link() {
    let bench = filled();
    bench.refuse_at("RDS .R : A : @", 7, 1, 3);
    bench.refuse_at("RDS A : : B", 7, 1, 3);
    bench.refuse_at("RDS .R : D : X", 11, 1, 3);
}

#[test]
fn too_long_and_a_wrong_name_besides_is_the_wrong_name() {
    let bench = filled();
    // the third of seventeen; the sixteenth, the seventeenth and one further on
    bench.refuse_at(&format!("RDS .R:A:@{}", ":A".repeat(14)), 7, 1, 3);
    bench.refuse_at(&format!("RDS {}:@:A", chain(".R", 14)), 7, 1, 16);
    bench.refuse_at(&format!("RDS {}:@", chain(".R", 15)), 7, 1, 17);
    bench.refuse_at(&format!("RDS {}:@", chain("A", 14)), 7, 1, 17);
    bench.refuse_at(&format!("RDS {}::A:@", chain(".R", 40)), 7, 1, 42);
    bench.refuse_at(&format!("DEL .R {}:", chain("A", 99)), 7, 2, 102);
    // as many colons as a line has room for: the second name is wrong, and the last one
    bench.refuse_at(&format!("RDS A{}", ":".repeat(251)), 7, 1, 3);
    bench.refuse_at(&format!("RDS {}:", chain("A", 125)), 7, 1, 128);
}

#[test]
fn number_8_is_at_link_1() {
    let bench = filled();
    for illegal in [".1", ".1:A", ".A", ".A:B:C", ".:A", ".AB1:C:D:E", ".R.2:A"] {
        for (before, after, argument) in [
            ("CRD", "", 1),
            ("WRS M", "", 2),
            ("RDS", "", 1),
            ("LST", "", 1),
            ("CPY", ".R:B", 1),
            ("CPY .R:A", "", 2),
            ("DUP", ".R:B", 1),
            ("DUP .R:A", "", 2),
            ("CHN", "B", 1),
            ("DPR", ".1", 1),
            ("DEL .R:A", "", 2),
        ] {
            let line = format!("{before} {illegal} {after}");
            bench.refuse_at(&line, 8, argument, 1);
        }
    }
}

// "in a walk the link refused"

#[test]
fn a_walk_is_refused_at_the_link_where_11_12_or_13_came() {
    let mut bench = filled();
    bench.refuse_at("RDS .G:A:B", 11, 1, 1);
    bench.refuse_at("RDS .R:X:A:B", 11, 1, 2);
    bench.refuse_at("RDS .R:D:X", 11, 1, 3);
    bench.refuse_at("LST .R:D:X", 11, 1, 3);
    bench.refuse_at("RDS .R:A:X", 12, 1, 2);
    bench.refuse_at("RDS .R:D:F:X:Y", 12, 1, 3);
    bench.refuse_at("CPY .R:X .R:Y:Z", 11, 1, 2);
    // a new name only to its directory
    bench.refuse_at("CPY .R:A .R:Y:Z", 11, 2, 2);
    bench.refuse_at("CPY .R:A .R:D:Y:Z", 11, 2, 3);
    bench.refuse_at("DUP .R:A .R:D:F:Z", 12, 2, 3);
    bench.refuse_at("CRD .G:A", 11, 1, 1);
    bench.refuse_at("WRS M .R:A:B:C", 12, 2, 2);
    bench.refuse_at("CHN .R:X:Y Z", 11, 1, 2);
    bench.refuse_at("DPR .R:D:X .1", 11, 1, 3);
    // a base file that is a simple file
    bench.grant("WRS M .ABC", TEXT);
    bench.refuse_at("RDS .ABC:A", 12, 1, 1);
    // a directory that cannot be read, on the way
    bench.grant("DPR .R:D .2", b"");
    bench.refuse_at("RDS .R:D:F", 13, 1, 2);
    bench.refuse_at("RDS .R:D:X:Y", 13, 1, 2);
    bench.refuse_at("WRS M .R:D:X", 13, 2, 2);
    bench.grant("DPR .R .2", b"");
    bench.refuse_at("DEL .R:D:F", 13, 1, 1);
}

// "in an end check the chain's last link"

#[test]
fn number_13_at_the_end_is_at_the_last_link() {
    let mut bench = filled();
    bench.grant("DPR .R:D:F .2", b"");
    bench.grant("DPR B .2", b"");
    bench.grant("DPR E .2", b"");
    bench.refuse_at("RDS .R:D:F", 13, 1, 3);
    bench.refuse_at("CPY .R:D:F .R:G", 13, 1, 3);
    bench.refuse_at("RDS B", 13, 1, 2);
    bench.refuse_at("CPY B .R:G", 13, 1, 2);
    bench.refuse_at("LST E", 13, 1, 2);
    // on the way it is the link refused
    bench.refuse_at("LST E:X", 13, 1, 2);
    bench.grant("CRD .ABC .2", b"");
    bench.refuse_at("LST .ABC", 13, 1, 1);
}

#[test]
fn number_14_is_at_the_last_link_though_the_directory_is_inhibited() {
    let mut bench = filled();
    bench.grant("DPR .R:D .1", b"");
    bench.refuse_at("CRD .R:D:X", 14, 1, 3);
    bench.refuse_at("WRS M .R:D:X", 14, 2, 3);
    bench.refuse_at("CPY .R:A .R:D:X", 14, 2, 3);
    bench.refuse_at("DUP .R:D:F .R:D:X", 14, 2, 3);
    bench.refuse_at("CHN .R:D:F X", 14, 1, 3);
    bench.refuse_at("DEL .R:D:F", 14, 1, 3);
    // the new name, not the old one, has the link
    bench.grant("DPR .W .1", b"");
    bench.refuse_at("CPY .R:D:F X", 14, 2, 2);
    // DPR asks it of the file
    bench.refuse_at("DPR .R:D .3", 14, 1, 2);
    bench.grant("DPR .R:D:F .1", b"");
    bench.refuse_at("DPR .R:D:F .3", 14, 1, 3);
}

#[test]
fn number_15_is_at_the_last_link() {
    let bench = filled();
    bench.refuse_at("RDS .R:D", 15, 1, 2);
    bench.refuse_at("RDS .R", 15, 1, 1);
    bench.refuse_at("RDS E", 15, 1, 2);
    bench.refuse_at("CPY .R:D .R:D:F:X", 12, 2, 3);
    bench.refuse_at("CPY .R:D .R:X", 15, 1, 2);
    bench.refuse_at("LST .R:D:F", 15, 1, 3);
    bench.refuse_at("LST B", 15, 1, 2);
}

#[test]
fn number_17_is_at_the_last_link() {
    let mut bench = filled();
    bench.table.resize(400 * 32, 0);
    for at in 0..111 {
        bench.grant(&format!("DUP .R:A .R:D:N{at}"), b"");
    }
    bench.refuse_at("CRD .R:D:NEW", 17, 1, 3);
    bench.refuse_at("WRS M .R:D:NEW", 17, 2, 3);
    bench.refuse_at("CPY .R:A .R:D:NEW", 17, 2, 3);
    bench.refuse_at("DUP .R:A .R:D:NEW", 17, 2, 3);
    // a base list
    for at in 0..98 {
        let letters = [b'A' + at / 26, b'A' + at % 26];
        let name = String::from_utf8_lossy(&letters).into_owned();
        bench.grant(&format!("DUP .R:A .X{name}"), b"");
    }
    bench.refuse_at("CRD .NEW", 17, 1, 1);
    bench.refuse_at("DUP .R:A .NEW", 17, 2, 1);
}

#[test]
fn number_18_is_at_the_last_link() {
    let bench = filled();
    bench.refuse_at("DEL .R:D", 18, 1, 2);
    bench.refuse_at("DEL .R", 18, 1, 1);
    bench.refuse_at("CRD .R:D", 18, 1, 2);
    bench.refuse_at("WRS M .R:D", 18, 2, 2);
    bench.refuse_at("CPY .R:D:F .R:D", 18, 2, 2);
    bench.refuse_at("DUP .R:D:F .R", 18, 2, 1);
    let mut bench = bench;
    bench.grant("CRD E:G", b"");
    bench.refuse_at("DEL E", 18, 1, 2);
}

// "0 for a lone dash, a chain only too long, any argument that is no chain, and place 0."

#[test]
fn a_lone_dash_has_no_link() {
    let bench = filled();
    for (line, argument) in [
        ("CRD -", 1),
        ("WRS M -", 2),
        ("RDS -", 1),
        ("LST -", 1),
        ("CPY - .R:B", 1),
        ("CPY .R:A -", 2),
        ("DUP - .R:B", 1),
        ("DUP .R:A -", 2),
        ("CHN - A", 1),
        ("DPR - .1", 1),
        ("DEL .R:A -", 2),
    ] {
        bench.refuse_at(line, 7, argument, 0);
    }
    // with a colon it is a name as any
    bench.refuse_at("RDS -:A", 11, 1, 2);
    bench.refuse_at("RDS .R:-", 11, 1, 2);
}

#[test]
fn a_chain_only_too_long_has_no_link() {
    let bench = filled();
    bench.refuse_at(&format!("RDS {}", chain(".R", 16)), 7, 1, 0);
    bench.refuse_at(&format!("RDS {}", chain(".1", 16)), 7, 1, 0);
    bench.refuse_at(&format!("RDS {}", chain("A", 15)), 7, 1, 0);
    bench.refuse_at(&format!("CPY .R:A {}", chain(".R", 99)), 7, 2, 0);
    bench.refuse_at(&format!("DEL .R:A B {}", chain("A", 100)), 7, 3, 0);
    // sixteen, the supplied `.W` counted, are walked
    bench.refuse_at(&format!("RDS {}", chain(".R", 15)), 12, 1, 2);
    bench.refuse_at(&format!("RDS {}", chain("A", 14)), 11, 1, 2);
}

#[test]
fn chns_link_has_no_link() {
    let bench = filled();
    for malformed in ["@", "-", "ELEVENCHARS", "A:B", "A:@", ".R:A", "A:"] {
        bench.refuse_at(&format!("CHN .R:A {malformed}"), 7, 2, 0);
        bench.refuse_at(&format!("CHN .R {malformed}"), 7, 2, 0);
    }
    for illegal in ["A", ".1", ".A", ".", ".000777"] {
        bench.refuse_at(&format!("CHN .R {illegal}"), 8, 2, 0);
    }
    bench.refuse_at("CHN .R:A D", 16, 2, 0);
    bench.refuse_at("CHN .R:A A", 16, 2, 0);
    bench.refuse_at("CHN .R .W", 16, 2, 0);
    bench.refuse_at("CHN B E", 16, 2, 0);
    // the old name has
    bench.refuse_at("CHN @ @", 7, 1, 2);
    bench.refuse_at("CHN .1 @", 7, 2, 0);
    bench.refuse_at("CHN .1 A", 8, 1, 1);
}

#[test]
fn a_declaration_has_no_link() {
    let mut bench = filled();
    bench.refuse_at("CRD .R:X QQ", 9, 2, 0);
    bench.refuse_at("CRD .R:X A:B", 9, 2, 0);
    bench.refuse_at("WRS @ .R:X", 9, 1, 0);
    bench.refuse_at("WRS - .R:X", 9, 1, 0);
    bench.refuse_at("CPY .R:A .R:X F", 9, 3, 0);
    bench.refuse_at("DUP .R:A .R:X M", 9, 3, 0);
    bench.refuse_at("DPR .R:A M", 9, 2, 0);
    bench.grant("DPR .R:A .4", b"");
    bench.refuse_at("DPR .R:A .2", 21, 2, 0);
    bench.grant("WRS M.S .R:D:S", TEXT);
    bench.refuse_at("CPY .R:D:S .R:X .U", 25, 3, 0);
}

#[test]
fn a_number_of_rds_has_no_link() {
    let bench = filled();
    for bad in ["8", "@", "1:2", ".R:A", "1234567"] {
        bench.refuse_at(&format!("RDS .R:A {bad}"), 27, 2, 0);
        bench.refuse_at(&format!("RDS .R:A 0 {bad}"), 27, 3, 0);
    }
    bench.refuse_at("RDS .R:A - 0", 27, 3, 0);
    bench.refuse_at("RDS .R:A 777777", 28, 2, 0);
    // the name has
    bench.refuse_at("RDS .R:@ 8", 7, 1, 2);
    bench.refuse_at("RDS .R:X 777777", 11, 1, 2);
}

#[test]
fn place_0_has_no_link() {
    let mut bench = filled();
    bench.refuse_at("CRD .R:@\t", 4, 0, 0);
    bench.refuse_at("CRE .R:@", 5, 0, 0);
    bench.refuse_at("LST .R:@ A", 6, 0, 0);
    bench.refuse("WRS M .R:X", &[b'X'; 24_001], 10, 0);
    assert_eq!(bench.ask("WRS M .R:X", &[b'X'; 24_001]).answer.link, 0);
    let taken = bench.table.chunks(32).take_while(|r| r[0] != 0).count();
    let mut full = bench.clone();
    full.table.truncate(taken * 32);
    full.refuse_at("CRD .R:D:X", 19, 0, 0);
    bench.room = 1;
    bench.refuse_at("RDS .R:D:F", 20, 0, 0);
    bench.stop(0).refuse_at("WRS M .R:D:X", 22, 0, 0);
    bench.user = 1_000_000;
    bench.refuse_at("RDS .R:@", 3, 0, 0);
    bench.table[0] = 9;
    bench.refuse_at("RDS .R:@", 2, 0, 0);
    bench.table.pop();
    bench.refuse_at("RDS .R:@", 1, 0, 0);
}

#[test]
fn what_is_done_and_a_mend_have_no_link() {
    let mut bench = filled();
    assert_eq!(
        bench.grant("WRS M .R:D:X", b"").answer.numbers(),
        [0, 0, 0, 1, 0, 0, 4]
    );
    assert_eq!(
        bench.grant("DEL .R:D:X B", b"").answer.numbers(),
        [0, 0, 0, 2, 0, 0, 4 + 6]
    );
    // a heading that no entry names
    let cut = bench.stop(1).ask("CRD .R:D:X", b"");
    let mut table = cut.table.clone();
    assert_eq!(mend(&mut table, 0).numbers(), [22, 0, 0, 0, 0, 0, 0]);
    assert_eq!(mend(&mut table, 9).numbers(), [0, 0, 0, 0, 0, 0, 1]);
    assert_eq!(mend(&mut [9; 32], 9).numbers(), [2, 0, 0, 0, 0, 0, 0]);
    assert_eq!(mend(&mut [0; 33], 9).numbers(), [1, 0, 0, 0, 0, 0, 0]);
}

// DEL: each name is an argument, with links of its own

#[test]
fn a_later_name_of_a_del_has_its_own_link() {
    let bench = filled();
    // A and B take six stores each
    for (line, numbers) in [
        ("DEL .R:A .R:A", [11, 2, 2, 1, 0, 0, 6]),
        ("DEL .R:A .R:D:X", [11, 2, 3, 1, 0, 0, 6]),
        ("DEL .R:A B E:X:Y", [11, 3, 3, 2, 0, 0, 12]),
        ("DEL .R:A B B", [11, 3, 2, 2, 0, 0, 12]),
        ("DEL .R:A .R:D:F:X", [12, 2, 3, 1, 0, 0, 6]),
        ("DEL .R:A .R:D", [18, 2, 2, 1, 0, 0, 6]),
        ("DEL .R:A .R", [18, 2, 1, 1, 0, 0, 6]),
    ] {
        assert_eq!(bench.ask(line, b"").answer.numbers(), numbers, "{line}");
    }
    let mut bench = bench;
    bench.grant("DPR .R:D .1", b"");
    let seen = bench.ask("DEL .R:A .R:D:F", b"");
    assert_eq!(seen.answer.numbers(), [14, 2, 3, 1, 0, 0, 6]);
    let mut bench = filled();
    bench.grant("DPR .R:D .2", b"");
    let seen = bench.ask("DEL .R:A .R:D:F", b"");
    assert_eq!(seen.answer.numbers(), [13, 2, 2, 1, 0, 0, 6]);
    // the way is gone with the name before
    let seen = filled().ask("DEL E .R:D:F .R:D .R:D:F", b"");
    assert_eq!(seen.answer.numbers(), [11, 4, 2, 3, 0, 0, 4 + 6 + 4]);
}

// g: `.nnnnnn` "counts as that one name, link 1"

/// User 777 has no `.G`, and in `.T` a sheet KEYS and a directory D.
fn shelves() -> Bench {
    let mut bench = filled();
    bench.user = 777;
    for line in ["CRD .T", "WRS M .T:KEYS", "CRD .T:D"] {
        bench.grant(line, TEXT);
    }
    bench.user = 1;
    bench
}

#[test]
fn a_users_number_is_link_1() {
    let bench = shelves();
    bench.refuse_at("RDS .000778", 11, 1, 1);
    bench.refuse_at("RDS .000778:KEYS", 11, 1, 1);
    bench.refuse_at("DUP .R:A .000777:A", 11, 2, 1);
    bench.refuse_at("RDS .000777:X", 11, 1, 2);
    bench.refuse_at("LST .000777:D:X", 11, 1, 3);
    bench.refuse_at("DUP .000777:KEYS:X .R:X", 12, 1, 2);
    bench.refuse_at("RDS .000777", 15, 1, 1);
    bench.refuse_at("CPY .000777:D .R:X", 15, 1, 2);
    bench.refuse_at("LST .000777:KEYS", 15, 1, 2);
    bench.refuse_at("RDS .000777:@", 7, 1, 2);
    bench.refuse_at("DUP .R:A .000777:", 7, 2, 2);
    // where it may not stand
    bench.refuse_at("DUP .000777 .R:X", 8, 1, 1);
    bench.refuse_at("DUP .R:A .000777", 8, 2, 1);
    bench.refuse_at("DUP .R:A .000777:A:B", 8, 2, 1);
    bench.refuse_at("CRD .000777:A", 8, 1, 1);
    bench.refuse_at("DEL .R:A .000777:KEYS", 8, 2, 1);
}

#[test]
fn a_shelf_that_cannot_be_entered_is_link_1() {
    let mut bench = shelves();
    bench.user = 777;
    bench.grant("WRS M .G", TEXT);
    bench.grant("DPR .T .2", b"");
    bench.user = 1;
    bench.refuse_at("DUP .R:A .000777:A", 12, 2, 1);
    bench.refuse_at("RDS .000777:KEYS", 13, 1, 1);
    bench.refuse_at("LST .000777", 13, 1, 1);
}

#[test]
fn a_gives_end_checks_are_at_its_link() {
    let mut bench = shelves();
    bench.table.resize(200 * 32, 0);
    bench.user = 777;
    bench.grant("CRD .G", b"");
    bench.user = 1;
    bench.grant("DUP .R:A .000777:A", b"");
    bench.refuse_at("DUP .R:A .000777:A", 16, 2, 2);
    for at in 0..111 {
        bench.grant(&format!("DUP .R:A .000777:N{at}"), b"");
    }
    bench.refuse_at("DUP .R:A .000777:NEW", 17, 2, 2);
    bench.user = 777;
    bench.grant("DPR .G .1", b"");
    bench.user = 1;
    bench.refuse_at("DUP .R:A .000777:A", 14, 2, 2);
}
