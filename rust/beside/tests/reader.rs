//! Reading a line: what is made of it.

mod common;
use common::*;

use std::collections::HashMap;

use beside::{
    read, takes_text, words, Chain, Declared, DeclaredLifetime, Guard, Level, Lifetime, Listed,
    Portion, Request, Type,
};

fn chain(text: &str) -> Chain<'_> {
    let mut before: Vec<&[u8]> = text.split(':').map(str::as_bytes).collect();
    let last = before.pop().unwrap();
    Chain { before, last }
}

fn guard(level: Option<Level>, digit: Option<u8>) -> Guard {
    Guard { level, digit }
}

/// The request that is made of a line.
fn request(line: &str) -> Request<'_> {
    read(line.as_bytes(), 0).unwrap()
}

#[test]
fn requests_for_new_files_as_they_are_read() {
    let crd = Request::Crd {
        name: chain(".R:A"),
        guard: guard(Some(Level::S), None),
    };
    assert_eq!(request("CRD .R : A .S"), crd);
    let wrs = Request::Wrs {
        lifetime: Lifetime::L,
        guard: guard(None, Some(7)),
        name: chain(".W:A:B"),
    };
    assert_eq!(request("WRS L.7 A:B"), wrs);
    let cpy = Request::Cpy {
        old: chain(".R:A"),
        new: chain(".W:X"),
        lifetime: None,
        guard: guard(None, None),
    };
    assert_eq!(request("CPY .R:A X -"), cpy);
}

#[test]
fn requests_for_old_files_as_they_are_read() {
    let name = chain(".R:A");
    let old = name.clone();
    let new = chain(".G");
    let digit = Some(3);
    assert_eq!(request("DUP .R:A .G .3"), Request::Dup { old, new, digit });
    let old = name.clone();
    assert_eq!(request("CHN .R:A .X"), Request::Chn { old, link: b".X" });
    let names = vec![name.clone(), chain(".W:B"), chain(".R")];
    let same = names.clone();
    assert_eq!(request("DEL .R:A B .R"), Request::Del { names });
    assert_eq!(request("DST .R:A B .R"), Request::Dst { names: same });
    let dpr = Request::Dpr { name, digit: 0 };
    assert_eq!(request("DPR .R:A .0"), dpr);
    let name = chain(".R:A");
    let portion = Portion::default();
    assert_eq!(request("RDS .R:A"), Request::Rds { name, portion });
    let listed = Listed::Directory(chain(".R:A"));
    assert_eq!(request("LST .R:A"), Request::Lst { listed });
    let listed = Listed::BaseList;
    assert_eq!(request("LST ."), Request::Lst { listed });
}

#[test]
fn a_name_is_that_stretch_of_the_lent_line_itself() {
    let line = b"  CRD   AB : CD :E ";
    let Ok(Request::Crd { name, .. }) = read(line, 0) else {
        panic!("not read");
    };
    let start = line.as_ptr() as usize;
    let names: Vec<(&[u8], usize)> = name
        .names()
        .map(|name| (name, (name.as_ptr() as usize).wrapping_sub(start)))
        .collect();
    assert_eq!(names[0].0, b".W");
    let expected: [(&[u8], usize); 3] = [(b"AB", 8), (b"CD", 13), (b"E", 17)];
    assert_eq!(names[1..], expected);
}

/// Every declaration there is, with what it gives: the dash, and the parts in order, with the point or without.
fn declarations() -> HashMap<String, Declared> {
    use DeclaredLifetime::{L, M, S};
    let types = [None, Some(Type::Directory), Some(Type::Simple)];
    let lifetimes = [None, Some(S), Some(M), Some(L)];
    let mut all = HashMap::from([("-".to_string(), Declared::default())]);
    for (t, file_type) in ["", "D", "F"].iter().zip(types) {
        for (l, lifetime) in ["", "S", "M", "L"].iter().zip(lifetimes) {
            let declared = Declared {
                file_type,
                lifetime,
                ..Declared::default()
            };
            all.insert(format!("{t}{l}"), declared);
            with_point(&mut all, &format!("{t}{l}."), declared);
        }
    }
    all.remove("");
    all
}

/// Every level and digit, given or not, after a beginning.
fn with_point(all: &mut HashMap<String, Declared>, beginning: &str, mut declared: Declared) {
    use Level::{A, P, S, U};
    let levels = [None, Some(U), Some(P), Some(A), Some(S)];
    for (v, level) in ["", "U", "P", "A", "S"].iter().zip(levels) {
        declared.level = level;
        declared.digit = None;
        all.insert(format!("{beginning}{v}"), declared);
        for digit in 0..8 {
            declared.digit = Some(digit);
            all.insert(format!("{beginning}{v}{digit}"), declared);
        }
    }
}

#[test]
fn every_word_up_to_five_characters_is_a_declaration_or_not() {
    let all = declarations();
    assert_eq!(all.len(), 1 + 11 + 12 * 5 * 9);
    let mut words_of_this_length = vec![String::new()];
    let mut met = 0;
    for _ in 1..=5 {
        let longer = |word: &String| {
            "DFSMLUPA.07189-X"
                .chars()
                .map(|c| format!("{word}{c}"))
                .collect::<Vec<_>>()
        };
        words_of_this_length = words_of_this_length.iter().flat_map(longer).collect();
        for word in &words_of_this_length {
            let read = Declared::read(&words(word.as_bytes())[0]);
            assert_eq!(read, all.get(word).copied(), "{word}");
            met += u32::from(read.is_some());
        }
    }
    assert_eq!(met, 1 + 11 + 12 * 5 * 4);
}

/// What each function that takes a declaration asks of it, and where the declaration stands: "CRD and CPY and WRS refuse a
/// type. CRD refuses a lifetime; WRS needs one, M or L; CPY may have M or L ... DUP allows a digit only. DPR needs a digit and
/// allows nothing else." Of WRS*: "the declaration may be only M".
fn asked_with(word: &str, d: Declared) -> [(String, bool, u32); 6] {
    let typeless = d.file_type.is_none();
    let medium_or_long = matches!(d.lifetime, Some(DeclaredLifetime::M | DeclaredLifetime::L));
    let crd = typeless && d.lifetime.is_none();
    let dup = crd && d.level.is_none();
    let only_medium = Declared {
        lifetime: Some(DeclaredLifetime::M),
        ..Declared::default()
    };
    [
        (format!("WRS* {word} .R:A"), d == only_medium, 1),
        (format!("CRD .G {word}"), crd, 2),
        (format!("WRS {word} .G"), typeless && medium_or_long, 1),
        (
            format!("CPY .R:A .G {word}"),
            crd || typeless && medium_or_long,
            3,
        ),
        (format!("DUP .R:A .G {word}"), dup, 3),
        (format!("DPR .R:A {word}"), dup && d.digit.is_some(), 2),
    ]
}

#[test]
fn every_declaration_in_every_function_that_takes_one() {
    let bench = Bench::grown(16, &["CRD .R", "WRS M .R:A"]);
    let mut granted = 0;
    for (word, declared) in declarations() {
        for (line, fits, place) in asked_with(&word, declared) {
            match fits {
                true => assert_eq!(bench.ask(&line, TEXT).answer.number, 0, "{line}"),
                false => bench.refuse(&line, TEXT, 9, place),
            }
            granted += u32::from(fits);
        }
    }
    // with no type: no lifetime, M or L; then a level, a digit, both or neither, after a point, or nothing at all; WRS* has M and M.
    assert_eq!(granted, 46 + 92 + 138 + 10 + 8 + 2);
    for word in ["MF", "1", ".8", "DD", "UM", "M1", "M.1U", "MM", ".PP", "--"] {
        for (line, _, place) in asked_with(word, Declared::default()) {
            bench.refuse(&line, TEXT, 9, place);
        }
    }
}

/// Document 01 once more, with the blanks beside colons taken out first and the rest split at blanks.
fn words_by_taking_blanks_out(line: &[u8]) -> Vec<Vec<u8>> {
    let mut text: String = line.iter().map(|byte| char::from(*byte)).collect();
    while text.contains(" :") || text.contains(": ") {
        text = text.replace(" :", ":").replace(": ", ":");
    }
    let words = text.split(' ').filter(|word| !word.is_empty());
    words
        .map(|word| word.chars().map(|c| c as u8).collect())
        .collect()
}

#[test]
fn words_are_the_same_when_the_blanks_are_taken_out_first() {
    let mut dice = Dice(1);
    let mut colons = 0;
    for _ in 0..20_000 {
        let length = dice.below(14);
        let line: Vec<u8> = (0..length)
            .map(|_| *dice.pick(&[b" ", b":", b"A", b".", b" "]).first().unwrap())
            .collect();
        let cut: Vec<Vec<u8>> = words(&line)
            .iter()
            .map(|word| [word.before.clone(), vec![word.last]].concat().join(&b':'))
            .collect();
        assert_eq!(cut, words_by_taking_blanks_out(&line), "{line:?}");
        colons += line.iter().filter(|byte| **byte == b':').count();
    }
    assert!(colons > 10_000);
}

#[test]
fn a_line_takes_a_text_when_its_first_word_is_wrs_with_or_without_an_asterisk() {
    for line in [
        "WRS",
        "WRS*",
        " WRS* ",
        "WRS* M .R:A",
        "WRS* wrong",
        "WRS *",
        " WRS ",
        "WRS M .R:A",
        "WRS A B C D",
        "WRS wrong",
        "  WRS  .",
    ] {
        assert!(takes_text(line.as_bytes()), "{line}");
    }
    for line in [
        "",
        "WRSM .R:A",
        "WRS*M .R:A",
        "WRS** M .R:A",
        "WRS*:A",
        "WRS* :A",
        "WRS:*",
        "*WRS",
        "LST* . 1",
        "WRS:A",
        "WRS :A",
        ": WRS",
        "CRD WRS",
        "wrs M A",
        "WRS\tM A",
    ] {
        assert!(!takes_text(line.as_bytes()), "{line}");
    }
    let long = [b"WRS ".as_slice(), &[b'A'; 1_000]].concat();
    assert!(takes_text(&long));
}

/// Document 02, g: the reader hands `.nnnnnn` out as it stands in the line; what it stands for is the walk's.
#[test]
fn a_users_number_is_read_as_it_stands() {
    let give = Request::Dup {
        old: chain(".000002:A"),
        new: chain(".000777:B"),
        digit: Some(1),
    };
    assert_eq!(read(b"DUP .000002:A .000777 : B .1", 0), Ok(give));
    let name = chain(".000777");
    assert_eq!(name.user(), Some(777));
    let portion = Portion::default();
    assert_eq!(read(b"RDS .000777", 0), Ok(Request::Rds { name, portion }));
    for own in [".R", ".W:000777", ".R:.000777", ".00777", ".0000777"] {
        assert_eq!(chain(own).user(), None, "{own}");
    }
}
