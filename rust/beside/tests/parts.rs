//! "Read part of a sheet": RDS name first count.

mod common;
use common::*;

use beside::{read, Chain, Portion, Refusal, Request};

/// A directory `.R` with a simple file A of thirty bytes, an empty file E, and a directory D.
fn filed() -> Bench {
    let mut bench = Bench::grown(32, &["CRD .R", "WRS M .R:A", "CRD .R:D"]);
    bench.grant("WRS M .R:E", b"");
    bench
}

/// The portion that a line asks for, or the number and argument that refuse it.
fn portion(line: &str) -> Result<(Option<usize>, Option<usize>), (u32, u32)> {
    match read(line.as_bytes(), 0) {
        Ok(Request::Rds {
            portion: Portion { first, count },
            ..
        }) => Ok((first, count)),
        Ok(request) => panic!("{line}: {request:?}"),
        Err(Refusal { number, place }) => Err((number, place.argument)),
    }
}

#[test]
fn numbers_are_octal_of_one_to_six_digits() {
    for (word, number) in [
        ("0", 0),
        ("7", 7),
        ("10", 8),
        ("000010", 8),
        ("56700", 24_000),
        ("777777", 262_143),
    ] {
        assert_eq!(portion(&format!("RDS A {word}")), Ok((Some(number), None)));
        let count = portion(&format!("RDS A - {word}"));
        match number {
            0 => assert_eq!(count, Err((27, 3))),
            _ => assert_eq!(count, Ok((None, Some(number)))),
        }
    }
}

#[test]
fn a_dash_or_nothing_is_not_given() {
    for line in ["RDS A", "RDS A -", "RDS A - -", " RDS  A  -  - "] {
        assert_eq!(portion(line), Ok((None, None)), "{line}");
    }
    assert_eq!(portion("RDS A - 5"), Ok((None, Some(5))));
    assert_eq!(portion("RDS A 5 -"), Ok((Some(5), None)));
}

#[test]
fn number_27_bad_number() {
    let bad = [
        "8", "9", "18", "1234567", "0000000", "1:2", "1:", "A", ".", ".1", "-1", "--", "1-", "+1",
        "1.", "@", "M",
    ];
    for word in bad {
        assert_eq!(portion(&format!("RDS A {word}")), Err((27, 2)), "{word}");
        assert_eq!(portion(&format!("RDS A 1 {word}")), Err((27, 3)), "{word}");
        // First before count.
        assert_eq!(portion(&format!("RDS A {word} 0")), Err((27, 2)), "{word}");
    }
    // A colon joins it to the name.
    assert_eq!(portion("RDS A :8"), Ok((None, None)));
    for zero in ["0", "00", "000000"] {
        assert_eq!(portion(&format!("RDS A 0 {zero}")), Err((27, 3)));
    }
    let bench = filed();
    bench.refuse("RDS .R:A 8", b"", 27, 2);
    bench.refuse("RDS .R:A - 0", b"", 27, 3);
    // "straight after 9": before any walk, on the line with the others.
    bench.refuse("RDS .R:X 8", b"", 27, 2);
    bench.refuse("RDS .R::A 8", b"", 7, 1);
    bench.refuse("RDS .1 8", b"", 8, 1);
    bench.refuse("RDS .R:A 8 8 8", b"", 6, 0);
    bench.refuse("RDS - 8", b"", 7, 1);
}

#[test]
fn only_rds_has_numbers() {
    let bench = filed();
    bench.refuse("LST .R 0 1", b"", 6, 0);
    bench.refuse("LST . 0", b"", 6, 0);
    bench.refuse("CPY .R:A .R:B 1", b"", 9, 3);
}

#[test]
fn a_part_is_that_stretch_of_the_text() {
    let bench = filed();
    for first in 0..=30 {
        let line = format!("RDS .R:A {first:o}");
        assert_eq!(bench.reply(&line), &TEXT[first..], "{line}");
        assert_eq!(bench.reply(&format!("{line} -")), &TEXT[first..]);
        for count in 1..=33 {
            let line = format!("RDS .R:A {first:o} {count:o}");
            let end = (first + count).min(30);
            assert_eq!(bench.reply(&line), &TEXT[first..end], "{line}");
        }
    }
    assert_eq!(bench.reply("RDS .R:A - 777777"), TEXT);
    assert_eq!(bench.reply("RDS .R:A - -"), bench.reply("RDS .R:A"));
}

#[test]
fn number_28_first_beyond_the_end() {
    let bench = filed();
    // "first equal to it gives no bytes".
    assert_eq!(bench.reply("RDS .R:A 36 1"), b"");
    for first in ["37", "40", "777777", "000037"] {
        bench.refuse(format!("RDS .R:A {first}"), b"", 28, 2);
        bench.refuse(format!("RDS .R:A {first} 1"), b"", 28, 2);
    }
    // Both numbers on an empty file.
    assert_eq!(bench.reply("RDS .R:E 0 1"), b"");
    assert_eq!(bench.reply("RDS .R:E"), b"");
    bench.refuse("RDS .R:E 1 1", b"", 28, 2);
    bench.refuse("RDS .R:E 0 0", b"", 27, 3);
}

#[test]
fn number_28_after_13_15_and_20() {
    let mut bench = filed();
    bench.refuse("RDS .R:D 777777", b"", 15, 1);
    bench.refuse("RDS .R:X 777777", b"", 11, 1);
    bench.grant("DUP .R:A .R:B .2", b"");
    bench.refuse("RDS .R:B 777777", b"", 13, 1);
    // 20 goes by what would be written, which beyond the end is nothing.
    bench.room = 0;
    bench.refuse("RDS .R:A 37", b"", 28, 2);
    bench.refuse("RDS .R:A 35", b"", 20, 0);
    assert_eq!(bench.reply("RDS .R:A 36"), b"");
}

#[test]
fn a_buffer_exactly_long_enough_and_one_byte_less() {
    let mut bench = filed();
    for (line, needed) in [
        ("RDS .R:A 5 7", 7),
        ("RDS .R:A 35 10", 1),
        ("RDS .R:A - 31", 25),
        ("RDS .R:A 0 -", 30),
        ("RDS .R:A 1", 29),
    ] {
        bench.room = needed;
        assert_eq!(bench.reply(line).len(), needed, "{line}");
        bench.room = needed - 1;
        bench.refuse(line, b"", 20, 0);
    }
}

#[test]
fn the_parts_joined_in_order_are_the_text() {
    let mut bench = Bench::grown(1_024, &["CRD .R"]);
    let text: Vec<u8> = (0..24_000u32).map(|at| (at % 251) as u8).collect();
    bench.grant("WRS M .R:A", &text);
    let mut dice = Dice(1971);
    for most in [1_000, 24_000] {
        let mut joined = Vec::new();
        while joined.len() < text.len() {
            let count = dice.below(most) + 1;
            let line = format!("RDS .R:A {:o} {count:o}", joined.len());
            joined.extend(bench.reply(&line));
        }
        assert!(joined == text);
    }
    assert_eq!(bench.reply("RDS .R:A 56700"), b"");
    bench.refuse("RDS .R:A 56701", b"", 28, 2);
}

#[test]
fn a_part_of_what_is_taken() {
    let mut bench = filed();
    bench.user = 777;
    bench.grant("CRD .T", b"");
    bench.grant("WRS M .T:K", b"0123456789");
    bench.user = 1;
    assert_eq!(bench.reply("RDS .000777:K 10"), b"89");
    assert_eq!(bench.reply("RDS .000777:K 1 2"), b"12");
    bench.refuse("RDS .000777 8", b"", 27, 2);
    bench.refuse("RDS .000777 0", b"", 15, 1);
}

#[test]
fn the_name_is_read_as_before() {
    let name = Chain {
        before: vec![b".W"],
        last: b"A",
    };
    let portion = Portion {
        first: Some(8),
        count: None,
    };
    assert_eq!(read(b"RDS A 10", 0), Ok(Request::Rds { name, portion }));
}
