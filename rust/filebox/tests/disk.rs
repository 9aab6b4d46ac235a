//! What a host relies on in the phases of a record: each request's, and that what is no record has none.

use filebox::disk::{phase, Phase};
use filebox::{Number, Table, RECORD_BYTES};

/// The phases of the records of a table over one request, a letter each: `F`irst, `E`ntry, `L`ast, `-` for the same.
fn phases(table: &mut Table, line: &str, text: &[u8]) -> String {
    let before = table.clone();
    let answer = table.request(1, line, text, &mut []);
    assert_eq!(answer.number, Number::Done, "{line}");
    let letter = |record| match phase(before.as_ref(), table.as_ref(), record) {
        Phase::Same => '-',
        Phase::First => 'F',
        Phase::Entry => 'E',
        Phase::Last => 'L',
    };
    let records = before.as_ref().len() / RECORD_BYTES;
    (0..records).map(letter).collect()
}

#[test]
fn each_request_has_its_phases() {
    let mut table = Table::free(7);
    assert_eq!(phases(&mut table, "CRD .R", b""), "FE-----");
    // the heading of `.R` for its count; the new one has its count from the start
    assert_eq!(phases(&mut table, "WRS M .R:A", b"1"), "L-FFE--");
    assert_eq!(phases(&mut table, "WRS M .R:A", b"2"), "--LLEFF");
    assert_eq!(phases(&mut table, "DUP .R:A .R:B", b""), "L-E--L-");
    assert_eq!(phases(&mut table, "CHN .R:B C", b""), "--E----");
    assert_eq!(phases(&mut table, "DPR .R:A .2", b""), "-----E-");
    assert_eq!(phases(&mut table, "DEL .R:C", b""), "L-E--L-");
    assert_eq!(phases(&mut table, "DEL .R:A", b""), "L---ELL");
    assert_eq!(phases(&mut table, "DUP .R .R:LOOP", b""), "L-E----");
    assert_eq!(phases(&mut table, "DUP .R .R:LOOP .4", b""), "--E----");
}

#[test]
fn a_request_that_changes_nothing_has_nothing_to_write() {
    let mut table = Table::free(3);
    assert_eq!(phases(&mut table, "WRS M .R", b""), "FE-");
    assert_eq!(phases(&mut table, "DUP .R .R", b""), "---");
    assert_eq!(phases(&mut table, "RDS .R", b""), "---");
}

/// "a heading that differs only in counts": in any other byte it is a change of the heading itself.
#[test]
fn a_heading_of_other_counts_alone_is_written_last() {
    let mut heading = [0; 32];
    heading[..5].copy_from_slice(&[1, 0, 0, 0, 1]);
    for at in 1..32 {
        let mut other = heading;
        other[at] ^= 1;
        let expected = match at {
            12..=15 => Phase::Last,
            _ => Phase::Entry,
        };
        assert_eq!(phase(&heading, &other, 0), expected, "{at}");
        other[13] = 9;
        assert_eq!(phase(&heading, &other, 0), expected, "{at}");
    }
}

#[test]
fn what_is_no_record_of_both_is_the_same() {
    let (zeros, nines) = ([0; 64], [9; 64]);
    assert_eq!(phase(&zeros, &nines, 1), Phase::First);
    assert_eq!(phase(&nines, &zeros, 1), Phase::Last);
    assert_eq!(phase(&zeros, &nines, 2), Phase::Same);
    assert_eq!(phase(&zeros, &nines, usize::MAX), Phase::Same);
    assert_eq!(phase(&zeros[..63], &nines[..63], 1), Phase::Same);
    assert_eq!(phase(&zeros[..63], &nines[..63], 0), Phase::First);
    assert_eq!(phase(&zeros, &nines[..32], 0), Phase::Same);
    assert_eq!(phase(&[], &[], 0), Phase::Same);
}
