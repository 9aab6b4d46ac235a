//! The program: its output, byte for byte. The proved program's too, where FILEBOX_PROGRAM names it, as in the gate.

use std::ffi::OsStr;
use std::io::{Read, Write};
use std::process::{Command, Stdio};
use std::thread;

/// What a program prints for this input.
fn output(program: &OsStr, input: &[u8]) -> Vec<u8> {
    let mut child = Command::new(program)
        .stdin(Stdio::piped())
        .stdout(Stdio::piped())
        .spawn()
        .unwrap();
    let mut stdin = child.stdin.take().unwrap();
    let input = input.to_vec();
    let writer = thread::spawn(move || stdin.write_all(&input).unwrap());
    let mut printed = Vec::new();
    child
        .stdout
        .take()
        .unwrap()
        .read_to_end(&mut printed)
        .unwrap();
    writer.join().unwrap();
    assert!(child.wait().unwrap().success());
    printed
}

/// The input has this output, and the second program's own `run` says the same.
fn prints(input: &[u8], expected: &[u8]) {
    let proved = std::env::var_os("FILEBOX_PROGRAM");
    let second = OsStr::new(env!("CARGO_BIN_EXE_beside"));
    for program in [Some(second), proved.as_deref()].into_iter().flatten() {
        let printed = output(program, input);
        let shown = String::from_utf8_lossy(&printed[..printed.len().min(300)]).into_owned();
        assert!(printed == expected, "{program:?}: {shown}");
    }
    let mut again = Vec::new();
    beside::run(input, &mut again).unwrap();
    assert!(again == expected);
}

#[test]
fn a_short_script() {
    let input = b"CRD .R\n\
        WRS L.P .R:AUDIT\n\
        THE TEXT OF THE AUDIT, any bytes: @`~\t.\n\
        WRS M .R:BOARD7\n\
        \n\
        DUP .R:AUDIT .R:AUDIT .1\n\
        LST .R\n\
        RDS .R:AUDIT\n\
        RDS .R:BOARD7\n\
        LST .\n\
        CRD .R:\n\
        DEL .R:AUDIT .R:AUDIT\n\
        CPY .R:BOARD7 .R:BOARD7\n\
        NO SUCH LINE\n";
    let expected = b"0 0 0 1 0 0 3\n\
        0 0 0 1 0 0 6\n\
        0 0 0 1 0 0 4\n\
        0 0 0 1 1 0 1\n\
        0 0 0 1 0 33 0\n\
        FL.P1    AUDIT\r\nFM.U0    BOARD7\r\n\
        0 0 0 1 0 39 0\n\
        THE TEXT OF THE AUDIT, any bytes: @`~\t.\
        0 0 0 1 0 0 0\n\
        0 0 0 1 0 13 0\n\
        DM.U0    .R\r\n\
        7 1 2 0 0 0 0\n\
        11 2 2 1 0 0 6\n\
        0 0 0 1 1 0 5\n\
        5 0 0 0 0 0 0\n";
    prints(input, expected);
}

#[test]
fn empty_input() {
    prints(b"", b"");
}

#[test]
fn no_newline_at_the_end() {
    prints(b"CRD .R", b"0 0 0 1 0 0 3\n");
    prints(
        b"CRD .R\nLST .",
        b"0 0 0 1 0 0 3\n0 0 0 1 0 13 0\nDM.U0    .R\r\n",
    );
    prints(b"WRS M .R", b"0 0 0 1 0 0 3\n");
    prints(b"WRS M .R\n", b"0 0 0 1 0 0 3\n");
    prints(b"WRS M .R\n\n", b"0 0 0 1 0 0 3\n");
    prints(b"WRS M .R\nTEXT", b"0 0 0 1 0 0 4\n");
}

#[test]
fn empty_lines_are_lines() {
    prints(b"\n", b"5 0 0 0 0 0 0\n");
    prints(b"\n\n \n", b"5 0 0 0 0 0 0\n5 0 0 0 0 0 0\n5 0 0 0 0 0 0\n");
}

#[test]
fn nul_bytes_and_other_bytes() {
    prints(
        b"\0\0\nCRD\0.R\nCRD .R\r\n\xff\xfe\n",
        &b"4 0 0 0 0 0 0\n".repeat(4),
    );
    let text: Vec<u8> = (0..=255).filter(|byte| *byte != 10).collect();
    let input = [b"WRS M .R\n", text.as_slice(), b"\nRDS .R\n"].concat();
    let expected = [b"0 0 0 1 0 0 14\n0 0 0 1 0 255 0\n", text.as_slice()].concat();
    prints(&input, &expected);
}

#[test]
fn a_line_of_100000_bytes() {
    let long = vec![b'A'; 100_000];
    prints(
        &[&long[..], b"\nCRD .R\n"].concat(),
        b"4 0 0 0 0 0 0\n0 0 0 1 0 0 3\n",
    );
    // As a text it is too long, and as a WRS line it takes the next line with it.
    let input = [b"WRS M .R\n", &long[..], b"\nCRD .R\n"].concat();
    prints(&input, b"10 0 0 0 0 0 0\n0 0 0 1 0 0 3\n");
    let input = [b"WRS M ", &long[..], b"\nCRD .R\nCRD .G\n"].concat();
    prints(&input, b"4 0 0 0 0 0 0\n0 0 0 1 0 0 3\n");
}

#[test]
fn a_refused_wrs_takes_the_next_line_too() {
    let input = b"WRS\nCRD .R\nWRS M .1\nCRD .R\nWRS m\nCRD .R\nWRS :A\nCRD .R\n";
    let expected = b"6 0 0 0 0 0 0\n8 2 1 0 0 0 0\n4 0 0 0 0 0 0\n5 0 0 0 0 0 0\n0 0 0 1 0 0 3\n";
    prints(input, expected);
}

#[test]
fn a_rewrite_takes_the_next_line_as_its_text_refused_or_not() {
    let input = b"CRD .R\n\
        WRS M .R:LIMITS\n\
        5.0 V\n\
        DUP .R:LIMITS .R:BOARD7\n\
        WRS* M .R:LIMITS\n\
        4.9 V to 5.1 V, from week 3 on\n\
        RDS .R:BOARD7\n\
        WRS* L .R:LIMITS\n\
        CRD .G\n\
        WRS*\n\
        CRD .G\n\
        WRS* M .R\n\
        CRD .G\n\
        wrs* M\n\
        WRS* :A\n\
        LST .\n\
        WRS* M .R:BOARD7\n\
        \n\
        RDS .R:LIMITS\n\
        WRS* M .R:LIMITS";
    let expected = b"0 0 0 1 0 0 3\n\
        0 0 0 1 0 0 5\n\
        0 0 0 1 0 0 3\n\
        0 0 0 1 0 0 5\n\
        0 0 0 1 0 30 0\n\
        4.9 V to 5.1 V, from week 3 on\
        9 1 0 0 0 0 0\n\
        6 0 0 0 0 0 0\n\
        15 2 1 0 0 0 0\n\
        4 0 0 0 0 0 0\n\
        5 0 0 0 0 0 0\n\
        0 0 0 1 0 13 0\n\
        DM.U0    .R\r\n\
        0 0 0 1 0 0 4\n\
        0 0 0 1 0 0 0\n\
        0 0 0 1 0 0 2\n";
    prints(input, expected);
}

#[test]
fn a_dst_takes_no_text() {
    let input = b"CRD .R\n\
        WRS M .R:KEYS\n\
        9 9 9\n\
        DUP .R:KEYS .R:SPARE\n\
        DST .R:KEYS\n\
        RDS .R:SPARE\n\
        DST .R:KEYS\n\
        DST\n\
        DST .000777:KEYS\n\
        DST .R .R\n";
    let expected = b"0 0 0 1 0 0 3\n\
        0 0 0 1 0 0 5\n\
        0 0 0 1 0 0 3\n\
        0 0 0 1 0 0 5\n\
        11 1 2 0 0 0 0\n\
        11 1 2 0 0 0 0\n\
        6 0 0 0 0 0 0\n\
        8 1 1 0 0 0 0\n\
        11 2 1 1 0 0 2\n";
    prints(input, expected);
}

#[test]
fn the_longest_text_goes_in_and_comes_out() {
    let text: Vec<u8> = (0..24_000u32).map(|at| b'A' + (at % 26) as u8).collect();
    let input = [
        b"WRS M .R\n",
        &text[..],
        b"\nRDS .R\nWRS L .G\n",
        &text[..],
        b"\n",
    ]
    .concat();
    let expected = [
        b"0 0 0 1 0 0 1003\n0 0 0 1 0 24000 0\n",
        &text[..],
        b"19 0 0 0 0 0 0\n",
    ]
    .concat();
    prints(&input, &expected);
}

#[test]
fn the_table_has_1024_records() {
    // .R takes two records and so does each directory after it: 511 more fit.
    let mut input = String::from("CRD .R\n");
    let mut expected = String::from("0 0 0 1 0 0 3\n");
    for at in 0..600 {
        input += &match at % 101 {
            0 => format!("CRD .R:D{}\n", at / 101),
            rest => format!("CRD .R:D{}:N{rest}\n", at / 101),
        };
        expected += if at < 511 {
            "0 0 0 1 0 0 4\n"
        } else {
            "19 0 0 0 0 0 0\n"
        };
    }
    // Not one record is left, even for a single entry.
    input += "DUP .R .R:X\n";
    expected += "19 0 0 0 0 0 0\n";
    prints(input.as_bytes(), expected.as_bytes());
}
