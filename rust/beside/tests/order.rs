//! The order of refusals: tests where two or more of them compete.

mod common;
use common::*;

/// A directory `.R` with a simple file A, a directory D and a file D:F.
fn filled() -> Bench {
    Bench::grown(64, &["CRD .R", "WRS M .R:A", "CRD .R:D", "WRS M .R:D:F"])
}

/// The same, with a read-inhibited entry B of the file A and a write-inhibited entry E of the directory D.
fn inhibited() -> Bench {
    let mut bench = filled();
    bench.grant("DUP .R:A .R:B .2", b"");
    bench.grant("DUP .R:D .R:E .1", b"");
    bench
}

/// The table cut down to the records that are taken: nothing is free.
fn full(mut bench: Bench) -> Bench {
    let taken = bench.table.chunks(32).take_while(|r| r[0] != 0).count();
    bench.table.truncate(taken * 32);
    bench
}

#[test]
fn numbers_1_2_3_4_in_this_order() {
    let mut bench = Bench::of(vec![9; 65]);
    bench.user = 1_000_000;
    bench.refuse("crd", b"", 1, 0);
    bench.table.truncate(64);
    bench.refuse("crd", b"", 2, 0);
    bench.table.fill(0);
    bench.refuse("crd", b"", 3, 0);
    bench.user = 1;
    bench.refuse("crd", b"", 4, 0);
}

#[test]
fn number_4_before_5_before_6_before_7() {
    let bench = Bench::new(4);
    bench.refuse("CRE .R::A\t", b"", 4, 0);
    bench.refuse("CRE .R::A", b"", 5, 0);
    bench.refuse("RDS .R::A B C D", b"", 6, 0);
    bench.refuse("RDS .R::A", b"", 7, 1);
}

#[test]
fn number_7_at_the_second_argument_before_8_at_the_first() {
    let bench = Bench::new(4);
    bench.refuse("CPY .1 A::B", b"", 7, 2);
    bench.refuse("DEL .1 .2 .3 A:B:", b"", 7, 4);
    bench.refuse("CHN .1 A:B", b"", 7, 2);
}

#[test]
fn number_8_at_the_second_argument_before_9_at_the_first() {
    let bench = Bench::new(4);
    bench.refuse("WRS QQ .1", b"", 8, 2);
    bench.refuse("WRS QQ A::B", b"", 7, 2);
    bench.refuse("WRS QQ .R", b"", 9, 1);
}

#[test]
fn within_a_number_the_leftmost_argument() {
    let bench = Bench::new(4);
    bench.refuse("CPY A::A B::B", b"", 7, 1);
    bench.refuse("CPY .1 .2", b"", 8, 1);
    bench.refuse("CHN .1 A", b"", 8, 1);
    bench.refuse("DEL .R .2 .3", b"", 8, 2);
}

#[test]
fn number_9_before_10_before_11() {
    let bench = Bench::new(4);
    let text = vec![0; 24_001];
    bench.refuse("WRS QQ .R:A", &text, 9, 1);
    bench.refuse("WRS M .R:A", &text, 10, 0);
    bench.refuse("WRS M .R:A", &text[..24_000], 11, 2);
}

#[test]
fn the_form_of_every_argument_before_any_walk() {
    let bench = Bench::new(4);
    bench.refuse("CPY .R:A .R:B QQ", b"", 9, 3);
    bench.refuse("DEL .R:A .R:B::", b"", 7, 2);
    bench.refuse("CHN .R A", b"", 8, 2);
}

#[test]
fn walks_go_left_to_right() {
    let bench = filled();
    bench.refuse("CPY .R:X .R:Y:Z", b"", 11, 1);
    bench.refuse("CPY .R:A:X .R:Y:Z", b"", 12, 1);
    bench.refuse("CPY .R:A .R:Y:Z", b"", 11, 2);
    bench.refuse("DUP .R:A .R:A:Z", b"", 12, 2);
}

#[test]
fn at_each_link_11_12_13_and_the_next_link_after() {
    let mut bench = filled();
    bench.refuse("RDS .R:A:X:Y", b"", 12, 1);
    bench.refuse("RDS .R:X:A:Y", b"", 11, 1);
    // A simple file that is read-inhibited too is first of all no directory.
    bench.grant("DPR .R:A .2", b"");
    bench.refuse("RDS .R:A:X", b"", 12, 1);
    // A read-inhibited directory does not tell whether a name is there.
    bench.grant("DPR .R:D .2", b"");
    bench.refuse("RDS .R:D:X", b"", 13, 1);
    bench.refuse("RDS .R:X:D", b"", 11, 1);
}

#[test]
fn the_walk_of_the_new_name_before_13_at_the_end() {
    let bench = inhibited();
    bench.refuse("CPY .R:B .R:X:Y", b"", 11, 2);
    bench.refuse("CPY .R:B .R:A:Y", b"", 12, 2);
    bench.refuse("CPY .R:B .R:Y", b"", 13, 1);
}

#[test]
fn number_13_at_the_end_before_14_before_15() {
    let mut bench = inhibited();
    bench.grant("DUP .R:D .R:G .2", b"");
    bench.refuse("CPY .R:B .R:E:X", b"", 13, 1);
    bench.refuse("CPY .R:G .R:E:X", b"", 13, 1);
    bench.refuse("CPY .R:D .R:E:X", b"", 14, 2);
    bench.refuse("CPY .R:D .R:X", b"", 15, 1);
    bench.refuse("RDS .R:G", b"", 13, 1);
    bench.refuse("LST .R:B", b"", 13, 1);
}

#[test]
fn number_14_before_16() {
    inhibited().refuse("CHN .R:E:F F", b"", 14, 1);
}

#[test]
fn number_14_before_18() {
    let mut bench = filled();
    bench.grant("CRD .R:D:K", b"");
    bench.grant("CRD .R:D:K:L", b"");
    bench.grant("DUP .R:D .R:E .1", b"");
    bench.refuse("DEL .R:E:K", b"", 14, 1);
    bench.refuse("CRD .R:E:K", b"", 14, 1);
    bench.refuse("DEL .R:D:K", b"", 18, 1);
}

#[test]
fn number_14_before_19() {
    let bench = full(inhibited());
    bench.refuse("CRD .R:E:X", b"", 14, 1);
    bench.refuse("CRD .R:D:X", b"", 19, 0);
}

#[test]
fn number_14_before_21() {
    let mut bench = filled();
    bench.grant("DPR .R:A .3", b"");
    bench.refuse("DPR .R:A .0", b"", 14, 1);
}

#[test]
fn number_15_before_17_before_19() {
    let mut bench = filled();
    for at in 0..110 {
        bench.table.resize(bench.table.len() + 32, 0);
        bench.grant(&format!("DUP .R:A .R:N{at}"), b"");
    }
    let bench = full(bench);
    bench.refuse("CPY .R:D .R:NEW", b"", 15, 1);
    bench.refuse("CPY .R:A .R:NEW", b"", 17, 2);
    bench.refuse("CPY .R:A .R:N1", b"", 19, 0);
}

#[test]
fn number_15_before_18_before_19() {
    let bench = full(filled());
    bench.refuse("CPY .R:D .R:D", b"", 15, 1);
    bench.refuse("CPY .R:A .R:D", b"", 18, 2);
    bench.refuse("CPY .R:A .R:A", b"", 19, 0);
}

#[test]
fn number_15_before_20() {
    let mut bench = filled();
    bench.room = 0;
    bench.refuse("RDS .R:D", b"", 15, 1);
    bench.refuse("LST .R:A", b"", 15, 1);
    bench.refuse("RDS .R:A", b"", 20, 0);
}

#[test]
fn number_17_18_19_before_25() {
    // A sheet of level S, and nothing free: 19. With room for the copy: 25.
    let mut bench = filled();
    bench.grant("WRS M.S .R:S", b"SECRET");
    full(bench.clone()).refuse("CPY .R:S .R:T .U", b"", 19, 0);
    bench.refuse("CPY .R:S .R:T .U", b"", 25, 3);
    // The file displaced is a directory with entries: 18.
    bench.refuse("CPY .R:S .R:D .U", b"", 18, 2);
    // The directory is full, and nothing displaced: 17.
    for at in 0..109 {
        bench.table.resize(bench.table.len() + 32, 0);
        bench.grant(&format!("DUP .R:A .R:N{at}"), b"");
    }
    bench.refuse("CPY .R:S .R:NEW .U", b"", 17, 2);
    bench.refuse("CPY .R:S .R:N1 .U", b"", 25, 3);
}

#[test]
fn every_refusal_before_22() {
    let mut bench = inhibited();
    bench.grant("DPR .R:A .4", b"");
    let bench = bench.stop(0);
    bench.refuse("CHN .R:A A", b"", 16, 2);
    bench.refuse("DPR .R:A .0", b"", 21, 2);
    bench.refuse("DPR .R:A .4", b"", 22, 0);
    bench.refuse("DEL .R:D:X", b"", 11, 1);
    full(bench.clone()).refuse("CRD .R:X", b"", 19, 0);
    bench.refuse("CRD .R:X", b"", 22, 0);
}

#[test]
fn in_a_del_22_even_where_a_later_name_would_be_refused() {
    let bench = filled();
    // A takes six stores, its own two counts among them; then X is not there.
    for stop in 0..6 {
        let seen = bench.stop(stop).ask("DEL .R:A .R:X", b"");
        assert_eq!(seen.answer, answer([22, 0, 0, 0, 0, 0, stop]));
    }
    for stop in [6, 7, u32::MAX] {
        let seen = bench.stop(stop).ask("DEL .R:A .R:X", b"");
        assert_eq!(seen.answer, answer([11, 2, 2, 1, 0, 0, 6]));
    }
}

#[test]
fn a_del_walks_each_name_in_the_table_that_the_names_before_left() {
    let mut bench = filled();
    // D cannot go before its file, and can after it.
    bench.refuse("DEL .R:D .R:D:F", b"", 18, 1);
    bench.grant("DEL .R:D:F .R:D", b"");
    // The way is gone with the name before.
    let bench = filled();
    let seen = bench.ask("DEL .R:D:F .R:D .R:D:F", b"");
    assert_eq!(seen.answer, answer([11, 3, 2, 2, 0, 0, 6 + 4]));
}
