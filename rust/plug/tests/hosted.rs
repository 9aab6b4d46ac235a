//! The host of `rust/host` with its plug pulled: over a disk that lets any of its writes land, and under fourteen clients.

use std::path::Path;

use plug::reorder::reorder;
use plug::sweeps::sweeps;
use plug::{crowd, About};

fn program() -> &'static Path {
    Path::new(env!("CARGO_BIN_EXE_plug"))
}

#[test]
fn any_part_of_what_was_not_flushed_is_mended_to_the_table_before_or_after() {
    let tried = reorder(About::Anything, 4_000, 1971, None).expect("every pull");
    println!("{tried:?}");
    assert!(
        tried.halves > 10_000 && tried.mends > 10_000 && tried.errors > 20,
        "{tried:?}"
    );
    assert!(tried.counted > 500, "{tried:?}");
    assert!(tried.flushes <= 3 * tried.changing, "{tried:?}");
}

#[test]
fn any_part_of_a_rewrite_is_mended_to_the_table_before_or_after_or_marked_and_empty() {
    let tried = reorder(About::Rewrites, 2_000, 1971, None).expect("every pull");
    println!("{tried:?}");
    assert!(
        tried.marked > 10_000 && tried.halves > 10_000 && tried.errors > 20,
        "{tried:?}"
    );
    assert!(tried.flushes <= 3 * tried.changing, "{tried:?}");
}

#[test]
fn any_part_of_a_dst_is_mended_to_the_table_before_or_after_some_of_its_names() {
    let tried = reorder(About::Destroys, 2_000, 1971, None).expect("every pull");
    println!("{tried:?}");
    assert!(
        tried.destroyed > 2_000 && tried.halves > 5_000 && tried.errors > 20,
        "{tried:?}"
    );
    assert!(tried.flushes <= 3 * tried.changing, "{tried:?}");
}

#[test]
fn any_part_of_a_sweep_is_mended_and_swept_again_to_the_table_after() {
    let tried = sweeps(300, 1971, None).expect("every pull");
    println!("{tried:?}");
    assert!(
        tried.losing > 200 && tried.texts > 200 && tried.halves > 100_000,
        "{tried:?}"
    );
    assert!(tried.flushes <= 2 * tried.losing, "{tried:?}");
}

/// The flush between a sweep's headings and its text left out is found; the one at its end is for what comes after it.
#[test]
fn one_flush_fewer_in_a_sweep_is_found() {
    let found = sweeps(300, 1971, Some(0)).expect_err("found");
    println!("without flush 0: {found}");
    assert!(found.contains("mending does not make it sound"), "{found}");
}

/// A flush of each request left out is found, and where it is a rewrite's or a DST's. A DST's second flush is for what comes after it.
#[test]
fn one_flush_fewer_is_found() {
    let wrong = [
        "mending does not make it sound",
        "the mended table is not what it should be",
        "mended to neither the table before nor after",
    ];
    for (about, flush) in [
        (About::Anything, 0),
        (About::Anything, 1),
        (About::Rewrites, 0),
        (About::Rewrites, 1),
        (About::Destroys, 0),
    ] {
        let found = reorder(about, 2_000, 1971, Some(flush)).expect_err("found");
        println!("{about:?}, without flush {flush}: {found}");
        assert!(wrong.iter().any(|wrong| found.contains(wrong)), "{found}");
    }
}

#[test]
fn fourteen_clients_get_the_second_programs_answers_in_the_order_in_which_they_were_taken() {
    let counts = crowd::whole(program(), 500, 1971).expect("every answer");
    println!("{counts:?}");
    assert_eq!((counts.taken, counts.answered), (7_000, 7_000));
    assert!(counts.numbers[0] > 1_000, "{counts:?}");
}

#[test]
fn a_host_killed_under_fourteen_clients_keeps_what_it_answered() {
    let counts = crowd::killed(program(), 40, 1971).expect("every kill");
    println!("{counts:?}");
    assert_eq!(counts.kills, 40);
    assert!(counts.answered > 40, "{counts:?}");
}
