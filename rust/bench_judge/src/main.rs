//! The proved judge on full tables of three shapes, as a ratio to one byte-by-byte pass over the same table in the same run.
//! Prints a line for each shape and size, or for the one shape that is named; fails if a table is not found sound or a ratio
//! at 2,048 records is above 4.
use std::hint::black_box;

use bench_judge::{judge, tables};
use turns::{least, nanoseconds};

/// A full table of so many records.
type Shape = fn(usize) -> Vec<u8>;

/// The least time of the judge and of the pass.
fn judge_and_pass(table: &[u8]) -> (f64, f64) {
    least(2000, table, || {
        nanoseconds(|| {
            black_box(judge(black_box(table)));
        })
    })
}

/// The time on names that all fall into one bucket.
fn show_worst() {
    let worst = tables::collided(2048);
    assert_eq!(judge(&worst), 0, "names that collide are sound");
    let runs = (0..20).map(|_| {
        nanoseconds(|| {
            black_box(judge(black_box(&worst)));
        })
    });
    println!(
        "names chosen to collide, 2048 records: {:.0} ns",
        runs.fold(f64::MAX, f64::min)
    );
}

fn main() {
    let shapes: [(&str, Shape); 3] = [
        ("long files", tables::long_files),
        ("small files", tables::small_files),
        ("directories", tables::directories),
    ];
    let only = std::env::args().nth(1);
    let mut fit = true;
    println!(
        "{:<12} {:>7} {:>10} {:>10} {:>6}",
        "shape", "records", "judge ns", "pass ns", "ratio"
    );
    for (name, shape) in shapes {
        if only.as_deref().is_some_and(|wanted| wanted != name) {
            continue;
        }
        for records in [256, 512, 1024, 2048] {
            let table = shape(records);
            assert_eq!(judge(&table), 0, "{name} of {records} records is sound");
            let (judged, passed) = judge_and_pass(&table);
            let ratio = judged / passed;
            println!("{name:<12} {records:>7} {judged:>10.0} {passed:>10.0} {ratio:>6.2}");
            fit &= records < 2048 || ratio <= 4.0;
        }
    }
    show_worst();
    if !fit {
        eprintln!("above the bar of 4 at 2,048 records");
        std::process::exit(1);
    }
}
