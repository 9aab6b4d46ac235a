//! Times beside one byte-by-byte pass over the table: the least of many turns, so that what else the machine does falls on
//! both, and a ratio that another machine gives too.

use std::hint::black_box;
use std::time::Instant;

/// One pass that takes the bytes one by one, in order.
pub fn pass(table: &[u8]) -> u64 {
    let mut sum = 0u64;
    for byte in table {
        // Sound: it is read through a reference. Volatile, so that it is not turned into a pass over wider words.
        sum += u64::from(unsafe { std::ptr::read_volatile(byte) });
    }
    sum
}

/// The nanoseconds of one run.
pub fn nanoseconds(run: impl FnOnce()) -> f64 {
    let start = Instant::now();
    run();
    start.elapsed().as_nanos() as f64
}

/// The least nanoseconds of a call and of the pass, in so many turns. The call gives its own nanoseconds, so that it may
/// set things right before.
pub fn least(turns: usize, table: &[u8], mut call: impl FnMut() -> f64) -> (f64, f64) {
    let mut times = (f64::MAX, f64::MAX);
    for _ in 0..turns {
        times.0 = times.0.min(call());
        times.1 = times.1.min(nanoseconds(|| {
            black_box(pass(black_box(table)));
        }));
    }
    times
}

#[cfg(test)]
mod tests {
    use super::*;

    #[test]
    fn the_pass_takes_every_byte() {
        assert_eq!(pass(&[]), 0);
        assert_eq!(pass(&[1; 65_536]), 65_536);
    }

    #[test]
    fn the_least_of_the_turns_is_kept() {
        let mut times = [30.0, 10.0, 20.0].into_iter();
        let (call, pass) = least(3, &[0; 32], || times.next().unwrap_or(f64::MAX));
        assert_eq!(call, 10.0);
        assert!(pass < f64::MAX);
    }
}
