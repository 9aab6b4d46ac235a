//! A sheet read piece by piece, at random cutting points: joined in order the pieces must be the text.

use beside::{Portion, Request};
use random::Random;

use crate::case::{must_not_be, Asked, Case, Comparison, Difference, Outcome};

/// A line that has room for two numbers more, each of six digits at most.
const SHORT: usize = 240;
/// How often a sheet is cut anew.
const CUTTINGS: usize = 3;

/// A number of RDS; a dash where it says nothing, now and then.
fn number(random: &mut Random, number: Option<usize>) -> String {
    match number {
        Some(number) if number > 0 || random.once_in(2) => format!("{number:o}"),
        _ => "-".to_string(),
    }
}

/// The same request for a piece: the first byte, and how many, or to the end.
fn piece(random: &mut Random, case: &Case, first: usize, count: Option<usize>) -> Case {
    let mut piece = case.clone();
    if let Some(Asked { line, .. }) = &mut piece.asked {
        let (first, count) = (number(random, Some(first)), number(random, count));
        line.extend(format!(" {first} {count}").into_bytes());
    }
    piece
}

/// Is the whole of a sheet asked for, with no numbers?
fn is_whole(line: &[u8]) -> bool {
    let none = Portion::default();
    let rds = matches!(beside::read(line, 0), Ok(Request::Rds { portion, .. }) if portion == none);
    rds && beside::words(line).len() == 2 && line.len() <= SHORT
}

/// A text in pieces, each from where the one before it ended, joined.
fn joined(
    comparison: &mut Comparison,
    random: &mut Random,
    case: &Case,
    length: usize,
) -> Result<Vec<u8>, Box<Difference>> {
    let mut joined = Vec::new();
    while joined.len() < length {
        let count = random.below(length) + 1;
        let count = (!random.once_in(4)).then_some(count);
        let piece = piece(random, case, joined.len(), count);
        let seen = comparison.compare(&piece)?;
        if seen.bytes() == 0 {
            return Err(must_not_be(&piece, "a piece without bytes", &seen));
        }
        joined.extend(&seen.reply[..seen.bytes()]);
    }
    Ok(joined)
}

/// Read a sheet that was read whole in pieces, a few times; then at its end, where there is nothing left, and beyond it.
pub fn in_pieces(
    comparison: &mut Comparison,
    random: &mut Random,
    case: &Case,
    whole: &Outcome,
) -> Result<(), Box<Difference>> {
    let line = case.asked.as_ref().map_or(&[][..], |asked| &asked.line);
    if whole.number() != 0 || !is_whole(line) {
        return Ok(());
    }
    let text = &whole.reply[..whole.bytes()];
    for _ in 0..CUTTINGS {
        if joined(comparison, random, case, text.len())? != text {
            return Err(must_not_be(case, "joined they are not the text", whole));
        }
    }
    for (past, number) in [(0, 0), (1, 28)] {
        let piece = piece(random, case, text.len() + past, Some(1));
        let seen = comparison.compare(&piece)?;
        if (seen.number(), seen.bytes()) != (number, 0) {
            return Err(must_not_be(&piece, "at the end or beyond it", &seen));
        }
    }
    Ok(())
}

#[cfg(test)]
mod tests {
    use super::*;

    #[test]
    fn a_whole_sheet_is_one_without_numbers() {
        assert!(is_whole(b"RDS .R:A"));
        assert!(is_whole(b" RDS  A "));
        assert!(!is_whole(b"RDS .R:A -"));
        assert!(!is_whole(b"RDS .R:A 0"));
        assert!(!is_whole(b"RDS .R:A 8"));
        assert!(!is_whole(b"LST .R"));
    }
}
