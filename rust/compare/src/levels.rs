//! A tree level by level: of one level it is LST, and of a deeper one the lines of fewer levels are the tree of fewer.

use beside::Request;

use crate::case::{must_not_be, Case, Comparison, Difference, Outcome};

/// A line that has room for two bytes more and an asterisk.
const SHORT: usize = 250;

/// The same case with another line.
fn with_line(case: &Case, line: Vec<u8>) -> Case {
    let mut other = case.clone();
    if let Some(asked) = &mut other.asked {
        asked.line = line;
    }
    other
}

/// The line of LST* with 1 that an LST is.
fn of_one_level(line: &[u8]) -> Option<Vec<u8>> {
    let words = beside::words(line);
    let listed = words.first().and_then(|word| word.whole()) == Some(b"LST") && words.len() == 2;
    // a colon at the end would join the digit to the name
    let last = line.iter().rfind(|byte| **byte != b' ');
    let fits = line.len() <= SHORT && last != Some(&b':');
    let at = line.windows(3).position(|part| part == b"LST")?;
    let star = [&line[..at + 3], b"*", &line[at + 3..], b" 1"].concat();
    (listed && fits).then_some(star)
}

/// The line of a level less, of an LST* with more than one.
fn of_a_level_less(line: &[u8]) -> Option<(u8, Vec<u8>)> {
    let Ok(Request::Tree { depth, .. }) = beside::read(line, 0) else {
        return None;
    };
    let mut less = line.to_vec();
    let digit = less.iter().rposition(|byte| *byte != b' ')?;
    less[digit] -= 1;
    (depth > 1).then_some((depth, less))
}

/// The lines of fewer levels than these.
fn shallower(lines: &[u8], levels: u8) -> Vec<u8> {
    let blanks = vec![b' '; 2 * (usize::from(levels) - 1)];
    let lines = lines.split_inclusive(|byte| *byte == 10);
    let fewer = lines.filter(|line| !line.starts_with(&blanks));
    fewer.flatten().copied().collect()
}

/// An LST once more as LST* with 1; and of an LST* that was granted, the lines of a level less.
pub fn in_levels(
    comparison: &mut Comparison,
    case: &Case,
    whole: &Outcome,
) -> Result<(), Box<Difference>> {
    let line = case.asked.as_ref().map_or(&[][..], |asked| &asked.line);
    if let Some(star) = of_one_level(line) {
        let seen = comparison.compare(&with_line(case, star))?;
        if seen != *whole {
            return Err(must_not_be(case, "LST* of one level is not LST", &seen));
        }
    }
    if let Some((depth, less)) = of_a_level_less(line).filter(|_| whole.number() == 0) {
        let seen = comparison.compare(&with_line(case, less))?;
        let fewer = shallower(&whole.reply[..whole.bytes()], depth);
        if seen.number() != 0 || seen.reply[..seen.bytes()] != fewer {
            return Err(must_not_be(case, "a level less has other lines", &seen));
        }
    }
    Ok(())
}

#[cfg(test)]
mod tests {
    use super::*;

    #[test]
    fn a_line_of_a_level_less() {
        let star = b"  LST*  .R : A   1".to_vec();
        assert_eq!(of_one_level(b"  LST  .R : A  "), Some(star));
        assert_eq!(of_one_level(b"LST .R 1"), None);
        assert_eq!(of_one_level(b"LST .R: "), None);
        assert_eq!(of_one_level(b"LST* .R 1"), None);
        let less = b"LST* .R 7 ".to_vec();
        assert_eq!(of_a_level_less(b"LST* .R 8 "), Some((8, less)));
        assert_eq!(of_a_level_less(b"LST* .R 1"), None);
        assert_eq!(of_a_level_less(b"LST* .R 9"), None);
        assert_eq!(of_a_level_less(b"LST .R"), None);
    }

    #[test]
    fn lines_of_fewer_levels() {
        let lines = b"A\r\n  B\r\n    C\r\nD\r\n";
        assert_eq!(shallower(lines, 2), b"A\r\nD\r\n");
        assert_eq!(shallower(lines, 3), b"A\r\n  B\r\nD\r\n");
        assert_eq!(shallower(lines, 4), lines);
    }
}
