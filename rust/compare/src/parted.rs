//! How often each branch of an RDS with numbers was met.

use beside::{Portion, Request};

use crate::branches::Branches;
use crate::case::{Asked, Case};

const BRANCHES: [&str; 10] = [
    "27 at place 2",
    "27 at place 3",
    "28",
    "20 of a part",
    "dashes",
    "to the end",
    "a count within a block",
    "a count over blocks",
    "a count past the end",
    "at the end",
];
const DASHES: usize = 4;
/// The bytes of a block.
const BLOCK: usize = 24;

/// A count for each branch.
pub struct Parted(Branches);

impl Default for Parted {
    fn default() -> Parted {
        Parted(Branches::new("parts", BRANCHES))
    }
}

/// The branch of a part that was written, so many bytes of it.
fn written(Portion { first, count }: Portion, bytes: usize) -> usize {
    let at = first.unwrap_or(0);
    match count {
        _ if at > 0 && bytes == 0 => 9,
        None => 5,
        Some(count) if bytes < count => 8,
        Some(_) if at / BLOCK == (at + bytes - 1) / BLOCK => 6,
        Some(_) => 7,
    }
}

/// The branch of a line and its answer; none where it is no RDS with numbers, or some other number.
fn branch(line: &[u8], [number, argument, _, _, _, bytes, _]: [u64; 7]) -> Option<usize> {
    match (number, argument) {
        (27, 2) => return Some(0),
        (27, 3) => return Some(1),
        (28, _) => return Some(2),
        _ => {}
    }
    let Ok(Request::Rds { portion, .. }) = beside::read(line, 0) else {
        return None;
    };
    let given = portion != Portion::default();
    match number {
        20 if given => Some(3),
        0 if given => Some(written(portion, bytes as usize)),
        0 if beside::words(line).len() > 2 => Some(DASHES),
        _ => None,
    }
}

impl Parted {
    /// One more answer.
    pub fn count(&mut self, case: &Case, answer: [u64; 7]) {
        let Some(Asked { line, .. }) = &case.asked else {
            return;
        };
        if let Some(branch) = branch(line, answer) {
            self.0.count(branch);
        }
    }

    /// How often each was met.
    pub fn branches(&self) -> &Branches {
        &self.0
    }
}

#[cfg(test)]
mod tests {
    use super::*;

    #[test]
    fn a_part_is_told_by_its_line_and_answer() {
        let met = |line: &[u8], number, place, bytes| {
            let branch = branch(line, [number, place, 0, 0, 0, bytes, 0]);
            branch.map(|branch| BRANCHES[branch])
        };
        assert_eq!(met(b"RDS .R 8", 27, 2, 0), Some("27 at place 2"));
        assert_eq!(met(b"RDS .R 7 0", 27, 3, 0), Some("27 at place 3"));
        assert_eq!(met(b"RDS .R 7", 28, 2, 0), Some("28"));
        assert_eq!(met(b"RDS .R - 7", 20, 0, 0), Some("20 of a part"));
        assert_eq!(met(b"RDS .R - -", 0, 0, 9), Some("dashes"));
        assert_eq!(met(b"RDS .R 7", 0, 0, 9), Some("to the end"));
        let within = Some("a count within a block");
        assert_eq!(met(b"RDS .R 0 30", 0, 0, 24), within);
        assert_eq!(met(b"RDS .R - 1", 0, 0, 1), within);
        let over = Some("a count over blocks");
        assert_eq!(met(b"RDS .R 1 30", 0, 0, 24), over);
        let past = Some("a count past the end");
        assert_eq!(met(b"RDS .R 1 30", 0, 0, 23), past);
        assert_eq!(met(b"RDS .R - 1", 0, 0, 0), past);
        assert_eq!(met(b"RDS .R 1 1", 0, 0, 0), Some("at the end"));
        assert_eq!(met(b"RDS .R", 0, 0, 9), None);
        assert_eq!(met(b"RDS .R", 20, 0, 0), None);
        assert_eq!(met(b"RDS .R 1 1", 11, 1, 0), None);
        assert_eq!(met(b"LST .R", 0, 0, 9), None);
    }
}
