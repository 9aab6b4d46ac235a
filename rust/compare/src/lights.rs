//! How often each light was met: green, the four refusals, and red in both phases, by number.

use std::fmt;

use beside::COUNTS;

const RED: u32 = 1;
/// How often each must be met.
const ENOUGH: u64 = 100;
/// The replies that a filing can have: its first word is WRS, it replies nothing, and it is neither RDS, CHN nor DPR.
const FILED: [usize; 17] = [1, 2, 3, 4, 6, 7, 8, 9, 10, 11, 12, 13, 14, 17, 18, 19, 26];
const STOPPED: usize = 22;

/// A count of each light, and of what was done.
#[derive(Default)]
pub struct Lights {
    /// The jobs that were made up.
    pub jobs: u64,
    /// The calls of the lamp made by both: these jobs again and again.
    pub calls: u64,
    /// The jobs that were cut and then mended.
    pub cuts: u64,
    /// Those of them that were mended to the sheet at which the lamp was red.
    pub cut_late: u64,
    green: u64,
    refused: [u64; 5],
    /// Red by phase, 1 filing and 2 reading, and number.
    red: [[u64; COUNTS]; 3],
}

impl Lights {
    /// One more light with these numbers.
    pub fn count(&mut self, [light, _, phase, number, _]: [u32; 5]) {
        let number = number as usize;
        match light {
            0 => self.green += 1,
            RED => self.red[phase as usize][number] += 1,
            _ => self.refused[number] += 1,
        }
    }

    /// What was met too seldom.
    pub fn missed(&self) -> Vec<String> {
        let mut met = vec![("green".to_string(), self.green)];
        met.extend((1..5).map(|number| (format!("refused {number}"), self.refused[number])));
        let filing = |number| (format!("filing {number}"), self.red[1][number]);
        met.extend(FILED.into_iter().chain([STOPPED]).map(filing));
        met.push(("reading 12".to_string(), self.red[2][12]));
        met.push(("cut late".to_string(), self.cut_late));
        let seldom = met.into_iter().filter(|(_, times)| *times < ENOUGH);
        seldom.map(|(what, _)| what).collect()
    }
}

impl fmt::Display for Lights {
    fn fmt(&self, f: &mut fmt::Formatter) -> fmt::Result {
        writeln!(f, "green {}", self.green)?;
        for (number, times) in self.refused.iter().enumerate().skip(1) {
            writeln!(f, "refused {number}: {times}")?;
        }
        for (phase, what) in [(1, "filing"), (2, "reading")] {
            let red = self.red[phase].iter().enumerate();
            for (number, times) in red.filter(|(_, times)| **times > 0) {
                writeln!(f, "red in {what} {number}: {times}")?;
            }
        }
        write!(f, "mended to the sheet that was red: {}", self.cut_late)
    }
}
