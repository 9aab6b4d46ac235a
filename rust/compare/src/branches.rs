//! How often each branch of a request's matter was met: a count for each, told by its name.

use std::fmt;

/// How often each branch must be met.
pub const ENOUGH: u64 = 100;

/// The branches of one matter in their order, and how often each was met.
pub struct Branches {
    what: &'static str,
    names: Vec<String>,
    met: Vec<u64>,
}

impl Branches {
    pub fn new<T: ToString>(what: &'static str, names: impl IntoIterator<Item = T>) -> Branches {
        let names: Vec<String> = names.into_iter().map(|name| name.to_string()).collect();
        let met = vec![0; names.len()];
        Branches { what, names, met }
    }

    /// Branches that are reply numbers, and after them these.
    pub fn numbered(what: &'static str, numbers: &[u64], kinds: &[&str]) -> Branches {
        let numbers = numbers.iter().map(u64::to_string);
        Branches::new(what, numbers.chain(kinds.iter().map(ToString::to_string)))
    }

    /// One more of this branch.
    pub fn count(&mut self, branch: usize) {
        self.met[branch] += 1;
    }

    /// What was met too seldom.
    pub fn missed(&self) -> Vec<String> {
        let branches = self.names.iter().zip(&self.met);
        let missed = branches.filter(|(_, times)| **times < ENOUGH);
        missed
            .map(|(name, _)| format!("{}: {name}", self.what))
            .collect()
    }

    /// What was met at all.
    #[cfg(test)]
    pub fn met(&self) -> Vec<&str> {
        let branches = self.names.iter().zip(&self.met);
        let met = branches.filter(|(_, times)| **times > 0);
        met.map(|(name, _)| &name[..]).collect()
    }
}

impl fmt::Display for Branches {
    fn fmt(&self, f: &mut fmt::Formatter) -> fmt::Result {
        let branches = self.names.iter().zip(&self.met);
        let shown: Vec<String> = branches
            .map(|(name, times)| format!("{name} {times}"))
            .collect();
        write!(f, "{}: {}", self.what, shown.join(", "))
    }
}

#[cfg(test)]
mod tests {
    use super::*;

    #[test]
    fn what_is_met_too_seldom_is_told() {
        let mut branches = Branches::numbered("colours", &[7, 8], &["green"]);
        (0..ENOUGH).for_each(|_| branches.count(1));
        branches.count(2);
        assert_eq!(branches.missed(), ["colours: 7", "colours: green"]);
        assert_eq!(branches.met(), ["8", "green"]);
        assert_eq!(branches.to_string(), "colours: 7 0, 8 100, green 1");
    }
}
