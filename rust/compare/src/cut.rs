//! "Cut after any number of stores, then mended: the table before, or the table after (for DEL and DST, after some first part of
//! its names), byte for byte"; for WRS* "before, after, or after with that one file marked and empty".

use random::Random;

use crate::case::{must_not_be, Case, Comparison, Difference, Outcome};
use crate::destroyed::is_dst;
use crate::indexed::is_true;
use crate::rewritten::marked_and_empty;

/// Every stop number below this is tried; of the others, some.
const ALL_BELOW: u32 = 40;

/// The tables that a cut may be mended to: the table before and, for each name done, the table then. By the second
/// program: after the least stores with so many names done.
fn stations(case: &Case, uncut: &Outcome) -> Vec<Vec<u8>> {
    let mut stations = vec![case.table.clone()];
    for names in 1..uncut.names() {
        let (mut fewer, mut enough) = (0, uncut.stores());
        while enough - fewer > 1 {
            let middle = fewer + (enough - fewer) / 2;
            match case.stopped(middle).beside().names() < names {
                true => fewer = middle,
                false => enough = middle,
            }
        }
        stations.push(case.stopped(enough).beside().table);
    }
    stations.push(uncut.table.clone());
    stations
}

/// What a cut may be mended to.
enum Landings {
    /// The table before and after each name.
    Names(Vec<Vec<u8>>),
    /// The same of a DST.
    Destroyed(Vec<Vec<u8>>),
    /// The table before, and the one with that file marked and empty.
    Rewrite([Vec<u8>; 2]),
}

impl Landings {
    fn of(case: &Case, uncut: &Outcome) -> Landings {
        let line = case.asked.as_ref().map_or(&[][..], |asked| &asked.line);
        match marked_and_empty(case, uncut) {
            Some(empty) => Landings::Rewrite([case.table.clone(), empty]),
            None if is_dst(line) => Landings::Destroyed(stations(case, uncut)),
            None => Landings::Names(stations(case, uncut)),
        }
    }

    /// Of this cut: after the names done, or after one name more. Of a DST exactly one, since the first store of a name counts; of a
    /// rewrite too: before its first store and after it.
    fn fit(&self, cut: &Outcome) -> &[Vec<u8>] {
        match self {
            Landings::Names(stations) => &stations[cut.names() as usize..][..2],
            Landings::Destroyed(stations) => {
                let done = cut.names() as usize;
                let begun = usize::from(cut.table != stations[done]);
                std::slice::from_ref(&stations[done + begun])
            }
            Landings::Rewrite([before, _]) if cut.stores() == 0 => std::slice::from_ref(before),
            Landings::Rewrite([_, empty]) => std::slice::from_ref(empty),
        }
    }
}

/// The stop numbers to try, from 0 up to the stores needed, less one.
pub fn stops(random: &mut Random, needed: u32) -> Vec<u32> {
    let mut stops: Vec<u32> = (0..needed.min(ALL_BELOW)).collect();
    if needed > ALL_BELOW {
        let beyond = (needed - ALL_BELOW) as usize;
        stops.extend((0..8).map(|_| ALL_BELOW + random.below(beyond) as u32));
        stops.extend(needed.saturating_sub(3)..needed);
    }
    stops.sort();
    stops.dedup();
    stops
}

/// Cut a storing request on a sound table at its stop numbers, and mend each cut.
pub fn cut_everywhere(
    comparison: &mut Comparison,
    random: &mut Random,
    case: &Case,
    uncut: &Outcome,
) -> Result<(), Box<Difference>> {
    let chosen = stops(random, uncut.stores());
    cut_at(comparison, random, case, uncut, &chosen)
}

/// Cut it at these stop numbers. Those that cut nothing give what no stop number gives.
fn cut_at(
    comparison: &mut Comparison,
    random: &mut Random,
    case: &Case,
    uncut: &Outcome,
    chosen: &[u32],
) -> Result<(), Box<Difference>> {
    let needed = uncut.stores();
    let landings = Landings::of(case, uncut);
    for &stop in chosen {
        cut_once(comparison, random, &case.stopped(stop), &landings)?;
    }
    for stop in [needed, needed + 1] {
        let case = case.stopped(stop);
        let enough = comparison.compare(&case)?;
        if enough != *uncut {
            return Err(must_not_be(&case, "not as with no stop number", &enough));
        }
    }
    Ok(())
}

/// Cut a request once, and mend it.
fn cut_once(
    comparison: &mut Comparison,
    random: &mut Random,
    case: &Case,
    landings: &Landings,
) -> Result<(), Box<Difference>> {
    let cut = comparison.compare(case)?;
    if (cut.number(), cut.stores()) != (22, case.stop) {
        return Err(must_not_be(case, "not cut at the stop number", &cut));
    }
    let mended = mend(comparison, random, &cut)?;
    if !landings.fit(&cut).contains(&mended) {
        let wrong = "mended to another table than it may be";
        return Err(must_not_be(case, wrong, &cut));
    }
    comparison.cuts += 1;
    between(comparison, case, &cut, &mended)
}

/// A cut that fell between two names leaves a sound table with the list that was lent: the request that follows it gets 26 until a mend.
fn between(
    comparison: &mut Comparison,
    case: &Case,
    cut: &Outcome,
    mended: &[u8],
) -> Result<(), Box<Difference>> {
    if cut.table != mended || is_true(&cut.table, &cut.index) {
        return Ok(());
    }
    let case = Case {
        table: cut.table.clone(),
        ..case.with(&cut.index)
    };
    let refused = comparison.compare(&case)?;
    comparison.indexed.count_between();
    match refused.answer {
        [26, 0, 0, 0, 0, 0, 0] => Ok(()),
        _ => Err(must_not_be(&case, "not 26 between two names", &refused)),
    }
}

/// Mend a cut table; and cut the mending itself and mend again, which must end alike.
pub fn mend(
    comparison: &mut Comparison,
    random: &mut Random,
    cut: &Outcome,
) -> Result<Vec<u8>, Box<Difference>> {
    let case = Case::mend_after(cut, filebox::NO_STOP);
    let mended = comparison.compare(&case)?;
    if mended.number() != 0 {
        return Err(must_not_be(&case, "a cut table is not mended", &mended));
    }
    if mended.stores() > 0 {
        let stop = random.below(mended.stores() as usize) as u32;
        let cut = comparison.compare(&case.stopped(stop))?;
        let again = comparison.compare(&Case::mend_after(&cut, filebox::NO_STOP))?;
        if (&again.table, &again.index) != (&mended.table, &mended.index) {
            let wrong = "mended again, it ends otherwise";
            return Err(must_not_be(&case.stopped(stop), wrong, &cut));
        }
    }
    Ok(mended.table)
}

#[cfg(test)]
mod tests {
    use super::*;
    use crate::case::Asked;
    use crate::tables::long_file;

    /// A file as long as it may be, written over one as long by this line, cut at every store.
    fn cut_at_every_store(table: &[u8], line: &[u8], stores: u32) {
        let mut comparison = Comparison::default();
        let asked = Asked {
            line: line.to_vec(),
            text: vec![b'X'; 24_000],
            reply: 0,
            user: 1,
        };
        let case = Case::request(table, asked);
        let uncut = comparison.compare(&case).expect("both do the same");
        assert_eq!((uncut.number(), uncut.stores()), (0, stores));
        let every: Vec<u32> = (0..uncut.stores()).collect();
        cut_at(
            &mut comparison,
            &mut Random::new(1971),
            &case,
            &uncut,
            &every,
        )
        .expect("every cut is mended to a table that it may be");
        assert_eq!(comparison.cuts, stores.into());
    }

    /// The most stores that a request can need.
    #[test]
    fn the_longest_request_is_cut_at_every_store() {
        cut_at_every_store(&long_file(2048, "L"), b"WRS M .R:A", 2005);
    }

    /// In a table without a free record.
    #[test]
    fn the_longest_rewrite_is_cut_at_every_store() {
        cut_at_every_store(&long_file(1012, "M"), b"WRS* M .R:A", 2002);
    }
}
