//! "A sweep cut anywhere, mended and swept again ends in the same table as one uncut": tables that requests made, with loops that no base file
//! reaches, each swept by both and cut at its stop numbers.

use random::damage::{damage, litter};
use random::loops::{about, unhook};
use random::{lists, Random};

use crate::case::{must_not_be, Case, Comparison, Difference, Outcome};
use crate::cut::{mend, stops};
use crate::tables::{ask, attic, shuffled, spoiled, Starts};

type Told = Result<(), Box<Difference>>;

/// A table is left for another after so many sweeps; a large one takes as long as many small ones.
const ON_A_TABLE: usize = 24;
const ON_A_LARGE_ONE: usize = 6;
const LARGE: usize = 8_192;

/// So many sweeps on tables of this seed.
pub fn run(comparison: &mut Comparison, count: u64, seed: u64) -> Told {
    let mut random = Random::new(seed);
    let (starts, attic) = (Starts::new(), attic());
    while comparison.requests < count {
        let mut table = match random.once_in(3) {
            true => starts.start(&mut random).table,
            false => attic.clone(),
        };
        let sweeps = if table.len() > LARGE {
            ON_A_LARGE_ONE
        } else {
            ON_A_TABLE
        };
        for _ in 0..sweeps {
            if comparison.requests == count {
                break;
            }
            comparison.requests += 1;
            grow(&mut random, &mut table);
            let swept = told(comparison, &mut random, &table)?;
            if random.once_in(6) {
                table = swept;
            }
        }
    }
    Ok(())
}

/// A few requests of two users that make loops and lose them; now and then the records in another order.
fn grow(random: &mut Random, table: &mut Vec<u8>) {
    for _ in 0..=random.below(4) {
        let user = random.pick(&[1, 1, 2]);
        let line = about(random, table, user);
        let length = random.below(60);
        let text = random.bytes(length);
        // granted or not
        ask(table, &line, &text, user, filebox::NO_STOP);
    }
    if random.once_in(8) {
        *table = shuffled(random, table);
    }
}

/// One table swept: stopped anywhere, with another list, something else befallen it, uncut, and cut at its stop numbers; what it leaves.
fn told(
    comparison: &mut Comparison,
    random: &mut Random,
    table: &[u8],
) -> Result<Vec<u8>, Box<Difference>> {
    let case = Case::sweep(table);
    let stop = random.pick(&[0, 1, 2, 5, u32::MAX]);
    comparison.compare(&case.stopped(stop))?;
    if random.once_in(4) {
        let list = lists::wrong(random, &case.index, &[]);
        comparison.compare(&case.with(&list).stopped(stop))?;
    }
    if random.once_in(3) {
        on_a_spoiled_table(comparison, random, table)?;
    }
    let uncut = comparison.compare(&case)?;
    let again = comparison.compare(&after(&uncut))?;
    if uncut.number() != 0 || again.answer != [0; 7] || again.table != uncut.table {
        return Err(must_not_be(&case, "swept again, something changes", &uncut));
    }
    if uncut.stores() > 0 {
        cut_everywhere(comparison, random, &case, &uncut)?;
    }
    Ok(uncut.table)
}

/// The sweep, and mending, on a copy of the table that something befell: most often a tree is cut off.
fn on_a_spoiled_table(comparison: &mut Comparison, random: &mut Random, table: &[u8]) -> Told {
    let mut other = table.to_vec();
    match random.below(12) {
        0 | 1 => other = spoiled(random, table, 1),
        2 => (0..3).for_each(|_| unhook(random, &mut other)),
        3 => {
            unhook(random, &mut other);
            litter(random, &mut other);
        }
        4..=6 => {
            unhook(random, &mut other);
            damage(random, &mut other);
        }
        7 | 8 => other.resize(random.pick(&[1, table.len() + 31, 65_568]), 0),
        _ => unhook(random, &mut other),
    }
    let mut case = Case::sweep(&other);
    if random.once_in(3) {
        case = case.with(&lists::wrong(random, &case.index, &[]));
    }
    comparison.compare(&case)?;
    let whole = Case::mend(&other, filebox::NO_STOP);
    let mended = comparison.compare(&whole)?;
    if mended.number() != 0 || mended.stores() == 0 {
        return Ok(());
    }
    let stop = random.below(mended.stores() as usize) as u32;
    let cut = comparison.compare(&whole.stopped(stop))?;
    let again = comparison.compare(&Case::mend_after(&cut, filebox::NO_STOP))?;
    match (&again.table, &again.index) == (&mended.table, &mended.index) {
        true => comparison.compare(&after(&mended)).map(|_| ()),
        false => Err(must_not_be(
            &whole.stopped(stop),
            "mended again, it ends otherwise",
            &cut,
        )),
    }
}

/// A sweep of what a call left, with the list that it left.
fn after(left: &Outcome) -> Case {
    Case::sweep(&left.table).with(&left.index)
}

/// Cut a sweep at its stop numbers, mend each cut, and sweep again. Those that cut nothing give what no stop number gives.
fn cut_everywhere(
    comparison: &mut Comparison,
    random: &mut Random,
    case: &Case,
    uncut: &Outcome,
) -> Told {
    for stop in stops(random, uncut.stores()) {
        cut_once(comparison, random, &case.stopped(stop), uncut)?;
    }
    for stop in [uncut.stores(), uncut.stores() + 1] {
        let case = case.stopped(stop);
        let enough = comparison.compare(&case)?;
        if enough != *uncut {
            return Err(must_not_be(&case, "not as with no stop number", &enough));
        }
    }
    Ok(())
}

/// Cut a sweep once: mended, by a mend that is cut too, and swept again, by a sweep that is cut too, it ends as the uncut one.
fn cut_once(
    comparison: &mut Comparison,
    random: &mut Random,
    case: &Case,
    uncut: &Outcome,
) -> Told {
    let cut = comparison.compare(case)?;
    if (cut.number(), cut.stores()) != (22, case.stop) {
        return Err(must_not_be(case, "not cut at the stop number", &cut));
    }
    let mended = mend(comparison, random, &cut)?;
    let mut again = comparison.compare(&Case::sweep(&mended))?;
    comparison.swept.count_again(again.stores());
    if again.stores() > 1 && random.once_in(4) {
        let stop = random.below(again.stores() as usize) as u32;
        let twice = comparison.compare(&Case::sweep(&mended).stopped(stop))?;
        let mended = mend(comparison, random, &twice)?;
        again = comparison.compare(&Case::sweep(&mended))?;
    }
    comparison.cuts += 1;
    match (again.number(), &again.table, &again.index) == (0, &uncut.table, &uncut.index) {
        true => Ok(()),
        false => Err(must_not_be(
            case,
            "cut, mended and swept again, it ends otherwise",
            &cut,
        )),
    }
}
