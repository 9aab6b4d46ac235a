//! "A cut, once mended, leaves the first sheets filed and no half of any": jobs on tables that are made up, each done by both
//! and cut at its stop numbers.

use random::Random;

use crate::case::{Case, Comparison};
use crate::indexed::is_true;
use crate::job::{Job, Lit, Unlike};
use crate::lights::Lights;
use crate::sheets::{grow, job};
use crate::tables::Starts;

type Told = Result<(), Box<Unlike>>;

const GREEN: u32 = 0;
const RED: u32 = 1;
const REFUSED: u32 = 2;
const FILING: u32 = 1;
const READING: u32 = 2;
/// Every stop number below this is tried; of the others, some.
const ALL_BELOW: u32 = 64;
/// The jobs on one table.
const ON_A_TABLE: u64 = 16;

/// So many jobs on tables of this seed.
pub fn run(lights: &mut Lights, count: u64, seed: u64) -> Told {
    let mut random = Random::new(seed);
    let starts = Starts::new();
    while lights.jobs < count {
        let mut table = starts.start(&mut random).table;
        let requests = if table.len() > 8_192 {
            4
        } else {
            random.below(40)
        };
        grow(&mut random, &mut table, requests);
        for _ in 0..ON_A_TABLE.min(count - lights.jobs) {
            lights.jobs += 1;
            let job = job(&mut random, &table);
            told(lights, &mut random, &job)?;
        }
    }
    Ok(())
}

/// One job, uncut and cut.
fn told(lights: &mut Lights, random: &mut Random, job: &Job) -> Told {
    let stop = random.pick(&[0, 1, 5, u32::MAX]);
    job.stopped(stop).compared(lights)?;
    let uncut = job.compared(lights)?;
    if let Some(wrong) = broken(job, &uncut).or(list_broken(job, &uncut)) {
        return Err(job.must_not_be(wrong, &uncut));
    }
    match uncut.stores() {
        0 => Ok(()),
        _ => cut_everywhere(lights, random, job, &uncut),
    }
}

/// What every light promises of the list, whatever the job: as lent where nothing was filed, or not on this table with this list; true
/// where the lamp is not red by a cut.
fn list_broken(job: &Job, lit: &Lit) -> Option<&'static str> {
    let [_, _, _, number, stores] = lit.answer;
    let kept = match stores {
        0 => lit.index == job.index,
        _ => number == 22 || is_true(&lit.table, &lit.index),
    };
    (!kept).then_some("the list")
}

/// What every light promises, whatever the job: what of it is broken.
fn broken(job: &Job, lit: &Lit) -> Option<&'static str> {
    let [light, sheet, phase, number, stores] = lit.answer;
    let table_as_lent = lit.table == job.table;
    let (kept, wrong) = match (light, phase) {
        (GREEN, 0) => {
            let nothing = table_as_lent && job.sheets.is_empty();
            (sheet + number == 0 && nothing == (stores == 0), "green")
        }
        (RED, FILING) => {
            let kept = lit.is_back_as_lent() && (stores > 0 || table_as_lent);
            (sheet * number > 0 && kept, "red in filing")
        }
        // a link of the chain was displaced by a sheet
        (RED, READING) => ((sheet, number) == (1, 12) && stores > 0, "red in reading"),
        (REFUSED, 0) => {
            let kept = lit.is_back_as_lent() && table_as_lent && stores == 0;
            (sheet > 0 && (1..=4).contains(&number) && kept, "refused")
        }
        _ => (false, "no such light"),
    };
    (!kept).then_some(wrong)
}

/// A table and the list beside it.
type Kept = (Vec<u8>, Vec<u16>);

/// The tables after none of the sheets, after the first, and so on: filed by the first library's requests, one by one.
fn stations(job: &Job) -> Vec<Kept> {
    let (mut table, mut index) = (job.table.clone(), job.index.clone());
    let mut stations = vec![(table.clone(), index.clone())];
    for (line, text) in job.filings() {
        let stop = filebox::NO_STOP;
        let (user, reply) = (job.user, &mut []);
        let answer = filebox::request(&mut table, &mut index, &line, text, reply, user, stop);
        if answer.number.code() != 0 {
            break;
        }
        stations.push((table.clone(), index.clone()));
    }
    stations
}

/// The stop numbers to try, from 0 up to the stores needed, less one.
fn stops(random: &mut Random, needed: u32) -> Vec<u32> {
    let mut stops: Vec<u32> = (0..needed.min(ALL_BELOW)).collect();
    if needed > ALL_BELOW {
        let beyond = (needed - ALL_BELOW) as usize;
        stops.extend((0..6).map(|_| ALL_BELOW + random.below(beyond) as u32));
        stops.push(needed - 1);
    }
    stops
}

/// Cut a job that stores at its stop numbers, and mend each cut. Those that cut nothing give what no stop number gives.
fn cut_everywhere(lights: &mut Lights, random: &mut Random, job: &Job, uncut: &Lit) -> Told {
    let stations = stations(job);
    if stations.last() != Some(&(uncut.table.clone(), uncut.index.clone())) {
        return Err(job.must_not_be("not the table and the list after its requests", uncut));
    }
    for stop in stops(random, uncut.stores()) {
        cut_once(lights, &job.stopped(stop), &stations)?;
    }
    for stop in [uncut.stores(), uncut.stores() + 1] {
        let job = job.stopped(stop);
        let enough = job.compared(lights)?;
        if enough != *uncut {
            return Err(job.must_not_be("not as with no stop number", &enough));
        }
    }
    Ok(())
}

/// Cut a job once: the list is that of the table after the sheets before the one at which it was stopped; mended, the table is that one, or
/// the one after that sheet.
fn cut_once(lights: &mut Lights, job: &Job, stations: &[Kept]) -> Told {
    let cut = job.compared(lights)?;
    let [light, sheet, phase, number, stores] = cut.answer;
    if [light, phase, number, stores] != [RED, FILING, 22, job.stop] {
        return Err(job.must_not_be("not cut at the stop number", &cut));
    }
    let sheet = sheet as usize;
    if cut.index != stations[sheet - 1].1 {
        return Err(job.must_not_be("not the list after the sheet before", &cut));
    }
    let mend = Case::mend(&cut.table, filebox::NO_STOP).with(&cut.index);
    let mended = Comparison::default().compare(&mend);
    let Some(mended) = mended.ok().filter(|mended| mended.number() == 0) else {
        return Err(job.must_not_be("a cut table is not mended, or not alike", &cut));
    };
    let filed = |sheets: usize| {
        let station = stations.get(sheets);
        station.is_some_and(|(table, index)| (table, index) == (&mended.table, &mended.index))
    };
    if !filed(sheet - 1) && !filed(sheet) {
        return Err(job.must_not_be("mended to neither the sheets before nor one more", &cut));
    }
    lights.cut_late += u64::from(!filed(sheet - 1));
    lights.cuts += 1;
    Ok(())
}

#[cfg(test)]
mod tests {
    use super::*;
    use crate::indexed::PADDING;
    use crate::tables;

    /// The most sheets that a job can file, and one more: cut at every store.
    #[test]
    fn a_directory_filled_by_a_job_is_cut_at_every_store() {
        let mut lights = Lights::default();
        let mut table = vec![0; 230 * 32];
        assert_eq!(tables::ask(&mut table, b"CRD .R", b"", 1, u32::MAX), 0);
        let record = |n: u8| {
            let mut record = [0; 32];
            record[..2].copy_from_slice(&[b'A' + n / 16, b'A' + n % 16]);
            record
        };
        let job = Job {
            index: beside::true_index(&table),
            table,
            sheets: (0..113).flat_map(record).collect(),
            texts: Vec::new(),
            room: 0,
            chain: b".R".to_vec(),
            user: 1,
            stop: filebox::NO_STOP,
        };
        let uncut = job.compared(&mut lights).expect("both do the same");
        // heading and entry of each of 112 sheets, and the counts of both headings
        assert_eq!(uncut.answer, [RED, 113, FILING, 17, 448]);
        let stations = stations(&job);
        assert_eq!(stations.len(), 113);
        for stop in 0..448 {
            let cut = cut_once(&mut lights, &job.stopped(stop), &stations);
            cut.expect("mended to the first sheets");
        }
        assert_eq!(lights.cuts, 448);
    }

    #[test]
    fn a_light_that_promises_too_much_is_broken() {
        let job = Job {
            table: vec![0; 32],
            index: vec![PADDING],
            sheets: vec![b'A'; 32],
            texts: Vec::new(),
            room: 2,
            chain: Vec::new(),
            user: 1,
            stop: 0,
        };
        let lit = |answer, first, back| Lit {
            answer,
            table: [&[first][..], &[0; 31]].concat(),
            index: vec![PADDING],
            back: vec![back; 2],
        };
        const LENT: u8 = crate::case::UNTOUCHED;
        let kept = |answer, first, back| broken(&job, &lit(answer, first, back)).is_none();
        assert!(kept([GREEN, 0, 0, 0, 2], 1, 7));
        assert!(!kept([GREEN, 0, 0, 0, 0], 0, LENT)); // nothing filed
        assert!(!kept([GREEN, 1, 0, 0, 2], 1, 7));
        assert!(kept([RED, 1, FILING, 22, 1], 1, LENT));
        assert!(!kept([RED, 1, FILING, 22, 1], 1, 7)); // the buffer written
        assert!(!kept([RED, 1, FILING, 11, 0], 1, LENT)); // the table changed
        assert!(!kept([RED, 1, FILING, 0, 2], 1, LENT));
        assert!(kept([RED, 1, READING, 12, 3], 1, LENT));
        assert!(!kept([RED, 2, READING, 12, 3], 1, LENT));
        assert!(!kept([RED, 1, READING, 0, 3], 1, LENT));
        assert!(kept([REFUSED, 1, 0, 4, 0], 0, LENT));
        assert!(!kept([REFUSED, 1, 0, 4, 0], 1, LENT));
        assert!(!kept([REFUSED, 1, 0, 5, 0], 0, LENT));
        assert!(!kept([3, 1, 0, 1, 0], 0, LENT));
    }

    #[test]
    fn a_list_that_is_not_as_it_must_be_is_broken() {
        let table = vec![0; 32];
        let job = Job {
            index: vec![PADDING],
            sheets: vec![b'A'; 32],
            texts: Vec::new(),
            room: 0,
            chain: Vec::new(),
            user: 1,
            stop: 0,
            table,
        };
        let kept = |answer, number: u16| {
            let lit = Lit {
                answer,
                table: job.table.clone(),
                index: vec![number],
                back: Vec::new(),
            };
            list_broken(&job, &lit).is_none()
        };
        assert!(kept([GREEN, 0, 0, 0, 4], PADDING));
        assert!(!kept([GREEN, 0, 0, 0, 4], 0)); // not true
        assert!(kept([RED, 1, FILING, 22, 1], 0));
        assert!(kept([RED, 1, FILING, 26, 0], PADDING));
        assert!(!kept([RED, 1, FILING, 26, 0], 0)); // not as lent
    }
}
