//! What a file may hold after a kill, and what it may be mended to.

pub type Checked = Result<(), String>;

/// "stop number reached"
const STOPPED: u32 = 22;
const RECORD: usize = 32;
const FREE: u8 = 0;
const HEADING: u8 = 1;
const TEXT: u8 = 3;

/// The tables that a call may be mended to: the one before, the one after each name that is done, and of a rewrite, between these, the one
/// with that file marked and empty.
pub fn tables(stopped: impl Fn(u32) -> (beside::Answer, Vec<u8>)) -> Vec<Vec<u8>> {
    told(stopped, |_| ())
}

/// The tables that a call, cut by a kill, may be mended to. Fails unless the file holds some first part of the call's stores,
/// and nothing else.
pub fn stations(
    stopped: impl Fn(u32) -> (beside::Answer, Vec<u8>),
    file: &[u8],
) -> Result<Vec<Vec<u8>>, String> {
    let mut held = false;
    let stations = told(stopped, |table| held |= table == file);
    match held {
        true => Ok(stations),
        false => Err("the file holds no first part of the stores".to_string()),
    }
}

/// Is the heading in this record marked?
pub fn is_marked(table: &[u8], file: usize) -> bool {
    table[file * RECORD..][..6][5] == 1
}

/// Of a rewrite, the file that its first store marks, by the number of its heading, and the table before with that file marked and empty. A
/// file that is marked already has no such table beside the one before.
pub fn emptied(stopped: impl Fn(u32) -> (beside::Answer, Vec<u8>)) -> Option<(usize, Vec<u8>)> {
    let ((_, mut table), (answer, marked)) = (stopped(0), stopped(1));
    let pairs = table.chunks(RECORD).zip(marked.chunks(RECORD));
    let file = pairs.enumerate().position(|(_, (old, new))| {
        old != new && [old[0], new[0]] == [HEADING; 2] && new[5] == 1
    })?;
    if answer.number != STOPPED {
        return None;
    }
    let own = |record: &[u8]| {
        record[0] == TEXT && usize::from(u16::from_le_bytes([record[2], record[3]])) == file
    };
    let texts = table.chunks_mut(RECORD).filter(|record| own(record));
    texts.for_each(|record| record.fill(0));
    let heading = &mut table[file * RECORD..][..RECORD];
    heading[5] = 1;
    heading[10..12].fill(0);
    Some((file, table))
}

/// Of a DST, the number of the heading that its first store clears.
pub fn headless(stopped: impl Fn(u32) -> (beside::Answer, Vec<u8>)) -> Option<usize> {
    let ((_, before), (_, first)) = (stopped(0), stopped(1));
    let mut pairs = before.chunks(RECORD).zip(first.chunks(RECORD));
    pairs.position(|(old, new)| (old[0], new[0]) == (HEADING, FREE))
}

/// The table before and after each name, and of a rewrite the third; each table between is looked at.
fn told(
    stopped: impl Fn(u32) -> (beside::Answer, Vec<u8>),
    mut look: impl FnMut(&[u8]),
) -> Vec<Vec<u8>> {
    let (mut stations, mut names) = (Vec::new(), 0);
    for stop in 0.. {
        let (answer, table) = stopped(stop);
        look(&table);
        if stop == 0 || answer.names > names {
            names = answer.names;
            stations.push(table);
        }
        if answer.number != STOPPED {
            break;
        }
    }
    if let Some((_, empty)) = emptied(stopped) {
        stations.insert(1, empty);
    }
    stations
}

/// Fails unless the two are equal.
pub fn equal<T: PartialEq + ?Sized>(what: &str, is: &T, should_be: &T) -> Checked {
    match is == should_be {
        true => Ok(()),
        false => Err(format!("{what} is not what it should be")),
    }
}
