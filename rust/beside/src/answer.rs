//! The three calls, `request`, `mend` and `sweep`, and their answer.

use crate::effects::{outcome, Asked, Outcome};
use crate::index::{build, has_a_place_for_each, is_true};
use crate::layout::Layout;
use crate::mend::{make, stores, Mended};
use crate::records::RECORD_BYTES;
use crate::request::{read, refusal, Place, Refusal};
use crate::sound::{is_sound, sound_in, HIGHEST_USER};
use crate::sweep::clearings;
use crate::table::{length_fits, Table};

/// The reply numbers: 0 to 22 of document 01, and 23 to 28 of document 02.
pub const NUMBERS: [u32; 29] = [
    0, 1, 2, 3, 4, 5, 6, 7, 8, 9, 10, 11, 12, 13, 14, 15, 16, 17, 18, 19, 20, 21, 22, 23, 24, 25,
    26, 27, 28,
];
/// "a run that answers 22".
const STOPPED: u32 = 22;
/// As many counts as have one for each number.
pub const COUNTS: usize = NUMBERS[NUMBERS.len() - 1] as usize + 1;

/// "An answer has: number; place ...; names done; displaced or not; bytes written; stores made." "The place becomes
/// argument and link".
#[derive(Debug, Clone, Copy, PartialEq, Eq)]
pub struct Answer {
    /// The reply number, one of `NUMBERS`.
    pub number: u32,
    /// "argument from 1", or 0.
    pub argument: u32,
    /// "the link counted from 1 with the supplied `.W` as link 1", or 0.
    pub link: u32,
    /// "names all of whose stores were made"; 1 for a granted RDS, LST or LST*.
    pub names: u32,
    /// 1 if an entry was displaced, else 0.
    pub displaced: u32,
    /// The bytes written to the front of the reply buffer, as many as that may have.
    pub bytes: usize,
    /// The stores made.
    pub stores: u32,
}

impl Answer {
    /// A number and its place, and nothing done. "On any number but 0, displaced is no and bytes are 0."
    fn refused(refusal: Refusal) -> Answer {
        Answer {
            number: refusal.number,
            argument: refusal.place.argument,
            link: refusal.place.link,
            names: 0,
            displaced: 0,
            bytes: 0,
            stores: 0,
        }
    }

    /// The seven numbers: number, argument, link, names, displaced, bytes, stores.
    pub fn numbers(self) -> [u64; 7] {
        [
            self.number.into(),
            self.argument.into(),
            self.link.into(),
            self.names.into(),
            self.displaced.into(),
            self.bytes as u64,
            self.stores.into(),
        ]
    }
}

/// Do a request: the table and the index are changed, the line and the text are read, the reply buffer is written; for a user,
/// with a stop number. Answers for every input, and never panics.
#[must_use = "the answer may be a refusal"]
pub fn request(
    table: &mut [u8],
    index: &mut [u16],
    line: &[u8],
    text: &[u8],
    reply: &mut [u8],
    user: u32,
    stop: u32,
) -> Answer {
    request_in(Layout::Six, table, index, line, text, reply, user, stop)
}

/// The same on a table whose names lie so: "every request answers as on the old table".
#[must_use = "the answer may be a refusal"]
#[allow(clippy::too_many_arguments)]
pub fn request_in(
    layout: Layout,
    table: &mut [u8],
    index: &mut [u16],
    line: &[u8],
    text: &[u8],
    reply: &mut [u8],
    user: u32,
    stop: u32,
) -> Answer {
    let judged = admitted(layout, table, index, user).and_then(|admitted| {
        let request = read(line, text.len())?;
        let asked = Asked {
            table: &admitted,
            user,
            text,
            room: reply.len(),
        };
        Ok(outcome(&asked, &request))
    });
    match judged {
        Err(refusal) => Answer::refused(refusal),
        Ok(outcome) => {
            let answer = carry_out(layout, &outcome, table, reply, stop);
            keep(layout, table, index, answer)
        }
    }
}

/// Numbers 1, 2, 26 and 3: 26 "straight after 2".
fn admitted(layout: Layout, bytes: &[u8], index: &[u16], user: u32) -> Result<Table, Refusal> {
    let table = judged(layout, bytes, index)?;
    if user > HIGHEST_USER {
        return Err(refusal(3, Place::NONE));
    }
    Ok(table)
}

/// "1, 2 and 26 as for a request": the table as it is lent is sound, and the index is true.
fn judged(layout: Layout, bytes: &[u8], index: &[u16]) -> Result<Table, Refusal> {
    if !length_fits(bytes) {
        return Err(refusal(1, Place::NONE));
    }
    let table = Table::read(layout, bytes)
        .filter(is_sound)
        .ok_or(refusal(2, Place::NONE))?;
    if !is_true(layout, bytes, index) {
        return Err(refusal(26, Place::NONE));
    }
    Ok(table)
}

/// "Every request keeps the index true, a delete refused midway included. A run that answers 22 leaves the index as it was lent".
fn keep(layout: Layout, table: &[u8], index: &mut [u16], answer: Answer) -> Answer {
    if answer.number != STOPPED {
        build(layout, table, index);
    }
    answer
}

/// How many of the stores that are needed are made: "Exactly the first k".
fn first(needed: usize, stop: u32) -> usize {
    needed.min(usize::try_from(stop).unwrap_or(usize::MAX))
}

/// "Exactly the first k stores are made. If more were needed, the answer is 22, in a DEL even where a later name
/// would be refused", and so in a DST.
fn carry_out(
    layout: Layout,
    outcome: &Outcome,
    table: &mut [u8],
    reply: &mut [u8],
    stop: u32,
) -> Answer {
    let needed = outcome.stores.len();
    let made = first(needed, stop);
    for store in &outcome.stores[..made] {
        let at = store.number * RECORD_BYTES;
        table[at..at + RECORD_BYTES].copy_from_slice(&store.record.write(layout));
    }
    let done = |stores: &&usize| **stores <= made;
    let counted = |refusal| Answer {
        names: outcome.names.iter().filter(done).count() as u32,
        stores: made as u32,
        ..Answer::refused(refusal)
    };
    if made < needed {
        return counted(refusal(STOPPED, Place::NONE));
    }
    if let Some(refusal) = outcome.refusal {
        return counted(refusal);
    }
    reply[..outcome.reply.len()].copy_from_slice(&outcome.reply);
    Answer {
        displaced: outcome.displaced.into(),
        bytes: outcome.reply.len(),
        ..counted(refusal(0, Place::NONE))
    }
}

/// Mend a table, with a stop number. "If the result wouldn't be sound, answer 2 and leave the table as found." "mending judges only the
/// length" of the index and "builds it afresh".
#[must_use = "the answer may be a refusal"]
pub fn mend(table: &mut [u8], index: &mut [u16], stop: u32) -> Answer {
    mend_in(Layout::Six, table, index, stop)
}

/// The same of a table whose names lie so. Mending looks at no name; whether the result is sound does, and the index.
#[must_use = "the answer may be a refusal"]
pub fn mend_in(layout: Layout, table: &mut [u8], index: &mut [u16], stop: u32) -> Answer {
    if !length_fits(table) {
        return Answer::refused(refusal(1, Place::NONE));
    }
    let stores = stores(table);
    let mut result = table.to_vec();
    make(&mut result, &stores);
    if !sound_in(layout, &result) {
        return Answer::refused(refusal(2, Place::NONE));
    }
    if !has_a_place_for_each(table, index) {
        return Answer::refused(refusal(26, Place::NONE));
    }
    store(layout, table, index, &stores, stop)
}

/// Sweep a table, with a stop number: clear "exactly what no chain of entries from any user's base files reaches ... It is a call like
/// mending, with a stop number and the same answer." "Granted, it leaves the index true."
#[must_use = "the answer may be a refusal"]
pub fn sweep(table: &mut [u8], index: &mut [u16], stop: u32) -> Answer {
    sweep_in(Layout::Six, table, index, stop)
}

/// The same of a table whose names lie so.
#[must_use = "the answer may be a refusal"]
pub fn sweep_in(layout: Layout, table: &mut [u8], index: &mut [u16], stop: u32) -> Answer {
    match judged(layout, table, index) {
        Err(refusal) => Answer::refused(refusal),
        Ok(judged) => {
            let clearings = clearings(&judged).into_iter();
            let written = clearings.map(|store| (store.number, store.record.write(layout)));
            let stores: Vec<Mended> = written.collect();
            store(layout, table, index, &stores, stop)
        }
    }
}

/// The stores of a mend or a sweep made, as many as the stop number allows: "the same answer".
fn store(
    layout: Layout,
    table: &mut [u8],
    index: &mut [u16],
    stores: &[Mended],
    stop: u32,
) -> Answer {
    let made = first(stores.len(), stop);
    make(table, &stores[..made]);
    let number = if made < stores.len() { STOPPED } else { 0 };
    let answer = Answer {
        stores: made as u32,
        ..Answer::refused(refusal(number, Place::NONE))
    };
    keep(layout, table, index, answer)
}
