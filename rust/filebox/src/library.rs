//! The eight functions of the static library, and the only unsafe code.
//!
//! The declarations are those of the library's C interface: a lent slice is a pointer and a length, the answer comes by
//! value. Nothing but reading checks them against the library.
#![allow(unsafe_code)]

use crate::answer::{Answer, SevenNumbers};
use crate::index::{Found, ThreeNumbers};
use crate::lamp::Light;
use crate::number::Number;

extern "C" {
    fn filebox_request(
        table: *mut u8,
        table_len: usize,
        index: *mut u16,
        index_len: usize,
        line: *const u8,
        line_len: usize,
        text: *const u8,
        text_len: usize,
        reply: *mut u8,
        reply_len: usize,
        user: u32,
        stop: u32,
    ) -> SevenNumbers;
    fn filebox_mend(
        table: *mut u8,
        table_len: usize,
        index: *mut u16,
        index_len: usize,
        stop: u32,
    ) -> SevenNumbers;
    fn filebox_sweep(
        table: *mut u8,
        table_len: usize,
        index: *mut u16,
        index_len: usize,
        stop: u32,
    ) -> SevenNumbers;
    fn filebox_look_up(
        table: *const u8,
        table_len: usize,
        index: *const u16,
        index_len: usize,
        heading: u32,
        user: u32,
        name: *const u8,
        name_len: usize,
    ) -> ThreeNumbers;
    fn filebox_lamp(
        table: *mut u8,
        table_len: usize,
        index: *mut u16,
        index_len: usize,
        sheets: *const u8,
        sheets_len: usize,
        texts: *const u8,
        texts_len: usize,
        back: *mut u8,
        back_len: usize,
        chain: *const u8,
        chain_len: usize,
        user: u32,
        stop: u32,
    ) -> Light;
    fn filebox_disk_phase(
        before: *const u8,
        before_len: usize,
        after: *const u8,
        after_len: usize,
        record: usize,
    ) -> u8;
    fn filebox_to_six(table: *mut u8, table_len: usize) -> u32;
    fn filebox_from_six(table: *mut u8, table_len: usize) -> u32;
}

/// Do the request of a line for a user: the table and its index are changed, the text is read, the reply buffer is written. Exactly the
/// first `stop` stores are made.
///
/// The index has a number for each record: those of the entries, in the order of directory, user and name, and [`PADDING`](crate::PADDING)
/// after the last. A list that is not that of the table gets 26, and nothing is done. [`index_of`](crate::index_of) builds the index of any
/// sound table; [`Table`](crate::Table) sees to it by itself. A request that is stopped leaves it as it was, for [`mend`] to build afresh.
///
/// ```
/// use filebox::{request, Number, NO_STOP, PADDING};
///
/// let (mut table, mut index) = ([0; 64], [PADDING; 2]);
/// let answer = request(&mut table, &mut index, b"CRD .R", b"", &mut [], 1, NO_STOP);
/// assert_eq!((answer.number, answer.names, answer.stores), (Number::Done, 1, 3));
/// assert_eq!(&table[..16], &[1, 0, 0, 0, 1, 0, 0, 0, 0, 0, 0, 0, 1, 0, 0, 0]);
/// assert_eq!(&table[32..50], &[2, 0, 255, 255, 0, 0, 1, 0, 0, 0, 0, 0, 0, 0, 0, 0, 178, 3]);
/// assert_eq!(index, [1, PADDING]);
///
/// let refused = request(&mut table, &mut [PADDING; 2], b"LST .", b"", &mut [], 1, NO_STOP);
/// assert_eq!(refused.number, Number::Index);
/// ```
#[must_use = "the answer may be a refusal"]
pub fn request(
    table: &mut [u8],
    index: &mut [u16],
    line: &[u8],
    text: &[u8],
    reply: &mut [u8],
    user: u32,
    stop: u32,
) -> Answer {
    // Sound: each pointer is to as many bytes, of the index as many numbers, as the length beside it says, readable, and writable where
    // the slice is lent `mut`; no two of the slices overlap, since three are lent `mut` and the others are only read. The library keeps no
    // pointer after the call. The pointer of an empty slice is never followed.
    let seven = unsafe {
        filebox_request(
            table.as_mut_ptr(),
            table.len(),
            index.as_mut_ptr(),
            index.len(),
            line.as_ptr(),
            line.len(),
            text.as_ptr(),
            text.len(),
            reply.as_mut_ptr(),
            reply.len(),
            user,
            stop,
        )
    };
    Answer::from(seven)
}

/// Mend a table, in rounds: clear the entries that name no heading or, base files' apart, whose directory is no heading, then the headings that no entry
/// names, then the text of no simple file or of a marked one, until nothing is left to clear; then correct the counts in the headings that are left. Exactly
/// the first `stop` stores are made; a mend that was cut is run again. A table without counts is brought up to date by one mend.
///
/// Done, it builds the index afresh, whatever the list held; only a list of another length than the table has records gets 26. Stopped or
/// refused, it leaves the list as it was.
///
/// ```
/// use filebox::{mend, request, Number, NO_STOP, PADDING};
///
/// let (mut table, mut index) = ([0; 64], [PADDING; 2]);
/// let cut = request(&mut table, &mut index, b"CRD .R", b"", &mut [], 1, 1);
/// assert_eq!((cut.number, cut.stores), (Number::Stopped, 1));
/// assert_eq!(mend(&mut table, &mut index, 0).number, Number::Stopped);
/// assert_eq!(mend(&mut table, &mut index, NO_STOP).stores, 1);
/// assert_eq!(table, [0; 64]);
/// // cut after the entry: the directory is there, its count is corrected, and its entry is in the index
/// let cut = request(&mut table, &mut index, b"CRD .R", b"", &mut [], 1, 2);
/// assert_eq!((cut.number, table[12], index), (Number::Stopped, 0, [PADDING; 2]));
/// assert_eq!(mend(&mut table, &mut index, NO_STOP).stores, 1);
/// assert_eq!((table[12], index), (1, [1, PADDING]));
/// assert_eq!(mend(&mut table, &mut index[..1], NO_STOP).number, Number::Index);
/// ```
#[must_use = "the answer may be a refusal"]
pub fn mend(table: &mut [u8], index: &mut [u16], stop: u32) -> Answer {
    // Sound: as above; both slices are lent `mut`.
    let seven = unsafe {
        filebox_mend(
            table.as_mut_ptr(),
            table.len(),
            index.as_mut_ptr(),
            index.len(),
            stop,
        )
    };
    Answer::from(seven)
}

/// Sweep a table: clear exactly what no chain of entries from any user's base files reaches, whatever the codes on it, entries, then headings, then
/// text, and correct the counts in the headings that are left. Exactly the first `stop` stores are made; a sweep that was cut, mended and swept again
/// ends in the same table as one uncut.
///
/// Done, it leaves the index true. A table that is not sound, or a list that is not its true index, is refused, by 1, 2 or 26, and nothing is done; stopped,
/// the list is as it was, for [`mend`] to build afresh. [`Table::sweep`](crate::Table::sweep) needs no index.
///
/// ```
/// use filebox::{mend, request, sweep, Number, NO_STOP, PADDING};
///
/// let (mut table, mut index) = ([0; 4 * 32], [PADDING; 4]);
/// // a directory that holds itself, and its base file deleted
/// for line in ["CRD .R", "DUP .R .R:LOOP", "DEL .R"] {
///     assert_eq!(request(&mut table, &mut index, line.as_bytes(), b"", &mut [], 1, NO_STOP).number, Number::Done);
/// }
/// assert_eq!(index, [2, PADDING, PADDING, PADDING]);
/// let cut = sweep(&mut table, &mut index, 1);
/// assert_eq!((cut.number, cut.stores), (Number::Stopped, 1));
/// // without its entry the heading is unnamed, and goes with the mend
/// assert_eq!(mend(&mut table, &mut index, NO_STOP).stores, 1);
/// assert_eq!(sweep(&mut table, &mut index, NO_STOP).stores, 0);
/// assert_eq!((table, index), ([0; 4 * 32], [PADDING; 4]));
/// assert_eq!(sweep(&mut table, &mut index[..3], NO_STOP).number, Number::Index);
/// ```
#[must_use = "the answer may be a refusal"]
pub fn sweep(table: &mut [u8], index: &mut [u16], stop: u32) -> Answer {
    // Sound: as above; both slices are lent `mut`.
    let seven = unsafe {
        filebox_sweep(
            table.as_mut_ptr(),
            table.len(),
            index.as_mut_ptr(),
            index.len(),
            stop,
        )
    };
    Answer::from(seven)
}

/// Look a name up by the index: the entry that bears it in the directory of this heading, or, where that is [`BASE`](crate::BASE), among the
/// base files of the user. On a sound table with its true index it is what looking at every record would find, and takes at most 12
/// comparisons. Neither is judged: on any others it is what a halving search of the list meets.
/// [`Table::look_up`](crate::Table::look_up) has an index that is true.
///
/// ```
/// use filebox::{look_up, request, BASE, NO_STOP, PADDING};
///
/// let (mut table, mut index) = ([0; 64], [PADDING; 2]);
/// assert_eq!(request(&mut table, &mut index, b"CRD .R", b"", &mut [], 1, NO_STOP).stores, 3);
/// assert_eq!(look_up(&table, &index, BASE, 1, b".R").numbers(), [1, 1, 1]);
/// assert_eq!(look_up(&table, &index, BASE, 2, b".R").numbers(), [0, 65_535, 1]);
/// // what is no link name is borne by no entry, and none is looked at
/// assert_eq!(look_up(&table, &index, BASE, 1, b".R:A").numbers(), [0, 65_535, 0]);
/// ```
pub fn look_up(table: &[u8], index: &[u16], heading: u32, user: u32, name: &[u8]) -> Found {
    // Sound: as above; the three slices are only read.
    let three = unsafe {
        filebox_look_up(
            table.as_ptr(),
            table.len(),
            index.as_ptr(),
            index.len(),
            heading,
            user,
            name.as_ptr(),
            name.len(),
        )
    };
    Found::from(three)
}

/// Light the lamp of a job for a user: file each sheet's text in the directory of the chain, then read each back into the
/// buffer. The table and its index are changed, sheets, texts and chain are read, the buffer is written. Exactly the first `stop` stores of
/// the whole job are made. [`Table::light`](crate::Table::light) takes names and texts and needs neither index nor buffer.
///
/// ```
/// use filebox::{light, request, NO_STOP, PADDING};
///
/// let (mut table, mut index) = ([0; 5 * 32], [PADDING; 5]);
/// assert_eq!(request(&mut table, &mut index, b"CRD .R", b"", &mut [], 1, NO_STOP).stores, 3);
/// let mut sheet = [0; 32];
/// sheet[..6].copy_from_slice(b"LIMITS");
/// sheet[10] = 5;
/// let mut back = [0; 5];
/// let green = light(&mut table, &mut index, &sheet, b"5.0 V", &mut back, b".R", 1, NO_STOP);
/// assert_eq!(green.numbers(), [0, 0, 0, 0, 5]);
/// assert_eq!(&back, b"5.0 V");
/// // the sheet's entry, in the directory in record 0, then that of `.R`
/// assert_eq!(index, [4, 1, PADDING, PADDING, PADDING]);
/// ```
// the arguments are those of the library's call
#[allow(clippy::too_many_arguments)]
pub fn light(
    table: &mut [u8],
    index: &mut [u16],
    sheets: &[u8],
    texts: &[u8],
    back: &mut [u8],
    chain: &[u8],
    user: u32,
    stop: u32,
) -> Light {
    // Sound: as above; three of the six slices are lent `mut`, the others are only read.
    unsafe {
        filebox_lamp(
            table.as_mut_ptr(),
            table.len(),
            index.as_mut_ptr(),
            index.len(),
            sheets.as_ptr(),
            sheets.len(),
            texts.as_ptr(),
            texts.len(),
            back.as_mut_ptr(),
            back.len(),
            chain.as_ptr(),
            chain.len(),
            user,
            stop,
        )
    }
}

/// Convert a table of the old layout, whose entries have a length in byte 9 and the name's characters from byte 10 on, to six-bit names,
/// the one layout that requests and mending know. [`Number::Done`], and every entry is converted in its place; or
/// [`Number::TableLength`] or [`Number::TableNotSound`] in the old layout, and the table is as lent. Nothing is promised of a conversion
/// that the power cuts: convert a copy.
///
/// ```
/// use filebox::{from_six, to_six, Number, Table};
///
/// let mut table = Table::free(2);
/// table.ask(1, "CRD .R").unwrap();
/// let six = table.clone();
/// assert_eq!(from_six(table.as_mut()), Number::Done);
/// assert_eq!(&table.as_ref()[32..44], &[2, 0, 255, 255, 0, 0, 1, 0, 0, 2, b'.', b'R']);
/// // a table of the old layout is not sound
/// assert_eq!(table.list(1, ".R").unwrap_err().to_string(), "2: table not sound");
/// assert_eq!(to_six(table.as_mut()), Number::Done);
/// assert_eq!(table, six);
/// // it is no longer one of the old layout
/// assert_eq!(to_six(table.as_mut()), Number::TableNotSound);
/// assert_eq!(table, six);
/// ```
#[must_use = "the table may be refused"]
pub fn to_six(table: &mut [u8]) -> Number {
    // Sound: as above; the one slice is lent `mut`.
    told(unsafe { filebox_to_six(table.as_mut_ptr(), table.len()) })
}

/// Convert a table of six-bit names back to the old layout, for whoever still reads that. As [`to_six`], and nothing is lost by going
/// there and back.
#[must_use = "the table may be refused"]
pub fn from_six(table: &mut [u8]) -> Number {
    // Sound: as above; the one slice is lent `mut`.
    told(unsafe { filebox_from_six(table.as_mut_ptr(), table.len()) })
}

/// The number of a conversion. The proved library answers with 0, 1 or 2. Another library would panic here.
fn told(number: u32) -> Number {
    Number::try_from(number).expect("the library answers with a number of the documents")
}

/// The number of a record's phase: 0 same, 1 first, 2 entry, 3 last.
pub(crate) fn disk_phase(before: &[u8], after: &[u8], record: usize) -> u8 {
    // Sound: as above; both slices are only read.
    unsafe {
        filebox_disk_phase(
            before.as_ptr(),
            before.len(),
            after.as_ptr(),
            after.len(),
            record,
        )
    }
}
