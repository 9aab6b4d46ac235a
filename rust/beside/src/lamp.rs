//! "The lamp. A second library above the first, for the fixture": document 02, m.
//!
//! Written from document 02 and its readings alone, over the requests of this program. It answers for every input, and
//! never panics.

use std::collections::HashSet;

use crate::answer::{request, Answer};
use crate::names::is_link_name;

/// "A job sheet is records of 32 bytes".
const SHEET_BYTES: usize = 32;
/// "link name (padded with zeros), text length (two bytes, at 10), the rest zero".
const NAME_BYTES: usize = 10;
const REST: usize = 12;

const GREEN: u32 = 0;
const RED: u32 = 1;
const REFUSED: u32 = 2;
const FILING: u32 = 1;
const READING: u32 = 2;

/// The answer of the lamp, five numbers.
#[derive(Debug, Clone, Copy, PartialEq, Eq)]
#[must_use]
pub struct Light {
    /// 0 green, 1 red, 2 refused.
    pub light: u32,
    /// "the number, from 1, of the first sheet that failed", or the first sheet of which the refusal is true; else 0.
    pub sheet: u32,
    /// 1 filing, 2 reading, where the lamp is red; else 0.
    pub phase: u32,
    /// Red: "its filing or reading reply". Refused: 1 to 4. Green: 0.
    pub number: u32,
    /// The stores made by all filings together.
    pub stores: u32,
}

impl Light {
    /// The five numbers: light, sheet, phase, number, stores.
    pub fn numbers(self) -> [u32; 5] {
        [self.light, self.sheet, self.phase, self.number, self.stores]
    }

    /// The sheet at this place, from 0, is refused with one of the lamp's own numbers.
    fn refused(at: usize, number: u32) -> Light {
        Light {
            light: REFUSED,
            sheet: shown(at),
            phase: 0,
            number,
            stores: 0,
        }
    }

    /// The sheet at this place, from 0, failed.
    fn red(at: usize, phase: u32, number: u32, stores: u32) -> Light {
        Light {
            light: RED,
            sheet: shown(at),
            phase,
            number,
            stores,
        }
    }
}

/// A sheet's number, from 1; where it has no room in the answer, the highest number that has.
fn shown(at: usize) -> u32 {
    u32::try_from(at + 1).unwrap_or(u32::MAX)
}

/// A sheet as it is written in its record: its link, and how many bytes of the texts are its own.
struct Sheet<'a> {
    link: &'a [u8],
    length: usize,
}

impl<'a> Sheet<'a> {
    /// Nothing for a sheet that is malformed: "cut short, no legal link name, rest not zero".
    fn read(record: &'a [u8]) -> Option<Sheet<'a>> {
        if record.len() < SHEET_BYTES || record[REST..].iter().any(|byte| *byte != 0) {
            return None;
        }
        let name = &record[..NAME_BYTES];
        let last = name.iter().rposition(|byte| *byte != 0)?;
        let link = &name[..=last];
        let length = u16::from_le_bytes([record[NAME_BYTES], record[NAME_BYTES + 1]]).into();
        is_link_name(link).then_some(Sheet { link, length })
    }
}

/// 1, "sheet malformed". A last part of fewer bytes than a sheet has is one cut short.
fn well_formed(sheets: &[u8]) -> Result<Vec<Sheet<'_>>, Light> {
    let records = sheets.chunks(SHEET_BYTES).enumerate();
    let read = |(at, record)| Sheet::read(record).ok_or(Light::refused(at, 1));
    records.map(read).collect()
}

/// 2, "name twice": the later of the two is refused.
fn named_once(sheets: &[Sheet]) -> Result<(), Light> {
    let mut links = HashSet::new();
    match sheets.iter().position(|sheet| !links.insert(sheet.link)) {
        None => Ok(()),
        Some(at) => Err(Light::refused(at, 2)),
    }
}

/// A sheet and its text.
struct Paper<'a> {
    link: &'a [u8],
    text: &'a [u8],
}

/// 3, "texts shorter than the lengths' sum": the first sheet whose text is not wholly there is refused. "the texts follow
/// ..., in order".
fn with_texts<'a>(sheets: &[Sheet<'a>], texts: &'a [u8]) -> Result<Vec<Paper<'a>>, Light> {
    let mut rest = texts;
    let mut papers = Vec::new();
    for (at, Sheet { link, length }) in sheets.iter().enumerate() {
        let parted = rest.split_at_checked(*length);
        let (text, after) = parted.ok_or(Light::refused(at, 3))?;
        papers.push(Paper { link, text });
        rest = after;
    }
    Ok(papers)
}

/// The sheets with their texts, or a refusal of the lamp's own, "in this order and before any store": each is tried over
/// all sheets before the next. 4, "read-back buffer shorter than the longest text": the first text that is longer.
fn judged<'a>(sheets: &'a [u8], texts: &'a [u8], room: usize) -> Result<Vec<Paper<'a>>, Light> {
    let sheets = well_formed(sheets)?;
    named_once(&sheets)?;
    let papers = with_texts(&sheets, texts)?;
    match papers.iter().position(|paper| paper.text.len() > room) {
        None => Ok(papers),
        Some(at) => Err(Light::refused(at, 4)),
    }
}

/// What is the same for every request of a job: the table, the index beside it, the chain and the user.
struct Fixture<'a> {
    table: &'a mut [u8],
    index: &'a mut [u16],
    chain: &'a [u8],
    user: u32,
}

impl Fixture<'_> {
    /// A line: the words before, the chain as it is, a colon, the link.
    fn line(&self, before: &[u8], paper: &Paper) -> Vec<u8> {
        [before, self.chain, b":", paper.link].concat()
    }

    /// A filing or a reading: the request, with the index.
    fn request(&mut self, line: &[u8], text: &[u8], reply: &mut [u8], stop: u32) -> Answer {
        request(self.table, self.index, line, text, reply, self.user, stop)
    }

    /// "files every sheet in order, as `WRS M chain:link`, into one directory named by a chain, one stop number for the
    /// job, stops at the first that isn't answered 0". The stores made, or the red light.
    fn file(&mut self, papers: &[Paper], stop: u32) -> Result<u32, Light> {
        let mut stores = 0;
        for (at, paper) in papers.iter().enumerate() {
            let line = self.line(b"WRS M ", paper);
            let left = stop - stores;
            let answer = self.request(&line, paper.text, &mut [], left);
            stores += answer.stores;
            if answer.number != 0 {
                return Err(Light::red(at, FILING, answer.number, stores));
            }
        }
        Ok(stores)
    }

    /// "reads each back whole into a third lent buffer, up to the first that fails": that one, from 0, and its reply. It
    /// fails too where the text read back is not the text sent.
    fn read_back(&mut self, papers: &[Paper], back: &mut [u8]) -> Result<(), (usize, u32)> {
        for (at, paper) in papers.iter().enumerate() {
            let line = self.line(b"RDS ", paper);
            let answer = self.request(&line, b"", back, 0);
            let read = &back[..answer.bytes];
            if answer.number != 0 || read != paper.text {
                return Err((at, answer.number));
            }
        }
        Ok(())
    }
}

/// Do a job: the table and the index are changed, sheets, texts and chain are read, the read-back buffer is written; for a user, with one
/// stop number. "Green exactly when every sheet was filed and read back with reply 0 and each text read back equals the
/// text sent; otherwise red with the number, from 1, of the first sheet that failed and its filing or reading reply."
#[allow(clippy::too_many_arguments)]
pub fn light(
    table: &mut [u8],
    index: &mut [u16],
    sheets: &[u8],
    texts: &[u8],
    back: &mut [u8],
    chain: &[u8],
    user: u32,
    stop: u32,
) -> Light {
    let papers = match judged(sheets, texts, back.len()) {
        Ok(papers) => papers,
        Err(refused) => return refused,
    };
    let mut fixture = Fixture {
        table,
        index,
        chain,
        user,
    };
    let stores = match fixture.file(&papers, stop) {
        Ok(stores) => stores,
        Err(red) => return red,
    };
    match fixture.read_back(&papers, back) {
        Err((at, number)) => Light::red(at, READING, number, stores),
        Ok(()) => Light {
            light: GREEN,
            sheet: 0,
            phase: 0,
            number: 0,
            stores,
        },
    }
}
