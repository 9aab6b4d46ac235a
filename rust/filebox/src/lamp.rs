//! The lamp: a job of sheets filed and read back, the light it ends with, and why it is not green, in words.

use std::error::Error;
use std::fmt;

use crate::library::light;
use crate::number::Number;
use crate::table::{Table, NO_STOP};

/// "A job sheet is records of 32 bytes".
const SHEET_BYTES: usize = 32;
/// The bytes of a link name in it, and where the text's length stands.
const NAME_BYTES: usize = 10;

const GREEN: u32 = 0;
const RED: u32 = 1;
const REFUSED: u32 = 2;

/// The answer of the lamp as the library hands it over; [`Light::green`] says it in words.
#[repr(C)]
#[derive(Debug, Clone, Copy, PartialEq, Eq, Hash)]
#[must_use]
pub struct Light {
    /// 0 green, 1 red, 2 refused.
    pub light: u32,
    /// The sheet that failed or is refused, from 1; 0 where the lamp is green.
    pub sheet: u32,
    /// Where the lamp is red, 1 for filing and 2 for reading; else 0.
    pub phase: u32,
    /// Red: the reply number. Refused: one of the lamp's own four. Green: 0.
    pub number: u32,
    /// The stores made.
    pub stores: u32,
}

impl Light {
    /// The light, if it is green; else why it is not.
    pub fn green(self) -> Result<Light, NotGreen> {
        match self.light {
            GREEN => Ok(self),
            RED => Err(NotGreen::Red(Red::from(self))),
            REFUSED => Err(NotGreen::Refused {
                sheet: self.sheet,
                why: Unfit::from(self.number),
            }),
            other => panic!("a light is 0, 1 or 2, not {other}"),
        }
    }

    /// The five numbers: light, sheet, phase, number, stores.
    pub fn numbers(self) -> [u32; 5] {
        [self.light, self.sheet, self.phase, self.number, self.stores]
    }
}

/// What the fixture was doing with the sheet that failed.
#[derive(Debug, Clone, Copy, PartialEq, Eq, Hash)]
pub enum Phase {
    /// Filing: `WRS M chain:link`.
    Filing,
    /// Reading back: `RDS chain:link`.
    Reading,
}

/// The sheet that failed, and its reply.
///
/// ```
/// use filebox::{Sheet, Table};
///
/// let mut table = Table::free(16);
/// let sheet = Sheet { name: "LIMITS", text: b"5.0 V" };
/// let red = table.light(1, ".R", &[sheet]).unwrap_err();
/// assert_eq!(red.to_string(), "red: sheet 1 was not filed: 11 name not there");
/// ```
#[derive(Debug, Clone, Copy, PartialEq, Eq, Hash)]
pub struct Red {
    /// The sheet, from 1. Not filed: those before it are filed, and no other. Not read back: all are filed.
    pub sheet: u32,
    /// Was it not filed, or not read back?
    pub phase: Phase,
    /// The reply; 0 where it was read back and is not what was sent, which does not occur.
    pub number: Number,
    /// The stores made, which stand.
    pub stores: u32,
}

impl From<Light> for Red {
    /// The proved library answers with one of the numbers of `Number` and a phase of 1 or 2. Another library would panic here.
    fn from(light: Light) -> Red {
        let phase = match light.phase {
            1 => Phase::Filing,
            2 => Phase::Reading,
            other => panic!("a red light's phase is 1 or 2, not {other}"),
        };
        Red {
            sheet: light.sheet,
            phase,
            number: Number::try_from(light.number)
                .expect("the library answers with a number of the documents"),
            stores: light.stores,
        }
    }
}

impl fmt::Display for Red {
    fn fmt(&self, f: &mut fmt::Formatter) -> fmt::Result {
        let Red { sheet, number, .. } = self;
        let code = number.code();
        match (self.phase, number) {
            (Phase::Filing, _) => write!(f, "red: sheet {sheet} was not filed: {code} {number}"),
            (Phase::Reading, Number::Done) => {
                write!(f, "red: sheet {sheet} was read back as another text")
            }
            (Phase::Reading, _) => {
                write!(f, "red: sheet {sheet} was not read back: {code} {number}")
            }
        }
    }
}

/// The lamp's own refusals, in their order.
#[derive(Debug, Clone, Copy, PartialEq, Eq, Hash)]
#[repr(u32)]
pub enum Unfit {
    /// Sheet malformed (cut short, no legal link name, rest not zero).
    Malformed = 1,
    /// Name twice: the sheet is the later of the two.
    NameTwice = 2,
    /// Texts shorter than the lengths' sum: the sheet is the first whose text is not wholly there.
    TextsShort = 3,
    /// Read-back buffer shorter than the longest text: the sheet is the first whose text is longer.
    BufferShort = 4,
}

impl From<u32> for Unfit {
    /// The proved library refuses with 1 to 4. Another library would panic here.
    fn from(number: u32) -> Unfit {
        match number {
            1 => Unfit::Malformed,
            2 => Unfit::NameTwice,
            3 => Unfit::TextsShort,
            4 => Unfit::BufferShort,
            other => panic!("the lamp refuses with 1 to 4, not {other}"),
        }
    }
}

impl fmt::Display for Unfit {
    fn fmt(&self, f: &mut fmt::Formatter) -> fmt::Result {
        f.write_str(match self {
            Unfit::Malformed => "sheet malformed (cut short, no legal link name, rest not zero)",
            Unfit::NameTwice => "name twice",
            Unfit::TextsShort => "texts shorter than the lengths' sum",
            Unfit::BufferShort => "read-back buffer shorter than the longest text",
        })
    }
}

/// Why a sheet cannot be written into the job sheet. The lamp is not asked then: a name or a text is never cut to fit.
#[derive(Debug, Clone, Copy, PartialEq, Eq, Hash)]
pub enum NoRecord {
    /// A name of so many bytes; a record holds ten.
    LongName(usize),
    /// A name with a zero byte, which would be taken for its end.
    ZeroInName,
    /// A text of so many bytes; the length has two bytes, so 65,535 at most. (The box files 24,000.)
    LongText(usize),
}

impl fmt::Display for NoRecord {
    fn fmt(&self, f: &mut fmt::Formatter) -> fmt::Result {
        match self {
            NoRecord::LongName(bytes) => write!(f, "a name of {bytes} bytes, above 10"),
            NoRecord::ZeroInName => f.write_str("a zero byte in the name"),
            NoRecord::LongText(bytes) => write!(f, "a text of {bytes} bytes, above 65,535"),
        }
    }
}

/// Why the lamp is not green.
#[derive(Debug, Clone, Copy, PartialEq, Eq, Hash)]
pub enum NotGreen {
    /// A sheet failed. What was filed stays; if it was stopped (22), mend the table.
    Red(Red),
    /// The job is refused, and nothing was stored.
    Refused {
        /// The first sheet of which it is true, from 1.
        sheet: u32,
        /// What is wrong with it.
        why: Unfit,
    },
    /// The lamp was not asked.
    Unasked {
        /// The first sheet that cannot be written, from 1.
        sheet: usize,
        /// Why it cannot.
        why: NoRecord,
    },
}

impl fmt::Display for NotGreen {
    fn fmt(&self, f: &mut fmt::Formatter) -> fmt::Result {
        match self {
            NotGreen::Red(red) => red.fmt(f),
            NotGreen::Refused { sheet, why } => write!(f, "refused: sheet {sheet}: {why}"),
            NotGreen::Unasked { sheet, why } => write!(f, "not asked: sheet {sheet}: {why}"),
        }
    }
}

impl Error for NotGreen {}

/// A sheet of a job: the link under which it is to be filed, and its text.
#[derive(Debug, Clone, Copy, PartialEq, Eq, Hash)]
pub struct Sheet<'a> {
    /// The link name: one to ten characters.
    pub name: &'a str,
    /// The text.
    pub text: &'a [u8],
}

impl Sheet<'_> {
    /// The record of this sheet.
    fn record(&self) -> Result<[u8; SHEET_BYTES], NoRecord> {
        let (name, bytes) = (self.name.as_bytes(), self.text.len());
        let length = u16::try_from(bytes).map_err(|_| NoRecord::LongText(bytes));
        if name.len() > NAME_BYTES {
            return Err(NoRecord::LongName(name.len()));
        }
        if name.contains(&0) {
            return Err(NoRecord::ZeroInName);
        }
        let mut record = [0; SHEET_BYTES];
        record[..name.len()].copy_from_slice(name);
        record[NAME_BYTES..][..2].copy_from_slice(&length?.to_le_bytes());
        Ok(record)
    }
}

/// The records of these sheets, and their texts, in order.
fn job(sheets: &[Sheet]) -> Result<(Vec<u8>, Vec<u8>), NotGreen> {
    let mut records = Vec::new();
    for (sheet, number) in sheets.iter().zip(1..) {
        let unasked = |why| NotGreen::Unasked { sheet: number, why };
        records.extend(sheet.record().map_err(unasked)?);
    }
    let texts: Vec<&[u8]> = sheets.iter().map(|sheet| sheet.text).collect();
    Ok((records, texts.concat()))
}

impl<B: AsMut<[u8]>> Table<B> {
    /// The lamp: file these sheets in order in the directory that the chain names, and read each back. Green says that every
    /// sheet is filed and was read back as it was sent; else it is said which sheet failed, and why.
    ///
    /// ```
    /// use filebox::{Sheet, Table};
    ///
    /// let mut table = Table::free(16);
    /// table.ask(1, "CRD .R").unwrap();
    /// let limits = Sheet { name: "LIMITS", text: b"5.0 V" };
    /// let board = Sheet { name: "BOARD7", text: b"4.9 V" };
    /// let green = table.light(1, ".R", &[limits, board]).unwrap();
    /// assert_eq!(green.stores, 10);
    /// assert_eq!(table.sheet(1, ".R:BOARD7").unwrap(), b"4.9 V");
    ///
    /// let twice = table.light(1, ".R", &[limits, board, limits]).unwrap_err();
    /// assert_eq!(twice.to_string(), "refused: sheet 3: name twice");
    /// let red = table.light(1, ".R:LIMITS", &[board]).unwrap_err();
    /// assert_eq!(red.to_string(), "red: sheet 1 was not filed: 12 name before the last is no directory");
    /// ```
    pub fn light(&mut self, user: u32, chain: &str, sheets: &[Sheet]) -> Result<Light, NotGreen> {
        let (records, texts) = job(sheets)?;
        let longest = sheets.iter().map(|sheet| sheet.text.len()).max();
        let mut back = vec![0; longest.unwrap_or(0)];
        let chain = chain.as_bytes();
        let (bytes, index) = self.lent();
        light(
            bytes, index, &records, &texts, &mut back, chain, user, NO_STOP,
        )
        .green()
    }
}
