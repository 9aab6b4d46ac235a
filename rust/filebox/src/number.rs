//! The reply numbers of documents 01 and 02.

use std::error::Error;
use std::fmt;

/// A reply number, shown in the documents' words.
///
/// ```
/// use filebox::Number;
///
/// assert_eq!(Number::CodeLacksBit.code(), 21);
/// assert_eq!(Number::try_from(2), Ok(Number::TableNotSound));
/// assert_eq!(Number::TableNotSound.to_string(), "table not sound");
/// assert!(Number::try_from(29).is_err());
/// ```
#[derive(Debug, Clone, Copy, PartialEq, Eq, PartialOrd, Ord, Hash)]
#[repr(u32)]
pub enum Number {
    /// Done.
    Done = 0,
    /// Table length no multiple of 32, or above 65,536.
    TableLength = 1,
    /// Table not sound.
    TableNotSound = 2,
    /// User above 999,999.
    UserAbove = 3,
    /// Line too long, or a byte outside 32..95.
    LineUnfit = 4,
    /// No such function, empty line.
    NoSuchFunction = 5,
    /// Wrong count of arguments.
    WrongCount = 6,
    /// Malformed name or chain.
    MalformedName = 7,
    /// Illegal base name (also CHN's link for a base file, a user's number out of place).
    IllegalBaseName = 8,
    /// Declaration malformed or unfit.
    DeclarationUnfit = 9,
    /// WRS text above 24,000 bytes.
    TextAbove = 10,
    /// Name not there.
    NameNotThere = 11,
    /// Name before the last is no directory.
    NoDirectoryBefore = 12,
    /// Read inhibited.
    ReadInhibited = 13,
    /// Write inhibited.
    WriteInhibited = 14,
    /// RDS, CPY, WRS*: not simple; LST: no directory.
    WrongType = 15,
    /// CHN: new name borne by an entry there, itself included; give: link taken.
    NameBorne = 16,
    /// Directory or base list full, nothing displaced.
    ListFull = 17,
    /// File losing its last entry is a directory with entries.
    DirectoryWithEntries = 18,
    /// Fewer free records than the request needs.
    FewerFreeRecords = 19,
    /// Reply buffer too short.
    ReplyTooShort = 20,
    /// DPR: new code lacks a bit of the heading's.
    CodeLacksBit = 21,
    /// Stop number reached; the stores made stand.
    Stopped = 22,
    /// RDS, CPY: marked, since a rewrite of it was cut.
    Marked = 23,
    /// WRS*: lifetime L.
    LifetimeLong = 24,
    /// CPY: level too low, below the source's.
    LevelTooLow = 25,
    /// Index not true: length or content; mending: length.
    Index = 26,
    /// RDS: bad number: not one to six octal digits, or a count of 0.
    BadNumber = 27,
    /// RDS: first beyond the end.
    FirstBeyondEnd = 28,
}

impl Number {
    /// All numbers, in order: 0 to 28.
    pub const ALL: [Number; 29] = [
        Number::Done,
        Number::TableLength,
        Number::TableNotSound,
        Number::UserAbove,
        Number::LineUnfit,
        Number::NoSuchFunction,
        Number::WrongCount,
        Number::MalformedName,
        Number::IllegalBaseName,
        Number::DeclarationUnfit,
        Number::TextAbove,
        Number::NameNotThere,
        Number::NoDirectoryBefore,
        Number::ReadInhibited,
        Number::WriteInhibited,
        Number::WrongType,
        Number::NameBorne,
        Number::ListFull,
        Number::DirectoryWithEntries,
        Number::FewerFreeRecords,
        Number::ReplyTooShort,
        Number::CodeLacksBit,
        Number::Stopped,
        Number::Marked,
        Number::LifetimeLong,
        Number::LevelTooLow,
        Number::Index,
        Number::BadNumber,
        Number::FirstBeyondEnd,
    ];

    /// The number itself.
    pub fn code(self) -> u32 {
        self as u32
    }

    /// What document 01's list says of it, and of 8, 15, 16 and from 23 on document 02.
    fn given_when(self) -> &'static str {
        match self {
            Number::Done => "done",
            Number::TableLength => "table length no multiple of 32, or above 65,536",
            Number::TableNotSound => "table not sound",
            Number::UserAbove => "user above 999,999",
            Number::LineUnfit => "line too long, or a byte outside 32..95",
            Number::NoSuchFunction => "no such function, empty line",
            Number::WrongCount => "wrong count of arguments",
            Number::MalformedName => "malformed name or chain",
            Number::IllegalBaseName => {
                "illegal base name (also CHN's link for a base file, a user's number out of place)"
            }
            Number::DeclarationUnfit => "declaration malformed or unfit",
            Number::TextAbove => "WRS text above 24,000 bytes",
            Number::NameNotThere => "name not there",
            Number::NoDirectoryBefore => "name before the last is no directory",
            Number::ReadInhibited => "read inhibited",
            Number::WriteInhibited => "write inhibited",
            Number::WrongType => "RDS, CPY, WRS*: not simple; LST: no directory",
            Number::NameBorne => {
                "CHN: new name borne by an entry there, itself included; give: link taken"
            }
            Number::ListFull => "directory or base list full, nothing displaced",
            Number::DirectoryWithEntries => {
                "file losing its last entry is a directory with entries"
            }
            Number::FewerFreeRecords => "fewer free records than the request needs",
            Number::ReplyTooShort => "reply buffer too short",
            Number::CodeLacksBit => "DPR: new code lacks a bit of the heading's",
            Number::Stopped => "stop number reached; the stores made stand",
            Number::Marked => "RDS, CPY: marked, since a rewrite of it was cut",
            Number::LifetimeLong => "WRS*: lifetime L",
            Number::LevelTooLow => "CPY: level too low, below the source's",
            Number::Index => "index not true: length or content; mending: length",
            Number::BadNumber => "RDS: bad number: not one to six octal digits, or a count of 0",
            Number::FirstBeyondEnd => "RDS: first beyond the end",
        }
    }
}

impl fmt::Display for Number {
    fn fmt(&self, f: &mut fmt::Formatter) -> fmt::Result {
        f.write_str(self.given_when())
    }
}

/// No reply number: the documents have 0 to 28.
#[derive(Debug, Clone, Copy, PartialEq, Eq)]
pub struct NoSuchNumber(pub u32);

impl fmt::Display for NoSuchNumber {
    fn fmt(&self, f: &mut fmt::Formatter) -> fmt::Result {
        write!(f, "{} is no reply number", self.0)
    }
}

impl Error for NoSuchNumber {}

impl TryFrom<u32> for Number {
    type Error = NoSuchNumber;

    fn try_from(code: u32) -> Result<Number, NoSuchNumber> {
        let mut numbers = Number::ALL.into_iter();
        let number = numbers.find(|number| number.code() == code);
        number.ok_or(NoSuchNumber(code))
    }
}

#[cfg(test)]
mod tests {
    use super::*;

    #[test]
    fn each_number_is_found_by_its_code() {
        assert_eq!(Number::ALL.map(Number::code)[..], Vec::from_iter(0..29));
        for number in Number::ALL {
            assert_eq!(Number::try_from(number.code()), Ok(number));
        }
    }

    #[test]
    fn no_other_number_is_one() {
        for code in [29, 255, 256, u32::MAX] {
            assert_eq!(Number::try_from(code), Err(NoSuchNumber(code)));
        }
    }

    #[test]
    fn no_two_numbers_are_shown_alike() {
        let mut shown: Vec<String> = Number::ALL.iter().map(Number::to_string).collect();
        shown.sort();
        shown.dedup();
        assert_eq!(shown.len(), Number::ALL.len());
    }
}
