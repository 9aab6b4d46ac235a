//! The answer of a call, and the refusal that it may be.

use std::error::Error;
use std::fmt;

use crate::number::Number;

/// "An answer has: number; place (argument from 1 ...); names done; displaced or not; bytes written; stores made." "The
/// place becomes argument and link".
#[derive(Debug, Clone, Copy, PartialEq, Eq, Hash)]
pub struct Answer {
    /// The reply number.
    pub number: Number,
    /// The argument that was refused, from 1; 0 where no argument was.
    pub place: u32,
    /// The link of that argument's chain that was refused, from 1, the supplied `.W` counted: for 7 and 8 the first wrong name, on
    /// the way the link refused, at its end the last one. 0 where no link is: for a lone dash, a chain that is only too long,
    /// a declaration, CHN's link, RDS's numbers, LST*'s digit, and where no argument was refused.
    pub link: u32,
    /// The names all of whose stores were made; 1 for a granted RDS, LST or LST*.
    pub names: u32,
    /// Was an entry that already bore the new name overwritten?
    pub displaced: bool,
    /// The bytes written to the front of the reply buffer: up to all of it, by an LST* of a loop.
    pub bytes: usize,
    /// The stores made.
    pub stores: u32,
}

/// The answer as the library hands it over.
#[repr(C)]
#[derive(Clone, Copy)]
pub(crate) struct SevenNumbers {
    number: u32,
    place: u32,
    link: u32,
    names: u32,
    displaced: u32,
    bytes: usize,
    stores: u32,
}

impl From<SevenNumbers> for Answer {
    /// The proved library answers with one of the numbers of `Number`, and displaced is 0 or 1. Another library would panic here.
    fn from(seven: SevenNumbers) -> Answer {
        let displaced = match seven.displaced {
            0 => false,
            1 => true,
            other => panic!("displaced is 0 or 1, not {other}"),
        };
        Answer {
            number: Number::try_from(seven.number)
                .expect("the library answers with a number of the documents"),
            place: seven.place,
            link: seven.link,
            names: seven.names,
            displaced,
            bytes: seven.bytes,
            stores: seven.stores,
        }
    }
}

impl Answer {
    /// The answer, if its number is 0; else the refusal.
    pub fn granted(self) -> Result<Answer, Refused> {
        match self.number {
            Number::Done => Ok(self),
            _ => Err(Refused(self)),
        }
    }

    /// The seven numbers: number, place, link, names, displaced as 0 or 1, bytes, stores.
    pub fn numbers(self) -> [u64; 7] {
        [
            self.number.code().into(),
            self.place.into(),
            self.link.into(),
            self.names.into(),
            self.displaced.into(),
            self.bytes as u64,
            self.stores.into(),
        ]
    }
}

/// An answer whose number is not 0.
#[derive(Debug, Clone, Copy, PartialEq, Eq, Hash)]
pub struct Refused(Answer);

impl Refused {
    /// A refusal without asking the box: nothing is done, and no link is said.
    pub(crate) fn unasked(number: Number, place: u32) -> Refused {
        Refused(Answer {
            number,
            place,
            link: 0,
            names: 0,
            displaced: false,
            bytes: 0,
            stores: 0,
        })
    }

    /// The answer; of a DEL or a DST that was refused midway, and of a call that was stopped, it says what was done.
    pub fn answer(self) -> Answer {
        self.0
    }
}

impl fmt::Display for Refused {
    fn fmt(&self, f: &mut fmt::Formatter) -> fmt::Result {
        let Answer {
            number,
            place,
            link,
            ..
        } = self.0;
        write!(f, "{}: {number}", number.code())?;
        match (place, link) {
            (0, _) => Ok(()),
            (_, 0) => write!(f, " (argument {place})"),
            _ => write!(f, " (argument {place}, link {link})"),
        }
    }
}

impl Error for Refused {}
