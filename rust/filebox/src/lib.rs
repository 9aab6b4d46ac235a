//! The file box for a fixture's programmer: document 01's requests and mending and document 02's lamp and gives, from
//! the proved static library.
//!
//! [`request`], [`mend`], [`sweep`], [`light`] and [`look_up`] are five of the library's calls as they are: slices and numbers in, an [`Answer`], a
//! [`Light`] or a [`Found`] out; [`disk::phase`] is the sixth, for a host that keeps a table in a file, and [`to_six`] and [`from_six`] are for tables
//! from before names had six bits a character. [`Table`] holds the bytes of a table, owned or lent, with its index, and has a method for each thing that
//! a fixture asks. Every call ends and answers, for every table, index, line, text, user and stop number. A box keeps nothing between calls but
//! the table's bytes and the index, which can be built from them.
//!
//! The build script links `libfilebox_c.a` from the folder that FILEBOX_LIB names (a full path), or from the repository's
//! own `target/staticlib`.
//!
//! File a sheet and read it back:
//!
//! ```
//! use filebox::{Refused, Table};
//!
//! fn main() -> Result<(), Refused> {
//!     let mut table = Table::free(16);
//!     table.ask(1, "CRD .R")?;
//!     table.file(1, "M.P", ".R:LIMITS", b"5.0 V")?;
//!     assert_eq!(table.sheet(1, ".R:LIMITS")?, b"5.0 V");
//!     assert_eq!(table.list(1, ".R")?, b"FM.P0    LIMITS\r\n");
//!     Ok(())
//! }
//! ```
//!
//! The lamp: file the sheets of a job and read each back. Green, or which sheet failed and why:
//!
//! ```
//! use filebox::{Sheet, Table};
//!
//! let mut table = Table::free(16);
//! let job = [
//!     Sheet { name: "LIMITS", text: b"5.0 V" },
//!     Sheet { name: "BOARD7", text: b"4.9 V" },
//! ];
//! let red = table.light(1, ".R", &job).unwrap_err();
//! assert_eq!(red.to_string(), "red: sheet 1 was not filed: 11 name not there");
//! table.ask(1, "CRD .R").unwrap();
//! table.light(1, ".R", &job).expect("green");
//! ```
//!
//! Give and take: `.000777` is user 777, in whose `.G` a new name of DUP enters a file, and at whose `.T` an old name begins.
//! The digit 1 hands it over without the pen:
//!
//! ```
//! use filebox::{Number, Refused, Table};
//!
//! fn main() -> Result<(), Refused> {
//!     let (day, night) = (1, 777);
//!     let mut table = Table::free(16);
//!     table.ask(day, "CRD .R")?;
//!     table.file(day, "M", ".R:SHEET", b"5.0 V")?;
//!     table.ask(night, "CRD .G")?;
//!     table.ask(day, "DUP .R:SHEET .000777:SHEET .1")?;
//!     assert_eq!(table.sheet(night, ".G:SHEET")?, b"5.0 V");
//!     let pen = table.ask(night, "DPR .G:SHEET .7").unwrap_err();
//!     assert_eq!(pen.to_string(), "14: write inhibited (argument 1, link 2)");
//!     let again = table.ask(day, "DUP .R:SHEET .000777:SHEET .1").unwrap_err();
//!     assert_eq!(again.answer().number, Number::NameBorne);
//!
//!     table.ask(night, "CRD .T")?;
//!     table.file(night, "M", ".T:KEYS", b"9 9 9")?;
//!     assert_eq!(table.list(day, ".000777")?, b"FM.U0    KEYS\r\n");
//!     assert_eq!(table.sheet(day, ".000777:KEYS")?, b"9 9 9");
//!     Ok(())
//! }
//! ```
//!
//! A tree: a directory and, two blanks further in at each level, the directories in it, to a depth of 1 to 8. See [`Table::tree`].
//!
//! Rewrite a sheet, and every link to it sees the new text. See [`Table::rewrite`].
//!
//! Destroy a sheet, and every path to it goes. See [`Table::destroy`].
//!
//! Sweep what no base file reaches any longer, and its records come back. See [`Table::sweep`].
//!
//! Look a name up by the sorted index, in at most 12 comparisons. See [`Table::look_up`].
//!
//! A table from before names had six bits a character is not sound; convert it once. See [`Table::to_six`].
//!
//! A refusal says the number and why, the argument, and which link of its chain, the supplied `.W` counted; it leaves the table
//! as it was:
//!
//! ```
//! use filebox::{Number, Table};
//!
//! let mut table = Table::free(16);
//! table.ask(1, "CRD .W").unwrap();
//! table.ask(1, "CRD LINE1").unwrap();
//! table.ask(1, "CRD LINE1:BOARD7").unwrap();
//! let before = table.clone();
//! let refused = table.sheet(1, "LINE1:BOARD7:LIMITS").unwrap_err();
//! assert_eq!(refused.answer().number, Number::NameNotThere);
//! assert_eq!(refused.to_string(), "11: name not there (argument 1, link 4)");
//! let refused = table.ask(1, "CRD LINE2 M").unwrap_err();
//! assert_eq!(refused.to_string(), "9: declaration malformed or unfit (argument 2)");
//! assert_eq!(table, before);
//! ```
//!
//! The power fails after one store, and mending makes it as if nothing had been asked:
//!
//! ```
//! use filebox::{Number, Table};
//!
//! let mut table = Table::free(16);
//! let before = table.clone();
//! let answer = table.stopped(1, "CRD .R", b"", &mut [], 1);
//! assert_eq!((answer.number, answer.stores), (Number::Stopped, 1));
//! assert_ne!(table, before);
//! let mended = table.mend().unwrap();
//! assert_eq!(mended.stores, 1);
//! assert_eq!(table, before);
//! ```
#![deny(unsafe_code)]

mod answer;
pub mod disk;
mod index;
mod lamp;
mod library;
mod number;
mod table;

pub use answer::{Answer, Refused};
pub use index::{index_of, Found, Holder, BASE, PADDING};
pub use lamp::{Light, NoRecord, NotGreen, Phase, Red, Sheet, Unfit};
pub use library::{from_six, light, look_up, mend, request, sweep, to_six};
pub use number::{NoSuchNumber, Number};
pub use table::{Table, LONGEST_TEXT, MOST_RECORDS, NO_STOP, RECORD_BYTES};
