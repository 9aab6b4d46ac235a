//! The box on a disk: a table kept in a file, for one line of requests or for many fixtures at once.
//!
//! A real disk keeps writes back and lets them land in any order until it is flushed. So what a request changes is written
//! in three phases with a flush after each ([`phases`]): the new records, the entry, the records that are freed; of a rewrite the
//! heading marked, all text, the heading unmarked. A power cut anywhere, whatever of the unflushed writes has landed, is mended to
//! the table before the request or the one after it, of a rewrite perhaps to the latter with that one file marked and empty. A sweep is written
//! entries and headings first, then text; cut, mended and swept again it ends as uncut.
//! [`Kept`] answers a request when its phases are flushed.
//!
//! The program is `filebox-host`; [`run`] is all of it.

mod command;
mod convert;
pub mod desk;
pub mod disk;
pub mod fixtures;
mod kept;
pub mod line;
mod open;
pub mod phases;
pub mod serve;
mod serving;
mod show;
mod steps;
mod tools;

pub use command::{run, HELP};
pub use disk::{Disk, TableFile};
pub use kept::{Kept, Wrong};
pub use steps::{Job, Lit, Request, Step};
