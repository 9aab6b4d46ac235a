//! The file box once more: document 01 in plain Rust, with the requests of document 02, to stand beside the proved box
//! and be compared with it.
//!
//! Written from the documents alone, for clarity and not for speed. A request is first worked out on a copy of
//! the table (`effects`), as a list of stores and an answer; then the first k stores are made (`answer`).
//! Every public function is total: it answers for every table, index, line, text, user and stop number. How names lie in a table is a
//! [`Layout`]; a call that has none of its own is of six-bit names.

mod answer;
mod declarations;
mod effects;
mod entries;
mod index;
mod lamp;
mod layout;
mod line;
mod listing;
mod mend;
mod names;
mod octal;
mod program;
mod records;
mod request;
mod sound;
mod sweep;
mod table;
mod walk;

pub use answer::{mend, mend_in, request, request_in, sweep, sweep_in, Answer, COUNTS, NUMBERS};
pub use declarations::{Declared, DeclaredLifetime, Guard};
pub use index::{look_up, true_index, true_index_in, Found};
pub use lamp::{light, Light};
pub use layout::{converted, from_six, to_six, Layout};
pub use line::{words, Word};
pub use names::{is_base_name, is_link_name, user_number, Chain};
pub use octal::Portion;
pub use program::{run, takes_text};
pub use records::{Level, Lifetime, Type};
pub use request::{read, Listed, Place, Refusal, Request};
pub use sound::{sound, sound_in};
