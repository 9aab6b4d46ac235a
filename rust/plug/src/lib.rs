//! The plug pulled for real. A host keeps its table in a file and makes every request store by store, each store one write
//! to the file; its fixture kills it at random moments and looks at what the file holds.
//!
//! What is cut is the host, by SIGKILL: the file keeps every write that was made. A store is one write of one record,
//! which is what document 01 asks of the machine below.

//!
//! The second half drives the host of `rust/host` itself: its writing over a disk that keeps writes back and lets any of them
//! land ([`reorder`](reorder::reorder), [`sweeps`](sweeps::sweeps)), and the program under fourteen clients, whole or killed ([`crowd`]).

pub mod crowd;
pub mod fixture;
pub mod host;
mod journal;
mod kept;
pub mod machine;
pub mod reorder;
mod second;
mod seen;
mod sent;
pub mod sweeps;
mod wire;

pub use fixture::{pull, Counts};
pub use sent::About;
