//! The second program's calls, each with the index that the table has.

use beside::{true_index, Answer};

/// A request on this table.
pub fn request(
    table: &mut [u8],
    line: &[u8],
    text: &[u8],
    reply: &mut [u8],
    user: u32,
    stop: u32,
) -> Answer {
    let mut index = true_index(table);
    beside::request(table, &mut index, line, text, reply, user, stop)
}

/// Mending this table.
pub fn mend(table: &mut [u8], stop: u32) -> Answer {
    let mut index = true_index(table);
    beside::mend(table, &mut index, stop)
}
